/* The C library's heap, preloaded, with requests for memory that are refused.
 *
 *     cc -O2 -shared -fPIC -o refuse_memory.so refuse_memory.c
 *     REFUSE_AT=7 LD_PRELOAD=./refuse_memory.so PROGRAM
 *
 * Each call of malloc, calloc, realloc, reallocarray, posix_memalign, aligned_alloc and memalign in the process is a request, counted from 1. The one of the number REFUSE_AT is refused,
 * and with REFUSE_FROM that one and all behind it. Where a request is refused, a byte is written to the file REFUSE_TOLD, which is there, so that the caller knows that there was one.
 */

#define _GNU_SOURCE
#include <errno.h>
#include <fcntl.h>
#include <stddef.h>
#include <stdlib.h>
#include <unistd.h>

extern void *__libc_malloc(size_t);
extern void *__libc_calloc(size_t, size_t);
extern void *__libc_realloc(void *, size_t);
extern void *__libc_memalign(size_t, size_t);

static unsigned long requests;

/* The number that a variable of the environment holds, and 0 where there is none. It takes no memory. */
static unsigned long number_of(const char *name) {
    const char *text = getenv(name);
    unsigned long number = 0;
    for (; text && *text >= '0' && *text <= '9'; text++)
        number = number * 10 + (unsigned long)(*text - '0');
    return number;
}

static void tell(void) {
    const char *path = getenv("REFUSE_TOLD");
    int file = path ? open(path, O_WRONLY | O_APPEND | O_CLOEXEC) : -1;
    if (file < 0)
        return;
    if (write(file, "x", 1) < 0) {
    }
    close(file);
}

/* Whether the request that is made now is refused. */
static int is_refused(void) {
    unsigned long at = number_of("REFUSE_AT");
    unsigned long from = number_of("REFUSE_FROM");
    unsigned long request = __atomic_add_fetch(&requests, 1, __ATOMIC_SEQ_CST);
    if (request != at && (from == 0 || request < from))
        return 0;
    tell();
    errno = ENOMEM;
    return 1;
}

void *malloc(size_t size) {
    return is_refused() ? NULL : __libc_malloc(size);
}

void *calloc(size_t count, size_t size) {
    return is_refused() ? NULL : __libc_calloc(count, size);
}

/* What is freed so is no request. */
void *realloc(void *block, size_t size) {
    return size && is_refused() ? NULL : __libc_realloc(block, size);
}

void *reallocarray(void *block, size_t count, size_t size) {
    size_t whole;
    if (__builtin_mul_overflow(count, size, &whole)) {
        errno = ENOMEM;
        return NULL;
    }
    return realloc(block, whole);
}

void *memalign(size_t alignment, size_t size) {
    return is_refused() ? NULL : __libc_memalign(alignment, size);
}

void *aligned_alloc(size_t alignment, size_t size) {
    return memalign(alignment, size);
}

int posix_memalign(void **block, size_t alignment, size_t size) {
    void *found;
    if (alignment < sizeof(void *) || (alignment & (alignment - 1)))
        return EINVAL;
    found = memalign(alignment, size);
    if (!found)
        return ENOMEM;
    *block = found;
    return 0;
}
