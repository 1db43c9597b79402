/* Judges a capture: `check FILE`, as `jdwp check FILE` does. */
#include "milunovesk.h"

#include <assert.h>
#include <fcntl.h>
#include <stdio.h>
#include <sys/mman.h>
#include <sys/stat.h>

int main(int count, char **words) {
    assert(count == 2);
    int file = open(words[1], O_RDONLY);
    struct stat about;
    assert(file >= 0 && fstat(file, &about) == 0);
    size_t length = (size_t)about.st_size;
    const uint8_t *text = mmap(NULL, length, PROT_READ, MAP_PRIVATE, file, 0);
    assert(text != MAP_FAILED);
    mv_judged judged = {0};
    assert(mv_check(text, length, &judged) == MV_DONE);
    if (judged.yes)
        puts("yes");
    else
        printf("no %u line %zu\n", judged.fault, judged.line);
    return 0;
}
