/* A session in which one allocation is refused, for each of them in turn: the call that wanted it answers MV_NO_MEMORY and has changed nothing,
 * so made again it does what it says, and the session goes on as ever. Linked with -Wl,--wrap=malloc,--wrap=realloc. */
#include "ends.h"

static long left = -1; /* so many allocations until one is refused; -1: none is */
static int refused;    /* how many calls answered MV_NO_MEMORY */

void *__real_malloc(size_t size);
void *__real_realloc(void *at, size_t size);

void *__wrap_malloc(size_t size) {
    return left >= 0 && left-- == 0 ? NULL : __real_malloc(size);
}

void *__wrap_realloc(void *at, size_t size) {
    return left >= 0 && left-- == 0 ? NULL : __real_realloc(at, size);
}

#define DO(call)                                                  \
    do {                                                          \
        uint32_t answer_;                                         \
        while ((answer_ = (call)) == MV_NO_MEMORY) refused++;     \
        assert(answer_ == MV_DONE);                               \
    } while (0)

static mv_heard read_next(mv_handle *d, mv_handle *t) {
    mv_heard heard = {0};
    mv_handled handled = {0};
    for (int round = 0; round < 100; round++) {
        DO(mv_debugger_turn(d, &heard));
        if (heard.kind != MV_HEARD_NOTHING) break;
        carry(d, t);
        DO(mv_target_turn(t, &handled));
        carry(d, t);
    }
    return heard;
}

static void expect(mv_handle *d, const uint8_t *bytes, size_t length) {
    uint8_t out[128];
    size_t needed = 0;
    DO(mv_debugger_data(d, 0, out, sizeof out, &needed));
    assert(needed == length && memcmp(out, bytes, length) == 0);
    DO(mv_debugger_lines(d, out, sizeof out, &needed));
    assert(needed > 0 && out[needed - 1] == '\n');
}

static void run(const uint8_t *json, size_t json_length, const uint8_t *capture, size_t capture_length) {
    mv_handle d = {0}, t = {0};
    mv_judged judged = {0};
    uint8_t out[1024], stepped = 0;
    uint64_t ticket = 0, tickets[MV_MOST_TICKETS] = {0};
    uint16_t reason = 0;
    size_t needed = 0;
    bool opened = false;
    mv_heard heard = {0};
    DO(mv_check(capture, capture_length, &judged));
    assert(judged.yes);
    DO(mv_show(capture, capture_length, out, sizeof out, &needed, &judged));
    assert(judged.yes && needed == 167);
    DO(mv_debugger_new(&d, 1));
    DO(mv_target_new(&t, json, json_length, true, 1000, &judged));
    DO(mv_target_accept(&t, &opened));
    DO(mv_debugger_attach(&d, &opened));
    assert(read_next(&d, &t).kind == MV_HEARD_HELLO);
    assert(read_next(&d, &t).kind == MV_HEARD_PARKED);
    assert(read_next(&d, &t).kind == MV_HEARD_SIZES);
    const uint8_t set[] = {2, 2, 0, 0, 0, 1, 7, 1, 0, 0, 0, 0, 0, 0, 0, 10, 0, 0, 0, 0, 0, 0, 0, 20, 0, 0, 0, 0, 0, 0, 0, 3};
    const uint8_t request[] = {0, 0, 0, 1};
    DO(mv_debugger_ask(&d, 15, 1, set, sizeof set, &ticket, &reason));
    assert(ticket == 1);
    assert(read_next(&d, &t).ticket == 1);
    expect(&d, request, sizeof request);
    DO(mv_debugger_ask(&d, 1, 9, set, 0, &ticket, &reason));
    assert(ticket == 2 && read_next(&d, &t).ticket == 2);
    DO(mv_target_step(&t, 1, &stepped));
    DO(mv_target_step(&t, 1, &stepped));
    assert(stepped == MV_STEP_REPORTED);
    heard = read_next(&d, &t);
    assert(heard.kind == MV_HEARD_SEEN);
    const uint8_t reached[] = {2, 0, 0, 0, 1, 2, 0, 0, 0, 1, 0, 0, 0, 0, 0, 0, 0, 1, 1, 0, 0, 0, 0, 0, 0, 0, 10, 0, 0, 0, 0, 0, 0, 0, 20, 0, 0, 0, 0, 0, 0, 0, 3};
    expect(&d, reached, sizeof reached);
    DO(mv_debugger_lose(&d, tickets, MV_MOST_TICKETS, &needed));
    assert(needed == 0);
    DO(mv_target_lose(&t));
    mv_free(&d);
    mv_free(&t);
}

int main(void) {
    size_t json_length = 0, capture_length = 0;
    uint8_t *json = read_file(EXAMPLES "/A.json", &json_length);
    uint8_t *capture = read_file(EXAMPLES "/session.capture", &capture_length);
    long tried = 0;
    do {
        refused = 0;
        left = tried++;
        run(json, json_length, capture, capture_length);
    } while (refused > 0);
    assert(tried > 10);
    printf("C: each of %ld allocations refused in turn\n", tried - 1);
    free(json);
    free(capture);
    return 0;
}
