/* The suspend count of a thread, asked 64 at a time by a debugger of a target in the same process: what crates/both_ends does in Rattle.
 *
 *     both_ends ROUNDS
 */
#include "../c/ends.h"

enum { AT_ONCE = 64 };

/* A machine of one thread that does nothing. */
static const char script[] = "{\"name\":\"one\",\"sizes\":[8,8,8,8,8],\"groups\":[{\"id\":5,\"name\":\"main\",\"parent\":0}],"
                             "\"classes\":[],\"objects\":[],\"threads\":[{\"id\":1,\"name\":\"main\",\"group\":5,\"steps\":[]}]}";

static const uint8_t thread[8] = {0, 0, 0, 0, 0, 0, 0, 1};

/* The target handles what the debugger put, and the debugger what the target sent. How many answers came. */
static unsigned exchange(mv_handle *debugger, mv_handle *target) {
    carry(debugger, target);
    mv_handled handled = {0};
    for (int turn = 0; turn <= AT_ONCE; turn++) {
        assert(mv_target_turn(target, &handled) == MV_DONE);
        if (handled.kind == MV_HANDLED_NOTHING)
            break;
    }
    carry(debugger, target);
    unsigned answered = 0;
    mv_heard heard = {0};
    for (int turn = 0; turn <= AT_ONCE; turn++) {
        assert(mv_debugger_turn(debugger, &heard) == MV_DONE);
        if (heard.kind == MV_HEARD_NOTHING)
            break;
        answered += heard.kind == MV_HEARD_ANSWERED;
    }
    return answered;
}

int main(int count, char **words) {
    assert(count == 2);
    unsigned long rounds = strtoul(words[1], NULL, 10), answered = 0;
    mv_handle debugger = {0}, target = {0};
    mv_judged judged = {0};
    bool opened = false;
    uint64_t ticket = 0;
    uint16_t refused = 0;
    assert(mv_debugger_new(&debugger, 1) == MV_DONE);
    assert(mv_target_new(&target, (const uint8_t *)script, strlen(script), true, 65535, &judged) == MV_DONE);
    assert(mv_target_accept(&target, &opened) == MV_DONE && opened);
    assert(mv_debugger_attach(&debugger, &opened) == MV_DONE && opened);
    for (int turn = 0; turn < 3; turn++)
        exchange(&debugger, &target);
    for (unsigned long round = 0; round < rounds; round++) {
        for (int asked = 0; asked < AT_ONCE; asked++)
            assert(mv_debugger_ask(&debugger, 11, 12, thread, sizeof thread, &ticket, &refused) == MV_DONE);
        answered += exchange(&debugger, &target);
    }
    mv_free(&debugger);
    mv_free(&target);
    printf("%lu answered\n", answered);
    return 0;
}
