/* Each call once where it does what it says, and each other answer once. Expected bytes are those of Oracle's specification of JDWP, or of
 * the repository's examples. */
#include "ends.h"

static const char *const examples = EXAMPLES;

static uint8_t *example(const char *name, size_t *length) {
    char path[4096];
    snprintf(path, sizeof path, "%s/%s", examples, name);
    return read_file(path, length);
}

/* A target over the script A at this handle. */
static void make_target(mv_handle *target) {
    size_t length = 0;
    uint8_t *json = example("A.json", &length);
    mv_judged script = {0};
    assert(mv_target_new(target, json, length, true, 1000, &script) == MV_DONE);
    assert(script.yes && script.fault == 0);
    free(json);
}

/* At a handle that keeps nothing each call says so, and changes nothing. */
static void test_empty(mv_handle h) {
    uint8_t bytes[8] = {7, 7, 7, 7, 7, 7, 7, 7}, kind = 9, stepped = 9;
    uint64_t tickets[MV_MOST_TICKETS] = {0}, number = 9;
    size_t a = 9, b = 9;
    uint32_t count = 9;
    uint16_t refused = 9;
    bool yes = true, also = true;
    mv_heard heard = {0};
    mv_handled handled = {0};
    mv_id_widths widths = {0};
    mv_asked asked = {0};
    mv_request kept = {9, 9, 9};
    assert(mv_debugger_attach(&h, &yes) == MV_EMPTY && !yes);
    assert(mv_debugger_feed(&h, bytes, 8, &a) == MV_EMPTY && a == 0);
    a = 9;
    assert(mv_debugger_take(&h, bytes, 8, &a) == MV_EMPTY && a == 0 && bytes[0] == 7);
    assert(mv_debugger_waiting(&h, &a, &b, &yes) == MV_EMPTY && b == 0);
    assert(mv_debugger_ask(&h, 1, 1, bytes, 0, &number, &refused) == MV_EMPTY && number == 0);
    assert(mv_debugger_turn(&h, &heard) == MV_EMPTY);
    assert(mv_debugger_data(&h, 0, bytes, 8, &a) == MV_EMPTY && bytes[7] == 7);
    assert(mv_debugger_lines(&h, bytes, 8, &a) == MV_EMPTY && bytes[0] == 7 && a == 0);
    assert(mv_debugger_widths(&h, &yes, &widths) == MV_EMPTY);
    assert(mv_debugger_thread(&h, 1, &yes, &count, &also) == MV_EMPTY);
    assert(mv_debugger_unanswered(&h, 0, &asked) == MV_EMPTY);
    assert(mv_debugger_request(&h, 0, &kept) == MV_EMPTY && kept.id == 9);
    assert(mv_debugger_lose(&h, tickets, MV_MOST_TICKETS, &a) == MV_EMPTY && a == 0);
    assert(mv_target_accept(&h, &yes) == MV_EMPTY);
    assert(mv_target_feed(&h, bytes, 8, &a) == MV_EMPTY);
    assert(mv_target_take(&h, bytes, 8, &a) == MV_EMPTY);
    assert(mv_target_waiting(&h, &a, &b, &yes) == MV_EMPTY);
    assert(mv_target_turn(&h, &handled) == MV_EMPTY);
    assert(mv_target_step(&h, 1, &stepped) == MV_EMPTY && stepped == 0);
    assert(mv_target_live(&h, 0, &yes, &number) == MV_EMPTY);
    assert(mv_target_thread(&h, 1, &yes, &count) == MV_EMPTY);
    assert(mv_target_lose(&h) == MV_EMPTY);
    assert(mv_kind(&h, &kind) == MV_DONE && kind == MV_KEEPS_NOTHING);
    mv_free(&h);
    mv_free(&h);
    assert(!h.live);
}

/* A live handle takes no second end, and a call on the other kind changes nothing. */
static void test_kinds(void) {
    mv_handle d = {0}, t = {0};
    uint8_t bytes[8] = {7}, kind = 9;
    size_t a = 9;
    bool opened = true;
    mv_heard heard = {0};
    mv_judged script = {0};
    assert(mv_debugger_new(&d, 1) == MV_DONE && d.live);
    assert(mv_debugger_new(&d, 1) == MV_LIVE && d.live);
    assert(mv_target_new(&d, (const uint8_t *)"{}", 2, true, 1, &script) == MV_LIVE && !script.yes);
    make_target(&t);
    assert(mv_debugger_new(&t, 1) == MV_LIVE);
    assert(mv_kind(&d, &kind) == MV_DONE && kind == MV_KEEPS_DEBUGGER);
    assert(mv_kind(&t, &kind) == MV_DONE && kind == MV_KEEPS_TARGET);
    assert(mv_target_accept(&d, &opened) == MV_OTHER_KIND && !opened);
    assert(mv_target_lose(&d) == MV_OTHER_KIND);
    assert(mv_target_feed(&d, bytes, 1, &a) == MV_OTHER_KIND && a == 0);
    assert(mv_debugger_turn(&t, &heard) == MV_OTHER_KIND);
    assert(mv_debugger_data(&t, 0, bytes, 8, &a) == MV_OTHER_KIND && bytes[0] == 7);
    assert(mv_debugger_lines(&t, bytes, 8, &a) == MV_OTHER_KIND && bytes[0] == 7);
    mv_free(&t);
    mv_free(&d);
    mv_free(&d);
    test_empty(d);
    assert(mv_debugger_new(&d, 1) == MV_DONE); /* and it may be made again */
    mv_free(&d);
}

/* The packets of the specification's "Packets": length, id, flags, and a command's set and number or a reply's error code. */
static void test_packets(void) {
    const uint8_t command[] = {0, 0, 0, 12, 1, 2, 3, 4, 0, 11, 6, 99, 7};
    const uint8_t reply[] = {0, 0, 0, 11, 0, 0, 0, 5, 0x80, 0, 20};
    const uint8_t flags[] = {0, 0, 0, 11, 0, 0, 0, 5, 1};
    mv_framed out = {0};
    assert(mv_next_packet(command, sizeof command, &out) == MV_DONE && out.kind == MV_FRONT_COMMAND);
    assert(out.set == 11 && out.number == 6 && out.id == 0x01020304 && out.length == 12 && out.fault == 0);
    assert(mv_next_packet(reply, sizeof reply, &out) == MV_DONE && out.kind == MV_FRONT_REPLY && out.error == 20 && out.length == 11);
    assert(mv_next_packet(reply, 10, &out) == MV_DONE && out.kind == MV_FRONT_MORE && out.length == 0);
    assert(mv_next_packet(flags, 9, &out) == MV_DONE && out.kind == MV_FRONT_FAULT && out.fault == 3);
}

/* Where packets begin that stand one behind the other, their headers, and each thing that may be left behind them. */
static void test_many_packets(void) {
    const uint8_t both[] = {0, 0, 0, 12, 1, 2, 3, 4, 0, 11, 6, 99, 0, 0, 0, 11, 0, 0, 0, 5, 0x80, 0, 20, 0, 0, 0, 10};
    size_t places[3] = {7, 7, 7};
    mv_found found = {0};
    assert(mv_next_packets(both, 23, places, 3, &found) == MV_DONE);
    assert(found.count == 2 && found.used == 23 && found.left == MV_LEFT_NOTHING && found.fault == 0);
    assert(places[0] == 0 && places[1] == 12 && places[2] == 7);
    const uint8_t *command = both + places[0], *reply = both + places[1];
    assert(mv_packet_length(command) == 12 && mv_packet_id(command) == 0x01020304 && !mv_packet_is_reply(command));
    assert(mv_packet_set(command) == 11 && mv_packet_number(command) == 6);
    assert(mv_packet_length(reply) == 11 && mv_packet_id(reply) == 5 && mv_packet_is_reply(reply) && mv_packet_error(reply) == 20);
    assert(mv_next_packets(both, 26, places, 3, &found) == MV_DONE && found.count == 2 && found.used == 23 && found.left == MV_LEFT_BEGINNING);
    assert(mv_next_packets(both, 27, places, 2, &found) == MV_DONE && found.count == 2 && found.used == 23 && found.left == MV_LEFT_FAULT && found.fault == 1);
    assert(mv_next_packets(both, 23, places, 1, &found) == MV_DONE && found.count == 1 && found.used == 12 && found.left == MV_LEFT_PACKET && found.fault == 0);
    assert(mv_next_packets(both, 0, places, 0, &found) == MV_DONE && found.count == 0 && found.used == 0 && found.left == MV_LEFT_NOTHING);
}

/* What a call for a text answers: `which` 0 a command's name, 1 an error code's, 2 a fault in words. */
static uint32_t text_of(int which, uint8_t set, uint16_t number, uint8_t *out, size_t room, size_t *needed) {
    if (which == 0) return mv_command_name(set, (uint8_t)number, out, room, needed);
    if (which == 1) return mv_error_name(number, out, room, needed);
    return mv_fault_text(number, out, room, needed);
}

static void expect_text(int which, uint8_t set, uint16_t number, const char *text) {
    uint8_t out[128];
    size_t needed = 0, length = strlen(text);
    memset(out, 7, sizeof out);
    assert(text_of(which, set, number, out, length - 1, &needed) == MV_SHORT_BUFFER);
    assert(needed == length && out[0] == 7);
    assert(text_of(which, set, number, out, length, &needed) == MV_DONE);
    assert(needed == length && memcmp(out, text, length) == 0 && out[length] == 7);
}

/* Names of the specification's pages, and texts of the faults above the header's declarations. */
static void test_texts(void) {
    uint8_t out[8] = {7};
    size_t needed = 9;
    expect_text(0, 1, 8, "VirtualMachine.Suspend");
    expect_text(0, 1, 22, "VirtualMachine.AllModules");
    expect_text(0, 18, 2, "ModuleReference.ClassLoader");
    expect_text(0, 64, 100, "Event.Composite");
    expect_text(1, 0, 0, "NONE");
    expect_text(1, 0, 10, "INVALID_THREAD");
    expect_text(1, 0, 72, "CLASS_ATTRIBUTE_CHANGE_NOT_IMPLEMENTED");
    expect_text(1, 0, 99, "NOT_IMPLEMENTED");
    expect_text(1, 0, 115, "UNATTACHED_THREAD");
    expect_text(1, 0, 512, "INVALID_COUNT");
    expect_text(2, 0, 1, "a packet length below 11");
    expect_text(2, 0, 26, "a limit is passed");
    expect_text(2, 0, 53, "the id of a command that waits for its reply");
    /* sets have gaps, and so have codes and faults */
    assert(mv_command_name(1, 0, out, 8, &needed) == MV_NO_ITEM && needed == 0 && out[0] == 7);
    assert(mv_command_name(7, 1, out, 8, &needed) == MV_NO_ITEM);
    assert(mv_command_name(255, 255, out, 8, &needed) == MV_NO_ITEM);
    assert(mv_error_name(16, out, 8, &needed) == MV_NO_ITEM);
    assert(mv_error_name(65535, out, 8, &needed) == MV_NO_ITEM);
    assert(mv_fault_text(0, out, 8, &needed) == MV_NO_ITEM);
    assert(mv_fault_text(52, out, 8, &needed) == MV_NO_ITEM && out[0] == 7);
}

static void test_captures(void) {
    size_t length = 0, needed = 0;
    uint8_t *text = example("session.capture", &length), out[1024];
    mv_judged judged = {0};
    /* the lines that README.md shows */
    const char *lines = "> hello\n< hello\n> 1 VirtualMachine.IDSizes\n< 1 reply VirtualMachine.IDSizes 0 8 8 8 8 8\n"
                        "> 3 ThreadReference.SuspendCount #1\n< 3 reply ThreadReference.SuspendCount 0 1\n";
    assert(mv_check(text, length, &judged) == MV_DONE && judged.yes && judged.fault == 0 && judged.line == 0);
    assert(mv_show(text, length, out, sizeof out, &needed, &judged) == MV_DONE && judged.yes);
    assert(needed == strlen(lines) && memcmp(out, lines, needed) == 0);
    memset(out, 7, sizeof out);
    assert(mv_show(text, length, out, needed - 1, &needed, &judged) == MV_SHORT_BUFFER);
    assert(needed == strlen(lines) && judged.yes && out[0] == 7);
    free(text);
    /* a second command under an id that waits: fault 53, in the line of its last byte */
    const char *twice = "> 4a4457502d48616e647368616b65\n< 4a4457502d48616e647368616b65\n> 0000000b00000001000107\n> 0000000b00000001000107\n";
    assert(mv_check((const uint8_t *)twice, strlen(twice), &judged) == MV_DONE && !judged.yes && judged.fault == 53 && judged.line == 4);
    assert(mv_check((const uint8_t *)"\xff", 1, &judged) == MV_NOT_UTF8 && !judged.yes && judged.fault == 0);
}

/* A script's faults, and a limit that is none. */
static void test_scripts(void) {
    mv_handle t = {0};
    mv_judged script = {0};
    assert(mv_target_new(&t, (const uint8_t *)"no", 2, false, 1, &script) == MV_FAULT && script.fault == 21 && !t.live);
    assert(mv_target_new(&t, (const uint8_t *)"{}", 2, false, 1, &script) == MV_FAULT && script.fault == 22);
    assert(mv_target_new(&t, (const uint8_t *)"\xff", 1, false, 1, &script) == MV_NOT_UTF8 && script.fault == 0);
    assert(mv_target_new(&t, (const uint8_t *)"{}", 2, false, 0, &script) == MV_REFUSED && script.fault == 0);
    assert(mv_target_new(&t, (const uint8_t *)"{}", 2, false, 0x80000000u, &script) == MV_REFUSED);
    assert(!t.live);
}

/* Carries bytes and makes the target's turns until the debugger reads something. */
static mv_heard hear(mv_handle *debugger, mv_handle *target) {
    mv_heard heard = {0};
    mv_handled handled = {0};
    for (int round = 0; round < 100; round++) {
        assert(mv_debugger_turn(debugger, &heard) == MV_DONE);
        if (heard.kind != MV_HEARD_NOTHING) break;
        carry(debugger, target);
        assert(mv_target_turn(target, &handled) == MV_DONE);
        carry(debugger, target);
    }
    return heard;
}

/* Both ends: a session begins. */
static void begin(mv_handle *d, mv_handle *t) {
    bool opened = false;
    uint64_t ticket = 9;
    uint16_t refused = 0;
    mv_heard heard = {0};
    mv_id_widths widths = {9, 9, 9, 9, 9};
    assert(mv_target_accept(t, &opened) == MV_DONE && opened);
    assert(mv_target_accept(t, &opened) == MV_DONE && !opened);
    assert(mv_debugger_ask(d, 1, 1, (const uint8_t *)"", 0, &ticket, &refused) == MV_REFUSED && refused == 33 && ticket == 0);
    assert(mv_debugger_attach(d, &opened) == MV_DONE && opened);
    assert(mv_debugger_attach(d, &opened) == MV_DONE && !opened);
    assert(mv_debugger_ask(d, 1, 1, (const uint8_t *)"", 0, &ticket, &refused) == MV_REFUSED && refused == 31);
    assert(mv_debugger_widths(d, &opened, &widths) == MV_DONE && !opened && widths.object == 0);
    heard = hear(d, t);
    assert(heard.kind == MV_HEARD_HELLO);
    heard = hear(d, t);
    assert(heard.kind == MV_HEARD_PARKED && heard.items == 0); /* VM_START */
    heard = hear(d, t);
    assert(heard.kind == MV_HEARD_SIZES && heard.items == 1 && heard.ticket == 0);
    assert(mv_debugger_widths(d, &opened, &widths) == MV_DONE && opened);
    assert(widths.field == 8 && widths.method == 8 && widths.object == 8 && widths.reference == 8 && widths.frame == 8);
}

/* The data of an item of the last turn are these, asked for with too little room first. */
static void expect_data(mv_handle *d, size_t item, const uint8_t *bytes, size_t length) {
    uint8_t out[256];
    size_t needed = 0;
    memset(out, 7, sizeof out);
    if (length > 0) {
        assert(mv_debugger_data(d, item, out, length - 1, &needed) == MV_SHORT_BUFFER);
        assert(needed == length && out[0] == 7);
    }
    assert(mv_debugger_data(d, item, out, sizeof out, &needed) == MV_DONE);
    assert(needed == length && memcmp(out, bytes, length) == 0 && out[length] == 7);
}

/* The lines of the last turn are these, asked for with too little room first. */
static void expect_lines(mv_handle *d, const char *lines) {
    uint8_t out[256];
    size_t needed = 0, length = strlen(lines);
    memset(out, 7, sizeof out);
    if (length > 0) {
        assert(mv_debugger_lines(d, out, length - 1, &needed) == MV_SHORT_BUFFER);
        assert(needed == length && out[0] == 7);
    }
    assert(mv_debugger_lines(d, out, sizeof out, &needed) == MV_DONE);
    assert(needed == length && memcmp(out, lines, length) == 0 && out[length] == 7);
}

static uint64_t ask(mv_handle *d, uint8_t set, uint8_t number, const uint8_t *data, size_t length) {
    uint64_t ticket = 0;
    uint16_t refused = 9;
    assert(mv_debugger_ask(d, set, number, data, length, &ticket, &refused) == MV_DONE && refused == 0);
    return ticket;
}

/* A breakpoint that suspends all threads is reached, and the frames of the held thread are read. */
static void test_session(void) {
    mv_handle d = {0}, t = {0};
    uint64_t tickets[MV_MOST_TICKETS] = {0}, thread = 0, ticket = 9;
    uint32_t count = 9;
    uint16_t refused = 0;
    uint8_t stepped = 9, out[64];
    size_t a = 0, b = 0;
    bool yes = false, held = false;
    mv_heard heard = {0};
    mv_asked asked = {0};
    mv_request kept = {9, 9, 9};
    assert(mv_debugger_new(&d, 1) == MV_DONE);
    make_target(&t);
    begin(&d, &t);
    /* VM_START of thread 1, which suspends all */
    const uint8_t start[] = {2, 0, 0, 0, 1, 90, 0, 0, 0, 0, 0, 0, 0, 0, 0, 0, 0, 1};
    expect_data(&d, 0, start, sizeof start);
    expect_lines(&d, "< 1 Event.Composite 2 [(90, 0, #1)]\n< 1 reply VirtualMachine.IDSizes 0 8 8 8 8 8\n");
    assert(mv_debugger_data(&d, 1, out, sizeof out, &a) == MV_NO_ITEM && a == 0);
    assert(mv_debugger_thread(&d, 1, &yes, &count, &held) == MV_DONE && yes && count == 1 && held);
    assert(mv_target_live(&t, 0, &yes, &thread) == MV_DONE && yes && thread == 1);
    assert(mv_target_live(&t, 1, &yes, &thread) == MV_DONE && yes && thread == 2);
    assert(mv_target_live(&t, 2, &yes, &thread) == MV_DONE && !yes && thread == 0);
    assert(mv_target_step(&t, 1, &stepped) == MV_DONE && stepped == MV_STEP_FROZEN);
    /* EventRequest.Set: BREAKPOINT, policy ALL, one modifier, LocationOnly at 1:10:20:3 */
    const uint8_t set[] = {2, 2, 0, 0, 0, 1, 7, 1, 0, 0, 0, 0, 0, 0, 0, 10, 0, 0, 0, 0, 0, 0, 0, 20, 0, 0, 0, 0, 0, 0, 0, 3};
    assert(mv_debugger_ask(&d, 15, 1, set, sizeof set - 1, &ticket, &refused) == MV_REFUSED && refused == 36 && ticket == 0);
    assert(mv_debugger_ask(&d, 99, 1, set, 0, &ticket, &refused) == MV_REFUSED && refused == 36);
    assert(ask(&d, 15, 1, set, sizeof set) == 1);
    assert(mv_debugger_unanswered(&d, 0, &asked) == MV_DONE && asked.ticket == 1 && asked.set == 15 && asked.number == 1);
    assert(mv_debugger_unanswered(&d, 1, &asked) == MV_DONE && asked.ticket == 0);
    assert(mv_debugger_request(&d, 0, &kept) == MV_NO_ITEM && kept.id == 9);
    assert(mv_debugger_request(&t, 0, &kept) == MV_OTHER_KIND && kept.kind == 9);
    heard = hear(&d, &t);
    assert(heard.kind == MV_HEARD_ANSWERED && heard.ticket == 1 && heard.error == 0 && heard.items == 1);
    const uint8_t request[] = {0, 0, 0, 1};
    expect_data(&d, 0, request, sizeof request);
    assert(mv_debugger_request(&d, 0, &kept) == MV_DONE && kept.id == 1 && kept.kind == 2 && kept.policy == 2);
    assert(mv_debugger_request(&d, 1, &kept) == MV_NO_ITEM);
    assert(ask(&d, 1, 9, set, 0) == 2); /* VirtualMachine.Resume */
    heard = hear(&d, &t);
    assert(heard.kind == MV_HEARD_ANSWERED && heard.ticket == 2 && heard.items == 1);
    expect_data(&d, 0, set, 0);
    assert(mv_debugger_thread(&d, 1, &yes, &count, &held) == MV_DONE && yes && count == 0 && !held);
    assert(mv_target_step(&t, 1, &stepped) == MV_DONE && stepped == MV_STEP_QUIET);
    assert(mv_target_step(&t, 1, &stepped) == MV_DONE && stepped == MV_STEP_REPORTED);
    assert(mv_target_thread(&t, 1, &yes, &count) == MV_DONE && yes && count == 1);
    heard = hear(&d, &t);
    assert(heard.kind == MV_HEARD_SEEN && heard.items == 1);
    const uint8_t reached[] = {2, 0, 0, 0, 1, 2, 0, 0, 0, 1, 0, 0, 0, 0, 0, 0, 0, 1, 1, 0, 0, 0, 0, 0, 0, 0, 10, 0, 0, 0, 0, 0, 0, 0, 20, 0, 0, 0, 0, 0, 0, 0, 3};
    expect_data(&d, 0, reached, sizeof reached);
    expect_lines(&d, "< 2 Event.Composite 2 [(2, 1, #1, 1:#10:#20:3)]\n");
    assert(mv_debugger_thread(&d, 1, &yes, &count, &held) == MV_DONE && yes && count == 1 && held);
    /* ThreadReference.Frames of thread 1, all of them: frame 30 at 1:10:20:3 */
    const uint8_t all[] = {0, 0, 0, 0, 0, 0, 0, 1, 0, 0, 0, 0, 255, 255, 255, 255};
    const uint8_t frames[] = {0, 0, 0, 1, 0, 0, 0, 0, 0, 0, 0, 30, 1, 0, 0, 0, 0, 0, 0, 0, 10, 0, 0, 0, 0, 0, 0, 0, 20, 0, 0, 0, 0, 0, 0, 0, 3};
    assert(ask(&d, 11, 6, all, sizeof all) == 3);
    heard = hear(&d, &t);
    assert(heard.kind == MV_HEARD_ANSWERED && heard.ticket == 3);
    expect_data(&d, 0, frames, sizeof frames);
    expect_lines(&d, "< 4 reply ThreadReference.Frames 0 [(#30, 1:#10:#20:3)]\n");
    /* of thread 9, which is none: INVALID_THREAD, 10 */
    uint8_t other[sizeof all];
    memcpy(other, all, sizeof all);
    other[7] = 9;
    ask(&d, 11, 6, other, sizeof other);
    heard = hear(&d, &t);
    assert(heard.kind == MV_HEARD_ANSWERED && heard.error == 10 && heard.items == 0);
    assert(mv_debugger_data(&d, 0, out, sizeof out, &a) == MV_NO_ITEM);
    expect_lines(&d, "< 5 reply ThreadReference.Frames 10\n");
    assert(mv_debugger_turn(&d, &heard) == MV_DONE && heard.kind == MV_HEARD_NOTHING);
    expect_lines(&d, "");
    /* the connection is lost with a command unanswered */
    ticket = ask(&d, 11, 6, all, sizeof all);
    assert(mv_debugger_waiting(&d, &a, &b, &yes) == MV_DONE && a == 65536 && b == 27 && yes);
    assert(mv_debugger_lose(&d, tickets, 1023, &a) == MV_SHORT_BUFFER && a == MV_MOST_TICKETS);
    assert(mv_debugger_lose(&d, tickets, MV_MOST_TICKETS, &a) == MV_DONE && a == 1 && tickets[0] == ticket && tickets[1] == 0);
    assert(mv_target_lose(&t) == MV_DONE);
    assert(mv_target_waiting(&t, &a, &b, &yes) == MV_DONE && a == 0 && b == 0 && !yes);
    assert(mv_target_thread(&t, 1, &yes, &count) == MV_DONE && yes && count == 0);
    mv_free(&d);
    mv_free(&t);
}

/* Who is surely suspended, at a debugger of a target whose replies and composites come apart. */
static void test_apart(void) {
    mv_handle d = {0}, t = {0};
    uint32_t count = 9;
    bool known = false, held = false;
    assert(mv_debugger_new_apart(&d, 1) == MV_DONE && d.live);
    assert(mv_debugger_new_apart(&d, 1) == MV_LIVE);
    make_target(&t);
    assert(mv_debugger_new_apart(&t, 1) == MV_LIVE);
    begin(&d, &t);
    /* VM_START of thread 1, which suspends all, names that thread alone */
    assert(mv_debugger_thread(&d, 1, &known, &count, &held) == MV_DONE && known && count == 1 && held);
    assert(mv_debugger_thread(&d, 2, &known, &count, &held) == MV_DONE && !known && count == 0 && !held);
    /* VirtualMachine.Resume: nothing is sure from the asking on; thread 1 was named, thread 2 was not */
    ask(&d, 1, 9, (const uint8_t *)"", 0);
    assert(mv_debugger_thread(&d, 1, &known, &count, &held) == MV_DONE && known && count == 0 && !held);
    assert(mv_debugger_thread(&d, 2, &known, &count, &held) == MV_DONE && !known && count == 0 && !held);
    assert(hear(&d, &t).ticket == 1);
    assert(mv_debugger_thread(&d, 1, &known, &count, &held) == MV_DONE && known && count == 0 && !held);
    /* ThreadReference.Suspend of thread 1, twice: sure once answered */
    const uint8_t thread[] = {0, 0, 0, 0, 0, 0, 0, 1};
    ask(&d, 11, 2, thread, sizeof thread);
    ask(&d, 11, 2, thread, sizeof thread);
    assert(mv_debugger_thread(&d, 1, &known, &count, &held) == MV_DONE && !held);
    assert(hear(&d, &t).ticket == 2);
    assert(mv_debugger_thread(&d, 1, &known, &count, &held) == MV_DONE && known && count == 1 && held);
    assert(hear(&d, &t).ticket == 3);
    assert(mv_debugger_thread(&d, 1, &known, &count, &held) == MV_DONE && known && count == 2 && held);
    assert(mv_target_thread(&t, 1, &known, &count) == MV_DONE && known && count == 2);
    /* ThreadReference.SuspendCount of thread 2: an answer about it names it */
    const uint8_t second[] = {0, 0, 0, 0, 0, 0, 0, 2};
    ask(&d, 11, 12, second, sizeof second);
    assert(mv_debugger_thread(&d, 2, &known, &count, &held) == MV_DONE && !known);
    assert(hear(&d, &t).ticket == 4);
    assert(mv_debugger_thread(&d, 2, &known, &count, &held) == MV_DONE && known && count == 0 && !held);
    /* and nobody from the asking of Dispose on */
    ask(&d, 1, 6, (const uint8_t *)"", 0);
    assert(mv_debugger_thread(&d, 1, &known, &count, &held) == MV_DONE && !known && count == 0 && !held);
    mv_free(&d);
    mv_free(&t);
}

/* Bytes that no peer may send. */
static void test_faults(void) {
    mv_handle d = {0}, t = {0};
    bool opened = false;
    size_t count = 0;
    mv_heard heard = {0};
    mv_handled handled = {0};
    assert(mv_debugger_new(&d, 0xffffffffu) == MV_DONE);
    assert(mv_debugger_attach(&d, &opened) == MV_DONE && opened);
    assert(mv_debugger_feed(&d, (const uint8_t *)"JDWP-Handshaky", 14, &count) == MV_DONE && count == 14);
    assert(mv_debugger_turn(&d, &heard) == MV_FAULT && heard.fault == 41 && heard.frame == 4);
    assert(mv_debugger_turn(&d, &heard) == MV_DONE && heard.kind == MV_HEARD_NOTHING && heard.fault == 0);
    make_target(&t);
    assert(mv_target_accept(&t, &opened) == MV_DONE && opened);
    assert(mv_target_feed(&t, (const uint8_t *)"JDWP-Handshaky", 14, &count) == MV_DONE && count == 14);
    assert(mv_target_turn(&t, &handled) == MV_FAULT && handled.fault == 4);
    assert(mv_target_turn(&t, &handled) == MV_DONE && handled.kind == MV_HANDLED_NOTHING);
    mv_free(&d);
    mv_free(&t);
}

int main(void) {
    mv_handle none = {0};
    assert(mv_version() == 1);
    test_empty(none);
    test_kinds();
    test_packets();
    test_many_packets();
    test_texts();
    test_captures();
    test_scripts();
    test_session();
    test_apart();
    test_faults();
    puts("C: as told");
    return 0;
}
