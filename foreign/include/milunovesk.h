/* Milunovesk: both ends of Java Debug Wire Protocol sessions (JDWP, Java SE 11), without IO, for C and for what calls C.
 *
 * A handle keeps a debugger, or a target that runs a machine script. Bytes that came go in by a feed, a turn handles one message of them,
 * and bytes that are to be sent come out by a take. Each call does what its Rattle function is proved to do, `crates/milunovesk_c`; the
 * functions that have a body here are plain C, and tested.
 *
 * What the caller owes; nothing checks it, and the proofs rest on it:
 *   - a handle is all zero (`mv_handle h = {0};`) or as the last call left it. It is not written, and not copied and then used as two;
 *     to move it, copy it and forget the old place.
 *   - no pointer is null, not even where the length behind it is 0. A buffer has at least as many bytes (tickets: elements) as the length
 *     behind it says. No two arguments of a call overlap. What a call writes to holds a value of its type before (a bool: false or true).
 *   - the memory of arguments is the call's until it returns. No call keeps a pointer to it.
 *   - calls on one handle come one after the other, each seen by the next (under a lock, say), from any threads. Calls on different handles
 *     may overlap in time.
 *   - `malloc`, `realloc` and `free` are one allocator's, and align as the C standard says. No call comes from a signal handler, nor from the forked child of a process
 *     with threads.
 *
 * What holds whatever else the caller does: a call at a handle that is all zero or was freed answers MV_EMPTY, a second mv_free does nothing, a
 * new one at a live handle answers MV_LIVE, a call at a handle of the other kind answers MV_OTHER_KIND; each changes nothing. A refused
 * allocation answers MV_NO_MEMORY, and nothing has changed. No bytes from a peer, and no text, are too bad to be given to a call.
 *
 * Each call but mv_free, mv_version and those with a body answers one of the numbers below. What it tells beside is all zero, and a buffer is as it was, where it
 * answers another number than MV_DONE, unless its comment says otherwise.
 *
 * Faults, by the numbers that the repository's programs print:
 *   frames     1 a length below 11   2 a length above 65,536   3 flags other than 00 and 80   4 not the handshake
 *   data       11 too few bytes   12 bytes left over   13 a bad tag   14 a negative count   15 a string that is not UTF-8   16 a width that is not 1 to 8
 *   scripts    21 not JSON   22 a member is missing or of another type   23 an id twice   24 an id too wide   25 a bad reference   26 a limit is passed
 *   refusals   31 the widths of ids are not known   32 too much waits   33 the session is closed   34 too long   36 no such command, or other data
 *   debugger   41 no message begins so   42 a reply to no command   43 a reply whose data do not read   44 a fifth composite before the widths of ids
 *              45 a composite that no target may send, or another command   46 no memory
 *   captures   51 not a line of a capture   53 the id of a command that waits   54 a reply to no command   55 data in a reply with an error
 *              56 a message of the other end; and those of frames and data
 */
#ifndef MILUNOVESK_H
#define MILUNOVESK_H

#include <stdbool.h>
#include <stddef.h>
#include <stdint.h>

#ifdef __cplusplus
extern "C" {
#endif

/* What calls answer. */
enum {
    MV_DONE = 0,         /* it did what it says */
    MV_EMPTY = 1,        /* nothing is kept at the handle */
    MV_LIVE = 2,         /* something is kept at the handle already */
    MV_OTHER_KIND = 3,   /* what is kept is a debugger in place of a target, or the other way round */
    MV_NO_MEMORY = 4,    /* an allocation was refused; nothing changed */
    MV_NOT_UTF8 = 5,     /* a text is not UTF-8 */
    MV_SHORT_BUFFER = 6, /* it takes a larger buffer; how large is told; nothing changed */
    MV_REFUSED = 7,      /* what was asked for is refused; nothing changed */
    MV_FAULT = 8,        /* what came, or a script, is refused by a fault that is told */
    MV_NO_ITEM = 9       /* there is nothing at this place */
};

/* What is kept. */
enum { MV_KEEPS_NOTHING = 0, MV_KEEPS_DEBUGGER = 1, MV_KEEPS_TARGET = 2 };

/* The most tickets that one loss leaves. */
#define MV_MOST_TICKETS 1024

/* Owned by the caller. All zero at first. */
typedef struct {
    bool live;
    void *at;
} mv_handle;

/* The version of this interface: 1. */
uint32_t mv_version(void);

/* Which kind is kept: MV_KEEPS_NOTHING, MV_KEEPS_DEBUGGER or MV_KEEPS_TARGET. Always MV_DONE. */
uint32_t mv_kind(mv_handle *handle, uint8_t *kind);

/* Frees what is kept, of any kind, if something is. The handle keeps nothing afterwards. */
void mv_free(mv_handle *handle);

/* What stands in front of bytes. */
enum {
    MV_FRONT_MORE = 0,    /* the beginning of a packet, or nothing */
    MV_FRONT_COMMAND = 1, /* a command */
    MV_FRONT_REPLY = 2,   /* a reply */
    MV_FRONT_FAULT = 3    /* the beginning of no packet */
};

typedef struct {
    uint8_t kind;
    uint8_t set;    /* of a command, else 0 */
    uint8_t number; /* of a command, else 0 */
    uint16_t error; /* the error code of a reply, else 0 */
    uint16_t fault; /* why it is the beginning of no packet: 1 a length below 11, 2 one above 65,536, 3 flags other than 00 and 80; else 0 */
    uint32_t id;
    uint32_t length; /* of the packet, its header's 11 bytes among them: its data are behind the header */
} mv_framed;

/* Tells which packet stands in front of the bytes, behind the handshakes. What follows it is not looked at. Always MV_DONE. */
uint32_t mv_next_packet(const uint8_t *bytes, size_t length, mv_framed *out);

/* What is left behind packets. */
enum {
    MV_LEFT_NOTHING = 0,   /* no bytes: the packets are all of them */
    MV_LEFT_BEGINNING = 1, /* the beginning of a packet: it calls for more bytes */
    MV_LEFT_PACKET = 2,    /* a packet, for whose place there is no room */
    MV_LEFT_FAULT = 3      /* the beginning of no packet */
};

typedef struct {
    size_t count;   /* how many packets there are places of */
    size_t used;    /* how many bytes they take: what is left begins there */
    uint8_t left;
    uint16_t fault; /* at MV_LEFT_FAULT why, 1 to 3 as mv_next_packet has it; else 0 */
} mv_found;

/* Tells the places where packets begin that stand one behind the other in front of the bytes, behind the handshakes: of all of them, or of the first
 * `room`. The first place is 0, each other is where the packet before it ends, and at each mv_next_packet tells a command or a reply. Writes `places`
 * from the front, `count` of them, and leaves those behind as they were, which hold a value each before. At MV_LEFT_PACKET `count` is `room`.
 * Takes no memory. Always MV_DONE. */
uint32_t mv_next_packets(const uint8_t *bytes, size_t length, size_t *places, size_t room, mv_found *out);

/* A number of four bytes, the highest first. */
static inline uint32_t mv_four_bytes(const uint8_t *at) {
    return (uint32_t)at[0] << 24 | (uint32_t)at[1] << 16 | (uint32_t)at[2] << 8 | at[3];
}

/* The length of a packet, its header's 11 bytes among them: its data are behind the header. Reads the header of a whole packet, which begins at `at`:
 * the front of the bytes and a place that mv_next_packets told. */
static inline uint32_t mv_packet_length(const uint8_t *at) { return mv_four_bytes(at); }

/* The id. Reads the header of a whole packet, at a place that was told. */
static inline uint32_t mv_packet_id(const uint8_t *at) { return mv_four_bytes(at + 4); }

/* Whether it is a reply, and else a command. Reads the header of a whole packet, at a place that was told. */
static inline bool mv_packet_is_reply(const uint8_t *at) { return at[8] != 0; }

/* The set of a command; of a reply it means nothing. Reads the header of a whole packet, at a place that was told. */
static inline uint8_t mv_packet_set(const uint8_t *at) { return at[9]; }

/* The number of a command in its set; of a reply it means nothing. Reads the header of a whole packet, at a place that was told. */
static inline uint8_t mv_packet_number(const uint8_t *at) { return at[10]; }

/* The error code of a reply, 0 for none; of a command it means nothing. Reads the header of a whole packet, at a place that was told. */
static inline uint16_t mv_packet_error(const uint8_t *at) { return (uint16_t)(at[9] << 8 | at[10]); }

/* What mv_next_packet tells. The header of a whole packet is read here, without a call. */
static inline mv_framed mv_packet_in_front(const uint8_t *bytes, size_t length) {
    mv_framed front = {0, 0, 0, 0, 0, 0, 0};
    size_t whole = 0;
    if (length < 11 || (bytes[8] != 0 && bytes[8] != 0x80) || (whole = mv_packet_length(bytes)) < 11 || whole > 65536 || whole > length) {
        (void)mv_next_packet(bytes, length, &front);
        return front;
    }
    front.id = mv_packet_id(bytes);
    front.length = (uint32_t)whole;
    if (mv_packet_is_reply(bytes)) {
        front.kind = MV_FRONT_REPLY;
        front.error = mv_packet_error(bytes);
    } else {
        front.kind = MV_FRONT_COMMAND;
        front.set = mv_packet_set(bytes);
        front.number = mv_packet_number(bytes);
    }
    return front;
}

/* ---- names and texts, which are not ended by a zero: `needed` is how many bytes they have */

/* Moves the name of the command of this set and number, as mv_show prints it ("VirtualMachine.Suspend"), to the front of `out`, `needed` bytes.
 * MV_SHORT_BUFFER where `room` is below `needed`, which is told then, too; MV_NO_ITEM where there is no such command. */
uint32_t mv_command_name(uint8_t set, uint8_t number, uint8_t *out, size_t room, size_t *needed);

/* The same of the name of an error code, as the specification's "Error Constants" have it ("INVALID_THREAD"); MV_NO_ITEM where they have none. */
uint32_t mv_error_name(uint16_t error, uint8_t *out, size_t room, size_t *needed);

/* The same of what the fault of this number is, in words, of those above; MV_NO_ITEM where there is no such fault. */
uint32_t mv_fault_text(uint16_t fault, uint8_t *out, size_t room, size_t *needed);

/* ---- captures: texts of lines "> HEX", bytes that the debugger sent, and "< HEX", bytes that the target sent (docs/CAPTURES.md) */

typedef struct {
    bool yes;       /* there is no fault */
    uint16_t fault; /* the number of the first fault, else 0 */
    size_t line;    /* the line, from 1, in which the fault's last byte stands, else 0 */
} mv_judged;

/* Judges a capture: `yes` exactly where it begins a session. MV_DONE, MV_NOT_UTF8 or MV_NO_MEMORY. */
uint32_t mv_check(const uint8_t *text, size_t length, mv_judged *out);

/* Shows a capture in words, a line a message, each with a newline: moves its lines to the front of `out`, `needed` bytes. Judges it, too.
 * MV_SHORT_BUFFER where `room` is below `needed`; `needed` and `judged` are told then, too. MV_NOT_UTF8, MV_NO_MEMORY. */
uint32_t mv_show(const uint8_t *text, size_t length, uint8_t *out, size_t room, size_t *needed, mv_judged *judged);

/* ---- a debugger, kept with what its last turn read */

/* Keeps a debugger at a handle that keeps nothing, before its first session: packets up to 65,536 bytes, 64 commands that wait for replies.
 * The id of its first packet is `first_id`. MV_DONE, MV_LIVE, MV_NO_MEMORY. */
uint32_t mv_debugger_new(mv_handle *handle, uint32_t first_id);

/* The same for a target that sends replies and composite events by threads of their own, as Java machines do. No composite is refused for a
 * suspend count, a reply that is an error may have data, and mv_debugger_thread tells what is surely so, whatever comes late:
 * of each target that
 *   - carries out commands one by one and answers them in the order asked, invocations of methods apart,
 *   - sends composites one by one in the order of their events, and each packet after its effect, and gives no request id twice,
 *   - changes suspend counts by VirtualMachine.Suspend and Resume, ThreadReference.Suspend and Resume, events by their policies, and invocations
 *     alone, which let their thread, or all, go on until they end.
 * It holds of a thread while the thread lives, and no end is kept: request THREAD_DEATH (kind 7), and forget a thread from its event on. */
uint32_t mv_debugger_new_apart(mv_handle *handle, uint32_t first_id);

/* Begins a session: the handshake is to leave, and nothing is known. `opened` is false, and nothing changes, where a session is open, or
 * tickets of the last one wait for mv_debugger_lose. */
uint32_t mv_debugger_attach(mv_handle *handle, bool *opened);

/* Takes as many of the bytes that came from the target as fit, and tells how many; none where no session is open. */
uint32_t mv_debugger_feed(mv_handle *handle, const uint8_t *bytes, size_t length, size_t *count);

/* Moves as many of the bytes that are to be sent to the front of `out` as fit, and tells how many. */
uint32_t mv_debugger_take(mv_handle *handle, uint8_t *out, size_t room, size_t *count);

/* Tells how many bytes mv_debugger_feed would take, how many wait to leave, and whether a session is open. While more than 65,535 wait to
 * leave, turns do nothing: take them first. */
uint32_t mv_debugger_waiting(mv_handle *handle, size_t *room, size_t *waiting, bool *open);

/* Asks a command, by its command set, its number in the set and its data as bytes (big-endian, in ids of the target's widths): its packet
 * is to leave. Its answer is read by a later turn, under `ticket`: tickets rise from 1, none is given twice.
 * MV_REFUSED with the first reason in `refused`, where the session is
 *   33 closed, 31 the widths of ids are not known yet (turn until MV_HEARD_SIZES), 36 there is no such command or the bytes are not its data,
 *   32 too much waits, 34 its packet would be too long. MV_NO_MEMORY. */
uint32_t mv_debugger_ask(mv_handle *handle, uint8_t set, uint8_t number, const uint8_t *data, size_t length, uint64_t *ticket, uint16_t *refused);

/* What a turn read. */
enum {
    MV_HEARD_NOTHING = 0,  /* nothing: no message is whole, or the session is closed, or too much waits to leave */
    MV_HEARD_HELLO = 1,    /* the target's handshake; IDSizes is to leave */
    MV_HEARD_PARKED = 2,   /* a composite event, which waits for the widths of ids */
    MV_HEARD_SIZES = 3,    /* the widths of ids; the composites that waited, `items` of them, are told now */
    MV_HEARD_ANSWERED = 4, /* the answer to the command asked under `ticket`: data, one item, or an error code, no item */
    MV_HEARD_SEEN = 5      /* a composite event, one item */
};

typedef struct {
    uint8_t kind;
    uint16_t error; /* the JDWP error code of an answer that is an error, else 0 */
    uint16_t fault; /* why the turn failed, 41 to 46, else 0 */
    uint16_t frame; /* behind fault 41 the number of the frame's fault, 1 to 4, else 0 */
    uint64_t ticket;
    size_t items;
} mv_heard;

/* Handles the message in front, if one is whole. What it read is kept until a turn reads again: mv_debugger_data asks for its data.
 * MV_FAULT where the target may not send what it sent: the session is closed, what was learned is forgotten, and the tickets wait for
 * mv_debugger_lose. MV_NO_MEMORY (`fault` 46): nothing changed, the turn may be made again. `out` is not written at MV_EMPTY and
 * MV_OTHER_KIND. */
uint32_t mv_debugger_turn(mv_handle *handle, mv_heard *out);

/* Moves the data of an item of what the last turn read, from 0, to the front of `out`, `needed` bytes: the data of a reply in the layout
 * of its command, or those of a composite event. Booleans are 0 or 1, all else is as it came. Nothing changes: an item may be asked for again.
 * MV_SHORT_BUFFER where `room` is below `needed`, which is told then, too; MV_NO_ITEM; MV_NO_MEMORY; and MV_FAULT where the data can't be written: the
 * contract allows it, and no test has met it. */
uint32_t mv_debugger_data(mv_handle *handle, size_t item, uint8_t *out, size_t room, size_t *needed);

/* Moves the lines of what the last turn read to the front of `out`, `needed` bytes, as mv_show has them, a line a message, each with a newline; no
 * byte where it read nothing or a composite event waits. Nothing changes. MV_SHORT_BUFFER where `room` is below `needed`, which is told then, too;
 * MV_NO_MEMORY. */
uint32_t mv_debugger_lines(mv_handle *handle, uint8_t *out, size_t room, size_t *needed);

/* How many bytes each kind of id has, 1 to 8; all 0 while that is not known. */
typedef struct {
    uint8_t field;
    uint8_t method;
    uint8_t object;
    uint8_t reference;
    uint8_t frame;
} mv_id_widths;

/* Tells the widths of ids, and whether they are known. Nothing is written at another answer than MV_DONE. */
uint32_t mv_debugger_widths(mv_handle *handle, bool *known, mv_id_widths *out);

/* Tells whether a thread is known, its suspend count, and whether the debugger holds it: what the packets read so far say. With a target of
 * this library at the other end a thread that is held is suspended (docs/SUSPENSION.md). Of a debugger made by mv_debugger_new_apart, `known` is
 * whether the thread was named: a composite of its own was read in the session, or an answer without an error about it; `held` is whether it is
 * surely suspended now; and `count` is what its suspend count is surely no less than, 0 where nothing is sure, 4,294,967,295 where it is more:
 * less behind each Resume from the asking on. So of a thread that is known and not held nothing is sure. From the asking of Dispose, Exit or a
 * command on that a target of this library does not carry out, invocations apart, no thread is known. Nothing is written at another answer than
 * MV_DONE. */
uint32_t mv_debugger_thread(mv_handle *handle, uint64_t thread, bool *known, uint32_t *count, bool *held);

/* A command that was asked and is neither answered nor lost. */
typedef struct {
    uint64_t ticket; /* 0: there is none */
    uint8_t set;
    uint8_t number;
} mv_asked;

/* Tells the one at a place, from 0, in the order asked. Nothing is written at another answer than MV_DONE. */
uint32_t mv_debugger_unanswered(mv_handle *handle, size_t place, mv_asked *out);

/* An event request, as the debugger keeps it. */
typedef struct {
    int32_t id;     /* in the target's reply */
    uint8_t kind;   /* of the events, as it was asked */
    uint8_t policy; /* which threads they suspend, as it was asked */
} mv_request;

/* Tells the one at a place, from 0, among the event requests that the target has by all that was read in the session, the last one asked last.
 * MV_NO_ITEM behind the last. Nothing is written at another answer than MV_DONE. */
uint32_t mv_debugger_request(mv_handle *handle, size_t place, mv_request *out);

/* The connection is lost, or given up: the session is closed, nothing waits, nothing is known. Moves the tickets that will never be answered
 * to the front of `tickets`, and tells how many. MV_SHORT_BUFFER, with `count` 1,024 and nothing changed, where `room` is below
 * MV_MOST_TICKETS. */
uint32_t mv_debugger_lose(mv_handle *handle, uint64_t *tickets, size_t room, size_t *count);

/* ---- a target over the machine of a script (docs/SCRIPTS.md) */

/* Keeps a target at a handle that keeps nothing. All its threads begin suspended where `start_all`; no Suspend raises a count above `count_limit`,
 * 1 to 2,147,483,647. MV_DONE (`script.yes`), MV_LIVE, MV_NOT_UTF8, MV_REFUSED (`count_limit`), MV_FAULT with the number of the script's
 * first fault, 21 to 26, in `script.fault`, MV_NO_MEMORY. */
uint32_t mv_target_new(mv_handle *handle, const uint8_t *json, size_t length, bool start_all, uint32_t count_limit, mv_judged *script);

/* Begins a session. `opened` is false, and nothing changes, where a session is open or the machine is dead. */
uint32_t mv_target_accept(mv_handle *handle, bool *opened);

/* Takes as many of the bytes that came from the debugger as fit, and tells how many; none where no session is open. */
uint32_t mv_target_feed(mv_handle *handle, const uint8_t *bytes, size_t length, size_t *count);

/* Moves as many of the bytes that are to be sent to the front of `out` as fit, and tells how many. */
uint32_t mv_target_take(mv_handle *handle, uint8_t *out, size_t room, size_t *count);

/* Tells how many bytes mv_target_feed would take, how many wait to leave, and whether a session is open. */
uint32_t mv_target_waiting(mv_handle *handle, size_t *room, size_t *waiting, bool *open);

/* What a turn did. */
enum {
    MV_HANDLED_NOTHING = 0, /* nothing: no message is whole, or the session is closed, or too much waits to leave */
    MV_HANDLED_HELLO = 1,   /* the handshake */
    MV_HANDLED_REPLIED = 2, /* the command of `id`, replied to with the error code `error`, 0 for none */
    MV_HANDLED_IGNORED = 3, /* a reply, which means nothing to a target */
    MV_HANDLED_DEFERRED = 4 /* comes never: a target kept here defers nothing */
};

typedef struct {
    uint8_t kind;
    uint16_t error;
    uint16_t fault; /* why the bytes in front begin no message, 1 to 4, else 0 */
    uint32_t id;
} mv_handled;

/* Handles the message in front, if one is whole. MV_FAULT where the bytes in front begin no message: the target is as after mv_target_lose.
 * MV_NO_MEMORY: nothing changed. `out` is not written at MV_EMPTY and MV_OTHER_KIND. */
uint32_t mv_target_turn(mv_handle *handle, mv_handled *out);

/* What a step did. */
enum {
    MV_STEP_FROZEN = 0,   /* nothing: the thread is suspended or does not live, or too much waits to leave */
    MV_STEP_QUIET = 1,    /* it made a step; no event request asks for it */
    MV_STEP_REPORTED = 2, /* it made a step, and an event is to leave */
    MV_STEP_ENDED = 3     /* it ended */
};

/* Lets a thread of the machine make a step. */
uint32_t mv_target_step(mv_handle *handle, uint64_t thread, uint8_t *stepped);

/* Tells the thread at a place, from 0, among those that live. */
uint32_t mv_target_live(mv_handle *handle, size_t place, bool *lives, uint64_t *thread);

/* Tells whether a thread lives, and its suspend count. */
uint32_t mv_target_thread(mv_handle *handle, uint64_t thread, bool *lives, uint32_t *count);

/* The connection is lost: the session is closed, every suspend count is 0, there are no event requests. */
uint32_t mv_target_lose(mv_handle *handle);

#ifdef __cplusplus
}
#endif

#endif
