/* A reader of packets and of captures in plain C, written from the specification of JDWP and docs/CAPTURES.md alone, against mv_next_packet and
 * mv_check: on random bytes both have to read the same packet, and of random captures, most of which go wrong somewhere, to name the same first fault in
 * the same line. No widths of ids are told in these captures, and the commands are of sets that JDWP does not have, so data are not judged. And of random
 * bytes mv_next_packets has to tell the places where mv_next_packet finds packets, and the header's own functions to read of them, and
 * mv_packet_in_front to tell, what that tells. */
#include "milunovesk.h"

#include <stdio.h>
#include <stdlib.h>
#include <string.h>

/* ---- random numbers */

static uint64_t state = 88172645463325252u;

static uint32_t below(uint32_t bound) {
    state ^= state << 13;
    state ^= state >> 7;
    state ^= state << 17;
    return (uint32_t)(state >> 33) % bound;
}

/* ---- the reader */

enum { MOST = 4096 };

/* what one end sent and is not yet read */
typedef struct {
    uint8_t bytes[MOST];
    size_t length;
    bool greeted;
} end;

static end ends[2]; /* the debugger, the target */
static uint32_t waiting[MOST]; /* the ids of the commands that wait for replies */
static size_t waiting_count;

static const uint8_t handshake[15] = "JDWP-Handshake";

static uint32_t four(const uint8_t *at) { return (uint32_t)at[0] << 24 | (uint32_t)at[1] << 16 | (uint32_t)at[2] << 8 | at[3]; }

static void drop(end *from, size_t count) {
    from->length -= count;
    memmove(from->bytes, from->bytes + count, from->length);
}

/* The place of an id among those that wait; their count where it is none of them. */
static size_t place_of(uint32_t id) {
    size_t place = 0;
    while (place < waiting_count && waiting[place] != id) place++;
    return place;
}

/* The fault of a whole packet, 0 for none. */
static uint16_t judge_packet(int sender, const uint8_t *packet, size_t length) {
    uint32_t id = four(packet + 4);
    bool is_reply = packet[8] == 0x80;
    if (sender == 0) {
        if (is_reply || packet[9] >= 64) return 56;
        if (place_of(id) < waiting_count) return 53;
        waiting[waiting_count++] = id;
        return 0;
    }
    if (!is_reply) return packet[9] == 64 && packet[10] == 100 ? 0 : 56;
    size_t place = place_of(id);
    if (place == waiting_count) return 54;
    waiting[place] = waiting[--waiting_count];
    return (packet[9] != 0 || packet[10] != 0) && length > 11 ? 55 : 0;
}

/* The fault of the message in front, 0 for none; `read` says whether a whole one was read. */
static uint16_t judge_front(int sender, bool *read) {
    end *from = &ends[sender];
    *read = false;
    if (!from->greeted) {
        for (size_t at = 0; at < 14; at++) {
            if (at == from->length) return 0;
            if (from->bytes[at] != handshake[at]) return 4;
        }
        if (sender == 1 && !ends[0].greeted) return 56;
        from->greeted = *read = true;
        drop(from, 14);
        return 0;
    }
    if (from->length < 4) return 0;
    uint32_t length = four(from->bytes);
    if (length < 11) return 1;
    if (length > 65536) return 2;
    if (from->length < 9) return 0;
    if (from->bytes[8] != 0 && from->bytes[8] != 0x80) return 3;
    if (from->length < length) return 0;
    *read = true;
    uint16_t fault = judge_packet(sender, from->bytes, length);
    drop(from, length);
    return fault;
}

static int digit(char c) {
    return c >= '0' && c <= '9' ? c - '0' : c >= 'a' && c <= 'f' ? c - 'a' + 10 : c >= 'A' && c <= 'F' ? c - 'A' + 10 : -1;
}

/* The bytes of a line behind its sender, or -1 where it is none. */
static long line_bytes(const char *line, size_t length, uint8_t *bytes) {
    if (length < 4 || (line[0] != '>' && line[0] != '<') || line[1] != ' ' || length % 2 != 0) return -1;
    for (size_t at = 2; at < length; at += 2) {
        int high = digit(line[at]), low = digit(line[at + 1]);
        if (high < 0 || low < 0) return -1;
        bytes[at / 2 - 1] = (uint8_t)(high << 4 | low);
    }
    return (long)(length / 2 - 1);
}

static mv_judged read_capture(const char *text, size_t size) {
    uint8_t bytes[MOST];
    mv_judged first = {true, 0, 0};
    memset(ends, 0, sizeof ends);
    waiting_count = 0;
    size_t number = 0;
    for (size_t at = 0; at < size;) {
        const char *stop = memchr(text + at, '\n', size - at);
        size_t length = stop == NULL ? size - at : (size_t)(stop - text) - at;
        long count = line_bytes(text + at, length, bytes);
        number++;
        if (count < 0) return (mv_judged){false, 51, number}; /* before all others */
        if (first.yes) {
            int sender = text[at] == '<';
            memcpy(ends[sender].bytes + ends[sender].length, bytes, (size_t)count);
            ends[sender].length += (size_t)count;
            bool read = true;
            while (read && first.yes) {
                uint16_t fault = judge_front(sender, &read);
                if (fault != 0) first = (mv_judged){false, fault, number};
            }
        }
        at += length + 1;
    }
    return first;
}

/* ---- random captures */

static char text[2 * MOST];
static uint8_t asked[64]; /* ids under which the debugger asked, with which replies mostly come */
static uint32_t asked_count;
static size_t size;

static void put_line(int sender, const uint8_t *bytes, size_t count) {
    size += (size_t)sprintf(text + size, "%c ", sender == 0 ? '>' : '<');
    for (size_t at = 0; at < count; at++) size += (size_t)sprintf(text + size, below(2) ? "%02x" : "%02X", bytes[at]);
    text[size++] = '\n';
}

/* A message, cut into lines anywhere, some of its bytes changed now and then. */
static void put_message(int sender, uint8_t *bytes, size_t count) {
    if (below(12) == 0) bytes[below((uint32_t)count)] = (uint8_t)below(256);
    for (size_t at = 0; at < count;) {
        size_t piece = below(3) ? count - at : 1 + below((uint32_t)(count - at));
        put_line(sender, bytes + at, piece);
        at += piece;
    }
}

static void put_packet(int sender) {
    uint8_t bytes[32] = {0};
    size_t data = below(3) ? 0 : below(12);
    bytes[3] = (uint8_t)(11 + data);
    bytes[7] = (uint8_t)below(64);
    bool is_reply = sender == 1 ? below(5) > 0 : below(40) == 0;
    bytes[8] = is_reply ? 0x80 : 0;
    if (is_reply && asked_count > 0 && below(8)) bytes[7] = asked[--asked_count];
    else if (!is_reply && sender == 0) asked[asked_count++] = bytes[7];
    if (is_reply) bytes[10] = data > 0 && below(8) ? 0 : (uint8_t)below(3);
    else if (sender == 1) bytes[9] = 64, bytes[10] = 100;
    else bytes[9] = below(40) == 0 ? (uint8_t)(64 + below(3)) : (uint8_t)(20 + below(44)), bytes[10] = (uint8_t)below(256);
    for (size_t at = 11; at < 11 + data; at++) bytes[at] = (uint8_t)below(256);
    put_message(sender, bytes, 11 + data);
}

static void make_capture(void) {
    uint8_t hello[14];
    size = 0;
    asked_count = 0;
    int first = below(30) == 0;
    for (int turn = 0; turn < 2; turn++) {
        memcpy(hello, handshake, 14);
        put_message(first ^ turn, hello, below(20) ? 14 : 1 + below(14));
    }
    for (uint32_t left = below(30); left > 0; left--) put_packet(asked_count == 0 && below(20) ? 0 : (int)below(2));
    if (below(20) == 0) text[below((uint32_t)size)] = "x>< \n0"[below(6)];
}

/* Whether two packets are told alike. */
static bool are_alike(const mv_framed *one, const mv_framed *other) {
    return one->kind == other->kind && one->set == other->set && one->number == other->number && one->error == other->error && one->fault == other->fault &&
           one->id == other->id && one->length == other->length;
}

/* The packet in front of random bytes, read three times. */
static bool same_front(void) {
    uint8_t bytes[24];
    mv_framed out = {0};
    uint32_t size_of = below(sizeof bytes + 1);
    for (size_t at = 0; at < sizeof bytes; at++) bytes[at] = (uint8_t)below(256);
    for (size_t at = 0; at < 3; at++) if (below(50)) bytes[at] = 0;
    if (below(2)) bytes[3] = (uint8_t)(8 + below(20));
    if (below(4)) bytes[8] = (uint8_t)(below(2) * 128);
    if (mv_next_packet(bytes, size_of, &out) != MV_DONE) return false;
    mv_framed here = mv_packet_in_front(bytes, size_of);
    if (!are_alike(&out, &here)) return false;
    uint32_t length = four(bytes);
    if (size_of < 4) return out.kind == MV_FRONT_MORE;
    if (length < 11) return out.kind == MV_FRONT_FAULT && out.fault == 1;
    if (length > 65536) return out.kind == MV_FRONT_FAULT && out.fault == 2;
    if (size_of < 9) return out.kind == MV_FRONT_MORE;
    if (bytes[8] != 0 && bytes[8] != 0x80) return out.kind == MV_FRONT_FAULT && out.fault == 3;
    if (size_of < length) return out.kind == MV_FRONT_MORE;
    if (out.length != length || out.id != four(bytes + 4)) return false;
    if (bytes[8] == 0) return out.kind == MV_FRONT_COMMAND && out.set == bytes[9] && out.number == bytes[10];
    return out.kind == MV_FRONT_REPLY && out.error == (bytes[9] << 8 | bytes[10]);
}

enum { ROOM = 6 };

/* Whether the header of the packet here is what mv_next_packet told of it. */
static bool is_framed(const uint8_t *at, const mv_framed *framed) {
    if (mv_packet_length(at) != framed->length || mv_packet_id(at) != framed->id) return false;
    if (mv_packet_is_reply(at)) return framed->kind == MV_FRONT_REPLY && mv_packet_error(at) == framed->error;
    return framed->kind == MV_FRONT_COMMAND && mv_packet_set(at) == framed->set && mv_packet_number(at) == framed->number;
}

/* Packets one behind the other in random bytes, most of them whole, told at once and one by one. */
static bool same_packets(void) {
    uint8_t bytes[128];
    size_t size_of = below(sizeof bytes + 1), room = below(ROOM), place = 0;
    for (size_t at = 0; at < sizeof bytes; at++) bytes[at] = (uint8_t)below(256);
    for (size_t at = 0; at + 11 <= sizeof bytes;) {
        bytes[at] = bytes[at + 1] = 0;
        bytes[at + 2] = below(60) == 0;
        bytes[at + 3] = (uint8_t)(below(30) ? 11 + below(20) : below(20));
        bytes[at + 8] = (uint8_t)(below(30) ? below(2) * 128 : below(256));
        at += bytes[at + 3] < 11 ? 11 : bytes[at + 3];
    }
    size_t places[ROOM];
    mv_found found = {9, 9, 9, 9};
    for (size_t each = 0; each < ROOM; each++) places[each] = 777;
    if (mv_next_packets(bytes, size_of, places, room, &found) != MV_DONE || found.count > room) return false;
    mv_framed framed = {0};
    for (size_t each = 0; each < found.count; each++) {
        if (mv_next_packet(bytes + place, size_of - place, &framed) != MV_DONE || (framed.kind != MV_FRONT_COMMAND && framed.kind != MV_FRONT_REPLY)) return false;
        if (places[each] != place || !is_framed(bytes + place, &framed)) return false;
        place += framed.length;
    }
    for (size_t each = found.count; each < ROOM; each++)
        if (places[each] != 777) return false;
    if (mv_next_packet(bytes + place, size_of - place, &framed) != MV_DONE || found.used != place || found.fault != framed.fault) return false;
    if (framed.kind == MV_FRONT_FAULT) return found.left == MV_LEFT_FAULT;
    if (framed.kind == MV_FRONT_MORE) return found.left == (place == size_of ? MV_LEFT_NOTHING : MV_LEFT_BEGINNING);
    return found.left == MV_LEFT_PACKET && found.count == room;
}

int main(void) {
    for (long round = 0; round < 1000000; round++) {
        if (!same_front()) {
            puts("a packet is read otherwise");
            return 1;
        }
        if (!same_packets()) {
            puts("packets are told otherwise at once");
            return 1;
        }
    }
    long found[64] = {0};
    for (long round = 0; round < 50000; round++) {
        mv_judged judged = {0};
        make_capture();
        mv_judged expected = read_capture(text, size);
        if (mv_check((const uint8_t *)text, size, &judged) != MV_DONE || judged.yes != expected.yes || judged.fault != expected.fault || judged.line != expected.line) {
            printf("fault %d in line %zu, and the plain reader says %d in %zu:\n%.*s", judged.fault, judged.line, expected.fault, expected.line, (int)size, text);
            return 1;
        }
        found[expected.fault]++;
    }
    printf("C: 50,000 random captures are judged alike:");
    for (int fault = 0; fault < 64; fault++)
        if (found[fault] > 0) printf(" %ld with fault %d", found[fault], fault);
    puts("");
    return 0;
}
