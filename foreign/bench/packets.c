/* The fields of the packets of a stream of SuspendCount commands that stands in memory, added up again and again: `packets PASSES`. The places of many
 * packets are told at once, and the fields read from their headers. */
#include "milunovesk.h"

#include <assert.h>
#include <inttypes.h>
#include <stdio.h>
#include <stdlib.h>
#include <string.h>

enum { LENGTH = 19, PACKETS = 50000, ROOM = 256 };

static uint8_t stream[LENGTH * PACKETS];

/* The fields of the packet at this place, added up: kind, set and number or error, id, length, and length and place of its data. */
static uint64_t fields(const uint8_t *at, size_t place) {
    size_t length = mv_packet_length(at);
    uint64_t kind = mv_packet_is_reply(at) ? 2 + (uint64_t)mv_packet_error(at) : 1 + (uint64_t)mv_packet_set(at) + mv_packet_number(at);
    return kind + mv_packet_id(at) + length + (length - 11) + (place + 11);
}

/* The fields of the packets of the stream, added up. */
static uint64_t summed(void) {
    static size_t places[ROOM];
    mv_found found = {0};
    uint64_t sum = 0;
    size_t begin = 0;
    do {
        const uint8_t *bytes = stream + begin;
        assert(mv_next_packets(bytes, sizeof stream - begin, places, ROOM, &found) == MV_DONE);
        for (size_t each = 0; each < found.count; each++)
            sum += fields(bytes + places[each], begin + places[each]);
        begin += found.used;
    } while (found.left == MV_LEFT_PACKET);
    return sum;
}

int main(int count, char **words) {
    static const uint8_t packet[LENGTH] = {0, 0, 0, LENGTH, 0, 0, 0, 1, 0, 11, 12, 0, 0, 0, 0, 0, 0, 0, 1};
    assert(count == 2);
    for (int number = 0; number < PACKETS; number++)
        memcpy(stream + number * LENGTH, packet, LENGTH);
    uint64_t all = 0;
    for (unsigned long passes = strtoul(words[1], NULL, 10); passes > 0; passes--)
        all += summed();
    printf("%" PRIu64 " in all\n", all);
    return 0;
}
