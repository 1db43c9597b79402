/* Counts the packets of a stream of SuspendCount commands that stands in memory, again and again: `frames PASSES`. */
#include "milunovesk.h"

#include <assert.h>
#include <stdio.h>
#include <stdlib.h>
#include <string.h>

enum { LENGTH = 19, PACKETS = 50000 };

static uint8_t stream[LENGTH * PACKETS];

int main(int count, char **words) {
    static const uint8_t packet[LENGTH] = {0, 0, 0, LENGTH, 0, 0, 0, 1, 0, 11, 12, 0, 0, 0, 0, 0, 0, 0, 1};
    assert(count == 2);
    for (int number = 0; number < PACKETS; number++)
        memcpy(stream + number * LENGTH, packet, LENGTH);
    unsigned long passes = strtoul(words[1], NULL, 10), found = 0;
    for (unsigned long pass = 0; pass < passes; pass++) {
        const uint8_t *at = stream, *end = stream + sizeof stream;
        mv_framed framed = mv_packet_in_front(at, sizeof stream);
        for (; framed.kind == MV_FRONT_COMMAND; framed = mv_packet_in_front(at, (size_t)(end - at))) {
            at += framed.length;
            found++;
        }
    }
    printf("%lu found\n", found);
    return 0;
}
