/* Prints 32-bit numbers, one a line, that collide in the kit's HashMap: its hashing has a fixed seed, and these agree in the 13 bits by which a table of up to 8,192 groups places them. */
#include <stdint.h>
#include <stdio.h>
#include <stdlib.h>

static uint32_t place(uint32_t id)
{
    const uint64_t seed = 0x243f6a8885a308d3u, factor = 0x9e3779b97f4a7c15u ^ 8;
    unsigned __int128 product = (unsigned __int128)(seed ^ (id | (uint64_t)id << 32)) * factor;
    uint64_t hash = (uint64_t)product ^ (uint64_t)(product >> 64);
    return (uint32_t)(hash ^ hash >> 32);
}

int main(int count, char **words)
{
    long wanted = count > 1 ? atol(words[1]) : 1000;
    for (uint64_t id = 1; wanted > 0 && id < (uint64_t)1 << 32; id++)
        if ((place((uint32_t)id) & 0x1fff) == 0) {
            printf("%lu\n", (unsigned long)id);
            wanted--;
        }
    return 0;
}
