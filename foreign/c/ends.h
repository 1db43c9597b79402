/* A debugger and a target in one process: what the tests and the example share. */
#ifndef ENDS_H
#define ENDS_H

#include "milunovesk.h"

#include <assert.h>
#include <stdio.h>
#include <stdlib.h>
#include <string.h>

/* The file, whole. The caller frees it. */
static inline uint8_t *read_file(const char *path, size_t *length) {
    FILE *file = fopen(path, "rb");
    if (file == NULL) {
        perror(path);
        exit(1);
    }
    size_t room = 1 << 20;
    uint8_t *bytes = malloc(room);
    assert(bytes != NULL);
    *length = fread(bytes, 1, room, file);
    assert(*length < room);
    fclose(file);
    return bytes;
}

/* Moves what waits at either end to the other. True where something moved. */
static inline bool carry(mv_handle *debugger, mv_handle *target) {
    uint8_t bytes[4096];
    size_t taken = 0, fed = 0, sent = 0, got = 0;
    assert(mv_debugger_take(debugger, bytes, sizeof bytes, &taken) == MV_DONE);
    assert(mv_target_feed(target, bytes, taken, &fed) == MV_DONE);
    assert(fed == taken);
    assert(mv_target_take(target, bytes, sizeof bytes, &sent) == MV_DONE);
    assert(mv_debugger_feed(debugger, bytes, sent, &got) == MV_DONE);
    assert(got == sent);
    return taken + sent > 0;
}

#endif
