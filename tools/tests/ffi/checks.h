/* What the tests of calls share: a check that counts, a world of some lines, and a call of words. */
#ifndef CHECKS_H
#define CHECKS_H

#include "deolmutt.h"

#include <stdio.h>
#include <stdlib.h>
#include <string.h>

static unsigned long checked;

#define CHECK(what)                                                                     \
    do {                                                                                \
        checked++;                                                                      \
        if (!(what)) {                                                                  \
            fprintf(stderr, "%s:%d: not so: %s\n", __FILE__, __LINE__, #what);           \
            exit(1);                                                                    \
        }                                                                               \
    } while (0)

#define TEXT(s) (const uint8_t *)(s), strlen(s)
#define NO_BYTES NULL, 0

static inline deolmutt_world *loaded(const char *lines) {
    deolmutt_world *world = NULL;
    uint64_t line = 7;
    CHECK(deolmutt_load(TEXT(lines), &world, &line) == DEOLMUTT_OK);
    CHECK(world != NULL && line == 0);
    return world;
}

static inline uint32_t done(deolmutt_world *world, uint32_t kind, uint32_t folder, const char *unique, uint32_t to, const char *first,
                            const char *second, uint64_t number, uint64_t now, deolmutt_answer *answer) {
    uint64_t job = 99;
    return deolmutt_call(world, kind, folder, TEXT(unique), to, TEXT(first), TEXT(second), number, now, NULL, &job, answer);
}

#endif
