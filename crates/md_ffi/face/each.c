/*
 * One function for each call, over the one that takes all of them.
 */
#include "face.h"

/* A delivery is written in pieces of so many bytes. */
#define PIECE 65536
/* No other job takes a step meanwhile, so one try does. */
#define TRIES 1

#define NOTHING NULL, 0
#define LETTERS(text) (const uint8_t *)(text), strlen(text)

uint32_t deolmutt_deliver(deolmutt_world *world, uint32_t folder, const void *unique, size_t unique_length, const void *message,
                          size_t length, uint64_t now, deolmutt_answer *answer) {
    uint64_t job;
    return deolmutt_call(world, DEOLMUTT_DELIVER, folder, unique, unique_length, 0, message, length, NOTHING, PIECE, now, NULL, &job,
                         answer);
}

uint32_t deolmutt_seen(deolmutt_world *world, uint32_t folder, const void *unique, size_t unique_length, const char *flags, uint64_t now,
                       deolmutt_answer *answer) {
    uint64_t job;
    CLEAR(answer);
    if (flags == NULL)
        return DEOLMUTT_NULL;
    return deolmutt_call(world, DEOLMUTT_SEEN, folder, unique, unique_length, 0, LETTERS(flags), NOTHING, TRIES, now, NULL, &job, answer);
}

uint32_t deolmutt_flag(deolmutt_world *world, uint32_t folder, const void *unique, size_t unique_length, const char *add,
                       const char *remove, uint64_t now, deolmutt_answer *answer) {
    uint64_t job;
    CLEAR(answer);
    if (add == NULL || remove == NULL)
        return DEOLMUTT_NULL;
    return deolmutt_call(world, DEOLMUTT_FLAG, folder, unique, unique_length, 0, LETTERS(add), LETTERS(remove), TRIES, now, NULL, &job,
                         answer);
}

uint32_t deolmutt_move(deolmutt_world *world, uint32_t folder, const void *unique, size_t unique_length, uint32_t to, uint64_t now,
                       deolmutt_answer *answer) {
    uint64_t job;
    return deolmutt_call(world, DEOLMUTT_MOVE, folder, unique, unique_length, to, NOTHING, NOTHING, TRIES, now, NULL, &job, answer);
}

uint32_t deolmutt_copy(deolmutt_world *world, uint32_t folder, const void *unique, size_t unique_length, uint32_t to, const void *fresh,
                       size_t fresh_length, uint64_t now, deolmutt_answer *answer) {
    uint64_t job;
    return deolmutt_call(world, DEOLMUTT_COPY, folder, unique, unique_length, to, fresh, fresh_length, NOTHING, TRIES, now, NULL, &job,
                         answer);
}

uint32_t deolmutt_expunge(deolmutt_world *world, uint32_t folder, const void *unique, size_t unique_length, uint64_t now,
                          deolmutt_answer *answer) {
    uint64_t job;
    return deolmutt_call(world, DEOLMUTT_EXPUNGE, folder, unique, unique_length, 0, NOTHING, NOTHING, TRIES, now, NULL, &job, answer);
}

uint32_t deolmutt_clean(deolmutt_world *world, uint32_t folder, uint64_t now, deolmutt_answer *answer) {
    uint64_t job;
    return deolmutt_call(world, DEOLMUTT_CLEAN, folder, NOTHING, 0, NOTHING, NOTHING, 0, now, NULL, &job, answer);
}
