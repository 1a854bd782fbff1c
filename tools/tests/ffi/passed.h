/* What is refused before a call is passed on, of every function that has out-parameters: null pointers, too long lengths, and what is to be
   written over something else that is passed. Out-parameters are null, 0 or all zero then. */
#ifndef PASSED_H
#define PASSED_H

#include "checks.h"

/* Everything that a call may write beside `out`. */
typedef struct written {
    deolmutt_world *world;
    deolmutt_driven *driven;
    uint64_t job, line, flags;
    size_t length, done;
    uint32_t info;
    deolmutt_answer answer;
    deolmutt_step_out step;
    deolmutt_request request;
} written;

static written told;

/* The call is refused so, and these out-parameters are cleared. */
#define CLEARS_TWO(call, status, one, other)                                                            \
    do {                                                                                                \
        static const written nothing;                                                                   \
        memset(&told, 9, sizeof told);                                                                  \
        CHECK((call) == (status));                                                                      \
        CHECK(memcmp(&told.one, &nothing.one, sizeof told.one) == 0);                                   \
        CHECK(memcmp(&told.other, &nothing.other, sizeof told.other) == 0);                             \
    } while (0)
#define CLEARS(call, status, one) CLEARS_TWO(call, status, one, one)

#define TOO_LONG ((size_t)PTRDIFF_MAX + 1)

/* Bytes that are passed, which are none of the out-parameters. */
static uint8_t passed[64];

static void test_null_and_length(deolmutt_world *world, deolmutt_driven *driven) {
    const uint8_t *at = passed;
    CLEARS_TWO(deolmutt_load(NULL, 1, &told.world, &told.line), DEOLMUTT_NULL, world, line);
    CLEARS(deolmutt_load(NULL, 0, &told.world, NULL), DEOLMUTT_NULL, world);
    CLEARS(deolmutt_load(NULL, 0, NULL, &told.line), DEOLMUTT_NULL, line);
    CLEARS_TWO(deolmutt_load(at, TOO_LONG, &told.world, &told.line), DEOLMUTT_LENGTH, world, line);
    CLEARS_TWO(deolmutt_load(at, SIZE_MAX, &told.world, &told.line), DEOLMUTT_LENGTH, world, line);
    CLEARS(deolmutt_submit(NULL, 7, 0, NO_BYTES, 0, NO_BYTES, NO_BYTES, 0, &told.job), DEOLMUTT_NULL, job);
    CLEARS(deolmutt_submit(world, 7, 0, at, TOO_LONG, 0, NO_BYTES, NO_BYTES, 0, &told.job), DEOLMUTT_LENGTH, job);
    CLEARS(deolmutt_step(NULL, 1, 1, NULL, &told.step), DEOLMUTT_NULL, step);
    CLEARS_TWO(deolmutt_call(NULL, 7, 0, NO_BYTES, 0, NO_BYTES, NO_BYTES, 0, 1, NULL, &told.job, &told.answer), DEOLMUTT_NULL, job, answer);
    CLEARS(deolmutt_call(world, 7, 0, NO_BYTES, 0, NO_BYTES, NO_BYTES, 0, 1, NULL, NULL, &told.answer), DEOLMUTT_NULL, answer);
    CLEARS_TWO(deolmutt_call(world, 7, 0, NO_BYTES, 0, at, TOO_LONG, NO_BYTES, 0, 1, NULL, &told.job, &told.answer), DEOLMUTT_LENGTH, job,
               answer);
    CLEARS(deolmutt_job_answer(NULL, 1, &told.answer), DEOLMUTT_NULL, answer);
    CLEARS(deolmutt_settle(NULL, &told.job), DEOLMUTT_NULL, job);
    CLEARS(deolmutt_list(NULL, 0, passed, 9, &told.length), DEOLMUTT_NULL, length);
    CLEARS(deolmutt_list(world, 0, passed, TOO_LONG, &told.length), DEOLMUTT_LENGTH, length);
    CLEARS(deolmutt_read(world, NULL, 1, passed, 9, &told.length), DEOLMUTT_NULL, length);
    CLEARS(deolmutt_read(world, at, TOO_LONG, passed, 9, &told.length), DEOLMUTT_LENGTH, length);
    CLEARS(deolmutt_names(world, 0, 0, 0, NULL, 9, &told.length), DEOLMUTT_NULL, length);
    CLEARS(deolmutt_names(world, 0, 0, 0, passed, TOO_LONG, &told.length), DEOLMUTT_LENGTH, length);
    CLEARS(deolmutt_calls(world, NULL, 1, 1, &told.answer, 1, &told.done), DEOLMUTT_NULL, done);
    CLEARS(deolmutt_calls(world, at, TOO_LONG, 1, &told.answer, 1, &told.done), DEOLMUTT_LENGTH, done);
    CLEARS_TWO(deolmutt_transcript(NULL, 1, passed, 9, &told.length, &told.line), DEOLMUTT_NULL, length, line);
    CLEARS_TWO(deolmutt_transcript(at, TOO_LONG, passed, 9, &told.length, &told.line), DEOLMUTT_LENGTH, length, line);
    CLEARS_TWO(deolmutt_index(NULL, 1, passed, 9, &told.length, &told.line), DEOLMUTT_NULL, length, line);
    CLEARS_TWO(deolmutt_index(at, TOO_LONG, passed, 9, &told.length, &told.line), DEOLMUTT_LENGTH, length, line);
    CLEARS(deolmutt_unique(1, 2, 3, 4, NULL, 1, passed, 9, &told.length), DEOLMUTT_NULL, length);
    CLEARS(deolmutt_unique(1, 2, 3, 4, at, TOO_LONG, passed, 9, &told.length), DEOLMUTT_LENGTH, length);
    CLEARS_TWO(deolmutt_split(NULL, 1, &told.length, &told.info, &told.flags), DEOLMUTT_NULL, length, flags);
    CLEARS_TWO(deolmutt_split(at, TOO_LONG, &told.length, &told.info, &told.flags), DEOLMUTT_LENGTH, length, info);
    CLEARS(deolmutt_summary(NULL, 1, passed, 9, &told.length), DEOLMUTT_NULL, length);
    CLEARS(deolmutt_summary(at, TOO_LONG, passed, 9, &told.length), DEOLMUTT_LENGTH, length);
    CLEARS(deolmutt_drive(7, 0, NULL, 1, 0, NO_BYTES, NO_BYTES, 0, &told.driven), DEOLMUTT_NULL, driven);
    CLEARS(deolmutt_drive(7, 0, at, TOO_LONG, 0, NO_BYTES, NO_BYTES, 0, &told.driven), DEOLMUTT_LENGTH, driven);
    CLEARS_TWO(deolmutt_driven_request(NULL, &told.request, passed, 9, &told.length), DEOLMUTT_NULL, request, length);
    CLEARS_TWO(deolmutt_driven_request(driven, &told.request, passed, TOO_LONG, &told.length), DEOLMUTT_LENGTH, request, length);
    CLEARS(deolmutt_driven_take(NULL, 1, &told.step), DEOLMUTT_NULL, step);
    CLEARS(deolmutt_driven_answer(NULL, &told.answer), DEOLMUTT_NULL, answer);
}

/* What is to be written begins in, ends in, holds or is something else that is passed. */
static void test_overlaps(deolmutt_world *world, deolmutt_driven *driven) {
    uint8_t *job = (uint8_t *)&told.job, *answer = (uint8_t *)&told.answer, *step = (uint8_t *)&told.step;
    uint8_t *length = (uint8_t *)&told.length, *line = (uint8_t *)&told.line, *flags = (uint8_t *)&told.flags;
    uint8_t *request = (uint8_t *)&told.request;
    CLEARS_TWO(deolmutt_load((uint8_t *)&told.world, 1, &told.world, &told.line), DEOLMUTT_OVERLAP, world, line);
    CLEARS_TWO(deolmutt_load(line + 7, 9, &told.world, &told.line), DEOLMUTT_OVERLAP, world, line);
    CLEARS_TWO(deolmutt_load(NULL, 0, &told.world, (uint64_t *)&told.world), DEOLMUTT_OVERLAP, world, world);
    CLEARS(deolmutt_submit(world, 1, 0, job, 8, 0, NO_BYTES, NO_BYTES, 1, &told.job), DEOLMUTT_OVERLAP, job);
    CLEARS(deolmutt_submit(world, 1, 0, TEXT("u"), 0, job + 7, 1, NO_BYTES, 1, &told.job), DEOLMUTT_OVERLAP, job);
    CLEARS(deolmutt_submit(world, 3, 0, TEXT("u"), 0, TEXT("F"), job, 1, 1, &told.job), DEOLMUTT_OVERLAP, job);
    CLEARS(deolmutt_step(world, 1, 1, (uint64_t *)(step + 8), &told.step), DEOLMUTT_OVERLAP, step);
    CLEARS_TWO(deolmutt_call(world, 1, 0, job, 8, 0, NO_BYTES, NO_BYTES, 1, 1, NULL, &told.job, &told.answer), DEOLMUTT_OVERLAP, job,
               answer);
    CLEARS_TWO(deolmutt_call(world, 1, 0, TEXT("u"), 0, answer + 15, 4, NO_BYTES, 1, 1, NULL, &told.job, &told.answer), DEOLMUTT_OVERLAP,
               job, answer);
    CLEARS_TWO(deolmutt_call(world, 1, 0, TEXT("u"), 0, NO_BYTES, NO_BYTES, 1, 1, &told.job, &told.job, &told.answer), DEOLMUTT_OVERLAP,
               job, answer);
    CLEARS(deolmutt_call(world, 1, 0, TEXT("u"), 0, NO_BYTES, NO_BYTES, 1, 1, NULL, &told.answer.value, &told.answer), DEOLMUTT_OVERLAP,
           answer);
    CLEARS(deolmutt_list(world, 0, length, 1, &told.length), DEOLMUTT_OVERLAP, length);
    CLEARS(deolmutt_read(world, length, 8, passed, 9, &told.length), DEOLMUTT_OVERLAP, length);
    CLEARS(deolmutt_read(world, passed + 8, 2, passed, 9, &told.length), DEOLMUTT_OVERLAP, length);
    CLEARS(deolmutt_names(world, 0, 0, 0, length + 7, 9, &told.length), DEOLMUTT_OVERLAP, length);
    CLEARS(deolmutt_calls(world, (uint8_t *)&told.done, 8, 1, &told.answer, 1, &told.done), DEOLMUTT_OVERLAP, done);
    CLEARS(deolmutt_calls(world, answer, 16, 1, &told.answer, 1, &told.done), DEOLMUTT_OVERLAP, done);
    CLEARS_TWO(deolmutt_transcript(passed, 9, passed + 8, 9, &told.length, &told.line), DEOLMUTT_OVERLAP, length, line);
    CLEARS_TWO(deolmutt_transcript(line, 8, passed, 9, &told.length, &told.line), DEOLMUTT_OVERLAP, length, line);
    CLEARS_TWO(deolmutt_index(length, 8, passed, 9, &told.length, &told.line), DEOLMUTT_OVERLAP, length, line);
    CLEARS(deolmutt_index(NO_BYTES, passed, 9, &told.length, (uint64_t *)&told.length), DEOLMUTT_OVERLAP, length);
    CLEARS(deolmutt_unique(1, 2, 3, 4, passed, 9, passed, 9, &told.length), DEOLMUTT_OVERLAP, length);
    CLEARS_TWO(deolmutt_split(flags, 8, &told.length, &told.info, &told.flags), DEOLMUTT_OVERLAP, length, flags);
    CLEARS(deolmutt_summary(passed, 64, passed + 63, 1, &told.length), DEOLMUTT_OVERLAP, length);
    CLEARS(deolmutt_drive(1, 0, (uint8_t *)&told.driven, 1, 0, NO_BYTES, NO_BYTES, 1, &told.driven), DEOLMUTT_OVERLAP, driven);
    CLEARS_TWO(deolmutt_driven_request(driven, &told.request, request + 8, 4, &told.length), DEOLMUTT_OVERLAP, request, length);
    CLEARS(deolmutt_driven_request(driven, &told.request, passed, 9, (size_t *)&told.request.name), DEOLMUTT_OVERLAP, request);
}

/* What lies side by side overlaps nothing, and neither do bytes of no length. */
static void test_side_by_side(deolmutt_world *world) {
    uint8_t bytes[8] = "uuuu";
    CHECK(deolmutt_read(world, bytes, 4, bytes + 4, 4, &told.length) == DEOLMUTT_NOT_THERE);
    CHECK(deolmutt_read(world, bytes + 4, 4, bytes, 4, &told.length) == DEOLMUTT_NOT_THERE);
    CHECK(deolmutt_read(world, bytes, 4, bytes + 1, 0, &told.length) == DEOLMUTT_NOT_THERE);
    CHECK(deolmutt_read(world, bytes + 1, 0, bytes, 4, &told.length) == DEOLMUTT_NOT_THERE);
}

static void test_passed(void) {
    deolmutt_world *world = loaded("folder a\n");
    deolmutt_driven *driven = NULL;
    uint64_t job = 9;
    CHECK(deolmutt_drive(DEOLMUTT_CLEAN, 0, NO_BYTES, 0, NO_BYTES, NO_BYTES, 0, &driven) == DEOLMUTT_OK);
    test_null_and_length(world, driven);
    test_overlaps(world, driven);
    test_side_by_side(world);
    CHECK(deolmutt_submit(world, DEOLMUTT_CLEAN, 0, NO_BYTES, 0, NO_BYTES, NO_BYTES, 0, &job) == DEOLMUTT_OK && job == 1);
    CHECK(deolmutt_driven_free(driven) == DEOLMUTT_OK);
    CHECK(deolmutt_free(world) == DEOLMUTT_OK);
}

#endif
