/*
 * Many calls in one.
 */
#include "face.h"

/* What stands before the bytes of a record, and in it the word that is 0 and the three lengths. */
#define HEAD 48
#define RESERVED 12
#define LENGTHS 16

/* How many bytes of records stand before the first whose reserved word isn't 0. Where they end amid one, that is all of them: the proved
   function says so. */
static size_t before_reserved(const uint8_t *records, size_t length) {
    size_t left = length, at;
    while (left >= HEAD) {
        const uint8_t *head = records + (length - left);
        if (little(head + RESERVED, 4) != 0)
            return length - left;
        left -= HEAD;
        for (at = LENGTHS; at < LENGTHS + 24; at += 8) {
            uint64_t bytes = little(head + at, 8);
            if (bytes > left)
                return length;
            left -= (size_t)bytes;
        }
    }
    return length;
}

uint32_t deolmutt_calls(deolmutt_world *world, const uint8_t *records, size_t length, uint64_t now, deolmutt_answer *answers, size_t room,
                        size_t *done) {
    deolmutt_answer no_answers[1];
    size_t taken;
    uint32_t status;
    CLEAR(done);
    if (world == NULL || done == NULL || IS_NULL(records, length) || IS_NULL(answers, room))
        return DEOLMUTT_NULL;
    if (IS_LONG(length) || room > (size_t)PTRDIFF_MAX / sizeof *answers)
        return DEOLMUTT_LENGTH;
    if (OVERLAPS(2, IT(done), SOME(answers, room * sizeof *answers), IT(world), SOME(records, length)))
        return DEOLMUTT_OVERLAP;
    if (!enter_world(world, &status))
        return status;
    taken = before_reserved(records, length);
    status = md_ffi_calls(of_world(world), BYTES(records, taken), now, room == 0 ? no_answers : answers, room, done);
    if (status == DEOLMUTT_OK && taken < length)
        status = *done == room ? DEOLMUTT_ROOM : DEOLMUTT_BAD_RECORD;
    return leave_world(world, status);
}
