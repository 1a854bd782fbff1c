/*
 * The interface of deolmutt.h over the proved functions of md_ffi. What a proof can't test of C's pointers is tested here, and a call is
 * passed on. A world is a mark and the proved handle in memory of malloc, and so is a driven job.
 */

/* getentropy is no part of C99. */
#ifndef _DEFAULT_SOURCE
#define _DEFAULT_SOURCE
#endif

#include "face.h"

#include <stdlib.h>
#include <unistd.h>

size_t face_draw(uint8_t *seed) { return getentropy(seed, SEED) == 0 ? SEED : 0; }

static struct own own_of(const uint64_t *own) {
    struct own given = {0, 0};
    if (own != NULL) {
        given.is_given = 1;
        given.at = *own;
    }
    return given;
}

static struct asked asked_of(uint32_t kind, uint32_t folder, uint32_t to, uint64_t number) {
    struct asked asked;
    asked.kind = kind;
    asked.folder = folder;
    asked.to = to;
    asked.reserved = 0;
    asked.number = number;
    return asked;
}

uint32_t deolmutt_load(const uint8_t *lines, size_t length, deolmutt_world **world, uint64_t *line) {
    struct deolmutt_world *made;
    uint8_t seed[SEED];
    uint32_t status;
    CLEAR(world);
    CLEAR(line);
    if (IS_NULL(lines, length) || world == NULL || line == NULL)
        return DEOLMUTT_NULL;
    if (IS_LONG(length))
        return DEOLMUTT_LENGTH;
    if (OVERLAPS(2, IT(world), IT(line), SOME(lines, length)))
        return DEOLMUTT_OVERLAP;
    made = calloc(1, sizeof *made);
    if (made == NULL)
        return DEOLMUTT_NO_MEMORY;
    status = md_ffi_load(BYTES(lines, length), seed, face_draw(seed), &made->marked.handle, line);
    if (status == DEOLMUTT_OK && !face_keep_names(made, BYTES(lines, length))) {
        md_ffi_free(&made->marked.handle);
        status = DEOLMUTT_NO_MEMORY;
    }
    if (status != DEOLMUTT_OK) {
        free(made);
        return status;
    }
    made->marked.mark = WORLD_MARK;
    *world = made;
    return DEOLMUTT_OK;
}

uint32_t deolmutt_free(deolmutt_world *world) {
    uint32_t status;
    if (world == NULL)
        return DEOLMUTT_NULL;
    if (!enter_world(world, &status))
        return status;
    status = md_ffi_free(of_world(world));
    free(world->names);
    unmark(&world->marked);
    free(world);
    return status;
}

uint32_t deolmutt_submit(deolmutt_world *world, uint32_t kind, uint32_t folder, const uint8_t *unique, size_t unique_length, uint32_t to,
                         const uint8_t *first, size_t first_length, const uint8_t *second, size_t second_length, uint64_t number,
                         uint64_t *job) {
    uint32_t status;
    struct asked asked = asked_of(kind, folder, to, number);
    CLEAR(job);
    if (world == NULL || job == NULL || IS_NULL(unique, unique_length) || IS_NULL(first, first_length) || IS_NULL(second, second_length))
        return DEOLMUTT_NULL;
    if (IS_LONG(unique_length) || IS_LONG(first_length) || IS_LONG(second_length))
        return DEOLMUTT_LENGTH;
    if (OVERLAPS(1, IT(job), IT(world), SOME(unique, unique_length), SOME(first, first_length), SOME(second, second_length)))
        return DEOLMUTT_OVERLAP;
    if (!enter_world(world, &status))
        return status;
    return leave_world(world, md_ffi_submit(of_world(world), &asked, BYTES(unique, unique_length), BYTES(first, first_length),
                                            BYTES(second, second_length), job));
}

uint32_t deolmutt_step(deolmutt_world *world, uint64_t job, uint64_t now, const uint64_t *own, deolmutt_step_out *step) {
    uint32_t status;
    struct own given = own_of(own);
    CLEAR(step);
    if (world == NULL || step == NULL)
        return DEOLMUTT_NULL;
    if (OVERLAPS(1, IT(step), IT(world), IT(own)))
        return DEOLMUTT_OVERLAP;
    if (!enter_world(world, &status))
        return status;
    return leave_world(world, md_ffi_step(of_world(world), job, now, &given, step));
}

uint32_t deolmutt_call(deolmutt_world *world, uint32_t kind, uint32_t folder, const uint8_t *unique, size_t unique_length, uint32_t to,
                       const uint8_t *first, size_t first_length, const uint8_t *second, size_t second_length, uint64_t number,
                       uint64_t now, const uint64_t *own, uint64_t *job, deolmutt_answer *answer) {
    uint32_t status;
    struct asked asked = asked_of(kind, folder, to, number);
    struct own given = own_of(own);
    CLEAR(job);
    CLEAR(answer);
    if (world == NULL || job == NULL || answer == NULL || IS_NULL(unique, unique_length) || IS_NULL(first, first_length) ||
        IS_NULL(second, second_length))
        return DEOLMUTT_NULL;
    if (IS_LONG(unique_length) || IS_LONG(first_length) || IS_LONG(second_length))
        return DEOLMUTT_LENGTH;
    if (OVERLAPS(2, IT(job), IT(answer), IT(world), IT(own), SOME(unique, unique_length), SOME(first, first_length),
                 SOME(second, second_length)))
        return DEOLMUTT_OVERLAP;
    if (!enter_world(world, &status))
        return status;
    return leave_world(world, md_ffi_call(of_world(world), &asked, BYTES(unique, unique_length), BYTES(first, first_length),
                                          BYTES(second, second_length), now, &given, job, answer));
}

uint32_t deolmutt_job_answer(const deolmutt_world *world, uint64_t job, deolmutt_answer *answer) {
    uint32_t status;
    CLEAR(answer);
    if (world == NULL || answer == NULL)
        return DEOLMUTT_NULL;
    if (OVERLAPS(1, IT(answer), IT(world)))
        return DEOLMUTT_OVERLAP;
    if (!enter_world(world, &status))
        return status;
    return leave_world(world, md_ffi_answer(of_world(world), job, answer));
}

uint32_t deolmutt_settle(deolmutt_world *world, uint64_t *job) {
    uint32_t status;
    CLEAR(job);
    if (world == NULL || job == NULL)
        return DEOLMUTT_NULL;
    if (OVERLAPS(1, IT(job), IT(world)))
        return DEOLMUTT_OVERLAP;
    if (!enter_world(world, &status))
        return status;
    return leave_world(world, md_ffi_settle(of_world(world), job));
}

uint32_t deolmutt_list(const deolmutt_world *world, uint32_t folder, uint8_t *out, size_t room, size_t *length) {
    uint32_t status;
    CLEAR(length);
    if (world == NULL || length == NULL || IS_NULL(out, room))
        return DEOLMUTT_NULL;
    if (IS_LONG(room))
        return DEOLMUTT_LENGTH;
    if (OVERLAPS(2, IT(length), SOME(out, room), IT(world)))
        return DEOLMUTT_OVERLAP;
    if (!enter_world(world, &status))
        return status;
    return leave_world(world, md_ffi_list(of_world(world), folder, ROOM(out, room), length));
}

uint32_t deolmutt_read(const deolmutt_world *world, const uint8_t *unique, size_t unique_length, uint8_t *out, size_t room,
                       size_t *length) {
    uint32_t status;
    CLEAR(length);
    if (world == NULL || length == NULL || IS_NULL(unique, unique_length) || IS_NULL(out, room))
        return DEOLMUTT_NULL;
    if (IS_LONG(unique_length) || IS_LONG(room))
        return DEOLMUTT_LENGTH;
    if (OVERLAPS(2, IT(length), SOME(out, room), IT(world), SOME(unique, unique_length)))
        return DEOLMUTT_OVERLAP;
    if (!enter_world(world, &status))
        return status;
    return leave_world(world, md_ffi_read(of_world(world), BYTES(unique, unique_length), ROOM(out, room), length));
}

uint32_t deolmutt_names(const deolmutt_world *world, uint32_t folder, uint32_t place, uint64_t at, uint8_t *out, size_t room,
                        size_t *length) {
    uint32_t status;
    CLEAR(length);
    if (world == NULL || length == NULL || IS_NULL(out, room))
        return DEOLMUTT_NULL;
    if (IS_LONG(room))
        return DEOLMUTT_LENGTH;
    if (OVERLAPS(2, IT(length), SOME(out, room), IT(world)))
        return DEOLMUTT_OVERLAP;
    if (!enter_world(world, &status))
        return status;
    return leave_world(world, md_ffi_names(of_world(world), folder, place, at, ROOM(out, room), length));
}

uint32_t deolmutt_transcript(const uint8_t *script, size_t length, uint8_t *out, size_t room, size_t *out_length, uint64_t *line) {
    uint8_t seed[SEED];
    CLEAR(out_length);
    CLEAR(line);
    if (out_length == NULL || line == NULL || IS_NULL(script, length) || IS_NULL(out, room))
        return DEOLMUTT_NULL;
    if (IS_LONG(length) || IS_LONG(room))
        return DEOLMUTT_LENGTH;
    if (OVERLAPS(3, IT(out_length), IT(line), SOME(out, room), SOME(script, length)))
        return DEOLMUTT_OVERLAP;
    return md_ffi_transcript(BYTES(script, length), seed, face_draw(seed), ROOM(out, room), out_length, line);
}

uint32_t deolmutt_index(const uint8_t *lines, size_t length, uint8_t *out, size_t room, size_t *out_length, uint64_t *line) {
    uint8_t seed[SEED];
    CLEAR(out_length);
    CLEAR(line);
    if (out_length == NULL || line == NULL || IS_NULL(lines, length) || IS_NULL(out, room))
        return DEOLMUTT_NULL;
    if (IS_LONG(length) || IS_LONG(room))
        return DEOLMUTT_LENGTH;
    if (OVERLAPS(3, IT(out_length), IT(line), SOME(out, room), SOME(lines, length)))
        return DEOLMUTT_OVERLAP;
    return md_ffi_index(BYTES(lines, length), seed, face_draw(seed), ROOM(out, room), out_length, line);
}

uint32_t deolmutt_unique(uint64_t sec, uint64_t micro, uint64_t pid, uint64_t count, const uint8_t *host, size_t host_length, uint8_t *out,
                         size_t room, size_t *length) {
    CLEAR(length);
    if (length == NULL || IS_NULL(host, host_length) || IS_NULL(out, room))
        return DEOLMUTT_NULL;
    if (IS_LONG(host_length) || IS_LONG(room))
        return DEOLMUTT_LENGTH;
    if (OVERLAPS(2, IT(length), SOME(out, room), SOME(host, host_length)))
        return DEOLMUTT_OVERLAP;
    return md_ffi_unique(sec, micro, pid, count, BYTES(host, host_length), ROOM(out, room), length);
}

uint32_t deolmutt_split(const uint8_t *name, size_t length, size_t *unique_length, uint32_t *info, uint64_t *flags) {
    CLEAR(unique_length);
    CLEAR(info);
    CLEAR(flags);
    if (unique_length == NULL || info == NULL || flags == NULL || IS_NULL(name, length))
        return DEOLMUTT_NULL;
    if (IS_LONG(length))
        return DEOLMUTT_LENGTH;
    if (OVERLAPS(3, IT(unique_length), IT(info), IT(flags), SOME(name, length)))
        return DEOLMUTT_OVERLAP;
    return md_ffi_split(BYTES(name, length), unique_length, info, flags);
}

uint32_t deolmutt_summary(const uint8_t *message, size_t length, uint8_t *out, size_t room, size_t *out_length) {
    CLEAR(out_length);
    if (out_length == NULL || IS_NULL(message, length) || IS_NULL(out, room))
        return DEOLMUTT_NULL;
    if (IS_LONG(length) || IS_LONG(room))
        return DEOLMUTT_LENGTH;
    if (OVERLAPS(2, IT(out_length), SOME(out, room), SOME(message, length)))
        return DEOLMUTT_OVERLAP;
    return md_ffi_summary(BYTES(message, length), ROOM(out, room), out_length);
}

uint32_t deolmutt_drive(uint32_t kind, uint32_t folder, const uint8_t *unique, size_t unique_length, uint32_t to, const uint8_t *first,
                        size_t first_length, const uint8_t *second, size_t second_length, uint64_t number, deolmutt_driven **job) {
    struct asked asked = asked_of(kind, folder, to, number);
    struct deolmutt_driven *made;
    uint32_t status;
    CLEAR(job);
    if (job == NULL || IS_NULL(unique, unique_length) || IS_NULL(first, first_length) || IS_NULL(second, second_length))
        return DEOLMUTT_NULL;
    if (IS_LONG(unique_length) || IS_LONG(first_length) || IS_LONG(second_length))
        return DEOLMUTT_LENGTH;
    if (OVERLAPS(1, IT(job), SOME(unique, unique_length), SOME(first, first_length), SOME(second, second_length)))
        return DEOLMUTT_OVERLAP;
    made = calloc(1, sizeof *made);
    if (made == NULL)
        return DEOLMUTT_NO_MEMORY;
    status = md_ffi_drive(&asked, BYTES(unique, unique_length), BYTES(first, first_length), BYTES(second, second_length),
                          &made->marked.handle);
    if (status != DEOLMUTT_OK) {
        free(made);
        return status;
    }
    made->marked.mark = DRIVEN_MARK;
    *job = made;
    return DEOLMUTT_OK;
}

uint32_t deolmutt_driven_free(deolmutt_driven *job) {
    uint32_t status;
    if (job == NULL)
        return DEOLMUTT_NULL;
    if (!enter_driven(job, &status))
        return status;
    status = md_ffi_driven_free(of_driven(job));
    unmark(&job->marked);
    free(job);
    return status;
}

uint32_t deolmutt_driven_ask(deolmutt_driven *job, uint64_t second) {
    uint32_t status;
    if (job == NULL)
        return DEOLMUTT_NULL;
    if (!enter_driven(job, &status))
        return status;
    return leave_driven(job, md_ffi_driven_ask(of_driven(job), second));
}

uint32_t deolmutt_driven_request(const deolmutt_driven *job, deolmutt_request *request, uint8_t *out, size_t room, size_t *length) {
    uint32_t status;
    CLEAR(request);
    CLEAR(length);
    if (job == NULL || request == NULL || length == NULL || IS_NULL(out, room))
        return DEOLMUTT_NULL;
    if (IS_LONG(room))
        return DEOLMUTT_LENGTH;
    if (OVERLAPS(3, IT(request), IT(length), SOME(out, room), IT(job)))
        return DEOLMUTT_OVERLAP;
    if (!enter_driven(job, &status))
        return status;
    return leave_driven(job, md_ffi_driven_request(of_driven(job), request, ROOM(out, room), length));
}

uint32_t deolmutt_driven_row(deolmutt_driven *job, const uint8_t *name, size_t length, uint64_t stamp, uint64_t size) {
    uint32_t status;
    if (job == NULL || IS_NULL(name, length))
        return DEOLMUTT_NULL;
    if (IS_LONG(length))
        return DEOLMUTT_LENGTH;
    if (!enter_driven(job, &status))
        return status;
    return leave_driven(job, md_ffi_driven_row(of_driven(job), BYTES(name, length), stamp, size));
}

uint32_t deolmutt_driven_take(deolmutt_driven *job, uint32_t reply, deolmutt_step_out *step) {
    uint32_t status;
    CLEAR(step);
    if (job == NULL || step == NULL)
        return DEOLMUTT_NULL;
    if (OVERLAPS(1, IT(step), IT(job)))
        return DEOLMUTT_OVERLAP;
    if (!enter_driven(job, &status))
        return status;
    return leave_driven(job, md_ffi_driven_take(of_driven(job), reply, step));
}

uint32_t deolmutt_driven_answer(const deolmutt_driven *job, deolmutt_answer *answer) {
    uint32_t status;
    CLEAR(answer);
    if (job == NULL || answer == NULL)
        return DEOLMUTT_NULL;
    if (OVERLAPS(1, IT(answer), IT(job)))
        return DEOLMUTT_OVERLAP;
    if (!enter_driven(job, &status))
        return status;
    return leave_driven(job, md_ffi_driven_answer(of_driven(job), answer));
}
