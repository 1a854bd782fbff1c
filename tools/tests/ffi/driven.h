/* Driven jobs: each call and each refusal, and each kind of job over a small directory in memory, which is kept here. */
#ifndef DRIVEN_H
#define DRIVEN_H

#include "checks.h"

#define MOST_FILES 8

/* A name of a file of the small directory, with the bytes of the file. */
typedef struct named {
    uint32_t folder;
    uint32_t place;
    size_t length;
    size_t size;
    uint64_t stamp;
    uint8_t name[64];
    uint8_t body[64];
} named;

/* The names that are there, one after another. */
typedef struct directory {
    named files[MOST_FILES];
    size_t count;
} directory;

static named *found(directory *all, uint32_t folder, uint32_t place, const uint8_t *name, size_t length) {
    size_t at;
    for (at = 0; at < all->count; at++) {
        named *file = &all->files[at];
        if (file->folder == folder && file->place == place && file->length == length && memcmp(file->name, name, length) == 0)
            return file;
    }
    return NULL;
}

static named *added(directory *all, uint32_t folder, uint32_t place, const uint8_t *name, size_t length, uint64_t stamp) {
    named *file = &all->files[all->count++];
    CHECK(all->count <= MOST_FILES && length <= sizeof file->name);
    memset(file, 0, sizeof *file);
    file->folder = folder;
    file->place = place;
    file->length = length;
    file->stamp = stamp;
    memcpy(file->name, name, length);
    return file;
}

static int has(directory *all, uint32_t folder, uint32_t place, const char *name) {
    return found(all, folder, place, TEXT(name)) != NULL;
}

/* Makes a link or a rename. */
static uint32_t renamed(directory *all, const deolmutt_request *asked, named *file, const uint8_t *other) {
    named *made;
    if (file == NULL)
        return DEOLMUTT_NOT_FOUND;
    if (found(all, asked->to_folder, asked->to_place, other, asked->second) != NULL)
        return DEOLMUTT_EXISTS;
    made = added(all, asked->to_folder, asked->to_place, other, asked->second, file->stamp);
    made->size = file->size;
    memcpy(made->body, file->body, file->size);
    if (asked->call == DEOLMUTT_RENAME)
        *file = all->files[--all->count];
    return DEOLMUTT_DONE;
}

/* Tells a job each row of a place. */
static void read_place(directory *all, deolmutt_driven *job, uint32_t folder, uint32_t place) {
    size_t at;
    for (at = 0; at < all->count; at++) {
        named *file = &all->files[at];
        if (file->folder == folder && file->place == place)
            CHECK(deolmutt_driven_row(job, file->name, file->length, file->stamp, file->size) == DEOLMUTT_OK);
    }
}

/* Makes the call that a job asks for, and says what is replied. */
static uint32_t made(directory *all, deolmutt_driven *job, const deolmutt_request *asked, const uint8_t *bytes, uint64_t now) {
    const uint8_t *other = bytes + asked->name;
    named *file = found(all, asked->folder, asked->place, bytes, asked->name);
    switch (asked->call) {
    case DEOLMUTT_CREATE:
        if (file != NULL)
            return DEOLMUTT_EXISTS;
        added(all, asked->folder, asked->place, bytes, asked->name, now);
        return DEOLMUTT_DONE;
    case DEOLMUTT_APPEND:
        if (file == NULL)
            return DEOLMUTT_NOT_FOUND;
        CHECK(file->size + asked->second <= sizeof file->body);
        memcpy(file->body + file->size, other, asked->second);
        file->size += asked->second;
        return DEOLMUTT_DONE;
    case DEOLMUTT_UNLINK:
        if (file == NULL)
            return DEOLMUTT_NOT_FOUND;
        *file = all->files[--all->count];
        return DEOLMUTT_DONE;
    case DEOLMUTT_LIST:
        read_place(all, job, asked->folder, asked->place);
        return DEOLMUTT_DONE;
    default:
        return renamed(all, asked, file, other);
    }
}

/* Runs a job to its answer, and counts its calls. */
static deolmutt_answer runs(directory *all, deolmutt_driven *job, uint64_t now, unsigned *calls) {
    uint8_t bytes[256];
    deolmutt_request asked;
    deolmutt_step_out step;
    size_t length;
    *calls = 0;
    do {
        uint32_t reply;
        CHECK(deolmutt_driven_ask(job, now) == DEOLMUTT_OK);
        CHECK(deolmutt_driven_request(job, &asked, bytes, sizeof bytes, &length) == DEOLMUTT_OK);
        CHECK(length == asked.name + asked.second && asked.reserved == 0);
        reply = made(all, job, &asked, bytes, now);
        CHECK(deolmutt_driven_take(job, reply, &step) == DEOLMUTT_OK);
        CHECK(step.call == asked.call && step.reply == reply);
        ++*calls;
    } while (step.answer.kind == DEOLMUTT_NO_ANSWER);
    return step.answer;
}

static deolmutt_driven *driven(uint32_t kind, uint32_t folder, const char *unique, uint32_t to, const char *first, const char *second,
                               uint64_t number) {
    deolmutt_driven *job = NULL;
    CHECK(deolmutt_drive(kind, folder, TEXT(unique), to, TEXT(first), TEXT(second), number, &job) == DEOLMUTT_OK);
    CHECK(job != NULL);
    return job;
}

/* Runs the job of a call, which makes so many directory calls, to this answer. */
static void comes_to(directory *all, uint32_t kind, const char *unique, uint32_t to, const char *first, const char *second, uint64_t number,
                     uint64_t now, unsigned wanted, uint64_t answer_kind, uint64_t value) {
    deolmutt_driven *job = driven(kind, 0, unique, to, first, second, number);
    deolmutt_answer answer = {77, 78};
    unsigned calls;
    CHECK(deolmutt_driven_answer(job, &answer) == DEOLMUTT_OK && answer.kind == DEOLMUTT_NO_ANSWER && answer.value == 0);
    answer = runs(all, job, now, &calls);
    CHECK(calls == wanted && answer.kind == answer_kind && answer.value == value);
    CHECK(deolmutt_driven_ask(job, now) == DEOLMUTT_ANSWERED);
    CHECK(deolmutt_driven_answer(job, &answer) == DEOLMUTT_OK && answer.kind == answer_kind && answer.value == value);
    CHECK(deolmutt_driven_free(job) == DEOLMUTT_OK);
}

/* A message from its delivery to its removal, and a file of tmp that is old. */
static void test_driven_jobs(void) {
    static directory all;
    uint64_t f = (uint64_t)1 << 5, s = (uint64_t)1 << 18, t = (uint64_t)1 << 19;
    comes_to(&all, DEOLMUTT_DELIVER, "\xff.u", 0, "hello\n", "", 4, 1000, 5, DEOLMUTT_DELIVERED, 0);
    CHECK(all.count == 1 && has(&all, 0, DEOLMUTT_NEW, "\xff.u") && all.files[0].size == 6 && memcmp(all.files[0].body, "hello\n", 6) == 0);
    comes_to(&all, DEOLMUTT_FLAG, "\xff.u", 0, "F", "", 2, 1000, 1, DEOLMUTT_MESSAGE_NOT_THERE, 0);
    comes_to(&all, DEOLMUTT_SEEN, "\xff.u", 0, "S", "", 2, 1000, 2, DEOLMUTT_FLAGS, s);
    comes_to(&all, DEOLMUTT_FLAG, "\xff.u", 0, "F", "R", 2, 1000, 2, DEOLMUTT_FLAGS, f | s);
    comes_to(&all, DEOLMUTT_FLAG, "\xff.u", 0, "F", "R", 2, 1000, 1, DEOLMUTT_FLAGS, f | s);
    CHECK(all.count == 1 && has(&all, 0, DEOLMUTT_CUR, "\xff.u:2,FS"));
    comes_to(&all, DEOLMUTT_COPY, "\xff.u", 1, "v", "", 2, 1000, 3, DEOLMUTT_COPIED, 0);
    comes_to(&all, DEOLMUTT_COPY, "\xff.u", 1, "v", "", 2, 1000, 3, DEOLMUTT_NAME_TAKEN, 0);
    CHECK(all.count == 2 && has(&all, 1, DEOLMUTT_CUR, "v:2,FS"));
    comes_to(&all, DEOLMUTT_EXPUNGE, "\xff.u", 0, "", "", 2, 1000, 1, DEOLMUTT_NOT_TRASHED, 0);
    comes_to(&all, DEOLMUTT_FLAG, "\xff.u", 0, "T", "FS", 2, 1000, 2, DEOLMUTT_FLAGS, t);
    comes_to(&all, DEOLMUTT_EXPUNGE, "\xff.u", 0, "", "", 2, 1000, 2, DEOLMUTT_EXPUNGED, 0);
    CHECK(all.count == 1);
    comes_to(&all, DEOLMUTT_DELIVER, "w", 0, "", "", 4, 1000, 3, DEOLMUTT_DELIVERED, 0);
    comes_to(&all, DEOLMUTT_MOVE, "w", 1, "", "", 2, 1000, 2, DEOLMUTT_MOVED, 0);
    CHECK(all.count == 2 && has(&all, 1, DEOLMUTT_NEW, "w"));
    added(&all, 0, DEOLMUTT_TMP, TEXT("old"), 1000);
    added(&all, 0, DEOLMUTT_TMP, TEXT("young"), 1001);
    comes_to(&all, DEOLMUTT_CLEAN, "", 0, "", "", 0, 1000 + 36 * 3600, 2, DEOLMUTT_CLEANED, 1);
    CHECK(all.count == 3 && has(&all, 0, DEOLMUTT_TMP, "young"));
    added(&all, 0, DEOLMUTT_CUR, TEXT("x:1,z"), 1000);
    comes_to(&all, DEOLMUTT_FLAG, "x", 0, "F", "", 2, 1000, 1, DEOLMUTT_OTHER_INFO, 0);
}

/* Asks a job, and takes this reply. */
static deolmutt_step_out replied(deolmutt_driven *job, uint64_t now, uint32_t reply) {
    deolmutt_step_out step;
    CHECK(deolmutt_driven_ask(job, now) == DEOLMUTT_OK);
    CHECK(deolmutt_driven_take(job, reply, &step) == DEOLMUTT_OK);
    return step;
}

/* A name that is gone at the act is looked for again, as often as there are tries; a fault ends the job; a delivery is late after 24 hours. */
static void test_driven_replies(void) {
    deolmutt_driven *job = driven(DEOLMUTT_FLAG, 0, "u", 0, "F", "", 2);
    int tries;
    for (tries = 2; tries > 0; tries--) {
        deolmutt_step_out step;
        CHECK(deolmutt_driven_ask(job, 1) == DEOLMUTT_OK);
        CHECK(deolmutt_driven_row(job, TEXT("uv"), 0, 0) == DEOLMUTT_OK);
        CHECK(deolmutt_driven_row(job, TEXT("u:2,S"), 0, 0) == DEOLMUTT_OK);
        CHECK(deolmutt_driven_row(job, TEXT("u"), 0, 0) == DEOLMUTT_OK);
        CHECK(deolmutt_driven_take(job, DEOLMUTT_DONE, &step) == DEOLMUTT_OK && step.call == DEOLMUTT_LIST && step.value == DEOLMUTT_CUR);
        step = replied(job, 1, DEOLMUTT_NOT_FOUND);
        CHECK(step.call == DEOLMUTT_RENAME && step.effect == 0 && step.answer.kind == (tries == 1 ? DEOLMUTT_LOST : DEOLMUTT_NO_ANSWER));
    }
    CHECK(deolmutt_driven_free(job) == DEOLMUTT_OK);
    job = driven(DEOLMUTT_CLEAN, 0, "", 0, "", "", 0);
    CHECK(replied(job, 1, DEOLMUTT_NOT_FOUND).answer.kind == DEOLMUTT_FAULT);
    CHECK(deolmutt_driven_free(job) == DEOLMUTT_OK);
    job = driven(DEOLMUTT_DELIVER, 0, "u", 0, "hello\n", "", 4);
    CHECK(replied(job, 1000, DEOLMUTT_DONE).call == DEOLMUTT_CREATE);
    CHECK(replied(job, 1000, DEOLMUTT_DONE).value == 4);
    CHECK(replied(job, 1000 + 24 * 3600, DEOLMUTT_DONE).answer.kind == DEOLMUTT_TIMED_OUT);
    CHECK(deolmutt_driven_free(job) == DEOLMUTT_OK);
    job = driven(DEOLMUTT_DELIVER, 0, "u", 0, "", "", 4);
    CHECK(replied(job, 1000, DEOLMUTT_EXISTS).answer.kind == DEOLMUTT_NAME_TAKEN);
    CHECK(deolmutt_driven_free(job) == DEOLMUTT_OK);
    job = driven(DEOLMUTT_DELIVER, 0, "u", 0, "", "", 4);
    CHECK(replied(job, 1000, DEOLMUTT_DONE).call == DEOLMUTT_CREATE);
    CHECK(replied(job, 1000, DEOLMUTT_DONE).effect == 1);
    CHECK(replied(job, 1000, DEOLMUTT_FAULTED).answer.kind == DEOLMUTT_DELIVERED);
    CHECK(deolmutt_driven_free(job) == DEOLMUTT_OK);
}

/* Ask, request, row and take come in this order. */
static void test_driven_order(void) {
    deolmutt_driven *job = driven(DEOLMUTT_EXPUNGE, 7, "u", 0, "", "", 1);
    deolmutt_request asked, no_request;
    deolmutt_step_out step, no_step;
    uint8_t out[16];
    size_t length = 99;
    memset(&no_request, 0, sizeof no_request);
    memset(&no_step, 0, sizeof no_step);
    memset(&asked, 9, sizeof asked);
    memset(&step, 9, sizeof step);
    memset(out, '.', sizeof out);
    CHECK(deolmutt_driven_request(job, &asked, out, sizeof out, &length) == DEOLMUTT_NOT_ASKED);
    CHECK(length == 0 && memcmp(&asked, &no_request, sizeof asked) == 0 && out[0] == '.');
    CHECK(deolmutt_driven_row(job, TEXT("u:2,T"), 0, 0) == DEOLMUTT_NOT_ASKED);
    CHECK(deolmutt_driven_take(job, DEOLMUTT_DONE, &step) == DEOLMUTT_NOT_ASKED && memcmp(&step, &no_step, sizeof step) == 0);
    CHECK(deolmutt_driven_ask(job, 1) == DEOLMUTT_OK);
    CHECK(deolmutt_driven_ask(job, 1) == DEOLMUTT_ASKED);
    CHECK(deolmutt_driven_request(job, &asked, NULL, 0, &length) == DEOLMUTT_OK && length == 0);
    CHECK(asked.call == DEOLMUTT_LIST && asked.folder == 7 && asked.place == DEOLMUTT_CUR && asked.name == 0 && asked.second == 0);
    CHECK(deolmutt_driven_row(job, TEXT("u:2,T"), 0, 0) == DEOLMUTT_OK);
    CHECK(deolmutt_driven_take(job, 0, &step) == DEOLMUTT_BAD_REPLY && memcmp(&step, &no_step, sizeof step) == 0);
    CHECK(deolmutt_driven_take(job, 5, &step) == DEOLMUTT_BAD_REPLY);
    CHECK(deolmutt_driven_take(job, DEOLMUTT_DONE, &step) == DEOLMUTT_OK && step.answer.kind == DEOLMUTT_NO_ANSWER);
    CHECK(deolmutt_driven_take(job, DEOLMUTT_DONE, &step) == DEOLMUTT_NOT_ASKED);
    CHECK(deolmutt_driven_ask(job, 1) == DEOLMUTT_OK);
    CHECK(deolmutt_driven_request(job, &asked, out, 4, &length) == DEOLMUTT_ROOM && length == 5 && asked.name == 5 && out[0] == '.');
    CHECK(deolmutt_driven_request(job, &asked, out, sizeof out, &length) == DEOLMUTT_OK && length == 5);
    CHECK(asked.call == DEOLMUTT_UNLINK && memcmp(out, "u:2,T.", 6) == 0);
    CHECK(deolmutt_driven_take(job, DEOLMUTT_DONE, &step) == DEOLMUTT_OK && step.answer.kind == DEOLMUTT_EXPUNGED && step.effect == 1);
    CHECK(deolmutt_driven_request(job, &asked, out, sizeof out, &length) == DEOLMUTT_NOT_ASKED);
    CHECK(deolmutt_driven_take(job, DEOLMUTT_DONE, &step) == DEOLMUTT_NOT_ASKED);
    CHECK(deolmutt_driven_free(job) == DEOLMUTT_OK);
}

static void refused_drive(uint32_t kind, const char *unique, uint32_t to, const char *first, const char *second, uint64_t number,
                          uint32_t status) {
    deolmutt_driven *job = (deolmutt_driven *)&checked;
    CHECK(deolmutt_drive(kind, 0, TEXT(unique), to, TEXT(first), TEXT(second), number, &job) == status && job == NULL);
}

static void test_driven_refusals(void) {
    deolmutt_driven *job = (deolmutt_driven *)&checked;
    deolmutt_request asked;
    deolmutt_step_out step;
    deolmutt_answer answer;
    uint8_t out[4];
    size_t length;
    refused_drive(0, "u", 0, "", "", 1, DEOLMUTT_BAD_KIND);
    refused_drive(8, "u", 0, "", "", 1, DEOLMUTT_BAD_KIND);
    refused_drive(DEOLMUTT_SEEN, "u", 0, "?", "", 1, DEOLMUTT_BAD_FLAG);
    refused_drive(DEOLMUTT_FLAG, "u", 0, "", "?", 1, DEOLMUTT_BAD_FLAG);
    refused_drive(DEOLMUTT_DELIVER, "", 0, "", "", 0, DEOLMUTT_BAD_UNIQUE);
    refused_drive(DEOLMUTT_DELIVER, "u", 0, "", "", 0, DEOLMUTT_BAD_CHUNK);
    refused_drive(DEOLMUTT_MOVE, "a/b", 0, "", "", 0, DEOLMUTT_SAME_FOLDER);
    refused_drive(DEOLMUTT_MOVE, "a/b", 1, "", "", 0, DEOLMUTT_BAD_UNIQUE);
    refused_drive(DEOLMUTT_MOVE, "u", 1, "", "", 0, DEOLMUTT_BAD_TRIES);
    refused_drive(DEOLMUTT_EXPUNGE, "u", 0, "", "", 17, DEOLMUTT_BAD_TRIES);
    refused_drive(DEOLMUTT_COPY, "u", 0, ".v", "", 1, DEOLMUTT_BAD_UNIQUE);
    refused_drive(DEOLMUTT_COPY, ".u", 0, "v", "", 1, DEOLMUTT_BAD_UNIQUE);
    CHECK(deolmutt_drive(1, 0, NULL, 1, 0, NO_BYTES, NO_BYTES, 1, &job) == DEOLMUTT_NULL);
    CHECK(deolmutt_drive(1, 0, NO_BYTES, 0, NULL, 1, NO_BYTES, 1, &job) == DEOLMUTT_NULL);
    CHECK(deolmutt_drive(1, 0, NO_BYTES, 0, NO_BYTES, NULL, 1, 1, &job) == DEOLMUTT_NULL);
    CHECK(deolmutt_drive(1, 0, NO_BYTES, 0, NO_BYTES, NO_BYTES, 1, NULL) == DEOLMUTT_NULL);
    CHECK(deolmutt_drive(1, 0, out, (size_t)PTRDIFF_MAX + 1, 0, NO_BYTES, NO_BYTES, 1, &job) == DEOLMUTT_LENGTH);
    job = driven(DEOLMUTT_CLEAN, 0, "", 0, "", "", 0);
    CHECK(deolmutt_driven_ask(NULL, 1) == DEOLMUTT_NULL);
    CHECK(deolmutt_driven_request(NULL, &asked, out, 4, &length) == DEOLMUTT_NULL);
    CHECK(deolmutt_driven_request(job, NULL, out, 4, &length) == DEOLMUTT_NULL);
    CHECK(deolmutt_driven_request(job, &asked, NULL, 4, &length) == DEOLMUTT_NULL);
    CHECK(deolmutt_driven_request(job, &asked, out, 4, NULL) == DEOLMUTT_NULL);
    CHECK(deolmutt_driven_request(job, &asked, out, (size_t)PTRDIFF_MAX + 1, &length) == DEOLMUTT_LENGTH);
    CHECK(deolmutt_driven_row(NULL, NO_BYTES, 0, 0) == DEOLMUTT_NULL);
    CHECK(deolmutt_driven_row(job, NULL, 1, 0, 0) == DEOLMUTT_NULL);
    CHECK(deolmutt_driven_row(job, out, (size_t)PTRDIFF_MAX + 1, 0, 0) == DEOLMUTT_LENGTH);
    CHECK(deolmutt_driven_take(NULL, 1, &step) == DEOLMUTT_NULL);
    CHECK(deolmutt_driven_take(job, 1, NULL) == DEOLMUTT_NULL);
    CHECK(deolmutt_driven_answer(NULL, &answer) == DEOLMUTT_NULL);
    CHECK(deolmutt_driven_answer(job, NULL) == DEOLMUTT_NULL);
    CHECK(deolmutt_driven_free(NULL) == DEOLMUTT_NULL);
    CHECK(deolmutt_driven_free(job) == DEOLMUTT_OK);
}

static void test_driven(void) {
    test_driven_jobs();
    test_driven_replies();
    test_driven_order();
    test_driven_refusals();
}

#endif
