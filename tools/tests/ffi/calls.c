/* Every function of deolmutt.h: what it gives, each refusal that a caller can come to, and every null pointer. Ends with a count. */
#include "checks.h"
#include "driven.h"
#include "each.h"
#include "files.h"
#include "folders.h"
#include "judging.h"
#include "listings.h"
#include "passed.h"
#include "worlds.h"

#include <limits.h>
#include <time.h>

static void test_texts(void) {
    static const uint32_t numbers[] = {1,  2,  3,  4,  5,  6,  7,  8,  9,  10, 11, 12, 13, 14, 15, 16, 20, 21, 22, 23, 24, 25, 26, 27, 28,
                                       29, 30, 31, 32, 40, 41, 42, 50, 51, 52, 53, 54, 55, 56, 57, 58, 59, 60, 61, 62, 63,
                                       70, 71, 72, 73, 74, 75, 76, 77, 78, 79, 80, 81, 82, 83, 84, 85, 86};
    uint8_t text[64];
    uint32_t number, at = 0;
    CHECK(deolmutt_abi() == DEOLMUTT_ABI && deolmutt_minor() == DEOLMUTT_MINOR);
    for (number = 0; number < 1000; number++) {
        size_t length = deolmutt_text(number, text, sizeof text);
        int is_one = at < sizeof numbers / sizeof *numbers && numbers[at] == number;
        at += is_one;
        CHECK((length != 0) == is_one && length <= 32);
        CHECK(!is_one || (strlen(deolmutt_strerror((int)number)) == length && memcmp(deolmutt_strerror((int)number), text, length) == 0));
        CHECK(is_one || strcmp(deolmutt_strerror((int)number), number == 0 ? "ok" : "no such status") == 0);
    }
    CHECK(strcmp(deolmutt_strerror(-1), "no such status") == 0 && strcmp(deolmutt_strerror(INT_MIN), "no such status") == 0);
    CHECK(deolmutt_text(DEOLMUTT_NAME_USED, text, sizeof text) == 9 && memcmp(text, "name used", 9) == 0);
    memset(text, '.', sizeof text);
    CHECK(deolmutt_text(DEOLMUTT_NAME_USED, text, 4) == 9 && memcmp(text, "name.", 5) == 0);
    CHECK(deolmutt_text(DEOLMUTT_NAME_USED, NULL, 0) == 9);
    CHECK(deolmutt_text(DEOLMUTT_NAME_USED, NULL, 4) == 0);
    CHECK(deolmutt_text(DEOLMUTT_NAME_USED, text, (size_t)PTRDIFF_MAX + 1) == 0);
    memset(text, '.', sizeof text);
    CHECK(deolmutt_text(DEOLMUTT_BUSY, text, 3) == 4 && memcmp(text, "bus.", 4) == 0);
    CHECK(deolmutt_text(DEOLMUTT_BUSY, text, 5) == 4 && memcmp(text, "busy.", 5) == 0);
    CHECK(deolmutt_text(DEOLMUTT_OVERLAP, text, sizeof text) == 7 && memcmp(text, "overlap", 7) == 0);
    CHECK(deolmutt_text(DEOLMUTT_BUSY, NULL, 0) == 4 && deolmutt_text(DEOLMUTT_BUSY, NULL, 1) == 0);
}

static void refused_load(const char *lines, uint32_t status, uint64_t line) {
    deolmutt_world *world = (deolmutt_world *)&checked;
    uint64_t at = 7;
    CHECK(deolmutt_load(TEXT(lines), &world, &at) == status);
    CHECK(world == NULL && at == line);
}

/* A load is refused for one file, whose name is so many x and then this. */
static void refused_name(const char *place, size_t length, const char *end, uint32_t status) {
    char name[512], lines[600];
    memset(name, 'x', length);
    strcpy(name + length, end);
    sprintf(lines, "folder i\nfile i %s %s 1\n", place, name);
    refused_load(lines, status, 0);
}

static void test_names_of_files(void) {
    static const char with_nul[] = "folder i\nfile i cur x\0y 1\n";
    deolmutt_world *world = NULL;
    uint64_t line = 7;
    CHECK(deolmutt_load((const uint8_t *)with_nul, sizeof with_nul - 1, &world, &line) == DEOLMUTT_BAD_NAME);
    CHECK(world == NULL && line == 0);
    refused_name("tmp", 256, "", DEOLMUTT_BAD_NAME);
    refused_name("new", 256, "", DEOLMUTT_BAD_NAME);
    refused_name("cur", 251, ":2,FS", DEOLMUTT_BAD_NAME);
    refused_name("cur", 1, "/y", DEOLMUTT_BAD_NAME);
    refused_name("cur", 1, "\r", DEOLMUTT_BAD_NAME);
    refused_name("new", 201, "", DEOLMUTT_LONG_UNIQUE);
    refused_name("cur", 201, ":2,FS", DEOLMUTT_LONG_UNIQUE);
}

static void test_loads(void) {
    uint64_t line = 7;
    deolmutt_world *world = NULL;
    refused_load("folder", DEOLMUTT_BAD_COMMAND, 1);
    refused_load("folder i\nfolder i\n", DEOLMUTT_BAD_FOLDER, 2);
    refused_load("folder i\nfile j new u 1\n", DEOLMUTT_UNKNOWN_FOLDER, 2);
    refused_load("folder i\nfile i old u 1\n", DEOLMUTT_BAD_PLACE, 2);
    refused_load("folder i\nfile i new u x\n", DEOLMUTT_BAD_NUMBER, 2);
    refused_load("folder i\nfile i new u\\q 1 \\q\n", DEOLMUTT_BAD_ESCAPE, 2);
    refused_load("folder i\nlist i\n", DEOLMUTT_NOT_IN_THIS_RUN, 2);
    refused_load("folder i\nfile i new u 1\nfile i new u 2\n", DEOLMUTT_SAME_PATH, 0);
    refused_load("folder i\nfile i new u 1\nfile i cur u:2, 2\n", DEOLMUTT_DUPLICATE_UNIQUE, 0);
    CHECK(deolmutt_load(NULL, 0, &world, &line) == DEOLMUTT_OK);
    CHECK(deolmutt_free(world) == DEOLMUTT_OK);
    CHECK(deolmutt_load(NULL, 1, &world, &line) == DEOLMUTT_NULL);
    CHECK(deolmutt_load(NULL, 0, NULL, &line) == DEOLMUTT_NULL);
    CHECK(deolmutt_load(NULL, 0, &world, NULL) == DEOLMUTT_NULL);
    CHECK(deolmutt_load((const uint8_t *)"", (size_t)PTRDIFF_MAX + 1, &world, &line) == DEOLMUTT_LENGTH);
    CHECK(deolmutt_free(NULL) == DEOLMUTT_NULL);
}

/* Stands for the system's own, and counts how often random bytes are asked for. */
static unsigned long draws;
static int is_without_random;

int getentropy(void *buffer, size_t length);
int getentropy(void *buffer, size_t length) {
    draws++;
    memset(buffer, 7, length);
    return is_without_random ? -1 : 0;
}

/* Each call that makes a store draws what it hashes names by, and does without where there is nothing to be drawn. */
static void test_draws(void) {
    static const char lines[] = "folder i\nfile i new u 1 x\n";
    static const char script[] = "folder i\nfile i new u 1 x\nlist i\n";
    deolmutt_world *world = NULL;
    uint8_t out[64];
    size_t length = 0;
    uint64_t line = 7;
    for (is_without_random = 0; is_without_random < 2; is_without_random++) {
        draws = 0;
        CHECK(deolmutt_free(loaded(lines)) == DEOLMUTT_OK && draws == 1);
        CHECK(deolmutt_transcript(TEXT(script), out, sizeof out, &length, &line) == DEOLMUTT_OK && draws == 2);
        CHECK(length == 10 && memcmp(out, "new u - 1\n", 10) == 0);
        CHECK(deolmutt_index(TEXT(lines), out, sizeof out, &length, &line) == DEOLMUTT_OK && draws == 3);
        CHECK(length == 8 && memcmp(out, "i u\nend\n", 8) == 0);
        CHECK(deolmutt_load_files(NULL, 0, NULL, 0, &world) == DEOLMUTT_OK && draws == 4);
        CHECK(deolmutt_free(world) == DEOLMUTT_OK && draws == 4);
    }
    is_without_random = 0;
}

#define COLLIDING 60000

/* Names whose first eight bytes have no part in a hash, unless it is by bytes that were drawn. So many take ten seconds and more then. */
static void test_colliding_names(void) {
    static char lines[COLLIDING * 48 + 16];
    clock_t began = clock();
    size_t at = (size_t)sprintf(lines, "folder i\n");
    int number;
    for (number = 0; number < COLLIDING; number++)
        at += (size_t)sprintf(lines + at, "file i cur %08d\x15\x7c\x4a\x7f\xb9\x79\x37\x9e.M1.host 0 x\n", number);
    CHECK(deolmutt_free(loaded(lines)) == DEOLMUTT_OK);
    CHECK((clock() - began) / CLOCKS_PER_SEC < 5);
}

static void test_submits(void) {
    deolmutt_world *world = loaded("folder a\nfolder b\nfile a cur old:2,F 5 body\n");
    uint64_t job = 99;
    const uint8_t *bytes = (const uint8_t *)"x";
    size_t long_length = (size_t)PTRDIFF_MAX + 1;
#define SUBMIT(kind, folder, unique, to, first, second, number) \
    deolmutt_submit(world, kind, folder, TEXT(unique), to, TEXT(first), TEXT(second), number, &job)
    CHECK(SUBMIT(0, 0, "u", 0, "", "", 1) == DEOLMUTT_BAD_KIND);
    CHECK(SUBMIT(8, 0, "u", 0, "", "", 1) == DEOLMUTT_BAD_KIND);
    CHECK(SUBMIT(DEOLMUTT_SEEN, 0, "u", 0, "S1", "", 1) == DEOLMUTT_BAD_FLAG);
    CHECK(SUBMIT(DEOLMUTT_FLAG, 0, "u", 0, "", "-", 1) == DEOLMUTT_BAD_FLAG);
    CHECK(SUBMIT(DEOLMUTT_DELIVER, 2, "u", 0, "x", "", 1) == DEOLMUTT_NO_FOLDER);
    CHECK(SUBMIT(DEOLMUTT_MOVE, 0, "u", 0, "", "", 1) == DEOLMUTT_SAME_FOLDER);
    CHECK(SUBMIT(DEOLMUTT_MOVE, 0, "u", 9, "", "", 1) == DEOLMUTT_NO_FOLDER);
    CHECK(SUBMIT(DEOLMUTT_DELIVER, 0, ".u", 0, "x", "", 1) == DEOLMUTT_BAD_UNIQUE);
    CHECK(SUBMIT(DEOLMUTT_DELIVER, 0, "", 0, "x", "", 1) == DEOLMUTT_BAD_UNIQUE);
    CHECK(SUBMIT(DEOLMUTT_COPY, 0, "u", 1, "a:b", "", 1) == DEOLMUTT_BAD_UNIQUE);
    CHECK(SUBMIT(DEOLMUTT_EXPUNGE, 0, "u", 0, "", "", 0) == DEOLMUTT_BAD_TRIES);
    CHECK(SUBMIT(DEOLMUTT_EXPUNGE, 0, "u", 0, "", "", 17) == DEOLMUTT_BAD_TRIES);
    CHECK(SUBMIT(DEOLMUTT_DELIVER, 0, "u", 0, "x", "", 0) == DEOLMUTT_BAD_CHUNK);
    CHECK(SUBMIT(DEOLMUTT_DELIVER, 0, "old", 0, "x", "", 1) == DEOLMUTT_NAME_USED);
    CHECK(SUBMIT(DEOLMUTT_COPY, 0, "old", 1, "old", "", 1) == DEOLMUTT_NAME_USED);
    CHECK(job == 0);
    CHECK(SUBMIT(DEOLMUTT_DELIVER, 0, "u", 0, "x", "", 1) == DEOLMUTT_OK && job == 1);
    CHECK(SUBMIT(DEOLMUTT_DELIVER, 0, "u", 0, "x", "", 1) == DEOLMUTT_NAME_USED && job == 0);
    CHECK(SUBMIT(DEOLMUTT_CLEAN, 1, "", 0, "", "", 0) == DEOLMUTT_OK && job == 2);
#undef SUBMIT
    CHECK(deolmutt_submit(NULL, 7, 0, NO_BYTES, 0, NO_BYTES, NO_BYTES, 0, &job) == DEOLMUTT_NULL);
    CHECK(deolmutt_submit(world, 7, 0, NO_BYTES, 0, NO_BYTES, NO_BYTES, 0, NULL) == DEOLMUTT_NULL);
    CHECK(deolmutt_submit(world, 7, 0, NULL, 1, 0, NO_BYTES, NO_BYTES, 0, &job) == DEOLMUTT_NULL);
    CHECK(deolmutt_submit(world, 7, 0, NO_BYTES, 0, NULL, 1, NO_BYTES, 0, &job) == DEOLMUTT_NULL);
    CHECK(deolmutt_submit(world, 7, 0, NO_BYTES, 0, NO_BYTES, NULL, 1, 0, &job) == DEOLMUTT_NULL);
    CHECK(deolmutt_submit(world, 7, 0, bytes, long_length, 0, NO_BYTES, NO_BYTES, 0, &job) == DEOLMUTT_LENGTH);
    CHECK(deolmutt_submit(world, 7, 0, NO_BYTES, 0, bytes, long_length, NO_BYTES, 0, &job) == DEOLMUTT_LENGTH);
    CHECK(deolmutt_submit(world, 7, 0, NO_BYTES, 0, NO_BYTES, bytes, long_length, 0, &job) == DEOLMUTT_LENGTH);
    CHECK(job == 0);
    {
        uint8_t *body = calloc(1, 16777217);
        CHECK(body != NULL);
        CHECK(deolmutt_submit(world, DEOLMUTT_DELIVER, 0, TEXT("v"), 0, body, 16777217, NO_BYTES, 4096, &job) ==
              DEOLMUTT_BODY_TOO_LONG);
        CHECK(deolmutt_submit(world, DEOLMUTT_DELIVER, 0, TEXT("v"), 0, body, 16777216, NO_BYTES, 4096, &job) == DEOLMUTT_OK);
        free(body);
    }
    CHECK(deolmutt_free(world) == DEOLMUTT_OK);
}

static void test_steps(void) {
    deolmutt_world *world = loaded("folder a\n");
    deolmutt_step_out step;
    deolmutt_answer answer = {77, 78};
    uint64_t job = 0, own = 50;
    memset(&step, 9, sizeof step);
    CHECK(deolmutt_step(world, 1, 1, NULL, &step) == DEOLMUTT_NO_JOB);
    CHECK(deolmutt_job_answer(world, 1, &answer) == DEOLMUTT_NO_JOB && answer.kind == 0 && answer.value == 0);
    CHECK(deolmutt_submit(world, DEOLMUTT_DELIVER, 0, TEXT("u"), 0, TEXT("hello"), NO_BYTES, 3, &job) == DEOLMUTT_OK);
    CHECK(deolmutt_job_answer(world, job, &answer) == DEOLMUTT_OK && answer.kind == DEOLMUTT_NO_ANSWER && answer.value == 0);
    CHECK(deolmutt_step(world, job, 50, &own, &step) == DEOLMUTT_OK);
    CHECK(step.call == DEOLMUTT_CREATE && step.reply == DEOLMUTT_DONE && step.effect == 0 && step.answer.kind == DEOLMUTT_NO_ANSWER);
    CHECK(deolmutt_step(world, job, 50, &own, &step) == DEOLMUTT_OK && step.call == DEOLMUTT_APPEND && step.value == 3);
    CHECK(deolmutt_step(world, job, 50, &own, &step) == DEOLMUTT_OK && step.call == DEOLMUTT_APPEND && step.value == 2);
    CHECK(deolmutt_step(world, job, 50, &own, &step) == DEOLMUTT_OK && step.call == DEOLMUTT_LINK && step.effect == 1);
    while (step.answer.kind == DEOLMUTT_NO_ANSWER)
        CHECK(deolmutt_step(world, job, 50, NULL, &step) == DEOLMUTT_OK);
    CHECK(step.answer.kind == DEOLMUTT_DELIVERED);
    CHECK(deolmutt_step(world, job, 51, NULL, &step) == DEOLMUTT_ANSWERED);
    CHECK(deolmutt_job_answer(world, job, &answer) == DEOLMUTT_OK && answer.kind == DEOLMUTT_DELIVERED);
    CHECK(deolmutt_step(NULL, job, 1, NULL, &step) == DEOLMUTT_NULL);
    CHECK(deolmutt_step(world, job, 1, NULL, NULL) == DEOLMUTT_NULL);
    CHECK(deolmutt_job_answer(NULL, job, &answer) == DEOLMUTT_NULL);
    CHECK(deolmutt_job_answer(world, job, NULL) == DEOLMUTT_NULL);
    CHECK(deolmutt_free(world) == DEOLMUTT_OK);
}

/* Each answer that one job after another, on one clock, can come to. */
static void test_answers(void) {
    deolmutt_world *world = loaded("folder a\nfolder b\nfile a cur odd:1,x 5 x\nfile b tmp litter 1 x\n");
    deolmutt_answer answer;
    uint64_t job = 0, late = 100 + 24 * 3600;
    deolmutt_step_out step;
    CHECK(done(world, DEOLMUTT_DELIVER, 0, "u", 0, "mail", "", 2, 100, &answer) == DEOLMUTT_OK && answer.kind == DEOLMUTT_DELIVERED);
    CHECK(done(world, DEOLMUTT_SEEN, 0, "u", 0, "S", "", 1, 101, &answer) == DEOLMUTT_OK && answer.kind == DEOLMUTT_FLAGS);
    CHECK(answer.value == (uint64_t)1 << ('S' - 'A'));
    CHECK(done(world, DEOLMUTT_FLAG, 0, "u", 0, "aFz", "S", 1, 102, &answer) == DEOLMUTT_OK && answer.kind == DEOLMUTT_FLAGS);
    CHECK(answer.value == ((uint64_t)1 << 5 | (uint64_t)1 << 26 | (uint64_t)1 << 51));
    CHECK(done(world, DEOLMUTT_EXPUNGE, 0, "u", 0, "", "", 1, 103, &answer) == DEOLMUTT_OK && answer.kind == DEOLMUTT_NOT_TRASHED);
    CHECK(done(world, DEOLMUTT_COPY, 0, "u", 1, "v", "", 1, 104, &answer) == DEOLMUTT_OK && answer.kind == DEOLMUTT_COPIED);
    CHECK(done(world, DEOLMUTT_MOVE, 0, "u", 1, "", "", 1, 105, &answer) == DEOLMUTT_OK && answer.kind == DEOLMUTT_MOVED);
    CHECK(done(world, DEOLMUTT_FLAG, 1, "u", 0, "T", "", 1, 106, &answer) == DEOLMUTT_OK && answer.kind == DEOLMUTT_FLAGS);
    CHECK(done(world, DEOLMUTT_EXPUNGE, 1, "u", 0, "", "", 1, 107, &answer) == DEOLMUTT_OK && answer.kind == DEOLMUTT_EXPUNGED);
    CHECK(done(world, DEOLMUTT_EXPUNGE, 1, "u", 0, "", "", 1, 108, &answer) == DEOLMUTT_OK &&
          answer.kind == DEOLMUTT_MESSAGE_NOT_THERE);
    CHECK(done(world, DEOLMUTT_FLAG, 0, "odd", 0, "S", "", 1, 109, &answer) == DEOLMUTT_OK && answer.kind == DEOLMUTT_OTHER_INFO);
    CHECK(done(world, DEOLMUTT_CLEAN, 1, "", 0, "", "", 0, 200000, &answer) == DEOLMUTT_OK && answer.kind == DEOLMUTT_CLEANED &&
          answer.value == 1);
    CHECK(deolmutt_submit(world, DEOLMUTT_DELIVER, 0, TEXT("slow"), 0, TEXT("x"), NO_BYTES, 1, &job) == DEOLMUTT_OK);
    CHECK(deolmutt_step(world, job, 200000, NULL, &step) == DEOLMUTT_OK);
    do
        CHECK(deolmutt_step(world, job, 200000 + late, NULL, &step) == DEOLMUTT_OK);
    while (step.answer.kind == DEOLMUTT_NO_ANSWER);
    CHECK(step.answer.kind == DEOLMUTT_TIMED_OUT);
    CHECK(deolmutt_free(world) == DEOLMUTT_OK);
}

static void steps(deolmutt_world *world, uint64_t job, uint64_t now, const uint64_t *own, deolmutt_step_out *step) {
    do
        CHECK(deolmutt_step(world, job, now, own, step) == DEOLMUTT_OK);
    while (step->answer.kind == DEOLMUTT_NO_ANSWER);
}

/* A flag change that has listed cur, and then loses its only try to another one. */
static void test_lost(void) {
    deolmutt_world *world = loaded("folder a\nfile a cur u:2,S 5 body\n");
    deolmutt_answer answer;
    deolmutt_step_out step;
    uint64_t slow = 0;
    CHECK(deolmutt_submit(world, DEOLMUTT_FLAG, 0, TEXT("u"), 0, TEXT("R"), NO_BYTES, 1, &slow) == DEOLMUTT_OK);
    CHECK(deolmutt_step(world, slow, 9, NULL, &step) == DEOLMUTT_OK && step.call == DEOLMUTT_LIST && step.value == DEOLMUTT_CUR);
    CHECK(done(world, DEOLMUTT_FLAG, 0, "u", 0, "T", "", 1, 9, &answer) == DEOLMUTT_OK && answer.kind == DEOLMUTT_FLAGS);
    CHECK(deolmutt_step(world, slow, 9, NULL, &step) == DEOLMUTT_OK && step.call == DEOLMUTT_RENAME);
    CHECK(step.reply == DEOLMUTT_NOT_FOUND && step.effect == 0 && step.answer.kind == DEOLMUTT_LOST && step.answer.value == 0);
    CHECK(deolmutt_job_answer(world, slow, &answer) == DEOLMUTT_OK && answer.kind == DEOLMUTT_LOST && answer.value == 0);
    /* With two tries it looks again, and changes what the other left. */
    CHECK(deolmutt_submit(world, DEOLMUTT_FLAG, 0, TEXT("u"), 0, TEXT("R"), NO_BYTES, 2, &slow) == DEOLMUTT_OK);
    CHECK(deolmutt_step(world, slow, 9, NULL, &step) == DEOLMUTT_OK);
    CHECK(done(world, DEOLMUTT_FLAG, 0, "u", 0, "", "S", 1, 9, &answer) == DEOLMUTT_OK && answer.kind == DEOLMUTT_FLAGS);
    steps(world, slow, 9, NULL, &step);
    CHECK(step.answer.kind == DEOLMUTT_FLAGS && step.answer.value == ((uint64_t)1 << ('R' - 'A') | (uint64_t)1 << ('T' - 'A')));
    CHECK(deolmutt_free(world) == DEOLMUTT_OK);
}

/* A delivery whose own clock stands still, and whose file in tmp another job cleans after 36 hours: at an append, and at the link. */
static void test_tmp_gone(void) {
    static const uint32_t calls[] = {DEOLMUTT_APPEND, DEOLMUTT_LINK};
    static const uint64_t before[] = {1, 2};
    int at;
    for (at = 0; at < 2; at++) {
        deolmutt_world *world = loaded("folder a\n");
        deolmutt_answer answer;
        deolmutt_step_out step;
        uint64_t slow = 0, own = 0, taken;
        uint8_t out[16];
        size_t length = 99;
        CHECK(deolmutt_submit(world, DEOLMUTT_DELIVER, 0, TEXT("u"), 0, TEXT("mail"), NO_BYTES, 4, &slow) == DEOLMUTT_OK);
        for (taken = 0; taken < before[at]; taken++)
            CHECK(deolmutt_step(world, slow, 0, &own, &step) == DEOLMUTT_OK && step.reply == DEOLMUTT_DONE);
        CHECK(done(world, DEOLMUTT_CLEAN, 0, "", 0, "", "", 0, 2 * 24 * 3600, &answer) == DEOLMUTT_OK);
        CHECK(answer.kind == DEOLMUTT_CLEANED && answer.value == 1);
        CHECK(deolmutt_step(world, slow, 2 * 24 * 3600, &own, &step) == DEOLMUTT_OK && step.call == calls[at]);
        CHECK(step.reply == DEOLMUTT_NOT_FOUND && step.effect == 0 && step.answer.kind == DEOLMUTT_TMP_GONE && step.answer.value == 0);
        CHECK(deolmutt_list(world, 0, out, sizeof out, &length) == DEOLMUTT_OK && length == 0);
        CHECK(deolmutt_free(world) == DEOLMUTT_OK);
    }
}

/* No call on a world of deolmutt_load gives DEOLMUTT_NAME_TAKEN: where a name is there, or another job is to make it, a delivery and a copy
   are refused as DEOLMUTT_NAME_USED, at any step of the other. Nor does one give DEOLMUTT_FAULT or DEOLMUTT_FAULTED, since no directory in
   memory fails. Here no step of two jobs that want one name shows any of these. */
static void test_name_taken_and_fault_never_come(void) {
    deolmutt_world *world = loaded("folder a\nfile a new there 5 body\nfile a tmp half 5 x\n");
    deolmutt_step_out step;
    uint64_t first = 0, second = 0;
    CHECK(deolmutt_submit(world, DEOLMUTT_DELIVER, 0, TEXT("u"), 0, TEXT("mail"), NO_BYTES, 1, &first) == DEOLMUTT_OK);
    do {
        CHECK(deolmutt_submit(world, DEOLMUTT_DELIVER, 0, TEXT("u"), 0, TEXT("x"), NO_BYTES, 1, &second) == DEOLMUTT_NAME_USED);
        CHECK(deolmutt_submit(world, DEOLMUTT_COPY, 0, TEXT("there"), 0, TEXT("u"), NO_BYTES, 1, &second) == DEOLMUTT_NAME_USED);
        CHECK(deolmutt_submit(world, DEOLMUTT_DELIVER, 0, TEXT("half"), 0, TEXT("x"), NO_BYTES, 1, &second) == DEOLMUTT_NAME_USED);
        CHECK(deolmutt_step(world, first, 9, NULL, &step) == DEOLMUTT_OK);
        CHECK(step.reply != DEOLMUTT_FAULTED && step.answer.kind != DEOLMUTT_FAULT && step.answer.kind != DEOLMUTT_NAME_TAKEN);
    } while (step.answer.kind == DEOLMUTT_NO_ANSWER);
    CHECK(step.answer.kind == DEOLMUTT_DELIVERED && second == 0);
    CHECK(deolmutt_free(world) == DEOLMUTT_OK);
}

static uint64_t little(const uint8_t *at, int bytes) {
    uint64_t value = 0;
    while (bytes-- > 0)
        value = value << 8 | at[bytes];
    return value;
}

static void test_reading(void) {
    deolmutt_world *world = loaded("folder a\nfolder b\nfile a new v 5 \\\\x00end\nfile a cur u:2,S 6 hello\nfile a tmp t 7 x\n");
    uint8_t out[256];
    size_t length = 99;
    memset(out, '.', sizeof out);
    CHECK(deolmutt_list(world, 0, NULL, 0, &length) == DEOLMUTT_ROOM && length == 2 * 16 + 5 + 1);
    CHECK(deolmutt_list(world, 0, out, length - 1, &length) == DEOLMUTT_ROOM && out[0] == '.');
    CHECK(deolmutt_list(world, 0, out, 38, &length) == DEOLMUTT_OK && length == 38 && out[0] != '.' && out[38] == '.');
    CHECK(deolmutt_list(world, 0, out, 39, &length) == DEOLMUTT_OK && length == 38 && out[38] == '.');
    CHECK(deolmutt_list(world, 0, out, sizeof out, &length) == DEOLMUTT_OK && length == 38 && out[38] == '.');
    CHECK(little(out, 4) == DEOLMUTT_CUR && little(out + 4, 4) == 5 && little(out + 8, 8) == 5 && memcmp(out + 16, "u:2,S", 5) == 0);
    CHECK(little(out + 21, 4) == DEOLMUTT_NEW && little(out + 25, 4) == 1 && memcmp(out + 37, "v", 1) == 0);
    CHECK(deolmutt_list(world, 1, out, 0, &length) == DEOLMUTT_OK && length == 0);
    length = 99;
    CHECK(deolmutt_list(world, 2, out, sizeof out, &length) == DEOLMUTT_NO_FOLDER && length == 0);
    CHECK(deolmutt_read(world, TEXT("u"), out, sizeof out, &length) == DEOLMUTT_OK && length == 5 && memcmp(out, "hello", 5) == 0);
    CHECK(deolmutt_read(world, TEXT("u"), out, 4, &length) == DEOLMUTT_ROOM && length == 5);
    length = 99;
    CHECK(deolmutt_read(world, TEXT("w"), out, sizeof out, &length) == DEOLMUTT_NOT_THERE && length == 0);
    CHECK(deolmutt_read(world, NULL, 0, out, sizeof out, &length) == DEOLMUTT_NOT_THERE);
    CHECK(deolmutt_names(world, 0, DEOLMUTT_TMP, 0, out, sizeof out, &length) == DEOLMUTT_OK && length == 1 && out[0] == 't');
    CHECK(deolmutt_names(world, 0, DEOLMUTT_CUR, 0, out, 4, &length) == DEOLMUTT_ROOM && length == 5);
    CHECK(deolmutt_names(world, 0, DEOLMUTT_CUR, 1, out, sizeof out, &length) == DEOLMUTT_NOT_THERE);
    CHECK(deolmutt_names(world, 2, DEOLMUTT_CUR, 0, out, sizeof out, &length) == DEOLMUTT_NOT_THERE);
    CHECK(deolmutt_names(world, 0, 3, 0, out, sizeof out, &length) == DEOLMUTT_NO_PLACE);
    CHECK(deolmutt_list(NULL, 0, out, 9, &length) == DEOLMUTT_NULL);
    CHECK(deolmutt_list(world, 0, NULL, 9, &length) == DEOLMUTT_NULL);
    CHECK(deolmutt_list(world, 0, out, 9, NULL) == DEOLMUTT_NULL);
    CHECK(deolmutt_list(world, 0, out, (size_t)PTRDIFF_MAX + 1, &length) == DEOLMUTT_LENGTH);
    CHECK(deolmutt_read(NULL, NO_BYTES, out, 9, &length) == DEOLMUTT_NULL);
    CHECK(deolmutt_read(world, NULL, 1, out, 9, &length) == DEOLMUTT_NULL);
    CHECK(deolmutt_read(world, NO_BYTES, NULL, 9, &length) == DEOLMUTT_NULL);
    CHECK(deolmutt_read(world, NO_BYTES, out, 9, NULL) == DEOLMUTT_NULL);
    CHECK(deolmutt_read(world, out, (size_t)PTRDIFF_MAX + 1, out, 9, &length) == DEOLMUTT_LENGTH);
    CHECK(deolmutt_read(world, NO_BYTES, out, (size_t)PTRDIFF_MAX + 1, &length) == DEOLMUTT_LENGTH);
    CHECK(deolmutt_names(NULL, 0, 0, 0, out, 9, &length) == DEOLMUTT_NULL);
    CHECK(deolmutt_names(world, 0, 0, 0, NULL, 9, &length) == DEOLMUTT_NULL);
    CHECK(deolmutt_names(world, 0, 0, 0, out, 9, NULL) == DEOLMUTT_NULL);
    CHECK(deolmutt_names(world, 0, 0, 0, out, (size_t)PTRDIFF_MAX + 1, &length) == DEOLMUTT_LENGTH);
    CHECK(deolmutt_free(world) == DEOLMUTT_OK);
}

static size_t put(uint8_t *out, uint64_t value, int bytes) {
    int at;
    for (at = 0; at < bytes; at++)
        out[at] = (uint8_t)(value >> (8 * at));
    return (size_t)bytes;
}

static size_t put_record(uint8_t *out, uint32_t kind, uint32_t folder, uint32_t to, const char *unique, const char *first,
                         const char *second, uint64_t number) {
    size_t at = 0;
    at += put(out + at, kind, 4) + put(out + at + 4, folder, 4) + put(out + at + 8, to, 4) + put(out + at + 12, 0, 4);
    at += put(out + at, strlen(unique), 8) + put(out + at + 8, strlen(first), 8) + put(out + at + 16, strlen(second), 8);
    at += put(out + at, number, 8);
    memcpy(out + at, unique, strlen(unique));
    at += strlen(unique);
    memcpy(out + at, first, strlen(first));
    at += strlen(first);
    memcpy(out + at, second, strlen(second));
    return at + strlen(second);
}

static void test_many(void) {
    deolmutt_world *world = loaded("folder a\n");
    deolmutt_answer answers[4];
    uint8_t records[512];
    size_t length = 0, first, count = 99, cut;
    length += put_record(records, DEOLMUTT_DELIVER, 0, 0, "u", "mail", "", 4096);
    first = length;
    length += put_record(records + length, DEOLMUTT_SEEN, 0, 0, "u", "S", "", 1);
    length += put_record(records + length, DEOLMUTT_FLAG, 0, 0, "u", "F", "S", 1);
    memset(answers, 7, sizeof answers);
    CHECK(deolmutt_calls(world, records, length, 5, answers, 4, &count) == DEOLMUTT_OK && count == 3);
    CHECK(answers[0].kind == DEOLMUTT_DELIVERED && answers[1].kind == DEOLMUTT_FLAGS && answers[2].kind == DEOLMUTT_FLAGS);
    CHECK(answers[2].value == (uint64_t)1 << 5 && answers[3].kind == 0x0707070707070707u);
    CHECK(deolmutt_calls(world, records, length, 5, answers, 4, &count) == DEOLMUTT_NAME_USED && count == 0);
    CHECK(deolmutt_calls(world, records + first, length - first, 5, answers, 1, &count) == DEOLMUTT_ROOM && count == 1);
    CHECK(deolmutt_calls(world, NULL, 0, 5, NULL, 0, &count) == DEOLMUTT_OK && count == 0);
    CHECK(deolmutt_calls(world, records, length, 5, NULL, 0, &count) == DEOLMUTT_ROOM && count == 0);
    for (cut = 1; cut < first; cut++) {
        CHECK(deolmutt_calls(world, records, cut, 5, answers, 4, &count) == DEOLMUTT_BAD_RECORD && count == 0);
    }
    memset(records + 16, 255, 8);
    CHECK(deolmutt_calls(world, records, length, 5, answers, 4, &count) == DEOLMUTT_BAD_RECORD && count == 0);
    put_record(records, DEOLMUTT_DELIVER, 0, 0, "v", "mail", "", 4096);
    for (cut = 12; cut < 16; cut++) {
        records[first + cut] = 1;
        CHECK(deolmutt_calls(world, records, length, 5, answers, 1, &count) == (cut == 12 ? DEOLMUTT_ROOM : DEOLMUTT_NAME_USED));
        CHECK(count == (cut == 12));
        CHECK(deolmutt_calls(world, records + first, length - first, 5, answers, 4, &count) == DEOLMUTT_BAD_RECORD && count == 0);
        records[first + cut] = 0;
    }
    records[12] = 1;
    CHECK(deolmutt_calls(world, records, length, 5, answers, 4, &count) == DEOLMUTT_BAD_RECORD && count == 0);
    CHECK(deolmutt_calls(world, records, length, 5, NULL, 0, &count) == DEOLMUTT_ROOM && count == 0);
    put_record(records, DEOLMUTT_SEEN, 0, 0, "v", "SS", "ee", 1);
    records[first + 15] = 255;
    CHECK(deolmutt_calls(world, records, length, 5, answers, 4, &count) == DEOLMUTT_BAD_RECORD && count == 1);
    CHECK(answers[0].kind == DEOLMUTT_FLAGS);
    records[first + 15] = 0;
    put_record(records, 9, 0, 0, "u", "mail", "", 4096);
    CHECK(deolmutt_calls(world, records, first, 5, answers, 4, &count) == DEOLMUTT_BAD_KIND && count == 0);
    CHECK(deolmutt_calls(NULL, records, length, 5, answers, 4, &count) == DEOLMUTT_NULL);
    CHECK(deolmutt_calls(world, NULL, 1, 5, answers, 4, &count) == DEOLMUTT_NULL);
    CHECK(deolmutt_calls(world, records, length, 5, NULL, 4, &count) == DEOLMUTT_NULL);
    CHECK(deolmutt_calls(world, records, length, 5, answers, 4, NULL) == DEOLMUTT_NULL);
    CHECK(deolmutt_calls(world, records, (size_t)PTRDIFF_MAX + 1, 5, answers, 4, &count) == DEOLMUTT_LENGTH);
    CHECK(deolmutt_calls(world, records, length, 5, answers, PTRDIFF_MAX, &count) == DEOLMUTT_LENGTH);
    CHECK(deolmutt_free(world) == DEOLMUTT_OK);
}

static void test_names(void) {
    uint8_t out[256];
    size_t length = 99;
    uint32_t info = 9;
    uint64_t flags = 9, line = 9;
    static const char summary[] = "subject=hi\nfrom=a@b\nend\n";
    CHECK(deolmutt_unique(1000, 5, 7, 1, TEXT("host"), out, sizeof out, &length) == DEOLMUTT_OK);
    CHECK(length == 16 && memcmp(out, "1000.M5P7Q1.host", 16) == 0);
    CHECK(deolmutt_unique(1000, 5, 7, 1, TEXT("host"), out, 15, &length) == DEOLMUTT_ROOM && length == 16);
    CHECK(deolmutt_unique(1000, 1000000, 7, 1, TEXT("host"), out, sizeof out, &length) == DEOLMUTT_BAD_MICRO);
    CHECK(deolmutt_unique(1000, 5, 7, 1, NO_BYTES, out, sizeof out, &length) == DEOLMUTT_BAD_HOST);
    CHECK(deolmutt_unique(1000, 5, 7, 1, NULL, 1, out, sizeof out, &length) == DEOLMUTT_NULL);
    CHECK(deolmutt_unique(1000, 5, 7, 1, NO_BYTES, NULL, 1, &length) == DEOLMUTT_NULL);
    CHECK(deolmutt_unique(1000, 5, 7, 1, NO_BYTES, out, 1, NULL) == DEOLMUTT_NULL);
    CHECK(deolmutt_unique(1000, 5, 7, 1, out, (size_t)PTRDIFF_MAX + 1, out, 1, &length) == DEOLMUTT_LENGTH);
    CHECK(deolmutt_split(TEXT("u.host:2,FS"), &length, &info, &flags) == DEOLMUTT_OK);
    CHECK(length == 6 && info == 1 && flags == ((uint64_t)1 << 5 | (uint64_t)1 << 18));
    CHECK(deolmutt_split(TEXT("u"), &length, &info, &flags) == DEOLMUTT_OK && length == 1 && info == 0 && flags == 0);
    CHECK(deolmutt_split(TEXT("u:1,x"), &length, &info, &flags) == DEOLMUTT_OK && length == 1 && info == 2 && flags == 0);
    length = info = flags = 99;
    CHECK(deolmutt_split(TEXT(".u"), &length, &info, &flags) == DEOLMUTT_NO_MESSAGE_NAME && length == 0 && info == 0 && flags == 0);
    CHECK(deolmutt_split(NO_BYTES, &length, &info, &flags) == DEOLMUTT_NO_MESSAGE_NAME);
    CHECK(deolmutt_split(NULL, 1, &length, &info, &flags) == DEOLMUTT_NULL);
    CHECK(deolmutt_split(NO_BYTES, NULL, &info, &flags) == DEOLMUTT_NULL);
    CHECK(deolmutt_split(NO_BYTES, &length, NULL, &flags) == DEOLMUTT_NULL);
    CHECK(deolmutt_split(NO_BYTES, &length, &info, NULL) == DEOLMUTT_NULL);
    CHECK(deolmutt_summary(TEXT("Subject: hi\nFrom: a@b\n\nbody"), out, sizeof out, &length) == DEOLMUTT_OK);
    CHECK(length == strlen(summary) && memcmp(out, summary, length) == 0);
    CHECK(deolmutt_summary(TEXT("Subject: hi\nFrom: a@b\n\nbody"), out, 3, &length) == DEOLMUTT_ROOM && length == strlen(summary));
    CHECK(deolmutt_summary(NULL, 1, out, 3, &length) == DEOLMUTT_NULL);
    CHECK(deolmutt_summary(NO_BYTES, NULL, 3, &length) == DEOLMUTT_NULL);
    CHECK(deolmutt_summary(NO_BYTES, out, 3, NULL) == DEOLMUTT_NULL);
    CHECK(deolmutt_transcript(TEXT("folder i\njob clean i\n"), out, sizeof out, &length, &line) == DEOLMUTT_OK);
    CHECK(length == 6 && memcmp(out, "job 1\n", 6) == 0 && line == 0);
    CHECK(deolmutt_transcript(TEXT("folder i\njob clean i\nnone\n"), out, sizeof out, &length, &line) == DEOLMUTT_BAD_COMMAND);
    CHECK(length == 6 && memcmp(out, "job 1\n", 6) == 0 && line == 3);
    CHECK(deolmutt_transcript(TEXT("folder i\njob clean i\nnone\n"), out, 5, &length, &line) == DEOLMUTT_ROOM);
    CHECK(length == 6 && line == 3);
    CHECK(deolmutt_transcript(NULL, 1, out, 5, &length, &line) == DEOLMUTT_NULL);
    CHECK(deolmutt_transcript(NO_BYTES, NULL, 5, &length, &line) == DEOLMUTT_NULL);
    CHECK(deolmutt_transcript(NO_BYTES, out, 5, NULL, &line) == DEOLMUTT_NULL);
    CHECK(deolmutt_transcript(NO_BYTES, out, 5, &length, NULL) == DEOLMUTT_NULL);
}

/* An index is refused, at a line. Nothing is laid then, and no length is said. */
static void refused_index(const char *lines, uint32_t status, uint64_t line) {
    uint8_t out[4] = "abc";
    size_t length = 99;
    uint64_t at = 99;
    CHECK(deolmutt_index(TEXT(lines), out, sizeof out, &length, &at) == status);
    CHECK(at == line && length == 0 && memcmp(out, "abc", 4) == 0);
}

static void test_index(void) {
    static const char lines[] = "# a store\nfolder i\nfolder j\nfile j new z 0 Subject: last\\n\nfile i cur b:2,S 5 From: b@c\\nSubject: a\\\\b\\n\\n\n"
                                "file i tmp t 0 Subject: half\\n\nfile i new .h 0\n\nfile i new a 0";
    static const char index[] = "i a\nend\ni b\nsubject=a\\\\b\nfrom=b@c\nend\nj z\nsubject=last\nend\n";
    uint8_t out[256];
    size_t length = 99, whole = strlen(index);
    uint64_t line = 99;
    memset(out, '.', sizeof out);
    CHECK(deolmutt_index(TEXT(lines), out, sizeof out, &length, &line) == DEOLMUTT_OK);
    CHECK(length == whole && memcmp(out, index, whole) == 0 && out[whole] == '.' && line == 0);
    memset(out, '.', sizeof out);
    CHECK(deolmutt_index(TEXT(lines), out, whole - 1, &length, &line) == DEOLMUTT_ROOM);
    CHECK(length == whole && line == 0 && out[0] == '.');
    CHECK(deolmutt_index(TEXT(lines), NULL, 0, &length, &line) == DEOLMUTT_ROOM && length == whole);
    CHECK(deolmutt_index(TEXT(lines), out, whole, &length, &line) == DEOLMUTT_OK && length == whole);
    CHECK(deolmutt_index(NO_BYTES, NULL, 0, &length, &line) == DEOLMUTT_OK && length == 0 && line == 0);
    refused_index("folder i\nlist i\n", DEOLMUTT_NOT_IN_THIS_RUN, 2);
    refused_index("folder i\nfile j new u 0\n", DEOLMUTT_UNKNOWN_FOLDER, 2);
    refused_index("folder i\nfolder i\n", DEOLMUTT_BAD_FOLDER, 2);
    refused_index("folder i\nfile i new u 0 x\\q\nfile i new v\n", DEOLMUTT_BAD_ESCAPE, 2);
    refused_index("folder i\nfile i new u\n", DEOLMUTT_BAD_COMMAND, 2);
    refused_index("folder i\nfile i new u 0\nfile i new u 0\n\n", DEOLMUTT_SAME_PATH, 4);
    refused_index("folder i\nfile i new u 0\nfile i cur u:2, 0\n# last", DEOLMUTT_DUPLICATE_UNIQUE, 4);
    refused_index("folder i\nfile i new a/b 0\n", DEOLMUTT_BAD_NAME, 2);
    CHECK(deolmutt_index(NULL, 1, out, 5, &length, &line) == DEOLMUTT_NULL);
    CHECK(deolmutt_index(NO_BYTES, NULL, 5, &length, &line) == DEOLMUTT_NULL);
    CHECK(deolmutt_index(NO_BYTES, out, 5, NULL, &line) == DEOLMUTT_NULL);
    CHECK(deolmutt_index(NO_BYTES, out, 5, &length, NULL) == DEOLMUTT_NULL);
    CHECK(deolmutt_index(out, (size_t)PTRDIFF_MAX + 1, out, 5, &length, &line) == DEOLMUTT_LENGTH);
    CHECK(deolmutt_index(NO_BYTES, out, (size_t)PTRDIFF_MAX + 1, &length, &line) == DEOLMUTT_LENGTH);
}

static void test_call(void) {
    deolmutt_world *world = loaded("folder a\n");
    deolmutt_answer answer = {77, 78};
    uint64_t job = 99, own = 4;
    CHECK(deolmutt_call(world, 9, 0, TEXT("u"), 0, NO_BYTES, NO_BYTES, 1, 1, NULL, &job, &answer) == DEOLMUTT_BAD_KIND);
    CHECK(job == 0 && answer.kind == DEOLMUTT_NO_ANSWER && answer.value == 0);
    CHECK(deolmutt_call(world, DEOLMUTT_DELIVER, 0, TEXT("u"), 0, NO_BYTES, NO_BYTES, 1, 1, &own, &job, &answer) == DEOLMUTT_OK);
    CHECK(job == 1 && answer.kind == DEOLMUTT_DELIVERED);
    CHECK(deolmutt_call(NULL, 1, 0, NO_BYTES, 0, NO_BYTES, NO_BYTES, 1, 1, NULL, &job, &answer) == DEOLMUTT_NULL);
    CHECK(deolmutt_call(world, 1, 0, NULL, 1, 0, NO_BYTES, NO_BYTES, 1, 1, NULL, &job, &answer) == DEOLMUTT_NULL);
    CHECK(deolmutt_call(world, 1, 0, NO_BYTES, 0, NULL, 1, NO_BYTES, 1, 1, NULL, &job, &answer) == DEOLMUTT_NULL);
    CHECK(deolmutt_call(world, 1, 0, NO_BYTES, 0, NO_BYTES, NULL, 1, 1, 1, NULL, &job, &answer) == DEOLMUTT_NULL);
    CHECK(deolmutt_call(world, 1, 0, NO_BYTES, 0, NO_BYTES, NO_BYTES, 1, 1, NULL, NULL, &answer) == DEOLMUTT_NULL);
    CHECK(deolmutt_call(world, 1, 0, NO_BYTES, 0, NO_BYTES, NO_BYTES, 1, 1, NULL, &job, NULL) == DEOLMUTT_NULL);
    CHECK(deolmutt_free(world) == DEOLMUTT_OK);
}

/* A world that settles: it takes more jobs, and a name that has gone is free again. */
static void test_settle(void) {
    deolmutt_world *world = loaded("folder a\nfile a new kept 5 body\n");
    deolmutt_answer answer;
    deolmutt_step_out step;
    uint8_t out[64];
    size_t length;
    uint64_t job = 99;
    CHECK(deolmutt_settle(NULL, &job) == DEOLMUTT_NULL);
    CHECK(deolmutt_settle(world, NULL) == DEOLMUTT_NULL && job == 0);
    CHECK(deolmutt_settle(world, &job) == DEOLMUTT_OK && job == 0);
    CHECK(done(world, DEOLMUTT_DELIVER, 0, "u", 0, "mail", "", 1, 1, &answer) == DEOLMUTT_OK && answer.kind == DEOLMUTT_DELIVERED);
    CHECK(done(world, DEOLMUTT_SEEN, 0, "u", 0, "T", "", 1, 1, &answer) == DEOLMUTT_OK && answer.kind == DEOLMUTT_FLAGS);
    CHECK(done(world, DEOLMUTT_EXPUNGE, 0, "u", 0, "", "", 1, 1, &answer) == DEOLMUTT_OK && answer.kind == DEOLMUTT_EXPUNGED);
    CHECK(done(world, DEOLMUTT_DELIVER, 0, "u", 0, "again", "", 1, 1, &answer) == DEOLMUTT_NAME_USED);
    CHECK(deolmutt_submit(world, DEOLMUTT_CLEAN, 0, NO_BYTES, 0, NO_BYTES, NO_BYTES, 0, &job) == DEOLMUTT_OK && job == 4);
    CHECK(deolmutt_submit(world, DEOLMUTT_CLEAN, 0, NO_BYTES, 0, NO_BYTES, NO_BYTES, 0, &job) == DEOLMUTT_OK && job == 5);
    CHECK(deolmutt_settle(world, &job) == DEOLMUTT_UNANSWERED && job == 4);
    for (job = 5; job >= 4; job--) {
        uint64_t first;
        CHECK(deolmutt_settle(world, &first) == DEOLMUTT_UNANSWERED && first == 4);
        CHECK(deolmutt_job_answer(world, job, &answer) == DEOLMUTT_OK && answer.kind == DEOLMUTT_NO_ANSWER);
        steps(world, job, 1, NULL, &step);
    }
    CHECK(deolmutt_settle(world, &job) == DEOLMUTT_OK && job == 0);
    CHECK(deolmutt_job_answer(world, 1, &answer) == DEOLMUTT_NO_JOB);
    CHECK(deolmutt_read(world, TEXT("kept"), out, sizeof out, &length) == DEOLMUTT_OK && length == 4 && memcmp(out, "body", 4) == 0);
    CHECK(done(world, DEOLMUTT_DELIVER, 0, "kept", 0, "x", "", 1, 1, &answer) == DEOLMUTT_NAME_USED);
    CHECK(done(world, DEOLMUTT_DELIVER, 0, "u", 0, "again", "", 1, 1, &answer) == DEOLMUTT_OK && answer.kind == DEOLMUTT_DELIVERED);
    CHECK(deolmutt_read(world, TEXT("u"), out, sizeof out, &length) == DEOLMUTT_OK && length == 5 && memcmp(out, "again", 5) == 0);
    CHECK(deolmutt_free(world) == DEOLMUTT_OK);
}

/* 10,000 jobs, and one more, which the settled world takes. */
static void test_full(void) {
    deolmutt_world *world = loaded("folder a\n");
    deolmutt_answer answer;
    uint64_t job = 99;
    char unique[16];
    int at;
    for (at = 0; at < 10000; at++) {
        sprintf(unique, "u%d", at);
        CHECK(done(world, DEOLMUTT_DELIVER, 0, unique, 0, "x", "", 1, 1, &answer) == DEOLMUTT_OK && answer.kind == DEOLMUTT_DELIVERED);
    }
    CHECK(done(world, DEOLMUTT_DELIVER, 0, "v", 0, "x", "", 1, 1, &answer) == DEOLMUTT_TOO_MANY_JOBS);
    CHECK(deolmutt_settle(world, &job) == DEOLMUTT_OK && job == 0);
    CHECK(deolmutt_call(world, DEOLMUTT_DELIVER, 0, TEXT("v"), 0, TEXT("x"), NO_BYTES, 1, 1, NULL, &job, &answer) == DEOLMUTT_OK);
    CHECK(job == 1 && answer.kind == DEOLMUTT_DELIVERED);
    CHECK(done(world, DEOLMUTT_DELIVER, 0, "u9999", 0, "x", "", 1, 1, &answer) == DEOLMUTT_NAME_USED);
    CHECK(deolmutt_free(world) == DEOLMUTT_OK);
}

int main(void) {
    test_texts();
    test_loads();
    test_names_of_files();
    test_draws();
    test_colliding_names();
    test_submits();
    test_steps();
    test_answers();
    test_lost();
    test_tmp_gone();
    test_name_taken_and_fault_never_come();
    test_reading();
    test_many();
    test_names();
    test_index();
    test_call();
    test_settle();
    test_full();
    test_worlds();
    test_driven();
    test_passed();
    test_folders();
    test_listings();
    test_each();
    test_judging();
    test_files();
    printf("%lu checks\n", checked);
    return 0;
}
