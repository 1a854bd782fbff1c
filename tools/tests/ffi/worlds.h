/* What worlds do, over md_core alone: which of several faults a delivery is refused for, what each step shows, which names a load refuses,
   and what their clock is. */
#ifndef WORLDS_H
#define WORLDS_H

#include "checks.h"

#define MOST_BYTES 16777216
#define BYTES(s) s, sizeof(s) - 1

/* A delivery: its folder, its unique name, the length of its body, its pieces, and what its submit comes to. */
typedef struct delivery {
    uint32_t folder;
    const char *unique;
    size_t unique_length;
    size_t length;
    uint64_t piece;
    uint32_t status;
} delivery;

/* Submits deliveries. Those that are accepted are numbered on from `jobs`, and the others are no jobs. */
static void submit_all(deolmutt_world *world, const delivery *deliveries, size_t count, uint64_t jobs) {
    uint8_t *body = calloc(1, MOST_BYTES + 1);
    deolmutt_answer answer;
    size_t at;
    CHECK(body != NULL);
    for (at = 0; at < count; at++) {
        const delivery *asked = &deliveries[at];
        int is_accepted = asked->status == DEOLMUTT_OK;
        uint64_t job = 99999;
        CHECK(deolmutt_submit(world, DEOLMUTT_DELIVER, asked->folder, (const uint8_t *)asked->unique, asked->unique_length, 0, body,
                              asked->length, NO_BYTES, asked->piece, &job) == asked->status);
        jobs += is_accepted;
        CHECK(job == (is_accepted ? jobs : 0));
        CHECK(deolmutt_job_answer(world, jobs, &answer) == DEOLMUTT_OK);
        CHECK(deolmutt_job_answer(world, jobs + 1, &answer) == DEOLMUTT_NO_JOB);
    }
    free(body);
}

/* A delivery is refused for its first fault: its folder, its unique name, its pieces, its body and then a name that is used. */
static void test_first_faults(void) {
    static const delivery deliveries[] = {
        {1, BYTES("."), MOST_BYTES + 1, 0, DEOLMUTT_NO_FOLDER},
        {UINT32_MAX, BYTES("v"), 0, 1, DEOLMUTT_NO_FOLDER},
        {0, BYTES(""), MOST_BYTES + 1, 0, DEOLMUTT_BAD_UNIQUE},
        {0, BYTES("a:b"), 0, 1, DEOLMUTT_BAD_UNIQUE},
        {0, BYTES("a/b"), 0, 1, DEOLMUTT_BAD_UNIQUE},
        {0, BYTES("a\0"), 0, 1, DEOLMUTT_BAD_UNIQUE},
        {0, BYTES("a\n"), 0, 1, DEOLMUTT_BAD_UNIQUE},
        {0, BYTES("\ra"), 0, 1, DEOLMUTT_BAD_UNIQUE},
        {0, BYTES(".a"), 0, 1, DEOLMUTT_BAD_UNIQUE},
        {0, BYTES("1000.M1P7Q1.a"), MOST_BYTES + 1, 0, DEOLMUTT_BAD_CHUNK},
        {0, BYTES("1000.M1P7Q1.a"), MOST_BYTES + 1, 1, DEOLMUTT_BODY_TOO_LONG},
        {0, BYTES("1000.M1P7Q1.a"), 0, 1, DEOLMUTT_NAME_USED},
        {0, BYTES("v"), MOST_BYTES, UINT64_MAX, DEOLMUTT_OK},
        {0, BYTES("v"), 0, 1, DEOLMUTT_NAME_USED},
        {0, BYTES("w"), 0, 1, DEOLMUTT_OK},
    };
    deolmutt_world *world = loaded("folder a\n");
    uint64_t job = 0;
    CHECK(deolmutt_submit(world, DEOLMUTT_DELIVER, 0, TEXT("1000.M1P7Q1.a"), 0, TEXT("hello\n"), NO_BYTES, 4, &job) == DEOLMUTT_OK);
    CHECK(job == 1);
    submit_all(world, deliveries, sizeof deliveries / sizeof *deliveries, 1);
    CHECK(deolmutt_free(world) == DEOLMUTT_OK);
}

/* The same where 10,000 jobs are there, none of which has an answer: that comes before a name that is used. */
static void test_ten_thousand_jobs(void) {
    static const delivery deliveries[] = {
        {1, BYTES("."), MOST_BYTES + 1, 0, DEOLMUTT_NO_FOLDER},
        {0, BYTES("."), MOST_BYTES + 1, 0, DEOLMUTT_BAD_UNIQUE},
        {0, BYTES("7"), MOST_BYTES + 1, 0, DEOLMUTT_BAD_CHUNK},
        {0, BYTES("7"), MOST_BYTES + 1, 1, DEOLMUTT_BODY_TOO_LONG},
        {0, BYTES("7"), 0, 1, DEOLMUTT_TOO_MANY_JOBS},
        {0, BYTES("v"), 0, 1, DEOLMUTT_TOO_MANY_JOBS},
    };
    deolmutt_world *world = loaded("folder a\n");
    uint64_t number, job = 0;
    char unique[8];
    for (number = 0; number < 10000; number++) {
        sprintf(unique, "%d", (int)number);
        CHECK(deolmutt_submit(world, DEOLMUTT_DELIVER, 0, TEXT(unique), 0, NO_BYTES, NO_BYTES, 1, &job) == DEOLMUTT_OK);
        CHECK(job == number + 1);
    }
    submit_all(world, deliveries, sizeof deliveries / sizeof *deliveries, 10000);
    CHECK(deolmutt_free(world) == DEOLMUTT_OK);
}

/* A job that isn't there, before any step and after. */
static void lacks(deolmutt_world *world, uint64_t job) {
    deolmutt_answer answer = {77, 78};
    deolmutt_step_out step;
    CHECK(deolmutt_step(world, job, 1, NULL, &step) == DEOLMUTT_NO_JOB);
    CHECK(deolmutt_job_answer(world, job, &answer) == DEOLMUTT_NO_JOB && answer.kind == 0 && answer.value == 0);
}

/* A step of job 1, which goes well, and the answer of the job after it. */
static void shows(deolmutt_world *world, uint64_t now, uint32_t call, uint64_t value, uint64_t effect, uint64_t kind) {
    deolmutt_answer answer = {77, 78};
    deolmutt_step_out step;
    memset(&step, 9, sizeof step);
    CHECK(deolmutt_step(world, 1, now, NULL, &step) == DEOLMUTT_OK);
    CHECK(step.call == call && step.value == value && step.reply == DEOLMUTT_DONE && step.effect == effect);
    CHECK(step.answer.kind == kind && step.answer.value == 0);
    CHECK(deolmutt_job_answer(world, 1, &answer) == DEOLMUTT_OK && answer.kind == kind && answer.value == 0);
}

/* The delivery of six bytes by fours, from `now` on, each step a second later than the one before. */
static void takes_five_steps(deolmutt_world *world, uint64_t now) {
    shows(world, now, DEOLMUTT_CREATE, 0, 0, DEOLMUTT_NO_ANSWER);
    shows(world, now + 1, DEOLMUTT_APPEND, 4, 0, DEOLMUTT_NO_ANSWER);
    shows(world, now + 2, DEOLMUTT_APPEND, 2, 0, DEOLMUTT_NO_ANSWER);
    shows(world, now + 3, DEOLMUTT_LINK, 0, 1, DEOLMUTT_NO_ANSWER);
    shows(world, now + 4, DEOLMUTT_UNLINK, 0, 0, DEOLMUTT_DELIVERED);
}

/* The next file has this stamp, though it is made at 0: a clean leaves it a second before 36 hours are over, and then takes it. */
static void next_is_stamped(deolmutt_world *world, uint64_t stamp) {
    deolmutt_answer answer;
    deolmutt_step_out step;
    uint64_t job = 0;
    CHECK(deolmutt_submit(world, DEOLMUTT_DELIVER, 0, TEXT("next"), 0, NO_BYTES, NO_BYTES, 1, &job) == DEOLMUTT_OK);
    CHECK(deolmutt_step(world, job, 0, NULL, &step) == DEOLMUTT_OK && step.call == DEOLMUTT_CREATE);
    CHECK(done(world, DEOLMUTT_CLEAN, 0, "", 0, "", "", 0, stamp + 36 * 3600 - 1, &answer) == DEOLMUTT_OK);
    CHECK(answer.kind == DEOLMUTT_CLEANED && answer.value == 0);
    CHECK(done(world, DEOLMUTT_CLEAN, 0, "", 0, "", "", 0, stamp + 36 * 3600, &answer) == DEOLMUTT_OK);
    CHECK(answer.kind == DEOLMUTT_CLEANED && answer.value == 1);
}

/* A delivery takes five steps, and no sixth, and its latest step is the clock. */
static void test_five_steps(void) {
    deolmutt_world *world = loaded("folder a\n");
    deolmutt_step_out step;
    uint64_t job = 0;
    CHECK(deolmutt_submit(world, DEOLMUTT_DELIVER, 0, TEXT("1000.M1P7Q1.a"), 0, TEXT("hello\n"), NO_BYTES, 4, &job) == DEOLMUTT_OK);
    lacks(world, 0);
    lacks(world, 2);
    lacks(world, UINT64_MAX);
    takes_five_steps(world, 2000);
    CHECK(deolmutt_step(world, 1, 2000, NULL, &step) == DEOLMUTT_ANSWERED);
    lacks(world, 2);
    next_is_stamped(world, 2004);
    CHECK(deolmutt_free(world) == DEOLMUTT_OK);
}

/* A settled world keeps its clock, though no file has its stamp. */
static void test_settled_clock(void) {
    deolmutt_world *world = loaded("folder a\n");
    deolmutt_answer answer;
    uint64_t job = 99;
    CHECK(done(world, DEOLMUTT_CLEAN, 0, "", 0, "", "", 0, 5000, &answer) == DEOLMUTT_OK);
    CHECK(answer.kind == DEOLMUTT_CLEANED && answer.value == 0);
    CHECK(deolmutt_settle(world, &job) == DEOLMUTT_OK && job == 0);
    next_is_stamped(world, 5000);
    CHECK(deolmutt_free(world) == DEOLMUTT_OK);
}

/* No name has a slash, a NUL or a carriage return, in any place. */
static void test_bad_names(void) {
    static const struct {
        const char *name;
        size_t length;
    } names[] = {{BYTES("a/b")}, {BYTES("\0")}, {BYTES("\ra")}, {BYTES("u:2,/")}};
    static const char *const places[] = {"tmp", "new", "cur"};
    size_t name, place;
    for (name = 0; name < sizeof names / sizeof *names; name++) {
        for (place = 0; place < sizeof places / sizeof *places; place++) {
            deolmutt_world *world = NULL;
            uint64_t line = 7;
            char lines[64];
            size_t length = (size_t)sprintf(lines, "folder i\nfile i %s ", places[place]);
            memcpy(lines + length, names[name].name, names[name].length);
            length += names[name].length;
            memcpy(lines + length, " 0 x\n", 5);
            CHECK(deolmutt_load((const uint8_t *)lines, length + 5, &world, &line) == DEOLMUTT_BAD_NAME);
            CHECK(world == NULL && line == 0);
        }
    }
}

/* A name has any other bytes, and its message is read by its unique part. */
static void test_any_bytes(void) {
    deolmutt_world *world = loaded("folder a\nfolder b\nfile b cur \xff\xfe:2,S 0 \xff\xfe:2,S\n");
    uint8_t out[16];
    size_t length = 99;
    CHECK(deolmutt_read(world, TEXT("\xff\xfe"), out, sizeof out, &length) == DEOLMUTT_OK);
    CHECK(length == 6 && memcmp(out, "\xff\xfe:2,S", 6) == 0);
    CHECK(deolmutt_read(world, TEXT("\xff"), out, sizeof out, &length) == DEOLMUTT_NOT_THERE);
    CHECK(deolmutt_read(world, NO_BYTES, out, sizeof out, &length) == DEOLMUTT_NOT_THERE);
    CHECK(deolmutt_free(world) == DEOLMUTT_OK);
}

/* A call that is refused is no job, and its name stays free. */
static void test_refused_call(void) {
    deolmutt_world *world = loaded("folder a\nfile a new u 0 u\nfile a tmp x 0 x\n");
    deolmutt_answer answer = {77, 78};
    uint8_t out[64];
    size_t before = 0, after = 0;
    uint64_t job = 99;
    CHECK(deolmutt_list(world, 0, out, sizeof out, &before) == DEOLMUTT_OK);
    CHECK(deolmutt_call(world, DEOLMUTT_DELIVER, 2, TEXT("v"), 0, TEXT("hello\n"), NO_BYTES, 4, 9, NULL, &job, &answer) ==
          DEOLMUTT_NO_FOLDER);
    CHECK(job == 0 && answer.kind == DEOLMUTT_NO_ANSWER && answer.value == 0);
    CHECK(deolmutt_job_answer(world, 1, &answer) == DEOLMUTT_NO_JOB);
    CHECK(deolmutt_list(world, 0, out, sizeof out, &after) == DEOLMUTT_OK && after == before);
    CHECK(deolmutt_call(world, DEOLMUTT_DELIVER, 0, TEXT("v"), 0, TEXT("hello\n"), NO_BYTES, 4, 9, NULL, &job, &answer) == DEOLMUTT_OK);
    CHECK(job == 1 && answer.kind == DEOLMUTT_DELIVERED);
    CHECK(deolmutt_free(world) == DEOLMUTT_OK);
}

static void test_worlds(void) {
    test_first_faults();
    test_ten_thousand_jobs();
    test_five_steps();
    test_settled_clock();
    test_bad_names();
    test_any_bytes();
    test_refused_call();
}

#endif
