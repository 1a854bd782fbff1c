/* Each allocation of each call, refused in turn: the call says so or goes on, its world is still of use, and nothing is lost. It is linked
   with malloc, calloc and realloc wrapped. */
#include "checks.h"

void *__real_malloc(size_t size);
void *__real_calloc(size_t count, size_t size);
void *__real_realloc(void *at, size_t size);

static long until = -1;

static int is_refused(void) { return until >= 0 && until-- == 0; }

void *__wrap_malloc(size_t size) { return is_refused() ? NULL : __real_malloc(size); }
void *__wrap_calloc(size_t count, size_t size) { return is_refused() ? NULL : __real_calloc(count, size); }
void *__wrap_realloc(void *at, size_t size) { return is_refused() ? NULL : __real_realloc(at, size); }

static unsigned long refused;
/* How often memory ran out amid the steps of one of many calls. */
static unsigned long stopped;

/* The record of a clean of folder 0. */
static const uint8_t clean[48] = {DEOLMUTT_CLEAN};

static void must(int is_so, const char *what) {
    if (!is_so) {
        fprintf(stderr, "memory: %s\n", what);
        exit(1);
    }
}

static const char lines[] = "folder a\nfile a cur old:2,S 5 body\n";

/* A log with one finding. */
static const char moved_back[] = "maildir_log 1\nfolder i\nfile i/cur/u:2,S 5\n9 a list i cur ok u:2,S\n9 a rename i/cur/u:2,S i/new/u ok\n";

/* A call with its allocation `at` refused, if it makes so many: it is done, or says so. */
#define WITHOUT(call)                                                           \
    do {                                                                        \
        until = at;                                                             \
        status = (call);                                                        \
        if (until < 0) {                                                        \
            was_met = 1;                                                        \
            refused++;                                                          \
        }                                                                       \
        must(status == DEOLMUTT_OK || (status == DEOLMUTT_NO_MEMORY && until < 0), #call); \
        until = -1;                                                             \
    } while (0)

/* What is seen of a world of one folder and one job: the names in its three places, the bytes of its listing, and the job's answer. */
typedef struct seen {
    size_t names[3];
    size_t listed;
    deolmutt_answer answer;
} seen;

static seen see(deolmutt_world *world) {
    static uint8_t out[4096];
    seen all;
    uint32_t place;
    size_t length;
    memset(&all, 0, sizeof all);
    for (place = 0; place < 3; place++)
        while (deolmutt_names(world, 0, place, all.names[place], out, sizeof out, &length) == DEOLMUTT_OK)
            all.names[place]++;
    must(deolmutt_list(world, 0, out, sizeof out, &all.listed) == DEOLMUTT_OK, "a listing");
    must(deolmutt_job_answer(world, 1, &all.answer) == DEOLMUTT_OK, "the answer of a job");
    return all;
}

/* How many files of tmp a clean takes at a moment. */
static uint64_t cleaned(deolmutt_world *world, uint64_t now) {
    deolmutt_answer answer;
    must(done(world, DEOLMUTT_CLEAN, 0, "", 0, "", "", 0, now, &answer) == DEOLMUTT_OK, "a clean");
    must(answer.kind == DEOLMUTT_CLEANED, "cleans");
    return answer.value;
}

/* The five steps of a delivery, each with its allocation `at` refused, and late. One that is refused leaves all as it was, also what it was to
   write, and is made again early: so the latest that was not refused is the clock, which stamps the next file. */
static int steps_without(long at) {
    static const uint32_t calls[] = {DEOLMUTT_CREATE, DEOLMUTT_APPEND, DEOLMUTT_APPEND, DEOLMUTT_LINK, DEOLMUTT_UNLINK};
    static const uint64_t values[] = {0, 4, 2, 0, 0};
    deolmutt_world *world = loaded("folder a\n");
    deolmutt_step_out step, nothing;
    uint64_t job = 0, clock = 1000, late;
    uint32_t status;
    int was_met = 0;
    must(deolmutt_submit(world, DEOLMUTT_DELIVER, 0, TEXT("u"), 0, TEXT("hello\n"), NO_BYTES, 4, &job) == DEOLMUTT_OK && job == 1, "submit");
    memset(&nothing, 0, sizeof nothing);
    for (late = 2000; late < 2005; late++) {
        seen before = see(world), after;
        memset(&step, 9, sizeof step);
        WITHOUT(deolmutt_step(world, job, late, NULL, &step));
        if (status == DEOLMUTT_OK) {
            clock = late;
        } else {
            after = see(world);
            must(memcmp(&after, &before, sizeof after) == 0, "a refused step changes nothing");
            must(memcmp(&step, &nothing, sizeof step) == 0, "and shows nothing");
            must(deolmutt_step(world, job, 1000, NULL, &step) == DEOLMUTT_OK, "a refused step may come again");
        }
        must(step.call == calls[late - 2000] && step.value == values[late - 2000] && step.reply == DEOLMUTT_DONE, "it makes its call");
        must(step.effect == (late == 2003), "the link is the effect");
        must(step.answer.kind == (late == 2004 ? DEOLMUTT_DELIVERED : DEOLMUTT_NO_ANSWER) && step.answer.value == 0, "the last step answers");
    }
    must(deolmutt_submit(world, DEOLMUTT_DELIVER, 0, TEXT("next"), 0, NO_BYTES, NO_BYTES, 1, &job) == DEOLMUTT_OK && job == 2, "a job more");
    must(deolmutt_step(world, job, 0, NULL, &step) == DEOLMUTT_OK && step.call == DEOLMUTT_CREATE, "the next file");
    must(cleaned(world, clock + 36 * 3600 - 1) == 0, "no file is 36 hours old");
    must(cleaned(world, clock + 36 * 3600) == 1, "the next file has the clock for its stamp");
    must(deolmutt_free(world) == DEOLMUTT_OK, "free");
    return was_met;
}

/* One call with its allocation `at` refused: whether there was such an allocation. */
static int call_without(long at) {
    static const deolmutt_bytes folder = {"a", 1};
    static const deolmutt_file file = {0, DEOLMUTT_CUR, "old one:2,S", 11, 5, "body", 4};
    static uint8_t out[4096], text[64];
    deolmutt_row row;
    deolmutt_world *world = loaded(lines), *other = NULL;
    deolmutt_answer answer;
    deolmutt_step_out step;
    uint64_t job = 0, line = 9;
    size_t length = 9, before = 0, after = 0, done = 9;
    uint32_t status;
    int was_met = 0;
    must(deolmutt_list(world, 0, out, sizeof out, &before) == DEOLMUTT_OK, "list before");
    WITHOUT(deolmutt_call(world, DEOLMUTT_DELIVER, 0, TEXT("u"), 0, TEXT("mail"), NO_BYTES, 2, 9, NULL, &job, &answer));
    if (status == DEOLMUTT_NO_MEMORY && job == 0) {
        must(deolmutt_list(world, 0, out, sizeof out, &after) == DEOLMUTT_OK && after == before, "a refused call changes nothing");
        must(deolmutt_call(world, DEOLMUTT_DELIVER, 0, TEXT("u"), 0, TEXT("mail"), NO_BYTES, 2, 9, NULL, &job, &answer) == DEOLMUTT_OK &&
                 answer.kind == DEOLMUTT_DELIVERED, "a refused call may come again");
    } else if (status == DEOLMUTT_NO_MEMORY) {
        do
            must(deolmutt_step(world, job, 9, NULL, &step) == DEOLMUTT_OK, "a job that is there goes on");
        while (step.answer.kind == DEOLMUTT_NO_ANSWER);
        must(step.answer.kind == DEOLMUTT_DELIVERED, "and is answered");
    }
    WITHOUT(deolmutt_settle(world, &job));
    must(status == DEOLMUTT_OK && job == 0, "each job has its answer, and a settle takes no memory");
    must(deolmutt_step(world, 1, 9, NULL, &step) == DEOLMUTT_NO_JOB, "a settled world has no job");
    must(deolmutt_list(world, 0, out, sizeof out, &after) == DEOLMUTT_OK && after > before, "and its messages");
    WITHOUT(deolmutt_calls(world, clean, sizeof clean, 9, &answer, 1, &done));
    must(done == (status == DEOLMUTT_OK), "so many have an answer");
    if (status == DEOLMUTT_NO_MEMORY && deolmutt_settle(world, &job) == DEOLMUTT_UNANSWERED) {
        stopped++;
        do
            must(deolmutt_step(world, job, 9, NULL, &step) == DEOLMUTT_OK, "a job of many calls goes on");
        while (step.answer.kind == DEOLMUTT_NO_ANSWER);
    }
    must(deolmutt_settle(world, &job) == DEOLMUTT_OK, "and then each has its answer");
    job = 99;
    WITHOUT(deolmutt_submit(world, DEOLMUTT_SEEN, 0, TEXT("u"), 0, TEXT("S"), NO_BYTES, 1, &job));
    if (status == DEOLMUTT_NO_MEMORY) {
        must(job == 0 && deolmutt_job_answer(world, 1, &answer) == DEOLMUTT_NO_JOB, "a refused submit is no job");
        must(deolmutt_submit(world, DEOLMUTT_SEEN, 0, TEXT("u"), 0, TEXT("S"), NO_BYTES, 1, &job) == DEOLMUTT_OK,
             "a refused submit may come again");
    }
    must(job == 1, "a job");
    WITHOUT(deolmutt_list(world, 0, out, sizeof out, &after));
    WITHOUT(deolmutt_first(world, 0, out, sizeof out, &length));
    must((length != 0) == (status == DEOLMUTT_OK), "a first half or none");
    WITHOUT(deolmutt_second(world, 0, NULL, 0, out, sizeof out, &length));
    must((length != 0) == (status == DEOLMUTT_OK), "a listing or none");
    WITHOUT(deolmutt_row_at(world, 0, DEOLMUTT_CUR, 0, &row, out, sizeof out, &length));
    must(status == DEOLMUTT_OK && row.stamp == 5 && row.size == 4 && length == 7, "a row takes no memory that it can't do without");
    WITHOUT(deolmutt_read_file(world, 0, DEOLMUTT_CUR, "old:2,S", 7, out, sizeof out, &length));
    must(status == DEOLMUTT_OK && length == 4 && memcmp(out, "body", 4) == 0, "the bytes of a file take no memory");
    WITHOUT(deolmutt_load_files(&folder, 1, &file, 1, &other));
    must((status == DEOLMUTT_OK) == (other != NULL), "a world of files or none");
    if (other == NULL)
        must(deolmutt_load_files(&folder, 1, &file, 1, &other) == DEOLMUTT_OK, "a refused load of files may come again");
    must(deolmutt_free(other) == DEOLMUTT_OK, "free");
    other = NULL;
    WITHOUT(deolmutt_load((const uint8_t *)lines, sizeof lines - 1, &other, &line));
    must((status == DEOLMUTT_OK) == (other != NULL) && line == 0, "a world or none");
    if (other == NULL)
        must(deolmutt_load((const uint8_t *)lines, sizeof lines - 1, &other, &line) == DEOLMUTT_OK, "a refused load may come again");
    must(deolmutt_free(other) == DEOLMUTT_OK, "free");
    WITHOUT(deolmutt_unique(1, 2, 3, 4, (const uint8_t *)"host", 4, text, sizeof text, &length));
    WITHOUT(deolmutt_summary((const uint8_t *)"Subject: a\nFrom: b\n", 19, out, sizeof out, &length));
    WITHOUT(deolmutt_transcript((const uint8_t *)"folder i\njob deliver i u 1 x\nfinish 1 1\nlist i\n", 47, out, sizeof out, &length, &line));
    WITHOUT(deolmutt_index((const uint8_t *)lines, sizeof lines - 1, out, sizeof out, &length, &line));
    must(line == 0 && (length != 0) == (status == DEOLMUTT_OK), "an index or none");
    line = 9;
    WITHOUT(deolmutt_judge((const uint8_t *)moved_back, sizeof moved_back - 1, out, sizeof out, &length, &line));
    must(line == 0 && length == (status == DEOLMUTT_OK ? 16 : 0), "a finding or none");
    WITHOUT(deolmutt_free(world));
    return was_met;
}

/* A driven flag change with each of its calls' allocations `at` refused: what was refused changed nothing, and is done when it comes again. */
static int driven_without(long at) {
    static const uint8_t long_name[] = "1234567890.M123456P1234567Q123456.a-host-with-a-long-name:2,S";
    static const size_t unique = sizeof long_name - 1 - 4;
    static uint8_t out[256];
    deolmutt_driven *job = NULL;
    deolmutt_request asked, no_request;
    deolmutt_step_out step, no_step;
    size_t length = 0;
    uint32_t status;
    int was_met = 0, made;
    memset(&no_request, 0, sizeof no_request);
    memset(&no_step, 0, sizeof no_step);
    WITHOUT(deolmutt_drive(DEOLMUTT_FLAG, 0, long_name, unique, 0, (const uint8_t *)"F", 1, NULL, 0, 1, &job));
    must((status == DEOLMUTT_OK) == (job != NULL), "a driven job or none");
    if (job == NULL)
        must(deolmutt_drive(DEOLMUTT_FLAG, 0, long_name, unique, 0, (const uint8_t *)"F", 1, NULL, 0, 1, &job) == DEOLMUTT_OK, "again");
    for (made = 0; made < 2; made++) {
        WITHOUT(deolmutt_driven_ask(job, 1));
        must(status == DEOLMUTT_OK, "to ask takes no memory");
        memset(&asked, 9, sizeof asked);
        length = 99;
        WITHOUT(deolmutt_driven_request(job, &asked, out, sizeof out, &length));
        if (status == DEOLMUTT_NO_MEMORY) {
            must(memcmp(&asked, &no_request, sizeof asked) == 0 && length == 0, "a refused request shows nothing");
            must(deolmutt_driven_request(job, &asked, out, sizeof out, &length) == DEOLMUTT_OK, "and may come again");
        }
        must(asked.call == (made ? DEOLMUTT_RENAME : DEOLMUTT_LIST) && asked.name + asked.second == length, "it shows the call");
        if (!made) {
            WITHOUT(deolmutt_driven_row(job, long_name, sizeof long_name - 1, 0, 0));
            if (status == DEOLMUTT_NO_MEMORY)
                must(deolmutt_driven_row(job, long_name, sizeof long_name - 1, 0, 0) == DEOLMUTT_OK, "a refused row may come again");
        }
        memset(&step, 9, sizeof step);
        WITHOUT(deolmutt_driven_take(job, DEOLMUTT_DONE, &step));
        if (status == DEOLMUTT_NO_MEMORY) {
            must(memcmp(&step, &no_step, sizeof step) == 0, "a refused reply shows nothing");
            must(deolmutt_driven_ask(job, 1) == DEOLMUTT_ASKED, "and is still waited for");
            must(deolmutt_driven_take(job, DEOLMUTT_DONE, &step) == DEOLMUTT_OK, "and may come again");
        }
    }
    must(step.answer.kind == DEOLMUTT_FLAGS && step.effect == 1, "the flags are changed");
    must(deolmutt_driven_free(job) == DEOLMUTT_OK, "free");
    return was_met;
}

int main(void) {
    long at = 0;
    while (call_without(at))
        at++;
    must(refused > 0 && stopped > 0, "some allocation is refused, amid the steps of a job too");
    at = 0;
    while (steps_without(at))
        at++;
    must(at > 0, "and that of a step");
    at = 0;
    while (driven_without(at))
        at++;
    must(at > 0, "and that of a driven job");
    printf("%lu refused allocations\n", refused);
    return 0;
}
