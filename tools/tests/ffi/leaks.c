/* A number of calls, the first argument: of worlds, 1,000 in a world of their own, which is freed, and 1,000 in one world that is kept to
   the end and settles now and then, in turn; or, where the second argument is driven, jobs that are driven. Prints the peak of the memory
   in KiB, which is to be the same for any number of calls. */
#include "checks.h"

#include <sys/resource.h>

#define EACH 1000

static void call(deolmutt_world *world, uint32_t kind, const char *unique, const char *text, uint64_t wanted) {
    deolmutt_answer answer;
    CHECK(done(world, kind, 0, unique, 0, text, "", 7, 9, &answer) == DEOLMUTT_OK && answer.kind == wanted);
}

/* Messages that come and go, four calls each, beside one that stays. */
static void calls_of_the_kept_world(deolmutt_world *world, long from) {
    uint64_t job = 0;
    char unique[24];
    long at;
    for (at = from; at < from + EACH / 4; at++) {
        sprintf(unique, "kept%ld", at);
        call(world, DEOLMUTT_DELIVER, unique, "Subject: x\n", DEOLMUTT_DELIVERED);
        if (at == 0)
            continue;
        call(world, DEOLMUTT_SEEN, unique, "S", DEOLMUTT_FLAGS);
        call(world, DEOLMUTT_FLAG, unique, "T", DEOLMUTT_FLAGS);
        call(world, DEOLMUTT_EXPUNGE, unique, "", DEOLMUTT_EXPUNGED);
    }
    CHECK(deolmutt_settle(world, &job) == DEOLMUTT_OK && job == 0);
}

static void calls_of_a_world(void) {
    static const char lines[] = "folder a\nfolder b\n";
    static const char indexed[] = "folder a\nfile a new u 0 Subject: x\\nFrom: y\\n\n";
    static uint8_t out[1 << 17];
    deolmutt_world *world = loaded(lines), *none = NULL;
    deolmutt_answer answer;
    uint64_t line = 0, job = 0;
    size_t length = 0;
    char unique[16];
    int at;
    for (at = 0; at < EACH / 2; at++) {
        sprintf(unique, "u%d", at);
        CHECK(done(world, DEOLMUTT_DELIVER, 0, unique, 0, lines, "", 7, 9, &answer) == DEOLMUTT_OK);
        CHECK(done(world, DEOLMUTT_SEEN, 0, unique, 0, "S", "", 1, 9, &answer) == DEOLMUTT_OK);
        CHECK(done(world, DEOLMUTT_DELIVER, 0, unique, 0, "", "", 7, 9, &answer) == DEOLMUTT_NAME_USED);
        CHECK(deolmutt_read(world, TEXT(unique), out, sizeof out, &length) == DEOLMUTT_OK);
        if (at % 100 == 99)
            CHECK(deolmutt_settle(world, &job) == DEOLMUTT_OK && job == 0);
    }
    CHECK(deolmutt_list(world, 0, out, sizeof out, &length) == DEOLMUTT_OK);
    CHECK(deolmutt_free(world) == DEOLMUTT_OK);
    CHECK(deolmutt_load(TEXT("none"), &none, &line) == DEOLMUTT_BAD_COMMAND);
    CHECK(deolmutt_summary(TEXT("Subject: x\n"), out, sizeof out, &length) == DEOLMUTT_OK);
    CHECK(deolmutt_transcript(TEXT(lines), out, sizeof out, &length, &line) == DEOLMUTT_OK);
    CHECK(deolmutt_index(TEXT(indexed), out, sizeof out, &length, &line) == DEOLMUTT_OK && length == 25);
    CHECK(deolmutt_index(TEXT("folder a\nlist a\n"), out, sizeof out, &length, &line) == DEOLMUTT_NOT_IN_THIS_RUN);
}

/* A driven job that is let go amid its steps, and one that waits for a reply. */
static void driven_jobs(void) {
    deolmutt_driven *job = NULL;
    deolmutt_step_out step;
    int at;
    for (at = 0; at < EACH; at++) {
        CHECK(deolmutt_drive(DEOLMUTT_FLAG, 0, TEXT("u"), 0, TEXT("F"), NO_BYTES, 1, &job) == DEOLMUTT_OK);
        CHECK(deolmutt_driven_ask(job, 1) == DEOLMUTT_OK);
        CHECK(deolmutt_driven_row(job, TEXT("u:2,S"), 0, 0) == DEOLMUTT_OK);
        if (at % 2 == 0)
            CHECK(deolmutt_driven_take(job, DEOLMUTT_DONE, &step) == DEOLMUTT_OK);
        CHECK(deolmutt_driven_free(job) == DEOLMUTT_OK);
    }
}

static void calls_of_worlds(long left) {
    deolmutt_world *kept = loaded("folder a\n");
    long from;
    for (from = 0; left > 0; from += EACH / 4) {
        calls_of_a_world();
        calls_of_the_kept_world(kept, from);
        left -= 2 * EACH;
    }
    CHECK(deolmutt_free(kept) == DEOLMUTT_OK);
}

int main(int count, char **words) {
    long left = count > 1 ? atol(words[1]) : 2 * EACH;
    struct rusage used;
    if (count > 2 && strcmp(words[2], "driven") == 0)
        for (; left > 0; left -= EACH)
            driven_jobs();
    else
        calls_of_worlds(left);
    getrusage(RUSAGE_SELF, &used);
    printf("%ld\n", used.ru_maxrss);
    return 0;
}
