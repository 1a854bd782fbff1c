/* Measures the interface of C: calls WHAT COUNT, so many calls of one kind. WHAT is
   deliver, flag, read or list; play-deliver, play-flag, play-read or play-list, the same by a script that is played; or settle, a load of
   so many messages and a settle. It prints a line `result: WHAT: NUMBER UNIT` for each figure. */
#include "deolmutt.h"

#include <stdio.h>
#include <stdlib.h>
#include <string.h>
#include <time.h>

#define FOLDER 10000
#define BODY 1000
#define MOST 100000

static uint8_t body[BODY + 1];
static char names[FOLDER][32];
/* Lines of a script, and what is given. */
static char lines[MOST * (BODY + 100)];
static uint8_t out[1 << 28];

static double now(void) {
    struct timespec time;
    clock_gettime(CLOCK_MONOTONIC, &time);
    return (double)time.tv_sec + (double)time.tv_nsec / 1e9;
}

static void must(int is_so, const char *what) {
    if (!is_so) {
        fprintf(stderr, "calls: %s\n", what);
        exit(1);
    }
}

static deolmutt_world *load(size_t length) {
    deolmutt_world *world = NULL;
    uint64_t line;
    must(deolmutt_load((const uint8_t *)lines, length, &world, &line) == DEOLMUTT_OK, "load");
    return world;
}

/* Lines of a folder, with all its messages in cur or with none. */
static size_t folder_lines(int is_full) {
    char *end = lines + sprintf(lines, "folder a\n");
    for (int at = 0; is_full && at < FOLDER; at++) end += sprintf(end, "file a cur %s:2, 0 %s\n", names[at], body);
    return (size_t)(end - lines);
}

static void call(deolmutt_world *world, int at, uint32_t kind, const void *first, size_t length, uint64_t number) {
    deolmutt_answer answer;
    uint64_t job;
    must(deolmutt_call(world, kind, 0, (const uint8_t *)names[at], strlen(names[at]), 0, first, length, NULL, 0, number, 1000, NULL, &job,
                       &answer) == DEOLMUTT_OK && answer.kind == (kind == DEOLMUTT_DELIVER ? DEOLMUTT_DELIVERED : DEOLMUTT_FLAGS), "call");
}

static void tell(const char *what, double many, double began) {
    printf("result: %s: %.0f a second\n", what, many / (now() - began));
}

/* So many calls of one kind on a world. */
static void measure_calls(const char *what, int count) {
    int is_delivery = strcmp(what, "deliver") == 0, is_flag = strcmp(what, "flag") == 0, is_read = strcmp(what, "read") == 0;
    deolmutt_world *world = load(folder_lines(!is_delivery));
    size_t length;
    double began = now();
    for (int at = 0; at < count; at++) {
        if (is_delivery)
            call(world, at, DEOLMUTT_DELIVER, body, BODY, 65536);
        else if (is_flag)
            call(world, at, DEOLMUTT_FLAG, "F", 1, 16);
        else if (is_read)
            must(deolmutt_read(world, (const uint8_t *)names[at], strlen(names[at]), out, sizeof out, &length) == DEOLMUTT_OK, "read");
        else
            must(deolmutt_list(world, 0, out, sizeof out, &length) == DEOLMUTT_OK, "list");
    }
    tell(what, count, began);
    must(deolmutt_free(world) == DEOLMUTT_OK, "free");
}

/* The same by a script. What its folder and files take is measured by a script of no calls, and taken off. */
static double seconds_of_script(const char *what, int count) {
    char *end = lines + folder_lines(strcmp(what, "deliver") != 0);
    size_t length;
    uint64_t line;
    for (int at = 0; at < count; at++) {
        if (strcmp(what, "deliver") == 0)
            end += sprintf(end, "job deliver a %s 65536 %s\nfinish %d 1000\n", names[at], body, at + 1);
        else if (strcmp(what, "flag") == 0)
            end += sprintf(end, "job flag a %s F - 16\nfinish %d 1000\n", names[at], at + 1);
        else if (strcmp(what, "read") == 0)
            end += sprintf(end, "read %s\n", names[at]);
        else
            end += sprintf(end, "list a\n");
    }
    double began = now();
    must(deolmutt_transcript((const uint8_t *)lines, (size_t)(end - lines), out, sizeof out, &length, &line) == DEOLMUTT_OK, "play");
    return now() - began;
}

static void measure_script(const char *what, int count) {
    double empty = seconds_of_script(what, 0);
    printf("result: play-%s: %.0f a second\n", what, count / (seconds_of_script(what, count) - empty));
}

/* A load of many messages, under names that come in no order, and a settle of the same world. */
static void measure_settle(long count) {
    char *end = lines + sprintf(lines, "folder a\n");
    for (long at = 0; at < count; at++) {
        long second = 1700000000 + at * 7919 % count;
        end += sprintf(end, "file a cur %ld.M%06ldP%05ldQ1.mail.example.org:2,S 0 x\n", second, at, at % 999);
    }
    double began = now();
    deolmutt_world *world = load((size_t)(end - lines));
    printf("result: a load of %ld: %.0f ms\n", count, (now() - began) * 1000);
    uint64_t job;
    began = now();
    must(deolmutt_settle(world, &job) == DEOLMUTT_OK, "settle");
    printf("result: a settle of %ld: %.0f ms\n", count, (now() - began) * 1000);
    must(deolmutt_free(world) == DEOLMUTT_OK, "free");
}

int main(int words, char **word) {
    must(words == 3, "WHAT COUNT");
    long count = atol(word[2]);
    memset(body, 'x', BODY);
    for (int at = 0; at < FOLDER; at++) sprintf(names[at], "%05d.M1P1Q1.host", at);
    if (strcmp(word[1], "settle") == 0) {
        must(0 < count && count <= MOST, "COUNT");
        measure_settle(count);
        return 0;
    }
    must(0 <= count && count <= FOLDER, "COUNT");
    if (strncmp(word[1], "play-", 5) == 0)
        measure_script(word[1] + 5, (int)count);
    else
        measure_calls(word[1], (int)count);
    return 0;
}
