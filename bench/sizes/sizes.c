/* Loads of real size by the interface of C: sizes WHAT NAMES BYTES. NAMES is a file of unique names, a line each, of so many messages, and
   each has so many bytes. WHAT is

     deliveries   they are delivered to 64 folders in turn
     folder       to one folder; then each tenth is seen and flagged, all are listed once, and each hundredth is expunged
     bodies       each is delivered and read

   A world settles each 10,000 calls. It prints nothing, and ends with status 1 where a call doesn't come to its answer. */
#include "deolmutt.h"

#include <stdio.h>
#include <stdlib.h>
#include <string.h>

#define FOLDERS 64
#define MOST_CALLS 10000
#define LONGEST_NAME 64
#define NOW 1700000000

static deolmutt_world *world;
static uint64_t calls;
/* The name of the line that was read last. */
static char name[LONGEST_NAME];
static size_t name_length;

static void must(int is_so, const char *what) {
    if (!is_so) {
        fprintf(stderr, "sizes: %s\n", what);
        exit(1);
    }
}

/* Memory that is written over, so that it counts from the start. */
static uint8_t *bytes(size_t length, int with) {
    uint8_t *given = malloc(length ? length : 1);
    must(given != NULL, "no memory");
    memset(given, with, length);
    return given;
}

static void load(int folders) {
    char lines[FOLDERS * 16], *end = lines;
    uint64_t line;
    for (int at = 0; at < folders; at++) end += sprintf(end, "folder %d\n", at);
    must(deolmutt_load((const uint8_t *)lines, (size_t)(end - lines), &world, &line) == DEOLMUTT_OK, "load");
}

/* Counts a call that came to this status and answer, and settles where it is time. */
static void count(uint32_t status, deolmutt_answer answer, enum deolmutt_answer_kind wanted) {
    uint64_t job;
    must(status == DEOLMUTT_OK && answer.kind == wanted, "a call");
    if (++calls % MOST_CALLS == 0) must(deolmutt_settle(world, &job) == DEOLMUTT_OK, "settle");
}

static int next_name(FILE *names) {
    if (fgets(name, sizeof name, names) == NULL) return 0;
    name_length = strcspn(name, "\n");
    return 1;
}

static void deliver(uint32_t folder, const uint8_t *body, size_t length) {
    deolmutt_answer answer;
    uint32_t status = deolmutt_deliver(world, folder, name, name_length, body, length, NOW, &answer);
    count(status, answer, DEOLMUTT_DELIVERED);
}

static void deliver_all(FILE *names, uint32_t folders, size_t length) {
    const uint8_t *body = bytes(length, 'x');
    for (uint32_t at = 0; next_name(names); at++) deliver(at % folders, body, length);
}

/* Each tenth message is seen and flagged, and each hundredth marked for its expunge too. */
static void flag_some(FILE *names) {
    deolmutt_answer answer;
    rewind(names);
    for (uint32_t at = 0; next_name(names); at++) {
        if (at % 10 != 0) continue;
        uint32_t status = deolmutt_seen(world, 0, name, name_length, "S", NOW, &answer);
        count(status, answer, DEOLMUTT_FLAGS);
        status = deolmutt_flag(world, 0, name, name_length, at % 100 == 0 ? "FT" : "F", "", NOW, &answer);
        count(status, answer, DEOLMUTT_FLAGS);
    }
}

static size_t listed(size_t room) {
    uint8_t *out = malloc(room);
    size_t length = 0, at = 0, found = 0;
    deolmutt_message message;
    must(out != NULL && deolmutt_list(world, 0, out, room, &length) == DEOLMUTT_OK, "list");
    while (deolmutt_next(out, length, &at, &message) == DEOLMUTT_OK) found++;
    free(out);
    return found;
}

static void expunge_some(FILE *names) {
    deolmutt_answer answer;
    rewind(names);
    for (uint32_t at = 0; next_name(names); at++) {
        if (at % 100 != 0) continue;
        uint32_t status = deolmutt_expunge(world, 0, name, name_length, NOW, &answer);
        count(status, answer, DEOLMUTT_EXPUNGED);
    }
}

static void one_folder(FILE *names, size_t length) {
    deliver_all(names, 1, length);
    size_t messages = calls;
    flag_some(names);
    must(listed((messages + 1) * 2 * LONGEST_NAME) == messages, "a listing of all");
    expunge_some(names);
}

static void bodies(FILE *names, size_t length) {
    uint8_t *body = bytes(length, 'x'), *out = bytes(length, 0);
    size_t given;
    while (next_name(names)) {
        deliver(0, body, length);
        must(deolmutt_read(world, (const uint8_t *)name, name_length, out, length, &given) == DEOLMUTT_OK, "read");
        must(given == length && memcmp(body, out, length) == 0, "what was delivered");
    }
}

int main(int words, char **word) {
    must(words == 4, "WHAT NAMES BYTES");
    FILE *names = fopen(word[2], "r");
    size_t length = (size_t)atol(word[3]);
    must(names != NULL, "no names");
    load(FOLDERS);
    if (strcmp(word[1], "deliveries") == 0)
        deliver_all(names, FOLDERS, length);
    else if (strcmp(word[1], "folder") == 0)
        one_folder(names, length);
    else
        bodies(names, length);
    must(deolmutt_free(world) == DEOLMUTT_OK, "free");
    return 0;
}
