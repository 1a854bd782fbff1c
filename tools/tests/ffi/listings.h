/* Listings, message by message, and listings whose halves are read at two moments: beside what a script prints of the same. */
#ifndef LISTINGS_H
#define LISTINGS_H

#include "checks.h"

/* What the lines of a listing say of a message: `PLACE UNIQUE FLAGS SIZE`. */
static size_t line_of(const deolmutt_message *message, char *out) {
    static const char letters[] = "ABCDEFGHIJKLMNOPQRSTUVWXYZabcdefghijklmnopqrstuvwxyz";
    size_t at = (size_t)sprintf(out, "%s %.*s ", message->place == DEOLMUTT_NEW ? "new" : "cur", (int)message->unique_length,
                                (const char *)message->name);
    int bit;
    for (bit = 0; bit < 52; bit++)
        if (message->flags >> bit & 1)
            out[at++] = letters[bit];
    if (message->info == 2)
        out[at++] = '?';
    else if (message->flags == 0)
        out[at++] = '-';
    return at + (size_t)sprintf(out + at, " %lu\n", (unsigned long)message->size);
}

/* The lines of a listing. */
static const char *lines_of(const uint8_t *listing, size_t length) {
    static char lines[4096];
    deolmutt_message message;
    size_t at = 0, end = 0;
    uint32_t status;
    lines[0] = 0;
    while ((status = deolmutt_next(listing, length, &at, &message)) == DEOLMUTT_OK) {
        CHECK(message.name >= listing && message.name + message.name_length == listing + at);
        end += line_of(&message, lines + end);
    }
    CHECK(status == DEOLMUTT_NOT_THERE && at == length && message.name == NULL && message.name_length == 0);
    return lines;
}

/* What a script prints. */
static const char *printed(const char *script) {
    static char text[4096];
    size_t length = 0;
    uint64_t line = 9;
    CHECK(deolmutt_transcript(TEXT(script), (uint8_t *)text, sizeof text - 1, &length, &line) == DEOLMUTT_OK && line == 0);
    text[length] = 0;
    return text;
}

#define FILES                                                                                                        \
    "folder i\nfolder j\nfile i new b 1 bb\nfile i new d 1 dddd\nfile i cur a:2,FS 1 a\nfile i cur c 1 ccc\nfile i cur e:1,x 1\n" \
    "file i new ab 1 x\nfile i tmp t 1 x\n"

static void test_next(void) {
    deolmutt_world *world = loaded(FILES);
    uint8_t out[512];
    deolmutt_message message;
    size_t length = 0, at, cut;
    CHECK(deolmutt_list(world, 0, out, sizeof out, &length) == DEOLMUTT_OK);
    CHECK(strcmp(lines_of(out, length), printed(FILES "list i\n")) == 0);
    CHECK(strcmp(lines_of(NULL, 0), "") == 0);
    /* Cut anywhere a listing ends with a message, or is none. */
    for (cut = 0; cut < length; cut++) {
        uint8_t *front = malloc(cut + 1);
        uint32_t status;
        CHECK(front != NULL);
        memcpy(front, out, cut);
        at = 0;
        do
            status = deolmutt_next(front, cut, &at, &message);
        while (status == DEOLMUTT_OK);
        CHECK(status == (at == cut ? DEOLMUTT_NOT_THERE : DEOLMUTT_BAD_RECORD) && (at < 22) == (cut < 22));
        CHECK(message.name == NULL && message.size == 0);
        free(front);
    }
    /* No place of a message, a name that is too long, and one that is no message's. */
    at = 0;
    out[0] = 0;
    CHECK(deolmutt_next(out, length, &at, &message) == DEOLMUTT_BAD_RECORD && at == 0);
    out[0] = DEOLMUTT_CUR;
    out[7] = 255;
    CHECK(deolmutt_next(out, length, &at, &message) == DEOLMUTT_BAD_RECORD && at == 0);
    out[7] = 0;
    out[16] = '.';
    CHECK(deolmutt_next(out, length, &at, &message) == DEOLMUTT_BAD_RECORD && at == 0);
    out[16] = 'a';
    CHECK(deolmutt_next(out, length, &at, &message) == DEOLMUTT_OK && at == 16 + 6 && message.unique_length == 1);
    at = length + 1;
    CHECK(deolmutt_next(out, length, &at, &message) == DEOLMUTT_BAD_RECORD && at == length + 1);
    CHECK(deolmutt_next(NULL, 1, &at, &message) == DEOLMUTT_NULL);
    CHECK(deolmutt_next(out, length, NULL, &message) == DEOLMUTT_NULL);
    CHECK(deolmutt_next(out, length, &at, NULL) == DEOLMUTT_NULL);
    CHECK(deolmutt_next(out, (size_t)PTRDIFF_MAX + 1, &at, &message) == DEOLMUTT_LENGTH);
    CHECK(deolmutt_next((uint8_t *)&at, sizeof at, &at, &message) == DEOLMUTT_OVERLAP);
    CHECK(deolmutt_next(out, length, &message.name_length, &message) == DEOLMUTT_OVERLAP);
    CHECK(deolmutt_free(world) == DEOLMUTT_OK);
}

/* The halves of a listing with these calls between, as a script has them, and what is listed. */
static void halves(deolmutt_world *world, const char *between, const char *wanted) {
    static char script[1024];
    uint8_t first[512], out[512];
    size_t begun = 99, length = 99;
    sprintf(script, "%sfirst i\n%ssecond i\n", FILES, between);
    CHECK(deolmutt_first(world, 0, first, sizeof first, &begun) == DEOLMUTT_OK);
    if (between[0] != 0) {
        deolmutt_answer answer;
        CHECK(done(world, DEOLMUTT_SEEN, 0, "b", 0, "S", "", 1, 7, &answer) == DEOLMUTT_OK && answer.kind == DEOLMUTT_FLAGS);
        CHECK(done(world, DEOLMUTT_DELIVER, 0, "f", 0, "ffff", "", 9, 7, &answer) == DEOLMUTT_OK && answer.kind == DEOLMUTT_DELIVERED);
        CHECK(done(world, DEOLMUTT_MOVE, 0, "d", 1, "", "", 1, 7, &answer) == DEOLMUTT_OK && answer.kind == DEOLMUTT_MOVED);
        CHECK(done(world, DEOLMUTT_SEEN, 0, "f", 0, "F", "", 1, 7, &answer) == DEOLMUTT_OK && answer.kind == DEOLMUTT_FLAGS);
    }
    memset(out, '.', sizeof out);
    CHECK(deolmutt_second(world, 0, first, begun, out, sizeof out, &length) == DEOLMUTT_OK && out[length] == '.');
    CHECK(strcmp(lines_of(out, length), wanted) == 0);
    CHECK(strstr(printed(script), wanted) != NULL);
    memset(out, '.', sizeof out);
    CHECK(deolmutt_second(world, 0, first, begun, out, length - 1, &begun) == DEOLMUTT_ROOM && begun == length && out[0] == '.');
}

static void test_halves(void) {
    deolmutt_world *world = loaded(FILES);
    uint8_t out[512], listing[512];
    size_t length = 99, whole = 0;
    halves(world, "", "cur a FS 1\nnew ab - 1\nnew b - 2\ncur c - 3\nnew d - 4\ncur e ? 0\n");
    halves(world,
           "job seen i b S 1\nfinish 1 7\njob deliver i f 9 ffff\nfinish 2 7\njob move i d j 1\nfinish 3 7\njob seen i f F 1\nfinish 4 7\n",
           "cur a FS 1\nnew ab - 1\ncur b S 2\ncur c - 3\nnew d - 4\ncur e ? 0\ncur f F 4\n");
    CHECK(deolmutt_first(world, 0, out, 16, &length) == DEOLMUTT_ROOM && length == 18);
    CHECK(deolmutt_first(world, 0, out, 18, &length) == DEOLMUTT_OK && length == 18);
    CHECK(deolmutt_first(world, 1, out, 18, &length) == DEOLMUTT_OK && length == 17);
    CHECK(deolmutt_second(world, 1, NULL, 0, NULL, 0, &length) == DEOLMUTT_OK && length == 0);
    CHECK(deolmutt_first(world, 2, out, sizeof out, &length) == DEOLMUTT_NO_FOLDER && length == 0);
    CHECK(deolmutt_second(world, 2, NULL, 0, out, sizeof out, &length) == DEOLMUTT_NO_FOLDER && length == 0);
    /* What is no listing, and one that is out of order or has a name twice. */
    CHECK(deolmutt_first(world, 0, listing, sizeof listing, &whole) == DEOLMUTT_OK && whole == 18);
    CHECK(deolmutt_second(world, 0, listing, 17, out, sizeof out, &length) == DEOLMUTT_BAD_RECORD && length == 0);
    CHECK(deolmutt_first(world, 1, listing + 18, sizeof listing - 18, &whole) == DEOLMUTT_OK && whole == 17);
    CHECK(deolmutt_second(world, 0, listing, 35, out, sizeof out, &length) == DEOLMUTT_OK);
    listing[34] = 'a';
    CHECK(deolmutt_second(world, 0, listing, 35, out, sizeof out, &length) == DEOLMUTT_BAD_RECORD && length == 0);
    memcpy(listing + 18, listing, 18);
    CHECK(deolmutt_second(world, 0, listing, 36, out, sizeof out, &length) == DEOLMUTT_BAD_RECORD);
    CHECK(deolmutt_first(NULL, 0, out, 9, &length) == DEOLMUTT_NULL && length == 0);
    CHECK(deolmutt_first(world, 0, NULL, 9, &length) == DEOLMUTT_NULL);
    CHECK(deolmutt_first(world, 0, out, 9, NULL) == DEOLMUTT_NULL);
    CHECK(deolmutt_first(world, 0, out, (size_t)PTRDIFF_MAX + 1, &length) == DEOLMUTT_LENGTH);
    CHECK(deolmutt_first(world, 0, (uint8_t *)&length, 9, &length) == DEOLMUTT_OVERLAP);
    CHECK(deolmutt_second(NULL, 0, out, 9, listing, 9, &length) == DEOLMUTT_NULL && length == 0);
    CHECK(deolmutt_second(world, 0, NULL, 9, listing, 9, &length) == DEOLMUTT_NULL);
    CHECK(deolmutt_second(world, 0, out, 9, NULL, 9, &length) == DEOLMUTT_NULL);
    CHECK(deolmutt_second(world, 0, out, 9, listing, 9, NULL) == DEOLMUTT_NULL);
    CHECK(deolmutt_second(world, 0, out, (size_t)PTRDIFF_MAX + 1, listing, 9, &length) == DEOLMUTT_LENGTH);
    CHECK(deolmutt_second(world, 0, out, 9, listing, (size_t)PTRDIFF_MAX + 1, &length) == DEOLMUTT_LENGTH);
    CHECK(deolmutt_second(world, 0, out, 9, out + 8, 9, &length) == DEOLMUTT_OVERLAP);
    CHECK(deolmutt_free(world) == DEOLMUTT_OK);
}

static void test_listings(void) {
    test_next();
    test_halves();
}

#endif
