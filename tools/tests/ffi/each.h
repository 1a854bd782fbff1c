/* One function for each kind of call. */
#ifndef EACH_H
#define EACH_H

#include "checks.h"

#define NAME(s) (s), strlen(s)

/* A message from its delivery to its removal. */
static void test_each_answer(void) {
    deolmutt_world *world = loaded("folder a\nfolder b\nfile a tmp litter 1 x\n");
    deolmutt_answer answer;
    uint64_t f = (uint64_t)1 << 5, s = (uint64_t)1 << 18, t = (uint64_t)1 << 19;
    uint8_t out[8];
    size_t length;
#define ANSWERS(call, wanted, number) \
    CHECK((call) == DEOLMUTT_OK && answer.kind == (wanted) && answer.value == (number))
    ANSWERS(deolmutt_deliver(world, 0, NAME("u v"), "mail\n", 5, 100, &answer), DEOLMUTT_DELIVERED, 0);
    ANSWERS(deolmutt_deliver(world, 0, NAME("empty"), NULL, 0, 100, &answer), DEOLMUTT_DELIVERED, 0);
    ANSWERS(deolmutt_flag(world, 0, NAME("u v"), "F", "", 100, &answer), DEOLMUTT_MESSAGE_NOT_THERE, 0);
    ANSWERS(deolmutt_seen(world, 0, NAME("u v"), "S", 100, &answer), DEOLMUTT_FLAGS, s);
    ANSWERS(deolmutt_flag(world, 0, NAME("u v"), "F", "S", 100, &answer), DEOLMUTT_FLAGS, f);
    ANSWERS(deolmutt_copy(world, 0, NAME("u v"), 1, NAME("w"), 100, &answer), DEOLMUTT_COPIED, 0);
    ANSWERS(deolmutt_move(world, 0, NAME("u v"), 1, 100, &answer), DEOLMUTT_MOVED, 0);
    ANSWERS(deolmutt_expunge(world, 1, NAME("u v"), 100, &answer), DEOLMUTT_NOT_TRASHED, 0);
    ANSWERS(deolmutt_flag(world, 1, NAME("u v"), "T", "F", 100, &answer), DEOLMUTT_FLAGS, t);
    ANSWERS(deolmutt_expunge(world, 1, NAME("u v"), 100, &answer), DEOLMUTT_EXPUNGED, 0);
    ANSWERS(deolmutt_clean(world, 0, 1 + 36 * 3600, &answer), DEOLMUTT_CLEANED, 1);
#undef ANSWERS
    CHECK(deolmutt_read(world, TEXT("w"), out, sizeof out, &length) == DEOLMUTT_OK && length == 5 && memcmp(out, "mail\n", 5) == 0);
    CHECK(deolmutt_names(world, 1, DEOLMUTT_CUR, 0, out, sizeof out, &length) == DEOLMUTT_OK);
    CHECK(length == 5 && memcmp(out, "w:2,F", 5) == 0);
    CHECK(deolmutt_names(world, 1, DEOLMUTT_CUR, 1, out, sizeof out, &length) == DEOLMUTT_NOT_THERE);
    CHECK(deolmutt_free(world) == DEOLMUTT_OK);
}

/* The call is refused so, and has no answer. */
#define REFUSES(call, status)                                                     \
    do {                                                                          \
        answer.kind = answer.value = 9;                                           \
        CHECK((call) == (status) && answer.kind == DEOLMUTT_NO_ANSWER && answer.value == 0); \
    } while (0)

static void test_each_refusal(void) {
    deolmutt_world *world = loaded("folder a\nfolder b\n");
    deolmutt_answer answer;
    size_t too_long = (size_t)PTRDIFF_MAX + 1;
    REFUSES(deolmutt_deliver(world, 2, NAME("u"), "x", 1, 1, &answer), DEOLMUTT_NO_FOLDER);
    REFUSES(deolmutt_deliver(world, 0, NAME("u:"), "x", 1, 1, &answer), DEOLMUTT_BAD_UNIQUE);
    REFUSES(deolmutt_deliver(world, 0, NULL, 1, "x", 1, 1, &answer), DEOLMUTT_NULL);
    REFUSES(deolmutt_deliver(world, 0, NAME("u"), NULL, 1, 1, &answer), DEOLMUTT_NULL);
    REFUSES(deolmutt_deliver(world, 0, NAME("u"), "x", too_long, 1, &answer), DEOLMUTT_LENGTH);
    REFUSES(deolmutt_deliver(world, 0, NAME("u"), &answer, 1, 1, &answer), DEOLMUTT_OVERLAP);
    REFUSES(deolmutt_deliver(NULL, 0, NAME("u"), "x", 1, 1, &answer), DEOLMUTT_NULL);
    REFUSES(deolmutt_seen(world, 0, NAME("u"), "S?", 1, &answer), DEOLMUTT_BAD_FLAG);
    REFUSES(deolmutt_seen(world, 0, NAME("u"), NULL, 1, &answer), DEOLMUTT_NULL);
    REFUSES(deolmutt_flag(world, 0, NAME("u"), "S", "1", 1, &answer), DEOLMUTT_BAD_FLAG);
    REFUSES(deolmutt_flag(world, 0, NAME("u"), NULL, "", 1, &answer), DEOLMUTT_NULL);
    REFUSES(deolmutt_flag(world, 0, NAME("u"), "", NULL, 1, &answer), DEOLMUTT_NULL);
    REFUSES(deolmutt_move(world, 0, NAME("u"), 0, 1, &answer), DEOLMUTT_SAME_FOLDER);
    REFUSES(deolmutt_copy(world, 0, NAME("u"), 1, NAME(".v"), 1, &answer), DEOLMUTT_BAD_UNIQUE);
    REFUSES(deolmutt_copy(world, 0, NAME("u"), 1, NULL, 1, 1, &answer), DEOLMUTT_NULL);
    REFUSES(deolmutt_expunge(world, 0, NAME(""), 1, &answer), DEOLMUTT_BAD_UNIQUE);
    REFUSES(deolmutt_clean(world, 2, 1, &answer), DEOLMUTT_NO_FOLDER);
    CHECK(deolmutt_deliver(world, 0, NAME("u"), "x", 1, 1, NULL) == DEOLMUTT_NULL);
    CHECK(deolmutt_seen(world, 0, NAME("u"), "S", 1, NULL) == DEOLMUTT_NULL);
    CHECK(deolmutt_flag(world, 0, NAME("u"), "S", "", 1, NULL) == DEOLMUTT_NULL);
    CHECK(deolmutt_move(world, 0, NAME("u"), 1, 1, NULL) == DEOLMUTT_NULL);
    CHECK(deolmutt_copy(world, 0, NAME("u"), 1, NAME("v"), 1, NULL) == DEOLMUTT_NULL);
    CHECK(deolmutt_expunge(world, 0, NAME("u"), 1, NULL) == DEOLMUTT_NULL);
    CHECK(deolmutt_clean(world, 0, 1, NULL) == DEOLMUTT_NULL);
    CHECK(deolmutt_free(world) == DEOLMUTT_OK);
}

static void test_each(void) {
    test_each_answer();
    test_each_refusal();
}

#endif
