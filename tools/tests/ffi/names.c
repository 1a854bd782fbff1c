/* Names by "Using maildir format" (https://cr.yp.to/proto/maildir.html) and maildir(5), and names that broke other programs: how they are split
   and made, which letters are flags, and which names a delivery may have. Ends with a count. */
#include "checks.h"

#define LETTERS "ABCDEFGHIJKLMNOPQRSTUVWXYZabcdefghijklmnopqrstuvwxyz"

enum said { BARE = 0, FLAGS = 1, OTHER = 2 };

/* Bytes that a NUL may be among. */
struct bytes {
    const char *at;
    size_t length;
};
#define BYTES(text) {text, sizeof(text) - 1}
#define COUNT(rows) (sizeof(rows) / sizeof *(rows))

static void must(int is_so, const char *what, const char *row) {
    checked++;
    if (!is_so) {
        fprintf(stderr, "names: %s: '%s'\n", what, row);
        exit(1);
    }
}

static const uint8_t *of(const char *text) { return (const uint8_t *)text; }

/* The flags of letters: bit 0 for A to bit 25 for Z, bit 26 for a to bit 51 for z. */
static uint64_t bits(const char *letters) {
    uint64_t all = 0;
    for (; *letters != 0; letters++)
        all |= (uint64_t)1 << (strchr(LETTERS, *letters) - LETTERS);
    return all;
}

static void is_split(const char *name, const char *unique, enum said said, const char *letters) {
    size_t length = 99;
    uint32_t info = 9;
    uint64_t flags = 9;
    must(deolmutt_split(of(name), strlen(name), &length, &info, &flags) == DEOLMUTT_OK, "a message's name", name);
    must(length == strlen(unique) && memcmp(name, unique, length) == 0, "its unique part", name);
    must(info == (uint32_t)said && flags == bits(letters), "its info", name);
}

static void test_split(void) {
    static const struct {
        const char *name, *unique;
        enum said said;
        const char *letters;
    } rows[] = {
        {"u", "u", BARE, ""},
        {"s,S=5", "s,S=5", BARE, ""},
        {"u:2,", "u", FLAGS, ""},
        {"u:2,S", "u", FLAGS, "S"},
        {"u:2,TSSa", "u", FLAGS, "STa"},
        {"s,S=5:2,S", "s,S=5", FLAGS, "S"},
        {"u:2,S1", "u", OTHER, ""},
        {"v:1,x", "v", OTHER, ""},
        {"u:", "u", OTHER, ""},
        {"u:2", "u", OTHER, ""},
        {"u:2S", "u", OTHER, ""},
        {"a:b:2,S", "a", OTHER, ""},
        {"t:2,S,U=1", "t", OTHER, ""},
        {"u:2,S\x80", "u", OTHER, ""},
        {"u:2,\xffS", "u", OTHER, ""},
        /* the fronts of one name */
        {"w", "w", BARE, ""},
        {"w:", "w", OTHER, ""},
        {"w:2", "w", OTHER, ""},
        {"w:2,", "w", FLAGS, ""},
        {"w:2,T", "w", FLAGS, "T"},
        {"w:2,TS", "w", FLAGS, "ST"},
        {"w:2,TSS", "w", FLAGS, "ST"},
        {"w:2,TSSa", "w", FLAGS, "STa"},
    };
    static const char *const no_messages[] = {"", ".", ".h", ".hid", ".hid:", ".hid:2,", ".hid:2,S", ":2,S", ":", "::"};
    size_t at, length = 99;
    uint32_t info = 9;
    uint64_t flags = 9;
    for (at = 0; at < COUNT(rows); at++)
        is_split(rows[at].name, rows[at].unique, rows[at].said, rows[at].letters);
    for (at = 0; at < COUNT(no_messages); at++) {
        const char *name = no_messages[at];
        must(deolmutt_split(of(name), strlen(name), &length, &info, &flags) == DEOLMUTT_NO_MESSAGE_NAME, "no message's name", name);
    }
    must(length == 0 && info == 0 && flags == 0, "what is refused says nothing", "");
}

static uint32_t called(deolmutt_world *world, uint32_t kind, struct bytes unique, const char *first, const char *second,
                       deolmutt_answer *answer) {
    uint64_t job = 99;
    return deolmutt_call(world, kind, 0, of(unique.at), unique.length, 0, of(first), strlen(first), of(second), strlen(second), 1, 7, NULL,
                         &job, answer);
}

/* A flag change of the one message, by the letters to be added and removed, and the name that it has then. */
static void is_flagged(const char *name, const char *add, const char *remove, const char *wanted, const char *letters) {
    static const struct bytes unique = BYTES("u");
    char lines[99];
    uint8_t out[99];
    size_t length = 99;
    deolmutt_answer answer;
    deolmutt_world *world;
    sprintf(lines, "folder i\nfile i cur %s 1\n", name);
    world = loaded(lines);
    must(called(world, DEOLMUTT_FLAG, unique, add, remove, &answer) == DEOLMUTT_OK, "a flag change", add);
    must(answer.kind == DEOLMUTT_FLAGS && answer.value == bits(letters), "its answer", add);
    must(deolmutt_names(world, 0, DEOLMUTT_CUR, 0, out, sizeof out, &length) == DEOLMUTT_OK, "a name in cur", wanted);
    must(length == strlen(wanted) && memcmp(out, wanted, length) == 0, "its letters in ASCII order, each once", wanted);
    must(deolmutt_free(world) == DEOLMUTT_OK, "free", "");
}

static void test_flags(void) {
    static const char *const no_flags[] = {"S1", "1", "S,", "\x80", "@", "[", "`", "{"};
    static const struct bytes unique = BYTES("u");
    char name[] = "u:2,?";
    deolmutt_answer answer;
    deolmutt_world *world = loaded("folder i\nfile i new u 1\n");
    size_t at;
    int byte;
    for (at = 0; at < COUNT(no_flags); at++)
        must(called(world, DEOLMUTT_SEEN, unique, no_flags[at], "", &answer) == DEOLMUTT_BAD_FLAG, "no flags", no_flags[at]);
    must(deolmutt_free(world) == DEOLMUTT_OK, "free", "");
    for (byte = 1; byte < 256; byte++) {
        int is_letter = strchr(LETTERS, byte) != NULL;
        name[4] = (char)byte;
        is_split(name, "u", is_letter ? FLAGS : OTHER, is_letter ? name + 4 : "");
    }
    is_split("u:2," LETTERS, "u", FLAGS, LETTERS);
    is_flagged("u:2,", "zyxwvutsrqponmlkjihgfedcbaZYXWVUTSRQPONMLKJIHGFEDCBA", "", "u:2," LETTERS, LETTERS);
    is_flagged("u", "TSSa", "", "u:2,STa", "STa");
    is_flagged("u:2,STa", "F", "Tx", "u:2,FSa", "FSa");
    is_flagged("u:2,", "zSA", "", "u:2,ASz", "ASz");
}

static uint8_t made_name[256];

/* The length of the name that parts make. */
static size_t makes(uint64_t sec, uint64_t micro, uint64_t pid, uint64_t count, const char *host) {
    size_t length = 0;
    must(deolmutt_unique(sec, micro, pid, count, of(host), strlen(host), made_name, sizeof made_name, &length) == DEOLMUTT_OK, "a host", host);
    return length;
}

static void is_made(uint64_t sec, uint64_t micro, uint64_t pid, uint64_t count, const char *host, const char *wanted) {
    size_t length = makes(sec, micro, pid, count, host);
    must(length == strlen(wanted) && memcmp(made_name, wanted, length) == 0, "a unique name", wanted);
}

static void is_bad_host(struct bytes host) {
    size_t length = 99;
    must(deolmutt_unique(1000, 5, 7, 1, of(host.at), host.length, made_name, sizeof made_name, &length) == DEOLMUTT_BAD_HOST, "no host",
         host.at);
    /* Too many microseconds make none, whatever the host is. */
    must(deolmutt_unique(1000, 1000000, 7, 1, of(host.at), host.length, made_name, sizeof made_name, &length) == DEOLMUTT_BAD_MICRO,
         "no microseconds", host.at);
    must(length == 0, "what is refused says nothing", host.at);
}

/* Whether a delivery is taken under a name. */
static uint32_t delivered(struct bytes unique) {
    deolmutt_answer answer;
    deolmutt_world *world = loaded("folder i\n");
    uint32_t status = called(world, DEOLMUTT_DELIVER, unique, "x", "", &answer);
    must(status != DEOLMUTT_OK || answer.kind == DEOLMUTT_DELIVERED, "a delivery's answer", unique.at);
    must(deolmutt_free(world) == DEOLMUTT_OK, "free", "");
    return status;
}

static void test_unique(void) {
    static const struct bytes bad_hosts[] = {BYTES(""), BYTES("a\0"), BYTES("\nb"), BYTES("a\rb"), BYTES("::::::::::::::::::::::::::")};
    static const struct bytes names[] = {BYTES("u"), BYTES("s,S=5"), BYTES("u."), BYTES("\xff")};
    static const struct bytes others[] = {BYTES(""),    BYTES(".u"),  BYTES("."),   BYTES("u:2,S"),
                                          BYTES("u/v"), BYTES("u\0"), BYTES("u\n"), BYTES("\ru")};
    const uint64_t most = UINT64_MAX;
    char letters[202];
    struct bytes long_one = {letters, 0};
    size_t at;
    memset(letters, 'h', sizeof letters - 1);
    letters[sizeof letters - 1] = 0;
    is_made(1000, 5, 7, 1, "a/b:c", "1000.M5P7Q1.a\\057b\\072c");
    is_made(1000, 999999, 7, 1, "a", "1000.M999999P7Q1.a");
    is_made(0, 0, 0, 0, ".", "0.M0P0Q0..");
    is_made(most, 999999, most, most, "h", "18446744073709551615.M999999P18446744073709551615Q18446744073709551615.h");
    must(makes(most, 999999, most, most, letters + 101) == 171, "the longest name", letters + 101);
    long_one.at = (const char *)made_name;
    long_one.length = 171;
    must(delivered(long_one) == DEOLMUTT_OK, "a delivery under the longest name that is made", "");
    for (at = 0; at < COUNT(bad_hosts); at++)
        is_bad_host(bad_hosts[at]);
    long_one.at = letters;
    long_one.length = 101;
    is_bad_host(long_one);
    for (at = 0; at < COUNT(names); at++)
        must(delivered(names[at]) == DEOLMUTT_OK, "a delivery's name", names[at].at);
    for (at = 0; at < COUNT(others); at++)
        must(delivered(others[at]) == DEOLMUTT_BAD_UNIQUE, "no delivery's name", others[at].at);
    long_one.length = 200;
    must(delivered(long_one) == DEOLMUTT_OK, "200 bytes", letters);
    long_one.length = 201;
    must(delivered(long_one) == DEOLMUTT_BAD_UNIQUE, "201 bytes", letters);
}

int main(void) {
    test_split();
    test_flags();
    test_unique();
    printf("%lu checks\n", checked);
    return 0;
}
