/* Logs that are judged: their findings, each wrong line by its own refusal, rooms that are too small, and what C sees of clauses. */
#ifndef JUDGING_H
#define JUDGING_H

#include "checks.h"

/* As crates/judge_examples/data/python-set-item.log. */
static const char set_item[] = "maildir_log 1\n# a comment\nfolder i\nfile i/cur/u:2,S 1\n10 p create i/tmp/v ok\n10 p write i/tmp/v ok\n"
                               "10 p flush i/tmp/v ok\n10 p link i/tmp/v i/new/v ok\n10 p unlink i/tmp/v ok\n10 p unlink i/cur/u:2,S ok\n"
                               "10 p rename i/new/v i/cur/u:2,S ok\n";
static const deolmutt_finding set_item_found[] = {
    {10, DEOLMUTT_CLAUSE_GONE, 0}, {11, DEOLMUTT_CLAUSE_GONE, 0}, {11, DEOLMUTT_CLAUSE_USED_AGAIN, 0}};

static void test_findings(void) {
    uint8_t out[64], other[64];
    deolmutt_finding finding;
    size_t length = 9, at = 0, each;
    uint64_t line = 9;
    CHECK(deolmutt_judge(TEXT(set_item), out, sizeof out, &length, &line) == DEOLMUTT_OK && length == 48 && line == 0);
    for (each = 0; each < 3; each++) {
        CHECK(deolmutt_next_finding(out, length, &at, &finding) == DEOLMUTT_OK && at == 16 * (each + 1));
        CHECK(memcmp(&finding, &set_item_found[each], sizeof finding) == 0);
    }
    CHECK(deolmutt_next_finding(out, length, &at, &finding) == DEOLMUTT_NOT_THERE && at == 48 && finding.line == 0 && finding.clause == 0);
    /* Byte by byte: the line, the clause, and zeros. */
    CHECK(out[0] == 10 && out[8] == 7 && out[16] == 11 && out[24] == 7 && out[32] == 11 && out[40] == 8 && out[44] == 0 && out[47] == 0);
    memset(other, '.', sizeof other);
    CHECK(deolmutt_judge(TEXT(set_item), other, 48, &length, &line) == DEOLMUTT_OK && memcmp(out, other, 48) == 0 && other[48] == '.');
    memset(other, '.', sizeof other);
    CHECK(deolmutt_judge(TEXT(set_item), other, 47, &length, &line) == DEOLMUTT_ROOM && length == 48 && line == 0 && other[0] == '.');
    CHECK(deolmutt_judge(TEXT(set_item), NULL, 0, &length, &line) == DEOLMUTT_ROOM && length == 48);
    /* A lawful log has no findings, and needs no room. */
    CHECK(deolmutt_judge(TEXT("maildir_log 1\nfolder i\n"), NULL, 0, &length, &line) == DEOLMUTT_OK && length == 0 && line == 0);
}

/* Each refusal of a log, by the last line of one. */
static const struct wrong {
    uint32_t status;
    const char *last;
} wrongs[] = {
    {DEOLMUTT_LOG_BAD_LINE, "1 a link i/tmp/u"},
    {DEOLMUTT_LOG_BAD_NUMBER, "1x a unlink i/new/u ok"},
    {DEOLMUTT_LOG_BAD_ESCAPE, "1 a unlink i/new/\\q ok"},
    {DEOLMUTT_LOG_BAD_PLACE, "1 a unlink i/old/u ok"},
    {DEOLMUTT_LOG_BAD_NAME, "1 a unlink i/new/.. ok"},
    {DEOLMUTT_LOG_BAD_REPLY, "1 a unlink i/new/u exists"},
    {DEOLMUTT_LOG_BAD_CLAUSE, "allow NotADirectory"},
    {DEOLMUTT_LOG_BAD_FLAGS, "1 a answer flags F1 i u"},
    {DEOLMUTT_LOG_UNKNOWN_FOLDER, "1 a unlink j/new/u ok"},
    {DEOLMUTT_LOG_SAME_FOLDER, "folder i"},
    {DEOLMUTT_LOG_SAME_PATH, "file i/new/m 1"},
    {DEOLMUTT_LOG_NO_SUCH_PATH, "also i/new/n i/new/o"},
};

static void wrong_log(const char *log, uint32_t status, uint64_t number) {
    uint8_t out[16];
    size_t length = 9;
    uint64_t line = 0;
    memset(out, '.', sizeof out);
    CHECK(deolmutt_judge(TEXT(log), out, sizeof out, &length, &line) == status);
    CHECK(length == 0 && line == number && out[0] == '.' && out[15] == '.');
}

static void test_wrong_logs(void) {
    static char many[20000];
    char log[256];
    size_t each, end;
    wrong_log("", DEOLMUTT_NO_LOG, 1);
    wrong_log("maildir_log 2\n", DEOLMUTT_NO_LOG, 1);
    for (each = 0; each < sizeof wrongs / sizeof *wrongs; each++) {
        sprintf(log, "maildir_log 1\nfolder i\nfile i/new/m 1\n%s\n", wrongs[each].last);
        wrong_log(log, wrongs[each].status, 4);
    }
    wrong_log("maildir_log 1\nfolder i\n1 a list i new ok\nfile i/new/u 1\n", DEOLMUTT_LOG_TOO_LATE, 4);
    wrong_log("maildir_log 1\nfolder i\n1@1..2 a unlink i/new/u ok\n", DEOLMUTT_LOG_NO_ORDER, 3);
    end = (size_t)sprintf(many, "maildir_log 1\n");
    for (each = 0; each <= 1000; each++)
        end += (size_t)sprintf(many + end, "folder f%lu\n", (unsigned long)each);
    wrong_log(many, DEOLMUTT_LOG_TOO_MANY_FOLDERS, 1002);
    /* Seven creates and seven unlinks of one name at once come in 25,401,600 orders, and after none of them is the name there. */
    end = (size_t)sprintf(many, "maildir_log 1\nfolder i\n");
    for (each = 0; each < 7; each++)
        end += (size_t)sprintf(many + end, "5@1..9 a create i/tmp/u ok\n5@1..9 a unlink i/tmp/u ok\n");
    sprintf(many + end, "5@10..11 b unlink i/tmp/u ok\n");
    wrong_log(many, DEOLMUTT_LOG_TOO_MANY_ORDERS, 17);
}

static void test_next_findings(void) {
    static const uint8_t one[17] = {1, 0, 0, 0, 0, 0, 0, 0, 13, 0, 0, 0, 0, 0, 0, 0, 1};
    uint8_t bad[16];
    deolmutt_finding finding;
    size_t at = 0;
    CHECK(deolmutt_next_finding(NULL, 0, &at, &finding) == DEOLMUTT_NOT_THERE && at == 0);
    CHECK(deolmutt_next_finding(one, 15, &at, &finding) == DEOLMUTT_BAD_RECORD && at == 0 && finding.line == 0);
    CHECK(deolmutt_next_finding(one, 17, &at, &finding) == DEOLMUTT_OK && at == 16 && finding.clause == 13);
    CHECK(deolmutt_next_finding(one, 17, &at, &finding) == DEOLMUTT_BAD_RECORD && at == 16 && finding.clause == 0);
    at = 18;
    CHECK(deolmutt_next_finding(one, 17, &at, &finding) == DEOLMUTT_BAD_RECORD && at == 18);
    at = SIZE_MAX;
    CHECK(deolmutt_next_finding(one, 17, &at, &finding) == DEOLMUTT_BAD_RECORD && at == SIZE_MAX);
    at = 0;
    memcpy(bad, one, sizeof bad);
    bad[8] = 0;
    CHECK(deolmutt_next_finding(bad, 16, &at, &finding) == DEOLMUTT_BAD_RECORD);
    bad[8] = 14;
    CHECK(deolmutt_next_finding(bad, 16, &at, &finding) == DEOLMUTT_BAD_RECORD);
    bad[8] = 13;
    bad[12] = 1;
    CHECK(deolmutt_next_finding(bad, 16, &at, &finding) == DEOLMUTT_BAD_RECORD && at == 0);
}

static void test_clauses(void) {
    uint32_t clause;
    CHECK(strcmp(deolmutt_clause_name(DEOLMUTT_CLAUSE_NOT_A_DIRECTORY), "NotADirectory") == 0);
    CHECK(strcmp(deolmutt_clause_name(DEOLMUTT_CLAUSE_ANSWERED_FALSELY), "AnsweredFalsely") == 0);
    CHECK(strcmp(deolmutt_clause_text(DEOLMUTT_CLAUSE_GONE), "a message leaves its folder without the flag T") == 0);
    CHECK(strcmp(deolmutt_clause_name(0), "no such clause") == 0 && strcmp(deolmutt_clause_text(14), "no such clause") == 0);
    CHECK(strcmp(deolmutt_clause_name(UINT32_MAX), "no such clause") == 0);
    for (clause = 1; clause <= 13; clause++)
        CHECK(strlen(deolmutt_clause_name(clause)) > 3 && strlen(deolmutt_clause_text(clause)) > 20);
}

/* What is refused before a log is read. Out-parameters are 0 then. */
static void test_judge_passed(void) {
    static uint8_t bytes[64];
    size_t too_long = (size_t)PTRDIFF_MAX + 1, length = 9, at = 0;
    uint64_t line = 9;
    deolmutt_finding finding;
    CHECK(deolmutt_judge(NULL, 1, bytes, 9, &length, &line) == DEOLMUTT_NULL && length == 0 && line == 0);
    CHECK(deolmutt_judge(bytes, 9, NULL, 9, &length, &line) == DEOLMUTT_NULL);
    line = length = 9;
    CHECK(deolmutt_judge(bytes, 9, NULL, 0, NULL, &line) == DEOLMUTT_NULL && line == 0);
    CHECK(deolmutt_judge(bytes, 9, NULL, 0, &length, NULL) == DEOLMUTT_NULL && length == 0);
    CHECK(deolmutt_judge(bytes, too_long, NULL, 0, &length, &line) == DEOLMUTT_LENGTH);
    CHECK(deolmutt_judge(bytes, 9, bytes, too_long, &length, &line) == DEOLMUTT_LENGTH);
    CHECK(deolmutt_judge(bytes, 9, bytes + 8, 9, &length, &line) == DEOLMUTT_OVERLAP);
    CHECK(deolmutt_judge((uint8_t *)&line, 8, bytes, 9, &length, &line) == DEOLMUTT_OVERLAP);
    CHECK(deolmutt_judge(bytes, 9, (uint8_t *)&length, 8, &length, &line) == DEOLMUTT_OVERLAP);
    CHECK(deolmutt_next_finding(NULL, 1, &at, &finding) == DEOLMUTT_NULL);
    CHECK(deolmutt_next_finding(bytes, 1, NULL, &finding) == DEOLMUTT_NULL);
    CHECK(deolmutt_next_finding(bytes, 1, &at, NULL) == DEOLMUTT_NULL);
    CHECK(deolmutt_next_finding(bytes, too_long, &at, &finding) == DEOLMUTT_LENGTH);
    CHECK(deolmutt_next_finding((uint8_t *)&at, 8, &at, &finding) == DEOLMUTT_OVERLAP);
}

static void test_judging(void) {
    test_findings();
    test_wrong_logs();
    test_next_findings();
    test_clauses();
    test_judge_passed();
}

#endif
