/*
 * Logs that are judged, and what C sees of the law's clauses.
 */
#include "face.h"

/* What a finding takes among others, in bytes. */
#define FINDING 16

uint32_t deolmutt_judge(const uint8_t *log, size_t length, uint8_t *out, size_t room, size_t *out_length, uint64_t *line) {
    CLEAR(out_length);
    CLEAR(line);
    if (out_length == NULL || line == NULL || IS_NULL(log, length) || IS_NULL(out, room))
        return DEOLMUTT_NULL;
    if (IS_LONG(length) || IS_LONG(room))
        return DEOLMUTT_LENGTH;
    if (OVERLAPS(3, IT(out_length), IT(line), SOME(out, room), SOME(log, length)))
        return DEOLMUTT_OVERLAP;
    return md_ffi_judge(BYTES(log, length), ROOM(out, room), out_length, line);
}

/* Each clause by its name, and why a step that breaks it is wrong. They stand in the program's judge once more, and the tests of the
   package for Python hold the two to one another. */
static const char *const clauses[][2] = {
    {"no such clause", "no such clause"},
    [DEOLMUTT_CLAUSE_NOT_A_DIRECTORY] = {"NotADirectory", "no directory gives this reply, or the log lacks a step before"},
    [DEOLMUTT_CLAUSE_OVERWRITTEN] = {"Overwritten", "a path names another file than before, so what it named may be lost"},
    [DEOLMUTT_CLAUSE_SEEN_BEFORE_WHOLE] = {"SeenBeforeWhole", "readers see a message that is not written whole"},
    [DEOLMUTT_CLAUSE_MIXED] = {"Mixed", "a file is written to by another program than made it"},
    [DEOLMUTT_CLAUSE_NOT_FLUSHED] = {"NotFlushed", "readers see bytes that were not flushed: a crash may lose them"},
    [DEOLMUTT_CLAUSE_TWO_NAMES] = {"TwoNames", "a message has two names in its folder, and is shown twice"},
    [DEOLMUTT_CLAUSE_GONE] = {"Gone", "a message leaves its folder without the flag T"},
    [DEOLMUTT_CLAUSE_USED_AGAIN] = {"UsedAgain", "a unique name is used for a second message"},
    [DEOLMUTT_CLAUSE_MOVED_BACK] = {"MovedBack", "a message that was read is in new again"},
    [DEOLMUTT_CLAUSE_CLEANED_EARLY] = {"CleanedEarly", "a file in tmp is taken from a program that may still write it"},
    [DEOLMUTT_CLAUSE_UNLISTED] = {"Unlisted", "a listing lacks a message that was there all the while"},
    [DEOLMUTT_CLAUSE_GAVE_UP] = {"GaveUp", "a call was refused, and the program reports success without another look"},
    [DEOLMUTT_CLAUSE_ANSWERED_FALSELY] = {"AnsweredFalsely", "what the program reports is not so"},
};

static int is_clause(uint32_t clause) { return clause >= DEOLMUTT_CLAUSE_NOT_A_DIRECTORY && clause <= DEOLMUTT_CLAUSE_ANSWERED_FALSELY; }

const char *deolmutt_clause_name(uint32_t clause) { return clauses[is_clause(clause) ? clause : 0][0]; }

const char *deolmutt_clause_text(uint32_t clause) { return clauses[is_clause(clause) ? clause : 0][1]; }

uint32_t deolmutt_next_finding(const uint8_t *findings, size_t length, size_t *at, deolmutt_finding *finding) {
    uint64_t clause;
    CLEAR(finding);
    if (at == NULL || finding == NULL || IS_NULL(findings, length))
        return DEOLMUTT_NULL;
    if (IS_LONG(length))
        return DEOLMUTT_LENGTH;
    if (OVERLAPS(2, IT(at), IT(finding), SOME(findings, length)))
        return DEOLMUTT_OVERLAP;
    if (*at == length)
        return DEOLMUTT_NOT_THERE;
    if (*at > length || length - *at < FINDING)
        return DEOLMUTT_BAD_RECORD;
    /* Its clause, and the 0 behind it. */
    clause = little(findings + *at + 8, 8);
    if (clause > UINT32_MAX || !is_clause((uint32_t)clause))
        return DEOLMUTT_BAD_RECORD;
    finding->line = little(findings + *at, 8);
    finding->clause = (uint32_t)clause;
    *at += FINDING;
    return DEOLMUTT_OK;
}
