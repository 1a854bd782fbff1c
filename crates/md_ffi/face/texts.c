/*
 * The version of the interface, and the texts of refusals.
 */
#include "face.h"

uint32_t deolmutt_abi(void) { return md_ffi_abi(); }

uint32_t deolmutt_minor(void) { return DEOLMUTT_MINOR; }

/* The texts as C's own. Those of the proved functions stand here once more, and tools/check_ffi holds them to md_ffi_text. */
static const char *const texts[] = {
    [DEOLMUTT_OK] = "ok",
    [DEOLMUTT_NULL] = "null pointer",
    [DEOLMUTT_LENGTH] = "bad length",
    [DEOLMUTT_ROOM] = "too little room",
    [DEOLMUTT_NO_MEMORY] = "no memory",
    [DEOLMUTT_BAD_KIND] = "bad kind",
    [DEOLMUTT_NO_PLACE] = "no place",
    [DEOLMUTT_BAD_RECORD] = "bad record",
    [DEOLMUTT_NOT_THERE] = "not there",
    [DEOLMUTT_NO_MESSAGE_NAME] = "no message's name",
    [DEOLMUTT_UNANSWERED] = "unanswered",
    [DEOLMUTT_CLOSED] = "closed",
    [DEOLMUTT_NOT_ASKED] = "not asked",
    [DEOLMUTT_ASKED] = "asked before",
    [DEOLMUTT_BAD_REPLY] = "bad reply",
    [DEOLMUTT_BUSY] = "busy",
    [DEOLMUTT_OVERLAP] = "overlap",
    [DEOLMUTT_BAD_NAME] = "bad name",
    [DEOLMUTT_LONG_UNIQUE] = "long unique",
    [DEOLMUTT_DUPLICATE_UNIQUE] = "duplicate unique",
    [DEOLMUTT_NAME_USED] = "name used",
    [DEOLMUTT_NO_FOLDER] = "no folder",
    [DEOLMUTT_SAME_FOLDER] = "same folder",
    [DEOLMUTT_BAD_UNIQUE] = "bad unique",
    [DEOLMUTT_BAD_TRIES] = "bad tries",
    [DEOLMUTT_BAD_CHUNK] = "bad chunk",
    [DEOLMUTT_TOO_MANY_JOBS] = "too many jobs",
    [DEOLMUTT_BODY_TOO_LONG] = "body too long",
    [DEOLMUTT_NO_JOB] = "no job",
    [DEOLMUTT_ANSWERED] = "answered",
    [DEOLMUTT_BAD_HOST] = "bad host",
    [DEOLMUTT_BAD_MICRO] = "bad micro",
    [DEOLMUTT_BAD_FLAG] = "bad flag",
    [DEOLMUTT_BAD_COMMAND] = "bad command",
    [DEOLMUTT_BAD_NUMBER] = "bad number",
    [DEOLMUTT_BAD_ESCAPE] = "bad escape",
    [DEOLMUTT_BAD_PLACE] = "bad place",
    [DEOLMUTT_BAD_FOLDER] = "bad folder",
    [DEOLMUTT_UNKNOWN_FOLDER] = "unknown folder",
    [DEOLMUTT_TOO_LATE] = "too late",
    [DEOLMUTT_NO_FIRST] = "no first reading",
    [DEOLMUTT_SAME_PATH] = "same path twice",
    [DEOLMUTT_NOT_IN_THIS_RUN] = "not in this run",
    [DEOLMUTT_READ_FAULT] = "read fault",
    [DEOLMUTT_WRITE_FAULT] = "write fault",
    [DEOLMUTT_SCRIPT_TOO_LONG] = "script too long",
    [DEOLMUTT_TOO_MANY_READS] = "too many reads",
    [DEOLMUTT_NO_LOG] = "no log",
    [DEOLMUTT_LOG_BAD_LINE] = "bad line",
    [DEOLMUTT_LOG_BAD_NUMBER] = "bad number",
    [DEOLMUTT_LOG_BAD_ESCAPE] = "bad escape",
    [DEOLMUTT_LOG_BAD_PLACE] = "bad place",
    [DEOLMUTT_LOG_BAD_NAME] = "bad name",
    [DEOLMUTT_LOG_BAD_REPLY] = "bad reply",
    [DEOLMUTT_LOG_BAD_CLAUSE] = "bad clause",
    [DEOLMUTT_LOG_BAD_FLAGS] = "bad flags",
    [DEOLMUTT_LOG_UNKNOWN_FOLDER] = "unknown folder",
    [DEOLMUTT_LOG_SAME_FOLDER] = "same folder",
    [DEOLMUTT_LOG_TOO_MANY_FOLDERS] = "too many folders",
    [DEOLMUTT_LOG_SAME_PATH] = "same path",
    [DEOLMUTT_LOG_NO_SUCH_PATH] = "no such path",
    [DEOLMUTT_LOG_TOO_LATE] = "too late",
    [DEOLMUTT_LOG_NO_ORDER] = "no order",
    [DEOLMUTT_LOG_TOO_MANY_ORDERS] = "too many orders",
};

const char *deolmutt_strerror(int status) {
    int is_one = status >= 0 && status < (int)(sizeof texts / sizeof *texts) && texts[status] != NULL;
    return is_one ? texts[status] : "no such status";
}

/* The text of what no proved function refuses, or none. */
static const char *own_text(uint32_t refusal) {
    return refusal == DEOLMUTT_BUSY || refusal == DEOLMUTT_OVERLAP ? texts[refusal] : "";
}

size_t deolmutt_text(uint32_t refusal, uint8_t *out, size_t room) {
    const char *own = own_text(refusal);
    size_t length = strlen(own);
    if (IS_NULL(out, room) || IS_LONG(room))
        return 0;
    if (length == 0)
        return md_ffi_text(refusal, ROOM(out, room));
    if (room != 0)
        memcpy(out, own, room < length ? room : length);
    return length;
}
