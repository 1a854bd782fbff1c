/*
 * deolmutt.h: the Maildir store in memory, for C and for languages that call C. ABI version 1.
 *
 * Status. Every function but deolmutt_abi, deolmutt_minor, deolmutt_text and deolmutt_strerror returns a uint32_t: 0 (DEOLMUTT_OK) where it
 * has done what it says, else a number of enum deolmutt_refusal. The numbers stay what they are; new ones may come.
 *
 * Bytes come as a pointer and a length in bytes. A length of 0 may come with any pointer, also a null one. What a function gives is
 * copied into the caller's buffer: `out` has `room` bytes, and *length becomes the whole length. Where that is more than `room`, nothing
 * is written to `out` and the status is DEOLMUTT_ROOM; a call with room 0 asks for the length alone.
 *
 * Out-parameters: what a function gives beside `out`, as *world, *job, *length, *line, *answer and *step. A call begins by making each that
 * is there null, 0 or, of a struct, all zero. So it is after every refusal, also those of the next paragraph, but where the function says
 * what the out-parameter is after one. Where the status is 0 each has what the function says. `out`, `answers` and the *at of deolmutt_next
 * and deolmutt_next_finding are none: of these no byte is written but those that the function says.
 *
 * What is refused before anything else, in this order: a pointer that is null, but for those that may be, as DEOLMUTT_NULL; a length of
 * more than PTRDIFF_MAX as DEOLMUTT_LENGTH; and as DEOLMUTT_OVERLAP where what the call writes, `out`, `answers` or an out-parameter,
 * overlaps anything else that is passed in the call.
 *
 * Refused calls. After any refusal a world is as it was before, but for deolmutt_call, the functions over it and deolmutt_calls, which say
 * what they leave.
 *
 * Who owns what. deolmutt_load and deolmutt_load_files give a world, which is the caller's until deolmutt_free takes it back, and
 * deolmutt_drive a driven job, which is the caller's until deolmutt_driven_free does. It is a precondition of each call that a world or a
 * job passed to it was given so and not taken back since, and that pointers and lengths tell of memory that is there. The library keeps no
 * pointer of the caller's after a call has returned. A call on a world or a job that was taken back, a second deolmutt_free too, reads
 * memory that was given back. Where that memory can still be read and holds no other world or job by then, the call is refused as
 * DEOLMUTT_CLOSED and writes nothing there. Build on neither.
 *
 * Threads. One world is for one thread at a time: no two calls on one world may overlap, and a world goes from one thread to another by
 * what orders their memory (a lock, a join). So it is with a driven job. A call that begins while another is in the same world or job is
 * refused as DEOLMUTT_BUSY; but one that begins when another thread has taken the world back is found out no better than is said above.
 * Calls on two worlds or jobs may overlap. The library starts no thread, takes no lock and keeps no state of its own. It is not to be
 * called from a signal handler, or in a forked child of a process with threads.
 *
 * Moments are seconds since 1970-01-01 00:00:00 UTC. Folders are numbered from 0, in the order in which they were loaded; jobs from 1.
 * Memory comes from malloc, realloc and free; where there is none left, a call is refused as DEOLMUTT_NO_MEMORY.
 *
 * Names are kept in hash tables. So that nobody can choose names that all collide there, deolmutt_load, deolmutt_load_files,
 * deolmutt_transcript and deolmutt_index draw 16 random bytes from the system by getentropy (of glibc 2.25 and later), and hash by them.
 * Where the system gives none, they go on, and hash the same way in every process. No answer hangs on these bytes. getentropy may wait
 * while a system starts, and it and malloc may set errno, by which no function here says anything.
 */
#ifndef DEOLMUTT_H
#define DEOLMUTT_H

#include <stddef.h>
#include <stdint.h>

#ifdef __cplusplus
extern "C" {
#endif

#define DEOLMUTT_ABI 1

/* What of this version is there: a greater one has all that a lesser one has. */
#define DEOLMUTT_MINOR 1

/* A store: folders, their messages, and the jobs on them. */
typedef struct deolmutt_world deolmutt_world;

/* A job whose directory calls its caller makes. */
typedef struct deolmutt_driven deolmutt_driven;

/* Why a call is refused. */
enum deolmutt_refusal {
    DEOLMUTT_OK = 0,

    /* of the call itself */
    DEOLMUTT_NULL = 1,             /* a pointer is null */
    DEOLMUTT_LENGTH = 2,           /* a length of more than PTRDIFF_MAX bytes */
    DEOLMUTT_ROOM = 3,             /* the caller's buffer has too little room */
    DEOLMUTT_NO_MEMORY = 4,        /* a growth was refused */
    DEOLMUTT_BAD_KIND = 5,         /* no kind of call, 1 to 7 */
    DEOLMUTT_NO_PLACE = 6,         /* no place, 0 to 2 */
    DEOLMUTT_BAD_RECORD = 7,       /* records that end amid one, or whose reserved word isn't 0; bytes that are no listing */
    DEOLMUTT_NOT_THERE = 8,        /* no message of that unique name; no name at that position; no more of a listing */
    DEOLMUTT_NO_MESSAGE_NAME = 9,  /* a name that begins with a dot or a colon, or is empty */
    DEOLMUTT_UNANSWERED = 10,      /* a job has no answer yet */
    DEOLMUTT_CLOSED = 11,          /* a world or a job that was taken back, where that is found out */
    DEOLMUTT_NOT_ASKED = 12,       /* no call of a driven job waits for a reply */
    DEOLMUTT_ASKED = 13,           /* a call of a driven job waits for its reply */
    DEOLMUTT_BAD_REPLY = 14,       /* no reply, 1 to 4 */
    DEOLMUTT_BUSY = 15,            /* another call is in this world or job, where that is found out */
    DEOLMUTT_OVERLAP = 16,         /* what is to be written overlaps something else that is passed */

    /* of a world */
    DEOLMUTT_BAD_NAME = 20,          /* a file name that is empty, over 255 bytes, or with a slash, NUL, LF or CR */
    DEOLMUTT_LONG_UNIQUE = 21,       /* a unique part of over 200 bytes */
    DEOLMUTT_DUPLICATE_UNIQUE = 22,  /* a unique part met before in new or cur of any folder */
    DEOLMUTT_NAME_USED = 23,         /* a delivery or a copy under a name that is used */
    DEOLMUTT_NO_FOLDER = 24,         /* a folder number that isn't there */
    DEOLMUTT_SAME_FOLDER = 25,       /* a move into the folder where the message is looked for */
    DEOLMUTT_BAD_UNIQUE = 26,        /* a unique name that is empty, over 200 bytes, begins with a dot, or holds : / NUL LF CR */
    DEOLMUTT_BAD_TRIES = 27,         /* not 1 to 16 tries */
    DEOLMUTT_BAD_CHUNK = 28,         /* pieces of no byte */
    DEOLMUTT_TOO_MANY_JOBS = 29,     /* 10,000 jobs are there */
    DEOLMUTT_BODY_TOO_LONG = 30,     /* a body of over 16,777,216 bytes */
    DEOLMUTT_NO_JOB = 31,            /* no job of that number */
    DEOLMUTT_ANSWERED = 32,          /* the job has its answer */

    /* of names */
    DEOLMUTT_BAD_HOST = 40,   /* a host that is empty, over 100 bytes once escaped, or with NUL, LF or CR */
    DEOLMUTT_BAD_MICRO = 41,  /* a microsecond of 1,000,000 or more */
    DEOLMUTT_BAD_FLAG = 42,   /* a flag that is no ASCII letter */

    /* of the lines of a script */
    DEOLMUTT_BAD_COMMAND = 50,     /* no command, or a word is missing, empty or one too many */
    DEOLMUTT_BAD_NUMBER = 51,      /* a word that should be a number is none, or is over 2^64 - 1 */
    DEOLMUTT_BAD_ESCAPE = 52,      /* a backslash begins no escape */
    DEOLMUTT_BAD_PLACE = 53,       /* a word that should be tmp, new or cur is none of these */
    DEOLMUTT_BAD_FOLDER = 54,      /* a folder can't be made under this name */
    DEOLMUTT_UNKNOWN_FOLDER = 55,  /* no folder was named so */
    DEOLMUTT_TOO_LATE = 56,        /* the store was loaded, so it can't be added to */
    DEOLMUTT_NO_FIRST = 57,        /* no first reading of the folder is kept */
    DEOLMUTT_SAME_PATH = 58,       /* two files have one path */
    DEOLMUTT_NOT_IN_THIS_RUN = 59, /* the command is none of those that this run takes */
    DEOLMUTT_READ_FAULT = 60,      /* no call gives it: scripts come whole */
    DEOLMUTT_WRITE_FAULT = 61,     /* no call gives it */
    DEOLMUTT_SCRIPT_TOO_LONG = 62, /* no call gives it */
    DEOLMUTT_TOO_MANY_READS = 63,  /* no call gives it */

    /* of the lines of a judge's log */
    DEOLMUTT_NO_LOG = 70,               /* the first line is not the head of a log, or no line is there */
    DEOLMUTT_LOG_BAD_LINE = 71,         /* a word is missing, empty, one too many, or names nothing that can stand there */
    DEOLMUTT_LOG_BAD_NUMBER = 72,       /* a word that should be a number is none, or has more than 19 digits */
    DEOLMUTT_LOG_BAD_ESCAPE = 73,       /* a backslash begins no escape */
    DEOLMUTT_LOG_BAD_PLACE = 74,        /* a word that should be tmp, new or cur is none of these */
    DEOLMUTT_LOG_BAD_NAME = 75,         /* no folder, file or message can have this name */
    DEOLMUTT_LOG_BAD_REPLY = 76,        /* the call gives no such reply */
    DEOLMUTT_LOG_BAD_CLAUSE = 77,       /* no clause has this name, or it is the one that is always judged */
    DEOLMUTT_LOG_BAD_FLAGS = 78,        /* flags are other bytes than letters */
    DEOLMUTT_LOG_UNKNOWN_FOLDER = 79,   /* no line before names the folder */
    DEOLMUTT_LOG_SAME_FOLDER = 80,      /* a line before names the folder */
    DEOLMUTT_LOG_TOO_MANY_FOLDERS = 81, /* 1,000 folders are there */
    DEOLMUTT_LOG_SAME_PATH = 82,        /* a line before puts a file at the path */
    DEOLMUTT_LOG_NO_SUCH_PATH = 83,     /* no line before puts a file at the path */
    DEOLMUTT_LOG_TOO_LATE = 84,         /* a line of the beginning comes after a step */
    DEOLMUTT_LOG_NO_ORDER = 85,         /* in no order of calls that overlap do directories give the replies */
    DEOLMUTT_LOG_TOO_MANY_ORDERS = 86   /* so many orders were tried that no more are */
};

/* The clauses of the law that a log is judged by, in its order. */
enum deolmutt_clause {
    DEOLMUTT_CLAUSE_NOT_A_DIRECTORY = 1,
    DEOLMUTT_CLAUSE_OVERWRITTEN = 2,
    DEOLMUTT_CLAUSE_SEEN_BEFORE_WHOLE = 3,
    DEOLMUTT_CLAUSE_MIXED = 4,
    DEOLMUTT_CLAUSE_NOT_FLUSHED = 5,
    DEOLMUTT_CLAUSE_TWO_NAMES = 6,
    DEOLMUTT_CLAUSE_GONE = 7,
    DEOLMUTT_CLAUSE_USED_AGAIN = 8,
    DEOLMUTT_CLAUSE_MOVED_BACK = 9,
    DEOLMUTT_CLAUSE_CLEANED_EARLY = 10,
    DEOLMUTT_CLAUSE_UNLISTED = 11,
    DEOLMUTT_CLAUSE_GAVE_UP = 12,
    DEOLMUTT_CLAUSE_ANSWERED_FALSELY = 13
};

/* What a call asks. */
enum deolmutt_kind {
    DEOLMUTT_DELIVER = 1,
    DEOLMUTT_SEEN = 2,
    DEOLMUTT_FLAG = 3,
    DEOLMUTT_MOVE = 4,
    DEOLMUTT_EXPUNGE = 5,
    DEOLMUTT_COPY = 6,
    DEOLMUTT_CLEAN = 7
};

/* How a job ended. */
enum deolmutt_answer_kind {
    DEOLMUTT_NO_ANSWER = 0,
    DEOLMUTT_DELIVERED = 1,
    DEOLMUTT_FLAGS = 2,             /* value: the flags, bit 0 for A to bit 25 for Z, bit 26 for a to bit 51 for z */
    DEOLMUTT_MOVED = 3,
    DEOLMUTT_EXPUNGED = 4,
    DEOLMUTT_COPIED = 5,
    DEOLMUTT_CLEANED = 6,           /* value: how many files were removed from tmp */
    DEOLMUTT_MESSAGE_NOT_THERE = 7, /* no message of that name where the call acts */
    DEOLMUTT_NOT_TRASHED = 8,       /* the message hasn't the flag T */
    DEOLMUTT_OTHER_INFO = 9,        /* the message has info that holds no flags */
    DEOLMUTT_LOST = 10,             /* the name was gone at the act in each of the tries */
    DEOLMUTT_TIMED_OUT = 11,        /* a delivery's 24 hours ended before its link */
    DEOLMUTT_TMP_GONE = 12,         /* the file in tmp was gone at an append or the link */
    DEOLMUTT_NAME_TAKEN = 13,       /* the name that was to be made is there: of driven jobs alone, since a world refuses NAME_USED */
    DEOLMUTT_FAULT = 14             /* a directory call failed: of a driven job alone, since in memory none does */
};

enum deolmutt_place { DEOLMUTT_TMP = 0, DEOLMUTT_NEW = 1, DEOLMUTT_CUR = 2 };

/* The directory call of a step. */
enum deolmutt_dir_call {
    DEOLMUTT_CREATE = 1,
    DEOLMUTT_APPEND = 2, /* value: how many bytes */
    DEOLMUTT_LINK = 3,
    DEOLMUTT_RENAME = 4,
    DEOLMUTT_UNLINK = 5,
    DEOLMUTT_LIST = 6 /* value: the place */
};

/* What the directories answered: EEXIST is DEOLMUTT_EXISTS, ENOENT is DEOLMUTT_NOT_FOUND, and any other error DEOLMUTT_FAULTED. In memory
   no directory call fails, so that no step of a world shows DEOLMUTT_FAULTED. */
enum deolmutt_dir_reply { DEOLMUTT_DONE = 1, DEOLMUTT_EXISTS = 2, DEOLMUTT_NOT_FOUND = 3, DEOLMUTT_FAULTED = 4 };

/* How a job ended: enum deolmutt_answer_kind, and its value, 0 where the kind names none. */
typedef struct deolmutt_answer {
    uint64_t kind;
    uint64_t value;
} deolmutt_answer;

/* What a step did: its directory call and the reply, whether it is the job's effect (1) or not (0), and the answer that it gave. */
typedef struct deolmutt_step_out {
    uint32_t call;
    uint32_t reply;
    uint64_t value;
    uint64_t effect;
    deolmutt_answer answer;
} deolmutt_step_out;

/* A directory call that a driven job asks for: enum deolmutt_dir_call, the folder and the place of its name, and of a link and a rename
   those of the second name, else 0. `name` is the length of its name, 0 of a listing; `second` that of the second name or, of an append, of
   the bytes. */
typedef struct deolmutt_request {
    uint32_t call;
    uint32_t folder;
    uint32_t place;
    uint32_t to_folder;
    uint32_t to_place;
    uint32_t reserved;
    uint64_t name;
    uint64_t second;
} deolmutt_request;

/* A message of a listing. The name points into the listing's bytes. */
typedef struct deolmutt_message {
    const uint8_t *name;  /* the whole name of its file */
    size_t name_length;   /* in bytes */
    size_t unique_length; /* the message's unique name is so many bytes at the front of it */
    uint64_t size;        /* the message, in bytes */
    uint64_t flags;       /* as in DEOLMUTT_FLAGS, 0 where info is not 1 */
    uint32_t place;       /* DEOLMUTT_NEW or DEOLMUTT_CUR */
    uint32_t info;        /* 0 no info, 1 flags, 2 other info */
} deolmutt_message;

/* Bytes, and how many. */
typedef struct deolmutt_bytes {
    const void *bytes;
    size_t length;
} deolmutt_bytes;

/* A file that a world begins with: its folder and place, its whole name, its stamp in seconds, and its bytes. */
typedef struct deolmutt_file {
    uint32_t folder;
    uint32_t place;
    const void *name;
    size_t name_length;
    uint64_t stamp;
    const void *body;
    size_t body_length;
} deolmutt_file;

/* What is known of a file beside its name and its bytes: its stamp in seconds, and how many bytes it has. */
typedef struct deolmutt_row {
    uint64_t stamp;
    uint64_t size;
} deolmutt_row;

/* A step of a log that breaks a clause of the law: the number of its line, from 1, and enum deolmutt_clause. */
typedef struct deolmutt_finding {
    uint64_t line;
    uint32_t clause;
    uint32_t reserved;
} deolmutt_finding;

/* The version of this interface: DEOLMUTT_ABI of the header that the library was built with. It is another one where a call changes; a
   call that is added leaves it, and raises DEOLMUTT_MINOR. */
uint32_t deolmutt_abi(void);

/* DEOLMUTT_MINOR of the header that the library was built with. */
uint32_t deolmutt_minor(void);

/* The text of a refusal, in ASCII, as much of it as there is room for, and its whole length, at most 32. 0 for a number that is none, and
   where out is null and room isn't 0. */
size_t deolmutt_text(uint32_t refusal, uint8_t *out, size_t room);

/* The same text of a status, with a NUL at its end: "ok" for 0, and "no such status" for a number that is none. It is the library's, and
   stays as it is. */
const char *deolmutt_strerror(int status);

/* A world over folders and files, from `folder NAME` and `file FOLDER PLACE NAME STAMP [BODY]` lines of the script language. A space ends a
   NAME: files whose names have one come by deolmutt_load_files.
   Refused as a script's line is, with *line its number, from 1; or, with *line 0, as DEOLMUTT_SAME_PATH, BAD_NAME, LONG_UNIQUE,
   DUPLICATE_UNIQUE or NO_MEMORY. *world is null after each refusal. */
uint32_t deolmutt_load(const uint8_t *lines, size_t length, deolmutt_world **world, uint64_t *line);

/* A world over folders and files, whose names may have any bytes but those that DEOLMUTT_BAD_NAME is for. Folders are numbered in their
   order, and their names are kept for deolmutt_folder alone: they may be of any bytes, and empty. Refused: DEOLMUTT_NULL and LENGTH, also
   for a pointer or a length of one folder or file; NO_FOLDER and NO_PLACE, of the first file that has one; SAME_PATH; BAD_NAME,
   LONG_UNIQUE or DUPLICATE_UNIQUE; NO_MEMORY. To keep a world and load it again, read its folders by deolmutt_folder_name, and each file
   of each place by deolmutt_row_at and deolmutt_read_file: jobs are not kept, and the clock begins at the greatest stamp. */
uint32_t deolmutt_load_files(const deolmutt_bytes *folders, size_t folder_count, const deolmutt_file *files, size_t file_count,
                             deolmutt_world **world);

/* Takes a world back. */
uint32_t deolmutt_free(deolmutt_world *world);

/* How many folders a world has. */
uint32_t deolmutt_folders(const deolmutt_world *world, uint32_t *count);

/* The number of the folder of a name, the first one's where two have it. Refused: DEOLMUTT_UNKNOWN_FOLDER. */
uint32_t deolmutt_folder(const deolmutt_world *world, const void *name, size_t length, uint32_t *folder);

/* The name of a folder. Refused: DEOLMUTT_NO_FOLDER, ROOM (*length is said). */
uint32_t deolmutt_folder_name(const deolmutt_world *world, uint32_t folder, uint8_t *out, size_t room, size_t *length);

/* Submits a call: a job, which no step was taken of. *job is its number.
     kind     folder  unique     to      first              second             number
     DELIVER  its     its name   -       the message        -                  bytes of a piece
     SEEN     its     its name   -       flags to add       -                  tries, 1 to 16
     FLAG     its     its name   -       flags to add       flags to remove    tries
     MOVE     from    its name   into    -                  -                  tries
     EXPUNGE  its     its name   -       -                  -                  tries
     COPY     from    its name   into    the second name    -                  tries
     CLEAN    its     -          -       -                  -                  -
   What is `-` is not read. Flags are ASCII letters in any order.
   Refused, in this order: DEOLMUTT_BAD_KIND, BAD_FLAG, NO_MEMORY (of the copy of what was passed), then NO_FOLDER, SAME_FOLDER,
   BAD_UNIQUE, BAD_TRIES, BAD_CHUNK, BODY_TOO_LONG, TOO_MANY_JOBS, NAME_USED and NO_MEMORY. */
uint32_t deolmutt_submit(deolmutt_world *world, uint32_t kind, uint32_t folder, const uint8_t *unique, size_t unique_length, uint32_t to,
                         const uint8_t *first, size_t first_length, const uint8_t *second, size_t second_length, uint64_t number,
                         uint64_t *job);

/* One step of a job, at a moment. own: null, or the moment by the clock of the job's host. *step is what the step did.
   Refused: DEOLMUTT_NO_JOB, ANSWERED, NO_MEMORY. */
uint32_t deolmutt_step(deolmutt_world *world, uint64_t job, uint64_t now, const uint64_t *own, deolmutt_step_out *step);

/* Submits a call, and takes its job's steps at one moment until it is answered. Refused as deolmutt_submit, with the world as it was; and
   as DEOLMUTT_NO_MEMORY amid the steps, with the job there and its steps so far taken: deolmutt_step goes on with it, and *job is its
   number. */
uint32_t deolmutt_call(deolmutt_world *world, uint32_t kind, uint32_t folder, const uint8_t *unique, size_t unique_length, uint32_t to,
                       const uint8_t *first, size_t first_length, const uint8_t *second, size_t second_length, uint64_t number,
                       uint64_t now, const uint64_t *own, uint64_t *job, deolmutt_answer *answer);

/* One function for each kind of call, over deolmutt_call. A delivery is written in pieces of 65,536 bytes. The others have one try, which
   does, since no other job takes a step meanwhile. Flags are letters with a NUL at their end. Refused as deolmutt_call; after
   DEOLMUTT_NO_MEMORY the job may be there without its answer, and deolmutt_settle tells its number. */
uint32_t deolmutt_deliver(deolmutt_world *world, uint32_t folder, const void *unique, size_t unique_length, const void *message,
                          size_t length, uint64_t now, deolmutt_answer *answer);
uint32_t deolmutt_seen(deolmutt_world *world, uint32_t folder, const void *unique, size_t unique_length, const char *flags, uint64_t now,
                       deolmutt_answer *answer);
uint32_t deolmutt_flag(deolmutt_world *world, uint32_t folder, const void *unique, size_t unique_length, const char *add,
                       const char *remove, uint64_t now, deolmutt_answer *answer);
uint32_t deolmutt_move(deolmutt_world *world, uint32_t folder, const void *unique, size_t unique_length, uint32_t to, uint64_t now,
                       deolmutt_answer *answer);
uint32_t deolmutt_copy(deolmutt_world *world, uint32_t folder, const void *unique, size_t unique_length, uint32_t to, const void *fresh,
                       size_t fresh_length, uint64_t now, deolmutt_answer *answer);
uint32_t deolmutt_expunge(deolmutt_world *world, uint32_t folder, const void *unique, size_t unique_length, uint64_t now,
                          deolmutt_answer *answer);
uint32_t deolmutt_clean(deolmutt_world *world, uint32_t folder, uint64_t now, deolmutt_answer *answer);

/* The answer of a job, DEOLMUTT_NO_ANSWER where it has none yet. Refused: DEOLMUTT_NO_JOB. */
uint32_t deolmutt_job_answer(const deolmutt_world *world, uint64_t job, deolmutt_answer *answer);

/* The world begins again: the same folders, messages and clock, with no job, so that it takes 10,000 calls more. Of the names that were
   used only those are still used that its files have. *job is 0. It takes no memory. Refused: DEOLMUTT_UNANSWERED, with *job the first job
   that has no answer yet. */
uint32_t deolmutt_settle(deolmutt_world *world, uint64_t *job);

/* The messages of a folder, in order of unique name. Each is `u32 place, u32 length of the name, u64 bytes of the message`, little-endian,
   and then the whole name of its file: deolmutt_next reads them. Refused: DEOLMUTT_NO_FOLDER, NO_MEMORY, ROOM (*length is said). */
uint32_t deolmutt_list(const deolmutt_world *world, uint32_t folder, uint8_t *out, size_t room, size_t *length);

/* The message at *at of a listing, in bytes, and moves *at on to the one after it. So to go through a listing:

     size_t at = 0;
     deolmutt_message message;
     while (deolmutt_next(listing, length, &at, &message) == DEOLMUTT_OK) ..

   Refused, with *at as it was: DEOLMUTT_NOT_THERE at the end; BAD_RECORD where there is no message of a listing. */
uint32_t deolmutt_next(const uint8_t *listing, size_t length, size_t *at, deolmutt_message *message);

/* A listing whose two halves are read at two moments, with calls between them. deolmutt_first gives the messages of new; at that moment or
   later deolmutt_second takes this as `first`, reads cur, and gives the messages of cur and those of `first` whose unique name is none of
   these, in order of unique name. By the listing law each unique name is shown as it was in the folder at some moment between the two; one
   that was there at both is listed, and none twice. Of another listing as `first` its messages of new count. Refused: as deolmutt_list; and
   deolmutt_second as DEOLMUTT_BAD_RECORD where `first` is no listing in order of unique name. */
uint32_t deolmutt_first(const deolmutt_world *world, uint32_t folder, uint8_t *out, size_t room, size_t *length);
uint32_t deolmutt_second(const deolmutt_world *world, uint32_t folder, const uint8_t *first, size_t first_length, uint8_t *out, size_t room,
                         size_t *length);

/* The bytes of a message, in new or cur of any folder. Refused: DEOLMUTT_NOT_THERE, ROOM (*length is said). */
uint32_t deolmutt_read(const deolmutt_world *world, const uint8_t *unique, size_t unique_length, uint8_t *out, size_t room,
                       size_t *length);

/* The name at a position, from 0, of the ordered names of a directory, tmp too. Refused: DEOLMUTT_NO_PLACE, NOT_THERE (past the last, or
   no such folder), ROOM (*length is said). */
uint32_t deolmutt_names(const deolmutt_world *world, uint32_t folder, uint32_t place, uint64_t at, uint8_t *out, size_t room,
                        size_t *length);

/* The name at a position as deolmutt_names gives it, and in *row the stamp and the size of its file. Refused: as deolmutt_names, at ROOM
   with *row and *length said. */
uint32_t deolmutt_row_at(const deolmutt_world *world, uint32_t folder, uint32_t place, uint64_t at, deolmutt_row *row, uint8_t *out,
                         size_t room, size_t *length);

/* The bytes of the file of a whole name in a directory, tmp too. Refused: DEOLMUTT_NO_PLACE, NOT_THERE, ROOM (*length is said). */
uint32_t deolmutt_read_file(const deolmutt_world *world, uint32_t folder, uint32_t place, const void *name, size_t name_length,
                            uint8_t *out, size_t room, size_t *length);

/* Many calls in one, each as by deolmutt_call without an own moment, at one moment. `records` has for each call, little-endian,
   `u32 kind, u32 folder, u32 to, u32 0, u64 length of unique, u64 of first, u64 of second, u64 number`, 48 bytes, and then the bytes of
   unique, first and second. It stops at the first refused: the calls before it are done, *done says how many, and `answers` has an answer
   for each of these. Refused: as deolmutt_call; DEOLMUTT_BAD_RECORD where the records end amid one, or the u32 0 of one is another number;
   DEOLMUTT_ROOM where answers, which has room for `room` answers, is full and bytes are left. *done is said after each of these, and the
   answers past it are as they were. After DEOLMUTT_NO_MEMORY the next call's job may be there without its answer, as after deolmutt_call;
   deolmutt_settle tells its number. */
uint32_t deolmutt_calls(deolmutt_world *world, const uint8_t *records, size_t length, uint64_t now, deolmutt_answer *answers, size_t room,
                        size_t *done);

/* What a whole script prints. Where a line is refused the status is its refusal, *line its number, and out has what was printed before
   it. Refused also as DEOLMUTT_NO_MEMORY, and as ROOM, with *out_length and *line as if there were room. */
uint32_t deolmutt_transcript(const uint8_t *script, size_t length, uint8_t *out, size_t room, size_t *out_length, uint64_t *line);

/* The index of the messages of `folder` and `file` lines, as `maildir_cli index` prints it: folder by folder, in the order of their lines,
   and in order of unique name, a line `FOLDER UNIQUE` for each message in new and cur, and the lines of deolmutt_summary. The lines make a
   store for the call alone. Refused as a script's line is, with *line its number, from 1: DEOLMUTT_NOT_IN_THIS_RUN at another command; and
   with *line the number of the last one as DEOLMUTT_SAME_PATH, BAD_NAME, LONG_UNIQUE or DUPLICATE_UNIQUE. Refused also as
   DEOLMUTT_NO_MEMORY and ROOM (*out_length is said). */
uint32_t deolmutt_index(const uint8_t *lines, size_t length, uint8_t *out, size_t room, size_t *out_length, uint64_t *line);

/* The findings of a whole log, as `deolmutt judge` reads it (docs/JUDGE.md): which steps break which clauses of the law. `out` has for
   each, little-endian, `u64 line, u32 clause, u32 0`, 16 bytes, in the order of the lines, and at one line in the order of the law: none
   where the log keeps the law. Refused as the log's first wrong line is, DEOLMUTT_NO_LOG to LOG_TOO_MANY_ORDERS, with *line its number,
   from 1. Refused also as DEOLMUTT_NO_MEMORY, and ROOM (*out_length is said). */
uint32_t deolmutt_judge(const uint8_t *log, size_t length, uint8_t *out, size_t room, size_t *out_length, uint64_t *line);

/* The finding at *at of such findings, from 0 on, and *at is the position after it. Refused, with *at as it was: DEOLMUTT_NOT_THERE at
   their end; BAD_RECORD where there is no whole finding. */
uint32_t deolmutt_next_finding(const uint8_t *findings, size_t length, size_t *at, deolmutt_finding *finding);

/* The name of a clause, as a log's `allow` line has it, and why a step that breaks it is wrong, in a sentence of ASCII, each with a NUL at
   its end: "no such clause" for a number that is none. They are the library's, and stay as they are. */
const char *deolmutt_clause_name(uint32_t clause);
const char *deolmutt_clause_text(uint32_t clause);

/* A unique name as "Using maildir format" has it, SEC.MmicroPpidQcount.host. Refused: DEOLMUTT_BAD_MICRO, BAD_HOST, NO_MEMORY,
   ROOM (*length is said). */
uint32_t deolmutt_unique(uint64_t sec, uint64_t micro, uint64_t pid, uint64_t count, const uint8_t *host, size_t host_length, uint8_t *out,
                         size_t room, size_t *length);

/* The parts of a message's file name. *unique_length: its unique part is so many bytes at its front. *info: 0 no info, 1 flags, in *flags
   as in DEOLMUTT_FLAGS, 2 other info. *flags is 0 where *info is not 1. Refused: DEOLMUTT_NO_MESSAGE_NAME. */
uint32_t deolmutt_split(const uint8_t *name, size_t length, size_t *unique_length, uint32_t *info, uint64_t *flags);

/* The summary of a message's header, as the command `summary` prints it: lines `subject=`, `from=`, `message-id=`, `date=` and `seconds=`
   for each that is there, and `end`. Refused: DEOLMUTT_NO_MEMORY, ROOM (*out_length is said). */
uint32_t deolmutt_summary(const uint8_t *message, size_t length, uint8_t *out, size_t room, size_t *out_length);

/* A job whose directory calls the caller makes, on a disk say: the job asks for one call after the other, and goes on by what was replied.
   The calls are those of the proved machine, whatever is replied, and names are of any bytes. To run a job:

     deolmutt_drive, and then until a step has an answer:
       deolmutt_driven_ask      at this second
       deolmutt_driven_request  which call it is
       make the call; of a reading tell the rows by deolmutt_driven_row
       deolmutt_driven_take     what was replied

   A create is to be as by open with O_CREAT and O_EXCL, a rename must not replace, and an append adds all of its bytes, or is FAULTED. What
   a reading found counts as it was told: tell that nothing was found only of a reading in which the directory rested, and flush a file
   before its link, and the directory after.

   deolmutt_drive makes the job of a call, as deolmutt_submit takes it, of which no step was taken. Folders are the caller's own numbers.
   Refused: DEOLMUTT_BAD_KIND, BAD_FLAG, SAME_FOLDER, BAD_UNIQUE, BAD_TRIES, BAD_CHUNK, NO_MEMORY. */
uint32_t deolmutt_drive(uint32_t kind, uint32_t folder, const uint8_t *unique, size_t unique_length, uint32_t to, const uint8_t *first,
                        size_t first_length, const uint8_t *second, size_t second_length, uint64_t number, deolmutt_driven **job);

/* Takes a driven job back, at any time. */
uint32_t deolmutt_driven_free(deolmutt_driven *job);

/* Asks for the job's next call, at a second by the caller's clock. Refused: DEOLMUTT_ANSWERED; ASKED, where the reply to a call is waited
   for. */
uint32_t deolmutt_driven_ask(deolmutt_driven *job, uint64_t second);

/* The call that was asked for, as often as wanted. `out` gets its name and, right after it, its second name or the bytes of an append.
   Refused: DEOLMUTT_NOT_ASKED, NO_MEMORY, ROOM (*request and *length are said). */
uint32_t deolmutt_driven_request(const deolmutt_driven *job, deolmutt_request *request, uint8_t *out, size_t room, size_t *length);

/* One row of the reading that was asked for: a name, and the stamp of its file in seconds and its size in bytes. Seen, flag, move, copy and
   expunge go by the name of the first row that is the message's: the others need not be told. A clean goes by each row of tmp, and by its
   stamp, the second of its last use. Refused: DEOLMUTT_NOT_ASKED, NO_MEMORY. */
uint32_t deolmutt_driven_row(deolmutt_driven *job, const uint8_t *name, size_t length, uint64_t stamp, uint64_t size);

/* What was replied to the call that was asked for, enum deolmutt_dir_reply. *step is what this came to, with the answer where it was the
   last. Refused: DEOLMUTT_BAD_REPLY; NOT_ASKED; NO_MEMORY, where the reply is still waited for, and is to be told again, without its
   rows, which are kept. */
uint32_t deolmutt_driven_take(deolmutt_driven *job, uint32_t reply, deolmutt_step_out *step);

/* The answer of a driven job, DEOLMUTT_NO_ANSWER where it has none yet. */
uint32_t deolmutt_driven_answer(const deolmutt_driven *job, deolmutt_answer *answer);

#ifdef __cplusplus
}
#endif

#endif
