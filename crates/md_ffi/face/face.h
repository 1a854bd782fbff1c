/*
 * What the files of the layer for C share: the handles and their marks, and the proved functions of md_ffi, which take references and
 * slices: none of them null, each of a length that fits PTRDIFF_MAX.
 */
#ifndef FACE_H
#define FACE_H

#include "deolmutt.h"

#include <string.h>

/* The proved handle: two words, all zero where it is closed. */
struct handle {
    uint8_t is_open;
    void *at;
};

/* What a world and a driven job begin with: by the mark it is found out that a call is made on one that was taken back, or that another
   thread is in. */
struct marked {
    uint64_t mark;
    struct handle handle;
};

struct deolmutt_world {
    struct marked marked;
    /* How many folders it has, and their names, each behind its length: null where there are none. */
    uint32_t folders;
    uint8_t *names;
};

struct deolmutt_driven {
    struct marked marked;
};

/* The marks of what no call is in, and that of what one is in is one more. */
#define WORLD_MARK UINT64_C(0xd1e01f07770c1d00)
#define DRIVEN_MARK UINT64_C(0xd1e01f07770c1d02)

/* Whether a call begins on what has this mark. Refused DEOLMUTT_CLOSED where it has none of ours, and DEOLMUTT_BUSY where another call is
   in: then nothing of it was written. */
static inline int enter(const struct marked *of, uint64_t mark, uint32_t *status) {
    uint64_t *at = (uint64_t *)&of->mark;
    uint64_t seen = __atomic_load_n(at, __ATOMIC_RELAXED);
    if (seen == mark && __atomic_compare_exchange_n(at, &seen, mark + 1, 0, __ATOMIC_ACQUIRE, __ATOMIC_RELAXED))
        return 1;
    *status = seen == mark + 1 ? DEOLMUTT_BUSY : DEOLMUTT_CLOSED;
    return 0;
}

/* Ends a call with what it came to. */
static inline uint32_t leave(const struct marked *of, uint64_t mark, uint32_t status) {
    __atomic_store_n((uint64_t *)&of->mark, mark, __ATOMIC_RELEASE);
    return status;
}

/* Makes what it is no longer ours, before its memory is given back. */
static inline void unmark(struct marked *of) { __atomic_store_n(&of->mark, 0, __ATOMIC_RELEASE); }

/* The same of worlds, and the handle that the proved functions take, also those that only look. */
static inline int enter_world(const deolmutt_world *world, uint32_t *status) { return enter(&world->marked, WORLD_MARK, status); }
static inline uint32_t leave_world(const deolmutt_world *world, uint32_t status) { return leave(&world->marked, WORLD_MARK, status); }
static inline struct handle *of_world(const deolmutt_world *world) { return (struct handle *)&world->marked.handle; }

/* The same of driven jobs. */
static inline int enter_driven(const deolmutt_driven *job, uint32_t *status) { return enter(&job->marked, DRIVEN_MARK, status); }
static inline uint32_t leave_driven(const deolmutt_driven *job, uint32_t status) { return leave(&job->marked, DRIVEN_MARK, status); }
static inline struct handle *of_driven(const deolmutt_driven *job) { return (struct handle *)&job->marked.handle; }

/* How many random bytes names are hashed by, so that nobody can choose names that all collide. */
#define SEED 16

/* Draws so many random bytes, and says how many: none where the system gives none. */
size_t face_draw(uint8_t *seed);

/* Keeps the names of the folders of lines that were loaded. No, where memory for them is refused. */
int face_keep_names(deolmutt_world *made, const uint8_t *lines, size_t length);

/* A call, as md_ffi takes it: struct Asked of src/asked.rt. */
struct asked {
    uint32_t kind;
    uint32_t folder;
    uint32_t to;
    uint32_t reserved;
    uint64_t number;
};

/* A moment that may be left out: struct Own of src/asked.rt. */
struct own {
    uint64_t is_given;
    uint64_t at;
};

uint32_t md_ffi_abi(void);
size_t md_ffi_text(uint32_t refusal, uint8_t *out, size_t room);
uint32_t md_ffi_load(const uint8_t *lines, size_t length, const uint8_t *seed, size_t drawn, struct handle *handle, uint64_t *line);
uint32_t md_ffi_load_files(uint32_t folders, const uint8_t *records, size_t length, const uint8_t *seed, size_t drawn,
                           struct handle *handle);
uint32_t md_ffi_free(struct handle *handle);
uint32_t md_ffi_submit(struct handle *handle, const struct asked *asked, const uint8_t *unique, size_t unique_length, const uint8_t *first,
                       size_t first_length, const uint8_t *second, size_t second_length, uint64_t *job);
uint32_t md_ffi_step(struct handle *handle, uint64_t job, uint64_t now, const struct own *own, deolmutt_step_out *step);
uint32_t md_ffi_call(struct handle *handle, const struct asked *asked, const uint8_t *unique, size_t unique_length, const uint8_t *first,
                     size_t first_length, const uint8_t *second, size_t second_length, uint64_t now, const struct own *own, uint64_t *job,
                     deolmutt_answer *answer);
uint32_t md_ffi_answer(struct handle *handle, uint64_t job, deolmutt_answer *answer);
uint32_t md_ffi_settle(struct handle *handle, uint64_t *job);
uint32_t md_ffi_list(struct handle *handle, uint32_t folder, uint8_t *out, size_t room, size_t *length);
uint32_t md_ffi_read(struct handle *handle, const uint8_t *unique, size_t unique_length, uint8_t *out, size_t room, size_t *length);
uint32_t md_ffi_names(struct handle *handle, uint32_t folder, uint32_t place, uint64_t at, uint8_t *out, size_t room, size_t *length);
uint32_t md_ffi_row(struct handle *handle, uint32_t folder, uint32_t place, uint64_t at, deolmutt_row *row);
uint32_t md_ffi_file(struct handle *handle, uint32_t folder, uint32_t place, const uint8_t *name, size_t name_length, uint8_t *out,
                     size_t room, size_t *length);
uint32_t md_ffi_calls(struct handle *handle, const uint8_t *records, size_t length, uint64_t now, deolmutt_answer *answers, size_t room,
                      size_t *done);
uint32_t md_ffi_transcript(const uint8_t *script, size_t length, const uint8_t *seed, size_t drawn, uint8_t *out, size_t room,
                           size_t *out_length, uint64_t *line);
uint32_t md_ffi_index(const uint8_t *lines, size_t length, const uint8_t *seed, size_t drawn, uint8_t *out, size_t room,
                      size_t *out_length, uint64_t *line);
uint32_t md_ffi_judge(const uint8_t *log, size_t length, uint8_t *out, size_t room, size_t *out_length, uint64_t *line);
uint32_t md_ffi_unique(uint64_t sec, uint64_t micro, uint64_t pid, uint64_t count, const uint8_t *host, size_t host_length, uint8_t *out,
                       size_t room, size_t *length);
uint32_t md_ffi_split(const uint8_t *name, size_t length, size_t *unique_length, uint32_t *info, uint64_t *flags);
uint32_t md_ffi_summary(const uint8_t *message, size_t length, uint8_t *out, size_t room, size_t *out_length);
uint32_t md_ffi_drive(const struct asked *asked, const uint8_t *unique, size_t unique_length, const uint8_t *first, size_t first_length,
                      const uint8_t *second, size_t second_length, struct handle *handle);
uint32_t md_ffi_driven_free(struct handle *handle);
uint32_t md_ffi_driven_ask(struct handle *handle, uint64_t at);
uint32_t md_ffi_driven_request(struct handle *handle, deolmutt_request *shown, uint8_t *out, size_t room, size_t *length);
uint32_t md_ffi_driven_row(struct handle *handle, const uint8_t *name, size_t length, uint64_t stamp, uint64_t size);
uint32_t md_ffi_driven_take(struct handle *handle, uint32_t reply, deolmutt_step_out *step);
uint32_t md_ffi_driven_answer(struct handle *handle, deolmutt_answer *answer);

/* What a slice of no bytes points to, of which nothing is read or written. */
static const uint8_t no_bytes[1] = {0};

#define IS_NULL(bytes, length) ((length) != 0 && (bytes) == NULL)
#define IS_LONG(length) ((length) > (size_t)PTRDIFF_MAX)

/* An out-parameter is null, 0 or all zero from the beginning of a call on, whatever the call comes to. */
#define CLEAR(at)                        \
    do {                                 \
        if ((at) != NULL)                \
            memset((at), 0, sizeof *(at)); \
    } while (0)

/* Memory that is passed. */
struct range {
    const void *at;
    size_t length;
};

/* One thing that is passed, which may be null, and bytes or other things of some length in bytes. */
#define IT(at) {(at), (at) == NULL ? 0 : sizeof *(at)}
#define SOME(at, length) {(at), (length)}

/* Whether one of the first ranges, so many, which are written, overlaps any other. */
static inline int overlap(size_t written, const struct range *ranges, size_t count) {
    size_t one, other;
    for (one = 0; one < written; one++)
        for (other = one + 1; other < count; other++) {
            uintptr_t a = (uintptr_t)ranges[one].at, b = (uintptr_t)ranges[other].at;
            size_t apart = a < b ? b - a : a - b;
            size_t lower = a < b ? ranges[one].length : ranges[other].length;
            if (apart < lower && ranges[one].length != 0 && ranges[other].length != 0)
                return 1;
        }
    return 0;
}

#define RANGES(...) ((const struct range[]){__VA_ARGS__})
#define OVERLAPS(written, ...) overlap((written), RANGES(__VA_ARGS__), sizeof RANGES(__VA_ARGS__) / sizeof(struct range))

/* A number of so many bytes, little-endian. */
static inline uint64_t little(const uint8_t *at, size_t bytes) {
    uint64_t value = 0;
    while (bytes-- > 0)
        value = value << 8 | at[bytes];
    return value;
}

#define BYTES(bytes, length) ((length) == 0 ? no_bytes : (bytes)), (length)
#define ROOM(out, room) ((room) == 0 ? (uint8_t *)no_bytes : (out)), (room)

#endif
