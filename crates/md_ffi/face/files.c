/*
 * Worlds that are loaded from files, whose names may have any bytes, and what is read of a world so that another can be loaded like it.
 */
#include "face.h"

#include <stdlib.h>

/* What stands before the name and the bytes of a file in a record: its folder, its place, its stamp, and the lengths of both. */
#define HEAD 32

/* Whether all that a file or a folder has is there, and of a length that can be. */
static uint32_t check_bytes(const void *bytes, size_t length) {
    if (IS_NULL(bytes, length))
        return DEOLMUTT_NULL;
    return IS_LONG(length) ? DEOLMUTT_LENGTH : DEOLMUTT_OK;
}

/* Adds to a sum. No, where it would be longer than anything can be. */
static int add(size_t *sum, size_t more) {
    if (more > (size_t)PTRDIFF_MAX - *sum)
        return 0;
    *sum += more;
    return 1;
}

/* How many bytes the records of files have. Refused where a pointer is null or a length too great, of one file or of all. */
static uint32_t length_of(const deolmutt_file *files, size_t count, size_t *whole) {
    size_t at;
    for (at = 0; at < count; at++) {
        uint32_t status = check_bytes(files[at].name, files[at].name_length);
        if (status == DEOLMUTT_OK)
            status = check_bytes(files[at].body, files[at].body_length);
        if (status != DEOLMUTT_OK)
            return status;
        if (!add(whole, HEAD) || !add(whole, files[at].name_length) || !add(whole, files[at].body_length))
            return DEOLMUTT_LENGTH;
    }
    return DEOLMUTT_OK;
}

/* Lays a number of so many bytes, little-endian, and gives what is after it. */
static uint8_t *lay_number(uint8_t *at, uint64_t value, size_t bytes) {
    for (; bytes > 0; bytes--, value >>= 8)
        *at++ = (uint8_t)value;
    return at;
}

static uint8_t *lay_bytes(uint8_t *at, const void *bytes, size_t length) {
    if (length != 0)
        memcpy(at, bytes, length);
    return at + length;
}

static uint8_t *lay_file(uint8_t *at, const deolmutt_file *file) {
    at = lay_number(at, file->folder, 4);
    at = lay_number(at, file->place, 4);
    at = lay_number(at, file->stamp, 8);
    at = lay_number(at, file->name_length, 8);
    at = lay_number(at, file->body_length, 8);
    at = lay_bytes(at, file->name, file->name_length);
    return lay_bytes(at, file->body, file->body_length);
}

/* How many bytes the names of folders take, each behind its length. Refused as files are. */
static uint32_t length_of_names(const deolmutt_bytes *folders, size_t count, size_t *whole) {
    size_t at;
    for (at = 0; at < count; at++) {
        uint32_t status = check_bytes(folders[at].bytes, folders[at].length);
        if (status != DEOLMUTT_OK)
            return status;
        if (!add(whole, sizeof folders[at].length) || !add(whole, folders[at].length))
            return DEOLMUTT_LENGTH;
    }
    return DEOLMUTT_OK;
}

/* Keeps the names of folders beside their world. */
static uint32_t keep_folders(deolmutt_world *made, const deolmutt_bytes *folders, size_t count, size_t whole) {
    size_t at;
    uint8_t *end;
    if (whole == 0)
        return DEOLMUTT_OK;
    made->names = end = malloc(whole);
    if (end == NULL)
        return DEOLMUTT_NO_MEMORY;
    for (at = 0; at < count; at++) {
        end = lay_bytes(end, &folders[at].length, sizeof folders[at].length);
        end = lay_bytes(end, folders[at].bytes, folders[at].length);
    }
    made->folders = (uint32_t)count;
    return DEOLMUTT_OK;
}

/* Whether each folder and each place is there. */
static uint32_t check_paths(const deolmutt_file *files, size_t count, size_t folders) {
    size_t at;
    for (at = 0; at < count; at++) {
        if (files[at].folder >= folders)
            return DEOLMUTT_NO_FOLDER;
        if (files[at].place > DEOLMUTT_CUR)
            return DEOLMUTT_NO_PLACE;
    }
    return DEOLMUTT_OK;
}

/* Loads files into a world that has its folders. They are packed for the proved function, into records that have so many bytes. */
static uint32_t load_files(deolmutt_world *made, const deolmutt_file *files, size_t count, size_t whole) {
    uint8_t seed[SEED], *records = malloc(whole == 0 ? 1 : whole), *end = records;
    size_t at;
    uint32_t status;
    if (records == NULL)
        return DEOLMUTT_NO_MEMORY;
    for (at = 0; at < count; at++)
        end = lay_file(end, &files[at]);
    status = md_ffi_load_files(made->folders, records, whole, seed, face_draw(seed), &made->marked.handle);
    free(records);
    return status;
}

/* Whether *world is written over any of what is passed. */
static int is_over(deolmutt_world **world, const deolmutt_bytes *folders, size_t folder_count, const deolmutt_file *files, size_t count) {
    size_t at;
    for (at = 0; at < folder_count; at++)
        if (OVERLAPS(1, IT(world), SOME(folders[at].bytes, folders[at].length)))
            return 1;
    for (at = 0; at < count; at++)
        if (OVERLAPS(1, IT(world), SOME(files[at].name, files[at].name_length), SOME(files[at].body, files[at].body_length)))
            return 1;
    return 0;
}

/* Refuses what can't be loaded, and says how many bytes the records of the files and the names of the folders have. */
static uint32_t check_files(const deolmutt_bytes *folders, size_t folder_count, const deolmutt_file *files, size_t count,
                            deolmutt_world **world, size_t *whole, size_t *names) {
    uint32_t status;
    if (world == NULL || IS_NULL(folders, folder_count) || IS_NULL(files, count))
        return DEOLMUTT_NULL;
    if (folder_count > (size_t)PTRDIFF_MAX / sizeof *folders || folder_count > UINT32_MAX || count > (size_t)PTRDIFF_MAX / sizeof *files)
        return DEOLMUTT_LENGTH;
    if (OVERLAPS(1, IT(world), SOME(folders, folder_count * sizeof *folders), SOME(files, count * sizeof *files)))
        return DEOLMUTT_OVERLAP;
    status = length_of_names(folders, folder_count, names);
    if (status == DEOLMUTT_OK)
        status = length_of(files, count, whole);
    if (status != DEOLMUTT_OK)
        return status;
    return is_over(world, folders, folder_count, files, count) ? DEOLMUTT_OVERLAP : check_paths(files, count, folder_count);
}

uint32_t deolmutt_load_files(const deolmutt_bytes *folders, size_t folder_count, const deolmutt_file *files, size_t file_count,
                             deolmutt_world **world) {
    deolmutt_world *made;
    size_t whole = 0, names = 0;
    uint32_t status;
    CLEAR(world);
    status = check_files(folders, folder_count, files, file_count, world, &whole, &names);
    if (status != DEOLMUTT_OK)
        return status;
    made = calloc(1, sizeof *made);
    if (made == NULL)
        return DEOLMUTT_NO_MEMORY;
    status = keep_folders(made, folders, folder_count, names);
    if (status == DEOLMUTT_OK)
        status = load_files(made, files, file_count, whole);
    if (status != DEOLMUTT_OK) {
        free(made->names);
        free(made);
        return status;
    }
    made->marked.mark = WORLD_MARK;
    *world = made;
    return DEOLMUTT_OK;
}

/* The row at a position of a directory: the stamp and the size of its file, and its name. */
static uint32_t look_at(struct handle *handle, uint32_t folder, uint32_t place, uint64_t at, deolmutt_row *row, uint8_t *out, size_t room,
                        size_t *length) {
    uint32_t status = md_ffi_row(handle, folder, place, at, row);
    return status == DEOLMUTT_OK ? md_ffi_names(handle, folder, place, at, ROOM(out, room), length) : status;
}

uint32_t deolmutt_row_at(const deolmutt_world *world, uint32_t folder, uint32_t place, uint64_t at, deolmutt_row *row, uint8_t *out,
                         size_t room, size_t *length) {
    uint32_t status;
    CLEAR(row);
    CLEAR(length);
    if (world == NULL || row == NULL || length == NULL || IS_NULL(out, room))
        return DEOLMUTT_NULL;
    if (IS_LONG(room))
        return DEOLMUTT_LENGTH;
    if (OVERLAPS(3, IT(row), IT(length), SOME(out, room), IT(world)))
        return DEOLMUTT_OVERLAP;
    if (!enter_world(world, &status))
        return status;
    return leave_world(world, look_at(of_world(world), folder, place, at, row, out, room, length));
}

uint32_t deolmutt_read_file(const deolmutt_world *world, uint32_t folder, uint32_t place, const void *name, size_t name_length,
                            uint8_t *out, size_t room, size_t *length) {
    uint32_t status;
    CLEAR(length);
    if (world == NULL || length == NULL || IS_NULL(name, name_length) || IS_NULL(out, room))
        return DEOLMUTT_NULL;
    if (IS_LONG(name_length) || IS_LONG(room))
        return DEOLMUTT_LENGTH;
    if (OVERLAPS(2, IT(length), SOME(out, room), IT(world), SOME(name, name_length)))
        return DEOLMUTT_OVERLAP;
    if (!enter_world(world, &status))
        return status;
    return leave_world(world, md_ffi_file(of_world(world), folder, place, BYTES(name, name_length), ROOM(out, room), length));
}
