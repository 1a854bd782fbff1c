/*
 * The names of folders. The proved world numbers its folders, and these are kept beside it: one after another, each behind its length.
 */
#include "face.h"

#include <stdlib.h>

static const char command[] = "folder ";
#define COMMAND (sizeof command - 1)

/* The name in the next `folder` line, null where there is none, and its length. `*at` moves on to the line after it. A line ends at LF,
   and a CR right before that is none of it. */
static const uint8_t *next_line(const uint8_t **at, const uint8_t *end, size_t *length) {
    while (*at != end) {
        const uint8_t *line = *at, *feed = memchr(line, '\n', (size_t)(end - line));
        size_t size = (size_t)((feed == NULL ? end : feed) - line);
        *at = feed == NULL ? end : feed + 1;
        if (feed != NULL && size > 0 && line[size - 1] == '\r')
            size--;
        if (size > COMMAND && memcmp(line, command, COMMAND) == 0) {
            *length = size - COMMAND;
            return line + COMMAND;
        }
    }
    return NULL;
}

int face_keep_names(deolmutt_world *made, const uint8_t *lines, size_t length) {
    const uint8_t *at = lines, *end = lines + length, *name;
    size_t size, all = 0;
    uint8_t *kept;
    while ((name = next_line(&at, end, &size)) != NULL)
        all += sizeof size + size;
    if (all == 0)
        return 1;
    made->names = kept = malloc(all);
    if (kept == NULL)
        return 0;
    for (at = lines; (name = next_line(&at, end, &size)) != NULL; made->folders++) {
        memcpy(kept, &size, sizeof size);
        memcpy(kept + sizeof size, name, size);
        kept += sizeof size + size;
    }
    return 1;
}

/* The name of a folder that is there, and its length. */
static const uint8_t *name_of(const deolmutt_world *world, uint32_t folder, size_t *length) {
    const uint8_t *at = world->names;
    for (memcpy(length, at, sizeof *length); folder > 0; folder--) {
        at += sizeof *length + *length;
        memcpy(length, at, sizeof *length);
    }
    return at + sizeof *length;
}

/* The first folder of a name. */
static uint32_t number_of(const deolmutt_world *world, const uint8_t *name, size_t length, uint32_t *folder) {
    const uint8_t *at = world->names;
    uint32_t number;
    for (number = 0; number < world->folders; number++) {
        size_t size;
        memcpy(&size, at, sizeof size);
        if (size == length && memcmp(at + sizeof size, name, length) == 0) {
            *folder = number;
            return DEOLMUTT_OK;
        }
        at += sizeof size + size;
    }
    return DEOLMUTT_UNKNOWN_FOLDER;
}

static uint32_t lay_name(const deolmutt_world *world, uint32_t folder, uint8_t *out, size_t room, size_t *length) {
    const uint8_t *name;
    if (folder >= world->folders)
        return DEOLMUTT_NO_FOLDER;
    name = name_of(world, folder, length);
    if (*length > room)
        return DEOLMUTT_ROOM;
    if (room != 0)
        memcpy(out, name, *length);
    return DEOLMUTT_OK;
}

uint32_t deolmutt_folders(const deolmutt_world *world, uint32_t *count) {
    uint32_t status;
    CLEAR(count);
    if (world == NULL || count == NULL)
        return DEOLMUTT_NULL;
    if (OVERLAPS(1, IT(count), IT(world)))
        return DEOLMUTT_OVERLAP;
    if (!enter_world(world, &status))
        return status;
    *count = world->folders;
    return leave_world(world, DEOLMUTT_OK);
}

uint32_t deolmutt_folder(const deolmutt_world *world, const void *name, size_t length, uint32_t *folder) {
    uint32_t status;
    CLEAR(folder);
    if (world == NULL || folder == NULL || IS_NULL(name, length))
        return DEOLMUTT_NULL;
    if (IS_LONG(length))
        return DEOLMUTT_LENGTH;
    if (OVERLAPS(1, IT(folder), IT(world), SOME(name, length)))
        return DEOLMUTT_OVERLAP;
    if (!enter_world(world, &status))
        return status;
    return leave_world(world, number_of(world, BYTES(name, length), folder));
}

uint32_t deolmutt_folder_name(const deolmutt_world *world, uint32_t folder, uint8_t *out, size_t room, size_t *length) {
    uint32_t status;
    CLEAR(length);
    if (world == NULL || length == NULL || IS_NULL(out, room))
        return DEOLMUTT_NULL;
    if (IS_LONG(room))
        return DEOLMUTT_LENGTH;
    if (OVERLAPS(2, IT(length), SOME(out, room), IT(world)))
        return DEOLMUTT_OVERLAP;
    if (!enter_world(world, &status))
        return status;
    return leave_world(world, lay_name(world, folder, out, room, length));
}
