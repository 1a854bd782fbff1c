/*
 * Listings: their messages one after another, and listings whose new and cur are read at two moments.
 */
#include "face.h"

#include <stdlib.h>

/* What stands before the name of a message: its place, the length of its name, and that of its bytes. */
#define HEAD 16

/* The message at a position of a listing, and the position after it. */
static uint32_t read_message(const uint8_t *listing, size_t length, size_t *at, deolmutt_message *message) {
    const uint8_t *head = listing + *at;
    size_t left = length - *at, name;
    uint32_t place;
    if (left == 0)
        return DEOLMUTT_NOT_THERE;
    if (left < HEAD)
        return DEOLMUTT_BAD_RECORD;
    place = (uint32_t)little(head, 4);
    name = (size_t)little(head + 4, 4);
    if ((place != DEOLMUTT_NEW && place != DEOLMUTT_CUR) || name > left - HEAD)
        return DEOLMUTT_BAD_RECORD;
    if (md_ffi_split(BYTES(head + HEAD, name), &message->unique_length, &message->info, &message->flags) != DEOLMUTT_OK)
        return DEOLMUTT_BAD_RECORD;
    message->name = head + HEAD;
    message->name_length = name;
    message->size = little(head + 8, 8);
    message->place = place;
    *at += HEAD + name;
    return DEOLMUTT_OK;
}

uint32_t deolmutt_next(const uint8_t *listing, size_t length, size_t *at, deolmutt_message *message) {
    uint32_t status;
    CLEAR(message);
    if (at == NULL || message == NULL || IS_NULL(listing, length))
        return DEOLMUTT_NULL;
    if (IS_LONG(length))
        return DEOLMUTT_LENGTH;
    if (OVERLAPS(2, IT(at), IT(message), SOME(listing, length)))
        return DEOLMUTT_OVERLAP;
    if (*at > length)
        return DEOLMUTT_BAD_RECORD;
    status = read_message(BYTES(listing, length), at, message);
    if (status != DEOLMUTT_OK)
        CLEAR(message);
    return status;
}

/* The messages of one place of a listing: the one that is next, whether there is one, and where the listing goes on. */
struct reading {
    const uint8_t *listing;
    size_t length, at;
    uint32_t place;
    int is_there;
    deolmutt_message next;
};

/* By unique name, as bytes. */
static int order(const deolmutt_message *a, const deolmutt_message *b) {
    size_t least = a->unique_length < b->unique_length ? a->unique_length : b->unique_length;
    int by_bytes = memcmp(a->name, b->name, least);
    return by_bytes != 0 ? by_bytes : (a->unique_length > b->unique_length) - (a->unique_length < b->unique_length);
}

/* Goes on to the next message of the place. What is no listing in order of unique name is refused. */
static uint32_t go_on(struct reading *of) {
    deolmutt_message before = of->next;
    uint32_t status;
    do
        status = read_message(of->listing, of->length, &of->at, &of->next);
    while (status == DEOLMUTT_OK && of->next.place != of->place);
    if (status == DEOLMUTT_OK && of->is_there && order(&before, &of->next) >= 0)
        return DEOLMUTT_BAD_RECORD;
    of->is_there = status == DEOLMUTT_OK;
    return status == DEOLMUTT_NOT_THERE ? DEOLMUTT_OK : status;
}

static uint32_t begin(struct reading *of, const uint8_t *listing, size_t length, uint32_t place) {
    memset(of, 0, sizeof *of);
    of->listing = length == 0 ? no_bytes : listing;
    of->length = length;
    of->place = place;
    return go_on(of);
}

/* Lays a message of a listing behind those that were laid, where there is a buffer. */
static void lay_message(const deolmutt_message *message, uint8_t *out, size_t *length) {
    size_t size = HEAD + message->name_length;
    if (out != NULL)
        memcpy(out + *length, message->name - HEAD, size);
    *length += size;
}

/* Lays the messages of cur of one listing and those of new of another whose unique name is none of these, in order of unique name. */
static uint32_t join(const struct range *new, const struct range *cur, uint8_t *out, size_t *length) {
    struct reading first, second;
    uint32_t status = begin(&first, new->at, new->length, DEOLMUTT_NEW);
    if (status == DEOLMUTT_OK)
        status = begin(&second, cur->at, cur->length, DEOLMUTT_CUR);
    *length = 0;
    while (status == DEOLMUTT_OK && (first.is_there || second.is_there)) {
        int which = !first.is_there ? 1 : !second.is_there ? -1 : order(&first.next, &second.next);
        lay_message(which < 0 ? &first.next : &second.next, out, length);
        if (which <= 0)
            status = go_on(&first);
        if (which >= 0 && status == DEOLMUTT_OK)
            status = go_on(&second);
    }
    return status;
}

/* Joins two listings in a buffer, where it has room. */
static uint32_t join_within(const struct range *new, const struct range *cur, uint8_t *out, size_t room, size_t *length) {
    uint32_t status = join(new, cur, NULL, length);
    if (status != DEOLMUTT_OK)
        *length = 0;
    else if (*length > room)
        status = DEOLMUTT_ROOM;
    else if (*length != 0)
        status = join(new, cur, out, length);
    return status;
}

/* The listing of a folder in memory of its own, which is the caller's to free. */
static uint32_t listed(struct handle *handle, uint32_t folder, struct range *listing) {
    uint8_t none, *bytes;
    size_t length = 0;
    uint32_t status = md_ffi_list(handle, folder, &none, 0, &length);
    listing->at = NULL;
    listing->length = 0;
    if (status != DEOLMUTT_ROOM)
        return status;
    bytes = malloc(length);
    if (bytes == NULL)
        return DEOLMUTT_NO_MEMORY;
    status = md_ffi_list(handle, folder, bytes, length, &length);
    listing->at = bytes;
    listing->length = length;
    return status;
}

uint32_t deolmutt_first(const deolmutt_world *world, uint32_t folder, uint8_t *out, size_t room, size_t *length) {
    static const struct range nothing = {NULL, 0};
    struct range listing;
    uint32_t status;
    CLEAR(length);
    if (world == NULL || length == NULL || IS_NULL(out, room))
        return DEOLMUTT_NULL;
    if (IS_LONG(room))
        return DEOLMUTT_LENGTH;
    if (OVERLAPS(2, IT(length), SOME(out, room), IT(world)))
        return DEOLMUTT_OVERLAP;
    if (!enter_world(world, &status))
        return status;
    status = listed(of_world(world), folder, &listing);
    if (status == DEOLMUTT_OK)
        status = join_within(&listing, &nothing, out, room, length);
    free((void *)listing.at);
    return leave_world(world, status);
}

uint32_t deolmutt_second(const deolmutt_world *world, uint32_t folder, const uint8_t *first, size_t first_length, uint8_t *out, size_t room,
                         size_t *length) {
    struct range listing, begun = {first, first_length};
    uint32_t status;
    CLEAR(length);
    if (world == NULL || length == NULL || IS_NULL(first, first_length) || IS_NULL(out, room))
        return DEOLMUTT_NULL;
    if (IS_LONG(first_length) || IS_LONG(room))
        return DEOLMUTT_LENGTH;
    if (OVERLAPS(2, IT(length), SOME(out, room), IT(world), SOME(first, first_length)))
        return DEOLMUTT_OVERLAP;
    if (!enter_world(world, &status))
        return status;
    status = listed(of_world(world), folder, &listing);
    if (status == DEOLMUTT_OK)
        status = join_within(&begun, &listing, out, room, length);
    free((void *)listing.at);
    return leave_world(world, status);
}
