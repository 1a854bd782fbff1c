/* Worlds of files whose names have any bytes, and worlds that are kept: read file by file and loaded again. */
#ifndef FILES_H
#define FILES_H

#include "checks.h"

#define BYTES_OF(text) text, sizeof(text) - 1
#define MOST_KEPT 32

static const deolmutt_bytes two_folders[] = {{BYTES_OF("in box")}, {BYTES_OF("\0/\n")}};

static const deolmutt_file files[] = {
    {1, DEOLMUTT_NEW, BYTES_OF("a 5"), 9, BYTES_OF("mail\n")},
    {0, DEOLMUTT_CUR, BYTES_OF(" :2,SF"), 7, BYTES_OF("")},
    {0, DEOLMUTT_CUR, BYTES_OF("\xff\xfe\t:1, x"), UINT64_MAX, BYTES_OF("\0\n\r\\")},
    {0, DEOLMUTT_TMP, BYTES_OF("a 5"), 8, BYTES_OF("half")},
    {0, DEOLMUTT_NEW, BYTES_OF(".hid den"), 0, BYTES_OF("x")},
    {1, DEOLMUTT_CUR, BYTES_OF("u:2,"), 5, BYTES_OF("Subject: u\n")},
};
#define FILE_COUNT (sizeof files / sizeof *files)

static deolmutt_world *loaded_files(const deolmutt_bytes *folders, size_t folder_count, const deolmutt_file *all, size_t count) {
    deolmutt_world *world = NULL;
    CHECK(deolmutt_load_files(folders, folder_count, all, count, &world) == DEOLMUTT_OK && world != NULL);
    return world;
}

/* The file of a name is as it was given. */
static void has_file(const deolmutt_world *world, const deolmutt_file *file) {
    uint8_t name[256], body[256];
    deolmutt_row row;
    size_t length = 99, size = 99;
    uint64_t at = 0;
    do
        CHECK(deolmutt_row_at(world, file->folder, file->place, at++, &row, name, sizeof name, &length) == DEOLMUTT_OK);
    while (length != file->name_length || memcmp(name, file->name, length) != 0);
    CHECK(row.stamp == file->stamp && row.size == file->body_length);
    CHECK(deolmutt_read_file(world, file->folder, file->place, file->name, file->name_length, body, sizeof body, &size) == DEOLMUTT_OK);
    CHECK(size == file->body_length && memcmp(body, file->body, size) == 0);
    if (size > 0) {
        body[0] = '.';
        CHECK(deolmutt_read_file(world, file->folder, file->place, file->name, file->name_length, body, size - 1, &size) == DEOLMUTT_ROOM);
        CHECK(size == file->body_length && body[0] == '.');
    }
    name[0] = '.';
    CHECK(deolmutt_row_at(world, file->folder, file->place, at - 1, &row, name, length - 1, &length) == DEOLMUTT_ROOM);
    CHECK(name[0] == '.' && length == file->name_length && row.stamp == file->stamp && row.size == file->body_length);
}

/* What is kept of a world. Its names and bytes are in memory of their own. */
typedef struct kept {
    deolmutt_bytes folders[2];
    deolmutt_file files[MOST_KEPT];
    size_t count;
} kept;

static void *copied(const uint8_t *bytes, size_t length) {
    void *copy = malloc(length + 1);
    CHECK(copy != NULL);
    memcpy(copy, bytes, length);
    return copy;
}

/* Keeps the files of a directory. */
static void keep_place(const deolmutt_world *world, uint32_t folder, uint32_t place, kept *all) {
    static uint8_t out[4096];
    deolmutt_row row;
    size_t length;
    uint64_t at;
    for (at = 0; deolmutt_row_at(world, folder, place, at, &row, out, sizeof out, &length) == DEOLMUTT_OK; at++) {
        deolmutt_file *file = &all->files[all->count++];
        CHECK(all->count <= MOST_KEPT);
        file->folder = folder;
        file->place = place;
        file->name = copied(out, length);
        file->name_length = length;
        file->stamp = row.stamp;
        CHECK(deolmutt_read_file(world, folder, place, file->name, length, out, sizeof out, &length) == DEOLMUTT_OK && length == row.size);
        file->body = copied(out, length);
        file->body_length = length;
    }
}

static void keep(const deolmutt_world *world, kept *all) {
    static uint8_t out[256];
    uint32_t folder, place, count = 0;
    size_t length;
    memset(all, 0, sizeof *all);
    CHECK(deolmutt_folders(world, &count) == DEOLMUTT_OK && count == 2);
    for (folder = 0; folder < count; folder++) {
        CHECK(deolmutt_folder_name(world, folder, out, sizeof out, &length) == DEOLMUTT_OK);
        all->folders[folder].bytes = copied(out, length);
        all->folders[folder].length = length;
        for (place = DEOLMUTT_TMP; place <= DEOLMUTT_CUR; place++)
            keep_place(world, folder, place, all);
    }
}

static void drop(kept *all) {
    size_t at;
    for (at = 0; at < all->count; at++) {
        free((void *)all->files[at].name);
        free((void *)all->files[at].body);
    }
    for (at = 0; at < 2; at++)
        free((void *)all->folders[at].bytes);
}

/* A world is read whole, and one that is loaded from that has the same files, folders and clock. */
static void test_kept(void) {
    deolmutt_world *world = loaded_files(two_folders, 2, files, FILE_COUNT - 4), *again;
    deolmutt_answer answer;
    kept before, after;
    size_t at;
    uint32_t folder = 9;
    CHECK(deolmutt_deliver(world, 0, "b c", 3, "x\ny", 3, 70, &answer) == DEOLMUTT_OK && answer.kind == DEOLMUTT_DELIVERED);
    CHECK(deolmutt_seen(world, 1, "a 5", 3, "SF", 71, &answer) == DEOLMUTT_OK && answer.kind == DEOLMUTT_FLAGS);
    keep(world, &before);
    CHECK(before.count == 3);
    again = loaded_files(before.folders, 2, before.files, before.count);
    keep(again, &after);
    CHECK(after.count == before.count);
    for (at = 0; at < before.count; at++)
        has_file(again, &before.files[at]);
    CHECK(deolmutt_folder(again, BYTES_OF("in box"), &folder) == DEOLMUTT_OK && folder == 0);
    CHECK(deolmutt_folder(again, BYTES_OF("\0/\n"), &folder) == DEOLMUTT_OK && folder == 1);
    CHECK(deolmutt_deliver(again, 0, "a 5", 3, "x", 1, 70, &answer) == DEOLMUTT_NAME_USED);
    CHECK(deolmutt_expunge(again, 1, "a 5", 3, 71, &answer) == DEOLMUTT_OK && answer.kind == DEOLMUTT_NOT_TRASHED);
    drop(&before);
    drop(&after);
    CHECK(deolmutt_free(again) == DEOLMUTT_OK && deolmutt_free(world) == DEOLMUTT_OK);
}

static void test_names_of_any_bytes(void) {
    deolmutt_world *world = loaded_files(two_folders, 2, files, FILE_COUNT);
    uint8_t out[64];
    deolmutt_row row;
    size_t at, length = 99;
    for (at = 0; at < FILE_COUNT; at++)
        has_file(world, &files[at]);
    CHECK(deolmutt_read(world, TEXT("a 5"), out, sizeof out, &length) == DEOLMUTT_OK && length == 5 && memcmp(out, "mail\n", 5) == 0);
    CHECK(deolmutt_row_at(world, 0, 3, 0, &row, out, sizeof out, &length) == DEOLMUTT_NO_PLACE && length == 0 && row.stamp == 0);
    CHECK(deolmutt_row_at(world, 0, 0, 1, &row, out, sizeof out, &length) == DEOLMUTT_NOT_THERE && length == 0 && row.size == 0);
    CHECK(deolmutt_row_at(world, 0, 0, UINT64_MAX, &row, out, sizeof out, &length) == DEOLMUTT_NOT_THERE);
    CHECK(deolmutt_row_at(world, 2, 0, 0, &row, out, sizeof out, &length) == DEOLMUTT_NOT_THERE);
    CHECK(deolmutt_row_at(NULL, 0, 0, 0, &row, out, sizeof out, &length) == DEOLMUTT_NULL);
    CHECK(deolmutt_row_at(world, 0, 0, 0, NULL, out, sizeof out, &length) == DEOLMUTT_NULL);
    CHECK(deolmutt_row_at(world, 0, 0, 0, &row, NULL, 1, &length) == DEOLMUTT_NULL);
    CHECK(deolmutt_row_at(world, 0, 0, 0, &row, out, 1, NULL) == DEOLMUTT_NULL);
    CHECK(deolmutt_row_at(world, 0, 0, 0, &row, out, (size_t)PTRDIFF_MAX + 1, &length) == DEOLMUTT_LENGTH);
    CHECK(deolmutt_row_at(world, 0, 0, 0, &row, (uint8_t *)&row, 1, &length) == DEOLMUTT_OVERLAP);
    CHECK(deolmutt_read_file(world, 0, 3, "u", 1, out, sizeof out, &length) == DEOLMUTT_NO_PLACE && length == 0);
    CHECK(deolmutt_read_file(world, 0, 2, "u", 1, out, sizeof out, &length) == DEOLMUTT_NOT_THERE && length == 0);
    CHECK(deolmutt_read_file(world, 2, 2, "u:2,", 4, out, sizeof out, &length) == DEOLMUTT_NOT_THERE);
    CHECK(deolmutt_read_file(world, 1, 2, "u", 1, out, sizeof out, &length) == DEOLMUTT_NOT_THERE);
    CHECK(deolmutt_read_file(world, 1, 2, NULL, 0, out, sizeof out, &length) == DEOLMUTT_NOT_THERE);
    CHECK(deolmutt_read_file(NULL, 1, 2, "u", 1, out, sizeof out, &length) == DEOLMUTT_NULL);
    CHECK(deolmutt_read_file(world, 1, 2, NULL, 1, out, sizeof out, &length) == DEOLMUTT_NULL);
    CHECK(deolmutt_read_file(world, 1, 2, "u", 1, NULL, 1, &length) == DEOLMUTT_NULL);
    CHECK(deolmutt_read_file(world, 1, 2, "u", 1, out, 1, NULL) == DEOLMUTT_NULL);
    CHECK(deolmutt_read_file(world, 1, 2, "u", (size_t)PTRDIFF_MAX + 1, out, 1, &length) == DEOLMUTT_LENGTH);
    CHECK(deolmutt_read_file(world, 1, 2, "u", 1, out, (size_t)PTRDIFF_MAX + 1, &length) == DEOLMUTT_LENGTH);
    CHECK(deolmutt_read_file(world, 1, 2, out, 1, out, 1, &length) == DEOLMUTT_OVERLAP);
    CHECK(deolmutt_free(world) == DEOLMUTT_OK);
}

/* A load of these files is refused. */
static void refused_files(const deolmutt_file *all, size_t count, uint32_t status) {
    deolmutt_world *world = (deolmutt_world *)&checked;
    CHECK(deolmutt_load_files(two_folders, 2, all, count, &world) == status && world == NULL);
}

/* A load of one file with this name in cur is refused, if not as DEOLMUTT_OK. */
static void comes_to_name(const void *name, size_t length, uint32_t status) {
    deolmutt_file file = {0, DEOLMUTT_CUR, NULL, 0, 1, "x", 1};
    deolmutt_world *world = NULL;
    file.name = name;
    file.name_length = length;
    CHECK(deolmutt_load_files(two_folders, 2, &file, 1, &world) == status && (world != NULL) == (status == DEOLMUTT_OK));
    CHECK(world == NULL || deolmutt_free(world) == DEOLMUTT_OK);
}

static void test_refused_files(void) {
    deolmutt_file two[2];
    char letters[256];
    memset(letters, 'x', sizeof letters);
    comes_to_name(letters, 200, DEOLMUTT_OK);
    comes_to_name(letters, 201, DEOLMUTT_LONG_UNIQUE);
    comes_to_name(letters, 256, DEOLMUTT_BAD_NAME);
    letters[200] = ':';
    comes_to_name(letters, 255, DEOLMUTT_OK);
    comes_to_name("", 0, DEOLMUTT_BAD_NAME);
    comes_to_name(NULL, 0, DEOLMUTT_BAD_NAME);
    comes_to_name("a/b", 3, DEOLMUTT_BAD_NAME);
    comes_to_name("a\0", 2, DEOLMUTT_BAD_NAME);
    comes_to_name("a\n", 2, DEOLMUTT_BAD_NAME);
    comes_to_name("\ra", 2, DEOLMUTT_BAD_NAME);
    comes_to_name(NULL, 1, DEOLMUTT_NULL);
    comes_to_name("a", (size_t)PTRDIFF_MAX + 1, DEOLMUTT_LENGTH);
    comes_to_name("a", PTRDIFF_MAX, DEOLMUTT_LENGTH);
    two[0] = two[1] = files[0];
    refused_files(two, 2, DEOLMUTT_SAME_PATH);
    two[1].folder = 0;
    refused_files(two, 2, DEOLMUTT_DUPLICATE_UNIQUE);
    two[1].folder = 2;
    refused_files(two, 2, DEOLMUTT_NO_FOLDER);
    two[1].folder = UINT32_MAX;
    refused_files(two, 2, DEOLMUTT_NO_FOLDER);
    two[0].place = 3;
    refused_files(two, 2, DEOLMUTT_NO_PLACE);
    two[0].place = DEOLMUTT_TMP;
    two[1].folder = 1;
    two[1].body = NULL;
    refused_files(two, 2, DEOLMUTT_NULL);
    two[1].body_length = 0;
    two[0].body_length = (size_t)PTRDIFF_MAX - 40;
    refused_files(two, 2, DEOLMUTT_LENGTH);
}

static void test_passed_files(void) {
    deolmutt_bytes odd_folders[2] = {{NULL, 1}, {"b", 1}};
    deolmutt_world *world;
    deolmutt_file over = files[0];
    uint32_t count = 9;
#define LOADS(status, folders, folder_count, all, all_count)                                                                \
    do {                                                                                                                    \
        world = (deolmutt_world *)&checked;                                                                                 \
        CHECK(deolmutt_load_files(folders, folder_count, all, all_count, &world) == (status));                              \
        CHECK((world != NULL) == ((status) == DEOLMUTT_OK));                                                                \
        CHECK(world == NULL || (deolmutt_folders(world, &count) == DEOLMUTT_OK && deolmutt_free(world) == DEOLMUTT_OK));    \
    } while (0)
    LOADS(DEOLMUTT_OK, NULL, 0, NULL, 0);
    CHECK(count == 0);
    LOADS(DEOLMUTT_OK, two_folders, 2, NULL, 0);
    CHECK(count == 2);
    LOADS(DEOLMUTT_NO_FOLDER, NULL, 0, files, 1);
    LOADS(DEOLMUTT_NULL, NULL, 1, NULL, 0);
    LOADS(DEOLMUTT_NULL, NULL, 0, NULL, 1);
    LOADS(DEOLMUTT_NULL, odd_folders, 2, NULL, 0);
    odd_folders[0].length = 0;
    LOADS(DEOLMUTT_OK, odd_folders, 2, NULL, 0);
    odd_folders[1].length = (size_t)PTRDIFF_MAX + 1;
    LOADS(DEOLMUTT_LENGTH, odd_folders, 2, NULL, 0);
    odd_folders[1].length = (size_t)PTRDIFF_MAX - 4;
    LOADS(DEOLMUTT_LENGTH, odd_folders, 2, NULL, 0);
    LOADS(DEOLMUTT_LENGTH, odd_folders, SIZE_MAX, NULL, 0);
    LOADS(DEOLMUTT_LENGTH, odd_folders, (size_t)UINT32_MAX + 1, NULL, 0);
    LOADS(DEOLMUTT_LENGTH, odd_folders, 1, files, SIZE_MAX);
    over.body = &world;
    LOADS(DEOLMUTT_OVERLAP, two_folders, 2, &over, 1);
    odd_folders[1].bytes = &world;
    odd_folders[1].length = 1;
    LOADS(DEOLMUTT_OVERLAP, odd_folders, 2, NULL, 0);
#undef LOADS
    CHECK(deolmutt_load_files(two_folders, 2, files, 1, NULL) == DEOLMUTT_NULL);
    CHECK(deolmutt_load_files(two_folders, 2, &over, 1, (deolmutt_world **)&over.stamp) == DEOLMUTT_OVERLAP);
}

static void test_files(void) {
    test_kept();
    test_names_of_any_bytes();
    test_refused_files();
    test_passed_files();
}

#endif
