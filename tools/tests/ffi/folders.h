/* Folders by name and number. */
#ifndef FOLDERS_H
#define FOLDERS_H

#include "checks.h"

static void is_folder(const deolmutt_world *world, const char *name, uint32_t wanted) {
    uint8_t out[128];
    size_t length = 99, whole = strlen(name);
    uint32_t folder = 99;
    CHECK(deolmutt_folder(world, name, whole, &folder) == DEOLMUTT_OK && folder == wanted);
    memset(out, '.', sizeof out);
    CHECK(deolmutt_folder_name(world, wanted, out, sizeof out, &length) == DEOLMUTT_OK && length == whole);
    CHECK(memcmp(out, name, whole) == 0 && out[whole] == '.');
    CHECK(deolmutt_folder_name(world, wanted, out, whole - 1, &length) == DEOLMUTT_ROOM && length == whole);
    CHECK(deolmutt_folder_name(world, wanted, NULL, 0, &length) == DEOLMUTT_ROOM && length == whole);
    CHECK(deolmutt_folder_name(world, wanted, out, whole, &length) == DEOLMUTT_OK && length == whole);
}

static void is_none(const deolmutt_world *world, const char *name) {
    uint32_t folder = 99;
    CHECK(deolmutt_folder(world, name, strlen(name), &folder) == DEOLMUTT_UNKNOWN_FOLDER && folder == 0);
}

/* The most folders, with the longest names. */
static void test_most_folders(void) {
    static char lines[64 * 128];
    char name[101];
    deolmutt_world *world;
    size_t at = 0;
    uint32_t number, count = 9;
    for (number = 0; number < 64; number++)
        at += (size_t)sprintf(lines + at, "folder %0100u\n", (unsigned)number);
    world = loaded(lines);
    CHECK(deolmutt_folders(world, &count) == DEOLMUTT_OK && count == 64);
    for (number = 0; number < 64; number++) {
        sprintf(name, "%0100u", (unsigned)number);
        is_folder(world, name, number);
    }
    CHECK(deolmutt_free(world) == DEOLMUTT_OK);
}

static void test_folders(void) {
    deolmutt_world *world = loaded("# folder x\nfolder inbox\r\n\nfile inbox new folder 1 folder y\nfolder \xff\t.\nfile inbox tmp t 1\n"
                                   "folder z");
    uint8_t out[8];
    size_t length = 9;
    uint32_t count = 9, folder = 9;
    uint64_t job = 9;
    CHECK(deolmutt_folders(world, &count) == DEOLMUTT_OK && count == 3);
    is_folder(world, "inbox", 0);
    is_folder(world, "\xff\t.", 1);
    is_folder(world, "z", 2);
    is_none(world, "");
    is_none(world, "x");
    is_none(world, "inbo");
    is_none(world, "inbox\r");
    is_none(world, "inboxz");
    CHECK(deolmutt_folder_name(world, 3, out, sizeof out, &length) == DEOLMUTT_NO_FOLDER && length == 0);
    CHECK(deolmutt_folder_name(world, UINT32_MAX, out, sizeof out, &length) == DEOLMUTT_NO_FOLDER);
    CHECK(deolmutt_settle(world, &job) == DEOLMUTT_OK);
    is_folder(world, "z", 2);
    count = folder = 9;
    length = 9;
    CHECK(deolmutt_folders(NULL, &count) == DEOLMUTT_NULL && count == 0);
    CHECK(deolmutt_folders(world, NULL) == DEOLMUTT_NULL);
    CHECK(deolmutt_folder(NULL, "z", 1, &folder) == DEOLMUTT_NULL && folder == 0);
    CHECK(deolmutt_folder(world, NULL, 1, &folder) == DEOLMUTT_NULL);
    CHECK(deolmutt_folder(world, NULL, 0, &folder) == DEOLMUTT_UNKNOWN_FOLDER);
    CHECK(deolmutt_folder(world, "z", 1, NULL) == DEOLMUTT_NULL);
    CHECK(deolmutt_folder(world, "z", (size_t)PTRDIFF_MAX + 1, &folder) == DEOLMUTT_LENGTH);
    CHECK(deolmutt_folder(world, &folder, 4, &folder) == DEOLMUTT_OVERLAP);
    CHECK(deolmutt_folder_name(NULL, 0, out, sizeof out, &length) == DEOLMUTT_NULL && length == 0);
    CHECK(deolmutt_folder_name(world, 0, NULL, 1, &length) == DEOLMUTT_NULL);
    CHECK(deolmutt_folder_name(world, 0, out, 8, NULL) == DEOLMUTT_NULL);
    CHECK(deolmutt_folder_name(world, 0, out, (size_t)PTRDIFF_MAX + 1, &length) == DEOLMUTT_LENGTH);
    CHECK(deolmutt_folder_name(world, 0, (uint8_t *)&length, 4, &length) == DEOLMUTT_OVERLAP);
    CHECK(deolmutt_free(world) == DEOLMUTT_OK);
    world = loaded("# no folder\n");
    CHECK(deolmutt_folders(world, &count) == DEOLMUTT_OK && count == 0);
    is_none(world, "z");
    CHECK(deolmutt_folder_name(world, 0, out, sizeof out, &length) == DEOLMUTT_NO_FOLDER);
    CHECK(deolmutt_free(world) == DEOLMUTT_OK);
    test_most_folders();
}

#endif
