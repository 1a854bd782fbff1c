/* Judges the log of a file, and prints `LINE CLAUSE` for each finding, as `deolmutt judge --lines` does, or why it is no log. */
#include "deolmutt.h"

#include <stdio.h>
#include <stdlib.h>

/* A whole file, of which no more than the room is read. */
static size_t read_file(const char *path, uint8_t *out, size_t room) {
    FILE *file = fopen(path, "rb");
    size_t length = file == NULL ? 0 : fread(out, 1, room, file);
    if (file == NULL || length == room || fclose(file) != 0) {
        fprintf(stderr, "%s can't be read whole\n", path);
        exit(2);
    }
    return length;
}

int main(int count, char **words) {
    static uint8_t log[1 << 20], found[1 << 16];
    deolmutt_finding finding;
    size_t length = 0, at = 0;
    uint64_t line = 0;
    uint32_t status = deolmutt_judge(log, read_file(count == 2 ? words[1] : "", log, sizeof log), found, sizeof found, &length, &line);
    if (status != DEOLMUTT_OK) {
        printf("line %lu: %s\n", (unsigned long)line, deolmutt_strerror((int)status));
        return 2;
    }
    while (deolmutt_next_finding(found, length, &at, &finding) == DEOLMUTT_OK)
        printf("%lu %s\n", (unsigned long)finding.line, deolmutt_clause_name(finding.clause));
    return length != 0;
}
