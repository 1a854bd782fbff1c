/* A message that is delivered and flagged, by one function for each call, and the folder message by message. */
#include "deolmutt.h"

#include <stdio.h>
#include <string.h>

static uint32_t mail(deolmutt_world *world, const char *unique, const char *message) {
    uint8_t listing[4096];
    deolmutt_answer answer;
    deolmutt_message next;
    size_t length, at = 0;
    uint32_t inbox, status = deolmutt_folder(world, "inbox", 5, &inbox);
    if (status == DEOLMUTT_OK)
        status = deolmutt_deliver(world, inbox, unique, strlen(unique), message, strlen(message), 1000, &answer);
    if (status == DEOLMUTT_OK)
        status = deolmutt_seen(world, inbox, unique, strlen(unique), "S", 1001, &answer);
    if (status == DEOLMUTT_OK)
        status = deolmutt_list(world, inbox, listing, sizeof listing, &length);
    if (status != DEOLMUTT_OK)
        return status;
    while (deolmutt_next(listing, length, &at, &next) == DEOLMUTT_OK)
        printf("%.*s, %lu bytes\n", (int)next.name_length, (const char *)next.name, (unsigned long)next.size);
    return DEOLMUTT_OK;
}

int main(void) {
    const char lines[] = "folder inbox\n";
    deolmutt_world *world;
    uint64_t line;
    uint32_t status = deolmutt_load((const uint8_t *)lines, strlen(lines), &world, &line);
    if (status == DEOLMUTT_OK) {
        status = mail(world, "1000.M1P7Q1.a", "Subject: hello\n\n");
        deolmutt_free(world);
    }
    if (status != DEOLMUTT_OK)
        fprintf(stderr, "%s\n", deolmutt_strerror((int)status));
    return status != DEOLMUTT_OK;
}
