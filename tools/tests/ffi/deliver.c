/* One delivery, from the call to the listing. */
#include "deolmutt.h"

#include <stdio.h>
#include <string.h>

#define BYTES(text) (const uint8_t *)(text), strlen(text)

int main(void) {
    deolmutt_world *world;
    deolmutt_answer answer;
    uint64_t line, job;
    uint8_t listing[4096];
    size_t length;
    if (deolmutt_load(BYTES("folder inbox\n"), &world, &line) != DEOLMUTT_OK) return 1;
    if (deolmutt_call(world, DEOLMUTT_DELIVER, 0, BYTES("1000.M1P7Q1.a"), 0, BYTES("hello\n"), NULL, 0, 4096, 1000, NULL, &job, &answer)
            != DEOLMUTT_OK || answer.kind != DEOLMUTT_DELIVERED) return 1;
    if (deolmutt_list(world, 0, listing, sizeof listing, &length) != DEOLMUTT_OK) return 1;
    printf("%.*s\n", (int)length - 16, (char *)listing + 16);
    return deolmutt_free(world) != DEOLMUTT_OK;
}
