/* Worlds and driven jobs that were taken back: a second deolmutt_free and any other call says so, and writes nothing where the memory was.
   The header promises none of this. It is run without sanitizers, which would end the program at the first read of that memory. */
#include "refused.h"

/* How often all of it is tried, with blocks of other sizes between. */
#define TRIES 40

/* The allocator gives blocks of a size out once each, where a world of that size was taken back twice. */
static void gives_each_block_once(size_t size) {
    void *blocks[4];
    size_t at, other;
    for (at = 0; at < sizeof blocks / sizeof *blocks; at++) {
        blocks[at] = malloc(size);
        CHECK(blocks[at] != NULL);
        for (other = 0; other < at; other++)
            CHECK(blocks[at] != blocks[other]);
    }
    while (at > 0)
        free(blocks[--at]);
}

int main(void) {
    deolmutt_driven *job = NULL;
    deolmutt_world *world;
    size_t try, size;
    for (try = 0; try < TRIES; try++) {
        void *between = malloc(16 * try + 1);
        world = loaded("folder a\nfile a new u 1 x\n");
        CHECK(deolmutt_free(world) == DEOLMUTT_OK);
        refused_by_world(world, DEOLMUTT_CLOSED);
        for (size = 8; size <= 64; size += 8)
            gives_each_block_once(size);
        CHECK(deolmutt_drive(DEOLMUTT_CLEAN, 0, NO_BYTES, 0, NO_BYTES, NO_BYTES, 0, &job) == DEOLMUTT_OK);
        CHECK(deolmutt_driven_free(job) == DEOLMUTT_OK);
        refused_by_job(job, DEOLMUTT_CLOSED);
        for (size = 8; size <= 64; size += 8)
            gives_each_block_once(size);
        free(between);
    }
    printf("%lu checks\n", checked);
    return 0;
}
