/* Each call on a world, and each on a driven job, where all are refused for one reason and write nothing. */

#ifndef REFUSED_H
#define REFUSED_H

#include "checks.h"

static void refused_by_world(deolmutt_world *world, uint32_t status) {
    deolmutt_answer answer;
    deolmutt_step_out step;
    uint8_t out[16] = ".";
    uint64_t job;
    uint32_t folder;
    deolmutt_row row;
    size_t length;

    CHECK(deolmutt_free(world) == status);
    CHECK(deolmutt_submit(world, DEOLMUTT_CLEAN, 0, NO_BYTES, 0, NO_BYTES, NO_BYTES, 0, &job) == status);
    CHECK(deolmutt_step(world, 1, 1, NULL, &step) == status);
    CHECK(done(world, DEOLMUTT_CLEAN, 0, "", 0, "", "", 0, 1, &answer) == status);
    CHECK(deolmutt_job_answer(world, 1, &answer) == status);
    CHECK(deolmutt_settle(world, &job) == status);
    CHECK(deolmutt_list(world, 0, out, sizeof out, &length) == status);
    CHECK(deolmutt_read(world, TEXT("u"), out, sizeof out, &length) == status);
    CHECK(deolmutt_names(world, 0, DEOLMUTT_NEW, 0, out, sizeof out, &length) == status);
    CHECK(deolmutt_calls(world, NO_BYTES, 1, &answer, 1, &length) == status);
    CHECK(deolmutt_first(world, 0, out, sizeof out, &length) == status);
    CHECK(deolmutt_second(world, 0, NO_BYTES, out, sizeof out, &length) == status);
    CHECK(deolmutt_row_at(world, 0, DEOLMUTT_NEW, 0, &row, out, sizeof out, &length) == status);
    CHECK(deolmutt_read_file(world, 0, DEOLMUTT_NEW, "u", 1, out, sizeof out, &length) == status);
    CHECK(deolmutt_folders(world, &folder) == status);
    CHECK(deolmutt_folder(world, "a", 1, &folder) == status);
    CHECK(deolmutt_folder_name(world, 0, out, sizeof out, &length) == status);
    CHECK(out[0] == '.');
}

static void refused_by_job(deolmutt_driven *job, uint32_t status) {
    deolmutt_request asked;
    deolmutt_step_out step;
    deolmutt_answer answer;
    uint8_t out[16] = ".";
    size_t length;

    CHECK(deolmutt_driven_free(job) == status);
    CHECK(deolmutt_driven_ask(job, 1) == status);
    CHECK(deolmutt_driven_request(job, &asked, out, sizeof out, &length) == status);
    CHECK(deolmutt_driven_row(job, TEXT("u"), 1, 1) == status);
    CHECK(deolmutt_driven_take(job, DEOLMUTT_DONE, &step) == status);
    CHECK(deolmutt_driven_answer(job, &answer) == status);
    CHECK(out[0] == '.');
}

#endif
