/* Calls on a world or a driven job that another call is in: they are refused, and change nothing. First from within the call itself, when
   it takes memory, so that each is met for certain; then by threads. It is linked with malloc, calloc and realloc wrapped. */
#include "refused.h"

#include <pthread.h>

void *__real_malloc(size_t size);
void *__real_calloc(size_t count, size_t size);
void *__real_realloc(void *at, size_t size);

/* What is called from within a call, and how often it was. */
static void (*within)(void);
static unsigned long times;

static void call_within(void) {
    void (*what)(void) = within;
    if (what == NULL)
        return;
    within = NULL;
    what();
    times++;
    within = what;
}

void *__wrap_malloc(size_t size) {
    call_within();
    return __real_malloc(size);
}

void *__wrap_calloc(size_t count, size_t size) {
    call_within();
    return __real_calloc(count, size);
}

void *__wrap_realloc(void *at, size_t size) {
    call_within();
    return __real_realloc(at, size);
}

static deolmutt_world *busy_world;
static deolmutt_driven *busy_job;

static void calls_of_a_busy_world(void) { refused_by_world(busy_world, DEOLMUTT_BUSY); }

static void calls_of_a_busy_job(void) { refused_by_job(busy_job, DEOLMUTT_BUSY); }

static void test_within(void) {
    deolmutt_answer answer;
    deolmutt_step_out step;
    uint8_t out[64];
    size_t length;
    busy_world = loaded("folder a\nfile a new u 1 x\n");
    within = calls_of_a_busy_world;
    CHECK(deolmutt_list(busy_world, 0, out, sizeof out, &length) == DEOLMUTT_OK && length == 17 && times > 0);
    times = 0;
    CHECK(done(busy_world, DEOLMUTT_DELIVER, 0, "v", 0, "x", "", 1, 1, &answer) == DEOLMUTT_OK && times > 0);
    within = NULL;
    CHECK(answer.kind == DEOLMUTT_DELIVERED);
    CHECK(deolmutt_list(busy_world, 0, out, sizeof out, &length) == DEOLMUTT_OK && length == 34);
    CHECK(deolmutt_free(busy_world) == DEOLMUTT_OK);
    CHECK(deolmutt_drive(DEOLMUTT_FLAG, 0, TEXT("u"), 0, TEXT("F"), NO_BYTES, 1, &busy_job) == DEOLMUTT_OK);
    CHECK(deolmutt_driven_ask(busy_job, 1) == DEOLMUTT_OK);
    times = 0;
    within = calls_of_a_busy_job;
    CHECK(deolmutt_driven_row(busy_job, TEXT("u:2,S"), 1, 1) == DEOLMUTT_OK && times > 0);
    within = NULL;
    CHECK(deolmutt_driven_take(busy_job, DEOLMUTT_DONE, &step) == DEOLMUTT_OK && step.call == DEOLMUTT_LIST);
    CHECK(deolmutt_driven_free(busy_job) == DEOLMUTT_OK);
}

#define THREADS 4
#define EACH 2000

/* What a thread's calls came to. */
typedef struct met {
    int number;
    unsigned long delivered, busy, others;
} met;

/* Delivers to the one world, without a lock, and counts what is refused. */
static void *deliver(void *at) {
    met *all = at;
    char unique[32];
    int count;
    for (count = 0; count < EACH; count++) {
        deolmutt_answer answer;
        uint32_t status;
        sprintf(unique, "%d.%d", all->number, count);
        status = done(busy_world, DEOLMUTT_DELIVER, 0, unique, 0, "mail", "", 1, 1, &answer);
        all->delivered += status == DEOLMUTT_OK && answer.kind == DEOLMUTT_DELIVERED;
        all->busy += status == DEOLMUTT_BUSY;
        all->others += status != DEOLMUTT_OK && status != DEOLMUTT_BUSY;
    }
    return NULL;
}

/* Each delivery is made or refused, and the world holds those that were made. */
static void test_threads(void) {
    pthread_t threads[THREADS];
    met all[THREADS];
    unsigned long delivered = 0, busy = 0;
    uint8_t out[16];
    size_t length;
    int at;
    memset(all, 0, sizeof all);
    busy_world = loaded("folder a\n");
    for (at = 0; at < THREADS; at++) {
        all[at].number = at;
        CHECK(pthread_create(&threads[at], NULL, deliver, &all[at]) == 0);
    }
    for (at = 0; at < THREADS; at++) {
        CHECK(pthread_join(threads[at], NULL) == 0 && all[at].others == 0);
        CHECK(all[at].delivered + all[at].busy == EACH);
        delivered += all[at].delivered;
        busy += all[at].busy;
    }
    CHECK(deolmutt_names(busy_world, 0, DEOLMUTT_NEW, delivered, out, sizeof out, &length) == DEOLMUTT_NOT_THERE);
    CHECK(delivered > 0);
    CHECK(deolmutt_names(busy_world, 0, DEOLMUTT_NEW, delivered - 1, out, sizeof out, &length) == DEOLMUTT_OK);
    CHECK(deolmutt_free(busy_world) == DEOLMUTT_OK);
    printf("%lu calls refused among threads, ", busy);
}

int main(void) {
    test_within();
    test_threads();
    printf("%lu checks\n", checked);
    return 0;
}
