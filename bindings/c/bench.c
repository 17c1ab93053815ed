/* What the calls cost from C.

   usage: bench CASE THREADS ROUNDS MILLIS

   For each round it prints a line 'c CASE THREADS WALL PROCESSOR': nanoseconds of wall and of processor time that an operation took, as
   tool_bench and the programs under bench/ do. Without words each case has one round of a second. */
#define _POSIX_C_SOURCE 200809L
#include "ext_lanes.h"

#include <pthread.h>
#include <stdio.h>
#include <stdlib.h>
#include <string.h>
#include <time.h>

enum { LOOKS = 200000, PUTS = 4095, MOST_THREADS = 15 };

static ext_lanes lanes;
static pthread_barrier_t gate;

static void check(bool holds) {
    if (!holds) {
        fputs("bench: a call has a wrong answer\n", stderr);
        exit(3);
    }
}

/* Operations of a lane, on a key whose value stands at the root, from the third context. */

static void get_root(uint32_t lane, uint32_t at) {
    (void)at;
    ext_value value = {0};
    check(ext_get(&lanes.lanes[lane].slot, 2, 0, &value) == EXT_DONE && value.handle == 7);
}

static void get_root_flagged(uint32_t lane, uint32_t at) {
    (void)at;
    ext_value value = {0};
    check(ext_lanes_get(&lanes, lane, 2, 0, &value) == EXT_DONE && value.handle == 7);
}

static void get_absent(uint32_t lane, uint32_t at) {
    (void)at;
    ext_value value = {0};
    check(ext_get(&lanes.lanes[lane].slot, 2, 1, &value) == EXT_ABSENT);
}

static void compute_hot(uint32_t lane, uint32_t at) {
    (void)at;
    ext_value value = {0};
    check(ext_begin(&lanes.lanes[lane].slot, 2, 0, &value) == EXT_DONE && value.handle == 7);
}

static void begin_abandon(uint32_t lane, uint32_t at) {
    (void)at;
    ext_value value = {0};
    ext_slot *slot = &lanes.lanes[lane].slot;
    check(ext_begin(slot, 2, 1, &value) == EXT_RUN && ext_abandon(slot) == EXT_DONE);
}

static void put_over(uint32_t lane, uint32_t at) {
    ext_value stood = {0};
    check(ext_put(&lanes.lanes[lane].slot, 2, 0, at, true, &stood) == EXT_DONE);
}

static void put_remove(uint32_t lane, uint32_t at) {
    ext_value value = {0};
    ext_slot *slot = &lanes.lanes[lane].slot;
    check(ext_put(slot, 2, 0, at, true, &value) == EXT_DONE && ext_remove(slot, 2, 0, &value) == EXT_DONE);
}

typedef struct bench_case {
    const char *name;
    void (*operation)(uint32_t lane, uint32_t at);
    uint32_t count;
    bool one_thread;
} bench_case;

static const bench_case CASES[] = {
    {"get-root-3-numbered", get_root, LOOKS, false},
    {"get-root-3-flagged", get_root_flagged, LOOKS, false},
    {"get-absent-3-numbered", get_absent, LOOKS, false},
    {"compute-hot", compute_hot, LOOKS, false},
    {"begin-abandon", begin_abandon, LOOKS, true},
    {"put-over", put_over, PUTS, true},
    {"put-remove", put_remove, PUTS, true},
};
static const size_t CASE_COUNT = sizeof CASES / sizeof *CASES;

static double now(clockid_t clock) {
    struct timespec time;
    clock_gettime(clock, &time);
    return (double)time.tv_sec * 1e9 + (double)time.tv_nsec;
}

typedef struct span {
    const bench_case *of;
    uint32_t lane;
    double started, ended, processor;
} span;

static void *measured(void *at) {
    span *own = at;
    pthread_barrier_wait(&gate);
    double processor = now(CLOCK_THREAD_CPUTIME_ID);
    own->started = now(CLOCK_MONOTONIC);
    for (uint32_t it = 0; it < own->of->count; it++) own->of->operation(own->lane, it);
    own->ended = now(CLOCK_MONOTONIC);
    own->processor = now(CLOCK_THREAD_CPUTIME_ID) - processor;
    return NULL;
}

static void open_store(uint32_t count) {
    static const char ids[] = "[engine:x][engine:x]/[class:A][engine:x]/[class:A]/[method:m()]";
    static const uint32_t lengths[] = {10, 20, 33}, name_lengths[] = {3};
    ext_value stood = {0};
    size_t key = 1;
    static const ext_limits limits = {.tries = 64, .numbers = 65535, .keys = 64};
    check(ext_lanes_open(&lanes, (const uint8_t *)ids, strlen(ids), lengths, 3, &limits, count) == EXT_DONE);
    for (uint32_t lane = 0; lane < count; lane++)
        check(ext_lanes_key(&lanes, lane, (const uint8_t *)"key", 3, name_lengths, 1, &key) == EXT_DONE && key == 0);
    check(ext_lanes_put(&lanes, 0, 0, 0, 7, true, &stood) == EXT_DONE);
}

/* A batch, on a store of its own: adds its wall and processor time. */
static void batch(const bench_case *of, uint32_t threads, double *wall, double *processor) {
    pthread_t all[MOST_THREADS];
    span spans[MOST_THREADS];
    open_store(threads);
    pthread_barrier_init(&gate, NULL, threads);
    for (uint32_t at = 0; at < threads; at++) {
        spans[at] = (span){of, at, 0, 0, 0};
        pthread_create(&all[at], NULL, measured, &spans[at]);
    }
    double first = 0, last = 0;
    for (uint32_t at = 0; at < threads; at++) {
        pthread_join(all[at], NULL);
        if (at == 0 || spans[at].started < first) first = spans[at].started;
        if (spans[at].ended > last) last = spans[at].ended;
        *processor += spans[at].processor;
    }
    *wall += last - first;
    pthread_barrier_destroy(&gate);
    for (uint32_t lane = 0; lane < threads; lane++) check(ext_lanes_leave(&lanes, lane) == EXT_DONE);
}

static void round_of(const bench_case *of, uint32_t threads, double millis) {
    double wall = 0, processor = 0, operations = 0;
    while (wall < millis * 1e6) {
        batch(of, threads, &wall, &processor);
        operations += (double)of->count * threads;
    }
    printf("c %s %u %.1f %.1f\n", of->name, threads, wall / operations, processor / operations);
}

int main(int count, char **words) {
    if (count == 1) {
        for (size_t at = 0; at < CASE_COUNT; at++) round_of(&CASES[at], 1, 1000);
        return 0;
    }
    int threads = count == 5 ? atoi(words[2]) : 0;
    for (size_t at = 0; at < CASE_COUNT && threads > 0 && threads <= MOST_THREADS; at++) {
        if (strcmp(words[1], CASES[at].name) || (threads > 1 && CASES[at].one_thread)) continue;
        for (int round = 0; round < atoi(words[3]); round++) round_of(&CASES[at], (uint32_t)threads, atof(words[4]));
        return 0;
    }
    fputs("usage: bench CASE THREADS ROUNDS MILLIS\n", stderr);
    return 2;
}
