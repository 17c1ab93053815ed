/* Two tests need one server, each on a thread of its own: whichever comes first starts it, both find it, and it is stopped when their context
   has ended. bindings/README.md shows some of it. */
#include "ext_strings.h"

#include <pthread.h>
#include <sched.h>
#include <stdio.h>

/* What the handle of a value stands for is the caller's: here it is the server's port. */
static uint64_t start_server(void) {
    puts("started 8080");
    return 8080;
}

static void stop_server(uint64_t server) { printf("stopped %llu\n", (unsigned long long)server); }

/* The contexts, by their numbers. */
enum { ENGINE, CLASS, CONTEXTS };

/* Opens a store with three lanes: one for each test, and one that closes. */
static ext_code open_store(ext_slot slots[3]) {
    static const char *const ids[CONTEXTS] = {"[engine:x]", "[engine:x]/[class:A]"};
    static const ext_limits limits = {.tries = 64, .numbers = 1000, .keys = 32};
    return ext_open_strings(ids, CONTEXTS, &limits, slots, 3);
}

/* The number of the key "server" of the namespace "web". */
static ext_code server_key(ext_slot *slot, size_t *key) {
    static const char *const names[] = {"web", "server"};
    return ext_key_strings(slot, names, 2, key);
}

/* Starts the server, for a lane that has claimed its place. */
static ext_code start(ext_slot *slot, uint64_t *server) {
    uint32_t number = 0;
    *server = start_server();
    ext_code code = ext_fill(slot, *server, true, &number);
    if (code != EXT_DONE) stop_server(*server); /* not stored: it is the caller's again */
    return code;
}

/* Finds the server, or starts it. Asks again while the other test starts it. */
static ext_code find_or_start(ext_slot *slot, size_t key, uint64_t *server) {
    for (;;) {
        ext_value found = {0};
        ext_code code = ext_begin(slot, CLASS, key, &found);
        if (code == EXT_RUN) return start(slot, server);
        *server = found.handle;
        if (code != EXT_BUSY && code != EXT_CONTENDED) return code;
        sched_yield();
    }
}

/* A test, with a lane of its own. */
static void *test(void *slot) {
    size_t key = 0;
    uint64_t server = 0;
    ext_code code = server_key(slot, &key);
    if (code == EXT_DONE) code = find_or_start(slot, key, &server);
    printf("test: %s %llu\n", ext_code_name(code), (unsigned long long)server);
    return NULL;
}

/* Ends a context: stops each server that stands in it, the latest first. The slot is the last of ext_open. */
static ext_code end(ext_slot *slot, size_t context) {
    ext_value values[32] = {{0}}; /* one for each of the store's keys */
    size_t count = 0;
    ext_code code;
    do code = ext_close(slot, context, values, 32, &count);
    while (code == EXT_UNJOINED || code == EXT_CONTENDED);
    for (size_t at = 0; at < count; at++) stop_server(values[at].handle);
    return code;
}

int main(void) {
    ext_slot slots[3] = {{0, NULL}};
    ext_code code = open_store(slots);
    if (code != EXT_DONE) {
        puts(ext_code_name(code));
        return 1;
    }
    pthread_t tests[2];
    for (int at = 0; at < 2; at++) pthread_create(&tests[at], NULL, test, &slots[at]);
    for (int at = 0; at < 2; at++) pthread_join(tests[at], NULL);
    if (end(&slots[2], CLASS) != EXT_DONE || end(&slots[2], ENGINE) != EXT_DONE) return 1;
    for (int at = 0; at < 3; at++) ext_leave(&slots[at]);
    return 0;
}
