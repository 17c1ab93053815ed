/* Tests of the store by its C calls: each code, each misuse, each limit, and 2 to 32 threads. Prints a line for each test that fails; the last
   line is 'N passed, M failed', and the exit status 1 where one failed.

   usage: test [ROUNDS]    how many puts each thread makes, twice as many as it opens contexts, and a fifth as many as the stores that it opens and leaves;
                           2000 unless told

   It is linked with -Wl,--wrap=malloc,--wrap=realloc, so that it can refuse memory to the library. */
#define _POSIX_C_SOURCE 200809L
#include "ext_lanes.h"
#include "ext_strings.h"

#include <malloc.h>
#include <pthread.h>
#include <sched.h>
#include <stdatomic.h>
#include <stdio.h>
#include <stdlib.h>
#include <string.h>

static int passed, failed, wrong_here;
static uint32_t rounds = 2000; /* as the program is told */

/* What is not so is told up to five times in a test. */
#define WANT(condition)                                                                    \
    do {                                                                                   \
        if (!(condition)) {                                                                \
            if (wrong_here++ < 5) printf("test.c:%d: not so: %s\n", __LINE__, #condition); \
        }                                                                                  \
    } while (0)

/* That a call answers a code. */
#define CODE(call, wanted)                                                                                                 \
    do {                                                                                                                   \
        ext_code code_ = (call);                                                                                           \
        if (code_ != (wanted)) {                                                                                           \
            if (wrong_here++ < 5)                                                                                          \
                printf("test.c:%d: %s, wanted is %s: %s\n", __LINE__, ext_code_name(code_), ext_code_name(wanted), #call); \
        }                                                                                                                  \
    } while (0)

static void ran(const char *name) {
    if (wrong_here) printf("%s: failed\n", name);
    wrong_here ? failed++ : passed++;
    wrong_here = 0;
}

/* Texts one behind the other, with their lengths. */
typedef struct texts {
    uint8_t bytes[16384];
    uint32_t lengths[300];
    size_t byte_count, length_count;
} texts;

static void add(texts *list, const char *text) {
    size_t length = strlen(text);
    memcpy(list->bytes + list->byte_count, text, length);
    list->byte_count += length;
    list->lengths[list->length_count++] = (uint32_t)length;
}

static texts texts_of(const char *const *all, size_t count) {
    texts list = {.byte_count = 0, .length_count = 0};
    for (size_t at = 0; at < count; at++) add(&list, all[at]);
    return list;
}

#define TEXTS(...) texts_of((const char *const[]){__VA_ARGS__}, sizeof((const char *const[]){__VA_ARGS__}) / sizeof(char *))

/* An engine with a class with two methods. */
enum { ENGINE, CLASS, FIRST, SECOND, CONTEXTS };
static texts ids(void) {
    return TEXTS("[engine:x]", "[engine:x]/[class:A]", "[engine:x]/[class:A]/[method:a()]", "[engine:x]/[class:A]/[method:b()]");
}

/* Tries, numbers, keys, whether faults are kept, and whether it is large. */
static const ext_limits USUAL = {64, 1000, 64, false, false}, KEEPING = {64, 1000, 64, true, false}, MOST = {64, 65535, 1024, false, false},
                        LARGE = {64, 65535, 32, false, true};

static ext_code open_slots(const texts *list, ext_limits given, ext_slot *slots, size_t lanes) {
    return ext_open(list->bytes, list->byte_count, list->lengths, list->length_count, &given, slots, lanes);
}

/* A store of the four contexts. */
static void opened(ext_slot *slots, size_t lanes, ext_limits given) {
    texts list = ids();
    CODE(open_slots(&list, given, slots, lanes), EXT_DONE);
}

static void left(ext_slot *slots, size_t lanes) {
    for (size_t at = 0; at < lanes; at++) CODE(ext_leave(&slots[at]), EXT_DONE);
}

static ext_code key_of(ext_slot *slot, texts list, size_t *key) {
    return ext_key(slot, list.bytes, list.byte_count, list.lengths, list.length_count, key);
}

static size_t key(ext_slot *slot, const char *name) {
    size_t number = 1000;
    CODE(key_of(slot, TEXTS(name), &number), EXT_DONE);
    return number;
}

static bool is(ext_value value, uint64_t handle, uint32_t number, size_t context, bool closeable, bool fault) {
    return value.handle == handle && value.number == number && value.context == context && value.closeable == closeable &&
           value.fault == fault;
}

static void version_is_that_of_the_header(void) { WANT(ext_version() == EXT_VERSION_NUMBER); }

static void refused_openings(void) {
    ext_slot slots[33] = {{0, NULL}};
    texts good = ids();
    CODE(open_slots(&good, USUAL, slots, 0), EXT_BAD_LIMIT);
    CODE(open_slots(&good, USUAL, slots, 17), EXT_BAD_LIMIT);
    CODE(open_slots(&good, LARGE, slots, 0), EXT_BAD_LIMIT);
    CODE(open_slots(&good, LARGE, slots, 33), EXT_BAD_LIMIT);
    static ext_lanes numbered;
    CODE(ext_lanes_open(&numbered, good.bytes, good.byte_count, good.lengths, good.length_count, &LARGE, EXT_MOST_LANES + 1),
         EXT_BAD_LIMIT);
    WANT(numbered.count == 0);
    static const ext_limits bad[] = {{0, 10, 64, false, false},         {65, 10, 64, false, false},       {64, 0, 64, false, false},
                                     {64, 65536, 64, false, false},     {64, 10, 0, false, false},        {64, 10, 1025, false, false},
                                     {0, 10, 64, false, true},          {65, 10, 64, false, true},        {64, 0, 64, false, true},
                                     {64, 1048576, 64, false, true},    {64, 10, 0, false, true},         {64, 10, 1025, false, true},
                                     {64, 10, UINT32_MAX, false, true}, {64, UINT32_MAX, 64, false, true}};
    for (size_t at = 0; at < sizeof bad / sizeof *bad; at++) CODE(open_slots(&good, bad[at], slots, 1), EXT_BAD_LIMIT);
    texts none = {.byte_count = 0, .length_count = 0};
    CODE(open_slots(&none, USUAL, slots, 1), EXT_BAD_TREE);
    texts long_one = TEXTS("[engine:x]");
    long_one.lengths[0]++;
    CODE(open_slots(&long_one, USUAL, slots, 1), EXT_BAD_LENGTHS);
    texts no_text = TEXTS("[engine:\xff]"), no_id = TEXTS("engine"), no_root = TEXTS("[engine:x]/[class:A]"),
          two_roots = TEXTS("[engine:x]", "[engine:y]"), twice = TEXTS("[engine:x]", "[engine:x]/[class:A]", "[engine:x]/[class:A]"),
          no_parent = TEXTS("[engine:x]", "[engine:x]/[class:A]/[method:a()]");
    CODE(open_slots(&no_text, USUAL, slots, 1), EXT_BAD_TEXT);
    /* the first refusal is told: limits, then lengths, then texts */
    texts no_text_and_long = TEXTS("[x]", "[engine:\xff]");
    no_text_and_long.lengths[1]++;
    CODE(open_slots(&no_text_and_long, USUAL, slots, 1), EXT_BAD_LENGTHS);
    CODE(open_slots(&no_text_and_long, bad[0], slots, 1), EXT_BAD_LIMIT);
    CODE(open_slots(&no_id, USUAL, slots, 1), EXT_BAD_ID);
    texts deep = {.byte_count = 0, .length_count = 0};
    char path[17 * sizeof "/[a:0]"] = "[a:0]";
    for (size_t level = 1; level <= 17; level++) {
        add(&deep, path);
        strcat(path, "/[a:0]");
    }
    CODE(open_slots(&deep, USUAL, slots, 1), EXT_BAD_ID);
    deep.length_count--; /* 16 deep */
    deep.byte_count -= deep.lengths[deep.length_count];
    CODE(open_slots(&deep, USUAL, slots, 1), EXT_DONE);
    left(slots, 1);
    CODE(open_slots(&no_root, USUAL, slots, 1), EXT_BAD_TREE);
    CODE(open_slots(&two_roots, USUAL, slots, 1), EXT_BAD_TREE);
    CODE(open_slots(&twice, USUAL, slots, 1), EXT_BAD_TREE);
    CODE(open_slots(&no_parent, USUAL, slots, 1), EXT_BAD_TREE);
    texts many = TEXTS("[engine:x]");
    char id[32];
    for (int at = 1; at <= 256; at++) {
        snprintf(id, sizeof id, "[engine:x]/[class:%d]", at);
        add(&many, id);
    }
    CODE(open_slots(&many, USUAL, slots, 1), EXT_TOO_MANY);
    for (size_t at = 0; at < 33; at++) WANT(slots[at].state == 0);
    opened(slots, 1, USUAL);
    CODE(open_slots(&good, USUAL, slots, 2), EXT_NOT_EMPTY);
    WANT(slots[1].state == 0);
    left(slots, 1);
}

static void empty_slots(void) {
    ext_slot empty = {0, NULL};
    ext_value value = {0}, values[64] = {{0}};
    uint32_t number = 0;
    size_t key = 0, count = 9;
    CODE(key_of(&empty, TEXTS("k"), &key), EXT_NO_LANE);
    CODE(ext_put(&empty, 0, 0, 1, true, &value), EXT_NO_LANE);
    CODE(ext_get(&empty, 0, 0, &value), EXT_NO_LANE);
    CODE(ext_remove(&empty, 0, 0, &value), EXT_NO_LANE);
    CODE(ext_begin(&empty, 0, 0, &value), EXT_NO_LANE);
    CODE(ext_fill(&empty, 1, true, &number), EXT_NO_LANE);
    CODE(ext_fail(&empty, 1, &number), EXT_NO_LANE);
    CODE(ext_abandon(&empty), EXT_NO_LANE);
    CODE(ext_close(&empty, 0, values, 64, &count), EXT_NO_LANE);
    WANT(count == 0);
    CODE(ext_leave(&empty), EXT_NO_LANE);
}

static void keys_have_one_number(void) {
    ext_slot slots[2] = {{0, NULL}};
    opened(slots, 2, USUAL);
    size_t numbers[6], number = 0;
    CODE(key_of(&slots[0], TEXTS("name"), &numbers[0]), EXT_DONE);
    CODE(key_of(&slots[1], TEXTS("a", "b", "name"), &numbers[1]), EXT_DONE);
    CODE(key_of(&slots[0], TEXTS("b", "a", "name"), &numbers[2]), EXT_DONE);
    CODE(key_of(&slots[1], TEXTS("ab", "name"), &numbers[3]), EXT_DONE);
    CODE(key_of(&slots[0], TEXTS("", ""), &numbers[4]), EXT_DONE);
    CODE(key_of(&slots[1], TEXTS(""), &numbers[5]), EXT_DONE);
    for (size_t at = 0; at < 6; at++) WANT(numbers[at] == at);
    CODE(key_of(&slots[1], TEXTS("name"), &number), EXT_DONE);
    WANT(number == 0);
    CODE(key_of(&slots[0], TEXTS("a", "b", "name"), &number), EXT_DONE);
    WANT(number == 1);
    char name[16];
    for (size_t at = 6; at < 64; at++) {
        snprintf(name, sizeof name, "key %zu", at);
        WANT(key(&slots[at % 2], name) == at);
    }
    CODE(key_of(&slots[0], TEXTS("one more"), &number), EXT_DIRECTORY_FULL);
    WANT(key(&slots[0], "key 63") == 63);
    CODE(key_of(&slots[0], TEXTS("\xc3"), &number), EXT_BAD_TEXT);
    texts none = {.byte_count = 0, .length_count = 0}, long_one = TEXTS("a", "b");
    long_one.lengths[1] = UINT32_MAX;
    CODE(key_of(&slots[0], none, &number), EXT_BAD_LENGTHS);
    CODE(key_of(&slots[0], long_one, &number), EXT_BAD_LENGTHS);
    WANT(number == 1); /* no refusal writes one */
    left(slots, 2);
}

static void nearest_value_wins(void) {
    ext_slot slots[2] = {{0, NULL}}, *one = &slots[0], *other = &slots[1];
    opened(slots, 2, USUAL);
    size_t server = key(one, "server");
    ext_value value = {0};
    CODE(ext_get(one, FIRST, server, &value), EXT_ABSENT);
    CODE(ext_remove(one, FIRST, server, &value), EXT_ABSENT);
    CODE(ext_put(one, ENGINE, server, 70, true, &value), EXT_DONE);
    WANT(value.number == 0);
    CODE(ext_get(other, FIRST, server, &value), EXT_DONE);
    WANT(is(value, 70, 1, ENGINE, true, false));
    CODE(ext_put(other, CLASS, server, 71, false, &value), EXT_DONE);
    WANT(value.number == 0);
    CODE(ext_get(one, FIRST, server, &value), EXT_DONE);
    WANT(is(value, 71, 2, CLASS, false, false));
    CODE(ext_get(one, ENGINE, server, &value), EXT_DONE);
    WANT(is(value, 70, 1, ENGINE, true, false));
    CODE(ext_remove(one, FIRST, server, &value), EXT_ABSENT);
    CODE(ext_put(one, CLASS, server, 72, true, &value), EXT_DONE);
    WANT(is(value, 71, 2, CLASS, false, false));
    CODE(ext_remove(other, CLASS, server, &value), EXT_DONE);
    WANT(is(value, 72, 3, CLASS, true, false));
    CODE(ext_get(one, FIRST, server, &value), EXT_DONE);
    WANT(is(value, 70, 1, ENGINE, true, false));
    CODE(ext_get(one, FIRST, 63, &value), EXT_ABSENT);
    left(slots, 2);
}

static void path_of_its_own_decides(void) {
    ext_slot slots[2] = {{0, NULL}}, *one = &slots[0], *other = &slots[1];
    opened(slots, 2, USUAL);
    /* FIRST is opened below the engine, past the class */
    static const size_t past[] = {FIRST, ENGINE}, below[] = {FIRST, CLASS, ENGINE};
    ext_value value = {0};
    uint32_t number = 0;
    CODE(ext_put(one, CLASS, 0, 70, true, &value), EXT_DONE);
    CODE(ext_get_along(other, past, 2, 0, &value), EXT_ABSENT);
    CODE(ext_get_along(other, past, 1, 0, &value), EXT_ABSENT);
    CODE(ext_get_along(other, below, 3, 0, &value), EXT_DONE);
    WANT(is(value, 70, 1, CLASS, true, false));
    CODE(ext_begin_along(other, below, 3, 0, &value), EXT_DONE);
    WANT(is(value, 70, 1, CLASS, true, false));
    CODE(ext_begin_along(one, past, 2, 0, &value), EXT_RUN);
    CODE(ext_get_along(one, past, 2, 0, &value), EXT_CLAIMING);
    CODE(ext_begin_along(one, past, 2, 0, &value), EXT_CLAIMING);
    CODE(ext_get_along(other, past, 2, 0, &value), EXT_BUSY);
    WANT(value.context == FIRST);
    CODE(ext_fill(one, 71, true, &number), EXT_DONE);
    CODE(ext_get_along(other, past, 2, 0, &value), EXT_DONE);
    WANT(is(value, 71, number, FIRST, true, false));
    CODE(ext_get_along(other, past + 1, 1, 0, &value), EXT_ABSENT);
    left(slots, 2);
}

static void paths_that_are_none(void) {
    ext_slot slot = {0, NULL};
    ext_value value = {0};
    static const size_t far[] = {ENGINE, CONTEXTS}, twice[] = {FIRST, ENGINE, FIRST};
    size_t deep[17];
    for (size_t at = 0; at < 17; at++) deep[at] = at;
    CODE(ext_get_along(&slot, far, 1, 0, &value), EXT_NO_LANE);
    CODE(ext_begin_along(&slot, far, 1, 0, &value), EXT_NO_LANE);
    opened(&slot, 1, USUAL);
    CODE(ext_get_along(&slot, far, 0, 0, &value), EXT_BAD_CONTEXT);
    CODE(ext_get_along(&slot, far, 2, 0, &value), EXT_BAD_CONTEXT);
    CODE(ext_get_along(&slot, twice, 3, 0, &value), EXT_BAD_CONTEXT);
    CODE(ext_get_along(&slot, deep, 17, 0, &value), EXT_BAD_CONTEXT);
    CODE(ext_begin_along(&slot, twice, 3, 0, &value), EXT_BAD_CONTEXT);
    CODE(ext_get_along(&slot, twice, 2, 64, &value), EXT_BAD_KEY);
    CODE(ext_begin_along(&slot, twice, 2, 64, &value), EXT_BAD_KEY);
    CODE(ext_get_along(&slot, twice, 2, 63, &value), EXT_ABSENT);
    left(&slot, 1);
}

static void numbers_out_of_range(void) {
    ext_slot slot = {0, NULL};
    opened(&slot, 1, USUAL);
    ext_value value = {0}, values[64] = {{0}};
    size_t count = 9;
    static const size_t far[] = {CONTEXTS, 256, UINT32_MAX, SIZE_MAX};
    for (size_t at = 0; at < 4; at++) {
        CODE(ext_put(&slot, far[at], 0, 1, true, &value), EXT_BAD_CONTEXT);
        CODE(ext_get(&slot, far[at], 0, &value), EXT_BAD_CONTEXT);
        CODE(ext_remove(&slot, far[at], 0, &value), EXT_BAD_CONTEXT);
        CODE(ext_begin(&slot, far[at], 0, &value), EXT_BAD_CONTEXT);
        CODE(ext_close(&slot, far[at], values, 64, &count), EXT_BAD_CONTEXT);
        size_t no_key = at ? far[at] : 64;
        CODE(ext_put(&slot, 0, no_key, 1, true, &value), EXT_BAD_KEY);
        CODE(ext_get(&slot, 0, no_key, &value), EXT_BAD_KEY);
        CODE(ext_remove(&slot, 0, no_key, &value), EXT_BAD_KEY);
        CODE(ext_begin(&slot, 0, no_key, &value), EXT_BAD_KEY);
    }
    left(&slot, 1);
}

static void compute_in_two_calls(void) {
    ext_slot slots[3] = {{0, NULL}}, *one = &slots[0], *other = &slots[1];
    opened(slots, 3, USUAL);
    size_t server = key(one, "server"), count = 9;
    uint32_t number = 0;
    ext_value value = {0}, values[64] = {{0}};
    CODE(ext_fill(one, 1, true, &number), EXT_NO_CLAIM);
    CODE(ext_fail(one, 1, &number), EXT_NO_CLAIM);
    CODE(ext_abandon(one), EXT_NO_CLAIM);
    value = (ext_value){.context = 7, .number = 8};
    CODE(ext_begin(one, CLASS, server, &value), EXT_RUN);
    WANT(value.context == 7 && value.number == 8);
    /* the lane that claims */
    CODE(ext_begin(one, CLASS, server, &value), EXT_CLAIMING);
    CODE(ext_get(one, ENGINE, server, &value), EXT_CLAIMING);
    CODE(ext_put(one, ENGINE, server, 1, true, &value), EXT_CLAIMING);
    CODE(ext_remove(one, ENGINE, server, &value), EXT_CLAIMING);
    WANT(key(one, "server") == server);
    /* the others */
    CODE(ext_get(other, FIRST, server, &value), EXT_BUSY);
    WANT(value.context == CLASS && value.number == 8);
    CODE(ext_begin(other, FIRST, server, &value), EXT_BUSY);
    WANT(value.context == CLASS);
    CODE(ext_put(other, CLASS, server, 1, true, &value), EXT_BUSY);
    CODE(ext_remove(other, CLASS, server, &value), EXT_BUSY);
    CODE(ext_get(other, ENGINE, server, &value), EXT_ABSENT);
    WANT(value.context == CLASS && value.number == 8);
    CODE(ext_put(other, FIRST, server, 73, true, &value), EXT_DONE);
    /* each end */
    CODE(ext_abandon(one), EXT_DONE);
    CODE(ext_abandon(one), EXT_NO_CLAIM);
    CODE(ext_get(other, CLASS, server, &value), EXT_ABSENT);
    CODE(ext_begin(other, CLASS, server, &value), EXT_RUN);
    number = 7;
    CODE(ext_fail(other, 5, &number), EXT_GIVEN_UP);
    WANT(number == 7);
    CODE(ext_get(one, CLASS, server, &value), EXT_ABSENT);
    CODE(ext_begin(one, CLASS, server, &value), EXT_RUN);
    CODE(ext_fill(one, 74, true, &number), EXT_DONE);
    CODE(ext_begin(other, SECOND, server, &value), EXT_DONE);
    WANT(is(value, 74, number, CLASS, true, false));
    /* a lane that leaves gives its claim up, and the closer's lane claims, too */
    CODE(ext_begin(one, CLASS, 1, &value), EXT_RUN);
    CODE(ext_leave(one), EXT_DONE);
    CODE(ext_begin(&slots[2], CLASS, 1, &value), EXT_RUN);
    CODE(ext_close(&slots[2], CLASS, values, 64, &count), EXT_CLAIMING);
    WANT(count == 0);
    CODE(ext_leave(&slots[2]), EXT_DONE);
    CODE(ext_begin(other, CLASS, 1, &value), EXT_RUN);
    CODE(ext_leave(other), EXT_DONE);
}

static void fault_is_kept(void) {
    ext_slot slots[2] = {{0, NULL}}, *one = &slots[0], *last = &slots[1];
    opened(slots, 2, KEEPING);
    size_t server = key(one, "server"), count = 9;
    uint32_t number = 0;
    ext_value value = {0}, values[64] = {{0}};
    CODE(ext_begin(one, CLASS, server, &value), EXT_RUN);
    CODE(ext_fail(one, 500, &number), EXT_DONE);
    WANT(number == 1);
    CODE(ext_get(last, FIRST, server, &value), EXT_FAULT);
    WANT(is(value, 500, 1, CLASS, false, true));
    CODE(ext_begin(last, FIRST, server, &value), EXT_FAULT);
    WANT(is(value, 500, 1, CLASS, false, true));
    CODE(ext_put(last, CLASS, server, 75, true, &value), EXT_DONE);
    WANT(is(value, 500, 1, CLASS, false, true));
    CODE(ext_remove(one, CLASS, server, &value), EXT_DONE);
    WANT(is(value, 75, 2, CLASS, true, false));
    CODE(ext_begin(one, CLASS, server, &value), EXT_RUN);
    CODE(ext_fail(one, 501, &number), EXT_DONE);
    CODE(ext_remove(last, CLASS, server, &value), EXT_DONE);
    WANT(is(value, 501, 3, CLASS, false, true));
    CODE(ext_begin(one, CLASS, server, &value), EXT_RUN);
    CODE(ext_fail(one, 502, &number), EXT_DONE);
    CODE(ext_close_joined(last, CLASS, values, 64, &count), EXT_DONE);
    WANT(count == 0);
    CODE(ext_get(one, CLASS, server, &value), EXT_CLOSED);
    WANT(value.context == CLASS);
    left(slots, 2);
}

static void closes_latest_first(void) {
    ext_slot slots[3] = {{0, NULL}}, *one = &slots[0], *last = &slots[2];
    opened(slots, 3, USUAL);
    size_t count = 9;
    uint32_t number = 0;
    ext_value value = {0}, values[70] = {{0}};
    static const char *const names[] = {"a", "b", "c", "d", "e"};
    size_t keys[5];
    for (int at = 0; at < 5; at++) keys[at] = key(one, names[at]);
    CODE(ext_put(one, CLASS, keys[3], 600, true, &value), EXT_DONE); /* replaced below */
    CODE(ext_put(one, CLASS, keys[2], 601, true, &value), EXT_DONE);
    CODE(ext_put(&slots[1], CLASS, keys[0], 602, false, &value), EXT_DONE); /* not closeable */
    CODE(ext_put(&slots[1], CLASS, keys[3], 603, true, &value), EXT_DONE);
    CODE(ext_put(last, CLASS, keys[1], 604, true, &value), EXT_DONE);
    CODE(ext_put(one, CLASS, keys[4], 605, true, &value), EXT_DONE);  /* removed below */
    CODE(ext_put(one, ENGINE, keys[0], 606, true, &value), EXT_DONE); /* another context's */
    CODE(ext_remove(one, CLASS, keys[4], &value), EXT_DONE);
    CODE(ext_close(one, CLASS, values, 64, &count), EXT_NO_CLOSER);
    WANT(count == 0);
    CODE(ext_close(last, CLASS, values, 63, &count), EXT_TOO_FEW_PLACES);
    CODE(ext_begin(one, CLASS, keys[4], &value), EXT_RUN);
    CODE(ext_close_joined(last, CLASS, values, 64, &count), EXT_BUSY);
    WANT(count == 0);
    CODE(ext_fill(one, 607, true, &number), EXT_DONE);
    CODE(ext_close(last, CLASS, values, 70, &count), EXT_UNJOINED);
    WANT(count == 0);
    CODE(ext_close_joined(last, CLASS, values, 70, &count), EXT_DONE);
    WANT(count == 4 && is(values[0], 607, number, CLASS, true, false) && is(values[1], 604, 5, CLASS, true, false) &&
         is(values[2], 603, 4, CLASS, true, false) && is(values[3], 601, 2, CLASS, true, false));
    CODE(ext_close(last, CLASS, values, 64, &count), EXT_CLOSED);
    WANT(count == 0);
    for (int at = 0; at < 5; at++) {
        CODE(ext_put(one, CLASS, keys[at], 1, true, &value), EXT_CLOSED);
        CODE(ext_remove(one, CLASS, keys[at], &value), EXT_CLOSED);
        CODE(ext_get(one, FIRST, keys[at], &value), EXT_CLOSED);
        WANT(value.context == CLASS);
        CODE(ext_begin(one, CLASS, keys[at], &value), EXT_CLOSED);
    }
    CODE(ext_put(one, CLASS, key(one, "named later"), 1, true, &value), EXT_CLOSED);
    CODE(ext_close_joined(last, ENGINE, values, 64, &count), EXT_DONE);
    WANT(count == 1 && values[0].handle == 606);
    left(slots, 3);
}

/* Once a close was told that its lane does not know a value, the lane knows it. */
static void refused_close_is_asked_again(void) {
    ext_slot slots[2] = {{0, NULL}}, *one = &slots[0], *last = &slots[1];
    opened(slots, 2, USUAL);
    size_t count = 9;
    ext_value value = {0}, values[64] = {{0}};
    CODE(ext_put(one, CLASS, 0, 71, true, &value), EXT_DONE);
    CODE(ext_close(last, CLASS, values, 64, &count), EXT_UNJOINED);
    WANT(count == 0);
    CODE(ext_close(last, CLASS, values, 64, &count), EXT_DONE);
    WANT(count == 1 && is(values[0], 71, 1, CLASS, true, false));
    CODE(ext_close(one, CLASS, values, 64, &count), EXT_NO_CLOSER);
    WANT(count == 0);
    left(slots, 2);
}

static void context_of_64_values(void) {
    ext_slot slots[2] = {{0, NULL}};
    opened(slots, 2, USUAL);
    size_t count = 9;
    ext_value value = {0}, values[64] = {{0}};
    for (size_t at = 0; at < 64; at++) CODE(ext_put(&slots[0], FIRST, (at * 5) % 64, 100 + at, true, &value), EXT_DONE);
    CODE(ext_close_joined(&slots[1], FIRST, values, 64, &count), EXT_DONE);
    WANT(count == 64);
    for (size_t at = 0; at < 64; at++) WANT(values[at].handle == 163 - at && values[at].number == 64 - at);
    left(slots, 2);
}

static void context_of_1024_values(void) {
    ext_slot slots[2] = {{0, NULL}};
    opened(slots, 2, MOST);
    size_t count = 9;
    ext_value value = {0};
    static ext_value values[1024];
    /* of all but a few the closing lane's own: it is shown each of the others by a close more */
    for (size_t at = 0; at < 1024; at++) CODE(ext_put(&slots[at % 500 != 0], FIRST, (at * 5) % 1024, 100 + at, true, &value), EXT_DONE);
    CODE(ext_close(&slots[1], FIRST, values, 1023, &count), EXT_TOO_FEW_PLACES);
    CODE(ext_close_joined(&slots[1], FIRST, values, 1024, &count), EXT_DONE);
    WANT(count == 1024);
    for (size_t at = 0; at < 1024; at++) WANT(values[at].handle == 1123 - at && values[at].number == 1024 - at);
    left(slots, 2);
}

/* The places for keys are the limit, rounded up to a multiple of 32: as many keys have a number, and so many values a close may write out. */
static void places_are_whole_blocks(void) {
    static const struct {
        uint32_t keys;
        size_t places;
    } cases[] = {{1, 32}, {32, 32}, {33, 64}, {64, 64}, {65, 96}, {96, 96}, {1000, 1024}};
    static ext_value values[1025];
    for (size_t at = 0; at < sizeof cases / sizeof *cases; at++) {
        ext_slot slot = {0, NULL};
        size_t places = cases[at].places, count = 9, number = 0;
        ext_value value = {0};
        opened(&slot, 1, (ext_limits){64, 2000, cases[at].keys, false, false});
        CODE(ext_put(&slot, CLASS, places, 1, true, &value), EXT_BAD_KEY);
        for (size_t one = 0; one < places; one++) {
            char name[16];
            snprintf(name, sizeof name, "key %u", (unsigned)one);
            WANT(key(&slot, name) == one);
            CODE(ext_put(&slot, CLASS, one, 100 + one, true, &value), EXT_DONE);
        }
        CODE(key_of(&slot, TEXTS("one more"), &number), EXT_DIRECTORY_FULL);
        CODE(ext_close(&slot, CLASS, values, places - 1, &count), EXT_TOO_FEW_PLACES);
        WANT(count == 0);
        values[places] = (ext_value){.handle = 7};
        CODE(ext_close(&slot, CLASS, values, places, &count), EXT_DONE);
        WANT(count == places && values[0].handle == 99 + places && values[places - 1].handle == 100 && values[places].handle == 7);
        left(&slot, 1);
    }
}

/* An engine with a template, and the invocations of the template. */
static struct {
    uint8_t bytes[5000000];
    uint32_t lengths[65537];
    size_t byte_count, length_count;
} suite;

static void add_to_suite(const char *text) {
    size_t length = strlen(text);
    memcpy(suite.bytes + suite.byte_count, text, length);
    suite.byte_count += length;
    suite.lengths[suite.length_count++] = (uint32_t)length;
}

enum { TEMPLATE = 1, INVOCATIONS };
static void suite_of(size_t contexts) {
    char id[100];
    suite.byte_count = suite.length_count = 0;
    add_to_suite("[engine:x]");
    add_to_suite("[engine:x]/[test-template:t]");
    for (size_t at = 1; at <= contexts - INVOCATIONS; at++) {
        snprintf(id, sizeof id, "[engine:x]/[test-template:t]/[test-template-invocation:#%zu]", at);
        add_to_suite(id);
    }
}

static ext_code open_suite(ext_limits given, ext_slot *slots, size_t lanes) {
    return ext_open(suite.bytes, suite.byte_count, suite.lengths, suite.length_count, &given, slots, lanes);
}

/* At most 256 contexts, or 65,536 of a large store, which may have 32 lanes and 1,048,575 numbers. With few rounds, as for valgrind, it is
   smaller, though larger than usual. */
static void large_store(void) {
    ext_slot slots[32] = {{0, NULL}};
    ext_value value = {0}, values[32] = {{0}};
    bool is_whole = rounds >= 1000;
    size_t count = 9, contexts = is_whole ? 65536 : 500;
    ext_limits most = {64, is_whole ? 1048575 : 65536, 32, false, true};
    suite_of(256);
    CODE(open_suite(USUAL, slots, 1), EXT_DONE);
    left(slots, 1);
    suite_of(257);
    CODE(open_suite(USUAL, slots, 1), EXT_TOO_MANY);
    suite.byte_count = suite.length_count = 0;
    for (size_t at = 0; at < 65537; at++) add_to_suite("[e:x]"); /* too many is told before no tree */
    if (is_whole) CODE(open_suite(most, slots, 32), EXT_TOO_MANY);
    suite_of(contexts);
    CODE(open_suite(most, slots, 32), EXT_DONE);
    CODE(ext_put(&slots[0], contexts, 0, 1, true, &value), EXT_BAD_CONTEXT);
    CODE(ext_put(&slots[0], TEMPLATE, 31, 99, true, &value), EXT_DONE);
    for (size_t lane = 0; lane < 32; lane++) CODE(ext_put(&slots[lane], contexts - 1 - lane, lane, 100 + lane, true, &value), EXT_DONE);
    for (size_t lane = 0; lane < 31; lane++) {
        size_t context = contexts - 1 - lane;
        CODE(ext_get(&slots[31 - lane], context, lane, &value), EXT_DONE);
        WANT(is(value, 100 + lane, (uint32_t)lane + 2, context, true, false));
        CODE(ext_get(&slots[lane], 10 * (lane + 1), 31, &value), EXT_DONE);
        WANT(is(value, 99, 1, TEMPLATE, true, false));
        CODE(ext_close_joined(&slots[31], context, values, 32, &count), EXT_DONE);
        WANT(count == 1 && is(values[0], 100 + lane, (uint32_t)lane + 2, context, true, false));
        CODE(ext_put(&slots[lane], context, 0, 1, true, &value), EXT_CLOSED);
    }
    left(slots, 32);
}

static void numbers_run_out(void) {
    ext_slot slots[2] = {{0, NULL}}, *one = &slots[0];
    opened(slots, 2, (ext_limits){1, 2, 32, true, false});
    ext_value value = {0};
    uint32_t number = 0;
    CODE(ext_put(one, ENGINE, 0, 1, false, &value), EXT_DONE);
    CODE(ext_put(one, ENGINE, 0, 2, false, &value), EXT_DONE);
    CODE(ext_put(one, ENGINE, 0, 3, false, &value), EXT_NUMBERS_FULL);
    CODE(ext_get(one, ENGINE, 0, &value), EXT_DONE);
    WANT(value.handle == 2);
    CODE(ext_begin(one, ENGINE, 1, &value), EXT_RUN);
    CODE(ext_fill(one, 4, false, &number), EXT_NUMBERS_FULL);
    CODE(ext_abandon(one), EXT_NO_CLAIM);
    CODE(ext_begin(one, ENGINE, 1, &value), EXT_RUN);
    CODE(ext_fail(one, 5, &number), EXT_NUMBERS_FULL);
    CODE(ext_fail(one, 5, &number), EXT_NO_CLAIM);
    CODE(ext_get(&slots[1], ENGINE, 1, &value), EXT_ABSENT);
    left(slots, 2);
}

static void slot_moves(void) {
    ext_slot slots[1] = {{0, NULL}}, moved;
    opened(slots, 1, USUAL);
    ext_value value = {0};
    CODE(ext_put(&slots[0], ENGINE, 0, 1, false, &value), EXT_DONE);
    memcpy(&moved, &slots[0], sizeof moved);
    memset(&slots[0], 0, sizeof slots[0]);
    CODE(ext_get(&moved, ENGINE, 0, &value), EXT_DONE);
    WANT(value.handle == 1);
    CODE(ext_leave(&moved), EXT_DONE);
    CODE(ext_leave(&moved), EXT_NO_LANE);
}

/* Want of memory: the library allocates by the malloc and the realloc of this program. */

static int allocations_left = -1; /* before all are refused; below 0 none is */
void *__real_malloc(size_t size);
void *__real_realloc(void *old, size_t size);

static bool refuses(void) {
    if (allocations_left > 0) allocations_left--;
    return allocations_left == 0;
}

void *__wrap_malloc(size_t size) { return refuses() ? NULL : __real_malloc(size); }

void *__wrap_realloc(void *old, size_t size) { return refuses() ? NULL : __real_realloc(old, size); }

/* Makes the call with fewer allocations than it takes, none at first and then one more each time, until it succeeds. */
#define WITH_LITTLE_MEMORY(call, check)                             \
    do {                                                            \
        ext_code code_ = EXT_NO_MEMORY;                             \
        int given_ = 0;                                             \
        for (; code_ == EXT_NO_MEMORY && given_ < 1000; given_++) { \
            allocations_left = given_ + 1;                          \
            code_ = (call);                                         \
            allocations_left = -1;                                  \
            if (code_ == EXT_NO_MEMORY) WANT(check);                \
        }                                                           \
        CODE(code_, EXT_DONE);                                      \
        WANT(given_ > 1);                                           \
    } while (0)

static ext_code begun_and_filled(ext_slot *slot, uint32_t *number) {
    ext_value value = {0};
    CODE(ext_begin(slot, CLASS, 1, &value), EXT_RUN);
    return ext_fill(slot, 80, true, number);
}

static ext_code begun_and_failed(ext_slot *slot, uint32_t *number) {
    ext_value value = {0};
    CODE(ext_begin(slot, CLASS, 2, &value), EXT_RUN);
    return ext_fail(slot, 81, number);
}

/* ext_strings.h: what strings open and name is what their bytes and lengths do. */
static void strings_are_ids_and_keys(void) {
    static const char *const paths[] = {"[engine:x]", "[engine:x]/[class:A]"}, *const name[] = {"a", "", "name"};
    ext_slot slots[2] = {{0, NULL}};
    CODE(ext_open_strings(paths, 0, &USUAL, slots, 2), EXT_BAD_TREE);
    CODE(ext_open_strings(paths + 1, 1, &USUAL, slots, 2), EXT_BAD_TREE);
    CODE(ext_open_strings(name, 1, &USUAL, slots, 2), EXT_BAD_ID);
    WANT(slots[0].state == 0);
    WITH_LITTLE_MEMORY(ext_open_strings(paths, 2, &USUAL, slots, 2), slots[0].state == 0 && slots[1].state == 0);
    size_t number = 7, same = 8;
    CODE(ext_key_strings(&slots[0], name, 0, &number), EXT_BAD_LENGTHS);
    WITH_LITTLE_MEMORY(ext_key_strings(&slots[0], name, 3, &number), number == 7);
    CODE(key_of(&slots[1], TEXTS("a", "", "name"), &same), EXT_DONE);
    WANT(number == 0 && same == 0);
    ext_value value = {0};
    CODE(ext_get(&slots[0], CLASS, number, &value), EXT_ABSENT);
    CODE(ext_get(&slots[0], CLASS + 1, number, &value), EXT_BAD_CONTEXT);
    left(slots, 2);
}

static void want_of_memory_is_a_code(void) {
    ext_slot slots[2] = {{0, NULL}}, *one = &slots[0];
    texts list = ids();
    ext_value value = {0};
    uint32_t number = 0;
    size_t key = 0;
    WITH_LITTLE_MEMORY(open_slots(&list, KEEPING, slots, 2), slots[0].state == 0 && slots[1].state == 0);
    WITH_LITTLE_MEMORY(key_of(one, TEXTS("a", "b", "name"), &key), true);
    WANT(key == 0);
    WITH_LITTLE_MEMORY(ext_put(one, CLASS, 0, 79, true, &value), ext_get(one, CLASS, 0, &value) == EXT_ABSENT);
    WITH_LITTLE_MEMORY(begun_and_filled(one, &number), ext_get(one, CLASS, 1, &value) == EXT_ABSENT);
    WITH_LITTLE_MEMORY(begun_and_failed(one, &number), ext_get(one, CLASS, 2, &value) == EXT_ABSENT);
    left(slots, 2);
}

static void calls_that_take_no_memory(void) {
    ext_slot slots[2] = {{0, NULL}}, *one = &slots[0], *last = &slots[1];
    opened(slots, 2, KEEPING);
    ext_value value = {0}, values[64] = {{0}};
    size_t count = 9;
    uint32_t number = 0;
    CODE(ext_put(one, CLASS, 0, 82, true, &value), EXT_DONE);
    CODE(ext_put(one, CLASS, 1, 83, true, &value), EXT_DONE);
    CODE(ext_begin(one, CLASS, 2, &value), EXT_RUN);
    CODE(ext_fail(one, 84, &number), EXT_DONE);
    allocations_left = 0;
    CODE(ext_get(last, FIRST, 0, &value), EXT_DONE);
    CODE(ext_get(last, FIRST, 2, &value), EXT_FAULT);
    CODE(ext_remove(last, CLASS, 0, &value), EXT_DONE);
    CODE(ext_begin(last, CLASS, 0, &value), EXT_RUN);
    CODE(ext_abandon(last), EXT_DONE);
    CODE(ext_close_joined(last, CLASS, values, 64, &count), EXT_DONE);
    WANT(count == 1 && values[0].handle == 83);
    left(slots, 2);
    allocations_left = -1;
}

/* A store that is left gives back all memory, with values in it and with a call of a factory that never ended. Under valgrind and AddressSanitizer
   mallinfo2 tells nothing: they tell of what is lost themselves. */
static void stores_leave_no_memory(void) {
    texts list = ids();
    size_t before = 0;
    for (uint32_t store = 0; store < 5 * rounds; store++) {
        if (store == 10) before = mallinfo2().uordblks;
        ext_slot slots[2] = {{0, NULL}};
        ext_value value = {0};
        CODE(open_slots(&list, USUAL, slots, 2), EXT_DONE);
        CODE(ext_put(&slots[0], CLASS, key(&slots[0], "name"), 1, false, &value), EXT_DONE);
        CODE(ext_begin(&slots[1], CLASS, key(&slots[1], "other"), &value), EXT_RUN);
        left(slots, 2);
    }
    if (before == 0) printf("stores_leave_no_memory: skipped: mallinfo2 tells nothing\n");
    WANT(mallinfo2().uordblks == before);
}

/* Several threads. */

enum { METHODS = 100 };
static ext_lanes lanes;
static uint32_t put_count; /* of each thread */
static pthread_barrier_t gate;
static atomic_uint factories, computed, found, stored, refused, in_use, answered, wrong;
static atomic_uchar replaced[65536], drawn[65536];

static texts many_methods(void) {
    texts list = TEXTS("[engine:x]", "[engine:x]/[class:A]");
    char id[64];
    for (int at = 0; at < METHODS; at++) {
        snprintf(id, sizeof id, "[engine:x]/[class:A]/[method:m%d()]", at);
        add(&list, id);
    }
    return list;
}

static void unwanted(ext_code code, const char *where) {
    if (wrong++ < 5) printf("%s: %s\n", where, ext_code_name(code));
}

/* All compute the same values, and each factory's is the only one of its method. */
static void compute_one(uint32_t lane, size_t key, size_t method) {
    for (;;) {
        ext_value value = {0};
        uint32_t number = 0;
        ext_code code = ext_lanes_begin(&lanes, lane, 2 + method, key, &value);
        if (code == EXT_DONE) {
            found++;
            if (value.handle != 1000 + method || value.context != 2 + method) unwanted(code, "another's value");
            return;
        }
        if (code == EXT_RUN) {
            factories++;
            code = ext_lanes_get(&lanes, lane, 0, key, &value);
            if (code != EXT_CLAIMING) unwanted(code, "a lane that claims");
            code = ext_lanes_fill(&lanes, lane, 1000 + method, true, &number);
            if (code == EXT_DONE) {
                computed++;
                return;
            }
        }
        if (code != EXT_BUSY && code != EXT_CONTENDED) return unwanted(code, "compute");
        sched_yield();
    }
}

static void *computes(void *at) {
    uint32_t lane = (uint32_t)(size_t)at;
    size_t key = 99;
    pthread_barrier_wait(&gate);
    texts name = TEXTS("thing");
    ext_code code = ext_lanes_key(&lanes, lane, name.bytes, name.byte_count, name.lengths, name.length_count, &key);
    if (code != EXT_DONE || key != 0) unwanted(code, "key");
    for (size_t method = 0; method < METHODS; method++) compute_one(lane, key, method);
    return NULL;
}

/* All put to one place: no number is replaced twice. */
static void *puts_over(void *at) {
    uint32_t lane = (uint32_t)(size_t)at;
    pthread_barrier_wait(&gate);
    for (uint32_t round = 0; round < put_count; round++) {
        ext_value stood = {0};
        ext_code code;
        do code = ext_lanes_put(&lanes, lane, 1, 1, round, false, &stood);
        while (code == EXT_CONTENDED);
        if (code != EXT_DONE) unwanted(code, "put");
        stored++;
        if (stood.number && atomic_fetch_add(&replaced[stood.number], 1)) unwanted(code, "a number replaced twice");
    }
    return NULL;
}

/* Each computes for a key of its own, and all draw numbers: no end of a compute is refused for that. */
static void *ends_computes(void *at) {
    uint32_t lane = (uint32_t)(size_t)at;
    pthread_barrier_wait(&gate);
    for (uint32_t round = 0; round < rounds; round++) {
        ext_value value = {0};
        uint32_t number = 0;
        ext_code code = ext_lanes_begin(&lanes, lane, 1, lane, &value);
        if (code != EXT_RUN) unwanted(code, "a key of one lane alone");
        code = round % 2 ? ext_lanes_fail(&lanes, lane, round, &number) : ext_lanes_fill(&lanes, lane, round, false, &number);
        if (code != EXT_DONE) {
            refused++;
            continue;
        }
        computed++;
        if (atomic_fetch_add(&drawn[number], 1)) unwanted(code, "a number drawn twice");
        code = ext_lanes_remove(&lanes, lane, 1, lane, &value);
        if (code != EXT_DONE || value.handle != round || value.number != number) unwanted(code, "what ended a compute");
    }
    return NULL;
}

/* All use one lane: each call is told that another has it, or is answered. */
static void *one_lane(void *at) {
    (void)at;
    pthread_barrier_wait(&gate);
    for (uint32_t round = 0; round < put_count; round++) {
        ext_value value = {0};
        ext_code code = ext_lanes_get(&lanes, 0, 2, 0, &value);
        if (code == EXT_LANE_IN_USE) {
            in_use++;
        } else {
            answered++;
            if (code != EXT_DONE || value.handle != 1000) unwanted(code, "one lane");
        }
    }
    return NULL;
}

static void together(void *(*body)(void *), size_t threads) {
    pthread_t all[EXT_MOST_LANES];
    pthread_barrier_init(&gate, NULL, (unsigned)threads);
    for (size_t at = 0; at < threads; at++) pthread_create(&all[at], NULL, body, (void *)at);
    for (size_t at = 0; at < threads; at++) pthread_join(all[at], NULL);
    pthread_barrier_destroy(&gate);
}

static void threads_compute_put_and_close(uint32_t threads, uint32_t each) {
    texts list = many_methods();
    put_count = each;
    factories = computed = found = stored = in_use = answered = wrong = 0;
    memset((void *)replaced, 0, sizeof replaced);
    CODE(ext_lanes_open(&lanes, list.bytes, list.byte_count, list.lengths, list.length_count, threads > 16 ? &LARGE : &MOST, threads),
         EXT_DONE);
    together(computes, threads);
    WANT(computed == METHODS && computed + found == threads * METHODS && factories >= computed);
    together(puts_over, threads);
    WANT(stored == threads * put_count);
    together(one_lane, threads);
    WANT(in_use + answered == threads * put_count && answered > 0);
    static ext_value values[1024];
    ext_value value = {0};
    size_t count = 9, all = 0, last = 0;
    for (size_t context = METHODS + 2; context-- > 0;) {
        CODE(ext_lanes_close(&lanes, context, values, 1024, &count), EXT_DONE);
        WANT(count == (context < 2 ? 0 : 1) && (count == 0 || values[0].handle == 998 + context));
        all += count;
        CODE(ext_lanes_get(&lanes, 0, context, 0, &value), EXT_CLOSED);
        last = context;
    }
    WANT(all == METHODS && last == 0 && wrong == 0);
    CODE(ext_lanes_get(&lanes, threads, 0, 0, &value), EXT_BAD_LANE);
    for (uint32_t lane = 0; lane < threads; lane++) CODE(ext_lanes_leave(&lanes, lane), EXT_DONE);
    CODE(ext_lanes_leave(&lanes, 0), EXT_NO_LANE);
}

/* In a store with one try. */
static void threads_end_computes(uint32_t threads) {
    texts list = many_methods();
    computed = refused = wrong = 0;
    memset((void *)drawn, 0, sizeof drawn);
    static const ext_limits limits = {1, 65535, 32, true, false};
    CODE(ext_lanes_open(&lanes, list.bytes, list.byte_count, list.lengths, list.length_count, &limits, threads), EXT_DONE);
    together(ends_computes, threads);
    WANT(refused == 0 && computed == threads * rounds && wrong == 0);
    for (uint32_t number = 1; number <= computed; number++) WANT(drawn[number] == 1);
    for (uint32_t lane = 0; lane < threads; lane++) CODE(ext_lanes_leave(&lanes, lane), EXT_DONE);
}

/* Contexts that come during the run: they are named when the store is opened, and a counter gives them out. In each round every thread
   opens one, all at once. With few rounds, as for valgrind, there are fewer still. */
static uint32_t openings(void) {
    return rounds >= 1000 ? rounds / 2 : rounds / 16 + 1;
}

static atomic_size_t next_context;
static atomic_uchar given[65536], written[65536]; /* by context */

/* Closes an invocation by the last lane, for which threads wait in turn. */
static void close_invocation(size_t context) {
    ext_value values[32] = {{0}};
    size_t count = 9;
    ext_code code;
    do code = ext_lanes_close(&lanes, context, values, 32, &count);
    while (code == EXT_LANE_IN_USE && sched_yield() == 0);
    if (code != EXT_DONE || count != 1 || values[0].context != context || values[0].handle != 7000 + context) unwanted(code, "close");
    for (size_t at = 0; at < count; at++) atomic_fetch_add(&written[values[at].handle - 7000], 1);
}

static void *takes_contexts(void *at) {
    uint32_t lane = (uint32_t)(size_t)at;
    for (uint32_t round = 0; round < openings(); round++) {
        pthread_barrier_wait(&gate);
        size_t context = INVOCATIONS + atomic_fetch_add(&next_context, 1);
        ext_value value = {0};
        atomic_fetch_add(&given[context], 1);
        ext_code code = ext_lanes_get(&lanes, lane, context, lane % 2, &value);
        if (code != EXT_ABSENT) unwanted(code, "a context that is new");
        code = ext_lanes_put(&lanes, lane, context, lane % 2, 7000 + context, true, &value);
        if (code != EXT_DONE || value.number != 0) unwanted(code, "put");
        code = ext_lanes_get(&lanes, lane, context, lane % 2, &value);
        if (code != EXT_DONE || value.handle != 7000 + context || value.context != context) unwanted(code, "get");
        code = ext_lanes_get(&lanes, lane, context, 2, &value);
        if (code != EXT_DONE || value.handle != 6000 || value.context != TEMPLATE) unwanted(code, "the template's value");
        /* opened below the root in place of the template */
        const size_t path[] = {context, 0};
        code = ext_lanes_get_along(&lanes, lane, path, 2, 2, &value);
        if (code != EXT_ABSENT) unwanted(code, "the template's value past the template");
        code = ext_lanes_begin_along(&lanes, lane, path, 2, lane % 2, &value);
        if (code != EXT_DONE || value.handle != 7000 + context) unwanted(code, "begin");
        close_invocation(context);
        code = ext_lanes_get(&lanes, lane, context, 2, &value);
        if (code != EXT_CLOSED || value.context != context) unwanted(code, "a context that is closed");
    }
    return NULL;
}

static void threads_take_contexts(uint32_t threads) {
    ext_value value = {0}, values[32] = {{0}};
    size_t count = 9, reserve = openings() * threads;
    next_context = wrong = 0;
    memset((void *)given, 0, sizeof given);
    memset((void *)written, 0, sizeof written);
    suite_of(INVOCATIONS + reserve);
    CODE(ext_lanes_open(&lanes, suite.bytes, suite.byte_count, suite.lengths, suite.length_count, &LARGE, threads + 1), EXT_DONE);
    CODE(ext_lanes_put(&lanes, 0, TEMPLATE, 2, 6000, true, &value), EXT_DONE);
    together(takes_contexts, threads);
    WANT(wrong == 0 && next_context == reserve);
    for (size_t context = 0; context < suite.length_count; context++) {
        WANT(given[context] == (context < INVOCATIONS ? 0 : 1) && written[context] == given[context]);
    }
    CODE(ext_lanes_close(&lanes, TEMPLATE, values, 32, &count), EXT_DONE);
    WANT(count == 1 && values[0].handle == 6000);
    for (uint32_t lane = 0; lane <= threads; lane++) CODE(ext_lanes_leave(&lanes, lane), EXT_DONE);
}

/* The lanes leave at the same moment: the last one frees the store. */
static void *leaves(void *at) {
    pthread_barrier_wait(&gate);
    ext_code code = ext_lanes_leave(&lanes, (uint32_t)(size_t)at);
    if (code != EXT_DONE) unwanted(code, "leave");
    return NULL;
}

static void threads_leave_at_once(void) {
    texts list = many_methods();
    ext_value value = {0};
    wrong = 0;
    for (int round = 0; round < 20; round++) {
        CODE(ext_lanes_open(&lanes, list.bytes, list.byte_count, list.lengths, list.length_count, &USUAL, 16), EXT_DONE);
        for (uint32_t lane = 0; lane < 16; lane++) CODE(ext_lanes_begin(&lanes, lane, 2 + lane, lane, &value), EXT_RUN);
        together(leaves, 16);
    }
    WANT(wrong == 0);
}

int main(int count, char **words) {
    if (count > 1) rounds = (uint32_t)atoi(words[1]);
    if (count > 2 || rounds < 4 || rounds > 4000) {
        fputs("usage: test [ROUNDS]    4 to 4000 puts for each thread\n", stderr);
        return 2;
    }
    version_is_that_of_the_header(), ran("version_is_that_of_the_header");
    refused_openings(), ran("refused_openings");
    empty_slots(), ran("empty_slots");
    keys_have_one_number(), ran("keys_have_one_number");
    nearest_value_wins(), ran("nearest_value_wins");
    path_of_its_own_decides(), ran("path_of_its_own_decides");
    paths_that_are_none(), ran("paths_that_are_none");
    numbers_out_of_range(), ran("numbers_out_of_range");
    compute_in_two_calls(), ran("compute_in_two_calls");
    fault_is_kept(), ran("fault_is_kept");
    closes_latest_first(), ran("closes_latest_first");
    refused_close_is_asked_again(), ran("refused_close_is_asked_again");
    context_of_64_values(), ran("context_of_64_values");
    context_of_1024_values(), ran("context_of_1024_values");
    places_are_whole_blocks(), ran("places_are_whole_blocks");
    large_store(), ran("large_store");
    numbers_run_out(), ran("numbers_run_out");
    slot_moves(), ran("slot_moves");
    strings_are_ids_and_keys(), ran("strings_are_ids_and_keys");
    want_of_memory_is_a_code(), ran("want_of_memory_is_a_code");
    calls_that_take_no_memory(), ran("calls_that_take_no_memory");
    stores_leave_no_memory(), ran("stores_leave_no_memory");
    threads_compute_put_and_close(4, rounds), ran("threads_compute_put_and_close, 4 threads");
    threads_compute_put_and_close(16, rounds), ran("threads_compute_put_and_close, 16 threads");
    threads_compute_put_and_close(32, rounds / 4), ran("threads_compute_put_and_close, 32 threads");
    threads_end_computes(4), ran("threads_end_computes, 4 threads");
    threads_end_computes(16), ran("threads_end_computes, 16 threads");
    threads_take_contexts(2), ran("threads_take_contexts, 2 threads");
    threads_take_contexts(16), ran("threads_take_contexts, 16 threads");
    threads_leave_at_once(), ran("threads_leave_at_once");
    printf("%d passed, %d failed\n", passed, failed);
    return failed != 0;
}
