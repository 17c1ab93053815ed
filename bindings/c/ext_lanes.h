/* A store whose lanes are named by number, with a flag for each, so that two calls at once on one lane are told and not undefined.
   Not of the library and not proved: a few lines round its calls, in what GCC and clang take as C11 and as C++11. A caller that keeps
   each slot to one thread, as by a lock or by its language, needs none of this. */
#ifndef EXT_LANES_H
#define EXT_LANES_H

#include "ext_store.h"

/* Answered by the calls below alone. */
enum {
    EXT_LANE_IN_USE = 100, /* another call has this lane at this moment: nothing was done */
    EXT_BAD_LANE = 101     /* the store has no lane of this number */
};

enum { EXT_MOST_LANES = 32 };

/* One lane, on a line of the processor's cache of its own. */
typedef struct ext_lane {
    bool in_use; /* by the compiler's atomics alone */
    ext_slot slot;
} __attribute__((aligned(64))) ext_lane;

/* All lanes of a store, numbered from 0; the last one closes. */
typedef struct ext_lanes {
    uint32_t count;
    ext_lane lanes[EXT_MOST_LANES];
} ext_lanes;

/* ext_open, of `count` lanes. *store may have any bytes before, and is usable after EXT_DONE alone. */
EXT_TO_BE_READ
static inline ext_code ext_lanes_open(ext_lanes *store, const uint8_t *bytes, size_t byte_count, const uint32_t *lengths,
                                      size_t length_count, const ext_limits *limits, size_t count) {
    ext_slot slots[EXT_MOST_LANES] = {{0, NULL}};
    store->count = 0;
    if (count > EXT_MOST_LANES) return EXT_BAD_LIMIT;
    ext_code code = ext_open(bytes, byte_count, lengths, length_count, limits, slots, count);
    if (code != EXT_DONE) return code;
    store->count = (uint32_t)count;
    for (size_t lane = 0; lane < count; lane++) {
        store->lanes[lane].in_use = false;
        store->lanes[lane].slot = slots[lane];
    }
    return EXT_DONE;
}

/* Takes the lane for one call, as a lock is taken; EXT_DONE where it is taken. */
EXT_TO_BE_READ
static inline ext_code ext_lane_take(ext_lanes *store, uint32_t lane) {
    if (lane >= store->count) return EXT_BAD_LANE;
    if (__atomic_exchange_n(&store->lanes[lane].in_use, true, __ATOMIC_ACQUIRE)) return EXT_LANE_IN_USE;
    return EXT_DONE;
}

/* Gives the lane back after its call, and answers the call's code. */
static inline ext_code ext_lane_give(ext_lanes *store, uint32_t lane, ext_code code) {
    __atomic_store_n(&store->lanes[lane].in_use, false, __ATOMIC_RELEASE);
    return code;
}

EXT_TO_BE_READ
static inline ext_code ext_lanes_key(ext_lanes *store, uint32_t lane, const uint8_t *bytes, size_t byte_count, const uint32_t *lengths,
                                     size_t length_count, size_t *key) {
    ext_code code = ext_lane_take(store, lane);
    if (code != EXT_DONE) return code;
    return ext_lane_give(store, lane, ext_key(&store->lanes[lane].slot, bytes, byte_count, lengths, length_count, key));
}

EXT_TO_BE_READ
static inline ext_code ext_lanes_put(ext_lanes *store, uint32_t lane, size_t context, size_t key, uint64_t handle, bool closeable,
                                     ext_value *stood) {
    ext_code code = ext_lane_take(store, lane);
    if (code != EXT_DONE) return code;
    return ext_lane_give(store, lane, ext_put(&store->lanes[lane].slot, context, key, handle, closeable, stood));
}

EXT_TO_BE_READ
static inline ext_code ext_lanes_get(ext_lanes *store, uint32_t lane, size_t context, size_t key, ext_value *found) {
    ext_code code = ext_lane_take(store, lane);
    if (code != EXT_DONE) return code;
    return ext_lane_give(store, lane, ext_get(&store->lanes[lane].slot, context, key, found));
}

EXT_TO_BE_READ
static inline ext_code ext_lanes_get_along(ext_lanes *store, uint32_t lane, const size_t *path, size_t length, size_t key, ext_value *found) {
    ext_code code = ext_lane_take(store, lane);
    if (code != EXT_DONE) return code;
    return ext_lane_give(store, lane, ext_get_along(&store->lanes[lane].slot, path, length, key, found));
}

EXT_TO_BE_READ
static inline ext_code ext_lanes_remove(ext_lanes *store, uint32_t lane, size_t context, size_t key, ext_value *taken) {
    ext_code code = ext_lane_take(store, lane);
    if (code != EXT_DONE) return code;
    return ext_lane_give(store, lane, ext_remove(&store->lanes[lane].slot, context, key, taken));
}

EXT_TO_BE_READ
static inline ext_code ext_lanes_begin(ext_lanes *store, uint32_t lane, size_t context, size_t key, ext_value *found) {
    ext_code code = ext_lane_take(store, lane);
    if (code != EXT_DONE) return code;
    return ext_lane_give(store, lane, ext_begin(&store->lanes[lane].slot, context, key, found));
}

EXT_TO_BE_READ
static inline ext_code ext_lanes_begin_along(ext_lanes *store, uint32_t lane, const size_t *path, size_t length, size_t key, ext_value *found) {
    ext_code code = ext_lane_take(store, lane);
    if (code != EXT_DONE) return code;
    return ext_lane_give(store, lane, ext_begin_along(&store->lanes[lane].slot, path, length, key, found));
}

EXT_TO_BE_READ
static inline ext_code ext_lanes_fill(ext_lanes *store, uint32_t lane, uint64_t handle, bool closeable, uint32_t *number) {
    ext_code code = ext_lane_take(store, lane);
    if (code != EXT_DONE) return code;
    return ext_lane_give(store, lane, ext_fill(&store->lanes[lane].slot, handle, closeable, number));
}

EXT_TO_BE_READ
static inline ext_code ext_lanes_fail(ext_lanes *store, uint32_t lane, uint64_t handle, uint32_t *number) {
    ext_code code = ext_lane_take(store, lane);
    if (code != EXT_DONE) return code;
    return ext_lane_give(store, lane, ext_fail(&store->lanes[lane].slot, handle, number));
}

static inline ext_code ext_lanes_abandon(ext_lanes *store, uint32_t lane) {
    ext_code code = ext_lane_take(store, lane);
    if (code != EXT_DONE) return code;
    return ext_lane_give(store, lane, ext_abandon(&store->lanes[lane].slot));
}

/* ext_close by a slot, asked again while it is EXT_UNJOINED. */
EXT_TO_BE_READ
static inline ext_code ext_close_joined(ext_slot *slot, size_t context, ext_value *values, size_t places, size_t *count) {
    ext_code code = ext_close(slot, context, values, places, count);
    for (size_t shown = 0; shown < places && code == EXT_UNJOINED; shown++) code = ext_close(slot, context, values, places, count);
    return code;
}

/* ext_close by the last lane, asked again while it is EXT_UNJOINED. */
EXT_TO_BE_READ
static inline ext_code ext_lanes_close(ext_lanes *store, size_t context, ext_value *values, size_t places, size_t *count) {
    *count = 0;
    if (store->count == 0) return EXT_BAD_LANE;
    uint32_t lane = store->count - 1;
    ext_code code = ext_lane_take(store, lane);
    if (code != EXT_DONE) return code;
    return ext_lane_give(store, lane, ext_close_joined(&store->lanes[lane].slot, context, values, places, count));
}

static inline ext_code ext_lanes_leave(ext_lanes *store, uint32_t lane) {
    ext_code code = ext_lane_take(store, lane);
    if (code != EXT_DONE) return code;
    return ext_lane_give(store, lane, ext_leave(&store->lanes[lane].slot));
}

#endif
