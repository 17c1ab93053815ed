/* The extension store, for C and for languages that call C.

   Link with what `make install` installs beside this file, as `pkg-config --libs extension_store` says; or with libext_c.a, which
   `rt lib` in crates/ext_c makes, and then with the kit's c/liblibc_c.a. It calls this program's malloc, realloc and free.

   A store has contexts in a tree, up to 1,024 keys, and lanes. A value is 64 bits of the caller's own, its handle, which the
   store never looks into and never frees. Contexts are numbered from 0, in the order of their ids; keys from 0, as ext_key
   tells; values and kept faults from 1, one sequence for the whole store, in the order in which they were stored.

   For every call:
   - It answers a code and returns: no call waits for another thread, and none calls back.
   - Numbers of contexts and keys may be any: what is out of range is answered by a code.
   - Which thread: any, with one call at a time on one slot. Different slots of one store may be used by different threads at
     the same moment. Nothing tells two calls at once on one slot, and what they do is undefined; ext_lanes.h has a flag for
     each lane that tells it. A slot goes from one thread to another by a lock, by the start or the join of a thread, or by
     a sequentially consistent atomic.
   - None may be made in a signal handler, nor in the forked child of a process with several threads.
   - No pointer may be null, also where a length is 0, and what pointers lead to is initialised and does not overlap.
   - What is written through found, stood, taken, number, key and values is said with each code; all else stays as it was.
   - EXT_NO_LANE, EXT_CLAIMING, EXT_NO_CLAIM, EXT_BAD_CONTEXT and EXT_BAD_KEY: nothing was done.

   The calls are proved; this file, and that the caller keeps to it, are not. */
#ifndef EXT_STORE_H
#define EXT_STORE_H

#include <stdbool.h>
#include <stddef.h>
#include <stdint.h>

#define EXT_VERSION "0.1.0"
#define EXT_VERSION_NUMBER 100 /* that of 1.2.3 would be 10203 */

/* The compiler warns where the code of such a call is dropped. */
#if defined(__GNUC__) || defined(__clang__)
#define EXT_TO_BE_READ __attribute__((warn_unused_result))
#else
#define EXT_TO_BE_READ
#endif

#ifdef __cplusplus
extern "C" {
#endif

/* The library's own EXT_VERSION_NUMBER. A program that was compiled with the header of another version may ask. */
uint32_t ext_version(void);

typedef uint32_t ext_code;

enum {
    EXT_DONE = 0,           /* what the call is for has happened */
    EXT_ABSENT = 1,         /* nothing stands there */
    EXT_FAULT = 2,          /* a kept fault stands there */
    EXT_RUN = 3,            /* the place is claimed for this lane: run the factory */
    EXT_GIVEN_UP = 4,       /* the claim was given up: this store keeps no faults */
    EXT_BUSY = 5,           /* a factory runs for the context that decides: ask again when it has ended */
    EXT_CLOSED = 6,         /* the place that decides is sealed for good: its context is closed or is being closed */
    EXT_CONTENDED = 7,      /* other lanes were in the way as often as the store has tries: ask again */
    EXT_EXHAUSTED = 8,      /* some 2^40 changes were made at this place: it takes no more */
    EXT_DIRECTORY_FULL = 9, /* other keys have all of the store's numbers for keys */
    EXT_NUMBERS_FULL = 10,  /* all numbers of the store were drawn: nothing more can be stored */
    EXT_NO_MEMORY = 11,     /* an allocation failed */
    EXT_UNPLACED = 12,      /* a place did not take the value or the key; tests show that it never comes */
    EXT_UNSHOWN = 13,       /* the handle of a number that was met was not found; tests show that it never comes */
    EXT_UNJOINED = 14,      /* of ext_close: ask again at once */
    EXT_CLAIMING = 15,      /* the lane has begun a compute: end it first */
    EXT_NO_CLAIM = 16,      /* the lane has begun no compute */
    EXT_NO_LANE = 17,       /* the slot is empty */
    EXT_NO_CLOSER = 18,     /* this lane closes no context: the last slot of ext_open does */
    EXT_NOT_EMPTY = 19,     /* a slot that was handed to ext_open has a lane */
    EXT_BAD_CONTEXT = 20,   /* the store has no context of this number */
    EXT_BAD_KEY = 21,       /* the store has no place for a key of this number */
    EXT_BAD_LIMIT = 22,     /* the count of lanes or one of ext_limits is out of range */
    EXT_BAD_LENGTHS = 23,   /* the lengths go beyond the bytes, or there is no text where one is needed */
    EXT_BAD_TEXT = 24,      /* a text is not UTF-8 */
    EXT_BAD_ID = 25,        /* a text is no unique id, or one that is more than 16 deep */
    EXT_BAD_TREE = 26,      /* the ids are no tree: no root, two roots, an id twice, or a parent that does not stand before */
    EXT_TOO_MANY = 27,      /* there are more contexts than 256, or 65536 of a large store */
    EXT_TOO_FEW_PLACES = 28 /* of ext_close: there is room for fewer values than the store has places for keys */
};

/* A lane, in memory of the caller. All bytes 0: empty. From ext_open to ext_leave the caller neither writes it nor copies it; it
   may be moved, by copying the bytes and never using the old ones again. */
typedef struct ext_slot {
    uint64_t state;
    void *seat;
} ext_slot;

/* A value, or a kept fault. number: from 1, or 0 for 'nothing', which ext_put alone writes. context: where it stands or stood.
   fault: the handle is one of ext_fail, and closeable is false. */
typedef struct ext_value {
    uint64_t handle;
    size_t context;
    uint32_t number;
    bool closeable;
    bool fault;
} ext_value;

/* The limits of a store. */
typedef struct ext_limits {
    uint32_t tries; /* how often a call meets other lanes before it answers EXT_CONTENDED, which ext_fill and ext_fail never do: 1 to 64 */
    uint32_t numbers; /* how many values and faults can be stored while the store lives, those that are replaced, removed or refused
                         among them: 1 to 65535, of a large store 1 to 1048575 */
    uint32_t keys;    /* how many keys can have a number, 1 to 1024, rounded up to a multiple of 32: these are the places for keys that
                         the store has in each context, of 8.25 bytes */
    bool keep_faults; /* whether ext_fail keeps the fault of a factory */
    bool large;       /* whether the store may have 65536 contexts, 32 lanes and 1048575 numbers, and not only 256, 16 and 65535 */
} ext_limits;

/* Opens a store, and fills all of the `lanes` slots, which are empty: 1 to 16, of a large store 1 to 32. Takes memory: for each
   context and key, and for each number.

   `bytes` has the ids of the contexts, one text behind the other, and `lengths` the length of each: first the root, then every id
   behind its parent, as "[engine:x]" and "[engine:x]/[class:A]"; at most 256, or 65536 of a large store, and 16 deep.

   The lane of the last slot closes contexts, and no other lane does.

   EXT_DONE
   Else all slots are as they were, and nothing is left. Refused in this order: EXT_NOT_EMPTY; EXT_BAD_LIMIT; EXT_BAD_LENGTHS or
   EXT_BAD_TEXT, for the first text that is none; EXT_BAD_ID; EXT_TOO_MANY or EXT_BAD_TREE. EXT_NO_MEMORY may come in place of
   the last three, or after them */
EXT_TO_BE_READ
ext_code ext_open(const uint8_t *bytes, size_t byte_count, const uint32_t *lengths, size_t length_count, const ext_limits *limits,
                  ext_slot *slots, size_t lanes);

/* Tells the number of a key, the same in all lanes for as long as the store lives. The texts are the parts of its namespace and
   then its name; a name alone is a key of the global namespace. A key has a number from the first time that a lane asks for it, and
   keeps it. Takes memory: call it once for a key. May be called while the lane has a claim.

   EXT_DONE: *key is the number, from 0 and below the places for keys
   Else nothing has changed: EXT_DIRECTORY_FULL, EXT_NO_MEMORY, EXT_BAD_LENGTHS (also where there is no text), EXT_BAD_TEXT,
   EXT_UNPLACED, EXT_NO_LANE */
EXT_TO_BE_READ
ext_code ext_key(ext_slot *slot, const uint8_t *bytes, size_t byte_count, const uint32_t *lengths, size_t length_count, size_t *key);

/* Stores the handle in the context itself, under a new number. `closeable`: ext_close of the context writes it out. Takes memory.

   EXT_DONE: *stood is what it replaced, which is the caller's to close now; number 0 where nothing stood
   EXT_UNSHOWN: it is stored, and of *stood number and context alone are true
   Else nothing is stored, the handle is the caller's again, and a number may be lost: EXT_BUSY, EXT_CLOSED, EXT_CONTENDED,
   EXT_EXHAUSTED, EXT_NUMBERS_FULL, EXT_NO_MEMORY, EXT_UNPLACED, EXT_CLAIMING, EXT_BAD_CONTEXT, EXT_BAD_KEY, EXT_NO_LANE */
EXT_TO_BE_READ
ext_code ext_put(ext_slot *slot, size_t context, size_t key, uint64_t handle, bool closeable, ext_value *stood);

/* Looks in the context and then in its ancestors, the nearest first, all of it at one moment. Takes no memory.

   EXT_DONE: *found is the nearest value
   EXT_FAULT: *found is the kept fault that stands nearest, and its handle that of ext_fail
   EXT_ABSENT
   EXT_BUSY, EXT_CLOSED: found->context is the one that decides, and nothing else of *found is written
   EXT_UNSHOWN: of *found number and context alone are true
   Else: EXT_CONTENDED, EXT_CLAIMING, EXT_BAD_CONTEXT, EXT_BAD_KEY, EXT_NO_LANE */
EXT_TO_BE_READ
ext_code ext_get(ext_slot *slot, size_t context, size_t key, ext_value *found);

/* Looks as ext_get does, but in the contexts of the path, path[0] first: 1 to 16 contexts of the store, none twice. For a context that
   is opened during the run: it is one that ext_open has named in reserve, and its path is itself and then that of its parent, whatever
   its id says. ext_put, ext_remove and ext_close ask for no path.

   As ext_get, and EXT_BAD_CONTEXT where that is no path */
EXT_TO_BE_READ
ext_code ext_get_along(ext_slot *slot, const size_t *path, size_t length, size_t key, ext_value *found);

/* Takes out what stands in the context itself, a value or a kept fault. It is not closed. Takes no memory.

   EXT_DONE: *taken is it, which is the caller's to close now
   EXT_ABSENT: nothing stood there
   EXT_UNSHOWN: it is taken out, and of *taken number and context alone are true
   Else nothing has changed: EXT_BUSY, EXT_CLOSED, EXT_CONTENDED, EXT_EXHAUSTED, EXT_CLAIMING, EXT_BAD_CONTEXT, EXT_BAD_KEY,
   EXT_NO_LANE */
EXT_TO_BE_READ
ext_code ext_remove(ext_slot *slot, size_t context, size_t key, ext_value *taken);

/* Begins a compute: looks as ext_get does, and claims the place in the context where nothing was found. Takes no memory.

   EXT_RUN: the place is claimed. Run the factory, and then call ext_fill, ext_fail or ext_abandon on this slot. Meanwhile every
   other call that this place decides is answered EXT_BUSY, and on this slot each call but ext_key and those three EXT_CLAIMING
   (ext_leave gives the claim up).
   EXT_DONE: *found is the nearest value; run no factory
   EXT_FAULT: *found is the kept fault that stands nearest; run no factory
   EXT_BUSY, EXT_CLOSED: found->context is the one that decides, and nothing else of *found is written
   EXT_UNSHOWN: as EXT_DONE, but of *found number and context alone are true
   Else nothing is claimed: EXT_CONTENDED, EXT_EXHAUSTED, EXT_CLAIMING, EXT_BAD_CONTEXT, EXT_BAD_KEY, EXT_NO_LANE */
EXT_TO_BE_READ
ext_code ext_begin(ext_slot *slot, size_t context, size_t key, ext_value *found);

/* Begins a compute as ext_begin does, but in path[0], with the rest of the path as its ancestors. The path is that of ext_get_along. */
EXT_TO_BE_READ
ext_code ext_begin_along(ext_slot *slot, const size_t *path, size_t length, size_t key, ext_value *found);

/* Ends the compute with the factory's value. Where other lanes draw numbers at the same moment it draws again while the claim
   stands, until it has a number or none is left. Takes memory.

   EXT_DONE: it is stored in the claimed place, as *number
   EXT_NUMBERS_FULL, EXT_NO_MEMORY, EXT_UNPLACED: the claim is given up, nothing is stored, and the handle is the caller's again; a
   next ext_begin may run a factory anew
   Else: EXT_NO_CLAIM, EXT_NO_LANE */
EXT_TO_BE_READ
ext_code ext_fill(ext_slot *slot, uint64_t handle, bool closeable, uint32_t *number);

/* Ends the compute of a factory that failed. Draws again as ext_fill does, and takes memory, where the store keeps faults.

   EXT_DONE: the store keeps faults, and the fault's handle stands in the claimed place, as *number, until it is removed or replaced
   EXT_GIVEN_UP: the store keeps none: the claim is given up, and the handle is the caller's again
   EXT_NUMBERS_FULL, EXT_NO_MEMORY, EXT_UNPLACED: the claim is given up, nothing is kept, and the handle is the caller's again
   Else: EXT_NO_CLAIM, EXT_NO_LANE */
EXT_TO_BE_READ
ext_code ext_fail(ext_slot *slot, uint64_t handle, uint32_t *number);

/* Ends the compute: the claim is given up, and nothing is stored. Takes no memory.

   EXT_DONE
   Else: EXT_NO_CLAIM, EXT_NO_LANE */
ext_code ext_abandon(ext_slot *slot);

/* Closes a context, once: seals its places for good and writes out the closeable values that remain in it, the latest first. The
   library closes nothing itself: after EXT_DONE these handles are the caller's to close, in this order. Contexts below are to be
   closed before. The slot is the last one of ext_open; `places` is how many values fit, at least one for each of the places for
   keys: the limit `keys`, rounded up to a multiple of 32. Takes no memory.

   *count is always written; it is 0 after each code but EXT_DONE.

   EXT_DONE: values[0] to values[*count - 1] are to be closed, and nothing is found or stored in the context any more
   EXT_UNJOINED: the lane had not yet been shown a value that another lane stored; this call has shown it one more. Ask again at
   once, at most as often as there are places for keys
   EXT_UNSHOWN: the lane has not been shown such a value, since the thread did not find it. Not closed: ask again
   EXT_BUSY, EXT_CONTENDED: some of the context's places are sealed already. End the factories that run for it, and ask again
   EXT_CLOSED: it was closed before
   Else nothing has changed: EXT_NO_CLOSER, EXT_TOO_FEW_PLACES, EXT_CLAIMING, EXT_BAD_CONTEXT, EXT_NO_LANE */
EXT_TO_BE_READ
ext_code ext_close(ext_slot *slot, size_t context, ext_value *values, size_t places, size_t *count);

/* Gives up the lane, and its claim if it has one; the slot is empty then. With the last lane of a store its memory is freed. Handles
   remain the caller's.

   EXT_DONE
   EXT_NO_LANE */
ext_code ext_leave(ext_slot *slot);

/* The name of a code, as "EXT_BUSY". Not of the library. */
static inline const char *ext_code_name(ext_code code) {
    static const char *const names[] = {"EXT_DONE",         "EXT_ABSENT",    "EXT_FAULT",     "EXT_RUN",           "EXT_GIVEN_UP",
                                        "EXT_BUSY",         "EXT_CLOSED",    "EXT_CONTENDED", "EXT_EXHAUSTED",     "EXT_DIRECTORY_FULL",
                                        "EXT_NUMBERS_FULL", "EXT_NO_MEMORY", "EXT_UNPLACED",  "EXT_UNSHOWN",       "EXT_UNJOINED",
                                        "EXT_CLAIMING",     "EXT_NO_CLAIM",  "EXT_NO_LANE",   "EXT_NO_CLOSER",     "EXT_NOT_EMPTY",
                                        "EXT_BAD_CONTEXT",  "EXT_BAD_KEY",   "EXT_BAD_LIMIT", "EXT_BAD_LENGTHS",   "EXT_BAD_TEXT",
                                        "EXT_BAD_ID",       "EXT_BAD_TREE",  "EXT_TOO_MANY",  "EXT_TOO_FEW_PLACES"};
    return code < sizeof names / sizeof *names ? names[code] : "no code of the store";
}

#ifdef __cplusplus
}
#endif

#endif
