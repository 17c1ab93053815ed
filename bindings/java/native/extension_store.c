/* The store's calls for Java: what class extensionstore.Native declares.

   A store is the address of its lanes. The last lane closes, and claims nothing: so a look-up finds a lane, whatever factories run. Every
   other call takes a lane that is free, from the caller's hint on. An answer is the code above 32 bits of a handle, a lane, a key, a
   context or a count.

   To the library every value is closeable, so that a close tells of all that stands; Java closes those that are resources. */
#include "../../c/ext_lanes.h"

#include <jni.h>
#include <sched.h>
#include <stdio.h>
#include <stdlib.h>
#include <string.h>

#define NATIVE(result, name) JNIEXPORT result JNICALL Java_extensionstore_Native_##name

/* After `leave` every slot is empty: all contexts are closed. */
static jlong says(ext_code code, uint64_t what) {
    if (code == EXT_NO_LANE) return (jlong)((uint64_t)EXT_CLOSED << 32);
    return (jlong)((uint64_t)code << 32 | (what & UINT32_MAX));
}

/* What a call on a place answers: the handle of what was met, or the context that decides. */
static jlong told(ext_code code, ext_value value) {
    return says(code, code == EXT_BUSY || code == EXT_CLOSED ? value.context : value.handle);
}

/* The same of a call that looks in the context itself and in no other. */
static jlong told_own(ext_code code, ext_value value, jint context) {
    value.context = (uint32_t)context;
    return told(code, value);
}

/* The lane at which a thread begins to look: the hint has 16 bits. */
static uint32_t first_lane(jint hint, uint32_t many) { return ((uint32_t)hint & 0xFFFF) * many >> 16; }

/* Tries so many lanes from the hint's on until one is free that has no claim; yields when it has tried all. Where all have claims the
   answer is EXT_CLAIMING. `lane` is the one that answered, and `code` what it answered. */
#define ON_A_FREE_LANE_OF(MANY, CALL)                                               \
    ext_lanes *lanes = (ext_lanes *)store;                                          \
    uint32_t many = MANY, first = first_lane(hint, many), lane = first;             \
    ext_code code = CALL;                                                           \
    for (uint32_t claiming = 0; code == EXT_LANE_IN_USE || code == EXT_CLAIMING;) { \
        claiming = code == EXT_CLAIMING ? claiming + 1 : 0;                         \
        if (claiming == many) break;                                                \
        lane = lane + 1 == many ? 0 : lane + 1;                                     \
        if (lane == first) sched_yield();                                           \
        code = CALL;                                                                \
    }

#define ON_A_FREE_LANE(CALL) ON_A_FREE_LANE_OF(lanes->count, CALL)

/* A call on the lane that has the caller's claim. Others may have it for the moment in which they see that it claims. */
#define ON_THE_LANE(CALL)                  \
    ext_lanes *lanes = (ext_lanes *)store; \
    ext_code code = CALL;                  \
    while (code == EXT_LANE_IN_USE) {      \
        sched_yield();                     \
        code = CALL;                       \
    }

/* Refuses to be loaded by a processor that is older than the code of ext_c, which is for x86-64-v2. */
JNIEXPORT jint JNICALL JNI_OnLoad(JavaVM *machine, void *unused) {
    (void)machine, (void)unused;
#ifdef __x86_64__
    if (!__builtin_cpu_supports("sse4.2") || !__builtin_cpu_supports("popcnt")) return JNI_ERR;
#endif
    return JNI_VERSION_10;
}

NATIVE(jint, version)(JNIEnv *env, jclass type) {
    (void)env, (void)type;
    return (jint)ext_version();
}

/* The store's address, or the code of the refusal with a minus. */
NATIVE(jlong, open)
(JNIEnv *env, jclass type, jbyteArray bytes, jintArray lengths, jint tries, jint numbers, jint keys, jboolean large, jint count) {
    (void)type;
    ext_lanes *lanes = aligned_alloc(_Alignof(ext_lanes), sizeof(ext_lanes));
    if (!lanes) return -EXT_NO_MEMORY;
    if (count < 2 || count > EXT_MOST_LANES) {
        free(lanes);
        return -EXT_BAD_LIMIT;
    }
    size_t byte_count = (size_t)(*env)->GetArrayLength(env, bytes), length_count = (size_t)(*env)->GetArrayLength(env, lengths);
    jbyte *text = (*env)->GetByteArrayElements(env, bytes, NULL);
    jint *each = (*env)->GetIntArrayElements(env, lengths, NULL);
    ext_limits limits = {.tries = (uint32_t)tries, .numbers = (uint32_t)numbers, .keys = (uint32_t)keys, .large = large};
    ext_code code = EXT_NO_MEMORY;
    if (text && each)
        code = ext_lanes_open(lanes, (const uint8_t *)text, byte_count, (const uint32_t *)each, length_count, &limits, (size_t)count);
    if (text) (*env)->ReleaseByteArrayElements(env, bytes, text, JNI_ABORT);
    if (each) (*env)->ReleaseIntArrayElements(env, lengths, each, JNI_ABORT);
    if (code == EXT_DONE) return (jlong)lanes;
    free(lanes);
    return -(jlong)code;
}

/* Frees what the library has of the store, all of whose contexts are closed. Calls may run, and come. */
NATIVE(void, leave)(JNIEnv *env, jclass type, jlong store) {
    (void)env, (void)type;
    uint32_t count = ((ext_lanes *)store)->count;
    for (uint32_t lane = 0; lane < count; lane++) {
        ON_THE_LANE(ext_lanes_leave(lanes, lane))
        (void)code;
    }
}

/* No other call on the store may run, or come. */
NATIVE(void, free)(JNIEnv *env, jclass type, jlong store) {
    Java_extensionstore_Native_leave(env, type, store);
    free((ext_lanes *)store);
}

/* The number of the key whose name is the number `name`, in the global namespace. */
NATIVE(jlong, key)(JNIEnv *env, jclass type, jlong store, jint hint, jint name) {
    (void)env, (void)type;
    char text[16];
    uint32_t length = (uint32_t)snprintf(text, sizeof text, "%d", name);
    size_t key = 0;
    ON_A_FREE_LANE(ext_lanes_key(lanes, lane, (const uint8_t *)text, length, &length, 1, &key))
    return says(code, key);
}

NATIVE(jlong, get)(JNIEnv *env, jclass type, jlong store, jint hint, jint context, jint key) {
    (void)env, (void)type;
    ext_value value = {0};
    ON_A_FREE_LANE(ext_lanes_get(lanes, lane, (uint32_t)context, (uint32_t)key, &value))
    return told(code, value);
}

/* Looks first whether a factory runs in the place itself, since a put that is refused loses its number. */
static ext_code put_after_a_look(ext_lanes *lanes, uint32_t lane, uint32_t context, uint32_t key, uint32_t handle, ext_value *stood) {
    ext_value seen = {0};
    ext_code code = ext_lanes_get(lanes, lane, context, key, &seen);
    if (code == EXT_LANE_IN_USE || code == EXT_CLAIMING || code == EXT_CONTENDED) return code;
    if (code == EXT_BUSY && seen.context == context) return code;
    return ext_lanes_put(lanes, lane, context, key, handle, true, stood);
}

/* EXT_ABSENT where nothing stood. */
NATIVE(jlong, put)(JNIEnv *env, jclass type, jlong store, jint hint, jint context, jint key, jint handle) {
    (void)env, (void)type;
    ext_value value = {0};
    ON_A_FREE_LANE(put_after_a_look(lanes, lane, (uint32_t)context, (uint32_t)key, (uint32_t)handle, &value))
    return told_own(code == EXT_DONE && value.number == 0 ? EXT_ABSENT : code, value, context);
}

NATIVE(jlong, remove)(JNIEnv *env, jclass type, jlong store, jint hint, jint context, jint key) {
    (void)env, (void)type;
    ext_value value = {0};
    ON_A_FREE_LANE(ext_lanes_remove(lanes, lane, (uint32_t)context, (uint32_t)key, &value))
    return told_own(code, value, context);
}

/* EXT_RUN: with the lane that has the claim, which is one of the first `within`. EXT_CLAIMING: those all have claims. */
NATIVE(jlong, begin)(JNIEnv *env, jclass type, jlong store, jint hint, jint within, jint context, jint key) {
    (void)env, (void)type;
    ext_value value = {0};
    ON_A_FREE_LANE_OF((uint32_t)within, ext_lanes_begin(lanes, lane, (uint32_t)context, (uint32_t)key, &value))
    return code == EXT_RUN ? says(code, lane) : told(code, value);
}

NATIVE(jlong, fill)(JNIEnv *env, jclass type, jlong store, jint lane, jint handle) {
    (void)env, (void)type;
    uint32_t number = 0;
    ON_THE_LANE(ext_lanes_fill(lanes, (uint32_t)lane, (uint32_t)handle, true, &number))
    return says(code, number);
}

NATIVE(jlong, abandon)(JNIEnv *env, jclass type, jlong store, jint lane) {
    (void)env, (void)type;
    ON_THE_LANE(ext_lanes_abandon(lanes, (uint32_t)lane))
    return says(code, 0);
}

/* Writes the handles of all that stands to the array, which has so many places as the store has for keys, the latest first; the answer has
   their count. */
NATIVE(jlong, close)(JNIEnv *env, jclass type, jlong store, jint context, jintArray handles) {
    (void)type;
    ext_value few[64] = {{0}}, *values = few;
    size_t places = (size_t)(*env)->GetArrayLength(env, handles), count = 0;
    if (places > 64 && !(values = calloc(places, sizeof *values))) return says(EXT_NO_MEMORY, 0);
    ON_THE_LANE(ext_lanes_close(lanes, (uint32_t)context, values, places, &count))
    for (size_t at = 0; at < count; at++) {
        jint handle = (jint)values[at].handle;
        (*env)->SetIntArrayRegion(env, handles, (jsize)at, 1, &handle);
    }
    if (values != few) free(values);
    return says(code, count);
}
