/* Opens and keys by strings that end with a 0. Not of the library and not proved: a few lines round its calls. Each takes memory for a copy, and
   frees it. */
#ifndef EXT_STRINGS_H
#define EXT_STRINGS_H

#include "ext_store.h"

#include <stdlib.h>
#include <string.h>

/* The strings one behind the other, behind the length of each: `count` lengths and then *byte_count bytes. The caller frees it. NULL where there is
   no memory, or where a string has 4 GiB or more. */
static inline uint32_t *ext_strings_joined(const char *const *strings, size_t count, size_t *byte_count) {
    size_t total = 0;
    for (size_t at = 0; at < count; at++) {
        if (strlen(strings[at]) > UINT32_MAX) return NULL;
        total += strlen(strings[at]);
    }
    uint32_t *lengths = (uint32_t *)malloc(count * sizeof(uint32_t) + total + 1);
    if (!lengths) return NULL;
    uint8_t *bytes = (uint8_t *)(lengths + count);
    for (size_t at = 0; at < count; at++) {
        lengths[at] = (uint32_t)strlen(strings[at]);
        memcpy(bytes, strings[at], lengths[at]);
        bytes += lengths[at];
    }
    *byte_count = total;
    return lengths;
}

/* ext_open, of so many ids. EXT_NO_MEMORY also where one has 4 GiB or more. */
EXT_TO_BE_READ
static inline ext_code ext_open_strings(const char *const *ids, size_t count, const ext_limits *limits, ext_slot *slots, size_t lanes) {
    size_t byte_count = 0;
    uint32_t *lengths = ext_strings_joined(ids, count, &byte_count);
    if (!lengths) return EXT_NO_MEMORY;
    ext_code code = ext_open((const uint8_t *)(lengths + count), byte_count, lengths, count, limits, slots, lanes);
    free(lengths);
    return code;
}

/* ext_key, of so many strings: the parts of the namespace, and then the name. EXT_NO_MEMORY also where one has 4 GiB or more. */
EXT_TO_BE_READ
static inline ext_code ext_key_strings(ext_slot *slot, const char *const *strings, size_t count, size_t *key) {
    size_t byte_count = 0;
    uint32_t *lengths = ext_strings_joined(strings, count, &byte_count);
    if (!lengths) return EXT_NO_MEMORY;
    ext_code code = ext_key(slot, (const uint8_t *)(lengths + count), byte_count, lengths, count, key);
    free(lengths);
    return code;
}

#endif
