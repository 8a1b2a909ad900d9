/* The keys of the random tests: each number below 65,536 has one, of up to 63 bytes. So some lie in place in the map's own
 * keys and some do not, and one is the beginning of another. */
#ifndef KEYS_H
#define KEYS_H

#include <stddef.h>
#include <stdint.h>
#include <string.h>

enum { KEY_ROOM = 64 };

static inline size_t key_of(uint64_t number, uint8_t key[KEY_ROOM]) {
    size_t len = number == 0 ? 0 : 2 + number % 62;
    memset(key, 'k', KEY_ROOM);
    if (len) {
        key[0] = (uint8_t)(number >> 8);
        key[1] = (uint8_t)number;
    }
    return len;
}

/* The number of a key that `key_of` gave. */
static inline uint64_t number_of(const uint8_t *key, size_t len) { return len ? (uint64_t)key[0] << 8 | key[1] : 0; }

#endif
