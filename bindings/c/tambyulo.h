/* One map of one owner, with snapshots that cost one call, whatever the number of pairs.
 *
 * Keys are texts of any bytes. A `tambyulo_map` has numbers of 64 bits as values, and a `tambyulo_texts` texts of any bytes.
 * The two have the same calls, under the names `tambyulo_..` and `tambyulo_texts_..`.
 *
 * What a caller owes, which nothing checks:
 *
 * - A map lies in memory of yours. `tambyulo_init` makes one there, and `tambyulo_drop` ends it; every other call is made
 *   between these two. You never look into the memory, and never copy or move it; a second map is made by `tambyulo_fork`.
 * - No pointer is NULL, also where no bytes lie behind it, and a text or a buffer has as many bytes as its length says. It
 *   does not overlap the memory of a map, nor does a buffer overlap a text of the same call.
 * - A map is in one call at a time, and so is each of the two maps of a fork. Any thread may make the call, if something
 *   orders it behind the one before: a lock, the start or the join of a thread, or a sequentially consistent atomic. Two maps
 *   are in two calls at once as they please, also where one is a fork of the other: so a snapshot is read while its source is
 *   written, without a lock.
 * - No call is made from a signal handler, nor in the forked child of a process that has threads.
 *
 * What a call costs: a put, a get or a removal takes a look at some five nodes. A fork takes a handle on one node; the first
 * write at a key after it copies the nodes on the way to that key, which takes as long as some sixteen puts. `tambyulo_drop`
 * and `tambyulo_clear` free the nodes that no other map shares.
 *
 * Where memory is refused, the call returns TAMBYULO_NO_MEMORY and the map is as before. Nothing here ends the process.
 */
#ifndef TAMBYULO_H
#define TAMBYULO_H

#include <stddef.h>
#include <stdint.h>

#ifdef __cplusplus
extern "C" {
#endif

/* The memory of a map: `tambyulo_size()` bytes or more, aligned to 8. */
typedef struct tambyulo_map {
    uint64_t opaque[16];
} tambyulo_map;

/* The memory of a map of texts: `tambyulo_texts_size()` bytes or more, aligned to 8. */
typedef struct tambyulo_texts {
    uint64_t opaque[16];
} tambyulo_texts;

/* How a call ended. */
enum {
    /* The key has no value, or had none; or a condition did not hold. */
    TAMBYULO_ABSENT = 0,
    /* The key has a value, or had one; or the condition held. */
    TAMBYULO_FOUND = 1,
    /* The key is new, and the map has as many pairs as it may. It is as before. */
    TAMBYULO_FULL = 2,
    /* Memory was refused. The map is as before. */
    TAMBYULO_NO_MEMORY = 3
};

/* How many pairs a map may have at most. */
#define TAMBYULO_MOST_PAIRS UINT64_C(16777216)

/* What a call returns. `value` is 0 where there is nothing to show. */
typedef struct tambyulo_answer {
    /* One of the four above. */
    uint64_t status;
    /* The value that the key has, or had; of a text, how many bytes it has. */
    uint64_t value;
} tambyulo_answer;

/* Which pairs a page has. */
typedef struct tambyulo_page {
    /* How many pairs. */
    uint64_t pairs;
    /* How many bytes they take. Where there is no pair: how many the next one takes, or 0 where there is no next one. */
    uint64_t bytes;
} tambyulo_page;

/* --- A map from texts to numbers. -------------------------------------------------------------------------------------- */

/* How many bytes a map takes. They are no more than a `tambyulo_map` has. */
size_t tambyulo_size(void);

/* Makes a map with no pairs, which may have TAMBYULO_MOST_PAIRS. It requests no memory, and never fails. */
void tambyulo_init(tambyulo_map *map);

/* Ends the map, and frees what no other map shares. The memory is yours again; to end a map twice is an error of yours. */
void tambyulo_drop(tambyulo_map *map);

/* How many pairs there are. It takes no walk. */
uint64_t tambyulo_len(tambyulo_map *map);

/* Limits the map to `most` pairs, and returns the limit that it has then: no fewer than its pairs and than 1, and no more than
 * TAMBYULO_MOST_PAIRS. */
uint64_t tambyulo_limit(tambyulo_map *map, uint64_t most);

/* The value of the key: ABSENT or FOUND. It requests no memory. */
tambyulo_answer tambyulo_get(tambyulo_map *map, const uint8_t *key, size_t key_len);

/* Maps the key to the value. The answer has the value before: ABSENT, FOUND, FULL or NO_MEMORY. */
tambyulo_answer tambyulo_put(tambyulo_map *map, const uint8_t *key, size_t key_len, uint64_t value);

/* Maps the key to the value where it has none. The answer has the value before: ABSENT, FOUND, FULL or NO_MEMORY. */
tambyulo_answer tambyulo_put_if_absent(tambyulo_map *map, const uint8_t *key, size_t key_len, uint64_t value);

/* Maps the key to the value where it has one. The answer has the value before: ABSENT, FOUND or NO_MEMORY. */
tambyulo_answer tambyulo_replace(tambyulo_map *map, const uint8_t *key, size_t key_len, uint64_t value);

/* Maps the key to the value where it has the value `old`: FOUND where it had, ABSENT where it had not, or NO_MEMORY. */
tambyulo_answer tambyulo_replace_if(tambyulo_map *map, const uint8_t *key, size_t key_len, uint64_t old, uint64_t value);

/* Removes the key. The answer has the value before: ABSENT, FOUND or NO_MEMORY. Memory is requested where a node on the way
 * is shared with a fork. */
tambyulo_answer tambyulo_remove(tambyulo_map *map, const uint8_t *key, size_t key_len);

/* Removes the key where it has the value: FOUND where it had, ABSENT where it had not, or NO_MEMORY. */
tambyulo_answer tambyulo_remove_if(tambyulo_map *map, const uint8_t *key, size_t key_len, uint64_t value);

/* Removes all pairs, and returns how many there were. It requests no memory, and never fails. The limit stays. */
uint64_t tambyulo_clear(tambyulo_map *map);

/* Gives the target the pairs and the limit of the source, in place of its own, which are dropped: a snapshot. 0, or
 * TAMBYULO_NO_MEMORY with the target as it was. It requests no memory, but a count of handles may be at its end. The two are
 * never one map. */
uint64_t tambyulo_fork(tambyulo_map *source, tambyulo_map *target);

/* Writes pairs to the front of the buffer, from the pair of the number `from` on, counted from 0: as many whole ones as there
 * is room for. What lies behind them stays. It requests no memory.
 *
 * So a walk begins at 0, and goes on at `from + pairs`. Where a page has no pair, `bytes` is how large a buffer has to be for
 * the next one; where that is 0 the walk is over. Between the pages of one walk the map is not written: to write it
 * meanwhile, walk a fork. A page costs the look at some ten nodes beside its pairs, wherever it begins.
 *
 * The order is the same for maps with the same pairs, and is no order of the keys. `tambyulo_next_pair` reads the buffer. */
tambyulo_page tambyulo_page_from(tambyulo_map *map, uint64_t from, uint8_t *buffer, size_t room);

/* How many keys begin with these bytes. It walks over all pairs, and requests no memory. */
uint64_t tambyulo_count_prefix(tambyulo_map *map, const uint8_t *prefix, size_t prefix_len);

/* --- A map from texts to texts: the same calls. -------------------------------------------------------------------------- */

/* As tambyulo_size. */
size_t tambyulo_texts_size(void);

/* As tambyulo_init. */
void tambyulo_texts_init(tambyulo_texts *map);

/* As tambyulo_drop. */
void tambyulo_texts_drop(tambyulo_texts *map);

/* As tambyulo_len. */
uint64_t tambyulo_texts_len(tambyulo_texts *map);

/* As tambyulo_limit. */
uint64_t tambyulo_texts_limit(tambyulo_texts *map, uint64_t most);

/* The value of the key: ABSENT, or FOUND and how many bytes it has. They are copied to the front of the buffer where they have
 * room there; else the buffer stays as it is. It requests no memory. */
tambyulo_answer tambyulo_texts_get(tambyulo_texts *map, const uint8_t *key, size_t key_len, uint8_t *buffer, size_t room);

/* As tambyulo_put. The answer has the length of the value before; who wants the value itself gets it first. */
tambyulo_answer tambyulo_texts_put(tambyulo_texts *map, const uint8_t *key, size_t key_len, const uint8_t *value, size_t value_len);

/* As tambyulo_put_if_absent, and the answer has the length of the value before. */
tambyulo_answer tambyulo_texts_put_if_absent(tambyulo_texts *map, const uint8_t *key, size_t key_len, const uint8_t *value,
                                             size_t value_len);

/* As tambyulo_replace, and the answer has the length of the value before. */
tambyulo_answer tambyulo_texts_replace(tambyulo_texts *map, const uint8_t *key, size_t key_len, const uint8_t *value,
                                       size_t value_len);

/* As tambyulo_replace_if. */
tambyulo_answer tambyulo_texts_replace_if(tambyulo_texts *map, const uint8_t *key, size_t key_len, const uint8_t *old,
                                          size_t old_len, const uint8_t *value, size_t value_len);

/* As tambyulo_remove, and the answer has the length of the value before. */
tambyulo_answer tambyulo_texts_remove(tambyulo_texts *map, const uint8_t *key, size_t key_len);

/* As tambyulo_remove_if. */
tambyulo_answer tambyulo_texts_remove_if(tambyulo_texts *map, const uint8_t *key, size_t key_len, const uint8_t *value,
                                         size_t value_len);

/* As tambyulo_clear. */
uint64_t tambyulo_texts_clear(tambyulo_texts *map);

/* As tambyulo_fork. */
uint64_t tambyulo_texts_fork(tambyulo_texts *source, tambyulo_texts *target);

/* As tambyulo_page_from; `tambyulo_next_text` reads the buffer. */
tambyulo_page tambyulo_texts_page_from(tambyulo_texts *map, uint64_t from, uint8_t *buffer, size_t room);

/* As tambyulo_count_prefix. */
uint64_t tambyulo_texts_count_prefix(tambyulo_texts *map, const uint8_t *prefix, size_t prefix_len);

/* --- Pages. ------------------------------------------------------------------------------------------------------------- */

/* A page has its pairs one after another, and each begins with two numbers of 64 bits, lowest byte first: how many bytes the
 * key has, and the value, or of a text how many bytes that has. Then come the key's bytes, and those of a text. No pair is
 * aligned. */

/* A pair of a page. The pointers go into the page. */
typedef struct tambyulo_pair {
    const uint8_t *key;
    size_t key_len;
    /* The value, or of a text how many bytes it has. */
    uint64_t value;
    /* Where these bytes are, of a text. */
    const uint8_t *text;
} tambyulo_pair;

/* The number in these eight bytes, lowest byte first. */
static inline uint64_t tambyulo_number(const uint8_t *at) {
    uint64_t number = 0;
    for (int byte = 7; byte >= 0; byte--) number = number << 8 | at[byte];
    return number;
}

/* The pair at the place, which is moved behind it. It is called as often as the page has pairs. */
static inline tambyulo_pair tambyulo_next_pair(const uint8_t **at) {
    tambyulo_pair pair;
    pair.key_len = (size_t)tambyulo_number(*at);
    pair.value = tambyulo_number(*at + 8);
    pair.key = *at + 16;
    pair.text = pair.key + pair.key_len;
    *at = pair.text;
    return pair;
}

/* The same for a map of texts. */
static inline tambyulo_pair tambyulo_next_text(const uint8_t **at) {
    tambyulo_pair pair = tambyulo_next_pair(at);
    *at += pair.value;
    return pair;
}

#ifdef __cplusplus
}
#endif
#endif
