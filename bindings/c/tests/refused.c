/* Each request for memory of a run refused in turn: the call that meets it says so, and the map is as before. It is linked
 * with -Wl,--wrap=malloc,--wrap=realloc, so that the library's requests come to the functions below. */
#include "check.h"
#include "keys.h"
#include "tambyulo.h"

enum { KEYS = 60 };

/* Which request is refused, counted down; below 0 none is. */
static long left = -1;

void *__real_malloc(size_t bytes);
void *__real_realloc(void *block, size_t bytes);
void *__wrap_malloc(size_t bytes);
void *__wrap_realloc(void *block, size_t bytes);

/* Whether this request is the one. */
static int is_refused(void) {
    if (left < 0) return 0;
    return left-- == 0;
}

void *__wrap_malloc(size_t bytes) { return is_refused() ? NULL : __real_malloc(bytes); }
void *__wrap_realloc(void *block, size_t bytes) { return is_refused() ? NULL : __real_realloc(block, bytes); }

/* How many pairs the map has, and a sum over them. */
typedef struct state {
    uint64_t len, sum;
} state;

static int same(state a, state b) { return a.len == b.len && a.sum == b.sum; }

static state state_of(tambyulo_map *map) {
    uint8_t key[KEY_ROOM];
    state found = {tambyulo_len(map), 0};
    for (uint64_t k = 0; k < KEYS; k++) {
        tambyulo_answer answer = tambyulo_get(map, key, key_of(k, key));
        if (answer.status == TAMBYULO_FOUND) found.sum += (k + 1) * (answer.value + 1);
    }
    return found;
}

static state text_state_of(tambyulo_texts *map) {
    uint8_t key[KEY_ROOM], text[KEY_ROOM];
    state found = {tambyulo_texts_len(map), 0};
    for (uint64_t k = 0; k < KEYS; k++) {
        tambyulo_answer answer = tambyulo_texts_get(map, key, key_of(k, key), text, sizeof text);
        if (answer.status == TAMBYULO_FOUND)
            for (uint64_t i = 0; i < answer.value; i++) found.sum += (k + 1) * (i + 1) * (text[i] + 1u);
    }
    return found;
}

/* One of the calls that may request memory, by a number, at a key by a number. */
static tambyulo_answer call_number(tambyulo_map *map, uint64_t which, uint64_t k) {
    uint8_t key[KEY_ROOM];
    size_t len = key_of(k, key);
    switch (which % 6) {
    case 0: return tambyulo_put(map, key, len, k);
    case 1: return tambyulo_put_if_absent(map, key, len, k + 1);
    case 2: return tambyulo_replace(map, key, len, k + 2);
    case 3: return tambyulo_replace_if(map, key, len, k, k + 3);
    case 4: return tambyulo_remove_if(map, key, len, k + 3);
    default: return tambyulo_remove(map, key, len);
    }
}

static tambyulo_answer call_text(tambyulo_texts *map, uint64_t which, uint64_t k) {
    uint8_t key[KEY_ROOM], one[KEY_ROOM], two[KEY_ROOM];
    size_t len = key_of(k, key), one_len = key_of(k + 7, one), two_len = key_of(k + 31, two);
    switch (which % 6) {
    case 0: return tambyulo_texts_put(map, key, len, one, one_len);
    case 1: return tambyulo_texts_put_if_absent(map, key, len, two, two_len);
    case 2: return tambyulo_texts_replace(map, key, len, two, two_len);
    case 3: return tambyulo_texts_replace_if(map, key, len, two, two_len, one, one_len);
    case 4: return tambyulo_texts_remove_if(map, key, len, two, two_len);
    default: return tambyulo_texts_remove(map, key, len);
    }
}

/* The calls of a run: puts of all keys first, then each of the six kinds in turn. */
enum { CALLS = 3 * KEYS };

static uint64_t kind(uint64_t call) { return call < KEYS ? 0 : call; }

static uint64_t place(uint64_t call) { return call < KEYS ? call : call * 7 % KEYS; }

/* A run of which the request of this number is refused: how many calls said so, and whether there were so many requests. */
static int run_numbers(long refused, int *over) {
    tambyulo_map map, fork;
    tambyulo_init(&map);
    tambyulo_init(&fork);
    int said = 0;
    state kept = {0, 0};
    for (uint64_t call = 0; call < CALLS; call++) {
        /* a fork halfway, so that later writes copy what both have */
        if (call == CALLS / 2) {
            CHECK(tambyulo_fork(&map, &fork) == 0);
            kept = state_of(&fork);
        }
        state before = state_of(&map);
        if (call == 0) left = refused;
        tambyulo_answer answer = call_number(&map, kind(call), place(call));
        CHECK(answer.status != TAMBYULO_FULL);
        if (answer.status == TAMBYULO_NO_MEMORY) {
            said++;
            CHECK(answer.value == 0 && same(state_of(&map), before));
        }
    }
    *over = left >= 0;
    left = -1;
    CHECK(same(state_of(&fork), kept));
    tambyulo_drop(&map);
    tambyulo_drop(&fork);
    return said;
}

static int run_texts(long refused, int *over) {
    tambyulo_texts map, fork;
    tambyulo_texts_init(&map);
    tambyulo_texts_init(&fork);
    int said = 0;
    state kept = {0, 0};
    for (uint64_t call = 0; call < CALLS; call++) {
        if (call == CALLS / 2) {
            CHECK(tambyulo_texts_fork(&map, &fork) == 0);
            kept = text_state_of(&fork);
        }
        state before = text_state_of(&map);
        if (call == 0) left = refused;
        tambyulo_answer answer = call_text(&map, kind(call), place(call));
        CHECK(answer.status != TAMBYULO_FULL);
        if (answer.status == TAMBYULO_NO_MEMORY) {
            said++;
            CHECK(answer.value == 0 && same(text_state_of(&map), before));
        }
    }
    *over = left >= 0;
    left = -1;
    CHECK(same(text_state_of(&fork), kept));
    tambyulo_texts_drop(&map);
    tambyulo_texts_drop(&fork);
    return said;
}

/* A new key of a full map is refused as such, also where no memory is left. */
static void full_without_memory(void) {
    uint8_t key[KEY_ROOM], other[KEY_ROOM];
    size_t len = key_of(61, key), other_len = key_of(60, other);
    tambyulo_map map;
    tambyulo_texts texts;
    tambyulo_init(&map);
    tambyulo_texts_init(&texts);
    CHECK(tambyulo_limit(&map, 1) == 1 && tambyulo_texts_limit(&texts, 1) == 1);
    CHECK(tambyulo_put(&map, key, len, 1).status == TAMBYULO_ABSENT);
    CHECK(tambyulo_texts_put(&texts, key, len, key, len).status == TAMBYULO_ABSENT);
    for (int is_absent = 0; is_absent < 2; is_absent++) {
        left = 0;
        tambyulo_answer answer = is_absent ? tambyulo_put_if_absent(&map, other, other_len, 2) : tambyulo_put(&map, other, other_len, 2);
        CHECK(answer.status == TAMBYULO_FULL);
        answer = is_absent ? tambyulo_texts_put_if_absent(&texts, other, other_len, key, len)
                           : tambyulo_texts_put(&texts, other, other_len, key, len);
        CHECK(answer.status == TAMBYULO_FULL);
        /* and one that is there needs memory, of which there is none */
        CHECK(left == 0 && tambyulo_put(&map, key, len, 2).status == TAMBYULO_NO_MEMORY);
        left = 0;
        CHECK(tambyulo_texts_put(&texts, key, len, other, other_len).status == TAMBYULO_NO_MEMORY);
        left = -1;
    }
    tambyulo_drop(&map);
    tambyulo_texts_drop(&texts);
}

int main(void) {
    full_without_memory();
    long requests[2] = {0, 0};
    int (*runs[2])(long, int *) = {run_numbers, run_texts};
    for (int i = 0; i < 2; i++) {
        for (int over = 0; !over; requests[i]++) {
            int said = runs[i](requests[i], &over);
            /* one call meets the refusal, and says so */
            CHECK(said == !over);
        }
    }
    printf("ok: %ld requests of a map of numbers and %ld of one of texts, each refused in turn\n", requests[0] - 1, requests[1] - 1);
    return 0;
}
