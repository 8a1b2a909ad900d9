/* Random calls beside a plain model: random CALLS SEED. Half of them are made on a map of numbers, half on one of texts, with
 * some forks of each that are kept beside what the model was. */
#include "check.h"
#include "keys.h"
#include "tambyulo.h"

enum { KEYS = 700, KEPT = 4, TEXT_ROOM = 64 };

/* What a map is to have: of each key whether it is there, and its value. The text of a value is `text_of` it. */
typedef struct model {
    uint8_t there[KEYS];
    uint64_t value[KEYS];
    uint64_t len;
} model;

static size_t text_of(uint64_t value, uint8_t text[TEXT_ROOM]) {
    size_t len = (size_t)(value % TEXT_ROOM);
    for (size_t i = 0; i < len; i++) text[i] = (uint8_t)(value >> i % 8 * 8);
    return len;
}

static int same_text(uint64_t a, uint64_t b) {
    uint8_t one[TEXT_ROOM], two[TEXT_ROOM];
    size_t len = text_of(a, one);
    return len == text_of(b, two) && !memcmp(one, two, len);
}

static void set(model *m, uint64_t key, uint64_t value) {
    m->len += !m->there[key];
    m->there[key] = 1;
    m->value[key] = value;
}

static void unset(model *m, uint64_t key) {
    m->len -= m->there[key];
    m->there[key] = 0;
}

/* --- A map of numbers. --- */

static void check_number(tambyulo_answer answer, const model *m, uint64_t key) {
    CHECK(answer.status == m->there[key] && answer.value == (m->there[key] ? m->value[key] : 0));
}

/* All pages of the map have the pairs of the model, each once. */
static void check_pages(tambyulo_map *map, const model *m, size_t room) {
    static uint8_t buffer[4096];
    uint8_t seen[KEYS] = {0};
    uint64_t from = 0;
    for (;;) {
        tambyulo_page page = tambyulo_page_from(map, from, buffer, room);
        if (page.pairs == 0 && page.bytes > room) {
            room = page.bytes;
            continue;
        }
        if (page.pairs == 0) break;
        const uint8_t *at = buffer;
        for (uint64_t i = 0; i < page.pairs; i++) {
            tambyulo_pair pair = tambyulo_next_pair(&at);
            uint64_t key = number_of(pair.key, pair.key_len);
            CHECK(key < KEYS && m->there[key] && !seen[key] && m->value[key] == pair.value);
            seen[key] = 1;
        }
        CHECK(at == buffer + page.bytes && page.bytes <= room);
        from += page.pairs;
    }
    CHECK(from == m->len && tambyulo_len(map) == m->len);
}

static void check_all(tambyulo_map *map, const model *m) {
    uint8_t key[KEY_ROOM];
    CHECK(tambyulo_len(map) == m->len);
    for (uint64_t k = 0; k < KEYS; k++) check_number(tambyulo_get(map, key, key_of(k, key)), m, k);
}

static void call_number(tambyulo_map *map, model *m, uint64_t *state) {
    uint8_t key[KEY_ROOM];
    uint64_t k = random_number(state) % KEYS, value = random_number(state) % 5, was = random_number(state) % 5;
    size_t len = key_of(k, key);
    int equal = m->there[k] && m->value[k] == was;
    tambyulo_answer answer;
    switch (random_number(state) % 8) {
    case 0:
        check_number(tambyulo_get(map, key, len), m, k);
        break;
    case 1:
    case 2:
        check_number(tambyulo_put(map, key, len, value), m, k);
        set(m, k, value);
        break;
    case 3:
        check_number(tambyulo_put_if_absent(map, key, len, value), m, k);
        if (!m->there[k]) set(m, k, value);
        break;
    case 4:
        check_number(tambyulo_replace(map, key, len, value), m, k);
        if (m->there[k]) set(m, k, value);
        break;
    case 5:
        answer = tambyulo_replace_if(map, key, len, was, value);
        CHECK(answer.status == (uint64_t)equal && answer.value == 0);
        if (equal) set(m, k, value);
        break;
    case 6:
        check_number(tambyulo_remove(map, key, len), m, k);
        unset(m, k);
        break;
    default:
        answer = tambyulo_remove_if(map, key, len, was);
        CHECK(answer.status == (uint64_t)equal && answer.value == 0);
        if (equal) unset(m, k);
    }
    CHECK(tambyulo_len(map) == m->len);
}

static void numbers(uint64_t calls, uint64_t seed) {
    static model m, kept_models[KEPT];
    tambyulo_map map, kept[KEPT];
    tambyulo_init(&map);
    for (int i = 0; i < KEPT; i++) tambyulo_init(&kept[i]);
    uint64_t state = seed;
    for (uint64_t call = 0; call < calls; call++) {
        call_number(&map, &m, &state);
        if (call % 1000 == 0) {
            uint64_t i = random_number(&state) % KEPT;
            check_all(&kept[i], &kept_models[i]);
            check_pages(&kept[i], &kept_models[i], 16 + random_number(&state) % 1000);
            CHECK(tambyulo_fork(&map, &kept[i]) == 0);
            kept_models[i] = m;
        }
        if (call % 10000 == 5000) {
            /* and back: the map goes on from an older state of itself */
            uint64_t i = random_number(&state) % KEPT;
            CHECK(tambyulo_fork(&kept[i], &map) == 0);
            m = kept_models[i];
        }
        if (call % 100000 == 50000) {
            CHECK(tambyulo_clear(&map) == m.len);
            memset(&m, 0, sizeof m);
        }
    }
    check_all(&map, &m);
    check_pages(&map, &m, 100);
    for (int i = 0; i < KEPT; i++) check_all(&kept[i], &kept_models[i]);
    tambyulo_drop(&map);
    for (int i = 0; i < KEPT; i++) tambyulo_drop(&kept[i]);
}

/* --- A map of texts. --- */

static void check_length(tambyulo_answer answer, const model *m, uint64_t key) {
    uint8_t text[TEXT_ROOM];
    CHECK(answer.status == m->there[key] && answer.value == (m->there[key] ? text_of(m->value[key], text) : 0));
}

static void check_text(tambyulo_texts *map, const model *m, uint64_t k) {
    uint8_t key[KEY_ROOM], text[TEXT_ROOM], buffer[TEXT_ROOM];
    tambyulo_answer answer = tambyulo_texts_get(map, key, key_of(k, key), buffer, sizeof buffer);
    check_length(answer, m, k);
    if (m->there[k]) CHECK(!memcmp(buffer, text, text_of(m->value[k], text)));
}

static void check_text_pages(tambyulo_texts *map, const model *m, size_t room) {
    static uint8_t buffer[4096];
    uint8_t text[TEXT_ROOM];
    uint64_t from = 0;
    for (;;) {
        tambyulo_page page = tambyulo_texts_page_from(map, from, buffer, room);
        if (page.pairs == 0 && page.bytes > room) {
            room = page.bytes;
            continue;
        }
        if (page.pairs == 0) break;
        const uint8_t *at = buffer;
        for (uint64_t i = 0; i < page.pairs; i++) {
            tambyulo_pair pair = tambyulo_next_text(&at);
            uint64_t key = number_of(pair.key, pair.key_len);
            CHECK(key < KEYS && m->there[key]);
            CHECK(pair.value == text_of(m->value[key], text) && !memcmp(pair.text, text, pair.value));
        }
        CHECK(at == buffer + page.bytes && page.bytes <= room);
        from += page.pairs;
    }
    CHECK(from == m->len);
}

static void call_text(tambyulo_texts *map, model *m, uint64_t *state) {
    uint8_t key[KEY_ROOM], text[TEXT_ROOM], old[TEXT_ROOM];
    uint64_t k = random_number(state) % KEYS, value = random_number(state) % 80, was = random_number(state) % 80;
    size_t len = key_of(k, key), text_len = text_of(value, text), old_len = text_of(was, old);
    int equal = m->there[k] && same_text(m->value[k], was);
    tambyulo_answer answer;
    switch (random_number(state) % 8) {
    case 0:
        check_text(map, m, k);
        break;
    case 1:
    case 2:
        check_length(tambyulo_texts_put(map, key, len, text, text_len), m, k);
        set(m, k, value);
        break;
    case 3:
        check_length(tambyulo_texts_put_if_absent(map, key, len, text, text_len), m, k);
        if (!m->there[k]) set(m, k, value);
        break;
    case 4:
        check_length(tambyulo_texts_replace(map, key, len, text, text_len), m, k);
        if (m->there[k]) set(m, k, value);
        break;
    case 5:
        answer = tambyulo_texts_replace_if(map, key, len, old, old_len, text, text_len);
        CHECK(answer.status == (uint64_t)equal && answer.value == 0);
        if (equal) set(m, k, value);
        break;
    case 6:
        check_length(tambyulo_texts_remove(map, key, len), m, k);
        unset(m, k);
        break;
    default:
        answer = tambyulo_texts_remove_if(map, key, len, old, old_len);
        CHECK(answer.status == (uint64_t)equal && answer.value == 0);
        if (equal) unset(m, k);
    }
    CHECK(tambyulo_texts_len(map) == m->len);
}

static void texts(uint64_t calls, uint64_t seed) {
    static model m, kept_model;
    tambyulo_texts map, kept;
    tambyulo_texts_init(&map);
    tambyulo_texts_init(&kept);
    uint64_t state = seed;
    for (uint64_t call = 0; call < calls; call++) {
        call_text(&map, &m, &state);
        if (call % 1000 == 0) {
            for (uint64_t k = 0; k < KEYS; k++) check_text(&kept, &kept_model, k);
            check_text_pages(&kept, &kept_model, 16 + random_number(&state) % 1000);
            CHECK(tambyulo_texts_fork(&map, &kept) == 0);
            kept_model = m;
        }
    }
    for (uint64_t k = 0; k < KEYS; k++) check_text(&map, &m, k);
    check_text_pages(&map, &m, 100);
    tambyulo_texts_drop(&map);
    tambyulo_texts_drop(&kept);
}

int main(int count, char **words) {
    if (count != 3) {
        fprintf(stderr, "usage: %s CALLS SEED\n", words[0]);
        return 2;
    }
    uint64_t calls = strtoull(words[1], NULL, 10), seed = strtoull(words[2], NULL, 10) | 1;
    numbers(calls - calls / 2, seed);
    texts(calls / 2, seed + 2);
    puts("ok");
    return 0;
}
