/* Each call once, with what it returns and leaves by hand. */
#include "check.h"
#include "tambyulo.h"
#include <string.h>

#define TEXT(text) (const uint8_t *)(text), strlen(text)

static int is(tambyulo_answer answer, uint64_t status, uint64_t value) {
    return answer.status == status && answer.value == value;
}

static void numbers(void) {
    CHECK(tambyulo_size() <= sizeof(tambyulo_map));
    tambyulo_map map, other;
    tambyulo_init(&map);
    tambyulo_init(&other);
    CHECK(tambyulo_len(&map) == 0);
    CHECK(is(tambyulo_get(&map, TEXT("apple")), TAMBYULO_ABSENT, 0));
    CHECK(is(tambyulo_replace(&map, TEXT("apple"), 1), TAMBYULO_ABSENT, 0));
    CHECK(is(tambyulo_remove(&map, TEXT("apple")), TAMBYULO_ABSENT, 0));
    CHECK(is(tambyulo_remove_if(&map, TEXT("apple"), 0), TAMBYULO_ABSENT, 0));
    CHECK(is(tambyulo_put(&map, TEXT("apple"), 5), TAMBYULO_ABSENT, 0));
    CHECK(is(tambyulo_put(&map, TEXT("apple"), UINT64_MAX), TAMBYULO_FOUND, 5));
    CHECK(is(tambyulo_put_if_absent(&map, TEXT("apple"), 8), TAMBYULO_FOUND, UINT64_MAX));
    CHECK(is(tambyulo_put_if_absent(&map, TEXT("pear"), 7), TAMBYULO_ABSENT, 0));
    CHECK(is(tambyulo_replace(&map, TEXT("apple"), 6), TAMBYULO_FOUND, UINT64_MAX));
    CHECK(is(tambyulo_replace_if(&map, TEXT("apple"), 5, 9), TAMBYULO_ABSENT, 0));
    CHECK(is(tambyulo_replace_if(&map, TEXT("apple"), 6, 9), TAMBYULO_FOUND, 0));
    CHECK(is(tambyulo_get(&map, TEXT("apple")), TAMBYULO_FOUND, 9));
    CHECK(is(tambyulo_remove_if(&map, TEXT("apple"), 8), TAMBYULO_ABSENT, 0));
    CHECK(tambyulo_fork(&map, &other) == 0 && tambyulo_len(&other) == 2);
    CHECK(is(tambyulo_remove_if(&map, TEXT("apple"), 9), TAMBYULO_FOUND, 0));
    CHECK(is(tambyulo_remove(&map, TEXT("pear")), TAMBYULO_FOUND, 7));
    CHECK(tambyulo_len(&map) == 0 && is(tambyulo_get(&other, TEXT("apple")), TAMBYULO_FOUND, 9));
    /* a key of no bytes, and one with bytes of 0 */
    CHECK(is(tambyulo_put(&map, (const uint8_t *)"", 0, 1), TAMBYULO_ABSENT, 0));
    CHECK(is(tambyulo_put(&map, (const uint8_t *)"a\0b", 3, 2), TAMBYULO_ABSENT, 0));
    CHECK(is(tambyulo_get(&map, (const uint8_t *)"", 0), TAMBYULO_FOUND, 1));
    CHECK(is(tambyulo_get(&map, TEXT("a\0b")), TAMBYULO_ABSENT, 0));
    CHECK(tambyulo_count_prefix(&map, TEXT("a")) == 1 && tambyulo_count_prefix(&map, TEXT("")) == 2);
    CHECK(tambyulo_count_prefix(&other, TEXT("pe")) == 1 && tambyulo_count_prefix(&other, TEXT("pears")) == 0);
    CHECK(tambyulo_clear(&map) == 2 && tambyulo_len(&map) == 0 && tambyulo_clear(&map) == 0);
    tambyulo_drop(&map);
    tambyulo_drop(&other);
}

/* A map that is full refuses new keys alone. */
static void limits(void) {
    tambyulo_map map, fork;
    tambyulo_init(&map);
    tambyulo_init(&fork);
    CHECK(tambyulo_limit(&map, UINT64_MAX) == TAMBYULO_MOST_PAIRS);
    CHECK(tambyulo_limit(&map, 0) == 1);
    CHECK(is(tambyulo_put(&map, TEXT("one"), 1), TAMBYULO_ABSENT, 0));
    CHECK(is(tambyulo_put(&map, TEXT("two"), 2), TAMBYULO_FULL, 0));
    CHECK(is(tambyulo_put_if_absent(&map, TEXT("two"), 2), TAMBYULO_FULL, 0));
    CHECK(is(tambyulo_put_if_absent(&map, TEXT("one"), 2), TAMBYULO_FOUND, 1));
    CHECK(is(tambyulo_put(&map, TEXT("one"), 3), TAMBYULO_FOUND, 1));
    CHECK(is(tambyulo_replace(&map, TEXT("two"), 2), TAMBYULO_ABSENT, 0));
    CHECK(tambyulo_len(&map) == 1);
    CHECK(tambyulo_fork(&map, &fork) == 0 && is(tambyulo_put(&fork, TEXT("two"), 2), TAMBYULO_FULL, 0));
    CHECK(tambyulo_limit(&map, 2) == 2 && is(tambyulo_put(&map, TEXT("two"), 2), TAMBYULO_ABSENT, 0));
    CHECK(tambyulo_limit(&map, 1) == 2);
    /* the limit outlives the pairs */
    CHECK(tambyulo_clear(&map) == 2 && tambyulo_limit(&map, 1) == 1);
    CHECK(is(tambyulo_put(&map, TEXT("a"), 1), TAMBYULO_ABSENT, 0) && is(tambyulo_put(&map, TEXT("b"), 1), TAMBYULO_FULL, 0));
    tambyulo_drop(&map);
    tambyulo_drop(&fork);
}

static void texts(void) {
    CHECK(tambyulo_texts_size() <= sizeof(tambyulo_texts));
    tambyulo_texts map, fork;
    tambyulo_texts_init(&map);
    tambyulo_texts_init(&fork);
    uint8_t buffer[8];
    memset(buffer, '.', sizeof buffer);
    CHECK(is(tambyulo_texts_get(&map, TEXT("k"), buffer, sizeof buffer), TAMBYULO_ABSENT, 0));
    CHECK(is(tambyulo_texts_put(&map, TEXT("k"), TEXT("value")), TAMBYULO_ABSENT, 0));
    CHECK(is(tambyulo_texts_get(&map, TEXT("k"), buffer, 4), TAMBYULO_FOUND, 5) && !memcmp(buffer, "........", 8));
    CHECK(is(tambyulo_texts_get(&map, TEXT("k"), buffer, 0), TAMBYULO_FOUND, 5) && !memcmp(buffer, "........", 8));
    CHECK(is(tambyulo_texts_get(&map, TEXT("k"), buffer, 5), TAMBYULO_FOUND, 5) && !memcmp(buffer, "value...", 8));
    CHECK(is(tambyulo_texts_put_if_absent(&map, TEXT("k"), TEXT("x")), TAMBYULO_FOUND, 5));
    CHECK(is(tambyulo_texts_put_if_absent(&map, TEXT("l"), TEXT("")), TAMBYULO_ABSENT, 0));
    CHECK(is(tambyulo_texts_get(&map, TEXT("l"), buffer, sizeof buffer), TAMBYULO_FOUND, 0) && !memcmp(buffer, "value...", 8));
    CHECK(is(tambyulo_texts_replace(&map, TEXT("m"), TEXT("x")), TAMBYULO_ABSENT, 0));
    CHECK(is(tambyulo_texts_replace(&map, TEXT("k"), TEXT("other")), TAMBYULO_FOUND, 5));
    CHECK(is(tambyulo_texts_replace_if(&map, TEXT("k"), TEXT("value"), TEXT("x")), TAMBYULO_ABSENT, 0));
    CHECK(is(tambyulo_texts_replace_if(&map, TEXT("k"), TEXT("other"), TEXT("three")), TAMBYULO_FOUND, 0));
    CHECK(tambyulo_texts_fork(&map, &fork) == 0);
    CHECK(is(tambyulo_texts_remove_if(&map, TEXT("k"), TEXT("two")), TAMBYULO_ABSENT, 0));
    CHECK(is(tambyulo_texts_remove_if(&map, TEXT("k"), TEXT("three")), TAMBYULO_FOUND, 0));
    CHECK(is(tambyulo_texts_remove(&map, TEXT("l")), TAMBYULO_FOUND, 0) && tambyulo_texts_len(&map) == 0);
    CHECK(is(tambyulo_texts_get(&fork, TEXT("k"), buffer, sizeof buffer), TAMBYULO_FOUND, 5) && !memcmp(buffer, "three...", 8));
    CHECK(tambyulo_texts_count_prefix(&fork, TEXT("k")) == 1);
    CHECK(tambyulo_texts_limit(&map, 1) == 1 && is(tambyulo_texts_put(&map, TEXT("a"), TEXT("b")), TAMBYULO_ABSENT, 0));
    CHECK(is(tambyulo_texts_put(&map, TEXT("b"), TEXT("b")), TAMBYULO_FULL, 0));
    CHECK(is(tambyulo_texts_put_if_absent(&map, TEXT("b"), TEXT("b")), TAMBYULO_FULL, 0));
    CHECK(tambyulo_texts_clear(&map) == 1 && tambyulo_texts_len(&map) == 0);
    tambyulo_texts_drop(&map);
    tambyulo_texts_drop(&fork);
}

/* Pages at the borders of their room. */
static void pages(void) {
    tambyulo_map map;
    tambyulo_init(&map);
    uint8_t buffer[64];
    tambyulo_page page = tambyulo_page_from(&map, 0, buffer, sizeof buffer);
    CHECK(page.pairs == 0 && page.bytes == 0);
    CHECK(tambyulo_put(&map, TEXT("apple"), 258).status == TAMBYULO_ABSENT);
    page = tambyulo_page_from(&map, 0, buffer, 20);
    CHECK(page.pairs == 0 && page.bytes == 21);
    memset(buffer, '.', sizeof buffer);
    page = tambyulo_page_from(&map, 0, buffer, 21);
    CHECK(page.pairs == 1 && page.bytes == 21);
    CHECK(!memcmp(buffer, "\5\0\0\0\0\0\0\0\2\1\0\0\0\0\0\0apple.", 22));
    page = tambyulo_page_from(&map, 1, buffer, sizeof buffer);
    CHECK(page.pairs == 0 && page.bytes == 0);
    page = tambyulo_page_from(&map, UINT64_MAX, buffer, sizeof buffer);
    CHECK(page.pairs == 0 && page.bytes == 0);
    CHECK(tambyulo_put(&map, TEXT("pears"), 7).status == TAMBYULO_ABSENT);
    page = tambyulo_page_from(&map, 0, buffer, 41);
    CHECK(page.pairs == 1 && page.bytes == 21);
    page = tambyulo_page_from(&map, 0, buffer, 42);
    CHECK(page.pairs == 2 && page.bytes == 42);
    const uint8_t *at = buffer;
    for (int i = 0; i < 2; i++) {
        tambyulo_pair pair = tambyulo_next_pair(&at);
        CHECK(pair.key_len == 5 && pair.value == (memcmp(pair.key, "apple", 5) ? 7u : 258u));
    }
    CHECK(at == buffer + 42);
    tambyulo_drop(&map);
}

int main(void) {
    numbers();
    limits();
    texts();
    pages();
    puts("ok");
    return 0;
}
