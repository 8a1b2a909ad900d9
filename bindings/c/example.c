/* Stock of a shop: a map from names to counts, and the state of the evening before, which costs one call to keep. */
#include "tambyulo.h"
#include <inttypes.h>
#include <stdio.h>
#include <string.h>

/* C's texts as the bytes that a key is. */
static const uint8_t *bytes(const char *text) { return (const uint8_t *)text; }

static void put(tambyulo_map *map, const char *name, uint64_t count) {
    tambyulo_answer answer = tambyulo_put(map, bytes(name), strlen(name), count);
    if (answer.status == TAMBYULO_NO_MEMORY || answer.status == TAMBYULO_FULL) fprintf(stderr, "%s was not put\n", name);
}

static void show(const char *title, tambyulo_map *map) {
    uint8_t buffer[4096];
    printf("%s: %" PRIu64 " names\n", title, tambyulo_len(map));
    for (uint64_t from = 0;;) {
        tambyulo_page page = tambyulo_page_from(map, from, buffer, sizeof buffer);
        /* a key of more than the buffer's bytes ends this walk too */
        if (page.pairs == 0) break;
        const uint8_t *at = buffer;
        for (uint64_t i = 0; i < page.pairs; i++) {
            tambyulo_pair pair = tambyulo_next_pair(&at);
            printf("  %.*s %" PRIu64 "\n", (int)pair.key_len, (const char *)pair.key, pair.value);
        }
        from += page.pairs;
    }
}

int main(void) {
    tambyulo_map stock, evening;
    tambyulo_init(&stock);
    tambyulo_init(&evening);

    put(&stock, "apple", 5);
    put(&stock, "apricot", 2);
    put(&stock, "pear", 7);
    if (tambyulo_fork(&stock, &evening) != 0) {
        fprintf(stderr, "out of memory\n");
        return 1;
    }

    put(&stock, "apple", 6);
    tambyulo_remove(&stock, bytes("pear"), 4);
    tambyulo_answer apple = tambyulo_get(&stock, bytes("apple"), 5);
    printf("apple: %" PRIu64 " now\n", apple.value);
    printf("ap..: %" PRIu64 " names\n", tambyulo_count_prefix(&stock, bytes("ap"), 2));
    show("now", &stock);
    show("the evening before", &evening);

    tambyulo_drop(&stock);
    tambyulo_drop(&evening);
    return 0;
}
