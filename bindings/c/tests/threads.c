/* Snapshots that threads read, and forks that threads write, while their source is written. */
#include "check.h"
#include "tambyulo.h"
#include <pthread.h>

enum { KEYS = 20000, ROUNDS = 5, READERS = 3 };

#define KEY(number) (const uint8_t *)&(number), sizeof(number)

/* Reads a snapshot, in which the value of each key is the key. */
static void *read_all(void *argument) {
    tambyulo_map *map = argument;
    for (int round = 0; round < ROUNDS; round++)
        for (uint64_t i = 0; i < KEYS; i++) {
            tambyulo_answer answer = tambyulo_get(map, KEY(i));
            CHECK(answer.status == TAMBYULO_FOUND && answer.value == i);
        }
    CHECK(tambyulo_len(map) == KEYS);
    tambyulo_drop(map);
    return NULL;
}

/* Writes a fork, and removes what it had. */
static void *write_all(void *argument) {
    tambyulo_map *map = argument;
    for (uint64_t i = 0; i < KEYS; i++) {
        CHECK(tambyulo_put(map, KEY(i), i + 2).value == i);
        CHECK(tambyulo_remove(map, KEY(i)).value == i + 2);
    }
    CHECK(tambyulo_len(map) == 0);
    tambyulo_drop(map);
    return NULL;
}

int main(void) {
    tambyulo_map map, forks[READERS + 1];
    tambyulo_init(&map);
    for (uint64_t i = 0; i < KEYS; i++) CHECK(tambyulo_put(&map, KEY(i), i).status == TAMBYULO_ABSENT);
    pthread_t threads[READERS + 1];
    for (int t = 0; t <= READERS; t++) {
        tambyulo_init(&forks[t]);
        CHECK(tambyulo_fork(&map, &forks[t]) == 0);
        CHECK(pthread_create(&threads[t], NULL, t < READERS ? read_all : write_all, &forks[t]) == 0);
    }
    for (uint64_t i = 0; i < KEYS; i++) CHECK(tambyulo_put(&map, KEY(i), i + 1).value == i);
    for (int t = 0; t <= READERS; t++) CHECK(pthread_join(threads[t], NULL) == 0);
    for (uint64_t i = 0; i < KEYS; i++) CHECK(tambyulo_get(&map, KEY(i)).value == i + 1);
    tambyulo_drop(&map);
    puts("ok");
    return 0;
}
