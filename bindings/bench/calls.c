/* Times the calls from C: calls PAIRS ROUNDS. It prints a line a measurement: c NAME 1 NANOSECONDS, the least of the rounds, in
 * processor time. The keys are those of the other benchmarks. */
#define _POSIX_C_SOURCE 199309L
#include "tambyulo.h"
#include <stdio.h>
#include <stdlib.h>
#include <time.h>

enum { KEY_LEN = 8, SNAPSHOTS = 1000, MEASUREMENTS = 6 };
enum { PUT, GET, REPLACE, WALK, SNAPSHOT_THEN_PUT, REMOVE };

static const char *names[MEASUREMENTS] = {"put", "get", "replace", "walk", "snapshot_then_put", "remove"};
static double least[MEASUREMENTS];
static uint8_t (*keys)[KEY_LEN + 1];
static uint64_t pairs, sum;

static double now(void) {
    struct timespec time;
    clock_gettime(CLOCK_PROCESS_CPUTIME_ID, &time);
    return time.tv_sec * 1e9 + time.tv_nsec;
}

static void note(int which, double begun, uint64_t pieces) {
    double each = (now() - begun) / pieces;
    if (least[which] == 0 || each < least[which]) least[which] = each;
}

static void put_all(tambyulo_map *map) {
    for (uint64_t i = 0; i < pairs; i++) sum += tambyulo_put(map, keys[i], KEY_LEN, i).status;
}

static void get_all(tambyulo_map *map) {
    for (uint64_t i = 0; i < pairs; i++) sum += tambyulo_get(map, keys[i], KEY_LEN).value;
}

static void walk(tambyulo_map *map) {
    static uint8_t buffer[4096];
    tambyulo_page page;
    for (uint64_t from = 0; (page = tambyulo_page_from(map, from, buffer, sizeof buffer)).pairs > 0; from += page.pairs) {
        const uint8_t *at = buffer;
        for (uint64_t i = 0; i < page.pairs; i++) sum += tambyulo_next_pair(&at).value;
    }
}

static void snapshots(tambyulo_map *map, uint64_t count) {
    for (uint64_t i = 0; i < count; i++) {
        tambyulo_map snapshot;
        tambyulo_init(&snapshot);
        sum += tambyulo_fork(map, &snapshot);
        sum += tambyulo_put(map, keys[i], KEY_LEN, i).status;
        tambyulo_drop(&snapshot);
    }
}

static void remove_all(tambyulo_map *map) {
    for (uint64_t i = 0; i < pairs; i++) sum += tambyulo_remove(map, keys[i], KEY_LEN).status;
}

int main(int count, char **words) {
    if (count != 3) {
        fprintf(stderr, "usage: %s PAIRS ROUNDS\n", words[0]);
        return 2;
    }
    pairs = strtoull(words[1], NULL, 10);
    keys = malloc(pairs * sizeof *keys);
    if (!keys) return 1;
    for (uint64_t i = 0; i < pairs; i++) snprintf((char *)keys[i], sizeof keys[i], "k%07u", (unsigned)i);
    uint64_t some = pairs < SNAPSHOTS ? pairs : SNAPSHOTS;
    for (int rounds = atoi(words[2]); rounds > 0; rounds--) {
        tambyulo_map map;
        tambyulo_init(&map);
        void (*works[MEASUREMENTS])(tambyulo_map *) = {put_all, get_all, put_all, walk, NULL, remove_all};
        for (int which = 0; which < MEASUREMENTS; which++) {
            double begun = now();
            if (which == SNAPSHOT_THEN_PUT)
                snapshots(&map, some);
            else
                works[which](&map);
            note(which, begun, which == SNAPSHOT_THEN_PUT ? some : pairs);
        }
        tambyulo_drop(&map);
    }
    for (int which = 0; which < MEASUREMENTS; which++) printf("c %s 1 %.0f\n", names[which], least[which]);
    fprintf(stderr, "%llu\n", (unsigned long long)sum);
    return 0;
}
