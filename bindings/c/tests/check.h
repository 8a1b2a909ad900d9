/* What the tests share: a check that ends the test, and random numbers. */
#ifndef CHECK_H
#define CHECK_H

#include <stdint.h>
#include <stdio.h>
#include <stdlib.h>

#define CHECK(holds)                                                                                                             \
    do {                                                                                                                         \
        if (!(holds)) {                                                                                                          \
            fprintf(stderr, "%s:%d: %s\n", __FILE__, __LINE__, #holds);                                                          \
            exit(1);                                                                                                             \
        }                                                                                                                        \
    } while (0)

/* xorshift, by George Marsaglia. */
static inline uint64_t random_number(uint64_t *state) {
    *state ^= *state << 13;
    *state ^= *state >> 7;
    *state ^= *state << 17;
    return *state;
}

#endif
