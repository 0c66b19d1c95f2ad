/* What the programs that call the libraries for C share: random numbers, and expectations that end a program. */
#include <stdbool.h>
#include <stdint.h>
#include <stdio.h>
#include <stdlib.h>
#include <string.h>

static uint64_t seed = 88172645463325252u;
/* The dimension of the machine that is called, which is printed where a call answers otherwise. */
static unsigned dim;

static inline uint64_t next(uint64_t *state) {
    *state ^= *state << 13;
    *state ^= *state >> 7;
    *state ^= *state << 17;
    return *state;
}

static inline unsigned random_below(unsigned bound) { return (unsigned)(next(&seed) % bound); }

static inline void expect_at(const char *file, int line, bool holds, const char *what) {
    if (!holds) {
        fprintf(stderr, "%s:%d: dimension %u: %s\n", file, line, dim, what);
        exit(1);
    }
}
#define expect(holds, what) expect_at(__FILE__, __LINE__, (holds), (what))
