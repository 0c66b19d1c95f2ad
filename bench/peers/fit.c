/* Times takes and releases of one thread by one allocator. Compile it with the header of the allocator:
 *
 *     gcc -O2 -std=gnu11 '-DALLOCATOR="exact.h"' -DALONE fit.c
 *
 * fit SCENARIO N LOW HIGH LOAD ROUNDS MICROSECONDS
 *
 * It opens a machine of dimension N, and takes blocks of random dimensions from LOW to HIGH up to LOAD hundredths of
 * it. Then it makes turns of a churn, so that the holes are where a long run leaves them. A turn of the scenario is
 *   pairs    a take of a block of a random dimension, and its release
 *   churn    releases of random blocks until there is room for the next one, and its take
 *   refused  a take of one processor of a machine that is held as a whole
 * It makes ROUNDS rounds of this many microseconds. It prints the median of their nanoseconds for a turn, how many
 * hundredths of the takes were refused, and a sum over the bases of the first blocks, which is the same for each exact
 * first fit. At the end it releases all, and fails if it cannot take the whole machine then. */
#include <inttypes.h>
#include <stdbool.h>
#include <stdint.h>
#include <stdio.h>
#include <stdlib.h>
#include <string.h>
#include <time.h>

/* Where searches begin: here always at the first processor. */
enum begins { AT_FRONT, NEAR_FRONT, SPREAD };
enum { LANES = 1, HUNDRED = 100, SETTLING = 5000, MISSES = 100, MOST_ROUNDS = 64, FIRST_TURNS = 8 };

#include ALLOCATOR

struct block {
    uint64_t base;
    unsigned k;
};

static struct block *held;
static uint64_t count, in_use, budget, random_state = 88172645463325252, takes, refusals, sum;
static unsigned low, high;

/* The next number of a generator (xorshift, Marsaglia 2003). */
static uint64_t next_random(void) {
    random_state ^= random_state << 13;
    random_state ^= random_state >> 7;
    random_state ^= random_state << 17;
    return random_state;
}

static unsigned random_dim(void) {
    return low + (unsigned)(next_random() % (high - low + 1));
}

static uint64_t nanoseconds(void) {
    struct timespec now;
    clock_gettime(CLOCK_MONOTONIC, &now);
    return (uint64_t)now.tv_sec * 1000000000 + (uint64_t)now.tv_nsec;
}

/* How a machine is filled: some allocators have a quicker way. */
#ifndef FILL_BLOCK
#define FILL_BLOCK first_block
static int64_t first_block(unsigned k) {
    return take_block(k, 0, 0);
}
#endif

/* Holds a block that was taken. Returns whether there was one. */
static bool hold(int64_t base, unsigned k) {
    takes++;
    if (base < 0) {
        refusals++;
        return false;
    }
    held[count++] = (struct block){(uint64_t)base, k};
    in_use += UINT64_C(1) << k;
    return true;
}

static bool take(unsigned k) {
    return hold(take_block(k, 0, 0), k);
}

static void release_at(uint64_t index) {
    struct block block = held[index];
    held[index] = held[--count];
    in_use -= UINT64_C(1) << block.k;
    release_block(0, block.base, block.k);
}

static void pair_turn(void) {
    if (take(random_dim())) {
        release_at(count - 1);
    }
}

static void churn_turn(void) {
    unsigned k = random_dim();
    while (count > 0 && in_use + (UINT64_C(1) << k) > budget) {
        release_at((next_random() >> 20) % count);
    }
    if (!take(k) && count > 0) {
        release_at((next_random() >> 20) % count);
    }
}

static void refused_turn(void) {
    take(0);
}

/* Takes blocks of random dimensions up to the budget, and makes turns of a churn. */
static void fill(void) {
    for (unsigned misses = 0; misses < MISSES;) {
        unsigned k = random_dim();
        if (in_use + (UINT64_C(1) << k) > budget || !hold(FILL_BLOCK(k), k)) {
            misses++;
        } else {
            sum = sum * 31 + held[count - 1].base;
        }
    }
    for (unsigned turn = 0; turn < SETTLING; turn++) {
        churn_turn();
        sum = sum * 31 + (count > 0 ? held[count - 1].base : 0);
    }
}

static unsigned largest_dim(unsigned n) {
    return n < MAX_BLOCK_DIM ? n : MAX_BLOCK_DIM;
}

/* Takes the whole machine in the largest blocks that the allocator has. Returns whether it could. */
static bool take_all(unsigned n) {
    while (in_use < UINT64_C(1) << n) {
        if (!take(largest_dim(n))) {
            return false;
        }
    }
    return true;
}

/* Returns the nanoseconds of this many turns. */
static uint64_t time_of(void (*turn)(void), uint64_t turns) {
    uint64_t start = nanoseconds();
    for (uint64_t i = 0; i < turns; i++) {
        turn();
    }
    return nanoseconds() - start;
}

static int by_size(const void *a, const void *b) {
    double left = *(const double *)a, right = *(const double *)b;
    return (left > right) - (left < right);
}

/* Makes the rounds, each of about this long. Returns the median of the nanoseconds of a turn. */
static double median_of(void (*turn)(void), unsigned rounds, uint64_t span) {
    double times[MOST_ROUNDS];
    uint64_t turns = FIRST_TURNS;
    for (uint64_t spent = time_of(turn, turns); spent < span / 2; spent = time_of(turn, turns)) {
        turns *= 2;
    }
    takes = refusals = 0;
    for (unsigned round = 0; round < rounds; round++) {
        times[round] = (double)time_of(turn, turns) / (double)turns;
    }
    qsort(times, rounds, sizeof *times, by_size);
    return times[rounds / 2];
}

static unsigned number_of(const char *word) {
    return (unsigned)strtoul(word, NULL, 10);
}

int main(int word_count, char **words) {
    if (word_count != 8) {
        return 2;
    }
    unsigned n = number_of(words[2]), load = number_of(words[5]), rounds = number_of(words[6]);
    void (*turn)(void) = strcmp(words[1], "pairs") == 0     ? pair_turn
                         : strcmp(words[1], "churn") == 0   ? churn_turn
                         : strcmp(words[1], "refused") == 0 ? refused_turn
                                                            : NULL;
    low = number_of(words[3]);
    high = number_of(words[4]);
    if (turn == NULL || n > MAX_DIM || low > high || high > largest_dim(n) || rounds == 0 || rounds > MOST_ROUNDS) {
        return 2;
    }
    held = malloc((sizeof *held << n) + sizeof *held);
    if (held == NULL) {
        return 1;
    }
    budget = ((uint64_t)load << n) / HUNDRED;
    open_machine(n);
    if (turn != refused_turn) {
        fill();
    } else if (!take_all(n)) {
        return 1;
    }
    double median = median_of(turn, rounds, 1000 * (uint64_t)number_of(words[7]));
    printf("%.1f %.1f %" PRIu64 "\n", median, takes > 0 ? 100 * (double)refusals / (double)takes : 0, sum);
    while (count > 0) {
        release_at(count - 1);
    }
    if (!take_all(n)) {
        fputs("the machine is not whole at the end\n", stderr);
        return 1;
    }
    return 0;
}
