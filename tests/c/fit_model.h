/* What the programs share that call first fit: a plain model of a machine, and each call on the machine and on the
 * model. The model is which processors are held, and which blocks were taken as one. From it comes the image that a
 * machine must have. Include cubejobs_fit.h and calls.h before. */
enum { LARGEST = CUBEJOBS_FIT_MAX_DIM, HEAD = 96, MOST_BYTES = 96 + (2 << CUBEJOBS_FIT_MAX_DIM) };
/* The calls, and those of them that change an image. */
enum call { TAKE, TAKE_AT, RELEASE, SPLIT, JOIN, FIRST, FIRST_APART, BLOCK_WITH, LARGEST_FREE, CALLS, CHANGES = FIRST };
static const char *const names[CALLS] = {"take", "take_at", "release", "split", "join", "first", "first_apart", "block_with",
                                    "largest"};

/* A call with its numbers. `avoid` is only of first_apart. */
struct act {
    unsigned call, k, avoid;
    uint64_t base;
};

/* Of each processor 1 if it is held, and one more than the dimension of the block that was taken from it on. */
static unsigned char held[1 << LARGEST], begins[1 << LARGEST];
/* The image that a machine must have. */
static unsigned char wanted[MOST_BYTES];

static inline uint64_t processors(void) { return (uint64_t)1 << dim; }

static inline struct cubejobs_fit_answer answer(enum cubejobs_fit_code code, uint32_t k, uint64_t base) {
    struct cubejobs_fit_answer it;
    it.code = code;
    it.dim = code ? 0 : k;
    it.base = code ? 0 : base;
    return it;
}

static inline enum cubejobs_fit_code bad_block(uint64_t base, unsigned k) {
    if (k > dim) return CUBEJOBS_FIT_BAD_DIMENSION;
    return base >= processors() || base % (1u << k) ? CUBEJOBS_FIT_BAD_BASE : CUBEJOBS_FIT_DONE;
}

static inline bool all_free(uint64_t base, unsigned k) {
    for (uint64_t p = base; p < base + (1u << k); p++)
        if (held[p]) return false;
    return true;
}

static inline bool is_block(uint64_t base, unsigned k) { return begins[base] == k + 1; }

static inline void put(uint64_t base, unsigned k, bool is_held) {
    memset(held + base, is_held, (size_t)1 << k);
    begins[base] = (unsigned char)(is_held ? k + 1 : 0);
}

/* Returns the first free block that has no processor from `from` to `to` - 1. */
static inline struct cubejobs_fit_answer model_first(unsigned k, uint64_t from, uint64_t to) {
    if (k > dim) return answer(CUBEJOBS_FIT_BAD_DIMENSION, 0, 0);
    for (uint64_t base = 0; base < processors(); base += 1u << k)
        if ((base + (1u << k) <= from || base >= to) && all_free(base, k)) return answer(CUBEJOBS_FIT_DONE, k, base);
    return answer(CUBEJOBS_FIT_NO_ROOM, 0, 0);
}

static inline struct cubejobs_fit_answer model_block_with(uint64_t processor) {
    if (processor >= processors()) return answer(CUBEJOBS_FIT_BAD_BASE, 0, 0);
    for (uint64_t base = 0; base <= processor; base++)
        if (begins[base] && processor < base + (1u << (begins[base] - 1)))
            return answer(CUBEJOBS_FIT_DONE, begins[base] - 1u, base);
    return answer(CUBEJOBS_FIT_NOTHING_HELD, 0, 0);
}

static inline struct cubejobs_fit_answer model_largest(void) {
    for (unsigned k = dim + 1; k-- > 0;)
        if (!model_first(k, 0, 0).code) return model_first(k, 0, 0);
    return answer(CUBEJOBS_FIT_NO_ROOM, 0, 0);
}

static inline struct cubejobs_fit_answer model_take(struct cubejobs_fit_answer found) {
    if (!found.code) put(found.base, found.dim, true);
    return found;
}

/* Splits a block, or joins its halves. */
static inline struct cubejobs_fit_answer model_halves(uint64_t base, unsigned k, bool is_join) {
    uint64_t middle;
    if (k == 0 || k > dim) return answer(CUBEJOBS_FIT_BAD_DIMENSION, 0, 0);
    if (bad_block(base, k)) return answer(bad_block(base, k), 0, 0);
    middle = base + (1u << (k - 1));
    if (is_join && !(is_block(base, k - 1) && is_block(middle, k - 1))) return answer(CUBEJOBS_FIT_NOT_HALVES, 0, 0);
    if (!is_join && !is_block(base, k)) return answer(CUBEJOBS_FIT_NOTHING_HELD, 0, 0);
    begins[base] = (unsigned char)(is_join ? k + 1 : k);
    begins[middle] = (unsigned char)(is_join ? 0 : k);
    return answer(CUBEJOBS_FIT_DONE, 0, 0);
}

/* Makes a call of the model, and returns its answer. A call that returns only a code gives no block. */
static inline struct cubejobs_fit_answer model_call(struct act act) {
    const enum cubejobs_fit_code bad = bad_block(act.base, act.k);
    switch (act.call) {
    case TAKE: return model_take(model_first(act.k, 0, 0));
    case TAKE_AT:
        if (bad) return answer(bad, 0, 0);
        return model_take(answer(all_free(act.base, act.k) ? CUBEJOBS_FIT_DONE : CUBEJOBS_FIT_TAKEN, act.k, act.base));
    case RELEASE:
        if (bad) return answer(bad, 0, 0);
        if (!is_block(act.base, act.k)) return answer(CUBEJOBS_FIT_NOTHING_HELD, 0, 0);
        put(act.base, act.k, false);
        return answer(CUBEJOBS_FIT_DONE, 0, 0);
    case SPLIT:
    case JOIN: return model_halves(act.base, act.k, act.call == JOIN);
    case FIRST: return model_first(act.k, 0, 0);
    case FIRST_APART:
        if (act.k > dim) return answer(CUBEJOBS_FIT_BAD_DIMENSION, 0, 0);
        if (bad_block(act.base, act.avoid)) return answer(bad_block(act.base, act.avoid), 0, 0);
        return model_first(act.k, act.base, act.base + (1u << act.avoid));
    case BLOCK_WITH: return model_block_with(act.base);
    default: return model_largest();
    }
}

/* Makes a call of the library, and returns its answer. */
static inline struct cubejobs_fit_answer library_call(struct cubejobs_fit *fit, struct act act) {
    switch (act.call) {
    case TAKE: return cubejobs_fit_take(fit, act.k);
    case TAKE_AT: return cubejobs_fit_take_at(fit, act.base, act.k);
    case RELEASE: return answer(cubejobs_fit_release(fit, act.base, act.k), 0, 0);
    case SPLIT: return answer(cubejobs_fit_split(fit, act.base, act.k), 0, 0);
    case JOIN: return answer(cubejobs_fit_join(fit, act.base, act.k), 0, 0);
    case FIRST: return cubejobs_fit_first(fit, act.k);
    case FIRST_APART: return cubejobs_fit_first_apart(fit, act.k, act.base, act.avoid);
    case BLOCK_WITH: return cubejobs_fit_block_with(fit, act.base);
    default: return cubejobs_fit_largest(fit);
    }
}

static inline void put_word(unsigned at, uint32_t word) { memcpy(wanted + 4 * (size_t)at, &word, 4); }

/* Writes the image that the machine must have. A byte follows from its meaning: each free block counts for each block
 * around it. Returns the number of bytes. */
static inline size_t model_image(void) {
    static unsigned char room[2 << LARGEST], is_free[2 << LARGEST];
    const size_t nodes = (size_t)2 << dim;
    uint32_t counts[LARGEST + 1] = {0};
    memset(room, 1, nodes);
    for (unsigned k = 0; k <= dim; k++)
        for (uint64_t base = 0; base < processors(); base += 1u << k) {
            const size_t node = (size_t)((base + processors()) >> k);
            is_free[node] = all_free(base, k);
            for (size_t around = node; is_free[node] && around > 0; around /= 2) room[around] = (unsigned char)(k + 2);
        }
    for (unsigned k = 0; k <= dim; k++)
        for (size_t node = nodes >> (k + 1); node < nodes >> k; node++)
            counts[k] += is_free[node] && (node == 1 || !is_free[node / 2]);
    for (uint64_t base = 0; base < processors(); base++) {
        if (!begins[base]) continue;
        const unsigned top = begins[base] - 1u;
        for (unsigned k = 0; k <= top; k++)
            memset(room + ((base + processors()) >> k), (int)k + 2, (size_t)1 << (top - k));
        room[(base + processors()) >> top] = 0;
    }
    room[0] = 0;
    memset(wanted, 0, HEAD);
    put_word(0, CUBEJOBS_FIT_MARK);
    put_word(1, dim);
    for (unsigned k = 0; k <= dim; k++) put_word(2 + k, counts[k]);
    memcpy(wanted + HEAD, room, nodes);
    return HEAD + nodes;
}

/* Makes the model hold nothing. */
static inline void model_clear(void) {
    memset(held, 0, (size_t)processors());
    memset(begins, 0, (size_t)processors());
}

/* Makes the model hold the blocks that any bytes have as taken, of which none is inside another one. */
static inline void model_of(const unsigned char *image) {
    model_clear();
    for (unsigned k = dim + 1; k-- > 0;)
        for (uint64_t base = 0; base < processors(); base += 1u << k)
            if (image[HEAD + ((base + processors()) >> k)] == 0 && !held[base]) put(base, k, true);
}

/* Returns a random call. One number in some twenty is bad. Most of them name a block that is held or free. */
static inline struct act random_act(unsigned calls) {
    static const unsigned bad[] = {21, 32, 63, 64, UINT32_MAX};
    struct act act;
    act.call = random_below(calls);
    act.k = random_below(3) == 0 ? random_below(dim + 2) : random_below(dim / 2 + 1);
    act.avoid = random_below(dim + 1);
    act.base = random_below((1u << dim) + 2) >> (random_below(8) ? act.k : 0) << (random_below(8) ? act.k % 32 : 0);
    if (act.call == RELEASE || act.call == SPLIT || act.call == JOIN) {
        const struct cubejobs_fit_answer found = model_block_with(random_below(1u << dim));
        if (!found.code && random_below(8)) {
            act.k = found.dim + (act.call == JOIN);
            act.base = act.call == JOIN ? found.base >> act.k << act.k : found.base;
        }
    }
    if (random_below(64) == 0) act.k = bad[random_below(5)];
    if (random_below(64) == 0) act.avoid = bad[random_below(5)];
    if (random_below(64) == 0) act.base = next(&seed) >> (act.avoid % 64);
    return act;
}
