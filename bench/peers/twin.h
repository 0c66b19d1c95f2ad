/* The bitmap tree of crates/bitmap_tree by hand: the same words, summary bits (marks), spares and order of search as
 * `take` and `release` have. Nothing here is proved. */
#include <stdatomic.h>
#include <stdbool.h>
#include <stdint.h>
#include <stdlib.h>

#include "bits.h"

enum { MAX_DIM = 20, MAX_BLOCK_DIM = MAX_DIM };
static const enum begins BEGINS = NEAR_FRONT;
static const bool CAN_LEAVE_MARKS = false;
/* How many exchanges a call tries in a word before it gives the word up, and how many groups of 64 words a search
 * looks in for one where it splits no larger block. */
enum { TRIES = 8, TIGHT_GROUPS = 16 };
enum { LEVELS = MAX_DIM / WORD_DIM + 1, LINE = 8, NO_WORD = -1, FULL = -1, LOST = -2 };

static const uint64_t ONES = UINT64_MAX;

typedef _Atomic uint64_t word_t;

/* A level has a bit for each unit of 64^level processors. A bit that is set is held, or the word under it is open. A
 * word of a lower level that is not open is all ones. */
static struct level {
    word_t *words;
    /* How many units there are, and the bits of a word that are none. */
    int64_t count;
    uint64_t pad;
    /* For each dimension below 6 a word has a mark: it has no room for a block of the dimension. The marks of 64
     * words are one number; the numbers of the six dimensions are side by side in a line of eight. In the second
     * level of numbers there is a bit for each number that is all ones. */
    word_t *marks, *tops;
    int groups, top_count;
    /* The numbers of empty words that stay open, plus 1. */
    _Alignas(64) word_t spares[LINE];
} levels[LEVELS];
static int top_level;

static word_t *new_words(size_t count, uint64_t value) {
    word_t *words = aligned_alloc(64, (count * sizeof *words + 63) / 64 * 64);
    if (words == NULL) {
        abort();
    }
    for (size_t i = 0; i < count; i++) {
        words[i] = value;
    }
    return words;
}

static int words_of(unsigned dim, unsigned word_dim) {
    return 1 << (dim > word_dim ? dim - word_dim : 0);
}

static void open_machine(unsigned n) {
    top_level = (int)n / WORD_DIM;
    for (int number = 0; number <= top_level; number++) {
        struct level *level = &levels[number];
        unsigned dim = n - WORD_DIM * (unsigned)number;
        bool is_top = number == top_level;
        level->count = words_of(dim, WORD_DIM);
        level->words = new_words((size_t)level->count, is_top ? 0 : ONES);
        level->pad = is_top ? ONES << (1u << dim) : 0;
        level->groups = words_of(dim, 2 * WORD_DIM);
        level->top_count = words_of(dim, 3 * WORD_DIM);
        level->marks = new_words((size_t)(LINE * level->groups), ONES);
        level->tops = new_words((size_t)(LINE * level->top_count), ONES);
    }
}

/* ---- marks. The top level is one word, and has none. */

static inline word_t *marks_at(struct level *level, unsigned k, int group) {
    return &level->marks[LINE * group + (int)k];
}

static inline word_t *top_at(struct level *level, unsigned k, int top) {
    return &level->tops[LINE * top + (int)k];
}

/* Whether each word of a level has its mark for the dimension, or the word of the top level has no room for it. */
static bool is_full(struct level *level, unsigned k) {
    if (level == &levels[top_level]) {
        return rooms_of(atomic_load(&level->words[0]) | level->pad, k) == 0;
    }
    for (int top = 0; top < level->top_count; top++) {
        if (atomic_load(top_at(level, k, top)) != ONES) {
            return false;
        }
    }
    return true;
}

/* The next group, from one on, that is not marked as a whole. */
static int next_group(struct level *level, unsigned k, int from) {
    uint64_t later = ONES << (from % WORD_BITS);
    for (int top = from / WORD_BITS; top < level->top_count; top++) {
        uint64_t open = ~atomic_load(top_at(level, k, top)) & later;
        if (open != 0) {
            return WORD_BITS * top + __builtin_ctzll(open);
        }
        later = ONES;
    }
    return NO_WORD;
}

/* The first of some words of a group, from one on if there is such a word. */
static inline int word_in(int group, uint64_t words, int from) {
    uint64_t later = words & ONES << (from % WORD_BITS);
    return WORD_BITS * group + __builtin_ctzll(later != 0 ? later : words);
}

/* The next word without a mark for the dimension: of the group of one word, or of a later group. A word with the mark of
 * dimension k + 1 comes first, if there is one in the next groups: a block taken there splits no larger one. */
static int next_tight(struct level *level, unsigned k, int from) {
    int group = from / WORD_BITS, first = NO_WORD;
    for (int looks = 0; looks < level->groups && group != NO_WORD && group < level->groups; looks++) {
        uint64_t open = ~atomic_load(marks_at(level, k, group));
        uint64_t larger = k + 1 < WORD_DIM ? atomic_load(marks_at(level, k + 1, group)) : 0;
        if (open & larger) {
            return word_in(group, open & larger, from);
        }
        if (first == NO_WORD && open != 0) {
            first = word_in(group, open, from);
        }
        if (first != NO_WORD && (larger == 0 || looks + 1 >= TIGHT_GROUPS)) {
            return first;
        }
        group = next_group(level, k, group + 1);
        from = 0;
    }
    return first;
}

/* The next word of a level that has no mark for the dimension, from one on: this one, or where a level above may have a
 * free unit, the first of its group. Otherwise it is one in which a block splits no larger one, if there is one near. */
static int next_word(struct level *level, unsigned k, int from) {
    int group = from / WORD_BITS;
    uint64_t open = group < level->groups ? ~atomic_load(marks_at(level, k, group)) : 0;
    if (open >> (from % WORD_BITS) & 1) {
        return from;
    }
    if (open != 0 && !is_full(level + 1, 0)) {
        return word_in(group, open, from);
    }
    return next_tight(level, k, from);
}

/* The least dimension for which a word has no room. */
static unsigned rooms_in(uint64_t word) {
    uint64_t free = ~word;
    unsigned k = 0;
    for (; k < WORD_DIM && (free & BLOCK_STARTS[k]) != 0; k++) {
        free &= free >> (1u << k);
    }
    return k;
}

static void clear_mark(struct level *level, int group, unsigned k, uint64_t mark) {
    uint64_t group_mark = UINT64_C(1) << (group % WORD_BITS);
    atomic_fetch_and(marks_at(level, k, group), ~mark);
    if (atomic_load(top_at(level, k, group / WORD_BITS)) & group_mark) {
        atomic_fetch_and(top_at(level, k, group / WORD_BITS), ~group_mark);
    }
}

/* Clears the marks of a word for the dimensions for which it has room. */
static void unmark(struct level *level, int64_t number, uint64_t word) {
    uint64_t mark = UINT64_C(1) << (number % WORD_BITS);
    int group = (int)(number / WORD_BITS);
    uint64_t free = ~word;
    for (unsigned k = 0; k < WORD_DIM && (free & BLOCK_STARTS[k]) != 0; k++) {
        if (atomic_load(marks_at(level, k, group)) & mark) {
            clear_mark(level, group, k, mark);
        }
        free &= free >> (1u << k);
    }
}

/* Sets the mark of a word for a dimension, and that of its group where all 64 words of it have the mark. */
static void set_mark(struct level *level, int64_t number, unsigned k) {
    uint64_t mark = UINT64_C(1) << (number % WORD_BITS);
    int group = (int)(number / WORD_BITS);
    uint64_t group_mark = UINT64_C(1) << (group % WORD_BITS);
    word_t *marks = marks_at(level, k, group), *top = top_at(level, k, group / WORD_BITS);
    if (!(atomic_load(marks) & mark) && (atomic_fetch_or(marks, mark) | mark) == ONES) {
        atomic_fetch_or(top, group_mark);
        if (atomic_load(marks) != ONES) {
            atomic_fetch_and(top, ~group_mark);
        }
    }
}

/* Marks a word in which a search found no room, unless it has room again. */
static void mark_word(struct level *level, int64_t number, unsigned k) {
    set_mark(level, number, k);
    unmark(level, number, atomic_load(&level->words[number]));
}

/* Whether one half of a word is free: then it has no mark. */
static inline bool has_half(uint64_t word) {
    return word >> 32 == 0 || (uint32_t)word == 0;
}

/* Marks a word in which a block was taken, for the dimensions for which it has no room now. If this is k alone it
 * leaves that to the next search, since the block may be back by then. */
static void mark_lost(struct level *level, int64_t number, unsigned k, uint64_t left) {
    if (has_half(left) || level == &levels[top_level]) {
        return;
    }
    unsigned lost = rooms_in(left);
    unsigned next = lost == k ? k + 1 : lost;
    if (next >= WORD_DIM || atomic_load(marks_at(level, next, (int)(number / WORD_BITS))) >> (number % WORD_BITS) & 1) {
        return;
    }
    for (unsigned dim = lost; dim < WORD_DIM; dim++) {
        set_mark(level, number, dim);
    }
    unmark(level, number, atomic_load(&level->words[number]));
}

/* ---- takes. A place is the number of the first unit of a block in its level. */

/* Takes a block of 2^k units in a word of its level: the offset, FULL or LOST. */
static inline int take_in(struct level *level, int64_t number, unsigned k, int tries) {
    uint64_t found = atomic_load(&level->words[number]);
    for (int i = 0; i < tries; i++) {
        uint64_t rooms = rooms_of(found | level->pad, k);
        if (rooms == 0) {
            return FULL;
        }
        unsigned offset = (unsigned)__builtin_ctzll(rooms);
        uint64_t left = found | mask_of(offset, k);
        if (atomic_compare_exchange_strong(&level->words[number], &found, left)) {
            mark_lost(level, number, k, left);
            return (int)offset;
        }
    }
    return LOST;
}

/* Takes a block of 2^k units in the words of a level that have no mark, from one on: the place, FULL or LOST. */
static int64_t take_marked(struct level *level, unsigned k, int from, int tries) {
    int64_t none = FULL;
    for (int64_t looks = 0; looks < level->count; looks++) {
        int number = next_word(level, k, from);
        if (number == NO_WORD || number >= level->count) {
            return none;
        }
        int offset = take_in(level, number, k, tries);
        if (offset >= 0) {
            return (int64_t)number * WORD_BITS + offset;
        }
        if (offset == FULL) {
            mark_word(level, number, k);
        } else {
            none = LOST;
            if (tries < TRIES) {
                return none;
            }
            from = number + 1;
        }
    }
    return none;
}

/* Takes a block of dimension k in the open words of its level: in those of the group of a processor's word, then in later
 * groups, then in all. On the top level this is one word. Returns its base, FULL or LOST. */
static int64_t take_here(unsigned k, uint64_t processor, int tries) {
    unsigned number = k / WORD_DIM;
    struct level *level = &levels[number];
    if ((int)number == top_level) {
        int64_t place = take_in(level, 0, k % WORD_DIM, tries);
        return place >= 0 ? place << (WORD_DIM * number) : place;
    }
    int own = (int)(processor >> (WORD_DIM * number + WORD_DIM));
    int64_t place = take_marked(level, k % WORD_DIM, own, tries);
    int64_t none = place == LOST ? LOST : FULL;
    if (place < 0 && own >= WORD_BITS && !(none == LOST && tries < TRIES) && !is_full(level, k % WORD_DIM)) {
        place = take_marked(level, k % WORD_DIM, 0, tries);
        none = place == LOST ? LOST : none;
    }
    return place >= 0 ? place << (WORD_DIM * number) : none;
}

/* Opens the words under a unit of a level that this call has, down to its first block of dimension k. */
static void open_down(uint64_t base, unsigned unit_level, unsigned k) {
    for (unsigned number = unit_level; number-- > k / WORD_DIM;) {
        struct level *level = &levels[number];
        int64_t word = (int64_t)(base >> (WORD_DIM * number + WORD_DIM));
        uint64_t own = mask_of(0, number == k / WORD_DIM ? k % WORD_DIM : 0);
        atomic_store(&level->words[word], own);
        unmark(level, word, own);
    }
}

/* Takes a unit of a level above, the lowest first, and in it the first block of dimension k. */
static int64_t take_above(unsigned k, uint64_t processor) {
    for (unsigned number = k / WORD_DIM + 1; (int)number <= top_level; number++) {
        int64_t base = is_full(&levels[number], 0) ? FULL : take_here(WORD_DIM * number, processor, TRIES);
        if (base >= 0) {
            open_down((uint64_t)base, number, k);
            return base;
        }
    }
    return FULL;
}

/* Takes the unit around a processor one level up, where it is free, and in it the first block of dimension k. */
static int64_t take_own(unsigned k, uint64_t processor) {
    unsigned number = k / WORD_DIM + 1;
    if ((int)number > top_level) {
        return FULL;
    }
    uint64_t place = processor >> (WORD_DIM * number);
    word_t *word = &levels[number].words[place / WORD_BITS];
    uint64_t mask = mask_of(place % WORD_BITS, 0), found = atomic_load(word);
    if ((found & mask) || !atomic_compare_exchange_strong(word, &found, found | mask)) {
        return FULL;
    }
    uint64_t base = place << (WORD_DIM * number);
    open_down(base, number, k);
    return (int64_t)base;
}

/* Takes a block of dimension k. After a lost exchange it opens a unit of its own. */
static int64_t take_once(unsigned k, uint64_t processor) {
    int64_t base = take_here(k, processor, 1);
    if (base == LOST) {
        base = take_own(k, processor);
        if (base < 0) {
            base = take_here(k, processor, TRIES);
        }
    }
    return base >= 0 ? base : take_above(k, processor);
}

/* ---- releases */

/* Shuts a word where it is empty, which frees the unit over it: whether it did. */
static bool shut_word(struct level *level, uint64_t number) {
    uint64_t empty = 0;
    return atomic_compare_exchange_strong(&level->words[number], &empty, ONES);
}

/* The place of a spare. Words near each other have different ones. */
static word_t *spare_of(struct level *level, uint64_t word) {
    return &level->spares[(word / 8 + 2 * word) % LINE];
}

/* Clears the bits of a block. A word that becomes empty stays open as a spare of its level, and the spare before it
 * is shut. Returns whether this freed a unit, whose first processor then is *base. */
static bool release_once(uint64_t *base, unsigned k) {
    unsigned number = k / WORD_DIM;
    struct level *level = &levels[number];
    uint64_t place = *base >> (WORD_DIM * number), mask = mask_of(place % WORD_BITS, k % WORD_DIM);
    uint64_t own = place / WORD_BITS, found = atomic_fetch_sub(&level->words[own], mask);
    if ((int)number == top_level) {
        return false;
    }
    if (!has_half(found)) {
        unmark(level, (int64_t)own, found - mask);
    }
    if (found != mask || atomic_load(spare_of(level, own)) == own + 1) {
        return false;
    }
    uint64_t other = atomic_exchange(spare_of(level, own), own + 1);
    if (other == 0 || other == own + 1 || !shut_word(level, other - 1)) {
        return false;
    }
    *base = (other - 1) << (WORD_DIM * number + WORD_DIM);
    return true;
}

static void release_block(unsigned lane, uint64_t base, unsigned k) {
    (void)lane;
    while (release_once(&base, k)) {
        k = k / WORD_DIM * WORD_DIM + WORD_DIM;
    }
}

/* Shuts the spares of the levels below one: whether it shut any. */
static bool shut_spares(unsigned below) {
    bool any = false;
    for (unsigned i = 0; i < LINE * below; i++) {
        unsigned number = i / LINE;
        word_t *place = &levels[number].spares[i % LINE];
        uint64_t spare = atomic_load(place) == 0 ? 0 : atomic_exchange(place, 0);
        if (spare != 0 && shut_word(&levels[number], spare - 1)) {
            release_block(0, (spare - 1) << (WORD_DIM * number + WORD_DIM), WORD_DIM * number + WORD_DIM);
            any = true;
        }
    }
    return any;
}

static int64_t take_block(unsigned k, unsigned lane, uint64_t start) {
    (void)lane;
    int64_t base = take_once(k, start);
    return base < 0 && shut_spares(k / WORD_DIM) ? take_once(k, start) : base;
}
