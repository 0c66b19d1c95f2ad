// Calls the rounds of collectives for C, on 2^0 to 2^7 ranks. It holds the list and the steps to rows that were worked
// by hand, to the textbook rules of binomial trees and of recursive doubling, and to each other. Then it runs each
// collective by its steps on intervals, which join only where one ends and the next begins: so a wrong order, a message
// too many or one too few ends the program. Each code comes where it must. It is C and C++ alike.
#include "cubejobs_rounds.h"

#include "calls.h"

enum { DIMS = 8, RANKS = 1 << (DIMS - 1), SHAPES = 4 };

struct interval {
    uint64_t begin, end;
};

// The messages of three collectives, as round, sender and receiver: a broadcast from rank 5 of 8, a reduction to rank 1
// of 4, and an exchange of two ranks.
static const unsigned BROADCAST_FROM_5[][3] = {{0, 5, 4}, {1, 5, 7}, {1, 4, 6}, {2, 5, 1}, {2, 4, 0}, {2, 7, 3}, {2, 6, 2}};
static const unsigned REDUCE_TO_1[][3] = {{0, 0, 1}, {0, 2, 3}, {1, 3, 1}};
static const unsigned EXCHANGE[][3] = {{0, 0, 1}, {0, 1, 0}};

static void expect_rows(uint32_t shape, uint32_t k, uint64_t root, const unsigned (*rows)[3], unsigned count) {
    struct cubejobs_count_answer all = cubejobs_message_count(shape, k);
    expect(all.code == CUBEJOBS_ROUNDS_DONE && all.rounds == k && all.messages == count, "the count of a worked row");
    for (unsigned i = 0; i < count; i++) {
        struct cubejobs_message_answer got = cubejobs_message(shape, k, root, i);
        expect(got.code == 0 && got.round == rows[i][0] && got.from == rows[i][1] && got.to == rows[i][2], "a worked row");
    }
}

// The textbook's rules. Seen from its root, rank v of a broadcast sends in round i if v is below 2^i. A reduction has
// the same tree with its bits the other way: a rank whose bits below i agree with the root's sends in round i where bit
// i differs. In recursive doubling each rank sends in each round.
static bool must_send(uint32_t shape, uint64_t root, uint64_t rank, uint32_t round) {
    uint64_t seen = rank ^ root, bit = 1u << round;
    if (shape == CUBEJOBS_BROADCAST) return seen < bit;
    return shape != CUBEJOBS_REDUCE || seen % (2 * bit) == bit;
}

static uint64_t partner_or_none(uint64_t partner, bool is_there) { return is_there ? partner : CUBEJOBS_NO_RANK; }

// Holds the steps to the rules and the list to the steps. Returns how many messages there are.
static uint64_t expect_steps(uint32_t shape, uint64_t root) {
    uint64_t sends = 0, receives = 0, all = cubejobs_message_count(shape, dim).messages;
    for (uint32_t round = 0; round < dim; round++)
        for (uint64_t rank = 0; rank < 1u << dim; rank++) {
            uint64_t partner = rank ^ 1u << round;
            struct cubejobs_step_answer step = cubejobs_step(shape, dim, root, rank, round);
            expect(step.code == CUBEJOBS_ROUNDS_DONE, "the code of a step");
            expect(step.to == partner_or_none(partner, must_send(shape, root, rank, round)), "a rank that is sent to");
            expect(step.from == partner_or_none(partner, must_send(shape, root, partner, round)), "a rank that sends");
            sends += step.to != CUBEJOBS_NO_RANK;
            receives += step.from != CUBEJOBS_NO_RANK;
        }
    expect(sends == all && receives == all, "the number of sends and of receives");
    for (uint64_t i = 0, last = 0; i < all; i++) {
        struct cubejobs_message_answer sent = cubejobs_message(shape, dim, root, i);
        uint64_t place = sent.from ^ (shape == CUBEJOBS_BROADCAST ? root : 0);
        if (shape == CUBEJOBS_REDUCE) place = sent.to;
        expect(sent.code == CUBEJOBS_ROUNDS_DONE && sent.round < dim && sent.from < 1u << dim, "a message");
        expect(cubejobs_step(shape, dim, root, sent.from, sent.round).to == sent.to, "a send of the list");
        expect(cubejobs_step(shape, dim, root, sent.to, sent.round).from == sent.from, "a receive of the list");
        expect(i == 0 || last < ((uint64_t)sent.round << DIMS | place), "the order of the list, or a message twice");
        last = (uint64_t)sent.round << DIMS | place;
    }
    return all;
}

static struct interval join(struct interval left, struct interval right) {
    expect(left.end == right.begin, "two items that do not join");
    left.end = right.end;
    return left;
}

// Runs a collective by its steps on the interval [r, r + 1) of each rank r, and sees what each rank has.
static void expect_result(uint32_t shape, uint64_t root) {
    struct interval total[RANKS], prefix[RANKS], sent[RANKS];
    for (uint64_t rank = 0; rank < 1u << dim; rank++) {
        total[rank].begin = prefix[rank].begin = rank;
        total[rank].end = prefix[rank].end = rank + 1;
    }
    for (uint32_t round = 0; round < dim; round++) {
        memcpy(sent, total, sizeof sent);
        for (uint64_t rank = 0; rank < 1u << dim; rank++) {
            uint64_t from = cubejobs_step(shape, dim, root, rank, round).from;
            if (from == CUBEJOBS_NO_RANK) continue;
            if (shape == CUBEJOBS_BROADCAST) total[rank] = sent[from];
            else if (rank < from) total[rank] = join(sent[rank], sent[from]);
            else total[rank] = join(sent[from], sent[rank]), prefix[rank] = join(sent[from], prefix[rank]);
        }
    }
    for (uint64_t rank = 0; rank < 1u << dim; rank++) {
        bool is_root = shape != CUBEJOBS_REDUCE || rank == root;
        uint64_t begin = shape == CUBEJOBS_BROADCAST ? root : 0;
        uint64_t end = shape == CUBEJOBS_BROADCAST ? root + 1 : (uint64_t)1 << dim;
        if (is_root) expect(total[rank].begin == begin && total[rank].end == end, "a result");
        if (shape == CUBEJOBS_SCAN) expect(prefix[rank].begin == 0 && prefix[rank].end == rank + 1, "a prefix");
    }
}

static void expect_no_step(uint32_t shape, uint32_t k, uint64_t root, uint64_t rank, uint32_t round, uint32_t code) {
    struct cubejobs_step_answer got = cubejobs_step(shape, k, root, rank, round);
    expect(got.code == code && got.to == CUBEJOBS_NO_RANK && got.from == CUBEJOBS_NO_RANK, "a refused step");
}

static void expect_no_message(uint32_t shape, uint32_t k, uint64_t root, uint64_t i, uint32_t code) {
    struct cubejobs_message_answer got = cubejobs_message(shape, k, root, i);
    bool is_nothing = got.round == 0 && got.from == CUBEJOBS_NO_RANK && got.to == CUBEJOBS_NO_RANK;
    expect(got.code == code && is_nothing, "a refused message");
}

static void expect_no_count(uint32_t shape, uint32_t k, uint32_t code) {
    struct cubejobs_count_answer got = cubejobs_message_count(shape, k);
    expect(got.code == code && got.rounds == 0 && got.messages == 0, "a refused count");
}

// Each code, where all later ones apply too.
static void expect_codes(void) {
    const uint64_t huge = CUBEJOBS_NO_RANK;
    const uint32_t far = CUBEJOBS_ROUNDS_MAX_DIM + 1;
    expect_no_count(SHAPES, far, CUBEJOBS_ROUNDS_BAD_SHAPE);
    expect_no_count(UINT32_MAX, 0, CUBEJOBS_ROUNDS_BAD_SHAPE);
    expect_no_step(SHAPES, far, huge, huge, far, CUBEJOBS_ROUNDS_BAD_SHAPE);
    expect_no_message(SHAPES, far, huge, huge, CUBEJOBS_ROUNDS_BAD_SHAPE);
    for (uint32_t shape = 0; shape < SHAPES; shape++) {
        expect_no_count(shape, far, CUBEJOBS_ROUNDS_BAD_DIMENSION);
        expect_no_count(shape, UINT32_MAX, CUBEJOBS_ROUNDS_BAD_DIMENSION);
        expect_no_step(shape, far, huge, huge, far, CUBEJOBS_ROUNDS_BAD_DIMENSION);
        expect_no_step(shape, 3, 8, 8, 3, CUBEJOBS_ROUNDS_BAD_ROOT);
        expect_no_step(shape, 3, 7, 8, 3, CUBEJOBS_ROUNDS_BAD_RANK);
        expect_no_step(shape, 3, 7, huge, 0, CUBEJOBS_ROUNDS_BAD_RANK);
        expect_no_step(shape, 3, 7, 7, 3, CUBEJOBS_ROUNDS_BAD_ROUND);
        expect_no_step(shape, 0, 0, 0, 0, CUBEJOBS_ROUNDS_BAD_ROUND);
        expect_no_message(shape, far, huge, huge, CUBEJOBS_ROUNDS_BAD_DIMENSION);
        expect_no_message(shape, 3, huge, huge, CUBEJOBS_ROUNDS_BAD_ROOT);
        expect_no_message(shape, 3, 0, cubejobs_message_count(shape, 3).messages, CUBEJOBS_ROUNDS_BAD_NUMBER);
        expect_no_message(shape, 0, 0, 0, CUBEJOBS_ROUNDS_BAD_NUMBER);
    }
}

// The largest collective: its count, its last message and a step of its last rank.
static void expect_largest(void) {
    const uint32_t k = CUBEJOBS_ROUNDS_MAX_DIM;
    const uint64_t ranks = (uint64_t)1 << k, half = ranks / 2;
    expect(cubejobs_message_count(CUBEJOBS_BROADCAST, k).messages == ranks - 1, "the messages of a large broadcast");
    expect(cubejobs_message_count(CUBEJOBS_SCAN, k).messages == k * ranks, "the messages of a large scan");
    struct cubejobs_message_answer last = cubejobs_message(CUBEJOBS_SCAN, k, 0, k * ranks - 1);
    expect(last.round == k - 1 && last.from == ranks - 1 && last.to == half - 1, "the last message of a large scan");
    last = cubejobs_message(CUBEJOBS_BROADCAST, k, ranks - 1, ranks - 2);
    expect(last.round == k - 1 && last.from == half && last.to == 0, "the last message of a large broadcast");
    struct cubejobs_step_answer step = cubejobs_step(CUBEJOBS_REDUCE, k, 0, half, k - 1);
    expect(step.to == 0 && step.from == CUBEJOBS_NO_RANK, "the last step of a large reduction");
}

int main(void) {
    uint64_t messages = 0;
    expect_rows(CUBEJOBS_BROADCAST, 3, 5, BROADCAST_FROM_5, 7);
    expect_rows(CUBEJOBS_REDUCE, 2, 1, REDUCE_TO_1, 3);
    expect_rows(CUBEJOBS_ALLREDUCE, 1, 1, EXCHANGE, 2);
    expect_rows(CUBEJOBS_SCAN, 1, 0, EXCHANGE, 2);
    for (dim = 0; dim < DIMS; dim++)
        for (uint32_t shape = 0; shape < SHAPES; shape++)
            for (uint64_t root = 0; root < 1u << dim; root++) {
                messages += expect_steps(shape, root);
                expect_result(shape, root);
            }
    expect_codes();
    expect_largest();
    printf("%u messages\n", (unsigned)messages);
    return 0;
}
