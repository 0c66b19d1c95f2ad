// Prints what each rank of a broadcast from rank 5 does in each round, on 8 ranks. The output is
// examples/rounds.out.
#include <stdio.h>

#include "cubejobs_rounds.h"

enum { K = 3, ROOT = 5 };

int main(void) {
    struct cubejobs_count_answer all = cubejobs_message_count(CUBEJOBS_BROADCAST, K);
    printf("%u rounds, %u messages\n", (unsigned)all.rounds, (unsigned)all.messages);
    for (uint64_t rank = 0; rank < 1 << K; rank++) {
        printf("rank %u", (unsigned)rank);
        for (uint32_t round = 0; round < all.rounds; round++) {
            struct cubejobs_step_answer step = cubejobs_step(CUBEJOBS_BROADCAST, K, ROOT, rank, round);
            if (step.from != CUBEJOBS_NO_RANK) printf(", receives from %u", (unsigned)step.from);
            if (step.to != CUBEJOBS_NO_RANK) printf(", sends to %u", (unsigned)step.to);
        }
        printf("\n");
    }
    return 0;
}
