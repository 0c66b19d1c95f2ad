/* The bitmap tree by its library for C: the proved one, with the cost of its handles. */
#include <stdbool.h>
#include <stdint.h>
#include <stdio.h>
#include <stdlib.h>

#include "cubejobs_regions.h"

enum { MAX_DIM = CUBEJOBS_REGIONS_MAX_DIM, MAX_BLOCK_DIM = MAX_DIM };
static const enum begins BEGINS = NEAR_FRONT;
static const bool CAN_LEAVE_MARKS = false;

#define BLOCK_HANDLE struct cubejobs_block

static struct cubejobs_regions handles[LANES];

static void open_machine(unsigned n) {
    uint32_t code = cubejobs_regions_open(&handles[0], n);
    for (unsigned lane = 1; lane < LANES && code == CUBEJOBS_REGIONS_DONE; lane++) {
        code = cubejobs_regions_share(&handles[0], &handles[lane]);
    }
    if (code != CUBEJOBS_REGIONS_DONE) {
        fputs("the machine is not opened\n", stderr);
        exit(1);
    }
}

static int64_t take_handle(struct cubejobs_block *handle, unsigned k, unsigned lane) {
    struct cubejobs_regions_answer answer = cubejobs_regions_take(&handles[lane], handle, k);
    return answer.code == CUBEJOBS_REGIONS_DONE ? (int64_t)answer.base : -1;
}

static void release_handle(struct cubejobs_block *handle, unsigned lane) {
    if (cubejobs_regions_release(&handles[lane], handle) != CUBEJOBS_REGIONS_DONE) {
        abort();
    }
}
