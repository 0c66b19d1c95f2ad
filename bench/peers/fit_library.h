/* Exact first fit by its library for C (cubejobs_fit.h). */
#include <stdbool.h>
#include <stdint.h>
#include <stdio.h>
#include <stdlib.h>

#include "cubejobs_fit.h"

enum { MAX_DIM = CUBEJOBS_FIT_MAX_DIM, MAX_BLOCK_DIM = MAX_DIM };
static const enum begins BEGINS = AT_FRONT;
static const bool CAN_LEAVE_MARKS = false;

static _Alignas(4096) unsigned char image[96 + (2 << MAX_DIM)];
static struct cubejobs_fit fit;

static void open_machine(unsigned n) {
    if (cubejobs_fit_open(&fit, image, sizeof image, n) != CUBEJOBS_FIT_DONE) {
        fputs("the machine is not opened\n", stderr);
        exit(1);
    }
}

static int64_t take_block(unsigned k, unsigned lane, uint64_t start) {
    (void)lane;
    (void)start;
    struct cubejobs_fit_answer answer = cubejobs_fit_take(&fit, k);
    return answer.code == CUBEJOBS_FIT_DONE ? (int64_t)answer.base : -1;
}

static void release_block(unsigned lane, uint64_t base, unsigned k) {
    (void)lane;
    if (cubejobs_fit_release(&fit, base, k) != CUBEJOBS_FIT_DONE) {
        abort();
    }
}
