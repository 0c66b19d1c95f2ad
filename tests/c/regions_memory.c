/* Refuses each request for memory in turn: the call answers OUT_OF_MEMORY and changes nothing, and nothing is left over
 * once all handles are freed. No other call than an open and a share makes a request, and these take no more than the
 * header says. It is linked with --wrap=malloc and --wrap=free. */
#include "cubejobs_regions.h"

#include "calls.h"

/* How many more requests are granted, how many there were, how many blocks are there, and how many bytes were asked for
 * since the last look. */
static long left, asked, live, bytes;

void *__real_malloc(size_t size);
void __real_free(void *block);
void *__wrap_malloc(size_t size);
void __wrap_free(void *block);

void *__wrap_malloc(size_t size) {
    void *block = left > 0 ? __real_malloc(size) : 0;
    asked++;
    bytes += (long)size;
    if (block) left--, live++;
    return block;
}

void __wrap_free(void *block) {
    if (block) live--;
    __real_free(block);
}

/* Makes each call that needs no memory, with none granted. */
static void use(struct cubejobs_regions *one, struct cubejobs_regions *other) {
    static struct cubejobs_block block, half;
    unsigned k;
    asked = left = 0;
    for (k = 0; k <= dim; k++) {
        expect(!cubejobs_regions_take(one, &block, k).code, "take");
        expect(cubejobs_regions_take(one, &half, dim).code == CUBEJOBS_REGIONS_NOT_NOW, "a refused take");
        expect(cubejobs_regions_take_exact(one, &half, dim).code == CUBEJOBS_REGIONS_NO_ROOM, "a refused exact take");
        if (k > 0) {
            expect(!cubejobs_regions_split(other, &block, &half), "split");
            expect(!cubejobs_regions_join(one, &block, &half), "join");
        }
        expect(cubejobs_regions_occupancy(one).held == 1u << k, "occupancy");
        expect(cubejobs_regions_block(&block).dim == k, "block");
        expect(!cubejobs_regions_release(other, &block), "release");
        expect(!cubejobs_regions_take_at(other, &block, 0, k).code, "take_at");
        expect(!cubejobs_regions_release(one, &block), "release");
    }
    expect(asked == 0, "a call that takes no memory makes a request");
}

/* Opens, uses and frees a machine, with so many requests granted until one is refused. Answers whether one was. */
static bool run(long allowed) {
    static struct cubejobs_regions one, other;
    const long before = live;
    struct cubejobs_block block = {0, 0};
    bool is_refused = false;
    left = allowed;
    while (cubejobs_regions_open(&one, dim) == CUBEJOBS_REGIONS_OUT_OF_MEMORY) {
        expect(live == before, "a refused open leaves blocks over");
        expect(cubejobs_regions_occupancy(&one).code == CUBEJOBS_REGIONS_NOT_OPEN, "a refused open opens the handle");
        is_refused = true;
        left = 1000;
    }
    while (cubejobs_regions_share(&one, &other) == CUBEJOBS_REGIONS_OUT_OF_MEMORY) {
        expect(cubejobs_regions_occupancy(&other).code == CUBEJOBS_REGIONS_NOT_OPEN, "a refused share opens the handle");
        is_refused = true;
        left = 1000;
    }
    use(&one, &other);
    expect(!cubejobs_regions_free(&one), "free");
    expect(!cubejobs_regions_take(&other, &block, 0).code, "take");
    expect(cubejobs_regions_free(&other) == CUBEJOBS_REGIONS_STILL_HELD, "the last handle, with a block held");
    expect(!cubejobs_regions_release(&other, &block), "release");
    expect(!cubejobs_regions_free(&other), "free");
    expect(asked == 0, "a free makes a request");
    expect(live == before, "blocks are left over");
    return is_refused;
}

/* Sees that a machine of each dimension takes no more memory than the header says. */
static void expect_sizes(void) {
    static struct cubejobs_regions one, other;
    left = 1000;
    for (dim = 0; dim <= CUBEJOBS_REGIONS_MAX_DIM; dim++) {
        bytes = 0;
        expect(!cubejobs_regions_open(&one, dim), "open");
        expect(bytes <= (3L << dim) / 4 + 2048, "a machine takes more memory than the header says");
        bytes = 0;
        expect(!cubejobs_regions_share(&one, &other), "share");
        expect(bytes <= 512, "a handle takes more memory than the header says");
        expect(!cubejobs_regions_free(&one) && !cubejobs_regions_free(&other), "free");
    }
}

int main(void) {
    long allowed, requests = 0;
    for (dim = 0; dim <= 13; dim++) {
        for (allowed = 0; run(allowed);) allowed++;
        requests += allowed;
    }
    expect(requests > 2 * 14, "few requests are made");
    expect_sizes();
    printf("ffi: each of %ld requests of the regions for memory was refused in turn\n", requests);
    return 0;
}
