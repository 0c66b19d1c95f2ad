// Calls first fit over memory of the caller beside a plain model: on machines of dimension 0 to 12, 16 and 20, random
// calls of each kind, with bad arguments among them. Every so often the whole image must be that of the model. Then
// each call over random bytes, and over images with one changed byte: an attach refuses each that is not sound, and
// nothing outside the image is touched. Last come worked rows, views without memory, wrong sizes and odd addresses,
// images that processes share, and images in a file. `fit_calls CALLS IMAGES` makes CALLS on each machine, and tries
// IMAGES of each kind. It is C and C++ alike. It exits with 0, or says on standard error which call answered otherwise.
#define _DEFAULT_SOURCE 1
#include <fcntl.h>
#include <sys/mman.h>
#include <sys/wait.h>
#include <unistd.h>

#include "cubejobs_fit.h"

#include "calls.h"
#include "fit_model.h"

enum { PAGE = 4096, ROOM = (MOST_BYTES / PAGE + 1) * PAGE, FILL = 0xA5, MOST_IMAGE_DIM = 10, CALLS_OF_IMAGE = 24 };

// Pages with one on each side that nothing may touch. An image is at the begin or at the end.
static unsigned char *pages, *image;
static struct cubejobs_fit fit;
static unsigned long made[CALLS], refused[CALLS];

static size_t bytes(void) { return HEAD + ((size_t)2 << dim); }

static void map_pages(void) {
    pages = (unsigned char *)mmap(NULL, ROOM + 2 * PAGE, PROT_NONE, MAP_PRIVATE | MAP_ANONYMOUS, -1, 0);
    expect(pages != (unsigned char *)MAP_FAILED, "mmap");
    pages += PAGE;
    expect(mprotect(pages, ROOM, PROT_READ | PROT_WRITE) == 0, "mprotect");
}

// Places an image at the begin or at the end of the pages, and fills what is left of them.
static void place(bool at_end) {
    image = at_end ? pages + ROOM - (bytes() + 7) / 8 * 8 : pages;
    memset(pages, FILL, dim > MOST_IMAGE_DIM ? ROOM : PAGE);
    memset(pages + ROOM - PAGE, FILL, PAGE);
}

static void expect_guards(void) {
    for (unsigned i = 0; i < 64; i++) {
        unsigned char *const before = image - 1 - i, *const after = image + bytes() + i;
        if (before >= pages) expect(*before == FILL, "a byte before the image changed");
        if (after < pages + ROOM) expect(*after == FILL, "a byte after the image changed");
    }
}

static void expect_image(const char *what) { expect(memcmp(image, wanted, model_image()) == 0, what); }

#define expect_answer(got, code, k, base, what) expect_answer_at(__LINE__, (got), (code), (k), (base), (what))
static void expect_answer_at(int line, struct cubejobs_fit_answer got, unsigned code, unsigned k, uint64_t base,
                             const char *what) {
    expect_at(__FILE__, line, got.code == code && got.dim == k && got.base == base, what);
}

// ---- random calls beside the model

static void ask(const struct act *act) {
    struct cubejobs_fit_occupancy_answer occupancy = cubejobs_fit_occupancy(&fit);
    const struct cubejobs_fit_answer largest = model_largest();
    uint64_t held_now = 0;
    const bool is_free = !bad_block(act->base, act->k) && all_free(act->base, act->k);
    expect(cubejobs_fit_is_free(&fit, act->base, act->k) == is_free, "is_free");
    for (unsigned k = 0; k <= LARGEST; k++) {
        uint64_t count = 0;
        for (uint64_t base = 0; k <= dim && base < processors(); base += 1u << k) count += all_free(base, k);
        expect(cubejobs_fit_free_blocks(&fit, k) == count && occupancy.free[k] == count, "free blocks");
    }
    for (uint64_t p = 0; p < processors(); p++) held_now += held[p];
    expect(cubejobs_fit_free_blocks(&fit, UINT32_MAX) == 0, "free blocks of no dimension");
    expect(occupancy.code == CUBEJOBS_FIT_DONE && occupancy.held == held_now, "the held processors");
    expect(occupancy.has_free == !largest.code && occupancy.largest == largest.dim, "the largest free dimension");
}

static void call_once(void) {
    const struct act act = random_act(CALLS);
    const struct cubejobs_fit_answer got = library_call(&fit, act), right = model_call(act);
    expect_answer(got, right.code, right.dim, right.base, names[act.call]);
    made[act.call]++;
    refused[act.call] += right.code != CUBEJOBS_FIT_DONE;
}

static void open_both(bool at_end) {
    place(at_end);
    model_clear();
    expect(cubejobs_fit_bytes(dim) == bytes(), "bytes");
    expect(cubejobs_fit_open(&fit, image, bytes(), dim) == CUBEJOBS_FIT_DONE, "open");
    expect_image("an image once opened");
    expect_guards();
}

// Makes random calls. The smaller a machine is, the more often its image is looked at.
static void call_many(long calls) {
    const long few = dim < 6 ? 1 : 1 << (dim - 6);
    open_both(dim % 2);
    for (long call = 0; call < calls; call++) {
        call_once();
        if (call % few) continue;
        const struct act act = random_act(CALLS);
        ask(&act);
        expect_image("the image is not that of the model");
    }
    expect(cubejobs_fit_attach(&fit, image, bytes(), dim) == CUBEJOBS_FIT_DONE, "attach a sound image");
    expect(cubejobs_fit_repair(&fit, image, bytes(), dim) == CUBEJOBS_FIT_DONE, "repair a sound image");
    expect_image("a repair changed a sound image");
    expect_guards();
}

// Takes each processor by itself, which is any number of blocks at once, and releases them in another order.
static void take_each(void) {
    dim = 12;
    open_both(false);
    for (unsigned p = 0; p < processors(); p++) expect_answer(cubejobs_fit_take(&fit, 0), 0, 0, p, "each processor");
    expect_answer(cubejobs_fit_take(&fit, 0), CUBEJOBS_FIT_NO_ROOM, 0, 0, "and none is left");
    for (unsigned i = 0; i < processors(); i++)
        expect(cubejobs_fit_release(&fit, i * 5 % processors(), 0) == CUBEJOBS_FIT_DONE, "each comes back");
    expect_image("all is free again");
}

// ---- any bytes

// Makes the model hold random blocks.
static void hold_some(void) {
    const unsigned most = random_below(1u << (dim / 2)) + random_below(8);
    model_clear();
    for (unsigned i = 0; i < most; i++) {
        struct act act = random_act(CALLS);
        act.call = TAKE_AT;
        (void)model_call(act);
    }
}

// Puts random bytes: all of them, or those after the head, or rooms that a sound image may have; or a sound image.
static void put_random(unsigned kind) {
    hold_some();
    model_image();
    memcpy(image, wanted, bytes());
    if (kind == 4) return;
    for (size_t i = kind ? 8 : 0; i < bytes(); i++)
        image[i] = (unsigned char)random_below(kind < 2 || i < HEAD ? 256 : kind == 2 ? dim + 3 : 3);
    for (unsigned k = 0; kind && k < 21 && random_below(2); k++) memset(image + 8 + 4 * (size_t)k, 0, 4);
}

// Puts a sound image of which one byte has another value. Sometimes all have their own.
static void put_changed(unsigned kind) {
    hold_some();
    model_image();
    memcpy(image, wanted, bytes());
    if (kind) image[random_below((unsigned)bytes())] ^= (unsigned char)(1 + random_below(255));
}

// Sees that an attach accepts an image exactly if it is that of the blocks in it, and that a repair makes it so.
static void attach_and_repair(void) {
    static unsigned char before[HEAD + (2 << MOST_IMAGE_DIM)];
    const struct cubejobs_fit none = {NULL, 0};
    uint32_t mark, dimension;
    bool is_sound, is_mine;
    memcpy(before, image, bytes());
    memcpy(&mark, image, 4);
    memcpy(&dimension, image + 4, 4);
    model_of(image);
    model_image();
    is_sound = memcmp(image, wanted, bytes()) == 0;
    is_mine = mark == CUBEJOBS_FIT_MARK && dimension == dim;
    fit = none;
    expect(cubejobs_fit_attach(&fit, image, bytes(), dim) == (is_sound ? CUBEJOBS_FIT_DONE : CUBEJOBS_FIT_BAD_IMAGE),
           is_sound ? "attach refuses a sound image" : "attach accepts an image that is not sound");
    expect(fit.memory == (is_sound ? image : NULL), "the view of an attach");
    expect(memcmp(image, before, bytes()) == 0, "an attach changed a byte");
    fit = none;
    expect(cubejobs_fit_repair(&fit, image, bytes(), dim) == (is_mine ? CUBEJOBS_FIT_DONE : CUBEJOBS_FIT_BAD_IMAGE),
           "the code of a repair");
    expect(fit.memory == (is_mine ? image : NULL), "the view of a repair");
    expect(memcmp(image, is_mine ? wanted : before, bytes()) == 0, "the image after a repair");
    made[TAKE] += is_sound;
    memcpy(image, before, bytes());
}

static void call_over_any_bytes(void) {
    fit.memory = image;
    fit.dim = dim;
    for (unsigned i = 0; i < CALLS_OF_IMAGE; i++) {
        const struct act act = random_act(CALLS);
        (void)library_call(&fit, act);
        (void)cubejobs_fit_is_free(&fit, act.base, act.k);
        (void)cubejobs_fit_free_blocks(&fit, act.k);
        (void)cubejobs_fit_occupancy(&fit);
    }
    expect_guards();
    expect(cubejobs_fit_repair(&fit, image, bytes(), dim) <= CUBEJOBS_FIT_BAD_IMAGE, "a repair of any bytes");
    expect(cubejobs_fit_open(&fit, image, bytes(), dim) == CUBEJOBS_FIT_DONE, "an open of any bytes");
    model_clear();
    expect_image("the image after an open of any bytes");
    expect_guards();
}

static void try_images(long images) {
    memset(made, 0, sizeof made);
    for (long i = 0; i < 2 * images; i++) {
        dim = random_below(MOST_IMAGE_DIM + 1);
        place(random_below(2));
        if (i < images)
            put_random((unsigned)(i % 5));
        else
            put_changed(random_below(8));
        attach_and_repair();
        call_over_any_bytes();
    }
    expect(made[TAKE] > (unsigned long)images / 5, "too few images were sound");
}

// ---- worked rows

#define expect_code(call, code) expect((call) == (code), #call)

// Sees each code of a call on a machine of dimension 3, the first of two, and that a refusal changes nothing.
static void expect_codes(void) {
    dim = 3;
    open_both(true);
    expect_answer(cubejobs_fit_take(&fit, 1), 0, 1, 0, "a pair at 0");
    expect_answer(cubejobs_fit_take_at(&fit, 4, 0), 0, 0, 4, "a processor at 4");
    put(0, 1, true);
    put(4, 0, true);
    expect_image("two blocks");
    expect_answer(cubejobs_fit_take(&fit, 4), CUBEJOBS_FIT_BAD_DIMENSION, 0, 0, "dimension 4");
    expect_answer(cubejobs_fit_take(&fit, UINT32_MAX), CUBEJOBS_FIT_BAD_DIMENSION, 0, 0, "the worst dimension");
    expect_answer(cubejobs_fit_take(&fit, 2), CUBEJOBS_FIT_NO_ROOM, 0, 0, "four processors");
    expect_answer(cubejobs_fit_take_at(&fit, UINT64_MAX, 4), CUBEJOBS_FIT_BAD_DIMENSION, 0, 0, "the worst base, 4");
    expect_answer(cubejobs_fit_take_at(&fit, UINT64_MAX, 0), CUBEJOBS_FIT_BAD_BASE, 0, 0, "the worst base");
    expect_answer(cubejobs_fit_take_at(&fit, 8, 0), CUBEJOBS_FIT_BAD_BASE, 0, 0, "a processor at 8");
    expect_answer(cubejobs_fit_take_at(&fit, 1, 1), CUBEJOBS_FIT_BAD_BASE, 0, 0, "a pair at 1");
    expect_answer(cubejobs_fit_take_at(&fit, 4, 1), CUBEJOBS_FIT_TAKEN, 0, 0, "a pair of which one is held");
    expect_answer(cubejobs_fit_take_at(&fit, 1, 0), CUBEJOBS_FIT_TAKEN, 0, 0, "a part of a pair");
    expect_code(cubejobs_fit_release(&fit, UINT64_MAX, 4), CUBEJOBS_FIT_BAD_DIMENSION);
    expect_code(cubejobs_fit_release(&fit, 1, 1), CUBEJOBS_FIT_BAD_BASE);
    expect_code(cubejobs_fit_release(&fit, 2, 1), CUBEJOBS_FIT_NOTHING_HELD);
    expect_code(cubejobs_fit_release(&fit, 0, 0), CUBEJOBS_FIT_NOTHING_HELD);
    expect_code(cubejobs_fit_release(&fit, 1, 0), CUBEJOBS_FIT_NOTHING_HELD);
    expect_code(cubejobs_fit_release(&fit, 0, 2), CUBEJOBS_FIT_NOTHING_HELD);
    expect_code(cubejobs_fit_split(&fit, UINT64_MAX, 0), CUBEJOBS_FIT_BAD_DIMENSION);
    expect_code(cubejobs_fit_split(&fit, 0, 4), CUBEJOBS_FIT_BAD_DIMENSION);
    expect_code(cubejobs_fit_split(&fit, 1, 1), CUBEJOBS_FIT_BAD_BASE);
    expect_code(cubejobs_fit_split(&fit, 2, 1), CUBEJOBS_FIT_NOTHING_HELD);
    expect_code(cubejobs_fit_split(&fit, 0, 2), CUBEJOBS_FIT_NOTHING_HELD);
    expect_code(cubejobs_fit_join(&fit, UINT64_MAX, 0), CUBEJOBS_FIT_BAD_DIMENSION);
    expect_code(cubejobs_fit_join(&fit, UINT64_MAX, 1), CUBEJOBS_FIT_BAD_BASE);
    expect_code(cubejobs_fit_join(&fit, 4, 1), CUBEJOBS_FIT_NOT_HALVES);
    expect_code(cubejobs_fit_join(&fit, 0, 1), CUBEJOBS_FIT_NOT_HALVES);
    expect_answer(cubejobs_fit_first_apart(&fit, 4, UINT64_MAX, 0), CUBEJOBS_FIT_BAD_DIMENSION, 0, 0, "apart: k");
    expect_answer(cubejobs_fit_first_apart(&fit, 0, UINT64_MAX, 4), CUBEJOBS_FIT_BAD_DIMENSION, 0, 0, "apart: avoid");
    expect_answer(cubejobs_fit_first_apart(&fit, 0, 1, 1), CUBEJOBS_FIT_BAD_BASE, 0, 0, "apart: base");
    expect_answer(cubejobs_fit_first_apart(&fit, 1, 0, 3), CUBEJOBS_FIT_NO_ROOM, 0, 0, "apart from all");
    expect_answer(cubejobs_fit_first_apart(&fit, 0, 2, 1), CUBEJOBS_FIT_DONE, 0, 5, "apart from the first");
    expect_answer(cubejobs_fit_block_with(&fit, 8), CUBEJOBS_FIT_BAD_BASE, 0, 0, "the block with no processor");
    expect_answer(cubejobs_fit_block_with(&fit, 3), CUBEJOBS_FIT_NOTHING_HELD, 0, 0, "a block that is not held");
    expect_answer(cubejobs_fit_block_with(&fit, 1), CUBEJOBS_FIT_DONE, 1, 0, "a block that is held");
    expect_image("a refusal changed the image");
    expect_code(cubejobs_fit_split(&fit, 0, 1), CUBEJOBS_FIT_DONE);
    expect_code(cubejobs_fit_release(&fit, 0, 1), CUBEJOBS_FIT_NOTHING_HELD);
    expect_code(cubejobs_fit_join(&fit, 0, 1), CUBEJOBS_FIT_DONE);
    expect_code(cubejobs_fit_release(&fit, 1, 0), CUBEJOBS_FIT_NOTHING_HELD);
    expect_image("a split and a join");
    expect_code(cubejobs_fit_release(&fit, 0, 1), CUBEJOBS_FIT_DONE);
    expect_code(cubejobs_fit_release(&fit, 0, 1), CUBEJOBS_FIT_NOTHING_HELD);
    expect_guards();
}

// Sees the bytes of an image as the header has them: a pair at 0 is held, of four processors.
static void expect_format(void) {
    unsigned char rows[HEAD + 8] = {'c', 'j', 'f', '1', 2};
    const unsigned char rooms[] = {0, 3, 0, 3, 2, 2, 2, 2};
    const uint32_t one = 1;
    const union { uint32_t word; unsigned char bytes[4]; } order = {1};
    if (!order.bytes[0]) return;
    memcpy(rows + 12, &one, 4);
    memcpy(rows + HEAD, rooms, sizeof rooms);
    dim = 2;
    open_both(false);
    expect_answer(cubejobs_fit_take(&fit, 1), 0, 1, 0, "a pair");
    expect(memcmp(image, rows, sizeof rows) == 0, "the bytes of an image");
}

static void expect_codes_of(struct cubejobs_fit *view, unsigned code) {
    const struct cubejobs_fit_occupancy_answer occupancy = cubejobs_fit_occupancy(view);
    for (unsigned call = 0; call < CALLS; call++) {
        const struct act act = {call, 22, 22, 1};
        expect_answer(library_call(view, act), code, 0, 0, names[call]);
    }
    expect(!cubejobs_fit_is_free(view, 0, 0) && cubejobs_fit_free_blocks(view, 0) == 0, "questions to no machine");
    expect(occupancy.code == code && !occupancy.has_free && !occupancy.held && !occupancy.free[0], "no occupancy");
}

typedef enum cubejobs_fit_code opening(struct cubejobs_fit *, void *, size_t, uint32_t);
static enum cubejobs_fit_code open_it(struct cubejobs_fit *view, void *memory, size_t size, uint32_t k) {
    return cubejobs_fit_open(view, memory, size, k);
}
static enum cubejobs_fit_code attach_it(struct cubejobs_fit *view, void *memory, size_t size, uint32_t k) {
    return cubejobs_fit_attach(view, memory, size, k);
}
static enum cubejobs_fit_code repair_it(struct cubejobs_fit *view, void *memory, size_t size, uint32_t k) {
    return cubejobs_fit_repair(view, memory, size, k);
}

// Sees each bad argument of what sets a view, the first of two. None of them touches the view or the memory.
static void expect_codes_of_opening(opening *call) {
    dim = 3;
    open_both(false);
    expect_code(call(&fit, image, 7, 21), CUBEJOBS_FIT_BAD_DIMENSION);
    expect_code(call(&fit, NULL, SIZE_MAX, UINT32_MAX), CUBEJOBS_FIT_BAD_DIMENSION);
    expect_code(call(&fit, image, 0, 0), CUBEJOBS_FIT_BAD_SIZE);
    expect_code(call(&fit, image, 97, 0), CUBEJOBS_FIT_BAD_SIZE);
    expect_code(call(&fit, image, 127, 4), CUBEJOBS_FIT_BAD_SIZE);
    expect_code(call(&fit, NULL, SIZE_MAX, 4), CUBEJOBS_FIT_BAD_SIZE);
    for (unsigned odd = 1; odd < 8; odd++) expect_code(call(&fit, image + odd, SIZE_MAX, 3), CUBEJOBS_FIT_BAD_SIZE);
    expect(fit.memory == image && fit.dim == 3, "a refusal changed the view");
    expect_image("a refusal changed the image");
    expect_code(call(&fit, image, SIZE_MAX, 3), CUBEJOBS_FIT_DONE);
    expect_guards();
}

static void expect_views(void) {
    struct cubejobs_fit view = {NULL, 0};
    expect_codes_of(&view, CUBEJOBS_FIT_BAD_SIZE);
    expect(cubejobs_fit_bytes(21) == 0 && cubejobs_fit_bytes(UINT32_MAX) == 0, "bytes of no machine");
    expect(cubejobs_fit_bytes(0) == 98 && cubejobs_fit_bytes(20) == 96 + 2097152, "bytes of machines");
    expect_codes_of_opening(open_it);
    expect_codes_of_opening(attach_it);
    expect_codes_of_opening(repair_it);
    expect_code(cubejobs_fit_attach(&fit, image, bytes(), 2), CUBEJOBS_FIT_BAD_IMAGE);
    expect_code(cubejobs_fit_repair(&fit, image, bytes(), 2), CUBEJOBS_FIT_BAD_IMAGE);
    view = fit;
    view.dim = 21;
    expect_codes_of(&view, CUBEJOBS_FIT_BAD_DIMENSION);
    view = fit;
    expect_answer(cubejobs_fit_take(&view, 3), 0, 3, 0, "a copy of a view");
    expect_answer(cubejobs_fit_take(&fit, 0), CUBEJOBS_FIT_NO_ROOM, 0, 0, "is a view of the same image");
    expect_code(cubejobs_image_open((struct cubejobs_fit_head *)image, image + HEAD, 15, 3), CUBEJOBS_FIT_BAD_SIZE);
    expect_code(cubejobs_image_check((struct cubejobs_fit_head *)image, image + HEAD, 0, 3), CUBEJOBS_FIT_BAD_SIZE);
    expect_code(cubejobs_image_take((struct cubejobs_fit_head *)image, image + HEAD, 15, 3, 9).code,
                CUBEJOBS_FIT_BAD_SIZE);
    expect_code(cubejobs_image_repair((struct cubejobs_fit_head *)image, image + HEAD, 15, 64),
                CUBEJOBS_FIT_BAD_DIMENSION);
}

// ---- images that are shared, copied and in files

// Runs one step in another process, and waits for it.
static void in_a_child(void (*step)(void)) {
    int status;
    pid_t child = fork();
    expect(child >= 0, "fork");
    if (child == 0) {
        step();
        _exit(0);
    }
    expect(waitpid(child, &status, 0) == child && WIFEXITED(status) && WEXITSTATUS(status) == 0, "a step of the child");
}

static void release_the_pair(void) {
    expect(cubejobs_fit_release(&fit, 0, 1) == CUBEJOBS_FIT_DONE, "the child releases the pair of the parent");
    expect_answer(cubejobs_fit_take(&fit, 0), 0, 0, 0, "the child takes a processor");
}

static void *mapped(int file, size_t size) {
    const int flags = file < 0 ? MAP_SHARED | MAP_ANONYMOUS : MAP_SHARED;
    void *memory = mmap(NULL, size, PROT_READ | PROT_WRITE, flags, file, 0);
    expect(memory != MAP_FAILED, "mmap");
    return memory;
}

// Two processes share an image: what one takes the other releases. What a process that has ended holds is found.
static void share_an_image(void) {
    void *const shared = mapped(-1, 128);
    dim = 3;
    expect_code(cubejobs_fit_open(&fit, shared, 128, dim), CUBEJOBS_FIT_DONE);
    expect_answer(cubejobs_fit_take(&fit, 1), 0, 1, 0, "the parent takes a pair");
    in_a_child(release_the_pair);
    expect_answer(cubejobs_fit_take(&fit, 2), 0, 2, 4, "the parent finds the child's processor");
    expect_answer(cubejobs_fit_block_with(&fit, 0), 0, 0, 0, "the block of the child that has ended");
    expect_code(cubejobs_fit_release(&fit, 0, 0), CUBEJOBS_FIT_DONE);
    expect_code(cubejobs_fit_release(&fit, 4, 2), CUBEJOBS_FIT_DONE);
    expect_answer(cubejobs_fit_first(&fit, 3), 0, 3, 0, "all is free");
    expect(munmap(shared, 128) == 0, "munmap");
}

// An image in a file: what was taken is held once the file is mapped again, at two addresses. A copy is a machine.
static void reopen_a_file(void) {
    char name[] = "/tmp/cubejobs-fit-XXXXXX";
    const size_t size = (size_t)cubejobs_fit_bytes(5);
    const int file = mkstemp(name);
    struct cubejobs_fit other, copied;
    static uint64_t copy[20];
    unsigned char *memory, *again;
    expect(file >= 0 && unlink(name) == 0 && ftruncate(file, (off_t)size) == 0, "a file");
    dim = 5;
    memory = (unsigned char *)mapped(file, size);
    expect_code(cubejobs_fit_attach(&fit, memory, size, dim), CUBEJOBS_FIT_BAD_IMAGE);
    expect_code(cubejobs_fit_open(&fit, memory, size, dim), CUBEJOBS_FIT_DONE);
    expect_answer(cubejobs_fit_take(&fit, 3), 0, 3, 0, "eight processors");
    expect(munmap(memory, size) == 0, "the file is unmapped");
    memory = (unsigned char *)mapped(file, size);
    again = (unsigned char *)mapped(file, size);
    expect_code(cubejobs_fit_attach(&fit, memory, size, dim), CUBEJOBS_FIT_DONE);
    expect_code(cubejobs_fit_attach(&other, again, size, dim), CUBEJOBS_FIT_DONE);
    expect_answer(cubejobs_fit_take(&fit, 4), 0, 4, 16, "what was taken is still held");
    expect_answer(cubejobs_fit_block_with(&other, 31), 0, 4, 16, "and through another mapping");
    memcpy(copy, memory, size);
    expect_code(cubejobs_fit_attach(&copied, copy, sizeof copy, dim), CUBEJOBS_FIT_DONE);
    expect_code(cubejobs_fit_release(&copied, 16, 4), CUBEJOBS_FIT_DONE);
    expect_code(cubejobs_fit_release(&other, 16, 4), CUBEJOBS_FIT_DONE);
    again[size - 1] = 0;
    expect_code(cubejobs_fit_attach(&fit, memory, size, dim), CUBEJOBS_FIT_BAD_IMAGE);
    expect(munmap(memory, size) == 0 && munmap(again, size) == 0 && close(file) == 0, "the file is closed");
}

int main(int argc, char **argv) {
    const long calls = argc > 1 ? strtol(argv[1], NULL, 10) : 100000;
    const long images = argc > 2 ? strtol(argv[2], NULL, 10) : 10000;
    map_pages();
    for (dim = 0; dim <= 12; dim++) call_many(calls);
    for (unsigned call = 0; call < CALLS; call++)
        expect(made[call] > 9 * (unsigned long)calls / 10 && (call >= FIRST || refused[call] > made[call] / 50) &&
                   (refused[call] < made[call] * 49 / 50), "too few calls of a kind, or too few that were refused");
    dim = 16, call_many(calls / 200);
    dim = 20, call_many(calls / 5000);
    take_each();
    try_images(images);
    expect_codes();
    expect_format();
    expect_views();
    share_an_image();
    reopen_a_file();
    expect(cubejobs_fit_version_number() == CUBEJOBS_VERSION_NUMBER, "the version");
    printf("fit: %ld random calls on each of 13 machines, %ld images of random bytes, and as many with a changed one\n",
           calls, images);
    return 0;
}
