/* The heap of the libraries and of the program on aarch64, over malloc. The toolchain has these three functions for
 * x86-64 only. Their contracts are those of the toolchain's library `libc`; nothing proves this file.
 *
 * A request for no bytes asks for as many as its alignment, which is at most 16: malloc aligns to 16. */
typedef unsigned long size;

extern void *malloc(size bytes);
extern void *realloc(void *block, size bytes);
extern void free(void *block);

/* The result of a request: whether it succeeded, and the block. A refused request has a pointer that is not null. */
struct tried {
    _Bool ok;
    void *block;
};

static char nothing;

static struct tried tried(void *block) {
    struct tried result = {block != 0, block ? block : &nothing};
    return result;
}

struct tried rattle_alloc(size bytes, size alignment) {
    return tried(malloc(bytes ? bytes : alignment));
}

struct tried rattle_realloc(void *block, size kept, size bytes, size alignment) {
    (void)kept;
    return tried(realloc(block, bytes ? bytes : alignment));
}

void rattle_dealloc(void *block) {
    free(block);
}
