/* Refuses requests for memory of a program: as many as REFUSE_COUNT says (1 if it is not there, and all if it is 0),
 * from the one whose number is in REFUSE on, counted from 1; and starts of threads: the one whose number is in
 * REFUSE_THREAD, and all after it. When the program ends, the file that COUNT_FILE names gets the numbers of requests
 * and of starts, and how many bytes were asked for, in all and before the first start.
 *
 * Where TELL is set, a line follows each line that the program writes to standard output: '#', and how many
 * requests there were so far, how many of them were refused, and how many blocks of memory it holds.
 *
 * Build it with gcc -shared -fPIC, and name it in LD_PRELOAD. */
#define _GNU_SOURCE
#include <dlfcn.h>
#include <errno.h>
#include <pthread.h>
#include <stdio.h>
#include <stdlib.h>
#include <sys/syscall.h>
#include <unistd.h>

static _Atomic unsigned long requests, refusals, held, starts, bytes_asked, bytes_before;
static unsigned long first_refused, most_refused, first_refused_start;
static int tells;

static unsigned long number_in(const char *name, unsigned long otherwise) {
    const char *word = getenv(name);
    return word ? strtoul(word, NULL, 10) : otherwise;
}

__attribute__((constructor)) static void begin(void) {
    first_refused = number_in("REFUSE", 0);
    most_refused = number_in("REFUSE_COUNT", 1);
    first_refused_start = number_in("REFUSE_THREAD", 0);
    tells = getenv("TELL") != NULL;
    requests = refusals = held = starts = bytes_asked = bytes_before = 0;
}

__attribute__((destructor)) static void end(void) {
    const unsigned long total = requests, begun = starts, bytes = bytes_asked, before = bytes_before;
    const char *name = getenv("COUNT_FILE");
    FILE *file = name ? fopen(name, "w") : NULL;
    if (file) {
        fprintf(file, "%lu %lu %lu %lu\n", total, begun, bytes, before);
        fclose(file);
    }
}

/* A program that has started threads ends so, and no destructor runs. */
void _exit(int status) {
    end();
    for (;;) syscall(SYS_exit_group, status);
}

/* Whether this request, for `size` bytes, is one to refuse. */
static int refuses(size_t size) {
    const unsigned long number = ++requests;
    bytes_asked += size;
    if (!first_refused || number < first_refused) return 0;
    if (most_refused && number - first_refused >= most_refused) return 0;
    refusals++;
    return 1;
}

/* The function of this name that comes after the one of this file. */
#define REAL(name) \
    static __typeof__(&name) real; \
    if (!real) real = (__typeof__(&name))dlsym(RTLD_NEXT, #name)

int pthread_create(pthread_t *thread, const pthread_attr_t *attributes, void *(*body)(void *), void *argument) {
    REAL(pthread_create);
    const unsigned long number = ++starts;
    if (number == 1) bytes_before = bytes_asked;
    return first_refused_start && number >= first_refused_start ? EAGAIN : real(thread, attributes, body, argument);
}

void *malloc(size_t size) {
    REAL(malloc);
    void *block = refuses(size) ? NULL : real(size);
    held += block != NULL;
    return block;
}

void *realloc(void *block, size_t size) {
    REAL(realloc);
    void *grown = refuses(size) ? NULL : real(block, size);
    held += grown && !block;
    return grown;
}

void free(void *block) {
    REAL(free);
    held -= block != NULL;
    real(block);
}

/* Writes the line about the requests so far, which takes no memory. */
static void tell(void) {
    char line[80];
    int length = snprintf(line, sizeof line, "# %lu %lu %lu\n", requests, refusals, held);
    syscall(SYS_write, 1, line, length);
}

ssize_t write(int file, const void *bytes, size_t length) {
    long written = syscall(SYS_write, file, bytes, length);
    if (tells && file == 1 && written > 0 && ((const char *)bytes)[written - 1] == '\n') tell();
    return written;
}
