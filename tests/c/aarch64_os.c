/* What the program asks of the system on aarch64, past the C library: its arguments, its environment, and the last
 * error. The toolchain has these functions for x86-64 only. Nothing proves this file. */
typedef unsigned long size;
typedef long signed_size;

extern char **environ;
extern char *getenv(const char *name);
extern int *__errno_location(void);
extern int prctl(int option, unsigned long a, unsigned long b, unsigned long c, unsigned long d);

static int count;
static char **words;

__attribute__((constructor)) static void keep(int given, char **texts) {
    count = given;
    words = texts;
}

/* Copies a text without its last 0, and returns its length: -1 if there is no text, -2 if there is no room for it. */
static signed_size copy(const char *text, unsigned char *to, size room) {
    size length;
    if (!text) return -1;
    for (length = 0; text[length]; length++) {
        if (length == room) return -2;
        to[length] = (unsigned char)text[length];
    }
    return (signed_size)length;
}

size rattle_arg_count(void) {
    return (size)count;
}

signed_size rattle_arg(size number, unsigned char *to, size room) {
    return number < (size)count ? copy(words[number], to, room) : -1;
}

signed_size rattle_env(const char *name, unsigned char *to, size room) {
    return copy(getenv(name), to, room);
}

signed_size rattle_env_at(size number, unsigned char *to, size room) {
    size at;
    for (at = 0; environ && environ[at]; at++)
        if (at == number) return copy(environ[at], to, room);
    return -1;
}

int rattle_errno(void) {
    return *__errno_location();
}

void rattle_set_errno(int error) {
    *__errno_location() = error;
}

/* PR_SET_NAME is 15. */
int rattle_set_thread_name(const char *name) {
    return prctl(15, (unsigned long)name, 0, 0, 0);
}
