/* A stand-in for calls of the C library, by which the check `files` comes between the program and its temporary file.
 * Build it with gcc -shared -fPIC and name it in LD_PRELOAD. STAND_IN names what it does:
 *
 *   order  ends the program with status 99 where a file is renamed before one was brought to its disk
 *   swap   puts another file under the name of each temporary file of the folder, once the program's is on its disk
 *   refuse makes each rename fail
 */
#define _GNU_SOURCE
#include <dirent.h>
#include <errno.h>
#include <fcntl.h>
#include <stdio.h>
#include <stdlib.h>
#include <string.h>
#include <sys/syscall.h>
#include <unistd.h>

static int is_on_disk;

static int is_to(const char *what) {
    const char *asked = getenv("STAND_IN");
    return asked && strcmp(asked, what) == 0;
}

/* Puts a file with the text "another's" under the name of each temporary file of the working folder. */
static void swap(void) {
    DIR *folder = opendir(".");
    struct dirent *entry;
    while (folder && (entry = readdir(folder))) {
        if (strncmp(entry->d_name, ".cubejobs-", 10) == 0) {
            int file;
            unlink(entry->d_name);
            file = open(entry->d_name, O_WRONLY | O_CREAT | O_EXCL, 0644);
            if (file < 0 || write(file, "another's\n", 10) != 10) _exit(98);
            close(file);
        }
    }
    if (folder) closedir(folder);
}

int fsync(int file) {
    int done = (int)syscall(SYS_fsync, file);
    is_on_disk = 1;
    if (is_to("swap")) swap();
    return done;
}

int rename(const char *from, const char *to) {
    if (is_to("order") && !is_on_disk) _exit(99);
    if (is_to("refuse")) {
        errno = EACCES;
        return -1;
    }
    return (int)syscall(SYS_rename, from, to);
}
