/* Preloaded before the C library: tells in which order a program writes files, hands them to the disk and answers.
 *
 * To the file CALLS_TOLD a line is appended for each call that succeeds: `make NAME`, `write NAME`, `cut NAME`,
 * `sync NAME` and `rename NAME OTHER` with the names of files, and `answer` for what is written to standard output. With
 * CALLS_LOST no sync is made or told, as by a program that has none.
 */
#define _GNU_SOURCE
#include <dlfcn.h>
#include <fcntl.h>
#include <limits.h>
#include <stdarg.h>
#include <stdio.h>
#include <stdlib.h>
#include <string.h>
#include <unistd.h>

#include "next.h"

static void tell(const char *line) {
    const char *told = getenv("CALLS_TOLD");
    int file = told == NULL ? -1 : open(told, O_WRONLY | O_APPEND | O_CREAT | O_CLOEXEC, 0600);
    if (file < 0) return;
    (void)!NEXT(write)(file, line, strlen(line));
    close(file);
}

static void tell_of(const char *call, int file) {
    char link[64], name[PATH_MAX], line[PATH_MAX + 64];
    snprintf(link, sizeof link, "/proc/self/fd/%d", file);
    ssize_t size = readlink(link, name, sizeof name - 1);
    if (size < 0) return;
    name[size] = 0;
    snprintf(line, sizeof line, "%s %s\n", call, name);
    tell(line);
}

int open(const char *name, int flags, ...) {
    va_list rest;
    va_start(rest, flags);
    /* (whoever makes no file gives no mode) */
    mode_t mode = flags & O_CREAT ? va_arg(rest, mode_t) : 0;
    va_end(rest);
    int file = NEXT(open)(name, flags, mode);
    if (file >= 0 && flags & O_EXCL) tell_of("make", file);
    return file;
}

ssize_t read(int file, void *bytes, size_t size) {
    return file == STDIN_FILENO ? read_line(bytes, size) : NEXT(read)(file, bytes, size);
}

static void wrote(int file) {
    if (file == STDOUT_FILENO) tell("answer\n");
    else if (file != STDERR_FILENO) tell_of("write", file);
}

ssize_t write(int file, const void *bytes, size_t size) {
    ssize_t written = NEXT(write)(file, bytes, size);
    if (written > 0) wrote(file);
    return written;
}

ssize_t __write(int file, const void *bytes, size_t size) { return write(file, bytes, size); }

ssize_t pwrite(int file, const void *bytes, size_t size, off_t at) {
    ssize_t written = NEXT(pwrite)(file, bytes, size, at);
    if (written > 0) tell_of("write", file);
    return written;
}

int ftruncate(int file, off_t size) {
    int status = NEXT(ftruncate)(file, size);
    if (!status) tell_of("cut", file);
    return status;
}

static int synced(int file, int (*next)(int)) {
    if (getenv("CALLS_LOST") != NULL) return 0;
    int status = next(file);
    if (!status) tell_of("sync", file);
    return status;
}

int fdatasync(int file) { return synced(file, NEXT(fdatasync)); }

int fsync(int file) { return synced(file, NEXT(fsync)); }

int rename(const char *name, const char *other) {
    int status = NEXT(rename)(name, other);
    if (!status) {
        char line[2 * PATH_MAX + 16];
        snprintf(line, sizeof line, "rename %s %s\n", name, other);
        tell(line);
    }
    return status;
}
