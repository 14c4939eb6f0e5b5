/* Preloaded before the C library: records what a program does to the files of one folder, with the bytes, and what it
 * answers and sends, in order, so that crashes beside this file can make the states that a disk may leave.
 *
 * RECORDED is the folder (its real path), RECORDED_TO the file to which records are appended. A record is a line `CALL
 * WORDS.. LENGTH` and so many bytes behind it:
 *
 *   create INODE NAME 0     a name that was not there    write INODE AT LENGTH    with the bytes
 *   cut INODE SIZE 0        ftruncate, O_TRUNC           sync INODE 0             fsync, fdatasync
 *   folder 0                the folder was synced        rename NAME NAME 0, link NAME NAME 0, unlink NAME 0
 *   answer LENGTH           to standard output           sent LENGTH              to a socket
 *
 * Only calls that succeed are recorded. Whoever makes a name anew begins a new file, also under an inode that was free.
 * The program has one thread.
 */
#define _GNU_SOURCE
#include <dlfcn.h>
#include <fcntl.h>
#include <limits.h>
#include <stdarg.h>
#include <stddef.h>
#include <stdio.h>
#include <stdlib.h>
#include <string.h>
#include <sys/sendfile.h>
#include <sys/socket.h>
#include <sys/stat.h>
#include <sys/uio.h>
#include <unistd.h>

#include "next.h"

static void record_bytes(const char *line, const void *bytes, size_t size) {
    const char *to = getenv("RECORDED_TO");
    int file = to == NULL ? -1 : NEXT(open)(to, O_WRONLY | O_APPEND | O_CREAT | O_CLOEXEC, 0600);
    if (file < 0) return;
    char head[2 * PATH_MAX + 64];
    int length = snprintf(head, sizeof head, "%s %zu\n", line, size);
    struct iovec parts[] = {{head, length}, {(void *)bytes, size}};
    if (NEXT(writev)(file, parts, 2) != (ssize_t)(length + size)) abort();
    close(file);
}

__attribute__((format(printf, 1, 2))) static void record(const char *form, ...) {
    char line[2 * PATH_MAX + 32];
    va_list rest;
    va_start(rest, form);
    vsnprintf(line, sizeof line, form, rest);
    va_end(rest);
    record_bytes(line, NULL, 0);
}

/* The name in the folder that a real path has, or NULL; the folder's own is ".". */
static const char *within(const char *path) {
    const char *folder = getenv("RECORDED");
    size_t size = folder == NULL ? 0 : strlen(folder);
    if (!size || strncmp(path, folder, size)) return NULL;
    return path[size] == 0 ? "." : path[size] == '/' ? path + size + 1 : NULL;
}

static const char *name_of(int file, char *room) {
    char link[64];
    snprintf(link, sizeof link, "/proc/self/fd/%d", file);
    ssize_t size = readlink(link, room, PATH_MAX - 1);
    if (size < 0) return NULL;
    room[size] = 0;
    return within(room);
}

/* The same of a path, whose folder is looked up: the name itself need not be there. */
static const char *name_at(const char *path, char *room) {
    char folder[PATH_MAX];
    const char *slash = strrchr(path, '/');
    snprintf(folder, sizeof folder, "%.*s/", slash == NULL ? 1 : (int)(slash - path), slash == NULL ? "." : path);
    if (realpath(folder, room) == NULL) return NULL;
    size_t size = strlen(room);
    snprintf(room + size, PATH_MAX - size, "/%s", slash == NULL ? path : slash + 1);
    return within(room);
}

static unsigned long inode(int file) {
    struct stat it;
    return fstat(file, &it) ? 0 : it.st_ino;
}

static int open_it(int at, const char *path, int flags, mode_t mode) {
    struct stat there;
    char room[PATH_MAX];
    int was_there = !fstatat(at, path, &there, 0);
    int file = NEXT(openat)(at, path, flags, mode);
    const char *name = file < 0 ? NULL : name_of(file, room);
    if (name == NULL) return file;
    if (flags & O_CREAT && !was_there) record("create %lu %s", inode(file), name);
    else if (flags & O_TRUNC) record("cut %lu 0", inode(file));
    return file;
}

/* (whoever makes no file gives no mode) */
#define OPENS(at)                                                                      \
    {                                                                                  \
        va_list rest;                                                                  \
        va_start(rest, flags);                                                         \
        mode_t mode = flags & (O_CREAT | O_TMPFILE) ? va_arg(rest, mode_t) : 0;        \
        va_end(rest);                                                                  \
        return open_it(at, path, flags, mode);                                         \
    }

int open(const char *path, int flags, ...) OPENS(AT_FDCWD)
int open64(const char *path, int flags, ...) OPENS(AT_FDCWD)
int openat(int at, const char *path, int flags, ...) OPENS(at)
int openat64(int at, const char *path, int flags, ...) OPENS(at)

ssize_t read(int file, void *bytes, size_t size) {
    return file == STDIN_FILENO ? read_line(bytes, size) : NEXT(read)(file, bytes, size);
}

/* Records bytes that were written, which end where the file stands, or begin at a byte. */
static ssize_t wrote(int file, const void *bytes, ssize_t size, off_t at) {
    char room[PATH_MAX], line[96];
    struct stat it;
    if (size <= 0) return size;
    if (file == STDOUT_FILENO) record_bytes("answer", bytes, size);
    else if (!fstat(file, &it) && S_ISSOCK(it.st_mode)) record_bytes("sent", bytes, size);
    else if (name_of(file, room) != NULL) {
        if (at < 0) at = lseek(file, 0, SEEK_CUR) - size;
        snprintf(line, sizeof line, "write %lu %lld", inode(file), (long long)at);
        record_bytes(line, bytes, size);
    }
    return size;
}

ssize_t write(int file, const void *bytes, size_t size) {
    return wrote(file, bytes, NEXT(write)(file, bytes, size), -1);
}
ssize_t __write(int file, const void *bytes, size_t size) { return write(file, bytes, size); }
ssize_t pwrite(int file, const void *bytes, size_t size, off_t at) {
    return wrote(file, bytes, NEXT(pwrite)(file, bytes, size, at), at);
}
ssize_t pwrite64(int file, const void *bytes, size_t size, off_t at) { return pwrite(file, bytes, size, at); }
ssize_t send(int file, const void *bytes, size_t size, int flags) {
    return wrote(file, bytes, NEXT(send)(file, bytes, size, flags), -1);
}

static ssize_t wrote_parts(int file, const struct iovec *parts, ssize_t size) {
    char *bytes = size > 0 ? malloc(size) : NULL;
    if (size <= 0) return size;
    if (bytes == NULL) abort();
    for (ssize_t at = 0, here; at < size; at += here, parts++) {
        here = (ssize_t)parts->iov_len < size - at ? (ssize_t)parts->iov_len : size - at;
        memcpy(bytes + at, parts->iov_base, here);
    }
    wrote(file, bytes, size, -1);
    free(bytes);
    return size;
}

ssize_t writev(int file, const struct iovec *parts, int count) {
    return wrote_parts(file, parts, NEXT(writev)(file, parts, count));
}
ssize_t sendmsg(int file, const struct msghdr *it, int flags) {
    return wrote_parts(file, it->msg_iov, NEXT(sendmsg)(file, it, flags));
}

/* (the file that is written may not be open for reading) */
ssize_t sendfile(int to, int from, off_t *at, size_t count) {
    ssize_t size = NEXT(sendfile)(to, from, at, count);
    if (size <= 0) return size;
    char name[64], *copy = malloc(size);
    snprintf(name, sizeof name, "/proc/self/fd/%d", to);
    off_t begin = lseek(to, 0, SEEK_CUR) - size;
    int again = NEXT(open)(name, O_RDONLY | O_CLOEXEC);
    if (copy == NULL || again < 0 || pread(again, copy, size, begin) != size) abort();
    close(again);
    wrote(to, copy, size, begin);
    free(copy);
    return size;
}

int ftruncate(int file, off_t size) {
    char room[PATH_MAX];
    int status = NEXT(ftruncate)(file, size);
    if (!status && name_of(file, room) != NULL) record("cut %lu %lld", inode(file), (long long)size);
    return status;
}
int ftruncate64(int file, off_t size) { return ftruncate(file, size); }

static int synced(int file, int status) {
    char room[PATH_MAX];
    const char *name = status ? NULL : name_of(file, room);
    if (name == NULL) return status;
    if (!strcmp(name, ".")) record("folder");
    else record("sync %lu", inode(file));
    return status;
}
int fdatasync(int file) { return synced(file, NEXT(fdatasync)(file)); }
int fsync(int file) { return synced(file, NEXT(fsync)(file)); }

int rename(const char *path, const char *other) {
    char rooms[2][PATH_MAX];
    const char *old = name_at(path, rooms[0]), *new = name_at(other, rooms[1]);
    int status = NEXT(rename)(path, other);
    if (!status && old != NULL && new != NULL) record("rename %s %s", old, new);
    return status;
}

int link(const char *path, const char *other) {
    char rooms[2][PATH_MAX];
    const char *old = name_at(path, rooms[0]), *new = name_at(other, rooms[1]);
    int status = NEXT(link)(path, other);
    if (!status && old != NULL && new != NULL) record("link %s %s", old, new);
    return status;
}

int unlink(const char *path) {
    char room[PATH_MAX];
    const char *name = name_at(path, room);
    int status = NEXT(unlink)(path);
    if (!status && name != NULL) record("unlink %s", name);
    return status;
}
