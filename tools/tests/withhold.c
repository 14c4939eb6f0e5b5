/* Preloaded before the C library: withholds memory, reads or writes from a program, one after the other.
 *
 * WITHHELD is what: 'memory' (an allocation is refused), 'failing' (a read, a write or a sync fails) or 'short' (a read
 * or a write of several bytes moves one). WITHHELD_UNTIL has a letter for each kind of withholding: 'o' that one alone,
 * 'w' that one and all after it up to the next write to standard output, 'e' that one and all after it.
 *
 * The process is forked where it first writes the text WITHHELD_AFTER to standard output, or behind so many writes as
 * WITHHELD_WRITES says, for the first one, the second, and so on until a run meets none. With WITHHELD_CALL nothing is
 * withheld behind the next write to standard output. Each run reads the file WITHHELD_INPUT, which is the standard
 * input, from where that was read up to, and finds the files WITHHELD_KEPT, whose names a colon parts, as the first one
 * found them. To the file WITHHELD_TOLD a line is written for each run: the kind, the number, the exit status or the
 * signal as a negative number, whether the run met what was withheld, and how many bytes it wrote to standard output
 * and how many those files have, which follow.
 */
#define _GNU_SOURCE
#include <dlfcn.h>
#include <errno.h>
#include <fcntl.h>
#include <stdio.h>
#include <stdlib.h>
#include <string.h>
#include <sys/mman.h>
#include <sys/socket.h>
#include <sys/wait.h>
#include <unistd.h>

#include "next.h"

static char what, until;
static long from, count;
static int is_on, is_over, is_call;
/* behind what the process is forked: a text, or so many writes */
static const char *after;
static long writes;
/* whether the run met what is withheld: shared with the process that forks */
static int *met;

static int is_withheld(char asked) {
    if (!is_on || asked != what) return 0;
    count += 1;
    if (count < from || is_over || (until == 'o' && count > from)) return 0;
    *met = 1;
    return 1;
}

#define MOST_FILES 3
#define MOST_BYTES 65536

/* files of up to three names, and an end */
static struct kept {
    const char *path;
    long size;
    char bytes[MOST_BYTES];
} kept[MOST_FILES + 1];

static void fork_each(void);

void *malloc(size_t size) {
    return is_withheld('m') ? NULL : NEXT(malloc)(size);
}

void *realloc(void *old, size_t size) {
    return is_withheld('m') ? NULL : NEXT(realloc)(old, size);
}

static int fails(void) {
    if (!is_withheld('f')) return 0;
    errno = EIO;
    return 1;
}

static size_t moved(size_t size) {
    return size > 1 && is_withheld('s') ? 1 : size;
}

ssize_t read(int fd, void *bytes, size_t size) {
    if (fails()) return -1;
    return fd == 0 ? read_line(bytes, moved(size)) : NEXT(read)(fd, bytes, moved(size));
}

ssize_t recv(int fd, void *bytes, size_t size, int flags) {
    return fails() ? -1 : NEXT(recv)(fd, bytes, moved(size), flags);
}

ssize_t send(int fd, const void *bytes, size_t size, int flags) {
    return fails() ? -1 : NEXT(send)(fd, bytes, moved(size), flags);
}

int fsync(int fd) {
    return fails() ? -1 : NEXT(fsync)(fd);
}

int fdatasync(int fd) {
    return fails() ? -1 : NEXT(fdatasync)(fd);
}

/* Whether the process is to be forked behind these bytes. */
static int is_mark(const void *bytes, size_t size) {
    writes -= 1;
    return writes == 0 || (after != NULL && size == strlen(after) && memcmp(bytes, after, size) == 0);
}

ssize_t write(int fd, const void *bytes, size_t size) {
    if (fd != 1) return fails() ? -1 : NEXT(write)(fd, bytes, moved(size));
    if (what == 'm') {
        is_over |= until == 'w' && *met;
        is_on &= !is_call;
    }
    ssize_t written = fails() ? -1 : NEXT(write)(fd, bytes, moved(size));
    if (is_mark(bytes, size)) fork_each();
    return written;
}

/* Reads a file from its beginning. */
static long bytes_of(int file, char *bytes) {
    long size = 0, here;
    lseek(file, 0, SEEK_SET);
    while ((here = NEXT(read)(file, bytes + size, MOST_BYTES - size)) > 0) size += here;
    close(file);
    return size;
}

static void remember(char *paths) {
    struct kept *file = kept;
    for (char *path = strtok(paths, ":"); path != NULL; path = strtok(NULL, ":"), file++) {
        file->path = path;
        file->size = bytes_of(open(path, O_RDONLY), file->bytes);
    }
}

static void restore(void) {
    for (struct kept *file = kept; file->path != NULL; file++) {
        int written = open(file->path, O_WRONLY | O_TRUNC);
        if (NEXT(write)(written, file->bytes, file->size) != file->size) abort();
        close(written);
    }
}

/* Writes what came of a run. */
static void tell(FILE *told, int status, int output) {
    static char bytes[MOST_FILES + 1][MOST_BYTES];
    long sizes[MOST_FILES + 1] = {bytes_of(output, bytes[0])};
    int end = WIFEXITED(status) ? WEXITSTATUS(status) : -WTERMSIG(status);
    fprintf(told, "%c %ld %d %d %ld", until, from, end, *met, sizes[0]);
    for (int n = 0; kept[n].path != NULL; n++) {
        sizes[n + 1] = bytes_of(open(kept[n].path, O_RDONLY), bytes[n + 1]);
        fprintf(told, " %ld", sizes[n + 1]);
    }
    fprintf(told, "\n");
    for (int n = 0; n <= MOST_FILES; n++) fwrite(bytes[n], 1, sizes[n], told);
    fflush(told);
}

/* Begins a run in a process of its own, and returns whether this is that process. */
static int is_forked(FILE *told) {
    int status, output = memfd_create("output", 0);
    off_t read_so_far = lseek(0, 0, SEEK_CUR);
    *met = 0;
    restore();
    pid_t run = fork();
    if (run == 0) {
        /* (an input that is shared would be read on by each run) */
        dup2(open(getenv("WITHHELD_INPUT"), O_RDONLY), 0);
        lseek(0, read_so_far, SEEK_SET);
        dup2(output, 1);
        close(output);
        is_on = 1;
        count = is_over = 0;
        return 1;
    }
    waitpid(run, &status, 0);
    tell(told, status, output);
    return 0;
}

static void fork_each(void) {
    FILE *told = fopen(getenv("WITHHELD_TOLD"), "w");
    char *paths = getenv("WITHHELD_KEPT");
    if (paths != NULL) remember(paths);
    after = NULL;
    for (const char *kind = getenv("WITHHELD_UNTIL"); *kind != 0; kind++) {
        until = *kind;
        from = 0;
        do {
            from += 1;
            if (is_forked(told)) return;
        } while (*met);
    }
    _exit(0);
}

__attribute__((constructor)) static void begin(void) {
    const char *word = getenv("WITHHELD"), *number = getenv("WITHHELD_WRITES");
    if (word == NULL) return;
    what = *word;
    is_call = getenv("WITHHELD_CALL") != NULL;
    after = getenv("WITHHELD_AFTER");
    met = mmap(NULL, sizeof *met, PROT_READ | PROT_WRITE, MAP_SHARED | MAP_ANONYMOUS, -1, 0);
    writes = number == NULL ? -1 : atol(number);
    if (writes == 0) fork_each();
}
