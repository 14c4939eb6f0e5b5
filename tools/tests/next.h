/* The function of this name in the library behind a preloaded one. It wants <dlfcn.h>, <stddef.h>, <unistd.h> and
 * _GNU_SOURCE. */
#define NEXT(name)                                                                     \
    ({                                                                                 \
        static typeof(&name) next;                                                     \
        if (next == NULL) next = (typeof(&name))dlsym(RTLD_NEXT, #name);               \
        next;                                                                          \
    })

/* Reads standard input up to the end of a line at most: so each answer is written before the next line is read. */
static ssize_t read_line(char *bytes, size_t size) {
    size_t count = 0;
    while (count < size) {
        ssize_t given = NEXT(read)(STDIN_FILENO, bytes + count, 1);
        if (given < 0 && count == 0) return given;
        if (given <= 0 || bytes[count++] == '\n') break;
    }
    return count;
}
