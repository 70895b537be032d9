/* Spoils one call of a program that is started with this library before the C library (LD_PRELOAD). Of its requests for memory (malloc,
   realloc) the one with the number in REFUSE is refused; before that of its calls on files (pwrite, write, ftruncate, fsync, fdatasync, rename,
   link, unlink) with the number in STOP the program ends at once, with status 77. Numbers begin with 1. Before each write on standard output,
   and at the end, the file descriptor in TELL is told how many requests and calls there were. */
#define _GNU_SOURCE
#include <dlfcn.h>
#include <errno.h>
#include <stdio.h>
#include <stdlib.h>
#include <sys/syscall.h>
#include <sys/types.h>
#include <unistd.h>

static unsigned long requests, calls;

static unsigned long number_in(const char *name) {
    const char *text = getenv(name);
    return text ? strtoul(text, NULL, 10) : 0;
}

static int is_refused(void) {
    static unsigned long at;
    static int is_known;
    if (!is_known) {
        at = number_in("REFUSE");
        is_known = 1;
    }
    requests++;
    if (requests != at) return 0;
    errno = ENOMEM;
    return 1;
}

static void count_call(void) {
    static unsigned long at;
    static int is_known;
    if (!is_known) {
        at = number_in("STOP");
        is_known = 1;
    }
    calls++;
    if (calls == at) _exit(77);
}

/* by the system's own call, which isn't counted */
__attribute__((destructor)) static void tell(void) {
    char text[48];
    int file = (int)number_in("TELL");
    int len = snprintf(text, sizeof text, "%lu %lu\n", requests, calls);
    if (file > 2 && syscall(SYS_write, file, text, (size_t)len) < 0) return;
}

/* standard input, output and error aren't files of the hall */
static void count_call_on(int file) {
    if (file == STDOUT_FILENO) tell();
    if (file > 2) count_call();
}

void *malloc(size_t size) {
    static void *(*next)(size_t);
    if (!next) next = (void *(*)(size_t))dlsym(RTLD_NEXT, "malloc");
    return is_refused() ? NULL : next(size);
}

void *realloc(void *block, size_t size) {
    static void *(*next)(void *, size_t);
    if (!next) next = (void *(*)(void *, size_t))dlsym(RTLD_NEXT, "realloc");
    return is_refused() ? NULL : next(block, size);
}

#define SPOILED(result, name, count, parameters, arguments) \
    result name parameters { \
        static result(*next) parameters; \
        if (!next) next = (result(*) parameters)dlsym(RTLD_NEXT, #name); \
        count; \
        return next arguments; \
    }

SPOILED(ssize_t, pwrite, count_call_on(file), (int file, const void *octets, size_t len, off_t at), (file, octets, len, at))
SPOILED(ssize_t, pwrite64, count_call_on(file), (int file, const void *octets, size_t len, off_t at), (file, octets, len, at))
SPOILED(ssize_t, write, count_call_on(file), (int file, const void *octets, size_t len), (file, octets, len))
SPOILED(int, ftruncate, count_call_on(file), (int file, off_t len), (file, len))
SPOILED(int, fsync, count_call_on(file), (int file), (file))
SPOILED(int, fdatasync, count_call_on(file), (int file), (file))
SPOILED(int, rename, count_call(), (const char *from, const char *to), (from, to))
SPOILED(int, link, count_call(), (const char *from, const char *to), (from, to))
SPOILED(int, unlink, count_call(), (const char *name), (name))
