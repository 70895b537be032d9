// A library that is loaded before the C library, and before slow_disk. In the numbers at the beginning of the file COUNT_SYNCS, which stay there when the
// program is killed, it counts the syncs of files that have begun and those that have ended; and what was sent to clients while something that was written
// to a file wasn't synced. The program ends with who started it. For group_trial.py.
#define _GNU_SOURCE
#include <dlfcn.h>
#include <fcntl.h>
#include <signal.h>
#include <stdatomic.h>
#include <stdint.h>
#include <stdio.h>
#include <stdlib.h>
#include <sys/mman.h>
#include <sys/prctl.h>
#include <sys/socket.h>
#include <unistd.h>

enum { MAX_FILES = 4096 };

static struct { atomic_uint_least64_t begun, ended, hasty; } *counts;
static atomic_bool is_written[MAX_FILES];    // by descriptors, since the last sync
static atomic_int written;

__attribute__((constructor)) static void open_counts(void) {
    const char *name = getenv("COUNT_SYNCS");
    int file = name ? open(name, O_RDWR) : -1;
    void *page = file < 0 ? MAP_FAILED : mmap(NULL, sizeof *counts, PROT_READ | PROT_WRITE, MAP_SHARED, file, 0);
    if (page == MAP_FAILED || prctl(PR_SET_PDEATHSIG, SIGKILL)) {
        perror("count_syncs");
        _exit(70);
    }
    counts = page;
    close(file);
}

static void mark(int file, int is) {
    if (file >= 0 && file < MAX_FILES && atomic_exchange(&is_written[file], is) != is) atomic_fetch_add(&written, is ? 1 : -1);
}

static int synced(int (*sync)(int), int file) {
    atomic_fetch_add(&counts->begun, 1);
    int done = sync(file);
    mark(file, 0);
    atomic_fetch_add(&counts->ended, 1);
    return done;
}

static void tell_sent(void) {
    if (atomic_load(&written)) atomic_fetch_add(&counts->hasty, 1);
}

// a call of the C library, or of the next library before it, with what is done first
#define CALL(result, name, first, parameters, call) \
    result name parameters { \
        static result(*next) parameters; \
        if (!next) next = (result(*) parameters)dlsym(RTLD_NEXT, #name); \
        first; \
        return call; \
    }

CALL(int, fsync, , (int file), synced(next, file))
CALL(int, fdatasync, , (int file), synced(next, file))
CALL(ssize_t, pwrite, mark(file, 1), (int file, const void *octets, size_t len, off_t at), next(file, octets, len, at))
CALL(ssize_t, pwrite64, mark(file, 1), (int file, const void *octets, size_t len, off_t at), next(file, octets, len, at))
CALL(ssize_t, send, tell_sent(), (int to, const void *octets, size_t len, int flags), next(to, octets, len, flags))
