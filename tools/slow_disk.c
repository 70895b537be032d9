// A library that is loaded before the C library: each sync of a file takes SLOW_DISK microseconds longer. For storm.py.
#include <stdlib.h>
#include <sys/syscall.h>
#include <unistd.h>

static int slowly(long call, int file) {
    const char *delay = getenv("SLOW_DISK");
    int done = syscall(call, file);
    if (delay) usleep(atoi(delay));
    return done;
}

int fsync(int file) { return slowly(SYS_fsync, file); }

int fdatasync(int file) { return slowly(SYS_fdatasync, file); }
