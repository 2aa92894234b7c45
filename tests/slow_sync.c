// Makes a disk slow: preloaded into a program, each of its syncs takes longer.
//
//   SYNC_DELAY=N   by so many microseconds
//
// Build it with: cc -O2 -Wall -shared -fPIC -o slow_sync.so slow_sync.c
#define _GNU_SOURCE
#include <stdlib.h>
#include <sys/syscall.h>
#include <unistd.h>

static void wait_more(void) {
    const char *delay = getenv("SYNC_DELAY");
    if (delay != NULL) usleep((unsigned)strtoul(delay, NULL, 10));
}

int fsync(int file) {
    wait_more();
    return (int)syscall(SYS_fsync, file);
}

int fdatasync(int file) {
    wait_more();
    return (int)syscall(SYS_fdatasync, file);
}
