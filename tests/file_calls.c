// Lists the calls that a program asks of its files, and lets one of them fail: preloaded into a program.
//
//   CALLS_LIST=FILE   the name of each call is written to FILE, a line each
//   CALLS_FAIL=N      the call of this number, counted from 1, is not made and answers EIO
//   CALLS_KILL=N      the process is killed before the call of this number
//
// The calls are flock, fsync, fdatasync, posix_fadvise, pread, pwrite and ftruncate.
// Build it with: cc -O2 -Wall -shared -fPIC -o file_calls.so file_calls.c
#define _GNU_SOURCE
#include <errno.h>
#include <fcntl.h>
#include <signal.h>
#include <stdlib.h>
#include <string.h>
#include <sys/syscall.h>
#include <sys/types.h>
#include <unistd.h>

static long number;

static long wanted(const char *name) {
    const char *value = getenv(name);
    return value == NULL ? 0 : atol(value);
}

// Whether the call is to fail.
static int fails(const char *name) {
    const char *list = getenv("CALLS_LIST");
    number++;
    if (list != NULL) {
        int file = (int)syscall(SYS_openat, AT_FDCWD, list, O_WRONLY | O_CREAT | O_APPEND, 0644);
        char line[32];
        size_t len = strlen(name);
        memcpy(line, name, len);
        line[len] = '\n';
        syscall(SYS_write, file, line, len + 1);
        syscall(SYS_close, file);
    }
    if (number == wanted("CALLS_KILL")) kill(getpid(), SIGKILL);
    if (number != wanted("CALLS_FAIL")) return 0;
    errno = EIO;
    return 1;
}

int flock(int file, int how) { return fails("flock") ? -1 : (int)syscall(SYS_flock, file, how); }

int fsync(int file) { return fails("fsync") ? -1 : (int)syscall(SYS_fsync, file); }

int fdatasync(int file) { return fails("fdatasync") ? -1 : (int)syscall(SYS_fdatasync, file); }

int posix_fadvise(int file, off_t at, off_t len, int advice) {
    if (fails("posix_fadvise")) return EIO;
    return syscall(SYS_fadvise64, file, at, len, advice) == 0 ? 0 : errno;
}

ssize_t pread(int file, void *bytes, size_t len, off_t at) {
    return fails("pread") ? -1 : syscall(SYS_pread64, file, bytes, len, at);
}

ssize_t pwrite(int file, const void *bytes, size_t len, off_t at) {
    return fails("pwrite") ? -1 : syscall(SYS_pwrite64, file, bytes, len, at);
}

int ftruncate(int file, off_t len) { return fails("ftruncate") ? -1 : (int)syscall(SYS_ftruncate, file, len); }

int posix_fadvise64(int file, off_t at, off_t len, int advice) { return posix_fadvise(file, at, len, advice); }

ssize_t pread64(int file, void *bytes, size_t len, off_t at) { return pread(file, bytes, len, at); }

ssize_t pwrite64(int file, const void *bytes, size_t len, off_t at) { return pwrite(file, bytes, len, at); }

int ftruncate64(int file, off_t len) { return ftruncate(file, len); }
