// Refuses growths: preloaded into a program, it answers NULL at one call of malloc and its kin, or from one call on.
//
//   REFUSE_AT=N     the call that is refused, counted from 1
//   REFUSE_REST=1   each later one is refused too
//   REFUSE_COUNT=F  keeps in the file F, in 8 bytes, how many calls were made
//
// Calls of all threads are counted together, from when the C library has been loaded, so just before the program's own first
// line, to its end.
// Build it with: cc -O2 -Wall -shared -fPIC -o fail_alloc.so fail_alloc.c
#include <errno.h>
#include <fcntl.h>
#include <stdatomic.h>
#include <stdlib.h>
#include <sys/mman.h>
#include <unistd.h>

// The C library's own, under the names by which it lets others stand before it.
extern void *__libc_malloc(size_t size);
extern void *__libc_calloc(size_t count, size_t size);
extern void *__libc_realloc(void *old, size_t size);
extern void *__libc_memalign(size_t align, size_t size);

static unsigned long first;
static atomic_ulong own_calls, *calls = &own_calls;
static int begun, rest;

// The file is there as long as the program runs, and has the count however it ends.
static void count_in(const char *path) {
    int file = open(path, O_RDWR | O_CREAT | O_TRUNC, 0644);
    if (file < 0 || ftruncate(file, sizeof *calls) != 0) _exit(125);
    calls = mmap(NULL, sizeof *calls, PROT_READ | PROT_WRITE, MAP_SHARED, file, 0);
    if (calls == MAP_FAILED) _exit(125);
    close(file);
}

__attribute__((constructor)) static void begin(void) {
    const char *at = getenv("REFUSE_AT"), *path = getenv("REFUSE_COUNT");
    first = at ? strtoul(at, NULL, 10) : 0;
    rest = getenv("REFUSE_REST") != NULL;
    if (path != NULL) count_in(path);
    begun = 1;
}

__attribute__((destructor)) static void end(void) { begun = 0; }

static int is_refused(void) {
    if (!begun) return 0;
    unsigned long call = atomic_fetch_add(calls, 1) + 1;
    return first != 0 && (call == first || (rest && call > first));
}

static void *refuse(void) {
    errno = ENOMEM;
    return NULL;
}

void *malloc(size_t size) { return is_refused() ? refuse() : __libc_malloc(size); }

void *calloc(size_t count, size_t size) { return is_refused() ? refuse() : __libc_calloc(count, size); }

void *realloc(void *old, size_t size) { return is_refused() ? refuse() : __libc_realloc(old, size); }

void *aligned_alloc(size_t align, size_t size) { return is_refused() ? refuse() : __libc_memalign(align, size); }

int posix_memalign(void **made, size_t align, size_t size) {
    if (is_refused()) return ENOMEM;
    *made = __libc_memalign(align, size);
    return *made == NULL ? ENOMEM : 0;
}
