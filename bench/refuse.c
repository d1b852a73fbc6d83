// Fails calls of the program that it is loaded before, by their numbers, counted from 1:
//   REFUSE  the allocation that finds no memory
//   READ    the call to read standard input that fails, WRITE the call to write standard output; both with EIO
//   SHORT   where it is set, each such call moves one byte at most
// It writes to the file COUNTS how many allocations were asked for, how many blocks are still held, and how many calls to read and
// to write there were.
#define _GNU_SOURCE
#include <dlfcn.h>
#include <errno.h>
#include <stdlib.h>
#include <stdatomic.h>
#include <stddef.h>
#include <fcntl.h>
#include <unistd.h>
#include <sys/mman.h>
#include <sys/uio.h>

// The counts stand in a file, since the program may end without a last word.
static struct counts { atomic_long asked, held, reads, writes; } none, *counts = &none;
static long refused, failing_read, failing_write, is_short;
static void *(*real_malloc)(size_t), *(*real_calloc)(size_t, size_t), *(*real_realloc)(void *, size_t);
static void *(*real_aligned)(size_t, size_t);
static int (*real_memalign)(void **, size_t, size_t);
static void (*real_free)(void *);
static ssize_t (*real_read)(int, void *, size_t), (*real_write)(int, const void *, size_t);

static long number(const char *name) {
    const char *at = getenv(name);
    return at ? atol(at) : 0;
}

__attribute__((constructor)) static void begin(void) {
    real_malloc = dlsym(RTLD_NEXT, "malloc");
    real_calloc = dlsym(RTLD_NEXT, "calloc");
    real_realloc = dlsym(RTLD_NEXT, "realloc");
    real_aligned = dlsym(RTLD_NEXT, "aligned_alloc");
    real_memalign = dlsym(RTLD_NEXT, "posix_memalign");
    real_free = dlsym(RTLD_NEXT, "free");
    real_read = dlsym(RTLD_NEXT, "read");
    real_write = dlsym(RTLD_NEXT, "write");
    refused = number("REFUSE");
    failing_read = number("READ");
    failing_write = number("WRITE");
    is_short = getenv("SHORT") != NULL;
    int file = open(getenv("COUNTS"), O_RDWR | O_CREAT | O_TRUNC, 0600);
    if (ftruncate(file, sizeof *counts) == 0)
        counts = mmap(NULL, sizeof *counts, PROT_READ | PROT_WRITE, MAP_SHARED, file, 0);
    close(file);
}

static int refuses(void) {
    if (atomic_fetch_add(&counts->asked, 1) + 1 != refused) return 0;
    errno = ENOMEM;
    return 1;
}
static void *given(void *p) { if (p) atomic_fetch_add(&counts->held, 1); return p; }

void *malloc(size_t n) { return refuses() ? NULL : given(real_malloc(n)); }
void *aligned_alloc(size_t a, size_t n) { return refuses() ? NULL : given(real_aligned(a, n)); }
int posix_memalign(void **p, size_t a, size_t n) {
    if (refuses()) return 12;
    int status = real_memalign(p, a, n);
    if (status == 0) given(*p);
    return status;
}
void *calloc(size_t n, size_t m) {
    if (!real_calloc) return NULL;
    return refuses() ? NULL : given(real_calloc(n, m));
}
void *realloc(void *p, size_t n) {
    if (refuses()) return NULL;
    void *q = real_realloc(p, n);
    if (!p) given(q);
    return q;
}
void free(void *p) { if (p) atomic_fetch_sub(&counts->held, 1); real_free(p); }

// The length that a call of so many bytes moves; 0 where it fails.
static size_t moved(atomic_long *calls, long failing, size_t length) {
    if (atomic_fetch_add(calls, 1) + 1 == failing) {
        errno = EIO;
        return 0;
    }
    return is_short && length > 1 ? 1 : length;
}

ssize_t read(int file, void *bytes, size_t length) {
    if (file != 0 || length == 0) return real_read(file, bytes, length);
    size_t some = moved(&counts->reads, failing_read, length);
    return some ? real_read(file, bytes, some) : -1;
}
ssize_t write(int file, const void *bytes, size_t length) {
    if (file != 1 || length == 0) return real_write(file, bytes, length);
    size_t some = moved(&counts->writes, failing_write, length);
    return some ? real_write(file, bytes, some) : -1;
}
ssize_t __read(int file, void *bytes, size_t length) { return read(file, bytes, length); }
ssize_t __write(int file, const void *bytes, size_t length) { return write(file, bytes, length); }
// The first of the parts, as a short call may.
ssize_t readv(int file, const struct iovec *parts, int count) { return count ? read(file, parts->iov_base, parts->iov_len) : 0; }
ssize_t writev(int file, const struct iovec *parts, int count) { return count ? write(file, parts->iov_base, parts->iov_len) : 0; }
