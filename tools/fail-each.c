// Loaded before the C library, makes one call fail: FAIL_KIND says which kind of calls is counted, from 1 on, and FAIL_AT which
// one of them fails. A `memory` call gives nothing, an `io` call fails with EIO, and a `short` call moves one byte alone. Once that
// call has come, the file FAIL_MARK is there. For tools/fail-each.sh.
#define _GNU_SOURCE
#include <dlfcn.h>
#include <errno.h>
#include <fcntl.h>
#include <stdatomic.h>
#include <stdlib.h>
#include <string.h>
#include <sys/syscall.h>
#include <sys/uio.h>
#include <unistd.h>

static atomic_long made;
static long fails_at;
static const char *kind = "";

__attribute__((constructor)) static void begin(void) {
    const char *at = getenv("FAIL_AT"), *what = getenv("FAIL_KIND");
    kind = what ? what : "";
    fails_at = at ? atol(at) : 0;
}

// Whether this call is the one that fails.
static int is_it(const char *calls) {
    if (fails_at == 0 || strcmp(kind, calls) != 0 || atomic_fetch_add(&made, 1) + 1 != fails_at)
        return 0;
    const char *mark = getenv("FAIL_MARK");
    int file = mark ? syscall(SYS_openat, AT_FDCWD, mark, O_CREAT | O_WRONLY, 0600) : -1;
    if (file >= 0)
        syscall(SYS_close, file);
    return 1;
}

// The C library's own allocator, by names that need no look-up, which would ask for memory itself.
extern void *__libc_malloc(size_t), *__libc_calloc(size_t, size_t), *__libc_realloc(void *, size_t), *__libc_memalign(size_t, size_t);

static void *none(void) {
    errno = ENOMEM;
    return NULL;
}

void *malloc(size_t n) { return is_it("memory") ? none() : __libc_malloc(n); }

void *calloc(size_t n, size_t of) { return is_it("memory") ? none() : __libc_calloc(n, of); }

void *realloc(void *old, size_t n) { return is_it("memory") ? none() : __libc_realloc(old, n); }

void *aligned_alloc(size_t to, size_t n) { return is_it("memory") ? none() : __libc_memalign(to, n); }

int posix_memalign(void **into, size_t to, size_t n) {
    void *given = is_it("memory") ? NULL : __libc_memalign(to, n);
    if (given == NULL)
        return ENOMEM;
    *into = given;
    return 0;
}

// How many bytes such a call may move; none where it fails.
static int lets(size_t *n) {
    if (is_it("io")) {
        errno = EIO;
        return 0;
    }
    if (*n > 1 && is_it("short"))
        *n = 1;
    return 1;
}

ssize_t read(int file, void *into, size_t n) { return lets(&n) ? syscall(SYS_read, file, into, n) : -1; }

ssize_t write(int file, const void *piece, size_t n) { return lets(&n) ? syscall(SYS_write, file, piece, n) : -1; }

ssize_t readv(int file, const struct iovec *parts, int count) {
    size_t n = count > 0 ? parts->iov_len : 0;
    return lets(&n) ? syscall(SYS_readv, file, parts, count) : -1;
}

ssize_t writev(int file, const struct iovec *parts, int count) {
    size_t n = count > 0 ? parts->iov_len : 0;
    return lets(&n) ? syscall(SYS_writev, file, parts, count) : -1;
}
