// Preloaded into a program, it lets chosen calls of the C library fail. Each variable is a number of calls,
// counted from 1:
//
//     REFUSED_CALL=N   the Nth request for memory is refused
//     REFUSED_FROM=N   the Nth and all later requests for memory are refused
//     COUNTED=1        a line on standard error tells the number of requests for memory
//     FAILED_READ=N    the Nth read of standard input fails with ERRNO
//     FAILED_WRITE=N   the Nth write to standard output fails with ERRNO, or, if that is 0, takes nothing
//     SHORT_READS=N    a read of standard input gives at most N bytes
//     SHORT_WRITES=N   a write to standard output takes at most N bytes
//
// A call that fails, a read or a write after one that failed, and memory that is not given back by the end of
// the program, is reported by a line on standard error.

#define _GNU_SOURCE
#include <dlfcn.h>
#include <errno.h>
#include <stdio.h>
#include <stdlib.h>
#include <sys/types.h>

static ssize_t (*next_write)(int, const void *, size_t);

static long variable(const char *name) {
    const char *value = getenv(name);
    return value == NULL ? 0 : atol(value);
}

static void report(const char *line, size_t length) {
    if (next_write == NULL) next_write = (ssize_t (*)(int, const void *, size_t))dlsym(RTLD_NEXT, "write");
    if (next_write(2, line, length) < 0) abort();
}

// The requests for memory so far.
static long requests;

static int is_refused(void) {
    static long call, from;
    if (requests++ == 0) {
        call = variable("REFUSED_CALL");
        from = variable("REFUSED_FROM");
    }
    if (requests != call && (from == 0 || requests < from)) return 0;
    report("(refused)\n", 10);
    return 1;
}

// The blocks of memory that are not given back.
static long kept;

static void *counted(void *block) {
    if (block != NULL) kept++;
    return block;
}

__attribute__((destructor)) static void tell_of_memory(void) {
    if (kept > 0) report("(kept memory)\n", 14);
    if (variable("COUNTED") != 0) dprintf(2, "(%ld requests)\n", requests);
}

void *malloc(size_t size) {
    static void *(*next)(size_t);
    if (next == NULL) next = (void *(*)(size_t))dlsym(RTLD_NEXT, "malloc");
    return is_refused() ? NULL : counted(next(size));
}

void free(void *block) {
    static void (*next)(void *);
    if (next == NULL) next = (void (*)(void *))dlsym(RTLD_NEXT, "free");
    if (block != NULL) kept--;
    next(block);
}

void *realloc(void *block, size_t size) {
    static void *(*next)(void *, size_t);
    if (next == NULL) next = (void *(*)(void *, size_t))dlsym(RTLD_NEXT, "realloc");
    if (is_refused()) return NULL;
    return block == NULL ? counted(next(block, size)) : next(block, size);
}

// Whether the call of this number is the one that the variable lets fail; it reports that one and those after it.
static int fails(long call, const char *name) {
    long failed = variable(name);
    if (failed != 0 && call > failed) report("(called again)\n", 15);
    if (call != failed) return 0;
    report("(failed)\n", 9);
    return 1;
}

// What a call that fails returns.
static ssize_t failure(void) {
    errno = (int)variable("ERRNO");
    return errno == 0 ? 0 : -1;
}

static size_t shortened(size_t length, const char *name) {
    size_t longest = (size_t)variable(name);
    return longest != 0 && longest < length ? longest : length;
}

ssize_t read(int file, void *buffer, size_t length) {
    static ssize_t (*next)(int, void *, size_t);
    static long calls;
    if (next == NULL) next = (ssize_t (*)(int, void *, size_t))dlsym(RTLD_NEXT, "read");
    if (file != 0) return next(file, buffer, length);
    if (fails(++calls, "FAILED_READ")) return failure();
    return next(file, buffer, shortened(length, "SHORT_READS"));
}

ssize_t write(int file, const void *buffer, size_t length) {
    static long calls;
    if (next_write == NULL) next_write = (ssize_t (*)(int, const void *, size_t))dlsym(RTLD_NEXT, "write");
    if (file != 1) return next_write(file, buffer, length);
    if (fails(++calls, "FAILED_WRITE")) return failure();
    return next_write(file, buffer, shortened(length, "SHORT_WRITES"));
}
