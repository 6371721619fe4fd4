// Preloaded before the program, makes calls of the C library fail where the environment says:
//   SHIM_MEMORY=n   the nth call that asks for memory gets none
//   SHIM_SCARCE=n   nor does any after it
//   SHIM_READ=n     the nth read of a descriptor fails
//   SHIM_END=n      the nth read finds the end, as of a file that has shrunk
//   SHIM_WRITE=n    the nth write fails
//   SHIM_HALF=n     the nth write moves half of its bytes, and each after it fails
//   SHIM_SLOW=1     each read and write is interrupted by a signal once, and then moves one byte
//   SHIM_COUNTS=f   at the end the file f has the numbers of calls for memory, reads and writes
#define _GNU_SOURCE
#include <errno.h>
#include <fcntl.h>
#include <stdio.h>
#include <stdlib.h>
#include <sys/syscall.h>
#include <unistd.h>

extern void *__libc_malloc(size_t), *__libc_calloc(size_t, size_t), *__libc_realloc(void *, size_t);
extern void *__libc_memalign(size_t, size_t);

static long memory, scarce, failing_read, ending_read, failing_write, half_write, slow;
static const char *counts;
static long asked, reads, writes;
static int interrupted, begun;

static long number(const char *name) {
    const char *text = getenv(name);
    return text ? atol(text) : 0;
}

__attribute__((constructor)) static void begin(void) {
    memory = number("SHIM_MEMORY");
    scarce = number("SHIM_SCARCE");
    failing_read = number("SHIM_READ");
    ending_read = number("SHIM_END");
    failing_write = number("SHIM_WRITE");
    half_write = number("SHIM_HALF");
    slow = number("SHIM_SLOW");
    counts = getenv("SHIM_COUNTS");
    begun = 1;
}

__attribute__((destructor)) static void end(void) {
    char line[80];
    if (!counts)
        return;
    int length = snprintf(line, sizeof line, "%ld %ld %ld\n", asked, reads, writes);
    int file = open(counts, O_WRONLY | O_CREAT | O_TRUNC, 0644);
    if (file < 0 || syscall(SYS_write, file, line, length) != length)
        abort();
    close(file);
}

static int refused(void) {
    if (!begun)
        return 0;
    asked++;
    return asked == memory || (scarce && asked >= scarce);
}

static void *none(void) {
    errno = ENOMEM;
    return NULL;
}

void *malloc(size_t size) { return refused() ? none() : __libc_malloc(size); }

void *calloc(size_t count, size_t size) { return refused() ? none() : __libc_calloc(count, size); }

void *realloc(void *old, size_t size) { return refused() ? none() : __libc_realloc(old, size); }

void *memalign(size_t align, size_t size) {
    return refused() ? none() : __libc_memalign(align, size);
}

void *aligned_alloc(size_t align, size_t size) { return memalign(align, size); }

int posix_memalign(void **out, size_t align, size_t size) {
    if (refused())
        return ENOMEM;
    *out = __libc_memalign(align, size);
    return *out ? 0 : ENOMEM;
}

static ssize_t fails(int error) {
    errno = error;
    return -1;
}

// Whether a slow call is interrupted: every other one is.
static int interrupts(void) { return slow && (interrupted = !interrupted); }

ssize_t read(int file, void *into, size_t count) {
    if (interrupts())
        return fails(EINTR);
    reads++;
    if (reads == failing_read)
        return fails(EIO);
    if (reads == ending_read)
        return 0;
    return syscall(SYS_read, file, into, slow && count > 1 ? 1 : count);
}

ssize_t write(int file, const void *bytes, size_t count) {
    if (interrupts())
        return fails(EINTR);
    writes++;
    if (writes == failing_write || (half_write && writes > half_write))
        return fails(ENOSPC);
    if (writes == half_write)
        count /= 2;
    return syscall(SYS_write, file, bytes, slow && count > 1 ? 1 : count);
}
