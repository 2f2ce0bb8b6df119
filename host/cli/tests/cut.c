/*
 * Preloaded into the tool: a power cut, a kill, a full disk or a disk that fails at a chosen write or flush of the image, and
 * the same random bytes in each run.
 *
 * CUT_LOG         a file to which each write ("write OFFSET LENGTH"), flush ("flush") and range that the system shall read anew
 *                 ("forget OFFSET LENGTH") is noted
 * CUT_AT          at which write or flush, from 1, the process is killed; it is not done any more
 * CUT_LOST        which of the sectors written since the last flush are lost then: none, all, even, odd (counted from the flush)
 * FULL_AT         from which write on the disk is full
 * FLUSH_FAILS_AT  which flush, from 1, fails. The process sees what it has written up to its end; then CUT_LOST is lost
 * RANDOM          a file that is opened in place of /dev/urandom, so that as many random bytes are the same ones, each time
 */
#define _GNU_SOURCE
#include <errno.h>
#include <fcntl.h>
#include <signal.h>
#include <stdarg.h>
#include <stdio.h>
#include <stdlib.h>
#include <string.h>
#include <sys/syscall.h>
#include <unistd.h>

enum { MOST = 4096, SECTOR = 512 };

static struct {
    int file;
    off_t at;
    char bytes[SECTOR];
} lost[MOST];
static int unflushed, calls, writes, flushes, failed;

static int number(const char *name) {
    const char *text = getenv(name);
    return text ? atoi(text) : 0;
}

static void note(const char *line) {
    const char *path = getenv("CUT_LOG");
    if (!path) return;
    int file = open(path, O_WRONLY | O_CREAT | O_APPEND, 0600);
    if (file < 0 || write(file, line, strlen(line)) < 0) abort();
    close(file);
}

/* Puts back what stood there before the writes that never came to the disk. */
static void lose(void) {
    const char *which = getenv("CUT_LOST");
    for (int i = unflushed - 1; which && i >= 0; i--) {
        int is_lost = !strcmp(which, "all") || !strcmp(which, i % 2 ? "odd" : "even");
        if (is_lost && syscall(SYS_pwrite64, lost[i].file, lost[i].bytes, SECTOR, lost[i].at) != SECTOR) abort();
    }
}

static void next_call(void) {
    calls++;
    if (calls != number("CUT_AT")) return;
    lose();
    kill(getpid(), SIGKILL);
}

/* After a flush that failed. The tool has closed the image by now, so another number for it was kept. */
static __attribute__((destructor)) void end(void) {
    if (!failed) return;
    for (int i = 0; i < unflushed; i++) lost[i].file = failed;
    lose();
}

/* Remembers what stands in a sector before it is written. */
static void keep(int file, off64_t at) {
    if (unflushed == MOST) abort();
    lost[unflushed].file = file;
    lost[unflushed].at = at;
    if (syscall(SYS_pread64, file, lost[unflushed].bytes, SECTOR, at) != SECTOR) abort();
    unflushed++;
}

ssize_t pwrite64(int file, const void *bytes, size_t length, off64_t at) {
    char line[80];
    next_call();
    writes++;
    if (number("FULL_AT") && writes >= number("FULL_AT")) {
        errno = ENOSPC;
        return -1;
    }
    snprintf(line, sizeof line, "write %lld %zu\n", (long long)at, length);
    note(line);
    if (length % SECTOR) abort();
    for (size_t done = 0; done < length; done += SECTOR) keep(file, at + (off64_t)done);
    return syscall(SYS_pwrite64, file, bytes, length, at);
}

ssize_t pwrite(int file, const void *bytes, size_t length, off_t at) {
    return pwrite64(file, bytes, length, at);
}

int fdatasync(int file) {
    next_call();
    flushes++;
    if (flushes == number("FLUSH_FAILS_AT")) {
        failed = dup(file);
        errno = EIO;
        return -1;
    }
    note("flush\n");
    unflushed = 0;
    return (int)syscall(SYS_fdatasync, file);
}

int fsync(int file) {
    return fdatasync(file);
}

int posix_fadvise(int file, off_t at, off_t length, int advice) {
    char line[80];
    snprintf(line, sizeof line, "forget %lld %lld\n", (long long)at, (long long)length);
    if (advice == POSIX_FADV_DONTNEED) note(line);
    return (int)syscall(SYS_fadvise64, file, at, length, advice);
}

int open64(const char *path, int flags, ...) {
    const char *bytes = getenv("RANDOM");
    va_list rest;
    mode_t mode;
    va_start(rest, flags);
    mode = flags & (O_CREAT | O_TMPFILE) ? va_arg(rest, mode_t) : 0;
    va_end(rest);
    if (bytes && !strcmp(path, "/dev/urandom")) path = bytes;
    return (int)syscall(SYS_openat, AT_FDCWD, path, flags, mode);
}
