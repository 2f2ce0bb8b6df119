/*
 * Preloaded into the tool: a disk of which nothing can be read from an offset on.
 *
 * READABLE  how many bytes at the start of the image can be read
 */
#define _GNU_SOURCE
#include <errno.h>
#include <stdlib.h>
#include <sys/syscall.h>
#include <unistd.h>

ssize_t pread64(int file, void *bytes, size_t length, off64_t at) {
    const char *readable = getenv("READABLE");
    if (readable && at + (off64_t)length > atoll(readable)) {
        errno = EIO;
        return -1;
    }
    return syscall(SYS_pread64, file, bytes, length, at);
}

ssize_t pread(int file, void *bytes, size_t length, off_t at) {
    return pread64(file, bytes, length, at);
}
