/* Makes each write and sync of a journal's files fail, for tests/crash/faults.py: loaded before the C library (LD_PRELOAD). They fail as
   long as the file $FAULT exists, with the error number that it contains. With $UNREAD instead, each read at a place of the files whose
   paths end so fails, and nothing else. Children get neither variable, so they are left alone. */
#define _GNU_SOURCE
#include <dlfcn.h>
#include <errno.h>
#include <stddef.h>
#include <stdio.h>
#include <stdlib.h>
#include <string.h>
#include <unistd.h>

static int fails(void) {
    const char *path = getenv("FAULT");
    FILE *file = path == NULL ? NULL : fopen(path, "re");
    int number = 0;
    if (file == NULL)
        return 0;
    if (fscanf(file, "%d", &number) != 1)
        number = EIO;
    fclose(file);
    errno = number;
    return 1;
}

int fdatasync(int file) {
    int (*real)(int) = (int (*)(int))dlsym(RTLD_NEXT, "fdatasync");
    return fails() ? -1 : real(file);
}

int fsync(int file) {
    int (*real)(int) = (int (*)(int))dlsym(RTLD_NEXT, "fsync");
    return fails() ? -1 : real(file);
}

ssize_t pwrite(int file, const void *bytes, size_t size, off_t at) {
    ssize_t (*real)(int, const void *, size_t, off_t) = (ssize_t(*)(int, const void *, size_t, off_t))dlsym(RTLD_NEXT, "pwrite");
    return fails() ? -1 : real(file, bytes, size, at);
}

ssize_t pwrite64(int file, const void *bytes, size_t size, off_t at) {
    ssize_t (*real)(int, const void *, size_t, off_t) = (ssize_t(*)(int, const void *, size_t, off_t))dlsym(RTLD_NEXT, "pwrite64");
    return fails() ? -1 : real(file, bytes, size, at);
}

/* Whether a read of this file fails. */
static int is_unread(int file) {
    const char *end = getenv("UNREAD");
    char link[64], path[4096];
    if (end == NULL)
        return 0;
    snprintf(link, sizeof link, "/proc/self/fd/%d", file);
    ssize_t length = readlink(link, path, sizeof path - 1);
    size_t last = strlen(end);
    if (length < (ssize_t)last || strncmp(path + length - last, end, last) != 0)
        return 0;
    errno = EIO;
    return 1;
}

ssize_t pread(int file, void *bytes, size_t size, off_t at) {
    ssize_t (*real)(int, void *, size_t, off_t) = (ssize_t(*)(int, void *, size_t, off_t))dlsym(RTLD_NEXT, "pread");
    return is_unread(file) ? -1 : real(file, bytes, size, at);
}

ssize_t pread64(int file, void *bytes, size_t size, off_t at) {
    ssize_t (*real)(int, void *, size_t, off_t) = (ssize_t(*)(int, void *, size_t, off_t))dlsym(RTLD_NEXT, "pread64");
    return is_unread(file) ? -1 : real(file, bytes, size, at);
}
