/* Counts the syncs and writes of a journal's files, for tests/crash/together.py: loaded before the C library (LD_PRELOAD). The file
   $CALLS, of 16 bytes, has the number of syncs and that of writes at any moment, also after a crash. The call with the number $STOP,
   counted over both, kills the program: a sync before it is made, a write in its middle. Children get neither variable and no file, so
   they are left alone. */
#define _GNU_SOURCE
#include <dlfcn.h>
#include <fcntl.h>
#include <signal.h>
#include <stddef.h>
#include <stdlib.h>
#include <sys/mman.h>
#include <unistd.h>

struct calls {
    long syncs, writes;
};

static volatile struct calls *calls;
static long stop;

__attribute__((constructor)) static void begin(void) {
    const char *path = getenv("CALLS"), *number = getenv("STOP");
    int file = path == NULL ? -1 : open(path, O_RDWR | O_CLOEXEC);
    if (file < 0)
        return;
    void *mapped = mmap(NULL, sizeof *calls, PROT_READ | PROT_WRITE, MAP_SHARED, file, 0);
    close(file);
    if (mapped == MAP_FAILED)
        return;
    stop = number == NULL ? 0 : atol(number);
    calls = mapped;
}

static int stops(void) {
    return stop > 0 && calls->syncs + calls->writes == stop;
}

static int count_sync(const char *name, int file) {
    int (*real)(int) = (int (*)(int))dlsym(RTLD_NEXT, name);
    if (calls != NULL) {
        calls->syncs++;
        if (stops())
            raise(SIGKILL);
    }
    return real(file);
}

int fdatasync(int file) {
    return count_sync("fdatasync", file);
}

int fsync(int file) {
    return count_sync("fsync", file);
}

ssize_t pwrite(int file, const void *bytes, size_t size, off_t at) {
    ssize_t (*real)(int, const void *, size_t, off_t) = (ssize_t(*)(int, const void *, size_t, off_t))dlsym(RTLD_NEXT, "pwrite");
    if (calls != NULL) {
        calls->writes++;
        if (stops()) {
            real(file, bytes, size / 2, at);
            raise(SIGKILL);
        }
    }
    return real(file, bytes, size, at);
}
