/* Refuses one growth of memory, for tests/crash/growths.py: loaded before the C library (LD_PRELOAD), it counts each malloc, calloc and
   realloc from the start of the program on, and makes the one with the number $REFUSE fail as if there were no memory. The file
   $GROWTHS, of 16 bytes, has the number of growths and that of refused ones at any moment, also after a crash. Children get neither
   variable, so they are left alone. With LINKED it is linked into the program, in front of a sanitizer's own functions
   (tests/sanitize.sh). */
#include <errno.h>
#include <fcntl.h>
#include <stddef.h>
#include <stdlib.h>
#include <sys/mman.h>
#include <unistd.h>

/* the function that is called in place of a function of the C library, and that function */
#ifdef LINKED
#define CALLED(name) __wrap_##name
#define OWN(name) __real_##name
#else
#define CALLED(name) name
#define OWN(name) __libc_##name
#endif

void *OWN(malloc)(size_t size);
void *OWN(calloc)(size_t count, size_t size);
void *OWN(realloc)(void *old, size_t size);

struct counts {
    long made, refused;
};

static volatile struct counts *counts;
static long to_refuse;

__attribute__((constructor)) static void begin(void) {
    const char *path = getenv("GROWTHS"), *number = getenv("REFUSE");
    if (path == NULL || number == NULL)
        return;
    int file = open(path, O_RDWR | O_CLOEXEC);
    if (file < 0)
        return;
    void *mapped = mmap(NULL, sizeof *counts, PROT_READ | PROT_WRITE, MAP_SHARED, file, 0);
    close(file);
    if (mapped == MAP_FAILED)
        return;
    to_refuse = atol(number);
    counts = mapped;
}

static int is_refused(void) {
    if (counts == NULL || ++counts->made != to_refuse)
        return 0;
    ++counts->refused;
    errno = ENOMEM;
    return 1;
}

void *CALLED(malloc)(size_t size) {
    return is_refused() ? NULL : OWN(malloc)(size);
}

void *CALLED(calloc)(size_t count, size_t size) {
    return is_refused() ? NULL : OWN(calloc)(count, size);
}

void *CALLED(realloc)(void *old, size_t size) {
    return is_refused() ? NULL : OWN(realloc)(old, size);
}
