/* A device whose sync takes 5 milliseconds more, or as many as MILLISECONDS says: loaded before the C library (LD_PRELOAD), by together.py
 * and tidies.py. */
#define _GNU_SOURCE
#include <dlfcn.h>
#include <stdlib.h>
#include <time.h>

/* waits as long as a sync takes more */
static void wait_more(void) {
    const char *given = getenv("MILLISECONDS");
    struct timespec more = {0, (given ? atol(given) : 5) * 1000000};
    nanosleep(&more, NULL);
}

/* a sync of the C library that takes so much more */
#define SLOW(name)                                           \
    int name(int file) {                                     \
        static int (*real)(int);                             \
        if (!real)                                           \
            real = (int (*)(int))dlsym(RTLD_NEXT, #name);    \
        wait_more();                                         \
        return real(file);                                   \
    }

SLOW(fdatasync)
SLOW(fsync)
