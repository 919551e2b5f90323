/* Sets clocks ahead by the seconds in files, each of which a variable names: the wall clock by those of AHEAD, like a step of it; the
   wall clock and CLOCK_BOOTTIME, which counts a suspend, by those of SLEPT, like a suspend; and all three clocks by those of PASSED.
   Loaded before the C library, by clock.py and orphans.py. */
#define _GNU_SOURCE
#include <dlfcn.h>
#include <stdio.h>
#include <stdlib.h>
#include <time.h>

static long seconds_in(const char *variable)
{
    const char *name = getenv(variable);
    FILE *file = name ? fopen(name, "r") : NULL;
    long seconds = 0;
    if (file) {
        if (fscanf(file, "%ld", &seconds) != 1)
            seconds = 0;
        fclose(file);
    }
    return seconds;
}

int clock_gettime(clockid_t id, struct timespec *t)
{
    static int (*real)(clockid_t, struct timespec *);
    if (!real)
        real = (int (*)(clockid_t, struct timespec *))dlsym(RTLD_NEXT, "clock_gettime");
    int status = real(id, t);
    int is_wall = id == CLOCK_REALTIME || id == CLOCK_REALTIME_COARSE;
    if (is_wall)
        t->tv_sec += seconds_in("AHEAD");
    if (is_wall || id == CLOCK_BOOTTIME)
        t->tv_sec += seconds_in("SLEPT");
    if (is_wall || id == CLOCK_BOOTTIME || id == CLOCK_MONOTONIC)
        t->tv_sec += seconds_in("PASSED");
    return status;
}
