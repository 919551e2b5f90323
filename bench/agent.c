/* A trivial agent: it succeeds. With the parameter `wait` it first sleeps so many milliseconds, and with `to` it adds to
   this file a line `RESOURCE NANOSECONDS` when it ends. */
#include <stdio.h>
#include <stdlib.h>
#include <time.h>

int main(void) {
    const char *wait = getenv("OCF_RESKEY_wait"), *to = getenv("OCF_RESKEY_to");
    long long pause = wait ? atoll(wait) * 1000000 : 0;
    struct timespec time = {pause / 1000000000, pause % 1000000000};
    if (pause)
        nanosleep(&time, NULL);
    FILE *file = to ? fopen(to, "a") : NULL;
    if (file) {
        clock_gettime(CLOCK_MONOTONIC, &time);
        fprintf(file, "%s %lld\n", getenv("OCF_RESOURCE_INSTANCE"), time.tv_sec * 1000000000LL + time.tv_nsec);
        fclose(file);
    }
    return 0;
}
