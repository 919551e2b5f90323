/* No wait lasts, for tests/load/rounds.py: loaded before the C library (LD_PRELOAD). nanosleep returns at once, and so does poll, which
   asks the system only once in 1,001 times, and otherwise finds nothing: an odd number, since calls may come in pairs. The file $WAITS,
   of 8 bytes, has the number of waits at any moment. Children get no such variable. It calls no other function of the C library, so that
   it also works for a program with AddressSanitizer. */
#define _GNU_SOURCE
#include <fcntl.h>
#include <poll.h>
#include <stdlib.h>
#include <sys/mman.h>
#include <sys/syscall.h>
#include <time.h>
#include <unistd.h>

static volatile long *waits;

__attribute__((constructor)) static void begin(void) {
    const char *path = getenv("WAITS");
    int file = path == NULL ? -1 : open(path, O_RDWR | O_CLOEXEC);
    if (file < 0)
        return;
    void *mapped = mmap(NULL, sizeof *waits, PROT_READ | PROT_WRITE, MAP_SHARED, file, 0);
    close(file);
    if (mapped != MAP_FAILED)
        waits = mapped;
}

int poll(struct pollfd *asked, nfds_t count, int wait) {
    static unsigned long calls;
    if (waits == NULL)
        return (int)syscall(SYS_poll, asked, count, wait);
    if (wait > 0)
        ++*waits;
    if (++calls % 1001 == 0)
        return (int)syscall(SYS_poll, asked, count, 0);
    for (nfds_t place = 0; place < count; place++)
        asked[place].revents = 0;
    return 0;
}

int nanosleep(const struct timespec *length, struct timespec *left) {
    if (waits == NULL)
        return (int)syscall(SYS_nanosleep, length, left);
    ++*waits;
    return 0;
}
