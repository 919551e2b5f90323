/* To be loaded before the C library: an agent of the type Stuck is not seen to end, like one that waits for a lost device, whatever signal
   it is sent; if STUCK names a file, only as long as that is there. */
#define _GNU_SOURCE
#include <dlfcn.h>
#include <fcntl.h>
#include <stdio.h>
#include <stdlib.h>
#include <string.h>
#include <sys/wait.h>
#include <unistd.h>

static int is_stuck(pid_t pid)
{
    char path[64], name[6] = "";
    const char *while_there = getenv("STUCK");
    if (while_there && access(while_there, F_OK) != 0)
        return 0;
    snprintf(path, sizeof path, "/proc/%d/comm", (int)pid);
    int file = open(path, O_RDONLY | O_CLOEXEC);
    if (file < 0)
        return 0;
    ssize_t length = read(file, name, 5);
    close(file);
    return length == 5 && strcmp(name, "Stuck") == 0;
}

pid_t waitpid(pid_t pid, int *status, int options)
{
    static pid_t (*real)(pid_t, int *, int);
    if (real == NULL)
        real = (pid_t (*)(pid_t, int *, int))dlsym(RTLD_NEXT, "waitpid");
    if ((options & WNOHANG) && pid > 0 && is_stuck(pid))
        return 0;
    return real(pid, status, options);
}
