/* Notes the calls that change or sync the file `agents` of a journal's directory, for tests/crash/agents_file.py: loaded before the C
   library (LD_PRELOAD), it appends a letter to the file $CALLS for each, `w` for a write and `s` for a sync. Children do not get the
   variable, so they are left alone. */
#define _GNU_SOURCE
#include <dlfcn.h>
#include <fcntl.h>
#include <limits.h>
#include <stdio.h>
#include <stdlib.h>
#include <string.h>
#include <sys/syscall.h>
#include <unistd.h>

static void note(int file, const char *letter)
{
    char link[40], path[PATH_MAX];
    const char *calls = getenv("CALLS"), *name = NULL;
    snprintf(link, sizeof link, "/proc/self/fd/%d", file);
    ssize_t length = calls ? readlink(link, path, sizeof path - 1) : -1;
    if (length >= 0) {
        path[length] = 0;
        name = strrchr(path, '/');
    }
    int into = name && strcmp(name, "/agents") == 0 ? open(calls, O_WRONLY | O_APPEND | O_CREAT | O_CLOEXEC, 0600) : -1;
    if (into < 0)
        return;
    if (syscall(SYS_write, into, letter, 1) != 1)
        abort();
    close(into);
}

ssize_t write(int file, const void *bytes, size_t size)
{
    note(file, "w");
    return syscall(SYS_write, file, bytes, size);
}

ssize_t pwrite(int file, const void *bytes, size_t size, off_t at)
{
    note(file, "w");
    return syscall(SYS_pwrite64, file, bytes, size, at);
}

ssize_t pwrite64(int file, const void *bytes, size_t size, off_t at)
{
    return pwrite(file, bytes, size, at);
}

int fsync(int file)
{
    note(file, "s");
    return syscall(SYS_fsync, file);
}

int fdatasync(int file)
{
    note(file, "s");
    return syscall(SYS_fdatasync, file);
}
