/* Notes what a program does with its files, for tests/journal/real_syncs.py: loaded before the C library (LD_PRELOAD), it appends a line to
   the file $LOG for each call that opens, reads, writes, syncs or cuts a file, writes to standard output, or starts a program. A line has
   the call, the path of the file (`out` for standard output), the offset, the requested size, the answer (an error as its negative
   number), the number of bytes written, and in hex the bytes to be written. The log has the calls that are really made. Two layers may
   come between them and the program:
   - $FAULT, a word and a number N: the fate of the N-th of the writes by pwrite and of the syncs. `kill` kills the program in it, and
     `eio` fails it, a write in its middle and a sync before it is made. `short` makes half of a write. `eintr` interrupts the call
     before anything is made.
   - $SHIM, a lie about syncs: see `lie`.
   The files of the running agents and of the journal's identity are no parts of a journal: a write of them at an offset and a sync are
   neither noted nor counted; those of the identity are where $IDENTITY is set. The shell that sends signals is no agent: its start is
   not noted. Children get none of these variables, so they are left alone. */
#define _GNU_SOURCE
#include <dlfcn.h>
#include <errno.h>
#include <fcntl.h>
#include <limits.h>
#include <signal.h>
#include <spawn.h>
#include <stdarg.h>
#include <stdio.h>
#include <stdlib.h>
#include <string.h>
#include <sys/syscall.h>
#include <unistd.h>

/* the log's descriptor is above those of the program; bytes are put into it in hex so many at a time */
enum { HIGH = 100, PIECE = 512 };

static int log_file = -1, counts_identity;
static const char *shim = "";
static char fault[8];
static long fault_at, calls;

__attribute__((constructor)) static void begin(void) {
    const char *path = getenv("LOG"), *named = getenv("SHIM"), *planned = getenv("FAULT");
    int file = path == NULL ? -1 : open(path, O_WRONLY | O_APPEND | O_CREAT | O_CLOEXEC, 0600);
    if (file < 0)
        return;
    if (named != NULL)
        shim = named;
    if (planned != NULL)
        sscanf(planned, "%7s %ld", fault, &fault_at);
    counts_identity = getenv("IDENTITY") != NULL;
    log_file = fcntl(file, F_DUPFD_CLOEXEC, HIGH);
    close(file);
}

/* The log. */

static void put(const char *text, size_t size) {
    while (size > 0) {
        long done = syscall(SYS_write, log_file, text, size);
        if (done <= 0)
            abort();
        text += done, size -= done;
    }
}

static void put_hex(const unsigned char *bytes, size_t size) {
    char text[2 * PIECE + 1];
    for (size_t at = 0; at < size; at += PIECE) {
        size_t count = size - at < PIECE ? size - at : PIECE;
        for (size_t place = 0; place < count; place++)
            sprintf(text + 2 * place, "%02x", bytes[at + place]);
        put(text, 2 * count);
    }
}

static void note(const char *call, const char *path, long at, long size, long answer, long made, const void *bytes) {
    char line[PATH_MAX + 128];
    int before = errno;
    if (log_file < 0)
        return;
    answer = answer < 0 ? -(long)before : answer;
    put(line, snprintf(line, sizeof line, "%s %s %ld %ld %ld %ld ", call, path, at, size, answer, made < 0 ? 0 : made));
    put_hex(bytes, bytes == NULL ? 0 : size);
    put("\n", 1);
    errno = before;
}

/* The path of an open file, whichever call opened it. */
static const char *path_of(int file) {
    static char path[PATH_MAX];
    char link[40];
    int before = errno;
    snprintf(link, sizeof link, "/proc/self/fd/%d", file);
    ssize_t size = readlink(link, path, sizeof path - 1);
    path[size < 0 ? 0 : size] = 0;
    errno = before;
    return file == STDOUT_FILENO ? "out" : path;
}

/* The calls that are really made. */

/* Whether this fault is planned for the current call. */
static int meets(const char *word) {
    return calls == fault_at && strcmp(fault, word) == 0;
}

static int ends_with(const char *path, const char *end) {
    size_t length = strlen(path), last = strlen(end);
    return length >= last && strcmp(path + length - last, end) == 0;
}

/* Whether a file is no part of the journal. */
static int is_beside(int file) {
    const char *path = path_of(file);
    return ends_with(path, "/agents") || (!counts_identity && (ends_with(path, "/identity") || ends_with(path, "/identity.new")));
}

static int device_sync(const char *call, int file) {
    int answer = -1;
    if (is_beside(file))
        return syscall(strcmp(call, "fsync") == 0 ? SYS_fsync : SYS_fdatasync, file);
    calls++;
    if (meets("kill"))
        raise(SIGKILL);
    if (meets("eio") || meets("eintr"))
        errno = meets("eio") ? EIO : EINTR;
    else
        answer = syscall(strcmp(call, "fsync") == 0 ? SYS_fsync : SYS_fdatasync, file);
    note(call, path_of(file), 0, 0, answer, 0, NULL);
    return answer;
}

static ssize_t device_write(int file, const void *bytes, size_t size, off_t at) {
    if (is_beside(file))
        return syscall(SYS_pwrite64, file, bytes, size, at);
    calls++;
    int is_cut = meets("kill") || meets("eio") || (meets("short") && size > 1);
    ssize_t made = meets("eintr") ? 0 : syscall(SYS_pwrite64, file, bytes, is_cut ? size / 2 : size, at), answer = made;
    if (meets("eio") || meets("eintr"))
        errno = meets("eio") ? EIO : EINTR, answer = -1;
    note("pwrite", path_of(file), at, size, answer, made, bytes);
    if (meets("kill"))
        raise(SIGKILL);
    return answer;
}

/* The calls of the program. */

/* Whether a path leads to a part. */
static int is_part(const char *path) {
    size_t length = strlen(path);
    return length > 7 && strncmp(path + length - 7, "/part-", 6) == 0;
}

/* A sync of the other part, if the file is a part. */
static int sync_other(const char *call, int file) {
    char path[PATH_MAX];
    size_t last = strlen(strcpy(path, path_of(file))) - 1;
    if (!is_part(path))
        return device_sync(call, file);
    path[last] = path[last] == 'a' ? 'b' : 'a';
    int other = syscall(SYS_openat, AT_FDCWD, path, O_RDWR | O_CLOEXEC), answer = device_sync(call, other);
    close(other);
    return answer;
}

/* A sync as it is answered. A lie skips every fortieth (skip40), or all of an opening, by fsync (opening), or those of what is no part
   (directory), or the first of each two by fdatasync (second); or syncs the other part (other), or repeats one that failed (again). */
static int lie(const char *call, int file) {
    static long asked, of_data;
    int is_data = strcmp(call, "fdatasync") == 0;
    asked++, of_data += is_data;
    if (strcmp(shim, "other") == 0)
        return sync_other(call, file);
    if ((strcmp(shim, "skip40") == 0 && asked % 40 == 0) || (strcmp(shim, "opening") == 0 && !is_data) ||
        (strcmp(shim, "directory") == 0 && !is_part(path_of(file))) || (strcmp(shim, "second") == 0 && is_data && of_data % 2 == 1))
        return 0;
    int answer = device_sync(call, file);
    return answer < 0 && strcmp(shim, "again") == 0 ? device_sync(call, file) : answer;
}

int fsync(int file) {
    return lie("fsync", file);
}

int fdatasync(int file) {
    return lie("fdatasync", file);
}

ssize_t pwrite(int file, const void *bytes, size_t size, off_t at) {
    return device_write(file, bytes, size, at);
}

ssize_t pwrite64(int file, const void *bytes, size_t size, off_t at) {
    return device_write(file, bytes, size, at);
}

ssize_t write(int file, const void *bytes, size_t size) {
    ssize_t answer = syscall(SYS_write, file, bytes, size);
    note("write", path_of(file), 0, size, answer, answer, bytes);
    return answer;
}

static ssize_t read_at(int file, void *bytes, size_t size, off_t at) {
    ssize_t answer = syscall(SYS_pread64, file, bytes, size, at);
    note("pread", path_of(file), at, size, answer, 0, NULL);
    return answer;
}

ssize_t pread(int file, void *bytes, size_t size, off_t at) {
    return read_at(file, bytes, size, at);
}

ssize_t pread64(int file, void *bytes, size_t size, off_t at) {
    return read_at(file, bytes, size, at);
}

static int cut(int file, off_t size) {
    int answer = syscall(SYS_ftruncate, file, size);
    note("ftruncate", path_of(file), 0, size, answer, 0, NULL);
    return answer;
}

int ftruncate(int file, off_t size) {
    return cut(file, size);
}

int ftruncate64(int file, off_t size) {
    return cut(file, size);
}

/* An open that creates its file is noted as `make`. */
static int open_at(int directory, const char *path, int flags, mode_t mode) {
    int before = errno, was_there = faccessat(directory, path, F_OK, AT_SYMLINK_NOFOLLOW) == 0;
    errno = before;
    int file = syscall(SYS_openat, directory, path, flags, mode);
    if (file >= 0)
        note((flags & O_CREAT) != 0 && !was_there ? "make" : "open", path_of(file), 0, 0, 0, 0, NULL);
    return file;
}

/* Opens with the mode that comes after the flags if they need one. */
#define OPEN_BY_MODE(directory, path, flags) \
    do { \
        va_list more; \
        va_start(more, flags); \
        mode_t mode = (flags & (O_CREAT | __O_TMPFILE)) != 0 ? va_arg(more, mode_t) : 0; \
        va_end(more); \
        return open_at(directory, path, flags, mode); \
    } while (0)

int open(const char *path, int flags, ...) {
    OPEN_BY_MODE(AT_FDCWD, path, flags);
}

int open64(const char *path, int flags, ...) {
    OPEN_BY_MODE(AT_FDCWD, path, flags);
}

int openat(int directory, const char *path, int flags, ...) {
    OPEN_BY_MODE(directory, path, flags);
}

int openat64(int directory, const char *path, int flags, ...) {
    OPEN_BY_MODE(directory, path, flags);
}

/* Whether these are the arguments of a shell with its script, and not those of an agent. */
static int is_shell(char *const arguments[]) {
    int count = 0;
    while (arguments[count] != NULL && strcmp(arguments[count], "-c") != 0)
        count++;
    return arguments[count] != NULL;
}

int posix_spawn(pid_t *child, const char *path, const posix_spawn_file_actions_t *actions, const posix_spawnattr_t *how,
                char *const arguments[], char *const variables[]) {
    __typeof__(&posix_spawn) real = (__typeof__(&posix_spawn))dlsym(RTLD_NEXT, "posix_spawn");
    int status = real(child, path, actions, how, arguments, variables), before = errno;
    errno = status;
    if (!is_shell(arguments))
        note("spawn", path, 0, 0, status == 0 ? 0 : -1, 0, NULL);
    errno = before;
    return status;
}
