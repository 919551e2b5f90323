/* Runs an agent as the leader of a session and process group of its own (POSIX setsid), as soon as its executor has noted its number.
   Descriptor 0 is a pipe from the executor: one byte opens the gate, and the end of the pipe says that the executor is gone, so that nothing
   is run. The agent's arguments, environment and other descriptors are those of this program, and its input is empty. A file that is no
   program is run by /bin/sh, as POSIX says of execvp. The status is 127 if there is no such program, and 126 if it cannot be run.
   Use: ocfexec-run-agent PROGRAM [ARGUMENT..] */
#include <errno.h>
#include <fcntl.h>
#include <string.h>
#include <unistd.h>

/* Writes a part of a line to standard error; a text that cannot be written there can be written nowhere. */
static void say(const char *text)
{
    ssize_t written = write(2, text, strlen(text));
    (void)written;
}

static int refuse(int status, const char *what, const char *why)
{
    say("ocfexec-run-agent: ");
    say(what);
    say(": ");
    say(why);
    say("\n");
    return status;
}

/* Waits for the byte; whether it came. */
static int is_opened(void)
{
    char byte;
    ssize_t got;
    do {
        got = read(0, &byte, 1);
    } while (got < 0 && errno == EINTR);
    return got == 1;
}

int main(int count, char **words)
{
    if (count < 2)
        return refuse(2, "an argument is missing", "give the program of an agent");
    /* (it fails for the leader of a group alone, and a process that was just made leads none) */
    setsid();
    if (!is_opened())
        return 0;
    int nothing = open("/dev/null", O_RDONLY);
    if (nothing < 0 || dup2(nothing, 0) < 0)
        return refuse(126, "/dev/null", strerror(errno));
    if (nothing > 0)
        close(nothing);
    execvp(words[1], words + 1);
    /* (not each C library's execvp does it) */
    if (errno == ENOEXEC) {
        words[0] = "/bin/sh";
        execv(words[0], words);
    }
    int fault = errno;
    return refuse(fault == ENOENT || fault == ENOTDIR ? 127 : 126, words[1], strerror(fault));
}
