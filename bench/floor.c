/* The least that an executor has to do, under load: it starts agents and waits for them, and does nothing else. The words
   are the agent's file and a journal's file, or -. With a journal it makes in each turn the writes and syncs of one row for
   the results and of one for the begins: a row is written behind a closed gate and synced, then its gate opened and synced.
   What records the commands is no part of it: tests/journal/durable.py compares that. */
#define _GNU_SOURCE
#include "load.h"

#include <fcntl.h>
#include <spawn.h>
#include <string.h>
#include <sys/wait.h>
#include <unistd.h>

/* Bytes of a record's frame, and of the spellings of a begin and a result of a short id. */
enum { FRAME = 5, BEGIN = 29, RESULT = 23, ROW = 32768 };

static int journal = -1;
static off_t tail;
static char *agent[3];
static pid_t running[256];
static int left[256];

static void append(int length) {
    static const char record[ROW + FRAME], gate = 1;
    int size = length + FRAME;
    if (journal < 0 || length == 0)
        return;
    if (pwrite(journal, record, size, tail + 1) != size || fdatasync(journal) ||
        pwrite(journal, &gate, 1, tail) != 1 || fdatasync(journal))
        fail("a write or a sync failed");
    tail += size;
}

pid_t executor_open(const struct load *load, char **words) {
    (void)load;
    agent[0] = words[0];
    agent[1] = "start";
    if (strcmp(words[1], "-") && (journal = open(words[1], O_RDWR | O_CREAT | O_TRUNC, 0600)) < 0)
        fail("no journal");
    return getpid();
}

void executor_queue(const struct load *load) {
    for (int n = 0; n < load->width; n++)
        left[n] = load->depth;
}

/* Begins the next start of each resource that has one and runs none. */
static void begin(const struct load *load) {
    static char *environment[] = {"PATH=/usr/sbin:/usr/bin:/sbin:/bin", NULL};
    int begins = 0;
    for (int n = 0; n < load->width; n++)
        begins += !running[n] && left[n];
    append(begins * BEGIN);
    for (int n = 0; n < load->width; n++)
        if (!running[n] && left[n] && left[n]--)
            if (posix_spawn(&running[n], agent[0], NULL, NULL, agent, environment))
                fail("an agent was not started");
}

/* Waits for one agent, and takes all others that have ended. Answers how many. */
static int take(int *ended, int *codes) {
    int count = 0, status;
    pid_t pid = wait(&status);
    for (; pid > 0; pid = waitpid(-1, &status, WNOHANG)) {
        int n = 0;
        while (running[n] != pid)
            n++;
        running[n] = 0;
        ended[count] = n;
        codes[count++] = WIFEXITED(status) ? WEXITSTATUS(status) : 1;
    }
    return count;
}

void executor_drain(const struct load *load) {
    int ended[256], codes[256];
    for (int waited = load->width * load->depth; waited > 0;) {
        begin(load);
        int count = take(ended, codes);
        append(count * RESULT);
        for (int n = 0; n < count; n++)
            load_ended(ended[n], codes[n]);
        waited -= count;
    }
}

void executor_ask(void) {
    fail("the floor answers nothing");
}

void executor_close(const struct load *load) {
    (void)load;
}
