/* A load on an executor, again for each line of standard input, or once. `rate` prints the seconds of the whole, those of the
   drain alone, and the processor seconds of the executor; `ends` prints a line `RESOURCE NANOSECONDS` when each end is
   reported; `idle` prints the processor seconds of the executor for each second in which it waits for its agents; `asks` prints
   the seconds of each of a thousand questions, a millisecond after one another, while all agents run.
   Use: load rate|ends|idle|asks AGENT WIDTH DEPTH WAIT STEP TO WORD.. */
#include "load.h"

#include <stdio.h>
#include <stdlib.h>
#include <string.h>
#include <sys/wait.h>
#include <time.h>
#include <unistd.h>

enum { MOST = 256 * 32, SETTLING_SECONDS = 1, WINDOW_SECONDS = 2, QUESTIONS = 1000 };

static struct {
    int resource;
    double at;
} reported[MOST];
static int report_count;

void fail(const char *text) {
    fprintf(stderr, "load: %s\n", text);
    exit(1);
}

/* A clock's seconds. */
static double seconds(clockid_t clock) {
    struct timespec time;
    if (clock_gettime(clock, &time))
        fail("a clock does not answer");
    return time.tv_sec + time.tv_nsec / 1e9;
}

/* User and system time of a process: that of /proc/PID/stat, in nanoseconds. Children that it waited for do not count. */
static clockid_t processor_clock(pid_t pid) {
    clockid_t clock;
    if (clock_getcpuclockid(pid, &clock))
        fail("no such process");
    return clock;
}

void load_ended(int resource, int code) {
    if (code != 0 || report_count == MOST)
        fail("an action failed");
    reported[report_count].resource = resource;
    reported[report_count++].at = seconds(CLOCK_MONOTONIC);
}

int load_has_to(const struct load *load) {
    return strcmp(load->to, "-") != 0;
}

int load_wait(const struct load *load, int resource) {
    return load->wait + resource * load->step;
}

static void rate(const struct load *load, clockid_t clock) {
    double spent = seconds(clock), began = seconds(CLOCK_MONOTONIC);
    executor_queue(load);
    double queued = seconds(CLOCK_MONOTONIC);
    executor_drain(load);
    double ended = seconds(CLOCK_MONOTONIC);
    printf("%.6f %.6f %.6f\n", ended - began, ended - queued, seconds(clock) - spent);
}

static void ends(const struct load *load) {
    executor_queue(load);
    executor_drain(load);
    for (int n = 0; n < report_count; n++)
        printf("r%d %.0f\n", reported[n].resource, reported[n].at * 1e9);
}

/* Another process looks at the clock, since this one waits in the drain. */
static void idle(const struct load *load, clockid_t clock) {
    executor_queue(load);
    pid_t watcher = fork();
    if (watcher == 0) {
        sleep(SETTLING_SECONDS);
        double spent = seconds(clock);
        sleep(WINDOW_SECONDS);
        printf("%.6f\n", (seconds(clock) - spent) / WINDOW_SECONDS);
        fflush(stdout);
        _exit(0);
    }
    executor_drain(load);
    waitpid(watcher, NULL, 0);
}

/* All agents have begun when the first question is asked. */
static void asks(const struct load *load) {
    executor_queue(load);
    sleep(SETTLING_SECONDS);
    for (int n = 0; n < QUESTIONS; n++) {
        double asked = seconds(CLOCK_MONOTONIC);
        executor_ask();
        printf("%.6f\n", seconds(CLOCK_MONOTONIC) - asked);
        usleep(1000);
    }
    executor_drain(load);
}

static void run(const char *mode, const struct load *load, clockid_t clock) {
    report_count = 0;
    if (!strcmp(mode, "rate"))
        rate(load, clock);
    else if (!strcmp(mode, "ends"))
        ends(load);
    else if (!strcmp(mode, "asks"))
        asks(load);
    else
        idle(load, clock);
    if (report_count != load->width * load->depth)
        fail("not every action ended");
    fflush(stdout);
}

int main(int count, char **words) {
    char line[16];
    if (count < 9)
        fail("use: load rate|ends|idle|asks AGENT WIDTH DEPTH WAIT STEP TO WORD..");
    struct load load = {words[2], atoi(words[3]), atoi(words[4]), atoi(words[5]), atoi(words[6]), words[7]};
    if (load.width < 1 || load.width > 256 || load.depth < 1 || load.depth > 32)
        fail("1 to 256 resources and 1 to 32 starts of each");
    clockid_t clock = processor_clock(executor_open(&load, words + 8));
    while (fgets(line, sizeof line, stdin))
        run(words[1], &load, clock);
    executor_close(&load);
    return 0;
}
