/* What a load asks of an executor, and what each executor under load tells it. One of execd.c, floor.c and ours.c is linked
   with load.c. */
#ifndef LOAD_H
#define LOAD_H

#include <sys/types.h>

/* So many resources, 0 and up, each with so many starts of an agent of the provider `bench`. */
struct load {
    const char *agent; /* the agent's type */
    int width;         /* resources, at most 256 */
    int depth;         /* starts of each, at most 32 */
    int wait;          /* the first resource's parameter `wait`, in milliseconds */
    int step;          /* how much more each further resource waits; with neither the parameter is not given */
    const char *to;    /* the parameter `to`, or - */
};

/* Whether the parameter `to` is given. */
int load_has_to(const struct load *load);

/* The parameter `wait` of a resource, or 0. */
int load_wait(const struct load *load, int resource);

/* Joins or starts the executor that the words name, and registers the resources. Answers the executor's process. */
pid_t executor_open(const struct load *load, char **words);

/* Queues all starts. */
void executor_queue(const struct load *load);

/* Waits for all of them to end. Calls load_ended for each. */
void executor_drain(const struct load *load);

/* Asks what the first resource is, and waits for the answer. */
void executor_ask(void);

/* Unregisters the resources, or ends the executor. */
void executor_close(const struct load *load);

/* The start of a resource has ended and been reported, with this exit code. */
void load_ended(int resource, int code);

/* Ends the load with status 1 and this text. */
void fail(const char *text) __attribute__((noreturn));

#endif
