/* ocfexec under load, by lines of JSON over two pipes. The words are the program and its words: where it serves, it first says that it
   is ready, and ends are reported between the replies; otherwise in a drain. */
#define _GNU_SOURCE
#include "load.h"

#include <stdio.h>
#include <stdlib.h>
#include <string.h>
#include <sys/wait.h>
#include <unistd.h>

static FILE *commands, *replies;
static pid_t program;
static int serves, waited;

/* The next line. */
static const char *next_line(void) {
    static char *line;
    static size_t room;
    if (getline(&line, &room, replies) < 0)
        fail("ocfexec ended");
    return line;
}

/* The number after a key of a line. */
static int member(const char *line, const char *key) {
    const char *found = strstr(line, key);
    return found ? atoi(found + strlen(key)) : -1;
}

/* Whether a line is a notice of an end, which is taken then. */
static int take_line(const char *line) {
    if (!strstr(line, "\"outcome\""))
        return 0;
    waited--;
    load_ended(member(line, "\"id\":\"r"), member(line, "\"code\":"));
    return 1;
}

/* The next reply. */
static const char *next_reply(void) {
    const char *line = next_line();
    while (take_line(line))
        line = next_line();
    return line;
}

/* Sends the commands and reads so many replies, none of which may be a refusal. */
static void acknowledged(int count) {
    fflush(commands);
    while (count-- > 0)
        if (!strstr(next_reply(), "\"ok\":true"))
            fail("ocfexec refused a command");
}

static void start(char **words) {
    int in[2], out[2];
    if (pipe(in) || pipe(out) || (program = fork()) < 0)
        fail("no pipe or no process");
    if (program == 0) {
        dup2(in[0], 0);
        dup2(out[1], 1);
        close(in[0]), close(in[1]), close(out[0]), close(out[1]);
        execv(words[0], words);
        _exit(127);
    }
    close(in[0]), close(out[1]);
    commands = fdopen(in[1], "w");
    replies = fdopen(out[0], "r");
}

static void put_parameters(const struct load *load, int resource) {
    int wait = load_wait(load, resource);
    if (wait)
        fprintf(commands, "\"wait\":\"%d\"", wait);
    if (load_has_to(load))
        fprintf(commands, "%s\"to\":\"%s\"", wait ? "," : "", load->to);
}

pid_t executor_open(const struct load *load, char **words) {
    start(words);
    serves = !strcmp(words[1], "serve");
    if (serves && !strstr(next_line(), "\"ready\":true"))
        fail("ocfexec did not say that it is ready");
    for (int n = 0; n < load->width; n++) {
        fprintf(commands, "{\"op\":\"register\",\"id\":\"r%d\",\"provider\":\"bench\",\"type\":\"%s\",\"params\":{", n, load->agent);
        put_parameters(load, n);
        fputs("}}\n", commands);
        acknowledged(1);
    }
    return program;
}

/* A round at a time, so that neither pipe fills up. */
void executor_queue(const struct load *load) {
    waited = load->width * load->depth;
    for (int left = load->depth; left > 0; left--) {
        for (int n = 0; n < load->width; n++)
            fprintf(commands, "{\"op\":\"exec\",\"id\":\"r%d\",\"action\":\"start\",\"timeout\":60000}\n", n);
        acknowledged(load->width);
    }
}

void executor_drain(const struct load *load) {
    (void)load;
    while (serves && waited > 0)
        if (!take_line(next_line()))
            fail("a reply to nothing");
    if (serves)
        return;
    fputs("{\"op\":\"drain\"}\n", commands);
    fflush(commands);
    if (!strstr(next_reply(), "\"end\""))
        fail("the drain did not end");
}

void executor_ask(void) {
    fputs("{\"op\":\"info\",\"id\":\"r0\"}\n", commands);
    acknowledged(1);
}

void executor_close(const struct load *load) {
    (void)load;
    fclose(commands);
    waitpid(program, NULL, 0);
}
