/* What an agent does to its own process group, through Pacemaker's client library: while a start of `neighbour` waits, a monitor of `acts`
   does what the parameter of that name is. Prints how that monitor ended, and then how the start ended, which is let go on after it.
   Use: groups PROVIDER ACTS TIMEOUT DIRECTORY, with the timeout of the monitor in milliseconds, and the directory that the agents see */
#include <crm/crm.h>
#include <crm/common/logging.h>
#include <crm/lrmd.h>
#include <poll.h>
#include <stdio.h>
#include <stdlib.h>
#include <unistd.h>

/* how long anything is waited for, in milliseconds */
#define PATIENCE 60000

static int ended;

static void receives(lrmd_event_data_t *event) {
    if (event->type == lrmd_event_disconnect) {
        printf("the executor is gone\n");
        exit(1);
    }
    if (event->type != lrmd_event_exec_complete)
        return;
    ended = event->call_id;
    printf("%s %s: status %d, code %d\n", event->rsc_id, event->op_type, (int)event->op_status, (int)event->rc);
    fflush(stdout);
}

static int begins(lrmd_t *executor, const char *name, const char *action, const char *key, const char *value, int timeout) {
    char words[16];
    snprintf(words, sizeof words, "%d", timeout);
    lrmd_key_value_t *parameters = lrmd_key_value_add(NULL, "CRM_meta_timeout", words);
    parameters = lrmd_key_value_add(parameters, key, value);
    return executor->cmds->exec(executor, name, action, NULL, 0, timeout, 0, lrmd_opt_notify_orig_only, parameters);
}

static int awaits(lrmd_t *executor, int channel, int call) {
    while (call > 0 && ended != call) {
        struct pollfd ready = {.fd = channel, .events = POLLIN};
        if (poll(&ready, 1, PATIENCE) < 1 || ready.revents & (POLLERR | POLLNVAL)) {
            printf("no result came\n");
            return 0;
        }
        if (!lrmd_dispatch(executor)) {
            printf("the executor is gone\n");
            return 0;
        }
    }
    return call > 0;
}

int main(int argc, char **argv) {
    int channel;
    char path[256];
    lrmd_t *executor = lrmd_api_new();
    crm_log_preinit("groups", argc, argv);
    crm_log_init("groups", LOG_ERR, FALSE, FALSE, argc, argv, TRUE);
    executor->cmds->set_callback(executor, receives);
    if (argc < 5 || executor->cmds->connect(executor, "groups", &channel) != pcmk_ok ||
        executor->cmds->register_rsc(executor, "acts", "ocf", argv[1], "Acts", lrmd_opt_none) != pcmk_ok ||
        executor->cmds->register_rsc(executor, "neighbour", "ocf", argv[1], "Waits", lrmd_opt_none) != pcmk_ok) {
        fprintf(stderr, "groups: no executor answers\n");
        return 2;
    }
    int start = begins(executor, "neighbour", "start", "in", argv[4], PATIENCE);
    snprintf(path, sizeof path, "%s/begun", argv[4]);
    for (int n = 0; n < PATIENCE / 100 && access(path, F_OK); n++)
        usleep(100000);
    if (!awaits(executor, channel, begins(executor, "acts", "monitor", "acts", argv[2], atoi(argv[3]))))
        return 1;
    snprintf(path, sizeof path, "%s/go", argv[4]);
    fclose(fopen(path, "w"));
    if (!awaits(executor, channel, start))
        return 1;
    lrmd_rsc_info_t *found = executor->cmds->get_rsc_info(executor, "acts", lrmd_opt_none);
    printf("the executor %s\n", found ? "answers" : "does not answer");
    executor->cmds->disconnect(executor);
    return found ? 0 : 1;
}
