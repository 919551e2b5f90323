/* A running pacemaker-execd under load, by its own client library. The word is its process id. */
#include "load.h"

#include <crm/lrmd.h>
#include <poll.h>
#include <stdio.h>
#include <stdlib.h>

static lrmd_t *executor;
static int channel, waited;

static void count_end(lrmd_event_data_t *event) {
    if (event->type == lrmd_event_disconnect)
        fail("pacemaker-execd ended");
    if (event->type != lrmd_event_exec_complete)
        return;
    waited--;
    load_ended(atoi(event->rsc_id + 1), event->op_status == PCMK_EXEC_DONE ? (int)event->rc : 1);
}

/* The id of a resource. */
static const char *id_of(int resource) {
    static char id[16];
    snprintf(id, sizeof id, "r%d", resource);
    return id;
}

pid_t executor_open(const struct load *load, char **words) {
    executor = lrmd_api_new();
    executor->cmds->set_callback(executor, count_end);
    if (executor->cmds->connect(executor, "bench", &channel) != pcmk_ok)
        fail("pacemaker-execd does not answer");
    for (int n = 0; n < load->width; n++)
        if (executor->cmds->register_rsc(executor, id_of(n), "ocf", "bench", load->agent, lrmd_opt_none) != pcmk_ok)
            fail("pacemaker-execd refused a resource");
    return atoi(words[0]);
}

static lrmd_key_value_t *parameters(const struct load *load, int resource) {
    lrmd_key_value_t *all = NULL;
    char wait[16];
    snprintf(wait, sizeof wait, "%d", load_wait(load, resource));
    if (load_wait(load, resource))
        all = lrmd_key_value_add(all, "wait", wait);
    if (load_has_to(load))
        all = lrmd_key_value_add(all, "to", load->to);
    return all;
}

/* It listens meanwhile, since the first actions end while later ones are queued. */
void executor_queue(const struct load *load) {
    waited = load->width * load->depth;
    for (int n = 0; n < load->width * load->depth; n++) {
        if (executor->cmds->exec(executor, id_of(n % load->width), "start", NULL, 0, 60000, 0, lrmd_opt_notify_orig_only,
                                 parameters(load, n % load->width)) < 0)
            fail("pacemaker-execd refused an action");
        lrmd_dispatch(executor);
    }
}

void executor_drain(const struct load *load) {
    (void)load;
    lrmd_dispatch(executor);
    while (waited > 0) {
        struct pollfd ready = {.fd = channel, .events = POLLIN};
        if (poll(&ready, 1, 10000) < 1)
            fail("no end within ten seconds");
        lrmd_dispatch(executor);
    }
}

void executor_ask(void) {
    lrmd_rsc_info_t *info = executor->cmds->get_rsc_info(executor, id_of(0), lrmd_opt_none);
    if (!info)
        fail("pacemaker-execd does not know a resource");
    lrmd_free_rsc_info(info);
}

void executor_close(const struct load *load) {
    for (int n = 0; n < load->width; n++)
        executor->cmds->unregister_rsc(executor, id_of(n), lrmd_opt_none);
    executor->cmds->disconnect(executor);
    lrmd_api_delete(executor);
}
