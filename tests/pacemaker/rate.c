/* One-time monitors through Pacemaker's client library, one after another, as a controller requests them: how long each takes from its
   request to its result. Use: rate COUNT PROVIDER TYPE */
#include <crm/crm.h>
#include <crm/common/logging.h>
#include <crm/lrmd.h>
#include <poll.h>
#include <stdio.h>
#include <stdlib.h>
#include <time.h>

static int ended;

static void count_end(lrmd_event_data_t *event) {
    if (event->type != lrmd_event_exec_complete)
        return;
    ended = event->call_id;
    if (event->op_status != PCMK_EXEC_DONE || event->rc != PCMK_OCF_OK) {
        fprintf(stderr, "rate: a monitor ended with code %d and status %d\n", (int)event->rc, (int)event->op_status);
        exit(1);
    }
}

static double milliseconds(void) {
    struct timespec now;
    clock_gettime(CLOCK_MONOTONIC, &now);
    return now.tv_sec * 1e3 + now.tv_nsec / 1e6;
}

static int ascending(const void *one, const void *other) {
    double difference = *(const double *)one - *(const double *)other;
    return difference < 0 ? -1 : difference > 0;
}

int main(int argc, char **argv) {
    int channel, count = argc > 3 ? atoi(argv[1]) : 0;
    double *took = calloc(count + 1, sizeof *took), began;
    lrmd_t *executor = lrmd_api_new();
    crm_log_preinit("rate", argc, argv);
    crm_log_init("rate", LOG_ERR, FALSE, FALSE, argc, argv, TRUE);
    executor->cmds->set_callback(executor, count_end);
    if (!count || executor->cmds->connect(executor, "rate", &channel) != pcmk_ok ||
        executor->cmds->register_rsc(executor, "r1", "ocf", argv[2], argv[3], lrmd_opt_none) != pcmk_ok) {
        fprintf(stderr, "rate: no executor answers\n");
        return 1;
    }
    for (int n = -10; n < count; n++) { /* the first ten are not counted */
        lrmd_key_value_t *parameters = lrmd_key_value_add(NULL, "CRM_meta_timeout", "20000");
        began = milliseconds();
        int call = executor->cmds->exec(executor, "r1", "monitor", NULL, 0, 20000, 0, lrmd_opt_notify_orig_only, parameters);
        while (call > 0 && ended != call) {
            struct pollfd ready = {.fd = channel, .events = POLLIN};
            if (poll(&ready, 1, 10000) < 1)
                return 1;
            lrmd_dispatch(executor);
        }
        took[MAX(n, 0)] = milliseconds() - began;
    }
    double all = 0;
    for (int n = 0; n < count; n++)
        all += took[n];
    qsort(took, count, sizeof *took, ascending);
    printf("%.2f %.2f %.0f\n", took[count / 2], took[count * 99 / 100], count * 1e3 / all);
    executor->cmds->unregister_rsc(executor, "r1", lrmd_opt_none);
    executor->cmds->disconnect(executor);
    return 0;
}
