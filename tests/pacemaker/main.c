/* A test program that takes the place of pacemaker-execd on a node, and has each OCF action done by one child, `ocfexec serve` with a
   journal. It serves clients on the node itself and OCF agents: no other class, no fencing, no alerts and no remote nodes. OCFEXEC in
   its environment is the child's command line, words separated by a space. Use: bridge [-l LOG] [-V] */
#include "executor.h"
#include "ipc.h"
#include "operations.h"
#include "wire.h"

#include <crm/crm.h>
#include <crm/common/mainloop.h>
#include <crm/common/nvpair.h>
#include <crm/common/results.h>
#include <crm/common/xml.h>
#include <crm/lrmd.h>
#include <errno.h>
#include <signal.h>
#include <sys/stat.h>
#include <unistd.h>

/* The answer to a client's greeting, as process_lrmd_signon() of daemons/execd/execd_commands.c in Pacemaker 2.1.5. */
static xmlNode *greet(const struct client *client, xmlNode *request, int call) {
    bool is_old = compare_version(crm_element_value(request, F_LRMD_PROTOCOL_VERSION), LRMD_MIN_PROTOCOL_VERSION) < 0;
    bool is_proxy = crm_is_true(crm_element_value(request, F_LRMD_IS_IPC_PROVIDER));
    xmlNode *reply = wire_reply(is_old ? -EPROTO : is_proxy ? -EPROTONOSUPPORT : pcmk_ok, call);
    crm_xml_add(reply, F_LRMD_OPERATION, CRM_OP_REGISTER);
    crm_xml_add(reply, F_LRMD_CLIENTID, client->id);
    crm_xml_add(reply, F_LRMD_PROTOCOL_VERSION, LRMD_PROTOCOL_VERSION);
    return reply;
}

static xmlNode *describe(const char *id, int call) {
    static const char *const given[] = {F_LRMD_RSC_ID, F_LRMD_CLASS, F_LRMD_PROVIDER, F_LRMD_TYPE};
    xmlNode *resource = operations_resource(id), *reply = wire_reply(resource ? pcmk_ok : -ENODEV, call);
    for (size_t n = 0; resource && n < G_N_ELEMENTS(given); n++)
        crm_xml_add(reply, given[n], crm_element_value(resource, given[n]));
    return reply;
}

/* Carries out a request about a resource; `asked` is its element of the request, or NULL. */
static int act(const char *operation, xmlNode *request, xmlNode *asked, const char *client, int call) {
    const char *id = asked ? crm_element_value(asked, F_LRMD_RSC_ID) : NULL;
    const char *action = asked ? crm_element_value(asked, F_LRMD_RSC_ACTION) : NULL;
    int options = 0;
    guint interval = 0;
    crm_element_value_int(request, F_LRMD_CALLOPTS, &options);
    if (g_str_equal(operation, LRMD_OP_RSC_UNREG))
        return operations_unregister(id);
    if (!id)
        return -EINVAL;
    if (g_str_equal(operation, LRMD_OP_RSC_REG))
        return operations_register(asked, options);
    if (g_str_equal(operation, LRMD_OP_RSC_EXEC))
        return operations_exec(asked, client, call, options);
    crm_element_value_ms(asked, F_LRMD_RSC_INTERVAL, &interval);
    if (g_str_equal(operation, LRMD_OP_RSC_CANCEL))
        return action ? operations_cancel(id, action, interval) : -EINVAL;
    return -EOPNOTSUPP;
}

/* A request, as process_lrmd_message() of daemons/execd/execd_commands.c has it. Every request has a call of its own. */
static void requested(struct client *client, int32_t number, xmlNode *request) {
    static int call;
    const char *operation = crm_element_value(request, F_LRMD_OPERATION);
    xmlNode *asked = get_xpath_object("//" F_LRMD_RSC, request, LOG_TRACE), *reply = NULL;
    const char *id = asked ? crm_element_value(asked, F_LRMD_RSC_ID) : NULL;
    int code = pcmk_ok;
    call = call < G_MAXINT ? call + 1 : 1;
    if (!operation || g_str_equal(operation, LRMD_OP_CHECK))
        return; /* a check is for fencing by a watchdog, and has no reply */
    bool is_poke = g_str_equal(operation, LRMD_OP_POKE);
    if (g_str_equal(operation, CRM_OP_REGISTER))
        reply = greet(client, request, call);
    else if (!is_poke && !client->privileged)
        code = -EACCES;
    else if (g_str_equal(operation, LRMD_OP_RSC_INFO))
        reply = describe(id, call);
    else if (!is_poke)
        code = act(operation, request, asked, client->id, call);
    if (code == -EOPNOTSUPP || code == -EACCES)
        crm_notice("A request %s was refused", operation);
    ipc_answer(client, number, reply ? reply : wire_reply(code, call));
    if (is_poke || g_str_equal(operation, LRMD_OP_RSC_REG) ||
        (g_str_equal(operation, LRMD_OP_RSC_UNREG) && (code == pcmk_ok || code == -EINPROGRESS)))
        ipc_tell_all(wire_done(operation, id, code, call));
}

/* The executor has opened the journal. The first time, clients are let in. */
static void opened(void) {
    static bool serves;
    operations_opened();
    if (!serves && !ipc_open(requested, operations_drop)) {
        crm_crit("The server could not be opened");
        crm_exit(CRM_EX_FATAL);
    }
    if (!serves)
        crm_notice("Bridge to ocfexec successfully started and accepting connections");
    serves = true;
}

static void end(int number) {
    executor_stop();
    ipc_close();
    crm_exit(CRM_EX_OK);
}

int main(int argc, char **argv) {
    const char *words = getenv("OCFEXEC");
    int option;
    while ((option = getopt(argc, argv, "l:V")) != -1)
        if (option == 'l')
            setenv("PCMK_logfile", optarg, 1);
    crm_log_preinit("pacemaker-execd", argc, argv);
    crm_log_init(NULL, LOG_INFO, TRUE, FALSE, argc, argv, FALSE);
    if (!words) {
        crm_crit("OCFEXEC is not set to the executor's command line");
        crm_exit(CRM_EX_USAGE);
    }
    mkdir("/run/resource-agents", 0755); /* as pacemaker-execd's main() makes CRM_RSCTMP_DIR */
    signal(SIGPIPE, SIG_IGN);
    mainloop_add_signal(SIGTERM, end);
    executor_start(g_strsplit(words, " ", 0), operations_ended, opened);
    g_main_loop_run(g_main_loop_new(NULL, FALSE));
    return 0;
}
