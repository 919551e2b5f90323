#include "operations.h"

#include "executor.h"
#include "ipc.h"
#include "wire.h"

#include <crm/common/nvpair.h>
#include <crm/common/xml.h>
#include <crm/crm.h>
#include <crm/lrmd.h>
#include <errno.h>

struct operation {
    xmlNode *asked; /* the element of the request, with resource, action, interval, timeout, parameters */
    const char *action;
    char *client;
    int options;
    guint interval; /* milliseconds, 0 for a one-time operation */
    guint delay;    /* the timer of its start delay, or 0 */
    gint64 number;  /* the executor's call, or 0 if it has none */
    gint64 queued;  /* milliseconds since 1970 */
    bool probes;    /* it was interrupted, and a monitor in its place finds out whether it was done */
    bool reported;      /* and then the last state of its result */
    int reported_code, told_status;
    struct result result;
};

struct resource {
    char *id, *quoted;      /* the latter as JSON */
    xmlNode *asked;         /* the element of the request that registered it */
    int options;
    bool gone;              /* its client has unregistered it, but the executor has not yet */
    char *known;            /* provider, type and parameters as the executor has them, or NULL */
    GList *pending;         /* operations that have not begun, in order */
    GList *recurring;       /* recurring operations that were begun */
    struct operation *busy; /* the operation that has begun and has no result yet */
};

static GHashTable *resources; /* by id */

static void work_later(void);

static struct resource *resource_of(xmlNode *asked) {
    const char *id = crm_element_value(asked, F_LRMD_RSC_ID);
    return id ? g_hash_table_lookup(resources, id) : NULL;
}

static struct operation *find(GList *list, const char *action, guint interval) {
    for (; list; list = list->next) {
        struct operation *operation = list->data;
        if (operation->interval == interval && g_ascii_strcasecmp(operation->action, action) == 0)
            return operation;
    }
    return NULL;
}

/* ---- Ends */

static void free_operation(struct operation *operation) {
    if (operation->delay)
        g_source_remove(operation->delay);
    free_xml(operation->asked);
    g_free(operation->client);
    g_free(operation);
}

static void tell(struct operation *operation) {
    const struct result *result = &operation->result;
    if (operation->reported && operation->options & lrmd_opt_notify_changes_only && operation->reported_code == result->code &&
        operation->told_status == result->status)
        return;
    operation->reported = true;
    operation->reported_code = result->code;
    operation->told_status = result->status;
    if (operation->options & lrmd_opt_notify_orig_only)
        ipc_tell_one(operation->client, wire_result(operation->asked, result));
    else
        ipc_tell_all(wire_result(operation->asked, result));
}

/* An operation has a result, which is sent. If it does not recur it is over. */
static void finish(struct operation *operation, int code, int status, const char *reason) {
    struct resource *resource = resource_of(operation->asked);
    struct result *result = &operation->result;
    if (code != result->code)
        result->changed_at = time(NULL);
    result->code = code;
    result->status = status;
    result->reason = reason;
    result->deleted = resource->gone;
    tell(operation);
    work_later();
    if (resource->busy == operation)
        resource->busy = NULL;
    if (operation->interval && operation->number && status != PCMK_EXEC_CANCELLED)
        return;
    resource->pending = g_list_remove(resource->pending, operation);
    resource->recurring = g_list_remove(resource->recurring, operation);
    free_operation(operation);
}

/* The executor did not accept an operation, by its reply, or has ended. */
static void refused(struct operation *operation, const char *reply) {
    g_autofree char *word = reply ? json_word(reply, "error") : NULL;
    g_autofree char *reason = g_strdup_printf("ocfexec: %s", word ? word : "it has ended");
    finish(operation, PCMK_OCF_UNKNOWN_ERROR, PCMK_EXEC_ERROR, reason);
}

/* ---- Begins */

/* Whether a parameter is passed on. The level of a monitor is a key of its own for the executor, which itself gives agents the interval,
   the action and the timeout; so these do not make an operation's parameters differ from another's. */
static bool is_passed_on(const char *name) {
    static const char *const apart[] = {"OCF_CHECK_LEVEL", "CRM_meta_interval", "CRM_meta_name", "CRM_meta_timeout", NULL};
    bool is_name = !g_ascii_isdigit(*name);
    for (const char *at = name; *at; at++)
        is_name = is_name && (g_ascii_isalnum(*at) || *at == '_');
    return is_name && !g_strv_contains(apart, name);
}

/* A resource with parameters, as keys of a command. */
static char *registration(const struct resource *resource, GHashTable *parameters) {
    const char *provider = crm_element_value(resource->asked, F_LRMD_PROVIDER);
    g_autofree char *quoted = json_text(provider ? provider : "");
    g_autofree char *type = json_text(crm_element_value(resource->asked, F_LRMD_TYPE));
    g_autoptr(GList) names = g_list_sort(g_hash_table_get_keys(parameters), (GCompareFunc)strcmp);
    GString *words = g_string_new(NULL);
    const char *before = "";
    g_string_printf(words, "\"provider\":%s,\"type\":%s,\"params\":{", quoted, type);
    for (GList *name = names; name; name = name->next) {
        g_autofree char *value = json_text(g_hash_table_lookup(parameters, name->data));
        if (!is_passed_on(name->data))
            continue;
        g_string_append_printf(words, "%s\"%s\":%s", before, (char *)name->data, value);
        before = ",";
    }
    return g_string_free(g_string_append_c(words, '}'), FALSE);
}

/* While a cancelled monitor still runs this is refused, and its end brings another try. */
static void leave(struct resource *resource) {
    g_autofree char *reply = executor_ask("{\"op\":\"unregister\",\"id\":%s}", resource->quoted);
    if (executor_did(reply))
        g_clear_pointer(&resource->known, g_free);
}

/* Registers a resource in the executor with these keys. Returns the reply, or an empty text if it is registered so already. */
static char *stand(struct resource *resource, const char *words) {
    const char *parameters = strstr(words, "\"params\":");
    if (resource->known && strcmp(resource->known, words) == 0)
        return g_strdup("");
    if (resource->known && strncmp(resource->known, words, parameters - words))
        leave(resource);
    char *reply = resource->known ? executor_ask("{\"op\":\"params\",\"id\":%s,%s}", resource->quoted, parameters)
                                  : executor_ask("{\"op\":\"register\",\"id\":%s,%s}", resource->quoted, words);
    if (executor_did(reply)) {
        g_free(resource->known);
        resource->known = g_strdup(words);
    }
    return reply;
}

/* Passes an operation, or the monitor in its place, to the executor, with the operation's own parameters and timeout. */
static void begin(struct resource *resource, struct operation *operation) {
    g_autoptr(GHashTable) parameters = xml2list(operation->asked);
    const char *level = g_hash_table_lookup(parameters, "OCF_CHECK_LEVEL");
    g_autofree char *words = registration(resource, parameters);
    g_autofree char *action = json_text(operation->probes ? "monitor" : operation->action);
    g_autofree char *recurs = g_strdup_printf("\"op\":\"recur\",\"interval\":%u", operation->interval);
    g_autofree char *once = g_strdup_printf("\"op\":\"exec\",\"action\":%s", action);
    g_autofree char *stands = stand(resource, words), *reply = NULL;
    int timeout = 0;
    crm_element_value_int(operation->asked, F_LRMD_TIMEOUT, &timeout);
    resource->busy = operation;
    if (operation->interval)
        resource->recurring = g_list_append(resource->recurring, operation);
    if (executor_did(stands))
        reply = executor_ask("{%s,\"id\":%s,\"timeout\":%d,\"level\":%d}", operation->interval ? recurs : once, resource->quoted,
                             timeout > 0 ? timeout : G_MAXINT, level ? atoi(level) : 0);
    operation->number = executor_did(reply) ? json_number(reply, "call") : 0;
    if (!operation->number)
        refused(operation, reply ? reply : stands);
}

/* Begins the operations that can begin, and unregisters resources that are gone. */
static void advance(gpointer data) {
    struct resource *resource = data;
    while (executor_is_open() && !resource->busy && resource->pending) {
        struct operation *next = resource->pending->data;
        if (next->delay)
            return;
        resource->pending = g_list_remove(resource->pending, next);
        if (g_strcmp0(crm_element_value(resource->asked, F_LRMD_CLASS), PCMK_RESOURCE_CLASS_OCF))
            finish(next, PCMK_OCF_NOT_INSTALLED, PCMK_EXEC_NOT_INSTALLED, "only OCF agents are run");
        else
            begin(resource, next);
    }
    if (!resource->gone || resource->busy || !executor_is_open())
        return;
    if (resource->known)
        leave(resource);
    if (!resource->known)
        g_hash_table_remove(resources, resource->id);
}

static gboolean work(gpointer source) {
    *(guint *)source = 0;
    g_list_free_full(g_hash_table_get_values(resources), advance);
    return FALSE;
}

static void work_later(void) {
    static guint source;
    if (!source)
        source = g_idle_add_full(G_PRIORITY_HIGH, work, &source, NULL);
}

/* ---- Messages of the executor */

/* The code of a monitor that finds a start or a promote done. -1 for other operations, which are not probed. */
static int code_when_done(const struct operation *operation) {
    if (g_ascii_strcasecmp(operation->action, "start") == 0)
        return PCMK_OCF_OK;
    return g_ascii_strcasecmp(operation->action, "promote") == 0 ? PCMK_OCF_RUNNING_PROMOTED : -1;
}

/* An interrupted operation may have been done. A monitor in its place, before anything else of the resource, decides which result is
   sent. */
static void probe(struct operation *operation) {
    struct resource *resource = resource_of(operation->asked);
    crm_notice("The %s of %s was interrupted, and is probed", operation->action, resource->id);
    operation->probes = true;
    resource->busy = NULL;
    resource->pending = g_list_prepend(resource->pending, operation);
    work_later();
}

/* The monitor in the place of an interrupted operation has ended. */
static void conclude_probe(struct operation *operation, const char *outcome, int code) {
    if (g_str_equal(outcome, "done") && code == code_when_done(operation))
        finish(operation, PCMK_OCF_OK, PCMK_EXEC_DONE, NULL);
    else
        finish(operation, PCMK_OCF_UNKNOWN_ERROR, PCMK_EXEC_ERROR, "interrupted");
}

/* Ends an operation with a result. A recurring monitor that was interrupted runs again, so only its next result is sent. */
static void conclude(struct operation *operation, const char *line) {
    gint64 since = json_number(line, "since"), at = json_number(line, "at");
    g_autofree char *outcome = json_word(line, "outcome");
    bool is_interrupted = g_str_equal(outcome, "interrupted");
    int code = json_number(line, "code"), status = PCMK_EXEC_ERROR;
    if (operation->probes && !is_interrupted)
        return conclude_probe(operation, outcome, code);
    if (g_str_equal(outcome, "done"))
        status = PCMK_EXEC_DONE;
    else if (g_str_equal(outcome, "timed-out"))
        status = PCMK_EXEC_TIMEOUT;
    else if (g_str_equal(outcome, "not-started") && code == PCMK_OCF_NOT_INSTALLED)
        status = PCMK_EXEC_NOT_INSTALLED;
    if (code > PCMK_OCF_FAILED_PROMOTED && code != PCMK_OCF_DEGRADED && code != PCMK_OCF_DEGRADED_PROMOTED)
        code = PCMK_OCF_UNKNOWN_ERROR;
    operation->result.run_at = since / 1000;
    operation->result.run_time = at - since;
    operation->result.queue_time = operation->interval ? 0 : MAX(since - operation->queued, 0);
    if (is_interrupted && operation->interval)
        return;
    if (is_interrupted && code_when_done(operation) >= 0)
        probe(operation);
    else
        finish(operation, code, status, status == PCMK_EXEC_DONE ? NULL : outcome);
}

void operations_ended(const char *line) {
    g_autofree char *id = json_word(line, "id");
    struct resource *resource = g_hash_table_lookup(resources, id);
    g_autoptr(GList) all = resource ? g_list_append(g_list_copy(resource->recurring), resource->busy) : NULL;
    for (GList *each = all; each; each = each->next) {
        struct operation *operation = each->data;
        if (operation && operation->number == json_number(line, "call"))
            return conclude(operation, line);
    }
    work_later(); /* a resource that is gone may have waited for a cancelled monitor */
}

/* A one-time operation whose result another executor recorded and did not report. */
static void look_up(struct resource *resource) {
    g_autofree char *history = executor_ask("{\"op\":\"history\",\"id\":%s}", resource->quoted);
    g_autofree char *call = g_strdup_printf("\"call\":%" G_GINT64_FORMAT ",", resource->busy->number);
    char *found = history ? strstr(history, call) : NULL;
    while (found && *found != '{')
        found--;
    if (found)
        conclude(resource->busy, found);
    else
        refused(resource->busy, NULL);
}

/* A journal from before: the controller probes everything anew, so nothing of it is kept. */
static void empty(void) {
    g_autofree char *list = executor_ask("{\"op\":\"list\"}");
    g_auto(GStrv) words = g_strsplit_set(executor_did(list) ? strchr(list, '[') : "", "[],\"}", 0);
    for (char **id = words; *id; id++) {
        g_autofree char *info = **id ? executor_ask("{\"op\":\"info\",\"id\":\"%s\"}", *id) : NULL;
        for (char *recurs = info ? strstr(info, "\"interval\":") : NULL; recurs; recurs = strstr(recurs + 1, "\"interval\":"))
            executor_tell("{\"op\":\"cancel\",\"id\":\"%s\",\"interval\":%" G_GINT64_FORMAT "}", *id,
                          json_number(recurs, "interval"));
        if (info)
            executor_tell("{\"op\":\"unregister\",\"id\":\"%s\"}", *id);
    }
}

static void free_resource(gpointer data) {
    struct resource *resource = data;
    g_free(resource->id);
    g_free(resource->quoted);
    g_free(resource->known);
    free_xml(resource->asked);
    g_free(resource);
}

void operations_opened(void) {
    if (!resources) {
        resources = g_hash_table_new_full(g_str_hash, g_str_equal, NULL, free_resource);
        return empty();
    }
    g_autoptr(GList) all = g_hash_table_get_values(resources);
    for (GList *each = all; each; each = each->next) {
        struct resource *resource = each->data;
        if (resource->busy && !resource->busy->interval)
            look_up(resource);
    }
    work_later();
}

/* ---- Requests of clients */

static gboolean delay_over(gpointer data) {
    ((struct operation *)data)->delay = 0;
    work_later();
    return FALSE;
}

static void stop_recurring(struct resource *resource, struct operation *operation) {
    executor_tell("{\"op\":\"cancel\",\"id\":%s,\"interval\":%u}", resource->quoted, operation->interval);
    resource->recurring = g_list_remove(resource->recurring, operation);
    operation->number = 0;
}

/* Reported at once, also if a run of it is under way: the executor begins nothing else of the resource before that has ended. */
int operations_cancel(const char *id, const char *action, guint interval) {
    struct resource *resource = g_hash_table_lookup(resources, id);
    struct operation *operation = resource ? find(resource->pending, action, interval) : NULL;
    if (resource && !operation && (operation = find(resource->recurring, action, interval)))
        stop_recurring(resource, operation);
    if (!operation)
        return resource ? -EOPNOTSUPP : -ENODEV;
    finish(operation, operation->result.code, PCMK_EXEC_CANCELLED, NULL);
    return pcmk_ok;
}

static void cancel_recurring(struct resource *resource, const char *client) {
    g_autoptr(GList) all = g_list_concat(g_list_copy(resource->recurring), g_list_copy(resource->pending));
    for (GList *each = all; each; each = each->next) {
        struct operation *operation = each->data;
        if (operation->interval && (!client || g_str_equal(client, operation->client)))
            operations_cancel(resource->id, operation->action, operation->interval);
    }
}

/* A recurring operation that exists already takes the new call, and runs at once if it was begun before, as merge_recurring_duplicate()
   of daemons/execd/execd_commands.c has it. */
static bool merged(struct resource *resource, const struct operation *new) {
    struct operation *begun = find(resource->recurring, new->action, new->interval);
    struct operation *same = begun ? begun : find(resource->pending, new->action, new->interval);
    if (!new->interval || !same)
        return false;
    same->result.call = new->result.call;
    same->reported = false;
    crm_xml_add(same->asked, F_LRMD_RSC_USERDATA_STR, crm_element_value(new->asked, F_LRMD_RSC_USERDATA_STR));
    if (begun && resource->busy != begun) {
        stop_recurring(resource, begun);
        resource->pending = g_list_append(resource->pending, begun);
    }
    return true;
}

int operations_exec(xmlNode *asked, const char *client, int call, int options) {
    struct resource *resource = resource_of(asked);
    int delay = 0;
    if (!crm_element_value(asked, F_LRMD_RSC_ACTION))
        return -EINVAL;
    if (!resource || resource->gone)
        return -ENODEV;
    struct operation *operation = g_new0(struct operation, 1);
    operation->asked = copy_xml(asked);
    operation->action = crm_element_value(operation->asked, F_LRMD_RSC_ACTION);
    operation->client = g_strdup(client);
    operation->options = options;
    operation->queued = g_get_real_time() / 1000;
    operation->result.call = call;
    crm_element_value_ms(asked, F_LRMD_RSC_INTERVAL, &operation->interval);
    crm_element_value_int(asked, F_LRMD_RSC_START_DELAY, &delay);
    work_later();
    if (merged(resource, operation)) {
        free_operation(operation);
        return call;
    }
    if (g_ascii_strcasecmp(operation->action, "stop") == 0)
        cancel_recurring(resource, NULL);
    if (delay > 0)
        operation->delay = g_timeout_add(delay, delay_over, operation);
    resource->pending = g_list_append(resource->pending, operation);
    return call;
}

void operations_drop(const char *client) {
    g_autoptr(GList) all = g_hash_table_get_values(resources);
    for (GList *each = all; each; each = each->next)
        if (((struct resource *)each->data)->options & lrmd_opt_drop_recurring)
            cancel_recurring(each->data, client);
}

int operations_unregister(const char *id) {
    struct resource *resource = id ? g_hash_table_lookup(resources, id) : NULL;
    if (!resource || resource->gone)
        return id ? pcmk_ok : -ENODEV;
    resource->gone = true;
    cancel_recurring(resource, NULL);
    while (resource->pending)
        operations_cancel(id, ((struct operation *)resource->pending->data)->action, 0);
    work_later();
    return resource->busy ? -EINPROGRESS : pcmk_ok;
}

/* The executor gets it before its first operation, with the parameters of that. */
int operations_register(xmlNode *asked, int options) {
    struct resource *resource = resource_of(asked);
    const char *id = crm_element_value(asked, F_LRMD_RSC_ID);
    bool is_same = resource && !resource->gone;
    if (!id || !crm_element_value(asked, F_LRMD_CLASS) || !crm_element_value(asked, F_LRMD_TYPE))
        return -EINVAL;
    static const char *const same[] = {F_LRMD_CLASS, F_LRMD_PROVIDER, F_LRMD_TYPE};
    for (size_t n = 0; n < G_N_ELEMENTS(same); n++)
        is_same = is_same && g_strcmp0(crm_element_value(asked, same[n]), crm_element_value(resource->asked, same[n])) == 0;
    if (is_same)
        return pcmk_ok;
    operations_unregister(id);
    if (!resource) {
        resource = g_new0(struct resource, 1);
        resource->id = g_strdup(id);
        resource->quoted = json_text(id);
        g_hash_table_insert(resources, resource->id, resource);
    }
    free_xml(resource->asked);
    resource->asked = copy_xml(asked);
    resource->options = options;
    resource->gone = false;
    return pcmk_ok;
}

xmlNode *operations_resource(const char *id) {
    struct resource *resource = id ? g_hash_table_lookup(resources, id) : NULL;
    return resource && !resource->gone ? resource->asked : NULL;
}
