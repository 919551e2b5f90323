#include "ipc.h"

#include "wire.h"

#include <crm/common/mainloop.h>
#include <crm/common/xml.h>
#include <crm/crm.h>
#include <crm/lrmd.h>
#include <qb/qbipcs.h>
#include <sys/stat.h>

struct connection {
    struct client client;
    bool greeted; /* a client that has not greeted yet is sent nothing */
    qb_ipcs_connection_t *to;
    GQueue events; /* GBytes that were not sent yet, the oldest first */
    guint retry;   /* the timer of another try, or 0 */
};

enum { RETRY_MS = 20 };

static GHashTable *connections; /* by the client's id */
static qb_ipcs_service_t *service;
static void (*on_request)(struct client *client, int32_t id, xmlNode *request);
static void (*on_left)(const char *client);

/* Sends what a client's ring has space for, and the rest later, as crm_ipcs_flush_events() of lib/common/ipc_server.c. */
static gboolean send_events(gpointer data) {
    struct connection *connection = data;
    ssize_t sent = 0;
    while (sent >= 0 && connection->events.head) {
        gsize size;
        gconstpointer bytes = g_bytes_get_data(connection->events.head->data, &size);
        if ((sent = qb_ipcs_event_send(connection->to, bytes, size)) >= 0)
            g_bytes_unref(g_queue_pop_head(&connection->events));
    }
    connection->retry = sent < 0 ? g_timeout_add(RETRY_MS, send_events, connection) : 0;
    return FALSE;
}

static void tell(gpointer id, gpointer data, gpointer event) {
    static int32_t number;
    struct connection *connection = data;
    GBytes *bytes = connection->greeted ? wire_bytes(event, ++number, true) : NULL;
    if (bytes)
        g_queue_push_tail(&connection->events, bytes);
    if (!connection->retry)
        send_events(connection);
}

void ipc_tell_all(xmlNode *event) {
    g_hash_table_foreach(connections, tell, event);
    free_xml(event);
}

void ipc_tell_one(const char *client, xmlNode *event) {
    gpointer connection = g_hash_table_lookup(connections, client);
    if (connection)
        tell(NULL, connection, event);
    free_xml(event);
}

void ipc_answer(struct client *client, int32_t id, xmlNode *reply) {
    struct connection *connection = g_hash_table_lookup(connections, client->id);
    GBytes *bytes = wire_bytes(reply, id, false);
    if (bytes && qb_ipcs_response_send(connection->to, g_bytes_get_data(bytes, NULL), g_bytes_get_size(bytes)) < 0)
        crm_notice("A client went away before its answer");
    g_bytes_unref(bytes);
    free_xml(reply);
}

/* As pcmk__new_client() of lib/common/ipc_server.c: the cluster's group may open the files of a connection. */
static int32_t accepted(qb_ipcs_connection_t *to, uid_t user, gid_t group) {
    uid_t cluster_user = 0;
    gid_t cluster_group = 0;
    if (pcmk_daemon_user(&cluster_user, &cluster_group) < 0)
        crm_warn("There is no user %s", CRM_DAEMON_USER);
    if (user)
        qb_ipcs_connection_auth_set(to, -1, cluster_group, S_IRUSR | S_IWUSR | S_IRGRP | S_IWGRP);
    struct connection *connection = g_new0(struct connection, 1);
    connection->client.id = g_uuid_string_random();
    connection->client.privileged = user == 0 || user == cluster_user;
    connection->to = to;
    qb_ipcs_context_set(to, connection);
    g_hash_table_insert(connections, connection->client.id, connection);
    return 0;
}

static void created(qb_ipcs_connection_t *to) {
    ipc_tell_all(wire_done(LRMD_OP_NEW_CLIENT, NULL, pcmk_ok, 0));
}

static int32_t dispatched(qb_ipcs_connection_t *to, void *bytes, size_t size) {
    struct connection *connection = qb_ipcs_context_get(to);
    int32_t id = 0;
    xmlNode *request = connection ? wire_read(bytes, size, &id) : NULL;
    if (request) {
        connection->greeted = true;
        on_request(&connection->client, id, request);
        free_xml(request);
    }
    return 0;
}

static int32_t closed(qb_ipcs_connection_t *to) {
    struct connection *connection = qb_ipcs_context_get(to);
    qb_ipcs_context_set(to, NULL);
    if (!connection)
        return 0;
    g_hash_table_remove(connections, connection->client.id);
    on_left(connection->client.id);
    if (connection->retry)
        g_source_remove(connection->retry);
    g_queue_clear_full(&connection->events, (GDestroyNotify)g_bytes_unref);
    g_free(connection->client.id);
    g_free(connection);
    return 0;
}

static void destroyed(qb_ipcs_connection_t *to) {
    closed(to);
}

bool ipc_open(void (*requested)(struct client *client, int32_t id, xmlNode *request), void (*left)(const char *client)) {
    static struct qb_ipcs_service_handlers handlers = {accepted, created, dispatched, closed, destroyed};
    connections = g_hash_table_new(g_str_hash, g_str_equal);
    on_request = requested;
    on_left = left;
    service = mainloop_add_ipc_server(CRM_SYSTEM_LRMD, QB_IPC_SHM, &handlers);
    return service != NULL;
}

void ipc_close(void) {
    if (service)
        mainloop_del_ipc_server(service);
}
