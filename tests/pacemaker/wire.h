/* The messages of Pacemaker's executor: XML after a header. The names in a message are those of <crm/lrmd.h>. */
#ifndef WIRE_H
#define WIRE_H

#include <glib.h>
#include <libxml/tree.h>
#include <stdbool.h>
#include <stdint.h>

/* How an operation ended. */
struct result {
    int call;                     /* of the client */
    int code, status;             /* enum ocf_exitcode and enum pcmk_exec_status */
    const char *reason;           /* or NULL */
    bool deleted;                 /* its resource was unregistered meanwhile */
    long long run_at, changed_at; /* when it began, and when its code last changed: seconds since 1970 */
    int run_time, queue_time;     /* milliseconds */
};

/* Reads a request, whose number is left in `id`. NULL if it is none, or one that expects no reply. */
xmlNode *wire_read(const void *bytes, size_t size, int32_t *id);

/* The bytes of a message: the reply to the request of this number, or an event of this number. NULL if it is too long. */
GBytes *wire_bytes(xmlNode *message, int32_t id, bool event);

/* A reply; an event with the outcome of a request about a resource, or NULL; and an event with a result and its request, the element of
   the request. A code is 0 or a negated error number. */
xmlNode *wire_reply(int code, int call);
xmlNode *wire_done(const char *operation, const char *resource, int code, int call);
xmlNode *wire_result(xmlNode *asked, const struct result *result);

#endif
