/* Resources, and the operations that clients requested: one operation of a resource at a time, in order. A recurring monitor recurs in
   the executor. A one-time operation waits here until the one before it has ended, so that its parameters can be set first: the executor
   has parameters by resource, and Pacemaker by operation. A start or promote that was interrupted is followed by a monitor, and is
   reported as done if that finds the service running. */
#ifndef OPERATIONS_H
#define OPERATIONS_H

#include <glib.h>
#include <libxml/tree.h>

/* The executor has opened its journal, which is emptied the first time; and the line of a result. */
void operations_opened(void);
void operations_ended(const char *line);

/* These return 0, or a negated error number as pacemaker-execd does; `exec` returns the call. `asked` is the element of the request
   about a resource; options are those of enum lrmd_call_options. */
int operations_register(xmlNode *asked, int options);
int operations_exec(xmlNode *asked, const char *client, int call, int options);
int operations_unregister(const char *id);
int operations_cancel(const char *id, const char *action, guint interval);

/* Cancels the recurring operations of a client that has left, if their resources were registered so. */
void operations_drop(const char *client);

/* The element of the request that registered a resource, or NULL. */
xmlNode *operations_resource(const char *id);

#endif
