/* The server that Pacemaker's clients of an executor connect to. */
#ifndef IPC_H
#define IPC_H

#include <libxml/tree.h>
#include <stdbool.h>
#include <stdint.h>

struct client {
    char *id;
    bool privileged; /* root or the cluster's user, who alone may have agents run */
};

/* Opens the server; returns false if it could not be opened. A request is answered by ipc_answer with its number, and freed after
   `requested`; `left` gets the id of a client that has gone. */
bool ipc_open(void (*requested)(struct client *client, int32_t id, xmlNode *request), void (*left)(const char *client));
void ipc_close(void);

/* Answers a request, sends to all clients, and sends to one if it is still there. Each frees the message. */
void ipc_answer(struct client *client, int32_t id, xmlNode *reply);
void ipc_tell_all(xmlNode *event);
void ipc_tell_one(const char *client, xmlNode *event);

#endif
