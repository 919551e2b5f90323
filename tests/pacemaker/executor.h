/* One child, `ocfexec serve` with a journal, by lines of JSON. */
#ifndef EXECUTOR_H
#define EXECUTOR_H

#include <glib.h>
#include <stdbool.h>

/* Starts the child with these arguments, and again whenever a signal ends it; if it ends otherwise, the bridge does too. `notice` gets
   the line of each result. `opened` is called when a child has opened the journal, after the notices of interrupted and dropped actions. */
void executor_start(char **words, void (*notice)(const char *line), void (*opened)(void));

/* Whether a child has opened the journal, so that it takes commands. */
bool executor_is_open(void);

/* Closes the child's input, and waits for its end. */
void executor_stop(void);

/* Sends a command. `ask` waits for its reply, which belongs to the caller: NULL if the child ended before it. `tell` ignores the reply
   except for the log, and may be called at any time. `did` is whether there is a reply other than a refusal. */
char *executor_ask(const char *format, ...) G_GNUC_PRINTF(1, 2);
void executor_tell(const char *format, ...) G_GNUC_PRINTF(1, 2);
bool executor_did(const char *reply);

/* A text as JSON; the number of the first such key of a line, or -1; and the word of that key, or NULL. Replies are compact, so a key is
   found as text, and words need no unescaping. The texts belong to the caller. */
char *json_text(const char *text);
gint64 json_number(const char *line, const char *key);
char *json_word(const char *line, const char *key);

#endif
