#include "executor.h"

#include <crm/common/mainloop.h>
#include <crm/crm.h>
#include <errno.h>
#include <sys/wait.h>
#include <unistd.h>

static char **command;
static void (*on_notice)(const char *line);
static void (*on_opened)(void);
static GPid child;
static int to_child = -1, from_child = -1;
static bool is_open, is_news;         /* a child is ready, and on_opened was not called yet */
static int owed;                      /* replies that are ignored */
static GString *input;                /* input that is not a complete line yet */
static GQueue notices = G_QUEUE_INIT; /* lines */
static guint teller;                  /* the source that delivers them, or 0 */

char *json_text(const char *text) {
    GString *json = g_string_new("\"");
    for (; *text; text++) {
        if (*text == '"' || *text == '\\')
            g_string_append_printf(json, "\\%c", *text);
        else if ((unsigned char)*text < 0x20)
            g_string_append_printf(json, "\\u%04x", *text);
        else
            g_string_append_c(json, *text);
    }
    return g_string_free(g_string_append_c(json, '"'), FALSE);
}

/* The value of a key, or an empty text. */
static const char *after(const char *line, const char *key) {
    g_autofree char *quoted = g_strdup_printf("\"%s\":", key);
    const char *found = strstr(line, quoted);
    return found ? found + strlen(quoted) : "";
}

gint64 json_number(const char *line, const char *key) {
    const char *digits = after(line, key);
    return g_ascii_isdigit(*digits) ? g_ascii_strtoll(digits, NULL, 10) : -1;
}

char *json_word(const char *line, const char *key) {
    const char *word = after(line, key);
    return *word == '"' ? g_strndup(word + 1, strcspn(word + 1, "\"")) : NULL;
}

bool executor_is_open(void) {
    return is_open;
}

bool executor_did(const char *reply) {
    return reply && !g_str_has_prefix(reply, "{\"error\"");
}

/* From the main loop, so that no notice is delivered while a reply is waited for. */
static gboolean tell_news(gpointer data) {
    char *line;
    teller = 0;
    while ((line = g_queue_pop_head(&notices))) {
        on_notice(line);
        g_free(line);
    }
    if (is_news) {
        is_news = false;
        on_opened();
    }
    return FALSE;
}

/* Takes a line: a notice, the ready line of the child, a reply that is ignored, or the awaited reply. */
static void take(char *line, char **reply) {
    bool is_notice = g_str_has_prefix(line, "{\"action\":");
    crm_trace("< %s", line);
    if (g_str_has_prefix(line, "{\"end\":")) { /* of a turn that the child made by itself: no command is answered so */
        crm_warn("The executor's turn ended: %s", line);
        g_free(line);
        return;
    }
    if (is_notice) {
        g_queue_push_tail(&notices, line);
    } else if (g_str_has_prefix(line, "{\"dropped\":")) {
        is_open = is_news = true;
        g_free(line);
    } else if (owed == 0) {
        *reply = line;
        return;
    } else {
        owed--;
        if (!executor_did(line))
            crm_info("The executor refused: %s", line);
        g_free(line);
    }
    if (!teller && (is_notice || is_news))
        teller = g_idle_add_full(G_PRIORITY_HIGH, tell_news, NULL, NULL);
}

/* Reads once, and takes the complete lines. False if the child has ended. */
static bool hear(char **reply) {
    char bytes[65536], *end;
    ssize_t count;
    while ((count = read(from_child, bytes, sizeof bytes)) < 0 && errno == EINTR)
        ;
    g_string_append_len(input, bytes, MAX(count, 0));
    while ((end = memchr(input->str, '\n', input->len))) {
        char *line = g_strndup(input->str, end - input->str);
        g_string_erase(input, 0, end - input->str + 1);
        take(line, reply);
    }
    return count > 0;
}

/* Sends a line. Lines are short compared with a pipe, so it never waits; a line to a child that has ended is lost. */
static void send_line(const char *format, va_list words) {
    g_autofree char *line = g_strdup_vprintf(format, words), *whole = g_strconcat(line, "\n", NULL);
    const char *at = whole;
    ssize_t count = 0;
    crm_trace("> %s", line);
    for (; *at && (count >= 0 || errno == EINTR); at += MAX(count, 0))
        count = write(to_child, at, strlen(at));
}

void executor_tell(const char *format, ...) {
    va_list words;
    va_start(words, format);
    send_line(format, words);
    va_end(words);
    owed++;
}

char *executor_ask(const char *format, ...) {
    char *reply = NULL;
    va_list words;
    va_start(words, format);
    send_line(format, words);
    va_end(words);
    while (!reply && is_open)
        is_open = hear(&reply);
    return reply;
}

static void launch(void);

static gboolean launch_again(gpointer data) {
    int status = 0;
    close(to_child);
    close(from_child);
    waitpid(child, &status, 0);
    crm_crit("The executor ended with wait status %d", status);
    if (!WIFSIGNALED(status))
        crm_exit(CRM_EX_FATAL);
    launch();
    return FALSE;
}

static int readable(gpointer data) {
    g_autofree char *reply = NULL;
    bool lives = hear(&reply);
    if (reply)
        crm_err("Unexpected line: %s", reply);
    return lives ? 0 : -1; /* `ended` follows on the latter */
}

static void ended(gpointer data) {
    is_open = is_news = false;
    g_idle_add(launch_again, NULL);
}

static void launch(void) {
    static struct mainloop_fd_callbacks callbacks = {readable, ended};
    GError *error = NULL;
    input = g_string_truncate(input ? input : g_string_new(NULL), 0);
    if (!g_spawn_async_with_pipes("/", command, NULL, G_SPAWN_DO_NOT_REAP_CHILD | G_SPAWN_SEARCH_PATH, NULL, NULL, &child,
                                  &to_child, &from_child, NULL, &error)) {
        crm_crit("Could not start %s: %s", command[0], error->message);
        crm_exit(CRM_EX_ERROR);
    }
    mainloop_add_fd("executor", G_PRIORITY_DEFAULT, from_child, NULL, &callbacks);
    crm_notice("Started the executor %s as process %d", command[0], (int)child);
    owed = 0;
}

void executor_start(char **words, void (*notice)(const char *line), void (*opened)(void)) {
    command = words;
    on_notice = notice;
    on_opened = opened;
    launch();
}

void executor_stop(void) {
    close(to_child);
    waitpid(child, NULL, 0);
}
