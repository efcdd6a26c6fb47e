/*
 * What a service manager is told over the socket that NOTIFY_SOCKET names: that the program is ready, what it does, that it works, and that
 * it ends. The watchdog is fed by the thread that takes packets, and only while the disk answers.
 */
#include "link.h"

#include <errno.h>
#include <stdarg.h>
#include <stdio.h>
#include <stdlib.h>
#include <string.h>
#include <sys/un.h>
#include <unistd.h>

#define MOST_WHAT 128
#define MOST_STATUS (MOST_WHAT + 80)

static struct sockaddr_un manager;
static socklen_t manager_len;
static int manager_fd = -1;
static int is_ready_told;
static uint64_t period;            /* milliseconds of the watchdog; 0: there is none */
static uint64_t fed, said;         /* when the manager last was */
static char what[MOST_WHAT];       /* the program does */
static char last_status[MOST_STATUS];

/* A variable that is for this program alone: no hook shall speak for it. */
static const char *take_variable(const char *name, char out[128])
{
    const char *value = getenv(name);
    snprintf(out, 128, "%s", value != NULL ? value : "");
    unsetenv(name);
    return out;
}

static void find_watchdog(void)
{
    char octets[128];
    uint64_t microseconds = strtoull(take_variable("WATCHDOG_USEC", octets), NULL, 10);
    const char *pid = take_variable("WATCHDOG_PID", octets);
    if (pid[0] == '\0' || strtoll(pid, NULL, 10) == getpid())
        period = microseconds == 0 || microseconds >= 2000 ? microseconds / 1000 : 2;
}

/* Finds the manager's socket: a path, or after @ a name of the abstract space. */
void find_manager(void)
{
    char name[128];
    take_variable("NOTIFY_SOCKET", name);
    size_t length = strlen(name);
    find_watchdog();
    if (length == 0)
        return;
    if ((name[0] != '/' && name[0] != '@') || length < 2 || length >= sizeof manager.sun_path) {
        warn("NOTIFY_SOCKET names no socket that can be told anything");
        return;
    }
    manager.sun_family = AF_UNIX;
    memcpy(manager.sun_path, name, length);
    if (name[0] == '@')
        manager.sun_path[0] = '\0';
    manager_len = (socklen_t)(offsetof(struct sockaddr_un, sun_path) + length + (name[0] == '/'));
    manager_fd = socket(AF_UNIX, SOCK_DGRAM | SOCK_CLOEXEC, 0);
}

int has_manager(void)
{
    return manager_fd >= 0;
}

/* What can't be told is lost: the manager finds out by its watchdog. Told to the operator once. */
static void tell(const char *form, ...)
{
    static int told;
    char text[MOST_STATUS + 64];
    va_list arguments;
    va_start(arguments, form);
    vsnprintf(text, sizeof text, form, arguments);
    va_end(arguments);
    if (manager_fd < 0)
        return;
    ssize_t sent = sendto(manager_fd, text, strlen(text), MSG_NOSIGNAL | MSG_DONTWAIT, (struct sockaddr *)&manager, manager_len);
    if (sent >= 0)
        return;
    if (!told)
        warn("the service manager can't be told anything: %s", strerror(errno));
    told = 1;
}

static const char *status_text(char out[MOST_STATUS])
{
    struct saratoga_listed one;
    uint64_t open = 0, complete = 0;
    for (; (one = saratoga_transfer(state, SARATOGA_AREA_OCTETS, open)).number == 0; open++)
        complete += one.complete;
    snprintf(out, MOST_STATUS, "%s; transfers open: %" PRIu64 ", of them complete: %" PRIu64, what, open, complete);
    return out;
}

static void tell_status(const char *before)
{
    char text[MOST_STATUS];
    said = now_ms();
    if (before[0] == '\0' && strcmp(status_text(text), last_status) == 0)
        return;
    strcpy(last_status, status_text(text));
    tell("%sSTATUS=%s", before, text);
}

/* What came before is taken up, and packets are heard. */
void tell_ready(const char *form, ...)
{
    va_list arguments;
    va_start(arguments, form);
    vsnprintf(what, sizeof what, form, arguments);
    va_end(arguments);
    is_ready_told = 1;
    tell_status("READY=1\n");
}

/* Whether the disk answers: no sync is under way for longer than the watchdog waits. */
static int works(uint64_t now)
{
    static uint64_t sync, since;
    if (!is_at_work(&syncer) || sync != covering_sync()) {
        sync = covering_sync();
        since = now;
    }
    return now - since < period;
}

/* Tells what there is to tell, between packets. */
void tell_manager(void)
{
    if (manager_fd < 0 || !is_ready_told)
        return;
    uint64_t now = now_ms();
    if (period > 0 && works(now) && now - fed >= period / 2) {
        fed = now;
        tell("WATCHDOG=1");
    }
    if (now - said >= INTERVAL)
        tell_status("");
}

/* The most milliseconds that the program may wait for packets, so that the watchdog is fed in time. */
int manager_wait(int most)
{
    uint64_t half = period / 2, since = now_ms() - fed;
    if (manager_fd < 0 || period == 0 || !works(now_ms()))
        return most;
    uint64_t left = since < half ? half - since : 0;
    return left < (uint64_t)most ? (int)left : most;
}

void tell_stopping(void)
{
    snprintf(what, sizeof what, "ending");
    if (is_ready_told)
        tell_status("STOPPING=1\n");
}
