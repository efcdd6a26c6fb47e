/* The log: a file in the place of standard output (--log), which SIGHUP has opened anew, and the time of a line (--times). */
#include "link.h"

#include <errno.h>
#include <fcntl.h>
#include <stdio.h>
#include <string.h>
#include <time.h>
#include <unistd.h>

volatile sig_atomic_t hung_up;

/* Gives -1 with errno where it can't be opened: lines then go where they went. */
static int open_anew(void)
{
    int fd = open(options.log, O_WRONLY | O_APPEND | O_CREAT | O_NONBLOCK | O_NOCTTY | O_CLOEXEC, 0666);
    if (fd < 0)
        return -1;
    int done = dup2(fd, 1);
    close(fd);
    return done;
}

void open_log(void)
{
    if (options.log != NULL && open_anew() < 0)
        die("%s: %s", options.log, strerror(errno));
}

/* After SIGHUP: what was said before is in the old file, and the rest goes to the new one. */
void look_at_log(void)
{
    if (!hung_up)
        return;
    hung_up = 0;
    flush_output();
    if (options.log != NULL && open_anew() < 0)
        warn("%s: can't be opened anew: %s; lines go to the file that was open", options.log, strerror(errno));
}

/* The time in UTC and a blank, as 2026-11-14T04:00:00.123Z; nothing where it isn't asked for. Gives its length. */
size_t time_of_line(char *out, size_t room)
{
    struct timespec now;
    struct tm parts;
    char seconds[32];
    out[0] = '\0';
    if (!options.times || clock_gettime(CLOCK_REALTIME, &now) != 0 || gmtime_r(&now.tv_sec, &parts) == NULL)
        return 0;
    strftime(seconds, sizeof seconds, "%Y-%m-%dT%H:%M:%S", &parts);
    return (size_t)snprintf(out, room, "%s.%03ldZ ", seconds, now.tv_nsec / 1000000);
}
