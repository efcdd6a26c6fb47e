/*
 * Lines on standard output and messages on standard error. Nobody need read either: what can't be written at once is kept, as much as there
 * is room for, and what is over that is lost and told. Only whole lines are kept or lost, and as far as one write takes them whole lines are
 * written, so that a program that is killed leaves no half line for the next to go on with.
 */
#include "link.h"

#include <errno.h>
#include <fcntl.h>
#include <poll.h>
#include <stdarg.h>
#include <stdio.h>
#include <stdlib.h>
#include <string.h>
#include <sys/stat.h>
#include <time.h>
#include <unistd.h>

#define MOST_LINE 8192             /* octets of a line: a report with the longest path has fewer than 5,000 */
#define MOST_FORM (3 * MOST_LINE)  /* and in another form: ` free=` is ,"free":null there */
#define AT_A_TIME 4096             /* a pipe that takes octets at all takes so many without waiting */
#define FLUSH_AT 32768
#define LAST_WAIT 1000             /* milliseconds */

struct channel {
    int fd;
    int lost;
    int half;                      /* a line was written in part */
    size_t have, room;
    char *buffer;
};

int socket_fd = -1;
size_t (*form_of_line)(char *out, size_t room, const char *line, size_t length);
int (*hide_live)(int milliseconds);
void (*show_live)(void);
static char lines[1 << 20], messages[1 << 16];
static struct channel out = {.fd = 1, .room = sizeof lines, .buffer = lines};
static struct channel err = {.fd = 2, .room = sizeof messages, .buffer = messages};

/* Descriptors 0 to 2 are there, so that no file of the directory gets one of them. */
void open_output(void)
{
    for (int fd = open("/dev/null", O_RDWR); fd >= 0; fd = dup(fd)) {
        if (fd > 2) {
            close(fd);
            return;
        }
    }
}

/*
 * For live lines, which are drawn also where nothing happens: a terminal whose reader stops must not stop the program. It is opened anew, so
 * that a write that finds no room ends at once, here alone. Gives the descriptor of standard error; -1 where that is no terminal, or can't be
 * opened.
 */
int open_terminal(void)
{
    struct channel *const both[] = {&out, &err};
    for (size_t i = 0; i < 2; i++) {
        char name[32];
        snprintf(name, sizeof name, "/proc/self/fd/%d", both[i]->fd);
        int fd = isatty(both[i]->fd) ? open(name, O_WRONLY | O_NONBLOCK | O_NOCTTY | O_CLOEXEC) : -1;
        if (fd >= 0)
            both[i]->fd = fd;
    }
    return err.fd != 2 ? err.fd : -1;
}

/* How many octets can be written now, in whole lines where that is possible. */
static size_t writable(const struct channel *channel, int milliseconds)
{
    struct stat seen;
    struct pollfd wait = {.fd = channel->fd, .events = POLLOUT};
    if (fstat(channel->fd, &seen) == 0 && S_ISREG(seen.st_mode))
        return channel->have;
    if (poll(&wait, 1, milliseconds) <= 0)
        return 0;
    if (channel->have <= AT_A_TIME)
        return channel->have;
    const char *end = memrchr(channel->buffer, '\n', AT_A_TIME);
    return end != NULL ? (size_t)(end + 1 - channel->buffer) : AT_A_TIME;
}

/* Output that can't be written is told once, and by the exit status; the program goes on receiving. */
static void has_lost(struct channel *channel, const char *why)
{
    int told = channel->lost;
    channel->lost = 1;
    if (channel == &out && !told)
        warn("%s can't be written: %s; lines are lost, pages are not", options.log != NULL ? options.log : "standard output", why);
}

static void write_lines(struct channel *channel, int milliseconds)
{
    while (channel->have > 0) {
        size_t count = writable(channel, milliseconds);
        if (count == 0)
            return;
        ssize_t done = write(channel->fd, channel->buffer, count);
        if (done < 0 && errno == EAGAIN)
            return;
        if (done < 0 && errno != EINTR) {
            channel->have = 0;
            has_lost(channel, strerror(errno));
            return;
        }
        if (done > 0) {
            channel->half = channel->buffer[done - 1] != '\n';
            channel->have -= (size_t)done;
            memmove(channel->buffer, channel->buffer + done, channel->have);
        }
    }
}

/* Writes what can be written within so many milliseconds. On a terminal live lines make way for that. */
static void flush_channel(struct channel *channel, int milliseconds)
{
    int beside_live = channel->have > 0 && hide_live != NULL && isatty(channel->fd);
    if (beside_live && !hide_live(milliseconds))
        return;
    write_lines(channel, milliseconds);
    if (beside_live && hide_live != NULL)
        show_live();
}

/* Whether the terminal took a line in part, so that nothing else may be written now. */
int line_is_half_written(void)
{
    return out.half || err.half;
}

void flush_output(void)
{
    flush_channel(&out, 0);
    flush_channel(&err, 0);
}

/* At the end. */
void finish_output(void)
{
    if (hide_live != NULL)
        hide_live(LAST_WAIT);
    hide_live = NULL;
    flush_channel(&out, LAST_WAIT);
    if (out.have > 0)
        has_lost(&out, "nobody reads it");
    flush_channel(&err, LAST_WAIT);
}

int output_was_lost(void)
{
    return out.lost;
}

/* A line is kept whole, or not at all. A pass waits for its reader: no packet is lost meanwhile. */
static void add_line(struct channel *channel, const char *line, size_t length)
{
    if (channel->have + length > FLUSH_AT)
        flush_channel(channel, 0);
    while (channel->have + length > channel->room && socket_fd < 0 && !stopped && channel->have > 0)
        flush_channel(channel, LAST_WAIT);
    if (channel->have + length > channel->room) {
        has_lost(channel, "nobody reads it");
        return;
    }
    memcpy(channel->buffer + channel->have, line, length);
    channel->have += length;
}

/* A line that is too long is cut, and says so. */
static void compose(struct channel *channel, const char *head, const char *form, va_list arguments)
{
    static const char cut[] = " ..cut";
    char line[MOST_LINE];
    size_t length = time_of_line(line, sizeof line);
    length += (size_t)snprintf(line + length, sizeof line - length, "%s", head);
    length += (size_t)vsnprintf(line + length, sizeof line - length, form, arguments);
    if (length > sizeof line - 2) {
        length = sizeof line - 2;
        memcpy(line + length - (sizeof cut - 1), cut, sizeof cut - 1);
    }
    if (channel == &out && form_of_line != NULL) {
        char other[MOST_FORM];
        length = form_of_line(other, sizeof other - 1, line, length);
        other[length] = '\n';
        add_line(channel, other, length + 1);
        return;
    }
    line[length++] = '\n';
    add_line(channel, line, length);
}

void warn(const char *form, ...)
{
    char head[64];
    va_list arguments;
    flush_channel(&out, 0);
    snprintf(head, sizeof head, "%s: ", program_name);
    va_start(arguments, form);
    compose(&err, head, form, arguments);
    va_end(arguments);
    flush_channel(&err, 0);
}

/* Ends the program. What is on disk stays as it was last saved, so nothing that was told is lost. */
void die(const char *form, ...)
{
    char head[64];
    va_list arguments;
    snprintf(head, sizeof head, "%s: ", program_name);
    va_start(arguments, form);
    compose(&err, head, form, arguments);
    va_end(arguments);
    finish_output();
    _exit(1);
}

/* A line about packet `number`, as replay prints it. It is written where the program waits. */
void say(uint64_t number, const char *form, ...)
{
    char head[32];
    va_list arguments;
    if (options.quiet)
        return;
    snprintf(head, sizeof head, "%" PRIu64 " ", number);
    va_start(arguments, form);
    compose(&out, head, form, arguments);
    va_end(arguments);
}

void say_octets(uint64_t number, const char *what, const uint8_t *octets, size_t count)
{
    char text[2 * SARATOGA_STATUS_OCTETS + 1];
    static const char digits[] = "0123456789abcdef";
    size_t shown = count < SARATOGA_STATUS_OCTETS ? count : SARATOGA_STATUS_OCTETS;
    if (options.quiet)
        return;
    for (size_t i = 0; i < shown; i++) {
        text[2 * i] = digits[octets[i] >> 4];
        text[2 * i + 1] = digits[octets[i] & 15];
    }
    text[2 * shown] = '\0';
    say(number, "%s %s", what, text);
}

/* A line that is printed also with --quiet, and at once. */
void report(const char *form, ...)
{
    va_list arguments;
    va_start(arguments, form);
    compose(&out, "", form, arguments);
    va_end(arguments);
    flush_channel(&out, 0);
}

#ifdef LINK_CUT_POINTS
/* What was said was said: in the main thread, whose lines they are. */
void cut_point(const char *where)
{
    static _Atomic long passed;
    const char *text = getenv("LINK_CUT");
    if (text == NULL || ++passed != atol(text))
        return;
    if (gettid() == getpid())
        finish_output();
    fprintf(stderr, "cut %s\n", where);
    _exit(99);
}
#endif
