/*
 * Live lines: on a terminal one for each open transfer, under the lines of the log, a few times a second. They are the last lines on the
 * terminal and the cursor stands below them. output.c takes them away before it writes there, and puts them back.
 *
 * They stand on standard error, where that is a terminal, and where standard output is a terminal or a file: the reader of a pipe may
 * print on the same terminal, and knows nothing of them.
 */
#include "link.h"

#include <errno.h>
#include <poll.h>
#include <stdio.h>
#include <stdlib.h>
#include <string.h>
#include <sys/ioctl.h>
#include <sys/stat.h>
#include <unistd.h>

#define MOST_COLUMNS 160
#define SAMPLES 16                 /* one in each TICK: the rate is that of the last three seconds */

/* What was received of a transfer, and when. */
struct history {
    uint64_t file;                 /* 0: of none */
    size_t count;
    struct {
        uint64_t time, received;
    } samples[SAMPLES];
};

static struct history histories[MOST_FILES]; /* of the transfers in the same places */
static char drawing[(SARATOGA_TRANSFERS + 1) * (MOST_COLUMNS + 2) + 16];
static size_t drawing_len;
static int rows, shown;            /* of the drawing; and how many stand on the terminal */
static int terminal = -1;
static char rest[sizeof drawing];  /* what the terminal had no room for */
static size_t rest_len;

static void write_rest(void)
{
    ssize_t done = write(terminal, rest, rest_len);
    if (done < 0 && errno != EAGAIN && errno != EINTR)
        done = (ssize_t)rest_len; /* there is no terminal any more */
    if (done > 0) {
        rest_len -= (size_t)done;
        memmove(rest, rest + done, rest_len);
    }
}

/* Gives 0 where the terminal has no room, also not for what was put before. */
static int put(const char *text, size_t count, int milliseconds)
{
    struct pollfd ready = {.fd = terminal, .events = POLLOUT};
    if (poll(&ready, 1, milliseconds) <= 0)
        return 0;
    if (rest_len > 0)
        write_rest();
    if (rest_len > 0)
        return 0;
    memcpy(rest, text, count);
    rest_len = count;
    write_rest();
    return 1;
}

/* A program in the background leaves the terminal to others. */
static int is_in_front(void)
{
    pid_t group = tcgetpgrp(terminal);
    return group < 0 || group == getpgrp();
}

/* The cursor goes up to the first live line, and all from there on is cleared. */
static int hide(int milliseconds)
{
    char text[24];
    if (!is_in_front())
        shown = 0;
    if (shown == 0)
        return rest_len == 0 || put("", 0, milliseconds);
    size_t length = (size_t)snprintf(text, sizeof text, "\r\033[%dA\033[J", shown);
    if (!put(text, length, milliseconds))
        return 0;
    shown = 0;
    return rest_len == 0;
}

static void show(void)
{
    if (shown == 0 && rows > 0 && !line_is_half_written() && is_in_front() && put(drawing, drawing_len, 0))
        shown = rows;
}

/* The octets in a second since the oldest sample; where a sync that failed took octets back, 0. */
static uint64_t rate_of(struct history *history, uint64_t received)
{
    uint64_t now = now_ms();
    size_t last = history->count < SAMPLES ? history->count : SAMPLES - 1;
    if (history->count == SAMPLES)
        memmove(history->samples, history->samples + 1, (SAMPLES - 1) * sizeof history->samples[0]);
    history->samples[last].time = now;
    history->samples[last].received = received;
    history->count = last + 1;
    uint64_t before = history->samples[0].received, since = history->samples[0].time;
    return now > since && received > before ? in_a_second(received - before, now - since) : 0;
}

static void rate_text(char out[24], uint64_t rate)
{
    static const char *const units[] = {"B/s", "kB/s", "MB/s", "GB/s", "TB/s", "PB/s", "EB/s"};
    size_t unit = 0;
    uint64_t tenths = 0;
    for (; rate >= 1000; unit++) {
        tenths = rate % 1000 / 100;
        rate /= 1000;
    }
    if (unit == 0)
        snprintf(out, 24, "%" PRIu64 " %s", rate, units[unit]);
    else
        snprintf(out, 24, "%" PRIu64 ".%" PRIu64 " %s", rate, tenths, units[unit]);
}

/* Adds a row, cut to the terminal's width: one that runs over would be two. */
static void add_row(const char *text, size_t columns)
{
    size_t length = strlen(text);
    length = length < columns ? length : columns;
    memcpy(drawing + drawing_len, text, length);
    memcpy(drawing + drawing_len + length, "\r\n", 2);
    drawing_len += length + 2;
    rows++;
}

static void add_transfer(const struct saratoga_listed *one, size_t columns)
{
    char row[MOST_META + 256], rate[24];
    struct slot slot;
    struct transfer *t = open_transfer(one->id);
    if (t == NULL || !is_open(one->id, &slot))
        return;
    struct history *history = &histories[t - transfers];
    if (history->file != t->file)
        *history = (struct history){.file = t->file};
    rate_text(rate, rate_of(history, one->received));
    struct progress now = progress_of(state, one, &slot);
    const char *path = strstr(t->meta, "\npath=");
    snprintf(row, sizeof row,
             "id=%-10" PRIu64 " %3" PRIu64 "%% %12" PRIu64 " of %-12" PRIu64 " %10s  %2" PRIu64 " holes  heard %" PRIu64 " s ago  %s  %.*s",
             one->id, now.percent, one->received, one->length, rate, now.holes, (now_ms() - slot.heard) / 1000, now.sender,
             path != NULL ? (int)strcspn(path + 6, "\n") : 0, path != NULL ? path + 6 : "");
    add_row(row, columns);
}

/* Draws all open transfers, as many as the terminal has rows for. */
static void compose(void)
{
    struct winsize size = {.ws_row = 0};
    struct saratoga_listed one;
    char more[48];
    ioctl(terminal, TIOCGWINSZ, &size);
    size_t columns = size.ws_col > 1 ? size.ws_col - 1u : 79, most = size.ws_row > 2 ? size.ws_row - 2u : 22, count = 0;
    columns = columns < MOST_COLUMNS ? columns : MOST_COLUMNS;
    drawing_len = 0;
    rows = 0;
    for (uint64_t i = 0; (one = saratoga_transfer(state, SARATOGA_AREA_OCTETS, i)).number == 0; i++, count++)
        if (count < most)
            add_transfer(&one, columns);
    if (count > most) {
        snprintf(more, sizeof more, "and %zu more", count - most);
        add_row(more, columns);
    }
}

/* A few times a second. */
void draw_live(void)
{
    if (hide_live == NULL)
        return;
    compose();
    if (hide(0))
        show();
}

/* Live lines from now on, where there is a terminal for them. */
void begin_live(void)
{
    struct stat seen;
    const char *kind = getenv("TERM");
    int piped = fstat(1, &seen) != 0 || S_ISFIFO(seen.st_mode) || S_ISSOCK(seen.st_mode);
    if (options.no_live || piped || kind == NULL || kind[0] == '\0' || strcmp(kind, "dumb") == 0 || (terminal = open_terminal()) < 0)
        return;
    hide_live = hide;
    show_live = show;
}
