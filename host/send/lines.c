/* What is printed: a line when a file begins and when it has ended, and between them how far it is. */
#include "send.h"

#include <ctype.h>
#include <stdarg.h>
#include <stdio.h>
#include <string.h>
#include <unistd.h>

static int64_t begun, shown;
static uint64_t shown_packets;
static int line_is_open;

/* A name without what a terminal would take as a command, or a reader of lines as a field. */
static void put_name(FILE *out, const char *name)
{
    for (; *name != 0; name++)
        fprintf(out, isgraph((unsigned char)*name) && *name != '\\' ? "%c" : "\\x%02x", (unsigned char)*name);
}

/* The line of progress on a terminal gives way to others. */
static void end_line(void)
{
    if (line_is_open)
        printf("\r%78s\r", "");
    line_is_open = 0;
}

int wrong(const char *form, ...)
{
    va_list arguments;
    end_line();
    fflush(stdout);
    fputs("saratoga-send: ", stderr);
    va_start(arguments, form);
    vfprintf(stderr, form, arguments);
    va_end(arguments);
    fputc('\n', stderr);
    return 0;
}

void say_begin(const struct page *page)
{
    size_t i;
    begun = shown = clock_now();
    shown_packets = 0;
    printf("send id=%" PRIu64 " length=%" PRIu64, page->id, page->length);
    for (i = 0; page->has_md5 && i < sizeof page->digest; i++)
        printf("%s%02x", i == 0 ? " md5=" : "", page->digest[i]);
    printf(" file=");
    put_name(stdout, page->name);
    putchar('\n');
    fflush(stdout);
}

/* Mbit/s, to one decimal, of payload in packets or of a file. */
static double mbit(uint64_t octets, int64_t nanoseconds)
{
    return nanoseconds > 0 ? (double)octets * 8000 / (double)nanoseconds : 0;
}

/* Ten times a second on a terminal, where the line is overwritten; else once a second. */
void say_progress(const struct transfer *t, const struct page *page, int64_t now, int quiet)
{
    static int terminal = -1;
    unsigned percent = page->length == 0 ? 100 : (unsigned)(100.0 * (double)t->best.received / (double)page->length);
    double rate = mbit((t->packets - shown_packets) * t->payload, now - shown);
    if (terminal < 0)
        terminal = isatty(STDOUT_FILENO);
    if (quiet || now - shown < (terminal ? SECOND / 10 : SECOND))
        return;
    shown = now;
    shown_packets = t->packets;
    if (terminal)
        printf("\rid %-10" PRIu64 " %3u %% confirmed  %9.1f Mbit/s  %3" PRIu64 " holes  try %" PRIu64 "  ", page->id, percent, rate,
               t->best.holes, t->tries);
    else
        printf("progress id=%" PRIu64 " percent=%u mbit=%.1f holes=%" PRIu64 " tries=%" PRIu64 "\n", page->id, percent, rate,
               t->best.holes, t->tries);
    line_is_open = terminal;
    fflush(stdout);
}

void say_end(const struct transfer *t, const struct page *page, int64_t now, int confirmed)
{
    int64_t took = now - begun;
    end_line();
    printf("%s id=%" PRIu64 " length=%" PRIu64 " packets=%" PRIu64 " repairs=%" PRIu64 " metadata=%" PRIu64 " status=%" PRIu64
           " old=%" PRIu64 " seconds=%.3f mbit=%.1f file=",
           confirmed ? "confirmed" : "unconfirmed", page->id, page->length, t->packets, t->repairs, t->metadata_count,
           t->status_count, t->old_count, (double)took / (double)SECOND, mbit(page->length, took));
    put_name(stdout, page->name);
    putchar('\n');
    fflush(stdout);
}

/* Why nothing more is tried. */
static void put_silence(const struct transfer *t)
{
    if (t->lost > t->most_tries)
        fprintf(stderr, "the receiver had nothing any more of what it had, %" PRIu64 " times", t->lost);
    else if (t->status_count == 0 && t->failure == 0)
        fprintf(stderr, "the receiver did not answer, in %" PRIu64 " tries", t->tries);
    else
        fprintf(stderr, "no octet more was confirmed in %" PRIu64 " tries; %" PRIu64 " of %" PRIu64 " were", t->tries,
                t->most.received, t->length);
    if (t->failure != 0)
        fprintf(stderr, "; its last failure was %" PRIu64 ", %s", t->failure, saratoga_code_text(t->failure));
    if (wire_error != 0)
        fprintf(stderr, "; the network says: %s", strerror(wire_error));
}

void say_why(const struct transfer *t, const struct page *page)
{
    end_line();
    fflush(stdout);
    fputs("saratoga-send: ", stderr);
    put_name(stderr, page->name);
    fprintf(stderr, " is NOT confirmed: ");
    if (t->state == REFUSED)
        fprintf(stderr, "the receiver refuses it with failure %" PRIu64 ", %s", t->failure, saratoga_code_text(t->failure));
    else
        put_silence(t);
    fputc('\n', stderr);
}
