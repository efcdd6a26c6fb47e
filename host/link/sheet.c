/*
 * The sheet that the printer signs: ID.sheet, one page of plain text about one file. What it says of octets is what the
 * library answers for the area, and of the checksum what the library answers for the file (check.c): a page "arrived
 * whole" where it is complete and its checksum agrees, and nowhere else.
 *
 * It is written as the area is: a new file, forced to disk and renamed. A complete file has its sheet before it has its
 * name; one that is closed gets it once that is saved; one that is open, when the program ends.
 */
#include "link.h"

#include <errno.h>
#include <fcntl.h>
#include <stdarg.h>
#include <stdio.h>
#include <string.h>
#include <sys/stat.h>
#include <time.h>
#include <unistd.h>

#define LABEL 13                   /* columns */
#define WIDE 65                    /* columns of what follows */
#define PATH_LINES 4               /* of a longer path the rest is in .meta */
#define CLOSED "closed: "          /* how a sheet says it */

static char sheet[MOST_SHEET];
static size_t sheet_len;

/* Adds a line. */
static void line(const char *label, const char *form, ...)
{
    va_list arguments;
    int done = snprintf(sheet + sheet_len, MOST_SHEET - sheet_len, "%-*s", form[0] != '\0' ? LABEL : 0, label);
    sheet_len += (size_t)done;
    va_start(arguments, form);
    done = vsnprintf(sheet + sheet_len, MOST_SHEET - sheet_len, form, arguments);
    va_end(arguments);
    sheet_len += (size_t)done;
    if (sheet_len + 2 > MOST_SHEET)
        die("a sheet has no room: the program has a fault");
    sheet[sheet_len++] = '\n';
    sheet[sheet_len] = '\0';
}

/* A number with its digits in threes. */
static const char *grouped(char out[32], uint64_t number)
{
    char digits[24];
    size_t length = (size_t)snprintf(digits, sizeof digits, "%" PRIu64, number), done = 0;
    for (size_t i = 0; i < length; i++) {
        if (i > 0 && (length - i) % 3 == 0)
            out[done++] = ',';
        out[done++] = digits[i];
    }
    out[done] = '\0';
    return out;
}

static const char *date(char out[32], time_t when)
{
    struct tm parts;
    if (gmtime_r(&when, &parts) == NULL || strftime(out, 32, "%Y-%m-%d %H:%M:%S UTC", &parts) == 0)
        strcpy(out, "not known");
    return out;
}

/* When a file was last written. */
static const char *date_of_file(char out[32], const char *name)
{
    struct stat seen;
    int fd = open_file(name, O_RDONLY);
    strcpy(out, "not known");
    if (fd >= 0 && fstat(fd, &seen) == 0)
        date(out, seen.st_mtime);
    if (fd >= 0)
        close(fd);
    return out;
}

/* A path is what a sender wrote, so it is quoted, and a long one is cut. */
static void add_path(const uint8_t *path, size_t path_len, const char *meta)
{
    char text[4 * SARATOGA_PATH_OCTETS + 3];
    size_t length = quote(text, sizeof text, path, path_len), shown = length;
    if (shown > PATH_LINES * WIDE)
        shown = PATH_LINES * WIDE;
    for (size_t at = 0; at < shown; at += WIDE)
        line(at == 0 ? "Page" : "", "%.*s", (int)(shown - at < WIDE ? shown - at : WIDE), text + at);
    if (shown < length)
        line("", "... of %zu octets; all of them are in %s", path_len, meta);
}

/* What is missing: the holes, and what lies past the edge. */
static void add_missing(const struct saratoga_listed *one)
{
    char row[128] = "", stretch[48], number[32];
    size_t length = 0;
    if (one->complete) {
        line("Missing", "none");
        return;
    }
    line("Missing", "%s octets (10-20 stands for 10 to 19):", grouped(number, one->length - one->received));
    for (uint64_t i = 0, more = 1; more; i++) {
        struct saratoga_hole hole = saratoga_transfer_hole(state, SARATOGA_AREA_OCTETS, one->id, i);
        more = hole.number == 0;
        if (!more && one->edge == one->length)
            break;
        int done = snprintf(stretch, sizeof stretch, "%" PRIu64 "-%" PRIu64, more ? hole.start : one->edge,
                            more ? hole.end : one->length);
        if (length > 0 && length + 2 + (size_t)done > WIDE) {
            line("", "%s", row);
            length = 0;
        }
        length += (size_t)snprintf(row + length, sizeof row - length, "%s%s", length > 0 ? "  " : "", stretch);
    }
    line("", "%s", row);
}

static void add_checksum(const struct transfer *t, const struct saratoga_listed *one, const uint8_t *packet,
                         const struct saratoga_packet *read)
{
    char given[2 * 60 + 1] = "", found[2 * SARATOGA_DIGEST_OCTETS + 1] = "";
    uint64_t type = read->flags & SARATOGA_CHECKSUM_TYPE_MASK;
    for (uint64_t i = 0; i < read->checksum_len; i++)
        snprintf(given + 2 * i, 3, "%02x", packet[read->checksum_at + i]);
    for (size_t i = 0; i < SARATOGA_DIGEST_OCTETS; i++)
        snprintf(found + 2 * i, 3, "%02x", t->digest[i]);
    if (type == 0)
        line("Checksum", "none in METADATA: not checked");
    else if (type != (SARATOGA_CHECKSUM_MD5 & SARATOGA_CHECKSUM_TYPE_MASK))
        line("Checksum", "of type %" PRIu64 ", which is no MD5: not checked", type);
    else if (!t->checked)
        line("Checksum", "MD5 %s: not checked%s", given, one != NULL && one->complete ? "" : ", not complete");
    else
        line("Checksum", "MD5 %s: %s", given, verdict_text(t->verdict));
    if (t->checked && t->verdict == SARATOGA_DIFFERS)
        line("", "the file has %s", found);
}

/* What the printer looks at first. `closed` is 0 where the transfer is open, or complete and reported. */
static void add_headline(const struct transfer *t, const struct saratoga_listed *one, int closed)
{
    const char *first = "DO NOT PRINT: THE PAGE IS NOT COMPLETE.", *second = "Octets are missing.";
    if (one == NULL || (one->complete && closed)) {
        first = "DO NOT PRINT: THE TRANSFER WAS CLOSED.";
        second = one == NULL ? "Which octets were received is no longer known."
                             : "Every octet was received; the file is gone, changed or given up.";
    } else if (one->complete && t->verdict == SARATOGA_DIFFERS) {
        first = "DO NOT PRINT: THE CHECKSUM DIFFERS.";
        second = "Every octet was received, but the checksum is of others.";
    } else if (one->complete && t->verdict == SARATOGA_AGREES) {
        first = "THE PAGE ARRIVED WHOLE.";
        second = "Every octet was received, and the checksum agrees.";
    } else if (one->complete) {
        first = "EVERY OCTET WAS RECEIVED. THE PAGE WAS NOT CHECKED.";
        second = "There is no MD5 checksum to compare it with.";
    }
    line("", "");
    line("", "%s", first);
    line("", "%s", second);
    line("", "");
}

static void add_work(const struct transfer *t, const struct saratoga_listed *one)
{
    line("Recordings", "%" PRIu64 ", which absorbed %" PRIu64 " runs and left %" PRIu64, t->work.recordings,
         t->work.absorbed, one->runs);
    if (!t->opened_here)
        line("", "counted since the program last began");
}

/*
 * It began when .meta was written, and a complete file ended when its last octet was, also where programs were started since.
 * What is closed ends now.
 */
static void add_times(const struct transfer *t, int closed, int complete)
{
    char name[NAME_OCTETS], began[32], ended[32], now[32];
    date(now, time(NULL));
    name_of(name, t, "meta");
    line("Began", "%s", date_of_file(began, name));
    name_of_file(name, t);
    line("Ended", "%s", closed ? now : complete ? date_of_file(ended, name) : "not yet");
    line("Written", "%s", now);
}

/*
 * Makes the sheet of a transfer, in memory. `one` is NULL where the table doesn't hold it any more, `why` where it isn't
 * closed. `file` is the name that its octets have, or get next. Without METADATA there is no sheet.
 */
static void compose(const struct transfer *t, const struct saratoga_listed *one, const char *why, const char *file)
{
    char meta[NAME_OCTETS], octets[32];
    uint8_t packet[SARATOGA_METADATA_OCTETS];
    struct saratoga_packet read = saratoga_read(packet, meta_packet(packet, t->meta, t->meta_len));
    sheet_len = 0;
    if (read.number != 0)
        return;
    name_of(meta, t, "meta");
    line("PAGE SHEET", "");
    line("", "");
    add_path(packet + read.path_at, (size_t)read.path_len, meta);
    line("Length", "%s octets", grouped(octets, read.size));
    line("File", "%s", file);
    line("Transfer", "%" PRIu64 ", %s%s", t->id, why != NULL ? CLOSED : one->complete ? "complete" : "open",
         why != NULL ? why : "");
    add_headline(t, one, why != NULL);
    if (one != NULL)
        add_missing(one);
    add_checksum(t, one, packet, &read);
    if (one != NULL)
        add_work(t, one);
    add_times(t, why != NULL, one != NULL && one->complete);
    line("", "");
    line("Signed", "______________________________    Date  ________________");
}

int sheet_is_there(const struct transfer *t)
{
    char name[NAME_OCTETS];
    name_of(name, t, "sheet");
    return is_there(name);
}

/* The sheet of a complete file that was checked. Gives its length. */
size_t page_sheet(char out[MOST_SHEET], const struct transfer *t, const struct saratoga_listed *one)
{
    char file[NAME_OCTETS];
    name_of(file, t, t->verdict == SARATOGA_DIFFERS ? "differs" : "page");
    compose(t, one, NULL, file);
    memcpy(out, sheet, sheet_len);
    return sheet_len;
}

/* The sheet of a transfer that is to be closed, while the table holds it. Gives its length. */
size_t closing_sheet(char out[MOST_SHEET], const struct transfer *t, const struct saratoga_listed *one, const char *why)
{
    char file[NAME_OCTETS];
    name_of_file(file, t);
    if (strcmp(t->suffix, "part") == 0) {
        int64_t length = length_of(file);
        name_of(file, t, "aside");
        if (length <= 0)
            strcpy(file, "none");
    }
    compose(t, one, why, file);
    memcpy(out, sheet, sheet_len);
    return sheet_len;
}

/* Stores a sheet at the start or the end of the program. */
static void store(const struct transfer *t)
{
    char name[NAME_OCTETS];
    name_of(name, t, "sheet");
    if (sheet_len > 0 && replace_file(name, (const uint8_t *)sheet, sheet_len) != 0)
        warn("the sheet of transfer %" PRIu64 " can't be stored: %s", t->id, strerror(errno));
}

/* The sheet of a file that is to be set aside, and that no table holds: the program ended while it was closed. */
void write_orphan_sheet(const struct transfer *t)
{
    char name[NAME_OCTETS], aside[NAME_OCTETS], text[MOST_SHEET], closed[64];
    name_of(name, t, "sheet");
    name_of(aside, t, "aside");
    snprintf(closed, sizeof closed, "\n%-*s%" PRIu64 ", " CLOSED, LABEL, "Transfer", t->id);
    int fd = open_file(name, O_RDONLY);
    ssize_t got = fd >= 0 ? read(fd, text, sizeof text - 1) : 0;
    if (fd >= 0)
        close(fd);
    text[got > 0 ? got : 0] = '\0';
    if (strstr(text, closed) != NULL)
        return; /* it was written before that */
    compose(t, NULL, "the program was ended meanwhile", aside);
    store(t);
}

/* At the end: the sheets of what is still open. Where nothing came since the program began, the last one stands. */
void write_open_sheets(void)
{
    for (size_t i = 0; i < MOST_FILES; i++) {
        struct transfer *t = &transfers[i];
        struct saratoga_listed one = listed(t->id);
        char file[NAME_OCTETS];
        if (!t->used || t->why != NULL || one.number != 0 || one.complete || (!t->heard_here && sheet_is_there(t)))
            continue;
        name_of_file(file, t);
        compose(t, &one, NULL, file);
        store(t);
    }
}
