/* How far a transfer is: the columns of --list, and of the live lines. */
#include "link.h"

#include <stdio.h>
#include <string.h>
#include <sys/stat.h>


/* Whole percents, downwards: 100 is said of a complete file alone. */
static uint64_t percent_of(const struct saratoga_listed *one)
{
    if (one->complete)
        return 100;
    uint64_t percent = one->length < UINT64_MAX / 100 ? 100 * one->received / one->length : one->received / (one->length / 100);
    return percent < 99 ? percent : 99;
}

/* A hole ends below the edge: before each run there is one, but before a run that begins the file. */
static uint64_t holes_of(const uint8_t *snapshot, const struct saratoga_listed *one)
{
    uint64_t count = one->runs > 0 ? one->runs - 1 : 0;
    return count + (saratoga_transfer_hole(snapshot, SARATOGA_AREA_OCTETS, one->id, count).number == 0);
}

struct progress progress_of(const uint8_t *snapshot, const struct saratoga_listed *one, const struct slot *slot)
{
    struct progress now = {.percent = percent_of(one), .holes = holes_of(snapshot, one)};
    char host[64], port[16];
    if (slot->owner.high == 0 && slot->owner.low == 0 && slot->owner.port == 0)
        return now;
    show_sender(&slot->owner, host, port);
    snprintf(now.sender, sizeof now.sender, strchr(host, ':') != NULL ? "[%s]:%s" : "%s:%s", host, port);
    return now;
}

/* How many octets in a second. */
uint64_t in_a_second(uint64_t octets, uint64_t milliseconds)
{
    return octets < UINT64_MAX / 1000 ? 1000 * octets / milliseconds : octets / (milliseconds / 1000 + 1);
}

/* Octets in a second from the opening of a transfer, when its .meta was made, until it was last heard; empty where that is no second. */
static void rate_of(char out[24], const struct transfer *t, uint64_t octets, uint64_t heard)
{
    struct stat seen;
    char name[NAME_OCTETS];
    out[0] = '\0';
    name_of(name, t, "meta");
    if (fstatat(directory, name, &seen, 0) != 0 || seen.st_mtim.tv_sec < 0)
        return;
    uint64_t began = (uint64_t)seen.st_mtim.tv_sec * 1000 + (uint64_t)seen.st_mtim.tv_nsec / 1000000;
    if (heard >= began + 1000)
        snprintf(out, 24, "%" PRIu64, in_a_second(octets, heard - began));
}

/* One line of --list. */
void list_one(const uint8_t *snapshot, const struct saratoga_listed *one, const struct slot *slot)
{
    static struct transfer t;
    char name[NAME_OCTETS], meta[MOST_META] = "", rate[24], heard[32];
    struct progress now = progress_of(snapshot, one, slot);
    t = (struct transfer){.id = one->id, .file = slot->file, .fd = -1, .meta_fd = -1};
    if (read_meta(&t) == 0 && meta_is_of(t.meta, t.meta_len, one))
        meta_for_report(meta, &t);
    name_of(name, &t, one->complete ? "page" : "part");
    rate_of(rate, &t, one->received, slot->heard);
    date_of(heard, slot->heard / 1000 - START_OF_2000);
    report("id=%" PRIu64 " width=%" PRIu64 " length=%" PRIu64 " edge=%" PRIu64 " runs=%" PRIu64 " complete=%" PRIu64
           " file=%s received=%" PRIu64 " percent=%" PRIu64 " rate=%s holes=%" PRIu64 " heard=%s sender=%s %s",
           one->id, 8 * one->width, one->length, one->edge, one->runs, one->complete, name, one->received, now.percent, rate,
           now.holes, heard, now.sender, meta);
}
