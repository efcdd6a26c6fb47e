/* Runs as sets; and the octets of two files: what both have is compared, what the first lacks is copied. */
#include "merge.h"

#include <errno.h>
#include <string.h>
#include <unistd.h>

#define AT_A_TIME 65536

static void add(struct runs *out, uint64_t start, uint64_t stop)
{
    if (start >= stop)
        return;
    if (out->count == sizeof out->at / sizeof out->at[0])
        die("more runs than there is room for: the program has a fault");
    out->at[out->count++] = (struct run){start, stop};
}

/* What is below `length` and in none of the runs. */
void missing_of(struct runs *out, const struct runs *have, uint64_t length)
{
    uint64_t after = 0;
    out->count = 0;
    for (size_t i = 0; i < have->count; i++) {
        add(out, after, have->at[i].start);
        after = have->at[i].stop;
    }
    add(out, after, length);
}

/* The runs of an open transfer: what lies below its edge and in none of its holes. */
void runs_of(struct runs *out, const uint8_t *octets, const struct saratoga_listed *one)
{
    struct runs holes = {.count = 0};
    struct saratoga_hole hole;
    for (uint64_t i = 0; (hole = saratoga_transfer_hole(octets, SARATOGA_AREA_OCTETS, one->id, i)).number == 0; i++)
        add(&holes, hole.start, hole.end);
    missing_of(out, &holes, one->edge);
}

void in_both(struct runs *out, const struct runs *one, const struct runs *other)
{
    out->count = 0;
    for (size_t i = 0, j = 0; i < one->count && j < other->count;) {
        struct run a = one->at[i], b = other->at[j];
        add(out, a.start > b.start ? a.start : b.start, a.stop < b.stop ? a.stop : b.stop);
        if (a.stop < b.stop)
            i++;
        else
            j++;
    }
}

void in_one_alone(struct runs *out, const struct runs *one, const struct runs *other)
{
    struct runs rest;
    missing_of(&rest, other, UINT64_MAX);
    in_both(out, one, &rest);
}

uint64_t octets_in(const struct runs *runs)
{
    uint64_t sum = 0;
    for (size_t i = 0; i < runs->count; i++)
        sum += runs->at[i].stop - runs->at[i].start;
    return sum;
}

/* Octets of one side's file, all of them. */
static void read_octets(const struct side *side, uint8_t *out, size_t count, uint64_t offset)
{
    while (count > 0) {
        ssize_t done = pread(side->fd, out, count, (off_t)offset);
        if (done < 0 && errno == EINTR)
            continue;
        if (done <= 0)
            die("%s/%s: octet %" PRIu64 " can't be read: %s; nothing was merged", side->directory, side->name, offset,
                done < 0 ? strerror(errno) : "the file ends there");
        out += done;
        count -= (size_t)done;
        offset += (uint64_t)done;
    }
}

static size_t part_of(const struct run *run, uint64_t offset)
{
    return run->stop - offset < AT_A_TIME ? (size_t)(run->stop - offset) : AT_A_TIME;
}

/* Ends the program at the first octet that both have and that differs. */
void compare_octets(const struct pair *pair)
{
    static uint8_t ours[AT_A_TIME], theirs[AT_A_TIME];
    struct runs both;
    in_both(&both, &pair->first.runs, &pair->second.runs);
    if (pair->first.fd < 0 || pair->second.fd < 0)
        return; /* complete, and taken away: there is nothing to compare */
    for (size_t i = 0; i < both.count; i++) {
        for (uint64_t at = both.at[i].start; at < both.at[i].stop;) {
            size_t count = part_of(&both.at[i], at);
            read_octets(&pair->first, ours, count, at);
            read_octets(&pair->second, theirs, count, at);
            for (size_t j = 0; j < count; j++)
                if (ours[j] != theirs[j])
                    die("transfer %" PRIu64 ": octet %" PRIu64 " is %02x in %s/%s and %02x in %s/%s: these aren't one file; "
                        "nothing was touched",
                        pair->id, at + j, ours[j], pair->first.directory, pair->first.name, theirs[j], pair->second.directory,
                        pair->second.name);
            at += count;
        }
    }
}

/* Writes what the first lacks to its .part. Its area doesn't hold these octets yet, so a cut here does no harm. */
void copy_octets(const struct pair *pair)
{
    static uint8_t octets[AT_A_TIME];
    for (size_t i = 0; i < pair->lacking.count; i++) {
        for (uint64_t at = pair->lacking.at[i].start; at < pair->lacking.at[i].stop;) {
            size_t count = part_of(&pair->lacking.at[i], at);
            read_octets(&pair->second, octets, count, at);
            if (file_of(pair->first.files) < 0 || write_at(pair->first.files->fd, octets, count, at) != 0)
                die("%s/%s: can't be written: %s; nothing was merged", pair->first.directory, pair->first.name, strerror(errno));
            at += count;
        }
    }
}
