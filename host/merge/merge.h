/*
 * What the files of saratoga-merge share. It stands on the files of the link program, whose directories it merges: all but its command
 * line and its socket, with their names, their locks and their order of writes.
 *
 *     merge.c   command line; what is judged, in which order what is written, and what is said
 *     octets.c  runs as sets, and the octets of two files compared and copied
 */
#ifndef MERGE_H
#define MERGE_H

#include "link.h"

/* A stretch of offsets: from `start` up to, not including, `stop`. */
struct run {
    uint64_t start, stop;
};

/* Two transfers' runs cut at each other's ends are fewer than twice as many. */
struct runs {
    size_t count;
    struct run at[2 * SARATOGA_RUNS + 2];
};

/* One of the two plants' records of a transfer. */
struct side {
    const char *directory;
    struct saratoga_listed one;    /* as its area has it */
    struct slot slot;
    struct runs runs;
    struct transfer *files;
    int fd;                        /* of its .part or .page, to be read; -1 where the complete file was taken away */
    char name[NAME_OCTETS];        /* of that file */
};

/* A transfer that is open in both. */
struct pair {
    uint64_t id;
    struct side first, second;
    struct runs lacking;           /* what the second has and the first lacks */
    struct transfer files_of_first, files_of_second;
};

/* octets.c */
void runs_of(struct runs *out, const uint8_t *octets, const struct saratoga_listed *one);
void in_both(struct runs *out, const struct runs *one, const struct runs *other);
void in_one_alone(struct runs *out, const struct runs *one, const struct runs *other);
void missing_of(struct runs *out, const struct runs *have, uint64_t length);
uint64_t octets_in(const struct runs *runs);
void compare_octets(const struct pair *pair);
void copy_octets(const struct pair *pair);

#endif
