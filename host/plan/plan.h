/*
 * saratoga-plan, in three files: plan.c has the command line and asks the library, input.c reads a STATUS and a list, reason.c
 * says why a list does not pass.
 */
#ifndef PLAN_H
#define PLAN_H

#include "saratoga.h"

/* Pieces of a plan or a list: 256 MiB of records. */
#define MOST_PIECES 16777216

/* Octets of a file with a STATUS: a packet in hexadecimal digits, with room for blanks. */
#define STATUS_FILE_OCTETS 1048576

struct status {
    uint8_t octets[STATUS_FILE_OCTETS];
    size_t size;
    struct saratoga_packet read;
};

/* Pieces, each with the line of the file that it stands in. */
struct list {
    struct saratoga_piece *pieces;
    uint32_t *lines;
    size_t count, room;
};

/* Each is 1, or 0 where something is wrong, which it told. */
int read_status(const char *name, struct status *status);
int read_list(const char *name, struct list *list);

/* A number of decimal digits at `at`, before `end`; where it ends, or NULL where there is none or it is 2^64 or more. */
const char *read_number(const char *at, const char *end, uint64_t *number);

/* Prints which condition the first bad piece breaks, of a list that does not pass. */
void print_reason(const struct status *status, uint64_t largest, const struct list *list);

#endif
