/*
 * What the files of saratoga-send share:
 *
 *     send.c      one file after another, and how it ended
 *     options.c   the command line
 *     page.c      a file that is sent: its METADATA, and its octets
 *     transfer.c  what is sent next, and what an answer or a silence changes; it has no clock, no socket and no file
 *     round.c     what a STATUS says, and the pieces of a round of repairs
 *     run.c       the clock: sends what transfer.c says, at the rate of the user
 *     wire.c      the socket
 *     lines.c     what is printed
 */
#ifndef SEND_H
#define SEND_H

#define _GNU_SOURCE
#define _FILE_OFFSET_BITS 64

#include <inttypes.h>
#include <stddef.h>
#include <stdint.h>

#include "saratoga.h"

#define MOST_ASK 1000000           /* packets between two requests for STATUS, and so pieces of a round */
#define WINDOW_ASKS 4              /* requests for STATUS in what may be sent unreported, where no rate is given */
#define SECOND INT64_C(1000000000) /* times are nanoseconds of a clock that only rises */

/* ---- options.c */

struct options {
    double rate;     /* Mbit/s of packets; 0: as fast as the socket takes them */
    uint64_t payload, width, ask, tries, id;
    int64_t wait;
    int md5, has_id, quiet;
    const char *peer; /* HOST:PORT */
    char **files;
    size_t file_count;
};

/* Whether all of the command line is understood; the first word that isn't is told of. Values may follow after `=`. */
int read_options(int argc, char **argv, struct options *options);

/* A message on standard error, after the program's name; gives 0. */
int wrong(const char *form, ...) __attribute__((format(printf, 1, 2)));

/* ---- page.c */

struct page {
    int fd;
    const char *name;            /* as on the command line */
    uint64_t id, width, length;
    int64_t mtime[2];            /* seconds and nanoseconds, to notice a change */
    int has_md5;
    uint8_t digest[SARATOGA_DIGEST_OCTETS];
    uint8_t metadata[SARATOGA_METADATA_OCTETS];
    size_t metadata_len;
};

/* Opens a file, one at a time, and writes its METADATA; 0 where it can't be sent, which was told. */
int open_page(struct page *page, const char *name, uint64_t id, const struct options *options, int with_md5);
void close_page(struct page *page);

/* The octets from an offset on, at most 65,000, until the next call; NULL where they can't be read. */
const uint8_t *page_octets(const struct page *page, uint64_t offset, size_t length);

/* Whether length or time of the file are others than they were when it was opened. */
int page_changed(const struct page *page);

/* ---- round.c */

/* The flags of a width of 2, 4, 8 or 16 octets. */
uint64_t width_flags(uint64_t width);

/* What a success STATUS says of the receiver. All three only grow as long as it keeps what it has. */
struct report {
    uint64_t progress, edge, received;
    uint64_t holes;
    int lists_all; /* else `received` is 0: it isn't known */
};

struct report report_of(const uint8_t *packet, const struct saratoga_packet *read);

/* Whether one report is of an earlier moment than another; whether it has an octet more. */
int is_older(const struct report *report, const struct report *than);
int has_more(const struct report *report, const struct report *than);
void raise_to(struct report *best, const struct report *report);

/* Whether the STATUS says that every octet of a piece was received. */
int says_received(const uint8_t *packet, const struct saratoga_packet *read, struct saratoga_piece piece);

/*
 * The first pieces of the plan for a STATUS, at most `most`. The hole list may be cut short for it, in its place. With 64 runs, or
 * `no_room` for another, a hole from 0 is left for a later round: a piece from 0 begins a run, while all others begin where one ends
 * (R17.6).
 */
size_t plan_round(uint8_t *packet, const struct saratoga_packet *read, size_t packet_len, uint64_t payload,
                  struct saratoga_piece *pieces, size_t most, int no_room);

/* ---- transfer.c */

enum state { OPENING, SENDING, CONFIRMED, REFUSED, GIVEN_UP };

struct transfer {
    uint64_t id, width, length, payload, ask, most_tries;
    uint64_t window; /* octets that may be sent beyond the edge that the receiver has reported */
    int64_t wait;
    enum state state;
    int metadata_due;
    uint64_t next;                 /* octets from here on were not sent yet */
    struct saratoga_piece *pieces; /* the round of repairs: those from piece_at on are still to be sent */
    size_t piece_count, piece_at;
    struct saratoga_piece asked_with; /* the round's last piece, which asked for STATUS */
    uint64_t mark;                    /* what had been sent of the file when the round was over */
    int round_open;                   /* no STATUS has answered the round yet */
    int refused;                      /* a piece of the round was answered with failure 3 */
    int no_room;                      /* failure 3 since the last round */
    struct report best, most;         /* of what was heard: since METADATA was answered last, and at all */
    uint64_t since_ask, tries, lost;
    int asked;                        /* since something new was heard */
    int64_t deadline;
    uint64_t failure;                 /* the last failure code */
    uint64_t packets, repairs, metadata_count, status_count, old_count; /* for the last line */
};

enum what { METADATA_NOW, DATA_NOW, WAIT, ENDED };

struct step {
    enum what what;
    uint64_t offset, length, flags; /* of DATA */
};

/* `pieces` has room for `ask` of them. */
void begin_transfer(struct transfer *t, const struct page *page, const struct options *options,
                    struct saratoga_piece *pieces, int64_t now);

/* What to do now. A packet counts as sent from then on; where there is nothing to do, wait until `deadline`. */
struct step next_step(struct transfer *t, int64_t now);

/* A packet came. Its hole list may be cut short. */
void take_packet(struct transfer *t, uint8_t *packet, size_t packet_len, int64_t now);

/* ---- wire.c */

/* A socket that sends to HOST:PORT and hears nobody else; -1 where there is none, which was told. */
int open_wire(const char *peer);

/* Packets to be sent together. */
enum { BATCH = 32, DATA_HEAD = 24 };
struct batch {
    size_t count;
    size_t sizes[BATCH];
    uint8_t packets[BATCH][DATA_HEAD + SARATOGA_PAYLOAD_OCTETS];
};

/* 0 where they can never be sent. What the network refuses is a loss like any other, and its error is kept in wire_error. */
int send_batch(int wire, struct batch *batch);
extern int wire_error;

/* A packet that has come: its length, or 0 where there is none. */
size_t receive(int wire, uint8_t *packet, size_t room);

/* Waits until a packet comes, or for so many nanoseconds. */
void wait_for_packet(int wire, int64_t nanoseconds);

/* ---- run.c */

int64_t clock_now(void);

/* Sends a page until the transfer has ended; 0 where the page can't be read or sent, which was told. */
int run(int wire, struct transfer *t, const struct page *page, const struct options *options);

/* ---- lines.c */

void say_begin(const struct page *page);
void say_progress(const struct transfer *t, const struct page *page, int64_t now, int quiet);
void say_end(const struct transfer *t, const struct page *page, int64_t now, int confirmed);

/* Why a transfer that isn't confirmed has ended. */
void say_why(const struct transfer *t, const struct page *page);

#endif
