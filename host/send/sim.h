/* What the files of the simulation share: a network with a clock of its own, and the receiver at its other end. */
#ifndef SIM_H
#define SIM_H

#include "send.h"

enum { MOST_LENGTH = 20000, MOST_FLYING = 8192, MOST_PACKET = 2200 };
enum way { TO_RECEIVER, TO_SENDER };

/* What a network does to packets: chances in 1/1000, times in nanoseconds. */
struct network {
    uint64_t loss[2], repeat[2]; /* by way */
    int64_t delay, jitter[2];    /* jitter reorders */
    int64_t late;                /* a repeat comes up to so much later */
};

extern struct network network;
extern uint64_t lost_data; /* DATA packets that were lost since clear_network() */

void seed_chance(uint64_t seed);
uint64_t below(uint64_t limit);

void clear_network(void);
void put_packet(enum way way, const uint8_t *packet, size_t size, int64_t now);
int64_t next_arrival(void); /* INT64_MAX where nothing flies */
size_t take_arrival(enum way *way, uint8_t packet[MOST_PACKET]);

/* The receiver: the library's table, a disk, and a set of offsets of its own. */
struct receiver {
    uint8_t area[SARATOGA_AREA_OCTETS];
    uint8_t disk[MOST_LENGTH], has[MOST_LENGTH];
    const uint8_t *file;    /* what is sent, to compare */
    uint64_t length;
    int is_dead;            /* hears nothing */
    int was_complete;       /* every octet was there, by its own set, and the disk had the file */
    uint64_t needless;      /* DATA that brought nothing new */
    const char *fault;      /* what a sender must not do, and did */
};

void lose_everything(struct receiver *r);
void packet_comes(struct receiver *r, const uint8_t *packet, size_t size, int64_t now);

#endif
