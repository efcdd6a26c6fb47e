/* The network and the receiver of the simulation. */
#include "sim.h"

#include <stdio.h>
#include <stdlib.h>
#include <string.h>

struct network network;
uint64_t lost_data;

static struct flying {
    int64_t at;
    uint64_t order; /* of two that arrive at one time, the one that was sent first */
    enum way way;
    size_t size;
    uint8_t packet[MOST_PACKET];
} sky[MOST_FLYING];
static size_t flying_count;
static uint64_t order;
static int64_t last_arrival[2];
static uint64_t chance_state;

void seed_chance(uint64_t seed)
{
    chance_state = seed * UINT64_C(0x9E3779B97F4A7C15) + 1;
}

uint64_t below(uint64_t limit)
{
    uint64_t x = chance_state += UINT64_C(0x9E3779B97F4A7C15);
    x = (x ^ x >> 30) * UINT64_C(0xBF58476D1CE4E5B9);
    x = (x ^ x >> 27) * UINT64_C(0x94D049BB133111EB);
    return (x ^ x >> 31) % limit;
}

void clear_network(void)
{
    flying_count = 0;
    order = lost_data = 0;
    last_arrival[0] = last_arrival[1] = 0;
}

static void fly(enum way way, const uint8_t *packet, size_t size, int64_t at)
{
    struct flying *f;
    if (flying_count == MOST_FLYING || size > MOST_PACKET) {
        printf("FAILED: more packets on their way, or longer ones, than the simulation has room for\n");
        exit(1);
    }
    f = &sky[flying_count++];
    f->at = at;
    f->order = order++;
    f->way = way;
    f->size = size;
    memcpy(f->packet, packet, size);
}

void put_packet(enum way way, const uint8_t *packet, size_t size, int64_t now)
{
    int64_t at = now + network.delay;
    if (network.jitter[way] > 0)
        at += (int64_t)below((uint64_t)network.jitter[way]);
    else if (at < last_arrival[way])
        at = last_arrival[way];
    if (below(1000) >= network.loss[way])
        fly(way, packet, size, last_arrival[way] = at);
    else
        lost_data += packet[0] == 0x43;
    if (below(1000) < network.repeat[way])
        fly(way, packet, size, at + (int64_t)below((uint64_t)network.late + 1));
}

static size_t first_arrival(void)
{
    size_t i, first = 0;
    for (i = 1; i < flying_count; i++)
        if (sky[i].at < sky[first].at || (sky[i].at == sky[first].at && sky[i].order < sky[first].order))
            first = i;
    return first;
}

int64_t next_arrival(void)
{
    return flying_count == 0 ? INT64_MAX : sky[first_arrival()].at;
}

size_t take_arrival(enum way *way, uint8_t packet[MOST_PACKET])
{
    struct flying *f = &sky[first_arrival()];
    size_t size = f->size;
    *way = f->way;
    memcpy(packet, f->packet, size);
    *f = sky[--flying_count];
    return size;
}

void lose_everything(struct receiver *r)
{
    saratoga_fresh(r->area, sizeof r->area);
    memset(r->has, 0, sizeof r->has);
    memset(r->disk, 0, sizeof r->disk);
}

static void answer_status(struct receiver *r, uint64_t id, int unasked, int64_t now)
{
    uint8_t out[SARATOGA_STATUS_OCTETS];
    struct saratoga_written written = saratoga_write_status(r->area, sizeof r->area, id, 0, (uint64_t)unasked, out, sizeof out);
    if (written.number == 0)
        put_packet(TO_SENDER, out, (size_t)written.size, now);
}

static void answer_failure(const uint8_t *packet, size_t size, uint64_t code, int64_t now)
{
    uint8_t out[SARATOGA_FAILURE_OCTETS];
    uint64_t id;
    if (!saratoga_failure_id(packet, size, code, &id))
        return;
    saratoga_write_failure(id, code, out, sizeof out);
    put_packet(TO_SENDER, out, sizeof out, now);
}

/* A payload goes to disk, and into the receiver's own set. */
static void store(struct receiver *r, const uint8_t *packet, const struct saratoga_packet *read)
{
    memcpy(r->disk + read->offset, packet + read->payload_at, (size_t)read->payload_len);
    memset(r->has + read->offset, 1, (size_t)read->payload_len);
    r->was_complete |= memchr(r->has, 0, (size_t)r->length) == NULL && memcmp(r->disk, r->file, (size_t)r->length) == 0;
}

static void data_comes(struct receiver *r, const uint8_t *packet, size_t size, const struct saratoga_packet *read, int64_t now)
{
    struct saratoga_recorded recorded = saratoga_record(r->area, sizeof r->area, packet, size);
    int wanted = (read->flags & SARATOGA_FLAG_STATUS_WANTED) != 0;
    if (recorded.number != 0 && recorded.number != SARATOGA_REFUSED_NOT_OPEN && recorded.number != SARATOGA_REFUSED_RUNS)
        r->fault = saratoga_refusal_text(recorded.number);
    if (recorded.number != 0) {
        answer_failure(packet, size, recorded.code, now);
        return;
    }
    if (memcmp(r->file + read->offset, packet + read->payload_at, (size_t)read->payload_len) != 0)
        r->fault = "octets at another offset than in the file";
    r->needless += !recorded.adds;
    store(r, packet, read);
    if (wanted || (recorded.complete && recorded.adds))
        answer_status(r, read->id, !wanted, now);
}

void packet_comes(struct receiver *r, const uint8_t *packet, size_t size, int64_t now)
{
    struct saratoga_packet read = saratoga_read(packet, size);
    if (read.number != 0)
        r->fault = saratoga_refusal_text(read.number);
    else if (r->is_dead)
        return;
    else if (read.type == SARATOGA_TYPE_DATA)
        data_comes(r, packet, size, &read, now);
    else if (read.type != SARATOGA_TYPE_METADATA || saratoga_open(r->area, sizeof r->area, packet, size).number != 0)
        r->fault = "neither DATA nor METADATA that is taken";
    else {
        r->was_complete |= r->length == 0;
        answer_status(r, read.id, 1, now);
    }
}
