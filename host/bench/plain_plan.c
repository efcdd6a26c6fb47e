/*
 * What to send again, planned and checked in plain C: the packet is judged as everywhere here. A plan walks the holes twice, once
 * for their count; a check walks holes and pieces once.
 */
#include "plain_packet.h"
#include "receivers.h"

/* A success STATUS and a largest payload: the number of the refusal, 0 for none. */
static unsigned read_holes(const uint8_t *packet, size_t len, uint64_t largest, struct plain_status *s)
{
    uint64_t word;
    unsigned refused = read_start(packet, len, &word);
    if (refused)
        return refused;
    if ((word >> 24 & 63) != SARATOGA_TYPE_STATUS)
        return 4;
    if (word & 255)
        return 11;
    refused = read_success(packet, len, word, s);
    if (refused)
        return refused;
    return largest == 0 || largest > SARATOGA_PAYLOAD_OCTETS ? 21 : 0;
}

static uint64_t pieces_needed(const uint8_t *packet, uint64_t largest, const struct plain_status *s)
{
    const uint8_t *at = packet + s->holes_at;
    uint64_t count = 0;
    size_t i;
    for (i = 0; i < s->holes; i++, at += 2 * s->width) {
        uint64_t octets = number_at(at + s->width, s->width) - number_at(at, s->width);
        count += octets / largest + (octets % largest != 0);
    }
    return count;
}

static struct saratoga_planned refused_plan(unsigned number)
{
    return (struct saratoga_planned){.number = number, .code = code_of(number)};
}

struct saratoga_planned plain_plan_count(const uint8_t *status, size_t status_len, uint64_t largest)
{
    struct plain_status s;
    unsigned refused = read_holes(status, status_len, largest, &s);
    if (refused)
        return refused_plan(refused);
    return (struct saratoga_planned){.count = pieces_needed(status, largest, &s)};
}

struct saratoga_planned plain_plan(const uint8_t *status, size_t status_len, uint64_t largest,
                                   struct saratoga_piece *pieces, size_t piece_count)
{
    struct plain_status s;
    const uint8_t *at;
    uint64_t count;
    size_t i;
    unsigned refused = read_holes(status, status_len, largest, &s);
    if (refused)
        return refused_plan(refused);
    count = pieces_needed(status, largest, &s);
    if (count > piece_count)
        return refused_plan(20);
    at = status + s.holes_at;
    for (i = 0; i < s.holes; i++, at += 2 * s.width) {
        uint64_t start = number_at(at, s.width), end = number_at(at + s.width, s.width);
        for (; end - start > largest; start += largest)
            *pieces++ = (struct saratoga_piece){start, largest};
        *pieces++ = (struct saratoga_piece){start, end - start};
    }
    return (struct saratoga_planned){.count = count};
}

struct saratoga_checked plain_check_plan(const uint8_t *status, size_t status_len, uint64_t largest,
                                         const struct saratoga_piece *pieces, size_t piece_count)
{
    struct plain_status s;
    struct saratoga_checked a = {0};
    const struct saratoga_piece *last = pieces + piece_count;
    const uint8_t *at;
    size_t i;
    unsigned refused = read_holes(status, status_len, largest, &s);
    a.number = refused;
    a.code = code_of(refused);
    if (refused)
        return a;
    at = status + s.holes_at;
    for (i = 0; i < s.holes; i++, at += 2 * s.width) {
        uint64_t next = number_at(at, s.width), end = number_at(at + s.width, s.width);
        for (; next < end; next += pieces++->length)
            if (pieces == last || pieces->offset != next || pieces->length == 0 || pieces->length > largest ||
                pieces->length > end - next)
                return a;
    }
    a.passes = pieces == last;
    return a;
}
