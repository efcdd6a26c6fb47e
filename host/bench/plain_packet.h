/*
 * Reading packets in plain C, for the receivers beside ours: the rules and the order of refusals that saratoga.h states.
 * Each reader gives the number of the refusal, 0 for none.
 */
#ifndef PLAIN_PACKET_H
#define PLAIN_PACKET_H

#include <string.h>

#include "saratoga.h"

struct plain_beacon {
    uint64_t flags, free_space;
    size_t free_width, endpoint_at, endpoint;
};

struct plain_data {
    uint64_t flags, id, offset;
    size_t width, timestamp, payload_at, payload;
};

struct plain_metadata {
    uint64_t flags, id, properties, size, mtime, ctime;
    size_t width, checksum, path_at, path;
};

struct plain_status {
    uint64_t flags, id, progress, in_response_to;
    size_t width, timestamp, holes_at, holes;
};

static inline uint64_t code_of(unsigned number)
{
    static const uint8_t codes[27] = {0, 0, 0, 0, 10, 9, 1, 1, 1, 9, 1, 0, 6, 9, 9, 1, 3, 3, 9, 0, 0, 0, 0, 1};
    return codes[number];
}

static inline uint64_t number16(const uint8_t *at)
{
    return (uint64_t)at[0] << 8 | at[1];
}

static inline uint64_t number32(const uint8_t *at)
{
    return (uint64_t)at[0] << 24 | (uint64_t)at[1] << 16 | (uint64_t)at[2] << 8 | at[3];
}

static inline uint64_t number64(const uint8_t *at)
{
    return (uint64_t)at[0] << 56 | (uint64_t)at[1] << 48 | (uint64_t)at[2] << 40 | (uint64_t)at[3] << 32 |
           (uint64_t)at[4] << 24 | (uint64_t)at[5] << 16 | (uint64_t)at[6] << 8 | at[7];
}

/* A number of 2, 4, 8 or 16 octets; of 16 the lower eight. */
static inline uint64_t number_at(const uint8_t *at, size_t width)
{
    return width == 2 ? number16(at) : width == 4 ? number32(at) : number64(at + width - 8);
}

/* Refusal 5: whether an upper octet of a descriptor of 16 isn't zero. */
static inline int over_64_bits(const uint8_t *at, size_t width)
{
    return width == 16 && number64(at) != 0;
}

static inline void put_number16(uint8_t *at, uint64_t number)
{
    at[0] = (uint8_t)(number >> 8);
    at[1] = (uint8_t)number;
}

static inline void put_number32(uint8_t *at, uint64_t number)
{
    at[0] = (uint8_t)(number >> 24);
    at[1] = (uint8_t)(number >> 16);
    at[2] = (uint8_t)(number >> 8);
    at[3] = (uint8_t)number;
}

static inline void put_number64(uint8_t *at, uint64_t number)
{
    at[0] = (uint8_t)(number >> 56);
    at[1] = (uint8_t)(number >> 48);
    at[2] = (uint8_t)(number >> 40);
    at[3] = (uint8_t)(number >> 32);
    at[4] = (uint8_t)(number >> 24);
    at[5] = (uint8_t)(number >> 16);
    at[6] = (uint8_t)(number >> 8);
    at[7] = (uint8_t)number;
}

/* Puts a number of 2, 4, 8 or 16 octets. */
static inline void put_number(uint8_t *at, size_t width, uint64_t number)
{
    if (width == 2)
        put_number16(at, number);
    else if (width == 4)
        put_number32(at, number);
    else if (width == 8)
        put_number64(at, number);
    else {
        put_number64(at, 0);
        put_number64(at + 8, number);
    }
}

/* Whether a number fits 2, 4, 8 or 16 octets. */
static inline int fits(uint64_t number, size_t width)
{
    return width >= 8 || number >> (8 * width) == 0;
}

/* Refusals 2, 1 and 3, and the first word. A BEACON needs four octets, all else eight. */
static inline unsigned read_start(const uint8_t *p, size_t len, uint64_t *word)
{
    if (len > 65535)
        return 2;
    if (len < 8 && (len < 4 || p[0] != 0x40))
        return 1;
    *word = number32(p);
    return *word >> 30 != 1 ? 3 : 0;
}

/* A BEACON, whose first word was read. */
static inline unsigned read_beacon(const uint8_t *p, size_t len, uint64_t word, struct plain_beacon *b)
{
    if ((word >> 18 & 3) == 1 || (word >> 16 & 3) == 1 || (word & 255) != 0)
        return 26;
    b->flags = word & 0xFFFFFF;
    b->free_width = 0;
    b->free_space = 0;
    if (word >> 14 & 1) {
        b->free_width = (size_t)2 << (word >> 12 & 3);
        if (len < 4 + b->free_width)
            return 1;
        if (over_64_bits(p + 4, b->free_width))
            return 5;
        b->free_space = number_at(p + 4, b->free_width);
    }
    b->endpoint_at = 4 + b->free_width;
    b->endpoint = len - b->endpoint_at;
    return 0;
}

static inline unsigned read_data(const uint8_t *p, size_t len, struct plain_data *d)
{
    uint64_t word;
    unsigned refused = read_start(p, len, &word);
    if (refused)
        return refused;
    if ((word >> 24 & 63) != SARATOGA_TYPE_DATA)
        return 4;
    if (word >> 20 & 3)
        return 6;
    d->flags = word & 0xFFFFFF;
    d->id = number32(p + 4);
    d->width = (size_t)2 << (word >> 22 & 3);
    d->timestamp = word & SARATOGA_FLAG_TIMESTAMP ? 16 : 0;
    d->payload_at = 8 + d->timestamp + d->width;
    if (len < d->payload_at)
        return 1;
    if (over_64_bits(p + 8 + d->timestamp, d->width))
        return 5;
    if (len == d->payload_at)
        return 10;
    d->offset = number_at(p + 8 + d->timestamp, d->width);
    d->payload = len - d->payload_at;
    return 0;
}

static inline int checksum_allowed(unsigned type, unsigned words)
{
    static const uint8_t wanted[4] = {0, 1, 4, 5};
    return type < 4 ? words == wanted[type] : words > 0;
}

static inline unsigned read_metadata(const uint8_t *p, size_t len, struct plain_metadata *m)
{
    uint64_t word;
    size_t at, width, rest;
    const uint8_t *zero;
    unsigned refused = read_start(p, len, &word);
    if (refused)
        return refused;
    if ((word >> 24 & 63) != SARATOGA_TYPE_METADATA)
        return 4;
    if (word >> 20 & 3)
        return 6;
    if (!checksum_allowed(word & 15, word >> 4 & 15))
        return 7;
    m->flags = word & 0xFFFFFF;
    m->id = number32(p + 4);
    m->width = (size_t)2 << (word >> 22 & 3);
    m->checksum = 4 * (word >> 4 & 15);
    at = 8 + m->checksum;
    if (len < at + 2)
        return 1;
    m->properties = number16(p + at);
    if (m->properties & 0x0320)
        return 6;
    width = (size_t)2 << (m->properties >> 6 & 3);
    m->path_at = at + 2 + width + 8;
    if (len < at + 2 + width)
        return 1;
    if (over_64_bits(p + at + 2, width))
        return 5;
    if (len < m->path_at)
        return 1;
    m->size = number_at(p + at + 2, width);
    m->mtime = number32(p + at + 2 + width);
    m->ctime = number32(p + at + 6 + width);
    rest = len - m->path_at;
    zero = (const uint8_t *)memchr(p + m->path_at, 0, rest < 1024 ? rest : 1024);
    if (zero == NULL)
        return rest < 1024 ? 1 : 8;
    m->path = (size_t)(zero - (p + m->path_at));
    if (m->path == 0 || m->path + 1 != rest)
        return 8;
    return fits(m->size, m->width) ? 0 : 9;
}

/* Refusal 23, where the Id is new: whether the checksum is a CRC-32c. */
static inline int has_crc32c(const struct plain_metadata *m)
{
    return (m->flags & SARATOGA_CHECKSUM_TYPE_MASK) == 1;
}

static inline int holes_allowed(const uint8_t *at, const struct plain_status *s)
{
    int partial = (s->flags & SARATOGA_FLAG_INCOMPLETE) != 0;
    uint64_t last = s->progress;
    size_t i;
    if (s->holes == 0 && !partial && s->flags & SARATOGA_FLAG_UNASKED && s->progress != 0 &&
        s->progress - 1 == s->in_response_to)
        return 1;
    if (s->progress > s->in_response_to)
        return 0;
    if (s->holes == 0)
        return partial || s->progress == s->in_response_to;
    for (i = 0; i < s->holes; i++, at += 2 * s->width) {
        uint64_t start = number_at(at, s->width), end = number_at(at + s->width, s->width);
        if (i == 0 ? (partial ? start < last : start != last) : start <= last)
            return 0;
        if (end <= start || end > s->in_response_to)
            return 0;
        last = end;
    }
    return 1;
}

/* A success STATUS, whose first word was read. Of descriptors over 64 bits the first that is whole decides. */
static inline unsigned read_success(const uint8_t *p, size_t len, uint64_t word, struct plain_status *s)
{
    size_t at, whole;
    s->flags = word & 0xFFFFFF;
    s->id = number32(p + 4);
    s->width = (size_t)2 << (word >> 22 & 3);
    s->timestamp = word & SARATOGA_FLAG_TIMESTAMP ? 16 : 0;
    at = 8 + s->timestamp;
    s->holes_at = at + 2 * s->width;
    for (whole = at; s->width == 16 && whole + 16 <= len; whole += 16)
        if (over_64_bits(p + whole, 16))
            return 5;
    if (len < s->holes_at)
        return 1;
    s->progress = number_at(p + at, s->width);
    s->in_response_to = number_at(p + at + s->width, s->width);
    if ((len - s->holes_at) % (2 * s->width) != 0)
        return 11;
    s->holes = (len - s->holes_at) / (2 * s->width);
    return holes_allowed(p + s->holes_at, s) ? 0 : 11;
}

/* Refusals 13, 14 and 15 of DATA for a transfer of this width and length. */
static inline unsigned data_misfit(const struct plain_data *d, uint64_t width, uint64_t length)
{
    if (d->width != width)
        return 13;
    if (d->payload > length || d->offset > length - d->payload)
        return 14;
    if (d->flags & SARATOGA_FLAG_END_OF_DATA && d->offset + d->payload != length)
        return 15;
    return 0;
}

/* The flags of a success STATUS with so many octets of timestamp. */
static inline uint64_t status_flags(size_t width, size_t timestamp, int incomplete, int unasked)
{
    return (timestamp ? SARATOGA_FLAG_TIMESTAMP : 0) |
           (width == 2 ? SARATOGA_WIDTH_16 : width == 4 ? SARATOGA_WIDTH_32 : width == 8 ? SARATOGA_WIDTH_64 : SARATOGA_WIDTH_128) |
           (incomplete ? SARATOGA_FLAG_INCOMPLETE : 0) | (unasked ? SARATOGA_FLAG_UNASKED : 0);
}

/* In-Response-To: the last octet of a complete transfer, or 0, and else the edge. */
static inline uint64_t in_response_to(uint64_t length, uint64_t progress, uint64_t edge)
{
    return length > progress ? edge : length == 0 ? 0 : length - 1;
}

/* The first 8 octets of a STATUS, and the timestamp. Gives the place behind them. */
static inline uint8_t *put_status_start(uint8_t *out, uint64_t flags, uint64_t id, const uint8_t *timestamp)
{
    put_number(out, 4, UINT64_C(0x44000000) | flags);
    put_number(out + 4, 4, id);
    if (!(flags & SARATOGA_FLAG_TIMESTAMP))
        return out + 8;
    memcpy(out + 8, timestamp, 16);
    return out + 24;
}

#endif
