/* Senders, each with several transfers, some under one Id; and packets on their way, which may be lost, repeated, reordered, spoilt, or
 * come from somebody else's address. */
#include "simulate.h"

#include <stdio.h>
#include <string.h>

enum { SENDERS = 4, MOST_TRANSFERS = 12, MOST_PAGES = 2048, MOST_FLYING = 64, MOST_RANGES = SARATOGA_RUNS + 2 };

struct range {
    uint64_t from, to;
};

struct transfer {
    uint64_t sender;
    struct page *page;
    int is_answered, is_live;
    uint64_t retry;                  /* when METADATA is sent again */
    struct range todo[MOST_RANGES];  /* what is to be sent, by the last STATUS */
    size_t todo_count, at;
};

struct flying {
    int to_receiver;
    uint64_t sender;
    size_t size;
    uint8_t octets[MOST_PACKET];
};

static struct page pages[MOST_PAGES];
static size_t page_count;
static struct transfer transfers[MOST_TRANSFERS];
static struct flying flying[MOST_FLYING];
static int order[MOST_FLYING]; /* places in flying, the first sent first; those after flying_count are free */
static int flying_count;

static struct address address_of(uint64_t sender)
{
    struct address address = {sender >> 1, 0x7F000001 + (sender & 1), 4000 + sender};
    return address;
}

/* ---- pages */

/* Below 64, so that the judge can keep sets of octets in words. */
uint8_t page_octet(const struct page *page, uint64_t offset)
{
    uint64_t x = (page->key + offset / 3) * UINT64_C(0x9E3779B97F4A7C15);
    return (uint8_t)((x ^ x >> 29) >> 20 & 63);
}

struct page *page_of(const uint8_t *metadata, size_t size)
{
    size_t i;
    for (i = page_count; i > 0; i--)
        if (pages[i - 1].metadata_len == size && memcmp(pages[i - 1].metadata, metadata, size) == 0)
            return &pages[i - 1];
    return NULL;
}

static uint64_t width_flags(uint64_t width)
{
    return width == 2 ? SARATOGA_WIDTH_16 : width == 4 ? SARATOGA_WIDTH_32 : width == 8 ? SARATOGA_WIDTH_64 : SARATOGA_WIDTH_128;
}

static void write_metadata(struct page *page)
{
    uint8_t octets[MOST_LENGTH], md5[SARATOGA_MD5_OCTETS], digest[SARATOGA_DIGEST_OCTETS];
    int with_md5 = below(10000) < world.md5;
    char path[32];
    uint64_t o, flags = width_flags(page->width) | (with_md5 ? SARATOGA_CHECKSUM_MD5 : 0);
    for (o = 0; o < page->length; o++)
        octets[o] = page_octet(page, o);
    saratoga_md5_begin(md5, sizeof md5);
    saratoga_md5_add(md5, sizeof md5, octets, (size_t)page->length);
    saratoga_md5_end(md5, sizeof md5, digest, sizeof digest);
    snprintf(path, sizeof path, "page %u", (unsigned)(page - pages));
    page->metadata_len = (size_t)saratoga_write_metadata(flags, page->id, digest, with_md5 ? sizeof digest : 0, width_flags(page->width) >> 16,
                                                         page->length, 1, 2, (const uint8_t *)path, strlen(path), page->metadata,
                                                         sizeof page->metadata).size;
}

static struct page *new_page(void)
{
    static const uint64_t widths[] = {2, 2, 4, 4, 8, 16}, ids[] = {0, UINT32_MAX, 7, 8, 1000, 70000};
    struct page *page = &pages[page_count++];
    uint64_t id = below(world.ids);
    if (page_count == MOST_PAGES)
        violated("simulation", "more pages than there is room for");
    memset(page, 0, sizeof *page);
    page->id = id < sizeof ids / sizeof ids[0] ? ids[id] : 100 + id;
    page->width = widths[below(sizeof widths / sizeof widths[0])];
    page->length = below(24) == 0 ? below(3) : 1 + below(world.longest);
    page->key = below(UINT32_MAX);
    return page;
}

/* Another page, or the page of another sender; it may be sent without waiting for an answer to METADATA, and be like the one before. */
static void begin_page(struct transfer *t, int careless)
{
    struct page *before = t->page, *other = transfers[below(world.transfers)].page;
    t->page = other != NULL && below(6) == 0 ? other : new_page();
    if (t->page->metadata_len == 0) {
        if (before != NULL && below(2))
            t->page->id = before->id, t->page->width = before->width, t->page->length = before->length;
        write_metadata(t->page);
    }
    t->is_answered = careless;
    t->retry = now;
    t->todo[0].from = 0;
    t->todo[0].to = t->page->length;
    t->todo_count = 1;
    t->at = 0;
}

void network_clear(void)
{
    int i;
    uint64_t k;
    page_count = 0;
    flying_count = 0;
    for (i = 0; i < MOST_FLYING; i++)
        order[i] = i;
    memset(transfers, 0, sizeof transfers);
    for (k = 0; k < world.transfers; k++) {
        transfers[k].sender = below(SENDERS);
        transfers[k].is_live = 1;
        begin_page(&transfers[k], 0);
    }
}

/* ---- packets on their way */

static void take_off(int to_receiver, uint64_t sender, const uint8_t *packet, size_t size)
{
    struct flying *f;
    if (flying_count == MOST_FLYING || size == 0)
        return;
    f = &flying[order[flying_count++]];
    f->to_receiver = to_receiver;
    f->sender = sender;
    f->size = size;
    memcpy(f->octets, packet, size);
}

/* Errors in any octets, those of payloads among 64; or the end is cut off. */
static size_t spoil(uint8_t *packet, size_t size)
{
    struct saratoga_packet read = saratoga_read(packet, size);
    uint64_t count = 1 + below(3);
    if (below(8) == 0)
        return (size_t)below(size);
    while (count-- > 0) {
        uint64_t at = read.payload_len > 0 && below(4) ? read.payload_at + below(read.payload_len) : below(size);
        packet[at] ^= (uint8_t)(1 + below(63));
    }
    read = saratoga_read(packet, size);
    return read.number == 0 && read.size > MOST_LENGTH ? 0 : size;
}

static void put_packet(int to_receiver, uint64_t sender, const uint8_t *packet, size_t size)
{
    uint8_t copy[MOST_PACKET];
    memcpy(copy, packet, size);
    if (happens(world.loss))
        return;
    if (to_receiver && happens(world.corrupt))
        size = spoil(copy, size);
    if (to_receiver && happens(world.spoof))
        sender = below(SENDERS);
    take_off(to_receiver, sender, copy, size);
    if (happens(world.repeat))
        take_off(to_receiver, sender, copy, size);
}

void network_answers(const struct address *to, const uint8_t *packet, size_t size)
{
    uint64_t sender;
    judge_status(to, packet, size);
    for (sender = 0; sender < SENDERS; sender++)
        if (address_of(sender).port == to->port)
            put_packet(0, sender, packet, size);
}

/* ---- what a sender does with a STATUS */

/* Who asks again before the sync that covers the first question has ended gets no answer (R19.2): due is then the next sync. */
static uint64_t ask_again(void)
{
    return now + world.again;
}

static void add_todo(struct transfer *t, uint64_t from, uint64_t to)
{
    if (from < to && to <= t->page->length)
        t->todo[t->todo_count++] = (struct range){from, to};
}

static void take_status(struct transfer *t, const uint8_t *packet, const struct saratoga_packet *read)
{
    uint64_t i, edge = read->progress > read->in_response_to ? read->progress : read->in_response_to;
    t->retry = ask_again();
    t->is_answered = read->status == 0;
    t->todo_count = t->at = 0;
    if (!t->is_answered)
        return;
    for (i = 0; i < read->hole_count && i < SARATOGA_RUNS; i++) {
        struct saratoga_hole hole = saratoga_hole_at(packet, read, i);
        add_todo(t, hole.start, hole.end);
    }
    if (read->progress < t->page->length)
        add_todo(t, edge, t->page->length);
}

static void status_arrives(uint64_t sender, const uint8_t *packet, size_t size)
{
    struct saratoga_packet read = saratoga_read(packet, size);
    uint64_t i;
    for (i = 0; i < world.transfers; i++) {
        struct transfer *t = &transfers[i];
        if (t->sender == sender && t->page->id == read.id && (read.status != 0 || read.width == t->page->width))
            take_status(t, packet, &read);
    }
}

int network_arrives(void)
{
    int at, place;
    struct address from;
    if (flying_count == 0)
        return 0;
    at = happens(world.reorder) ? (int)below((uint64_t)flying_count) : 0;
    place = order[at];
    memmove(order + at, order + at + 1, (size_t)(--flying_count - at) * sizeof order[0]);
    order[flying_count] = place;
    from = address_of(flying[place].sender);
    if (flying[place].to_receiver)
        shell_packet(&from, flying[place].octets, flying[place].size);
    else
        status_arrives(flying[place].sender, flying[place].octets, flying[place].size);
    return 1;
}

/* ---- what a sender sends */

static void send_data(struct transfer *t, uint64_t from, uint64_t to, int ask)
{
    uint8_t payload[MOST_LENGTH], out[MOST_PACKET];
    uint64_t i, flags = width_flags(t->page->width) | (ask ? SARATOGA_FLAG_STATUS_WANTED : 0);
    size_t stamp = below(8) == 0 ? 16 : 0;
    for (i = from; i < to; i++)
        payload[i - from] = page_octet(t->page, i);
    flags |= stamp ? SARATOGA_FLAG_TIMESTAMP : 0;
    flags |= to == t->page->length && below(2) ? SARATOGA_FLAG_END_OF_DATA : 0;
    i = saratoga_write_data(flags, t->page->id, t->page->metadata, stamp, from, payload, (size_t)(to - from), out, sizeof out).size;
    trace("sender %d: Id %u, octets %d to %d%s", (int)t->sender, (unsigned)t->page->id, (int)from, (int)to, ask ? ", asks" : "");
    put_packet(1, t->sender, out, (size_t)i);
}

static void next_piece(struct transfer *t)
{
    struct range *range = &t->todo[t->at];
    uint64_t from = range->from, to = from + 1 + below(world.payload);
    to = to < range->to ? to : range->to;
    range->from = to;
    t->at += to == range->to;
    if (!world.calm && below(8) == 0) /* also what was received before */
        from -= below(from + 1) % 24;
    if (from < to)
        send_data(t, from, to, t->at == t->todo_count || below(6) == 0);
}

static void send_metadata(struct transfer *t, int ended)
{
    uint8_t packet[MOST_METADATA];
    memcpy(packet, t->page->metadata, t->page->metadata_len);
    packet[1] |= ended ? SARATOGA_FLAG_ENDED >> 16 : 0;
    trace("sender %d: METADATA of Id %u, %d octets%s", (int)t->sender, (unsigned)t->page->id, (int)t->page->length, ended ? ", ended" : "");
    put_packet(1, t->sender, packet, t->page->metadata_len);
    t->retry = ask_again();
}

static void sender_turn(struct transfer *t)
{
    uint64_t whim = world.calm ? 99 : below(100);
    if (whim < 2 || (t->page->is_reported && whim < 20))
        begin_page(t, (int)below(2));
    else if (whim == 20)
        send_metadata(t, 1);
    else if (whim == 21)
        send_metadata(t, 0);
    else if (t->is_answered && t->at < t->todo_count)
        next_piece(t);
    else if (now >= t->retry && !(world.calm && t->page->is_reported))
        send_metadata(t, 0);
}

void network_sends(void)
{
    struct transfer *t = &transfers[below(world.transfers)];
    if (t->is_live)
        sender_turn(t);
}

/* ---- the end */

/* An event in four or so sends a packet or brings one; Ids that errors made up are forgotten after a while. */
uint64_t network_calm(void)
{
    uint64_t i, k, packets = 0;
    flying_count = 0;
    for (i = 0; i < world.transfers; i++) {
        struct transfer *t = &transfers[i];
        t->is_live = 1;
        t->is_answered = 0;
        t->retry = now;
        for (k = 0; k < i; k++)
            t->is_live &= transfers[k].page->id != t->page->id;
        packets += t->page->length / (world.payload / 2 + 1) + 1;
    }
    return 8000 + 24 * packets;
}

int network_is_done(void)
{
    uint64_t i;
    for (i = 0; i < world.transfers; i++)
        if (transfers[i].is_live && !transfers[i].page->is_reported)
            return 0;
    return 1;
}
