/*
 * Measures our receivers beside (A), (B) and (C) of receivers.h, on the same inputs in one run, and prints nanoseconds
 * for each call and ratios. First it compares: all receivers must give the same answers and buffers, and (B) the same
 * area or marks, on every input that is measured and on random ones, refusals among them; otherwise it ends with status 1.
 *
 *     bench                 compares and measures
 *     bench --repeats N     how often each case is measured; the median is printed (default 101)
 *     bench --calls N       how many random calls are compared (default 40000)
 *     bench --list          prints the cases and the receivers of each, for host/bench/instructions
 *     bench --once          runs each of these twice and calls case_end after each run, for callgrind
 */
#define _POSIX_C_SOURCE 200809L
#include <stdio.h>
#include <stdlib.h>
#include <string.h>
#include <time.h>

#include "receivers.h"

enum { AREA = SARATOGA_AREA_OCTETS, PAYLOAD = 1000, ROOM = SARATOGA_STATUS_OCTETS };
enum { CALLS = 256, PART = 16, REPEATS_MOST = 1001, CASES_MOST = 56, PIECES_MOST = 32000 };
enum { MARKS = SARATOGA_BITMAP_OCTETS, MARKED_PAYLOAD = 100 };
enum receiver { OURS, MEMORY, PLAIN_AREA, MAP, RECEIVERS };
enum operation { READ, OPEN, RECORD, STATUS, CLOSE, PLAN, CHECK, MARK_RECORD, MARK_STATUS, MERGE };

static const char *const receiver_names[RECEIVERS] = {"ours", "A", "B", "C"};

struct tables {
    uint8_t ours[AREA], plain[AREA];
    uint8_t our_marks[MARKS], plain_marks[MARKS];
    struct memory_table *memory;
    struct map_table *map;
};

struct call {
    uint8_t *packet;
    size_t size;
    uint64_t id;
    uint64_t largest;              /* of a plan */
    struct saratoga_piece *pieces; /* the plan */
    size_t piece_count;
};

struct bench_case {
    char name[64];
    enum operation operation;
    int few_runs;                    /* one open transfer with at most 8 runs */
    struct saratoga_bitmap transfer; /* of the marks */
    uint8_t second[AREA];            /* what is merged into the table's area */
    struct tables start;
    struct call calls[CALLS];
    size_t count;
};

static struct bench_case *cases[CASES_MOST];
static size_t case_count;
static uint8_t status_room[ROOM];
static struct saratoga_piece plan_room[PIECES_MOST], plain_room[PIECES_MOST];
static unsigned long compared;
static uint8_t refusals_seen[27];

/* Numbers that look random; the same in each run. */
static uint64_t random_state = 611;

static uint64_t random_number(void)
{
    uint64_t z = random_state += UINT64_C(0x9E3779B97F4A7C15);
    z = (z ^ z >> 30) * UINT64_C(0xBF58476D1CE4E5B9);
    z = (z ^ z >> 27) * UINT64_C(0x94D049BB133111EB);
    return z ^ z >> 31;
}

static size_t below(size_t n)
{
    return (size_t)(random_number() % n);
}

static void *allocated(size_t size)
{
    void *memory = calloc(1, size);
    if (memory == NULL) {
        fprintf(stderr, "bench: no memory\n");
        exit(2);
    }
    return memory;
}

static void same(const char *what, const char *whom, const void *ours, const void *theirs, size_t size)
{
    if (memcmp(ours, theirs, size) != 0) {
        fprintf(stderr, "bench: %s: ours and (%s) differ\n", what, whom);
        exit(1);
    }
}

/* Tables. */

/* With nothing open: made fresh from any octets, and then any octets again behind the first word, which alone is used. */
static void make_tables(struct tables *t)
{
    size_t i;
    for (i = 0; i < AREA; i++)
        t->ours[i] = t->plain[i] = (uint8_t)random_number();
    saratoga_fresh(t->ours, AREA);
    area_fresh(t->plain, AREA);
    same("fresh", "B: area", t->ours, t->plain, AREA);
    for (i = 8; i < AREA; i++)
        t->ours[i] = t->plain[i] = (uint8_t)random_number();
    t->memory = memory_new();
    t->map = map_new();
}

static void copy_tables(struct tables *to, const struct tables *from, enum receiver receiver)
{
    switch (receiver) {
    case OURS:
        memcpy(to->ours, from->ours, AREA);
        memcpy(to->our_marks, from->our_marks, MARKS);
        break;
    case MEMORY:
        memory_copy(to->memory, from->memory);
        break;
    case PLAIN_AREA:
        memcpy(to->plain, from->plain, AREA);
        memcpy(to->plain_marks, from->plain_marks, MARKS);
        break;
    default:
        map_copy(to->map, from->map);
    }
}

/* Packets. */

static void put(uint8_t *at, uint64_t number, size_t octets)
{
    while (octets > 0) {
        at[--octets] = (uint8_t)number;
        number >>= 8;
    }
}

static uint64_t width_flags(size_t width)
{
    return width == 2   ? SARATOGA_WIDTH_16
           : width == 4 ? SARATOGA_WIDTH_32
           : width == 8 ? SARATOGA_WIDTH_64
                        : SARATOGA_WIDTH_128;
}

static size_t data_packet(uint8_t *p, uint64_t flags, uint64_t id, uint64_t offset, size_t payload)
{
    size_t width = (size_t)2 << (flags >> 22 & 3), at = flags & SARATOGA_FLAG_TIMESTAMP ? 24 : 8;
    put(p, UINT64_C(0x43000000) | flags, 4);
    put(p + 4, id, 4);
    if (at == 24) {
        put(p + 8, random_number(), 8);
        put(p + 16, below(8) ? random_number() : 0, 8);
    }
    put(p + at, offset, width);
    memset(p + at + width, 0xC3, payload);
    return at + width + payload;
}

/* Any flags but the last octet's, which are mostly 0, and an endpoint; a free space takes its first octets. */
static size_t beacon_packet(uint8_t *p, size_t endpoint)
{
    put(p, UINT64_C(0x40000000) | (random_number() & 0xFFFF00) | (below(20) ? 0 : below(256)), 4);
    memset(p + 4, 0xE7, endpoint);
    return 4 + endpoint;
}

/* STATUS with holes of this length, so far from one to the next, the first from `from` on. */
static size_t status_packet(uint8_t *p, size_t width, size_t holes, uint64_t from, uint64_t length, uint64_t spacing)
{
    size_t i, at = 8 + 2 * width;
    put(p, UINT64_C(0x44000000) | width_flags(width), 4);
    put(p + 4, 7, 4);
    put(p + 8, from, width);
    put(p + 8 + width, from + (holes - 1) * spacing + length, width);
    for (i = 0; i < holes; i++, at += 2 * width) {
        put(p + at, from + i * spacing, width);
        put(p + at + width, from + i * spacing + length, width);
    }
    return at;
}

/* The size stands in 64 bits, or in 128 where the packet's own descriptors have so many. */
static size_t metadata_packet(uint8_t *p, uint64_t flags, uint64_t id, uint64_t size, size_t path)
{
    int wide = (flags & SARATOGA_WIDTH_MASK) == SARATOGA_WIDTH_128;
    size_t at = 8 + 4 * (flags >> 4 & 15), width = wide ? 16 : 8;
    put(p, UINT64_C(0x42000000) | flags, 4);
    put(p + 4, id, 4);
    memset(p + 8, 0x5A, at - 8);
    put(p + at, wide ? SARATOGA_PROPERTIES_WIDTH_128 : SARATOGA_PROPERTIES_WIDTH_64, 2);
    put(p + at + 2, size, width);
    put(p + at + 2 + width, 0, 8);
    memset(p + at + 10 + width, 'p', path);
    p[at + 10 + width + path] = 0;
    return at + 11 + width + path;
}

/* Comparing. */

/* Answers have fields of 64 bits alone, so they are the same where their octets are. */
#define COMPARED(what, answer, call_ours, call_a, call_b, call_c)         \
    do {                                                                  \
        struct answer ours = call_ours, a = call_a, b = call_b, c = call_c; \
        same(what, "A", &ours, &a, sizeof ours);                          \
        same(what, "B", &ours, &b, sizeof ours);                          \
        same(what, "C", &ours, &c, sizeof ours);                          \
        same(what, "B: area", t->ours, t->plain, AREA);                   \
        refusals_seen[ours.number] = 1;                                   \
        compared++;                                                       \
    } while (0)

static void compare_read(const uint8_t *packet, size_t size)
{
    struct saratoga_packet ours = saratoga_read(packet, size), plain = plain_read(packet, size);
    same("read", "A", &ours, &plain, sizeof ours);
    refusals_seen[ours.number] = 1;
    compared++;
}

/* Ours and plain C on a list of pieces. */
static void compare_check(const uint8_t *packet, size_t size, uint64_t largest, const struct saratoga_piece *list, size_t count)
{
    struct saratoga_checked ours = saratoga_check_plan(packet, size, largest, list, count);
    struct saratoga_checked plain = plain_check_plan(packet, size, largest, list, count);
    same("check", "A", &ours, &plain, sizeof ours);
    refusals_seen[ours.number] = 1;
    compared++;
}

/* The plan into `room` records and its count, then the check of it and of the same with one record changed. */
static void compare_plan(const uint8_t *packet, size_t size, uint64_t largest, size_t room)
{
    struct saratoga_planned ours = saratoga_plan_count(packet, size, largest), plain = plain_plan_count(packet, size, largest);
    size_t count;
    same("plan count", "A", &ours, &plain, sizeof ours);
    memset(plan_room, 0xA5, sizeof plan_room);
    memset(plain_room, 0xA5, sizeof plain_room);
    ours = saratoga_plan(packet, size, largest, plan_room, room);
    plain = plain_plan(packet, size, largest, plain_room, room);
    same("plan", "A", &ours, &plain, sizeof ours);
    same("plan", "A: pieces", plan_room, plain_room, sizeof plan_room);
    refusals_seen[ours.number] = 1;
    compared += 2;
    count = (size_t)ours.count;
    compare_check(packet, size, largest, plan_room, count);
    if (count > 0) {
        uint64_t *changed = below(2) ? &plan_room[below(count)].length : &plan_room[below(count)].offset;
        *changed = below(2) ? *changed + 1 : below(2) ? *changed - 1 : random_number();
        compare_check(packet, size, largest, plan_room, count);
    }
}

static void compare_open(struct tables *t, const uint8_t *packet, size_t size)
{
    COMPARED("open", saratoga_opened, saratoga_open(t->ours, AREA, packet, size), memory_open(t->memory, packet, size),
             area_open(t->plain, AREA, packet, size), map_open(t->map, packet, size));
}

static void compare_record(struct tables *t, const uint8_t *packet, size_t size)
{
    COMPARED("record", saratoga_recorded, saratoga_record(t->ours, AREA, packet, size),
             memory_record(t->memory, packet, size), area_record(t->plain, AREA, packet, size),
             map_record(t->map, packet, size));
}

static void compare_close(struct tables *t, uint64_t id)
{
    COMPARED("close", saratoga_done, saratoga_close(t->ours, AREA, id), memory_close(t->memory, id),
             area_close(t->plain, AREA, id), map_close(t->map, id));
}

static uint64_t compare_status(struct tables *t, uint64_t id, uint64_t skip, uint64_t unasked, size_t room)
{
    static uint8_t out[RECEIVERS][ROOM];
    memset(out, 0xA5, sizeof out);
    COMPARED("status", saratoga_written, saratoga_write_status(t->ours, AREA, id, skip, unasked, out[OURS], room),
             memory_write_status(t->memory, id, skip, unasked, out[MEMORY], room),
             area_write_status(t->plain, AREA, id, skip, unasked, out[PLAIN_AREA], room),
             map_write_status(t->map, id, skip, unasked, out[MAP], room));
    same("status: buffer", "A", out[OURS], out[MEMORY], ROOM);
    same("status: buffer", "B", out[OURS], out[PLAIN_AREA], ROOM);
    same("status: buffer", "C", out[OURS], out[MAP], ROOM);
    memcpy(status_room, out[OURS], ROOM);
    return out[OURS][0] == 0x44 ? 1 : 0;
}

/* The marks of ours and (B), after a call with this answer. */
static void same_marks(const char *what, const struct tables *t, uint64_t number)
{
    same(what, "B: marks", t->our_marks, t->plain_marks, MARKS);
    refusals_seen[number] = 1;
    compared++;
}

/* Keeps the transfer where the opening was accepted. */
static void compare_marks_open(struct tables *t, struct saratoga_bitmap *transfer, const uint8_t *packet, size_t size)
{
    struct saratoga_bitmap_opened ours = saratoga_bitmap_open(t->our_marks, MARKS, packet, size);
    struct saratoga_bitmap_opened plain = marks_open(t->plain_marks, MARKS, packet, size);
    same("open with marks", "B", &ours, &plain, sizeof ours);
    same_marks("open with marks", t, ours.number);
    if (ours.number == 0)
        *transfer = ours.transfer;
}

/* Keeps what an accepted recording hands back. */
static void compare_marks_record(struct tables *t, struct saratoga_bitmap *transfer, size_t len, const uint8_t *packet,
                                 size_t size)
{
    struct saratoga_bitmap_recorded ours = saratoga_bitmap_record(*transfer, t->our_marks, len, packet, size);
    struct saratoga_bitmap_recorded plain = marks_record(*transfer, t->plain_marks, len, packet, size);
    same("record with marks", "B", &ours, &plain, sizeof ours);
    same_marks("record with marks", t, ours.number);
    if (ours.number == 0)
        *transfer = ours.transfer;
}

static void compare_marks_status(struct tables *t, struct saratoga_bitmap transfer, size_t len, uint64_t skip,
                                 uint64_t unasked, size_t room)
{
    static uint8_t out[2][ROOM];
    struct saratoga_written ours, plain;
    memset(out, 0xA5, sizeof out);
    ours = saratoga_bitmap_status(transfer, t->our_marks, len, skip, unasked, out[0], room);
    plain = marks_status(transfer, t->plain_marks, len, skip, unasked, out[1], room);
    same("STATUS with marks", "B", &ours, &plain, sizeof ours);
    same("STATUS with marks: buffer", "B", out[0], out[1], ROOM);
    same_marks("STATUS with marks", t, ours.number);
}

/* Merges into the areas of ours and (B). */
static void compare_merge(uint8_t *ours, uint8_t *plain, const uint8_t *second, size_t second_len, uint64_t id)
{
    static uint8_t before[AREA];
    struct saratoga_merged a, b;
    memcpy(before, second, AREA);
    a = saratoga_merge(ours, AREA, second, second_len, id);
    b = area_merge(plain, AREA, second, second_len, id);
    same("merge", "B", &a, &b, sizeof a);
    same("merge", "B: area", ours, plain, AREA);
    same("merge", "what it was before: second area", second, before, AREA);
    refusals_seen[a.number] = 1;
    compared++;
}

/* A word of an area: the lowest octet first. */
static void put_word(uint8_t *area, size_t word, uint64_t number)
{
    size_t i;
    for (i = 0; i < 8; i++)
        area[8 * word + i] = (uint8_t)(number >> 8 * i);
}

/* Changes a word: any, or one of the first that may be used. The number open is in the lowest octet of word 0. */
static void damage(uint8_t *area)
{
    size_t open = area[0], place = below(open + 1) % 16, run = 64 * place + 1 + below(20), word = below(2161);
    switch (below(7)) {
    case 0: /* a run starts where the one before it stops */
        memcpy(area + 8 * (81 + run), area + 8 * (1105 + run - 1), 8);
        break;
    case 1: /* a transfer has the Id of the one before it, or all of its head */
        memcpy(area + 8 * (6 + 5 * (place % 15)), area + 8 * (1 + 5 * (place % 15)), below(2) ? 8 : 40);
        break;
    case 2: /* a head */
        put_word(area, below(6 + 5 * place), below(70));
        break;
    case 3: /* a run */
        put_word(area, (below(2) ? 81 : 1105) + run - 1, below(2) ? below(30000) : random_number());
        break;
    case 5: /* whether a timestamp is kept */
        put_word(area, 5 + 5 * place, below(3));
        break;
    case 4:
        put_word(area, word, below(70));
        break;
    default:
        area[8 * word + below(8)] ^= (uint8_t)(1 << below(8));
    }
}

/* A damaged area, or one cut short: ours and (B) alone. Where only unused words changed, both must take it. */
static void compare_damaged(const struct tables *t, const uint8_t *packet, size_t size)
{
    static uint8_t ours[AREA], plain[AREA];
    size_t len = below(20) ? AREA : AREA - 1;
    uint64_t id = below(18);
    struct saratoga_recorded a, b;
    struct saratoga_opened c, d;
    struct saratoga_done e, f;
    memcpy(ours, t->ours, AREA);
    damage(ours);
    memcpy(plain, ours, AREA);
    a = saratoga_record(ours, len, packet, size);
    b = area_record(plain, len, packet, size);
    same("record, damaged", "B", &a, &b, sizeof a);
    same("record, damaged", "B: area", ours, plain, AREA);
    refusals_seen[a.number] = 1;
    c = saratoga_open(ours, len, packet, size);
    d = area_open(plain, len, packet, size);
    same("open, damaged", "B", &c, &d, sizeof c);
    same("open, damaged", "B: area", ours, plain, AREA);
    e = saratoga_close(ours, len, id);
    f = area_close(plain, len, id);
    same("close, damaged", "B", &e, &f, sizeof e);
    same("close, damaged", "B: area", ours, plain, AREA);
    compared += 3;
}

/* The table as it is and as it was some calls ago, merged in either direction; now and then one of them is damaged. */
static void compare_random_merge(const struct tables *t)
{
    static uint8_t earlier[AREA], ours[AREA], plain[AREA], second[AREA];
    int back = below(2) == 0;
    memcpy(ours, back ? earlier : t->ours, AREA);
    memcpy(second, back ? t->ours : earlier, AREA);
    if (below(10) == 0)
        damage(below(2) ? ours : second);
    memcpy(plain, ours, AREA);
    compare_merge(ours, plain, second, below(30) ? AREA : AREA - 1, below(20));
    if (below(15) == 0)
        memcpy(earlier, t->ours, AREA);
}

/* A packet for one of 18 Ids, of which each has a width and a length of its own; or a BEACON. Some are wrong. */
static size_t random_packet(uint8_t *p, enum operation operation)
{
    static const size_t widths[4] = {2, 4, 8, 16};
    static const uint8_t pairs[8] = {0x00, 0x11, 0x42, 0x53, 0x14, 0xFF, 0x21, 0x04};
    uint64_t id = below(3) ? below(4) : below(18), length = id == 5 ? 0 : 20000 + 1000 * id, flags = width_flags(widths[id % 4]);
    size_t size;
    if (below(40) == 0)
        flags = width_flags(widths[below(4)]);
    if (below(30) == 0) {
        size = beacon_packet(p, below(20));
    } else if (operation == OPEN) {
        flags |= below(8) ? 0 : pairs[below(8)];
        size = metadata_packet(p, flags, id, below(30) ? length : (uint64_t)1 << below(64),
                               below(20) ? 1 + below(40) : 1000 + below(40));
    } else {
        uint64_t payload = 1 + below(60), offset = below(30) ? below(20000 + 1000 * id) : random_number();
        if (below(6) == 0) {
            payload = 500;
            offset = offset / 500 * 500;
        }
        flags |= below(4) ? 0 : SARATOGA_FLAG_TIMESTAMP;
        flags |= below(20) ? 0 : SARATOGA_FLAG_END_OF_DATA;
        size = data_packet(p, flags, id, offset, payload);
    }
    if (below(20) == 0)
        p[below(size < 40 ? size : 40)] ^= (uint8_t)(1 << below(8));
    if (below(40) == 0)
        size = below(100) ? below(size + 1) : 65530 + below(12);
    return size;
}

/* Something is wrong with marks or transfer, or may be: a mark more, many more, another width, length, timestamp or Id. */
static void damage_marks(struct tables *t, struct saratoga_bitmap *transfer)
{
    size_t at = below(MARKS), i;
    switch (below(6)) {
    case 0:
        t->our_marks[at] ^= (uint8_t)(1 << below(8));
        break;
    case 1:
        for (i = 0; i < 65; i++)
            t->our_marks[(at + i) % MARKS] ^= 0x10;
        break;
    case 2:
        transfer->width = below(20);
        break;
    case 3:
        transfer->length = below(2) ? 65534 + below(4) : random_number();
        break;
    case 4:
        transfer->stamped = below(3) ? below(3) : random_number();
        transfer->stamp_high = random_number();
        break;
    default:
        transfer->id = random_number() >> below(40);
    }
    memcpy(t->plain_marks, t->our_marks, MARKS);
}

/* One call on marks: mostly DATA for the transfer that they are of; now and then on a copy with something wrong. */
static void compare_random_marks(struct tables *t, struct saratoga_bitmap *transfer, uint8_t *packet)
{
    static struct tables damaged;
    struct saratoga_bitmap wrong = *transfer;
    size_t choice = below(40), size = random_packet(packet, RECORD), len = below(20) ? MARKS : MARKS - 1;
    if (choice == 0) {
        compare_marks_open(t, transfer, packet, random_packet(packet, OPEN));
        return;
    }
    if (below(10) && transfer->width != 0)
        size = data_packet(packet,
                           width_flags(transfer->width) | (below(20) ? 0 : SARATOGA_FLAG_END_OF_DATA) |
                               (below(4) ? 0 : SARATOGA_FLAG_TIMESTAMP),
                           transfer->id, below(transfer->length + 2), 1 + below(below(6) ? 40 : 900));
    if (choice < 26) {
        compare_marks_record(t, transfer, MARKS, packet, size);
    } else if (choice < 36) {
        compare_marks_status(t, *transfer, MARKS, below(3) ? 0 : below(70), below(2), below(2) ? ROOM : below(ROOM));
    } else {
        memcpy(damaged.our_marks, t->our_marks, MARKS);
        damage_marks(&damaged, &wrong);
        compare_marks_record(&damaged, &wrong, len, packet, size);
        compare_marks_status(&damaged, wrong, len, below(2) ? 0 : below(70), 0, below(2) ? ROOM : below(ROOM));
    }
}

static void compare_random(unsigned long calls)
{
    static uint8_t packet[66000];
    struct tables *t = allocated(sizeof *t);
    struct saratoga_bitmap transfer = {0, 0, 0, 0, 0, 0};
    make_tables(t);
    while (compared < calls) {
        size_t choice = below(100), size;
        if (below(5) == 0)
            compare_random_marks(t, &transfer, packet);
        if (below(8) == 0)
            compare_random_merge(t);
        if (choice < 12) {
            size = random_packet(packet, OPEN);
            compare_open(t, packet, size);
        } else if (choice < 70) {
            size = random_packet(packet, RECORD);
            compare_record(t, packet, size);
        } else if (choice < 85) {
            uint64_t id = below(50) ? below(18) : random_number();
            if (compare_status(t, id, below(3) ? 0 : below(70), below(2), below(2) ? ROOM : below(ROOM))) {
                memcpy(packet, status_room, ROOM);
                size = 8 + 4 * below(1 + (ROOM - 8) / 4);
                if (below(3) == 0)
                    packet[below(size)] ^= (uint8_t)(1 << below(8));
                compare_read(packet, size);
                compare_plan(packet, size, 1 + below(2000), below(PIECES_MOST + 1));
            }
        } else if (choice < 86) {
            compare_close(t, below(20) ? below(18) : random_number());
        } else if (choice < 89) {
            uint64_t length = 1 + below(3000);
            size = status_packet(packet, (size_t)4 << below(3), 1 + below(64), below(1000), length, length + 1 + below(50));
            compare_plan(packet, size, below(9) ? 1 + below(2000) : 64999 + below(3), below(3) ? PIECES_MOST : below(100));
        } else if (choice < 95) {
            size = random_packet(packet, below(2) ? OPEN : RECORD);
            compare_read(packet, size);
        } else {
            size = random_packet(packet, below(2) ? OPEN : RECORD);
            compare_damaged(t, packet, size);
        }
    }
}

/* Cases. */

static struct bench_case *new_case(const char *name, enum operation operation)
{
    struct bench_case *c = allocated(sizeof *c);
    snprintf(c->name, sizeof c->name, "%s", name);
    c->operation = operation;
    make_tables(&c->start);
    cases[case_count++] = c;
    return c;
}

static uint8_t *new_call(struct bench_case *c, uint64_t id)
{
    struct call *call = &c->calls[c->count++];
    call->packet = allocated(PAYLOAD + 48);
    call->id = id;
    return call->packet;
}

static void data_call(struct bench_case *c, uint64_t flags, uint64_t id, uint64_t offset)
{
    uint8_t *packet = new_call(c, id);
    c->calls[c->count - 1].size = data_packet(packet, flags, id, offset, PAYLOAD);
}

enum { SPACING = 0x10000000 };

static uint64_t id_of(size_t transfer)
{
    return 0x1000 + 0x35 * transfer;
}

/* Opens transfers of this width, each with `runs` runs of 1,000 octets, the first from `from` on, with timestamps or without. */
static void open_with_runs(struct bench_case *c, size_t width, size_t transfers, size_t runs, uint64_t from, int timestamp)
{
    static uint8_t packet[PAYLOAD + 48];
    uint64_t flags = width_flags(width) | (timestamp ? SARATOGA_FLAG_TIMESTAMP : 0);
    size_t i, j, size;
    for (i = 0; i < transfers; i++) {
        size = metadata_packet(packet, width_flags(width), id_of(i), (uint64_t)1 << 40, 11);
        compare_open(&c->start, packet, size);
        for (j = 0; j < runs; j++) {
            size = data_packet(packet, flags, id_of(i), from + j * SPACING, PAYLOAD);
            compare_record(&c->start, packet, size);
        }
    }
}

static const char *stamp_name(int timestamp)
{
    return timestamp ? ", timestamp" : "";
}

static void read_case(size_t width, int timestamp)
{
    char name[64];
    struct bench_case *c;
    size_t i;
    snprintf(name, sizeof name, "read DATA, width %d%s", (int)(8 * width), stamp_name(timestamp));
    c = new_case(name, READ);
    for (i = 0; i < CALLS; i++)
        data_call(c, width_flags(width) | (timestamp ? SARATOGA_FLAG_TIMESTAMP : 0), id_of(i % 16), 100 * i);
}

/* Recording and STATUS are of 64 bits where their names don't say otherwise. */
static const char *wide_name(size_t width)
{
    return width == 16 ? ", 128 bits" : "";
}

/*
 * Packets in fours, each four at a transfer and a run drawn at random: one that extends the run, one apart from all runs
 * (a run more), the one between them (a run less), and a repeat. So the number of runs held stays. Each has a timestamp, or
 * none has.
 */
static void record_case(size_t width, size_t transfers, size_t runs, int timestamp)
{
    uint64_t stops[16][64], stop, flags = width_flags(width) | (timestamp ? SARATOGA_FLAG_TIMESTAMP : 0);
    char name[64];
    struct bench_case *c;
    size_t i, j;
    snprintf(name, sizeof name, "record, %d run%s, %d open%s%s", (int)runs, runs == 1 ? "" : "s", (int)transfers,
             wide_name(width), stamp_name(timestamp));
    c = new_case(name, RECORD);
    c->few_runs = transfers == 1 && runs <= 8;
    open_with_runs(c, width, transfers, runs, 0, timestamp);
    for (i = 0; i < 16; i++)
        for (j = 0; j < 64; j++)
            stops[i][j] = j * SPACING + PAYLOAD;
    while (c->count < CALLS) {
        i = below(transfers);
        j = below(runs);
        stop = stops[i][j];
        data_call(c, flags, id_of(i), stop);
        data_call(c, flags, id_of(i), stop + 2 * PAYLOAD);
        data_call(c, flags, id_of(i), stop + PAYLOAD);
        data_call(c, flags, id_of(i), stop);
        stops[i][j] = stop + 3 * PAYLOAD;
    }
}

static void status_case(size_t width, size_t transfers, size_t holes, int timestamp)
{
    char name[64];
    struct bench_case *c;
    snprintf(name, sizeof name, "STATUS, %d holes, %d open%s%s", (int)holes, (int)transfers, wide_name(width),
             stamp_name(timestamp));
    c = new_case(name, STATUS);
    open_with_runs(c, width, transfers, holes == 0 ? 1 : holes, holes == 0 ? 0 : PAYLOAD, timestamp);
    while (c->count < CALLS)
        new_call(c, id_of(below(transfers)));
}

/*
 * The longest file with marks, width 64, with `runs` runs of 100 octets as far apart as can be, none at its start. Recording is
 * of packets in fours, as with the table, of 100 octets each, at one run after the other.
 */
static void marks_case(enum operation operation, size_t runs, int timestamp)
{
    static uint8_t packet[PAYLOAD + 48];
    uint64_t stops[64], spacing = SARATOGA_BITMAP_LONGEST / runs;
    uint64_t flags = SARATOGA_WIDTH_64 | (timestamp ? SARATOGA_FLAG_TIMESTAMP : 0);
    char name[64];
    struct bench_case *c;
    size_t size, j;
    snprintf(name, sizeof name, "%s with marks, %d run%s%s", operation == MARK_RECORD ? "record" : "STATUS", (int)runs,
             runs == 1 ? "" : "s", stamp_name(timestamp));
    c = new_case(name, operation);
    size = metadata_packet(packet, SARATOGA_WIDTH_64, id_of(0), SARATOGA_BITMAP_LONGEST, 11);
    compare_marks_open(&c->start, &c->transfer, packet, size);
    for (j = 0; j < runs; j++) {
        size = data_packet(packet, flags, id_of(0), 50 + j * spacing, MARKED_PAYLOAD);
        compare_marks_record(&c->start, &c->transfer, MARKS, packet, size);
        stops[j] = 50 + j * spacing + MARKED_PAYLOAD;
    }
    for (j = 0; c->count < CALLS && operation == MARK_RECORD; j = (j + 37) % runs) {
        static const uint64_t fours[4] = {0, 2, 1, 0};
        size_t i;
        for (i = 0; i < 4; i++) {
            uint8_t *data = new_call(c, id_of(0));
            uint64_t offset = stops[j] + fours[i] * MARKED_PAYLOAD;
            c->calls[c->count - 1].size = data_packet(data, flags, id_of(0), offset, MARKED_PAYLOAD);
        }
        stops[j] += 3 * MARKED_PAYLOAD;
    }
    while (c->count < CALLS)
        new_call(c, id_of(0));
}

static void open_call(struct bench_case *c, uint64_t id)
{
    uint8_t *packet = new_call(c, id);
    c->calls[c->count - 1].size = metadata_packet(packet, SARATOGA_WIDTH_64, id, (uint64_t)1 << 40, 11);
}

static void open_and_close_cases(void)
{
    struct bench_case *new_ids = new_case("open, new, 0 to 15 open", OPEN);
    struct bench_case *already = new_case("open, already open, 16 open", OPEN);
    struct bench_case *closing = new_case("close, 16 to 1 open", CLOSE);
    size_t i;
    open_with_runs(already, 8, 16, 8, 0, 0);
    open_with_runs(closing, 8, 16, 8, 0, 0);
    for (i = 0; i < 16; i++) {
        open_call(new_ids, id_of(7 * i % 16));
        new_call(closing, id_of(11 * i % 16));
    }
    while (already->count < CALLS)
        open_call(already, id_of(below(16)));
}

/*
 * STATUS packets with holes of two pieces and a half, in 64 bits; or so many holes that only 16 bits have room for them, of two
 * octets each, planned in pieces of one. Planned, and the plans checked.
 */
static void plan_case(enum operation operation, size_t holes)
{
    int many = holes > 1000;
    size_t width = many ? 2 : 8, calls = many ? PART : CALLS, i;
    uint64_t largest = many ? 1 : 1000, length = many ? 2 : 2500, spacing = many ? 4 : 10000;
    char name[64];
    struct bench_case *c;
    snprintf(name, sizeof name, "%s, %d hole%s", operation == PLAN ? "plan" : "check a plan", (int)holes,
             holes == 1 ? "" : "s");
    c = new_case(name, operation);
    for (i = 0; i < calls; i++) {
        struct call *call = &c->calls[c->count++];
        call->packet = allocated(8 + 2 * width * (1 + holes));
        call->size = status_packet(call->packet, width, holes, 1 + 7 * i, length, spacing);
        call->largest = largest;
        call->piece_count = holes * (many ? 2 : 3);
        call->pieces = allocated(call->piece_count * sizeof *call->pieces);
        if (plain_plan(call->packet, call->size, largest, call->pieces, call->piece_count).count != call->piece_count) {
            fprintf(stderr, "bench: %s is no case\n", name);
            exit(1);
        }
    }
}

/*
 * Two areas with the same transfers, of `runs` runs each, those of the second `apart` octets behind the first's: over them, touching
 * them, or between them, where 64 and 64 are refused with 16. With one open it is merged again and again; with 16, each once.
 */
static void merge_case(size_t transfers, size_t runs, uint64_t apart, const char *how)
{
    char name[64];
    struct bench_case *c, *other;
    size_t i;
    snprintf(name, sizeof name, "merge, %d and %d runs%s, %d open", (int)runs, (int)runs, how, (int)transfers);
    other = new_case("", MERGE);
    open_with_runs(other, 8, transfers, runs, apart, 0);
    case_count--; /* it is only what the case needs as its second area */
    c = new_case(name, MERGE);
    open_with_runs(c, 8, transfers, runs, 0, 0);
    memcpy(c->second, other->start.plain, AREA);
    for (i = 0; i < (transfers == 1 ? CALLS : transfers); i++)
        new_call(c, id_of(7 * i % transfers));
}

static void make_cases(void)
{
    static const size_t holes[3] = {1, 64, 16000};
    static const size_t runs[3] = {1, 8, 63};
    size_t i;
    read_case(2, 0);
    read_case(2, 1);
    read_case(4, 0);
    read_case(8, 0);
    read_case(8, 1);
    read_case(16, 0);
    read_case(16, 1);
    for (i = 0; i < 12; i++)
        record_case(8, i % 6 < 3 ? 1 : 16, runs[i % 3], i >= 6);
    record_case(16, 1, 8, 0);
    record_case(16, 16, 63, 0);
    status_case(8, 1, 0, 0);
    status_case(8, 1, 64, 0);
    status_case(8, 16, 0, 0);
    status_case(8, 16, 64, 0);
    status_case(8, 1, 0, 1);
    status_case(8, 16, 64, 1);
    status_case(16, 1, 64, 0);
    status_case(16, 16, 64, 0);
    open_and_close_cases();
    for (i = 0; i < 6; i++)
        plan_case(i < 3 ? PLAN : CHECK, holes[i % 3]);
    for (i = 0; i < 6; i++)
        marks_case(i < 3 ? MARK_RECORD : MARK_STATUS, runs[i % 3], 0);
    marks_case(MARK_RECORD, 8, 1);
    marks_case(MARK_STATUS, 8, 1);
    merge_case(1, 1, 2 * PAYLOAD, "");
    merge_case(1, 32, 2 * PAYLOAD, "");
    merge_case(1, 64, PAYLOAD / 2, " over");
    merge_case(1, 64, 2 * PAYLOAD, ": 16");
    merge_case(16, 1, 2 * PAYLOAD, "");
    merge_case(16, 32, 2 * PAYLOAD, "");
    merge_case(16, 64, PAYLOAD, " touch");
}

static void compare_case(const struct bench_case *c, struct tables *t)
{
    struct saratoga_bitmap transfer = c->transfer;
    size_t i;
    for (i = 0; i < RECEIVERS; i++)
        copy_tables(t, &c->start, i);
    for (i = 0; i < c->count; i++) {
        const struct call *call = &c->calls[i];
        switch (c->operation) {
        case READ:
            compare_read(call->packet, call->size);
            break;
        case OPEN:
            compare_open(t, call->packet, call->size);
            break;
        case RECORD:
            compare_record(t, call->packet, call->size);
            break;
        case STATUS:
            compare_status(t, call->id, 0, 0, ROOM);
            break;
        case CLOSE:
            compare_close(t, call->id);
            break;
        case PLAN:
            compare_plan(call->packet, call->size, call->largest, call->piece_count);
            break;
        case CHECK:
            compare_check(call->packet, call->size, call->largest, call->pieces, call->piece_count);
            break;
        case MARK_RECORD:
            compare_marks_record(t, &transfer, MARKS, call->packet, call->size);
            break;
        case MARK_STATUS:
            compare_marks_status(t, c->transfer, MARKS, 0, 0, ROOM);
            break;
        case MERGE:
            compare_merge(t->ours, t->plain, c->second, AREA, call->id);
        }
    }
}

/* Running: the calls of a case from `from` up to, not including, `to`, straight to the functions of one receiver. */

#define RUNNER(receiver, codec, ...)                                                                                        \
    static uint64_t receiver##_run(const struct bench_case *c, struct tables *t, size_t from, size_t to)                    \
    {                                                                                                                       \
        const struct call *call = c->calls + from, *end = c->calls + to;                                                    \
        uint64_t sum = 0;                                                                                                   \
        (void)t;                                                                                                            \
        switch (c->operation) {                                                                                             \
        case READ:                                                                                                          \
            for (; call < end; call++)                                                                                      \
                sum += codec##_read(call->packet, call->size).payload_len;                                                  \
            break;                                                                                                          \
        case OPEN:                                                                                                          \
            for (; call < end; call++)                                                                                      \
                sum += receiver##_open(__VA_ARGS__, call->packet, call->size).number;                                       \
            break;                                                                                                          \
        case RECORD:                                                                                                        \
            for (; call < end; call++)                                                                                      \
                sum += receiver##_record(__VA_ARGS__, call->packet, call->size).edge;                                       \
            break;                                                                                                          \
        case STATUS:                                                                                                        \
            for (; call < end; call++)                                                                                      \
                sum += receiver##_write_status(__VA_ARGS__, call->id, 0, 0, status_room, ROOM).size;                        \
            break;                                                                                                          \
        case CLOSE:                                                                                                         \
            for (; call < end; call++)                                                                                      \
                sum += receiver##_close(__VA_ARGS__, call->id).number;                                                      \
            break;                                                                                                          \
        case PLAN:                                                                                                          \
            for (; call < end; call++)                                                                                      \
                sum += codec##_plan(call->packet, call->size, call->largest, plan_room, PIECES_MOST).count;                 \
            break;                                                                                                          \
        case CHECK:                                                                                                         \
            for (; call < end; call++)                                                                                      \
                sum += codec##_check_plan(call->packet, call->size, call->largest, call->pieces, call->piece_count).passes; \
            break;                                                                                                          \
        case MARK_RECORD: /* by runners of their own */                                                                     \
        case MARK_STATUS:                                                                                                   \
        case MERGE:                                                                                                         \
            break;                                                                                                          \
        }                                                                                                                   \
        return sum;                                                                                                         \
    }

RUNNER(saratoga, saratoga, t->ours, AREA)
RUNNER(memory, plain, t->memory)
RUNNER(area, plain, t->plain, AREA)
RUNNER(map, plain, t->map)

#define MARKS_RUNNER(receiver, marks)                                                                              \
    static uint64_t receiver##_marks_run(const struct bench_case *c, struct tables *t, size_t from, size_t to)     \
    {                                                                                                              \
        const struct call *call = c->calls + from, *end = c->calls + to;                                           \
        uint64_t sum = 0;                                                                                          \
        if (c->operation == MARK_RECORD)                                                                           \
            for (; call < end; call++)                                                                             \
                sum += receiver##_record(c->transfer, marks, MARKS, call->packet, call->size).edge;                \
        else                                                                                                       \
            for (; call < end; call++)                                                                             \
                sum += receiver##_status(c->transfer, marks, MARKS, 0, 0, status_room, ROOM).size;                 \
        return sum;                                                                                                \
    }

MARKS_RUNNER(saratoga_bitmap, t->our_marks)
MARKS_RUNNER(marks, t->plain_marks)

#define MERGE_RUNNER(receiver, area)                                                                           \
    static uint64_t receiver##_merge_run(const struct bench_case *c, struct tables *t, size_t from, size_t to) \
    {                                                                                                          \
        const struct call *call = c->calls + from, *end = c->calls + to;                                       \
        uint64_t sum = 0;                                                                                      \
        for (; call < end; call++)                                                                             \
            sum += receiver##_merge(area, AREA, c->second, AREA, call->id).edge;                               \
        return sum;                                                                                            \
    }

MERGE_RUNNER(saratoga, t->ours)
MERGE_RUNNER(area, t->plain)

static int over_marks(const struct bench_case *c)
{
    return c->operation == MARK_RECORD || c->operation == MARK_STATUS;
}

static uint64_t run(const struct bench_case *c, struct tables *t, enum receiver receiver, size_t from, size_t to)
{
    static uint64_t (*const runners[RECEIVERS])(const struct bench_case *, struct tables *, size_t, size_t) = {
        saratoga_run, memory_run, area_run, map_run};
    if (over_marks(c))
        return receiver == OURS ? saratoga_bitmap_marks_run(c, t, from, to) : marks_marks_run(c, t, from, to);
    if (c->operation == MERGE)
        return receiver == OURS ? saratoga_merge_run(c, t, from, to) : area_merge_run(c, t, from, to);
    return runners[receiver](c, t, from, to);
}

static volatile uint64_t kept;

/* What needs no table: the same plain C in (A), (B) and (C). */
static int without_table(const struct bench_case *c)
{
    return c->operation == READ || c->operation == PLAN || c->operation == CHECK;
}

/* Over marks and of two areas there are ours and (B). */
static int measured(const struct bench_case *c, enum receiver receiver)
{
    return over_marks(c) || c->operation == MERGE ? receiver == OURS || receiver == PLAIN_AREA : !without_table(c) || receiver <= MEMORY;
}

static double now(void)
{
    struct timespec t;
    clock_gettime(CLOCK_MONOTONIC, &t);
    return 1e9 * (double)t.tv_sec + (double)t.tv_nsec;
}

static int rising(const void *a, const void *b)
{
    double x = *(const double *)a, y = *(const double *)b;
    return (x > y) - (x < y);
}

static double median(double *values, size_t count)
{
    qsort(values, count, sizeof values[0], rising);
    return values[count / 2];
}

/* What reading the clock twice takes by itself, in each repeat: one moment alone may be a busy one. */
static double clocks[REPEATS_MOST];

static double clock_time(void)
{
    static double readings[101];
    size_t i;
    for (i = 0; i < 101; i++) {
        double start = now();
        readings[i] = now() - start;
    }
    return median(readings, 101);
}

/*
 * Nanoseconds of each part of PART calls of a case, from its start on, after a run that isn't timed. Parts are short, so
 * that few of them are interrupted, and the median leaves those out.
 */
static double times[CASES_MOST][RECEIVERS][CALLS / PART][REPEATS_MOST];

static void sample(size_t which, struct tables *t, enum receiver receiver, size_t repeat)
{
    const struct bench_case *c = cases[which];
    size_t i;
    copy_tables(t, &c->start, receiver);
    kept += run(c, t, receiver, 0, c->count);
    copy_tables(t, &c->start, receiver);
    for (i = 0; i < c->count / PART; i++) {
        double start = now();
        kept += run(c, t, receiver, i * PART, (i + 1) * PART);
        times[which][receiver][i][repeat] = now() - start;
    }
}

/* Nanoseconds for a call: the medians of the parts, together, without the clock's own time. */
static double time_of(size_t which, enum receiver receiver, size_t repeats, double clock)
{
    const struct bench_case *c = cases[which];
    double sum = 0;
    size_t i;
    for (i = 0; i < c->count / PART; i++)
        sum += median(times[which][receiver][i], repeats) - clock;
    return sum / (double)c->count;
}

static void print_ratio(double ratio)
{
    if (ratio > 0)
        printf(" %7.2f", ratio);
    else
        printf(" %7s", "");
}

static void print_time(double time)
{
    if (time > 0)
        printf(" %8.1f", time);
    else
        printf(" %8s", "");
}

static void measure(size_t repeats)
{
    double clock, worst_record = 0, worst_read = 0, worst_few = 0, worst_plan = 0, worst_marks = 0, worst_merge = 0;
    struct tables *t = allocated(sizeof *t);
    size_t i, k, r;
    make_tables(t);
    for (r = 0; r < repeats; r++) {
        clocks[r] = clock_time();
        for (i = 0; i < case_count; i++)
            for (k = 0; k < RECEIVERS; k++)
                if (measured(cases[i], k))
                    sample(i, t, k, r);
    }
    clock = median(clocks, repeats);
    printf("Nanoseconds a call, medians of %d, and ratios\n", (int)repeats);
    printf("%-37s %8s %8s %8s %8s %7s %7s %7s\n", "", "ours", "(A)", "(B)", "(C)", "ours/A", "ours/B", "ours/C");
    for (i = 0; i < case_count; i++) {
        double ratio[RECEIVERS] = {0}, time[RECEIVERS] = {0};
        for (k = 0; k < RECEIVERS; k++) {
            if (!measured(cases[i], k))
                continue;
            time[k] = time_of(i, k, repeats, clock);
            ratio[k] = time[OURS] / time[k];
        }
        printf("%-37s", cases[i]->name);
        for (k = 0; k < RECEIVERS; k++)
            print_time(time[k]);
        for (k = MEMORY; k < RECEIVERS; k++)
            print_ratio(ratio[k]);
        printf("\n");
        if (cases[i]->operation == RECORD && ratio[PLAIN_AREA] > worst_record)
            worst_record = ratio[PLAIN_AREA];
        if (cases[i]->few_runs && ratio[MAP] > worst_few)
            worst_few = ratio[MAP];
        if (cases[i]->operation == READ && ratio[MEMORY] > worst_read)
            worst_read = ratio[MEMORY];
        if (without_table(cases[i]) && cases[i]->operation != READ && ratio[MEMORY] > worst_plan)
            worst_plan = ratio[MEMORY];
        if (over_marks(cases[i]) && ratio[PLAIN_AREA] > worst_marks)
            worst_marks = ratio[PLAIN_AREA];
        if (cases[i]->operation == MERGE && ratio[PLAIN_AREA] > worst_merge)
            worst_merge = ratio[PLAIN_AREA];
    }
    printf("aim: reading DATA at most 1.2 times plain C: %.2f, %s\n", worst_read, worst_read <= 1.2 ? "met" : "not met");
    printf("aim: plans and their check at most 1.5 times plain C: %.2f, %s\n", worst_plan,
           worst_plan <= 1.5 ? "met" : "not met");
    printf("aim: recording at most 1.5 times (B): %.2f, %s\n", worst_record, worst_record <= 1.5 ? "met" : "not met");
    printf("aim: recording with 1 and 8 runs in one open transfer at most 1.5 times (C): %.2f, %s\n", worst_few,
           worst_few <= 1.5 ? "met" : "not met");
    printf("aim: recording and STATUS with marks at most 1.5 times (B): %.2f, %s\n", worst_marks,
           worst_marks <= 1.5 ? "met" : "not met");
    printf("aim: merging at most 1.5 times (B): %.2f, %s\n", worst_merge, worst_merge <= 1.5 ? "met" : "not met");
}

/* For callgrind. */

void case_end(void);
__attribute__((noinline)) void case_end(void)
{
    kept++;
}

static void once(void)
{
    struct tables *t = allocated(sizeof *t);
    size_t i, k, r;
    make_tables(t);
    case_end();
    for (i = 0; i < case_count; i++)
        for (k = 0; k < RECEIVERS; k++)
            for (r = 0; measured(cases[i], k) && r < 2; r++) {
                copy_tables(t, &cases[i]->start, k);
                kept += run(cases[i], t, k, 0, cases[i]->count);
                case_end();
            }
}

static void list(void)
{
    size_t i, k;
    for (i = 0; i < case_count; i++)
        for (k = 0; k < RECEIVERS; k++)
            if (measured(cases[i], k))
                printf("%s\t%s\t%d\n", cases[i]->name, receiver_names[k], (int)cases[i]->count);
}

static int usage(void)
{
    fprintf(stderr, "usage: bench [--repeats N] [--calls N] | --list | --once\n");
    return 2;
}

int main(int argc, char **argv)
{
    unsigned long repeats = 101, calls = 40000;
    int i;
    struct tables *t = allocated(sizeof *t);
    make_tables(t);
    make_cases();
    if (argc == 2 && strcmp(argv[1], "--list") == 0) {
        list();
        return 0;
    }
    if (argc == 2 && strcmp(argv[1], "--once") == 0) {
        once();
        return 0;
    }
    for (i = 1; i + 1 < argc; i += 2) {
        unsigned long number = strtoul(argv[i + 1], NULL, 10);
        if (strcmp(argv[i], "--repeats") == 0 && number > 0 && number <= REPEATS_MOST)
            repeats = number;
        else if (strcmp(argv[i], "--calls") == 0)
            calls = number;
        else
            return usage();
    }
    if (i < argc)
        return usage();
    for (i = 0; i < (int)case_count; i++)
        compare_case(cases[i], t);
    printf("compared: %lu calls on the measured inputs", compared);
    compared = 0;
    compare_random(calls);
    printf(" and %lu random ones: ours, (A), (B) and (C) agree\nrefusals among them:", compared);
    for (i = 1; i < 27; i++)
        if (refusals_seen[i])
            printf(" %d", i);
    printf("\n\n");
    measure(repeats);
    return 0;
}
