/*
 * The receiver with marks, from C: first a story that can be followed by eye, on a page of 64 octets, told beside the transfer
 * table; then each rule of document 02 for it by hand. Every field of the answers and every octet of marks and buffers is
 * checked; the program ends with status 1 where one is wrong.
 */
#include "check.h"

enum { OCTETS = SARATOGA_BITMAP_OCTETS, PAST = 9, LENT = OCTETS + PAST, ROOM = 100, ID = 9 };

static const struct saratoga_bitmap none = {0, 0, 0, 0, 0, 0};

static void same_transfer(const char *what, struct saratoga_bitmap got, struct saratoga_bitmap want)
{
    SAME(id);
    SAME(width);
    SAME(length);
    SAME(stamped);
    SAME(stamp_high);
    SAME(stamp_low);
}

static void same_opened(const char *what, struct saratoga_bitmap_opened got, struct saratoga_bitmap_opened want)
{
    SAME(number);
    SAME(code);
    SAME(edge);
    SAME(complete);
    same_transfer(what, got.transfer, want.transfer);
}

static void same_recorded(const char *what, struct saratoga_bitmap_recorded got, struct saratoga_recorded want)
{
    SAME(number);
    SAME(code);
    SAME(edge);
    SAME(complete);
    SAME(absorbed);
    SAME(adds);
}

/* Packets. */

static void put(uint8_t *at, uint64_t number, size_t octets)
{
    while (octets > 0) {
        at[--octets] = (uint8_t)number;
        number >>= 8;
    }
}

static uint8_t width_bits(uint64_t width)
{
    return width == 2 ? 0x00 : width == 4 ? 0x40 : width == 8 ? 0x80 : 0xC0;
}

/* METADATA with the size in 64 bits and the path p611, 31 octets. */
static void metadata(uint8_t *packet, uint64_t id, uint64_t width, uint64_t size)
{
    memset(packet, 0, 31);
    packet[0] = 0x42;
    packet[1] = width_bits(width);
    put(packet + 4, id, 4);
    packet[9] = 0x80;
    put(packet + 10, size, 8);
    memcpy(packet + 26, "p611", 4);
}

/* DATA with `payload` octets, with end of data or without; how long it is. */
static size_t data(uint8_t *packet, uint64_t id, uint64_t width, uint64_t offset, size_t payload, int last)
{
    put(packet, last ? 0x43008000 : 0x43000000, 4);
    packet[1] = width_bits(width);
    put(packet + 4, id, 4);
    memset(packet + 8, 0, width);
    put(packet + 8, offset, width);
    memset(packet + 8 + width, 0xC3, payload);
    return 8 + width + payload;
}

/* The same with a timestamp: its first eight octets as a number, and its last. */
static size_t stamped_data(uint8_t *packet, uint64_t width, uint64_t offset, uint64_t high, uint64_t low)
{
    size_t size = data(packet, ID, width, offset, 1, 0);
    memmove(packet + 24, packet + 8, size - 8);
    packet[1] |= 0x08;
    put(packet + 8, high, 8);
    put(packet + 16, low, 8);
    return size + 16;
}

/* Marks. */

/* Mark n is bit n: bit 0 is the highest bit of the first octet. */
static int marked(const uint8_t *marks, size_t n)
{
    return marks[n / 8] >> (7 - n % 8) & 1;
}

static void mark(uint8_t *marks, size_t from, size_t to)
{
    for (; from < to; from++)
        marks[from / 8] |= (uint8_t)(0x80 >> from % 8);
}

/* Marks without any set, and octets 0xA5 past them. */
static uint8_t *no_marks(void)
{
    uint8_t *marks = lend(NULL, LENT);
    memset(marks, 0, OCTETS);
    return marks;
}

static struct saratoga_bitmap transfer_of(uint64_t width, uint64_t length)
{
    return (struct saratoga_bitmap){.id = ID, .width = width, .length = length};
}

/*
 * Opens, with a checksum of this type and length, over marks that are all set: they are cleared, or stay where that is refused,
 * and octets past them stay.
 */
static void open_with(const char *what, uint64_t width, uint64_t size, uint64_t checksum, struct saratoga_bitmap_opened want)
{
    size_t checksum_len = checksum / 16 * 4, packet_len = 31 + checksum_len;
    uint8_t packet[31 + 60], *lent, *marks = lend(NULL, LENT), *left;
    metadata(packet, ID, width, size);
    memmove(packet + 8 + checksum_len, packet + 8, 31 - 8);
    memset(packet + 8, 0xC5, checksum_len);
    packet[3] = (uint8_t)checksum;
    lent = lend(packet, packet_len);
    memset(marks, 0xFF, LENT);
    left = lend(marks, LENT);
    if (want.number == 0)
        memset(left, 0, OCTETS);
    same_opened(what, saratoga_bitmap_open(marks, LENT, lent, packet_len), want);
    same_octets(what, marks, left, LENT);
    same_octets(what, lent, packet, packet_len);
    free(left);
    free(marks);
    free(lent);
}

static void open_as(const char *what, uint64_t width, uint64_t size, struct saratoga_bitmap_opened want)
{
    open_with(what, width, size, SARATOGA_CHECKSUM_NONE, want);
}

/*
 * Records: the answer; the transfer, which comes back as it was, or as zeros on refusal; and the marks, of which those of the
 * packet are set.
 */
static void record_as(const char *what, struct saratoga_bitmap transfer, uint8_t *marks, size_t len, uint64_t id,
                      uint64_t width, uint64_t offset, size_t payload, int last, struct saratoga_recorded want)
{
    uint8_t *packet = lend(NULL, 24 + payload), *lent, *left = lend(marks, len);
    size_t size = data(packet, id, width, offset, payload, last);
    struct saratoga_bitmap_recorded got;
    lent = lend(packet, size);
    if (want.number == 0)
        mark(left, (size_t)offset, (size_t)offset + payload);
    got = saratoga_bitmap_record(transfer, marks, len, lent, size);
    same_recorded(what, got, want);
    same_transfer(what, got.transfer, want.number == 0 ? transfer : none);
    same_octets(what, marks, left, len);
    same_octets(what, lent, packet, size);
    free(left);
    free(lent);
    free(packet);
}

/* An accepted packet that sets a mark, and one that sets none: the run that this lies in is absorbed. */
#define RECORDED(...) ((struct saratoga_recorded){.adds = 1, __VA_ARGS__})
#define REPEATED(...) ((struct saratoga_recorded){.absorbed = 1, __VA_ARGS__})
#define REFUSED(refusal, send) ((struct saratoga_recorded){.number = (refusal), .code = (send)})

/* Writes STATUS into exactly `room` octets: the answer, every octet of the buffer, and the marks, which are only read. */
static void status_as(const char *what, struct saratoga_bitmap transfer, const uint8_t *marks, size_t len, uint64_t skip,
                      uint64_t unasked, size_t room, struct saratoga_written want, const uint8_t *status)
{
    uint8_t *out = lend(NULL, room), *left = lend(marks, len);
    same_written(what, saratoga_bitmap_status(transfer, marks, len, skip, unasked, out, room), want);
    buffer_holds(what, out, room, status, want.size);
    same_octets(what, marks, left, len);
    free(left);
    free(out);
}

static void status_refused(const char *what, struct saratoga_bitmap transfer, const uint8_t *marks, size_t len,
                           uint64_t skip, size_t room, uint64_t number, uint64_t code)
{
    status_as(what, transfer, marks, len, skip, 0, room, (struct saratoga_written){.number = number, .code = code}, marks);
}

/* The story. */

enum { PAGE = 64 };

static uint8_t area[SARATOGA_AREA_OCTETS];

/* The table with this transfer alone. */
static void open_in_table(const uint8_t *packet)
{
    uint64_t number = saratoga_fresh(area, sizeof area).number;
    if (number == 0)
        number = saratoga_open(area, sizeof area, packet, 31).number;
    if (number != 0)
        fail("the table", "number", number, 0);
}

/* The marks of the page, as an engineer sees them. */
static void show(const uint8_t *marks)
{
    size_t n;
    printf("story:   ");
    for (n = 0; n < PAGE; n++)
        putchar(marked(marks, n) ? '#' : '.');
    printf("\n");
}

/* STATUS from the table and from the marks, for every number of holes to skip and every room: the same. */
static void both_write(struct saratoga_bitmap transfer, const uint8_t *marks, size_t len)
{
    static uint8_t from_table[ROOM], from_marks[ROOM];
    uint64_t skip;
    size_t room;
    for (skip = 0; skip < 6; skip++)
        for (room = 0; room <= ROOM; room++) {
            memset(from_table, 0xA5, ROOM);
            memset(from_marks, 0xA5, ROOM);
            same_written("STATUS of both", saratoga_bitmap_status(transfer, marks, len, skip, room & 1, from_marks, room),
                         saratoga_write_status(area, sizeof area, transfer.id, skip, room & 1, from_table, room));
            same_octets("STATUS of both", from_marks, from_table, ROOM);
        }
}

/* A packet comes: both receivers get it, and must answer alike. What is handed back is kept where the packet was taken. */
static struct saratoga_bitmap_recorded comes(const char *told, struct saratoga_bitmap *transfer, uint8_t *marks,
                                             uint64_t first, size_t octets)
{
    uint8_t packet[24 + PAGE];
    size_t size = data(packet, transfer->id, transfer->width, first, octets, 0);
    struct saratoga_bitmap_recorded recorded = saratoga_bitmap_record(*transfer, marks, OCTETS, packet, size);
    same_recorded(told, recorded, saratoga_record(area, sizeof area, packet, size));
    if (recorded.number == 0)
        *transfer = recorded.transfer;
    both_write(*transfer, marks, OCTETS);
    printf("story: Octets %d to %d came: %s. Edge %d, %s, absorbed %d%s.\n", (int)first, (int)(first + octets - 1), told,
           (int)recorded.edge, recorded.complete ? "complete" : "not complete", (int)recorded.absorbed,
           recorded.adds ? "" : ", adds nothing");
    show(marks);
    return recorded;
}

static void story(void)
{
    static const char *const at_the_end = "################################################################";
    uint8_t packet[31], out[ROOM], *marks = lend(NULL, OCTETS);
    struct saratoga_bitmap_opened opened;
    struct saratoga_bitmap transfer;
    struct saratoga_bitmap_recorded again, last;
    struct saratoga_written written;
    struct saratoga_hole hole;
    size_t n;
    metadata(packet, ID, 2, PAGE);
    open_in_table(packet);
    opened = saratoga_bitmap_open(marks, OCTETS, packet, sizeof packet);
    printf("story: A page of %d octets is announced. It gets one mark for each of them, and none is set.\n",
           (int)opened.transfer.length);
    show(marks);
    transfer = opened.transfer;
    comes("one run", &transfer, marks, 0, 12);
    comes("apart from the first, so there are two runs and a hole", &transfer, marks, 24, 16);
    again = comes("the first again, and no mark changes", &transfer, marks, 0, 12);
    if (again.adds != 0)
        fail("the first again", "adds", again.adds, 0);
    comes("right behind the first, so both are one run", &transfer, marks, 12, 4);

    written = saratoga_bitmap_status(transfer, marks, OCTETS, 0, 0, out, ROOM);
    hole = saratoga_read_hole(out, written.size, 0);
    printf("story: STATUS names one hole, from %d to %d: the gap above.\n", (int)hole.start, (int)hole.end);
    if (hole.number != 0 || hole.start != 16 || hole.end != 24)
        fail("the hole", "start", hole.start, 16);

    comes("from one run to the other and over both, so they are one", &transfer, marks, 14, 12);
    last = comes("the rest", &transfer, marks, 40, 24);
    for (n = 0; n < PAGE; n++)
        if (marked(marks, n) != (at_the_end[n] == '#'))
            fail("the page", "a mark", n, 0);
    if (last.complete != 1 || last.edge != PAGE || last.absorbed != 1)
        fail("the page", "complete", last.complete, 1);
    printf("story: Every mark is set: the page is complete. The transfer table said the same each time.\n");
    free(marks);
}

/* By hand. */

/* The example of docs/AREA.md. */
static void example(void)
{
    static const uint8_t first[6] = {0x3C, 0x80, 0x01}, then[6] = {0x3C, 0x80, 0x01, 0xFC};
    struct saratoga_bitmap page = transfer_of(2, 30);
    uint8_t *marks = no_marks();
    record_as("example", page, marks, LENT, ID, 2, 2, 4, 0, RECORDED(.edge = 6));
    record_as("example", page, marks, LENT, ID, 2, 8, 1, 0, RECORDED(.edge = 9));
    record_as("example", page, marks, LENT, ID, 2, 23, 1, 0, RECORDED(.edge = 24));
    same_octets("example", marks, first, 6);
    record_as("example", page, marks, LENT, ID, 2, 24, 6, 1, RECORDED(.edge = 30, .absorbed = 1));
    same_octets("example", marks, then, 6);
    free(marks);
}

/* "mark n is its bit n", and octets past the marks stay. */
static void places(void)
{
    static const size_t offsets[] = {0, 1, 2, 3, 4, 5, 6, 7, 8, 15, 16, 63, 64, 65527, 65528, 65534};
    static const struct {
        size_t offset, payload, at;
        uint8_t octets[3];
    } stretches[] = {{0, 24, 0, {0xFF, 0xFF, 0xFF}}, {3, 2, 0, {0x18, 0, 0}},      {7, 2, 0, {0x01, 0x80, 0}},
                     {5, 11, 0, {0x07, 0xFF, 0}},    {6, 12, 0, {0x03, 0xFF, 0xC0}}, {65511, 24, 8189, {0xFF, 0xFF, 0xFE}}};
    size_t i;
    for (i = 0; i < sizeof offsets / sizeof *offsets; i++) {
        uint8_t *marks = no_marks();
        record_as("one mark", transfer_of(4, 65535), marks, LENT, ID, 4, offsets[i], 1, 0,
                  RECORDED(.edge = offsets[i] + 1));
        if (marks[offsets[i] / 8] != 0x80 >> offsets[i] % 8)
            fail("one mark", "its octet", marks[offsets[i] / 8], 0x80 >> offsets[i] % 8);
        free(marks);
    }
    for (i = 0; i < sizeof stretches / sizeof *stretches; i++) {
        uint8_t *marks = no_marks();
        record_as("some marks", transfer_of(4, 65535), marks, LENT, ID, 4, stretches[i].offset, stretches[i].payload, 0,
                  RECORDED(.edge = stretches[i].offset + stretches[i].payload));
        same_octets("some marks", marks + stretches[i].at, stretches[i].octets, 3);
        free(marks);
    }
    example();
    printf("ctest: places of marks\n");
}

/* A CRC-32c is refused last, after 9; every other checksum opens. */
static void checksums(void)
{
    static const uint64_t others[] = {SARATOGA_CHECKSUM_MD5, SARATOGA_CHECKSUM_SHA1, 0x14, 0xF4, 0x1F, 0xFF};
    static const uint64_t old = SARATOGA_CHECKSUM_CRC32, lengths[] = {0, 1, 3000, 65535};
    size_t i;
    for (i = 0; i < sizeof lengths / sizeof *lengths; i++)
        open_with("CRC-32c", 4, lengths[i], old, (struct saratoga_bitmap_opened){.number = SARATOGA_REFUSED_CRC32C, .code = 1});
    open_with("CRC-32c and too long", 4, 65536, old, (struct saratoga_bitmap_opened){.number = SARATOGA_REFUSED_SIZE, .code = 9});
    open_with("CRC-32c and too wide", 2, 65536, old, (struct saratoga_bitmap_opened){.number = SARATOGA_REFUSED_SIZE, .code = 9});
    for (i = 0; i < sizeof others / sizeof *others; i++)
        open_with("another checksum", 4, 3000, others[i], (struct saratoga_bitmap_opened){.transfer = transfer_of(4, 3000)});
    printf("ctest: checksums with marks\n");
}

static void opening(void)
{
    static const uint64_t widths[4] = {2, 4, 8, 16}, lengths[4] = {1, 3000, 65534, 65535};
    static const uint64_t too_long[4] = {65536, 65537, UINT64_C(1) << 32, UINT64_MAX};
    uint8_t packet[31], *marks = lend(NULL, OCTETS), *left = lend(NULL, OCTETS);
    size_t i, j, len;
    for (i = 0; i < 4; i++) {
        for (j = 0; j < 4; j++) {
            open_as("opening", widths[i], lengths[j],
                    (struct saratoga_bitmap_opened){.transfer = transfer_of(widths[i], lengths[j])});
            open_as("opening a long file", widths[i], too_long[j],
                    (struct saratoga_bitmap_opened){.number = SARATOGA_REFUSED_SIZE, .code = 9});
        }
        open_as("opening an empty file", widths[i], 0,
                (struct saratoga_bitmap_opened){.complete = 1, .transfer = transfer_of(widths[i], 0)});
    }
    /* 20 before the reader's, and these before 9. */
    metadata(packet, ID, 4, 65536);
    for (len = 0; len < sizeof packet; len++) {
        same_opened("20 first", saratoga_bitmap_open(marks, OCTETS - 1, packet, len),
                    (struct saratoga_bitmap_opened){.number = 20});
        same_opened("cut short", saratoga_bitmap_open(marks, OCTETS, packet, len),
                    (struct saratoga_bitmap_opened){.number = 1});
    }
    same_opened("20 first", saratoga_bitmap_open(marks, 0, packet, sizeof packet),
                (struct saratoga_bitmap_opened){.number = 20});
    packet[0] = 0x43;
    same_opened("DATA", saratoga_bitmap_open(marks, OCTETS, packet, sizeof packet),
                (struct saratoga_bitmap_opened){.number = 4, .code = 0x0A, .transfer = none});
    same_octets("refused openings", marks, left, OCTETS);
    free(left);
    free(marks);
    printf("ctest: opening with marks\n");
}

/* The passes of document 01: a page with a hole, then without; touching packets; a start that is missing; an empty file. */
static void passes(void)
{
    static const uint8_t with_hole[] = {0x44, 0, 0, 0, 0, 0, 0, ID, 0x03, 0xE8, 0x0B, 0xB8, 0x03, 0xE8, 0x07, 0xD0};
    static const uint8_t complete[] = {0x44, 0x01, 0, 0, 0, 0, 0, ID, 0x0B, 0xB8, 0x0B, 0xB7};
    static const uint8_t empty[] = {0x44, 0x01, 0, 0, 0, 0, 0, ID, 0, 0, 0, 0};
    static const uint8_t wide[72] = {0x44, 0xC0, [7] = ID, [39] = 10, [71] = 5};
    struct saratoga_bitmap page = transfer_of(2, 3000);
    uint8_t *marks = no_marks();
    record_as("first", page, marks, LENT, ID, 2, 0, 1000, 0, RECORDED(.edge = 1000));
    record_as("last", page, marks, LENT, ID, 2, 2000, 1000, 1, RECORDED(.edge = 3000));
    record_as("a repeat", page, marks, LENT, ID, 2, 0, 1000, 0, REPEATED(.edge = 3000));
    status_as("page", page, marks, LENT, 0, 0, 16, (struct saratoga_written){.size = 16}, with_hole);
    status_refused("15 octets", page, marks, LENT, 0, 15, SARATOGA_REFUSED_BUFFER, 0);
    record_as("between", page, marks, LENT, ID, 2, 1000, 1000, 0,
              RECORDED(.edge = 3000, .complete = 1, .absorbed = 2));
    status_as("complete", page, marks, LENT, 0, 0, 20, (struct saratoga_written){.size = 12}, complete);
    free(marks);

    marks = no_marks();
    status_as("empty", transfer_of(2, 0), marks, LENT, 0, 0, 12, (struct saratoga_written){.size = 12}, empty);
    record_as("empty", transfer_of(2, 0), marks, LENT, ID, 2, 0, 1, 0, REFUSED(14, 9));
    record_as("0 to 9", page, marks, LENT, ID, 2, 0, 10, 0, RECORDED(.edge = 10));
    record_as("10 to 19", page, marks, LENT, ID, 2, 10, 10, 0, RECORDED(.edge = 20, .absorbed = 1));
    free(marks);

    marks = no_marks();
    record_as("5 to 9", transfer_of(16, 65535), marks, LENT, ID, 16, 5, 5, 0, RECORDED(.edge = 10));
    status_as("5 to 9", transfer_of(16, 65535), marks, LENT, 0, 0, 80, (struct saratoga_written){.size = 72}, wide);
    free(marks);
    printf("ctest: passes with marks\n");
}

/* Recording and STATUS, both refused with this number before all that comes after it. */
static void both_refuse(const char *what, struct saratoga_bitmap transfer, const uint8_t *marks, size_t len,
                        uint64_t number)
{
    uint8_t *lent = lend(marks, len);
    record_as(what, transfer, lent, len, ID + 1, 4, 65535, 0, 1, REFUSED(number, 0));
    transfer.id |= UINT64_C(1) << 32;
    status_refused(what, transfer, lent, len, 99, 0, number, 0);
    free(lent);
}

/* "Elsewhere a mark at or above L, more than 64 runs, or a w and L that no opening takes is 22, next after 20." */
static void no_transfers(void)
{
    static const size_t above[] = {100, 101, 107, 108, 4000, 65528, 65535};
    static const uint64_t lengths[] = {65536, UINT64_C(1) << 32, UINT64_MAX, 19, 10, 0};
    static const size_t short_by[] = {1, 2, 8, OCTETS};
    uint8_t *marks = no_marks();
    size_t i;
    mark(marks, 10, 20);
    for (i = 0; i < sizeof short_by / sizeof *short_by; i++) {
        both_refuse("short", transfer_of(2, 100), marks, OCTETS - short_by[i], 20);
        both_refuse("short, and width 3", transfer_of(3, 100), marks, OCTETS - short_by[i], 20);
    }
    for (i = 0; i < 40; i++)
        if (i != 2 && i != 4 && i != 8 && i != 16)
            both_refuse("another width", transfer_of(i, 100), marks, LENT, 22);
    both_refuse("another width", transfer_of(UINT64_C(0x100000002), 100), marks, LENT, 22);
    for (i = 0; i < sizeof lengths / sizeof *lengths; i++)
        both_refuse("another length", transfer_of(8, lengths[i]), marks, LENT, 22);
    record_as("a length that the marks reach", transfer_of(2, 20), marks, LENT, ID, 2, 15, 5, 1, REPEATED(.edge = 20));
    for (i = 0; i < sizeof above / sizeof *above; i++) {
        uint8_t *wrong = lend(marks, LENT);
        mark(wrong, above[i], above[i] + 1);
        both_refuse("a mark at or above L", transfer_of(2, 100), wrong, LENT, 22);
        free(wrong);
    }
    free(marks);
    printf("ctest: marks that are no transfer's\n");
}

/* 64 runs: a packet apart from all is 16, and one that touches is accepted. 65 in the marks are 22. */
static void runs(void)
{
    struct saratoga_bitmap page = transfer_of(4, 65535);
    uint8_t *marks = no_marks();
    size_t i;
    for (i = 0; i < 64; i++)
        record_as("a run more", page, marks, LENT, ID, 4, 1000 * i + 7, 3, 0, RECORDED(.edge = 1000 * i + 10));
    record_as("apart", page, marks, LENT, ID, 4, 65534, 1, 0, REFUSED(16, 3));
    record_as("apart", page, marks, LENT, ID, 4, 0, 6, 0, REFUSED(16, 3));
    record_as("touching", page, marks, LENT, ID, 4, 0, 7, 0, RECORDED(.edge = 63010, .absorbed = 1));
    record_as("touching", page, marks, LENT, ID, 4, 63010, 2525, 1, RECORDED(.edge = 65535, .absorbed = 1));
    record_as("over four", page, marks, LENT, ID, 4, 1000, 4000, 0, RECORDED(.edge = 65535, .absorbed = 4));
    for (i = 61; i < 64; i++)
        record_as("a run more again", page, marks, LENT, ID, 4, 500 + 2 * (i - 61), 1, 0, RECORDED(.edge = 65535));
    record_as("apart", page, marks, LENT, ID, 4, 506, 1, 0, REFUSED(16, 3));
    mark(marks, 506, 507);
    both_refuse("65 runs", page, marks, LENT, 22);
    free(marks);
    printf("ctest: runs of marks\n");
}

/* Everything is wrong with the packet; the faults are mended one after the other. */
static void orders(void)
{
    struct saratoga_bitmap page = transfer_of(2, 3000), long_id = page;
    uint8_t *marks = no_marks();
    size_t i;
    for (i = 0; i < 64; i++)
        mark(marks, 10 * i, 10 * i + 5);
    record_as("no payload", page, marks, LENT, ID + 1, 4, 3000, 0, 1, REFUSED(10, 1));
    record_as("another Id", page, marks, LENT, ID + 1, 4, 3000, 1, 1, REFUSED(12, 6));
    record_as("another width", page, marks, LENT, ID, 4, 3000, 1, 1, REFUSED(13, 9));
    record_as("past the end", page, marks, LENT, ID, 2, 3000, 1, 1, REFUSED(14, 9));
    record_as("early end", page, marks, LENT, ID, 2, 2998, 1, 1, REFUSED(15, 1));
    record_as("a 65th run", page, marks, LENT, ID, 2, 2999, 1, 1, REFUSED(16, 3));
    record_as("taken", page, marks, LENT, ID, 2, 635, 1, 0, RECORDED(.edge = 636, .absorbed = 1));
    record_as("a repeat", page, marks, LENT, ID, 2, 632, 4, 0, REPEATED(.edge = 636));

    long_id.id |= UINT64_C(1) << 32;
    record_as("an Id over 32 bits", long_id, marks, LENT, ID, 2, 0, 1, 0, REFUSED(12, 6));
    status_refused("an Id over 32 bits", long_id, marks, LENT, 63, 0, 12, 6);
    status_refused("too many skipped", page, marks, LENT, 63, 0, 19, 0);
    status_refused("no room", page, marks, LENT, 62, 15, 20, 0);
    free(marks);
    printf("ctest: orders of refusals with marks\n");
}

/* Packets that look random, of each width, to the table and to the marks. */
static void beside_the_table(void)
{
    static const uint64_t widths[4] = {2, 4, 8, 16}, lengths[4] = {40, 300, 65535, 2000};
    uint32_t state = 611;
    size_t i, j, size;
    for (i = 0; i < 4; i++) {
        uint8_t packet[40 + 500], *marks = lend(NULL, LENT);
        struct saratoga_bitmap transfer;
        struct saratoga_bitmap_recorded recorded;
        metadata(packet, ID, widths[i], lengths[i]);
        open_in_table(packet);
        transfer = saratoga_bitmap_open(marks, LENT, packet, 31).transfer;
        for (j = 0; j < 300; j++) {
            uint64_t offset = (state = state * 1103515245 + 12345) >> 8;
            size_t payload = 1 + ((state = state * 1103515245 + 12345) >> 16) % (j % 9 == 0 ? 500 : 12);
            size = data(packet, ID + (j % 50 == 49), widths[i], offset % (lengths[i] + 3), payload, j % 20 == 19);
            if (j % 7 == 6)
                size = stamped_data(packet, widths[i], offset % (lengths[i] + 3), j % 3 == 0 ? 0 : offset, j % 5 == 0 ? 0 : j);
            recorded = saratoga_bitmap_record(transfer, marks, LENT, packet, size);
            same_recorded("both", recorded, saratoga_record(area, sizeof area, packet, size));
            if (recorded.number == 0 && j % 7 == 6) {
                transfer.stamped = 1;
                transfer.stamp_high = saratoga_number_of(packet + 8, 8);
                transfer.stamp_low = saratoga_number_of(packet + 16, 8);
            }
            same_transfer("both", recorded.transfer, recorded.number == 0 ? transfer : none);
            if (j % 60 == 59)
                both_write(transfer, marks, LENT);
        }
        free(marks);
    }
    printf("ctest: marks beside the table\n");
}

/* A timestamp in the struct: handed back, sent and counted. Any number but 0 is yes; the halves of a no are not looked at. */
static void timestamps(void)
{
    static const uint64_t yes[] = {1, 2, 256, UINT64_C(1) << 32, UINT64_MAX};
    static const uint64_t high = UINT64_C(0x0102030405060708), low = UINT64_C(0x1112131415161718);
    static const uint8_t with[28] = {0x44, 0x08, 0, 0,  0,  0,  0,  ID, 1,    2,    3,    4,    5,    6,   7,  8,
                                     0x11, 0x12, 0x13, 0x14, 0x15, 0x16, 0x17, 0x18, 0,    3,    0,    3};
    static const uint8_t without[12] = {0x44, 0, 0, 0, 0, 0, 0, ID, 0, 3, 0, 3};
    struct saratoga_bitmap bare = transfer_of(2, 100), kept = {ID, 2, 100, 1, high, low}, zeros = {ID, 2, 100, 1, 0, 0};
    uint8_t packet[64], *marks = no_marks();
    size_t i, size = stamped_data(packet, 2, 1, high, low);
    mark(marks, 0, 3);
    same_transfer("a timestamp", saratoga_bitmap_record(bare, marks, LENT, packet, size).transfer, kept);
    for (i = 0; i < sizeof yes / sizeof *yes; i++) {
        struct saratoga_bitmap other = {ID, 2, 100, yes[i], high, low};
        status_as("yes", other, marks, LENT, 0, 0, 28, (struct saratoga_written){.size = 28}, with);
        status_refused("yes, in 27 octets", other, marks, LENT, 0, 27, SARATOGA_REFUSED_BUFFER, 0);
        size = data(packet, ID, 2, 2, 1, 0);
        same_transfer("DATA without one", saratoga_bitmap_record(other, marks, LENT, packet, size).transfer, kept);
        size = stamped_data(packet, 2, 1, 0, 0);
        same_transfer("zeros", saratoga_bitmap_record(other, marks, LENT, packet, size).transfer, zeros);
        size = stamped_data(packet, 2, 100, 0, 0);
        same_transfer("refused", saratoga_bitmap_record(other, marks, LENT, packet, size).transfer, none);
    }
    kept.stamped = 0;
    status_as("no", kept, marks, LENT, 0, 0, 12, (struct saratoga_written){.size = 12}, without);
    size = data(packet, ID, 2, 2, 1, 0);
    same_transfer("no, with halves", saratoga_bitmap_record(kept, marks, LENT, packet, size).transfer, bare);
    free(marks);
    printf("ctest: timestamps with marks\n");
}

int main(void)
{
    story();
    places();
    opening();
    checksums();
    passes();
    no_transfers();
    runs();
    orders();
    beside_the_table();
    timestamps();
    return report("ctest bitmap");
}
