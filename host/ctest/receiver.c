/*
 * Calls each function of saratoga.h that uses an area from C: the passes of the papers, and each refusal. Checks every
 * field of the answers and every octet of areas and buffers, and ends with status 1 where one is wrong.
 */
#include "check.h"

enum { AREA = SARATOGA_AREA_OCTETS };

/* An answer that is only a refusal. */
#define REFUSED(type, refusal, send) ((struct saratoga_##type){.number = (refusal), .code = (send)})

static void same_done(const char *what, struct saratoga_done got, struct saratoga_done want)
{
    SAME(number);
    SAME(code);
}

static void same_opened(const char *what, struct saratoga_opened got, struct saratoga_opened want)
{
    SAME(number);
    SAME(code);
    SAME(edge);
    SAME(complete);
    SAME(already_open);
}

static void same_recorded(const char *what, struct saratoga_recorded got, struct saratoga_recorded want)
{
    SAME(number);
    SAME(code);
    SAME(edge);
    SAME(complete);
    SAME(absorbed);
    SAME(adds);
}

static void same_listed(const char *what, struct saratoga_listed got, struct saratoga_listed want)
{
    SAME(number);
    SAME(code);
    SAME(id);
    SAME(width);
    SAME(length);
    SAME(edge);
    SAME(complete);
    SAME(runs);
    SAME(received);
    SAME(stamped);
}

/* `octets` octets of a number, the highest first. */
static void put(uint8_t *at, uint64_t number, size_t octets)
{
    while (octets > 0) {
        at[--octets] = (uint8_t)number;
        number >>= 8;
    }
}

/* Word `word` of an area: 8 octets, the lowest first. */
static void put_word(uint8_t *area, size_t word, uint64_t number)
{
    size_t i;
    for (i = 0; i < 8; i++)
        area[8 * word + i] = (uint8_t)(number >> 8 * i);
}

/* Bits 8 to 15 of a packet, for descriptors of 2, 4, 8 or 16 octets. */
static uint8_t width_bits(size_t width)
{
    return width == 2 ? 0x00 : width == 4 ? 0x40 : width == 8 ? 0x80 : 0xC0;
}

/* An area of `len` octets with nothing open: zeros, and octets 0xA5 past them. */
static uint8_t *fresh_area(size_t len)
{
    uint8_t *area = lend(NULL, len), *want = lend(NULL, len);
    same_done("fresh area", saratoga_fresh(area, len), (struct saratoga_done){0, 0});
    memset(want, 0, AREA);
    same_octets("fresh area", area, want, len);
    free(want);
    return area;
}

/* The same with octets 0xA5 in every word that isn't used: all but word 0. */
static uint8_t *empty_area(size_t len)
{
    uint8_t *area = lend(NULL, len);
    put_word(area, 0, 0);
    return area;
}

/* METADATA, with a checksum of this type and length, the size in 64 bits and the path p611. */
static void open_with(const char *what, uint8_t *area, size_t len, uint64_t id, size_t width, uint64_t size, uint64_t checksum,
                      struct saratoga_opened want)
{
    uint8_t packet[8 + 60 + 23] = {0x42}, *before = lend(area, len), *lent, *entry = packet + 8 + checksum / 16 * 4;
    size_t packet_len = (size_t)(entry - packet) + 23;
    packet[1] = width_bits(width);
    packet[3] = (uint8_t)checksum;
    put(packet + 4, id, 4);
    entry[1] = 0x80;
    put(entry + 2, size, 8);
    memcpy(entry + 18, "p611", 5);
    lent = lend(packet, packet_len);
    same_opened(what, saratoga_open(area, len, lent, packet_len), want);
    same_octets(what, lent, packet, packet_len);
    if (want.number != 0 || want.already_open)
        same_octets(what, area, before, len);
    free(before);
    free(lent);
}

static void open_as(const char *what, uint8_t *area, size_t len, uint64_t id, size_t width, uint64_t size,
                    struct saratoga_opened want)
{
    open_with(what, area, len, id, width, size, SARATOGA_CHECKSUM_NONE, want);
}

/*
 * DATA with `payload` octets, with this timestamp or without (NULL), with end of data or without. What it would be answered is
 * asked before. The area stays where nothing is added and no timestamp is taken, and else the transfer has received more.
 */
static void record_with(const char *what, uint8_t *area, size_t len, uint64_t id, size_t width, const uint8_t *stamp,
                        uint64_t offset, size_t payload, int last, struct saratoga_recorded want)
{
    size_t fields = stamp != NULL ? 24 : 8, size = fields + width + payload;
    uint8_t *packet = lend(NULL, size), *lent, *before = lend(area, len);
    put(packet, last ? 0x43008000 : 0x43000000, 4);
    packet[1] = (uint8_t)(width_bits(width) | (stamp != NULL ? 0x08 : 0));
    put(packet + 4, id, 4);
    if (stamp != NULL)
        memcpy(packet + 8, stamp, 16);
    put(packet + fields, offset, width);
    lent = lend(packet, size);
    same_recorded(what, saratoga_try_record(area, len, lent, size), want);
    same_recorded(what, saratoga_record(area, len, lent, size), want);
    same_octets(what, lent, packet, size);
    if (want.number != 0 || (want.adds == 0 && stamp == NULL))
        same_octets(what, area, before, len);
    else if (saratoga_find(area, len, id).received < saratoga_find(before, len, id).received + want.adds)
        fail(what, "received", saratoga_find(area, len, id).received, saratoga_find(before, len, id).received + 1);
    free(packet);
    free(lent);
    free(before);
}

static void record_as(const char *what, uint8_t *area, size_t len, uint64_t id, size_t width, uint64_t offset,
                      size_t payload, int last, struct saratoga_recorded want)
{
    record_with(what, area, len, id, width, NULL, offset, payload, last, want);
}

/*
 * Records octets of Id 7 at width 16, one of which is new, in an area of AREA octets: the edge, whether it is complete, and
 * the runs absorbed.
 */
static void received(const char *what, uint8_t *area, uint64_t offset, size_t payload, uint64_t edge, uint64_t complete,
                     uint64_t absorbed)
{
    struct saratoga_recorded want = {.edge = edge, .complete = complete, .absorbed = absorbed, .adds = 1};
    record_as(what, area, AREA, 7, 2, offset, payload, 0, want);
}

/* The same of octets that came before: they lie in one run, and add nothing. */
static void repeated(const char *what, uint8_t *area, uint64_t offset, size_t payload, uint64_t edge, uint64_t complete)
{
    struct saratoga_recorded want = {.edge = edge, .complete = complete, .absorbed = 1};
    record_as(what, area, AREA, 7, 2, offset, payload, 0, want);
}

static void close_as(const char *what, uint8_t *area, size_t len, uint64_t id, struct saratoga_done want)
{
    uint8_t *before = lend(area, len);
    same_done(what, saratoga_close(area, len, id), want);
    if (want.number != 0)
        same_octets(what, area, before, len);
    free(before);
}

/* The STATUS must be these octets; a refusal has none. */
static void status_as(const char *what, const uint8_t *area, size_t len, uint64_t id, uint64_t skip, uint64_t unasked,
                      size_t room, const uint8_t *packet, struct saratoga_written want)
{
    uint8_t *out = lend(NULL, room), *before = lend(area, len);
    same_written(what, saratoga_write_status(area, len, id, skip, unasked, out, room), want);
    buffer_holds(what, out, room, packet, want.size);
    same_octets(what, area, before, len);
    free(out);
    free(before);
}

static void list_as(const char *what, const uint8_t *area, size_t len, uint64_t index, struct saratoga_listed want)
{
    uint8_t *before = lend(area, len);
    same_listed(what, saratoga_transfer(area, len, index), want);
    same_octets(what, area, before, len);
    free(before);
}

static void find_as(const char *what, const uint8_t *area, size_t len, uint64_t id, struct saratoga_listed want)
{
    uint8_t *before = lend(area, len);
    same_listed(what, saratoga_find(area, len, id), want);
    same_octets(what, area, before, len);
    free(before);
}

static void hole_as(const char *what, const uint8_t *area, size_t len, uint64_t id, uint64_t index,
                    struct saratoga_hole want)
{
    uint8_t *before = lend(area, len);
    struct saratoga_hole got = saratoga_transfer_hole(area, len, id, index);
    SAME(number);
    SAME(code);
    SAME(start);
    SAME(end);
    same_octets(what, area, before, len);
    free(before);
}

/* Id 7, width 16, 3,000 octets: a hole, a buffer that is too small, and the octets that were missing. */
static void page_with_a_hole(void)
{
    static const uint8_t hole[] = {0x44, 0, 0, 0, 0, 0, 0, 7, 0x03, 0xE8, 0x0B, 0xB8, 0x03, 0xE8, 0x07, 0xD0};
    static const uint8_t whole[] = {0x44, 0x01, 0, 0, 0, 0, 0, 7, 0x0B, 0xB8, 0x0B, 0xB7};
    uint8_t *area = fresh_area(AREA);
    open_as("page", area, AREA, 7, 2, 3000, (struct saratoga_opened){0, 0, 0, 0, 0});
    received("0 to 999", area, 0, 1000, 1000, 0, 0);
    received("2,000 to 2,999", area, 2000, 1000, 3000, 0, 0);
    status_as("one hole", area, AREA, 7, 0, 0, 16, hole, (struct saratoga_written){.size = 16});
    status_as("one hole in more room", area, AREA, 7, 0, 0, 99, hole, (struct saratoga_written){.size = 16});
    status_as("one hole in 15 octets", area, AREA, 7, 0, 0, 15, hole, REFUSED(written, SARATOGA_REFUSED_BUFFER, 0));
    status_as("one hole, one skipped", area, AREA, 7, 1, 0, 15, hole, REFUSED(written, SARATOGA_REFUSED_INDEX, 0));
    repeated("0 to 999 again", area, 0, 1000, 3000, 0);
    list_as("3,000 octets came, and 2,000 of them are received", area, AREA, 0,
            (struct saratoga_listed){.id = 7, .width = 2, .length = 3000, .edge = 3000, .runs = 2, .received = 2000});
    open_as("page again", area, AREA, 7, 2, 3000, (struct saratoga_opened){.edge = 3000, .already_open = 1});
    received("1,000 to 1,999", area, 1000, 1000, 3000, 1, 2);
    status_as("whole", area, AREA, 7, 0, 0, 12, whole, (struct saratoga_written){.size = 12});
    status_as("whole in 11 octets", area, AREA, 7, 0, 0, 11, whole, REFUSED(written, SARATOGA_REFUSED_BUFFER, 0));
    repeated("all again", area, 0, 3000, 3000, 1);
    repeated("the last octet again", area, 2999, 1, 3000, 1);
    list_as("whole", area, AREA, 0,
            (struct saratoga_listed){
                .id = 7, .width = 2, .length = 3000, .edge = 3000, .complete = 1, .runs = 1, .received = 3000});
    open_as("whole page again", area, AREA, 7, 2, 3000,
            (struct saratoga_opened){.edge = 3000, .complete = 1, .already_open = 1});
    free(area);
    printf("ctest: a page with a hole\n");
}

/* Lengths 0 and the longest at width 16. */
static void lengths(void)
{
    static const uint8_t empty[] = {0x44, 0x01, 0, 0, 0, 0, 0, 7, 0, 0, 0, 0};
    uint8_t *area = empty_area(AREA);
    open_as("length 0", area, AREA, 7, 2, 0, (struct saratoga_opened){.complete = 1});
    record_as("DATA for length 0", area, AREA, 7, 2, 0, 1, 0, REFUSED(recorded, SARATOGA_REFUSED_PAST_END, 0x09));
    record_as("last DATA for length 0", area, AREA, 7, 2, 0, 1, 1, REFUSED(recorded, SARATOGA_REFUSED_PAST_END, 0x09));
    status_as("length 0", area, AREA, 7, 0, 0, 12, empty, (struct saratoga_written){.size = 12});
    open_as("length 65,535", area, AREA, 8, 2, 65535, (struct saratoga_opened){0, 0, 0, 0, 0});
    open_as("length 65,536", area, AREA, 9, 2, 65536, REFUSED(opened, SARATOGA_REFUSED_SIZE, 0x09));
    open_as("length 65,536 at width 32", area, AREA, 9, 4, 65536, (struct saratoga_opened){0, 0, 0, 0, 0});
    free(area);
    printf("ctest: lengths\n");
}

/* Touching packets are one run; the start of the file is a hole like any other. */
static void runs_and_holes(void)
{
    static const uint8_t one_run[] = {0x44, 0, 0, 0, 0, 0, 0, 7, 0, 20, 0, 20};
    static const uint8_t from_5[] = {0x44, 0x01, 0, 0, 0, 0, 0, 7, 0, 0, 0, 10, 0, 0, 0, 5};
    uint8_t *area = fresh_area(AREA);
    open_as("touching packets", area, AREA, 7, 2, 3000, (struct saratoga_opened){0, 0, 0, 0, 0});
    received("0 to 9", area, 0, 10, 10, 0, 0);
    received("10 to 19", area, 10, 10, 20, 0, 1);
    list_as("one run", area, AREA, 0,
            (struct saratoga_listed){.id = 7, .width = 2, .length = 3000, .edge = 20, .runs = 1, .received = 20});
    status_as("no hole", area, AREA, 7, 0, 0, 99, one_run, (struct saratoga_written){.size = 12});
    status_as("no hole, one skipped", area, AREA, 7, 1, 0, 99, one_run, REFUSED(written, SARATOGA_REFUSED_INDEX, 0));
    free(area);

    area = empty_area(AREA);
    open_as("only 5 to 9", area, AREA, 7, 2, 3000, (struct saratoga_opened){0, 0, 0, 0, 0});
    received("5 to 9", area, 5, 5, 10, 0, 0);
    status_as("hole from 0", area, AREA, 7, 0, UINT64_MAX, 99, from_5, (struct saratoga_written){.size = 16});
    free(area);
    printf("ctest: runs and holes\n");
}

/* 64 runs and no more; of 64 holes, as many as fit. */
static void sixty_four_runs(void)
{
    uint8_t packet[8 + 4 + 4 * 63] = {0x44, 0x02, 0, 0, 0, 0, 0, 7, 0, 0, 0x02, 0x7C};
    uint8_t *area = empty_area(AREA);
    uint64_t run;
    open_as("64 runs", area, AREA, 7, 2, 3000, (struct saratoga_opened){0, 0, 0, 0, 0});
    for (run = 0; run < 64; run++)
        received("a run", area, 10 * run + 5, 1, 10 * run + 6, 0, 0);
    record_as("a 65th run", area, AREA, 7, 2, 2000, 1, 0, REFUSED(recorded, SARATOGA_REFUSED_RUNS, 0x03));
    record_as("a 65th run between", area, AREA, 7, 2, 7, 1, 0, REFUSED(recorded, SARATOGA_REFUSED_RUNS, 0x03));
    record_as("a 65th run, end of data", area, AREA, 7, 2, 2998, 1, 1,
              REFUSED(recorded, SARATOGA_REFUSED_EARLY_END, 0x01));

    /* 64 holes: from 0 to 5, then from each run's stop to the next start. */
    for (run = 0; run < 63; run++) {
        put(packet + 12 + 4 * run, run == 0 ? 0 : 10 * run - 4, 2);
        put(packet + 14 + 4 * run, 10 * run + 5, 2);
    }
    status_as("63 of 64 holes", area, AREA, 7, 0, 0, sizeof packet + 3, packet,
              (struct saratoga_written){.size = sizeof packet});
    put(packet + 12, 626, 2);
    put(packet + 14, 635, 2);
    status_as("the last hole", area, AREA, 7, 63, 0, 16, packet, (struct saratoga_written){.size = 16});
    status_as("64 skipped", area, AREA, 7, 64, 0, 16, packet, REFUSED(written, SARATOGA_REFUSED_INDEX, 0));

    /* In all 67 recordings, which absorb 3 runs and leave 64; then one over all of them. */
    received("one that touches", area, 6, 1, 636, 0, 1);
    received("one that joins two", area, 7, 8, 636, 0, 2);
    received("one apart again", area, 2000, 1, 2001, 0, 0);
    list_as("64 runs", area, AREA, 0,
            (struct saratoga_listed){.id = 7, .width = 2, .length = 3000, .edge = 2001, .runs = 64, .received = 74});
    received("one over all", area, 0, 2500, 2500, 0, 64);
    list_as("one run", area, AREA, 0,
            (struct saratoga_listed){.id = 7, .width = 2, .length = 3000, .edge = 2500, .runs = 1, .received = 2500});
    free(area);
    printf("ctest: 64 runs\n");
}

/* The largest length and offset: no sum wraps. */
static void largest_numbers(void)
{
    static const uint8_t packet[] = {0x44, 0x80, 0, 0, 0xFF, 0xFF, 0xFF, 0xFF, 0, 0, 0, 0, 0, 0, 0, 0, /* Progress */
                                     0xFF, 0xFF, 0xFF, 0xFF, 0xFF, 0xFF, 0xFF, 0xFF,                   /* the edge */
                                     0, 0, 0, 0, 0, 0, 0, 0,                                           /* hole */
                                     0xFF, 0xFF, 0xFF, 0xFF, 0xFF, 0xFF, 0xFF, 0xFE};
    const uint64_t id = 0xFFFFFFFF;
    uint8_t *area = empty_area(AREA);
    open_as("length 2^64 - 1", area, AREA, id, 8, UINT64_MAX, (struct saratoga_opened){0, 0, 0, 0, 0});
    record_as("offset 2^64 - 1", area, AREA, id, 8, UINT64_MAX, 1, 0,
              REFUSED(recorded, SARATOGA_REFUSED_PAST_END, 0x09));
    record_as("offset 2^64 - 2", area, AREA, id, 8, UINT64_MAX - 1, 2, 0,
              REFUSED(recorded, SARATOGA_REFUSED_PAST_END, 0x09));
    record_as("the last octet", area, AREA, id, 8, UINT64_MAX - 1, 1, 1,
              (struct saratoga_recorded){.edge = UINT64_MAX, .adds = 1});
    list_as("the last octet", area, AREA, 0,
            (struct saratoga_listed){
                .id = id, .width = 8, .length = UINT64_MAX, .edge = UINT64_MAX, .runs = 1, .received = 1});
    status_as("the largest hole", area, AREA, id, 0, 0, 40, packet, (struct saratoga_written){.size = 40});
    close_as("Id over 32 bits", area, AREA, id + (UINT64_C(1) << 32), REFUSED(done, SARATOGA_REFUSED_NOT_OPEN, 0x06));
    status_as("Id over 32 bits", area, AREA, UINT64_MAX, 0, 0, 40, packet,
              REFUSED(written, SARATOGA_REFUSED_NOT_OPEN, 0x06));
    free(area);
    printf("ctest: the largest numbers\n");
}

/* 16 Ids and no more; listing in rising order of Id. */
static void seventeen_ids(void)
{
    uint8_t *area = empty_area(AREA);
    uint64_t id;
    for (id = 16; id >= 1; id--)
        open_as("one of 16", area, AREA, id, 4, 10 * id, (struct saratoga_opened){0, 0, 0, 0, 0});
    open_as("a 17th Id", area, AREA, 17, 4, 170, REFUSED(opened, SARATOGA_REFUSED_TABLE_FULL, 0x03));
    open_as("another length", area, AREA, 16, 4, 161, REFUSED(opened, SARATOGA_REFUSED_OPEN_OTHER, 0x09));
    open_as("another width", area, AREA, 16, 8, 160, REFUSED(opened, SARATOGA_REFUSED_OPEN_OTHER, 0x09));
    open_as("the same", area, AREA, 16, 4, 160, (struct saratoga_opened){.already_open = 1});
    for (id = 1; id <= 16; id++)
        list_as("one of 16", area, AREA, id - 1, (struct saratoga_listed){.id = id, .width = 4, .length = 10 * id});
    list_as("past the last", area, AREA, 16, REFUSED(listed, SARATOGA_REFUSED_NOT_OPEN, 0x06));
    list_as("index 2^64 - 1", area, AREA, UINT64_MAX, REFUSED(listed, SARATOGA_REFUSED_NOT_OPEN, 0x06));
    close_as("Id 5", area, AREA, 5, (struct saratoga_done){0, 0});
    close_as("Id 5 again", area, AREA, 5, REFUSED(done, SARATOGA_REFUSED_NOT_OPEN, 0x06));
    open_as("the 17th Id after that", area, AREA, 17, 4, 170, (struct saratoga_opened){0, 0, 0, 0, 0});
    list_as("the 17th Id", area, AREA, 15, (struct saratoga_listed){.id = 17, .width = 4, .length = 170});
    for (id = 1; id <= 17; id++)
        close_as("each Id", area, AREA, id,
                 id == 5 ? REFUSED(done, SARATOGA_REFUSED_NOT_OPEN, 0x06) : (struct saratoga_done){0, 0});
    list_as("nothing open", area, AREA, 0, REFUSED(listed, SARATOGA_REFUSED_NOT_OPEN, 0x06));
    free(area);
    printf("ctest: 17 Ids\n");
}

/*
 * No CRC-32c on anything new: refused after another width or length, and before that there is no room. What is open goes on,
 * whatever its checksum, and every other checksum opens.
 */
static void no_crc32c_on_anything_new(void)
{
    static const uint64_t others[] = {SARATOGA_CHECKSUM_MD5, SARATOGA_CHECKSUM_SHA1, 0x14, 0xF4, 0x1F, 0xFF};
    static const uint64_t old = SARATOGA_CHECKSUM_CRC32;
    const struct saratoga_opened refused = REFUSED(opened, SARATOGA_REFUSED_CRC32C, SARATOGA_CODE_UNSPECIFIED);
    uint8_t *area = empty_area(AREA);
    uint64_t id;
    size_t i;
    open_with("nothing open", area, AREA, 7, 2, 100, old, refused);
    open_with("an empty file", area, AREA, 7, 2, 0, old, refused);
    open_with("too long for its width", area, AREA, 7, 2, 65536, old, REFUSED(opened, SARATOGA_REFUSED_SIZE, 0x09));
    open_with("a short area", area, AREA - 1, 7, 2, 100, old, REFUSED(opened, SARATOGA_REFUSED_AREA, 0));
    for (i = 0; i < sizeof others / sizeof *others; i++) {
        open_with("another checksum", area, AREA, 7, 2, 100, others[i], (struct saratoga_opened){0, 0, 0, 0, 0});
        close_as("another checksum", area, AREA, 7, (struct saratoga_done){0, 0});
    }
    open_with("no checksum", area, AREA, 7, 2, 100, SARATOGA_CHECKSUM_NONE, (struct saratoga_opened){0, 0, 0, 0, 0});
    received("0 to 9", area, 0, 10, 10, 0, 0);
    open_with("already open", area, AREA, 7, 2, 100, old, (struct saratoga_opened){.edge = 10, .already_open = 1});
    open_with("another length", area, AREA, 7, 2, 99, old, REFUSED(opened, SARATOGA_REFUSED_OPEN_OTHER, 0x09));
    open_with("another width", area, AREA, 7, 4, 100, old, REFUSED(opened, SARATOGA_REFUSED_OPEN_OTHER, 0x09));
    open_with("a second Id", area, AREA, 8, 2, 100, old, refused);
    for (id = 20; id < 35; id++)
        open_as("one of 16", area, AREA, id, 4, 10 * id, (struct saratoga_opened){0, 0, 0, 0, 0});
    open_with("no room", area, AREA, 8, 2, 100, SARATOGA_CHECKSUM_MD5, REFUSED(opened, SARATOGA_REFUSED_TABLE_FULL, 0x03));
    open_with("no room", area, AREA, 8, 2, 100, old, refused);
    open_with("another length and no room", area, AREA, 7, 2, 99, old, REFUSED(opened, SARATOGA_REFUSED_OPEN_OTHER, 0x09));
    open_with("already open and no room", area, AREA, 7, 2, 100, old, (struct saratoga_opened){.edge = 10, .already_open = 1});
    received("it runs to its end", area, 10, 90, 100, 1, 1);
    open_with("complete", area, AREA, 7, 2, 100, old, (struct saratoga_opened){.edge = 100, .complete = 1, .already_open = 1});
    close_as("complete", area, AREA, 7, (struct saratoga_done){0, 0});
    open_with("closed", area, AREA, 7, 2, 100, old, refused);
    free(area);
    printf("ctest: no CRC-32c on anything new\n");
}

/* What else recording refuses, in its order. */
static void recording_refused(void)
{
    static const uint8_t nothing[] = {0x43, 0, 0, 0, 0, 0, 0, 8, 0, 0};
    uint8_t *area = empty_area(AREA);
    open_as("to be refused", area, AREA, 7, 2, 100, (struct saratoga_opened){0, 0, 0, 0, 0});
    same_recorded("no payload", saratoga_record(area, AREA, nothing, sizeof nothing),
                  REFUSED(recorded, SARATOGA_REFUSED_NO_PAYLOAD, 0x01));
    same_recorded("cut", saratoga_record(area, AREA, nothing, 9), REFUSED(recorded, SARATOGA_REFUSED_TRUNCATED, 0));
    same_recorded("METADATA", saratoga_record(area, AREA, (const uint8_t[]){0x42, 0, 0, 0, 0, 0, 0, 8}, 8),
                  REFUSED(recorded, SARATOGA_REFUSED_TYPE, 0x0A));
    same_opened("opening by DATA", saratoga_open(area, AREA, nothing, sizeof nothing),
                REFUSED(opened, SARATOGA_REFUSED_TYPE, 0x0A));
    record_as("Id not open", area, AREA, 8, 4, 100, 1, 1, REFUSED(recorded, SARATOGA_REFUSED_NOT_OPEN, 0x06));
    record_as("another width", area, AREA, 7, 4, 100, 1, 1, REFUSED(recorded, SARATOGA_REFUSED_OTHER_WIDTH, 0x09));
    record_as("past the end", area, AREA, 7, 2, 100, 1, 1, REFUSED(recorded, SARATOGA_REFUSED_PAST_END, 0x09));
    record_as("over the end", area, AREA, 7, 2, 99, 2, 1, REFUSED(recorded, SARATOGA_REFUSED_PAST_END, 0x09));
    record_as("an early end of data", area, AREA, 7, 2, 98, 1, 1, REFUSED(recorded, SARATOGA_REFUSED_EARLY_END, 0x01));
    record_as("end of data", area, AREA, 7, 2, 99, 1, 1, (struct saratoga_recorded){.edge = 100, .adds = 1});
    record_as("the last octet without it", area, AREA, 7, 2, 99, 1, 0,
              (struct saratoga_recorded){.edge = 100, .absorbed = 1});
    free(area);
    printf("ctest: recordings refused\n");
}

/* Every function refuses the area with 22 and leaves it. */
static void area_refused(const char *what, const uint8_t *octets, size_t len)
{
    uint8_t *area = lend(octets, len);
    open_as(what, area, len, 7, 2, 3000, REFUSED(opened, SARATOGA_REFUSED_AREA, 0));
    record_as(what, area, len, 7, 2, 0, 1, 0, REFUSED(recorded, SARATOGA_REFUSED_AREA, 0));
    close_as(what, area, len, 7, REFUSED(done, SARATOGA_REFUSED_AREA, 0));
    status_as(what, area, len, 7, 0, 0, 16, octets, REFUSED(written, SARATOGA_REFUSED_AREA, 0));
    list_as(what, area, len, 0, REFUSED(listed, SARATOGA_REFUSED_AREA, 0));
    free(area);
}

/* The same with word `word` of the area set to `value`. */
static void word_refused(const char *what, const uint8_t *octets, size_t word, uint64_t value)
{
    uint8_t *area = lend(octets, AREA);
    put_word(area, word, value);
    area_refused(what, area, AREA);
    free(area);
}

struct numbered_word {
    size_t word;
    uint64_t value;
};

static void put_words(uint8_t *area, const struct numbered_word *words, size_t count)
{
    size_t i;
    for (i = 0; i < count; i++)
        put_word(area, words[i].word, words[i].value);
}

#define PUT_WORDS(area, words) put_words(area, words, sizeof words / sizeof words[0])

/* The timestamps of the example: that of Id 300, and that which Id 7 gets. */
static const uint8_t of_300[16] = {0x11, 0x12, 0x13, 0x14, 0x15, 0x16, 0x17, 0x18,
                                   0x21, 0x22, 0x23, 0x24, 0x25, 0x26, 0x27, 0x28};
static const uint8_t of_7[16] = {0xAA, 0xAA, 0xAA, 0xAA, 0xAA, 0xAA, 0xAA, 0xAA,
                                 0xAA, 0xAA, 0xAA, 0xAA, 0xAA, 0xAA, 0xAA, 0xAA};

/* The example of docs/AREA.md. */
static const struct numbered_word example[] = {{0, 2},                                  /* transfers */
                                               {1, 7},                                  /* Id, width, length, runs, stamped */
                                               {2, 2},
                                               {3, 3000},
                                               {4, 2},
                                               {5, 0},
                                               {6, 300},
                                               {7, 8},
                                               {8, UINT64_C(5000000000)},
                                               {9, 1},
                                               {10, 1},
                                               {81, 0},                                 /* starts */
                                               {82, 2000},
                                               {145, UINT64_C(1) << 32},
                                               {1105, 1000},                            /* stops */
                                               {1106, 3000},
                                               {1169, (UINT64_C(1) << 32) + 500},
                                               {2131, UINT64_C(0x1817161514131211)},    /* timestamp */
                                               {2132, UINT64_C(0x2827262524232221)}};

/* What changes in it where two runs of Id 7 are joined by DATA with a timestamp, and where Id 7 is closed after that. */
static const struct numbered_word joined[] = {{4, 1},
                                              {5, 1},
                                              {1105, 3000},
                                              {2129, UINT64_C(0xAAAAAAAAAAAAAAAA)},
                                              {2130, UINT64_C(0xAAAAAAAAAAAAAAAA)}};
static const struct numbered_word closed[] = {{0, 1},
                                              {1, 300},
                                              {2, 8},
                                              {3, UINT64_C(5000000000)},
                                              {4, 1},
                                              {5, 1},
                                              {81, UINT64_C(1) << 32},
                                              {1105, (UINT64_C(1) << 32) + 500},
                                              {2129, UINT64_C(0x1817161514131211)},
                                              {2130, UINT64_C(0x2827262524232221)}};

/* The example, with octets `other` in all words that it doesn't use and past them, and the calls of docs/AREA.md. */
static void example_with(uint8_t other)
{
    const size_t len = AREA + 3;
    uint8_t *area = lend(NULL, len), *want = lend(NULL, len);
    memset(area, other, len);
    put_word(area, 0, 0);
    open_as("Id 300", area, len, 300, 8, UINT64_C(5000000000), (struct saratoga_opened){0, 0, 0, 0, 0});
    open_as("Id 7", area, len, 7, 2, 3000, (struct saratoga_opened){0, 0, 0, 0, 0});
    record_as("Id 7", area, len, 7, 2, 2000, 1000, 1, (struct saratoga_recorded){.edge = 3000, .adds = 1});
    record_with("Id 300", area, len, 300, 8, of_300, UINT64_C(1) << 32, 500, 0,
                (struct saratoga_recorded){.edge = (UINT64_C(1) << 32) + 500, .adds = 1});
    record_as("Id 7 again", area, len, 7, 2, 0, 1000, 0, (struct saratoga_recorded){.edge = 3000, .adds = 1});
    memset(want, other, len);
    PUT_WORDS(want, example);
    same_octets("the example of docs/AREA.md", area, want, len);

    record_with("the octets between", area, len, 7, 2, of_7, 1000, 1000, 0,
                (struct saratoga_recorded){.edge = 3000, .complete = 1, .absorbed = 2, .adds = 1});
    PUT_WORDS(want, joined);
    same_octets("the second run's place keeps its numbers", area, want, len);
    close_as("Id 7", area, len, 7, (struct saratoga_done){0, 0});
    PUT_WORDS(want, closed);
    same_octets("the second transfer's place keeps its numbers", area, want, len);
    list_as("Id 300 alone", area, len, 0,
            (struct saratoga_listed){.id = 300,
                                     .width = 8,
                                     .length = UINT64_C(5000000000),
                                     .edge = (UINT64_C(1) << 32) + 500,
                                     .runs = 1,
                                     .received = 500,
                                     .stamped = 1});
    close_as("Id 300", area, len, 300, (struct saratoga_done){0, 0});
    put_word(want, 0, 0);
    same_octets("nothing but the count changes", area, want, len);
    free(area);
    free(want);
}

/* Every function takes the example with one unused word set to `value`, and leaves that word. */
static void unused_kept(const uint8_t *octets, size_t word, uint64_t value)
{
    static const uint8_t hole[] = {0x44, 0, 0, 0, 0, 0, 0, 7, 0x03, 0xE8, 0x0B, 0xB8, 0x03, 0xE8, 0x07, 0xD0};
    const char *what = "an unused word";
    uint8_t *area = lend(octets, AREA), *want = lend(octets, AREA);
    put_word(area, word, value);
    put_word(want, word, value);
    open_as(what, area, AREA, 7, 2, 3000, (struct saratoga_opened){.edge = 3000, .already_open = 1});
    status_as(what, area, AREA, 7, 0, 0, 16, hole, (struct saratoga_written){.size = 16});
    list_as(what, area, AREA, 0,
            (struct saratoga_listed){.id = 7, .width = 2, .length = 3000, .edge = 3000, .runs = 2, .received = 2000});
    list_as(what, area, AREA, 2, REFUSED(listed, SARATOGA_REFUSED_NOT_OPEN, 0x06));
    record_with(what, area, AREA, 7, 2, of_7, 1000, 1000, 0,
                (struct saratoga_recorded){.edge = 3000, .complete = 1, .absorbed = 2, .adds = 1});
    PUT_WORDS(want, joined);
    same_octets(what, area, want, AREA);
    close_as(what, area, AREA, 7, (struct saratoga_done){0, 0});
    PUT_WORDS(want, closed);
    same_octets(what, area, want, AREA);
    free(area);
    free(want);
}

/* The example; what is no table, and what is one whatever its unused words hold. */
static void areas(void)
{
    static const size_t unused[] = {11,   12,   13,   14,   15,   76,   80,   83,   144,  146,  208, 209,
                                    1104, 1107, 1168, 1170, 1233, 2128, 2129, 2130, 2133, 2134, 2160};
    uint8_t *area = lend(NULL, AREA), *short_area;
    size_t i;
    example_with(0x00);
    example_with(0xA5);
    example_with(0xFF);
    PUT_WORDS(area, example);
    for (i = 0; i < sizeof unused / sizeof unused[0]; i++) {
        unused_kept(area, unused[i], 0);
        unused_kept(area, unused[i], 7);
        unused_kept(area, unused[i], UINT64_MAX);
    }

    area_refused("no octet", area, 0);
    area_refused("one octet too few", area, AREA - 1);
    word_refused("17 transfers", area, 0, 17);
    word_refused("the highest octet first", area, 0, UINT64_C(2) << 56);
    word_refused("one transfer too many", area, 0, 3);
    word_refused("equal Ids", area, 6, 7);
    word_refused("an Id over 32 bits", area, 6, UINT64_C(1) << 32);
    word_refused("width 3", area, 2, 3);
    word_refused("width 15", area, 2, 15);
    word_refused("width 17", area, 2, 17);
    word_refused("width 32", area, 2, 32);
    word_refused("a length over its width", area, 3, 65536);
    word_refused("a length below the last stop", area, 3, 2999);
    word_refused("65 runs", area, 4, 65);
    word_refused("one run too many", area, 4, 3);
    word_refused("an empty run", area, 1105, 0);
    word_refused("runs that touch", area, 82, 1000);
    word_refused("runs that overlap", area, 82, 999);
    word_refused("a run over the length", area, 1106, 3001);
    word_refused("the last transfer's run turned round", area, 1169, 1);
    word_refused("2 for whether a timestamp is kept", area, 5, 2);
    word_refused("2 for the last transfer's", area, 10, 2);
    word_refused("1 with the highest octet first", area, 10, UINT64_C(1) << 56);
    word_refused("all bits for whether a timestamp is kept", area, 5, UINT64_MAX);

    short_area = lend(area, AREA - 1);
    same_done("too short", saratoga_fresh(short_area, AREA - 1), REFUSED(done, SARATOGA_REFUSED_BUFFER, 0));
    same_octets("too short", short_area, area, AREA - 1);
    free(short_area);
    put_word(area, 0, 1);
    list_as("one transfer fewer is another table", area, AREA, 1, REFUSED(listed, SARATOGA_REFUSED_NOT_OPEN, 0x06));
    free(area);
    area = fresh_area(AREA + 3);
    free(area);
    printf("ctest: areas\n");
}

/*
 * Calls on memory of which only word 0 was ever written: valgrind tells where an answer depends on the rest. So octets of
 * the area are not compared here.
 */
static void unwritten_words(void)
{
    static const uint8_t hole[] = {0x44, 0, 0, 0, 0, 0, 0, 7, 0x03, 0xE8, 0x0B, 0xB8, 0x03, 0xE8, 0x07, 0xD0};
    const char *what = "unwritten words";
    uint8_t *area = malloc(AREA), *out = lend(NULL, 16);
    uint64_t id;
    if (area == NULL)
        exit(2);
    put_word(area, 0, 0);
    for (id = 9; id >= 5; id--)
        open_as(what, area, AREA, id, 2, 3000, (struct saratoga_opened){0, 0, 0, 0, 0});
    received(what, area, 2000, 500, 2500, 0, 0);
    received(what, area, 100, 100, 2500, 0, 0);
    received(what, area, 0, 1000, 2500, 0, 1);
    received(what, area, 2500, 500, 3000, 0, 1);
    record_with(what, area, AREA, 9, 2, of_300, 0, 3000, 0,
                (struct saratoga_recorded){.edge = 3000, .complete = 1, .adds = 1});
    close_as(what, area, AREA, 5, (struct saratoga_done){0, 0});
    same_listed(what, saratoga_transfer(area, AREA, 1),
                (struct saratoga_listed){.id = 7, .width = 2, .length = 3000, .edge = 3000, .runs = 2, .received = 2000});
    same_listed(what, saratoga_transfer(area, AREA, 4), REFUSED(listed, SARATOGA_REFUSED_NOT_OPEN, 0x06));
    same_listed(what, saratoga_find(area, AREA, 7),
                (struct saratoga_listed){.id = 7, .width = 2, .length = 3000, .edge = 3000, .runs = 2, .received = 2000});
    same_listed(what, saratoga_find(area, AREA, 10), REFUSED(listed, SARATOGA_REFUSED_NOT_OPEN, 0x06));
    if (saratoga_transfer_hole(area, AREA, 7, 0).end != 2000)
        fail(what, "end", saratoga_transfer_hole(area, AREA, 7, 0).end, 2000);
    same_written(what, saratoga_write_status(area, AREA, 7, 0, 0, out, 16), (struct saratoga_written){.size = 16});
    same_octets(what, out, hole, 16);
    received(what, area, 1000, 1000, 3000, 1, 2);
    for (id = 6; id <= 9; id++)
        close_as(what, area, AREA, id, (struct saratoga_done){0, 0});
    same_done(what, saratoga_fresh(area, AREA), (struct saratoga_done){0, 0});
    list_as(what, area, AREA, 0, REFUSED(listed, SARATOGA_REFUSED_NOT_OPEN, 0x06));
    free(area);
    free(out);
    printf("ctest: unwritten words\n");
}

/* A transfer of width 128: 13 and 18 tell it from one of width 64; its STATUS; its area. */
static void width_128(void)
{
    static const uint8_t hole[72] = {0x44, 0xC0, [7] = 7, [38] = 0x0B, 0xB8, [70] = 0x07, 0xD0};
    static const uint8_t whole[40] = {0x44, 0xC1, [7] = 7, [22] = 0x0B, 0xB8, [38] = 0x0B, 0xB7};
    struct saratoga_recorded complete = {.edge = 3000, .complete = 1, .absorbed = 1, .adds = 1};
    uint8_t *area = empty_area(AREA), *want = lend(NULL, AREA), packet[25] = {0x43, 0xC0, [7] = 7, [24] = 'a'};
    const struct numbered_word words[] = {{0, 1}, {1, 7}, {2, 16}, {3, 3000}, {4, 1}, {5, 0}, {81, 2000}, {1105, 3000}};
    open_as("width 128", area, AREA, 7, 16, 3000, (struct saratoga_opened){0, 0, 0, 0, 0});
    open_as("width 128 again", area, AREA, 7, 16, 3000, (struct saratoga_opened){.already_open = 1});
    open_as("width 64 after 128", area, AREA, 7, 8, 3000, REFUSED(opened, SARATOGA_REFUSED_OPEN_OTHER, 0x09));
    record_as("width 64 to 128", area, AREA, 7, 8, 0, 1, 0, REFUSED(recorded, SARATOGA_REFUSED_OTHER_WIDTH, 0x09));
    record_as("width 128", area, AREA, 7, 16, 2000, 1000, 1, (struct saratoga_recorded){.edge = 3000, .adds = 1});
    PUT_WORDS(want, words);
    same_octets("width 128", area, want, AREA);
    list_as("width 128", area, AREA, 0,
            (struct saratoga_listed){.id = 7, .width = 16, .length = 3000, .edge = 3000, .runs = 1, .received = 1000});
    status_as("width 128", area, AREA, 7, 0, 0, 72, hole, (struct saratoga_written){.size = 72});
    status_as("width 128 in 71 octets", area, AREA, 7, 0, 0, 71, hole, REFUSED(written, SARATOGA_REFUSED_BUFFER, 0));
    for (size_t place = 8; place < 16; place++) {
        packet[place] = 1;
        same_recorded("an upper octet", saratoga_record(area, AREA, packet, 25),
                      REFUSED(recorded, SARATOGA_REFUSED_WIDTH, 0x09));
        same_recorded("an upper octet", saratoga_try_record(area, AREA, packet, 24),
                      REFUSED(recorded, SARATOGA_REFUSED_WIDTH, 0x09));
        packet[place] = 0;
    }
    same_octets("upper octets", area, want, AREA);
    record_as("the rest", area, AREA, 7, 16, 0, 2000, 0, complete);
    status_as("whole", area, AREA, 7, 0, 0, 40, whole, (struct saratoga_written){.size = 40});
    open_as("length 2^64 - 1", area, AREA, 8, 16, UINT64_MAX, (struct saratoga_opened){0, 0, 0, 0, 0});
    record_as("offset 2^64 - 1", area, AREA, 8, 16, UINT64_MAX, 1, 0, REFUSED(recorded, SARATOGA_REFUSED_PAST_END, 0x09));
    open_as("width 64", area, AREA, 9, 8, 3000, (struct saratoga_opened){0, 0, 0, 0, 0});
    record_as("width 128 to 64", area, AREA, 9, 16, 0, 1, 0, REFUSED(recorded, SARATOGA_REFUSED_OTHER_WIDTH, 0x09));
    free(area);
    free(want);
    printf("ctest: width 128\n");
}

/* The longest STATUS: a timestamp and 64 holes at width 128. */
static void longest_status(void)
{
    const char *what = "the longest STATUS";
    uint8_t *area = empty_area(AREA), *out = lend(NULL, SARATOGA_STATUS_OCTETS);
    uint64_t run;
    open_as(what, area, AREA, 7, 16, 3000, (struct saratoga_opened){0, 0, 0, 0, 0});
    for (run = 0; run < SARATOGA_RUNS; run++)
        record_with(what, area, AREA, 7, 16, of_300, 2 * run + 1, 1, 0,
                    (struct saratoga_recorded){.edge = 2 * run + 2, .adds = 1});
    same_written(what, saratoga_write_status(area, AREA, 7, 0, 0, out, SARATOGA_STATUS_OCTETS),
                 (struct saratoga_written){.size = SARATOGA_STATUS_OCTETS});
    if ((saratoga_read(out, SARATOGA_STATUS_OCTETS).flags & SARATOGA_FLAG_INCOMPLETE) != 0)
        fail(what, "bit 14", 1, 0);
    same_octets(what, out + 8, of_300, 16);
    for (run = 0; run < SARATOGA_RUNS; run++)
        hole_as(what, area, AREA, 7, run, (struct saratoga_hole){.start = 2 * run, .end = 2 * run + 1});
    free(area);
    free(out);
    printf("ctest: the longest STATUS\n");
}

/* What recording would answer, and one transfer by its Id: the area is only read. */
static void asked_alone(void)
{
    static const uint8_t data[] = {0x43, 0, 0, 0, 0, 0, 0, 7, 0x03, 0xE8, 1, 2, 3};
    const char *what = "asked alone";
    uint8_t *area = empty_area(AREA), *before, *short_area;
    open_as(what, area, AREA, 7, 2, 3000, (struct saratoga_opened){0, 0, 0, 0, 0});
    open_as(what, area, AREA, 9, 8, 10, (struct saratoga_opened){0, 0, 0, 0, 0});
    received(what, area, 10, 90, 100, 0, 0);
    received(what, area, 200, 100, 300, 0, 0);
    before = lend(area, AREA);
    same_recorded(what, saratoga_try_record(area, AREA, data, sizeof data),
                  (struct saratoga_recorded){.edge = 1003, .adds = 1});
    same_octets(what, area, before, AREA);
    same_recorded(what, saratoga_try_record(area, AREA, data, 10), REFUSED(recorded, SARATOGA_REFUSED_NO_PAYLOAD, 0x01));
    same_recorded(what, saratoga_try_record(area, AREA - 1, data, 10), REFUSED(recorded, SARATOGA_REFUSED_AREA, 0));
    free(before);

    find_as("Id 7", area, AREA, 7,
            (struct saratoga_listed){.id = 7, .width = 2, .length = 3000, .edge = 300, .runs = 2, .received = 190});
    find_as("Id 9", area, AREA, 9, (struct saratoga_listed){.id = 9, .width = 8, .length = 10});
    find_as("Id 8", area, AREA, 8, REFUSED(listed, SARATOGA_REFUSED_NOT_OPEN, 0x06));
    find_as("an Id over 32 bits", area, AREA, 7 + (UINT64_C(1) << 32), REFUSED(listed, SARATOGA_REFUSED_NOT_OPEN, 0x06));
    hole_as("hole 0", area, AREA, 7, 0, (struct saratoga_hole){.end = 10});
    hole_as("hole 1", area, AREA, 7, 1, (struct saratoga_hole){.start = 100, .end = 200});
    hole_as("hole 2 of 2", area, AREA, 7, 2, REFUSED(hole, SARATOGA_REFUSED_INDEX, 0));
    hole_as("the last index", area, AREA, 7, UINT64_MAX, REFUSED(hole, SARATOGA_REFUSED_INDEX, 0));
    hole_as("no hole", area, AREA, 9, 0, REFUSED(hole, SARATOGA_REFUSED_INDEX, 0));
    hole_as("no such Id", area, AREA, 8, 0, REFUSED(hole, SARATOGA_REFUSED_NOT_OPEN, 0x06));
    short_area = lend(area, AREA - 1);
    find_as("too short", short_area, AREA - 1, 7, REFUSED(listed, SARATOGA_REFUSED_AREA, 0));
    hole_as("too short", short_area, AREA - 1, 7, 0, REFUSED(hole, SARATOGA_REFUSED_AREA, 0));
    free(short_area);
    free(area);
    printf("ctest: asked alone\n");
}

/* What Id 7 keeps: NULL is none. Its STATUS has it, and so has one in exactly as much room; one octet less is 20. */
static void keeps(const char *what, const uint8_t *area, const uint8_t *stamp)
{
    uint8_t packet[28] = {0x44, stamp != NULL ? 0x08 : 0, [7] = 7};
    size_t size = stamp != NULL ? 28 : 12;
    struct saratoga_packet read;
    if (stamp != NULL)
        memcpy(packet + 8, stamp, 16);
    put(packet + size - 4, 20, 2);
    put(packet + size - 2, 20, 2);
    status_as(what, area, AREA, 7, 0, 0, size, packet, (struct saratoga_written){.size = size});
    status_as(what, area, AREA, 7, 0, 0, 99, packet, (struct saratoga_written){.size = size});
    status_as(what, area, AREA, 7, 0, 0, size - 1, packet, REFUSED(written, SARATOGA_REFUSED_BUFFER, 0));
    find_as(what, area, AREA, 7,
            (struct saratoga_listed){
                .id = 7, .width = 2, .length = 100, .edge = 20, .runs = 1, .received = 20, .stamped = stamp != NULL});
    read = saratoga_read(packet, size);
    if (read.number != 0 || read.timestamp_len != (stamp != NULL ? 16 : 0) || read.progress != 20)
        fail(what, "read back", read.timestamp_len, stamp != NULL ? 16 : 0);
}

/* The timestamp of the last accepted DATA that had one, before the first none; and what does not touch it. */
static void timestamps(void)
{
    static const uint8_t zeros[16];
    const struct saratoga_recorded repeat = {.edge = 20, .absorbed = 1};
    uint8_t *area = empty_area(AREA);
    open_as("Id 7", area, AREA, 7, 2, 100, (struct saratoga_opened){0, 0, 0, 0, 0});
    open_as("Id 6", area, AREA, 6, 2, 100, (struct saratoga_opened){0, 0, 0, 0, 0});
    open_as("Id 9", area, AREA, 9, 2, 100, (struct saratoga_opened){0, 0, 0, 0, 0});
    received("0 to 19", area, 0, 20, 20, 0, 0);
    keeps("none before the first", area, NULL);
    record_with("Id 6", area, AREA, 6, 2, of_7, 0, 1, 0, (struct saratoga_recorded){.edge = 1, .adds = 1});
    record_with("Id 9", area, AREA, 9, 2, of_7, 0, 1, 0, (struct saratoga_recorded){.edge = 1, .adds = 1});
    keeps("those of others", area, NULL);
    record_with("a repeat with one", area, AREA, 7, 2, of_300, 3, 4, 0, repeat);
    keeps("a repeat with one", area, of_300);
    repeated("a repeat without one", area, 0, 20, 20, 0);
    keeps("a repeat without one", area, of_300);
    record_with("another", area, AREA, 7, 2, of_7, 0, 20, 0, repeat);
    keeps("another", area, of_7);
    record_with("zeros", area, AREA, 7, 2, zeros, 0, 20, 0, repeat);
    keeps("zeros", area, zeros);

    record_with("past the end", area, AREA, 7, 2, of_300, 99, 2, 0, REFUSED(recorded, SARATOGA_REFUSED_PAST_END, 0x09));
    record_with("an early end", area, AREA, 7, 2, of_300, 30, 2, 1, REFUSED(recorded, SARATOGA_REFUSED_EARLY_END, 0x01));
    record_with("another width", area, AREA, 7, 4, of_300, 0, 2, 0, REFUSED(recorded, SARATOGA_REFUSED_OTHER_WIDTH, 0x09));
    open_as("already open", area, AREA, 7, 2, 100, (struct saratoga_opened){.edge = 20, .already_open = 1});
    open_as("another length", area, AREA, 7, 2, 99, REFUSED(opened, SARATOGA_REFUSED_OPEN_OTHER, 0x09));
    open_as("one more in front", area, AREA, 5, 2, 100, (struct saratoga_opened){0, 0, 0, 0, 0});
    close_as("the ones in front", area, AREA, 5, (struct saratoga_done){0, 0});
    close_as("the ones in front", area, AREA, 6, (struct saratoga_done){0, 0});
    keeps("refused, already open, moved", area, zeros);

    close_as("Id 7", area, AREA, 7, (struct saratoga_done){0, 0});
    open_as("Id 7 anew", area, AREA, 7, 2, 100, (struct saratoga_opened){0, 0, 0, 0, 0});
    received("0 to 19", area, 0, 20, 20, 0, 0);
    keeps("opened anew", area, NULL);
    find_as("Id 9 behind it", area, AREA, 9,
            (struct saratoga_listed){.id = 9, .width = 2, .length = 100, .edge = 1, .runs = 1, .received = 1, .stamped = 1});
    free(area);
    printf("ctest: timestamps\n");
}

int main(void)
{
    page_with_a_hole();
    lengths();
    runs_and_holes();
    sixty_four_runs();
    largest_numbers();
    seventeen_ids();
    no_crc32c_on_anything_new();
    recording_refused();
    areas();
    width_128();
    longest_status();
    asked_alone();
    timestamps();
    unwritten_words();
    return report("ctest receiver");
}
