/*
 * What to send again, from C, on packets laid out by hand from document 02: plans, their count, and the check of lists that
 * someone else made. Ends with status 1 where anything is wrong.
 */
#include "check.h"

enum { ROOM = 12 };

/* The STATUS of document 01: 1,000 to 1,999 are missing. */
static const uint8_t one_hole[] = {0x44, 0, 0, 0, 0, 0, 0, 7, 0x03, 0xE8, 0x0B, 0xB8, 0x03, 0xE8, 0x07, 0xD0};
static const uint8_t complete[] = {0x44, 0x01, 0, 0, 0, 0, 0, 7, 0x0B, 0xB8, 0x0B, 0xB7};

/* Width 32, holes 10 to 20 and 30 to 34. */
static const uint8_t two_holes[] = {0x44, 0x40, 0, 0, 0, 0, 0, 7,  0, 0, 0, 10, 0, 0, 0, 34,
                                    0,    0,    0, 10, 0, 0, 0, 20, 0, 0, 0, 30, 0, 0, 0, 34};

/* Width 64, bit 14 set: the one hole listed ends at 2^64 - 1 and has four octets. */
static const uint8_t last_offsets[40] = {0x44, 0x82, [7] = 7, [16] = 0xFF, 0xFF, 0xFF, 0xFF, 0xFF, 0xFF, 0xFF, 0xFF,
                                         0xFF, 0xFF, 0xFF, 0xFF, 0xFF, 0xFF, 0xFF, 0xFB, 0xFF, 0xFF, 0xFF, 0xFF,
                                         0xFF, 0xFF, 0xFF, 0xFF};

/* Width 128, of which the holes are 1 to 2 and 4 to 9; and width 64, of which the hole is 0 to 2^64 - 1. */
static const uint8_t wide[104] = {0x44, 0xC0, [7] = 7, [23] = 1, [39] = 9, [55] = 1, [71] = 2, [87] = 4, [103] = 9};
static const uint8_t all_offsets[40] = {0x44, 0x80, [7] = 7, [16] = 0xFF, 0xFF, 0xFF, 0xFF, 0xFF, 0xFF, 0xFF, 0xFF,
                                        [32] = 0xFF, 0xFF, 0xFF, 0xFF, 0xFF, 0xFF, 0xFF, 0xFF};

static void same_planned(const char *what, struct saratoga_planned got, struct saratoga_planned want)
{
    SAME(number);
    SAME(code);
    SAME(count);
}

static void same_checked(const char *what, struct saratoga_checked got, struct saratoga_checked want)
{
    SAME(number);
    SAME(code);
    SAME(passes);
}

/* Plans into exactly `room` records: the answer, every record, and the packet afterwards. */
static void plan_into(const char *what, const uint8_t *packet, size_t len, uint64_t largest, size_t room,
                      struct saratoga_planned want, const struct saratoga_piece *plan)
{
    uint8_t *lent = lend(packet, len);
    size_t octets = room * sizeof(struct saratoga_piece);
    struct saratoga_piece *pieces = (struct saratoga_piece *)lend(NULL, octets);
    same_planned(what, saratoga_plan(lent, len, largest, pieces, room), want);
    buffer_holds(what, (const uint8_t *)pieces, octets, (const uint8_t *)plan, want.count * sizeof *plan);
    same_octets(what, lent, packet, len);
    free(pieces);
    free(lent);
}

/* A plan: its count; from just enough records and from more; with one record less 20, and no record written. */
static void plan_as(const char *what, const uint8_t *packet, size_t len, uint64_t largest,
                    const struct saratoga_piece *plan, size_t count)
{
    struct saratoga_planned want = {.count = count};
    size_t room;
    same_planned(what, saratoga_plan_count(packet, len, largest), want);
    for (room = count; room <= count + 2; room++)
        plan_into(what, packet, len, largest, room, want, plan);
    for (room = 0; room < count; room++)
        plan_into(what, packet, len, largest, room, (struct saratoga_planned){.number = SARATOGA_REFUSED_BUFFER}, plan);
    same_checked(what, saratoga_check_plan(packet, len, largest, plan, count), (struct saratoga_checked){.passes = 1});
}

#define PLAN_AS(packet, largest, ...)                                                                      \
    plan_as(#packet ", " #largest, packet, sizeof packet, largest, (const struct saratoga_piece[]){__VA_ARGS__}, \
            sizeof(const struct saratoga_piece[]){__VA_ARGS__} / sizeof(struct saratoga_piece))

static void plans(void)
{
    static const struct saratoga_piece none[1];
    PLAN_AS(one_hole, 400, {1000, 400}, {1400, 400}, {1800, 200});
    PLAN_AS(one_hole, 500, {1000, 500}, {1500, 500});
    PLAN_AS(one_hole, 501, {1000, 501}, {1501, 499});
    PLAN_AS(one_hole, 999, {1000, 999}, {1999, 1});
    PLAN_AS(one_hole, 1000, {1000, 1000});
    PLAN_AS(one_hole, 65000, {1000, 1000});
    PLAN_AS(two_holes, 4, {10, 4}, {14, 4}, {18, 2}, {30, 4});
    PLAN_AS(two_holes, 3, {10, 3}, {13, 3}, {16, 3}, {19, 1}, {30, 3}, {33, 1});
    PLAN_AS(wide, 2, {1, 1}, {4, 2}, {6, 2}, {8, 1});
    PLAN_AS(last_offsets, 3, {UINT64_MAX - 4, 3}, {UINT64_MAX - 1, 1});
    PLAN_AS(last_offsets, 4, {UINT64_MAX - 4, 4});
    plan_as("complete", complete, sizeof complete, 1, none, 0);
    same_planned("all offsets, by 1", saratoga_plan_count(all_offsets, sizeof all_offsets, 1),
                 (struct saratoga_planned){.count = UINT64_MAX});
    same_planned("all offsets, by 65,000", saratoga_plan_count(all_offsets, sizeof all_offsets, 65000),
                 (struct saratoga_planned){.count = UINT64_MAX / 65000 + 1});
    plan_into("all offsets", all_offsets, sizeof all_offsets, 1, 5, (struct saratoga_planned){.number = 20}, none);
    printf("ctest: plans\n");
}

/* Every one of the three functions refuses the same; the records stay, and the list that is checked. */
static void refused(const char *what, const uint8_t *packet, size_t len, uint64_t largest, uint64_t number, uint64_t code)
{
    struct saratoga_planned want = {.number = number, .code = code};
    struct saratoga_piece list[1] = {{10, 4}};
    uint8_t *lent = lend(packet, len);
    same_planned(what, saratoga_plan_count(lent, len, largest), want);
    plan_into(what, packet, len, largest, 0, want, list);
    plan_into(what, packet, len, largest, ROOM, want, list);
    same_checked(what, saratoga_check_plan(lent, len, largest, list, 1),
                 (struct saratoga_checked){.number = number, .code = code});
    same_checked(what, saratoga_check_plan(lent, len, largest, list, 0),
                 (struct saratoga_checked){.number = number, .code = code});
    if (list[0].offset != 10 || list[0].length != 4)
        fail(what, "the list's offset", list[0].offset, 10);
    free(lent);
}

static void refusals(void)
{
    static const uint8_t failure[] = {0x44, 0x40, 0, 0x05, 0, 0, 0, 7};
    static const uint8_t data[] = {0x43, 0, 0, 0, 0, 0, 0, 7, 0, 0, 'a'}, beacon[] = {0x40, 0, 0, 0};
    static const uint64_t largest[5] = {0, 1, 65000, 65001, UINT64_MAX};
    static uint8_t longer[65536];
    uint8_t bad[sizeof two_holes];
    size_t i, len;
    memcpy(longer, two_holes, sizeof two_holes);
    for (i = 0; i < 5; i++) {
        refused("too long", longer, sizeof longer, largest[i], 2, 0);
        for (len = 0; len < 16; len++)
            refused("cut short", two_holes, len, largest[i], 1, 0);
        refused("DATA", data, sizeof data, largest[i], 4, 0x0A);
        refused("BEACON", beacon, sizeof beacon, largest[i], 4, 0x0A);
        refused("failure STATUS", failure, sizeof failure, largest[i], 11, 0);
        for (len = 17; len < sizeof two_holes; len++)
            if (len != 24)
                refused("half a hole", two_holes, len, largest[i], 11, 0);
        memcpy(bad, two_holes, sizeof bad);
        bad[0] = 0x04;
        refused("version", bad, sizeof bad, largest[i], 3, 0);
        bad[0] = 0x44, bad[27] = 20;
        refused("touching holes", bad, sizeof bad, largest[i], 11, 0);
    }
    for (i = 0; i < 5; i++)
        if (i != 1 && i != 2) {
            refused("largest payload", two_holes, sizeof two_holes, largest[i], 21, 0);
            refused("largest payload, without holes", complete, sizeof complete, largest[i], 21, 0);
        }
    printf("ctest: refusals of plans\n");
}

static void check_as(const uint8_t *packet, size_t len, uint64_t largest, uint64_t passes,
                     const struct saratoga_piece *list, size_t count, const char *what)
{
    size_t octets = count * sizeof *list;
    struct saratoga_piece *lent = (struct saratoga_piece *)lend((const uint8_t *)list, octets);
    same_checked(what, saratoga_check_plan(packet, len, largest, lent, count), (struct saratoga_checked){.passes = passes});
    same_octets(what, (const uint8_t *)lent, (const uint8_t *)list, octets);
    free(lent);
}

#define CHECK_AS(packet, largest, passes, ...)                                                                      \
    check_as(packet, sizeof packet, largest, passes, (const struct saratoga_piece[]){__VA_ARGS__},                  \
             sizeof(const struct saratoga_piece[]){__VA_ARGS__} / sizeof(struct saratoga_piece), #packet ": " #__VA_ARGS__)

static void checks(void)
{
    const uint64_t top = UINT64_MAX;
    /* Other plans than the planner's. */
    CHECK_AS(two_holes, 5, 1, {10, 5}, {15, 5}, {30, 4});
    CHECK_AS(two_holes, 5, 1, {10, 1}, {11, 5}, {16, 4}, {30, 2}, {32, 2});
    CHECK_AS(two_holes, 65000, 1, {10, 10}, {30, 1}, {31, 3});
    /* The pieces rise. */
    CHECK_AS(two_holes, 5, 0, {15, 5}, {10, 5}, {30, 4});
    CHECK_AS(two_holes, 10, 0, {30, 4}, {10, 10});
    /* None is empty or longer. */
    CHECK_AS(two_holes, 5, 0, {10, 0}, {10, 5}, {15, 5}, {30, 4});
    CHECK_AS(two_holes, 5, 0, {10, 5}, {12, 0}, {15, 5}, {30, 4});
    CHECK_AS(two_holes, 5, 0, {10, 5}, {15, 5}, {30, 4}, {34, 0});
    CHECK_AS(two_holes, 5, 0, {10, 6}, {16, 4}, {30, 4});
    /* Each lies in one listed hole. */
    CHECK_AS(two_holes, 65000, 0, {10, 24});
    CHECK_AS(two_holes, 65000, 0, {10, 14});
    CHECK_AS(two_holes, 11, 0, {9, 11}, {30, 4});
    CHECK_AS(two_holes, 11, 0, {10, 11}, {30, 4});
    CHECK_AS(two_holes, 11, 0, {10, 10}, {25, 1}, {30, 4});
    CHECK_AS(two_holes, 11, 0, {10, 10}, {30, 4}, {34, 1});
    CHECK_AS(two_holes, 11, 0, {0, 1}, {10, 10}, {30, 4});
    /* No two overlap. */
    CHECK_AS(two_holes, 10, 0, {10, 6}, {15, 5}, {30, 4});
    CHECK_AS(two_holes, 10, 0, {10, 10}, {10, 10}, {30, 4});
    CHECK_AS(two_holes, 10, 0, {10, 10}, {12, 1}, {30, 4});
    /* Together they cover every listed hole. */
    CHECK_AS(two_holes, 10, 0, {10, 10});
    CHECK_AS(two_holes, 10, 0, {30, 4});
    CHECK_AS(two_holes, 10, 0, {11, 9}, {30, 4});
    CHECK_AS(two_holes, 10, 0, {10, 9}, {30, 4});
    CHECK_AS(two_holes, 10, 0, {10, 4}, {15, 5}, {30, 4});
    CHECK_AS(two_holes, 10, 0, {10, 10}, {30, 3});
    check_as(two_holes, sizeof two_holes, 10, 0, (const struct saratoga_piece[1]){{0, 0}}, 0, "no pieces");
    /* Sums at 2^64 and past it. */
    CHECK_AS(last_offsets, 65000, 1, {top - 4, 2}, {top - 2, 2});
    CHECK_AS(last_offsets, 65000, 0, {top - 4, 5});
    CHECK_AS(last_offsets, 65000, 0, {top - 4, 4}, {top, 1});
    CHECK_AS(last_offsets, 65000, 0, {top - 4, 4}, {0, top});
    CHECK_AS(last_offsets, 65000, 0, {top - 4, 4}, {top, top});
    CHECK_AS(last_offsets, 65000, 0, {top - 4, top});
    CHECK_AS(last_offsets, 65000, 0, {top - 4, top - 1});
    CHECK_AS(all_offsets, 65000, 0, {0, top});
    /* No holes. */
    check_as(complete, sizeof complete, 1, 1, (const struct saratoga_piece[1]){{0, 0}}, 0, "complete, no pieces");
    CHECK_AS(complete, 1, 0, {0, 0});
    CHECK_AS(complete, 1, 0, {2999, 1});
    CHECK_AS(complete, 1, 0, {3000, 0});
    printf("ctest: checks\n");
}

/* As many holes as a packet has room for: 16,380 of one octet, width 16. */
static void longest(void)
{
    enum { HOLES = 16380, LEN = 12 + 4 * HOLES };
    static uint8_t packet[LEN] = {0x44, 0, 0, 0, 0, 0, 0, 7, 0, 1, 0xFF, 0xFF};
    struct saratoga_piece *pieces = (struct saratoga_piece *)lend(NULL, HOLES * sizeof *pieces);
    size_t i;
    for (i = 0; i < HOLES; i++) {
        size_t start = 1 + 4 * i;
        packet[12 + 4 * i] = (uint8_t)(start >> 8), packet[13 + 4 * i] = (uint8_t)start;
        packet[14 + 4 * i] = (uint8_t)((start + 1) >> 8), packet[15 + 4 * i] = (uint8_t)(start + 1);
    }
    same_planned("longest", saratoga_plan(packet, LEN, 1, pieces, HOLES), (struct saratoga_planned){.count = HOLES});
    for (i = 0; i < HOLES; i++)
        if (pieces[i].offset != 1 + 4 * i || pieces[i].length != 1)
            fail("longest", "offset", pieces[i].offset, 1 + 4 * i);
    same_checked("longest", saratoga_check_plan(packet, LEN, 1, pieces, HOLES), (struct saratoga_checked){.passes = 1});
    same_checked("longest less one", saratoga_check_plan(packet, LEN, 1, pieces, HOLES - 1), (struct saratoga_checked){0});
    pieces[HOLES - 1].offset++;
    same_checked("longest moved", saratoga_check_plan(packet, LEN, 1, pieces, HOLES), (struct saratoga_checked){0});
    free(pieces);
    printf("ctest: a plan of %d holes\n", HOLES);
}

int main(void)
{
    plans();
    refusals();
    checks();
    longest();
    return report("ctest plan");
}
