/*
 * Merges transfers of two areas from C: what is accepted, each refusal and their order, and what stays. Checks every field of the
 * answers and every octet of both areas, and ends with status 1 where one is wrong.
 */
#include "check.h"

enum { AREA = SARATOGA_AREA_OCTETS, PAST = 3, LEN = AREA + PAST, LENGTH = 3000 };

/* Word `word` of an area: 8 octets, the lowest first. */
static void put_word(uint8_t *area, size_t word, uint64_t number)
{
    size_t i;
    for (i = 0; i < 8; i++)
        area[8 * word + i] = (uint8_t)(number >> 8 * i);
}

/* The words of docs/AREA.md. */
static size_t head(size_t i, size_t field) { return 1 + 5 * i + field; }
static size_t start(size_t i, size_t j) { return 81 + 64 * i + j; }
static size_t stop(size_t i, size_t j) { return 1105 + 64 * i + j; }
static size_t stamp(size_t i) { return 2129 + 2 * i; }
enum { ID, WIDTH, SIZE, COUNT, STAMPED };

/* An area with nothing open, and octets 0xA5 in every word that isn't used and past the layout. */
static uint8_t *empty(void)
{
    uint8_t *area = lend(NULL, LEN);
    put_word(area, 0, 0);
    return area;
}

/* A transfer at place i, which must be the next. */
static void open_at(uint8_t *area, size_t i, uint64_t id, uint64_t width, uint64_t length)
{
    put_word(area, 0, i + 1);
    put_word(area, head(i, ID), id);
    put_word(area, head(i, WIDTH), width);
    put_word(area, head(i, SIZE), length);
    put_word(area, head(i, COUNT), 0);
    put_word(area, head(i, STAMPED), 0);
}

/* `count` runs of `size` octets, `step` apart, from `from` on. */
static void runs_at(uint8_t *area, size_t i, size_t count, uint64_t from, uint64_t size, uint64_t step)
{
    size_t j;
    for (j = 0; j < count; j++) {
        put_word(area, start(i, j), from + j * step);
        put_word(area, stop(i, j), from + j * step + size);
    }
    put_word(area, head(i, COUNT), count);
}

static void stamp_at(uint8_t *area, size_t i, uint64_t number)
{
    put_word(area, head(i, STAMPED), 1);
    put_word(area, stamp(i), number);
    put_word(area, stamp(i) + 1, number);
}

/* Merges, and compares the answer and every octet of both areas: the first with `after`, the second with what it was. */
static void merge_as(const char *what, uint8_t *first, size_t first_len, const uint8_t *second, size_t second_len, uint64_t id,
                     struct saratoga_merged want, const uint8_t *after)
{
    uint8_t *before = lend(second, second_len);
    struct saratoga_merged got = saratoga_merge(first, first_len, second, second_len, id);
    SAME(number);
    SAME(code);
    SAME(edge);
    SAME(complete);
    same_octets(what, first, after, first_len);
    same_octets(what, second, before, second_len);
    free(before);
}

static void accepted(const char *what, uint8_t *first, const uint8_t *second, uint64_t id, uint64_t edge, uint64_t complete,
                     const uint8_t *after)
{
    struct saratoga_merged want = {.edge = edge, .complete = complete};
    merge_as(what, first, LEN, second, LEN, id, want, after);
}

/* Nothing is changed. */
static void refused(const char *what, uint8_t *first, size_t first_len, const uint8_t *second, size_t second_len, uint64_t id,
                    uint64_t number, uint64_t code)
{
    uint8_t *before = lend(first, first_len);
    merge_as(what, first, first_len, second, second_len, id, (struct saratoga_merged){.number = number, .code = code}, before);
    free(before);
}

/* Two plants heard page 611, and each lost something else. */
static void one_page(void)
{
    uint8_t *first = empty(), *second = empty(), *after;
    open_at(first, 0, 7, 2, LENGTH);
    runs_at(first, 0, 2, 0, 1000, 2000);
    stamp_at(first, 0, 1);
    open_at(second, 0, 7, 2, LENGTH);
    runs_at(second, 0, 1, 900, 600, 1);
    stamp_at(second, 0, 2);

    /* 0 to 1,499 and 2,000 to 2,999: the first's stop moves, and nothing else. */
    after = lend(first, LEN);
    put_word(after, stop(0, 0), 1500);
    accepted("a page in two parts", first, second, 7, 3000, 0, after);
    accepted("the same again", first, second, 7, 3000, 0, after);

    /* The rest: one run, and the second's place is no longer used. */
    runs_at(second, 0, 1, 1500, 500, 1);
    put_word(after, stop(0, 0), 3000);
    put_word(after, head(0, COUNT), 1);
    accepted("the whole page", first, second, 7, 3000, 1, after);

    /* The other way round the second becomes whole too, and keeps its own timestamp. */
    memcpy(after, second, LEN);
    put_word(after, start(0, 0), 0);
    put_word(after, stop(0, 0), 3000);
    accepted("the other way round", second, first, 7, 3000, 1, after);
    free(first);
    free(second);
    free(after);
}

/* The first keeps its timestamp, or none, whatever the second keeps; zeros too. */
static void timestamps(void)
{
    int of_first, of_second;
    for (of_first = 0; of_first < 3; of_first++)
        for (of_second = 0; of_second < 3; of_second++) {
            uint8_t *first = empty(), *second = empty(), *after;
            open_at(first, 0, 7, 16, LENGTH);
            open_at(second, 0, 7, 16, LENGTH);
            runs_at(second, 0, 1, 5, 6, 1);
            if (of_first)
                stamp_at(first, 0, of_first == 1 ? 0 : UINT64_MAX);
            if (of_second)
                stamp_at(second, 0, of_second == 1 ? 0 : 77);
            after = lend(first, LEN);
            runs_at(after, 0, 1, 5, 6, 1);
            accepted("timestamps", first, second, 7, 11, 0, after);
            free(first);
            free(second);
            free(after);
        }
}

/* Sixteen open in each, the middle one merged: all others stay, whatever the second holds of them. */
static void others_stay(void)
{
    uint8_t *first = empty(), *second = empty(), *after;
    size_t i;
    for (i = 0; i < 16; i++) {
        open_at(first, i, 10 + i, 4, LENGTH);
        runs_at(first, i, 64, 0, 1, 4);
        open_at(second, i, 10 + i, 4, LENGTH);
        runs_at(second, i, 64, 1, 1, 4);
    }
    after = lend(first, LEN);
    runs_at(after, 8, 64, 0, 2, 4);
    accepted("one of sixteen", first, second, 18, 254, 0, after);
    runs_at(after, 15, 64, 0, 2, 4);
    accepted("the last of sixteen", first, second, 25, 254, 0, after);
    free(first);
    free(second);
    free(after);
}

/* Files of no octets, and transfers of which nothing was received. */
static void nothing_received(void)
{
    uint8_t *first = empty(), *second = empty(), *after;
    open_at(first, 0, 0, 8, 0);
    open_at(first, 1, UINT32_MAX, 8, UINT64_MAX);
    memcpy(second, first, LEN);
    after = lend(first, LEN);
    accepted("an empty file", first, second, 0, 0, 1, after);
    accepted("nothing received", first, second, UINT32_MAX, 0, 0, after);
    runs_at(second, 1, 1, 0, UINT64_MAX, 1);
    runs_at(after, 1, 1, 0, UINT64_MAX, 1);
    accepted("the longest file", first, second, UINT32_MAX, UINT64_MAX, 1, after);
    free(first);
    free(second);
    free(after);
}

/* 64 runs in the joined set are taken, more are not; how many there are on the way doesn't matter. */
static void room(void)
{
    uint8_t *first = empty(), *second = empty(), *after;
    size_t j;
    open_at(first, 0, 7, 2, LENGTH);
    open_at(second, 0, 7, 2, LENGTH);
    runs_at(first, 0, 64, 0, 1, 4);
    runs_at(second, 0, 64, 2, 1, 4);
    refused("128 runs", first, LEN, second, LEN, 7, SARATOGA_REFUSED_RUNS, SARATOGA_CODE_RECEIVER_RESOURCES);
    runs_at(second, 0, 1, 2, 1, 4);
    refused("65 runs", first, LEN, second, LEN, 7, SARATOGA_REFUSED_RUNS, SARATOGA_CODE_RECEIVER_RESOURCES);
    runs_at(first, 0, 63, 0, 1, 4);
    after = lend(first, LEN);
    for (j = 1; j < 63; j++) {
        put_word(after, start(0, j + 1), 4 * j);
        put_word(after, stop(0, j + 1), 4 * j + 1);
    }
    put_word(after, start(0, 1), 2);
    put_word(after, stop(0, 1), 3);
    put_word(after, head(0, COUNT), 64);
    accepted("64 runs", first, second, 7, 249, 0, after);

    /* 40 more between the first ones, and one run over the rest: 64 and 41 are 65 on the way and 1 in the end. */
    runs_at(second, 0, 40, 1, 3, 4);
    put_word(second, start(0, 39), 157);
    put_word(second, stop(0, 39), LENGTH);
    runs_at(first, 0, 64, 0, 1, 4);
    memcpy(after, first, LEN);
    runs_at(after, 0, 1, 0, LENGTH, 1);
    accepted("64 and 40 that are one", first, second, 7, LENGTH, 1, after);
    free(first);
    free(second);
    free(after);
}

/* Each refusal, and those before it. */
static void refusals(void)
{
    uint8_t *first = empty(), *second = empty(), *other = empty();
    open_at(first, 0, 7, 4, LENGTH);
    open_at(second, 0, 7, 4, LENGTH);
    runs_at(first, 0, 64, 0, 1, 4);
    runs_at(second, 0, 64, 2, 1, 4);

    refused("a short first area", first, AREA - 1, second, LEN, 7, SARATOGA_REFUSED_AREA, 0);
    refused("a short second area", first, LEN, second, AREA - 1, 7, SARATOGA_REFUSED_AREA, 0);
    refused("no second area", first, LEN, second, 0, 7, SARATOGA_REFUSED_AREA, 0);
    memcpy(other, second, LEN);
    put_word(other, 0, 17);
    refused("no table in the first", other, LEN, second, LEN, 8, SARATOGA_REFUSED_AREA, 0);
    refused("no table in the second", first, LEN, other, LEN, 8, SARATOGA_REFUSED_AREA, 0);

    /* 12: not open in the first, in the second, in either; an empty second isn't an empty transfer. */
    put_word(other, 0, 0);
    refused("not open in the second", first, LEN, other, LEN, 7, SARATOGA_REFUSED_NOT_OPEN, SARATOGA_CODE_UNKNOWN_ID);
    refused("not open in the first", other, LEN, first, LEN, 7, SARATOGA_REFUSED_NOT_OPEN, SARATOGA_CODE_UNKNOWN_ID);
    refused("open in neither", first, LEN, second, LEN, 8, SARATOGA_REFUSED_NOT_OPEN, SARATOGA_CODE_UNKNOWN_ID);
    refused("an Id over 32 bits", first, LEN, second, LEN, (UINT64_C(1) << 32) + 7, SARATOGA_REFUSED_NOT_OPEN,
            SARATOGA_CODE_UNKNOWN_ID);

    /* 13 before 18 before 16. */
    put_word(second, head(0, WIDTH), 8);
    put_word(second, head(0, SIZE), LENGTH + 1);
    refused("another width and length", first, LEN, second, LEN, 7, SARATOGA_REFUSED_OTHER_WIDTH, SARATOGA_CODE_DESCRIPTORS);
    put_word(second, head(0, WIDTH), 4);
    refused("another length", first, LEN, second, LEN, 7, SARATOGA_REFUSED_OPEN_OTHER, SARATOGA_CODE_DESCRIPTORS);
    put_word(second, head(0, SIZE), LENGTH);
    refused("128 runs", first, LEN, second, LEN, 7, SARATOGA_REFUSED_RUNS, SARATOGA_CODE_RECEIVER_RESOURCES);
    free(first);
    free(second);
    free(other);
}

/* After a merge the area goes on as any other: holes, STATUS and recording are of the joined set. */
static void goes_on(void)
{
    static const uint8_t rest[] = {0x43, 0, 0, 0, 0, 0, 0, 7, 0x00, 0x05, 'a'};
    uint8_t *first = empty(), *second = empty(), out[SARATOGA_STATUS_OCTETS];
    static const uint8_t status[] = {0x44, 0, 0, 0, 0, 0, 0, 7, 0, 5, 0, 10, 0, 5, 0, 6};
    const char *what = "recording after a merge";
    struct saratoga_recorded recorded;
    open_at(first, 0, 7, 2, 10);
    open_at(second, 0, 7, 2, 10);
    runs_at(first, 0, 1, 0, 5, 1);
    runs_at(second, 0, 1, 6, 4, 1);
    saratoga_merge(first, LEN, second, LEN, 7);
    same_hole("a hole after a merge", saratoga_transfer_hole(first, LEN, 7, 0), (struct saratoga_hole){.start = 5, .end = 6});
    same_written("STATUS after a merge", saratoga_write_status(first, LEN, 7, 0, 0, out, sizeof out),
                 (struct saratoga_written){.size = sizeof status});
    same_octets("STATUS after a merge", out, status, sizeof status);
    recorded = saratoga_record(first, LEN, rest, sizeof rest);
    if (recorded.number != 0 || recorded.absorbed != 2 || recorded.complete != 1)
        fail(what, "complete", recorded.complete, 1);
    free(first);
    free(second);
}

int main(void)
{
    one_page();
    timestamps();
    others_stay();
    nothing_received();
    room();
    refusals();
    goes_on();
    return report("ctest merge");
}
