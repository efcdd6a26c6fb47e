/* (B) A receiver in plain C over the lent area of docs/AREA.md, whose used words it judges at each call. */
#include "plain_packet.h"
#include "receivers.h"

/* Where the words of the area stand: heads of five words, two rows of run places for each transfer, and two words of timestamp. */
enum { TRANSFERS = 16, RUNS = 64, HEAD = 5, HEADS = 1, STARTS = 81, STOPS = 1105, STAMPS = 2129 };
enum field { ID, WIDTH, LENGTH, COUNT, STAMPED };

static struct saratoga_opened not_opened(unsigned number)
{
    return (struct saratoga_opened){.number = number, .code = code_of(number)};
}

static struct saratoga_recorded not_recorded(unsigned number)
{
    return (struct saratoga_recorded){.number = number, .code = code_of(number)};
}

static struct saratoga_written not_written(unsigned number)
{
    return (struct saratoga_written){.number = number, .code = code_of(number)};
}

/* The lowest octet first. */
static inline uint64_t word(const uint8_t *area, size_t k)
{
    const uint8_t *at = area + 8 * k;
    return (uint64_t)at[7] << 56 | (uint64_t)at[6] << 48 | (uint64_t)at[5] << 40 | (uint64_t)at[4] << 32 |
           (uint64_t)at[3] << 24 | (uint64_t)at[2] << 16 | (uint64_t)at[1] << 8 | at[0];
}

static inline void put_word(uint8_t *area, size_t k, uint64_t number)
{
    uint8_t *at = area + 8 * k;
    at[0] = (uint8_t)number;
    at[1] = (uint8_t)(number >> 8);
    at[2] = (uint8_t)(number >> 16);
    at[3] = (uint8_t)(number >> 24);
    at[4] = (uint8_t)(number >> 32);
    at[5] = (uint8_t)(number >> 40);
    at[6] = (uint8_t)(number >> 48);
    at[7] = (uint8_t)(number >> 56);
}

static inline uint64_t head(const uint8_t *area, size_t place, enum field field)
{
    return word(area, HEADS + HEAD * place + field);
}

static inline void put_head(uint8_t *area, size_t place, enum field field, uint64_t number)
{
    put_word(area, HEADS + HEAD * place + field, number);
}

static inline const uint8_t *stamp_at(const uint8_t *area, size_t place)
{
    return area + 8 * (STAMPS + 2 * place);
}

static inline void put_stamp(uint8_t *area, size_t place, const uint8_t *octets)
{
    memcpy(area + 8 * (STAMPS + 2 * place), octets, 16);
}

/* Whether the width is 2, 4, 8 or 16, and the length fits it. */
static int length_allowed(uint64_t width, uint64_t length)
{
    return (width == 2 || width == 4 || width == 8 || width == 16) && fits(length, (size_t)width);
}

/* Whether the runs of transfer i stand in order, below its length. */
static int runs_allowed(const uint8_t *area, size_t i, uint64_t count, uint64_t length)
{
    size_t starts = STARTS + RUNS * i, stops = STOPS + RUNS * i, j;
    uint64_t last = 0;
    for (j = 0; j < count; j++) {
        uint64_t start = word(area, starts + j), stop = word(area, stops + j);
        if (start >= stop || stop > length || (j > 0 && start <= last))
            return 0;
        last = stop;
    }
    return 1;
}

/* Whether the area holds a table: the rules of docs/AREA.md. */
static int area_allowed(const uint8_t *area, size_t area_len)
{
    uint64_t open, last = 0;
    size_t i;
    if (area_len < SARATOGA_AREA_OCTETS)
        return 0;
    open = word(area, 0);
    if (open > TRANSFERS)
        return 0;
    for (i = 0; i < open; i++) {
        uint64_t id = head(area, i, ID), length = head(area, i, LENGTH), count = head(area, i, COUNT);
        if (id > UINT32_MAX || (i > 0 && id <= last))
            return 0;
        if (!length_allowed(head(area, i, WIDTH), length) || count > RUNS || head(area, i, STAMPED) > 1)
            return 0;
        if (!runs_allowed(area, i, count, length))
            return 0;
        last = id;
    }
    return 1;
}

/* The place of an Id; the number of open transfers where it isn't open. */
static size_t place_of(const uint8_t *area, uint64_t id)
{
    size_t open = word(area, 0), i;
    for (i = 0; i < open; i++)
        if (head(area, i, ID) == id)
            break;
    return i;
}

static uint64_t edge_at(const uint8_t *area, size_t place)
{
    size_t count = head(area, place, COUNT);
    return count == 0 ? 0 : word(area, STOPS + RUNS * place + count - 1);
}

static uint64_t progress_at(const uint8_t *area, size_t place)
{
    if (head(area, place, COUNT) == 0 || word(area, STARTS + RUNS * place) != 0)
        return 0;
    return word(area, STOPS + RUNS * place);
}

/*
 * Adds the offsets from `from` up to, not including, `to`. Whether there is room; how many runs were absorbed, and whether an
 * offset is new.
 */
static int add_run(uint8_t *area, size_t place, uint64_t from, uint64_t to, uint64_t *absorbed, uint64_t *adds)
{
    size_t count = head(area, place, COUNT), low = 0, high = count, after, gone;
    uint8_t *starts = area + 8 * (STARTS + RUNS * place), *stops = area + 8 * (STOPS + RUNS * place);
    while (low < high) {
        size_t middle = (low + high) / 2;
        if (word(stops, middle) < from)
            low = middle + 1;
        else
            high = middle;
    }
    after = low;
    while (after < count && word(starts, after) <= to)
        after++;
    *absorbed = after - low;
    *adds = low == after || word(starts, low) > from || word(stops, low) < to;
    if (low == after) {
        if (count == RUNS)
            return 0;
        memmove(starts + 8 * (low + 1), starts + 8 * low, 8 * (count - low));
        memmove(stops + 8 * (low + 1), stops + 8 * low, 8 * (count - low));
        put_word(starts, low, from);
        put_word(stops, low, to);
        put_head(area, place, COUNT, count + 1);
        return 1;
    }
    if (word(starts, low) > from)
        put_word(starts, low, from);
    if (word(stops, after - 1) > to)
        to = word(stops, after - 1);
    put_word(stops, low, to);
    gone = after - low - 1;
    if (gone > 0) {
        memmove(starts + 8 * (low + 1), starts + 8 * after, 8 * (count - after));
        memmove(stops + 8 * (low + 1), stops + 8 * after, 8 * (count - after));
        put_head(area, place, COUNT, count - gone);
    }
    return 1;
}

/* Copies the runs of the transfer at one place to another, as many as its head says, and the timestamp if there is one. */
static void copy_runs(uint8_t *area, size_t to, size_t from)
{
    size_t count = head(area, from, COUNT);
    memcpy(area + 8 * (STARTS + RUNS * to), area + 8 * (STARTS + RUNS * from), 8 * count);
    memcpy(area + 8 * (STOPS + RUNS * to), area + 8 * (STOPS + RUNS * from), 8 * count);
    if (head(area, from, STAMPED))
        put_stamp(area, to, stamp_at(area, from));
}

/* Moves the transfers from a place on to one place after it. */
static void move_up(uint8_t *area, size_t place, size_t open)
{
    uint8_t *at = area + 8 * (HEADS + HEAD * place);
    size_t i;
    for (i = open; i > place; i--)
        copy_runs(area, i, i - 1);
    memmove(at + 8 * HEAD, at, 8 * HEAD * (open - place));
}

/* Moves the transfers behind a place to one place before it. */
static void move_down(uint8_t *area, size_t place, size_t open)
{
    uint8_t *at = area + 8 * (HEADS + HEAD * place);
    size_t i;
    for (i = place; i + 1 < open; i++)
        copy_runs(area, i, i + 1);
    memmove(at, at + 8 * HEAD, 8 * HEAD * (open - place - 1));
}

struct saratoga_done area_fresh(uint8_t *area, size_t area_len)
{
    if (area_len < SARATOGA_AREA_OCTETS)
        return (struct saratoga_done){20, code_of(20)};
    memset(area, 0, SARATOGA_AREA_OCTETS);
    return (struct saratoga_done){0, 0};
}

struct saratoga_opened area_open(uint8_t *area, size_t area_len, const uint8_t *packet, size_t packet_len)
{
    struct plain_metadata m;
    unsigned refused;
    size_t place, open;
    if (!area_allowed(area, area_len))
        return not_opened(22);
    refused = read_metadata(packet, packet_len, &m);
    if (refused)
        return not_opened(refused);
    open = word(area, 0);
    place = place_of(area, m.id);
    if (place < open) {
        if (head(area, place, WIDTH) != m.width || head(area, place, LENGTH) != m.size)
            return not_opened(18);
        return (struct saratoga_opened){
            .edge = edge_at(area, place), .complete = m.size <= progress_at(area, place), .already_open = 1};
    }
    if (has_crc32c(&m))
        return not_opened(23);
    if (open == TRANSFERS)
        return not_opened(17);
    for (place = 0; place < open && head(area, place, ID) < m.id; place++)
        ;
    move_up(area, place, open);
    put_head(area, place, ID, m.id);
    put_head(area, place, WIDTH, m.width);
    put_head(area, place, LENGTH, m.size);
    put_head(area, place, COUNT, 0);
    put_head(area, place, STAMPED, 0);
    put_word(area, 0, open + 1);
    return (struct saratoga_opened){.complete = m.size == 0};
}

struct saratoga_recorded area_record(uint8_t *area, size_t area_len, const uint8_t *packet, size_t packet_len)
{
    struct plain_data d;
    unsigned refused;
    size_t place;
    uint64_t length, absorbed, adds;
    if (!area_allowed(area, area_len))
        return not_recorded(22);
    refused = read_data(packet, packet_len, &d);
    if (refused)
        return not_recorded(refused);
    place = place_of(area, d.id);
    if (place == word(area, 0))
        return not_recorded(12);
    length = head(area, place, LENGTH);
    refused = data_misfit(&d, head(area, place, WIDTH), length);
    if (refused)
        return not_recorded(refused);
    if (!add_run(area, place, d.offset, d.offset + d.payload, &absorbed, &adds))
        return not_recorded(16);
    if (d.timestamp) {
        put_head(area, place, STAMPED, 1);
        put_stamp(area, place, packet + 8);
    }
    return (struct saratoga_recorded){.edge = edge_at(area, place),
                                      .complete = length <= progress_at(area, place),
                                      .absorbed = absorbed,
                                      .adds = adds};
}

/*
 * Joins the runs of the two places in `starts` and `stops`, which have room for RUNS. How many there are; RUNS + 1 where they are more.
 */
static size_t join_runs(const uint8_t *first, size_t one, const uint8_t *second, size_t two, uint64_t *starts, uint64_t *stops)
{
    size_t left = head(first, one, COUNT), right = head(second, two, COUNT), i = 0, j = 0, count = 0;
    size_t at = RUNS * one, other = RUNS * two;
    while (i < left || j < right) {
        uint64_t start, stop;
        if (j == right || (i < left && word(first, STARTS + at + i) <= word(second, STARTS + other + j))) {
            start = word(first, STARTS + at + i);
            stop = word(first, STOPS + at + i++);
        } else {
            start = word(second, STARTS + other + j);
            stop = word(second, STOPS + other + j++);
        }
        if (count > 0 && start <= stops[count - 1]) {
            if (stop > stops[count - 1])
                stops[count - 1] = stop;
        } else if (count == RUNS) {
            return RUNS + 1;
        } else {
            starts[count] = start;
            stops[count++] = stop;
        }
    }
    return count;
}

static struct saratoga_merged not_merged(unsigned number)
{
    return (struct saratoga_merged){.number = number, .code = code_of(number)};
}

struct saratoga_merged area_merge(uint8_t *first, size_t first_len, const uint8_t *second, size_t second_len, uint64_t id)
{
    uint64_t starts[RUNS], stops[RUNS];
    size_t one, two, count, i;
    if (!area_allowed(first, first_len) || !area_allowed(second, second_len))
        return not_merged(22);
    one = place_of(first, id);
    two = place_of(second, id);
    if (one == word(first, 0) || two == word(second, 0))
        return not_merged(12);
    if (head(first, one, WIDTH) != head(second, two, WIDTH))
        return not_merged(13);
    if (head(first, one, LENGTH) != head(second, two, LENGTH))
        return not_merged(18);
    count = join_runs(first, one, second, two, starts, stops);
    if (count > RUNS)
        return not_merged(16);
    for (i = 0; i < count; i++) {
        put_word(first, STARTS + RUNS * one + i, starts[i]);
        put_word(first, STOPS + RUNS * one + i, stops[i]);
    }
    put_head(first, one, COUNT, count);
    return (struct saratoga_merged){.edge = edge_at(first, one),
                                    .complete = head(first, one, LENGTH) <= progress_at(first, one)};
}

struct saratoga_done area_close(uint8_t *area, size_t area_len, uint64_t id)
{
    size_t place, open;
    if (!area_allowed(area, area_len))
        return (struct saratoga_done){22, code_of(22)};
    open = word(area, 0);
    place = place_of(area, id);
    if (place == open)
        return (struct saratoga_done){12, code_of(12)};
    move_down(area, place, open);
    put_word(area, 0, open - 1);
    return (struct saratoga_done){0, 0};
}

struct saratoga_written area_write_status(const uint8_t *area, size_t area_len, uint64_t id, uint64_t skip,
                                          uint64_t unasked, uint8_t *out, size_t out_len)
{
    size_t place, d, count, stamp, holes, room, some, j;
    const uint8_t *starts, *stops;
    uint8_t *at;
    if (!area_allowed(area, area_len))
        return not_written(22);
    place = place_of(area, id);
    if (place == word(area, 0))
        return not_written(12);
    d = head(area, place, WIDTH);
    count = head(area, place, COUNT);
    stamp = head(area, place, STAMPED) ? 16 : 0;
    starts = area + 8 * (STARTS + RUNS * place);
    stops = area + 8 * (STOPS + RUNS * place);
    holes = count == 0 ? 0 : count - (word(starts, 0) == 0);
    if (skip != 0 && skip >= holes)
        return not_written(19);
    if (out_len < 8 + stamp + 2 * d + (holes > 0 ? 2 * d : 0))
        return not_written(20);
    some = holes - (size_t)skip;
    room = (out_len - 8 - stamp - 2 * d) / (2 * d);
    if (room < some)
        some = room;
    at = put_status_start(
        out, status_flags(d, stamp, some < holes, unasked != 0 || head(area, place, LENGTH) <= progress_at(area, place)),
        id, stamp_at(area, place));
    put_number(at, d, progress_at(area, place));
    put_number(at + d, d, in_response_to(head(area, place, LENGTH), progress_at(area, place), edge_at(area, place)));
    /* Hole j ends where run `next` starts. */
    at += 2 * d;
    for (j = 0; j < some; j++) {
        size_t next = count - holes + (size_t)skip + j;
        put_number(at, d, next == 0 ? 0 : word(stops, next - 1));
        put_number(at + d, d, word(starts, next));
        at += 2 * d;
    }
    return (struct saratoga_written){.size = 8 + stamp + 2 * d + 2 * d * some};
}
