/* (B) over marks: a receiver in plain C over the lent marks of saratoga.h, which it walks and judges at each call. */
#include "plain_packet.h"
#include "receivers.h"

enum { OCTETS = SARATOGA_BITMAP_OCTETS, MARKS = 8 * OCTETS, LONGEST = SARATOGA_BITMAP_LONGEST, RUNS = 64 };

/* The runs of the marks, lowest first. */
struct runs {
    size_t count;
    uint64_t starts[RUNS], stops[RUNS];
};

static struct saratoga_bitmap_opened not_opened(unsigned number)
{
    return (struct saratoga_bitmap_opened){.number = number, .code = code_of(number)};
}

static struct saratoga_bitmap_recorded not_recorded(unsigned number)
{
    return (struct saratoga_bitmap_recorded){.number = number, .code = code_of(number)};
}

static struct saratoga_written not_written(unsigned number)
{
    return (struct saratoga_written){.number = number, .code = code_of(number)};
}

/* The first octet from octet `k` on that has a mark as wanted, OCTETS where there is none; whole words are skipped. */
static size_t first_octet(const uint8_t *marks, size_t k, uint8_t blank)
{
    uint64_t word, blanks = blank == 0 ? 0 : UINT64_MAX;
    for (; k % 8 != 0; k++)
        if (marks[k] != blank)
            return k;
    for (; k < OCTETS; k += 8) {
        memcpy(&word, marks + k, 8);
        if (word != blanks)
            break;
    }
    while (k < OCTETS && marks[k] == blank)
        k++;
    return k;
}

/* The first offset from `from` on whose mark is as wanted, MARKS where there is none. */
static size_t first(const uint8_t *marks, size_t from, int wanted)
{
    const uint8_t blank = wanted ? 0x00 : 0xFF;
    size_t n;
    for (n = from; n % 8 != 0; n++)
        if (((marks[n / 8] & 0x80 >> n % 8) != 0) == wanted)
            return n;
    n = 8 * first_octet(marks, n / 8, blank);
    while (n < MARKS && ((marks[n / 8] & 0x80 >> n % 8) != 0) != wanted)
        n++;
    return n;
}

/* Whether there are at most 64 runs. */
static int find_runs(const uint8_t *marks, struct runs *runs)
{
    size_t start = first(marks, 0, 1);
    for (runs->count = 0; start < MARKS; runs->count++) {
        size_t stop = first(marks, start, 0);
        if (runs->count == RUNS)
            return 0;
        runs->starts[runs->count] = start;
        runs->stops[runs->count] = stop;
        start = first(marks, stop, 1);
    }
    return 1;
}

static uint64_t edge_of(const struct runs *runs)
{
    return runs->count == 0 ? 0 : runs->stops[runs->count - 1];
}

static uint64_t progress_of(const struct runs *runs)
{
    return runs->count == 0 || runs->starts[0] != 0 ? 0 : runs->stops[0];
}

/* Refusal 20 or 22, or 0 and the runs. */
static unsigned judge(struct saratoga_bitmap transfer, const uint8_t *marks, size_t marks_len, struct runs *runs)
{
    uint64_t width = transfer.width;
    if (marks_len < OCTETS)
        return 20;
    if ((width != 2 && width != 4 && width != 8 && width != 16) || transfer.length > LONGEST)
        return 22;
    return !find_runs(marks, runs) || edge_of(runs) > transfer.length ? 22 : 0;
}

/* The transfer that is handed back: with the packet's timestamp, or the one that it has; else with zeros for it. */
static struct saratoga_bitmap handed_back(struct saratoga_bitmap transfer, const struct plain_data *d, const uint8_t *packet)
{
    struct saratoga_bitmap back = {.id = transfer.id, .width = transfer.width, .length = transfer.length};
    if (d->timestamp || transfer.stamped) {
        back.stamped = 1;
        back.stamp_high = d->timestamp ? number64(packet + 8) : transfer.stamp_high;
        back.stamp_low = d->timestamp ? number64(packet + 16) : transfer.stamp_low;
    }
    return back;
}

/* Sets the marks from `from` up to, not including, `to`: one by one up to a whole octet, and behind the last one. */
static void set_marks(uint8_t *marks, size_t from, size_t to)
{
    for (; from < to && from % 8 != 0; from++)
        marks[from / 8] |= (uint8_t)(0x80 >> from % 8);
    memset(marks + from / 8, 0xFF, (to - from) / 8);
    for (from += (to - from) / 8 * 8; from < to; from++)
        marks[from / 8] |= (uint8_t)(0x80 >> from % 8);
}

struct saratoga_bitmap_opened marks_open(uint8_t *marks, size_t marks_len, const uint8_t *packet, size_t packet_len)
{
    struct plain_metadata m;
    unsigned refused;
    if (marks_len < OCTETS)
        return not_opened(20);
    refused = read_metadata(packet, packet_len, &m);
    if (refused)
        return not_opened(refused);
    if (m.size > LONGEST)
        return not_opened(9);
    if (has_crc32c(&m))
        return not_opened(23);
    memset(marks, 0, OCTETS);
    return (struct saratoga_bitmap_opened){.complete = m.size == 0, .transfer = {.id = m.id, .width = m.width, .length = m.size}};
}

struct saratoga_bitmap_recorded marks_record(struct saratoga_bitmap transfer, uint8_t *marks, size_t marks_len,
                                             const uint8_t *packet, size_t packet_len)
{
    struct plain_data d;
    struct runs runs;
    size_t low = 0, after;
    uint64_t from, to;
    unsigned refused = judge(transfer, marks, marks_len, &runs);
    if (refused)
        return not_recorded(refused);
    refused = read_data(packet, packet_len, &d);
    if (refused)
        return not_recorded(refused);
    if (d.id != transfer.id)
        return not_recorded(12);
    refused = data_misfit(&d, transfer.width, transfer.length);
    if (refused)
        return not_recorded(refused);
    from = d.offset;
    to = from + d.payload;
    while (low < runs.count && runs.stops[low] < from)
        low++;
    for (after = low; after < runs.count && runs.starts[after] <= to; after++)
        ;
    if (low == after && runs.count == RUNS)
        return not_recorded(16);
    set_marks(marks, from, to);
    return (struct saratoga_bitmap_recorded){.edge = to > edge_of(&runs) ? to : edge_of(&runs),
                                             .complete = transfer.length <= first(marks, 0, 0),
                                             .absorbed = after - low,
                                             .adds = low == after || runs.starts[low] > from || runs.stops[low] < to,
                                             .transfer = handed_back(transfer, &d, packet)};
}

struct saratoga_written marks_status(struct saratoga_bitmap transfer, const uint8_t *marks, size_t marks_len,
                                     uint64_t skip, uint64_t unasked, uint8_t *out, size_t out_len)
{
    struct runs runs;
    size_t d = transfer.width, stamp = transfer.stamped ? 16 : 0, holes, room, some, j;
    uint64_t progress;
    uint8_t *at, octets[16];
    unsigned refused = judge(transfer, marks, marks_len, &runs);
    if (refused)
        return not_written(refused);
    if (transfer.id > UINT32_MAX)
        return not_written(12);
    holes = runs.count == 0 ? 0 : runs.count - (runs.starts[0] == 0);
    if (skip != 0 && skip >= holes)
        return not_written(19);
    if (out_len < 8 + stamp + 2 * d + (holes > 0 ? 2 * d : 0))
        return not_written(20);
    some = holes - (size_t)skip;
    room = (out_len - 8 - stamp - 2 * d) / (2 * d);
    if (room < some)
        some = room;
    progress = progress_of(&runs);
    put_number64(octets, transfer.stamp_high);
    put_number64(octets + 8, transfer.stamp_low);
    at = put_status_start(out, status_flags(d, stamp, some < holes, unasked != 0 || transfer.length <= progress), transfer.id,
                          octets);
    put_number(at, d, progress);
    put_number(at + d, d, in_response_to(transfer.length, progress, edge_of(&runs)));
    /* Hole j ends where run `next` starts. */
    at += 2 * d;
    for (j = 0; j < some; j++) {
        size_t next = runs.count - holes + (size_t)skip + j;
        put_number(at, d, next == 0 ? 0 : runs.stops[next - 1]);
        put_number(at + d, d, runs.starts[next]);
        at += 2 * d;
    }
    return (struct saratoga_written){.size = 8 + stamp + 2 * d + 2 * d * some};
}
