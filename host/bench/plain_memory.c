/* (A) A receiver in plain C that keeps its table in its own memory and trusts it. */
#include <stdlib.h>

#include "plain_packet.h"
#include "receivers.h"

enum { TRANSFERS = 16, RUNS = 64 };

struct run {
    uint64_t start, stop;
};

struct transfer {
    uint64_t id, length;
    size_t width, count;
    size_t stamp; /* octets of timestamp: 16, or none */
    uint8_t timestamp[16];
    struct run runs[RUNS];
};

struct memory_table {
    size_t count;
    struct transfer transfers[TRANSFERS];
};

static struct saratoga_opened not_opened(unsigned number)
{
    return (struct saratoga_opened){.number = number, .code = code_of(number)};
}

static struct saratoga_recorded not_recorded(unsigned number)
{
    return (struct saratoga_recorded){.number = number, .code = code_of(number)};
}

static struct saratoga_written not_written(unsigned number)
{
    return (struct saratoga_written){.number = number, .code = code_of(number)};
}

/* The place of an Id; the number of open transfers where it isn't open. */
static size_t place_of(const struct memory_table *table, uint64_t id)
{
    size_t i;
    for (i = 0; i < table->count; i++)
        if (table->transfers[i].id == id)
            break;
    return i;
}

static uint64_t edge_of(const struct transfer *t)
{
    return t->count == 0 ? 0 : t->runs[t->count - 1].stop;
}

static uint64_t progress_of(const struct transfer *t)
{
    return t->count == 0 || t->runs[0].start != 0 ? 0 : t->runs[0].stop;
}

/* The first run that stops at `from` or after it. */
static size_t first_from(const struct transfer *t, uint64_t from)
{
    size_t low = 0, high = t->count;
    while (low < high) {
        size_t middle = (low + high) / 2;
        if (t->runs[middle].stop < from)
            low = middle + 1;
        else
            high = middle;
    }
    return low;
}

/*
 * Adds the offsets from `from` up to, not including, `to`. Whether there is room; how many runs were absorbed, and whether an
 * offset is new.
 */
static int add_run(struct transfer *t, uint64_t from, uint64_t to, uint64_t *absorbed, uint64_t *adds)
{
    size_t first = first_from(t, from), after = first;
    while (after < t->count && t->runs[after].start <= to)
        after++;
    *absorbed = after - first;
    *adds = first == after || t->runs[first].start > from || t->runs[first].stop < to;
    if (first == after) {
        if (t->count == RUNS)
            return 0;
        memmove(&t->runs[first + 1], &t->runs[first], (t->count - first) * sizeof t->runs[0]);
        t->runs[first] = (struct run){from, to};
        t->count++;
        return 1;
    }
    if (t->runs[first].start > from)
        t->runs[first].start = from;
    if (t->runs[after - 1].stop > to)
        to = t->runs[after - 1].stop;
    t->runs[first].stop = to;
    memmove(&t->runs[first + 1], &t->runs[after], (t->count - after) * sizeof t->runs[0]);
    t->count -= after - first - 1;
    return 1;
}

struct memory_table *memory_new(void)
{
    return calloc(1, sizeof(struct memory_table));
}

void memory_copy(struct memory_table *to, const struct memory_table *from)
{
    *to = *from;
}

void memory_fresh(struct memory_table *table)
{
    table->count = 0;
}

struct saratoga_opened memory_open(struct memory_table *table, const uint8_t *packet, size_t packet_len)
{
    struct plain_metadata m;
    unsigned refused = read_metadata(packet, packet_len, &m);
    struct transfer *t;
    size_t place;
    if (refused)
        return not_opened(refused);
    place = place_of(table, m.id);
    t = &table->transfers[place];
    if (place < table->count) {
        if (t->width != m.width || t->length != m.size)
            return not_opened(18);
        return (struct saratoga_opened){
            .edge = edge_of(t), .complete = t->length <= progress_of(t), .already_open = 1};
    }
    if (has_crc32c(&m))
        return not_opened(23);
    if (place == TRANSFERS)
        return not_opened(17);
    t->id = m.id;
    t->width = m.width;
    t->length = m.size;
    t->count = 0;
    t->stamp = 0;
    table->count++;
    return (struct saratoga_opened){.complete = m.size == 0};
}

struct saratoga_recorded memory_record(struct memory_table *table, const uint8_t *packet, size_t packet_len)
{
    struct plain_data d;
    unsigned refused = read_data(packet, packet_len, &d);
    struct transfer *t;
    size_t place;
    uint64_t absorbed, adds;
    if (refused)
        return not_recorded(refused);
    place = place_of(table, d.id);
    if (place == table->count)
        return not_recorded(12);
    t = &table->transfers[place];
    refused = data_misfit(&d, t->width, t->length);
    if (refused)
        return not_recorded(refused);
    if (!add_run(t, d.offset, d.offset + d.payload, &absorbed, &adds))
        return not_recorded(16);
    if (d.timestamp) {
        t->stamp = 16;
        memcpy(t->timestamp, packet + 8, 16);
    }
    return (struct saratoga_recorded){
        .edge = edge_of(t), .complete = t->length <= progress_of(t), .absorbed = absorbed, .adds = adds};
}

struct saratoga_done memory_close(struct memory_table *table, uint64_t id)
{
    size_t place = place_of(table, id);
    if (place == table->count)
        return (struct saratoga_done){12, code_of(12)};
    table->count--;
    if (place < table->count) {
        struct transfer *to = &table->transfers[place], *last = &table->transfers[table->count];
        memcpy(to, last, offsetof(struct transfer, runs) + last->count * sizeof last->runs[0]);
    }
    return (struct saratoga_done){0, 0};
}

struct saratoga_written memory_write_status(const struct memory_table *table, uint64_t id, uint64_t skip,
                                            uint64_t unasked, uint8_t *out, size_t out_len)
{
    size_t place = place_of(table, id), d, holes, room, some, j;
    const struct transfer *t = &table->transfers[place];
    uint64_t last;
    uint8_t *at;
    if (place == table->count)
        return not_written(12);
    d = t->width;
    holes = t->count == 0 ? 0 : t->count - (t->runs[0].start == 0);
    if (skip != 0 && skip >= holes)
        return not_written(19);
    if (out_len < 8 + t->stamp + 2 * d + (holes > 0 ? 2 * d : 0))
        return not_written(20);
    some = holes - (size_t)skip;
    room = (out_len - 8 - t->stamp - 2 * d) / (2 * d);
    if (room < some)
        some = room;
    at = put_status_start(out, status_flags(d, t->stamp, some < holes, unasked != 0 || t->length <= progress_of(t)), id,
                          t->timestamp);
    put_number(at, d, progress_of(t));
    put_number(at + d, d, in_response_to(t->length, progress_of(t), edge_of(t)));
    /* Hole j ends where run `next` starts. */
    at += 2 * d;
    for (j = 0; j < some; j++) {
        size_t next = t->count - holes + (size_t)skip + j;
        last = next == 0 ? 0 : t->runs[next - 1].stop;
        put_number(at, d, last);
        put_number(at + d, d, t->runs[next].start);
        at += 2 * d;
    }
    return (struct saratoga_written){.size = 8 + t->stamp + 2 * d + 2 * d * some};
}
