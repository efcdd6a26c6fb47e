/* What a STATUS says of the receiver, and the round of repairs that answers it. The plan is the library's. */
#include "send.h"

#include <string.h>

uint64_t width_flags(uint64_t width)
{
    return width == 2   ? SARATOGA_WIDTH_16
           : width == 4 ? SARATOGA_WIDTH_32
           : width == 8 ? SARATOGA_WIDTH_64
                        : SARATOGA_WIDTH_128;
}

/* The edge of a complete transfer is one more than In-Response-To, and then Progress has it. */
static uint64_t edge_of(const struct saratoga_packet *read)
{
    return read->progress > read->in_response_to ? read->progress : read->in_response_to;
}

struct report report_of(const uint8_t *packet, const struct saratoga_packet *read)
{
    struct report report = {read->progress, edge_of(read), 0, read->hole_count, 0};
    uint64_t missing = 0, i;
    for (i = 0; i < read->hole_count; i++) {
        struct saratoga_hole hole = saratoga_hole_at(packet, read, i);
        missing += hole.end - hole.start;
    }
    report.lists_all = (read->flags & SARATOGA_FLAG_INCOMPLETE) == 0;
    if (report.lists_all)
        report.received = report.edge - missing;
    return report;
}

int is_older(const struct report *report, const struct report *than)
{
    return report->progress < than->progress || report->edge < than->edge ||
           (report->lists_all && report->received < than->received);
}

int has_more(const struct report *report, const struct report *than)
{
    return report->progress > than->progress || report->edge > than->edge ||
           (report->lists_all && report->received > than->received);
}

void raise_to(struct report *best, const struct report *report)
{
    if (report->progress > best->progress)
        best->progress = report->progress;
    if (report->edge > best->edge)
        best->edge = report->edge;
    if (report->received > best->received)
        best->received = report->received;
    best->holes = report->holes;
}

int says_received(const uint8_t *packet, const struct saratoga_packet *read, struct saratoga_piece piece)
{
    uint64_t i;
    if (piece.offset + piece.length > edge_of(read))
        return 0;
    for (i = 0; i < read->hole_count; i++) {
        struct saratoga_hole hole = saratoga_hole_at(packet, read, i);
        if (hole.start < piece.offset + piece.length && piece.offset < hole.end)
            return 0;
    }
    return 1;
}

static void put_number(uint8_t *at, uint64_t width, uint64_t number)
{
    uint64_t i;
    for (i = width; i > 0; i--, number >>= 8)
        at[i - 1] = (uint8_t)number;
}

/*
 * Cuts the hole list after `most` pieces, or after the last whole hole before. A hole may be as long as the file: its plan would
 * be as long as the file too, and a round that long would be lost to a receiver that can't take any more runs.
 */
static size_t cut_holes(uint8_t *packet, const struct saratoga_packet *read, uint64_t payload, uint64_t most)
{
    uint64_t pieces = 0, i;
    for (i = 0; i < read->hole_count; i++) {
        struct saratoga_hole hole = saratoga_hole_at(packet, read, i);
        uint64_t more = (hole.end - hole.start - 1) / payload + 1;
        if (more > most - pieces)
            break;
        pieces += more;
    }
    if (i < read->hole_count)
        packet[1] |= SARATOGA_FLAG_INCOMPLETE >> 16;
    if (i < read->hole_count && i == 0) {
        struct saratoga_hole hole = saratoga_hole_at(packet, read, 0);
        put_number(packet + read->holes_at + read->width, read->width, hole.start + most * payload);
        i = 1;
    }
    return (size_t)(read->holes_at + 2 * read->width * i);
}

/* Takes the first hole from the list. */
static void leave_first_out(uint8_t *packet, struct saratoga_packet *list)
{
    uint8_t *first = packet + list->holes_at;
    list->hole_count--;
    memmove(first, first + 2 * list->width, (size_t)(2 * list->width * list->hole_count));
    packet[1] |= SARATOGA_FLAG_INCOMPLETE >> 16;
}

size_t plan_round(uint8_t *packet, const struct saratoga_packet *read, size_t packet_len, uint64_t payload,
                  struct saratoga_piece *pieces, size_t most, int no_room)
{
    struct saratoga_packet list = *read;
    struct saratoga_planned planned;
    int is_full = no_room || list.hole_count >= SARATOGA_RUNS;
    if (list.hole_count > 1 && is_full && saratoga_hole_at(packet, &list, 0).start == 0)
        leave_first_out(packet, &list);
    if (list.hole_count > 0)
        packet_len = cut_holes(packet, &list, payload, most);
    planned = saratoga_plan(packet, packet_len, payload, pieces, most);
    return planned.number == 0 ? (size_t)planned.count : 0;
}
