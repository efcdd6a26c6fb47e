/*
 * Why a list does not pass, in words: the first piece, in the list's order, that does not rise, is empty or too long, lies in
 * no one hole or overlaps the one before; and where there is none, the first octets of a hole that no piece has.
 */
#include "plan.h"

#include <stdio.h>

static struct saratoga_hole hole_at(const struct status *status, uint64_t index)
{
    return saratoga_hole_at(status->octets, &status->read, index);
}

/* How many holes start at `offset` or before it: the last of them is the one hole that an octet there can lie in. */
static uint64_t holes_up_to(const struct status *status, uint64_t offset)
{
    uint64_t low = 0, high = status->read.hole_count;
    while (low < high) {
        uint64_t middle = low + (high - low) / 2;
        if (hole_at(status, middle).start <= offset)
            low = middle + 1;
        else
            high = middle;
    }
    return low;
}

static void print_piece(const struct list *list, size_t i)
{
    printf("piece %lu (line %lu), %llu %llu, ", (unsigned long)(i + 1), (unsigned long)list->lines[i],
           (unsigned long long)list->pieces[i].offset, (unsigned long long)list->pieces[i].length);
}

/* Whether the piece lies in no one hole, and if so in which way. */
static int outside(const struct status *status, const struct list *list, size_t i)
{
    struct saratoga_piece piece = list->pieces[i];
    uint64_t before = holes_up_to(status, piece.offset);
    struct saratoga_hole hole = {0, 0, 0, 0};
    if (before > 0)
        hole = hole_at(status, before - 1);
    if (before > 0 && piece.offset < hole.end && piece.length <= hole.end - piece.offset)
        return 0;
    print_piece(list, i);
    if (before == 0 || piece.offset >= hole.end)
        printf("lies in no listed hole: it starts in none\n");
    else
        printf("lies in no one listed hole: it goes past the end of the hole from %llu to %llu\n",
               (unsigned long long)hole.start, (unsigned long long)hole.end);
    return 1;
}

/* Whether this piece is bad, where all before it are good; says how. */
static int bad_piece(const struct status *status, uint64_t largest, const struct list *list, size_t i)
{
    struct saratoga_piece piece = list->pieces[i], before = {0, 0};
    if (i > 0)
        before = list->pieces[i - 1];
    if (i > 0 && piece.offset <= before.offset) {
        print_piece(list, i);
        printf("does not rise: the one before starts at %llu\n", (unsigned long long)before.offset);
    } else if (piece.length == 0) {
        print_piece(list, i);
        printf("is empty\n");
    } else if (piece.length > largest) {
        print_piece(list, i);
        printf("is longer than %llu octets\n", (unsigned long long)largest);
    } else if (outside(status, list, i)) {
        return 1;
    } else if (i > 0 && piece.offset < before.offset + before.length) {
        print_piece(list, i);
        printf("overlaps the one before, which ends at %llu\n", (unsigned long long)(before.offset + before.length));
    } else {
        return 0;
    }
    return 1;
}

/* Where every piece is good, the first octets of a hole that none has. */
static int uncovered(const struct status *status, const struct list *list)
{
    size_t next = 0;
    uint64_t i;
    for (i = 0; i < status->read.hole_count; i++) {
        struct saratoga_hole hole = hole_at(status, i);
        uint64_t at = hole.start;
        for (; next < list->count && list->pieces[next].offset == at && at < hole.end; next++)
            at += list->pieces[next].length;
        if (at < hole.end) {
            uint64_t end = hole.end;
            if (next < list->count && list->pieces[next].offset < end)
                end = list->pieces[next].offset;
            printf("the hole from %llu to %llu is not covered: no piece has the octets from %llu to %llu\n",
                   (unsigned long long)hole.start, (unsigned long long)hole.end, (unsigned long long)at,
                   (unsigned long long)end);
            return 1;
        }
    }
    return 0;
}

void print_reason(const struct status *status, uint64_t largest, const struct list *list)
{
    size_t i;
    for (i = 0; i < list->count; i++)
        if (bad_piece(status, largest, list, i))
            return;
    if (!uncovered(status, list))
        printf("no condition is seen to be broken; please report this\n");
}
