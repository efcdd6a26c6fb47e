/*
 * One good round (R17.1 to R17.5), over the library: pages are sent over a link that loses, repeats and reorders, and then
 * one of them gets a round by the plan with no loss. Afterwards it must have no hole, and be complete where its last octet
 * had come.
 *
 *     rounds SEED COUNT        so many rounds; ends with 1 and says why where one of them fails
 *     rounds --self-check      rounds that are spoiled, one thing at a time: each must be found to fail
 */
#include <stdio.h>
#include <stdlib.h>
#include <string.h>

#include "rounds.h"

enum { MOST_STATUS = 8 + 16 + 2 * 16 + 64 * 2 * 16 };

/* What is done otherwise than R17.2 says. */
enum spoiled {
    NOTHING,
    PIECE_DROPPED,
    ANOTHER_ORDER,
    SIXTY_FOUR_RUNS,
    ONE_OCTET_LESS_ROOM,
    TIMESTAMP_SET,
    END_OF_DATA_SET,
    ANOTHER_PAGE_BETWEEN,
    WAYS
};
/* Each way in words, and what must be found. */
static const struct {
    const char *what, *found;
} ways[] = {
    {"", ""},
    {"a piece is dropped", "there is a hole"},
    {"the pieces come in another order", "a piece is refused"},
    {"there are 64 runs", "a piece is refused"},
    {"the buffer of the STATUS is an octet shorter", "there is a hole"},
    {"the pieces have a timestamp", "the timestamp is another"},
    {"the pieces have end of data set", "a piece is refused"},
    {"a packet of another page comes between", "another page is touched"},
};

/* Bits of DATA that the round leaves free: all but width, kind, timestamp and end of data. */
#define FREE_FLAGS                                                                                         \
    (UINT64_C(0xFFFFFF) &                                                                                  \
     ~(SARATOGA_WIDTH_MASK | UINT64_C(0x300000) | SARATOGA_FLAG_TIMESTAMP | SARATOGA_FLAG_END_OF_DATA))

static unsigned long completed, unfinished, at_63, recorded_pieces, with_stamp;

/* What is known of an open page: its listing, and its STATUS. */
struct seen {
    struct saratoga_listed listed;
    uint8_t status[MOST_STATUS];
    uint64_t size;
};

static uint64_t holes_of(const struct page *page)
{
    uint64_t i = 0;
    while (saratoga_transfer_hole(area, sizeof area, page->id, i).number == 0)
        i++;
    return i;
}

static void look(const struct page *page, struct seen *seen)
{
    struct saratoga_written written;
    memset(seen, 0, sizeof *seen);
    seen->listed = saratoga_find(area, sizeof area, page->id);
    written = saratoga_write_status(area, sizeof area, page->id, 0, 0, seen->status, sizeof seen->status);
    must(written.number == 0, "the STATUS of an open page must be written");
    seen->size = written.size;
}

/* The STATUS, in a buffer with room for every hole and no octet more, or with some more; and its plan. Why not, or NULL. */
static const char *plan_of(const struct page *page, uint64_t m, enum spoiled spoiled, struct saratoga_piece **pieces,
                           size_t *count)
{
    uint64_t holes = holes_of(page), stamp = saratoga_find(area, sizeof area, page->id).stamped ? 16 : 0;
    uint64_t size = 8 + stamp + 2 * page->width + 2 * page->width * holes;
    size_t room = (size_t)(size + (spoiled == NOTHING && below(2) ? below(100) : 0) - (spoiled == ONE_OCTET_LESS_ROOM));
    uint8_t *status = lend(room);
    struct saratoga_written written = saratoga_write_status(area, sizeof area, page->id, 0, below(2), status, room);
    struct saratoga_packet read = saratoga_read(status, (size_t)written.size);
    struct saratoga_planned planned = saratoga_plan_count(status, (size_t)written.size, m);
    const char *why = NULL;
    *count = (size_t)planned.count;
    *pieces = lend(*count * sizeof **pieces);
    if (written.number != 0 || (spoiled == NOTHING && written.size != size))
        why = "the STATUS is not written with every hole";
    else if (read.number != 0 || (spoiled == NOTHING && (read.hole_count != holes || read.flags & SARATOGA_FLAG_INCOMPLETE)))
        why = "the STATUS does not read with every hole";
    else if (planned.number != 0 || saratoga_plan(status, (size_t)written.size, m, *pieces, *count).number != 0)
        why = "the plan is refused";
    else if (saratoga_check_plan(status, (size_t)written.size, m, *pieces, *count).passes != 1)
        why = "the plan does not pass";
    free(status);
    return why;
}

static void shuffle(struct saratoga_piece *pieces, size_t count)
{
    size_t i, j;
    for (i = count; i > 1; i--) {
        struct saratoga_piece held = pieces[i - 1];
        j = (size_t)below(i);
        pieces[i - 1] = pieces[j];
        pieces[j] = held;
    }
}

/* The pieces as DATA, in the plan's order. Why not, or NULL. */
static const char *record_all(struct page *page, enum spoiled spoiled, const struct saratoga_piece *pieces, size_t count)
{
    size_t i, dropped = spoiled == PIECE_DROPPED ? (size_t)below(count) : count;
    for (i = 0; i < count; i++) {
        uint64_t flags = chance() & FREE_FLAGS;
        if (i == dropped)
            continue;
        if (spoiled == TIMESTAMP_SET)
            flags |= SARATOGA_FLAG_TIMESTAMP;
        if (spoiled == END_OF_DATA_SET)
            flags |= SARATOGA_FLAG_END_OF_DATA;
        if (spoiled == ANOTHER_PAGE_BETWEEN && i == count / 2)
            comes(&pages[1], SARATOGA_FLAG_TIMESTAMP, pages[1].length - 1, 1);
        if (comes(page, flags, pieces[i].offset, pieces[i].length) != 0)
            return "a piece is refused";
        recorded_pieces++;
    }
    return NULL;
}

static int same(const struct seen *a, const struct seen *b)
{
    return memcmp(&a->listed, &b->listed, sizeof a->listed) == 0 && a->size == b->size &&
           memcmp(a->status, b->status, (size_t)a->size) == 0;
}

/* What must hold after a round for the first page. Why it does not, or NULL. */
static const char *after(const struct seen before[])
{
    struct page *page = &pages[0];
    struct seen now;
    size_t i;
    for (i = 1; i < page_count; i++) {
        look(&pages[i], &now);
        if (!same(&now, &before[i]))
            return "another page is touched";
    }
    look(page, &now);
    if (saratoga_transfer_hole(area, sizeof area, page->id, 0).number != SARATOGA_REFUSED_INDEX)
        return "there is a hole";
    if (now.listed.edge != before[0].listed.edge)
        return "the edge is another";
    if (now.listed.runs != (now.listed.edge > 0) || now.listed.received != now.listed.edge)
        return "not all below the edge is received";
    if (now.listed.complete != (now.listed.edge == page->length))
        return "complete, or not, otherwise than by the edge";
    if (now.listed.stamped != before[0].listed.stamped ||
        (now.listed.stamped && memcmp(now.status + 8, before[0].status + 8, 16) != 0))
        return "the timestamp is another";
    if (memcmp(page->disk, page->sent, (size_t)now.listed.edge) != 0)
        return "the disk has other octets";
    return NULL;
}

/* What lies above the edge is sent in the ordinary way. Then every page is complete. */
static const char *finish(struct page *page)
{
    uint64_t at = saratoga_find(area, sizeof area, page->id).edge;
    if (at == page->length)
        completed++;
    else
        unfinished++;
    for (; at < page->length; at += 1000)
        if (comes(page, 0, at, page->length - at < 1000 ? page->length - at : 1000) != 0)
            return "what lies above the edge is refused";
    if (!saratoga_find(area, sizeof area, page->id).complete || memcmp(page->disk, page->sent, (size_t)page->length) != 0)
        return "the page is not complete in the end";
    return NULL;
}

/* A round for the first page, on the table as it is. Why it fails, or NULL. */
static const char *one_round(uint64_t m, enum spoiled spoiled)
{
    struct saratoga_piece *pieces;
    struct seen before[MOST_PAGES];
    size_t i, count;
    const char *why = plan_of(&pages[0], m, spoiled, &pieces, &count);
    for (i = 0; i < page_count; i++)
        look(&pages[i], &before[i]);
    at_63 += before[0].listed.runs == MOST_RUNS;
    with_stamp += before[0].listed.stamped != 0;
    if (why == NULL && spoiled == ANOTHER_ORDER)
        shuffle(pieces, count);
    if (why == NULL)
        why = record_all(&pages[0], spoiled, pieces, count);
    free(pieces);
    return why != NULL ? why : after(before);
}

/* The first page comes down to 63 runs: the octets of its lowest hole come. */
static void few_runs(struct page *page)
{
    while (saratoga_find(area, sizeof area, page->id).runs > MOST_RUNS) {
        struct saratoga_hole hole = saratoga_transfer_hole(area, sizeof area, page->id, 0);
        must(comes(page, 0, hole.start, hole.end - hole.start) == 0, "the octets of a hole must be recorded");
    }
}

/* A round from any state, or from just 63 runs with octet 0 missing. */
static const char *any_round(void)
{
    const char *why;
    uint64_t m = below(2) ? below(65000) + 1 : below(100) + 1;
    if (below(4) == 0) {
        uint64_t gap = below(5) + 1;
        open_pages(MOST_RUNS * (gap + 1));
        scatter(MOST_RUNS, gap);
    } else {
        open_pages(1);
        lossy_link();
        few_runs(&pages[0]);
    }
    why = one_round(m, NOTHING);
    return why != NULL ? why : finish(&pages[0]);
}

static int self_check(void)
{
    int spoiled, i;
    for (spoiled = PIECE_DROPPED; spoiled < WAYS; spoiled++) {
        for (i = 0; i < 100; i++) {
            uint64_t runs = spoiled == SIXTY_FOUR_RUNS ? 64 : MOST_RUNS;
            const char *found;
            seed_chance((uint64_t)(1000 * spoiled + i));
            do
                open_pages(5 * runs);
            while (page_count < 2);
            scatter(runs, 3);
            found = one_round(1, (enum spoiled)spoiled);
            if (found == NULL || strcmp(found, ways[spoiled].found) != 0) {
                printf("FAILED: %s (%d), and what is found is: %s\n", ways[spoiled].what, i, found == NULL ? "nothing" : found);
                return 1;
            }
        }
    }
    printf("rounds: %d ways to spoil a round are found, each 100 times\n", WAYS - 1);
    return 0;
}

int main(int argc, char **argv)
{
    uint64_t seed, count, i;
    if (argc == 2 && strcmp(argv[1], "--self-check") == 0)
        return self_check();
    if (argc != 3) {
        fprintf(stderr, "usage: rounds SEED COUNT | rounds --self-check\n");
        return 2;
    }
    seed = strtoull(argv[1], NULL, 10);
    count = strtoull(argv[2], NULL, 10);
    for (i = 0; i < count; i++) {
        const char *why;
        seed_chance(seed + i);
        why = any_round();
        if (why != NULL) {
            printf("FAILED: seed %llu: %s\n", (unsigned long long)(seed + i), why);
            return 1;
        }
    }
    printf("rounds: %llu over a lossy link, none refused in %lu pieces: %lu pages complete, %lu all but their end;"
           " %lu began with 63 runs, %lu with a timestamp\n",
           (unsigned long long)count, recorded_pieces, completed, unfinished, at_63, with_stamp);
    return 0;
}
