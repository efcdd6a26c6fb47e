/* Pages, chance, and the link that loses, repeats and reorders. */
#include <stdio.h>
#include <stdlib.h>
#include <string.h>

#include "rounds.h"

enum { MOST_PACKETS = 200 };

uint8_t area[SARATOGA_AREA_OCTETS];
struct page pages[MOST_PAGES];
size_t page_count;

static uint64_t state;

void seed_chance(uint64_t seed)
{
    state = seed;
}

/* splitmix64 */
uint64_t chance(void)
{
    uint64_t z = state += UINT64_C(0x9E3779B97F4A7C15);
    z = (z ^ z >> 30) * UINT64_C(0xBF58476D1CE4E5B9);
    z = (z ^ z >> 27) * UINT64_C(0x94D049BB133111EB);
    return z ^ z >> 31;
}

uint64_t below(uint64_t limit)
{
    return chance() % limit;
}

void must(int so, const char *what)
{
    if (!so) {
        printf("FAILED: %s\n", what);
        exit(1);
    }
}

uint64_t width_flags(const struct page *page)
{
    return page->width == 2 ? SARATOGA_WIDTH_16 : page->width == 4 ? SARATOGA_WIDTH_32
         : page->width == 8 ? SARATOGA_WIDTH_64 : SARATOGA_WIDTH_128;
}

/* Memory of exactly so many octets, so that a sanitizer sees any access outside. */
void *lend(size_t size)
{
    void *lent = malloc(size > 0 ? size : 1);
    must(lent != NULL, "no memory");
    return lent;
}

uint64_t comes(struct page *page, uint64_t flags, uint64_t offset, uint64_t length)
{
    uint8_t stamp[16] = {0};
    size_t i, stamp_len = flags & SARATOGA_FLAG_TIMESTAMP ? sizeof stamp : 0;
    size_t size = (size_t)(8 + stamp_len + page->width + length);
    uint8_t *packet = lend(size);
    struct saratoga_written written;
    struct saratoga_recorded recorded;
    for (i = 0; i < stamp_len; i++)
        stamp[i] = (uint8_t)chance();
    written = saratoga_write_data(width_flags(page) | flags, page->id, stamp, stamp_len, offset, page->sent + offset,
                                  (size_t)length, packet, size);
    must(written.number == 0 && written.size == size, "DATA must be written");
    recorded = saratoga_record(area, sizeof area, packet, size);
    if (recorded.number == 0)
        memcpy(page->disk + offset, page->sent + offset, (size_t)length);
    free(packet);
    return recorded.number;
}

static void open_page(struct page *page, uint64_t id, uint64_t least)
{
    uint8_t packet[64];
    struct saratoga_written written;
    size_t i;
    page->id = id;
    page->width = (uint64_t)2 << below(4);
    page->length = least + below(below(2) ? 300 : MOST_LENGTH - least);
    for (i = 0; i < page->length; i++)
        page->sent[i] = (uint8_t)chance();
    memset(page->disk, 0, sizeof page->disk);
    written = saratoga_write_metadata(width_flags(page), page->id, NULL, 0, SARATOGA_PROPERTIES_WIDTH_32, page->length, 0, 0,
                                      (const uint8_t *)"page", 4, packet, sizeof packet);
    must(written.number == 0, "METADATA must be written");
    must(saratoga_open(area, sizeof area, packet, (size_t)written.size).number == 0, "a page must be opened");
}

void open_pages(uint64_t least)
{
    uint64_t first = below(UINT64_C(1) << 32);
    size_t i;
    must(saratoga_fresh(area, sizeof area).number == 0, "the area must be made fresh");
    page_count = (size_t)below(MOST_PAGES) + 1;
    for (i = 0; i < page_count; i++)
        open_page(&pages[i], (first + i * UINT64_C(0x40000001)) & 0xFFFFFFFF, i == 0 ? least : 1);
}

/* The packets of a page in the order in which they come: some not at all, some again, some late. */
static size_t order_of(size_t packets, size_t *order)
{
    uint64_t loss = below(100), repeat = below(30), late = below(3) == 0 ? packets : below(8) + 1;
    size_t i, j, held, count = 0;
    for (i = 0; i < packets; i++) {
        if (below(100) >= loss)
            order[count++] = i;
        if (below(100) < repeat)
            order[count++] = i;
    }
    for (i = 0; i < count; i++) {
        j = i + (size_t)below(late);
        if (j < count) {
            held = order[i];
            order[i] = order[j];
            order[j] = held;
        }
    }
    return count;
}

void lossy_link(void)
{
    size_t order[MOST_PAGES][2 * MOST_PACKETS], count[MOST_PAGES], done[MOST_PAGES] = {0}, i, left = 0;
    uint64_t size[MOST_PAGES];
    for (i = 0; i < page_count; i++) {
        size_t packets = (size_t)below(MOST_PACKETS) + 1;
        size[i] = (pages[i].length + packets - 1) / packets;
        left += count[i] = order_of((size_t)((pages[i].length + size[i] - 1) / size[i]), order[i]);
    }
    for (; left > 0; left--) {
        struct page *page;
        uint64_t offset, length, flags = below(4) == 0 ? SARATOGA_FLAG_TIMESTAMP : 0, number;
        for (i = (size_t)below(page_count); done[i] == count[i];)
            i = (i + 1) % page_count;
        page = &pages[i];
        offset = order[i][done[i]++] * size[i];
        length = page->length - offset < size[i] ? page->length - offset : size[i];
        if (offset + length == page->length && below(2))
            flags |= SARATOGA_FLAG_END_OF_DATA;
        number = comes(page, flags, offset, length);
        must(number == 0 || number == SARATOGA_REFUSED_RUNS, "DATA must be recorded, or refused for room alone");
    }
}

void scatter(uint64_t runs, uint64_t gap)
{
    uint64_t i;
    for (i = 0; i < runs; i++) {
        uint64_t flags = below(4) == 0 ? SARATOGA_FLAG_TIMESTAMP : 0;
        must(comes(&pages[0], flags, i * (gap + 1) + gap, 1) == 0, "a run must be recorded");
    }
}
