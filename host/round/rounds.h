/*
 * What the two files of the test share: pages that are sent, the receiver's table and disk, and a link between them that
 * loses, repeats and reorders.
 */
#ifndef ROUNDS_H
#define ROUNDS_H

#include <stddef.h>
#include <stdint.h>

#include "saratoga.h"

enum { MOST_PAGES = 4, MOST_LENGTH = 60000, MOST_RUNS = 63 };

/* A page that is sent, and what stands of it on the receiver's disk. */
struct page {
    uint64_t id, width, length;
    uint8_t sent[MOST_LENGTH], disk[MOST_LENGTH];
};

extern uint8_t area[SARATOGA_AREA_OCTETS];
extern struct page pages[MOST_PAGES];
extern size_t page_count;

/* Chance, from a seed: any number, and one below a limit. */
void seed_chance(uint64_t seed);
uint64_t chance(void);
uint64_t below(uint64_t limit);

/* Ends the test where the test itself is wrong, or the library refuses what it must take before a round. */
void must(int so, const char *what);

uint64_t width_flags(const struct page *page);
void *lend(size_t size);

/* A packet comes: its payload goes to disk where it is recorded. Its refusal, or 0. */
uint64_t comes(struct page *page, uint64_t flags, uint64_t offset, uint64_t length);

/* A fresh table with some pages open, of any width, the first of at least `least` octets. */
void open_pages(uint64_t least);

/* What comes of all pages over the lossy link. */
void lossy_link(void);

/* So many runs of one octet of the first page, with `gap` octets before each. */
void scatter(uint64_t runs, uint64_t gap);

#endif
