/*
 * The story of page 611, told by the library.
 *
 * A page of 3,000 octets is sent as three packets of 1,000. The first comes twice, the second never comes, the third
 * comes once. That makes 3,000 octets in all: as many as the page has. A receiver that adds up octets calls the page
 * complete, and the plate is burned with a gap in it. Here the library must say that the page is not complete, and
 * which octets are missing. Then the missing packet comes, and the page must be complete.
 *
 * What the program prints is what the library answered. Where that isn't as told here, the program says so and ends
 * with status 1.
 */
#include <stdio.h>
#include <stdlib.h>
#include <string.h>

#include "saratoga.h"

enum { LENGTH = 3000, PART = 1000, ID = 611 };

static uint8_t sent[LENGTH];                /* the page as the composing room sends it */
static uint8_t disk[LENGTH];                /* the page as it stands on our disk, zeros where nothing came */
static uint8_t area[SARATOGA_AREA_OCTETS];  /* where the library keeps its table between calls */
static unsigned octets_that_came;           /* what the old receiver counted */

/* Ends the story where the library answers otherwise. */
static void must(int so, const char *what)
{
    if (!so) {
        printf("FAILED: %s\n", what);
        exit(1);
    }
}

/* The packet that holds the octets from `first` on comes off the dish. Says whether the page is complete now. */
static int comes(unsigned first)
{
    uint8_t packet[10 + PART] = {0x43, 0, 0, 0, 0, 0, ID >> 8, ID & 0xFF, 0, 0}; /* DATA, the page's Id, the offset */
    struct saratoga_packet read;
    struct saratoga_recorded recorded;
    packet[8] = (uint8_t)(first >> 8);
    packet[9] = (uint8_t)first;
    memcpy(packet + 10, sent + first, PART);

    /* Read it, write its payload to disk, and only then record it. */
    read = saratoga_read(packet, sizeof packet);
    must(read.number == 0 && read.offset == first && read.payload_len == PART, "the packet must be read");
    memcpy(disk + read.offset, packet + read.payload_at, read.payload_len);
    recorded = saratoga_record(area, sizeof area, packet, sizeof packet);
    must(recorded.number == 0, "the packet must be recorded");
    octets_that_came += PART;
    printf("  Octets %u to %u came. The library says: %s.\n", first, first + PART - 1,
           recorded.complete ? "complete" : "not complete");
    return recorded.complete != 0;
}

/* The STATUS that goes back to the sender, as he reads it, and the first hole that it names. */
static struct saratoga_packet status(struct saratoga_hole *hole)
{
    uint8_t packet[100];
    struct saratoga_written written = saratoga_write_status(area, sizeof area, ID, 0, 0, packet, sizeof packet);
    struct saratoga_packet read;
    must(written.number == 0, "the STATUS must be written");
    read = saratoga_read(packet, written.size);
    must(read.number == 0 && read.type == SARATOGA_TYPE_STATUS, "the STATUS must be read");
    if (read.hole_count > 0)
        *hole = saratoga_read_hole(packet, written.size, 0);
    return read;
}

int main(void)
{
    /* METADATA: the page's Id, no checksum, 3,000 octets (0x0BB8), no times, and its name. */
    static const uint8_t metadata[] = {0x42, 0,   0,   0,   0,   0,   ID >> 8, ID & 0xFF, 0,   0, 0x0B, 0xB8,
                                       0,    0,   0,   0,   0,   0,   0,       0,         'p', 'a', 'g',  'e',
                                       ' ',  '6', '1', '1', 0};
    struct saratoga_opened opened;
    struct saratoga_packet told;
    struct saratoga_hole hole = {0, 0, 0, 0};
    unsigned i;
    for (i = 0; i < LENGTH; i++)
        sent[i] = (uint8_t)('a' + i % 26);

    must(saratoga_fresh(area, sizeof area).number == 0, "the area must be made fresh");
    opened = saratoga_open(area, sizeof area, metadata, sizeof metadata);
    must(opened.number == 0 && opened.complete == 0, "the page must be opened, with nothing received");
    printf("Page 611 is announced: %d octets, in three packets of %d.\n", LENGTH, PART);

    must(!comes(0), "a third of the page is not complete");
    printf("The same packet comes a second time.\n");
    must(!comes(0), "the same third twice is not complete");
    printf("The next packet never comes. The last one does.\n");
    must(!comes(2000), "the page is not complete while octets 1000 to 1999 are missing");

    must(octets_that_came == LENGTH, "the sum of octets must equal the length");
    printf("Now %u octets came, and the page has %d. By that sum the plate was burned.\n", octets_that_came, LENGTH);
    must(saratoga_find(area, sizeof area, ID).received == 2 * PART, "the library must count an octet that came twice once");
    printf("The library counts an octet that came twice once: %d are received.\n", 2 * PART);
    told = status(&hole);
    must(told.hole_count == 1 && hole.number == 0 && hole.start == 1000 && hole.end == 2000,
         "the STATUS must name the one hole, from 1000 to 2000");
    must(told.progress == 1000 && told.in_response_to == LENGTH, "the STATUS must go to the edge");
    must(memcmp(disk, sent, LENGTH) != 0, "the page on disk is not the page that was sent");
    printf("The library says: not complete. It names one hole, from %llu to %llu: octets %llu to %llu are missing.\n",
           (unsigned long long)hole.start, (unsigned long long)hole.end, (unsigned long long)hole.start,
           (unsigned long long)hole.end - 1);

    printf("The sender reads that, and sends the missing packet again.\n");
    must(comes(1000), "the page must be complete");
    told = status(&hole);
    must(told.hole_count == 0 && told.flags == SARATOGA_FLAG_UNASKED, "the STATUS must name no hole, and have bit 15");
    must(told.progress == LENGTH && told.in_response_to == LENGTH - 1, "the STATUS must point to the last octet");
    must(memcmp(disk, sent, LENGTH) == 0, "the page on disk must be the page that was sent");
    must(saratoga_find(area, sizeof area, ID).received == LENGTH, "every octet must be received");
    printf("No hole is left, and the STATUS points to octet %llu, the last.\n", (unsigned long long)told.in_response_to);
    printf("The page on disk is the page that was sent: page 611 may go to plate.\n");
    return 0;
}
