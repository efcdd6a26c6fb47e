/*
 * The area's file: what the last sync saved. A head, then the engine's snapshot, in numbers of 8 octets with the lowest first:
 *
 *     octets  0 to 15   "saratoga-area 3" and a newline: the layout's number goes up with every change of it
 *            16 to 31   the MD5 of all that follows: a file that isn't whole is never used
 *            32 to 39   the number of the last sync
 *            40 to 47   a file number above every one that was used
 *            48 on      the snapshot: the area of docs/AREA.md, then 16 slots of 12 numbers
 */
#include "link.h"

#include <errno.h>
#include <fcntl.h>
#include <string.h>
#include <unistd.h>

#define AREA_MAGIC "saratoga-area "
#define AREA_LAYOUT 3
#define MAGIC_OCTETS 16
#define AREA_WORDS 2161
#define SLOT_WORDS 12
#define LAYOUT_1_OCTETS 16904      /* of an area without timestamps, and so of its file */

static const char magic[] = AREA_MAGIC "3\n";

static void put_word(uint8_t *at, uint64_t value)
{
    for (size_t i = 0; i < 8; i++)
        at[i] = (uint8_t)(value >> 8 * i);
}

static uint64_t word(const uint8_t *octets, size_t n)
{
    uint64_t value = 0;
    for (size_t i = 8; i > 0; i--)
        value = value << 8 | octets[8 * n + i - 1];
    return value;
}

static void digest_of(uint8_t out[SARATOGA_DIGEST_OCTETS], const uint8_t *octets, size_t count)
{
    uint8_t md5[SARATOGA_MD5_OCTETS];
    saratoga_md5_begin(md5, sizeof md5);
    saratoga_md5_add(md5, sizeof md5, octets, count);
    saratoga_md5_end(md5, sizeof md5, out, SARATOGA_DIGEST_OCTETS);
}

/* Replaces the area's file. Gives -1 with errno. */
int write_area(const struct area *area)
{
    uint8_t file[AREA_FILE_OCTETS];
    memcpy(file, magic, MAGIC_OCTETS);
    put_word(file + 32, area->sync);
    put_word(file + 40, area->next);
    memcpy(file + AREA_HEAD_OCTETS, area->snapshot, sizeof area->snapshot);
    digest_of(file + MAGIC_OCTETS, file + 32, sizeof file - 32);
    return replace_file("area", file, sizeof file);
}

/* The layout that the file of an area has, by its head; 0 where it is no area's. */
static unsigned layout_of(const uint8_t *file, size_t have)
{
    const size_t length = sizeof AREA_MAGIC - 1;
    unsigned layout = 0;
    if (have < length || memcmp(file, AREA_MAGIC, length) != 0) /* layout 1 has no head: its length, and a number of transfers */
        return have == LAYOUT_1_OCTETS && file[0] <= SARATOGA_TRANSFERS && memcmp(file + 1, "\0\0\0\0\0\0", 7) == 0;
    for (size_t i = length; i < have && i < length + 9 && file[i] >= '0' && file[i] <= '9'; i++)
        layout = 10 * layout + (unsigned)(file[i] - '0');
    return layout;
}

static size_t read_file(int fd, uint8_t *out, size_t room)
{
    size_t have = 0;
    for (ssize_t done; have < room && (done = read(fd, out + have, room - have)) != 0;) {
        if (done < 0 && errno != EINTR)
            die("%s/area: can't be read: %s", options.directory, strerror(errno));
        have += done > 0 ? (size_t)done : 0;
    }
    close(fd);
    return have;
}

static int is_whole(const uint8_t *file, size_t have)
{
    uint8_t digest[SARATOGA_DIGEST_OCTETS];
    if (have != AREA_FILE_OCTETS || memcmp(file, magic, MAGIC_OCTETS) != 0)
        return 0;
    digest_of(digest, file + 32, AREA_FILE_OCTETS - 32);
    return memcmp(digest, file + MAGIC_OCTETS, sizeof digest) == 0;
}

/* The area on disk. Gives 0 where there is none. One that can't be used ends the program: nothing in the directory is touched. */
int read_area(struct area *out)
{
    static uint8_t file[AREA_FILE_OCTETS + 1];
    int fd = open_file("area", O_RDONLY);
    if (fd < 0 && errno == ENOENT)
        return 0;
    if (fd < 0)
        die("%s/area: can't be opened: %s", options.directory, strerror(errno));
    size_t have = read_file(fd, file, sizeof file);
    unsigned layout = layout_of(file, have);
    if (layout != 0 && layout != AREA_LAYOUT)
        die("%s/area: has layout %u, and this program reads layout %d; nothing was touched. With the version that wrote it receive "
            "the rest or close its transfers, then remove area; or move area and the .part files away to begin anew",
            options.directory, layout, AREA_LAYOUT);
    if (!is_whole(file, have))
        die("%s/area: isn't whole: its octets aren't those that were saved; nothing was touched. Put back a copy of the "
            "whole directory, or move area and the .part files away to begin anew",
            options.directory);
    out->sync = word(file, 4);
    out->next = word(file, 5);
    memcpy(out->snapshot, file + AREA_HEAD_OCTETS, sizeof out->snapshot);
    if (saratoga_transfer(out->snapshot, SARATOGA_AREA_OCTETS, 0).number == SARATOGA_REFUSED_AREA)
        die("%s/area: holds no transfer table; nothing was touched. Move area and the .part files away to begin anew",
            options.directory);
    return 1;
}

/* What a snapshot's slot of an Id says. Gives 0 where the Id isn't open in it. */
int slot_of(const uint8_t *snapshot, uint64_t id, struct slot *out)
{
    uint64_t count = word(snapshot, 0);
    for (size_t i = 0; i < count && i < SARATOGA_TRANSFERS; i++) {
        if (word(snapshot, 1 + 5 * i) == id) {
            const uint8_t *at = snapshot + 8 * (AREA_WORDS + SLOT_WORDS * i);
            *out = (struct slot){.file = word(at, 0),
                                 .owner = {word(at, 1), word(at, 2), word(at, 3)},
                                 .named = word(at, 6),
                                 .reported = word(at, 7),
                                 .due = word(at, 8),
                                 .heard = word(at, 10)};
            return 1;
        }
    }
    return 0;
}
