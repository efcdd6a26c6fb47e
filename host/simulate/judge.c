/*
 * The judge: the history of a world, and what must hold of it (docs/RULES.md, R19.14 to R19.17). It hears the calls of the shell and their
 * answers, sees packets arrive, what is done to the disk, STATUS and reports; of the engine's state it knows nothing.
 */
#include "simulate.h"

#include <string.h>

/* METADATA that opened an Id with a file. Octets are below 64: a word has those that packets of its owner brought at an offset. */
struct opening {
    uint64_t file, id, length;
    uint8_t metadata[MOST_METADATA];
    size_t metadata_len;
    struct page *page; /* NULL where the METADATA came with errors */
    uint64_t brought[MOST_LENGTH];
    uint8_t is_told[MOST_LENGTH], told[MOST_LENGTH];
    int is_reported, is_spoilt;
};

/* Which Ids are open, for which file, whose they are, which offsets were stored, and whether the page was reported. */
struct entry {
    int is_open;
    uint64_t id, file;
    struct address owner;
    uint8_t is_stored[MOST_LENGTH];
    int is_reported;
};
struct map {
    struct entry entries[SARATOGA_TRANSFERS];
};

const struct engine *tried_engine;
static struct opening openings[MOST_FILES];
static size_t opening_count;
static struct map map_now, map_pending, map_synced, map_saved[MOST_VERSIONS];
/* the offsets that a saved snapshot has as received */
static uint8_t saved_has[MOST_VERSIONS][SARATOGA_TRANSFERS][MOST_LENGTH];
static uint64_t sync_under_way;
/* of the packet at hand: a file of which it brings other octets than were told; whether it was taken; whether a write failed, or the page waited
 * for its report */
static uint64_t differs_in;
static int differs, is_taken, has_failed, was_busy;

void judge_clear(void)
{
    opening_count = 0;
    memset(&map_now, 0, sizeof map_now);
    map_pending = map_synced = map_now;
    sync_under_way = 0;
}

static struct opening *find_opening(uint64_t file)
{
    size_t i;
    for (i = opening_count; i > 0; i--)
        if (openings[i - 1].file == file)
            return &openings[i - 1];
    return NULL;
}

static struct entry *find_entry(struct map *map, uint64_t id)
{
    int i;
    for (i = 0; i < SARATOGA_TRANSFERS; i++)
        if (map->entries[i].is_open && map->entries[i].id == id)
            return &map->entries[i];
    return NULL;
}

static void remove_entry(uint64_t id)
{
    struct entry *entry = find_entry(&map_now, id);
    if (entry != NULL)
        entry->is_open = 0;
}

static int is_same_address(const struct address *a, const struct address *b)
{
    return a->high == b->high && a->low == b->low && a->port == b->port;
}

/* ---- octets: safe, of their owner, and the same for ever */

static void check_octets(const char *rule, struct opening *opening, const struct file *file, const uint8_t *offsets, const char *what)
{
    int16_t octets[MOST_LENGTH];
    uint64_t o;
    disk_safe_octets(file, octets);
    for (o = 0; o < opening->length; o++) {
        if (offsets != NULL && !offsets[o])
            continue;
        if (octets[o] < 0)
            violated(rule, "%s: octet %d of file %d is not on disk for good", what, (int)o, (int)file->number);
        if (!(opening->brought[o] >> octets[o] & 1))
            violated(rule, "%s: octet %d of file %d is none that its owner sent", what, (int)o, (int)file->number);
        if (opening->is_told[o] && opening->told[o] != octets[o])
            violated(rule, "%s: octet %d of file %d was another one when it was told", what, (int)o, (int)file->number);
    }
}

static void check_parts(const char *rule, const struct file *file, int is_named, const char *what)
{
    if (file == NULL || !disk_safe_part(file, MADE) || !disk_safe_part(file, META))
        violated(rule, "%s: a file or its METADATA is not on disk for good", what);
    if (is_named && !disk_safe_part(file, NAMED))
        violated(rule, "%s: the name of file %d is not on disk for good", what, (int)file->number);
}

static void tell_octets(struct opening *opening, const struct file *file, const uint8_t *offsets)
{
    uint64_t o;
    for (o = 0; o < opening->length; o++)
        if (offsets == NULL || offsets[o]) {
            opening->is_told[o] = 1;
            opening->told[o] = file->safe[o];
        }
}

/* ---- what a STATUS says */

static void received_of(const struct saratoga_packet *read, const uint8_t *packet, uint8_t *offsets)
{
    uint64_t i, edge = read->progress > read->in_response_to ? read->progress : read->in_response_to;
    memset(offsets, 0, MOST_LENGTH);
    memset(offsets, 1, (size_t)edge);
    for (i = 0; i < read->hole_count; i++) {
        struct saratoga_hole hole = saratoga_hole_at(packet, read, i);
        memset(offsets + hole.start, 0, (size_t)(hole.end - hole.start));
    }
}

/* A snapshot that may be the saved one from now on has what was told. */
static void check_told_kept(const struct opening *opening, const uint8_t *offsets, const uint8_t *has)
{
    uint64_t o;
    for (o = 0; o < opening->length; o++)
        if ((offsets == NULL ? opening->is_told[o] : offsets[o]) && !has[o])
            violated("R19.15", "octet %d of file %d was told as received, and a restart would take it back", (int)o,
                     (int)opening->file);
}

void judge_status(const struct address *to, const uint8_t *packet, size_t size)
{
    struct saratoga_packet read = saratoga_read(packet, size);
    struct entry *entry = find_entry(&map_synced, read.id), *other;
    uint8_t offsets[MOST_LENGTH];
    struct opening *opening;
    int i;
    if (read.number != 0 || read.status != 0)
        return;
    if (entry == NULL)
        violated("R19.8", "STATUS of an Id that was not open in any good sync");
    if (!is_same_address(&entry->owner, to))
        violated("R19.8", "STATUS to somebody else than the owner");
    opening = find_opening(entry->file);
    received_of(&read, packet, offsets);
    check_parts("R19.15", disk_find(entry->file), 0, "STATUS");
    check_octets("R19.15", opening, disk_find(entry->file), offsets, "STATUS");
    check_told_kept(opening, NULL, offsets);
    for (i = 0; i < MOST_VERSIONS; i++)
        if (disk_may_be_saved(i) && (other = find_entry(&map_saved[i], read.id)) != NULL && other->file == entry->file)
            check_told_kept(opening, offsets, saved_has[i][other - map_saved[i].entries]);
    tell_octets(opening, disk_find(entry->file), offsets);
    counted[TOLD]++;
}

/* ---- the saved snapshot */

static void check_saved(int version)
{
    int i;
    for (i = 0; i < SARATOGA_TRANSFERS; i++) {
        const struct entry *entry = &map_saved[version].entries[i];
        const struct file *file = entry->is_open ? disk_find(entry->file) : NULL;
        if (!entry->is_open)
            continue;
        check_parts("R19.16", file, 0, "saved snapshot");
        check_octets("R19.16", find_opening(entry->file), file, saved_has[version][i], "saved snapshot");
        check_told_kept(find_opening(entry->file), NULL, saved_has[version][i]);
    }
}

/* What a snapshot holds is asked of an engine that is started from it, on the side. */
void judge_saved(int version)
{
    static uint8_t aside[SARATOGA_ENGINE_STATE];
    uint8_t out[SARATOGA_STATUS_OCTETS];
    const struct version *saved = &disk_versions[version];
    int i;
    map_saved[version] = map_pending;
    if (tried_engine->start(aside, sizeof aside, saved->octets, sizeof saved->octets, saved->number, 0).number != 0)
        violated("R19.16", "the saved snapshot is none");
    for (i = 0; i < SARATOGA_TRANSFERS; i++) {
        const struct entry *entry = &map_pending.entries[i];
        const struct opening *opening = entry->is_open ? find_opening(entry->file) : NULL;
        struct saratoga_letter letter;
        struct saratoga_packet read;
        if (opening == NULL)
            continue;
        if (tried_engine->meet(aside, sizeof aside, opening->metadata, opening->metadata_len).file != entry->file)
            violated("R19.16", "the saved snapshot lacks an Id, or has another file for it");
        letter = tried_engine->tell(aside, sizeof aside, entry->id, out, sizeof out);
        read = saratoga_read(out, (size_t)letter.size);
        received_of(&read, out, saved_has[version][i]);
    }
    for (i = 0; i < SARATOGA_TRANSFERS; i++)
        if (map_now.entries[i].is_open && find_entry(&map_pending, map_now.entries[i].id) == NULL &&
            tried_engine->tell(aside, sizeof aside, map_now.entries[i].id, out, sizeof out).number == 0)
            violated("R19.16", "the saved snapshot has an Id that was opened after its sync began");
    check_saved(version);
}

static void check_not_older(uint64_t sync)
{
    int i, count = 0;
    for (i = 0; i < MOST_VERSIONS; i++)
        if (disk_may_be_saved(i)) {
            count++;
            if (disk_versions[i].number < sync)
                violated("R19.15", "sync %d is called good, and a crash now would bring an older snapshot back", (int)sync);
        }
    if (count == 0)
        violated("R19.15", "sync %d is called good, and nothing is saved", (int)sync);
}

void judge_crash(void)
{
    const struct version *saved = disk_saved();
    size_t i;
    if (saved != NULL && !saved->is_forced)
        violated("R19.16", "the saved snapshot was not forced to disk, and a crash tore it");
    if (saved != NULL)
        check_saved((int)(saved - disk_versions));
    for (i = 0; i < opening_count; i++) {
        const struct file *file = disk_find(openings[i].file);
        if (!file->has_safe[ASIDE])
            check_octets("R19.15", &openings[i], file, openings[i].is_told, "after a crash");
        if (openings[i].is_reported)
            check_parts("R19.14", file, 1, "reported page after a crash");
    }
}

/* A page that its sender was told is complete was reported, or is still open to be; or it was spoilt, which is counted. */
void judge_end(void)
{
    size_t i;
    for (i = 0; i < opening_count; i++) {
        const struct opening *opening = &openings[i];
        const struct entry *entry = find_entry(&map_now, opening->id);
        if (opening->is_reported || opening->length == 0 || memchr(opening->is_told, 0, (size_t)opening->length) != NULL)
            continue;
        counted[COMPLETE_SPOILT] += (uint64_t)opening->is_spoilt;
        if (!opening->is_spoilt && (entry == NULL || entry->file != opening->file))
            violated("R19.6", "file %d was told as complete, and ended before its report", (int)opening->file);
    }
}

/* ---- what is done to the disk */

void judge_write(uint64_t file, uint64_t offset, uint8_t octet)
{
    const struct opening *opening = find_opening(file);
    if (opening == NULL || offset >= opening->length || !(opening->brought[offset] >> octet & 1))
        violated("R19.14", "octet %d of file %d is written, and its owner sent no such octet", (int)offset, (int)file);
    if (opening->is_told[offset] && opening->told[offset] != octet)
        violated("R19.15", "octet %d of file %d was told, and is written over", (int)offset, (int)file);
}

void judge_name(const struct file *file)
{
    struct opening *opening = find_opening(file->number);
    if (opening == NULL)
        violated("R19.9", "file %d gets its final name, and no METADATA opened it", (int)file->number);
    check_octets("R19.9", opening, file, NULL, "final name");
}

void judge_aside(const struct file *file)
{
    const struct opening *opening = find_opening(file->number);
    int i, k;
    if (opening != NULL && opening->is_reported)
        violated("R19.14", "file %d was reported, and is set aside", (int)file->number);
    for (i = 0; i < MOST_VERSIONS; i++)
        for (k = 0; disk_may_be_saved(i) && k < SARATOGA_TRANSFERS; k++)
            if (map_saved[i].entries[k].is_open && map_saved[i].entries[k].file == file->number)
                violated("R19.16", "file %d is set aside, and the saved snapshot has it", (int)file->number);
}

static void check_md5(const struct opening *opening, const struct file *file)
{
    uint8_t md5[SARATOGA_MD5_OCTETS];
    uint64_t o;
    struct saratoga_verdict verdict;
    saratoga_md5_begin(md5, sizeof md5);
    saratoga_md5_add(md5, sizeof md5, file->safe, (size_t)opening->length);
    verdict = saratoga_check_md5(opening->metadata, opening->metadata_len, md5, sizeof md5);
    if (verdict.verdict == SARATOGA_DIFFERS)
        violated("R19.14", "report: file %d is not the one that the MD5 is of", (int)file->number);
    for (o = 0; verdict.verdict == SARATOGA_AGREES && opening->page != NULL && o < opening->length; o++)
        if (file->safe[o] != page_octet(opening->page, o))
            violated("R19.14", "report: octet %d of file %d is not the page's", (int)o, (int)file->number);
}

void judge_report(uint64_t id, uint64_t number, uint64_t length)
{
    struct opening *opening = find_opening(number);
    struct file *file = disk_find(number);
    struct entry *entry = find_entry(&map_now, id);
    if (opening == NULL || opening->id != id || opening->length != length)
        violated("R19.14", "report: file %d was not opened so", (int)number);
    check_parts("R19.14", file, 1, "report");
    check_octets("R19.14", opening, file, NULL, "report");
    check_md5(opening, file);
    tell_octets(opening, file, NULL);
    counted[REPORTED_AGAIN] += (uint64_t)opening->is_reported;
    opening->is_reported = 1;
    if (entry != NULL && entry->file == number)
        entry->is_reported = 1;
    if (opening->page != NULL)
        opening->page->is_reported = 1;
    counted[REPORTS]++;
}

/* ---- packets */

void judge_arrival(const struct address *from, const uint8_t *packet, size_t size)
{
    struct saratoga_packet read = saratoga_read(packet, size);
    struct entry *entry = find_entry(&map_now, read.id);
    struct opening *opening;
    uint64_t i;
    differs = is_taken = has_failed = was_busy = 0;
    if (read.number != 0 || read.type != SARATOGA_TYPE_DATA || entry == NULL || !is_same_address(&entry->owner, from))
        return;
    opening = find_opening(entry->file);
    for (i = 0; i < read.payload_len && read.offset < opening->length && i < opening->length - read.offset; i++) {
        uint8_t octet = packet[read.payload_at + i];
        opening->brought[read.offset + i] |= UINT64_C(1) << (octet & 63);
        differs |= opening->is_told[read.offset + i] && opening->told[read.offset + i] != octet;
    }
    differs_in = entry->file;
}

/* Other octets than those that were told end the transfer, unless its page waits for its report. */
void judge_handled(void)
{
    int i;
    for (i = 0; differs && is_taken && !has_failed && !was_busy && i < SARATOGA_TRANSFERS; i++)
        if (map_now.entries[i].is_open && map_now.entries[i].file == differs_in)
            violated("R19.5", "a packet brought other octets than file %d has, and the transfer goes on", (int)differs_in);
    differs = 0;
}

/* ---- calls */

void judge_started(void)
{
    const struct version *version = disk_saved();
    memset(&map_now, 0, sizeof map_now);
    if (version != NULL)
        map_now = map_saved[version - disk_versions];
    map_synced = map_now;
    sync_under_way = 0;
}

static void open_anew(const struct saratoga_meeting *m, const uint8_t *packet, size_t size, const struct address *from)
{
    struct entry *entry = find_entry(&map_now, m->id);
    struct opening *opening = entry == NULL ? NULL : find_opening(entry->file);
    int i;
    if (find_opening(m->file) != NULL)
        violated("R19.17", "file number %d is used again", (int)m->file);
    if (opening != NULL && opening->metadata_len == size && memcmp(opening->metadata, packet, size) == 0)
        violated("R19.15", "Id %d is opened anew, and was open for this METADATA", (int)m->id);
    for (i = 0; entry == NULL && i < SARATOGA_TRANSFERS; i++)
        if (!map_now.entries[i].is_open)
            entry = &map_now.entries[i];
    counted[OPENINGS]++;
    opening = &openings[opening_count++];
    memset(opening, 0, sizeof *opening);
    opening->file = m->file;
    opening->id = m->id;
    opening->length = saratoga_read(packet, size).size;
    memcpy(opening->metadata, packet, opening->metadata_len = size);
    opening->page = page_of(packet, size);
    *entry = (struct entry){.is_open = 1, .id = m->id, .file = m->file, .owner = *from};
}

static void keep_open(uint64_t id, const uint8_t *packet, size_t size, const struct address *from)
{
    struct entry *entry = find_entry(&map_now, id);
    struct opening *opening = entry == NULL ? NULL : find_opening(entry->file);
    if (opening == NULL || opening->metadata_len != size || memcmp(opening->metadata, packet, size) != 0)
        violated("R19.3", "Id %d is kept, and was not open for this METADATA", (int)id);
    entry->owner = *from;
}

void judge_opened(const struct saratoga_meeting *m, const struct address *from, const uint8_t *packet, size_t size, int well)
{
    if (m->kind == SARATOGA_MEET_MAKE && well)
        open_anew(m, packet, size, from);
    if (m->kind == SARATOGA_MEET_KEPT)
        keep_open(saratoga_read(packet, size).id, packet, size, from);
    if (m->kind == SARATOGA_MEET_ENDED)
        remove_entry(saratoga_read(packet, size).id);
}

void judge_looked(const struct saratoga_look *l)
{
    is_taken |= l->kind >= SARATOGA_LOOK_COMPARE;
}

/* A page that is complete and was not reported. */
static int is_busy(const struct entry *entry)
{
    return !entry->is_reported && memchr(entry->is_stored, 0, (size_t)find_opening(entry->file)->length) == NULL;
}

void judge_stored(const struct saratoga_look *l, int well)
{
    struct entry *entry = find_entry(&map_now, l->id);
    int is_other = l->kind == SARATOGA_LOOK_COMPARE && !well;
    has_failed |= l->kind == SARATOGA_LOOK_WRITE && !well;
    counted[WRITTEN] += l->kind == SARATOGA_LOOK_WRITE && well;
    counted[COMPARED] += l->kind == SARATOGA_LOOK_COMPARE;
    counted[OTHER_OCTETS] += (uint64_t)is_other;
    if (l->kind == SARATOGA_LOOK_WRITE && well && entry != NULL)
        memset(entry->is_stored + l->from, 1, (size_t)(l->to - l->from));
    was_busy |= is_other && entry != NULL && is_busy(entry);
    if (is_other && !was_busy)
        remove_entry(l->id);
}

void judge_closed(const struct saratoga_closed *closed, uint64_t id, int spoilt)
{
    struct entry *entry = find_entry(&map_now, id);
    if (closed->kind != SARATOGA_CLOSE_GONE || entry == NULL)
        return;
    find_opening(entry->file)->is_spoilt |= spoilt;
    counted[SPOILT] += (uint64_t)spoilt;
    remove_entry(id);
}

void judge_sync_begun(uint64_t sync)
{
    if (sync == 0)
        return;
    map_pending = map_now;
    sync_under_way = sync;
}

void judge_sync_ended(uint64_t sync, int good)
{
    if (sync == 0 || sync != sync_under_way)
        return;
    sync_under_way = 0;
    counted[good ? GOOD_SYNCS : BAD_SYNCS]++;
    if (good) {
        check_not_older(sync);
        map_synced = map_pending;
    } else {
        map_now = map_synced;
    }
}
