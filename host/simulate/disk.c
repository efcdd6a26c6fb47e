/*
 * The model disk. A write is pending until what it is in was forced to disk by a sync that came back good. A crash keeps any octets of
 * pending writes. A sync that fails may drop any of them for ever, and a program may then still see them, or not.
 */
#include "simulate.h"

#include <string.h>

enum { MOST_PENDING = 8192, MOST_OCTETS = 256 };

struct write {
    enum part part;
    int file, version; /* places in files and disk_versions */
    uint64_t from, count;
    uint8_t octets[MOST_OCTETS], is_lost[MOST_OCTETS];
};

struct version disk_versions[MOST_VERSIONS];
static struct file files[MOST_FILES];
static size_t file_count;
static struct write pending[MOST_PENDING];
static size_t pending_count;
static int saved_seen, saved_safe, written; /* places of versions, or -1; `written` has no name yet */
static uint64_t starts;

void disk_clear(void)
{
    file_count = pending_count = 0;
    memset(disk_versions, 0, sizeof disk_versions);
    saved_seen = saved_safe = written = -1;
    starts = 0;
}

struct file *disk_find(uint64_t file)
{
    size_t i;
    for (i = file_count; i > 0; i--)
        if (files[i - 1].number == file)
            return &files[i - 1];
    return NULL;
}

const struct file *disk_file(size_t index)
{
    return index < file_count ? &files[index] : NULL;
}

/* ---- pending writes */

static struct write *put_pending(enum part part, const struct file *file)
{
    struct write *w = &pending[pending_count++];
    if (pending_count == MOST_PENDING)
        violated("simulation", "more pending writes than there is room for");
    w->part = part;
    w->file = file == NULL ? -1 : (int)(file - files);
    w->version = -1;
    w->from = w->count = 0;
    return w;
}

/* A write is on disk for good, but for octets that were lost. */
static void settle(const struct write *w)
{
    struct file *file = w->file < 0 ? NULL : &files[w->file];
    uint64_t i;
    if (w->part == SAVED)
        saved_safe = w->version;
    else if (w->part != OCTETS)
        file->has_safe[w->part] = 1;
    if (w->part == NAMED)
        file->has_safe[MADE] = 1;
    for (i = 0; i < w->count; i++)
        if (!w->is_lost[i]) {
            file->safe[w->from + i] = w->octets[i];
            file->is_safe[w->from + i] = 1;
        }
}

/* Loses all, none, the end, or any octets of a write; where it has none, 1 for all. */
static int lose(struct write *w)
{
    uint64_t i, kind = below(4), cut = below(w->count + 1);
    if (w->part != OCTETS)
        return (int)below(2);
    for (i = 0; i < w->count; i++)
        w->is_lost[i] |= kind == 0 ? 1 : kind == 1 ? 0 : kind == 2 ? i >= cut : below(2);
    return 0;
}

static int is_of(const struct write *w, const struct file *file)
{
    return file == NULL ? w->part >= MADE : w->part < MADE && &files[w->file] == file;
}

/* A sync that failed: of what was lost a program may see the old octets again. */
static int is_dropped(struct write *w)
{
    struct file *file = w->file < 0 ? NULL : &files[w->file];
    uint64_t i;
    if (below(2) || !lose(w)) {
        for (i = 0; i < w->count; i++)
            if (w->is_lost[i] && below(2))
                file->seen[w->from + i] = file->safe[w->from + i];
        return 0;
    }
    return 1;
}

/* Forces a file's writes to disk, or the directory's where it is NULL. */
static int force(const struct file *file)
{
    int fails = happens(world.sync_fails);
    size_t i, kept = 0;
    for (i = 0; i < pending_count; i++) {
        if (is_of(&pending[i], file)) {
            if (!fails)
                settle(&pending[i]);
            if (!fails || is_dropped(&pending[i]))
                continue;
        }
        if (kept != i)
            pending[kept] = pending[i];
        kept++;
    }
    pending_count = kept;
    return !fails;
}

void disk_crash(void)
{
    size_t i;
    uint64_t kind = below(3);
    for (i = 0; i < pending_count; i++)
        if (kind == 0 || (kind == 1 && !lose(&pending[i])))
            settle(&pending[i]);
    pending_count = 0;
    for (i = 0; i < file_count; i++) {
        struct file *file = &files[i];
        if (!file->has_safe[MADE]) { /* without a name it is gone */
            memset(file->safe, 0, sizeof file->safe);
            memset(file->is_safe, 0, sizeof file->is_safe);
            file->has_safe[META] = 0;
        }
        memcpy(file->has, file->has_safe, sizeof file->has);
        memcpy(file->seen, file->safe, sizeof file->seen);
    }
    for (i = 0; i < MOST_VERSIONS; i++)
        disk_versions[i].is_used = (int)i == saved_safe;
    saved_seen = saved_safe;
    written = -1;
}

/* ---- what the shell does. The machine may stop before anything, and after it */

static void may_stop(void)
{
    if (happens(world.stop))
        machine_stops();
}

int disk_make(uint64_t number, const uint8_t *metadata, size_t size)
{
    struct file *file = disk_find(number);
    may_stop();
    if (file == NULL) {
        file = &files[file_count++];
        if (file_count == MOST_FILES)
            violated("simulation", "more files than there is room for");
        memset(file, 0, sizeof *file);
        file->number = number;
    }
    put_pending(MADE, file);
    file->has[MADE] = 1;
    if (happens(world.make_fails))
        return 0;
    put_pending(META, file);
    file->has[META] = 1;
    memcpy(file->meta, metadata, file->meta_len = size);
    may_stop();
    return 1;
}

int disk_write(uint64_t number, uint64_t from, const uint8_t *octets, uint64_t count)
{
    struct file *file = disk_find(number);
    int fails = happens(world.write_fails);
    struct write *w;
    uint64_t i;
    sync_thread_runs();
    may_stop();
    w = put_pending(OCTETS, file);
    w->from = from;
    w->count = count;
    memcpy(w->octets, octets, (size_t)count);
    for (i = 0; i < count; i++) {
        w->is_lost[i] = fails && below(2);
        if (!w->is_lost[i]) {
            judge_write(number, from + i, octets[i]);
            file->seen[from + i] = octets[i];
        }
    }
    may_stop();
    sync_thread_runs();
    return !fails;
}

int disk_is_equal(uint64_t number, uint64_t from, const uint8_t *octets, uint64_t count)
{
    sync_thread_runs();
    return memcmp(disk_find(number)->seen + from, octets, (size_t)count) == 0;
}

int disk_name(uint64_t number)
{
    struct file *file = disk_find(number);
    int fails = happens(world.name_fails);
    may_stop();
    judge_name(file);
    if (!fails || below(2)) {
        put_pending(NAMED, file);
        file->has[NAMED] = 1;
    }
    may_stop();
    return !fails;
}

void disk_aside(uint64_t number)
{
    struct file *file = disk_find(number);
    may_stop();
    if (file == NULL)
        return;
    judge_aside(file);
    put_pending(ASIDE, file);
    file->has[ASIDE] = 1;
}

int disk_sync_file(uint64_t number)
{
    may_stop();
    return force(disk_find(number));
}

int disk_sync_directory(void)
{
    may_stop();
    return force(NULL);
}

/* ---- the saved snapshot */

static void free_versions(void)
{
    int i;
    for (i = 0; i < MOST_VERSIONS; i++)
        disk_versions[i].is_used = disk_versions[i].is_used && (disk_may_be_saved(i) || i == written);
}

int disk_write_saved(const uint8_t *snapshot, uint64_t number)
{
    int i;
    may_stop();
    written = -1;
    free_versions();
    for (i = 0; i < MOST_VERSIONS && disk_versions[i].is_used; i++)
        ;
    if (i == MOST_VERSIONS)
        return 0;
    written = i;
    disk_versions[i].is_used = 1;
    disk_versions[i].is_forced = 0;
    disk_versions[i].number = number;
    memcpy(disk_versions[i].octets, snapshot, SARATOGA_ENGINE_SNAPSHOT);
    return 1;
}

int disk_sync_saved(void)
{
    may_stop();
    if (happens(world.sync_fails))
        return 0;
    disk_versions[written].is_forced = 1;
    return 1;
}

int disk_replace_saved(void)
{
    may_stop();
    judge_saved(written);
    put_pending(SAVED, NULL)->version = written;
    saved_seen = written;
    may_stop();
    return 1;
}

const struct version *disk_saved(void)
{
    return saved_seen < 0 ? NULL : &disk_versions[saved_seen];
}

uint64_t disk_next_start(void)
{
    may_stop();
    return ++starts;
}

/* ---- for the judge */

void disk_safe_octets(const struct file *file, int16_t *octets)
{
    uint64_t i, k;
    for (i = 0; i < MOST_LENGTH; i++)
        octets[i] = file->is_safe[i] ? file->safe[i] : -1;
    for (i = 0; i < pending_count; i++) {
        const struct write *w = &pending[i];
        if (w->part != OCTETS || &files[w->file] != file)
            continue;
        for (k = 0; k < w->count; k++)
            if (!w->is_lost[k] && octets[w->from + k] != w->octets[k])
                octets[w->from + k] = -1;
    }
}

int disk_safe_part(const struct file *file, enum part part)
{
    return file->has_safe[part] && !file->has[ASIDE] && !file->has_safe[ASIDE];
}

int disk_may_be_saved(int version)
{
    size_t i;
    for (i = 0; i < pending_count; i++)
        if (pending[i].part == SAVED && pending[i].version == version)
            return 1;
    return version == saved_safe;
}
