/*
 * A sync: the files that were written to are forced to disk, and the directory with their names; then the engine's snapshot becomes the
 * area's file. It runs in a thread of its own, on copies of descriptors and of the snapshot.
 *
 * And the numbers of files: the area's file has one above all that may be in use, so that none is used twice even where a crash takes the
 * files. A number that isn't below it is used only once a greater one is on disk.
 */
#include "link.h"

#include <errno.h>
#include <fcntl.h>
#include <string.h>
#include <unistd.h>

#define RESERVED 256               /* file numbers */

static struct {
    uint64_t number;
    struct area area;
    int names;                     /* the directory is to be forced to disk first */
    size_t count;
    int descriptors[2 * MOST_FILES];
    int error;
} job;

static uint64_t last_begun, last_good;
static uint64_t used;              /* above every file number that was used */
static uint64_t bound;             /* the same on disk */
static int wanted, was_good = 1;
static uint64_t not_before;        /* after a sync that failed the next one waits */

/* Where the numbers begin, at a start. */
void begin_numbers(const struct area *area)
{
    last_begun = last_good = area->sync;
    used = area->next;
    bound = area->next;
}

/* Has an area saved as of the last good sync, with another file number. Gives -1 with errno. */
static int save_number(uint64_t next)
{
    static struct area area;
    area.sync = last_good;
    area.next = next;
    memcpy(area.snapshot, state + SYNCED, sizeof area.snapshot);
    if (write_area(&area) != 0)
        return -1;
    bound = next;
    return 0;
}

/* Whether a file number may be used: no crash then makes it be used again. Gives 0 with errno where it can't be yet. */
int reserve(uint64_t file)
{
    if (file >= bound && is_at_work(&syncer)) {
        errno = EAGAIN;
        return 0;
    }
    if (file >= bound && save_number(file + RESERVED) != 0)
        return 0;
    used = file >= used ? file + 1 : used;
    return 1;
}

/* In a directory that has no area yet, and where packets don't wait for a sync. Gives 0 with errno where none can be written. */
int reserve_first(void)
{
    if (save_number(used + RESERVED) == 0)
        return 1;
    if (is_lack_of_room(errno))
        room_is_lacking("area", errno);
    return 0;
}

/* At an orderly end no number is passed over. */
int keep_exact_number(void)
{
    return bound == used || save_number(used) == 0;
}

/* A .part that is gone or cut takes its transfer with it, before anything is saved that says its octets are there. */
static void look_at_files(void)
{
    for (size_t i = 0; i < MOST_FILES; i++) {
        struct transfer *t = &transfers[i];
        struct slot slot;
        if (t->used && t->why == NULL && is_open(t->id, &slot) && slot.file == t->file && !slot.reported &&
            !is_where_it_was(t))
            close_lost(t);
    }
}

static void add_descriptor(int fd)
{
    int copy = fcntl(fd, F_DUPFD_CLOEXEC, 3);
    if (copy < 0)
        job.error = errno;
    else
        job.descriptors[job.count++] = copy;
}

/* What a transfer brings to a sync. */
static void add_transfer(struct transfer *t)
{
    if (t->written && t->fd >= 0)
        add_descriptor(t->fd);
    if (t->meta_fd >= 0) {
        add_descriptor(t->meta_fd);
        close(t->meta_fd);
    }
    t->meta_fd = -1;
    t->written = 0;
    t->pending_work = t->work;
}

static void run_sync(void *unused)
{
    (void)unused;
    for (size_t i = 0; i < job.count; i++) {
        if (job.error == 0 && force_to_disk(job.descriptors[i]) != 0)
            job.error = errno;
        close(job.descriptors[i]);
    }
    if (job.error == 0 && job.names && force_to_disk(directory) != 0)
        job.error = errno;
    cut_point("between payloads and area");
    if (job.error == 0 && write_area(&job.area) != 0)
        job.error = errno;
    cut_point("between area and answer");
}

/* After a sync that failed, but not at the end: there is no later time. */
static int must_pause(void)
{
    return now_ms() < not_before && !is_ending();
}

/* Begins a sync. Gives 0 where one is under way, or the last one failed just now. */
int begin_sync(void)
{
    if (is_at_work(&syncer) || must_pause())
        return 0;
    look_at_files();
    struct saratoga_sync sync = saratoga_engine_sync(state, sizeof state, now_ms());
    if (sync.number != 0 || sync.sync == 0)
        die("no sync can be begun, refusal %" PRIu64 ": the program has a fault", sync.number);
    wanted = 0;
    job.number = last_begun = sync.sync;
    job.error = 0;
    job.count = 0;
    job.names = directory_changed;
    directory_changed = 0;
    for (size_t i = 0; i < MOST_FILES; i++)
        if (transfers[i].used)
            add_transfer(&transfers[i]);
    job.area.sync = sync.sync;
    job.area.next = used + RESERVED;
    memcpy(job.area.snapshot, state + SARATOGA_ENGINE_PENDING, sizeof job.area.snapshot);
    start_worker(&syncer, run_sync, NULL);
    return 1;
}

/* A sync that nobody in the engine waits for. */
void want_sync(void)
{
    wanted = 1;
}

int sync_is_wanted(void)
{
    return wanted && !is_at_work(&syncer) && !must_pause();
}

/* The number of the sync that covers what is now. */
uint64_t covering_sync(void)
{
    return last_begun + 1;
}

uint64_t last_good_sync(void)
{
    return last_good;
}

int last_sync_was_good(void)
{
    return was_good;
}

/* Work goes with the table: it is kept where that was saved, and where that is taken back, so is the work. */
static void settle_work(struct transfer *t, int good)
{
    if (good)
        t->synced_work = t->pending_work;
    else
        t->work = t->synced_work;
}

/* A bad sync undoes closings. */
static void open_again(struct transfer *t)
{
    struct slot slot;
    if (t->why != NULL && is_open(t->id, &slot) && slot.file == t->file)
        has_reopened(t);
}

/* What follows from the end of a sync, if one has ended. */
int finish_sync(void)
{
    if (!is_done(&syncer))
        return 0;
    was_good = job.error == 0;
    counters.good_syncs += was_good;
    counters.bad_syncs += !was_good;
    if (!was_good && !is_lack_of_room(job.error))
        die("%s: can't be forced to disk, or area not be replaced: %s", options.directory, strerror(job.error));
    saratoga_engine_synced(state, sizeof state, job.number, (uint64_t)was_good);
    if (was_good) {
        bound = job.area.next;
        last_good = job.number;
        there_is_room();
    } else {
        directory_changed = 1;
        not_before = now_ms() + INTERVAL;
        room_is_lacking("area", job.error);
    }
    for (size_t i = 0; i < MOST_FILES; i++) {
        if (transfers[i].used) {
            settle_work(&transfers[i], was_good);
            open_again(&transfers[i]);
        }
    }
    return 1;
}
