/*
 * The shell that is tried: it does on the model disk and the model network what the engine says, says how that ended, and decides nothing.
 * Where the header leaves a choice: the file of a transfer that ended is set aside once a good sync has covered its end, unless it has its
 * final name; file numbers are those of a start, and each start is numbered on disk.
 */
#include "simulate.h"

#include <string.h>

#define ENGINE (&judged_engine)
enum { FILES_OF_A_START = 1 << 16, MOST_LISTED = 1024 };

struct list {
    uint64_t files[MOST_LISTED], syncs[MOST_LISTED];
    size_t count;
};

static uint8_t state[SARATOGA_ENGINE_STATE];
static struct list dirty, ended; /* written since they were last forced to disk; to be set aside once a sync was good */
static uint64_t sync_number;     /* of the sync last begun */
static size_t step;              /* of that sync */
static enum { IDLE, RUNNING, GOOD, BAD } sync_is;

/* ---- lists of files */

static void add(struct list *list, uint64_t file, uint64_t sync)
{
    size_t i;
    for (i = 0; i < list->count; i++)
        if (list->files[i] == file)
            return;
    if (list->count == MOST_LISTED)
        violated("simulation", "a list of the shell is full");
    list->files[list->count] = file;
    list->syncs[list->count++] = sync;
}

static void end_file(uint64_t file)
{
    if (!disk_find(file)->has[NAMED])
        add(&ended, file, sync_number + 1);
}

static void set_aside(void)
{
    size_t i, kept = 0;
    for (i = 0; i < ended.count; i++)
        if (ended.syncs[i] <= sync_number)
            disk_aside(ended.files[i]);
        else
            ended.files[kept] = ended.files[i], ended.syncs[kept++] = ended.syncs[i];
    ended.count = kept;
}

/* ---- a start */

void shell_start(void)
{
    static const uint8_t nothing[SARATOGA_ENGINE_SNAPSHOT];
    const struct version *saved = disk_saved();
    uint64_t start = disk_next_start();
    const struct file *file;
    size_t i;
    dirty.count = ended.count = 0;
    sync_is = IDLE;
    sync_number = saved == NULL ? 0 : saved->number;
    ENGINE->start(state, sizeof state, saved == NULL ? nothing : saved->octets, SARATOGA_ENGINE_SNAPSHOT, sync_number,
                  start * FILES_OF_A_START);
    for (i = 0; (file = disk_file(i)) != NULL; i++) { /* what no transfer has any more */
        struct saratoga_meeting m = ENGINE->meet(state, sizeof state, file->meta, file->meta_len);
        int is_open = file->has[META] && m.kind == SARATOGA_MEET_KEPT && m.file == file->number;
        if (file->has[MADE] && !file->has[ASIDE] && !file->has[NAMED] && !is_open)
            disk_aside(file->number);
    }
}

/* ---- packets */

static void fail(const struct address *to, const uint8_t *packet, size_t size, uint64_t code)
{
    uint8_t out[SARATOGA_FAILURE_OCTETS];
    uint64_t id;
    if (saratoga_failure_id(packet, size, code, &id))
        network_answers(to, out, (size_t)saratoga_write_failure(id, code, out, sizeof out).size);
}

static void metadata(const struct address *from, const uint8_t *packet, size_t size)
{
    struct saratoga_meeting m = ENGINE->meet(state, sizeof state, packet, size);
    int well = m.kind != SARATOGA_MEET_MAKE || disk_make(m.file, packet, size);
    trace("  METADATA: kind %d, refusal %d, file %d, well %d", (int)m.kind, (int)m.number, (int)m.file, well);
    ENGINE->opened(state, sizeof state, now, from->high, from->low, from->port, packet, size, (uint64_t)well);
    if (m.kind == SARATOGA_MEET_MAKE && well)
        add(&dirty, m.file, 0);
    if (m.kind == SARATOGA_MEET_ENDED)
        end_file(m.file);
    if (m.kind == SARATOGA_MEET_MAKE && well && m.ends)
        end_file(m.old);
    if (m.kind == SARATOGA_MEET_REFUSED)
        fail(from, packet, size, m.code);
}

static int store(const struct saratoga_look *l, const uint8_t *packet)
{
    int well;
    if (l->kind == SARATOGA_LOOK_COMPARE)
        return disk_is_equal(l->file, l->from, packet + l->start, l->to - l->from);
    well = disk_write(l->file, l->from, packet + l->start, l->to - l->from);
    add(&dirty, l->file, 0); /* not before: a sync that is under way would take it off the list too early */
    return well;
}

static void data(const struct address *from, const uint8_t *packet, size_t size)
{
    struct saratoga_look l = {0};
    uint64_t at = 0;
    int well = 1;
    for (; well; at = l.to) {
        l = ENGINE->look(state, sizeof state, from->high, from->low, from->port, packet, size, at);
        if (l.kind != SARATOGA_LOOK_COMPARE && l.kind != SARATOGA_LOOK_WRITE)
            break;
        well = store(&l, packet);
        trace("  DATA: kind %d, file %d, octets %d to %d, well %d", (int)l.kind, (int)l.file, (int)l.from, (int)l.to, well);
        ENGINE->stored(state, sizeof state, now, from->high, from->low, from->port, packet, size, at, (uint64_t)well);
    }
    if (l.kind == SARATOGA_LOOK_COMPARE && !well) {
        uint64_t file = l.file;
        l = ENGINE->look(state, sizeof state, from->high, from->low, from->port, packet, size, 0);
        if (l.number == SARATOGA_REFUSED_NOT_OPEN)
            end_file(file);
    }
    if (l.kind == SARATOGA_LOOK_REFUSED)
        fail(from, packet, size, l.code);
    if (l.kind == SARATOGA_LOOK_STRANGER)
        fail(from, packet, size, SARATOGA_CODE_UNKNOWN_ID);
}

void shell_packet(const struct address *from, const uint8_t *packet, size_t size)
{
    struct saratoga_packet read = saratoga_read(packet, size);
    judge_arrival(from, packet, size);
    if (read.number != 0)
        fail(from, packet, size, read.code);
    else if (read.type == SARATOGA_TYPE_METADATA)
        metadata(from, packet, size);
    else if (read.type == SARATOGA_TYPE_DATA)
        data(from, packet, size);
    judge_handled();
}

/* ---- what is due */

void shell_close(uint64_t id, int spoilt)
{
    struct saratoga_closed closed = ENGINE->close(state, sizeof state, id, (uint64_t)spoilt);
    trace("close of Id %u: kind %d, file %d%s", (unsigned)id, (int)closed.kind, (int)closed.file, spoilt ? ", spoilt" : "");
    if (closed.kind == SARATOGA_CLOSE_GONE)
        end_file(closed.file);
}

static int is_spoilt(const struct file *file, uint64_t length)
{
    uint8_t md5[SARATOGA_MD5_OCTETS];
    saratoga_md5_begin(md5, sizeof md5);
    saratoga_md5_add(md5, sizeof md5, file->seen, (size_t)length);
    return saratoga_check_md5(file->meta, file->meta_len, md5, sizeof md5).verdict == SARATOGA_DIFFERS;
}

static void name(const struct saratoga_next *next)
{
    if (is_spoilt(disk_find(next->file), next->length))
        shell_close(next->id, 1);
    else
        ENGINE->named(state, sizeof state, next->id, (uint64_t)disk_name(next->file));
}

static void answer(uint64_t id)
{
    uint8_t out[SARATOGA_STATUS_OCTETS];
    struct saratoga_letter letter = ENGINE->tell(state, sizeof state, id, out, sizeof out);
    struct address to = {letter.high, letter.low, letter.port};
    if (letter.number == 0)
        network_answers(&to, out, (size_t)letter.size);
}

static void begin_sync(void)
{
    struct saratoga_sync sync = ENGINE->sync(state, sizeof state, now);
    if (sync.sync == 0)
        return;
    sync_number = sync.sync;
    step = 0;
    sync_is = RUNNING;
}

/* An Id whose page was to get its name is passed over until the next turn: where that failed, the others must not wait for it. */
int shell_next(void)
{
    static uint64_t from;
    struct saratoga_next next = ENGINE->next(state, sizeof state, now, world.interval, world.linger, world.forget, from);
    from = next.kind == SARATOGA_NEXT_NOTHING ? 0 : next.kind == SARATOGA_NEXT_NAME ? next.id + 1 : from;
    if (next.kind == SARATOGA_NEXT_NOTHING)
        return 0;
    trace("next: kind %d, Id %u, file %d", (int)next.kind, (unsigned)next.id, (int)next.file);
    if (next.kind == SARATOGA_NEXT_ANSWER)
        answer(next.id);
    if (next.kind == SARATOGA_NEXT_NAME)
        name(&next);
    if (next.kind == SARATOGA_NEXT_REPORT) {
        judge_report(next.id, next.file, next.length);
        ENGINE->reported(state, sizeof state, next.id);
    }
    if (next.kind == SARATOGA_NEXT_CLOSE)
        shell_close(next.id, 0);
    if (next.kind == SARATOGA_NEXT_SYNC)
        begin_sync();
    return 1;
}

/* ---- a sync, step by step: as a thread of its own would do it */

static int force_files(void)
{
    while (dirty.count > 0)
        if (!disk_sync_file(dirty.files[--dirty.count]))
            return 0;
    return 1;
}

static int write_saved(void)
{
    return disk_write_saved(state + SARATOGA_ENGINE_PENDING, sync_number);
}

static int (*const steps[])(void) = {force_files, disk_sync_directory, write_saved, disk_sync_saved, disk_replace_saved,
                                     disk_sync_directory};

int shell_sync_step(void)
{
    int well;
    if (sync_is != RUNNING)
        return 0;
    well = steps[step++]();
    trace("  sync %d, step %d: well %d", (int)sync_number, (int)step, well);
    if (!well)
        sync_is = BAD;
    else if (step == sizeof steps / sizeof steps[0])
        sync_is = GOOD;
    return 1;
}

int shell_sync_ended(void)
{
    int good = sync_is == GOOD;
    if (sync_is != GOOD && sync_is != BAD)
        return 0;
    trace("sync %d ended: good %d", (int)sync_number, good);
    sync_is = IDLE;
    ENGINE->synced(state, sizeof state, sync_number, (uint64_t)good);
    if (good)
        set_aside();
    else
        ended.count = 0; /* they are open again */
    return 1;
}
