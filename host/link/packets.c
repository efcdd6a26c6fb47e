/*
 * What is done with a packet: METADATA and DATA are told to the engine, which says what is made, compared and written; STATUS is shown, a
 * BEACON is heard. Only the operator's limits are judged here.
 */
#include "link.h"

#include <errno.h>
#include <stdio.h>
#include <string.h>
#include <unistd.h>

#define MOST_HOLES 64              /* shown of a STATUS */
#define MOST_KEPT_PACKETS 64       /* that are written together, and their octets */
#define MOST_KEPT_OCTETS 131072

static void fail(const struct packet *p, uint64_t id, uint64_t code)
{
    send_failure(p->number, &p->from, &p->route, id, code);
}

/* A refusal, and the failure STATUS where there is one to send. */
static void refuse(const struct packet *p, uint64_t refusal, uint64_t code)
{
    uint64_t id;
    count_refusal(refusal);
    say(p->number, "refused %" PRIu64 " code=%" PRIu64, refusal, code);
    if (refusal == SARATOGA_REFUSED_AREA)
        die("the state in memory is no engine's: the program has a fault");
    if (saratoga_failure_id(p->octets, p->length, code, &id))
        fail(p, id, code);
}

static void hear(struct transfer *t, const struct packet *p)
{
    t->number = p->number;
    t->route = p->route;
    t->heard_here = 1;
}

/* ---- METADATA */

/* Whether METADATA is over a limit that the operator set. That is said and answered, and nothing else happens. */
static int is_over_a_limit(const struct packet *p, const struct saratoga_packet *read)
{
    uint64_t code = 0;
    if (read->size > options.largest) {
        code = SARATOGA_CODE_TOO_LONG;
        say(p->number, "too-large id=%" PRIu64 " length=%" PRIu64 " code=%" PRIu64, read->id, read->size, code);
    } else if (!may_keep_more()) {
        code = SARATOGA_CODE_RECEIVER_RESOURCES;
        say(p->number, "too-many id=%" PRIu64 " code=%" PRIu64, read->id, code);
    }
    counters.rejected += code != 0;
    if (code != 0)
        fail(p, read->id, code);
    return code != 0;
}

/* An operator reads why a page is not taken: once, though its sender repeats METADATA; a full table once a minute. */
static void tell_unwanted(uint64_t id, uint64_t refusal)
{
    static uint64_t told = UINT64_MAX, full_until;
    if (refusal == SARATOGA_REFUSED_CRC32C && told != id) {
        told = id;
        warn("transfer %" PRIu64 " is refused: %s; its sender must send another checksum, or none", id,
             saratoga_refusal_text(refusal));
    }
    if (refusal == SARATOGA_REFUSED_TABLE_FULL && now_ms() >= full_until) {
        full_until = now_ms() + 60000;
        warn("ERROR: transfer %" PRIu64 " is refused: %d are open, and none can be ended for it; --list shows them, --close, "
             "--make-room and --forget-after end some",
             id, SARATOGA_TRANSFERS);
    }
}

static void say_open(const struct packet *p, const struct saratoga_packet *read, const char *how)
{
    struct saratoga_listed one = listed(read->id);
    say(p->number, "open id=%" PRIu64 " width=%" PRIu64 " length=%" PRIu64 " edge=%" PRIu64 " complete=%" PRIu64 " %s",
        read->id, 8 * read->width, read->size, one.edge, one.complete, how);
}

/* A file that can't be written, and not for lack of room: told at once, and again at most once a minute. */
static void write_fails(const char *name, int error)
{
    static uint64_t quiet_until, count;
    something_is_lost();
    count++;
    if (now_ms() < quiet_until)
        return;
    warn("%s/%s: can't be written: %s; %" PRIu64 " packets count as lost for that", options.directory, name, strerror(error),
         count);
    quiet_until = now_ms() + 60000;
}

static void say_lost(const struct packet *p, const struct saratoga_packet *read)
{
    counters.lost++;
    if (read->type == SARATOGA_TYPE_DATA)
        say(p->number, "lost id=%" PRIu64 " offset=%" PRIu64 " length=%" PRIu64, read->id, read->offset, read->payload_len);
    else
        say(p->number, "lost id=%" PRIu64, read->id);
}

/* The packet counts as lost: something on disk failed. */
static void lose(const struct packet *p, const struct saratoga_packet *read, const char *name, int error)
{
    if (error == EAGAIN)
        something_is_lost(); /* too many files for one sync: METADATA comes again */
    else if (error == ESTALE)
        ; /* its file was cut, and that is told */
    else if (is_lack_of_room(error))
        room_is_lacking(name, error);
    else
        write_fails(name, error);
    say_lost(p, read);
}

/* Makes the files of a new transfer. Gives NULL where they can't be: the packet then counts as lost. */
static struct transfer *make(const struct packet *p, const struct saratoga_packet *read, uint64_t file)
{
    char name[NAME_OCTETS] = "area";
    int error = EAGAIN;
    struct transfer *t = reserve(file) ? new_transfer(read->id, file) : (error = errno, NULL);
    if (t != NULL) {
        t->meta_len = meta_text(t->meta, p->octets, read);
        t->opened_here = 1;
        name_of(name, t, "part");
        if (make_files(t) == 0)
            return t;
        error = errno;
        forget(t);
    }
    lose(p, read, name, error);
    return NULL;
}

/* METADATA of a new Id, or of another file under an open one. Where that one ends, its sheet is made while the table has it. */
static void open_new(const struct packet *p, const struct saratoga_packet *read, const struct saratoga_meeting *met)
{
    struct transfer *old = met->ends ? transfer_of(read->id, met->old) : NULL;
    struct saratoga_listed one = listed(read->id);
    struct slot slot = {.reported = 0};
    if (is_over_a_limit(p, read))
        return;
    struct transfer *t = make(p, read, met->file);
    if (t == NULL)
        return;
    if (old != NULL && is_open(old->id, &slot))
        prepare_closing(old, &one, "other-metadata", (int)slot.reported);
    cut_point("between files and opening");
    saratoga_engine_opened(state, sizeof state, now_ms(), p->from.high, p->from.low, p->from.port, p->octets, p->length, 1);
    if (old != NULL)
        has_closed(p->number, old, &one, "other-metadata");
    hear(t, p);
    say_open(p, read, "new");
}

/* METADATA of an open Id, that its sender has ended, or that was opened before. */
static void meet_open(const struct packet *p, const struct saratoga_packet *read, const struct saratoga_meeting *met)
{
    struct transfer *t = transfer_of(read->id, met->file);
    struct saratoga_listed one = listed(read->id);
    struct slot slot = {.reported = 0};
    int ends = met->kind == SARATOGA_MEET_ENDED;
    if (ends && is_open(t->id, &slot))
        prepare_closing(t, &one, "ended-by-its-sender", (int)slot.reported);
    saratoga_engine_opened(state, sizeof state, now_ms(), p->from.high, p->from.low, p->from.port, p->octets, p->length, 1);
    hear(t, p);
    if (ends)
        has_closed(p->number, t, &one, "ended-by-its-sender");
    else
        say_open(p, read, "already-open");
}

static void take_metadata(const struct packet *p, const struct saratoga_packet *read)
{
    struct transfer *t = open_transfer(read->id);
    struct slot slot;
    if (t != NULL && is_open(t->id, &slot) && !slot.reported && !is_where_it_was(t))
        close_lost(t);
    struct saratoga_meeting met = saratoga_engine_meet(state, sizeof state, p->octets, p->length);
    if (met.number == SARATOGA_REFUSED_TABLE_FULL && is_over_a_limit(p, read))
        return; /* nothing is ended for what isn't taken */
    if (met.number == SARATOGA_REFUSED_TABLE_FULL && make_room(p->number))
        met = saratoga_engine_meet(state, sizeof state, p->octets, p->length);
    switch (met.kind) {
    case SARATOGA_MEET_WAIT:
        say_lost(p, read);
        break;
    case SARATOGA_MEET_MAKE:
        open_new(p, read, &met);
        break;
    case SARATOGA_MEET_KEPT:
    case SARATOGA_MEET_ENDED:
        meet_open(p, read, &met);
        break;
    default:
        tell_unwanted(read->id, met.number);
        refuse(p, met.number, met.code);
    }
}

/* ---- DATA */

/* What the engine says of a packet from an offset on. */
static struct saratoga_look look_at(const struct packet *p, uint64_t from)
{
    return saratoga_engine_look(state, sizeof state, p->from.high, p->from.low, p->from.port, p->octets, p->length, from);
}

/* Whether the file has the octets that a packet brings again. Gives -1 with errno where it can't be read, or was cut. */
static int has_octets(int fd, const uint8_t *octets, size_t count, uint64_t offset)
{
    uint8_t part[4096];
    while (count > 0) {
        ssize_t got = pread(fd, part, count < sizeof part ? count : sizeof part, (off_t)offset);
        if (got < 0 && errno == EINTR)
            continue;
        if (got == 0)
            errno = ESTALE;
        if (got <= 0)
            return -1;
        if (memcmp(part, octets, (size_t)got) != 0)
            return 0;
        octets += got;
        count -= (size_t)got;
        offset += (uint64_t)got;
    }
    return 1;
}

/* Compares or writes a stretch. Gives 1 where that went well, 0 where octets differ, -1 with errno where it failed. */
static int do_stretch(struct transfer *t, const struct packet *p, const struct saratoga_look *look)
{
    const uint8_t *octets = p->octets + look->start;
    size_t count = (size_t)(look->to - look->from);
    int fd = file_of(t);
    struct slot slot;
    if (look->kind == SARATOGA_LOOK_COMPARE) {
        if (fd < 0 && errno == ENOENT && is_open(t->id, &slot) && slot.reported)
            return 1; /* the page was handed on and taken away: there is nothing to compare with */
        return fd < 0 ? -1 : has_octets(fd, octets, count, look->from);
    }
    if (fd >= 0 && is_cut(t)) {
        errno = ESTALE;
        return -1;
    }
    if (fd < 0 || write_at(fd, octets, count, look->from) != 0)
        return -1;
    t->written = 1;
    t->size = look->to > t->size ? look->to : t->size;
    cut_point("between payload and recording");
    return 1;
}

/* A packet brings other octets than were received: two files are mixed up somewhere. Of a page that waits for its report it is told once. */
static void tell_mixture(const struct packet *p, struct transfer *t, const struct saratoga_look *look, int is_closed)
{
    if (!t->mixed || is_closed)
        warn("ERROR: transfer %" PRIu64 ": packet %" PRIu64 " brings other octets than were received from %" PRIu64 " to %" PRIu64
             ": two files are mixed up under one Id; %s",
             t->id, p->number, look->from, look->to - 1,
             is_closed ? "it is closed and must begin anew" : "the first is complete, and of the other such packets count as lost");
    t->mixed = 1;
}

static void tell_engine(const struct packet *p, uint64_t from, int well)
{
    saratoga_engine_stored(state, sizeof state, now_ms(), p->from.high, p->from.low, p->from.port, p->octets, p->length, from,
                           (uint64_t)well);
}

/*
 * A stretch that differs from the file. The engine ends the transfer, unless its page is complete and about to be reported: then the packet
 * counts as lost.
 */
static void differ(const struct packet *p, const struct saratoga_packet *read, struct transfer *t, const struct saratoga_look *look,
                   uint64_t from)
{
    struct saratoga_listed one = listed(t->id);
    struct slot slot = {.reported = 0};
    if (is_open(t->id, &slot))
        prepare_closing(t, &one, "other-octets", (int)slot.reported);
    tell_engine(p, from, 0);
    int is_closed = open_transfer(t->id) != t;
    tell_mixture(p, t, look, is_closed);
    if (is_closed) {
        has_closed(p->number, t, &one, "other-octets");
        fail(p, t->id, SARATOGA_CODE_UNKNOWN_ID);
    } else {
        forget_closing(t);
        say_lost(p, read);
    }
}

/* Its file is gone or was cut, and its sender learns that the Id isn't open. */
static void lose_file(const struct packet *p, struct transfer *t)
{
    struct slot slot;
    uint64_t id = t->id;
    int is_due = is_open(id, &slot) && slot.due != 0;
    close_lost(t);
    if (!is_due)
        fail(p, id, SARATOGA_CODE_UNKNOWN_ID);
}

/* A stretch could not be written or read. */
static void lose_stretch(const struct packet *p, const struct saratoga_packet *read, struct transfer *t)
{
    char name[NAME_OCTETS];
    int error = errno;
    name_of_file(name, t);
    lose(p, read, name, error);
    if (t->why == NULL && !is_where_it_was(t))
        lose_file(p, t);
}

/* All stretches of a packet that the engine takes. Gives 0 where one failed. */
static int store_all(const struct packet *p, const struct saratoga_packet *read, struct saratoga_look look)
{
    struct transfer *t = transfer_of(look.id, look.file);
    uint64_t from = 0, stop = read->offset + read->payload_len;
    while (look.kind == SARATOGA_LOOK_COMPARE || look.kind == SARATOGA_LOOK_WRITE) {
        int well = do_stretch(t, p, &look);
        if (well < 0) {
            lose_stretch(p, read, t);
            return 0;
        }
        if (well == 0) {
            differ(p, read, t, &look, from);
            return 0;
        }
        tell_engine(p, from, 1);
        from = look.to;
        if (from >= stop)
            break;
        look = look_at(p, from);
    }
    return 1;
}

/* What isn't taken is answered. With --repair-status a packet that needs a 65th run gets the STATUS, as of the next sync. */
static void refuse_data(const struct packet *p, const struct saratoga_packet *read, const struct saratoga_look *look)
{
    struct transfer *t = open_transfer(read->id);
    if (look->kind == SARATOGA_LOOK_STRANGER) {
        counters.rejected++;
        say(p->number, "of-another-sender id=%" PRIu64 " code=%d", read->id, SARATOGA_CODE_UNKNOWN_ID);
        fail(p, read->id, SARATOGA_CODE_UNKNOWN_ID);
    } else if (look->number == SARATOGA_REFUSED_RUNS && options.repair_status && t != NULL) {
        count_refusal(look->number);
        say(p->number, "refused %" PRIu64 " code=0", look->number);
        hear(t, p);
        t->repair = t->repair != 0 ? t->repair : covering_sync();
        want_sync();
    } else {
        refuse(p, look->number, look->code);
    }
}

/* The engine has a packet: it is counted and told. */
static void has_recorded(const struct packet *p, const struct saratoga_packet *read, struct transfer *t, const struct saratoga_recorded *recorded)
{
    hear(t, p);
    t->work.recordings++;
    t->work.absorbed += recorded->absorbed;
    say(p->number,
        "record id=%" PRIu64 " offset=%" PRIu64 " length=%" PRIu64 " edge=%" PRIu64 " complete=%" PRIu64
        " absorbed=%" PRIu64,
        read->id, read->offset, read->payload_len, recorded->edge, recorded->complete, recorded->absorbed);
}

/*
 * Packets whose octets follow on each other in one file are written together, and only then told to the engine one by one: a write for
 * each would cost more than all else. Each was looked at, and is new from its first octet to its last; so it is still when those before it
 * are stored, which end where it begins.
 */
static struct {
    struct transfer *t;
    size_t count;
    uint64_t from, to;             /* of the file */
    struct packet packets[MOST_KEPT_PACKETS];
    uint8_t octets[MOST_KEPT_OCTETS];
} kept;

/* Whether a packet is written as a whole and can be written with those that are kept. */
static int joins(const struct saratoga_packet *read, const struct saratoga_look *look)
{
    return look->kind == SARATOGA_LOOK_WRITE && look->from == read->offset && look->to == read->offset + read->payload_len &&
           look->to - look->from <= MOST_KEPT_OCTETS &&
           (kept.count == 0 || (kept.count < MOST_KEPT_PACKETS && look->id == kept.t->id && look->file == kept.t->file &&
                                look->from == kept.to && look->to - kept.from <= MOST_KEPT_OCTETS));
}

static void keep(const struct packet *p, const struct saratoga_look *look)
{
    if (kept.count == 0) {
        kept.t = transfer_of(look->id, look->file);
        kept.from = look->from;
    }
    memcpy(kept.octets + (look->from - kept.from), p->octets + look->start, (size_t)(look->to - look->from));
    kept.to = look->to;
    kept.packets[kept.count++] = *p;
}

/* Writes what was kept and tells it to the engine. The octets of its packets must still be there. */
void store_kept(void)
{
    const struct packet all = {.octets = kept.octets};
    const struct saratoga_look look = {.kind = SARATOGA_LOOK_WRITE, .from = kept.from, .to = kept.to};
    size_t count = kept.count;
    if (count == 0)
        return;
    kept.count = 0;
    int well = do_stretch(kept.t, &all, &look), error = errno;
    for (size_t i = 0; i < count; i++) {
        const struct packet *p = &kept.packets[i];
        struct saratoga_packet read = saratoga_read(p->octets, p->length);
        if (well < 0) {
            errno = error;
            lose_stretch(p, &read, kept.t);
        } else {
            struct saratoga_recorded recorded = saratoga_try_record(state, SARATOGA_AREA_OCTETS, p->octets, p->length);
            tell_engine(p, 0, 1);
            has_recorded(p, &read, kept.t, &recorded);
        }
    }
}

static void take_data(const struct packet *p, const struct saratoga_packet *read)
{
    struct saratoga_look look = look_at(p, 0);
    if (kept.count > 0 && !joins(read, &look)) {
        store_kept();
        look = look_at(p, 0);
    }
    if (look.kind == SARATOGA_LOOK_REFUSED || look.kind == SARATOGA_LOOK_STRANGER) {
        refuse_data(p, read, &look);
    } else if (joins(read, &look)) {
        keep(p, &look);
    } else {
        struct saratoga_recorded recorded = saratoga_try_record(state, SARATOGA_AREA_OCTETS, p->octets, p->length);
        struct transfer *t = transfer_of(look.id, look.file);
        if (store_all(p, read, look))
            has_recorded(p, read, t, &recorded);
    }
}

/* ---- the others */

/* A success STATUS is for a sender; a receiver only shows it. Of thousands of holes the first are shown, and their number. */
static void show_success(const struct packet *p, const struct saratoga_packet *read)
{
    char holes[MOST_HOLES * 44 + 64] = "", stamp[33] = "";
    size_t length = 0;
    for (uint64_t i = 0; i < read->timestamp_len; i++)
        snprintf(stamp + 2 * i, 3, "%02x", p->octets[read->timestamp_at + i]);
    for (uint64_t i = 0; i < read->hole_count && i < MOST_HOLES; i++) {
        struct saratoga_hole hole = saratoga_hole_at(p->octets, read, i);
        length += (size_t)snprintf(holes + length, sizeof holes - length, "%s%" PRIu64 "-%" PRIu64, i > 0 ? "," : "", hole.start,
                                   hole.end);
    }
    if (read->hole_count > MOST_HOLES)
        snprintf(holes + length, sizeof holes - length, ",.. hole-count=%" PRIu64, read->hole_count);
    say(p->number,
        "success id=%" PRIu64 " flags=%06" PRIx64 " width=%" PRIu64 " timestamp=%s progress=%" PRIu64 " in-response-to=%" PRIu64
        " holes=%s",
        read->id, read->flags, 8 * read->width, stamp, read->progress, read->in_response_to, holes);
}

/* A packet off the link. DATA may be kept until store_kept, or the next packet, writes it. */
void take_packet(const struct packet *p)
{
    struct saratoga_packet read = saratoga_read(p->octets, p->length);
    if (read.number != 0 || read.type != SARATOGA_TYPE_DATA)
        store_kept();
    if (read.number != 0)
        refuse(p, read.number, read.code);
    else if (read.type == SARATOGA_TYPE_METADATA)
        take_metadata(p, &read);
    else if (read.type == SARATOGA_TYPE_DATA)
        take_data(p, &read);
    else if (read.type == SARATOGA_TYPE_BEACON)
        hear_beacon(p, &read);
    else if (read.status != 0)
        say(p->number, "failure id=%" PRIu64 " status=%" PRIu64 " flags=%06" PRIx64, read.id, read.status, read.flags);
    else
        show_success(p, &read);
}
