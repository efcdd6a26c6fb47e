/*
 * The engine once more, in plain C, written from part 19 of docs/RULES.md and the header, for the comparison with the proved one and for the
 * simulation. Which fields of an answer are 0 is taken from the definitions in crates/engine_answers, since the rules do not say it.
 * The library keeps its tables; a slot is found by its Id, in no order, and the state's octets are not the proved engine's.
 */
#include "engine.h"

#include <string.h>

#define LAST_NUMBER (UINT64_MAX - 1)

enum which { NOW, PENDING, SYNCED };

struct slot {
    uint64_t id, file, high, low, port, due, last, heard;
    uint8_t digest[SARATOGA_DIGEST_OCTETS];
    uint8_t used, named, reported, asked;
};

struct numbers {
    uint64_t under_way, number, done, next, changed, begun;
};

_Static_assert(SARATOGA_AREA_OCTETS + SARATOGA_TRANSFERS * sizeof(struct slot) <= SARATOGA_ENGINE_SNAPSHOT, "slots do not fit");
_Static_assert(3 * SARATOGA_ENGINE_SNAPSHOT + sizeof(struct numbers) <= SARATOGA_ENGINE_STATE, "numbers do not fit");

/* ---- what the state holds */

static const uint8_t *area_of(const uint8_t *state, enum which which)
{
    return state + which * SARATOGA_ENGINE_SNAPSHOT;
}

static struct numbers get_numbers(const uint8_t *state)
{
    struct numbers n;
    memcpy(&n, state + 3 * SARATOGA_ENGINE_SNAPSHOT, sizeof n);
    return n;
}

static void put_numbers(uint8_t *state, struct numbers n)
{
    memcpy(state + 3 * SARATOGA_ENGINE_SNAPSHOT, &n, sizeof n);
}

static size_t slot_at(enum which which, int index)
{
    return which * SARATOGA_ENGINE_SNAPSHOT + SARATOGA_AREA_OCTETS + (size_t)index * sizeof(struct slot);
}

/* The place of the slot of an Id, or of one that is free; -1 for none. */
static int find_slot(const uint8_t *state, enum which which, int used, uint64_t id, struct slot *slot)
{
    int i;
    for (i = 0; i < SARATOGA_TRANSFERS; i++) {
        memcpy(slot, state + slot_at(which, i), sizeof *slot);
        if (used ? slot->used && slot->id == id : !slot->used)
            return i;
    }
    memset(slot, 0, sizeof *slot);
    return -1;
}

static void put_slot(uint8_t *state, int index, const struct slot *slot)
{
    memcpy(state + slot_at(NOW, index), slot, sizeof *slot);
}

static struct saratoga_listed listed(const uint8_t *state, enum which which, uint64_t id)
{
    return saratoga_find(area_of(state, which), SARATOGA_AREA_OCTETS, id);
}

/* R19.12: 0 where the state holds an engine, else 22. */
static uint64_t held(const uint8_t *state, size_t state_len)
{
    enum which which;
    if (state_len < SARATOGA_ENGINE_STATE)
        return SARATOGA_REFUSED_AREA;
    for (which = NOW; which <= SYNCED; which++)
        if (saratoga_transfer(area_of(state, which), SARATOGA_AREA_OCTETS, 0).number == SARATOGA_REFUSED_AREA)
            return SARATOGA_REFUSED_AREA;
    return get_numbers(state).number > LAST_NUMBER ? SARATOGA_REFUSED_AREA : 0;
}

static int is_complete(const uint8_t *state, enum which which, uint64_t id)
{
    struct saratoga_listed found = listed(state, which, id);
    return found.number == 0 && found.complete;
}

static int is_busy(const uint8_t *state, uint64_t id)
{
    struct slot slot;
    find_slot(state, NOW, 1, id, &slot);
    return is_complete(state, NOW, id) && !slot.reported;
}

/* Open for the same file in what is now and in what is synced. */
static int is_same(const uint8_t *state, uint64_t id)
{
    struct slot now, synced;
    return find_slot(state, NOW, 1, id, &now) >= 0 && find_slot(state, SYNCED, 1, id, &synced) >= 0 && now.file == synced.file;
}

static int may_name(const uint8_t *state, uint64_t id)
{
    return is_complete(state, SYNCED, id) && is_same(state, id);
}

static int may_report(const uint8_t *state, uint64_t id)
{
    struct slot slot;
    find_slot(state, SYNCED, 1, id, &slot);
    return may_name(state, id) && slot.named;
}

static int may_sync(struct numbers n)
{
    return !n.under_way && n.number < LAST_NUMBER;
}

static void set_changed(uint8_t *state)
{
    struct numbers n = get_numbers(state);
    n.changed = 1;
    put_numbers(state, n);
}

static void take_out(uint8_t *state, uint64_t id)
{
    struct slot slot;
    int index = find_slot(state, NOW, 1, id, &slot);
    saratoga_close(state, SARATOGA_AREA_OCTETS, id);
    memset(&slot, 0, sizeof slot);
    if (index >= 0)
        put_slot(state, index, &slot);
    set_changed(state);
}

/* ---- starting: R19.11 */

static struct saratoga_done start(uint8_t *state, size_t state_len, const uint8_t *saved, size_t saved_len, uint64_t sync, uint64_t file)
{
    struct saratoga_done done = {0, 0};
    struct numbers n = {0, sync, sync, file, 0, 0};
    enum which which;
    if (state_len < SARATOGA_ENGINE_STATE)
        done.number = SARATOGA_REFUSED_BUFFER;
    else if (saved_len < SARATOGA_ENGINE_SNAPSHOT || saratoga_transfer(saved, saved_len, 0).number == SARATOGA_REFUSED_AREA)
        done.number = SARATOGA_REFUSED_AREA;
    else if (sync > LAST_NUMBER)
        done.number = SARATOGA_REFUSED_FIELD;
    else {
        for (which = NOW; which <= SYNCED; which++)
            memcpy(state + which * SARATOGA_ENGINE_SNAPSHOT, saved, SARATOGA_ENGINE_SNAPSHOT);
        put_numbers(state, n);
    }
    return done;
}

/* ---- METADATA: R19.3 */

static void digest_of(const uint8_t *packet, size_t packet_len, uint8_t *digest)
{
    uint8_t md5[SARATOGA_MD5_OCTETS];
    saratoga_md5_begin(md5, sizeof md5);
    saratoga_md5_add(md5, sizeof md5, packet, packet_len);
    saratoga_md5_end(md5, sizeof md5, digest, SARATOGA_DIGEST_OCTETS);
}

/* What reading it as METADATA refuses. In an empty table nothing else is refused but a new transfer with a CRC-32c. */
static struct saratoga_opened read_refusal(const uint8_t *packet, size_t packet_len)
{
    static uint8_t empty[SARATOGA_AREA_OCTETS];
    struct saratoga_opened opened;
    saratoga_fresh(empty, sizeof empty);
    opened = saratoga_open(empty, sizeof empty, packet, packet_len);
    if (opened.number == SARATOGA_REFUSED_CRC32C)
        opened.number = opened.code = 0;
    return opened;
}

static struct saratoga_meeting meet_end(const uint8_t *state, uint64_t id)
{
    struct saratoga_meeting m = {0};
    struct slot slot;
    if (find_slot(state, NOW, 1, id, &slot) < 0) {
        m.number = SARATOGA_REFUSED_NOT_OPEN;
        m.code = SARATOGA_CODE_UNKNOWN_ID;
    } else if (is_busy(state, id)) {
        m.kind = SARATOGA_MEET_WAIT;
    } else {
        m.kind = SARATOGA_MEET_ENDED;
        m.file = slot.file;
    }
    return m;
}

/* The table as it would be opened in; `other` where the Id is open for other METADATA. */
static struct saratoga_opened try_open(const uint8_t *state, int other, uint64_t id, const uint8_t *packet, size_t packet_len)
{
    static uint8_t area[SARATOGA_AREA_OCTETS];
    memcpy(area, area_of(state, NOW), sizeof area);
    if (other)
        saratoga_close(area, sizeof area, id);
    return saratoga_open(area, sizeof area, packet, packet_len);
}

static struct saratoga_meeting meet_open(const uint8_t *state, uint64_t id, const uint8_t *packet, size_t packet_len)
{
    struct saratoga_meeting m = {0};
    struct saratoga_opened opened;
    struct slot slot;
    uint8_t digest[SARATOGA_DIGEST_OCTETS];
    int is_open = find_slot(state, NOW, 1, id, &slot) >= 0, other;
    digest_of(packet, packet_len, digest);
    other = is_open && memcmp(digest, slot.digest, sizeof digest) != 0;
    if (other && is_busy(state, id)) {
        m.kind = SARATOGA_MEET_WAIT;
        return m;
    }
    opened = try_open(state, other, id, packet, packet_len);
    if (opened.number == 0 && !opened.already_open && get_numbers(state).next >= LAST_NUMBER) {
        opened.number = SARATOGA_REFUSED_TABLE_FULL;
        opened.code = SARATOGA_CODE_RECEIVER_RESOURCES;
    }
    m.number = opened.number, m.code = opened.code;
    if (m.number != 0)
        return m;
    m.kind = opened.already_open ? SARATOGA_MEET_KEPT : SARATOGA_MEET_MAKE;
    m.file = opened.already_open ? slot.file : get_numbers(state).next;
    if (!opened.already_open)
        m.id = id, m.ends = (uint64_t)other, m.old = other ? slot.file : 0;
    return m;
}

static struct saratoga_meeting meet(const uint8_t *state, size_t state_len, const uint8_t *packet, size_t packet_len)
{
    struct saratoga_meeting m = {0};
    struct saratoga_opened refusal;
    struct saratoga_packet read;
    m.number = held(state, state_len);
    if (m.number != 0)
        return m;
    refusal = read_refusal(packet, packet_len);
    m.number = refusal.number, m.code = refusal.code;
    if (m.number != 0)
        return m;
    read = saratoga_read(packet, packet_len);
    return read.flags & SARATOGA_FLAG_ENDED ? meet_end(state, read.id) : meet_open(state, read.id, packet, packet_len);
}

static void make(uint8_t *state, const struct saratoga_meeting *m, struct slot *slot, const uint8_t *packet, size_t packet_len)
{
    struct numbers n;
    struct slot unused;
    if (m->ends)
        take_out(state, m->id);
    saratoga_open(state, SARATOGA_AREA_OCTETS, packet, packet_len);
    slot->used = 1, slot->id = m->id, slot->file = m->file;
    digest_of(packet, packet_len, slot->digest);
    put_slot(state, find_slot(state, NOW, 0, 0, &unused), slot);
    n = get_numbers(state);
    n.next++;
    put_numbers(state, n);
    set_changed(state);
}

/* An answer is due: the first question decides when, and a later one is due again after it. */
static void ask(const uint8_t *state, struct slot *slot)
{
    uint64_t n = get_numbers(state).number + 1;
    slot->due = slot->due == 0 ? n : slot->due;
    slot->last = n;
}

static struct saratoga_meeting opened(uint8_t *state, size_t state_len, uint64_t time, uint64_t high, uint64_t low, uint64_t port,
                                      const uint8_t *packet, size_t packet_len, uint64_t well)
{
    struct saratoga_meeting m = meet(state, state_len, packet, packet_len);
    struct slot slot = {0};
    uint64_t id = saratoga_read(packet, packet_len).id;
    int index = m.kind == SARATOGA_MEET_KEPT ? find_slot(state, NOW, 1, id, &slot) : -1;
    if (m.kind == SARATOGA_MEET_KEPT || m.kind == SARATOGA_MEET_MAKE)
        ask(state, &slot);
    slot.high = high, slot.low = low, slot.port = port, slot.heard = time;
    if (m.kind == SARATOGA_MEET_KEPT) {
        put_slot(state, index, &slot);
        set_changed(state);
    }
    if (m.kind == SARATOGA_MEET_ENDED)
        take_out(state, id);
    if (m.kind == SARATOGA_MEET_MAKE && well)
        make(state, &m, &slot, packet, packet_len);
    return m;
}

/* ---- DATA: R19.4, R19.5 */

/* Whether an offset was received, and how far octets are alike from there on, up to `stop`. */
static int reach(const uint8_t *state, uint64_t id, uint64_t from, uint64_t *stop)
{
    uint64_t index, edge = listed(state, NOW, id).edge;
    struct saratoga_hole hole;
    for (index = 0;; index++) {
        hole = saratoga_transfer_hole(area_of(state, NOW), SARATOGA_AREA_OCTETS, id, index);
        if (hole.number != 0 || from < hole.end)
            break;
    }
    if (hole.number != 0 && from >= edge)
        return 0;
    if (hole.number == 0 && from >= hole.start) {
        *stop = hole.end < *stop ? hole.end : *stop;
        return 0;
    }
    edge = hole.number == 0 ? hole.start : edge;
    *stop = edge < *stop ? edge : *stop;
    return 1;
}

static struct saratoga_look look(const uint8_t *state, size_t state_len, uint64_t high, uint64_t low, uint64_t port,
                                 const uint8_t *packet, size_t packet_len, uint64_t from)
{
    struct saratoga_look l = {0};
    struct saratoga_recorded recorded;
    struct saratoga_packet read;
    struct slot slot;
    uint64_t stop;
    l.number = held(state, state_len);
    if (l.number != 0)
        return l;
    recorded = saratoga_try_record(area_of(state, NOW), SARATOGA_AREA_OCTETS, packet, packet_len);
    l.number = recorded.number, l.code = recorded.code;
    if (l.number != 0)
        return l;
    read = saratoga_read(packet, packet_len);
    find_slot(state, NOW, 1, read.id, &slot);
    from = from > read.offset ? from : read.offset;
    stop = read.offset + read.payload_len;
    if (slot.high != high || slot.low != low || slot.port != port) {
        l.kind = SARATOGA_LOOK_STRANGER;
    } else if (from >= stop) {
        l.kind = SARATOGA_LOOK_OVER;
    } else {
        l.kind = reach(state, read.id, from, &stop) ? SARATOGA_LOOK_COMPARE : SARATOGA_LOOK_WRITE;
        l.id = read.id, l.file = slot.file, l.from = from, l.to = stop;
        l.start = read.payload_at + (from - read.offset);
    }
    return l;
}

/* The stretch goes into the table as a packet of its own, with the packet's timestamp. */
static void record(uint8_t *state, uint64_t time, const uint8_t *packet, const struct saratoga_packet *read, const struct saratoga_look *l)
{
    static uint8_t piece[SARATOGA_PACKET_OCTETS];
    struct slot slot;
    int index = find_slot(state, NOW, 1, l->id, &slot), wanted = (read->flags & SARATOGA_FLAG_STATUS_WANTED) != 0;
    struct saratoga_written written =
        saratoga_write_data(read->flags & ~SARATOGA_FLAG_END_OF_DATA, read->id, packet + read->timestamp_at, (size_t)read->timestamp_len,
                            l->from, packet + l->start, (size_t)(l->to - l->from), piece, sizeof piece);
    saratoga_record(state, SARATOGA_AREA_OCTETS, piece, (size_t)written.size);
    slot.heard = time;
    if (wanted || is_complete(state, NOW, l->id))
        ask(state, &slot);
    slot.asked |= (uint8_t)wanted;
    put_slot(state, index, &slot);
    set_changed(state);
}

static struct saratoga_look stored(uint8_t *state, size_t state_len, uint64_t time, uint64_t high, uint64_t low, uint64_t port,
                                   const uint8_t *packet, size_t packet_len, uint64_t from, uint64_t well)
{
    struct saratoga_look l = look(state, state_len, high, low, port, packet, packet_len, from);
    struct saratoga_packet read = saratoga_read(packet, packet_len);
    if ((l.kind == SARATOGA_LOOK_COMPARE || l.kind == SARATOGA_LOOK_WRITE) && well)
        record(state, time, packet, &read, &l);
    else if (l.kind == SARATOGA_LOOK_COMPARE && !is_busy(state, l.id))
        take_out(state, l.id);
    return l;
}

/* ---- what is due: R19.8 to R19.10 */

static int is_over(uint64_t time, uint64_t since, uint64_t wait)
{
    return (time > since ? time - since : 0) >= wait;
}

static uint64_t due_of(const uint8_t *state, const struct saratoga_listed *found, const struct slot *slot, uint64_t time, uint64_t linger,
                       uint64_t forget)
{
    uint64_t id = found->id;
    if (may_name(state, id) && !slot->named)
        return SARATOGA_NEXT_NAME;
    if (slot->due != 0 && slot->due <= get_numbers(state).done && is_same(state, id))
        return SARATOGA_NEXT_ANSWER;
    if (may_report(state, id) && !slot->reported)
        return SARATOGA_NEXT_REPORT;
    if (slot->reported ? is_over(time, slot->heard, linger) : !found->complete && forget != 0 && is_over(time, slot->heard, forget))
        return SARATOGA_NEXT_CLOSE;
    return 0;
}

static struct saratoga_next next(const uint8_t *state, size_t state_len, uint64_t time, uint64_t interval, uint64_t linger,
                                 uint64_t forget, uint64_t from)
{
    struct saratoga_next next = {0};
    struct numbers n;
    uint64_t index, urgent = 0;
    next.number = held(state, state_len);
    if (next.number != 0)
        return next;
    n = get_numbers(state);
    for (index = 0; index < SARATOGA_TRANSFERS; index++) {
        struct saratoga_listed found = saratoga_transfer(area_of(state, NOW), SARATOGA_AREA_OCTETS, index);
        struct slot slot;
        if (found.number != 0)
            break;
        find_slot(state, NOW, 1, found.id, &slot);
        urgent |= slot.due > n.done || (slot.named && !slot.reported);
        if (found.id < from)
            continue;
        next.kind = due_of(state, &found, &slot, time, linger, forget);
        next.id = next.kind == 0 ? 0 : found.id;
        if (next.kind == SARATOGA_NEXT_NAME || next.kind == SARATOGA_NEXT_REPORT)
            next.file = slot.file, next.length = found.length;
        if (next.kind != 0)
            return next;
    }
    next.kind = n.changed && may_sync(n) && (urgent || is_over(time, n.begun, interval)) ? SARATOGA_NEXT_SYNC : SARATOGA_NEXT_NOTHING;
    return next;
}

static struct saratoga_letter tell(uint8_t *state, size_t state_len, uint64_t id, uint8_t *out, size_t out_len)
{
    struct saratoga_letter letter = {0};
    struct saratoga_written written;
    struct slot now, synced;
    int index, same;
    letter.number = held(state, state_len);
    if (letter.number != 0)
        return letter;
    same = is_same(state, id);
    index = find_slot(state, NOW, 1, id, &now);
    find_slot(state, SYNCED, 1, id, &synced);
    written = saratoga_write_status(area_of(state, SYNCED), SARATOGA_AREA_OCTETS, id, 0, !(same && now.asked), out, out_len);
    letter.number = written.number, letter.code = written.code;
    if (letter.number != 0)
        return letter;
    letter.size = written.size, letter.high = synced.high, letter.low = synced.low, letter.port = synced.port;
    if (same) {
        int again = now.due < now.last;
        now.due = again ? now.last : 0;
        now.asked = again ? now.asked : 0;
        put_slot(state, index, &now);
    }
    return letter;
}

static struct saratoga_done named(uint8_t *state, size_t state_len, uint64_t id, uint64_t well)
{
    struct saratoga_done done = {held(state, state_len), 0};
    struct slot slot;
    if (done.number == 0 && well && may_name(state, id)) {
        int index = find_slot(state, NOW, 1, id, &slot);
        slot.named = 1;
        put_slot(state, index, &slot);
        set_changed(state);
    }
    return done;
}

static struct saratoga_done reported(uint8_t *state, size_t state_len, uint64_t id)
{
    struct saratoga_done done = {held(state, state_len), 0};
    struct slot slot;
    if (done.number == 0 && may_report(state, id)) {
        int index = find_slot(state, NOW, 1, id, &slot);
        slot.reported = 1;
        put_slot(state, index, &slot);
        set_changed(state);
    }
    return done;
}

/* R19.6 */
static struct saratoga_closed close_id(uint8_t *state, size_t state_len, uint64_t id, uint64_t spoilt)
{
    struct saratoga_closed closed = {held(state, state_len), 0, 0, 0};
    struct slot slot;
    if (closed.number != 0)
        return closed;
    if (find_slot(state, NOW, 1, id, &slot) < 0) {
        closed.number = SARATOGA_REFUSED_NOT_OPEN;
        closed.code = SARATOGA_CODE_UNKNOWN_ID;
    } else if (!spoilt && is_busy(state, id)) {
        closed.kind = SARATOGA_CLOSE_WAIT;
    } else {
        closed.kind = SARATOGA_CLOSE_GONE;
        closed.file = slot.file;
        take_out(state, id);
    }
    return closed;
}

/* ---- syncs: R19.7 */

static struct saratoga_sync begin_sync(uint8_t *state, size_t state_len, uint64_t time)
{
    struct saratoga_sync sync = {held(state, state_len), 0, 0};
    struct numbers n;
    if (sync.number != 0)
        return sync;
    n = get_numbers(state);
    if (!may_sync(n))
        return sync;
    memcpy(state + SARATOGA_ENGINE_PENDING, state, SARATOGA_ENGINE_SNAPSHOT);
    n.under_way = 1, n.number++, n.changed = 0, n.begun = time;
    put_numbers(state, n);
    sync.sync = n.number;
    return sync;
}

static struct saratoga_done synced(uint8_t *state, size_t state_len, uint64_t sync, uint64_t good)
{
    struct saratoga_done done = {held(state, state_len), 0};
    struct numbers n;
    if (done.number != 0)
        return done;
    n = get_numbers(state);
    if (!n.under_way || sync != n.number)
        return done;
    n.under_way = 0;
    if (good) {
        memcpy(state + 2 * SARATOGA_ENGINE_SNAPSHOT, state + SARATOGA_ENGINE_PENDING, SARATOGA_ENGINE_SNAPSHOT);
        n.done = n.number;
    } else {
        memcpy(state, state + 2 * SARATOGA_ENGINE_SNAPSHOT, SARATOGA_ENGINE_SNAPSHOT);
        n.changed = 0;
    }
    put_numbers(state, n);
    return done;
}

const struct engine second_engine = {
    .start = start,
    .meet = meet,
    .opened = opened,
    .look = look,
    .stored = stored,
    .next = next,
    .tell = tell,
    .named = named,
    .reported = reported,
    .close = close_id,
    .sync = begin_sync,
    .synced = synced,
};
