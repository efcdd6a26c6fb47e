/* The engine with the judge listening: each call goes to the engine that is tried, and its answer to the judge too. */
#include "simulate.h"

static struct saratoga_done start(uint8_t *state, size_t state_len, const uint8_t *saved, size_t saved_len, uint64_t sync, uint64_t file)
{
    judge_started();
    return tried_engine->start(state, state_len, saved, saved_len, sync, file);
}

static struct saratoga_meeting meet(const uint8_t *state, size_t state_len, const uint8_t *packet, size_t packet_len)
{
    return tried_engine->meet(state, state_len, packet, packet_len);
}

static struct saratoga_meeting opened(uint8_t *state, size_t state_len, uint64_t time, uint64_t high, uint64_t low, uint64_t port,
                                      const uint8_t *packet, size_t packet_len, uint64_t well)
{
    struct saratoga_meeting m = tried_engine->opened(state, state_len, time, high, low, port, packet, packet_len, well);
    struct address from = {high, low, port};
    judge_opened(&m, &from, packet, packet_len, well != 0);
    return m;
}

static struct saratoga_look look(const uint8_t *state, size_t state_len, uint64_t high, uint64_t low, uint64_t port,
                                 const uint8_t *packet, size_t packet_len, uint64_t from)
{
    struct saratoga_look l = tried_engine->look(state, state_len, high, low, port, packet, packet_len, from);
    judge_looked(&l);
    return l;
}

static struct saratoga_look stored(uint8_t *state, size_t state_len, uint64_t time, uint64_t high, uint64_t low, uint64_t port,
                                   const uint8_t *packet, size_t packet_len, uint64_t from, uint64_t well)
{
    struct saratoga_look l = tried_engine->stored(state, state_len, time, high, low, port, packet, packet_len, from, well);
    judge_stored(&l, well != 0);
    return l;
}

static struct saratoga_next next(const uint8_t *state, size_t state_len, uint64_t time, uint64_t interval, uint64_t linger,
                                 uint64_t forget, uint64_t from)
{
    return tried_engine->next(state, state_len, time, interval, linger, forget, from);
}

static struct saratoga_letter tell(uint8_t *state, size_t state_len, uint64_t id, uint8_t *out, size_t out_len)
{
    return tried_engine->tell(state, state_len, id, out, out_len);
}

static struct saratoga_done named(uint8_t *state, size_t state_len, uint64_t id, uint64_t well)
{
    return tried_engine->named(state, state_len, id, well);
}

static struct saratoga_done reported(uint8_t *state, size_t state_len, uint64_t id)
{
    return tried_engine->reported(state, state_len, id);
}

static struct saratoga_closed close_id(uint8_t *state, size_t state_len, uint64_t id, uint64_t spoilt)
{
    struct saratoga_closed closed = tried_engine->close(state, state_len, id, spoilt);
    judge_closed(&closed, id, spoilt != 0);
    return closed;
}

static struct saratoga_sync begin_sync(uint8_t *state, size_t state_len, uint64_t time)
{
    struct saratoga_sync sync = tried_engine->sync(state, state_len, time);
    judge_sync_begun(sync.sync);
    return sync;
}

static struct saratoga_done synced(uint8_t *state, size_t state_len, uint64_t sync, uint64_t good)
{
    struct saratoga_done done = tried_engine->synced(state, state_len, sync, good);
    judge_sync_ended(sync, good != 0);
    return done;
}

const struct engine judged_engine = {
    .start = start,
    .meet = meet,
    .opened = opened,
    .look = look,
    .stored = stored,
    .next = next,
    .tell = tell,
    .named = named,
    .reported = reported,
    .close = close_id,
    .sync = begin_sync,
    .synced = synced,
};
