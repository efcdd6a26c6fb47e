/*
 * The engine's state, and what it says is next. Here is nothing decided: the engine is asked until it says nothing, and what it says is done.
 */
#include "link.h"

#include <string.h>
#include <time.h>

uint8_t state[SARATOGA_ENGINE_STATE];
static uint64_t base, begun;       /* the clock's time when it was set, and when that was */
static int at_the_end;

static uint64_t milliseconds(clockid_t clock)
{
    struct timespec now;
    clock_gettime(clock, &now);
    return (uint64_t)now.tv_sec * 1000 + (uint64_t)now.tv_nsec / 1000000;
}

/* Milliseconds that never go back: not where the machine's clock is set, and not before what an earlier run wrote down. */
uint64_t now_ms(void)
{
    return base + (milliseconds(CLOCK_MONOTONIC) - begun);
}

void set_clock(uint64_t least)
{
    uint64_t real = milliseconds(CLOCK_REALTIME);
    base = real > least ? real : least;
    begun = milliseconds(CLOCK_MONOTONIC);
}

/* An open transfer by its Id; number 12 where it isn't open. */
struct saratoga_listed listed(uint64_t id)
{
    return saratoga_find(state, SARATOGA_AREA_OCTETS, id);
}

int is_open(uint64_t id, struct slot *slot)
{
    return slot_of(state, id, slot);
}

/* The files of an open transfer. */
struct transfer *open_transfer(uint64_t id)
{
    struct slot slot;
    return is_open(id, &slot) ? transfer_of(id, slot.file) : NULL;
}

/* Whether the engine knows of a transfer: open now, or as of the last good sync. */
int is_live(const struct transfer *t)
{
    struct slot slot;
    return (slot_of(state, t->id, &slot) && slot.file == t->file) ||
           (slot_of(state + SYNCED, t->id, &slot) && slot.file == t->file);
}

/*
 * What is next, from an Id on. A transfer that is put off, since its page can't have its name yet or its owner had enough answers for now,
 * is passed over: the others don't wait for it.
 */
static struct saratoga_next next_due(uint64_t *from)
{
    for (uint64_t now = now_ms();;) {
        struct saratoga_next due = saratoga_engine_next(state, sizeof state, now, at_the_end ? 0 : INTERVAL, options.linger,
                                                        options.forget, *from);
        int is_of_an_id = due.kind != SARATOGA_NEXT_REFUSED && due.kind != SARATOGA_NEXT_NOTHING && due.kind != SARATOGA_NEXT_SYNC;
        if (!is_of_an_id || open_transfer(due.id)->put_off <= now)
            return due;
        *from = due.id + 1;
    }
}

static void close_at_its_end(uint64_t id)
{
    struct transfer *t = open_transfer(id);
    struct slot slot;
    close_transfer(t->number, t, 0, is_open(id, &slot) && slot.reported ? "lingered" : "forgotten");
}

/* Does one thing, from an Id on. Gives 0 where there was none. */
static int do_next(uint64_t *from)
{
    struct saratoga_next due = next_due(from);
    struct transfer *t;
    switch (due.kind) {
    case SARATOGA_NEXT_ANSWER:
        answer_due(due.id);
        return 1;
    case SARATOGA_NEXT_NAME:
        name_page(&due);
        return 1;
    case SARATOGA_NEXT_REPORT:
        t = transfer_of(due.id, due.file);
        if (is_ready(t) && owe_hook(t)) {
            report_page(t);
            saratoga_engine_reported(state, sizeof state, due.id);
        }
        return 1;
    case SARATOGA_NEXT_CLOSE:
        close_at_its_end(due.id);
        return 1;
    case SARATOGA_NEXT_SYNC:
        return begin_sync();
    case SARATOGA_NEXT_REFUSED:
        die("the state in memory is no engine's, refusal %" PRIu64 ": the program has a fault", due.number);
    default:
        return sync_is_wanted() && begin_sync();
    }
}

/* Does all that is due. Who was passed over comes again once a worker is done, and at the next turn. */
void drive(void)
{
    uint64_t from = 0;
    int more;
    do {
        more = finish_sync();
        more |= finish_page();
        more |= settle();
        more |= send_repairs();
        from = more ? 0 : from;
        more |= do_next(&from);
    } while (more);
}

static void drive_and_wait(void)
{
    drive();
    while (is_at_work(&syncer) || is_at_work(&pager)) {
        wait_for(&syncer);
        wait_for(&pager);
        drive();
    }
}

/*
 * Before the end: all that isn't saved is, also that answers were sent, so that the next start doesn't send them again. Gives 0 where it
 * can't be.
 */
int drive_to_the_end(void)
{
    at_the_end = 1;
    for (size_t i = 0; i < MOST_FILES; i++)
        transfers[i].put_off = 0;
    drive_and_wait();
    int saved = last_sync_was_good();
    if (memcmp(state, state + SYNCED, SARATOGA_ENGINE_SNAPSHOT) != 0) {
        want_sync();
        drive_and_wait();
    }
    return saved;
}

int is_ending(void)
{
    return at_the_end;
}

/* For how many milliseconds nothing need be done, at most. */
int most_wait(void)
{
    uint64_t now = now_ms(), until = now + TICK;
    for (size_t i = 0; i < MOST_FILES; i++)
        if (transfers[i].used && transfers[i].put_off > now && transfers[i].put_off < until)
            until = transfers[i].put_off;
    return (int)(until - now);
}
