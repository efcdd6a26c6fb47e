/*
 * The end of a transfer. The engine closes it; what it had is set aside once a good sync has saved that, so that no crash finds the
 * transfer open and its file under another name.
 */
#include "link.h"

#include <stdlib.h>
#include <string.h>
#include <time.h>

/* The engine has closed it. Its sheet was made before, while the table held it. */
void has_closed(uint64_t number, struct transfer *t, const struct saratoga_listed *one, const char *why)
{
    t->why = why;
    t->put_off = 0;
    t->repair = 0;
    t->has_sheet &= t->closing_len == 0;
    say(number, "close id=%" PRIu64 " %s recordings=%" PRIu64 " absorbed=%" PRIu64 " runs=%" PRIu64, t->id, why,
        t->work.recordings, t->work.absorbed, one->runs);
}

/* Closes a transfer. Gives 0 where its page is complete and not reported yet. */
int close_transfer(uint64_t number, struct transfer *t, int spoilt, const char *why)
{
    struct saratoga_listed one = listed(t->id);
    struct slot slot;
    if (!is_open(t->id, &slot))
        die("transfer %" PRIu64 " isn't open: the program has a fault", t->id);
    prepare_closing(t, &one, why, spoilt ? t->has_sheet && t->verdict == SARATOGA_DIFFERS : (int)slot.reported);
    struct saratoga_closed closed = saratoga_engine_close(state, sizeof state, t->id, (uint64_t)spoilt);
    if (closed.number != 0)
        die("transfer %" PRIu64 " can't be closed, refusal %" PRIu64 ": the program has a fault", t->id, closed.number);
    if (closed.kind != SARATOGA_CLOSE_GONE) {
        forget_closing(t);
        return 0;
    }
    has_closed(number, t, &one, why);
    if (slot.due != 0 && spoilt) /* whoever waits for an answer learns that the Id isn't open */
        send_failure(number, &slot.owner, &t->route, t->id, SARATOGA_CODE_UNKNOWN_ID);
    return 1;
}

/* Makes the sheet of a transfer that is to be closed, while the table holds it. One that was reported keeps the one that it has. */
void prepare_closing(struct transfer *t, const struct saratoga_listed *one, const char *why, int keeps)
{
    forget_closing(t);
    t->empty = one->received == 0 && strcmp(t->suffix, "part") == 0;
    if (keeps || t->empty)
        return;
    t->closing = malloc(MOST_SHEET);
    if (t->closing != NULL)
        t->closing_len = closing_sheet(t->closing, t, one, why);
}

void forget_closing(struct transfer *t)
{
    free(t->closing);
    t->closing = NULL;
    t->closing_len = 0;
}

/* Its file is gone, or was cut. */
void close_lost(struct transfer *t)
{
    char name[NAME_OCTETS];
    name_of_file(name, t);
    warn("%s/%s: is gone, or was cut short; transfer %" PRIu64 " is closed and must begin anew", options.directory, name, t->id);
    close_transfer(t->number, t, 1, "lost");
}

/* A sync that failed took the closing back. */
void has_reopened(struct transfer *t)
{
    struct saratoga_listed one = listed(t->id);
    t->why = NULL;
    forget_closing(t);
    say(0, "taken-up id=%" PRIu64 " width=%" PRIu64 " length=%" PRIu64 " edge=%" PRIu64 " complete=%" PRIu64, one.id,
        8 * one.width, one.length, one.edge, one.complete);
}

/* Puts a closed transfer's files where they stay. Gives 0 where its sheet is still to be stored. */
static int settle_one(struct transfer *t)
{
    if (t->empty) {
        remove_empty(t);
        forget(t);
        return 1;
    }
    if (t->closing_len > 0 && !t->has_sheet) {
        store_closing_sheet(t);
        finish_page();
        if (!t->has_sheet)
            return 0;
    }
    if (strcmp(t->suffix, "part") == 0)
        set_aside(t);
    forget(t);
    return 1;
}

/* Transfers that are closed also on disk. Gives 1 where something was done. */
int settle(void)
{
    int did = 0;
    uint64_t now = now_ms();
    for (size_t i = 0; i < MOST_FILES; i++) {
        struct transfer *t = &transfers[i];
        if (!t->used || t->put_off > now || is_live(t))
            continue;
        if (t->why == NULL) { /* a sync that failed took its opening back */
            struct saratoga_listed none = {.runs = 0};
            has_closed(0, t, &none, "lost");
            t->empty = t->work.recordings == 0;
        }
        did |= settle_one(t);
    }
    return did;
}

/* The next transfer to be ended for another: reported ones by their Id, then by option the one heard longest ago. */
static struct transfer *to_end(const int tried[MOST_FILES])
{
    struct transfer *chosen = NULL;
    uint64_t best = UINT64_MAX;
    int best_reported = 0;
    for (size_t i = 0; i < MOST_FILES; i++) {
        struct transfer *t = &transfers[i];
        struct slot slot;
        if (!t->used || tried[i] || t->why != NULL || !is_open(t->id, &slot) || slot.file != t->file)
            continue;
        uint64_t order = slot.reported ? t->id : slot.heard;
        if (!(slot.reported || options.make_room) || slot.reported < (uint64_t)best_reported)
            continue;
        if (chosen == NULL || slot.reported > (uint64_t)best_reported || order < best) {
            chosen = t;
            best = order;
            best_reported = (int)slot.reported;
        }
    }
    return chosen;
}

/* Ends a transfer to make room. One whose page waits to be reported is passed over. Gives 0 where there is none. */
int make_room(uint64_t number)
{
    int tried[MOST_FILES] = {0};
    for (struct transfer *t; (t = to_end(tried)) != NULL;) {
        if (close_transfer(number, t, 0, "to-make-room"))
            return 1;
        tried[t - transfers] = 1;
    }
    return 0;
}
