/*
 * What a sender does, with no clock, socket or file of its own.
 *
 * It opens with METADATA, and sends nothing else until that was answered. Then it sends the file from the receiver's edge on.
 * Every N packets ask for STATUS. With a rate nothing waits for the answer; with none, the answers are all that tells how fast the
 * other end is, and no more than 4 N packets are sent beyond the edge that was reported last.
 *
 * A STATUS that has holes leads to a round of repairs, which goes before the rest of the file; its last piece asks. There is one
 * round at a time: holes of another STATUS may be those that the round is about to fill, so the next round is planned from a
 * STATUS that is known to be of a later moment.
 *
 * Where an answer is missing for `wait`, or a failure says that the receiver has no room for another run, or doesn't know the
 * transfer, METADATA asks what it has, and sending begins anew from there. That is a try. So many tries without an octet more
 * confirmed end the transfer, and so does a receiver that so often has nothing of what it had.
 */
#include "send.h"

#include <string.h>

void begin_transfer(struct transfer *t, const struct page *page, const struct options *options,
                    struct saratoga_piece *pieces, int64_t now)
{
    memset(t, 0, sizeof *t);
    t->id = page->id;
    t->width = page->width;
    t->length = page->length;
    t->payload = options->payload;
    t->ask = options->ask;
    t->most_tries = options->tries;
    t->window = options->rate > 0 ? UINT64_MAX : WINDOW_ASKS * options->ask * options->payload;
    t->wait = options->wait;
    t->pieces = pieces;
    t->state = OPENING;
    t->deadline = now; /* the first try is due */
}

static int is_in_round(const struct transfer *t)
{
    return t->piece_at < t->piece_count;
}

static int has_octets_to_send(const struct transfer *t)
{
    return is_in_round(t) || (t->next < t->length && t->next - t->best.edge < t->window);
}

/* Asks with METADATA; what was planned before is void. */
static void try_again(struct transfer *t)
{
    t->state = t->tries == t->most_tries ? GIVEN_UP : OPENING;
    t->tries += t->state == OPENING;
    t->metadata_due = 1;
    t->piece_at = t->piece_count = 0;
    t->round_open = t->refused = t->asked = 0;
}

/* Something new was heard: the wait begins anew. */
static void heard(struct transfer *t, int64_t now)
{
    t->asked = 0;
    t->deadline = now + t->wait;
}

static void start_round(struct transfer *t, uint8_t *packet, size_t packet_len, const struct saratoga_packet *read,
                        int64_t now)
{
    t->piece_count = plan_round(packet, read, packet_len, t->payload, t->pieces, (size_t)t->ask,
                                t->no_room);
    t->no_room = 0;
    t->piece_at = 0;
    t->round_open = 0;
    if (t->piece_count > 0)
        heard(t, now);
}

/* The answer to METADATA: what the receiver has now, whatever was heard before. */
static void take_opening(struct transfer *t, const struct report *report, int64_t now)
{
    if (report->edge == 0 && t->most.edge > 0 && ++t->lost > t->most_tries) {
        t->state = GIVEN_UP;
        return;
    }
    if (has_more(report, &t->most))
        t->tries = 0;
    t->best = t->most = *report;
    t->next = report->edge;
    t->state = SENDING;
    t->since_ask = 0;
    heard(t, now);
}

/*
 * Whether a STATUS is of a moment after the round: it has the piece that asked, or octets that were sent later. Any other
 * may list what the round is about to fill.
 */
static int answers_round(const struct transfer *t, const uint8_t *packet, const struct saratoga_packet *read,
                         const struct report *report)
{
    return !is_in_round(t) && (!t->round_open || report->edge > t->mark || says_received(packet, read, t->asked_with));
}

static void take_status(struct transfer *t, uint8_t *packet, size_t packet_len, const struct saratoga_packet *read,
                        int64_t now)
{
    struct report report = report_of(packet, read);
    if (read->width != t->width || report.edge > t->length)
        return;
    t->status_count++;
    if (report.progress == t->length) {
        t->best = report;
        t->state = CONFIRMED;
    } else if (t->metadata_due) {
        return; /* it can't be the answer to METADATA that isn't sent yet */
    } else if (t->state == OPENING) {
        take_opening(t, &report, now);
        if (t->state == SENDING)
            start_round(t, packet, packet_len, read, now);
    } else if (is_older(&report, &t->best)) {
        t->old_count++;
    } else {
        if (has_more(&report, &t->best))
            heard(t, now);
        if (has_more(&report, &t->most))
            t->tries = 0;
        raise_to(&t->best, &report);
        raise_to(&t->most, &report);
        if (t->next < report.edge) /* sent before METADATA asked, and come since */
            t->next = report.edge;
        if (answers_round(t, packet, read, &report))
            start_round(t, packet, packet_len, read, now);
    }
}

/*
 * Failures that METADATA may mend: no room (for another run, mostly), Id not known, METADATA wanted. While METADATA isn't
 * answered they may be of packets before it. With no room for another run a round is sent to its end: its later pieces fill holes.
 */
static void take_failure(struct transfer *t, uint64_t code)
{
    int no_room = code == SARATOGA_CODE_RECEIVER_RESOURCES;
    t->failure = code;
    t->no_room |= no_room;
    if (!no_room && code != SARATOGA_CODE_UNKNOWN_ID && code != SARATOGA_CODE_METADATA_FIRST)
        t->state = REFUSED;
    else if (t->state == SENDING && no_room && is_in_round(t))
        t->refused = 1;
    else if (t->state == SENDING)
        try_again(t);
}

void take_packet(struct transfer *t, uint8_t *packet, size_t packet_len, int64_t now)
{
    struct saratoga_packet read = saratoga_read(packet, packet_len);
    if (read.number != 0 || read.type != SARATOGA_TYPE_STATUS || read.id != t->id || t->state >= CONFIRMED)
        return;
    if (read.status != 0)
        take_failure(t, read.status);
    else if (read.flags & SARATOGA_FLAG_NO_METADATA)
        take_failure(t, SARATOGA_CODE_METADATA_FIRST);
    else
        take_status(t, packet, packet_len, &read, now);
}

/* The next piece of the round or, where there is none, the next of the file. */
static struct step next_data(struct transfer *t, int64_t now)
{
    int is_repair = is_in_round(t), ends_round, ends_file;
    struct saratoga_piece piece = {t->next, t->length - t->next < t->payload ? t->length - t->next : t->payload};
    struct step step = {DATA_NOW, 0, 0, width_flags(t->width)};
    if (is_repair)
        piece = t->pieces[t->piece_at++];
    else
        t->next += piece.length;
    ends_round = is_repair && !is_in_round(t);
    ends_file = !is_repair && t->next == t->length;
    if (ends_round) {
        t->asked_with = piece;
        t->mark = t->next;
        t->round_open = 1;
    }
    step.offset = piece.offset;
    step.length = piece.length;
    if (ends_file)
        step.flags |= SARATOGA_FLAG_END_OF_DATA;
    if (++t->since_ask >= t->ask || ends_round || ends_file) {
        step.flags |= SARATOGA_FLAG_STATUS_WANTED;
        t->since_ask = 0;
        if (!t->asked)
            t->deadline = now + t->wait;
        t->asked = 1;
    }
    t->packets++;
    t->repairs += (uint64_t)is_repair;
    return step;
}

struct step next_step(struct transfer *t, int64_t now)
{
    struct step step = {WAIT, 0, 0, 0};
    int waits = t->state == OPENING || t->asked || !has_octets_to_send(t);
    if (t->state <= SENDING && ((waits && now >= t->deadline) || (t->refused && !is_in_round(t))))
        try_again(t);
    if (t->state >= CONFIRMED) {
        step.what = ENDED;
    } else if (t->state == OPENING && t->metadata_due) {
        step.what = METADATA_NOW;
        t->metadata_due = 0;
        t->metadata_count++;
        t->deadline = now + t->wait;
    } else if (t->state == SENDING && has_octets_to_send(t)) {
        step = next_data(t, now);
    }
    return step;
}
