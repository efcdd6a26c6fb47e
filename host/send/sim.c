/*
 * Thousands of transfers through transfer.c and round.c over a network that exists in memory alone: it loses, repeats and reorders in
 * both directions, and its receiver may be silent, or lose everything and begin anew. Time is the simulation's own.
 *
 *     sim SEED COUNT
 *
 * What is judged: a transfer is confirmed only where the receiver has the file, by its own set of offsets; it is confirmed
 * wherever that can be; DATA comes after METADATA was answered, and asks at least every N packets; with nobody at the
 * other end it ends after wait x tries; and where packets arrive in their order, nothing comes twice and each loss costs one packet.
 */
#include "sim.h"

#include <stdio.h>
#include <stdlib.h>
#include <string.h>

enum { MOST_STEPS = 400000, SPACING = 10000 };

static struct receiver receiver;
static struct saratoga_piece pieces[64];
static uint8_t file[MOST_LENGTH];
static uint64_t confirmed, given_up, in_order, with_failure_3, with_loss_of_all, total_packets;

/* A transfer that is simulated: what is chosen by chance, and what was seen of it on the wire. */
struct trial {
    struct options options;
    struct page page;
    struct transfer t;
    int64_t now, began, lost_at; /* lost_at: when the receiver loses everything; 0 for never */
    uint64_t unasked;            /* DATA in a row that did not ask */
    int heard, keeps_order, saw_failure_3;
    int is_long;                 /* many packets, many of them lost: more than 64 runs */
    uint64_t without_first;      /* so often octet 0 is lost */
    const char *fault;
};

static void choose_network(struct trial *trial, int kind)
{
    int way;
    memset(&network, 0, sizeof network);
    network.delay = (int64_t)below(5000000);
    for (way = 0; way < 2; way++) {
        network.loss[way] = kind == 0 ? 0 : below(3) == 0 ? 0 : below(300);
        network.repeat[way] = kind == 0 ? 0 : below(2) * below(200);
        network.jitter[way] = kind == 0 ? 0 : (int64_t)(below(2) * below(2000000));
    }
    if (trial->is_long && kind > 0)
        network.loss[TO_RECEIVER] = 100 + below(300);
    network.late = (int64_t)below(40000000);
    if (kind == 1) { /* DATA keeps its order and isn't repeated; answers may do anything, and come again much later */
        network.repeat[TO_RECEIVER] = 0, network.jitter[TO_RECEIVER] = 0;
        network.repeat[TO_SENDER] = 300;
    }
    trial->keeps_order = kind <= 1;
}

static void choose_page(struct trial *trial)
{
    static const uint64_t widths[] = {2, 4, 8, 16};
    struct page *page = &trial->page;
    struct saratoga_written written;
    uint64_t payload = below(3) == 0 ? below(MOST_PACKET - 50) + 1 : below(trial->is_long ? 20 : 100) + 1, i;
    trial->options.payload = payload;
    page->length = below(20) == 0 ? below(3) : below(2) ? below(payload * 40) + 1 : below(payload * 300) + 1;
    if (trial->is_long)
        page->length = payload * 800;
    page->length = page->length > MOST_LENGTH ? MOST_LENGTH : page->length;
    page->width = widths[below(4)];
    page->id = below(UINT32_MAX) + 1;
    for (i = 0; i < page->length; i++)
        file[i] = (uint8_t)below(256);
    written = saratoga_write_metadata(width_flags(page->width), page->id, file, 0, width_flags(page->width) >> 16, page->length, 1,
                                      2, (const uint8_t *)"page", 4, page->metadata, sizeof page->metadata);
    page->metadata_len = (size_t)written.size;
}

/* The receiver's STATUS of another transfer, which says that it is complete: nothing of this one. */
static void put_another_status(struct trial *trial)
{
    uint8_t other[2 * SARATOGA_STATUS_OCTETS];
    uint64_t i, width = trial->page.width;
    memset(other, 0, sizeof other);
    other[0] = 0x44;
    other[1] = (uint8_t)((width_flags(width) | SARATOGA_FLAG_UNASKED) >> 16);
    for (i = 0; i < 4; i++)
        other[4 + i] = (uint8_t)((trial->page.id - 1) >> (24 - 8 * i));
    for (i = 0; i < (width < 8 ? width : 8); i++) {
        other[7 + width - i] = (uint8_t)(trial->page.length >> 8 * i);
        other[7 + 2 * width - i] = (uint8_t)((trial->page.length - (trial->page.length > 0)) >> 8 * i);
    }
    put_packet(TO_SENDER, other, (size_t)(8 + 2 * width), trial->now);
}

/* What a sender puts on the wire. */
static void watch(struct trial *trial, const struct step *step)
{
    if (step->what == METADATA_NOW)
        trial->unasked = 0; /* it asks too */
    if (step->what == WAIT && trial->t.next == trial->page.length && trial->unasked > 0)
        trial->fault = "it waits for an answer, and has not asked";
    if (step->what != DATA_NOW)
        return;
    if (!trial->heard)
        trial->fault = "DATA before METADATA was answered";
    trial->unasked = step->flags & SARATOGA_FLAG_STATUS_WANTED ? 0 : trial->unasked + 1;
    if (trial->unasked >= trial->options.ask)
        trial->fault = "too many packets without a request for STATUS";
    if (step->length > trial->options.payload)
        trial->fault = "a payload that is too long";
}

/* The sender has the turn: at most one packet. Gives when it wants the next. */
static int64_t sender_turn(struct trial *trial)
{
    uint8_t out[MOST_PACKET];
    struct step step = next_step(&trial->t, trial->now);
    watch(trial, &step);
    if (step.what == WAIT)
        return trial->t.deadline;
    if (step.what == METADATA_NOW)
        put_packet(TO_RECEIVER, trial->page.metadata, trial->page.metadata_len, trial->now);
    if (step.what == DATA_NOW) {
        struct saratoga_written written = saratoga_write_data(step.flags, trial->page.id, file, 0, step.offset, file + step.offset,
                                                              (size_t)step.length, out, sizeof out);
        if (written.number != 0)
            trial->fault = "DATA that can't be written";
        if (step.offset == 0 && trial->without_first > 0)
            trial->without_first--, lost_data++;
        else
            put_packet(TO_RECEIVER, out, (size_t)written.size, trial->now);
    }
    return trial->now + SPACING;
}

static void arrival(struct trial *trial)
{
    uint8_t packet[MOST_PACKET];
    enum way way;
    size_t size = take_arrival(&way, packet);
    if (way == TO_RECEIVER) {
        packet_comes(&receiver, packet, size, trial->now);
        return;
    }
    trial->heard |= packet[3] == 0 && saratoga_number_of(packet + 4, 4) == trial->page.id;
    trial->saw_failure_3 |= packet[3] == SARATOGA_CODE_RECEIVER_RESOURCES;
    take_packet(&trial->t, packet, size, trial->now);
}

/* Until the transfer has ended; 0 where it doesn't. */
static int run_trial(struct trial *trial)
{
    int64_t due = trial->now;
    int steps;
    for (steps = 0; steps < MOST_STEPS && trial->t.state <= SENDING && trial->fault == NULL && receiver.fault == NULL; steps++) {
        int64_t arrives = next_arrival();
        if (trial->lost_at != 0 && trial->now >= trial->lost_at) {
            lose_everything(&receiver);
            trial->lost_at = 0;
        }
        if (below(500) == 0)
            put_another_status(trial);
        if (arrives <= due) {
            trial->now = arrives > trial->now ? arrives : trial->now;
            arrival(trial);
            if (due > trial->now + SPACING)
                due = trial->now;
        } else {
            trial->now = due > trial->now ? due : trial->now;
            due = sender_turn(trial);
        }
    }
    return steps < MOST_STEPS;
}

/* What must hold of the end; NULL, or what does not. */
static const char *judge(const struct trial *trial)
{
    const struct transfer *t = &trial->t;
    uint64_t whole = (trial->page.length + trial->options.payload - 1) / trial->options.payload;
    if (trial->fault != NULL || receiver.fault != NULL)
        return trial->fault != NULL ? trial->fault : receiver.fault;
    if (t->state == CONFIRMED && !receiver.was_complete)
        return "confirmed, and the receiver never had it all";
    if (!receiver.is_dead && t->state != CONFIRMED)
        return "not confirmed, though the receiver is there";
    if (receiver.is_dead && t->state != GIVEN_UP)
        return "not given up, though nobody is there";
    if (receiver.is_dead && (t->metadata_count != trial->options.tries ||
                             trial->now != trial->began + (int64_t)trial->options.tries * trial->options.wait))
        return "not given up after wait x tries";
    if (receiver.is_dead || !trial->keeps_order || t->metadata_count > 1)
        return NULL;
    if (receiver.needless > 0)
        return "octets were sent again that had come";
    return t->packets != whole + lost_data ? "not one packet more for each that was lost" : NULL;
}

static const char *one_trial(uint64_t seed)
{
    struct trial trial;
    int kind, ends;
    seed_chance(seed);
    memset(&trial, 0, sizeof trial);
    clear_network();
    kind = (int)below(4);
    trial.is_long = below(20) == 0;
    choose_network(&trial, kind);
    choose_page(&trial);
    memset(&receiver, 0, sizeof receiver);
    lose_everything(&receiver);
    receiver.file = file;
    receiver.length = trial.page.length;
    receiver.is_dead = below(30) == 0;
    trial.options.ask = below(sizeof pieces / sizeof pieces[0]) + 1;
    trial.options.rate = (double)below(2);
    if (trial.is_long && below(2)) {
        trial.options.ask = below(3) + 1;
        trial.without_first = below(10);
    }
    trial.options.wait = (int64_t)(2 * (network.delay + 2000000) + 45000000);
    trial.options.tries = receiver.is_dead ? below(20) + 1 : 100;
    trial.began = trial.now = (int64_t)below(1000000000);
    if (kind == 3 && below(2))
        trial.lost_at = trial.now + (int64_t)below(60000000) + 1;
    with_loss_of_all += trial.lost_at != 0;
    begin_transfer(&trial.t, &trial.page, &trial.options, pieces, trial.now);
    ends = run_trial(&trial);
    confirmed += trial.t.state == CONFIRMED;
    given_up += trial.t.state == GIVEN_UP;
    in_order += trial.keeps_order && trial.t.metadata_count == 1;
    with_failure_3 += (uint64_t)trial.saw_failure_3;
    total_packets += trial.t.packets;
    return ends ? judge(&trial) : "it does not end";
}

int main(int argc, char **argv)
{
    uint64_t seed, count, i;
    if (argc != 3) {
        fprintf(stderr, "usage: sim SEED COUNT\n");
        return 2;
    }
    seed = strtoull(argv[1], NULL, 10);
    count = strtoull(argv[2], NULL, 10);
    for (i = 0; i < count; i++) {
        const char *why = one_trial(seed + i);
        if (why != NULL) {
            printf("FAILED: seed %" PRIu64 ": %s\n", seed + i, why);
            return 1;
        }
    }
    printf("%" PRIu64 " transfers simulated, %" PRIu64 " packets: %" PRIu64 " confirmed, %" PRIu64 " given up with nobody there; %" PRIu64
           " in order, %" PRIu64 " met failure 3, of %" PRIu64 " the receiver lost everything\n",
           count, total_packets, confirmed, given_up, in_order, with_failure_3, with_loss_of_all);
    return 0;
}
