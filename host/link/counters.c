/* What is counted, from the start of the program on: printed at the end by --stats, and now and then by --stats-every. */
#include "link.h"

#include <stdio.h>
#include <string.h>

struct counters counters;

/* Where a sender is counted: by its address, whatever its port. As many are kept as there is room for; the rest is summed. */
static struct counted_peer *peer_of(const struct sender *from)
{
    for (size_t i = 0; i < MOST_COUNTED; i++) {
        struct counted_peer *peer = &counters.peers[i];
        if (!peer->used)
            *peer = (struct counted_peer){.used = 1, .address = {from->high, from->low, from->port >> 16 << 16}};
        if (peer->address.high == from->high && peer->address.low == from->low && peer->address.port >> 16 == from->port >> 16)
            return peer;
    }
    counters.others.used = 1;
    return &counters.others;
}

/* A packet of a sender that is heard; one of a pass has no sender. */
void count_packet(const struct packet *p)
{
    counters.packets++;
    counters.octets += p->length;
    if (socket_fd < 0)
        return;
    struct counted_peer *peer = peer_of(&p->from);
    peer->packets++;
    peer->octets += p->length;
}

void count_refusal(uint64_t number)
{
    counters.refused[number < MOST_REFUSALS ? number : 0]++;
}

/* An answer that is due: it waits, which counts once until it is sent, or it doesn't. */
void count_answer(struct transfer *t, int waits)
{
    counters.held_back += waits && !t->held_back;
    t->held_back = waits;
}

uint64_t all_refused(void)
{
    uint64_t sum = 0;
    for (size_t i = 0; i < MOST_REFUSALS; i++)
        sum += counters.refused[i];
    return sum;
}

uint64_t open_now(void)
{
    uint64_t count = 0;
    while (saratoga_transfer(state, SARATOGA_AREA_OCTETS, count).number == 0)
        count++;
    return count;
}

static void print_peer(const struct counted_peer *peer)
{
    char host[64] = "others", port[16];
    if (peer != &counters.others)
        show_sender(&peer->address, host, port);
    if (peer->used)
        report("0 stats-peer address=%s packets=%" PRIu64 " octets=%" PRIu64, host, peer->packets, peer->octets);
}

void print_stats(void)
{
    const struct counters *c = &counters;
    report("0 stats packets=%" PRIu64 " octets=%" PRIu64 " refused=%" PRIu64 " rejected=%" PRIu64 " lost=%" PRIu64 " dropped=%" PRIu64
           " unheard=%" PRIu64 " answers=%" PRIu64 " held-back=%" PRIu64 " unsent=%" PRIu64 " good-syncs=%" PRIu64
           " bad-syncs=%" PRIu64 " pages=%" PRIu64 " differing=%" PRIu64 " open=%" PRIu64,
           c->packets, c->octets, all_refused(), c->rejected, c->lost, c->dropped, c->unheard, c->answers, c->held_back, c->unsent,
           c->good_syncs, c->bad_syncs, c->complete, c->differing, open_now());
    for (size_t i = 0; i < MOST_REFUSALS; i++)
        if (c->refused[i] > 0)
            report("0 stats-refused refusal=%zu count=%" PRIu64, i, c->refused[i]);
    for (size_t i = 0; i < MOST_COUNTED; i++)
        print_peer(&c->peers[i]);
    print_peer(&c->others);
}

/* Whether so many milliseconds went by since `last`, which then is now. */
static int is_due(uint64_t *last, uint64_t every)
{
    uint64_t now = now_ms();
    if (*last == 0)
        *last = now;
    if (now - *last < every)
        return 0;
    *last = now;
    return 1;
}

/* Now and then. */
void tick_counters(void)
{
    static uint64_t printed, written;
    if (options.stats_every > 0 && is_due(&printed, options.stats_every))
        print_stats();
    if (options.metrics != NULL && is_due(&written, METRICS_EVERY))
        write_metrics();
}

void end_counters(void)
{
    if (options.stats || options.stats_every > 0)
        print_stats();
    if (options.metrics != NULL)
        write_metrics();
}
