/*
 * The same random calls on the exported engine and on the second one; every answer, and every buffer that is written, must be equal.
 *
 *     compare [--seed N] [--calls N]
 */
#include "engine.h"

#include <inttypes.h>
#include <stdio.h>
#include <stdlib.h>
#include <string.h>

enum { ROOM = 400, WALK = 3000, PAIR = 2 };

static const struct engine *const engines[PAIR] = {&first_engine, &second_engine};
static uint8_t states[PAIR][SARATOGA_ENGINE_STATE], before[PAIR][SARATOGA_ENGINE_STATE], saved[PAIR][SARATOGA_ENGINE_SNAPSHOT];
static size_t state_len;
static uint64_t chance, seed, calls, refused, now, sync_number;
static uint8_t packet[ROOM];
static size_t packet_len;

static uint64_t below(uint64_t limit)
{
    uint64_t x = chance += UINT64_C(0x9E3779B97F4A7C15);
    x = (x ^ x >> 30) * UINT64_C(0xBF58476D1CE4E5B9);
    x = (x ^ x >> 27) * UINT64_C(0x94D049BB133111EB);
    return (x ^ x >> 31) % limit;
}

/* ---- packets */

static uint64_t any_id(void)
{
    static const uint64_t ids[] = {0, 5, UINT32_MAX};
    return below(60) == 0 ? below(UINT64_MAX) : below(20) == 0 ? 100 + below(20) : ids[below(sizeof ids / sizeof ids[0])];
}

static uint64_t any_width(void)
{
    return below(16) > 0 ? SARATOGA_WIDTH_16 : below(2) ? SARATOGA_WIDTH_32 : SARATOGA_WIDTH_128;
}

/* Mostly the same METADATA, so that transfers stay open. */
static void metadata(void)
{
    static const uint64_t checksums[] = {0, SARATOGA_CHECKSUM_MD5, SARATOGA_CHECKSUM_CRC32};
    uint64_t usual = below(6), checksum = usual ? 0 : checksums[below(3)];
    uint64_t flags = (usual ? SARATOGA_WIDTH_16 : any_width()) | checksum | (below(30) == 0 ? SARATOGA_FLAG_ENDED : 0);
    uint64_t sizes[] = {below(4), 40, 90, below(UINT64_MAX)};
    uint8_t path[1] = {(uint8_t)(usual ? 'a' : 'a' + below(3))};
    packet_len = (size_t)saratoga_write_metadata(flags, any_id(), states[0], (size_t)(checksum >> 4) * 4, 0, usual ? 40 : sizes[below(4)], 1,
                                                 2, path, 1, packet, sizeof packet).size;
}

static void data(void)
{
    uint64_t any = below(3) == 0, flags = any_width(), offset = any ? below(42) : 10 * below(4), count = any ? 1 + below(14) : 10 + 10 * below(2);
    uint8_t payload[ROOM] = {0};
    size_t stamp = below(5) == 0 ? 16 : 0;
    flags |= stamp ? SARATOGA_FLAG_TIMESTAMP : 0;
    flags |= below(3) == 0 ? SARATOGA_FLAG_STATUS_WANTED : 0;
    flags |= offset + count == 40 || below(30) == 0 ? SARATOGA_FLAG_END_OF_DATA : 0;
    packet_len = (size_t)saratoga_write_data(flags, any_id(), (const uint8_t *)"a timestamp here", stamp, offset, payload, (size_t)count, packet,
                                             sizeof packet).size;
}

static void any_packet(int is_data)
{
    uint64_t kind = below(60);
    if (kind == 0 ? !is_data : is_data)
        data();
    else
        metadata();
    if (kind == 1)
        packet_len = (size_t)saratoga_write_failure(below(UINT32_MAX), 3, packet, sizeof packet).size;
    if (kind == 2)
        packet_len = (size_t)saratoga_write_beacon(0, 0, packet, 0, packet, sizeof packet).size;
    if (kind == 3)
        packet_len = (size_t)below(packet_len + 1);
    if (kind == 4 && packet_len > 0)
        packet[below(packet_len)] ^= (uint8_t)(1 << below(8));
}

/* ---- one call on both */

static void equal(const char *call, const void *a, const void *b, size_t size)
{
    const uint64_t *x = a, *y = b;
    size_t i;
    calls++;
    if (memcmp(a, b, size) == 0)
        return;
    printf("FAILED: seed %" PRIu64 ", call %" PRIu64 ", %s: answers differ\n", seed, calls, call);
    for (i = 0; i < size / sizeof *x; i++)
        printf("  field %zu: %" PRIu64 " and %" PRIu64 "\n", i, x[i], y[i]);
    exit(1);
}

/* A refusal changes nothing. */
static void unchanged(const char *call, uint64_t number)
{
    int i;
    refused += number != 0;
    for (i = 0; number != 0 && i < PAIR; i++)
        if (memcmp(states[i], before[i], sizeof states[i]) != 0) {
            printf("FAILED: seed %" PRIu64 ", call %" PRIu64 ", %s: a refusal changed the state of engine %d\n", seed, calls, call, i + 1);
            exit(1);
        }
}

/* EACH is a call on the i-th engine and its state. */
#define BOTH(type, name, each)                       \
    do {                                             \
        struct type answers[PAIR];                   \
        int i;                                       \
        for (i = 0; i < PAIR; i++)                   \
            answers[i] = engines[i]->each;           \
        equal(name, &answers[0], &answers[1], sizeof answers[0]); \
        unchanged(name, answers[0].number);          \
    } while (0)

static void start(void)
{
    uint64_t number = below(20) == 0 ? UINT64_MAX - below(4) : sync_number, file = below(20) == 0 ? UINT64_MAX - below(5) : below(1000);
    size_t len = below(20) == 0 ? (size_t)below(SARATOGA_ENGINE_SNAPSHOT) : SARATOGA_ENGINE_SNAPSHOT;
    uint8_t torn = saved[0][0];
    if (below(20) == 0)
        saved[0][0] = saved[1][0] = 17;
    BOTH(saratoga_done, "start", start(states[i], state_len, saved[i], len, number, file));
    saved[0][0] = saved[1][0] = torn;
}

static void on_metadata(void)
{
    uint64_t sender = below(12) / 11, well = below(8);
    any_packet(0);
    BOTH(saratoga_meeting, "meet", meet(states[i], state_len, packet, packet_len));
    BOTH(saratoga_meeting, "opened", opened(states[i], state_len, now, sender, 2, 3, packet, packet_len, well));
}

/* From an offset on, or stretch by stretch to the packet's end, as a shell does it. */
static void on_data(void)
{
    uint64_t sender = below(12) / 11, well, from = below(4) == 0 ? below(70) : 0, stretches = from == 0 ? 8 : 1;
    any_packet(1);
    for (; stretches > 0; stretches--) {
        struct saratoga_look l = first_engine.look(states[0], state_len, sender, 2, 3, packet, packet_len, from);
        well = below(40);
        BOTH(saratoga_look, "look", look(states[i], state_len, sender, 2, 3, packet, packet_len, from));
        BOTH(saratoga_look, "stored", stored(states[i], state_len, now, sender, 2, 3, packet, packet_len, from, well));
        if (l.kind < SARATOGA_LOOK_COMPARE)
            return;
        from = l.to;
        memcpy(before, states, sizeof states);
    }
}

static void tell(uint64_t id)
{
    uint8_t out[PAIR][SARATOGA_STATUS_OCTETS] = {{0}};
    size_t len = below(10) == 0 ? (size_t)below(60) : sizeof out[0];
    BOTH(saratoga_letter, "tell", tell(states[i], state_len, id, out[i], len));
    equal("tell (buffer)", out[0], out[1], sizeof out[0]);
}

static void sync_both(void)
{
    struct saratoga_sync begun[PAIR];
    int i;
    for (i = 0; i < PAIR; i++)
        begun[i] = engines[i]->sync(states[i], state_len, now);
    equal("sync", &begun[0], &begun[1], sizeof begun[0]);
    unchanged("sync", begun[0].number);
    if (begun[0].sync != 0)
        sync_number = begun[0].sync;
}

static void synced(void)
{
    uint64_t number = below(10) == 0 ? below(10) : sync_number, good = below(4);
    int i;
    BOTH(saratoga_done, "synced", synced(states[i], state_len, number, good));
    for (i = 0; i < PAIR; i++)
        memcpy(saved[i], states[i] + SARATOGA_ENGINE_PENDING, SARATOGA_ENGINE_SNAPSHOT);
}

/* What is next, and that is done. */
static void next(void)
{
    uint64_t interval = below(50), linger = below(below(2) ? 12 : 100), forget = below(3) * (below(20) ? 2000 : below(400)), good = below(8);
    uint64_t from = below(4) ? 0 : any_id();
    struct saratoga_next n = first_engine.next(states[0], state_len, now, interval, linger, forget, from);
    BOTH(saratoga_next, "next", next(states[i], state_len, now, interval, linger, forget, from));
    if (n.kind == SARATOGA_NEXT_ANSWER)
        tell(n.id);
    if (n.kind >= SARATOGA_NEXT_NAME && n.kind <= SARATOGA_NEXT_REPORT && good == 1) /* it waits */
        BOTH(saratoga_closed, "close", close(states[i], state_len, n.id, 0));
    else if (n.kind == SARATOGA_NEXT_NAME)
        BOTH(saratoga_done, "named", named(states[i], state_len, n.id, good));
    if (n.kind == SARATOGA_NEXT_REPORT)
        BOTH(saratoga_done, "reported", reported(states[i], state_len, n.id));
    if (n.kind == SARATOGA_NEXT_CLOSE)
        BOTH(saratoga_closed, "close", close(states[i], state_len, n.id, 0));
    if (n.kind == SARATOGA_NEXT_SYNC)
        sync_both();
}

/* What nobody asked for. */
static void any_call(void)
{
    uint64_t id = any_id(), kind = below(6), flag = below(2);
    if (kind == 0)
        tell(id);
    if (kind == 1)
        BOTH(saratoga_done, "named", named(states[i], state_len, id, flag));
    if (kind == 2)
        BOTH(saratoga_done, "reported", reported(states[i], state_len, id));
    if (kind == 3)
        BOTH(saratoga_closed, "close", close(states[i], state_len, id, flag));
    if (kind == 4)
        sync_both();
    if (kind == 5 && below(10) == 0)
        start();
}

static void one_event(void)
{
    uint64_t kind = below(100);
    if (kind < 15)
        on_metadata();
    else if (kind < 50)
        on_data();
    else if (kind < 82)
        next();
    else if (kind < 92)
        synced();
    else
        any_call();
}

/* A state that is none: too short, or with an area that holds no table. */
static void one_step(void)
{
    static const size_t areas[] = {0, SARATOGA_ENGINE_PENDING, 2 * SARATOGA_ENGINE_SNAPSHOT};
    size_t at = areas[below(3)];
    uint8_t kept[PAIR] = {states[0][at], states[1][at]};
    int is_torn = below(100) == 0;
    state_len = below(100) == 0 ? (size_t)below(SARATOGA_ENGINE_STATE) : SARATOGA_ENGINE_STATE;
    if (is_torn)
        states[0][at] = states[1][at] = 17;
    memcpy(before, states, sizeof states);
    now = below(1000) == 0 ? below(UINT64_MAX) : now + below(6);
    one_event();
    if (is_torn && states[0][at] == 17 && states[1][at] == 17)
        states[0][at] = kept[0], states[1][at] = kept[1];
}

static void walk(void)
{
    int i;
    chance = seed * UINT64_C(0x9E3779B97F4A7C15) + 1;
    memset(saved, 0, sizeof saved);
    memset(states, 0, sizeof states);
    now = sync_number = 0;
    for (i = 0; i < WALK; i++)
        one_step();
}

int main(int argc, char **argv)
{
    uint64_t most = 100000, walks = 0;
    int i;
    seed = 1;
    for (i = 1; i < argc; i += 2) {
        if (i + 1 == argc || (strcmp(argv[i], "--seed") != 0 && strcmp(argv[i], "--calls") != 0)) {
            int asked = strcmp(argv[i], "--help") == 0;
            fprintf(asked ? stdout : stderr, "usage: compare [--seed N] [--calls N]\n\nRuns the same random calls on the exported engine and on"
                    " the one in host/simulate/second.c, and compares every answer.\n");
            return asked ? 0 : 2;
        }
        *(strcmp(argv[i], "--seed") == 0 ? &seed : &most) = strtoull(argv[i + 1], NULL, 10);
    }
    for (; calls < most; walks++, seed++)
        walk();
    printf("%" PRIu64 " calls on two engines in %" PRIu64 " walks, %" PRIu64 " of them refused: every answer is equal\n", calls, walks, refused);
    return 0;
}
