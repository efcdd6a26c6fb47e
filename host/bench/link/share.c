/*
 * The engine's share of a packet's time in the link program. Linked into it with --wrap for each function below, it counts their calls and
 * their time, less what the clock takes, and says at the end what share of the receiving thread's processor time that was. A call in
 * which the thread had to wait for a processor, which no call is as long as, is left out.
 */
#define _GNU_SOURCE
#include <stdio.h>
#include <time.h>

#include "saratoga_engine.h"

enum { LOOK, STORED, NEXT, TRY_RECORD, READ, OTHER, COUNTERS };
static const char *const names[COUNTERS] = {"saratoga_engine_look", "saratoga_engine_stored", "saratoga_engine_next", "saratoga_try_record", "saratoga_read",
                                            "sync, synced, tell"};
static struct {
    uint64_t calls;
    int64_t time;
} counters[COUNTERS];
static int64_t clock_takes;
#define WAITED 50000               /* nanoseconds */

static int64_t read_clock(clockid_t clock)
{
    struct timespec at;
    clock_gettime(clock, &at);
    return (int64_t)at.tv_sec * 1000000000 + at.tv_nsec;
}

static int64_t begin(void)
{
    return read_clock(CLOCK_MONOTONIC);
}

static void count(int which, int64_t begun)
{
    int64_t took = read_clock(CLOCK_MONOTONIC) - begun - clock_takes;
    if (took > WAITED)
        return;
    counters[which].calls++;
    counters[which].time += took;
}

__attribute__((constructor)) static void measure_clock(void)
{
    int64_t least = INT64_MAX;
    for (int i = 0; i < 10000; i++) {
        int64_t begun = begin(), took = begin() - begun;
        least = took < least ? took : least;
    }
    clock_takes = least;
}

__attribute__((destructor)) static void say(void)
{
    int64_t all = read_clock(CLOCK_THREAD_CPUTIME_ID), engine = 0;
    double packets = (double)counters[LOOK].calls;
    fprintf(stderr, "| In the link program | calls a packet | ns a call | share of the thread's time |\n|---|---:|---:|---:|\n");
    for (int i = 0; i < COUNTERS; i++) {
        double calls = (double)counters[i].calls, time = (double)counters[i].time;
        engine += counters[i].time;
        fprintf(stderr, "| `%s` | %.2f | %.0f | %.1f %% |\n", names[i], calls / packets, calls > 0 ? time / calls : 0, 100 * time / (double)all);
    }
    fprintf(stderr, "| all of them, a packet | | %.0f of %.0f | %.1f %% |\n", (double)engine / packets, (double)all / packets,
            100 * (double)engine / (double)all);
}

#define WRAPPED(which, type, name, parameters, arguments) \
    struct type __real_##name parameters;                 \
    struct type __wrap_##name parameters;                 \
    struct type __wrap_##name parameters                  \
    {                                                     \
        int64_t begun = begin();                          \
        struct type answer = __real_##name arguments;     \
        count(which, begun);                              \
        return answer;                                    \
    }

WRAPPED(LOOK, saratoga_look, saratoga_engine_look,
        (const uint8_t *state, size_t state_len, uint64_t high, uint64_t low, uint64_t port, const uint8_t *packet, size_t packet_len, uint64_t from),
        (state, state_len, high, low, port, packet, packet_len, from))
WRAPPED(STORED, saratoga_look, saratoga_engine_stored,
        (uint8_t *state, size_t state_len, uint64_t time, uint64_t high, uint64_t low, uint64_t port, const uint8_t *packet, size_t packet_len,
         uint64_t from, uint64_t well),
        (state, state_len, time, high, low, port, packet, packet_len, from, well))
WRAPPED(NEXT, saratoga_next, saratoga_engine_next,
        (const uint8_t *state, size_t state_len, uint64_t time, uint64_t interval, uint64_t linger, uint64_t forget, uint64_t from),
        (state, state_len, time, interval, linger, forget, from))
WRAPPED(TRY_RECORD, saratoga_recorded, saratoga_try_record, (const uint8_t *area, size_t area_len, const uint8_t *packet, size_t packet_len),
        (area, area_len, packet, packet_len))
WRAPPED(READ, saratoga_packet, saratoga_read, (const uint8_t *packet, size_t packet_len), (packet, packet_len))
WRAPPED(OTHER, saratoga_sync, saratoga_engine_sync, (uint8_t *state, size_t state_len, uint64_t time), (state, state_len, time))
WRAPPED(OTHER, saratoga_done, saratoga_engine_synced, (uint8_t *state, size_t state_len, uint64_t sync, uint64_t good), (state, state_len, sync, good))
WRAPPED(OTHER, saratoga_letter, saratoga_engine_tell, (uint8_t *state, size_t state_len, uint64_t id, uint8_t *out, size_t out_len),
        (state, state_len, id, out, out_len))
