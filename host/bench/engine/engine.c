/*
 * Measures the engine: nanoseconds for each call with 1 and 16 transfers open and 1 and 63 runs in each, and packets a second as a shell
 * takes them, without writes and with each payload written to a file, synced where an answer is due.
 *
 *     engine DIR            the file is written there
 *     engine DIR --packets N    how many packets a stream has (default 50000)
 */
#define _GNU_SOURCE
#include <fcntl.h>
#include <inttypes.h>
#include <stdio.h>
#include <stdlib.h>
#include <string.h>
#include <time.h>
#include <unistd.h>

#include "saratoga_engine.h"

enum { PAYLOAD = 1400, BATCH = 64, ASK = 256, CALLS = 1024, REPEATS = 51, STREAMS = 7, HEAD = 24 };
#define LENGTH (UINT64_C(1) << 40)
#define FAR (LENGTH / 2)           /* octets from here on come in order, before it are the runs */

static uint8_t state[SARATOGA_ENGINE_STATE];
static uint8_t packets[CALLS][HEAD + PAYLOAD];
static size_t sizes[CALLS];

static void must(int so, const char *what)
{
    if (!so) {
        fprintf(stderr, "bench-engine: %s\n", what);
        exit(1);
    }
}

static double now(void)
{
    struct timespec at;
    clock_gettime(CLOCK_MONOTONIC, &at);
    return (double)at.tv_sec * 1e9 + (double)at.tv_nsec;
}

/* ---- what a shell does */

static size_t data(uint8_t *out, uint64_t id, uint64_t offset, uint64_t flags)
{
    static const uint8_t payload[PAYLOAD];
    return (size_t)saratoga_write_data(SARATOGA_WIDTH_64 | flags, id, payload, 0, offset, payload, PAYLOAD, out, HEAD + PAYLOAD).size;
}

static struct saratoga_look look(const uint8_t *packet, size_t size)
{
    return saratoga_engine_look(state, sizeof state, 1, 2, 3, packet, size, 0);
}

static void stored(const uint8_t *packet, size_t size)
{
    must(saratoga_engine_stored(state, sizeof state, 1, 1, 2, 3, packet, size, 0, 1).kind == SARATOGA_LOOK_WRITE, "DATA must be taken");
}

static struct saratoga_next next(void)
{
    return saratoga_engine_next(state, sizeof state, 1, 1000, 60000, 0, 0);
}

static void open_id(uint64_t id)
{
    uint8_t packet[SARATOGA_METADATA_OCTETS];
    struct saratoga_written written =
        saratoga_write_metadata(SARATOGA_WIDTH_64, id, packet, 0, SARATOGA_WIDTH_64 >> 16, LENGTH, 0, 0, (const uint8_t *)"page", 4, packet, sizeof packet);
    must(written.number == 0, "METADATA must be written");
    must(saratoga_engine_opened(state, sizeof state, 1, 1, 2, 3, packet, (size_t)written.size, 1).kind == SARATOGA_MEET_MAKE, "an Id must be opened");
}

static void sync_state(void)
{
    struct saratoga_sync sync = saratoga_engine_sync(state, sizeof state, 1);
    must(sync.sync != 0 && saratoga_engine_synced(state, sizeof state, sync.sync, 1).number == 0, "a sync must be good");
}

/* So many transfers with so many runs each, in all three snapshots. */
static void make_state(uint64_t open, uint64_t runs)
{
    static const uint8_t nothing[SARATOGA_ENGINE_SNAPSHOT];
    uint8_t packet[HEAD + PAYLOAD], out[SARATOGA_STATUS_OCTETS];
    must(saratoga_engine_start(state, sizeof state, nothing, sizeof nothing, 0, 1).number == 0, "a state must be started");
    for (uint64_t id = 0; id < open; id++) {
        open_id(id);
        for (uint64_t run = 0; run < runs; run++) {
            uint64_t offset = run + 1 == runs ? FAR : 2 * PAYLOAD * run;
            size_t size = data(packet, id, offset, 0);
            stored(packet, size);
        }
    }
    sync_state();
    for (struct saratoga_next due = next(); due.kind == SARATOGA_NEXT_ANSWER; due = next())
        must(saratoga_engine_tell(state, sizeof state, due.id, out, sizeof out).number == 0, "an answer must be written");
    sync_state();
}

/* ---- one call */

enum call { LOOK, STORED, TRY_RECORD, RECORD, NEXT, SYNC, CALL_COUNT };
static const char *const names[] = {"look", "stored", "saratoga_try_record", "saratoga_record", "next, nothing due", "sync and synced"};

/* Packets that go on from the run at FAR. */
static void make_packets(uint64_t id)
{
    for (uint64_t i = 0; i < CALLS; i++)
        sizes[i] = data(packets[i], id, FAR + PAYLOAD * (i + 1), 0);
}

static void make_call(enum call call, size_t i)
{
    switch (call) {
    case LOOK:
        must(look(packets[i], sizes[i]).kind == SARATOGA_LOOK_WRITE, "DATA must be taken");
        break;
    case STORED:
        stored(packets[i], sizes[i]);
        break;
    case TRY_RECORD:
        must(saratoga_try_record(state, SARATOGA_AREA_OCTETS, packets[i], sizes[i]).number == 0, "DATA must be recordable");
        break;
    case RECORD:
        must(saratoga_record(state, SARATOGA_AREA_OCTETS, packets[i], sizes[i]).number == 0, "DATA must be recorded");
        break;
    case NEXT:
        must(next().kind == SARATOGA_NEXT_NOTHING, "nothing must be due");
        break;
    default:
        sync_state();
    }
}

static int compare_times(const void *one, const void *other)
{
    double first = *(const double *)one, second = *(const double *)other;
    return (first > second) - (first < second);
}

static double median(double *times, size_t count)
{
    qsort(times, count, sizeof times[0], compare_times);
    return times[count / 2];
}

/* Nanoseconds of a call, the median of some; the state is the same at the start of each repeat. */
static double measure(enum call call)
{
    static uint8_t start[sizeof state];
    double times[REPEATS];
    memcpy(start, state, sizeof state);
    for (size_t repeat = 0; repeat < REPEATS; repeat++) {
        memcpy(state, start, sizeof state);
        double begun = now();
        for (size_t i = 0; i < CALLS; i++)
            make_call(call, i);
        times[repeat] = (now() - begun) / CALLS;
    }
    memcpy(state, start, sizeof state);
    return median(times, REPEATS);
}

static void measure_calls(void)
{
    static const struct { uint64_t open, runs; } cases[] = {{1, 1}, {1, 63}, {16, 1}, {16, 63}};
    enum { CASES = sizeof cases / sizeof cases[0] };
    double times[CALL_COUNT][CASES];
    for (size_t i = 0; i < CASES; i++) {
        make_state(cases[i].open, cases[i].runs);
        make_packets(cases[i].open - 1);
        for (enum call call = LOOK; call < CALL_COUNT; call++)
            times[call][i] = measure(call);
    }
    printf("| Nanoseconds a call |");
    for (size_t i = 0; i < CASES; i++)
        printf(" %" PRIu64 " open, %" PRIu64 " run%s |", cases[i].open, cases[i].runs, cases[i].runs == 1 ? "" : "s");
    printf("\n|---|---:|---:|---:|---:|\n");
    for (enum call call = LOOK; call < CALL_COUNT; call++) {
        printf("| %s |", names[call]);
        for (size_t i = 0; i < CASES; i++)
            printf(" %.0f |", times[call][i]);
        putchar('\n');
    }
}

/* ---- packets a second */

static int directory, page;

/* As the link program does: the page, then the snapshot in place of the one before, then its name. */
static void force_all(void)
{
    int saved = openat(directory, "area.new", O_WRONLY | O_CREAT | O_TRUNC, 0666);
    must(saved >= 0 && fsync(page) == 0, "the page can't be forced to disk");
    must(pwrite(saved, state + SARATOGA_ENGINE_PENDING, SARATOGA_ENGINE_SNAPSHOT, 0) == SARATOGA_ENGINE_SNAPSHOT && fsync(saved) == 0 && close(saved) == 0,
         "the snapshot can't be saved");
    must(renameat(directory, "area.new", directory, "area") == 0 && fsync(directory) == 0, "the snapshot can't get its name");
}

/* All that is due; with files, a sync is one. */
static void drive(int with_files)
{
    uint8_t out[SARATOGA_STATUS_OCTETS];
    for (struct saratoga_next due = next(); due.kind != SARATOGA_NEXT_NOTHING; due = next()) {
        if (due.kind == SARATOGA_NEXT_ANSWER) {
            must(saratoga_engine_tell(state, sizeof state, due.id, out, sizeof out).number == 0, "an answer must be written");
            continue;
        }
        must(due.kind == SARATOGA_NEXT_SYNC, "only syncs and answers are due here");
        struct saratoga_sync sync = saratoga_engine_sync(state, sizeof state, 1);
        if (with_files)
            force_all();
        saratoga_engine_synced(state, sizeof state, sync.sync, 1);
    }
}

/* Packets a second: each looked at, maybe written, and stored; what is due is done after each batch. */
static double stream(uint64_t count, int with_engine, int with_writes, int with_syncs)
{
    uint8_t packet[HEAD + PAYLOAD];
    double begun = now();
    for (uint64_t i = 0; i < count; i++) {
        uint64_t offset = FAR + PAYLOAD * (i + 1);
        size_t size = data(packet, 0, offset, (i + 1) % ASK == 0 ? SARATOGA_FLAG_STATUS_WANTED : 0);
        if (with_engine)
            must(look(packet, size).kind == SARATOGA_LOOK_WRITE, "DATA must be taken");
        if (with_writes)
            must(pwrite(page, packet + size - PAYLOAD, PAYLOAD, (off_t)(PAYLOAD * i)) == PAYLOAD, "the page can't be written");
        if (with_engine)
            stored(packet, size);
        if (with_engine && (i + 1) % BATCH == 0)
            drive(with_syncs);
    }
    return (double)count / (now() - begun) * 1e9;
}

/* One case after the other, some times. */
static void measure_streams(uint64_t count)
{
    static const struct { const char *name; int engine, writes, syncs; } cases[] = {
        {"the packets made, and nothing done with them", 0, 0, 0},
        {"the engine", 1, 0, 0},
        {"writes", 0, 1, 0},
        {"the engine, with writes", 1, 1, 0},
        {"the engine, with writes and syncs", 1, 1, 1},
    };
    enum { CASES = sizeof cases / sizeof cases[0] };
    double rates[CASES][STREAMS];
    for (size_t repeat = 0; repeat < STREAMS; repeat++) {
        for (size_t i = 0; i < CASES; i++) {
            make_state(1, 1);
            must(ftruncate(page, 0) == 0 && fsync(page) == 0, "the page can't be emptied");
            rates[i][repeat] = stream(count, cases[i].engine, cases[i].writes, cases[i].syncs);
        }
    }
    printf("\n| One transfer in order, packets of %d octets, every %dth asks | Packets a second |\n|---|---:|\n", PAYLOAD, ASK);
    for (size_t i = 0; i < CASES; i++)
        printf("| %s | %.0f |\n", cases[i].name, median(rates[i], STREAMS));
}

int main(int argc, char **argv)
{
    uint64_t count = argc == 4 && strcmp(argv[2], "--packets") == 0 ? strtoull(argv[3], NULL, 10) : 50000;
    directory = argc >= 2 ? open(argv[1], O_RDONLY | O_DIRECTORY) : -1;
    page = directory < 0 ? -1 : openat(directory, "page", O_RDWR | O_CREAT | O_TRUNC, 0666);
    must(page >= 0, "which directory may be written to?");
    measure_calls();
    measure_streams(count);
    unlinkat(directory, "page", 0);
    unlinkat(directory, "area", 0);
    return 0;
}
