/* The simulation: worlds from seeds, event by event, until one breaks a rule. */
#include "simulate.h"

#include <inttypes.h>
#include <setjmp.h>
#include <stdarg.h>
#include <stdio.h>
#include <stdlib.h>
#include <string.h>

enum { CHAOS = 4000, TRACED = 30, LINE = 160 };

struct world world;
uint64_t now;
uint64_t counted[COUNTED];
static uint64_t chance, event, total;
static jmp_buf stopped, ended;
static const char *const counted_names[COUNTED] = {"crashes", "openings", "stretches written", "stretches compared", "of other octets",
                                                   "STATUS", "good syncs", "bad syncs", "pages spoilt", "reports", "of them again",
                                                   "pages spoilt after they were told as complete"};
static char why[512];
static int is_tracing;
static char lines[TRACED][LINE];
static uint64_t line_count;

/* ---- chance, traces and the end */

uint64_t below(uint64_t limit)
{
    uint64_t x = chance += UINT64_C(0x9E3779B97F4A7C15);
    x = (x ^ x >> 30) * UINT64_C(0xBF58476D1CE4E5B9);
    x = (x ^ x >> 27) * UINT64_C(0x94D049BB133111EB);
    return (x ^ x >> 31) % limit;
}

int happens(uint64_t per_10000)
{
    return !world.calm && per_10000 > 0 && below(10000) < per_10000;
}

void trace(const char *format, ...)
{
    va_list arguments;
    char text[LINE - 40];
    if (!is_tracing)
        return;
    va_start(arguments, format);
    vsnprintf(text, sizeof text, format, arguments);
    va_end(arguments);
    snprintf(lines[line_count++ % TRACED], LINE, "%6" PRIu64 "  time %6" PRIu64 "  %s", event, now, text);
}

void violated(const char *rule, const char *format, ...)
{
    va_list arguments;
    int size = snprintf(why, sizeof why, "%s: ", rule);
    va_start(arguments, format);
    vsnprintf(why + size, sizeof why - (size_t)size, format, arguments);
    va_end(arguments);
    longjmp(ended, 1);
}

void machine_stops(void)
{
    longjmp(stopped, 1);
}

void sync_thread_runs(void)
{
    if (below(8) == 0)
        shell_sync_step();
}

/* ---- a world */

static uint64_t rarely(uint64_t most)
{
    return below(3) == 0 ? 0 : below(most) + 1;
}

static void choose_world(void)
{
    memset(&world, 0, sizeof world);
    world.loss = rarely(3000);
    world.repeat = rarely(2000);
    world.reorder = rarely(5000);
    world.corrupt = rarely(300);
    world.spoof = rarely(300);
    world.stop = rarely(250);
    world.write_fails = rarely(300);
    world.sync_fails = rarely(800);
    world.make_fails = rarely(800);
    world.name_fails = rarely(1500);
    world.close = rarely(50);
    world.spoilt = rarely(30);
    world.interval = below(200);
    world.linger = below(2) * below(400);
    world.forget = 1500 + below(3000);
    world.transfers = 1 + below(12);
    world.ids = below(8) == 0 ? 20 : 1 + below(2 * world.transfers);
    world.again = below(3) == 0 ? below(100) : 100 + below(500);
    world.longest = below(4) == 0 ? MOST_LENGTH : 1 + below(200);
    world.payload = below(4) == 0 ? 200 : 1 + below(60);
    world.md5 = below(3) * 5000;
}

static void begin_world(uint64_t seed)
{
    chance = seed * UINT64_C(0x9E3779B97F4A7C15) + 1;
    choose_world();
    now = 1000;
    event = 0;
    line_count = 0;
    disk_clear();
    judge_clear();
    network_clear();
}

static void operator_acts(void)
{
    static const uint64_t ids[] = {0, UINT32_MAX, 7, 8, 1000, 70000};
    uint64_t id = ids[below(sizeof ids / sizeof ids[0])];
    if (happens(world.close))
        shell_close(id, 0);
    if (happens(world.spoilt))
        shell_close(id, 1);
}

/* One event. Where nothing of a kind can happen, time passes. */
static void happen(void)
{
    uint64_t kind = below(100);
    int done = 1;
    if (kind < 28)
        network_sends();
    else if (kind < 60)
        done = network_arrives();
    else if (kind < 75)
        done = shell_next();
    else if (kind < 88)
        done = shell_sync_step();
    else if (kind < 94)
        done = shell_sync_ended();
    else
        operator_acts(), done = 0;
    if (!done)
        now += below(12);
}

/* Stops the machine and starts it, until a start went well. */
static void restart(void)
{
    if (setjmp(stopped) != 0)
        trace("the machine stops while it starts");
    disk_crash();
    judge_crash();
    shell_start();
    trace("started");
}

static void run_until(uint64_t last)
{
    while (event < last && !(world.calm && network_is_done())) {
        if (setjmp(stopped) != 0) {
            trace("the machine stops");
            counted[CRASHES]++;
            restart();
        } else {
            event++;
            total++;
            happen();
        }
    }
}

/* Some chaos, then no more loss or failure, until all pages were reported. 0, or 1 where a rule was broken. */
static int run_world(uint64_t seed)
{
    if (setjmp(ended) != 0)
        return 1;
    begin_world(seed);
    restart();
    run_until(CHAOS);
    trace("from here on nothing is lost, fails or stops");
    world.calm = 1;
    world.again = 600; /* longer than a sync takes */
    run_until(CHAOS + network_calm());
    if (!network_is_done())
        violated("liveness", "nothing is lost any more, and a page is not reported after %d events", (int)(event - CHAOS));
    judge_end();
    return 0;
}

/* ---- the program */

static void show_failure(uint64_t seed, const char *engine)
{
    uint64_t i;
    printf("FAILED: seed %" PRIu64 ", event %" PRIu64 ": %s\n", seed, event, why);
    is_tracing = 1;
    run_world(seed);
    for (i = line_count > TRACED ? line_count - TRACED : 0; i < line_count; i++)
        printf("  %s\n", lines[i % TRACED]);
    printf("again: simulate --engine %s --seed %" PRIu64 " --events 1\n", engine, seed);
}

static int simulate(uint64_t seed, uint64_t events, const char *engine)
{
    uint64_t worlds = 0;
    int i;
    for (; total < events; worlds++)
        if (run_world(seed + worlds)) {
            show_failure(seed + worlds, engine);
            return 1;
        }
    printf("%" PRIu64 " events in %" PRIu64 " worlds", total, worlds);
    for (i = 0; i < COUNTED; i++)
        printf(", %" PRIu64 " %s", counted[i], counted_names[i]);
    printf("\n");
    return 0;
}

static const char *const help =
    "usage: simulate [--seed N] [--events N] [--engine NAME]\n"
    "\n"
    "Runs a shell over the engine (include/saratoga_engine.h) on a model disk and a model network, and judges by a history of its own\n"
    "whether reported pages are whole, what was told is kept, the saved snapshot is held, file numbers are used once, and pages get\n"
    "reported once nothing is lost any more (docs/ENGINE.md).\n"
    "\n"
    "  --seed N       the first world's seed (1); each next world has the next seed\n"
    "  --events N     how many events, at least (1000000); the last world is run to its end\n"
    "  --engine NAME  first: the proved engine (the default); second: the one in host/simulate/second.c\n"
    "  --help         prints this\n"
    "\n"
    "Ends with 0, or with 1 where a rule was broken: then it prints the seed, what happened last, and the command that repeats it.\n";

static int usage(const char *what)
{
    fprintf(stderr, "simulate: %s; --help says more\n", what);
    return 2;
}

static int number(const char *text, uint64_t *value)
{
    char *end;
    *value = strtoull(text, &end, 10);
    return text[0] >= '0' && text[0] <= '9' && *end == '\0';
}

int main(int argc, char **argv)
{
    uint64_t seed = 1, events = 1000000;
    const char *engine = "first";
    int i;
    for (i = 1; i < argc; i += 2) {
        if (strcmp(argv[i], "--help") == 0)
            return fputs(help, stdout) < 0;
        if (i + 1 == argc)
            return usage("an option that is not known, or lacks its value");
        if (strcmp(argv[i], "--seed") == 0 ? !number(argv[i + 1], &seed) : strcmp(argv[i], "--events") == 0 && !number(argv[i + 1], &events))
            return usage("not a number");
        if (strcmp(argv[i], "--engine") == 0)
            engine = argv[i + 1];
        else if (strcmp(argv[i], "--seed") != 0 && strcmp(argv[i], "--events") != 0)
            return usage("an option that is not known, or lacks its value");
    }
    tried_engine = strcmp(engine, "second") == 0 ? &second_engine : strcmp(engine, "first") == 0 ? &first_engine : NULL;
    if (tried_engine == NULL)
        return usage("no such engine: first or second");
    return simulate(seed, events, engine);
}
