/*
 * Measures octets_read::read_number beside plain C (readers.h), on the same octets in one run, for
 * host/bench/descriptors/run. First it compares: all must read the same numbers; otherwise it ends with status 1.
 *
 *     descriptors                 compares and measures: case, reader, nanoseconds a call
 *     descriptors --repeats N     how often each case is measured; the shortest time is printed (default 5001)
 *     descriptors --list          prints the cases and the readers of each: case, reader, calls
 *     descriptors --once          runs each of these once and calls case_end after it, for callgrind
 */
#define _POSIX_C_SOURCE 200809L
#include <stdio.h>
#include <stdlib.h>
#include <string.h>
#include <time.h>

#include "readers.h"

enum { OCTETS = 16384, CALLS = 1024, COMPARED = 1000000, WIDEST = 16 };
enum reader { NOW, PLAIN, READERS };

typedef uint64_t read_function(const uint8_t *octets, size_t octets_len, size_t at, size_t width);

static const struct {
    const char *name;
    read_function *read;
    size_t widest;
} readers[READERS] = {
    {"now", descriptor_now, 16},
    {"plain", descriptor_plain, 16},
};

/* The width of a case is 0 where 2, 4 and 8 come in any order. */
static const struct {
    const char *name;
    size_t width;
    int aligned;
} cases[] = {
    {"2 octets, aligned", 2, 1},   {"2 octets, anywhere", 2, 0},        {"4 octets, aligned", 4, 1},
    {"4 octets, anywhere", 4, 0},  {"8 octets, aligned", 8, 1},         {"8 octets, anywhere", 8, 0},
    {"16 octets, aligned", 16, 1}, {"16 octets, anywhere", 16, 0},      {"2, 4 or 8 octets, anywhere", 0, 0},
};
enum { CASES = sizeof cases / sizeof *cases };

struct place {
    size_t at, width;
};

static uint8_t octets[OCTETS] __attribute__((aligned(64)));
static struct place places[CASES][CALLS];
static double best[CASES][READERS];
static volatile uint64_t kept;
static volatile size_t nothing; /* stays 0; the compiler does not know */

/* Numbers that look random; the same in each run. */
static uint64_t random_state = 611;

static uint64_t random_below(uint64_t bound)
{
    random_state ^= random_state << 13;
    random_state ^= random_state >> 7;
    random_state ^= random_state << 17;
    return random_state % bound;
}

/* A place where a descriptor ends inside the octets: at a multiple of its width, or at any. */
static struct place place_of(size_t width, int aligned)
{
    struct place p;
    p.width = width ? width : (size_t)2 << random_below(3);
    p.at = aligned ? random_below(OCTETS / p.width) * p.width : random_below(OCTETS - p.width + 1);
    return p;
}

/* Of 16 octets the upper eight are zero at the places that are measured, as in every descriptor that is taken. */
static void make_cases(void)
{
    size_t i, k;
    for (i = 0; i < OCTETS; i++)
        octets[i] = (uint8_t)random_below(256);
    for (i = 0; i < CASES; i++)
        for (k = 0; k < CALLS; k++)
            places[i][k] = place_of(cases[i].width, cases[i].aligned);
}

static void clear_upper(size_t which)
{
    size_t k;
    for (k = 0; cases[which].width == 16 && k < CALLS; k++)
        memset(octets + places[which][k].at, 0, 8);
}

static int measured(size_t which, enum reader k)
{
    return cases[which].width <= readers[k].widest;
}

/* Each call waits for the number of the one before, as a caller does that goes on by what it read. */
static void run(size_t which, enum reader k)
{
    read_function *read = readers[k].read;
    uint64_t number = 0;
    size_t i, mask = nothing;
    for (i = 0; i < CALLS; i++)
        number = read(octets, OCTETS, places[which][i].at + (number & mask), places[which][i].width);
    kept += number;
}

/* Every reader against plain C, on other octets: half of the time the first eight are zero, as the upper ones have to be. */
static void compare(void)
{
    uint8_t few[WIDEST + 8];
    unsigned long i;
    size_t k;
    for (i = 0; i < COMPARED; i++) {
        struct place p = {random_below(8), (size_t)2 << random_below(4)};
        uint64_t wanted;
        for (k = 0; k < sizeof few; k++)
            few[k] = (uint8_t)random_below(256);
        if (random_below(2))
            memset(few + p.at, 0, 8);
        wanted = descriptor_plain(few, sizeof few, p.at, p.width);
        for (k = 0; k < PLAIN; k++)
            if (p.width <= readers[k].widest && readers[k].read(few, sizeof few, p.at, p.width) != wanted) {
                fprintf(stderr, "descriptors: %s reads %zu octets from %zu on as another number than plain C\n",
                        readers[k].name, p.width, p.at);
                exit(1);
            }
    }
    printf("compared: %d descriptors, read alike by all\n", COMPARED);
}

static double nanoseconds(void)
{
    struct timespec t;
    clock_gettime(CLOCK_MONOTONIC, &t);
    return (double)t.tv_sec * 1e9 + (double)t.tv_nsec;
}

static void measure_once(size_t which, enum reader k)
{
    double start, time;
    if (!measured(which, k))
        return;
    start = nanoseconds();
    run(which, k);
    time = (nanoseconds() - start) / CALLS;
    if (best[which][k] == 0 || time < best[which][k])
        best[which][k] = time;
}

static void print_times(void)
{
    size_t i, k;
    for (i = 0; i < CASES; i++)
        for (k = 0; k < READERS; k++)
            if (measured(i, k))
                printf("%s\t%s\t%.3f\n", cases[i].name, readers[k].name, best[i][k]);
}

/* Case by case, reader after reader, so that a busy moment meets all of them. */
static void measure(unsigned long repeats)
{
    unsigned long r;
    size_t i, k;
    for (i = 0; i < CASES; i++) {
        clear_upper(i);
        for (r = 0; r < repeats; r++)
            for (k = 0; k < READERS; k++)
                measure_once(i, k);
    }
    print_times();
}

/* For callgrind. */

void case_end(void);
__attribute__((noinline)) void case_end(void)
{
    kept++;
}

static void once(void)
{
    size_t i, k;
    for (i = 0; i < CASES; i++) {
        clear_upper(i);
        for (k = 0; k < READERS; k++)
            if (measured(i, k)) {
                run(i, k);
                case_end();
            }
    }
}

static void list(void)
{
    size_t i, k;
    for (i = 0; i < CASES; i++)
        for (k = 0; k < READERS; k++)
            if (measured(i, k))
                printf("%s\t%s\t%d\n", cases[i].name, readers[k].name, CALLS);
}

int main(int argc, char **argv)
{
    unsigned long repeats = 5001;
    make_cases();
    if (argc == 2 && strcmp(argv[1], "--list") == 0) {
        list();
        return 0;
    }
    if (argc == 2 && strcmp(argv[1], "--once") == 0) {
        once();
        return 0;
    }
    if (argc == 3 && strcmp(argv[1], "--repeats") == 0)
        repeats = strtoul(argv[2], NULL, 10);
    if ((argc != 1 && argc != 3) || repeats == 0) {
        fprintf(stderr, "usage: descriptors [--repeats N] | --list | --once\n");
        return 2;
    }
    compare();
    measure(repeats);
    return 0;
}
