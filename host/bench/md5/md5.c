/*
 * Measures the library's MD5 beside plain C (plain_md5.c) and, where it is installed, beside OpenSSL's, in one run and on
 * the same octets. First it compares their digests of files of 0 to 4,000 octets, each cut at random; where they differ it
 * ends with status 1.
 *
 *     md5                compares and measures
 *     md5 --repeats N    how often each case is measured; the median is printed (default 101; 64 MiB a tenth as often)
 *     md5 --compare      compares, and ends
 */
#define _POSIX_C_SOURCE 200809L
#include <stdio.h>
#include <stdlib.h>
#include <string.h>
#include <time.h>

#include "plain_md5.h"
#include "saratoga.h"

#ifdef WITH_OPENSSL
#define OPENSSL_SUPPRESS_DEPRECATED
#include <openssl/md5.h>
#endif

enum { LONGEST = 64 << 20, COMPARED = 4000, REPEATS_MOST = 1001, DIGEST = SARATOGA_DIGEST_OCTETS };
enum which { OURS, PLAIN, OPENSSL, ALL };

/* A file of `length` octets, added in parts of `part`; `files` of them are timed together, `seldom` a tenth as often. */
static const struct {
    const char *name;
    size_t length, part, files;
    int seldom;
} cases[] = {
    {"64 octets", 64, 64, 1024, 0},
    {"1,500 octets", 1500, 1500, 128, 0},
    {"64 MiB in parts of 1,500 octets", LONGEST, 1500, 1, 1},
    {"64 MiB in parts of 65,536 octets", LONGEST, 65536, 1, 1},
    {"64 MiB at once", LONGEST, LONGEST, 1, 1},
};
enum { CASES = sizeof cases / sizeof cases[0] };

static const int measured[ALL] = {[OURS] = 1, [PLAIN] = 1,
#ifdef WITH_OPENSSL
                                  [OPENSSL] = 1
#endif
};
static uint8_t octets[LONGEST];
static double times[CASES][ALL][REPEATS_MOST];

/* The state of any of them. */
union state {
    uint8_t ours[SARATOGA_MD5_OCTETS];
    struct plain_md5 plain;
#ifdef WITH_OPENSSL
    MD5_CTX openssl;
#endif
};

static void begin(enum which which, union state *state)
{
    if (which == OURS)
        saratoga_md5_begin(state->ours, sizeof state->ours);
    else if (which == PLAIN)
        plain_md5_begin(&state->plain);
#ifdef WITH_OPENSSL
    else
        MD5_Init(&state->openssl);
#endif
}

static void add(enum which which, union state *state, const uint8_t *part, size_t part_len)
{
    if (which == OURS)
        saratoga_md5_add(state->ours, sizeof state->ours, part, part_len);
    else if (which == PLAIN)
        plain_md5_add(&state->plain, part, part_len);
#ifdef WITH_OPENSSL
    else
        MD5_Update(&state->openssl, part, part_len);
#endif
}

static void end(enum which which, union state *state, uint8_t digest[DIGEST])
{
    if (which == OURS)
        saratoga_md5_end(state->ours, sizeof state->ours, digest, DIGEST);
    else if (which == PLAIN)
        plain_md5_end(&state->plain, digest);
#ifdef WITH_OPENSSL
    else
        MD5_Final(digest, &state->openssl);
#endif
}

static void digest_of(enum which which, const uint8_t *file, size_t length, size_t part, uint8_t digest[DIGEST])
{
    union state state;
    begin(which, &state);
    for (size_t at = 0; at < length; at += part)
        add(which, &state, file + at, length - at < part ? length - at : part);
    end(which, &state, digest);
}

static void same(const uint8_t ours[DIGEST], const uint8_t theirs[DIGEST], size_t length)
{
    if (memcmp(ours, theirs, DIGEST) != 0) {
        fprintf(stderr, "md5: the digests of a file of %zu octets differ\n", length);
        exit(1);
    }
}

/* Plain C and OpenSSL get each file at once, ours gets it in parts of 0 to 149 octets. */
static void compare(void)
{
    for (size_t length = 0; length < COMPARED; length++) {
        union state state;
        uint8_t ours[DIGEST], theirs[DIGEST];
        const uint8_t *file = octets + 7 * length;
        begin(OURS, &state);
        for (size_t at = 0, part; at < length; at += part) {
            part = (size_t)rand() % 150;
            part = part < length - at ? part : length - at;
            add(OURS, &state, file + at, part);
        }
        end(OURS, &state, ours);
        for (enum which which = PLAIN; which < ALL; which++) {
            if (measured[which]) {
                digest_of(which, file, length, length + 1, theirs);
                same(ours, theirs, length);
            }
        }
    }
    printf("compared: %d files of 0 to %d octets, cut at random: ours and plain C%s agree\n", COMPARED, COMPARED - 1,
           measured[OPENSSL] ? " and OpenSSL" : "");
}

/* The processor's time: 64 MiB take long enough for others to come in between. */
static double now(void)
{
    struct timespec t;
    clock_gettime(CLOCK_PROCESS_CPUTIME_ID, &t);
    return 1e9 * (double)t.tv_sec + (double)t.tv_nsec;
}

static void sample(size_t i, enum which which, size_t repeat)
{
    static uint8_t known[CASES][DIGEST];
    uint8_t digest[DIGEST];
    double start = now();
    for (size_t k = 0; k < cases[i].files; k++)
        digest_of(which, octets + 64 * (k % 64), cases[i].length, cases[i].part, digest);
    times[i][which][repeat] = (now() - start) / (double)cases[i].files;
    if (which == OURS)
        memcpy(known[i], digest, DIGEST);
    same(known[i], digest, cases[i].length);
}

static int rising(const void *a, const void *b)
{
    double x = *(const double *)a, y = *(const double *)b;
    return (x > y) - (x < y);
}

static double median(double *values, size_t count)
{
    qsort(values, count, sizeof values[0], rising);
    return values[count / 2];
}

/* How fast ours is beside another: above 1 it is faster. */
static void print_ratio(double ratio)
{
    if (ratio > 0)
        printf(" %8.2f", ratio);
    else
        printf(" %8s", "");
}

static void print_aim(const char *whom, double aim, double worst)
{
    printf("aim: MD5 in parts of 1,000 octets and more at least %.2f as fast as %s: %.2f, %s\n", aim, whom, worst,
           worst >= aim ? "met" : "not met");
}

static void measure(size_t repeats)
{
    size_t seldom = repeats / 10 + 1;
    double worst[ALL] = {0, 1e9, 1e9};
    for (size_t r = 0; r < repeats; r++)
        for (size_t i = 0; i < CASES; i++)
            for (enum which which = OURS; which < ALL; which++)
                if (measured[which] && (!cases[i].seldom || r < seldom))
                    sample(i, which, r);
    printf("Megabytes a second, medians of %zu (64 MiB: of %zu), and speed beside the others\n", repeats, seldom);
    printf("%-37s %8s %8s %8s %8s %8s\n", "MD5 of", "ours", "plain C", "OpenSSL", "plain C", "OpenSSL");
    for (size_t i = 0; i < CASES; i++) {
        double speed[ALL] = {0};
        printf("%-37s", cases[i].name);
        for (enum which which = OURS; which < ALL; which++) {
            if (measured[which])
                speed[which] = 1e3 * (double)cases[i].length / median(times[i][which], cases[i].seldom ? seldom : repeats);
            if (measured[which])
                printf(" %8.0f", speed[which]);
            else
                printf(" %8s", "");
        }
        for (enum which which = PLAIN; which < ALL; which++) {
            double ratio = measured[which] ? speed[OURS] / speed[which] : 0;
            print_ratio(ratio);
            if (measured[which] && cases[i].part >= 1000 && ratio < worst[which])
                worst[which] = ratio;
        }
        printf("\n");
    }
    print_aim("plain C", 0.9, worst[PLAIN]);
    if (measured[OPENSSL])
        print_aim("OpenSSL's", 0.85, worst[OPENSSL]);
    else
        printf("OpenSSL: skipped: libcrypto and its headers aren't installed\n");
}

int main(int argc, char **argv)
{
    unsigned long repeats = 101;
    for (size_t i = 0; i < LONGEST; i++)
        octets[i] = (uint8_t)(i * UINT64_C(2654435761) >> 13);
    srand(611);
    if (argc == 3 && strcmp(argv[1], "--repeats") == 0)
        repeats = strtoul(argv[2], NULL, 10);
    else if (argc != 1 && !(argc == 2 && strcmp(argv[1], "--compare") == 0))
        repeats = 0;
    if (repeats == 0 || repeats > REPEATS_MOST) {
        fprintf(stderr, "usage: md5 [--repeats N] | --compare\n");
        return 2;
    }
    compare();
    if (argc != 2)
        measure(repeats);
    return 0;
}
