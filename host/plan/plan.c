/*
 * saratoga-plan, for a sender: what to send again after a STATUS, one piece a line; and whether a list that
 * someone else made is such a plan. Plans and verdicts are the library's. Here: the command line, files and numbers.
 */
#include "plan.h"

#include <errno.h>
#include <stdio.h>
#include <stdlib.h>
#include <string.h>

enum { PASSES = 0, DOES_NOT_PASS = 1, REFUSED = 2 };

static const char help[] =
    "usage: saratoga-plan -m OCTETS [STATUS]               prints what to send again, one piece a line\n"
    "       saratoga-plan -m OCTETS --check LIST [STATUS]  whether a list of pieces is such a plan, and if not, why\n"
    "       saratoga-plan -m OCTETS --count [STATUS]       how many pieces it takes\n"
    "\n"
    "STATUS is a file with one success STATUS packet, its octets as they came or in hexadecimal digits; - or no name is\n"
    "standard input. A piece is a line with an offset and a length, both decimal.\n"
    "\n"
    "  -m, --largest OCTETS  no piece is longer: 1 to 65000\n"
    "      --check LIST      check the pieces in this file; - is standard input. Lines that begin with # are skipped\n"
    "      --count           only say how many pieces\n"
    "  -h, --help            this text\n"
    "      --version         the library's version\n"
    "\n"
    "Ends with 0 where the pieces are printed or the list passes, 1 where it does not pass, 2 where the packet is refused\n"
    "or something is wrong with options or files.\n";

struct options {
    const char *status, *list;
    uint64_t largest;
    int has_largest, count_only;
};

static int wrong(const char *what, const char *detail)
{
    fprintf(stderr, "saratoga-plan: %s%s%s\n", what, detail == NULL ? "" : ": ", detail == NULL ? "" : detail);
    return REFUSED;
}

static int refused(uint64_t number)
{
    fprintf(stderr, "saratoga-plan: refused %u: %s\n", (unsigned)number,
            number == SARATOGA_REFUSED_FIELD ? "the largest piece must have 1 to 65000 octets" : saratoga_refusal_text(number));
    return REFUSED;
}

/* Output that could not be written is no answer. */
static int finish(int status)
{
    if (fflush(stdout) != 0 || ferror(stdout))
        return wrong("can't write", strerror(errno));
    return status;
}

/* The holes alone that are listed count; the sender should know that there are others. */
static void tell_of_more(const struct status *status)
{
    if (status->read.flags & SARATOGA_FLAG_INCOMPLETE)
        fprintf(stderr, "saratoga-plan: note: the STATUS does not list every hole (bit 14)\n");
}

static int print_plan(const struct status *status, uint64_t largest, int count_only)
{
    struct saratoga_planned planned = saratoga_plan_count(status->octets, status->size, largest);
    struct saratoga_piece *pieces;
    uint64_t i;
    if (planned.number != 0)
        return refused(planned.number);
    tell_of_more(status);
    if (count_only) {
        printf("%llu\n", (unsigned long long)planned.count);
        return finish(PASSES);
    }
    if (planned.count > MOST_PIECES) {
        fprintf(stderr, "saratoga-plan: it takes %llu pieces, and no more than %d are printed\n",
                (unsigned long long)planned.count, MOST_PIECES);
        return REFUSED;
    }
    pieces = malloc((size_t)(planned.count + 1) * sizeof *pieces);
    if (pieces == NULL)
        return wrong("no memory", NULL);
    planned = saratoga_plan(status->octets, status->size, largest, pieces, (size_t)planned.count);
    for (i = 0; i < planned.count; i++)
        printf("%llu %llu\n", (unsigned long long)pieces[i].offset, (unsigned long long)pieces[i].length);
    free(pieces);
    return planned.number != 0 ? refused(planned.number) : finish(PASSES);
}

static int print_verdict(const struct status *status, uint64_t largest, const struct list *list)
{
    struct saratoga_checked checked = saratoga_check_plan(status->octets, status->size, largest, list->pieces, list->count);
    if (checked.number != 0)
        return refused(checked.number);
    if (checked.passes) {
        tell_of_more(status);
        printf("passes: %lu pieces\n", (unsigned long)list->count);
        return finish(PASSES);
    }
    printf("does not pass: ");
    print_reason(status, largest, list);
    return finish(DOES_NOT_PASS);
}

/* A whole number of decimal digits below 2^64. */
static int number_of(const char *text, uint64_t *number)
{
    const char *end = read_number(text, text + strlen(text), number);
    return end != NULL && *end == 0;
}

/* Whether all of the command line is understood; the first word that isn't is told of. */
static int read_options(int argc, char **argv, struct options *options)
{
    int i, names = 0, only_names = 0;
    for (i = 1; i < argc; i++) {
        const char *word = argv[i], *value = i + 1 < argc ? argv[i + 1] : NULL;
        int is_largest = strcmp(word, "-m") == 0 || strcmp(word, "--largest") == 0, is_check = strcmp(word, "--check") == 0;
        if (only_names || word[0] != '-' || word[1] == 0) {
            options->status = word;
            if (++names > 1)
                return wrong("one STATUS at a time", word), 0;
        } else if (strcmp(word, "--") == 0) {
            only_names = 1;
        } else if (strcmp(word, "--count") == 0) {
            options->count_only = 1;
        } else if (!is_largest && !is_check) {
            return wrong("unknown option", word), 0;
        } else if (value == NULL) {
            return wrong("a value is missing after", word), 0;
        } else if (is_check) {
            options->list = argv[++i];
        } else if (!number_of(value, &options->largest)) {
            return wrong("no number of octets", value), 0;
        } else {
            options->has_largest = 1;
            i++;
        }
    }
    if (!options->has_largest)
        return wrong("-m is missing: how many octets may a piece have?", NULL), 0;
    if (options->list != NULL && options->count_only)
        return wrong("--check and --count don't go together", NULL), 0;
    if (options->list != NULL && strcmp(options->list, "-") == 0 && strcmp(options->status, "-") == 0)
        return wrong("list and STATUS can't both be standard input", NULL), 0;
    return 1;
}

int main(int argc, char **argv)
{
    static struct status status;
    struct options options = {.status = "-"};
    struct list list = {0};
    int result;
    if (argc == 2 && (strcmp(argv[1], "--help") == 0 || strcmp(argv[1], "-h") == 0)) {
        fputs(help, stdout);
        return finish(PASSES);
    }
    if (argc == 2 && strcmp(argv[1], "--version") == 0) {
        printf("saratoga-plan (saratoga) %s\n", SARATOGA_VERSION);
        return finish(PASSES);
    }
    if (!read_options(argc, argv, &options)) {
        fprintf(stderr, "saratoga-plan: --help says more\n");
        return REFUSED;
    }
    if (!read_status(options.status, &status))
        return REFUSED;
    if (options.list == NULL)
        return print_plan(&status, options.largest, options.count_only);
    result = read_list(options.list, &list) ? print_verdict(&status, options.largest, &list) : REFUSED;
    free(list.pieces);
    free(list.lines);
    return result;
}
