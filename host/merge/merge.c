/*
 * saratoga-merge: two plants heard the same pass, and each lost something else. Merges what the second has of a transfer into the
 * first's directory: its octets, and its record.
 *
 * The order of writes is that of the link program (docs/LINK.md), with the second's file in the place of packets:
 *
 *     1. judge     all transfers: what merging would answer, that both are of one file, and that what both have is the same
 *     2. payload   the octets that the first lacks are written to its .part
 *     3. merge     the records are merged in the area, in memory
 *     4. sync      the .part files are forced to disk
 *     5. area      the area is written to a second file, forced to disk, and renamed over the first
 *     6. report    it is said what was merged. A file that is complete now gets its name from the link program, at its next start
 *
 * So at every moment each octet that the first's area on disk holds as received is on disk. Where the program is ended before 5, the
 * first's .part may have octets in its holes, which do no harm, and the program is run again. The second is only read.
 */
#include "merge.h"

#include <errno.h>
#include <fcntl.h>
#include <stdio.h>
#include <stdlib.h>
#include <string.h>
#include <sys/stat.h>
#include <unistd.h>

const char *const program_name = "saratoga-merge";
struct options options = {.force = 1, .most_kept = UINT64_MAX, .linger = UINT64_MAX, .answers = 1};
volatile sig_atomic_t stopped;

static const char help[] =
    "usage: saratoga-merge [options] FIRST-DIR SECOND-DIR\n"
    "\n"
    "Merges what a second plant received of a transfer into a first's: directories of saratoga-link. Octets that the first\n"
    "lacks are copied to its files, and its area then holds what either received. The second is only read. No program may\n"
    "run in either.\n"
    "\n"
    "      --id ID      this transfer (else all that are open in both); as printed: 31, id=31, 0x1f or 0000001f.5.part\n"
    "      --dry-run    say what would be merged, and write nothing\n"
    "      --no-fsync   don't force writes to disk: faster, safe against a crash but not against a power cut\n"
    "  -h, --help       this text\n"
    "      --version    the library's version\n"
    "\n"
    "It refuses, and touches nothing, where the two are not of one file: by width, length, or any line of their .meta, or\n"
    "where an octet that both have differs; and where more than 64 runs would be received. Of several transfers, all are\n"
    "judged before anything is written.\n"
    "\n"
    "status:  0; 1 where it refuses, or something can't be read or written; 2 for a wrong option\n";

static const char *first_directory, *second_directory;
static int dry_run, one_alone;
static uint64_t wanted;
static struct area first_area, second_area;
static uint8_t *area;              /* the first's, in its snapshot */
static struct pair pairs[SARATOGA_TRANSFERS];
static size_t pair_count;

static void wrong_usage(const char *what, const char *word)
{
    fprintf(stderr, "saratoga-merge: %s%s\n\n%s", what, word, help);
    exit(2);
}

static void take_id(const char *text)
{
    uint64_t file;
    if (!id_of_text(text, &wanted, &file))
        wrong_usage("no Id: ", text);
    one_alone = 1;
}

static void read_arguments(int count, char **arguments)
{
    int only_names = 0;
    for (int i = 1; i < count; i++) {
        char *argument = arguments[i];
        if (only_names || argument[0] != '-') {
            if (second_directory != NULL)
                wrong_usage("more than two directories: ", argument);
            *(first_directory == NULL ? &first_directory : &second_directory) = argument;
        } else if (strcmp(argument, "--") == 0) {
            only_names = 1;
        } else if (strcmp(argument, "--dry-run") == 0) {
            dry_run = 1;
        } else if (strcmp(argument, "--no-fsync") == 0) {
            options.force = 0;
        } else if (strncmp(argument, "--id=", 5) == 0) {
            take_id(argument + 5);
        } else if (strcmp(argument, "--id") == 0 && i + 1 < count) {
            take_id(arguments[++i]);
        } else if (strcmp(argument, "--version") == 0) {
            printf("saratoga-merge (saratoga) %s\n", SARATOGA_VERSION);
            exit(fflush(stdout) != 0);
        } else if (strcmp(argument, "-h") == 0 || strcmp(argument, "--help") == 0) {
            fputs(help, stdout);
            exit(fflush(stdout) != 0);
        } else {
            wrong_usage(strcmp(argument, "--id") == 0 ? "a value is needed: " : "no such option: ", argument);
        }
    }
    if (second_directory == NULL)
        wrong_usage("two directories are needed", "");
}

/* The files of link/ work in one directory at a time. */
static void go_to(const char *directory)
{
    options.directory = directory;
    open_directory();
}

/* Keeps link programs out while the directory is read. */
static void lock_to_read(void)
{
    if (!lock_directory(1))
        die("%s: another program writes there; stop it, or merge a copy", options.directory);
}

static void read_areas(void)
{
    struct stat one, other;
    if (stat(first_directory, &one) == 0 && stat(second_directory, &other) == 0 && one.st_dev == other.st_dev &&
        one.st_ino == other.st_ino)
        wrong_usage("both are the same directory: ", second_directory);
    go_to(second_directory);
    lock_to_read();
    if (!read_area(&second_area))
        die("%s/area: there is none", options.directory);
    go_to(first_directory);
    if (dry_run)
        lock_to_read();
    else if (!lock_directory(0))
        die("%s: another program writes there; stop it first", options.directory);
    if (!read_area(&first_area))
        die("%s/area: there is none", options.directory);
    area = first_area.snapshot;
}

static void choose(uint64_t id)
{
    struct pair *pair = &pairs[pair_count++];
    pair->id = id;
    pair->first = (struct side){.directory = first_directory, .files = &pair->files_of_first, .fd = -1};
    pair->second = (struct side){.directory = second_directory, .files = &pair->files_of_second, .fd = -1};
    if (!slot_of(area, id, &pair->first.slot) || !slot_of(second_area.snapshot, id, &pair->second.slot))
        die("transfer %" PRIu64 " has no slot: the program has a fault", id);
    pair->files_of_first = (struct transfer){.id = id, .file = pair->first.slot.file, .fd = -1, .meta_fd = -1};
    pair->files_of_second = (struct transfer){.id = id, .file = pair->second.slot.file, .fd = -1, .meta_fd = -1};
    pair->first.one = saratoga_find(area, SARATOGA_AREA_OCTETS, id);
    pair->second.one = saratoga_find(second_area.snapshot, SARATOGA_AREA_OCTETS, id);
    runs_of(&pair->first.runs, area, &pair->first.one);
    runs_of(&pair->second.runs, second_area.snapshot, &pair->second.one);
    in_one_alone(&pair->lacking, &pair->second.runs, &pair->first.runs);
}

/* The transfer that is asked for, or all that are open in both. */
static void choose_all(void)
{
    struct saratoga_listed one;
    if (one_alone) {
        const char *lacks = saratoga_find(area, SARATOGA_AREA_OCTETS, wanted).number != 0                 ? first_directory
                            : saratoga_find(second_area.snapshot, SARATOGA_AREA_OCTETS, wanted).number != 0 ? second_directory
                                                                                                 : NULL;
        if (lacks != NULL)
            die("transfer %" PRIu64 " isn't open in %s; nothing was touched", wanted, lacks);
        choose(wanted);
        return;
    }
    for (uint64_t i = 0; (one = saratoga_transfer(area, SARATOGA_AREA_OCTETS, i)).number == 0; i++)
        if (saratoga_find(second_area.snapshot, SARATOGA_AREA_OCTETS, one.id).number == 0)
            choose(one.id);
    if (pair_count == 0)
        die("no transfer is open in both %s and %s", first_directory, second_directory);
}

/* Finds the files of a side, in its own directory: they must be what its area says. */
static void find_side(struct side *side)
{
    const char *fault = fault_of(side->files, &side->one, &side->slot);
    if (fault != NULL)
        die("%s: transfer %" PRIu64 ": %s; nothing was touched", options.directory, side->one.id, fault);
    int is_gone = strcmp(side->files->suffix, "gone") == 0;
    name_of(side->name, side->files, is_gone ? "page" : side->files->suffix);
    if (!is_gone && (side->fd = open_file(side->name, O_RDONLY)) < 0)
        die("%s/%s: can't be opened: %s", options.directory, side->name, strerror(errno));
}

/* The line of a .meta that holds this place, without its end. */
static size_t line_at(const char *meta, size_t at, const char **line)
{
    while (at > 0 && meta[at - 1] != '\n')
        at--;
    *line = meta + at;
    return strcspn(*line, "\n");
}

/* Both are of one file where their .meta say the same: path, size, times, checksum, and all else. */
static void compare_meta(const struct pair *pair)
{
    const char *ours = pair->first.files->meta, *theirs = pair->second.files->meta, *our_line, *their_line;
    size_t at = 0;
    if (strcmp(ours, theirs) == 0)
        return;
    while (ours[at] == theirs[at])
        at++;
    int our_len = (int)line_at(ours, at, &our_line), their_len = (int)line_at(theirs, at, &their_line);
    die("transfer %" PRIu64 ": %s has %.*s and %s has %.*s: these aren't one file; nothing was touched", pair->id,
        first_directory, our_len, our_line, second_directory, their_len, their_line);
}

/* What merging answers is tried in a copy, in which all transfers are merged: the first refusal ends the program. */
static void judge(const struct pair *pair, uint8_t trial[SARATOGA_AREA_OCTETS])
{
    const struct saratoga_listed *one = &pair->first.one, *other = &pair->second.one;
    struct saratoga_merged merged =
        saratoga_merge(trial, SARATOGA_AREA_OCTETS, second_area.snapshot, SARATOGA_AREA_OCTETS, pair->id);
    if (merged.number == SARATOGA_REFUSED_OTHER_WIDTH)
        die("transfer %" PRIu64 ": has descriptors of %" PRIu64 " bits in %s and %" PRIu64 " in %s; nothing was touched", pair->id,
            8 * one->width, first_directory, 8 * other->width, second_directory);
    if (merged.number == SARATOGA_REFUSED_OPEN_OTHER)
        die("transfer %" PRIu64 ": has %" PRIu64 " octets in %s and %" PRIu64 " in %s; nothing was touched", pair->id, one->length,
            first_directory, other->length, second_directory);
    compare_meta(pair);
    compare_octets(pair);
    if (merged.number == SARATOGA_REFUSED_RUNS)
        die("transfer %" PRIu64 ": %" PRIu64 " and %" PRIu64 " runs are more than 64 together; nothing was touched. Receive some of "
            "the holes first",
            pair->id, one->runs, other->runs);
    if (merged.number != 0)
        die("transfer %" PRIu64 " can't be merged, refusal %" PRIu64 ": %s; nothing was touched", pair->id, merged.number,
            saratoga_refusal_text(merged.number));
    if (pair->lacking.count > 0 && pair->second.fd < 0)
        die("transfer %" PRIu64 ": %s had all of it, and its file was taken away: put %s back; nothing was touched", pair->id,
            second_directory, pair->second.name);
}

/* How many octets each has, how many are gained, and what is missing still. */
static void tell(const struct pair *pair, const uint8_t merged[SARATOGA_AREA_OCTETS])
{
    struct saratoga_listed joined = saratoga_find(merged, SARATOGA_AREA_OCTETS, pair->id);
    struct runs have, missing;
    const char *path = strstr(pair->first.files->meta, "\npath=");
    runs_of(&have, merged, &joined);
    missing_of(&missing, &have, joined.length);
    char list[66 * 42] = "";
    size_t length = 0;
    for (size_t i = 0; i < missing.count; i++)
        length += (size_t)snprintf(list + length, sizeof list - length, "%s%" PRIu64 "-%" PRIu64, i > 0 ? "," : "",
                                   missing.at[i].start, missing.at[i].stop);
    report("%s id=%" PRIu64 " length=%" PRIu64 " first=%" PRIu64 " second=%" PRIu64 " gained=%" PRIu64 " missing=%s complete=%" PRIu64
           " %.*s",
           dry_run ? "would-merge" : "merge", pair->id, joined.length, pair->first.one.received, pair->second.one.received,
           joined.received - pair->first.one.received, list, joined.complete, (int)strcspn(path + 1, "\n"), path + 1);
}

/* Steps 2 to 5. */
static void write_all(const uint8_t merged[SARATOGA_AREA_OCTETS])
{
    for (size_t i = 0; i < pair_count; i++)
        copy_octets(&pairs[i]);
    if (memcmp(area, merged, SARATOGA_AREA_OCTETS) == 0)
        return; /* nothing is gained, and no octet was copied */
    memcpy(area, merged, SARATOGA_AREA_OCTETS);
    first_area.sync++;
    for (size_t i = 0; i < pair_count; i++)
        if (pairs[i].first.files->fd >= 0 && force_to_disk(pairs[i].first.files->fd) != 0)
            die("%s: can't be forced to disk: %s; nothing was merged", first_directory, strerror(errno));
    cut_point("between payloads and area");
    if (write_area(&first_area) != 0)
        die("%s/area: can't be stored: %s; nothing was merged", first_directory, strerror(errno));
    cut_point("between area and report");
}

int main(int count, char **arguments)
{
    static uint8_t merged[SARATOGA_AREA_OCTETS];
    read_arguments(count, arguments);
    struct sigaction ignore = {.sa_handler = SIG_IGN};
    sigaction(SIGPIPE, &ignore, NULL);
    sigaction(SIGXFSZ, &ignore, NULL);

    read_areas();
    choose_all();
    for (size_t i = 0; i < pair_count; i++)
        find_side(&pairs[i].first);
    go_to(second_directory);
    for (size_t i = 0; i < pair_count; i++)
        find_side(&pairs[i].second);
    go_to(first_directory);
    memcpy(merged, area, sizeof merged);
    for (size_t i = 0; i < pair_count; i++)
        judge(&pairs[i], merged);

    if (!dry_run)
        write_all(merged);
    for (size_t i = 0; i < pair_count; i++)
        tell(&pairs[i], merged);
    finish_output();
    return output_was_lost();
}
