/*
 * The check before the plate: whether a complete file is the one that the checksum in its METADATA is of. The library
 * judges (R16.12); here the file is read from disk, in parts. A file that differs is told at once, again at the end, and by
 * the exit status.
 */
#include "link.h"

#include <errno.h>
#include <fcntl.h>
#include <stdio.h>
#include <string.h>
#include <unistd.h>

#define PART_OCTETS 65536
#define STATUS_DIFFERS 3

static uint64_t differing;         /* files that this program found to differ */

const char *verdict_text(uint64_t verdict)
{
    return verdict == SARATOGA_AGREES ? "agrees" : verdict == SARATOGA_DIFFERS ? "differs" : "not-checked";
}

/* Adds the octets of a file to the state. Gives 0 where they can't all be read, or aren't as many as they should be. */
static int add_file(uint8_t state[SARATOGA_MD5_OCTETS], const char *name, uint64_t length)
{
    static uint8_t part[PART_OCTETS];
    uint64_t have = 0;
    ssize_t got = 0;
    int fd = open_file(name, O_RDONLY);
    if (fd < 0)
        return 0;
    while ((got = read(fd, part, sizeof part)) > 0 || (got < 0 && errno == EINTR)) {
        if (got > 0) {
            saratoga_md5_add(state, SARATOGA_MD5_OCTETS, part, (size_t)got);
            have += (uint64_t)got;
        }
    }
    close(fd);
    return got == 0 && have == length;
}

/* An error that nobody overlooks. */
void tell_difference(const struct transfer *t)
{
    char differs[NAME_OCTETS], sheet[NAME_OCTETS];
    name_of(differs, t, "differs");
    name_of(sheet, t, "sheet");
    differing++;
    warn("ERROR: transfer %" PRIu64 " is complete, but its octets aren't those that its MD5 checksum is of. It is NOT "
         "handed on, and kept as %s/%s; it must be sent again. See %s",
         t->id, options.directory, differs, sheet);
}

/*
 * Checks a complete file: a worker's job. What the verdict is of is read from the file; where the verdict needs no digest, since the
 * checksum is no MD5, it isn't read.
 */
void run_check(void *job)
{
    struct check *check = job;
    uint8_t md5[SARATOGA_MD5_OCTETS];
    struct saratoga_verdict checked;
    saratoga_md5_begin(md5, sizeof md5);
    checked = saratoga_check_md5(check->packet, check->packet_len, md5, sizeof md5);
    check->failed = 0;
    if (checked.number == 0 && checked.verdict != SARATOGA_NOT_CHECKED) {
        check->failed = !add_file(md5, check->name, check->length);
        checked = saratoga_check_md5(check->packet, check->packet_len, md5, sizeof md5);
        saratoga_md5_end(md5, sizeof md5, check->digest, sizeof check->digest);
    }
    check->failed |= checked.number != 0;
    check->verdict = checked.verdict;
}

/* What the program ends with, and the last line about files that differ. */
int exit_status(void)
{
    if (differing == 0)
        return output_was_lost() || something_was_lost();
    warn("ERROR: %" PRIu64 " complete %s NOT handed on: the MD5 checksum differs. See the .differs and .sheet files in %s",
         differing, differing == 1 ? "file was" : "files were", options.directory);
    return STATUS_DIFFERS;
}
