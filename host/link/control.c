/*
 * What an operator asks: the list of transfers, from what is on disk, and the closing of one. A program that runs looks
 * for the file `close` in its directory, lines with an Id each, does what they say and removes it. So anything that can
 * write a file can close a transfer, and a request outlives a crash.
 */
#include "link.h"

#include <errno.h>
#include <fcntl.h>
#include <stdio.h>
#include <string.h>
#include <time.h>
#include <unistd.h>

#define REQUEST "close"
#define MOST_REQUEST 4096
#define MOST_SHOWN 64
#define LONGEST_WAIT 5000 /* milliseconds */

/* Whether TICK milliseconds went by since it last said so. */
int tick_is_due(void)
{
    static uint64_t last;
    uint64_t now = now_ms();
    if (now - last < TICK)
        return 0;
    last = now;
    return 1;
}

/* Closes a transfer that was given up, where the file under the Id is the one that is meant. What it had is set aside. */
void close_asked(uint64_t id, uint64_t file)
{
    struct transfer *t = open_transfer(id);
    if (t == NULL || (file != 0 && t->file != file))
        warn("transfer %" PRIu64 "%s isn't open", id, t != NULL ? " of that file" : "");
    else if (close_transfer(0, t, 0, "asked"))
        want_sync();
    else
        warn("transfer %" PRIu64 " is complete and waits to be reported; it isn't closed", id);
}

/* One line of a request. */
static void hear_line(const uint8_t *line, size_t length)
{
    char shown[4 * MOST_SHOWN + 1];
    uint64_t id, file;
    escape(shown, sizeof shown, line, length < MOST_SHOWN ? length : MOST_SHOWN);
    if (length < MOST_SHOWN && id_of_text(shown, &id, &file))
        close_asked(id, file);
    else
        warn("%s/" REQUEST ": no Id: %s", options.directory, shown);
}

/* Does what stands in the file `close`, if it is there with whole lines. */
void hear_operator(void)
{
    static int told;
    uint8_t text[MOST_REQUEST];
    int fd = open_file(REQUEST, O_RDONLY);
    if (fd < 0)
        return;
    ssize_t got = read(fd, text, sizeof text);
    close(fd);
    size_t have = got > 0 ? (size_t)got : 0, done = 0;
    if (have < sizeof text && (have == 0 || text[have - 1] != '\n') && have < MOST_SHOWN)
        return; /* it is being written */
    if (remove_file(REQUEST) != 0) {
        if (!told)
            warn("%s/" REQUEST ": can't be removed, and isn't heard: %s", options.directory, strerror(errno));
        told = 1;
        return;
    }
    told = 0;
    while (done < have) {
        const uint8_t *end = memchr(text + done, '\n', have - done);
        size_t length = end != NULL ? (size_t)(end - text) - done : have - done;
        hear_line(text + done, length);
        done += length + 1;
    }
}

/* The transfers that the area on disk holds. Takes no lock: the area is replaced whole. */
void list_transfers(void)
{
    static struct area area;
    struct saratoga_listed one;
    struct slot slot;
    if (!read_area(&area))
        return;
    for (uint64_t i = 0; (one = saratoga_transfer(area.snapshot, SARATOGA_AREA_OCTETS, i)).number == 0; i++)
        if (slot_of(area.snapshot, one.id, &slot))
            list_one(area.snapshot, &one, &slot);
}

/* Whether an Id is open on disk, for the file that is meant. */
static int is_open_on_disk(uint64_t id, uint64_t file)
{
    static struct area area;
    struct slot slot;
    return read_area(&area) && slot_of(area.snapshot, id, &slot) && (file == 0 || slot.file == file);
}

static void ask(uint64_t id, uint64_t file)
{
    char line[MOST_SHOWN];
    int length = file != 0 ? snprintf(line, sizeof line, "%08" PRIx64 ".%" PRIu64 ".part\n", id, file)
                           : snprintf(line, sizeof line, "%" PRIu64 "\n", id);
    int fd = open_file(REQUEST, O_WRONLY | O_CREAT | O_EXCL);
    if (fd < 0 || write(fd, line, (size_t)length) != length || close(fd) != 0)
        die("%s/" REQUEST ": %s", options.directory,
            errno == EEXIST ? "another closing is asked for; try again" : strerror(errno));
}

/* Asks the program that runs in the directory to close a transfer, and waits until that is on disk. */
void ask_to_close(uint64_t id, uint64_t file)
{
    const struct timespec moment = {.tv_nsec = 20000000};
    if (!is_open_on_disk(id, file))
        die("transfer %" PRIu64 " isn't open", id);
    ask(id, file);
    int waited = 0;
    for (; length_of(REQUEST) >= 0; waited += 20) {
        if (waited >= LONGEST_WAIT)
            die("the program that runs in %s doesn't answer; the request stays in %s/" REQUEST, options.directory,
                options.directory);
        nanosleep(&moment, NULL);
    }
    for (; is_open_on_disk(id, file); waited += 20) {
        if (waited >= LONGEST_WAIT)
            die("transfer %" PRIu64 " is still open", id);
        nanosleep(&moment, NULL);
    }
    report("0 close id=%" PRIu64 " asked", id);
}
