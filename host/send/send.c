/*
 * saratoga-send: sends files to a receiver of Saratoga, one after another, and says whether it confirmed every octet. Packets
 * and plans are the library's.
 */
#include "send.h"

#include <errno.h>
#include <signal.h>
#include <stdio.h>
#include <stdlib.h>
#include <string.h>
#include <sys/random.h>
#include <unistd.h>

enum { ALL_CONFIRMED = 0, NOT_CONFIRMED = 1, WRONG = 2 };

static const char help[] =
    "usage: saratoga-send [options] HOST:PORT FILE..    sends files, one after another\n"
    "\n"
    "      --rate MBIT     Mbit/s of packets, without headers of UDP and IP (else as fast as answers come: at most four\n"
    "                      times --ask packets beyond what the receiver has reported)\n"
    "      --payload N     octets of the file in a packet: 1 to 65000 (else 1400)\n"
    "      --width W       octets of a descriptor: 2, 4, 8 or 16 (else the fewest that hold the file's length)\n"
    "      --ask N         asks for STATUS every N packets: 1 to 1000000 (else 256, and 16 without --rate)\n"
    "      --md5           sends the file's MD5 in METADATA\n"
    "      --id N          Id of the first file, decimal or as 0x1f; the next have the next Ids (else any)\n"
    "      --wait SECONDS  for an answer, longer than a round trip (else 1)\n"
    "      --tries N       without an octet more confirmed, then gives up (else 10)\n"
    "  -q, --quiet         no progress, only a line when a file begins and when it has ended\n"
    "  -h, --help          this text\n"
    "      --version       the library's version\n"
    "\n"
    "Ends with 0 where the receiver confirmed every octet of every file, with 1 where it did not, and with 2 where something\n"
    "is wrong with options or files; then nothing was sent.\n";

/* Output that could not be written is no answer. */
static int finish(int status)
{
    if (fflush(stdout) == 0 && !ferror(stdout))
        return status;
    wrong("can't write: %s", strerror(errno));
    return status == ALL_CONFIRMED ? WRONG : status;
}

/* All files are looked at before the first is sent. */
static int check_pages(const struct options *options)
{
    struct page page;
    size_t i;
    for (i = 0; i < options->file_count; i++) {
        if (!open_page(&page, options->files[i], options->id + i, options, 0))
            return 0;
        close_page(&page);
    }
    return 1;
}

/* Whether the receiver confirmed a file, and it is still what it was. */
static int send_page(int wire, const struct page *page, const struct options *options, struct transfer *t,
                     struct saratoga_piece *pieces)
{
    int ran, changed, confirmed;
    say_begin(page);
    wire_error = 0;
    begin_transfer(t, page, options, pieces, clock_now());
    ran = run(wire, t, page, options);
    changed = page_changed(page);
    confirmed = ran && t->state == CONFIRMED && !changed;
    if (changed)
        wrong("%s was changed while it was sent: the receiver may have octets of both", page->name);
    else if (ran && !confirmed)
        say_why(t, page);
    say_end(t, page, clock_now(), confirmed);
    return confirmed;
}

/* A receiver that refuses a file may take the next; one that is silent is given up for all. */
static int send_pages(int wire, const struct options *options)
{
    struct saratoga_piece *pieces = malloc((size_t)options->ask * sizeof *pieces);
    struct transfer t = {.state = OPENING};
    int status = ALL_CONFIRMED;
    size_t i;
    if (pieces == NULL)
        return wrong("no memory"), WRONG;
    for (i = 0; i < options->file_count && t.state != GIVEN_UP; i++) {
        struct page page;
        int confirmed = open_page(&page, options->files[i], options->id + i, options, options->md5);
        if (confirmed) {
            confirmed = send_page(wire, &page, options, &t, pieces);
            close_page(&page);
        }
        if (!confirmed)
            status = NOT_CONFIRMED;
    }
    if (i < options->file_count)
        wrong("%lu more files were not sent", (unsigned long)(options->file_count - i));
    free(pieces);
    return status;
}

/* An Id that nobody has used, as far as chance can tell; all files' Ids are below 2^32. */
static void choose_id(struct options *options)
{
    uint32_t any = 0;
    if (options->has_id)
        return;
    if (getrandom(&any, sizeof any, 0) != sizeof any)
        any = (uint32_t)clock_now() ^ (uint32_t)getpid() << 16;
    options->id = any % (UINT32_MAX - (uint32_t)(options->file_count - 1));
}

int main(int argc, char **argv)
{
    struct options options = {.payload = 1400, .tries = 10, .wait = SECOND};
    int wire, status = WRONG;
    if (argc == 2 && (strcmp(argv[1], "--help") == 0 || strcmp(argv[1], "-h") == 0)) {
        fputs(help, stdout);
        return finish(ALL_CONFIRMED);
    }
    if (argc == 2 && strcmp(argv[1], "--version") == 0) {
        printf("saratoga-send (saratoga) %s\n", SARATOGA_VERSION);
        return finish(ALL_CONFIRMED);
    }
    if (!read_options(argc, argv, &options))
        return wrong("--help says more"), WRONG;
    signal(SIGPIPE, SIG_IGN);
    choose_id(&options);
    wire = check_pages(&options) ? open_wire(options.peer) : -1;
    if (wire >= 0)
        status = send_pages(wire, &options);
    return finish(status);
}
