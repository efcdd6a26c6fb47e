/*
 * The counters as Prometheus reads them: a text file that is replaced whole, for node_exporter's textfile collector. Each series has the
 * directory as a label, so that the files of several programs go together. The form is that of Prometheus' text format, version 0.0.4.
 */
#include "link.h"

#include <errno.h>
#include <fcntl.h>
#include <limits.h>
#include <stdio.h>
#include <stdlib.h>
#include <string.h>
#include <unistd.h>

static char label[8 * PATH_MAX + 16]; /* directory="..", with each backslash twice */
static char new_name[PATH_MAX + 8];

/* The label of the directory. What isn't printable ASCII in it is \xNN, as in the lines of the log. */
static void make_label(void)
{
    static char quoted[4 * PATH_MAX + 3];
    char whole[PATH_MAX];
    const char *name = realpath(options.directory, whole) != NULL ? whole : options.directory;
    size_t count = quote(quoted, sizeof quoted, (const uint8_t *)name, strlen(name));
    size_t length = (size_t)snprintf(label, sizeof label, "directory=");
    for (size_t i = 0; i < count; i++) {
        if (quoted[i] == '\\')
            label[length++] = '\\';
        label[length++] = quoted[i];
    }
    label[length] = '\0';
}

static void head(FILE *out, const char *name, const char *type, const char *help)
{
    fprintf(out, "# HELP saratoga_link_%s %s\n# TYPE saratoga_link_%s %s\n", name, help, name, type);
}

/* One series; `name` with a label of its own, or NULL. */
static void series(FILE *out, const char *metric, const char *name, const char *value, uint64_t number)
{
    fprintf(out, "saratoga_link_%s{%s", metric, label);
    if (name != NULL)
        fprintf(out, ",%s=\"%s\"", name, value);
    fprintf(out, "} %" PRIu64 "\n", number);
}

static void put_plain(FILE *out)
{
    const struct {
        const char *name, *help;
        uint64_t value;
    } plain[] = {
        {"packets_total", "Packets of senders that are heard.", counters.packets},
        {"received_bytes_total", "Octets of packets of senders that are heard.", counters.octets},
        {"rejected_packets_total", "Packets over a limit of the program, or of a sender that doesn't own the Id.", counters.rejected},
        {"lost_packets_total", "Packets that were taken and could not be stored.", counters.lost},
        {"dropped_packets_total", "Packets that the kernel dropped, since the socket had no room.", counters.dropped},
        {"unheard_packets_total", "Packets of senders that aren't heard.", counters.unheard},
        {"answers_total", "Packets that were sent.", counters.answers},
        {"answers_held_back_total", "Answers that waited, since their sender had enough in that second.", counters.held_back},
        {"answers_unsent_total", "Answers that the system didn't send.", counters.unsent},
    };
    for (size_t i = 0; i < sizeof plain / sizeof plain[0]; i++) {
        head(out, plain[i].name, "counter", plain[i].help);
        series(out, plain[i].name, NULL, NULL, plain[i].value);
    }
    head(out, "open_transfers", "gauge", "Transfers that are open.");
    series(out, "open_transfers", NULL, NULL, open_now());
}

static void put_labelled(FILE *out)
{
    char number[24];
    head(out, "refused_packets_total", "counter", "Packets that the library refused, by the number of the refusal.");
    for (size_t i = 0; i < MOST_REFUSALS; i++) {
        snprintf(number, sizeof number, "%zu", i);
        if (i > 0 || counters.refused[i] > 0) /* a rate is known from the first one on where 0 was there before */
            series(out, "refused_packets_total", "refusal", number, counters.refused[i]);
    }
    head(out, "syncs_total", "counter", "Syncs, by how they ended.");
    series(out, "syncs_total", "result", "good", counters.good_syncs);
    series(out, "syncs_total", "result", "bad", counters.bad_syncs);
    head(out, "pages_total", "counter", "Complete files that were reported: handed on, or not since their MD5 differs.");
    series(out, "pages_total", "result", "complete", counters.complete);
    series(out, "pages_total", "result", "differs", counters.differing);
}

static void put_peer(FILE *out, const char *metric, const struct counted_peer *peer, uint64_t number)
{
    char host[64] = "others", port[16];
    if (peer != &counters.others)
        show_sender(&peer->address, host, port);
    if (peer->used)
        series(out, metric, "peer", host, number);
}

static void put_peers(FILE *out)
{
    head(out, "peer_packets_total", "counter", "Packets by the address of their sender; of more than 64 the rest is summed.");
    for (size_t i = 0; i < MOST_COUNTED; i++)
        put_peer(out, "peer_packets_total", &counters.peers[i], counters.peers[i].packets);
    put_peer(out, "peer_packets_total", &counters.others, counters.others.packets);
    head(out, "peer_received_bytes_total", "counter", "Octets of those packets.");
    for (size_t i = 0; i < MOST_COUNTED; i++)
        put_peer(out, "peer_received_bytes_total", &counters.peers[i], counters.peers[i].octets);
    put_peer(out, "peer_received_bytes_total", &counters.others, counters.others.octets);
}

/* Writes the file beside its place, and gives it its name. Gives -1 with errno. */
static int replace(void)
{
    int fd = open(new_name, O_WRONLY | O_CREAT | O_TRUNC | O_NOFOLLOW | O_CLOEXEC, 0666);
    FILE *out = fd >= 0 ? fdopen(fd, "w") : NULL;
    if (out == NULL)
        return -1;
    put_plain(out);
    put_labelled(out);
    put_peers(out);
    int failed = ferror(out);
    if (fclose(out) != 0 || failed) {
        int error = errno;
        unlink(new_name);
        errno = error;
        return -1;
    }
    return rename(new_name, options.metrics);
}

/* At the start, so that a name that can't be written is told before anything is received. */
void begin_metrics(void)
{
    if ((size_t)snprintf(new_name, sizeof new_name, "%s.new", options.metrics) >= PATH_MAX)
        die("%s: a name too long", options.metrics);
    make_label();
    if (replace() != 0)
        die("%s: can't be written: %s", options.metrics, strerror(errno));
}

/* Later it is no reason to end: told once, until it can be written again. */
void write_metrics(void)
{
    static int told;
    int failed = replace() != 0;
    if (failed && !told)
        warn("%s: can't be written: %s; the counters in it are old", options.metrics, strerror(errno));
    told = failed;
}
