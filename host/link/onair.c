/*
 * Who is on the air. A BEACON is told by a line when its endpoint is first heard, and when its willingness to send or to
 * receive, or its free space, is another than was told last. Nothing is answered, and nothing is kept on disk.
 *
 * The endpoint is whatever a sender wrote, so what one can do is bounded: MOST_ENDPOINTS are kept, each with its first
 * ENDPOINT_OCTETS octets and its length, which also are what tells two apart. Where all places are taken, one that was
 * silent for SILENT seconds is given up; if there is none, further endpoints are only counted. Over a socket an endpoint
 * may tell LINES_AT_ONCE lines, and then one a second: what it says in between is told with the next BEACON that may.
 */
#include "link.h"

#include <stdio.h>
#include <string.h>
#include <time.h>

#define MOST_ENDPOINTS 64
#define ENDPOINT_OCTETS 255
#define LINES_AT_ONCE 8
#ifndef SILENT /* tests build it with less */
#define SILENT 60
#endif

struct endpoint {
    int used;
    uint64_t length;               /* of the whole endpoint */
    uint8_t octets[ENDPOINT_OCTETS];
    struct saratoga_packet told;   /* as the last line said it */
    uint64_t heard;                /* the second in which it last was */
    uint64_t lines;                /* that it may tell now */
    uint64_t counted;              /* the second up to which those were counted */
};

static struct endpoint endpoints[MOST_ENDPOINTS];
static uint64_t not_listed;        /* BEACONs of endpoints that there was no place for */
static int held_back;              /* a line was, and that was said */

static uint64_t seconds(void)
{
    struct timespec now;
    clock_gettime(CLOCK_MONOTONIC, &now);
    return (uint64_t)now.tv_sec;
}

static size_t kept_octets(uint64_t length)
{
    return length < ENDPOINT_OCTETS ? (size_t)length : ENDPOINT_OCTETS;
}

static struct endpoint *endpoint_of(const uint8_t *octets, uint64_t length)
{
    for (size_t i = 0; i < MOST_ENDPOINTS; i++) {
        struct endpoint *e = &endpoints[i];
        if (e->used && e->length == length && memcmp(e->octets, octets, kept_octets(length)) == 0)
            return e;
    }
    return NULL;
}

/* A place for an endpoint that isn't listed; NULL where there is none. */
static struct endpoint *new_endpoint(const uint8_t *octets, uint64_t length, uint64_t now)
{
    struct endpoint *chosen = &endpoints[0];
    for (size_t i = 1; i < MOST_ENDPOINTS && chosen->used; i++)
        if (!endpoints[i].used || endpoints[i].heard < chosen->heard)
            chosen = &endpoints[i];
    if (chosen->used && now - chosen->heard < SILENT)
        return NULL;
    *chosen = (struct endpoint){.used = 1, .length = length, .lines = LINES_AT_ONCE, .counted = now};
    memcpy(chosen->octets, octets, kept_octets(length));
    return chosen;
}

static int is_told(const struct endpoint *e, const struct saratoga_packet *read)
{
    return e->told.send == read->send && e->told.receive == read->receive &&
           (e->told.free_width != 0) == (read->free_width != 0) && e->told.free_space == read->free_space;
}

/* Whether one more line may be told of the endpoint now. */
static int may_tell(struct endpoint *e, uint64_t now)
{
    uint64_t lines = e->lines + (now - e->counted);
    e->lines = lines < LINES_AT_ONCE ? lines : LINES_AT_ONCE;
    e->counted = now;
    if (e->lines == 0)
        return 0;
    e->lines--;
    return 1;
}

static void tell(uint64_t number, struct endpoint *e, const struct saratoga_packet *read)
{
    static const char *const states[] = {"cannot", "not-now", "willing"};
    char name[4 * ENDPOINT_OCTETS + 3], free_space[24] = "", cut[48] = "";
    e->told = *read;
    quote(name, sizeof name, e->octets, kept_octets(e->length));
    if (read->free_width != 0)
        snprintf(free_space, sizeof free_space, "%" PRIu64, read->free_space);
    if (e->length > ENDPOINT_OCTETS)
        snprintf(cut, sizeof cut, " endpoint-length=%" PRIu64, e->length);
    say(number, "on-air send=%s receive=%s free=%s largest-width=%" PRIu64 " endpoint=%s%s", states[read->send],
        states[read->receive], free_space, 8 * read->largest_width, name, cut);
}

/* A BEACON. */
void hear_beacon(const struct packet *p, const struct saratoga_packet *read)
{
    uint64_t now = seconds();
    const uint8_t *octets = p->octets + read->endpoint_at;
    struct endpoint *e = endpoint_of(octets, read->endpoint_len);
    int is_new = e == NULL;
    if (is_new)
        e = new_endpoint(octets, read->endpoint_len, now);
    if (e == NULL) {
        if (not_listed++ == 0)
            warn("more than %d endpoints are on the air; of the others only the number of BEACONs is told, at the end",
                 MOST_ENDPOINTS);
        return;
    }
    e->heard = now;
    if (!is_new && is_told(e, read))
        return;
    if (socket_fd < 0 || may_tell(e, now)) {
        tell(p->number, e, read);
    } else if (!held_back) {
        held_back = 1;
        warn("an endpoint on the air changes too often to be told each time; it is told about once a second");
    }
}

/* At the end: what was not told. */
void count_beacons(void)
{
    if (not_listed > 0)
        warn("%" PRIu64 " BEACONs of further endpoints were heard", not_listed);
}
