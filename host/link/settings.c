/*
 * The plant's settings file (--settings): read and judged before anything else, and told in one line for whoever needs its
 * numbers. The program itself keeps no timer and plans nothing: a sender's planner takes the largest payload, and whoever keeps the
 * timers takes the seconds between STATUS that nobody asked for.
 */
#include "link.h"

#include <errno.h>
#include <stdio.h>
#include <string.h>

#define MOST_OCTETS 4096 /* a settings file is far shorter; a longer file is refused for its first octets */

/* A number that the file may leave out, as text. */
static const char *number_or_none(char out[24], uint64_t given, uint64_t number)
{
    if (given)
        snprintf(out, 24, "%" PRIu64, number);
    return given ? out : "";
}

void tell_settings(const char *name)
{
    uint8_t octets[MOST_OCTETS];
    char interval[24], partner[24];
    FILE *file = fopen(name, "rb");
    if (file == NULL)
        die("%s: %s", name, strerror(errno));
    errno = 0;
    size_t count = fread(octets, 1, sizeof octets, file);
    if (ferror(file))
        die("%s: %s", name, errno != 0 ? strerror(errno) : "can't be read");
    fclose(file);
    struct saratoga_settings s = saratoga_read_settings(octets, count, SARATOGA_SETTINGS_VERSION);
    if (s.number != 0)
        die("%s: refused %" PRIu64 ": %s; saratoga-settings says where", name, s.number, saratoga_refusal_text(s.number));
    say(0, "settings version=%" PRIu64 " largest-payload=%" PRIu64 " interval=%s partner=%s", s.version, s.largest_payload,
        number_or_none(interval, s.has_interval, s.interval), number_or_none(partner, s.has_partner, s.partner));
}
