/*
 * METADATA as text, for ID.meta and the report: lines of NAME=VALUE that hold nothing but printable ASCII. Different
 * METADATA give different texts, so two files are told apart by comparing texts. From a text the packet is made again,
 * also after a restart, for the library to judge.
 */
#include "link.h"

#include <stdio.h>
#include <stdlib.h>
#include <string.h>
#include <time.h>

#define FIRST_LINE "saratoga-meta 2\n"

/* The date of a second, counted from the start of 2000. */
void date_of(char out[32], uint64_t seconds)
{
    time_t when = (time_t)(START_OF_2000 + seconds);
    struct tm parts;
    if (gmtime_r(&when, &parts) == NULL || strftime(out, 32, "%Y-%m-%dT%H:%M:%SZ", &parts) == 0)
        snprintf(out, 32, "%" PRIu64, seconds);
}

/* The text of a METADATA packet that was read. Gives its length. */
size_t meta_text(char out[MOST_META], const uint8_t *packet, const struct saratoga_packet *read)
{
    char mtime[32], ctime[32];
    date_of(mtime, read->mtime);
    date_of(ctime, read->ctime);
    int done = snprintf(out, MOST_META,
                        FIRST_LINE "id=%" PRIu64 "\nflags=%06" PRIx64 "\nwidth=%" PRIu64 "\nlength=%" PRIu64 "\nproperties=%04" PRIx64
                                   "\nmtime=%s\nctime=%s\nchecksum=",
                        read->id, read->flags, 8 * read->width, read->size, read->properties, mtime, ctime);
    size_t length = (size_t)done;
    if (read->checksum_len == 0)
        length += (size_t)snprintf(out + length, MOST_META - length, "none");
    else
        length += (size_t)snprintf(out + length, MOST_META - length, "%" PRIu64 ":", read->flags & 15);
    for (uint64_t i = 0; i < read->checksum_len; i++)
        length += (size_t)snprintf(out + length, MOST_META - length, "%02x", packet[read->checksum_at + i]);
    length += (size_t)snprintf(out + length, MOST_META - length, "\npath=");
    length += escape(out + length, MOST_META - 1 - length, packet + read->path_at, (size_t)read->path_len);
    out[length++] = '\n';
    out[length] = '\0';
    return length;
}

/* The value of a line; an empty one where there is no such line. */
static const char *value_of(const char *meta, const char *line)
{
    const char *at = strstr(meta, line);
    return at != NULL ? at + strlen(line) : "";
}

static uint64_t number_of(const char *meta, const char *line, int base)
{
    return strtoull(value_of(meta, line), NULL, base);
}

/* The seconds whose date this is, by halving: dates are in the order of their seconds. */
static uint64_t seconds_of(const char *date)
{
    char tried[32];
    uint64_t low = 0, high = UINT32_MAX;
    while (low < high) {
        uint64_t middle = low + (high - low) / 2;
        date_of(tried, middle);
        if (strncmp(tried, date, strlen(tried)) < 0)
            low = middle + 1;
        else
            high = middle;
    }
    return low;
}

static uint8_t octet_of(const char digits[2])
{
    const char pair[3] = {digits[0], digits[0] != '\0' ? digits[1] : '\0'};
    return (uint8_t)strtoul(pair, NULL, 16);
}

/* Pairs of digits up to the end of the line. Gives how many octets they are, at most `room`. */
static size_t octets_of(uint8_t *out, size_t room, const char *digits)
{
    size_t count = strcspn(digits, "\n") / 2;
    count = count < room ? count : room;
    for (size_t i = 0; i < count; i++)
        out[i] = octet_of(digits + 2 * i);
    return count;
}

/* What escape() made of octets, up to the end of the line. Gives how many they are, at most `room`. */
static size_t unescape(uint8_t *out, size_t room, const char *text)
{
    size_t count = 0, length = strcspn(text, "\n");
    for (size_t i = 0; i < length && count < room; count++) {
        int escaped = text[i] == '\\' && i + 4 <= length;
        out[count] = escaped ? octet_of(text + i + 2) : (uint8_t)text[i];
        i += escaped ? 4 : 1;
    }
    return count;
}

/*
 * METADATA as a packet again: one of which meta_text makes this very text. Gives its length; 0 where no packet has this text.
 */
size_t meta_packet(uint8_t out[SARATOGA_METADATA_OCTETS], const char *meta, size_t meta_len)
{
    char again[MOST_META];
    uint8_t checksum[4 * 15], path[SARATOGA_PATH_OCTETS + 1];
    const char *sum = value_of(meta, "\nchecksum="), *colon = strchr(sum, ':');
    size_t path_len = unescape(path, sizeof path, value_of(meta, "\npath=")), sum_len = 0;
    if (sum[0] >= '0' && sum[0] <= '9' && colon != NULL) /* else there is none */
        sum_len = octets_of(checksum, sizeof checksum, colon + 1);
    struct saratoga_written written = saratoga_write_metadata(
        number_of(meta, "\nflags=", 16), number_of(meta, "\nid=", 10), checksum, sum_len,
        number_of(meta, "\nproperties=", 16), number_of(meta, "\nlength=", 10), seconds_of(value_of(meta, "\nmtime=")),
        seconds_of(value_of(meta, "\nctime=")), path, path_len, out, SARATOGA_METADATA_OCTETS);
    struct saratoga_packet read = saratoga_read(out, (size_t)written.size);
    if (written.number != 0 || read.number != 0)
        return 0;
    return meta_text(again, out, &read) == meta_len && memcmp(again, meta, meta_len) == 0 ? (size_t)written.size : 0;
}

/* Whether a text read from disk is one that meta_text wrote for this transfer. */
int meta_is_of(const char *meta, size_t meta_len, const struct saratoga_listed *one)
{
    uint8_t packet[SARATOGA_METADATA_OCTETS];
    size_t packet_len = meta_packet(packet, meta, meta_len);
    struct saratoga_packet read = saratoga_read(packet, packet_len);
    return packet_len > 0 && read.id == one->id && read.width == one->width && read.size == one->length;
}

/* Times, checksum and path on one line. */
void meta_for_report(char out[MOST_META], const struct transfer *t)
{
    const char *from = strstr(t->meta, "\nmtime=");
    snprintf(out, MOST_META, "%s", from != NULL ? from + 1 : "");
    for (char *at = out; (at = strchr(at, '\n')) != NULL;)
        *at = at[1] == '\0' ? '\0' : ' ';
}
