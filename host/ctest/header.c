/*
 * What stands in saratoga.h itself: texts, version and limits; the Id that a failure STATUS is sent to, of every kind of
 * packet; the holes of a STATUS that was read, beside saratoga_read_hole. Ends with status 1 where anything is wrong.
 */
#include "check.h"

static uint32_t state = 611;

/* A number below `end` that looks random. */
static uint64_t below(uint64_t end)
{
    state = state * 1103515245 + 12345;
    return (state >> 8) % end;
}

static void put(uint8_t *at, uint64_t number, size_t octets)
{
    while (octets > 0) {
        at[--octets] = (uint8_t)number;
        number >>= 8;
    }
}

/* Texts for the numbers from 0 to `last`, none empty and no two alike, and one for all others. */
static void texts_as(const char *what, const char *(*text)(uint64_t), uint64_t last, const char *none, const char *unknown)
{
    uint64_t i, j;
    for (i = 0; i <= last; i++) {
        if (text(i)[0] == '\0' || strcmp(text(i), unknown) == 0)
            fail(what, "without a text: number", i, 0);
        for (j = 0; j < i; j++)
            if (strcmp(text(i), text(j)) == 0)
                fail(what, "the same text: number", i, j);
    }
    if (strcmp(text(0), none) != 0 || strcmp(text(last + 1), unknown) != 0 || strcmp(text(UINT64_MAX), unknown) != 0)
        fail(what, "another text: number", 0, last);
}

static void says(uint64_t number, const char *one, const char *other)
{
    if (strstr(saratoga_refusal_text(number), one) == NULL || strstr(saratoga_refusal_text(number), other) == NULL)
        fail("texts", "too little is said: number", number, number);
}

/* The texts, the version, and the limits as the functions have them. */
static void texts_and_limits(void)
{
    static uint8_t path[SARATOGA_PATH_OCTETS + 1], checksum[60], out[SARATOGA_METADATA_OCTETS];
    uint64_t longest = SARATOGA_WIDTH_64 | 0xFF, properties = SARATOGA_PROPERTIES_WIDTH_128;
    char version[16];
    texts_as("refusals", saratoga_refusal_text, SARATOGA_REFUSED_BEACON, "accepted", "unknown refusal");
    if (strcmp(saratoga_refusal_text(SARATOGA_REFUSED_BEACON), "flags of BEACON not allowed") != 0)
        fail("texts", "number", 0, SARATOGA_REFUSED_BEACON);
    texts_as("codes", saratoga_code_text, SARATOGA_CODE_UNEXPECTED, "no error", "unknown status code");
    if (strcmp(saratoga_refusal_text(SARATOGA_REFUSED_NOT_OPEN), "Id not open") != 0 ||
        strcmp(saratoga_code_text(SARATOGA_CODE_UNKNOWN_ID), "unknown Id") != 0)
        fail("texts", "number", 0, SARATOGA_REFUSED_NOT_OPEN);
    /* A number that more than one function gives says what each of them means by it. */
    says(SARATOGA_REFUSED_SIZE, "width", "marks");
    says(SARATOGA_REFUSED_HOLES, "hole list", "failure STATUS");
    says(SARATOGA_REFUSED_FIELD, "field", "failure code 0");
    says(SARATOGA_REFUSED_FIELD, "largest payload", "65,000");
    says(SARATOGA_REFUSED_CRC32C, "new transfer", "CRC-32c");
    says(SARATOGA_REFUSED_TRUNCATED, "packet", "settings file");
    says(SARATOGA_REFUSED_SETTINGS_VERSION, "version", "settings");
    says(SARATOGA_REFUSED_SETTINGS, "settings", "not allowed");
    snprintf(version, sizeof version, "%d.%d", SARATOGA_VERSION_MAJOR, SARATOGA_VERSION_MINOR);
    if (strcmp(version, SARATOGA_VERSION) != 0)
        fail("version", "minor", SARATOGA_VERSION_MINOR, 0);

    memset(path, 'p', sizeof path);
    same_written("the longest METADATA",
                 saratoga_write_metadata(longest, 7, checksum, 60, properties, 1, 0, 0, path, SARATOGA_PATH_OCTETS, out,
                                         sizeof out),
                 (struct saratoga_written){.size = SARATOGA_METADATA_OCTETS});
    same_written("a path too long",
                 saratoga_write_metadata(longest, 7, checksum, 60, properties, 1, 0, 0, path, SARATOGA_PATH_OCTETS + 1,
                                         out, sizeof out),
                 (struct saratoga_written){.number = SARATOGA_REFUSED_PATH, .code = SARATOGA_CODE_UNSPECIFIED});
    same_written("MD5",
                 saratoga_write_metadata(SARATOGA_WIDTH_32 | SARATOGA_CHECKSUM_MD5, 7, checksum, 16,
                                         SARATOGA_PROPERTIES_WIDTH_16, 1, 0, 0, path, 1, out, sizeof out),
                 (struct saratoga_written){.size = 8 + 16 + 2 + 2 + 8 + 2});
    same_written("CRC32",
                 saratoga_write_metadata(SARATOGA_WIDTH_16 | SARATOGA_CHECKSUM_CRC32, 7, checksum, 4,
                                         SARATOGA_PROPERTIES_WIDTH_32, 1, 0, 0, path, 1, out, sizeof out),
                 (struct saratoga_written){.size = 8 + 4 + 2 + 4 + 8 + 2});
    same_written("SHA-1",
                 saratoga_write_metadata(SARATOGA_WIDTH_16 | SARATOGA_CHECKSUM_SHA1, 7, checksum, 20, properties, 1, 0, 0,
                                         path, 1, out, sizeof out),
                 (struct saratoga_written){.size = 8 + 20 + 2 + 16 + 8 + 2});
    printf("ctest: texts, version and limits\n");
}

/* The Id of one packet and code: given where `answered` is not 0, and else left. */
static void failure_id_as(const char *what, const uint8_t *packet, size_t len, uint64_t code, int answered, uint64_t want)
{
    uint8_t *lent = lend(packet, len);
    uint64_t id = 611;
    int got = saratoga_failure_id(lent, len, code, &id);
    if (got != answered)
        fail(what, "answered", (uint64_t)got, (uint64_t)answered);
    if (id != (answered ? want : 611))
        fail(what, "Id", id, answered ? want : 611);
    same_octets(what, lent, packet, len);
    free(lent);
}

/* Every first octet, length up to 12 and code: at least 8 octets, a code, and no BEACON. */
static void failure_ids(void)
{
    static const uint64_t codes[] = {0x00, 0x01, 0x03, 0x06, 0x09, 0x0A, 0xFF};
    uint8_t packet[12] = {0, 0xFF, 0xFF, 0xFF, 0x81, 0x02, 0x03, 0xF4, 0xFF, 0xFF, 0xFF, 0xFF};
    unsigned first;
    size_t len, i;
    for (first = 0; first < 256; first++) {
        packet[0] = (uint8_t)first;
        for (len = 0; len <= sizeof packet; len++)
            for (i = 0; i < sizeof codes / sizeof *codes; i++)
                failure_id_as("every first octet", packet, len, codes[i], len >= 8 && codes[i] != 0 && first % 64 != 0,
                              0x810203F4);
    }
    packet[0] = 0x43;
    memset(packet + 4, 0, 4);
    failure_id_as("Id 0", packet, 8, 1, 1, 0);
    memset(packet + 4, 0xFF, 4);
    failure_id_as("the largest Id", packet, 8, 1, 1, 0xFFFFFFFF);
    printf("ctest: Ids of failure STATUS\n");
}

/* One of each kind of packet, to be cut and spoiled. */
static const uint8_t beacon[] = {0x40, 0, 0x40, 0, 0, 9, 'e'};
static const uint8_t metadata[] = {0x42, 0, 0, 0, 0, 0, 0, 7, 0, 0, 0, 9, 0, 0, 0, 0, 0, 0, 0, 0, 'p', 0};
static const uint8_t data[] = {0x43, 0, 0, 0, 0, 0, 0, 7, 0, 0, 'a', 'b'};
static const uint8_t status[] = {0x44, 0, 0, 0, 0, 0, 0, 7, 0, 2, 0, 9, 0, 2, 0, 5, 0, 6, 0, 8};
static const struct {
    const uint8_t *octets;
    size_t len;
} kinds[] = {{beacon, sizeof beacon}, {metadata, sizeof metadata}, {data, sizeof data}, {status, sizeof status}};

/* Packets that are refused, read, opened or recorded: the failure STATUS of those that are answered is written and read. */
static void refused_packets(void)
{
    static uint8_t area[SARATOGA_AREA_OCTETS];
    uint64_t answered = 0, id = 0;
    unsigned i;
    saratoga_fresh(area, sizeof area);
    for (i = 0; i < 40000; i++) {
        uint8_t packet[sizeof metadata], out[8] = {0};
        size_t kind = below(4), len = kinds[kind].len;
        uint64_t code;
        memcpy(packet, kinds[kind].octets, len);
        packet[below(len)] = (uint8_t)below(256);
        if (below(3) == 0)
            packet[below(len)] ^= (uint8_t)(1 << below(8));
        len -= below(3) == 0 ? below(len) : 0;
        code = i % 3 == 0   ? saratoga_read(packet, len).code
               : i % 3 == 1 ? saratoga_open(area, sizeof area, packet, len).code
                            : saratoga_record(area, sizeof area, packet, len).code;
        if (!saratoga_failure_id(packet, len, code, &id)) {
            if (code != 0 && len >= 8 && packet[0] != 0x40)
                fail("a refused packet", "answered", 0, 1);
            continue;
        }
        answered++;
        same_written("a failure STATUS", saratoga_write_failure(id, code, out, sizeof out),
                     (struct saratoga_written){.size = 8});
        same_octets("its Id", out + 4, packet + 4, 4);
        read_as("a failure STATUS", out, 8,
                (struct saratoga_packet){.type = SARATOGA_TYPE_STATUS, .flags = code, .id = id, .status = code});
    }
    if (answered < 1000)
        fail("refused packets", "answered", answered, 1000);
    printf("ctest: failure STATUS for %d refused packets\n", (int)answered);
}

/*
 * The holes of a packet, some of a long list, and indexes past the last, beside saratoga_read_hole; of what is no success
 * STATUS, 19. How many holes were compared.
 */
static uint64_t holes_as(const uint8_t *packet, size_t len)
{
    struct saratoga_packet read = saratoga_read(packet, len);
    uint8_t *lent = lend(packet, len);
    uint64_t i, compared = 0, count = read.hole_count;
    int success = read.number == 0 && read.type == SARATOGA_TYPE_STATUS && read.status == 0;
    struct saratoga_hole none = {.number = SARATOGA_REFUSED_INDEX};
    for (i = 0; i < count; i += count < 100 ? 1 : 1 + below(count / 20), compared++)
        same_hole("a hole", saratoga_hole_at(lent, &read, i), saratoga_read_hole(lent, len, i));
    if (count > 0)
        same_hole("the last hole", saratoga_hole_at(lent, &read, count - 1), saratoga_read_hole(lent, len, count - 1));
    for (i = 0; i < 3; i++) {
        uint64_t past = i < 2 ? count + i : UINT64_MAX;
        same_hole("past the last hole", saratoga_hole_at(lent, &read, past), none);
        if (success)
            same_hole("past the last hole", saratoga_read_hole(lent, len, past), none);
    }
    same_octets("holes", lent, packet, len);
    free(lent);
    return compared;
}

/* A STATUS of some width with some holes, with a timestamp or without; how long it is. */
static size_t some_status(uint8_t *packet, uint64_t width, uint64_t holes, int stamped, uint64_t apart)
{
    size_t at = stamped ? 24 : 8, progress = at;
    uint64_t offset = below(apart), i;
    memset(packet, 0, at + (size_t)(2 * width + 2 * width * holes));
    put(packet, 0x44000007, 4);
    packet[1] = (uint8_t)((width == 2 ? 0x00 : width == 4 ? 0x40 : width == 8 ? 0x80 : 0xC0) | (stamped ? 0x08 : 0));
    packet[3] = 0;
    put(packet + 4, below(UINT32_MAX), 4);
    put(packet + progress, offset, width);
    at += 2 * width;
    for (i = 0; i < holes; i++, offset += 1 + below(apart)) {
        put(packet + at, offset, width);
        put(packet + at + width, offset += 1 + below(apart), width);
        at += 2 * width;
    }
    put(packet + progress + width, offset, width);
    return at;
}

static void holes(void)
{
    static const uint64_t widths[4] = {2, 4, 8, 16}, apart[4] = {3, 20000, UINT64_C(1) << 23, UINT64_C(1) << 23};
    static uint8_t packet[SARATOGA_PACKET_OCTETS];
    struct saratoga_packet read;
    uint64_t compared = 0, i, j;
    for (i = 0; i < 4; i++)
        for (j = 0; j < 300; j++) {
            size_t len = some_status(packet, widths[i], j, j % 2 == 1, apart[i]);
            compared += holes_as(packet, len);
            packet[below(len)] ^= (uint8_t)(1 << below(8));
            compared += holes_as(packet, len);
            compared += holes_as(packet, below(len));
        }
    /* As many holes as a packet has room for, of each width; and the largest numbers. */
    for (i = 0; i < 4; i++)
        compared += holes_as(packet, some_status(packet, widths[i], 65500 / (2 * widths[i]) - 1, 0, i == 0 ? 1 : apart[i]));
    for (i = 2; i < 4; i++) {
        size_t len = some_status(packet, widths[i], 1, 0, 1);
        put(packet + len - 8, UINT64_MAX, 8);
        put(packet + len - 2 * widths[i] - 8, UINT64_MAX, 8);
        compared += holes_as(packet, len);
        read = saratoga_read(packet, len);
        same_hole("the largest hole", saratoga_hole_at(packet, &read, 0), (struct saratoga_hole){.end = UINT64_MAX});
    }
    for (i = 0; i < 4; i++)
        compared += holes_as(kinds[i].octets, kinds[i].len);
    compared += holes_as((const uint8_t[]){0x44, 0xC0, 0, 5, 0, 0, 0, 7, 0xFF}, 9);
    if (compared < 20000)
        fail("holes", "compared", compared, 20000);
    printf("ctest: %lu holes beside saratoga_read_hole\n", (unsigned long)compared);
}

int main(void)
{
    texts_and_limits();
    failure_ids();
    refused_packets();
    holes();
    return report("ctest header");
}
