/*
 * Descriptors of 128 bits from C, on packets laid out by hand from document 02: each of the upper eight octets of each
 * descriptor set in turn, each packet cut at each octet, and what the writers put there. Ends with status 1 where anything is
 * wrong.
 */
#include "check.h"

/* Width 128, offset 2,000 = 0x7D0, payload "ab". */
static const uint8_t data[26] = {0x43, 0xC0, [7] = 7, [22] = 0x07, 0xD0, 'a', 'b'};

/* Width 128; the size, 3,000 = 0xBB8, in 128 bits too (property bits 11); Mtime 1, Ctime 2, path "a". */
static const uint8_t metadata[36] = {0x42, 0xC0, [7] = 7, [9] = 0xC0, [24] = 0x0B, 0xB8, [29] = 1, [33] = 2, 'a', 0};

/* Width 128: Progress 1, In-Response-To 9, holes 1 to 2 and 4 to 9. */
static const uint8_t status[104] = {0x44, 0xC0, [7] = 7, [23] = 1, [39] = 9, [55] = 1, [71] = 2, [87] = 4, [103] = 9};

/* Free space of 128 bits: 2,000 KiB; endpoint "e". */
static const uint8_t beacon[21] = {0x40, 0, 0x70, 0, [18] = 0x07, 0xD0, 'e'};

static void taken(void)
{
    read_as("DATA", data, sizeof data,
            (struct saratoga_packet){.type = SARATOGA_TYPE_DATA,
                                     .flags = SARATOGA_WIDTH_128,
                                     .id = 7,
                                     .width = 16,
                                     .timestamp_at = 8,
                                     .offset = 2000,
                                     .payload_at = 24,
                                     .payload_len = 2});
    read_as("METADATA", metadata, sizeof metadata,
            (struct saratoga_packet){.type = SARATOGA_TYPE_METADATA,
                                     .flags = SARATOGA_WIDTH_128,
                                     .id = 7,
                                     .width = 16,
                                     .checksum_at = 8,
                                     .properties = SARATOGA_PROPERTIES_WIDTH_128,
                                     .size = 3000,
                                     .mtime = 1,
                                     .ctime = 2,
                                     .path_at = 34,
                                     .path_len = 1});
    read_as("STATUS", status, sizeof status,
            (struct saratoga_packet){.type = SARATOGA_TYPE_STATUS,
                                     .flags = SARATOGA_WIDTH_128,
                                     .id = 7,
                                     .width = 16,
                                     .timestamp_at = 8,
                                     .progress = 1,
                                     .in_response_to = 9,
                                     .holes_at = 40,
                                     .hole_count = 2});
    same_hole("hole 1", saratoga_read_hole(status, sizeof status, 1), (struct saratoga_hole){.start = 4, .end = 9});
    read_as("BEACON", beacon, sizeof beacon,
            (struct saratoga_packet){.flags = SARATOGA_FREE_SPACE_128,
                                     .largest_width = 2,
                                     .free_width = 16,
                                     .free_space = 2000,
                                     .endpoint_at = 20,
                                     .endpoint_len = 1});
    read_refused("DATA without payload", data, 24, SARATOGA_REFUSED_NO_PAYLOAD, 0x01);
    /* A size of 16 bits under a header of 128: there is no descriptor to judge. */
    read_as("METADATA with a size of 16 bits", (const uint8_t[22]){0x42, 0xC0, [7] = 7, [10] = 0x0B, 0xB8, [20] = 'a', 0}, 22,
            (struct saratoga_packet){.type = SARATOGA_TYPE_METADATA,
                                     .flags = SARATOGA_WIDTH_128,
                                     .id = 7,
                                     .width = 16,
                                     .checksum_at = 8,
                                     .size = 3000,
                                     .path_at = 20,
                                     .path_len = 1});
    printf("ctest: descriptors of 128 bits\n");
}

/* The packet, with each upper octet of its descriptor at `at` set: 5 at each length from its last octet on. */
static void refused_from(const char *what, const uint8_t *packet, size_t len, size_t at)
{
    uint8_t spoiled[sizeof status];
    for (size_t place = 0; place < 8; place++)
        for (unsigned octet = 1; octet < 256; octet += 127) {
            memcpy(spoiled, packet, len);
            spoiled[at + place] = (uint8_t)octet;
            for (size_t cut = at + 16; cut <= len; cut++)
                read_refused(what, spoiled, cut, SARATOGA_REFUSED_WIDTH, SARATOGA_CODE_DESCRIPTORS);
            if (saratoga_read(spoiled, at + 15).number == SARATOGA_REFUSED_WIDTH)
                fail(what, "number before its last octet", SARATOGA_REFUSED_WIDTH, SARATOGA_REFUSED_TRUNCATED);
        }
}

static void refused(void)
{
    uint8_t packet[sizeof status];
    refused_from("offset", data, sizeof data, 8);
    refused_from("size", metadata, sizeof metadata, 10);
    refused_from("free space", beacon, sizeof beacon, 4);
    refused_from("Progress", status, sizeof status, 8);
    refused_from("In-Response-To", status, sizeof status, 24);
    for (size_t at = 40; at < sizeof status; at += 16)
        refused_from("hole list", status, sizeof status, at);
    /* Before 11, wherever the list is wrong; after 6. */
    memcpy(packet, status, sizeof status);
    packet[23] = 2, packet[88] = 1;
    read_refused("5 and 11", packet, sizeof status, SARATOGA_REFUSED_WIDTH, 0x09);
    packet[88] = 0;
    read_refused("11 alone", packet, sizeof status, SARATOGA_REFUSED_HOLES, 0);
    memcpy(packet, data, sizeof data);
    packet[1] = 0xD0, packet[8] = 1;
    read_refused("6 and 5", packet, sizeof data, SARATOGA_REFUSED_KIND, 0x01);
    printf("ctest: upper octets\n");
}

static void written(void)
{
    uint8_t out[40];
    memset(out, 0xA5, sizeof out);
    same_written("DATA", saratoga_write_data(SARATOGA_WIDTH_128, 7, data, 0, 2000, data + 24, 2, out, sizeof out),
                 (struct saratoga_written){.size = sizeof data});
    buffer_holds("DATA", out, sizeof out, data, sizeof data);
    same_written("the largest offset",
                 saratoga_write_data(SARATOGA_WIDTH_128, 7, data, 0, UINT64_MAX, data + 24, 2, out, sizeof out),
                 (struct saratoga_written){.size = sizeof data});
    same_octets("the largest offset", out + 8, (const uint8_t *)"\0\0\0\0\0\0\0\0\xFF\xFF\xFF\xFF\xFF\xFF\xFF\xFF", 16);
    same_written("DATA in 25 octets", saratoga_write_data(SARATOGA_WIDTH_128, 7, data, 0, 2000, data + 24, 2, out, 25),
                 (struct saratoga_written){.number = SARATOGA_REFUSED_BUFFER});

    memset(out, 0xA5, sizeof out);
    same_written("METADATA",
                 saratoga_write_metadata(SARATOGA_WIDTH_128, 7, data, 0, SARATOGA_PROPERTIES_WIDTH_128, 3000, 1, 2,
                                         metadata + 34, 1, out, sizeof out),
                 (struct saratoga_written){.size = sizeof metadata});
    buffer_holds("METADATA", out, sizeof out, metadata, sizeof metadata);
    same_written("a size over the packet's own width",
                 saratoga_write_metadata(SARATOGA_WIDTH_16, 7, data, 0, SARATOGA_PROPERTIES_WIDTH_128, 65536, 1, 2,
                                         metadata + 34, 1, out, sizeof out),
                 (struct saratoga_written){.number = SARATOGA_REFUSED_SIZE, .code = 0x09});

    memset(out, 0xA5, sizeof out);
    same_written("BEACON", saratoga_write_beacon(SARATOGA_FREE_SPACE_128, 2000, beacon + 20, 1, out, sizeof out),
                 (struct saratoga_written){.size = sizeof beacon});
    buffer_holds("BEACON", out, sizeof out, beacon, sizeof beacon);
    printf("ctest: eight zero octets first\n");
}

int main(void)
{
    taken();
    refused();
    written();
    return report("ctest width");
}
