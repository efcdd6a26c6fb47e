/*
 * Calls each function of saratoga.h that reads or writes METADATA, DATA and STATUS from C, on packets laid out by hand from
 * the papers; beacon.c does the same for BEACON, width.c for descriptors of 128 bits, plan.c for plans, and settings.c for
 * settings; header.c tests what stands in the header itself.
 * Checks every field of the answers and every octet of the lent buffers, and ends with status 1 where one is wrong.
 */
#include "check.h"

static void hole_as(const char *what, const uint8_t *packet, size_t len, uint64_t index, struct saratoga_hole want)
{
    uint8_t *lent = lend(packet, len);
    same_hole(what, saratoga_read_hole(lent, len, index), want);
    same_octets(what, lent, packet, len);
    free(lent);
}

/* The STATUS of documents 01 and 02: 0 to 999 and 2,000 to 2,999 received of 3,000; then all. */
static const uint8_t status_one_hole[] = {0x44, 0, 0, 0, 0, 0, 0, 7, 0x03, 0xE8, 0x0B, 0xB8, 0x03, 0xE8, 0x07, 0xD0};
static const uint8_t status_complete[] = {0x44, 0x01, 0, 0, 0, 0, 0, 7, 0x0B, 0xB8, 0x0B, 0xB7};

/* Width 64, timestamp, list not complete; holes 2 to 3 and 5 to 2^64 - 1. */
static const uint8_t status_wide[] = {
    0x44, 0x8A, 0,    0,    0xFF, 0xFF, 0xFF, 0xFF,                         /* word, Id */
    1,    2,    3,    4,    5,    6,    7,    8,                            /* timestamp */
    9,    10,   11,   12,   13,   14,   15,   16,                           /* timestamp */
    0,    0,    0,    0,    0,    0,    0,    1,                            /* Progress */
    0xFF, 0xFF, 0xFF, 0xFF, 0xFF, 0xFF, 0xFF, 0xFF,                         /* In-Response-To */
    0,    0,    0,    0,    0,    0,    0,    2,    0, 0, 0, 0, 0, 0, 0, 3, /* hole 0 */
    0,    0,    0,    0,    0,    0,    0,    5,                            /* hole 1 */
    0xFF, 0xFF, 0xFF, 0xFF, 0xFF, 0xFF, 0xFF, 0xFF};

/* Code 0x0A, width bits 11, and an odd octet that is ignored. */
static const uint8_t status_failure[] = {0x44, 0xC8, 0, 0x0A, 0, 0, 0, 7, 0xFF};

static void read_status(void)
{
    read_as("STATUS with one hole", status_one_hole, sizeof status_one_hole,
            (struct saratoga_packet){.type = SARATOGA_TYPE_STATUS,
                                     .id = 7,
                                     .width = 2,
                                     .timestamp_at = 8,
                                     .progress = 1000,
                                     .in_response_to = 3000,
                                     .holes_at = 12,
                                     .hole_count = 1});
    read_as("STATUS of a complete transfer", status_complete, sizeof status_complete,
            (struct saratoga_packet){.type = SARATOGA_TYPE_STATUS,
                                     .flags = SARATOGA_FLAG_UNASKED,
                                     .id = 7,
                                     .width = 2,
                                     .timestamp_at = 8,
                                     .progress = 3000,
                                     .in_response_to = 2999,
                                     .holes_at = 12});
    read_refused("STATUS that points to the last octet, asked for",
                 (const uint8_t[]){0x44, 0, 0, 0, 0, 0, 0, 7, 0x0B, 0xB8, 0x0B, 0xB7}, 12, SARATOGA_REFUSED_HOLES, 0);
    read_refused("STATUS with Progress 0 and the largest In-Response-To",
                 (const uint8_t[]){0x44, 0x01, 0, 0, 0, 0, 0, 7, 0, 0, 0xFF, 0xFF}, 12, SARATOGA_REFUSED_HOLES, 0);
    read_as("STATUS of width 64", status_wide, sizeof status_wide,
            (struct saratoga_packet){.type = SARATOGA_TYPE_STATUS,
                                     .flags = 0x800000 | SARATOGA_FLAG_TIMESTAMP | SARATOGA_FLAG_INCOMPLETE,
                                     .id = 0xFFFFFFFF,
                                     .width = 8,
                                     .timestamp_at = 8,
                                     .timestamp_len = 16,
                                     .progress = 1,
                                     .in_response_to = UINT64_MAX,
                                     .holes_at = 40,
                                     .hole_count = 2});
    read_as("failure STATUS", status_failure, sizeof status_failure,
            (struct saratoga_packet){.type = SARATOGA_TYPE_STATUS, .flags = 0xC8000A, .id = 7, .status = 0x0A});
    read_refused("STATUS cut in its hole list", status_one_hole, 15, SARATOGA_REFUSED_HOLES, 0);
    read_refused("STATUS cut before In-Response-To's end", status_one_hole, 11, SARATOGA_REFUSED_TRUNCATED, 0);
    printf("ctest: reading STATUS\n");
}

static void read_holes(void)
{
    hole_as("the hole", status_one_hole, sizeof status_one_hole, 0, (struct saratoga_hole){.start = 1000, .end = 2000});
    hole_as("index past the list", status_one_hole, sizeof status_one_hole, 1,
            (struct saratoga_hole){.number = SARATOGA_REFUSED_INDEX});
    hole_as("index 2^64 - 1", status_one_hole, sizeof status_one_hole, UINT64_MAX,
            (struct saratoga_hole){.number = SARATOGA_REFUSED_INDEX});
    hole_as("no hole", status_complete, sizeof status_complete, 0,
            (struct saratoga_hole){.number = SARATOGA_REFUSED_INDEX});
    hole_as("wide hole 0", status_wide, sizeof status_wide, 0, (struct saratoga_hole){.start = 2, .end = 3});
    hole_as("wide hole 1", status_wide, sizeof status_wide, 1, (struct saratoga_hole){.start = 5, .end = UINT64_MAX});
    hole_as("hole of a failure STATUS", status_failure, sizeof status_failure, 0,
            (struct saratoga_hole){.number = SARATOGA_REFUSED_HOLES});
    hole_as("hole of a cut list", status_one_hole, 14, 0, (struct saratoga_hole){.number = SARATOGA_REFUSED_HOLES});
    hole_as("hole of DATA", (const uint8_t[]){0x43, 0, 0, 0, 0, 0, 0, 7, 0, 0, 1}, 11, 0,
            (struct saratoga_hole){.number = SARATOGA_REFUSED_TYPE, .code = 0x0A});
    hole_as("hole of nothing", status_one_hole, 0, 0, (struct saratoga_hole){.number = SARATOGA_REFUSED_TRUNCATED});
    printf("ctest: reading holes\n");
}

/* Width 32, MD5; the size in 16 bits. */
static const uint8_t metadata[] = {
    0x42, 0x40, 0,    0x42, 0, 0, 0, 7,            /* word, Id */
    1,    2,    3,    4,    5, 6, 7, 8,            /* checksum */
    9,    10,   11,   12,   13, 14, 15, 16,        /* checksum */
    0,    0x04, 0x0B, 0xB8,                        /* properties, size */
    0,    0,    0,    1,    0xFF, 0xFF, 0xFF, 0xFE, /* Mtime, Ctime */
    'p',  '6',  '1',  '1',  0};

static void read_metadata(void)
{
    uint8_t packet[2000];
    read_as("METADATA", metadata, sizeof metadata,
            (struct saratoga_packet){.type = SARATOGA_TYPE_METADATA,
                                     .flags = 0x400042,
                                     .id = 7,
                                     .width = 4,
                                     .checksum_at = 8,
                                     .checksum_len = 16,
                                     .properties = 4,
                                     .size = 3000,
                                     .mtime = 1,
                                     .ctime = 0xFFFFFFFE,
                                     .path_at = 36,
                                     .path_len = 4});
    read_refused("METADATA cut in its path", metadata, sizeof metadata - 1, SARATOGA_REFUSED_TRUNCATED, 0);
    read_refused("METADATA cut in its Ctime", metadata, 35, SARATOGA_REFUSED_TRUNCATED, 0);

    memcpy(packet, metadata, sizeof metadata);
    packet[3] = 0x32;
    read_refused("METADATA with another pair", packet, sizeof metadata, SARATOGA_REFUSED_CHECKSUM, 0x01);
    packet[1] = 0x50;
    read_refused("METADATA of a directory", packet, sizeof metadata, SARATOGA_REFUSED_KIND, 0x01);
    packet[0] = 0x41;
    read_refused("REQUEST", packet, sizeof metadata, SARATOGA_REFUSED_TYPE, 0x0A);
    packet[0] = 0x81;
    read_refused("version 2", packet, sizeof metadata, SARATOGA_REFUSED_VERSION, 0);

    /* The size in 32 bits, 65,536, where the packet's own width is 16. */
    memcpy(packet, "\x42\0\0\0\0\0\0\7\0\x40\0\1\0\0\0\0\0\0\0\0\0\0a\0", 24);
    read_refused("METADATA of 65,536 octets at width 16", packet, 24, SARATOGA_REFUSED_SIZE, 0x09);
    packet[22] = 0;
    read_refused("METADATA with an empty path", packet, 24, SARATOGA_REFUSED_PATH, 0x01);

    /* The longest path, then one octet more. */
    memset(packet, 'x', sizeof packet);
    memcpy(packet, "\x42\0\0\0\0\0\0\7\0\0\xFF\xFF\0\0\0\0\0\0\0\0", 20);
    packet[20 + 1023] = 0;
    read_as("METADATA with the longest path", packet, 20 + 1023 + 1,
            (struct saratoga_packet){.type = SARATOGA_TYPE_METADATA,
                                     .id = 7,
                                     .width = 2,
                                     .checksum_at = 8,
                                     .size = 65535,
                                     .path_at = 20,
                                     .path_len = 1023});
    packet[20 + 1023] = 'x';
    packet[20 + 1024] = 0;
    read_refused("METADATA with a longer path", packet, 20 + 1024 + 1, SARATOGA_REFUSED_PATH, 0x01);
    printf("ctest: reading METADATA\n");
}

/* A CRC-32c is read, though it opens nothing new. */
static void read_crc32c(void)
{
    static const uint8_t packet[26] = {0x42, 0, 0, 0x11, 0, 0, 0, 7, 0xDE, 0xAD, 0xBE, 0xEF, [15] = 9, [24] = 'a'};
    read_as("METADATA with a CRC-32c", packet, sizeof packet,
            (struct saratoga_packet){.type = SARATOGA_TYPE_METADATA,
                                     .flags = SARATOGA_CHECKSUM_CRC32,
                                     .id = 7,
                                     .width = 2,
                                     .checksum_at = 8,
                                     .checksum_len = 4,
                                     .size = 9,
                                     .path_at = 24,
                                     .path_len = 1});
}

/* Width 16, status wanted, end of data. */
static const uint8_t data[] = {0x43, 0x01, 0x80, 0, 0, 0, 0, 7, 0x07, 0xD0, 'a', 'b'};

static void read_data(void)
{
    uint8_t *long_packet = lend(NULL, 65536);
    read_as("DATA", data, sizeof data,
            (struct saratoga_packet){.type = SARATOGA_TYPE_DATA,
                                     .flags = SARATOGA_FLAG_STATUS_WANTED | SARATOGA_FLAG_END_OF_DATA,
                                     .id = 7,
                                     .width = 2,
                                     .timestamp_at = 8,
                                     .offset = 2000,
                                     .payload_at = 10,
                                     .payload_len = 2});
    read_refused("DATA without payload", data, 10, SARATOGA_REFUSED_NO_PAYLOAD, 0x01);
    read_refused("DATA cut in its offset", data, 9, SARATOGA_REFUSED_TRUNCATED, 0);

    /* Width 32, timestamp. */
    memcpy(long_packet, "\x43\x48\0\0\0\0\0\7", 8);
    memset(long_packet + 24, 0xFF, 4);
    read_as("DATA of 65,535 octets", long_packet, 65535,
            (struct saratoga_packet){.type = SARATOGA_TYPE_DATA,
                                     .flags = 0x400000 | SARATOGA_FLAG_TIMESTAMP,
                                     .id = 7,
                                     .width = 4,
                                     .timestamp_at = 8,
                                     .timestamp_len = 16,
                                     .offset = 0xFFFFFFFF,
                                     .payload_at = 28,
                                     .payload_len = 65535 - 28});
    read_refused("DATA of 65,536 octets", long_packet, 65536, SARATOGA_REFUSED_TOO_LONG, 0);
    free(long_packet);
    printf("ctest: reading DATA\n");
}

static void metadata_as(const char *what, uint64_t size, const char *path, size_t len, struct saratoga_written want)
{
    uint8_t *checksum = lend(metadata + 8, 16);
    uint8_t *lent_path = lend((const uint8_t *)path, strlen(path));
    uint8_t *out = lend(NULL, len);
    struct saratoga_written got = saratoga_write_metadata(0x400042, 7, checksum, 16, 4, size, 1, 0xFFFFFFFE, lent_path,
                                                          strlen(path), out, len);
    same_written(what, got, want);
    buffer_holds(what, out, len, metadata, want.number == 0 ? sizeof metadata : 0);
    same_octets(what, checksum, metadata + 8, 16);
    same_octets(what, lent_path, (const uint8_t *)path, strlen(path));
    free(checksum);
    free(lent_path);
    free(out);
}

static void write_metadata(void)
{
    struct saratoga_written written = {.size = sizeof metadata};
    metadata_as("METADATA into the exact room", 3000, "p611", sizeof metadata, written);
    metadata_as("METADATA into more room", 3000, "p611", sizeof metadata + 9, written);
    metadata_as("METADATA into less room", 3000, "p611", sizeof metadata - 1,
                (struct saratoga_written){.number = SARATOGA_REFUSED_BUFFER});
    metadata_as("METADATA without path", 3000, "", sizeof metadata,
                (struct saratoga_written){.number = SARATOGA_REFUSED_PATH, .code = 0x01});
    metadata_as("METADATA with a size over 16 bits", 65536, "p611", sizeof metadata,
                (struct saratoga_written){.number = SARATOGA_REFUSED_FIELD});
    printf("ctest: writing METADATA\n");
}

static void data_as(const char *what, uint64_t flags, uint64_t offset, size_t payload_len, size_t len,
                    struct saratoga_written want)
{
    uint8_t *none = lend(NULL, 0);
    uint8_t *payload = lend(data + 10, payload_len);
    uint8_t *out = lend(NULL, len);
    struct saratoga_written got = saratoga_write_data(flags, 7, none, 0, offset, payload, payload_len, out, len);
    same_written(what, got, want);
    buffer_holds(what, out, len, data, want.number == 0 ? sizeof data : 0);
    same_octets(what, payload, data + 10, payload_len);
    free(none);
    free(payload);
    free(out);
}

static void write_data(void)
{
    uint64_t flags = SARATOGA_FLAG_STATUS_WANTED | SARATOGA_FLAG_END_OF_DATA;
    struct saratoga_written written = {.size = sizeof data};
    data_as("DATA into the exact room", flags, 2000, 2, sizeof data, written);
    data_as("DATA into more room", flags, 2000, 2, sizeof data + 9, written);
    data_as("DATA into less room", flags, 2000, 2, sizeof data - 1,
            (struct saratoga_written){.number = SARATOGA_REFUSED_BUFFER});
    data_as("DATA into no room", flags, 2000, 2, 0, (struct saratoga_written){.number = SARATOGA_REFUSED_BUFFER});
    data_as("DATA without payload", flags, 2000, 0, sizeof data,
            (struct saratoga_written){.number = SARATOGA_REFUSED_NO_PAYLOAD, .code = 0x01});
    data_as("DATA without its timestamp", flags | SARATOGA_FLAG_TIMESTAMP, 2000, 2, sizeof data,
            (struct saratoga_written){.number = SARATOGA_REFUSED_TRUNCATED});
    data_as("DATA of a stream", flags | 0x300000, 2000, 2, sizeof data,
            (struct saratoga_written){.number = SARATOGA_REFUSED_KIND, .code = 0x01});
    data_as("DATA with an offset over 16 bits", flags, 65536, 2, sizeof data,
            (struct saratoga_written){.number = SARATOGA_REFUSED_FIELD});
    data_as("DATA with flags over 24 bits", flags | 0x1000000, 2000, 2, sizeof data,
            (struct saratoga_written){.number = SARATOGA_REFUSED_FIELD});
    printf("ctest: writing DATA\n");
}

static void failure_as(const char *what, uint64_t id, uint64_t status, size_t len, struct saratoga_written want)
{
    static const uint8_t packet[] = {0x44, 0, 0, 0x0A, 0xFF, 0xFF, 0xFF, 0xFF};
    uint8_t *out = lend(NULL, len);
    same_written(what, saratoga_write_failure(id, status, out, len), want);
    buffer_holds(what, out, len, packet, want.number == 0 ? sizeof packet : 0);
    free(out);
}

static void write_failure(void)
{
    failure_as("failure into the exact room", 0xFFFFFFFF, 0x0A, 8, (struct saratoga_written){.size = 8});
    failure_as("failure into more room", 0xFFFFFFFF, 0x0A, 17, (struct saratoga_written){.size = 8});
    failure_as("failure into less room", 0xFFFFFFFF, 0x0A, 7,
               (struct saratoga_written){.number = SARATOGA_REFUSED_BUFFER});
    failure_as("failure with code 0", 7, 0, 8, (struct saratoga_written){.number = SARATOGA_REFUSED_FIELD});
    failure_as("failure with code 256", 7, 256, 8, (struct saratoga_written){.number = SARATOGA_REFUSED_FIELD});
    failure_as("failure with a long Id", UINT64_C(1) << 32, 1, 0,
               (struct saratoga_written){.number = SARATOGA_REFUSED_FIELD});
    printf("ctest: writing failure STATUS\n");
}

int main(void)
{
    read_metadata();
    read_crc32c();
    read_data();
    read_status();
    read_holes();
    write_metadata();
    write_data();
    write_failure();
    return report("ctest main");
}
