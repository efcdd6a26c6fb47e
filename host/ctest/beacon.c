/*
 * BEACON from C: read and written, on packets laid out by hand from section 4.1 of the draft and document 02; and what each
 * function that takes a packet answers to a BEACON of 3 to 7 octets. Ends with status 1 where anything is wrong.
 */
#include "check.h"

/* Largest width 64, streams, will send, can receive but not now; 1,048,576 KiB (1 GiB) free, told in 32 bits; "dish". */
static const uint8_t beacon[] = {0x40, 0x9E, 0x50, 0, 0, 0x10, 0, 0, 'd', 'i', 's', 'h'};
#define BEACON_FLAGS \
    (SARATOGA_LARGEST_64 | SARATOGA_FLAG_STREAMS | SARATOGA_SEND_WILLING | SARATOGA_RECEIVE_NOT_NOW | SARATOGA_FREE_SPACE_32)

static void read_fields(void)
{
    read_as("BEACON", beacon, sizeof beacon,
            (struct saratoga_packet){.type = SARATOGA_TYPE_BEACON,
                                     .flags = 0x9E5000,
                                     .largest_width = 8,
                                     .streams = 1,
                                     .send = SARATOGA_WILLING,
                                     .receive = SARATOGA_NOT_NOW,
                                     .free_width = 4,
                                     .free_space = 1048576,
                                     .endpoint_at = 8,
                                     .endpoint_len = 4});
    read_as("BEACON without endpoint", beacon, 8,
            (struct saratoga_packet){.flags = 0x9E5000,
                                     .largest_width = 8,
                                     .streams = 1,
                                     .send = SARATOGA_WILLING,
                                     .receive = SARATOGA_NOT_NOW,
                                     .free_width = 4,
                                     .free_space = 1048576,
                                     .endpoint_at = 8});
    read_refused("BEACON cut in its free space", beacon, 7, SARATOGA_REFUSED_TRUNCATED, 0);
    read_as("BEACON of four octets", (const uint8_t[]){0x40, 0, 0, 0}, 4,
            (struct saratoga_packet){.largest_width = 2, .endpoint_at = 4});
    /* Bits 16 and 18 to 23 set, bit 17 clear: no free space; largest width 128, bundles, can send, will receive. */
    read_as("BEACON with bits without a use", (const uint8_t[]){0x40, 0xEB, 0xBF, 0, 0xFF, 0}, 6,
            (struct saratoga_packet){.flags = 0xEBBF00,
                                     .largest_width = 16,
                                     .bundles = 1,
                                     .send = SARATOGA_NOT_NOW,
                                     .receive = SARATOGA_WILLING,
                                     .endpoint_at = 4,
                                     .endpoint_len = 2});
    printf("ctest: reading BEACON\n");
}

/* Every pairing of bits 12 to 15, and each width of free space, in 8 octets of 0xFF and an endpoint of one. */
static void read_each(void)
{
    static const uint64_t states[4] = {SARATOGA_CANNOT, 0, SARATOGA_NOT_NOW, SARATOGA_WILLING};
    static const uint64_t last[3] = {0xFFFF, 0xFFFFFFFF, UINT64_MAX};
    uint8_t packet[13];
    memset(packet, 0xFF, sizeof packet);
    for (uint8_t pairs = 0; pairs < 16; pairs++) {
        packet[0] = 0x40, packet[1] = pairs, packet[2] = 0, packet[3] = 0;
        if (pairs / 4 == 1 || pairs % 4 == 1)
            read_refused("BEACON with a pairing 0 1", packet, sizeof packet, SARATOGA_REFUSED_BEACON, 0);
        else
            read_as("BEACON with a pairing", packet, sizeof packet,
                    (struct saratoga_packet){.flags = (uint64_t)pairs << 16,
                                             .largest_width = 2,
                                             .send = states[pairs / 4],
                                             .receive = states[pairs % 4],
                                             .endpoint_at = 4,
                                             .endpoint_len = 9});
    }
    for (uint8_t code = 0; code < 3; code++) {
        uint64_t width = (uint64_t)2 << code;
        packet[1] = 0, packet[2] = (uint8_t)(0x40 | code << 4);
        read_as("BEACON with free space", packet, sizeof packet,
                (struct saratoga_packet){.flags = (uint64_t)packet[2] << 8,
                                         .largest_width = 2,
                                         .free_width = width,
                                         .free_space = last[code],
                                         .endpoint_at = 4 + width,
                                         .endpoint_len = 9 - width});
    }
    packet[2] = 0x70;
    read_refused("BEACON cut in its free space of 128 bits", packet, sizeof packet, SARATOGA_REFUSED_TRUNCATED, 0);
    packet[3] = 1;
    read_refused("BEACON with a last flags octet", packet, sizeof packet, SARATOGA_REFUSED_BEACON, 0);
    packet[0] = 0x80;
    read_refused("BEACON of version 2", packet, sizeof packet, SARATOGA_REFUSED_VERSION, 0);
    printf("ctest: pairings and free space\n");
}

static void longest(void)
{
    uint8_t *packet = lend(NULL, 65536);
    memcpy(packet, "\x40\0\0\0", 4);
    read_as("BEACON of 65,535 octets", packet, 65535,
            (struct saratoga_packet){.largest_width = 2, .endpoint_at = 4, .endpoint_len = 65531});
    read_refused("BEACON of 65,536 octets", packet, 65536, SARATOGA_REFUSED_TOO_LONG, 0);

    uint8_t *out = lend(NULL, 65536);
    same_written("the longest BEACON", saratoga_write_beacon(0, 0, packet + 4, 65531, out, 65536),
                 (struct saratoga_written){.size = 65535});
    buffer_holds("the longest BEACON", out, 65536, packet, 65535);
    same_written("a longer BEACON", saratoga_write_beacon(0, 0, packet + 4, 65532, out, 65536),
                 (struct saratoga_written){.number = SARATOGA_REFUSED_TOO_LONG});
    buffer_holds("a longer BEACON", out, 65536, packet, 65535);
    free(packet);
    free(out);
    printf("ctest: the longest BEACON\n");
}

static void written_as(const char *what, uint64_t flags, uint64_t free_space, size_t len, struct saratoga_written want)
{
    uint8_t *endpoint = lend(beacon + 8, 4);
    uint8_t *out = lend(NULL, len);
    same_written(what, saratoga_write_beacon(flags, free_space, endpoint, 4, out, len), want);
    buffer_holds(what, out, len, beacon, want.number == 0 ? sizeof beacon : 0);
    same_octets(what, endpoint, beacon + 8, 4);
    free(endpoint);
    free(out);
}

static void write_fields(void)
{
    uint64_t gib = 1048576; /* KiB */
    struct saratoga_written written = {.size = sizeof beacon};
    written_as("BEACON into the exact room", BEACON_FLAGS, gib, sizeof beacon, written);
    written_as("BEACON into more room", BEACON_FLAGS, gib, sizeof beacon + 9, written);
    written_as("BEACON into less room", BEACON_FLAGS, gib, sizeof beacon - 1,
               (struct saratoga_written){.number = SARATOGA_REFUSED_BUFFER});
    written_as("BEACON with flags over 24 bits", BEACON_FLAGS | 0x1000000, gib, sizeof beacon,
               (struct saratoga_written){.number = SARATOGA_REFUSED_FIELD});
    written_as("BEACON with free space over 32 bits", BEACON_FLAGS, UINT64_C(1) << 32, sizeof beacon,
               (struct saratoga_written){.number = SARATOGA_REFUSED_FIELD});
    written_as("BEACON with free space where none is told", BEACON_FLAGS & ~SARATOGA_FREE_SPACE_MASK, 1, sizeof beacon,
               (struct saratoga_written){.number = SARATOGA_REFUSED_FIELD});
    written_as("BEACON with sending 0 1", (BEACON_FLAGS & ~SARATOGA_SEND_MASK) | 0x040000, gib, sizeof beacon,
               (struct saratoga_written){.number = SARATOGA_REFUSED_BEACON});
    written_as("BEACON with receiving 0 1", (BEACON_FLAGS & ~SARATOGA_RECEIVE_MASK) | 0x010000, gib, sizeof beacon,
               (struct saratoga_written){.number = SARATOGA_REFUSED_BEACON});
    written_as("BEACON with a last flags octet", BEACON_FLAGS | 0x80, gib, sizeof beacon,
               (struct saratoga_written){.number = SARATOGA_REFUSED_BEACON});

    uint8_t out[4];
    same_written("BEACON of four octets", saratoga_write_beacon(0, 0, beacon, 0, out, sizeof out),
                 (struct saratoga_written){.size = 4});
    same_octets("BEACON of four octets", out, (const uint8_t[]){0x40, 0, 0, 0}, 4);
    printf("ctest: writing BEACON\n");
}

/* The names of the header, each against the bit of the draft that it stands for: bit b is 1 << (31 - b). */
static void names(void)
{
    static const struct {
        const char *what;
        uint64_t got, want;
    } each[] = {
        {"largest width", SARATOGA_LARGEST_MASK, UINT64_C(3) << 22},
        {"largest width 16", SARATOGA_LARGEST_16, 0},
        {"largest width 32", SARATOGA_LARGEST_32, UINT64_C(1) << 22},
        {"largest width 64", SARATOGA_LARGEST_64, UINT64_C(2) << 22},
        {"largest width 128", SARATOGA_LARGEST_128, UINT64_C(3) << 22},
        {"bundles", SARATOGA_FLAG_BUNDLES, UINT64_C(1) << 21},
        {"streams", SARATOGA_FLAG_STREAMS, UINT64_C(1) << 20},
        {"sending", SARATOGA_SEND_MASK, UINT64_C(3) << 18},
        {"cannot send", SARATOGA_SEND_CANNOT, 0},
        {"not now", SARATOGA_SEND_NOT_NOW, UINT64_C(2) << 18},
        {"will send", SARATOGA_SEND_WILLING, UINT64_C(3) << 18},
        {"receiving", SARATOGA_RECEIVE_MASK, UINT64_C(3) << 16},
        {"cannot receive", SARATOGA_RECEIVE_CANNOT, 0},
        {"not now", SARATOGA_RECEIVE_NOT_NOW, UINT64_C(2) << 16},
        {"will receive", SARATOGA_RECEIVE_WILLING, UINT64_C(3) << 16},
        {"UDP-Lite", SARATOGA_FLAG_UDP_LITE, UINT64_C(1) << 15},
        {"free space", SARATOGA_FREE_SPACE_MASK, UINT64_C(7) << 12},
        {"no free space", SARATOGA_FREE_SPACE_NONE, 0},
        {"free space in 16 bits", SARATOGA_FREE_SPACE_16, UINT64_C(4) << 12},
        {"free space in 32 bits", SARATOGA_FREE_SPACE_32, UINT64_C(5) << 12},
        {"free space in 64 bits", SARATOGA_FREE_SPACE_64, UINT64_C(6) << 12},
        {"free space in 128 bits", SARATOGA_FREE_SPACE_128, UINT64_C(7) << 12},
    };
    for (size_t i = 0; i < sizeof each / sizeof each[0]; i++)
        if (each[i].got != each[i].want)
            fail(each[i].what, "mask", each[i].got, each[i].want);
    printf("ctest: masks of BEACON\n");
}

/* What each function that takes a packet answers to `len` octets that begin with `first`, zeros after it. */
static void in_each_function(uint8_t first, size_t len, uint64_t number)
{
    static uint8_t area[SARATOGA_AREA_OCTETS], before[SARATOGA_AREA_OCTETS];
    const uint8_t zeros[8] = {first};
    uint8_t *packet = lend(zeros, len);
    uint64_t code = number == SARATOGA_REFUSED_TYPE ? SARATOGA_CODE_TYPE : 0;
    saratoga_fresh(area, sizeof area);
    memcpy(before, area, sizeof area);
    struct saratoga_hole hole = saratoga_read_hole(packet, len, 0);
    struct saratoga_opened opened = saratoga_open(area, sizeof area, packet, len);
    struct saratoga_recorded recorded = saratoga_record(area, sizeof area, packet, len);
    struct saratoga_recorded tried = saratoga_try_record(area, sizeof area, packet, len);
    const uint64_t got[] = {hole.number, opened.number, recorded.number, tried.number,
                            hole.code,   opened.code,   recorded.code,   tried.code};
    for (size_t i = 0; i < 8; i++)
        if (got[i] != (i < 4 ? number : code))
            fail("a short packet", i < 4 ? "number" : "code", got[i], i < 4 ? number : code);
    same_octets("a short packet: area", area, before, sizeof area);
    free(packet);
}

static void short_packets(void)
{
    const uint8_t zeros[8] = {0x40}, other[8] = {0x41};
    for (size_t len = 0; len < 8; len++) {
        in_each_function(0x40, len, len < 4 ? SARATOGA_REFUSED_TRUNCATED : SARATOGA_REFUSED_TYPE);
        in_each_function(0x41, len, SARATOGA_REFUSED_TRUNCATED);
        in_each_function(0x00, len, SARATOGA_REFUSED_TRUNCATED);
        if (len < 4)
            read_refused("BEACON of fewer than four octets", zeros, len, SARATOGA_REFUSED_TRUNCATED, 0);
        else
            read_as("BEACON of four to seven octets", zeros, len,
                    (struct saratoga_packet){.largest_width = 2, .endpoint_at = 4, .endpoint_len = len - 4});
        read_refused("REQUEST of fewer than eight octets", other, len, SARATOGA_REFUSED_TRUNCATED, 0);
    }
    printf("ctest: short packets in each function\n");
}

int main(void)
{
    read_fields();
    read_each();
    longest();
    write_fields();
    names();
    short_packets();
    return report("ctest beacon");
}
