/* Reading a packet of any type in plain C. */
#include "plain_packet.h"
#include "receivers.h"

static struct saratoga_packet refused_packet(unsigned number)
{
    struct saratoga_packet a = {.number = number, .code = code_of(number)};
    return a;
}

static struct saratoga_packet beacon_packet(const uint8_t *packet, size_t packet_len, uint64_t word)
{
    static const uint8_t states[4] = {SARATOGA_CANNOT, 0, SARATOGA_NOT_NOW, SARATOGA_WILLING};
    struct plain_beacon b;
    unsigned refused = read_beacon(packet, packet_len, word, &b);
    if (refused)
        return refused_packet(refused);
    return (struct saratoga_packet){.type = SARATOGA_TYPE_BEACON,
                                    .flags = b.flags,
                                    .largest_width = (uint64_t)2 << (word >> 22 & 3),
                                    .bundles = word >> 21 & 1,
                                    .streams = word >> 20 & 1,
                                    .send = states[word >> 18 & 3],
                                    .receive = states[word >> 16 & 3],
                                    .free_width = b.free_width,
                                    .free_space = b.free_space,
                                    .endpoint_at = b.endpoint_at,
                                    .endpoint_len = b.endpoint};
}

static struct saratoga_packet data_packet(const uint8_t *packet, size_t packet_len)
{
    struct plain_data d;
    unsigned refused = read_data(packet, packet_len, &d);
    if (refused)
        return refused_packet(refused);
    return (struct saratoga_packet){.type = SARATOGA_TYPE_DATA,
                                    .flags = d.flags,
                                    .id = d.id,
                                    .width = d.width,
                                    .timestamp_at = 8,
                                    .timestamp_len = d.timestamp,
                                    .offset = d.offset,
                                    .payload_at = d.payload_at,
                                    .payload_len = d.payload};
}

static struct saratoga_packet metadata_packet(const uint8_t *packet, size_t packet_len)
{
    struct plain_metadata m;
    unsigned refused = read_metadata(packet, packet_len, &m);
    if (refused)
        return refused_packet(refused);
    return (struct saratoga_packet){.type = SARATOGA_TYPE_METADATA,
                                    .flags = m.flags,
                                    .id = m.id,
                                    .width = m.width,
                                    .checksum_at = 8,
                                    .checksum_len = m.checksum,
                                    .properties = m.properties,
                                    .size = m.size,
                                    .mtime = m.mtime,
                                    .ctime = m.ctime,
                                    .path_at = m.path_at,
                                    .path_len = m.path};
}

static struct saratoga_packet status_packet(const uint8_t *packet, size_t packet_len, uint64_t word)
{
    struct plain_status s;
    unsigned refused;
    if (word & 255)
        return (struct saratoga_packet){.type = SARATOGA_TYPE_STATUS,
                                        .flags = word & 0xFFFFFF,
                                        .id = number32(packet + 4),
                                        .status = word & 255};
    refused = read_success(packet, packet_len, word, &s);
    if (refused)
        return refused_packet(refused);
    return (struct saratoga_packet){.type = SARATOGA_TYPE_STATUS,
                                    .flags = s.flags,
                                    .id = s.id,
                                    .width = s.width,
                                    .timestamp_at = 8,
                                    .timestamp_len = s.timestamp,
                                    .progress = s.progress,
                                    .in_response_to = s.in_response_to,
                                    .holes_at = s.holes_at,
                                    .hole_count = s.holes};
}

struct saratoga_packet plain_read(const uint8_t *packet, size_t packet_len)
{
    uint64_t word;
    unsigned refused = read_start(packet, packet_len, &word);
    if (refused)
        return refused_packet(refused);
    switch (word >> 24 & 63) {
    case SARATOGA_TYPE_BEACON:
        return beacon_packet(packet, packet_len, word);
    case SARATOGA_TYPE_METADATA:
        return metadata_packet(packet, packet_len);
    case SARATOGA_TYPE_DATA:
        return data_packet(packet, packet_len);
    case SARATOGA_TYPE_STATUS:
        return status_packet(packet, packet_len, word);
    default:
        return refused_packet(4);
    }
}
