/* Reading a descriptor in plain C, as host/bench/plain_packet.h does. */
#include "../plain_packet.h"
#include "readers.h"

uint64_t descriptor_plain(const uint8_t *octets, size_t octets_len, size_t at, size_t width)
{
    (void)octets_len;
    return over_64_bits(octets + at, width) ? 0 : number_at(octets + at, width);
}
