/* Senders: their addresses as the engine keeps them, as a socket wants them, and which of them are heard. */
#include "link.h"

#include <arpa/inet.h>
#include <net/if.h>
#include <netdb.h>
#include <stdlib.h>
#include <string.h>

static const uint8_t mapped[12] = {[10] = 0xff, [11] = 0xff}; /* ::ffff:a.b.c.d is an address of IPv4 */

static uint64_t half_of(const uint8_t octets[8])
{
    uint64_t value = 0;
    for (size_t i = 0; i < 8; i++)
        value = value << 8 | octets[i];
    return value;
}

static void octets_of(uint8_t out[16], const struct sender *from)
{
    for (size_t i = 0; i < 8; i++) {
        out[i] = (uint8_t)(from->high >> (56 - 8 * i));
        out[8 + i] = (uint8_t)(from->low >> (56 - 8 * i));
    }
}

/* A sender by the address of its socket. The scope of an address stands above the port. */
void sender_of(struct sender *out, const struct sockaddr_storage *address)
{
    uint8_t octets[16];
    if (address->ss_family == AF_INET6) {
        const struct sockaddr_in6 *six = (const struct sockaddr_in6 *)address;
        memcpy(octets, &six->sin6_addr, 16);
        out->port = (uint64_t)six->sin6_scope_id << 16 | ntohs(six->sin6_port);
    } else {
        const struct sockaddr_in *four = (const struct sockaddr_in *)address;
        memcpy(octets, mapped, 12);
        memcpy(octets + 12, &four->sin_addr, 4);
        out->port = ntohs(four->sin_port);
    }
    out->high = half_of(octets);
    out->low = half_of(octets + 8);
}

/* And the other way, for a socket of a family. Gives the length. */
socklen_t address_of(struct sockaddr_storage *out, const struct sender *to, int family)
{
    uint8_t octets[16];
    octets_of(octets, to);
    memset(out, 0, sizeof *out);
    out->ss_family = (sa_family_t)family;
    if (family == AF_INET6) {
        struct sockaddr_in6 *six = (struct sockaddr_in6 *)out;
        memcpy(&six->sin6_addr, octets, 16);
        six->sin6_port = htons((uint16_t)to->port);
        six->sin6_scope_id = (uint32_t)(to->port >> 16);
        return sizeof *six;
    }
    struct sockaddr_in *four = (struct sockaddr_in *)out;
    memcpy(&four->sin_addr, octets + 12, 4);
    four->sin_port = htons((uint16_t)to->port);
    return sizeof *four;
}

/* How many bits of an address count, after a slash; `most` where there is none. Gives 0 where it is no such number. */
static int take_bits(const char *slash, unsigned most, unsigned *bits)
{
    char *end;
    *bits = most;
    if (slash == NULL)
        return 1;
    unsigned long value = strtoul(slash + 1, &end, 10);
    *bits = (unsigned)value;
    return slash[1] >= '0' && slash[1] <= '9' && *end == '\0' && value <= most;
}

static int take_scope(const char *text, uint32_t *scope)
{
    char *end;
    unsigned long value = strtoul(text, &end, 10);
    *scope = text[0] >= '0' && text[0] <= '9' && *end == '\0' && value <= UINT32_MAX ? (uint32_t)value : if_nametoindex(text);
    return *scope != 0;
}

/* Adds a sender that is heard: 10.1.2.3, 10.1.0.0/16, fe80::1%eth0. Gives 0 where the text is none, or there are too many. */
int name_peer(const char *text)
{
    char address[80];
    struct network network = {.scope = 0};
    const char *slash = strchr(text, '/'), *percent = strchr(text, '%');
    size_t length = percent != NULL ? (size_t)(percent - text) : slash != NULL ? (size_t)(slash - text) : strlen(text);
    if (options.peer_count == MOST_PEERS || length >= sizeof address || (slash != NULL && percent != NULL))
        return 0;
    memcpy(address, text, length);
    address[length] = '\0';
    if (inet_pton(AF_INET, address, network.address + 12) == 1) {
        if (percent != NULL || !take_bits(slash, 32, &network.bits))
            return 0;
        memcpy(network.address, mapped, 12);
        network.bits += 96;
    } else if (inet_pton(AF_INET6, address, network.address) != 1 || !take_bits(slash, 128, &network.bits) ||
               (percent != NULL && !take_scope(percent + 1, &network.scope))) {
        return 0;
    }
    options.peers[options.peer_count++] = network;
    return 1;
}

static int is_in(const uint8_t octets[16], const struct network *network)
{
    unsigned whole = network->bits / 8, rest = network->bits % 8;
    if (memcmp(octets, network->address, whole) != 0)
        return 0;
    return rest == 0 || ((octets[whole] ^ network->address[whole]) & (uint8_t)(0xff00 >> rest)) == 0;
}

int is_heard(const struct sender *from)
{
    uint8_t octets[16];
    if (options.any_peer)
        return 1;
    octets_of(octets, from);
    for (unsigned i = 0; i < options.peer_count; i++)
        if (is_in(octets, &options.peers[i]) && (options.peers[i].scope == 0 || options.peers[i].scope == from->port >> 16))
            return 1;
    return 0;
}

/* The text of an address, numeric. */
void show_address(const struct sockaddr_storage *address, socklen_t length, char host[64], char port[16])
{
    if (getnameinfo((const struct sockaddr *)address, length, host, 64, port, 16,
                    NI_NUMERICHOST | NI_NUMERICSERV | NI_DGRAM) != 0) {
        strcpy(host, "?");
        strcpy(port, "?");
    }
}

/* The same of a sender. */
void show_sender(const struct sender *from, char host[64], char port[16])
{
    struct sockaddr_storage address;
    uint8_t octets[16];
    octets_of(octets, from);
    socklen_t length = address_of(&address, from, memcmp(octets, mapped, sizeof mapped) == 0 ? AF_INET : AF_INET6);
    show_address(&address, length, host, port);
}
