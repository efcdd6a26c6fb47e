/* The socket: connected, so that it hears the receiver alone. */
#include "send.h"

#include <errno.h>
#include <netdb.h>
#include <poll.h>
#include <stdlib.h>
#include <string.h>
#include <sys/socket.h>
#include <time.h>
#include <unistd.h>

int wire_error;

/* HOST and PORT of HOST:PORT; a host with colons of its own stands in brackets. */
static int split_peer(const char *peer, char *host, size_t room, const char **port)
{
    const char *colon = strrchr(peer, ':'), *from = peer, *to = colon;
    if (colon == NULL || colon[1] == 0)
        return 0;
    if (from[0] == '[' && to > from && to[-1] == ']')
        from++, to--;
    else if (memchr(from, ':', (size_t)(to - from)) != NULL)
        return 0;
    if (to <= from || (size_t)(to - from) >= room)
        return 0;
    memcpy(host, from, (size_t)(to - from));
    host[to - from] = 0;
    *port = colon + 1;
    return strspn(*port, "0123456789") == strlen(*port) && strlen(*port) <= 5 && atol(*port) >= 1 && atol(*port) <= 65535;
}

static int connected(const struct addrinfo *at)
{
    int wire = socket(at->ai_family, at->ai_socktype | SOCK_CLOEXEC, at->ai_protocol);
    if (wire >= 0 && connect(wire, at->ai_addr, at->ai_addrlen) != 0) {
        int error = errno;
        close(wire);
        errno = error;
        return -1;
    }
    return wire;
}

int open_wire(const char *peer)
{
    struct addrinfo asked = {.ai_socktype = SOCK_DGRAM}, *found, *at;
    char host[256];
    const char *port;
    int wire = -1, failed;
    if (!split_peer(peer, host, sizeof host, &port))
        return wrong("%s: not HOST:PORT, with a port of 1 to 65535; an IPv6 address stands in brackets, as in [::1]:7542", peer), -1;
    failed = getaddrinfo(host, port, &asked, &found);
    if (failed != 0)
        return wrong("%s: %s", peer, failed == EAI_SYSTEM ? strerror(errno) : gai_strerror(failed)), -1;
    for (at = found; at != NULL && wire < 0; at = at->ai_next)
        wire = connected(at);
    if (wire < 0)
        wrong("%s: %s", peer, strerror(errno));
    freeaddrinfo(found);
    return wire;
}

/*
 * Whether there is no use in going on: no packet of this length, or none at all, goes through this socket. (Only the second time: the
 * first may tell of an earlier packet that a router found too long, and the next is then sent in fragments.)
 */
static int is_final(int error)
{
    return error == EMSGSIZE || error == EBADF || error == ENOTSOCK || error == EINVAL || error == EFAULT;
}

int send_batch(int wire, struct batch *batch)
{
    struct mmsghdr messages[BATCH];
    struct iovec parts[BATCH];
    size_t i, sent = 0;
    int finals = 0;
    memset(messages, 0, sizeof messages);
    for (i = 0; i < batch->count; i++) {
        parts[i].iov_base = batch->packets[i];
        parts[i].iov_len = batch->sizes[i];
        messages[i].msg_hdr.msg_iov = &parts[i];
        messages[i].msg_hdr.msg_iovlen = 1;
    }
    while (sent < batch->count) {
        int count = sendmmsg(wire, messages + sent, (unsigned)(batch->count - sent), 0);
        if (count > 0) {
            sent += (size_t)count;
            finals = 0;
        } else if (is_final(errno) && ++finals > 1) {
            return wrong("a packet of %lu octets can't be sent: %s", (unsigned long)batch->sizes[sent], strerror(errno));
        } else if (errno != EINTR) {
            wire_error = errno;
            sent += errno != ECONNREFUSED && !is_final(errno); /* those are the answer to an earlier packet */
        }
    }
    return 1;
}

size_t receive(int wire, uint8_t *packet, size_t room)
{
    ssize_t got;
    do {
        got = recv(wire, packet, room, MSG_DONTWAIT);
        if (got < 0 && errno != EAGAIN && errno != EINTR)
            wire_error = errno;
    } while (got == 0 || (got < 0 && errno == EINTR));
    return got > 0 ? (size_t)got : 0;
}

void wait_for_packet(int wire, int64_t nanoseconds)
{
    struct pollfd waits = {.fd = wire, .events = POLLIN};
    struct timespec most = {nanoseconds / SECOND, nanoseconds % SECOND};
    if (nanoseconds > 0)
        ppoll(&waits, 1, &most, NULL);
}
