/* Packets from a UDP socket, many at a time; what the socket lost is counted and told. */
#include "link.h"

#include <errno.h>
#include <netdb.h>
#include <poll.h>
#include <stdio.h>
#include <string.h>
#include <unistd.h>

#define BATCH 64
#define PACKET_ROOM (SARATOGA_PACKET_OCTETS + 1)

static uint8_t octets[BATCH][PACKET_ROOM];
static struct sockaddr_storage addresses[BATCH];
static struct iovec parts[BATCH];
static struct mmsghdr messages[BATCH];
static struct {
    _Alignas(struct cmsghdr) char octets[CMSG_SPACE(sizeof(struct in6_pktinfo)) + CMSG_SPACE(sizeof(uint32_t))];
} controls[BATCH];

static uint32_t dropped;           /* by the kernel, since the socket was made: a number that begins anew after 2^32 */

static void prepare_batch(void)
{
    for (size_t i = 0; i < BATCH; i++) {
        parts[i] = (struct iovec){.iov_base = octets[i], .iov_len = PACKET_ROOM};
        messages[i].msg_hdr = (struct msghdr){.msg_name = &addresses[i],
                                              .msg_namelen = sizeof addresses[i],
                                              .msg_iov = &parts[i],
                                              .msg_iovlen = 1,
                                              .msg_control = &controls[i],
                                              .msg_controllen = sizeof controls[i]};
    }
}

/* Asks for the receive buffer; where less was got, that is told: packets will be lost in a burst. */
static void set_buffer(int fd)
{
    int size = (int)options.buffer, got = 0;
    socklen_t length = sizeof got;
    if (setsockopt(fd, SOL_SOCKET, SO_RCVBUFFORCE, &size, sizeof size) != 0)
        setsockopt(fd, SOL_SOCKET, SO_RCVBUF, &size, sizeof size);
    getsockopt(fd, SOL_SOCKET, SO_RCVBUF, &got, &length);
    if ((uint64_t)got / 2 < options.buffer) /* the kernel doubles what is asked for */
        say(0, "receive-buffer octets=%d asked=%" PRIu64, got / 2, options.buffer);
}

/* Which address a packet came to is told with it, and how many were dropped before it. */
static void set_options(int fd, int family)
{
    int on = 1;
    setsockopt(fd, SOL_SOCKET, SO_RXQ_OVFL, &on, sizeof on);
    if (family == AF_INET)
        setsockopt(fd, IPPROTO_IP, IP_PKTINFO, &on, sizeof on);
    else
        setsockopt(fd, IPPROTO_IPV6, IPV6_RECVPKTINFO, &on, sizeof on);
    set_buffer(fd);
}

static void listen_on(const char *host, const char *port)
{
    struct addrinfo hints = {.ai_family = AF_UNSPEC,
                             .ai_socktype = SOCK_DGRAM,
                             .ai_flags = AI_NUMERICHOST | AI_NUMERICSERV | AI_PASSIVE};
    struct addrinfo *found;
    struct sockaddr_storage own;
    socklen_t own_len = sizeof own;
    char own_host[64], own_port[16];
    int error = getaddrinfo(host, port, &hints, &found);
    if (error != 0)
        die("%s, port %s: %s", host, port, gai_strerror(error));
    socket_fd = socket(found->ai_family, found->ai_socktype | SOCK_CLOEXEC, found->ai_protocol);
    if (socket_fd >= 0)
        set_options(socket_fd, found->ai_family);
    if (socket_fd < 0 || bind(socket_fd, found->ai_addr, found->ai_addrlen) != 0)
        die("%s, port %s: can't listen: %s", host, port, strerror(errno));
    freeaddrinfo(found);
    if (getsockname(socket_fd, (struct sockaddr *)&own, &own_len) != 0)
        die("%s, port %s: %s", host, port, strerror(errno));
    show_address(&own, own_len, own_host, own_port);
    say(0, "listening address=%s port=%s", own_host, own_port);
    tell_ready("listening on %s, port %s", own_host, own_port);
}

/* Once when it happens, and at the end how many: packets that came while the program was busy with others. */
static void count_dropped(uint32_t count)
{
    if (count != 0 && counters.dropped == 0)
        warn("the socket has no room: %" PRIu32 " packets were dropped before the program could take them; of more only the number is told, at "
             "the end. --receive-buffer makes more room",
             count);
    counters.dropped += (uint32_t)(count - dropped);
    dropped = count;
}

static void take_control(struct msghdr *message, struct route *route)
{
    for (struct cmsghdr *head = CMSG_FIRSTHDR(message); head != NULL; head = CMSG_NXTHDR(message, head)) {
        if (head->cmsg_level == IPPROTO_IP && head->cmsg_type == IP_PKTINFO) {
            memcpy(&route->four, CMSG_DATA(head), sizeof route->four);
            route->four.ipi_ifindex = 0; /* the way back is the routing table's */
            route->family = AF_INET;
        } else if (head->cmsg_level == IPPROTO_IPV6 && head->cmsg_type == IPV6_PKTINFO) {
            memcpy(&route->six, CMSG_DATA(head), sizeof route->six);
            route->family = AF_INET6;
        } else if (head->cmsg_level == SOL_SOCKET && head->cmsg_type == SO_RXQ_OVFL) {
            uint32_t count;
            memcpy(&count, CMSG_DATA(head), sizeof count);
            count_dropped(count);
        }
    }
}

static void tell_unheard(const struct sockaddr_storage *address, socklen_t length)
{
    char host[64], port[16];
    show_address(address, length, host, port);
    warn("a packet from %s, port %s, is dropped: --peer doesn't name it; of more only the number is told, at the end", host, port);
}

/* Takes what the socket has. Gives how many packets of senders that are heard. */
static unsigned take_batch(uint64_t *number)
{
    unsigned taken = 0;
    int count = recvmmsg(socket_fd, messages, BATCH, MSG_DONTWAIT, NULL);
    if (count < 0 && errno != EINTR && errno != EAGAIN && errno != ECONNREFUSED)
        die("the socket can't be read: %s", strerror(errno));
    for (int i = 0; i < count; i++) {
        struct msghdr *message = &messages[i].msg_hdr;
        struct packet p = {.octets = octets[i], .length = messages[i].msg_len};
        sender_of(&p.from, &addresses[i]);
        take_control(message, &p.route);
        if (is_heard(&p.from)) {
            p.number = (*number)++;
            count_packet(&p);
            take_packet(&p);
            taken++;
        } else if (counters.unheard++ == 0) {
            tell_unheard(&addresses[i], message->msg_namelen);
        }
        message->msg_namelen = sizeof addresses[i];
        message->msg_controllen = sizeof controls[i];
    }
    store_kept();
    return taken;
}

static void tell_the_end(void)
{
    if (counters.unheard > 0)
        warn("%" PRIu64 " packets of senders that --peer doesn't name were dropped", counters.unheard);
    if (counters.dropped > 0)
        warn("%" PRIu64 " packets were dropped by the socket, which had no room", counters.dropped);
    tell_unsent();
    end_counters();
}

/* Packets from a UDP socket, until a signal, or `idle` seconds without one of a sender that is heard (0: for ever). */
void from_socket(const char *host, const char *port, uint64_t idle)
{
    uint64_t number = 1;
    with_threads = 1;
    listen_on(host, port);
    prepare_batch();
    drive();
    for (uint64_t last = now_ms(); !stopped && (idle == 0 || now_ms() - last < 1000 * idle);) {
        struct pollfd ready[2] = {{.fd = socket_fd, .events = POLLIN}, {.fd = wake_descriptor(), .events = POLLIN}};
        if (poll(ready, 2, 0) == 0) {
            flush_output();
            if (poll(ready, 2, manager_wait(most_wait())) < 0 && errno != EINTR)
                die("%s, port %s: %s", host, port, strerror(errno));
        }
        if (ready[1].revents != 0)
            hush_wake();
        if (ready[0].revents != 0 && take_batch(&number) > 0)
            last = now_ms();
        int tick = tick_is_due();
        if (tick)
            hear_operator();
        drive();
        if (tick) {
            tick_counters();
            draw_live();
        }
        attend();
    }
    tell_stopping();
    int saved = drive_to_the_end();
    tell_the_end();
    if (!saved)
        die("%s/area: what came last isn't saved, and counts as lost", options.directory);
}
