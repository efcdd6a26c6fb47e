/*
 * What is sent: STATUS as of the last good sync, and failures. A peer gets so many STATUS in a second; what is over that waits, and all that
 * one transfer's sender asked for meanwhile is answered by one.
 */
#include "link.h"

#include <errno.h>
#include <string.h>

static int family;                 /* of the socket */

/* How many STATUS a peer may get now, and up to when that was counted. */
static struct allowance {
    struct sender peer;
    uint64_t left, counted;        /* thousandths of a STATUS; a time */
} allowances[SARATOGA_TRANSFERS];

static int is_same_address(const struct sender *one, const struct sender *other)
{
    return one->high == other->high && one->low == other->low;
}

/* The allowance of a peer's address; of one that isn't known, in the place of the one that was answered longest ago. */
static struct allowance *allowance_of(const struct sender *peer, uint64_t now)
{
    struct allowance *oldest = &allowances[0];
    for (size_t i = 0; i < SARATOGA_TRANSFERS; i++) {
        if (is_same_address(&allowances[i].peer, peer))
            return &allowances[i];
        if (allowances[i].counted < oldest->counted)
            oldest = &allowances[i];
    }
    *oldest = (struct allowance){.peer = *peer, .left = 1000 * options.answers, .counted = now};
    return oldest;
}

/* Takes one STATUS from a peer's allowance. Gives 0, or for how many milliseconds there is none left. */
static uint64_t must_wait(const struct sender *peer)
{
    uint64_t now = now_ms(), most = 1000 * options.answers;
    if (socket_fd < 0 || is_ending())
        return 0;
    struct allowance *a = allowance_of(peer, now);
    a->left += (now - a->counted) * options.answers;
    a->left = a->left < most ? a->left : most;
    a->counted = now;
    if (a->left < 1000)
        return (1000 - a->left) / options.answers + 1;
    a->left -= 1000;
    return 0;
}

/* The address that the packet came to is the one that its answer comes from. */
static void add_route(struct msghdr *message, const struct route *route, int of)
{
    struct cmsghdr *head = CMSG_FIRSTHDR(message);
    if (route->family == AF_INET && of == AF_INET) {
        head->cmsg_level = IPPROTO_IP;
        head->cmsg_type = IP_PKTINFO;
        head->cmsg_len = CMSG_LEN(sizeof route->four);
        memcpy(CMSG_DATA(head), &route->four, sizeof route->four);
        message->msg_controllen = CMSG_SPACE(sizeof route->four);
    } else if (route->family == AF_INET6 && of == AF_INET6) {
        head->cmsg_level = IPPROTO_IPV6;
        head->cmsg_type = IPV6_PKTINFO;
        head->cmsg_len = CMSG_LEN(sizeof route->six);
        memcpy(CMSG_DATA(head), &route->six, sizeof route->six);
        message->msg_controllen = CMSG_SPACE(sizeof route->six);
    } else {
        message->msg_controllen = 0;
    }
}

static int send_to(const struct sender *to, const struct route *route, const uint8_t *octets, size_t count)
{
    struct sockaddr_storage address;
    _Alignas(struct cmsghdr) char control[CMSG_SPACE(sizeof(struct in6_pktinfo))] = {0};
    struct iovec part = {.iov_base = (void *)(uintptr_t)octets, .iov_len = count};
    struct msghdr message = {.msg_name = &address, .msg_iov = &part, .msg_iovlen = 1, .msg_control = control,
                             .msg_controllen = sizeof control};
    socklen_t length = sizeof address;
    if (family == 0 && getsockname(socket_fd, (struct sockaddr *)&address, &length) == 0)
        family = address.ss_family;
    message.msg_namelen = address_of(&address, to, family);
    add_route(&message, route, family);
    return sendmsg(socket_fd, &message, MSG_DONTWAIT) < 0 ? -1 : 0;
}

/* Sends a packet, or shows what would be sent. A sender may have an address that nothing can be sent to. */
static void answer(uint64_t number, const struct sender *to, const struct route *route, const uint8_t *octets, size_t count)
{
    counters.answers++;
    say_octets(number, "send", octets, count);
    if (socket_fd >= 0 && send_to(to, route, octets, count) != 0 && counters.unsent++ == 0)
        warn("packet %" PRIu64 ": the answer can't be sent: %s; of more only the number is told, at the end", number,
             strerror(errno));
}

void send_failure(uint64_t number, const struct sender *to, const struct route *route, uint64_t id, uint64_t code)
{
    uint8_t out[8];
    struct saratoga_written written = saratoga_write_failure(id, code, out, sizeof out);
    if (written.number == 0)
        answer(number, to, route, out, (size_t)written.size);
}

/* Whether a transfer's owner may have a STATUS now; else the transfer is put off. */
static int may_answer(struct transfer *t)
{
    struct slot slot;
    if (!slot_of(state + SYNCED, t->id, &slot))
        return 0;
    uint64_t wait = must_wait(&slot.owner);
    count_answer(t, wait > 0);
    if (wait > 0)
        t->put_off = now_ms() + wait;
    return wait == 0;
}

/* An answer that the engine says is due. */
void answer_due(uint64_t id)
{
    uint8_t out[SARATOGA_STATUS_OCTETS];
    struct transfer *t = open_transfer(id);
    if (!may_answer(t))
        return;
    struct saratoga_letter letter = saratoga_engine_tell(state, sizeof state, id, out, sizeof out);
    if (letter.number != 0)
        die("no STATUS of transfer %" PRIu64 " can be written, refusal %" PRIu64 ": the program has a fault", id, letter.number);
    const struct sender owner = {letter.high, letter.low, letter.port};
    answer(t->number, &owner, &t->route, out, (size_t)letter.size);
}

/* The STATUS of --repair-status, as the engine would write it: what is synced, to the owner there. */
static void send_repair(struct transfer *t)
{
    uint8_t out[SARATOGA_STATUS_OCTETS];
    struct slot now, synced;
    int is_there = slot_of(state, t->id, &now) && slot_of(state + SYNCED, t->id, &synced) && now.file == t->file && synced.file == t->file;
    if (is_there && now.due == 0 && !may_answer(t))
        return;
    t->repair = 0;
    if (!is_there || now.due != 0) /* it has ended, or is answered anyway */
        return;
    struct saratoga_written written =
        saratoga_write_status(state + SYNCED, SARATOGA_AREA_OCTETS, t->id, 0, 1, out, sizeof out);
    if (written.number == 0)
        answer(t->number, &synced.owner, &t->route, out, (size_t)written.size);
}

/* Those that wait for a sync which is good now: the engine has no word for them. Gives 1 where there was one. */
int send_repairs(void)
{
    int did = 0;
    uint64_t now = now_ms();
    for (size_t i = 0; i < MOST_FILES; i++) {
        struct transfer *t = &transfers[i];
        if (t->used && t->repair != 0 && t->repair <= last_good_sync() && t->put_off <= now) {
            send_repair(t);
            did = 1;
        }
    }
    return did;
}

/* At the end. */
void tell_unsent(void)
{
    if (counters.unsent > 0)
        warn("%" PRIu64 " answers could not be sent", counters.unsent);
}
