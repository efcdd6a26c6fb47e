/*
 * A link that loses packets, for any program: loaded before its libraries (LD_PRELOAD), it drops a share of the datagrams that the program
 * sends, and says at its end how many were sent and how many dropped.
 *
 *     LOSSY_SHARE    of the datagrams, 0 to 1 (else 0)
 *     LOSSY_SEED     of chance (else 1)
 *     LOSSY_LEAST    octets from which on a datagram counts as one with payload (else 0)
 *     LOSSY_REPORT   file for the two numbers, of datagrams with payload
 */
#define _GNU_SOURCE
#include <dlfcn.h>
#include <stdint.h>
#include <stdio.h>
#include <stdlib.h>
#include <sys/socket.h>

static uint64_t state, limit, least, sent, dropped;
static ssize_t (*real_sendto)(int, const void *, size_t, int, const struct sockaddr *, socklen_t);
static ssize_t (*real_sendmsg)(int, const struct msghdr *, int);
static int (*real_sendmmsg)(int, struct mmsghdr *, unsigned, int);

static double number_of(const char *name, double otherwise)
{
    const char *text = getenv(name);
    return text != NULL ? atof(text) : otherwise;
}

__attribute__((constructor)) static void begin(void)
{
    *(void **)&real_sendto = dlsym(RTLD_NEXT, "sendto");
    *(void **)&real_sendmsg = dlsym(RTLD_NEXT, "sendmsg");
    *(void **)&real_sendmmsg = dlsym(RTLD_NEXT, "sendmmsg");
    limit = (uint64_t)(number_of("LOSSY_SHARE", 0) * 4294967296.0);
    state = (uint64_t)number_of("LOSSY_SEED", 1);
    least = (uint64_t)number_of("LOSSY_LEAST", 0);
}

__attribute__((destructor)) static void end(void)
{
    const char *name = getenv("LOSSY_REPORT");
    FILE *out = name != NULL ? fopen(name, "w") : NULL;
    if (out == NULL)
        return;
    fprintf(out, "%llu %llu\n", (unsigned long long)sent, (unsigned long long)dropped);
    fclose(out);
}

/* splitmix64, whose high half decides. */
static int is_lost(void)
{
    uint64_t z = state += UINT64_C(0x9E3779B97F4A7C15);
    z = (z ^ z >> 30) * UINT64_C(0xBF58476D1CE4E5B9);
    z = (z ^ z >> 27) * UINT64_C(0x94D049BB133111EB);
    return (z ^ z >> 31) >> 32 < limit;
}

static void count(size_t octets, int lost)
{
    sent += octets >= least;
    dropped += lost && octets >= least;
}

static size_t octets_of(const struct msghdr *message)
{
    size_t octets = 0;
    for (size_t i = 0; i < message->msg_iovlen; i++)
        octets += message->msg_iov[i].iov_len;
    return octets;
}

ssize_t sendto(int fd, const void *octets, size_t size, int flags, const struct sockaddr *to, socklen_t to_len)
{
    int lost = is_lost();
    ssize_t done = lost ? (ssize_t)size : real_sendto(fd, octets, size, flags, to, to_len);
    if (done >= 0)
        count(size, lost);
    return done;
}

ssize_t sendmsg(int fd, const struct msghdr *message, int flags)
{
    int lost = is_lost();
    ssize_t done = lost ? (ssize_t)octets_of(message) : real_sendmsg(fd, message, flags);
    if (done >= 0)
        count(octets_of(message), lost);
    return done;
}

/* Those between two that are lost go out together. */
int sendmmsg(int fd, struct mmsghdr *messages, unsigned number, int flags)
{
    unsigned at = 0;
    while (at < number) {
        unsigned kept = 0;
        int lost = 0;
        while (at + kept < number && !(lost = is_lost()))
            kept++;
        int done = kept > 0 ? real_sendmmsg(fd, messages + at, kept, flags) : 0;
        if (done < 0)
            return at > 0 ? (int)at : -1;
        for (int i = 0; i < done; i++)
            count(octets_of(&messages[at++].msg_hdr), 0);
        if ((unsigned)done < kept)
            return (int)at;
        if (lost)
            count(octets_of(&messages[at++].msg_hdr), 1);
    }
    return (int)number;
}
