/*
 * Shared by the C tests: what compares answers and octets and counts what is wrong, and what lends memory of an exact
 * size.
 */
#ifndef CHECK_H
#define CHECK_H

#include <stdio.h>
#include <stdlib.h>
#include <string.h>

#include "saratoga.h"

static int failures;

static inline void fail(const char *what, const char *field, uint64_t got, uint64_t want)
{
    printf("FAILED: %s: %s is 0x%llx and not 0x%llx\n", what, field, (unsigned long long)got, (unsigned long long)want);
    failures++;
}

/* Compares a field of `got` and `want`. */
#define SAME(field)                                         \
    do {                                                    \
        if (got.field != want.field)                        \
            fail(what, #field, got.field, want.field);      \
    } while (0)

static inline void same_octets(const char *what, const uint8_t *got, const uint8_t *want, size_t len)
{
    size_t i;
    for (i = 0; i < len; i++) {
        if (got[i] != want[i]) {
            printf("FAILED: %s: octet %lu is 0x%02x and not 0x%02x\n", what, (unsigned long)i, got[i], want[i]);
            failures++;
            return;
        }
    }
}

/* Memory of exactly `len` octets, so that a tool sees any access outside. */
static inline uint8_t *lend(const uint8_t *octets, size_t len)
{
    uint8_t *lent = malloc(len > 0 ? len : 1);
    if (lent == NULL)
        exit(2);
    if (octets != NULL)
        memcpy(lent, octets, len);
    else
        memset(lent, 0xA5, len);
    return lent;
}

static inline void same_written(const char *what, struct saratoga_written got, struct saratoga_written want)
{
    SAME(number);
    SAME(code);
    SAME(size);
}

static inline void same_packet(const char *what, struct saratoga_packet got, struct saratoga_packet want)
{
    SAME(number);
    SAME(code);
    SAME(type);
    SAME(flags);
    SAME(id);
    SAME(width);
    SAME(timestamp_at);
    SAME(timestamp_len);
    SAME(checksum_at);
    SAME(checksum_len);
    SAME(properties);
    SAME(size);
    SAME(mtime);
    SAME(ctime);
    SAME(path_at);
    SAME(path_len);
    SAME(offset);
    SAME(payload_at);
    SAME(payload_len);
    SAME(status);
    SAME(progress);
    SAME(in_response_to);
    SAME(holes_at);
    SAME(hole_count);
    SAME(largest_width);
    SAME(bundles);
    SAME(streams);
    SAME(send);
    SAME(receive);
    SAME(free_width);
    SAME(free_space);
    SAME(endpoint_at);
    SAME(endpoint_len);
}

static inline void same_hole(const char *what, struct saratoga_hole got, struct saratoga_hole want)
{
    SAME(number);
    SAME(code);
    SAME(start);
    SAME(end);
}

/* Reads a packet; every field of the answer, and the packet afterwards. */
static inline void read_as(const char *what, const uint8_t *packet, size_t len, struct saratoga_packet want)
{
    uint8_t *lent = lend(packet, len);
    same_packet(what, saratoga_read(lent, len), want);
    same_octets(what, lent, packet, len);
    free(lent);
}

static inline void read_refused(const char *what, const uint8_t *packet, size_t len, uint64_t number, uint64_t code)
{
    read_as(what, packet, len, (struct saratoga_packet){.number = number, .code = code});
}

/* A buffer of `len` octets 0xA5 must hold the packet of `size` octets and its old octets after that. */
static inline void buffer_holds(const char *what, const uint8_t *out, size_t len, const uint8_t *packet, size_t size)
{
    uint8_t *want = lend(NULL, len);
    memcpy(want, packet, size);
    same_octets(what, out, want, len);
    free(want);
}

/* The last line, and the status to end with. */
static inline int report(const char *program)
{
    if (failures > 0) {
        printf("%s: %d checks FAILED\n", program, failures);
        return 1;
    }
    printf("%s: all agree\n", program);
    return 0;
}

#endif
