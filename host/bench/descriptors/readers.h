/*
 * Two readers of a descriptor of 2, 4, 8 or 16 octets: the number that they stand for, or 0 where one of the upper eight octets of 16
 * isn't zero. host/bench/descriptors/run makes the first from octets_read::read_number.
 */
#ifndef READERS_H
#define READERS_H

#include <stddef.h>
#include <stdint.h>

uint64_t descriptor_now(const uint8_t *octets, size_t octets_len, size_t at, size_t width);   /* the working tree's */
uint64_t descriptor_plain(const uint8_t *octets, size_t octets_len, size_t at, size_t width); /* plain C */

#endif
