/* MD5 in plain C, as a C programmer writes it from RFC 1321. */
#ifndef PLAIN_MD5_H
#define PLAIN_MD5_H

#include <stddef.h>
#include <stdint.h>

struct plain_md5 {
    uint32_t words[4];
    uint64_t count;    /* octets so far */
    uint8_t block[64]; /* those that aren't a whole block yet */
};

void plain_md5_begin(struct plain_md5 *state);
void plain_md5_add(struct plain_md5 *state, const uint8_t *part, size_t part_len);
void plain_md5_end(const struct plain_md5 *state, uint8_t digest[16]);

#endif
