/*
 * An engine as a table of its functions (include/saratoga_engine.h), so that the shell can run over the exported one or the second one,
 * and the judge can listen in between.
 */
#ifndef ENGINE_H
#define ENGINE_H

#include "saratoga_engine.h"

struct engine {
    struct saratoga_done (*start)(uint8_t *state, size_t state_len, const uint8_t *saved, size_t saved_len, uint64_t sync,
                                  uint64_t file);
    struct saratoga_meeting (*meet)(const uint8_t *state, size_t state_len, const uint8_t *packet, size_t packet_len);
    struct saratoga_meeting (*opened)(uint8_t *state, size_t state_len, uint64_t time, uint64_t high, uint64_t low, uint64_t port,
                                      const uint8_t *packet, size_t packet_len, uint64_t well);
    struct saratoga_look (*look)(const uint8_t *state, size_t state_len, uint64_t high, uint64_t low, uint64_t port,
                                 const uint8_t *packet, size_t packet_len, uint64_t from);
    struct saratoga_look (*stored)(uint8_t *state, size_t state_len, uint64_t time, uint64_t high, uint64_t low, uint64_t port,
                                   const uint8_t *packet, size_t packet_len, uint64_t from, uint64_t well);
    struct saratoga_next (*next)(const uint8_t *state, size_t state_len, uint64_t time, uint64_t interval, uint64_t linger,
                                 uint64_t forget, uint64_t from);
    struct saratoga_letter (*tell)(uint8_t *state, size_t state_len, uint64_t id, uint8_t *out, size_t out_len);
    struct saratoga_done (*named)(uint8_t *state, size_t state_len, uint64_t id, uint64_t well);
    struct saratoga_done (*reported)(uint8_t *state, size_t state_len, uint64_t id);
    struct saratoga_closed (*close)(uint8_t *state, size_t state_len, uint64_t id, uint64_t spoilt);
    struct saratoga_sync (*sync)(uint8_t *state, size_t state_len, uint64_t time);
    struct saratoga_done (*synced)(uint8_t *state, size_t state_len, uint64_t sync, uint64_t good);
};

extern const struct engine first_engine;  /* the exported functions: first.c */
extern const struct engine second_engine; /* written once more, from the rules: second.c */

#endif
