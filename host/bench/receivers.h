/*
 * The receivers beside ours, with the calls and the answers of saratoga.h.
 *
 * plain_...   reads a packet, plans what to send again and checks a plan, in plain C.
 * memory_...  (A) keeps its table in its own memory and trusts it.
 * area_...    (B) keeps it in the lent area of docs/AREA.md and judges its used words at each call, as ours does.
 * marks_...   (B) over marks: keeps them in the lent octets, and walks and judges them at each call, as ours does.
 * map_...     (C) keeps the runs in ordered maps in memory (std::map) and trusts them.
 */
#ifndef RECEIVERS_H
#define RECEIVERS_H

#include "saratoga.h"

#ifdef __cplusplus
extern "C" {
#endif

struct saratoga_packet plain_read(const uint8_t *packet, size_t packet_len);
struct saratoga_planned plain_plan(const uint8_t *status, size_t status_len, uint64_t largest,
                                   struct saratoga_piece *pieces, size_t piece_count);
struct saratoga_planned plain_plan_count(const uint8_t *status, size_t status_len, uint64_t largest);
struct saratoga_checked plain_check_plan(const uint8_t *status, size_t status_len, uint64_t largest,
                                         const struct saratoga_piece *pieces, size_t piece_count);

struct memory_table;
struct memory_table *memory_new(void);
void memory_copy(struct memory_table *to, const struct memory_table *from);
void memory_fresh(struct memory_table *table);
struct saratoga_opened memory_open(struct memory_table *table, const uint8_t *packet, size_t packet_len);
struct saratoga_recorded memory_record(struct memory_table *table, const uint8_t *packet, size_t packet_len);
struct saratoga_done memory_close(struct memory_table *table, uint64_t id);
struct saratoga_written memory_write_status(const struct memory_table *table, uint64_t id, uint64_t skip,
                                            uint64_t unasked, uint8_t *out, size_t out_len);

struct saratoga_done area_fresh(uint8_t *area, size_t area_len);
struct saratoga_opened area_open(uint8_t *area, size_t area_len, const uint8_t *packet, size_t packet_len);
struct saratoga_recorded area_record(uint8_t *area, size_t area_len, const uint8_t *packet, size_t packet_len);
struct saratoga_merged area_merge(uint8_t *first, size_t first_len, const uint8_t *second, size_t second_len, uint64_t id);
struct saratoga_done area_close(uint8_t *area, size_t area_len, uint64_t id);
struct saratoga_written area_write_status(const uint8_t *area, size_t area_len, uint64_t id, uint64_t skip,
                                          uint64_t unasked, uint8_t *out, size_t out_len);

struct saratoga_bitmap_opened marks_open(uint8_t *marks, size_t marks_len, const uint8_t *packet, size_t packet_len);
struct saratoga_bitmap_recorded marks_record(struct saratoga_bitmap transfer, uint8_t *marks, size_t marks_len,
                                             const uint8_t *packet, size_t packet_len);
struct saratoga_written marks_status(struct saratoga_bitmap transfer, const uint8_t *marks, size_t marks_len,
                                     uint64_t skip, uint64_t unasked, uint8_t *out, size_t out_len);

struct map_table;
struct map_table *map_new(void);
void map_copy(struct map_table *to, const struct map_table *from);
void map_fresh(struct map_table *table);
struct saratoga_opened map_open(struct map_table *table, const uint8_t *packet, size_t packet_len);
struct saratoga_recorded map_record(struct map_table *table, const uint8_t *packet, size_t packet_len);
struct saratoga_done map_close(struct map_table *table, uint64_t id);
struct saratoga_written map_write_status(const struct map_table *table, uint64_t id, uint64_t skip, uint64_t unasked,
                                         uint8_t *out, size_t out_len);

#ifdef __cplusplus
}
#endif

#endif
