/*
 * Prints how many octets of stack each function needs, its answer among them, and ends with status 1 where one but
 * saratoga_fresh needs more than docs/AREA.md allows. A thread with a stack of its own paints all of it below its frame
 * and calls: what lost its paint was used. Each function is called in several ways, with descriptors of each width, with
 * timestamps and without, and the most is printed.
 */
#define _POSIX_C_SOURCE 200809L
#include <pthread.h>
#include <stdio.h>
#include <string.h>

#include "saratoga.h"

enum { STACK = 1 << 18, PAINT = 0xA5, UNPAINTED = 64, LIMIT = 2000 };
enum { AREA = SARATOGA_AREA_OCTETS, IDS = 16, RUNS = 63, GAP = 100, PATH = 1023, PAYLOAD = 20 };

static uint8_t stack[STACK] __attribute__((aligned(4096)));
static uint8_t *top;

/* 16 transfers of 63 runs, Ids 10 to 160; and the area that is called on. */
static uint8_t full[AREA], area[AREA];
static uint8_t packet[SARATOGA_STATUS_OCTETS], out[SARATOGA_STATUS_OCTETS], path[PATH];
static const uint8_t checksum[16], timestamp[16], payload[2000];
static size_t size;
static int refused; /* whether a call was that fills the table */
static int stamped; /* whether DATA has a timestamp, and so each transfer */

/* The flags and properties of descriptors of 2 << width_bits octets, and lengths and offsets that they all hold. */
static uint64_t width_bits;
static uint64_t width_flags(void) { return width_bits << 22; }
static uint64_t properties(void) { return width_bits << 6; }
static uint64_t free_flags(void) { return 0x0F4000 | width_bits << 12; }
enum { LENGTH = 60000, PIECES = 4000 };

/* A plan, and how many pieces it has. */
static struct saratoga_piece pieces[PIECES];
static size_t piece_count;

static void accepted(uint64_t number)
{
    refused |= number != 0;
}

static void make_metadata(uint64_t id)
{
    struct saratoga_written written =
        saratoga_write_metadata(width_flags() | SARATOGA_CHECKSUM_MD5, id, checksum, 16, properties(), LENGTH, 0, 0, path, PATH,
                                packet, sizeof packet);
    size = written.size;
}

static void make_data(uint64_t id, uint64_t offset, size_t length)
{
    struct saratoga_written written =
        saratoga_write_data(width_flags() | (stamped ? SARATOGA_FLAG_TIMESTAMP : 0), id, timestamp, stamped ? 16 : 0, offset,
                            payload, length, packet, sizeof packet);
    size = written.size;
}

static void make_full(void)
{
    uint64_t id, run;
    memset(path, 'p', PATH);
    accepted(saratoga_fresh(full, AREA).number);
    for (id = 10; id <= 10 * IDS; id += 10) {
        make_metadata(id);
        accepted(saratoga_open(full, AREA, packet, size).number);
        for (run = 0; run < RUNS; run++) {
            make_data(id, GAP * run + 10, PAYLOAD);
            accepted(saratoga_record(full, AREA, packet, size).number);
        }
    }
}

/* What is prepared for a call: the area, and a packet. */
static void use_full(void) { memcpy(area, full, AREA); }
static void for_metadata(void) { make_metadata(15); }
static void for_data(void) { make_data(10, 0, PAYLOAD); }
static void for_status(void) { size = saratoga_write_status(full, AREA, 10, 0, 1, packet, sizeof packet).size; }
static void for_check(void) { for_status(); piece_count = saratoga_plan(packet, size, 3, pieces, PIECES).count; }
static void for_beacon(void) { size = saratoga_write_beacon(free_flags(), 1, path, PATH, packet, sizeof packet).size; }
static void for_failure(void) { size = saratoga_write_failure(10, 6, packet, sizeof packet).size; }
static void for_nothing(void) { size = 0; }
static void with_15_open(void) { use_full(); saratoga_close(area, AREA, 160); make_metadata(5); }
static void open_already(void) { use_full(); make_metadata(80); }
static void open_17th(void) { use_full(); make_metadata(5); }
static void in_front(void) { use_full(); make_data(10, 0, 5); }
static void behind(void) { use_full(); make_data(160, GAP * RUNS + 10, 5); }
static void repeated(void) { use_full(); make_data(80, GAP * 30 + 10, PAYLOAD); }
static void joins_some(void) { use_full(); make_data(80, 0, 1900); }
static void past_the_end(void) { use_full(); make_data(80, LENGTH, 1); }
static void a_65th_run(void)
{
    use_full();
    make_data(80, 0, 5);
    saratoga_record(area, AREA, packet, size);
    make_data(80, GAP * RUNS + 10, 5);
}
static void no_table(void) { use_full(); area[0] = 17; make_data(80, 0, 5); }

/* A second area, with one octet after each run of the first, or a run over all of them, or 64 runs more; or with no table. */
static uint8_t second[AREA];
static void use_second(uint64_t from, uint64_t octets, uint64_t runs)
{
    uint64_t run;
    use_full();
    memcpy(second, area, AREA);
    saratoga_close(second, AREA, 80);
    make_metadata(80);
    accepted(saratoga_open(second, AREA, packet, size).number);
    for (run = 0; run < runs; run++) {
        make_data(80, GAP * run + from, octets);
        accepted(saratoga_record(second, AREA, packet, size).number);
    }
}
static void beside_each(void) { use_second(10 + PAYLOAD, 1, RUNS); }
static void over_all(void) { use_second(0, 1900, 1); }
static void too_many(void) { use_second(10 + PAYLOAD + 2, 1, RUNS); }
static void no_second(void) { use_second(0, 1, 1); second[0] = 17; }

/* Marks with 63 runs, or with 64, and the transfer that they are of. */
static uint8_t marks[SARATOGA_BITMAP_OCTETS];
static struct saratoga_bitmap page;
static void use_marks(void)
{
    uint64_t run;
    make_metadata(10);
    page = saratoga_bitmap_open(marks, sizeof marks, packet, size).transfer;
    for (run = 0; run < RUNS; run++) {
        make_data(10, GAP * run + 10, PAYLOAD);
        struct saratoga_bitmap_recorded recorded = saratoga_bitmap_record(page, marks, sizeof marks, packet, size);
        accepted(recorded.number);
        page = recorded.transfer;
    }
}
static void marks_opened(void) { use_marks(); make_metadata(10); }
static void marks_in_front(void) { use_marks(); make_data(10, 0, 5); }
static void marks_repeated(void) { use_marks(); make_data(10, GAP * 30 + 10, PAYLOAD); }
static void marks_joined(void) { use_marks(); make_data(10, 0, 1900); }
static void marks_past_the_end(void) { use_marks(); make_data(10, LENGTH, 1); }
static void marks_65th_run(void) { use_marks(); marks[0] |= 0x80; make_data(10, LENGTH - 5, 5); }
static void no_transfer(void) { use_marks(); page.width = 3; }

/* The calls. */
static void read_packet(void) { saratoga_read(packet, size); }
static void read_hole(void) { saratoga_read_hole(packet, size, RUNS - 1); }
static void plan(void) { saratoga_plan(packet, size, 3, pieces, PIECES); }
static void plan_too_long(void) { saratoga_plan(packet, size, 1, pieces, RUNS); }
static void plan_count(void) { saratoga_plan_count(packet, size, 3); }
static void check_plan(void) { saratoga_check_plan(packet, size, 3, pieces, piece_count); }
static void check_other(void) { saratoga_check_plan(packet, size, 2, pieces, piece_count); }
static void write_metadata(void)
{
    saratoga_write_metadata(width_flags() | SARATOGA_CHECKSUM_MD5, 7, checksum, 16, properties(), 1, 0, 0, path, PATH, out,
                            sizeof out);
}
static void write_data(void)
{
    saratoga_write_data(width_flags() | SARATOGA_FLAG_TIMESTAMP, 7, timestamp, 16, 1, payload, 1000, out, sizeof out);
}
static void write_beacon(void) { saratoga_write_beacon(free_flags(), 1, path, PATH, out, sizeof out); }
static void write_failure(void) { saratoga_write_failure(7, 1, out, sizeof out); }
static void fresh(void) { saratoga_fresh(area, AREA); }
static void open_transfer(void) { saratoga_open(area, AREA, packet, size); }
static void record(void) { saratoga_record(area, AREA, packet, size); }
static void status(void) { saratoga_write_status(area, AREA, 80, 0, 1, out, sizeof out); }
static void status_of_last(void) { saratoga_write_status(area, AREA, 160, RUNS - 1, 0, out, 88); }
static void list(void) { saratoga_transfer(area, AREA, IDS - 1); }
static void try_record(void) { saratoga_try_record(area, AREA, packet, size); }
static void find_last(void) { saratoga_find(area, AREA, 160); }
static void find_none(void) { saratoga_find(area, AREA, 11); }
static void last_hole(void) { saratoga_transfer_hole(area, AREA, 160, RUNS - 1); }
static void no_hole(void) { saratoga_transfer_hole(area, AREA, 160, RUNS); }
static void close_first(void) { saratoga_close(area, AREA, 10); }
static void close_last(void) { saratoga_close(area, AREA, 160); }
static void close_none(void) { saratoga_close(area, AREA, 11); }
static void merge(void) { saratoga_merge(area, AREA, second, AREA, 80); }
static void merge_none(void) { saratoga_merge(area, AREA, second, AREA, 11); }
static void bitmap_open(void) { saratoga_bitmap_open(marks, sizeof marks, packet, size); }
static void bitmap_record(void) { saratoga_bitmap_record(page, marks, sizeof marks, packet, size); }
static void bitmap_status(void) { saratoga_bitmap_status(page, marks, sizeof marks, 0, 1, out, sizeof out); }
static void bitmap_last_hole(void) { saratoga_bitmap_status(page, marks, sizeof marks, RUNS - 1, 0, out, 88); }
static void for_settings(void) { size = saratoga_write_settings(2, 65000, 1, 3600, 1, UINT32_MAX, packet, sizeof packet).size; }
static void read_settings(void) { saratoga_read_settings(packet, size, 2); }
static void write_settings(void) { saratoga_write_settings(2, 65000, 1, 3600, 1, UINT32_MAX, out, sizeof out); }
static void settings_unfit(void) { saratoga_write_settings(2, 65001, 1, 3600, 1, UINT32_MAX, out, sizeof out); }

/* MD5, with 60 octets begun, so that the padding takes two blocks; and METADATA whose checksum is one. */
static uint8_t state[SARATOGA_MD5_OCTETS];
static void use_state(void) { make_metadata(10); saratoga_md5_begin(state, sizeof state); saratoga_md5_add(state, sizeof state, payload, 60); }
static void md5_begin(void) { saratoga_md5_begin(state, sizeof state); }
static void md5_add(void) { saratoga_md5_add(state, sizeof state, payload, sizeof payload); }
static void md5_add_little(void) { saratoga_md5_add(state, sizeof state, payload, 3); }
static void md5_end(void) { saratoga_md5_end(state, sizeof state, out, sizeof out); }
static void check_md5(void) { saratoga_check_md5(packet, size, state, sizeof state); }

static const struct way {
    const char *function;
    void (*prepare)(void), (*call)(void);
} ways[] = {
    {"saratoga_read", for_metadata, read_packet},
    {"saratoga_read", for_data, read_packet},
    {"saratoga_read", for_status, read_packet},
    {"saratoga_read", for_failure, read_packet},
    {"saratoga_read", for_beacon, read_packet},
    {"saratoga_read", for_nothing, read_packet},
    {"saratoga_read_hole", for_status, read_hole},
    {"saratoga_read_hole", for_data, read_hole},
    {"saratoga_plan", for_status, plan},
    {"saratoga_plan", for_status, plan_too_long},
    {"saratoga_plan", for_data, plan},
    {"saratoga_plan_count", for_status, plan_count},
    {"saratoga_plan_count", for_failure, plan_count},
    {"saratoga_check_plan", for_check, check_plan},
    {"saratoga_check_plan", for_check, check_other},
    {"saratoga_check_plan", for_data, check_plan},
    {"saratoga_write_beacon", for_nothing, write_beacon},
    {"saratoga_write_metadata", for_nothing, write_metadata},
    {"saratoga_write_data", for_nothing, write_data},
    {"saratoga_write_failure", for_nothing, write_failure},
    {"saratoga_fresh", use_full, fresh},
    {"saratoga_open", with_15_open, open_transfer},
    {"saratoga_open", open_already, open_transfer},
    {"saratoga_open", open_17th, open_transfer},
    {"saratoga_open", no_table, open_transfer},
    {"saratoga_record", in_front, record},
    {"saratoga_record", behind, record},
    {"saratoga_record", repeated, record},
    {"saratoga_record", joins_some, record},
    {"saratoga_record", past_the_end, record},
    {"saratoga_record", a_65th_run, record},
    {"saratoga_record", no_table, record},
    {"saratoga_try_record", in_front, try_record},
    {"saratoga_try_record", behind, try_record},
    {"saratoga_try_record", joins_some, try_record},
    {"saratoga_try_record", a_65th_run, try_record},
    {"saratoga_try_record", no_table, try_record},
    {"saratoga_write_status", use_full, status},
    {"saratoga_write_status", use_full, status_of_last},
    {"saratoga_write_status", no_table, status},
    {"saratoga_transfer", use_full, list},
    {"saratoga_transfer", no_table, list},
    {"saratoga_find", use_full, find_last},
    {"saratoga_find", use_full, find_none},
    {"saratoga_find", no_table, find_last},
    {"saratoga_transfer_hole", use_full, last_hole},
    {"saratoga_transfer_hole", use_full, no_hole},
    {"saratoga_transfer_hole", no_table, last_hole},
    {"saratoga_close", use_full, close_first},
    {"saratoga_close", use_full, close_last},
    {"saratoga_close", use_full, close_none},
    {"saratoga_close", no_table, close_first},
    {"saratoga_merge", beside_each, merge},
    {"saratoga_merge", over_all, merge},
    {"saratoga_merge", too_many, merge},
    {"saratoga_merge", over_all, merge_none},
    {"saratoga_merge", no_second, merge},
    {"saratoga_bitmap_open", marks_opened, bitmap_open},
    {"saratoga_bitmap_open", for_data, bitmap_open},
    {"saratoga_bitmap_record", marks_in_front, bitmap_record},
    {"saratoga_bitmap_record", marks_repeated, bitmap_record},
    {"saratoga_bitmap_record", marks_joined, bitmap_record},
    {"saratoga_bitmap_record", marks_past_the_end, bitmap_record},
    {"saratoga_bitmap_record", marks_65th_run, bitmap_record},
    {"saratoga_bitmap_record", no_transfer, bitmap_record},
    {"saratoga_bitmap_status", use_marks, bitmap_status},
    {"saratoga_bitmap_status", use_marks, bitmap_last_hole},
    {"saratoga_bitmap_status", no_transfer, bitmap_status},
    {"saratoga_md5_begin", use_state, md5_begin},
    {"saratoga_md5_add", use_state, md5_add},
    {"saratoga_md5_add", use_state, md5_add_little},
    {"saratoga_md5_end", use_state, md5_end},
    {"saratoga_check_md5", use_state, check_md5},
    {"saratoga_check_md5", for_data, check_md5},
    {"saratoga_read_settings", for_settings, read_settings},
    {"saratoga_read_settings", for_nothing, read_settings},
    {"saratoga_write_settings", for_nothing, write_settings},
    {"saratoga_write_settings", for_nothing, settings_unfit},
};
enum { WAYS = sizeof ways / sizeof ways[0] };
static long used[WAYS];

/* Paints the stack below the caller's frame, but for this function's own few octets. */
static __attribute__((noinline)) void paint(void)
{
    volatile uint8_t *at;
    top = (uint8_t *)__builtin_frame_address(0) + 16;
    for (at = stack; at < top - UNPAINTED; at++)
        *at = PAINT;
}

static __attribute__((noinline)) long painted(void)
{
    long at = 0;
    while (at < STACK && stack[at] == PAINT)
        at++;
    return at;
}

/* Each call is made once before, so that nothing has to be bound when it counts. */
static void *measure(void *unused)
{
    for (int way = 0; way < 8; way++) {
        width_bits = way % 4;
        stamped = way / 4;
        make_full();
        for (size_t i = 0; i < WAYS; i++) {
            ways[i].prepare();
            ways[i].call();
            ways[i].prepare();
            paint();
            ways[i].call();
            long octets = top - (stack + painted());
            used[i] = octets > used[i] ? octets : used[i];
        }
    }
    return unused;
}

int main(void)
{
    pthread_attr_t attributes;
    pthread_t thread;
    int over = 0;
    size_t i, first;
    if (pthread_attr_init(&attributes) != 0 || pthread_attr_setstack(&attributes, stack, sizeof stack) != 0 ||
        pthread_create(&thread, &attributes, measure, NULL) != 0 || pthread_join(thread, NULL) != 0 || refused) {
        fprintf(stderr, "stack: FAILED: it can't be measured\n");
        return 1;
    }
    for (first = 0; first < WAYS; first = i) {
        const char *function = ways[first].function;
        long most = 0;
        for (i = first; i < WAYS && strcmp(ways[i].function, function) == 0; i++)
            most = used[i] > most ? used[i] : most;
        printf("%-24s %6ld octets\n", function, most);
        if (most >= LIMIT && strcmp(function, "saratoga_fresh") != 0) {
            printf("stack: FAILED: %s needs %d octets or more\n", function, LIMIT);
            over = 1;
        }
    }
    if (!over)
        printf("stack: every function but saratoga_fresh needs less than %d octets\n", LIMIT);
    return over;
}
