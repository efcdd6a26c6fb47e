/* What an earlier run left: the engine starts from the area's file, and the files of open transfers are looked at. */
#include "link.h"

#include <errno.h>
#include <string.h>

/* A page that was reported before is checked and reported again: nobody knows whether the report was read. */
static void take_up_one(struct transfer *t, const struct saratoga_listed *one, const struct slot *slot)
{
    say(0, "taken-up id=%" PRIu64 " width=%" PRIu64 " length=%" PRIu64 " edge=%" PRIu64 " complete=%" PRIu64, one->id,
        8 * one->width, one->length, one->edge, one->complete);
    if (slot->reported && strcmp(t->suffix, "gone") != 0 && is_ready(t) && give_name(t) == 1) {
        report_page(t);
        owe_again(t);
    }
}

static void take_up_transfer(const struct saratoga_listed *one)
{
    struct slot slot;
    if (!is_open(one->id, &slot))
        die("transfer %" PRIu64 " has no slot: the program has a fault", one->id);
    struct transfer *t = new_transfer(one->id, slot.file);
    const char *fault = fault_of(t, one, &slot);
    if (fault == NULL) {
        take_up_one(t, one, &slot);
        return;
    }
    warn("transfer %" PRIu64 ": %s; it is closed and must begin anew", t->id, fault);
    close_transfer(0, t, 1, "faulty");
}

/* Sets aside each .part of which the engine doesn't know: the program ended between a closing and this. */
static void set_orphans_aside(void)
{
    DIR *list = list_directory();
    for (struct dirent *entry; (entry = readdir(list)) != NULL;) {
        static struct transfer t;
        t = (struct transfer){.used = 1, .fd = -1, .meta_fd = -1, .suffix = "part"};
        const char *suffix = parse_name(entry->d_name, &t.id, &t.file);
        if (suffix == NULL || strcmp(suffix, "part") != 0 || transfer_of(t.id, t.file) != NULL)
            continue;
        if (length_of(entry->d_name) == 0) {
            remove_empty(&t);
            continue;
        }
        if (read_meta(&t) == 0)
            write_orphan_sheet(&t);
        set_aside(&t);
    }
    closedir(list);
}

/* The latest time that was written down. */
static uint64_t latest(const uint8_t *snapshot)
{
    uint64_t most = 0;
    struct saratoga_listed one;
    for (uint64_t i = 0; (one = saratoga_transfer(snapshot, SARATOGA_AREA_OCTETS, i)).number == 0; i++) {
        struct slot slot;
        if (slot_of(snapshot, one.id, &slot) && slot.heard > most)
            most = slot.heard;
    }
    return most;
}

/* Starts the engine from what an earlier run left, or with nothing open. */
void take_up(void)
{
    static struct area area;
    struct saratoga_listed one;
    int found = read_area(&area);
    if (!found)
        area.next = 1;
    set_clock(latest(area.snapshot));
    struct saratoga_done done = saratoga_engine_start(state, sizeof state, area.snapshot, sizeof area.snapshot, area.sync, area.next);
    if (done.number != 0)
        die("%s/area: the engine can't start from it, refusal %" PRIu64 "; nothing was touched. Move area and the .part files away "
            "to begin anew",
            options.directory, done.number);
    begin_numbers(&area);
    if ((!found || options.port != NULL) && !reserve_first() && !is_lack_of_room(errno))
        die("%s/area: can't be written: %s", options.directory, strerror(errno));
    for (uint64_t i = 0; (one = saratoga_transfer(state, SARATOGA_AREA_OCTETS, i)).number == 0;) {
        take_up_transfer(&one);
        i += listed(one.id).number == 0; /* it may have been closed */
    }
    set_orphans_aside();
    take_up_hooks();
    flush_output();
}
