// (C) A receiver over ordered maps in memory, which it trusts: Ids, and of each its runs from start to stop.
#include <map>

#include "plain_packet.h"
#include "receivers.h"

namespace {

enum { TRANSFERS = 16, RUNS = 64 };

struct Transfer {
    size_t width;
    uint64_t length;
    std::map<uint64_t, uint64_t> runs;
    size_t stamp;          // octets of timestamp: 16, or none
    uint8_t timestamp[16];

    uint64_t edge() const { return runs.empty() ? 0 : runs.rbegin()->second; }
    uint64_t progress() const { return runs.empty() || runs.begin()->first != 0 ? 0 : runs.begin()->second; }

    // Adds the offsets from `from` up to, not including, `to`. Whether there is room; how many runs were absorbed, and whether
    // an offset is new.
    bool add(uint64_t from, uint64_t to, uint64_t *absorbed, uint64_t *adds)
    {
        auto after = runs.upper_bound(to), first = after;
        *absorbed = 0;
        while (first != runs.begin()) {
            auto before = std::prev(first);
            if (before->second < from)
                break;
            first = before;
            ++*absorbed;
        }
        *adds = first == after || first->first > from || first->second < to;
        if (first == after) {
            if (runs.size() == RUNS)
                return false;
            runs.emplace_hint(after, from, to);
            return true;
        }
        uint64_t stop = std::prev(after)->second;
        if (stop < to)
            stop = to;
        if (first->first <= from) {
            first->second = stop;
            runs.erase(std::next(first), after);
            return true;
        }
        after = runs.erase(first, after);
        runs.emplace_hint(after, from, stop);
        return true;
    }
};

template <typename Answer> Answer refused_with(unsigned number)
{
    Answer a = {};
    a.number = number;
    a.code = code_of(number);
    return a;
}

} // namespace

struct map_table {
    std::map<uint64_t, Transfer> transfers;
};

map_table *map_new(void)
{
    return new map_table;
}

void map_copy(map_table *to, const map_table *from)
{
    to->transfers = from->transfers;
}

void map_fresh(map_table *table)
{
    table->transfers.clear();
}

saratoga_opened map_open(map_table *table, const uint8_t *packet, size_t packet_len)
{
    plain_metadata m;
    saratoga_opened a = {};
    unsigned refused = read_metadata(packet, packet_len, &m);
    if (refused)
        return refused_with<saratoga_opened>(refused);
    auto found = table->transfers.find(m.id);
    if (found != table->transfers.end()) {
        const Transfer &t = found->second;
        if (t.width != m.width || t.length != m.size)
            return refused_with<saratoga_opened>(18);
        a.edge = t.edge();
        a.complete = t.length <= t.progress();
        a.already_open = 1;
        return a;
    }
    if (has_crc32c(&m))
        return refused_with<saratoga_opened>(23);
    if (table->transfers.size() == TRANSFERS)
        return refused_with<saratoga_opened>(17);
    table->transfers.emplace(m.id, Transfer{m.width, m.size, {}, 0, {}});
    a.complete = m.size == 0;
    return a;
}

saratoga_recorded map_record(map_table *table, const uint8_t *packet, size_t packet_len)
{
    plain_data d;
    saratoga_recorded a = {};
    unsigned refused = read_data(packet, packet_len, &d);
    if (refused)
        return refused_with<saratoga_recorded>(refused);
    auto found = table->transfers.find(d.id);
    if (found == table->transfers.end())
        return refused_with<saratoga_recorded>(12);
    Transfer &t = found->second;
    refused = data_misfit(&d, t.width, t.length);
    if (refused)
        return refused_with<saratoga_recorded>(refused);
    if (!t.add(d.offset, d.offset + d.payload, &a.absorbed, &a.adds))
        return refused_with<saratoga_recorded>(16);
    if (d.timestamp) {
        t.stamp = 16;
        memcpy(t.timestamp, packet + 8, 16);
    }
    a.edge = t.edge();
    a.complete = t.length <= t.progress();
    return a;
}

saratoga_done map_close(map_table *table, uint64_t id)
{
    if (table->transfers.erase(id) == 0)
        return refused_with<saratoga_done>(12);
    return {0, 0};
}

saratoga_written map_write_status(const map_table *table, uint64_t id, uint64_t skip, uint64_t unasked, uint8_t *out,
                                  size_t out_len)
{
    auto found = table->transfers.find(id);
    if (found == table->transfers.end())
        return refused_with<saratoga_written>(12);
    const Transfer &t = found->second;
    size_t d = t.width, holes = t.runs.empty() ? 0 : t.runs.size() - (t.runs.begin()->first == 0);
    if (skip != 0 && skip >= holes)
        return refused_with<saratoga_written>(19);
    if (out_len < 8 + t.stamp + 2 * d + (holes > 0 ? 2 * d : 0))
        return refused_with<saratoga_written>(20);
    size_t some = holes - skip, room = (out_len - 8 - t.stamp - 2 * d) / (2 * d);
    if (room < some)
        some = room;
    uint64_t flags = status_flags(d, t.stamp, some < holes, unasked != 0 || t.length <= t.progress());
    uint8_t *at = put_status_start(out, flags, id, t.timestamp);
    put_number(at, d, t.progress());
    put_number(at + d, d, in_response_to(t.length, t.progress(), t.edge()));
    at += 2 * d;
    uint64_t last = 0;
    size_t index = 0, left = some;
    for (auto &run : t.runs) {
        if (left == 0)
            break;
        if (run.first != 0) {
            if (index >= skip) {
                put_number(at, d, last);
                put_number(at + d, d, run.first);
                at += 2 * d;
                left--;
            }
            index++;
        }
        last = run.second;
    }
    saratoga_written a = {};
    a.size = 8 + t.stamp + 2 * d + 2 * d * some;
    return a;
}
