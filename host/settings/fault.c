/*
 * Where and why a settings file is refused. The library gives the number alone.
 *
 * The octet is found by trying beginnings of the file, the shorter ones first: a file that is refused with 24 or 25 is refused
 * with that number from its first fault on, whatever follows, and every beginning before it is refused with 1 or is itself a whole
 * file (R18.9, proved). So the first beginning that is refused with the number ends with the octet. Of a file without key 1 that
 * goes on after its last pair, that is the end of the pair, and the missing key is named. A file that is refused with 1 ends too
 * early, and has no such octet.
 *
 * The words come from a walk of this program's own over the numbers up to that octet: the fault is in the last of them.
 */
#include "settings.h"

#include <stdarg.h>
#include <stdio.h>

/* By key: what its value is, and its range. */
static const char *const names[] = {"", "largest payload", "interval", "partner"};
static const uint64_t least[] = {0, 1, 1, 0}, most[] = {0, 65000, 3600, UINT32_MAX};

/* How many octets the first fault is from the start: as many as the first beginning has that is refused with `number`. */
static size_t octets_to_fault(const uint8_t *file, size_t len, uint64_t known, uint64_t number)
{
    size_t count = 0;
    while (count < len && saratoga_read_settings(file, count, known).number != number)
        count++;
    return count;
}

/* A number of the file, as far as it goes: where it begins, its octets, and its value where it has ended. */
struct number {
    size_t at, count;
    uint64_t value;
    int ended;
};

static struct number number_at(const uint8_t *file, size_t at, size_t end)
{
    struct number n = {.at = at};
    while (at + n.count < end && !n.ended && n.count < 10) {
        uint8_t octet = file[at + n.count];
        n.value |= (uint64_t)(octet & 0x7F) << 7 * n.count;
        n.ended = octet < 0x80;
        n.count++;
    }
    return n;
}

/* The form of a number whose last octet is the fault; NULL where that is as it should be. */
static const char *form_fault(const uint8_t *file, const struct number *n)
{
    uint8_t last = n->count > 0 ? file[n->at + n->count - 1] : 0;
    if (n->count == 10 && last > 1)
        return "is above 2^64 - 1";
    return n->count > 1 && last == 0 ? "is not in its shortest form" : NULL;
}

/* A key of the tables above; 0 for any other, which the library lets pass nowhere. */
static size_t known_key(uint64_t key)
{
    return key <= 3 ? (size_t)key : 0;
}

static void say(const char *form, ...)
{
    va_list arguments;
    va_start(arguments, form);
    vfprintf(stderr, form, arguments);
    va_end(arguments);
    fputc('\n', stderr);
}

/* A key whose last octet is the fault, though its form is as it should be. */
static void say_key(uint64_t version, uint64_t last, uint64_t key)
{
    if (key > (version == 1 ? 2 : 3))
        say("version %u has no key %llu", (unsigned)version, (unsigned long long)key);
    else if (key == 0)
        say("there is no key 0");
    else
        say("key %u comes after key %u", (unsigned)key, (unsigned)last);
}

/* A pair from `at` on in which the fault is, if it is in this pair: 1, and else 0 with the place after it. */
static int fault_in_pair(const uint8_t *file, size_t *at, size_t end, uint64_t version, uint64_t *last)
{
    struct number key = number_at(file, *at, end), value = number_at(file, *at + key.count, end);
    const char *form = form_fault(file, value.count > 0 ? &value : &key);
    size_t k = known_key(key.value);
    *at += key.count + value.count;
    if (*at == end && form != NULL) {
        say("the %s %s", value.count > 0 ? names[k] : "key", form);
    } else if (value.count == 0) {
        say_key(version, *last, key.value);
    } else if (*at == end && (value.value < least[k] || value.value > most[k])) {
        say("the %s is %llu, and must be %llu to %llu", names[k], (unsigned long long)value.value,
            (unsigned long long)least[k], (unsigned long long)most[k]);
    } else {
        *last = key.value;
        return 0;
    }
    return 1;
}

/* Walks over the file's numbers up to its octet `end`, the fault, and says what is wrong there. */
static void say_why(const uint8_t *file, size_t end)
{
    struct number version = number_at(file, 0, end), count = number_at(file, version.count, end);
    const char *form = form_fault(file, count.count > 0 ? &count : &version);
    size_t at = version.count + count.count;
    uint64_t last = 0, pairs;
    if (at == end && form != NULL) {
        say("the %s %s", count.count > 0 ? "count" : "version", form);
        return;
    }
    if (count.count == 0) {
        say("version %llu is not known", (unsigned long long)version.value);
        return;
    }
    for (pairs = 0; at < end && pairs < count.value; pairs++)
        if (fault_in_pair(file, &at, end, version.value, &last))
            return;
    say(at < end ? "it goes on after its last pair" : "it has no key 1, the largest payload");
}

void print_fault(const uint8_t *file, size_t len, uint64_t known, uint64_t number)
{
    if (number == SARATOGA_REFUSED_TRUNCATED) {
        say(len > 0 ? ": it ends too early, after octet %lu" : ": it is empty", (unsigned long)len);
        return;
    }
    size_t count = octets_to_fault(file, len, known, number);
    fprintf(stderr, " at octet %lu: ", (unsigned long)count);
    say_why(file, count);
}

const char *unfit(const struct saratoga_settings *s)
{
    if (s->largest_payload < least[1] || s->largest_payload > most[1])
        return "the largest payload must be 1 to 65000";
    if (s->has_interval && (s->interval < least[2] || s->interval > most[2]))
        return "the interval must be 1 to 3600 seconds";
    if (s->has_partner && s->version == 1)
        return "a file of version 1 has no partner";
    return s->has_partner && s->partner > most[3] ? "the partner's Id has at most 32 bits" : saratoga_refusal_text(25);
}
