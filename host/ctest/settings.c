/*
 * A plant's settings from C: files laid out by hand, read as a program does that knows version 1 and as one that knows version
 * 2, and settings written into buffers of every size. Every field of the answers and every octet of the buffers is looked at.
 * Ends with status 1 where anything is wrong.
 */
#include "check.h"

/* Version 2: payload 1,024, every 60 seconds, partner 0. */
static const uint8_t all_three[] = {2, 3, 1, 0x80, 8, 2, 60, 3, 0};
/* Version 1: payload 65,000 alone. */
static const uint8_t largest[] = {1, 1, 1, 0xE8, 0xFB, 3};
/* The longest: payload 65,000, every 3,600 seconds, partner 2^32 - 1. */
static const uint8_t longest[] = {2, 3, 1, 0xE8, 0xFB, 3, 2, 0x90, 0x1C, 3, 0xFF, 0xFF, 0xFF, 0xFF, 0x0F};

static void same_settings(const char *what, struct saratoga_settings got, struct saratoga_settings want)
{
    SAME(number);
    SAME(code);
    SAME(version);
    SAME(largest_payload);
    SAME(has_interval);
    SAME(interval);
    SAME(has_partner);
    SAME(partner);
}

static void settings_as(const char *what, const uint8_t *file, size_t len, uint64_t known, struct saratoga_settings want)
{
    uint8_t *lent = lend(file, len);
    same_settings(what, saratoga_read_settings(lent, len, known), want);
    same_octets(what, lent, file, len);
    free(lent);
}

/* Refused with this number by a reader of version 1 and by one of version 2 alike. */
static void refused(const char *what, const uint8_t *file, size_t len, uint64_t number)
{
    for (uint64_t known = 1; known <= SARATOGA_SETTINGS_VERSION; known++)
        settings_as(what, file, len, known, (struct saratoga_settings){.number = number});
}

#define REFUSED(what, number, ...) \
    refused(what, (const uint8_t[]){__VA_ARGS__}, sizeof((const uint8_t[]){__VA_ARGS__}), number)

static void read_fields(void)
{
    settings_as("three keys", all_three, sizeof all_three, 2,
                (struct saratoga_settings){
                    .version = 2, .largest_payload = 1024, .has_interval = 1, .interval = 60, .has_partner = 1});
    settings_as("the longest file", longest, sizeof longest, UINT64_MAX,
                (struct saratoga_settings){.version = 2,
                                           .largest_payload = 65000,
                                           .has_interval = 1,
                                           .interval = 3600,
                                           .has_partner = 1,
                                           .partner = UINT32_MAX});
    for (uint64_t known = 1; known <= 3; known++)
        settings_as("the largest payload", largest, sizeof largest, known,
                    (struct saratoga_settings){.version = 1, .largest_payload = 65000});
    settings_as("version 2 without a partner", (const uint8_t[]){2, 2, 1, 1, 2, 1}, 6, 2,
                (struct saratoga_settings){.version = 2, .largest_payload = 1, .has_interval = 1, .interval = 1});
    for (size_t len = 0; len < sizeof longest; len++)
        settings_as("a file that ends too early", longest, len, 2,
                    (struct saratoga_settings){.number = SARATOGA_REFUSED_TRUNCATED});
    printf("ctest: reading settings\n");
}

static void read_faults(void)
{
    const uint64_t unknown = SARATOGA_REFUSED_SETTINGS_VERSION, unfit = SARATOGA_REFUSED_SETTINGS;
    const uint64_t early = SARATOGA_REFUSED_TRUNCATED;
    settings_as("version 2 for a reader of version 1", all_three, sizeof all_three, 1,
                (struct saratoga_settings){.number = unknown});
    settings_as("any version for a reader of none", largest, sizeof largest, 0,
                (struct saratoga_settings){.number = unknown});
    REFUSED("version 0", unknown, 0);
    REFUSED("version 3", unknown, 3, 1, 1, 5);
    REFUSED("the largest version", unknown, 0xFF, 0xFF, 0xFF, 0xFF, 0xFF, 0xFF, 0xFF, 0xFF, 0xFF, 1);
    REFUSED("a version with too long a form", unfit, 0x81, 0);
    REFUSED("a version above 2^64 - 1", unfit, 0xFF, 0xFF, 0xFF, 0xFF, 0xFF, 0xFF, 0xFF, 0xFF, 0xFF, 2);
    REFUSED("a tenth octet that goes on", unfit, 0xFF, 0xFF, 0xFF, 0xFF, 0xFF, 0xFF, 0xFF, 0xFF, 0xFF, 0x81);
    REFUSED("nine octets of a version", early, 0xFF, 0xFF, 0xFF, 0xFF, 0xFF, 0xFF, 0xFF, 0xFF, 0xFF);
    REFUSED("no pair", unfit, 1, 0);
    REFUSED("the largest count", early, 1, 0xFF, 0xFF, 0xFF, 0xFF, 0xFF, 0xFF, 0xFF, 0xFF, 0xFF, 1, 1, 5);
    REFUSED("an unknown key", unfit, 1, 1, 5);
    REFUSED("key 0", unfit, 1, 1, 0);
    REFUSED("a key without its value", early, 1, 1, 2);
    REFUSED("a key that comes twice", unfit, 1, 2, 1, 5, 1);
    REFUSED("keys that fall", unfit, 1, 2, 2, 5, 1);
    REFUSED("a partner in version 1", unfit, 1, 2, 1, 5, 3, 7);
    REFUSED("a payload of 0", unfit, 1, 1, 1, 0);
    REFUSED("a payload of 65,001", unfit, 1, 1, 1, 0xE9, 0xFB, 3);
    REFUSED("0 seconds", unfit, 1, 2, 1, 5, 2, 0);
    REFUSED("3,601 seconds", unfit, 1, 2, 1, 5, 2, 0x91, 0x1C);
    settings_as("a partner of 33 bits", (const uint8_t[]){2, 2, 1, 5, 3, 0x80, 0x80, 0x80, 0x80, 0x10}, 10, 2,
                (struct saratoga_settings){.number = unfit});
    REFUSED("octets after the last pair", unfit, 1, 1, 1, 5, 0);
    REFUSED("no key 1", unfit, 1, 1, 2, 5);
    REFUSED("octets after the last pair, and no key 1", unfit, 1, 1, 2, 5, 0);
    printf("ctest: settings files that are refused\n");
}

/* Writes into a buffer of `len` octets, and reads it back where it was written. */
static void written_as(const char *what, struct saratoga_settings s, size_t len, struct saratoga_written want,
                       const uint8_t *file)
{
    uint8_t *out = lend(NULL, len);
    struct saratoga_written got = saratoga_write_settings(s.version, s.largest_payload, s.has_interval, s.interval,
                                                          s.has_partner, s.partner, out, len);
    same_written(what, got, want);
    buffer_holds(what, out, len, file, want.number == 0 ? (size_t)want.size : 0);
    if (want.number == 0) {
        s.has_interval = s.has_interval != 0;
        s.has_partner = s.has_partner != 0;
        same_settings(what, saratoga_read_settings(out, (size_t)want.size, s.version), s);
    }
    free(out);
}

static void not_written(const char *what, uint64_t number, struct saratoga_settings s)
{
    for (size_t len = 0; len <= SARATOGA_SETTINGS_OCTETS; len += SARATOGA_SETTINGS_OCTETS)
        written_as(what, s, len, (struct saratoga_written){.number = number}, all_three);
}

static void write_fields(void)
{
    const uint64_t unknown = SARATOGA_REFUSED_SETTINGS_VERSION, unfit = SARATOGA_REFUSED_SETTINGS;
    struct saratoga_settings s = {.version = 2,
                                  .largest_payload = 65000,
                                  .has_interval = 1,
                                  .interval = 3600,
                                  .has_partner = UINT64_MAX,
                                  .partner = UINT32_MAX};
    if (sizeof longest != SARATOGA_SETTINGS_OCTETS)
        fail("the longest file", "octets", sizeof longest, SARATOGA_SETTINGS_OCTETS);
    for (size_t len = 0; len < sizeof longest + 3; len++) {
        struct saratoga_written small = {.number = SARATOGA_REFUSED_BUFFER}, enough = {.size = sizeof longest};
        written_as("the longest file", s, len, len < sizeof longest ? small : enough, longest);
    }
    s = (struct saratoga_settings){.version = 2, .largest_payload = 1024, .has_interval = 7, .interval = 60, .has_partner = 1};
    written_as("three keys", s, sizeof all_three, (struct saratoga_written){.size = sizeof all_three}, all_three);
    written_as("the largest payload", (struct saratoga_settings){.version = 1, .largest_payload = 65000}, sizeof largest,
               (struct saratoga_written){.size = sizeof largest}, largest);

    const struct saratoga_settings fine = {.version = 1, .largest_payload = 5};
#define NOT_WRITTEN(what, number, ...) (s = fine, __VA_ARGS__, not_written(what, number, s))
    NOT_WRITTEN("version 0", unknown, s.version = 0);
    NOT_WRITTEN("version 3, and all else wrong", unknown, s.version = 3, s.largest_payload = 0, s.interval = 5);
    NOT_WRITTEN("a payload of 0", unfit, s.largest_payload = 0);
    NOT_WRITTEN("a payload of 65,001", unfit, s.largest_payload = 65001);
    NOT_WRITTEN("0 seconds", unfit, s.has_interval = 1);
    NOT_WRITTEN("3,601 seconds", unfit, s.has_interval = 1, s.interval = 3601);
    NOT_WRITTEN("seconds where there are none", unfit, s.interval = 60);
    NOT_WRITTEN("a partner in version 1", unfit, s.has_partner = 1);
    NOT_WRITTEN("a partner of 33 bits", unfit, s.version = 2, s.has_partner = 1, s.partner = UINT64_C(1) << 32);
    NOT_WRITTEN("a partner where there is none", unfit, s.version = 2, s.partner = 7);
    printf("ctest: writing settings\n");
}

int main(void)
{
    read_fields();
    read_faults();
    write_fields();
    return report("ctest settings");
}
