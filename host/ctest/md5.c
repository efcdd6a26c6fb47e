/*
 * MD5 from C: the strings of RFC 1321, messages cut in many ways, states of any octets, refusals; and the verdict on METADATA of
 * every checksum type. Every buffer that is lent has its exact size. Ends with status 1 where anything is wrong.
 *
 * What the digests have to be is in the RFC's own strings; host/tests/compare_md5 asks a second implementation about many more.
 */
#include "check.h"

enum { STATE = SARATOGA_MD5_OCTETS, DIGEST = SARATOGA_DIGEST_OCTETS, BLOCK = 64, LONGEST = 1090 };

static uint32_t seed = 1321;

/* A number below `end` that looks random. */
static uint64_t below(uint64_t end)
{
    seed = seed * 1103515245 + 12345;
    return (seed >> 8) % end;
}

static void same_done(const char *what, struct saratoga_done got, struct saratoga_done want)
{
    SAME(number);
    SAME(code);
}

static void same_verdict(const char *what, struct saratoga_verdict got, struct saratoga_verdict want)
{
    SAME(number);
    SAME(code);
    SAME(verdict);
}

static void begun(const char *what, uint8_t *state)
{
    same_done(what, saratoga_md5_begin(state, STATE), (struct saratoga_done){0});
}

/* Adds a part that is lent by itself, and compares it afterwards. */
static void added(const char *what, uint8_t *state, const uint8_t *part, size_t len)
{
    uint8_t *lent = lend(part, len);
    same_done(what, saratoga_md5_add(state, STATE, lent, len), (struct saratoga_done){0});
    same_octets(what, lent, part, len);
    free(lent);
}

/* The digest, and that ending leaves the state. */
static void ended(const char *what, const uint8_t *state, const uint8_t *want)
{
    uint8_t *lent = lend(state, STATE), *digest = lend(NULL, DIGEST);
    same_written(what, saratoga_md5_end(lent, STATE, digest, DIGEST), (struct saratoga_written){.size = DIGEST});
    same_octets(what, digest, want, DIGEST);
    same_octets(what, lent, state, STATE);
    free(digest);
    free(lent);
}

static void digest_of(const uint8_t *message, size_t len, uint8_t *digest)
{
    uint8_t state[STATE];
    saratoga_md5_begin(state, STATE);
    saratoga_md5_add(state, STATE, message, len);
    saratoga_md5_end(state, STATE, digest, DIGEST);
}

/* The test suite of RFC 1321, each string whole and octet by octet. */
static void strings(void)
{
    static const struct { const char *text, *digest; } suite[] = {
        {"", "d41d8cd98f00b204e9800998ecf8427e"},
        {"a", "0cc175b9c0f1b6a831c399e269772661"},
        {"abc", "900150983cd24fb0d6963f7d28e17f72"},
        {"message digest", "f96b697d7cb7938d525a2f31aaf161d0"},
        {"abcdefghijklmnopqrstuvwxyz", "c3fcd3d76192e4007dfb496cca67e13b"},
        {"ABCDEFGHIJKLMNOPQRSTUVWXYZabcdefghijklmnopqrstuvwxyz0123456789", "d174ab98d277d9f5a5611c2c9f419d9f"},
        {"12345678901234567890123456789012345678901234567890123456789012345678901234567890",
         "57edf4a22be3c955ac49da2e2107b67a"},
    };
    enum { STRINGS = sizeof suite / sizeof suite[0] };
    size_t i, j;
    for (i = 0; i < STRINGS; i++) {
        const uint8_t *text = (const uint8_t *)suite[i].text;
        size_t len = strlen(suite[i].text);
        uint8_t want[DIGEST], *state = lend(NULL, STATE);
        for (j = 0; j < DIGEST; j++) {
            unsigned octet;
            sscanf(suite[i].digest + 2 * j, "%2x", &octet);
            want[j] = (uint8_t)octet;
        }
        begun(suite[i].text, state);
        added(suite[i].text, state, text, len);
        ended(suite[i].text, state, want);
        begun(suite[i].text, state);
        for (j = 0; j < len; j++)
            added(suite[i].text, state, text + j, 1);
        ended(suite[i].text, state, want);
        free(state);
    }
    printf("ctest: the %d strings of RFC 1321\n", (int)STRINGS);
}

/* Messages up to 200 octets cut in two at every place, and around each multiple of 64 at random, with empty parts between. */
static void cuts(void)
{
    uint8_t message[LONGEST], want[DIGEST];
    uint8_t *state = lend(NULL, STATE);
    unsigned long tried = 0;
    size_t len, cut, i;
    for (i = 0; i < LONGEST; i++)
        message[i] = (uint8_t)below(256);
    for (len = 0; len < LONGEST; len++) {
        if (len > 200 && (len + 2) % BLOCK > 4)
            continue;
        digest_of(message, len, want);
        for (cut = 0; cut <= len && len <= 200; cut++, tried++) {
            begun("two parts", state);
            added("two parts", state, message, cut);
            added("two parts", state, message + cut, len - cut);
            ended("two parts", state, want);
        }
        for (i = 0; i < 20; i++, tried++) {
            size_t longest = i % 2 ? 3 : 150;
            begun("many parts", state);
            for (cut = 0; cut < len;) {
                size_t part = (size_t)below(longest + 1);
                part = part < len - cut ? part : len - cut;
                added("many parts", state, message + cut, part);
                cut += part;
            }
            added("many parts", state, message, 0);
            ended("many parts", state, want);
        }
    }
    free(state);
    printf("ctest: %lu ways of cutting a message\n", tried);
}

/* What a state says, octet by octet: no word before 64 octets, the number, the block begun, zeros. */
static void layout(void)
{
    static const uint8_t first[] = {0x01, 0x23, 0x45, 0x67, 0x89, 0xAB, 0xCD, 0xEF, 0xFE, 0xDC, 0xBA, 0x98, 0x76, 0x54, 0x32, 0x10};
    uint8_t want[STATE] = {0}, *state = lend(NULL, STATE);
    memcpy(want, first, sizeof first);
    begun("layout", state);
    same_octets("begun", state, want, STATE);
    added("layout", state, (const uint8_t *)"abc", 3);
    want[23] = 3;
    memcpy(want + 24, "abc", 3);
    same_octets("after abc", state, want, STATE);
    free(state);
}

/*
 * Any octets are a state. Of the block only the octets that the number tells are looked at, and what is stored afterwards has
 * zeros there; the number goes on modulo 2^64. Adding nothing twice is adding it once.
 */
static void any_state(void)
{
    uint8_t one[STATE], other[STATE], want[DIGEST], part[200];
    size_t i, turn;
    for (turn = 0; turn < 2000; turn++) {
        size_t used, len = (size_t)below(sizeof part + 1);
        for (i = 0; i < STATE; i++)
            one[i] = (uint8_t)below(256);
        for (i = 0; i < sizeof part; i++)
            part[i] = (uint8_t)below(256);
        if (turn % 4 == 0)
            memset(one + 16, 0xFF, 7);
        used = one[23] % BLOCK;
        memcpy(other, one, STATE);
        for (i = 24 + used; i < STATE; i++)
            other[i] = (uint8_t)~one[i];
        saratoga_md5_end(one, STATE, want, DIGEST);
        ended("unused octets", other, want);
        added("unused octets", one, part, len);
        added("unused octets", other, part, len);
        same_octets("unused octets", other, one, STATE);
        used = one[23] % BLOCK;
        for (i = 24 + used; i < STATE; i++)
            if (one[i] != 0)
                fail("unused octets", "not zero: octet", i, 0);
        added("nothing", other, part, 0);
        same_octets("nothing", other, one, STATE);
    }
    memset(one, 0, STATE);
    memset(one + 16, 0xFF, 8);
    added("2^64 octets", one, part, 1);
    for (i = 16; i < 24; i++)
        if (one[i] != 0)
            fail("2^64 octets", "number", one[i], 0);
}

/* Lent memory of every length: 20 and nothing touched where it is too short, else what is past the state or the digest stays. */
static void lengths(void)
{
    const struct saratoga_done short_state = {.number = SARATOGA_REFUSED_BUFFER};
    uint8_t state[STATE], want[STATE], digest[DIGEST];
    size_t len;
    begun("lengths", state);
    added("lengths", state, (const uint8_t *)"page", 4);
    digest_of((const uint8_t *)"page", 4, digest);
    for (len = 0; len <= STATE + 40; len++) {
        uint8_t *lent = lend(NULL, len), *out = lend(NULL, DIGEST);
        struct saratoga_written none = {.number = len < STATE ? SARATOGA_REFUSED_BUFFER : 0, .size = len < STATE ? 0 : DIGEST};
        begun("lengths", want);
        same_done("begin", saratoga_md5_begin(lent, len), len < STATE ? short_state : (struct saratoga_done){0});
        buffer_holds("begin", lent, len, want, len < STATE ? 0 : STATE);
        same_done("add", saratoga_md5_add(lent, len, (const uint8_t *)"page", 4), len < STATE ? short_state : (struct saratoga_done){0});
        buffer_holds("add", lent, len, state, len < STATE ? 0 : STATE);
        same_written("end", saratoga_md5_end(lent, len, out, DIGEST), none);
        buffer_holds("end", out, DIGEST, digest, len < STATE ? 0 : DIGEST);
        buffer_holds("end", lent, len, state, len < STATE ? 0 : STATE);
        free(out);
        free(lent);
    }
    for (len = 0; len <= DIGEST + 40; len++) {
        uint8_t *out = lend(NULL, len), *lent = lend(NULL, STATE - 1);
        struct saratoga_written none = {.number = len < DIGEST ? SARATOGA_REFUSED_BUFFER : 0, .size = len < DIGEST ? 0 : DIGEST};
        same_written("digest", saratoga_md5_end(state, STATE, out, len), none);
        buffer_holds("digest", out, len, digest, len < DIGEST ? 0 : DIGEST);
        same_written("both short", saratoga_md5_end(lent, STATE - 1, out, len), (struct saratoga_written){.number = SARATOGA_REFUSED_BUFFER});
        free(lent);
        free(out);
    }
}

/* METADATA with a checksum of this type and so many words, of which the first octets are given. */
static size_t metadata(uint8_t *packet, uint64_t type, uint64_t words, const uint8_t *digest)
{
    uint8_t checksum[60] = {0};
    struct saratoga_written written;
    memcpy(checksum, digest, DIGEST);
    written = saratoga_write_metadata(SARATOGA_WIDTH_32 | words << 4 | type, 7, checksum, 4 * words, SARATOGA_PROPERTIES_WIDTH_32, 4, 0,
                                      0, (const uint8_t *)"page", 4, packet, SARATOGA_METADATA_OCTETS);
    if (written.number != 0)
        fail("METADATA", "number", written.number, 0);
    return written.size;
}

/* The verdict on a packet and a state that are lent, and both afterwards. */
static void judged(const char *what, const uint8_t *packet, size_t packet_len, const uint8_t *state, size_t state_len,
                   struct saratoga_verdict want)
{
    uint8_t *lent = lend(packet, packet_len), *kept = lend(state, state_len);
    same_verdict(what, saratoga_check_md5(lent, packet_len, kept, state_len), want);
    same_octets(what, lent, packet, packet_len);
    same_octets(what, kept, state, state_len);
    free(kept);
    free(lent);
}

/* Every allowed pair of type and length: only type 2 is checked, and every single octet of it counts. */
static void verdicts(void)
{
    const struct saratoga_verdict agrees = {.verdict = SARATOGA_AGREES}, differs = {.verdict = SARATOGA_DIFFERS};
    const struct saratoga_verdict unchecked = {.verdict = SARATOGA_NOT_CHECKED};
    uint8_t state[STATE], digest[DIGEST], packet[SARATOGA_METADATA_OCTETS];
    uint64_t type, words;
    size_t len, i;
    begun("verdicts", state);
    added("verdicts", state, (const uint8_t *)"page", 4);
    digest_of((const uint8_t *)"page", 4, digest);
    for (type = 0; type < 16; type++) {
        uint64_t least = type == 0 ? 0 : type == 2 ? 4 : type == 3 ? 5 : 1, most = type < 4 ? least : 15;
        for (words = least; words <= most; words++) {
            len = metadata(packet, type, words, digest);
            judged("type and words", packet, len, state, STATE, type == 2 ? agrees : unchecked);
        }
    }
    len = metadata(packet, 2, 4, digest);
    for (i = 0; i < 8 * DIGEST; i++) {
        packet[8 + i / 8] ^= (uint8_t)(1 << i % 8);
        judged("one bit", packet, len, state, STATE, differs);
        packet[8 + i / 8] ^= (uint8_t)(1 << i % 8);
    }
    added("one octet more", state, (const uint8_t *)"s", 1);
    judged("another file", packet, len, state, STATE, differs);
    begun("no octets", state);
    digest_of(digest, 0, digest);
    judged("no octets", packet, metadata(packet, 2, 4, digest), state, STATE, agrees);
}

/* 20 before all, whatever the packet is; then what reading METADATA refuses, of packets cut short and damaged. */
static void refused(void)
{
    uint8_t state[STATE + 3], digest[DIGEST] = {0}, packet[SARATOGA_METADATA_OCTETS];
    size_t len, i, most = metadata(packet, 2, 4, digest);
    begun("refused", state);
    memset(state + STATE, 0x5A, 3);
    for (i = 0; i <= STATE + 3; i++) {
        struct saratoga_verdict want = {.number = i < STATE ? SARATOGA_REFUSED_BUFFER : 0, .verdict = i < STATE ? 0 : SARATOGA_DIFFERS};
        judged("state", packet, most, state, i, want);
        if (i < STATE)
            judged("state before packet", packet, i % 30, state, i, want);
    }
    for (len = 0; len < most; len++) {
        struct saratoga_packet read = saratoga_read(packet, len);
        judged("cut short", packet, len, state, STATE, (struct saratoga_verdict){.number = read.number, .code = read.code});
        if (read.number == 0)
            fail("cut short", "number", 0, 1);
    }
    for (i = 0; i < 8 * most; i++) { /* the lowest six bits of the first octet are the type: with another one, any packet is 4 */
        struct saratoga_verdict want = {.number = SARATOGA_REFUSED_TYPE, .code = SARATOGA_CODE_TYPE};
        packet[i / 8] ^= (uint8_t)(1 << i % 8);
        if (i >= 6) {
            struct saratoga_packet read = saratoga_read(packet, most);
            want = (struct saratoga_verdict){.number = read.number, .code = read.code};
            if (read.number == 0)
                want.verdict = (read.flags & SARATOGA_CHECKSUM_TYPE_MASK) == 2 ? SARATOGA_DIFFERS : SARATOGA_NOT_CHECKED;
        }
        judged("damaged", packet, most, state, STATE, want);
        packet[i / 8] ^= (uint8_t)(1 << i % 8);
    }
}

int main(void)
{
    strings();
    cuts();
    layout();
    any_state();
    lengths();
    verdicts();
    refused();
    return report("ctest md5");
}
