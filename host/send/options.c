/* The command line. */
#include "send.h"

#include <errno.h>
#include <stdlib.h>
#include <string.h>

/* A whole number from `least` to `most`: decimal digits, or hexadecimal ones after 0x. */
static int whole(const char *text, uint64_t least, uint64_t most, uint64_t *number)
{
    int hexadecimal = text[0] == '0' && (text[1] == 'x' || text[1] == 'X');
    const char *digits = hexadecimal ? text + 2 : text;
    if (strspn(digits, hexadecimal ? "0123456789abcdefABCDEF" : "0123456789") != strlen(digits) || digits[0] == 0)
        return 0;
    errno = 0;
    *number = strtoull(digits, NULL, hexadecimal ? 16 : 10);
    return errno == 0 && *number >= least && *number <= most;
}

/* A number with or without decimals, from `least` to `most`. */
static int decimal(const char *text, double least, double most, double *number)
{
    char *end;
    if (strspn(text, "0123456789.") != strlen(text) || text[0] == 0)
        return 0;
    *number = strtod(text, &end);
    return *end == 0 && *number >= least && *number <= most;
}

/* An option with a value; 0 where the value is none, which was told, and -1 where there is no such option. */
static int take_value(struct options *o, const char *word, const char *value)
{
    double seconds;
    if (strcmp(word, "--rate") == 0)
        return decimal(value, 0.000001, 1000000, &o->rate) || wrong("%s: not a rate of 0.000001 to 1000000 Mbit/s", value);
    if (strcmp(word, "--payload") == 0)
        return whole(value, 1, SARATOGA_PAYLOAD_OCTETS, &o->payload) || wrong("%s: not a payload of 1 to 65000 octets", value);
    if (strcmp(word, "--width") == 0)
        return (whole(value, 2, 16, &o->width) && (o->width & (o->width - 1)) == 0) ||
               wrong("%s: not a width: 2, 4, 8 or 16 octets of a descriptor", value);
    if (strcmp(word, "--ask") == 0)
        return whole(value, 1, MOST_ASK, &o->ask) || wrong("%s: not a number of packets, 1 to 1000000", value);
    if (strcmp(word, "--tries") == 0)
        return whole(value, 1, UINT32_MAX, &o->tries) || wrong("%s: not a number of tries, 1 to 4294967295", value);
    if (strcmp(word, "--id") == 0) {
        o->has_id = 1;
        return whole(value, 0, UINT32_MAX, &o->id) || wrong("%s: not an Id: 0 to 4294967295, or as 0x1f", value);
    }
    if (strcmp(word, "--wait") == 0) {
        if (!decimal(value, 0.001, 86400, &seconds))
            return wrong("%s: not a wait of 0.001 to 86400 seconds", value);
        o->wait = (int64_t)(seconds * (double)SECOND);
        return 1;
    }
    return -1;
}

/* An option, with its value after `=` or in the next word, which is then counted in `at`. */
static int take_option(struct options *o, int argc, char **argv, int *at)
{
    char word[32];
    const char *equals = strchr(argv[*at], '='), *value;
    size_t length = equals != NULL ? (size_t)(equals - argv[*at]) : strlen(argv[*at]);
    int taken;
    if (strcmp(argv[*at], "--md5") == 0)
        return o->md5 = 1;
    if (strcmp(argv[*at], "-q") == 0 || strcmp(argv[*at], "--quiet") == 0)
        return o->quiet = 1;
    if (length >= sizeof word)
        return wrong("unknown option: %s", argv[*at]);
    memcpy(word, argv[*at], length);
    word[length] = 0;
    value = equals != NULL ? equals + 1 : *at + 1 < argc ? argv[*at + 1] : "";
    taken = take_value(o, word, value);
    if (taken < 0)
        return wrong("unknown option: %s", argv[*at]);
    *at += equals == NULL;
    return taken;
}

/* Ids rise from the first file to the last: all of them must be Ids. */
static int check_files(const struct options *o)
{
    if (o->peer == NULL)
        return wrong("where to, HOST:PORT?");
    if (o->file_count == 0)
        return wrong("which file?");
    if (o->has_id && o->file_count - 1 > UINT32_MAX - o->id)
        return wrong("%lu files from Id %" PRIu64 " on: Ids end at 4294967295", (unsigned long)o->file_count, o->id);
    return 1;
}

int read_options(int argc, char **argv, struct options *o)
{
    int i, only_names = 0;
    o->files = argv; /* their names are moved to its start */
    for (i = 1; i < argc; i++) {
        if (!only_names && strcmp(argv[i], "--") == 0) {
            only_names = 1;
        } else if (!only_names && argv[i][0] == '-' && argv[i][1] != 0) {
            if (!take_option(o, argc, argv, &i))
                return 0;
        } else if (o->peer == NULL) {
            o->peer = argv[i];
        } else {
            o->files[o->file_count++] = argv[i];
        }
    }
    if (o->ask == 0) /* without a rate, four times as many must find room in the receiver's buffer */
        o->ask = o->rate > 0 ? 256 : 16;
    return check_files(o);
}
