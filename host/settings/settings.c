/*
 * saratoga-settings: shows a plant's settings file, or makes one. Files are judged and written by the library. Here: the
 * command line, and files as they are named on it.
 */
#include "settings.h"

#include <errno.h>
#include <stdio.h>
#include <stdlib.h>
#include <string.h>

enum { DONE = 0, REFUSED = 1, WRONG = 2 };

static const char help[] =
    "usage: saratoga-settings [--known N] FILE            shows a plant's settings file; - is standard input\n"
    "       saratoga-settings -m OCTETS [options] FILE    makes one, or puts a new one in the place of the old\n"
    "\n"
    "  -m, --largest OCTETS    the largest payload: 1 to 65000\n"
    "  -i, --interval SECONDS  between STATUS that nobody asked for: 1 to 3600; none unless given\n"
    "  -p, --partner ID        of the partner dish, 32 bits, decimal or as 0x1f; none unless given\n"
    "      --format N          version of the file: 1, or 2, which may have a partner (else the lowest that will do)\n"
    "      --known N           show it as a program sees it that knows versions up to N (else 2)\n"
    "  -h, --help              this text\n"
    "      --version           the library's version\n"
    "\n"
    "Shown are lines such as largest-payload=1024; what a file leaves out has none. Of a file that is refused, the octet\n"
    "at which that is clear is named, counted from 1, and why. A file is written beside the old one, forced to disk and\n"
    "renamed: whatever happens meanwhile, there is the old one or the new one.\n"
    "\n"
    "Ends with 0, with 1 where the file or the settings are refused, and with 2 where something is wrong with options, or\n"
    "a file can't be read or written.\n";

struct options {
    const char *name;
    uint64_t known, format;
    int to_make, has_largest, has_format;
    struct saratoga_settings made;
};

void wrong_file(const char *name, const char *what)
{
    fprintf(stderr, "saratoga-settings: %s: %s\n", strcmp(name, "-") == 0 ? "standard input" : name, what);
}

static int wrong(const char *what, const char *detail)
{
    fprintf(stderr, "saratoga-settings: %s%s%s\n", what, detail == NULL ? "" : ": ", detail == NULL ? "" : detail);
    return WRONG;
}

/* Output that could not be written is no answer. */
static int finish(int status)
{
    if (fflush(stdout) != 0 || ferror(stdout))
        return wrong("can't write", strerror(errno));
    return status;
}

/* The file's octets, no more than fit; 0 where it can't be read. */
static int read_file(const char *name, uint8_t octets[MOST_OCTETS], size_t *len)
{
    FILE *file = strcmp(name, "-") == 0 ? stdin : fopen(name, "rb");
    int failed;
    if (file == NULL)
        return wrong_file(name, strerror(errno)), 0;
    errno = 0;
    *len = fread(octets, 1, MOST_OCTETS, file);
    failed = ferror(file);
    if (failed)
        wrong_file(name, errno != 0 ? strerror(errno) : "can't be read");
    if (file != stdin)
        fclose(file);
    return !failed;
}

static int show(const char *name, uint64_t known)
{
    static uint8_t octets[MOST_OCTETS];
    size_t len;
    if (!read_file(name, octets, &len))
        return WRONG;
    struct saratoga_settings s = saratoga_read_settings(octets, len, known);
    if (s.number != 0) {
        fflush(stdout);
        fprintf(stderr, "saratoga-settings: %s: refused %u", strcmp(name, "-") == 0 ? "standard input" : name,
                (unsigned)s.number);
        print_fault(octets, len, known, s.number);
        return REFUSED;
    }
    printf("version=%u\nlargest-payload=%u\n", (unsigned)s.version, (unsigned)s.largest_payload);
    if (s.has_interval)
        printf("interval=%u\n", (unsigned)s.interval);
    if (s.has_partner)
        printf("partner=%lu\n", (unsigned long)s.partner);
    return finish(DONE);
}

static int make(const char *name, const struct saratoga_settings *s)
{
    uint8_t octets[SARATOGA_SETTINGS_OCTETS];
    struct saratoga_written written = saratoga_write_settings(s->version, s->largest_payload, s->has_interval, s->interval,
                                                              s->has_partner, s->partner, octets, sizeof octets);
    if (written.number != 0) {
        fprintf(stderr, "saratoga-settings: refused %u: %s\n", (unsigned)written.number,
                written.number == SARATOGA_REFUSED_SETTINGS ? unfit(s) : saratoga_refusal_text(written.number));
        return REFUSED;
    }
    return replace_file(name, octets, (size_t)written.size) ? DONE : WRONG;
}

/* A whole number below 2^64: decimal digits, or hexadecimal ones after 0x. */
static int number_of(const char *text, uint64_t *number)
{
    int hexadecimal = text[0] == '0' && (text[1] == 'x' || text[1] == 'X');
    const char *digits = hexadecimal ? text + 2 : text;
    char *end;
    if (strspn(digits, hexadecimal ? "0123456789abcdefABCDEF" : "0123456789") != strlen(digits) || digits[0] == 0)
        return 0;
    errno = 0;
    *number = strtoull(digits, &end, hexadecimal ? 16 : 10);
    return errno == 0;
}

/* An option with a value, by its name; 0 where it is none of them. */
static int take_value(struct options *options, const char *word, uint64_t value)
{
    struct saratoga_settings *made = &options->made;
    if (strcmp(word, "-m") == 0 || strcmp(word, "--largest") == 0) {
        made->largest_payload = value;
        options->to_make = options->has_largest = 1;
    } else if (strcmp(word, "-i") == 0 || strcmp(word, "--interval") == 0) {
        made->interval = value;
        options->to_make = 1, made->has_interval = 1;
    } else if (strcmp(word, "-p") == 0 || strcmp(word, "--partner") == 0) {
        made->partner = value;
        options->to_make = 1, made->has_partner = 1;
    } else if (strcmp(word, "--format") == 0) {
        options->format = value;
        options->to_make = options->has_format = 1;
    } else if (strcmp(word, "--known") == 0) {
        options->known = value;
    } else {
        return 0;
    }
    return 1;
}

/* Whether all of the command line is understood; the first word that isn't is told of. */
static int read_options(int argc, char **argv, struct options *options)
{
    int only_names = 0, has_known = 0;
    for (int i = 1; i < argc; i++) {
        const char *word = argv[i];
        uint64_t value = 0;
        if (only_names || word[0] != '-' || word[1] == 0) {
            if (options->name != NULL)
                return wrong("one file at a time", word), 0;
            options->name = word;
        } else if (strcmp(word, "--") == 0) {
            only_names = 1;
        } else if (!take_value(options, word, 0)) {
            return wrong("unknown option", word), 0;
        } else if (i + 1 == argc) {
            return wrong("a value is missing after", word), 0;
        } else if (!number_of(argv[++i], &value)) {
            return wrong("no number", argv[i]), 0;
        } else {
            take_value(options, word, value);
            has_known |= strcmp(word, "--known") == 0;
        }
    }
    if (options->name == NULL)
        return wrong("which file?", NULL), 0;
    if (options->to_make && !options->has_largest)
        return wrong("-m is missing: a settings file always has a largest payload", NULL), 0;
    if (options->to_make && has_known)
        return wrong("--known is for showing a file", NULL), 0;
    if (options->to_make && strcmp(options->name, "-") == 0)
        return wrong("a settings file that is made needs a name", NULL), 0;
    return 1;
}

int main(int argc, char **argv)
{
    struct options options = {.known = SARATOGA_SETTINGS_VERSION};
    if (argc == 2 && (strcmp(argv[1], "--help") == 0 || strcmp(argv[1], "-h") == 0)) {
        fputs(help, stdout);
        return finish(DONE);
    }
    if (argc == 2 && strcmp(argv[1], "--version") == 0) {
        printf("saratoga-settings (saratoga) %s\n", SARATOGA_VERSION);
        return finish(DONE);
    }
    if (!read_options(argc, argv, &options)) {
        fprintf(stderr, "saratoga-settings: --help says more\n");
        return WRONG;
    }
    if (!options.to_make)
        return show(options.name, options.known);
    options.made.version = options.has_format ? options.format : options.made.has_partner ? 2 : 1;
    return make(options.name, &options.made);
}
