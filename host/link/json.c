/*
 * A line of the log as one JSON object, for --json. A line is composed as always and read again here, so that no line has two forms in
 * the program: a packet's number, what happened, a word or two, and NAME=VALUE. docs/link.schema.json has all of them.
 */
#include "link.h"

#include <string.h>

struct writer {
    char *out;
    size_t room, length;
};

/* A stretch of the line. */
struct word {
    const char *at;
    size_t length;
};

static int is_word(struct word word, const char *text)
{
    return word.length == strlen(text) && memcmp(word.at, text, word.length) == 0;
}

static void put(struct writer *w, const char *text, size_t count)
{
    if (w->length + count > w->room)
        die("a line has no room as JSON: the program has a fault");
    memcpy(w->out + w->length, text, count);
    w->length += count;
}

static void put_text(struct writer *w, const char *text)
{
    put(w, text, strlen(text));
}

/* Lines are printable ASCII, so two characters need a backslash, and no other does. */
static void put_string(struct writer *w, struct word word)
{
    put_text(w, "\"");
    for (size_t i = 0; i < word.length; i++) {
        if (word.at[i] == '"' || word.at[i] == '\\')
            put_text(w, "\\");
        put(w, word.at + i, 1);
    }
    put_text(w, "\"");
}

/* A name in the way of other programs' JSON: hole_count for hole-count. */
static void put_name(struct writer *w, struct word name)
{
    put_text(w, w->length > 1 ? ",\"" : "\"");
    for (size_t i = 0; i < name.length; i++)
        put(w, name.at[i] == '-' ? "_" : name.at + i, 1);
    put_text(w, "\":");
}

/* 0-4,5-6 as [[0,4],[5,6]]; where not all are shown the last is .., and hole-count says how many there are. */
static void put_holes(struct writer *w, struct word list)
{
    const char *end = list.at + list.length;
    put_text(w, "[");
    for (const char *at = list.at, *comma; at < end && *at != '.'; at = comma < end ? comma + 1 : end) {
        const char *dash = memchr(at, '-', (size_t)(end - at));
        comma = memchr(at, ',', (size_t)(end - at));
        comma = comma != NULL ? comma : end;
        put_text(w, at > list.at ? ",[" : "[");
        put(w, at, (size_t)(dash - at));
        put_text(w, ",");
        put(w, dash + 1, (size_t)(comma - dash - 1));
        put_text(w, "]");
    }
    put_text(w, "]");
}

/* Whether it is a number as the program prints them. Digits alone don't tell: flags, hexadecimal, may be all digits. */
static int is_number(struct word name, struct word value)
{
    static const char *const texts[] = {"address", "checksum", "ctime", "endpoint", "file", "flags", "heard", "hex", "how", "md5",
                                        "mtime",   "path",     "receive", "send",   "sender", "timestamp", "why"};
    for (size_t i = 0; i < sizeof texts / sizeof texts[0]; i++)
        if (is_word(name, texts[i]))
            return 0;
    for (size_t i = 0; i < value.length; i++)
        if (value.at[i] < '0' || value.at[i] > '9')
            return 0;
    return value.at[0] != '0' || value.length == 1;
}

static void put_value(struct writer *w, struct word kind, struct word name, struct word value)
{
    put_name(w, name);
    if (is_word(name, "holes") && is_word(kind, "success"))
        put_holes(w, value);
    else if (is_word(name, "endpoint") && value.length >= 2)
        put_string(w, (struct word){value.at + 1, value.length - 2});
    else if (value.length == 0)
        put_text(w, "null");
    else if (is_word(name, "complete"))
        put_text(w, value.at[0] == '1' ? "true" : "false");
    else if (is_number(name, value))
        put(w, value.at, value.length);
    else
        put_string(w, value);
}

/* What a word without a name is called. */
static struct word name_for(struct word kind)
{
    static const char *const names[][2] = {{"refused", "refusal"}, {"send", "hex"}, {"open", "how"}, {"close", "why"},
                                            {"hook", "how"}};
    for (size_t i = 0; i < sizeof names / sizeof names[0]; i++)
        if (is_word(kind, names[i][0]))
            return (struct word){names[i][1], strlen(names[i][1])};
    return (struct word){"word", 4};
}

static void pass_blanks(struct word *line)
{
    while (line->length > 0 && line->at[0] == ' ')
        *line = (struct word){line->at + 1, line->length - 1};
}

/* Takes the next word of the line. Only an endpoint has blanks, between quotation marks. Gives a length of 0 at the end. */
static struct word take_word(struct word *line)
{
    static const char quoted[] = "endpoint=\"";
    pass_blanks(line);
    size_t length = 0;
    if (line->length > sizeof quoted && memcmp(line->at, quoted, sizeof quoted - 1) == 0)
        for (length = sizeof quoted - 1; length < line->length && line->at[length] != '"';)
            length++;
    while (length < line->length && line->at[length] != ' ')
        length++;
    struct word word = {line->at, length};
    *line = (struct word){line->at + length, line->length - length};
    return word;
}

/*
 * Begins the object: with the time where --times asks for it, the packet's number and what happened; or for --list, whose lines have none of
 * it, as a transfer. Gives what happened.
 */
static struct word put_head(struct writer *w, struct word *line)
{
    struct word kind = {"transfer", 8}, number;
    put_text(w, "{");
    if (options.times)
        put_value(w, kind, (struct word){"time", 4}, take_word(line));
    pass_blanks(line);
    const char *equals = memchr(line->at, '=', line->length), *blank = memchr(line->at, ' ', line->length);
    if (equals == NULL || (blank != NULL && blank < equals)) {
        number = take_word(line);
        put_value(w, kind, (struct word){"packet", 6}, number);
        kind = take_word(line);
    }
    put_value(w, kind, (struct word){"event", 5}, kind);
    return kind;
}

/* Writes a line, without its end, as JSON. Gives the length. */
size_t json_of_line(char *out, size_t room, const char *text, size_t length)
{
    struct writer w = {.out = out, .room = room};
    struct word line = {text, length}, kind = put_head(&w, &line), word;
    while ((word = take_word(&line)).length > 0) {
        const char *equals = memchr(word.at, '=', word.length);
        size_t name = equals != NULL ? (size_t)(equals - word.at) : 0;
        if (equals == NULL)
            put_value(&w, kind, name_for(kind), word);
        else
            put_value(&w, kind, (struct word){word.at, name}, (struct word){equals + 1, word.length - name - 1});
    }
    put_text(&w, "}");
    return w.length;
}
