/* Reading a STATUS packet, as octets or in hexadecimal digits, and a list of pieces. Any file is taken or told to be wrong. */
#include "plan.h"

#include <errno.h>
#include <stdio.h>
#include <stdlib.h>
#include <string.h>

static int wrong_file(const char *name, const char *what)
{
    fprintf(stderr, "saratoga-plan: %s: %s\n", strcmp(name, "-") == 0 ? "standard input" : name, what);
    return 0;
}

static int wrong_line(const char *name, size_t line, const char *what)
{
    fprintf(stderr, "saratoga-plan: %s, line %lu: %s\n", strcmp(name, "-") == 0 ? "standard input" : name,
            (unsigned long)line, what);
    return 0;
}

static FILE *opened(const char *name)
{
    FILE *file = strcmp(name, "-") == 0 ? stdin : fopen(name, "rb");
    if (file == NULL)
        wrong_file(name, strerror(errno));
    return file;
}

static void closed(FILE *file)
{
    if (file != stdin)
        fclose(file);
}

static int blank(int octet)
{
    return octet == ' ' || octet == '\t' || octet == '\r' || octet == '\n';
}

/* The value of a hexadecimal digit; 16 where it is none. */
static unsigned digit(int octet)
{
    if (octet >= '0' && octet <= '9')
        return (unsigned)(octet - '0');
    if (octet >= 'a' && octet <= 'f')
        return (unsigned)(octet - 'a' + 10);
    return octet >= 'A' && octet <= 'F' ? (unsigned)(octet - 'A' + 10) : 16;
}

/*
 * Hexadecimal digits and blanks alone are a packet in digits; with any other octet the file is the packet itself. No success
 * STATUS is taken for the other: as octets it holds a zero octet, its code.
 */
static int is_text(const struct status *status)
{
    size_t i;
    for (i = 0; i < status->size; i++)
        if (!blank(status->octets[i]) && digit(status->octets[i]) == 16)
            return 0;
    return status->size > 0;
}

/* The octets of the digits, in their place; 0 where a digit is left over. */
static int from_digits(struct status *status)
{
    size_t i, digits = 0;
    for (i = 0; i < status->size; i++) {
        unsigned value = digit(status->octets[i]);
        if (value == 16)
            continue;
        if (digits % 2 == 0)
            status->octets[digits / 2] = (uint8_t)(value << 4);
        else
            status->octets[digits / 2] |= (uint8_t)value;
        digits++;
    }
    status->size = digits / 2;
    return digits % 2 == 0;
}

int read_status(const char *name, struct status *status)
{
    FILE *file = opened(name);
    int failed, longer;
    if (file == NULL)
        return 0;
    status->size = fread(status->octets, 1, sizeof status->octets, file);
    longer = status->size == sizeof status->octets && fgetc(file) != EOF;
    failed = ferror(file) ? errno : 0;
    closed(file);
    if (failed)
        return wrong_file(name, strerror(failed));
    if (longer)
        return wrong_file(name, "longer than any packet");
    if (is_text(status) && !from_digits(status))
        return wrong_file(name, "a hexadecimal digit is left over");
    status->read = saratoga_read(status->octets, status->size);
    return 1;
}

const char *read_number(const char *at, const char *end, uint64_t *number)
{
    const char *first = at;
    *number = 0;
    for (; at < end && *at >= '0' && *at <= '9'; at++) {
        unsigned value = (unsigned)(*at - '0');
        if (*number > (UINT64_MAX - value) / 10)
            return NULL;
        *number = 10 * *number + value;
    }
    return at > first ? at : NULL;
}

static const char *past_blanks(const char *at, const char *end)
{
    while (at < end && blank(*at))
        at++;
    return at;
}

/* A line's piece: 1; 0 where the line has none and may have none, -1 where it is wrong. */
static int read_piece(const char *at, const char *end, struct saratoga_piece *piece)
{
    const char *next;
    at = past_blanks(at, end);
    if (at == end || *at == '#')
        return 0;
    next = read_number(at, end, &piece->offset);
    if (next == NULL || next == end || !blank(*next))
        return -1;
    next = read_number(past_blanks(next, end), end, &piece->length);
    return next != NULL && past_blanks(next, end) == end ? 1 : -1;
}

/* Room for one piece more; 0 where there is none. */
static int make_room(struct list *list)
{
    size_t room = list->room == 0 ? 1024 : 2 * list->room;
    void *pieces, *lines;
    if (list->count < list->room)
        return 1;
    pieces = realloc(list->pieces, room * sizeof *list->pieces);
    if (pieces != NULL)
        list->pieces = pieces;
    lines = realloc(list->lines, room * sizeof *list->lines);
    if (lines != NULL)
        list->lines = lines;
    list->room = room;
    return pieces != NULL && lines != NULL;
}

/* One line without its end; -1 at the file's end, and -2 where it is longer than `most` or holds a zero octet. */
static long read_line(FILE *file, char *line, long most)
{
    long length = 0;
    int octet = fgetc(file);
    if (octet == EOF)
        return -1;
    for (; octet != '\n' && octet != EOF; octet = fgetc(file)) {
        if (octet == 0 || length == most)
            return -2;
        line[length++] = (char)octet;
    }
    return length;
}

static int read_lines(const char *name, FILE *file, struct list *list)
{
    char line[256];
    uint32_t number = 1;
    long length;
    for (; (length = read_line(file, line, sizeof line)) != -1; number++) {
        int found;
        if (length < 0)
            return wrong_line(name, number, "not a line of text of 256 octets or fewer");
        if (!make_room(list))
            return wrong_file(name, "no memory");
        found = read_piece(line, line + length, &list->pieces[list->count]);
        if (found < 0)
            return wrong_line(name, number, "not an offset and a length, two decimal numbers below 2^64");
        if (found && list->count == MOST_PIECES)
            return wrong_line(name, number, "more than 16777216 pieces");
        list->lines[list->count] = number;
        list->count += (size_t)found;
        if (number == UINT32_MAX)
            return wrong_file(name, "too many lines");
    }
    return ferror(file) ? wrong_file(name, strerror(errno)) : make_room(list) ? 1 : wrong_file(name, "no memory");
}

int read_list(const char *name, struct list *list)
{
    FILE *file = opened(name);
    int read;
    if (file == NULL)
        return 0;
    read = read_lines(name, file, list);
    closed(file);
    return read;
}
