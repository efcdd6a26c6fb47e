/*
 * A file of options (--config): one on a line, as on the command line without its dashes, `name value` or `name=value`. The command line
 * comes after it, and so has the last word.
 */
#include "link.h"

#include <ctype.h>
#include <errno.h>
#include <stdio.h>
#include <string.h>

#define MOST_OCTETS 65536

/* A line without blanks before and after. */
static char *trimmed(char *line)
{
    size_t length = strlen(line);
    while (length > 0 && isspace((unsigned char)line[length - 1]))
        line[--length] = '\0';
    return line + strspn(line, " \t");
}

/* One line, which stays in memory: options point into it. */
static void take_line(char *line)
{
    char name[32];
    char *text = trimmed(line);
    size_t length = strcspn(text, " \t=");
    if (text[0] == '\0' || text[0] == '#')
        return;
    snprintf(name, sizeof name, "--%.*s", (int)(length + 3 < sizeof name ? length : sizeof name - 3), text);
    char *value = text + length + strspn(text + length, " \t");
    int has_value = *value != '\0';
    value += *value == '=';
    take_from_file(name, has_value ? trimmed(value) : NULL);
}

/* All of a file, which ends with a 0. */
static char *read_text(const char *file, size_t *count)
{
    static char text[MOST_OCTETS];
    static size_t used;
    char *begins = text + used;
    FILE *stream = fopen(file, "re");
    if (stream == NULL)
        die("%s: %s", file, strerror(errno));
    errno = 0;
    *count = fread(begins, 1, sizeof text - used, stream);
    if (ferror(stream))
        die("%s: %s", file, errno != 0 ? strerror(errno) : "can't be read");
    fclose(stream);
    used += *count + 1;
    if (used > sizeof text)
        die("%s: over %d octets of options", file, MOST_OCTETS);
    begins[*count] = '\0';
    return begins;
}

void read_config(const char *file)
{
    size_t left;
    char *line = read_text(file, &left);
    for (unsigned number = 1; left > 0; number++) {
        char *end = memchr(line, '\n', left);
        size_t length = end != NULL ? (size_t)(end - line) : left;
        line[length] = '\0';
        stand_at(file, number);
        if (strlen(line) != length)
            wrong_line("the line has an octet 0");
        take_line(line);
        left -= length + (end != NULL);
        line += length + 1;
    }
    stand_at(NULL, 0);
}
