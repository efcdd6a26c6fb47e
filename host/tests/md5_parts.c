/*
 * md5_parts: for each line of standard input, a message in parts (each in hexadecimal, "-" for an empty one, a blank between two), prints the
 * digest that the library gives. md5_parts --stream OCTETS: prints that of standard input, read in parts of so many octets.
 * For host/tests/compare_md5.
 */
#include <stdio.h>
#include <stdlib.h>
#include <string.h>

#include "saratoga.h"

enum { LINE = 1 << 16 };

static uint8_t state[SARATOGA_MD5_OCTETS];

static void print_digest(void)
{
    uint8_t digest[SARATOGA_DIGEST_OCTETS];
    size_t i;
    if (saratoga_md5_end(state, sizeof state, digest, sizeof digest).number != 0)
        exit(1);
    for (i = 0; i < sizeof digest; i++)
        printf("%02x", digest[i]);
    printf("\n");
}

static void begin(void)
{
    if (saratoga_md5_begin(state, sizeof state).number != 0)
        exit(1);
}

static void add(const uint8_t *part, size_t len)
{
    if (saratoga_md5_add(state, sizeof state, part, len).number != 0)
        exit(1);
}

static void add_hex(const char *text)
{
    static uint8_t part[LINE / 2];
    size_t len = 0;
    unsigned octet;
    for (; sscanf(text, "%2x", &octet) == 1; text += 2)
        part[len++] = (uint8_t)octet;
    add(part, len);
}

static void lines(void)
{
    static char line[LINE];
    while (fgets(line, sizeof line, stdin) != NULL) {
        char *part;
        begin();
        for (part = strtok(line, " \n"); part != NULL; part = strtok(NULL, " \n"))
            add_hex(strcmp(part, "-") == 0 ? "" : part);
        print_digest();
    }
}

static void stream(size_t octets)
{
    uint8_t *part = malloc(octets);
    size_t len;
    if (part == NULL)
        exit(1);
    begin();
    while ((len = fread(part, 1, octets, stdin)) > 0)
        add(part, len);
    print_digest();
    free(part);
}

int main(int argc, char **argv)
{
    if (argc == 3 && strcmp(argv[1], "--stream") == 0)
        stream(strtoul(argv[2], NULL, 10));
    else
        lines();
    return ferror(stdin) || fflush(stdout) != 0;
}
