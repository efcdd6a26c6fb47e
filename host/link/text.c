/*
 * Octets of packets made fit to be printed, and Ids as an operator writes them. No octet of a packet reaches a terminal or a file's
 * text but by escape() and quote(), and none is ever a format.
 */
#include "link.h"

#include <errno.h>
#include <stdlib.h>
#include <string.h>

/*
 * Octets as text: what is no printable character of ASCII, a backslash or `apart` is \xNN, so different octets are
 * different texts. Gives the length; what has no room (four octets for each, and one) is left out.
 */
static size_t escape_but(char apart, char *out, size_t room, const uint8_t *octets, size_t count)
{
    static const char digits[] = "0123456789abcdef";
    size_t length = 0;
    for (size_t i = 0; i < count && length + 5 <= room; i++) {
        uint8_t octet = octets[i];
        if (octet >= 0x20 && octet < 0x7f && octet != '\\' && octet != (uint8_t)apart) {
            out[length++] = (char)octet;
        } else {
            out[length++] = '\\';
            out[length++] = 'x';
            out[length++] = digits[octet >> 4];
            out[length++] = digits[octet & 15];
        }
    }
    out[length] = '\0';
    return length;
}

/* Octets as text without blanks. */
size_t escape(char *out, size_t room, const uint8_t *octets, size_t count)
{
    return escape_but(' ', out, room, octets, count);
}

/* Octets as text in quotation marks, with blanks and no quotation mark within. Room: four octets for each, and three. */
size_t quote(char *out, size_t room, const uint8_t *octets, size_t count)
{
    size_t length = 1 + escape_but('"', out + 1, room - 2, octets, count);
    out[0] = '"';
    out[length++] = '"';
    out[length] = '\0';
    return length;
}

/*
 * An Id as it is printed: 31, id=31, 0x1f, or the name of a file, 0000001f.5.part, which also says which file under the Id is
 * meant; else that is 0. Gives 0 where it is none of these. A number that begins with 0 and has no ending isn't taken: it could be meant
 * either way.
 */
int id_of_text(const char *text, uint64_t *id, uint64_t *file)
{
    const char *digits = "0123456789";
    int base = 10;
    char *end;
    if (parse_name(text, id, file) != NULL)
        return 1;
    *file = 0;
    if (strncmp(text, "id=", 3) == 0) {
        text += 3;
    } else if (strncmp(text, "0x", 2) == 0) {
        text += 2;
        digits = "0123456789abcdef";
        base = 16;
    }
    if (text[0] == '\0' || text[strspn(text, digits)] != '\0' || (base == 10 && text[0] == '0' && text[1] != '\0'))
        return 0;
    errno = 0;
    unsigned long long value = strtoull(text, &end, base);
    if (errno != 0 || value > UINT32_MAX)
        return 0;
    *id = value;
    return 1;
}
