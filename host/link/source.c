/* Packets of a pass. */
#include "link.h"

#include <errno.h>
#include <stdio.h>
#include <string.h>

/* Reads the body of a record. Gives how much of it was kept, -1 where the file ends or fails first. */
static long read_body(FILE *file, uint64_t length, uint8_t *packet)
{
    /* Of a packet that is too long one octet too many is kept, so that the library refuses it; the rest is dropped. */
    size_t kept = length > SARATOGA_PACKET_OCTETS ? SARATOGA_PACKET_OCTETS + 1 : (size_t)length;
    if (fread(packet, 1, kept, file) != kept)
        return -1;
    for (uint64_t left = length - kept; left > 0; left--)
        if (getc(file) == EOF)
            return -1;
    return (long)kept;
}

/* The next record. Gives its length, -1 at the end of the pass, -2 where it is cut short there. */
static long read_record(FILE *file, char *kind, uint8_t *packet)
{
    uint8_t head[5];
    size_t got = fread(head, 1, sizeof head, file);
    if (got == 0)
        return -1;
    uint64_t length = 0;
    for (size_t i = 1; i < sizeof head; i++)
        length = length << 8 | head[i];
    long kept = got == sizeof head ? read_body(file, length, packet) : -1;
    *kind = (char)head[0];
    return kept < 0 ? -2 : kept;
}

/* What came is kept, also of a pass that ends too soon. */
static void end_pass(FILE *file, const char *name, uint64_t number, int cut)
{
    int error = ferror(file) && !stopped ? errno : 0;
    if (!cut && error == 0)
        return;
    if (drive_to_the_end())
        write_open_sheets();
    keep_exact_number();
    end_counters();
    finish_hooks();
    if (error != 0)
        die("%s: can't be read: %s", name, strerror(error));
    die("%s: cut short in record %" PRIu64, name, number);
}

/*
 * Packets from the P records of a pass. Other kinds are for replay: O and D, which would change the table there, are told.
 * Times (W) are passed over; who copies this keeps the number running, so that a line's number is its record's place.
 */
void from_pass(const char *name)
{
    static uint8_t octets[SARATOGA_PACKET_OCTETS + 1];
    uint64_t passed_over = 0, number = 1;
    long length = 0;
    char kind;
    FILE *file = strcmp(name, "-") == 0 ? stdin : fopen(name, "rbe");
    if (file == NULL)
        die("%s: can't be opened: %s", name, strerror(errno));
    tell_ready("packets of a pass");
    for (; !stopped && (length = read_record(file, &kind, octets)) >= 0; number++) {
        struct packet p = {.number = number, .octets = octets, .length = (size_t)length};
        if (kind == 'P') {
            count_packet(&p);
            take_packet(&p);
        }
        store_kept();
        passed_over += kind == 'O' || kind == 'D';
        drive();
        attend();
        if (tick_is_due()) {
            hear_operator();
            tick_counters();
            draw_live();
        }
    }
    end_pass(file, name, number, length == -2 && !stopped);
    if (passed_over > 0)
        warn("%s: %" PRIu64 " records of kinds O and D were passed over; only P is a packet off the link", name,
             passed_over);
    if (file != stdin)
        fclose(file);
    int saved = drive_to_the_end();
    end_counters();
    if (!saved)
        die("%s/area: what came last isn't saved, and counts as lost", options.directory);
}
