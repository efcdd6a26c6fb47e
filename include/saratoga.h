/*
 * saratoga: read and write packets of the Saratoga file transfer protocol (draft 09), and receive files by it.
 *
 * Every call gives an answer: a result, or a refusal.
 * - Accepted: `number` and `code` are 0.
 * - Refused: `number` is one of SARATOGA_REFUSED_..., `code` is the status code to send to the peer in a failure
 *   STATUS (0: send nothing), and every other field is 0. No lent buffer and no area is touched.
 * Where several refusals apply, the first in the order stated at the function is given. docs/RULES.md has every rule; a number
 * such as R6.6 at a function is the rule with its order of refusals.
 *
 * Pointers must not be NULL, even where the length is 0, and must be valid for their length: readable where const,
 * else readable and writable. A buffer or an area to be written must not overlap any other argument.
 * Apart from that, any octets and any numbers may be passed.
 *
 * Whether a refused packet is answered with a failure STATUS, and to which Id, is what saratoga_failure_id says (R13.1).
 *
 * The library is for x86-64. It uses no heap and holds no state; each call needs less than 2,000 octets of stack
 * (docs/AREA.md has them by function).
 *
 * Bits count from 0, the highest bit of the first octet. All numbers in packets are big-endian.
 */
#ifndef SARATOGA_H
#define SARATOGA_H

#include <stddef.h>
#include <stdint.h>

#ifdef __cplusplus
extern "C" {
#endif

/* The version of this header and of the library that is installed with it. */
#define SARATOGA_VERSION_MAJOR 0
#define SARATOGA_VERSION_MINOR 1
#define SARATOGA_VERSION "0.1"

/* Limits. */
#define SARATOGA_TRANSFERS 16         /* Ids that can be open at a time */
#define SARATOGA_RUNS 64              /* runs of a transfer, and so at most as many holes */
#define SARATOGA_PACKET_OCTETS 65535  /* of the longest packet that is read or written */
#define SARATOGA_PATH_OCTETS 1023     /* of the longest path, without the closing zero octet */
#define SARATOGA_METADATA_OCTETS 1118 /* of the longest METADATA that is written */
#define SARATOGA_STATUS_OCTETS 2104   /* of the longest STATUS that is written: a timestamp and 64 holes */
#define SARATOGA_FAILURE_OCTETS 8     /* of a failure STATUS */
#define SARATOGA_PAYLOAD_OCTETS 65000 /* of the longest piece that may be planned */

/* Packet types. */
#define SARATOGA_TYPE_BEACON 0
#define SARATOGA_TYPE_METADATA 2
#define SARATOGA_TYPE_DATA 3
#define SARATOGA_TYPE_STATUS 4

/*
 * Masks on `flags`, which is bits 8 to 31 of the packet as a 24-bit number: bit b is 1 << (31 - b).
 */
#define SARATOGA_WIDTH_MASK UINT64_C(0xC00000) /* bits 8 and 9, except in BEACON: the descriptor width */
#define SARATOGA_WIDTH_16 UINT64_C(0x000000)
#define SARATOGA_WIDTH_32 UINT64_C(0x400000)
#define SARATOGA_WIDTH_64 UINT64_C(0x800000)
#define SARATOGA_WIDTH_128 UINT64_C(0xC00000) /* for numbers below 2^64: the upper eight octets are zero, else 5 */
#define SARATOGA_KIND_MASK UINT64_C(0x300000) /* bits 10 and 11 of METADATA and DATA: 0 is a file, the one kind taken */
#define SARATOGA_FLAG_ENDED UINT64_C(0x080000)         /* bit 12 of METADATA: the transfer was ended by its sender */
#define SARATOGA_FLAG_ERRORS_TAKEN UINT64_C(0x040000)  /* bit 13 of METADATA: the content may come with errors */
#define SARATOGA_FLAG_TIMESTAMP UINT64_C(0x080000)     /* bit 12 of DATA and STATUS: 16 octets of timestamp */
#define SARATOGA_FLAG_NO_METADATA UINT64_C(0x040000)   /* bit 13 of STATUS: METADATA has not been received */
#define SARATOGA_FLAG_INCOMPLETE UINT64_C(0x020000)    /* bit 14 of STATUS: the hole list is not complete */
#define SARATOGA_FLAG_UNASKED UINT64_C(0x010000)       /* bit 15 of STATUS: it was sent unasked */
#define SARATOGA_FLAG_STATUS_WANTED UINT64_C(0x010000) /* bit 15 of DATA: the sender wants a STATUS */
#define SARATOGA_FLAG_END_OF_DATA UINT64_C(0x008000)   /* bit 16 of DATA: it holds the last octet */

/*
 * The flags of BEACON, to be combined with |: one of each group, and the single flags that apply. Bits 20 to 23 have
 * no use and are kept as read; bits 24 to 31 must be 0 (26).
 */
#define SARATOGA_LARGEST_MASK UINT64_C(0xC00000) /* bits 8 and 9: the widest descriptors that the node supports */
#define SARATOGA_LARGEST_16 UINT64_C(0x000000)
#define SARATOGA_LARGEST_32 UINT64_C(0x400000)
#define SARATOGA_LARGEST_64 UINT64_C(0x800000)
#define SARATOGA_LARGEST_128 UINT64_C(0xC00000)
#define SARATOGA_FLAG_BUNDLES UINT64_C(0x200000) /* bit 10: the node also takes bundles */
#define SARATOGA_FLAG_STREAMS UINT64_C(0x100000) /* bit 11: the node supports streams */
#define SARATOGA_SEND_MASK UINT64_C(0x0C0000)    /* bits 12 and 13: sending files; 01 is refused with 26 */
#define SARATOGA_SEND_CANNOT UINT64_C(0x000000)
#define SARATOGA_SEND_NOT_NOW UINT64_C(0x080000)
#define SARATOGA_SEND_WILLING UINT64_C(0x0C0000)
#define SARATOGA_RECEIVE_MASK UINT64_C(0x030000) /* bits 14 and 15: receiving files; 01 is refused with 26 */
#define SARATOGA_RECEIVE_CANNOT UINT64_C(0x000000)
#define SARATOGA_RECEIVE_NOT_NOW UINT64_C(0x020000)
#define SARATOGA_RECEIVE_WILLING UINT64_C(0x030000)
#define SARATOGA_FLAG_UDP_LITE UINT64_C(0x008000)   /* bit 16: the node takes DATA over UDP-Lite too */
#define SARATOGA_FREE_SPACE_MASK UINT64_C(0x007000) /* bit 17: free space is given; then bits 18 and 19: its width */
#define SARATOGA_FREE_SPACE_NONE UINT64_C(0x000000)
#define SARATOGA_FREE_SPACE_16 UINT64_C(0x004000)
#define SARATOGA_FREE_SPACE_32 UINT64_C(0x005000)
#define SARATOGA_FREE_SPACE_64 UINT64_C(0x006000)
#define SARATOGA_FREE_SPACE_128 UINT64_C(0x007000) /* for numbers below 2^64, as SARATOGA_WIDTH_128 */

/* Willingness to send and to receive, as read from a BEACON. */
#define SARATOGA_CANNOT 0  /* it can't at all */
#define SARATOGA_NOT_NOW 1 /* it can, but not now */
#define SARATOGA_WILLING 2 /* it can and will */

/*
 * The checksum of METADATA, in bits 24 to 31 of `flags`: its type (bits 28 to 31) with its length in 32-bit words (bits 24
 * to 27). Reading and opening compare none; of an MD5, saratoga_check_md5 says whether it is that of a file.
 */
#define SARATOGA_CHECKSUM_TYPE_MASK UINT64_C(0x0F)
#define SARATOGA_CHECKSUM_WORDS_MASK UINT64_C(0xF0)
#define SARATOGA_CHECKSUM_NONE UINT64_C(0x00)
#define SARATOGA_CHECKSUM_CRC32 UINT64_C(0x11) /* 4 octets */
#define SARATOGA_CHECKSUM_MD5 UINT64_C(0x42)   /* 16 octets */
#define SARATOGA_CHECKSUM_SHA1 UINT64_C(0x53)  /* 20 octets */

/* Bits 8 and 9 of `properties`, which has 16 bits: the width of the size in METADATA. */
#define SARATOGA_PROPERTIES_WIDTH_MASK UINT64_C(0x00C0)
#define SARATOGA_PROPERTIES_WIDTH_16 UINT64_C(0x0000)
#define SARATOGA_PROPERTIES_WIDTH_32 UINT64_C(0x0040)
#define SARATOGA_PROPERTIES_WIDTH_64 UINT64_C(0x0080)
#define SARATOGA_PROPERTIES_WIDTH_128 UINT64_C(0x00C0) /* for sizes below 2^64, as SARATOGA_WIDTH_128 */

/* Status codes, bits 24 to 31 of STATUS, as the draft names them. A refusal's `code` is 0x00, 01, 03, 06, 09 or 0A. */
#define SARATOGA_CODE_SUCCESS 0x00            /* no error; as the `code` of a refusal: send nothing */
#define SARATOGA_CODE_UNSPECIFIED 0x01        /* unspecified error */
#define SARATOGA_CODE_SENDER_RESOURCES 0x02   /* unable to send the file due to resource constraints */
#define SARATOGA_CODE_RECEIVER_RESOURCES 0x03 /* unable to receive the file due to resource constraints */
#define SARATOGA_CODE_NOT_FOUND 0x04          /* file not found */
#define SARATOGA_CODE_DENIED 0x05             /* access denied */
#define SARATOGA_CODE_UNKNOWN_ID 0x06         /* unknown Id */
#define SARATOGA_CODE_NOT_DELETED 0x07        /* did not delete the file */
#define SARATOGA_CODE_TOO_LONG 0x08           /* file longer than the receiver can support */
#define SARATOGA_CODE_DESCRIPTORS 0x09        /* descriptors do not match expected use or the file's length */
#define SARATOGA_CODE_TYPE 0x0A               /* unsupported packet type */
#define SARATOGA_CODE_REQUEST_TYPE 0x0B       /* unsupported request type */
#define SARATOGA_CODE_TIMEOUT 0x0C            /* request ended by a timeout */
#define SARATOGA_CODE_FLAGS_CHANGED 0x0D      /* flags of DATA have changed unexpectedly */
#define SARATOGA_CODE_NOT_INTERESTED 0x0E     /* receiver no longer wants the file */
#define SARATOGA_CODE_IN_USE 0x0F             /* file is in use */
#define SARATOGA_CODE_METADATA_FIRST 0x10     /* METADATA required before the transfer is accepted */
#define SARATOGA_CODE_UNEXPECTED 0x11         /* a STATUS with an error came unexpectedly, the request is ended */

/* Refusal numbers, each with its `code`: R9.1 to R9.26. */
#define SARATOGA_REFUSED_TRUNCATED 1     /* 0x00: packet or settings file ends inside a field, or a path has no end */
#define SARATOGA_REFUSED_TOO_LONG 2      /* 0x00: packet over 65,535 octets, or it would be when written */
#define SARATOGA_REFUSED_VERSION 3       /* 0x00: bits 0 and 1 are not 0 1 */
#define SARATOGA_REFUSED_TYPE 4          /* 0x0A: type not 0, 2, 3 or 4, or not the one that the function takes */
#define SARATOGA_REFUSED_WIDTH 5         /* 0x09: the upper eight octets of a 128-bit descriptor aren't all zero */
#define SARATOGA_REFUSED_KIND 6          /* 0x01: not a plain file, by its kind or its property bits */
#define SARATOGA_REFUSED_CHECKSUM 7      /* 0x01: pair of checksum type and length not allowed */
#define SARATOGA_REFUSED_PATH 8          /* 0x01: path without octets, over 1,023 octets, or not at the end */
#define SARATOGA_REFUSED_SIZE 9          /* 0x09: size above what the packet's width, or the marks, can hold */
#define SARATOGA_REFUSED_NO_PAYLOAD 10   /* 0x01: DATA with no payload */
#define SARATOGA_REFUSED_HOLES 11        /* 0x00: hole list not allowed, or a hole or a plan asked of a failure STATUS */
#define SARATOGA_REFUSED_NOT_OPEN 12     /* 0x06: Id not open, of two areas in either; or not the one that the marks are of */
#define SARATOGA_REFUSED_OTHER_WIDTH 13  /* 0x09: DATA, or a transfer to merge, of another width than the transfer's */
#define SARATOGA_REFUSED_PAST_END 14     /* 0x09: offset plus payload length above the transfer's length */
#define SARATOGA_REFUSED_EARLY_END 15    /* 0x01: end of data set, and offset plus payload length not that length */
#define SARATOGA_REFUSED_RUNS 16         /* 0x03: more than 64 runs would be received */
#define SARATOGA_REFUSED_TABLE_FULL 17   /* 0x03: a new Id, and 16 are open */
#define SARATOGA_REFUSED_OPEN_OTHER 18   /* 0x09: Id open with another width or length; to be merged, another length */
#define SARATOGA_REFUSED_INDEX 19        /* 0x00: no hole has that index, or that many can't be skipped */
#define SARATOGA_REFUSED_BUFFER 20       /* 0x00: buffer, marks, state or area to be made fresh too small, or too few records */
#define SARATOGA_REFUSED_FIELD 21        /* 0x00: a field over its bits, failure code 0, or a largest payload not 1 to 65,000 */
#define SARATOGA_REFUSED_AREA 22         /* 0x00: area too short, or it holds no transfer table; or marks of no transfer */
#define SARATOGA_REFUSED_CRC32C 23       /* 0x01: a new transfer with checksum type 1, a CRC-32c */
#define SARATOGA_REFUSED_SETTINGS_VERSION 24 /* 0x00: version of a plant's settings not known */
#define SARATOGA_REFUSED_SETTINGS 25     /* 0x00: settings file not as R18.6 says, or settings that no file holds */
#define SARATOGA_REFUSED_BEACON 26       /* 0x00: BEACON with a pair 01, or a last flags octet that isn't 0 */

/* A refusal in plain words; 0 is "accepted". Any number has a text. */
static inline const char *saratoga_refusal_text(uint64_t number)
{
    static const char *const texts[] = {
        "accepted",
        "packet or settings file cut short",
        "packet longer than 65,535 octets",
        "not this version of the protocol",
        "packet type not taken here",
        "upper eight octets of a 128-bit descriptor are not zero",
        "not a plain file",
        "checksum type and length do not go together",
        "path empty, too long, or followed by octets",
        "size above what the descriptor width, or the marks, can hold",
        "DATA without a payload",
        "hole list not allowed, or a failure STATUS, which has none",
        "Id not open",
        "descriptor width is not the transfer's",
        "octets past the end of the file",
        "end of data is not the end of the file",
        "more than 64 runs of octets received",
        "16 transfers are open already",
        "Id open with another width or length",
        "no hole has that index",
        "buffer or area too small",
        "field too large to be written, failure code 0, or largest payload not 1 to 65,000",
        "area holds no transfer table, or marks no transfer",
        "new transfer with a CRC-32c (checksum type 1), which is not taken any more",
        "version of settings not known",
        "settings not allowed",
        "flags of BEACON not allowed",
    };
    return number < sizeof texts / sizeof texts[0] ? texts[number] : "unknown refusal";
}

/* A status code in plain words; 0 is "no error". Any number has a text. */
static inline const char *saratoga_code_text(uint64_t code)
{
    static const char *const texts[] = {
        "no error",
        "unspecified error",
        "sender lacks resources",
        "receiver lacks resources",
        "file not found",
        "access denied",
        "unknown Id",
        "file not deleted",
        "file too long for the receiver",
        "descriptors do not match the transfer",
        "unsupported packet type",
        "unsupported request type",
        "request timed out",
        "flags of DATA have changed",
        "receiver no longer wants the file",
        "file in use",
        "METADATA required first",
        "unexpected error STATUS",
    };
    return code < sizeof texts / sizeof texts[0] ? texts[code] : "unknown status code";
}

/* The big-endian number in `count` octets; of more than eight, only the last eight count. */
static inline uint64_t saratoga_number_of(const uint8_t *octets, uint64_t count)
{
    uint64_t number = 0, i;
    for (i = 0; i < count; i++)
        number = number << 8 | octets[i];
    return number;
}

/*
 * Whether a packet that was refused with this `code` is answered with a failure STATUS (R13.1): 1, with the Id to write in `id`;
 * else 0, and `id` stays. The code must not be 0, and the packet needs 8 octets and a type other than BEACON, which has no Id.
 *
 *     if (saratoga_failure_id(packet, packet_len, refused.code, &id))
 *         written = saratoga_write_failure(id, refused.code, out, sizeof out);
 */
static inline int saratoga_failure_id(const uint8_t *packet, size_t packet_len, uint64_t code, uint64_t *id)
{
    if (code == 0 || packet_len < 8 || (packet[0] & 0x3F) == SARATOGA_TYPE_BEACON)
        return 0;
    *id = saratoga_number_of(packet + 4, 4);
    return 1;
}

/* A written packet, or a written settings file: `size` octets from the start of `out`. */
struct saratoga_written {
    uint64_t number, code;
    uint64_t size;
};

/* A hole: the offsets from `start` up to, not including, `end`. */
struct saratoga_hole {
    uint64_t number, code;
    uint64_t start, end;
};

/*
 * A packet that was read. Places (`..._at`) count octets from the packet's start. A field that the packet's type
 * lacks is 0. A failure STATUS has only `type`, `flags`, `id` and `status`. Look at `number` before `type`: `type` is 0 both for a
 * BEACON and in a refusal.
 */
struct saratoga_packet {
    uint64_t number, code;
    uint64_t type;  /* one of SARATOGA_TYPE_... */
    uint64_t flags; /* bits 8 to 31, as a 24-bit number, all as read */
    uint64_t id;    /* 0 for a BEACON, which has none */
    uint64_t width; /* octets of the packet's own descriptors: 2, 4, 8 or 16; 0 for a failure STATUS and a BEACON */

    /* DATA and success STATUS */
    uint64_t timestamp_at, timestamp_len; /* place 8; length 16 where bit 12 is set, else 0 */

    /* METADATA */
    uint64_t checksum_at, checksum_len; /* place 8; length 0 where there is no checksum */
    uint64_t properties;                /* 16 bits, of which bit 0 is the highest */
    uint64_t size;                      /* length of the file in octets */
    uint64_t mtime, ctime;              /* seconds since the start of 2000 */
    uint64_t path_at, path_len;         /* without the closing zero octet */

    /* DATA */
    uint64_t offset;                  /* where in the file the payload belongs */
    uint64_t payload_at, payload_len; /* at least 1 octet, to the packet's end */

    /* STATUS */
    uint64_t status;                   /* bits 24 to 31: 0 for a success STATUS, else the failure code */
    uint64_t progress;                 /* the lowest offset not received */
    uint64_t in_response_to;           /* one more than the highest received; once complete, the last offset */
    uint64_t holes_at, hole_count;     /* right after In-Response-To, even where there are none */

    /* BEACON */
    uint64_t largest_width;             /* octets of the widest descriptors that the node supports: 2, 4, 8 or 16 */
    uint64_t bundles, streams;          /* 1 where the node supports them, else 0 */
    uint64_t send, receive;             /* each SARATOGA_CANNOT, SARATOGA_NOT_NOW or SARATOGA_WILLING */
    uint64_t free_width;                /* octets of the free space: 2, 4, 8 or 16; 0 where none is given */
    uint64_t free_space;                /* in KiB (1,024 octets), rounded down; the width's largest number: more than that */
    uint64_t endpoint_at, endpoint_len; /* who it is: any octets, to the packet's end; may be none */
};

/*
 * Reads a packet: BEACON; or METADATA, DATA or STATUS, of a file, with descriptors of 16, 32, 64 or 128 bits.
 *
 * Numbers are below 2^64: a descriptor of 128 bits is refused with 5 where one of its upper eight octets is not zero (R3.9).
 * BEACON: four octets are a whole one, with flags only. Where bit 17 is clear there is no free space, and
 * bits 18 and 19 may have any value.
 * METADATA: the checksum pairs that are taken are in R2.7. The path is 1 to 1,023 octets; one zero octet
 * after it ends the packet. The size may have another width than the packet's own, but must fit the packet's too. No other
 * field has the packet's width.
 * STATUS with a code that isn't 0 (failure): what follows the Id is ignored.
 * STATUS with code 0 (success): R3.6 and R3.7 say which hole lists are taken. In-Response-To one less than Progress is what
 * saratoga_write_status writes for a complete file that has octets, but other receivers also write it while a file goes on: it is
 * complete where Progress equals its length. In a STATUS that saratoga_write_status wrote, the edge is the greater of
 * Progress and In-Response-To.
 *
 * Order of refusals (R3.1 to R3.9): 2, 1 (first 8 octets; first 4 where the first octet is 0x40, a BEACON's), 3, 4; a failure
 * STATUS is then accepted; then
 * BEACON:   26, and where bit 17 is set 1, 5 (free space).
 * METADATA: 6 (kind), 7, 1 (checksum, properties), 6 (property bits 6, 7, 10), 1, 5 (size), 1 (times), 1 or 8 (path), 9.
 * DATA:     6, 1 (timestamp), 1, 5 (offset), 10.
 * STATUS:   1 (timestamp), 1, 5 (Progress), 1, 5 (In-Response-To), 5 (hole list), 11.
 */
struct saratoga_packet saratoga_read(const uint8_t *packet, size_t packet_len);

/*
 * Reads hole `index`, counted from 0, of a success STATUS. Each call judges the whole packet as saratoga_read does. To
 * go through a long list once, call saratoga_read, and then saratoga_hole_at for each hole.
 *
 * Order of refusals (R3.12): those of saratoga_read, with 4 for any type except STATUS; 11 (a failure STATUS), 19 (`index`
 * is not below the number of holes).
 */
struct saratoga_hole saratoga_read_hole(const uint8_t *packet, size_t packet_len, uint64_t index);

/*
 * Hole `index`, counted from 0, of a packet that was read: `read` is what saratoga_read answered for `packet`. Nothing is judged
 * again. For a success STATUS it is what saratoga_read_hole answers.
 *
 * Refusal: 19 (`index` is not below `hole_count`, which is 0 for every other packet and in a refusal).
 */
static inline struct saratoga_hole saratoga_hole_at(const uint8_t *packet, const struct saratoga_packet *read, uint64_t index)
{
    struct saratoga_hole hole = {SARATOGA_REFUSED_INDEX, SARATOGA_CODE_SUCCESS, 0, 0};
    if (index < read->hole_count) {
        const uint8_t *at = packet + read->holes_at + 2 * read->width * index;
        hole.number = 0;
        hole.start = saratoga_number_of(at, read->width);
        hole.end = saratoga_number_of(at + read->width, read->width);
    }
    return hole;
}

/* Octets to send again: `length` of them from `offset` on. */
struct saratoga_piece {
    uint64_t offset, length;
};

/* A plan of `count` pieces. */
struct saratoga_planned {
    uint64_t number, code;
    uint64_t count;
};

/* `passes` is 1 or 0. */
struct saratoga_checked {
    uint64_t number, code;
    uint64_t passes;
};

/*
 * Plans what to send again after a success STATUS: the pieces that fill its holes, none longer than `largest`, in the first
 * `count` records of `pieces`; later records stay as they are. Each hole is cut from its low end into pieces of `largest` octets,
 * the last of which may be shorter. A STATUS without holes has a plan without pieces. Where the hole list is not complete
 * (bit 14), the plan is for the holes that are listed.
 *
 * One round of it with no loss leaves no hole (R17.1 to R17.6): where the transfer had at most 63 runs, the STATUS lists every hole,
 * and the pieces are recorded as DATA in this order, without end of data or timestamp and with nothing else between.
 *
 * Order of refusals (R11.3): those of saratoga_read, with 4 for any type except STATUS; 11 (a failure STATUS), 21 (`largest` is
 * not 1 to 65,000), 20 (the plan has more than `piece_count` pieces).
 */
struct saratoga_planned saratoga_plan(const uint8_t *status, size_t status_len, uint64_t largest,
                                      struct saratoga_piece *pieces, size_t piece_count);

/* How many records saratoga_plan needs. It refuses the same, except 20. */
struct saratoga_planned saratoga_plan_count(const uint8_t *status, size_t status_len, uint64_t largest);

/*
 * Checks any list of pieces. It passes exactly when each offset is above the one before, each length is 1 to `largest`, each piece
 * lies inside a single hole that the STATUS lists, no octet is in two pieces, and every octet of every listed hole is in a
 * piece (R11.4). `piece_count` is the length of the list itself: a record past the plan is one piece too many.
 *
 * Order of refusals (R11.5): as for saratoga_plan_count. A list that does not pass is not refused.
 */
struct saratoga_checked saratoga_check_plan(const uint8_t *status, size_t status_len, uint64_t largest,
                                            const struct saratoga_piece *pieces, size_t piece_count);

/*
 * Writes BEACON into `out`; octets after the packet stay. `flags` is bits 8 to 31 as a 24-bit number, made from the
 * masks for BEACON above; the type is set here. `free_space` is in KiB: a program divides its free octets by 1,024, drops
 * the remainder, and gives the width's largest number where there is more. Where bit 17 is clear it must be 0. `endpoint` may
 * hold any octets, or none. The packet has 4 octets, those of the free space and those of the endpoint.
 *
 * Order of refusals (R4.6): 21 (flags over 24 bits, free space over its width, free space not 0 where bit 17 is clear), 26, 2, 20.
 * In 128 bits every number fits, for this writer and for those below: the upper eight octets are then zero.
 */
struct saratoga_written saratoga_write_beacon(uint64_t flags, uint64_t free_space, const uint8_t *endpoint,
                                              size_t endpoint_len, uint8_t *out, size_t out_len);

/*
 * Writes METADATA into `out`; octets after the packet stay. `flags` is bits 8 to 31 as a 24-bit number: the caller
 * sets width, kind 00 and the checksum pair in it; the type is set here. `checksum_len` must be four times the words
 * that bits 24 to 27 give. `properties` has 16 bits; its bits 8 and 9 give the width in which `size` is written.
 * `path` comes without a closing zero octet and may hold none; the zero octet is added here. The packet has at most
 * 1,118 octets.
 *
 * Order of refusals (R4.4): 21 (flags over 24 bits, id, mtime or ctime over 32, properties over 16, size over its own
 * width, checksum longer than the flags say), 6 (kind), 7, 1 (checksum shorter than the flags say), 6 (property bits),
 * 8 (path with no octet, over 1,023, or with a zero octet in it), 9, 20. (2 does not arise: no METADATA gets that long.)
 */
struct saratoga_written saratoga_write_metadata(uint64_t flags, uint64_t id, const uint8_t *checksum,
                                                size_t checksum_len, uint64_t properties, uint64_t size,
                                                uint64_t mtime, uint64_t ctime, const uint8_t *path, size_t path_len,
                                                uint8_t *out, size_t out_len);

/*
 * Writes DATA into `out`; octets after the packet stay. `flags` is bits 8 to 31 as a 24-bit number: the caller sets
 * width, kind 00 and the single flags in it; the type is set here. `timestamp_len` must be 16 where bit 12 of the
 * flags is set, else 0.
 *
 * Order of refusals (R4.5): 21 (flags over 24 bits, id over 32, offset over the width, timestamp longer than the flags
 * say), 6, 1 (timestamp shorter than the flags say), 10, 2, 20.
 */
struct saratoga_written saratoga_write_data(uint64_t flags, uint64_t id, const uint8_t *timestamp,
                                            size_t timestamp_len, uint64_t offset, const uint8_t *payload,
                                            size_t payload_len, uint8_t *out, size_t out_len);

/*
 * Writes a failure STATUS of 8 octets into `out`: every flag is 0 except the code `status`, 1 to 255. Octets after it
 * stay.
 *
 * Order of refusals (R4.7): 21 (id over 32 bits, status 0 or over 255), 20.
 */
struct saratoga_written saratoga_write_failure(uint64_t id, uint64_t status, uint8_t *out, size_t out_len);

/*
 * Receiving.
 *
 * The transfer table holds what is open: at most 16 Ids, each with a descriptor width, a length, the set of offsets
 * received, and the timestamp that its STATUS carries: the 16 octets of the last accepted DATA that had one (bit 12), or
 * none before the first. A run is an unbroken stretch of received offsets, as long as it can be; a transfer holds at most 64. The edge is the
 * first offset above all that was received, 0 where nothing was. A hole is an unbroken stretch of missing offsets below the
 * edge, as long as it can be. A transfer is complete when no offset below its length is missing.
 *
 * Between calls the program keeps the table in an area of its own, of SARATOGA_AREA_OCTETS octets, as docs/AREA.md lays
 * it out. The program may copy it, save it and go on with it later; nothing else holds any state. An area may be longer:
 * octets past SARATOGA_AREA_OCTETS are never read or written. Only one call at a time may use an area, and packet, buffer
 * and area must not overlap.
 *
 * Every function except saratoga_fresh judges the area first, and refuses with 22 before anything else where it is shorter than
 * SARATOGA_AREA_OCTETS or its used words hold no table (R8.2). Unused words may hold anything: they are never looked at, and
 * stay as they are, so equal tables need not be equal areas (docs/AREA.md). A refusal leaves area and buffers untouched.
 *
 * No payload is kept. The program must write a packet's payload to disk BEFORE it records the packet if it relies on
 * `complete`: `complete` says that every octet was recorded, not that it was stored.
 */

/* Octets of an area. */
#define SARATOGA_AREA_OCTETS 17288

/* A call that answers only whether it was accepted. */
struct saratoga_done {
    uint64_t number, code;
};

/* An opened transfer. */
struct saratoga_opened {
    uint64_t number, code;
    uint64_t edge;
    uint64_t complete;     /* 1 where every octet was received, else 0 */
    uint64_t already_open; /* 1 where the Id was open with the same width and length, else 0 */
};

/*
 * A recorded packet: edge and completeness of the transfer after it; how many of the runs stored before it overlaps or touches; and
 * whether it brings an octet that was not received.
 *
 * Afterwards the transfer has one run more, less the runs absorbed. A repeat absorbs 1, the run that it lies in. Over all
 * recordings accepted since the transfer was opened, the runs absorbed are the recordings less the runs now held (R10.6).
 *
 * Where `adds` is 0 in an accepted answer, every octet of the packet came before, in one packet or in several: the set of received
 * octets stays as it is, and so does every octet of the area except the timestamp, which a packet that has one renews. The payload need not be written to disk again.
 */
struct saratoga_recorded {
    uint64_t number, code;
    uint64_t edge;
    uint64_t complete; /* 1 where every octet was received, else 0 */
    uint64_t absorbed; /* at most 64 */
    uint64_t adds;     /* 1 where the packet brings an octet that was not received, else 0 */
};

/* An open transfer. `received` equals `length` exactly when it is complete: an octet that came twice counts once. */
struct saratoga_listed {
    uint64_t number, code;
    uint64_t id;
    uint64_t width;    /* octets of a descriptor: 2, 4, 8 or 16 */
    uint64_t length;   /* of the file, in octets */
    uint64_t edge;
    uint64_t complete; /* 1 where every octet was received, else 0 */
    uint64_t runs;     /* how many, at most 64 */
    uint64_t received; /* how many octets of the file were received */
    uint64_t stamped;  /* 1 where a timestamp is kept, which its STATUS carries, else 0 */
};

/* A merged transfer: edge and completeness of the first area's transfer afterwards. */
struct saratoga_merged {
    uint64_t number, code;
    uint64_t edge;
    uint64_t complete; /* 1 where every octet was received by either, else 0 */
};

/*
 * Makes the area hold a table with nothing open, whatever it held before: SARATOGA_AREA_OCTETS octets are written.
 *
 * Refusal (R8.4): 20 (area shorter than SARATOGA_AREA_OCTETS), and no other.
 */
struct saratoga_done saratoga_fresh(uint8_t *area, size_t area_len);

/*
 * Opens the transfer of a METADATA packet: its Id, with the packet's own descriptor width and the size as the length,
 * nothing received and no timestamp. An empty file is complete from then on. Where the Id is open with the same width and length, nothing
 * changes: `already_open` is 1, and edge and completeness are those of the transfer as it is. Path, times and
 * checksum are not kept and not compared.
 *
 * Order of refusals (R6.4): 22, those of saratoga_read for METADATA, with 4 for any other type, 18, 23 (a new Id with checksum
 * type 1), 17. Where the Id is open its checksum type does not matter.
 */
struct saratoga_opened saratoga_open(uint8_t *area, size_t area_len, const uint8_t *packet, size_t packet_len);

/*
 * Records a DATA packet: adds the offsets of its payload to those received. A repeat is accepted, and has
 * `adds` 0. Where the packet has a timestamp (bit 12), the transfer keeps it from now on, whatever it kept before; a repeat
 * renews it too, and 16 zero octets are one as well. Write the payload to disk first (see above).
 *
 * Order of refusals (R6.6): 22, those of saratoga_read for DATA, with 4 for any other type, 12, 13 (64 and 128 bits are
 * two widths), 14, 15, 16.
 */
struct saratoga_recorded saratoga_record(uint8_t *area, size_t area_len, const uint8_t *packet, size_t packet_len);

/*
 * Answers what saratoga_record would answer, and records nothing: the area is only read. So a program can learn whether a packet
 * is accepted, and whether it adds anything, before it writes the payload to disk.
 *
 * Order of refusals (R6.9): as for saratoga_record.
 */
struct saratoga_recorded saratoga_try_record(const uint8_t *area, size_t area_len, const uint8_t *packet,
                                             size_t packet_len);

/*
 * Merges what a second receiver got of a transfer into the first's: afterwards the first area holds exactly the offsets
 * received by either (R15.1 to R15.4). Its Id, width, length and timestamp stay as they are, and so do its other
 * transfers; where it kept no timestamp, it keeps none. The second area is only read. The two areas must not overlap. Edge,
 * holes and completeness are from then on those of the joined set, and the first goes on as before: it may record more, or
 * be merged with a third.
 *
 * The library sees widths and lengths, no payload and no path. Make sure that both transfers are of one file, and have the
 * octets that the first lacks on its disk BEFORE they are merged, as with saratoga_record; saratoga-merge does so with the
 * directories of two plants (docs/LINK.md).
 *
 * Order of refusals (R15.2): 22 (the first area), 22 (the second), 12 (the Id is not open in both; also for any id over 32
 * bits), 13 (the widths differ), 18 (the lengths differ), 16 (the joined set has more than 64 runs, however many each has).
 */
struct saratoga_merged saratoga_merge(uint8_t *first, size_t first_len, const uint8_t *second, size_t second_len,
                                      uint64_t id);

/*
 * Closes a transfer: its Id is no longer open, and what was received is forgotten, the timestamp too. Its place can be
 * used again.
 *
 * Order of refusals (R6.10): 22, 12 (also for any id over 32 bits).
 */
struct saratoga_done saratoga_close(uint8_t *area, size_t area_len, uint64_t id);

/*
 * Writes a success STATUS of an open transfer into `out`; octets after it stay. The area is only read. Progress is the
 * lowest offset not received, In-Response-To the edge or, where the transfer is complete, its length less one (0 where the
 * length is 0). The first `skip` holes are left out, then as many are written as `out` has room for, lowest first. Bit 14
 * is set where a hole is left out, bit 15 where `unasked` is not 0 or the transfer is complete. Where the transfer keeps a
 * timestamp, bit 12 is set and its 16 octets follow the Id. A STATUS of h holes has 8 + 2 d + 2 d h octets, and 16 more with
 * a timestamp, where d is 2, 4, 8 or 16, the octets of a descriptor. So SARATOGA_STATUS_OCTETS are always enough.
 *
 * Set `unasked` to 0 where the STATUS answers DATA that asked for it (SARATOGA_FLAG_STATUS_WANTED), and to 1 where nobody
 * asked: after METADATA, by a timer, or on completion.
 *
 * Order of refusals (R7.1): 22, 12 (also for any id over 32 bits), 19 (`skip` is neither 0 nor below the number of holes),
 * 20 (no room for the fields before the holes, the timestamp included, or, where there are holes, for one of them).
 */
struct saratoga_written saratoga_write_status(const uint8_t *area, size_t area_len, uint64_t id, uint64_t skip,
                                              uint64_t unasked, uint8_t *out, size_t out_len);

/*
 * Lists the open transfers, for a program that resumes with a saved area: gives transfer `index`, counted from 0, in rising
 * order of Id. The area is only read. 12 ends the listing: a program counts up from 0 until it gets 12.
 *
 * Order of refusals (R6.11): 22, 12 (`index` is not below the number open).
 */
struct saratoga_listed saratoga_transfer(const uint8_t *area, size_t area_len, uint64_t index);

/*
 * Finds one open transfer by its Id, and gives what saratoga_transfer lists for it. The area is only read.
 *
 * Order of refusals (R6.11): 22, 12 (also for any id over 32 bits).
 */
struct saratoga_listed saratoga_find(const uint8_t *area, size_t area_len, uint64_t id);

/*
 * Gives hole `index` of an open transfer, counted from 0, the lowest first. Holes end at the edge: what lies between the edge
 * and the length is no hole. The area is only read. 19 ends the holes: a program counts up from 0 until it gets 19.
 *
 * Order of refusals (R6.12): 22, 12 (also for any id over 32 bits), 19 (`index` is not below the number of holes).
 */
struct saratoga_hole saratoga_transfer_hole(const uint8_t *area, size_t area_len, uint64_t id, uint64_t index);

/*
 * Receiving one transfer by marks.
 *
 * A second receiver, made to be followed by eye: one transfer of at most SARATOGA_BITMAP_LONGEST octets, with one mark for
 * each. Mark n is bit n of an area of SARATOGA_BITMAP_OCTETS octets, `marks[n / 8] & 0x80 >> n % 8`, and is set once
 * octet n was received (docs/AREA.md). The Id, the width, the length and the timestamp are in a struct that is passed by value:
 * opening hands it out, the program passes it to each call with the same marks, and an accepted recording hands it back, with
 * the packet's timestamp where it has one. A refusal hands back zeros,
 * so a program keeps the struct it has:
 *
 *     if (recorded.number == 0)
 *         transfer = recorded.transfer;
 *
 * Nothing else holds any state. The area may be longer: octets past SARATOGA_BITMAP_OCTETS are never read or written.
 *
 * It answers what the transfer table answers, for every packet of its transfer, and writes the same STATUS.
 *
 * Every function refuses with 20 before anything else where the area is shorter than SARATOGA_BITMAP_OCTETS. Recording and STATUS
 * then judge marks and struct, and refuse with 22 where the width is not 2, 4, 8 or 16, the length is above what the width
 * or the marks can hold, a mark at or above the length is set, or the marks have more than 64 runs (R12.4). Any timestamp is taken.
 */

/* Octets of the marks, and of the longest transfer. */
#define SARATOGA_BITMAP_OCTETS 8192
#define SARATOGA_BITMAP_LONGEST 65535

/* The transfer that marks belong to. What is handed back has `stamped` 0 or 1, and zero halves where no timestamp is kept. */
struct saratoga_bitmap {
    uint64_t id;
    uint64_t width;      /* octets of a descriptor: 2, 4, 8 or 16 */
    uint64_t length;     /* of the file, in octets */
    uint64_t stamped;    /* whether a timestamp is kept: no for 0, yes for any other number */
    uint64_t stamp_high; /* its first eight octets as a number, the highest first; not looked at where none is kept */
    uint64_t stamp_low;  /* its last eight, the same way */
};

/* An opened transfer. */
struct saratoga_bitmap_opened {
    uint64_t number, code;
    uint64_t edge;                   /* 0: nothing was received */
    uint64_t complete;               /* 1 where the length is 0, else 0 */
    struct saratoga_bitmap transfer; /* its fields are 0 on refusal */
};

/* A recorded packet, as in struct saratoga_recorded. */
struct saratoga_bitmap_recorded {
    uint64_t number, code;
    uint64_t edge;
    uint64_t complete;               /* 1 where every octet was received, else 0 */
    uint64_t absorbed;               /* at most 64 */
    uint64_t adds;                   /* 1 where the packet brings an octet that was not received, else 0 */
    struct saratoga_bitmap transfer; /* to be passed to the next call; its fields are 0 on refusal */
};

/*
 * Opens the transfer of a METADATA packet, and clears every mark, whatever was marked before; no timestamp is kept. Senders repeat METADATA, and
 * a repeat clears the marks too: compare its Id, width and size with the transfer at hand first.
 *
 * Order of refusals (R12.3): 20, those of saratoga_read for METADATA, with 4 for any other type, 9 (size above
 * SARATOGA_BITMAP_LONGEST), 23 (checksum type 1).
 */
struct saratoga_bitmap_opened saratoga_bitmap_open(uint8_t *marks, size_t marks_len, const uint8_t *packet,
                                                   size_t packet_len);

/*
 * Records a DATA packet: sets the marks of its payload's offsets. A repeat is accepted, and has `adds` 0. The struct
 * that is handed back keeps the packet's timestamp where it has one, else that of the struct that was passed. Write the
 * payload to disk first (see above).
 *
 * Order of refusals (R12.5): 20, 22, those of saratoga_read for DATA, with 4 for any other type, 12 (another Id), 13, 14,
 * 15, 16.
 */
struct saratoga_bitmap_recorded saratoga_bitmap_record(struct saratoga_bitmap transfer, uint8_t *marks, size_t marks_len,
                                                       const uint8_t *packet, size_t packet_len);

/*
 * Writes a success STATUS of the transfer into `out`, as saratoga_write_status does; octets after it stay. The marks are
 * only read.
 *
 * Order of refusals (R12.6): 20 (marks), 22, 12 (an Id over 32 bits), 19, 20 (`out`).
 */
struct saratoga_written saratoga_bitmap_status(struct saratoga_bitmap transfer, const uint8_t *marks, size_t marks_len,
                                               uint64_t skip, uint64_t unasked, uint8_t *out, size_t out_len);

/*
 * ---- MD5 (RFC 1321), and whether a file is the one that its METADATA's checksum is of
 *
 * A file is added in parts, as it is read from disk. Where it is cut does not matter, and empty parts do not either:
 * the digest is that of the whole file, of one without octets too.
 *
 * A state is SARATOGA_MD5_OCTETS octets that the caller lends to each call; between calls it may be copied, or kept on
 * disk. It holds four words, each with its lowest octet first, the number of octets so far, modulo 2^64, as eight
 * octets with the highest first, and the octets that are not a whole block of 64 yet, with zeros after them. Any octets
 * are taken for a state. Octets past it are not touched.
 */
#define SARATOGA_MD5_OCTETS 88
#define SARATOGA_DIGEST_OCTETS 16

/* `verdict` in struct saratoga_verdict. */
#define SARATOGA_NOT_CHECKED 0 /* the checksum is no MD5 */
#define SARATOGA_AGREES 1      /* the digest is the checksum's 16 octets */
#define SARATOGA_DIFFERS 2     /* the digest is something else */

/* The verdict on a METADATA packet. */
struct saratoga_verdict {
    uint64_t number, code;
    uint64_t verdict; /* SARATOGA_NOT_CHECKED on refusal too */
};

/*
 * Stores the state of a file of which nothing was added yet.
 *
 * Refused (R16.10): 20 (`state` has fewer than SARATOGA_MD5_OCTETS octets).
 */
struct saratoga_done saratoga_md5_begin(uint8_t *state, size_t state_len);

/*
 * Adds a part of any length, after those that were added before.
 *
 * Refused (R16.10): 20 (`state`).
 */
struct saratoga_done saratoga_md5_add(uint8_t *state, size_t state_len, const uint8_t *part, size_t part_len);

/*
 * Writes the digest of all that was added, SARATOGA_DIGEST_OCTETS octets, into `digest`; octets after it stay. The state
 * is only read: more can be added afterwards.
 *
 * Order of refusals (R16.10): 20 (`state`), 20 (`digest`).
 */
struct saratoga_written saratoga_md5_end(const uint8_t *state, size_t state_len, uint8_t *digest, size_t digest_len);

/*
 * Whether what was added to the state is the file that a METADATA packet's checksum is of. Checksums of other types than MD5
 * are not checked. It knows nothing of a transfer: add the file only once it is complete.
 *
 * Order of refusals (R16.13): 20 (`state`), those of saratoga_read for METADATA, with 4 for any other type.
 */
struct saratoga_verdict saratoga_check_md5(const uint8_t *packet, size_t packet_len, const uint8_t *state, size_t state_len);

/*
 * ---- A plant's settings
 *
 * Each plant has a settings file of at most SARATOGA_SETTINGS_OCTETS octets: a version, a count, and so many pairs of a key and a
 * value, the keys rising. Every number has its shortest form in groups of seven bits, the lowest group first (R18.1, R18.4).
 *
 *     key 1   largest payload, 1 to 65,000                            versions 1 and 2; always there
 *     key 2   seconds between STATUS that nobody asked for, 1 to 3,600    versions 1 and 2
 *     key 3   Id of the partner dish, 32 bits                         version 2
 */

/* Octets of the longest settings file, and the highest version that there is. */
#define SARATOGA_SETTINGS_OCTETS 15
#define SARATOGA_SETTINGS_VERSION 2

/* A plant's settings, read from its file. What the file leaves out is 0. */
struct saratoga_settings {
    uint64_t number, code;
    uint64_t version;         /* 1 or 2 */
    uint64_t largest_payload; /* 1 to 65,000 */
    uint64_t has_interval;    /* 1 where the file has an interval, else 0 */
    uint64_t interval;        /* seconds between STATUS that nobody asked for, 1 to 3,600 */
    uint64_t has_partner;     /* 1 where the file has a partner, else 0 */
    uint64_t partner;         /* Id of the partner dish, 32 bits; 0 is an Id too */
};

/*
 * Reads a plant's settings file. `known` is the highest version that the program knows: 1 for one that was made for version 1,
 * SARATOGA_SETTINGS_VERSION for a new one. Both read a file of version 1 alike.
 *
 * Order of refusals (R18.6): of the version 1 (the file ends in it), 25 (not its shortest form, or above 2^64 - 1), 24 (0, above
 * `known`, or above 2); after it what comes first from the left: 1 where the file ends too early, else 25 (a form, a key that does not
 * rise or that the version lacks, a value out of its range, octets after the last pair, no key 1).
 */
struct saratoga_settings saratoga_read_settings(const uint8_t *file, size_t file_len, uint64_t known);

/*
 * Writes a plant's settings file into `out`; octets after it stay. `has_interval` and `has_partner` are no for 0 and yes for
 * any other number; where they are no, the number that goes with them must be 0.
 *
 * Order of refusals (R18.8): 24 (version not 1 or 2), 25 (a number out of its range, a partner in version 1, a number that is not 0
 * where there is none), 20.
 */
struct saratoga_written saratoga_write_settings(uint64_t version, uint64_t largest_payload, uint64_t has_interval,
                                                uint64_t interval, uint64_t has_partner, uint64_t partner, uint8_t *out,
                                                size_t out_len);

#ifdef __cplusplus
}
#endif

#endif
