"""Packets of Saratoga and the records of a pass: the one place where the tools, their tests and the drivers lay them out.

Widths count bits. Numbers that do not fit their field raise OverflowError: who wants them cut off says so with fit(). At
width 128 a number of 2^64 and more fits, but no reader takes it.
"""
import struct

PORT = 7542
MOST_OCTETS_OF_A_PACKET = 65535

BEACON, METADATA, DATA, STATUS = 0, 2, 3, 4
WIDTHS = (16, 32, 64, 128)
WIDTH_FLAGS = {16: 0x000000, 32: 0x400000, 64: 0x800000, 128: 0xC00000}
FLAGS_WIDTH = {flags: width for width, flags in WIDTH_FLAGS.items()}
WIDTH_PROPERTIES = {16: 0x0000, 32: 0x0040, 64: 0x0080, 128: 0x00C0}
PROPERTIES_WIDTH = {properties: width for width, properties in WIDTH_PROPERTIES.items()}
# Bits 12 and 14; 15, which in DATA wants a STATUS and in a STATUS says that nobody asked; 16.
TIMESTAMP, INCOMPLETE, WANTED, END_OF_DATA = 0x080000, 0x020000, 0x010000, 0x008000
UNASKED = WANTED
# BEACON: bits 8 and 9 by the largest width; 10, 11 and 16; 12 and 13, 14 and 15 by name; 17, and with it 18 and 19 by width.
LARGEST_FLAGS = WIDTH_FLAGS
BUNDLES, STREAMS, UDP_LITE, FREE = 0x200000, 0x100000, 0x008000, 0x004000
SEND_FLAGS = {"cannot": 0x000000, "not-now": 0x080000, "willing": 0x0C0000}
RECEIVE_FLAGS = {"cannot": 0x000000, "not-now": 0x020000, "willing": 0x030000}
FREE_FLAGS = {16: 0x004000, 32: 0x005000, 64: 0x006000, 128: 0x007000}
FLAGS_FREE = {flags: width for width, flags in FREE_FLAGS.items()}


def fit(value, width):
    """What is left of a number in so many bits."""
    return value % (1 << width)


def number(value, width):
    return value.to_bytes(width // 8, "big")


def word(kind, flags):
    """The first four octets: bits 0 1, the type, the flags (bits 8 to 31)."""
    return number(0x40000000 | kind << 24 | flags, 32)


def header(kind, flags, ident):
    """The first eight octets: the word and the Id."""
    return word(kind, flags) + number(ident, 32)


def beacon(endpoint=b"", largest=64, send="cannot", receive="cannot", free=None, free_width=32, flags=0):
    """`free` counts KiB; None gives none. `flags` go without what the other fields make."""
    own = LARGEST_FLAGS[largest] | SEND_FLAGS[send] | RECEIVE_FLAGS[receive]
    if free is None:
        return word(BEACON, own | flags) + endpoint
    return word(BEACON, own | FREE_FLAGS[free_width] | flags) + number(free, free_width) + endpoint


def metadata(ident, width, length, path=b"page611.pla", flags=0, checksum=b"", mtime=0, ctime=0, properties=0,
             size_width=None, end=b"\0"):
    """The length stands in as many bits as the width, or in `size_width`. `flags` and `properties` go without widths."""
    size_width = size_width or width
    return (header(METADATA, WIDTH_FLAGS[width] | flags, ident) + checksum
            + struct.pack(">H", WIDTH_PROPERTIES[size_width] | properties) + number(length, size_width)
            + struct.pack(">II", mtime, ctime) + path + end)


def data(ident, width, offset, payload, flags=0, timestamp=b""):
    return header(DATA, WIDTH_FLAGS[width] | flags, ident) + timestamp + number(offset, width) + payload


def success(ident, width, progress, response, holes=(), flags=0, timestamp=b""):
    """A hole is a pair: its first offset, and the first after it."""
    places = [progress, response, *(place for hole in holes for place in hole)]
    return (header(STATUS, WIDTH_FLAGS[width] | flags, ident) + timestamp
            + b"".join(number(place, width) for place in places))


def failure(ident, code, flags=0, rest=b""):
    """What follows the Id of a failure STATUS is ignored."""
    return header(STATUS, flags | code, ident) + rest


# Records: one octet of kind, the length of the body in four, the body.


def record(kind, body=b""):
    return kind + struct.pack(">I", len(body)) + body


def status_record(ident, skip=0, unasked=0, room=65535):
    return record(b"S", struct.pack(">IQBI", ident, skip, unasked, room))


def close_record(ident):
    return record(b"C", struct.pack(">I", ident))


def table_record(which):
    """The table, 0 or 1, that the records after it use."""
    return record(b"T", bytes([which]))


def merge_record(ident):
    """Merges the other table's transfer into the chosen table's."""
    return record(b"M", struct.pack(">Q", ident))


def time_record(nanoseconds):
    """The time of the record after it, since the start of 1970."""
    return record(b"W", struct.pack(">Q", nanoseconds))


def time_of(kind, body):
    """The nanoseconds that a record gives the next; None where it is no time."""
    return int.from_bytes(body, "big") if kind == b"W" and len(body) == 8 else None


def split(octets):
    """The records of a pass, pairs of kind and body, and the octets of a last one that is cut short."""
    records, at = [], 0
    while at + 5 <= len(octets):
        end = at + 5 + int.from_bytes(octets[at + 1:at + 5], "big")
        if end > len(octets):
            break
        records.append((octets[at:at + 1], octets[at + 5:end]))
        at = end
    return records, octets[at:]
