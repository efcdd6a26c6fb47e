"""Capture files for the tests: frames of each link type, in classic pcap and pcapng."""
import ipaddress
import struct

from packets import PORT

ETHERNET, COOKED, COOKED2, RAW, NULL, LOOP = 1, 113, 276, 101, 0, 108


def udp(payload, source=40000, target=PORT, length=None):
    length = len(payload) + 8 if length is None else length
    return struct.pack(">HHHH", source, target, length, 0) + payload


def checksum(octets):
    total = sum(struct.unpack(f">{len(octets) // 2}H", octets))
    while total >> 16:
        total = (total & 0xFFFF) + (total >> 16)
    return ~total & 0xFFFF


def ipv4(segment, options=b"", fragment=0, protocol=17, total=None, ident=1, sender="127.0.0.1", receiver="127.0.0.1"):
    header = 20 + len(options)
    total = header + len(segment) if total is None else total
    start = struct.pack(">BBHHHBBH4s4s", 0x40 | header // 4, 0, total, ident, fragment, 64, protocol, 0,
                        ipaddress.ip_address(sender).packed, ipaddress.ip_address(receiver).packed) + options
    return start[:10] + struct.pack(">H", checksum(start)) + start[12:] + segment


def parts(octets, sizes):
    """Where each part begins, its octets, and whether more follow: of these sizes, the last as long as what is left."""
    at = 0
    for size in sizes:
        yield at, octets[at:at + size], True
        at += size
    yield at, octets[at:], False


def fragments4(segment, sizes, **named):
    """An IPv4 packet in fragments of these sizes, multiples of 8, and the rest."""
    return [ipv4(octets, fragment=at // 8 | (0x2000 if more else 0), **named) for at, octets, more in parts(segment, sizes)]


def fragments6(segment, sizes, ident=9, before=(), following=17, **named):
    """The same of IPv6; `following` is what the segment begins with."""
    return [ipv6(octets, [*before, (44, struct.pack(">BHI", 0, at | more, ident))], following, **named)
            for at, octets, more in parts(segment, sizes)]


def ipv6(segment, extensions=(), following=17, sender="::1", receiver="::1"):
    """`extensions`: pairs of the header's number and its octets, without the first, which names the next header."""
    chain = b""
    numbers = [number for number, _ in extensions] + [following]
    for (_, rest), after in zip(extensions, numbers[1:]):
        chain += bytes([after]) + rest
    ends = ipaddress.ip_address(sender).packed + ipaddress.ip_address(receiver).packed
    return struct.pack(">IHBB", 0x60000000, len(chain) + len(segment), numbers[0], 64) + ends + chain + segment


def version(packet):
    return 0x86DD if packet[0] >> 4 == 6 else 0x0800


def ethernet(packet, tags=(), padded=True):
    frame = bytes(12) + b"".join(struct.pack(">HH", tag, 42) for tag in tags)
    frame += struct.pack(">H", version(packet)) + packet
    return frame + bytes(max(0, 60 - len(frame))) if padded else frame


def cooked(packet):
    return struct.pack(">HHH8sH", 0, 772, 6, bytes(8), version(packet)) + packet


def cooked2(packet):
    return struct.pack(">HHIHBB8s", version(packet), 0, 1, 772, 0, 6, bytes(8)) + packet


def loopback(packet, order="<", family=None):
    """Behind the family, as a BSD machine writes it in its own byte order; OpenBSD's, in the network's, is ">"."""
    if family is None:
        family = 24 if packet[0] >> 4 == 6 else 2
    return struct.pack(order + "I", family) + packet


def pcap(frames, link=ETHERNET, order="<", magic=0xA1B2C3D4):
    """`frames`: octets, or a pair of octets and the length that the frame had before it was cut."""
    out = struct.pack(order + "IHHiIII", magic, 2, 4, 0, 0, 262144, link)
    for n, frame in enumerate(frames):
        octets, length = frame if isinstance(frame, tuple) else (frame, len(frame))
        out += struct.pack(order + "IIII", 1700000000 + n, 5, len(octets), length) + octets
    return out


def block(kind, body, order="<"):
    body += bytes(-len(body) % 4)
    total = len(body) + 12
    return struct.pack(order + "II", kind, total) + body + struct.pack(order + "I", total)


def section(order="<"):
    return block(0x0A0D0D0A, struct.pack(order + "IHHq", 0x1A2B3C4D, 1, 0, -1), order)


def interface(link, order="<", limit=262144, resolution=9, offset=None):
    """if_tsresol, nanoseconds where none is given; if_tsoffset where one is given; then the end of options."""
    options = struct.pack(order + "HHB3x", 9, 1, resolution)
    if offset is not None:
        options += struct.pack(order + "HHq", 14, 8, offset)
    return block(1, struct.pack(order + "HHI", link, 0, limit) + options + struct.pack(order + "HH", 0, 0), order)


def enhanced(octets, order="<", which=0, length=None, time=0):
    length = len(octets) if length is None else length
    padded = octets + bytes(-len(octets) % 4)
    comment = struct.pack(order + "HH8sHH", 1, 7, b"comment\0", 0, 0)
    start = struct.pack(order + "IIIII", which, time >> 32, time & 0xFFFFFFFF, len(octets), length)
    return block(6, start + padded + comment, order)


def simple(octets, order="<", length=None):
    return block(3, struct.pack(order + "I", len(octets) if length is None else length) + octets, order)


def pcapng(frames, link=ETHERNET, order="<"):
    return section(order) + interface(link, order) + b"".join(enhanced(frame, order) for frame in frames)
