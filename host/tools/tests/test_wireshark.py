"""The dissector of host/wireshark in tshark, field by field beside passtext, and its refusals beside the library's."""
import os
import random
import re
import subprocess
import sys
import tempfile
import unittest

import captures
import loading
from packets import (FLAGS_WIDTH, FREE_FLAGS, PORT, PROPERTIES_WIDTH, RECEIVE_FLAGS, SEND_FLAGS, WIDTHS, beacon, data, failure, metadata,
                     page_packets, split, success)

sys.path.append(os.path.join(loading.PLACE, "..", "python"))
import saratoga  # noqa: E402

passtext = loading.tool("passtext")
ROOT = os.path.join(loading.PLACE, "..", "..")
SCRIPT = os.path.join(ROOT, "host", "wireshark", "saratoga.lua")
FIELDS = ("type flags id width timestamp checksum.type checksum properties size_width size mtime ctime path wanted end_of_data offset payload "
          "payload_len status incomplete unasked progress in_response_to hole_count hole hole.start hole.end largest_width bundles streams "
          "send receive udp_lite free_width free_space endpoint refused refused.code").split()
WILLING = {"0": "cannot", "2": "not-now", "3": "willing"}


def dissected(test, packets, wrap=lambda packet: captures.ethernet(captures.ipv4(captures.udp(packet))), **named):
    """What tshark tells of each packet: a dict of the fields that are there, with the expert notes as "expert"."""
    program = loading.program(test, "tshark")
    with tempfile.TemporaryDirectory() as place:
        path = os.path.join(place, "capture")
        with open(path, "wb") as file:
            file.write(captures.pcap([wrap(packet) for packet in packets], **named))
        chosen = [argument for field in FIELDS for argument in ("-e", "saratoga." + field)]
        done = subprocess.run([program, "-X", f"lua_script:{SCRIPT}", "-r", path, "-T", "fields", "-E", "occurrence=a", "-E", "separator=/t",
                               *chosen, "-e", "_ws.expert.message", "-e", "_ws.col.Info"], capture_output=True, check=False)
    test.assertEqual(done.returncode, 0, done.stderr)
    test.assertNotIn("Lua", done.stderr.decode())
    lines = done.stdout.decode("utf-8", "replace").splitlines()
    test.assertEqual(len(lines), len(packets))
    return [{name: value for name, value in zip([*FIELDS, "expert", "info"], line.split("\t")) if value} for line in lines]


def told_by_passtext(packet):
    """The type and the fields that passtext writes of a packet; None where it writes octets alone."""
    told = passtext.friendly(packet)
    if told is None:
        return None
    fields = {}
    for word in told[1].split():
        name, equals, value = word.partition("=")
        fields[name] = value if equals else True
    return told[0], fields


def is_set(shown, name):
    return shown.get(name) in ("1", "True")


def payload_of(fields):
    if "payload" in fields:
        return bytes.fromhex(fields["payload"])
    fill, length = bytes.fromhex(fields["fill"]), int(fields["length"])
    return (fill * (length // len(fill) + 1))[:length]


class BesidePasstext(unittest.TestCase):
    """A packet that the library takes: each field of passtext's line is the dissector's."""

    def compare(self, packet, shown):
        kind, fields = told_by_passtext(packet)
        for name in ("id", "width", "offset", "progress", "mtime", "ctime"):
            if name in fields:
                self.assertEqual(shown[name], fields[name], packet.hex())
        self.assertEqual(shown.get("timestamp", ""), fields.get("timestamp", ""))
        if "flags" in fields:
            self.assertEqual(int(shown["flags"], 0), int(fields["flags"], 16))
        getattr(self, kind)(fields, shown, packet)

    def metadata(self, fields, shown, packet):
        self.assertEqual((shown["type"], shown["size"], shown["path"]), ("2", fields["length"], fields["path"]))
        kind, _, octets = fields.get("checksum", "0:").partition(":")
        self.assertEqual((shown["checksum.type"], shown.get("checksum", "")), (kind, octets))
        properties = int(shown["properties"], 0)
        if "properties" in fields:
            self.assertEqual(properties, int(fields["properties"], 16))
        self.assertEqual(int(shown["size_width"]), PROPERTIES_WIDTH[properties & 0xC0])

    def data(self, fields, shown, packet):
        self.assertEqual((shown["type"], shown["payload"]), ("3", payload_of(fields).hex()))
        self.assertEqual(int(shown["payload_len"]), len(payload_of(fields)))
        flags = int(shown["flags"], 0)
        self.assertEqual((is_set(shown, "wanted"), is_set(shown, "end_of_data")), (bool(flags & 0x10000), bool(flags & 0x8000)))
        if "flags" not in fields:
            self.assertEqual((is_set(shown, "wanted"), is_set(shown, "end_of_data")), ("wanted" in fields, "eod" in fields))

    def success(self, fields, shown, packet):
        self.assertEqual((shown["type"], int(shown["status"], 0), shown["in_response_to"]), ("4", 0, fields["in-response-to"]))
        self.assertEqual(shown.get("hole", ""), fields["holes"])
        pairs = [hole.split("-") for hole in filter(None, fields["holes"].split(","))]
        self.assertEqual([shown.get(name, "").split(",") for name in ("hole.start", "hole.end")],
                         [[pair[at] for pair in pairs] or [""] for at in (0, 1)])
        self.assertEqual(int(shown["hole_count"]), len(pairs))
        if "flags" not in fields:
            self.assertEqual((is_set(shown, "incomplete"), is_set(shown, "unasked")), ("incomplete" in fields, "unasked" in fields))

    def failure(self, fields, shown, packet):
        self.assertEqual((shown["type"], int(shown["status"], 0), shown["id"]), ("4", int(fields["status"]), fields["id"]))
        self.assertNotIn("progress", shown)

    def beacon(self, fields, shown, packet):
        self.assertEqual((shown["type"], shown["largest_width"], shown.get("endpoint", "")), ("0", fields["largest-width"], fields["endpoint"]))
        self.assertEqual((WILLING[shown["send"]], WILLING[shown["receive"]]), (fields["send"], fields["receive"]))
        self.assertEqual((shown.get("free_width"), shown.get("free_space")), (fields.get("free-width"), fields.get("free")))
        self.assertEqual([is_set(shown, name) for name in ("bundles", "streams", "udp_lite")],
                         ["bundles" in fields, "streams" in fields, "udp-lite" in fields])

    def judged(self, packets):
        """Compares all of them; gives how often each refusal came, 0 for those that are taken."""
        counts = {}
        for packet, shown in zip(packets, dissected(self, packets)):
            number = code = 0
            try:
                saratoga.read(packet)
            except saratoga.Refused as refused:
                number, code = refused.number, refused.code
            self.assertEqual(int(shown.get("refused", "0")), number, packet.hex())
            self.assertEqual(int(shown.get("refused.code", "0"), 0), code, packet.hex())
            if number:
                self.assertIn(f"Refused with {number}: {saratoga.refusal_text(number)}", shown["expert"])
                self.assertIn(f"refused with {number}: ", shown["info"])
            else:
                self.assertNotIn("expert", shown)
                self.compare(packet, shown)
            counts[number] = counts.get(number, 0) + 1
        return counts

    def test_recorded_passes(self):
        packets = page_packets()
        with open(os.path.join(ROOT, "host", "passes", "page611.pass"), "rb") as file:
            packets += [body for kind, body in split(file.read())[0] if kind in b"ODRP"]
        with open(os.path.join(ROOT, "crates", "replay", "stdin"), "rb") as file:
            packets += [body for kind, body in split(file.read())[0] if kind in b"ODRP" and 0 < len(body) <= 65507]
        self.assertGreater(self.judged(packets)[0], 30)

    def test_at_the_edges(self):
        """Hole lists at each side of what is allowed, in each width."""
        lists = [(5, 9, [], 0), (5, 5, [], 0), (5, 4, [], 0x10000), (5, 4, [], 0), (5, 4, [], 0x30000), (5, 3, [], 0x10000), (0, 0, [], 0),
                 (0, 2**16 - 1, [], 0x10000), (5, 9, [(5, 9)], 0), (5, 9, [(5, 10)], 0), (5, 9, [(6, 9)], 0), (5, 9, [(6, 9)], 0x20000),
                 (5, 9, [(4, 9)], 0x20000), (5, 9, [(5, 5)], 0), (5, 9, [(5, 6), (6, 7)], 0), (5, 9, [(5, 6), (7, 8)], 0),
                 (5, 9, [(5, 6), (7, 8), (7, 9)], 0), (9, 5, [(5, 6)], 0), (5, 9, [], 0x20000), (9, 5, [], 0x20000)]
        packets = [success(7, width, first, last, holes, flags) for width in WIDTHS for first, last, holes, flags in lists]
        packets += [packet[:-cut] for packet in packets for cut in (1, 2, 4) if len(packet) > 24]
        counts = self.judged(packets)
        self.assertEqual(set(counts), {0, 1, 11})

    def test_generated_ones(self):
        chance = random.Random(33)
        packets = [packet for _ in range(1500) for packet in generated(chance)]
        counts = self.judged([packet for packet in packets if 0 < len(packet) <= 65507])
        self.assertEqual(set(counts), {0, 1, 3, 4, 5, 6, 7, 8, 9, 10, 11, 26})
        self.assertGreater(counts[0], 1000)
        self.assertGreater(min(counts.values()), 10)


def place(chance, width):
    """A number that a descriptor holds, small or at its end; at width 128 now and then one that no reader takes."""
    top = 2**min(width, 64)
    if width == 128 and chance.random() < 0.05:
        return chance.randrange(2**64, 2**128)
    return chance.choice((0, 1, chance.randrange(1000), chance.randrange(top), top - 1))


def hole_list(chance, width):
    """Progress, In-Response-To, holes and flags: mostly those that are allowed."""
    top = 2**min(width, 64) - 1
    places = sorted({chance.randrange(min(top, 2**chance.choice((6, 15, 64)))) for _ in range(2 * chance.randrange(5))})
    holes = list(zip(places[::2], places[1::2]))
    first = holes[0][0] if holes else chance.randrange(min(top, 5000))
    last = chance.choice((holes[-1][1], min(holes[-1][1] + 7, top))) if holes else first
    flags = chance.choice((0, 0, 0, 0x20000, 0x10000, 0x30000, 0x40000))
    if chance.random() < 0.2:
        first = max(0, first - 1) if chance.random() < 0.5 else min(first + 1, top)
    if chance.random() < 0.1:
        last = max(0, first - 1)
    if chance.random() < 0.1 and len(holes) > 1:
        holes[1] = holes[0][1], holes[1][1]  # it begins where the one before ends
    return first, last, holes, flags


def generated(chance):
    """A packet of any type, and one that is spoilt."""
    width, ident = chance.choice(WIDTHS), chance.getrandbits(32)
    stamp = chance.random() < 0.3
    timestamp, flags = (chance.randbytes(16), 0x80000) if stamp else (b"", 0)
    kind = chance.randrange(5)
    if kind == 0:
        words = chance.choice((0, 0, 1, 4, 5, chance.randrange(16)))
        pair = words << 4 | chance.choice((0, {1: 1, 4: 2, 5: 3}.get(words, 9), chance.randrange(16)))
        size_width = chance.choice(WIDTHS)
        path = bytes(chance.choice((*b"page/611.pla #%\\,", chance.randrange(256))) or 1 for _ in range(chance.choice((0, 5, 30, 1023, 1024))))
        packet = metadata(ident, width, place(chance, size_width), path, pair, chance.randbytes(4 * words), chance.getrandbits(32),
                          chance.getrandbits(32), chance.choice((0, 0, 0, chance.getrandbits(16) & 0xFF3F)), size_width)
    elif kind == 1:
        flags |= chance.choice((0, 0x10000, 0x8000, 0x18000, 0x100000))
        packet = data(ident, width, place(chance, width), chance.randbytes(chance.choice((0, 1, 20, 900))), flags, timestamp)
    elif kind == 2:
        first, last, holes, more = hole_list(chance, width)
        packet = success(ident, width, first, last, holes, flags | more, timestamp)
    elif kind == 3:
        packet = failure(ident, chance.randrange(1, 256), chance.choice((0, 0, 0x20000)), chance.randbytes(chance.randrange(3)))
    else:
        free_width = chance.choice(WIDTHS)
        packet = beacon(chance.randbytes(chance.randrange(9)), width, chance.choice(list(SEND_FLAGS)), chance.choice(list(RECEIVE_FLAGS)),
                        chance.choice((None, place(chance, free_width))), free_width,
                        chance.choice((0, 0, 0x200000, 0x100000, 0x8000, 0x800, 1, 0x040000)))
    yield packet
    spoilt = bytearray(packet)
    for _ in range(chance.randrange(1, 3)):
        at = chance.choice((0, 1, 2, 3, chance.randrange(len(spoilt)))) if len(spoilt) > 3 else 0
        spoilt[at] ^= 1 << chance.randrange(8)
    yield bytes(spoilt[:chance.choice((len(spoilt), len(spoilt), chance.randrange(len(spoilt) + 1)))])


class AroundIt(unittest.TestCase):
    def test_fragments_and_both_families(self):
        """A STATUS that has many holes comes in fragments; it is read whole."""
        status = success(7, 128, 0, 2000, [(20 * at, 20 * at + 9) for at in range(64)])
        for make in (captures.fragments4, captures.fragments6):
            first, second = make(captures.udp(status), [1448])
            shown = dissected(self, [first, second], lambda frame: captures.ethernet(frame, padded=False))[1]
            self.assertEqual((shown["hole_count"], shown["hole"].count("-")), ("64", 64))

    def test_cut_by_the_capture_is_not_judged(self):
        packet = data(7, 16, 1000, bytes(500))
        frame = captures.ethernet(captures.ipv4(captures.udp(packet)))
        for cut in (52, 50, 46):
            shown = dissected(self, [packet], lambda _: (frame[:cut], len(frame)))[0]
            self.assertNotIn("refused", shown, cut)
        self.assertIn("Cut by the capture", dissected(self, [packet], lambda _: (frame[:50], len(frame)))[0]["expert"])

    def test_other_ports(self):
        shown = dissected(self, [data(7, 16, 0, b"x")], lambda packet: captures.ethernet(captures.ipv4(captures.udp(packet, target=9999))))[0]
        self.assertNotIn("type", shown)

    def test_texts_are_the_librarys(self):
        """Without tshark: the script's tables of refusals and codes beside the library's."""
        with open(SCRIPT, encoding="ascii") as file:
            script = file.read()
        table = script[script.index("local REFUSALS"):script.index("local CHECKSUMS")]
        listed = {int(number): text for number, text in re.findall(r'\[(\d+)\] = "(.*?)"', table)}
        self.assertEqual(listed, {number: saratoga.refusal_text(number) for number in (*range(1, 12), 26)})
        table = script[script.index("local CODES"):script.index("local REFUSALS")]
        listed = {int(code, 16): text for code, text in re.findall(r'\[0x(\w+)\] = "(.*?)"', table)}
        self.assertEqual(listed, {code: saratoga.code_text(code) for code in range(18)})
        self.assertIn(str(PORT), script)
        self.assertEqual((sorted(FLAGS_WIDTH.values()), len(FREE_FLAGS)), ([16, 32, 64, 128], 4))


if __name__ == "__main__":
    unittest.main()
