"""marks: rows and pictures of a saved area, and the marks of a pass, whose answers are held beside those of replay."""
import os
import random
import re
import struct
import subprocess
import sys
import tempfile
import unittest
import xml.etree.ElementTree as tree
import zlib

import loading
from packets import (END_OF_DATA, TIMESTAMP, beacon, close_record, data, failure, metadata, page_packets, record, status_record,
                     time_record)

marks = loading.tool("marks")
ROOT = os.path.join(os.path.dirname(os.path.abspath(__file__)), "..", "..", "..")
PROVED = os.path.join(ROOT, "target", "bin", "replay")
SVG = "{http://www.w3.org/2000/svg}"
PAGE611 = os.path.join(ROOT, "host", "passes", "page611.pass")


def area(*runs):
    """A saved area with these runs, laid out bit by bit: mark n is the bit 0x80 >> n % 8 of octet n / 8."""
    octets = bytearray(8192)
    for start, stop in runs:
        for n in range(start, stop):
            octets[n // 8] |= 0x80 >> n % 8
    return bytes(octets)


def text_of(octets, length=None):
    shown = marks.saved(octets, length)
    return [shown.told(), *shown.rows()]


class Text(unittest.TestCase):
    def test_an_octet(self):
        self.assertEqual(text_of(b"\x80\x01" + bytes(8190))[1], "      0 #..............#" + 48 * ".")
        self.assertEqual(text_of(bytes(8191) + b"\x01")[-1], "  65472 " + 63 * "." + "#")
        self.assertEqual(text_of(bytes(8191) + b"\x01")[0], "1 octet received, in 1 run; edge 65,536; hole 0-65535")

    def test_a_page(self):
        self.assertEqual(text_of(area((0, 100), (200, 3000)), 3000), [
            "2,900 of 3,000 octets received, in 2 runs; edge 3,000; hole 100-200",
            "      0 " + 64 * "#",
            "     64 " + 36 * "#" + 28 * ".",
            "    128 " + 64 * ".",
            "    192 " + 8 * "." + 56 * "#",
            "    256 " + 64 * "#",
            "        and 41 rows more, up to 2943",
            "   2944 " + 56 * "#",
        ])
        self.assertEqual(text_of(area((0, 3)), 3), ["3 of 3 octets received, in 1 run; edge 3; complete", "      0 ###"])
        self.assertEqual(text_of(area(), 0), ["0 of 0 octets received, in 0 runs; edge 0; complete"])

    def test_rows_are_folded_from_three_on(self):
        for same in range(1, 6):
            rows = text_of(area((0, 64 * same)), 64 * same + 1)[1:]
            want = ["      0 " + 64 * "#"] if same > 2 else [f"{64 * at:>7} " + 64 * "#" for at in range(same)]
            want += [f"        and {same - 1} rows more, up to {64 * same - 1}"] if same > 2 else []
            self.assertEqual(rows, want + [f"{64 * same:>7} ."])

    def test_without_a_length(self):
        self.assertEqual(text_of(area()), ["0 octets received, in 0 runs; edge 0", "      0 " + 64 * ".",
                                           "        and 1023 rows more, up to 65535"])

    def test_what_is_no_transfers(self):
        told = text_of(area((0, 3), (5, 6), (9, 10)), 5)
        self.assertEqual(told[0], "3 of 5 octets received, in 3 runs; edge 10; holes 3-5, 6-9; "
                                  "2 marks at the length or above it (22)")
        self.assertEqual(told[1], "      0 ###..#...#" + 54 * ".")
        told = text_of(area(*((2 * run, 2 * run + 1) for run in range(65))), 200)[0]
        self.assertTrue(told.endswith("; holes 1-2, 3-4, 5-6, 7-8, 9-10, 11-12, 13-14, 15-16 ...; more than 64 runs (22)"), told)
        self.assertNotIn("22", text_of(area(*((2 * run, 2 * run + 1) for run in range(64))), 200)[0])

    def test_octets_past_the_marks(self):
        self.assertEqual(text_of(area((3, 4)) + b"\xff" * 9), text_of(area((3, 4))))


def decoded(picture):
    """The size and the palette of a PNG, and the colour of each pixel, row by row."""
    assert picture[:8] == b"\x89PNG\r\n\x1a\n"
    at, chunks = 8, {}
    while at < len(picture):
        length, name = struct.unpack(">I4s", picture[at:at + 8])
        body = picture[at + 8:at + 8 + length]
        assert struct.unpack(">I", picture[at + 8 + length:at + 12 + length])[0] == zlib.crc32(name + body)
        chunks[name], at = body, at + 12 + length
    wide, high, depth, kind, *rest = struct.unpack(">IIBBBBB", chunks[b"IHDR"])
    assert (depth, kind, rest) == (8, 3, [0, 0, 0]) and list(chunks) == [b"IHDR", b"PLTE", b"IDAT", b"IEND"]
    rows, palette = zlib.decompress(chunks[b"IDAT"]), chunks[b"PLTE"]
    assert len(rows) == high * (wide + 1)
    return wide, high, [palette[3 * rows[n + n // wide + 1]:][:3].hex() for n in range(wide * high)]


class Picture(unittest.TestCase):
    BLUE, ORANGE, WHITE, GREY, RED = "2166ac", "f4a259", "ffffff", "d8d8d8", "b3261e"

    def drawn(self, octets, length=None):
        wide, high, pixels = decoded(marks.png(marks.saved(octets, length)))
        self.assertEqual((wide, high, len(pixels)), (256, 256, 65536))
        return pixels

    def test_each_mark_has_its_pixel(self):
        pixels = self.drawn(area((0, 3), (300, 302), (700, 701)), 1000)
        self.assertEqual(pixels[:4], [self.BLUE, self.BLUE, self.BLUE, self.ORANGE])
        self.assertEqual(pixels[299:303], [self.ORANGE, self.BLUE, self.BLUE, self.ORANGE])
        self.assertEqual(pixels[699:702], [self.ORANGE, self.BLUE, self.WHITE])
        self.assertEqual(pixels[999:1001], [self.WHITE, self.GREY])
        self.assertEqual([pixels.count(colour) for colour in (self.BLUE, self.ORANGE, self.WHITE, self.GREY, self.RED)],
                         [6, 695, 299, 64536, 0])

    def test_ends(self):
        self.assertEqual(set(self.drawn(area())), {self.WHITE})
        self.assertEqual(set(self.drawn(b"\xff" * 8192)), {self.BLUE})
        self.assertEqual(set(self.drawn(area(), 0)), {self.GREY})
        pixels = self.drawn(area((0, 65535)), 65535)
        self.assertEqual((pixels[65534], pixels[65535]), (self.BLUE, self.GREY))
        pixels = self.drawn(area((4, 5), (9, 10)), 6)
        self.assertEqual(pixels[:11], 4 * [self.ORANGE] + [self.BLUE, self.ORANGE] + 3 * [self.GREY] + [self.RED, self.GREY])


class PictureWithScale(unittest.TestCase):
    """The SVG: each mark in its colour, the scale, the legend, and the runs by name."""

    def drawn(self, octets, length=None, title="Marks"):
        shown = marks.saved(octets, length)
        root = tree.fromstring(marks.Picture(shown, title).svg())
        return shown, root, [text.text for text in root.iter(SVG + "text")]

    def cells(self, shown, root):
        """How many marks have each colour, and the colour of each mark that isn't white."""
        places = {}
        for box in root.iter(SVG + "rect"):
            if box.get("shape-rendering"):
                x, y, wide, high = (float(box.get(name)) for name in ("x", "y", "width", "height"))
                row = round((y - marks.TOP) / high)
                for column in range(round((x - marks.LEFT) / marks.CELL), round((x + wide - marks.LEFT) / marks.CELL)):
                    self.assertNotIn(256 * row + column, places)
                    places[256 * row + column] = box.get("fill")[1:]
        return places

    def test_each_mark_has_its_place(self):
        for octets, length in ((area((0, 3), (300, 302), (700, 701)), 1000), (area((0, 65535)), 65535), (area((5, 6), (65535, 65536)), None),
                               (area((4, 5), (9, 10)), 6), (area(), 0), (area((100, 60000)), 60001)):
            shown, root, _ = self.drawn(octets, length)
            want = dict(enumerate(decoded(marks.png(shown))[2]))
            places = self.cells(shown, root)
            rows = -(-max(length or 1, 1) // 256) if length is not None and not shown.above() else 256
            self.assertEqual(places, {place: colour for place, colour in want.items() if colour != Picture.WHITE and place < 256 * rows})

    def test_scale_legend_and_runs(self):
        _, _, told = self.drawn(area((0, 1000), (2000, 2001), (2500, 3000)), 3000)
        self.assertIn("1,501 of 3,000 octets received, in 3 runs; edge 3,000; holes 1000-2000, 2001-2500", told)
        for text in ("+0", "+224", "0", "256", "2,816", "received: 1,501", "hole: 1,499", "beyond the file: 72", "3 runs", "1: 0 to 999",
                     "2: 2,000", "3: 2,500 to 2,999"):
            self.assertIn(text, told)
        self.assertNotIn("mark beyond the file", " ".join(told))
        _, _, told = self.drawn(area(*((2 * run, 2 * run + 1) for run in range(70))))
        self.assertIn("64: 126", told)
        self.assertIn("and 6 more", told)
        self.assertNotIn("65: 128", told)

    def test_labels_lie_inside(self):
        for octets, length in ((area(*((65535 - 2 * run, 65536 - 2 * run) for run in range(70))), None), (area((0, 9)), 9), (area(), 0)):
            _, root, _ = self.drawn(octets, length, "W" * 400)
            high = float(root.get("height"))
            for text in root.iter(SVG + "text"):
                long = marks.wide(text.text, float(text.get("font-size")), text.get("font-weight") == "bold")
                x = float(text.get("x")) - {"start": 0, "middle": long / 2, "end": long}[text.get("text-anchor", "start")]
                self.assertTrue(x >= 0 and x + long <= marks.WIDTH and 0 < float(text.get("y")) < high - 3, text.text)

    def test_a_title_is_escaped(self):
        _, _, told = self.drawn(area(), 9, "<b>&\x1b")
        self.assertIn("<b>&\\x1b", told)


def lines_of(*records):
    split = marks.split(b"".join(records))[0]
    return list(marks.after_each(split, 7))


class Passes(unittest.TestCase):
    def test_page611(self):
        with open(PAGE611, "rb") as file:
            lines = list(marks.after_each(marks.split(file.read())[0], 7))
        self.assertEqual([line for line in lines if not re.match(" ", line)], [
            "record 2: opens transfer 7, 3,000 octets, width 16",
            "record 3: 0 to 999, absorbed 0; 1,000 of 3,000 octets received, in 1 run; edge 1,000",
            "record 4: 0 to 999 again, absorbed 1; 1,000 of 3,000 octets received, in 1 run; edge 1,000",
            "record 5: 2,000 to 2,999, absorbed 0; 2,000 of 3,000 octets received, in 2 runs; edge 3,000; hole 1000-2000",
            "record 7: 1,000 to 1,999, absorbed 2; 3,000 of 3,000 octets received, in 1 run; edge 3,000; complete",
            "record 9: closes transfer 7",
            "ignored: S records 2",
        ])
        self.assertEqual(lines.count("    960 " + 40 * "#" + 24 * "."), 2)

    def test_what_is_ignored(self):
        lines = lines_of(record(b"O", metadata(7, 16, 9)), record(b"O", metadata(8, 16, 9)), record(b"D", data(8, 16, 0, b"a")),
                         status_record(7), time_record(5), record(b"R", data(7, 16, 0, b"a")), record(b"P", beacon(b"dish")),
                         record(b"P", failure(7, 6)), record(b"P", b"\x43"), record(b"\x1b", b"x" * 9), close_record(8))
        self.assertEqual(lines, ["record 1: opens transfer 7, 9 octets, width 16", "      0 .........",
                                 "ignored: C records 1, P records 3, R records 1, S records 1, W records 1, \\x1b records 1, "
                                 "records of other transfers 2"])

    def test_opened_again(self):
        lines = lines_of(record(b"P", metadata(7, 16, 3)), record(b"P", data(7, 16, 1, b"a")), record(b"P", metadata(7, 16, 3)),
                         record(b"P", metadata(7, 32, 3)), record(b"P", metadata(7, 16, 4)), close_record(7),
                         record(b"P", data(7, 16, 1, b"a")), record(b"P", metadata(7, 16, 4)), record(b"F"), record(b"F"),
                         record(b"P", metadata(7, 16, 2)))
        self.assertEqual([line for line in lines if not line.startswith("record")],
                         ["      0 ...", "      0 .#.", "      0 ....", "      0 .."])
        self.assertEqual([line.split(": ")[1] for line in lines if re.match(r"record [3-79]", line)],
                         ["transfer 7 is open already", "refused 18", "refused 18", "closes transfer 7", "refused 12",
                          "closes transfer 7"])

    def test_no_crc_32c_on_anything_new(self):
        old = {"flags": 0x11, "checksum": b"abcd"}
        passed = [record(b"P", metadata(8, 16, 3, **old)), record(b"P", metadata(7, 16, 3, **old)),
                  record(b"P", metadata(7, 64, 65536, **old)), record(b"P", metadata(7, 16, 3)),
                  record(b"P", data(7, 16, 1, b"a")), record(b"P", metadata(7, 16, 3, **old)), record(b"P", metadata(7, 16, 4, **old)),
                  close_record(7), record(b"P", metadata(7, 16, 3, **old)),
                  record(b"P", metadata(7, 16, 3, flags=0x14, checksum=b"abcd"))]
        told = [line.split(": ")[1] for line in lines_of(*passed) if re.match(r"record ([236789]|10):", line)]
        self.assertEqual(told, ["refused 23", "refused 9", "transfer 7 is open already", "refused 18", "closes transfer 7",
                                "refused 23", "opens transfer 7, 3 octets, width 16"])
        # The transfer that is opened is 7 alone.
        self.assertEqual(marks.only_transfer(marks.split(b"".join(passed))[0]), 7)

    def test_refusals(self):
        """Each by hand, for a transfer of width 16 and 3,000 octets that has 64 runs."""
        replay = marks.Replay(7)
        replay.step(b"O", metadata(7, 16, 3000))
        for run in range(64):
            self.assertEqual(replay.step(b"D", data(7, 16, 10 * run, b"page"))[1], True)
        before = bytes(replay.transfer.marks.letters)
        odd = data(7, 16, 0, b"a")
        for kind, packet, number in [
                (b"D", data(7, 16, 0, bytes(65526)), 2), (b"D", odd[:9], 1), (b"D", b"\x03" + odd[1:], 3),
                (b"D", b"\x44" + odd[1:], 4), (b"D", metadata(7, 16, 3000), 4), (b"O", odd, 4),
                (b"D", data(7, 128, 2**64, b"a"), 5), (b"D", data(7, 16, 0, b"a", 0x100000), 6),
                (b"D", data(7, 16, 0, b"a", TIMESTAMP), 1), (b"D", data(7, 16, 0, b""), 10), (b"D", data(7, 32, 3000, b"a"), 13),
                (b"D", data(7, 16, 3000, b"a", END_OF_DATA), 14), (b"D", data(7, 16, 2998, b"a", END_OF_DATA), 15),
                (b"D", data(7, 16, 2999, b"a", END_OF_DATA), 16), (b"D", data(7, 16, 8, b"a"), 16),
                (b"O", metadata(7, 16, 3000, flags=0x200000), 6), (b"O", metadata(7, 16, 3000, flags=0x12), 7),
                (b"O", metadata(7, 16, 3000, flags=0x03), 7), (b"O", metadata(7, 16, 3000, flags=0x42), 6),
                (b"O", metadata(7, 16, 3000, properties=0x20), 6), (b"O", metadata(7, 16, 3000)[:11], 1),
                (b"O", metadata(7, 16, 3000, end=b""), 1), (b"O", metadata(7, 16, 3000, path=b""), 8),
                (b"O", metadata(7, 16, 3000, path=1023 * b"p", end=b"\0\0"), 8), (b"O", metadata(7, 16, 3000, path=1024 * b"p"), 8),
                (b"O", metadata(7, 16, 3000, path=1024 * b"p", end=b""), 8), (b"O", metadata(7, 16, 2**64, size_width=128), 5),
                (b"O", metadata(7, 16, 65536, size_width=32), 9), (b"O", metadata(7, 64, 65536), 9),
                (b"O", metadata(7, 64, 3000), 18), (b"O", metadata(7, 64, 3000, flags=0x11, checksum=b"abcd"), 18)]:
            self.assertEqual(replay.step(kind, packet), (f"refused {number}", False), packet[:40].hex())
        self.assertEqual(replay.transfer.marks.letters, before)
        self.assertIn("absorbed 1;", replay.step(b"D", data(7, 16, 4, b"a"))[0])


@unittest.skipUnless(os.path.exists(PROVED), "target/bin/replay isn't there; make replay-program makes it")
class BesideReplay(unittest.TestCase):
    def packet(self, chance, ident, width, length):
        offset = chance.choice([0, length, max(0, length - 5), chance.randrange(length + 3), chance.randrange(length + 1)])
        octets = bytes(chance.choice([1, 1, 2, 3, 10, 200, 3000]))
        packet = data(ident, width, offset, octets, chance.choice([0, 0, 0, 0, END_OF_DATA]))
        return chance.choice([b"D", b"P"]), packet

    def records(self, chance):
        """A pass for two transfers, with repeats, openings again, closings and packets that are spoiled."""
        files = [(ident, chance.choice([16, 32, 64, 128]), chance.choice([0, 9, 150, 4000, 65535])) for ident in (7, 8)]
        made = []
        for _ in range(chance.randrange(10, 200)):
            ident, width, length = chance.choice(files)
            choice = chance.random()
            if choice < 0.15:
                length += chance.random() < 0.1 and length < 65535
                old = {"flags": 0x11, "checksum": bytes(4)} if chance.random() < 0.2 else {}
                kind, body = chance.choice([b"O", b"P"]), metadata(ident, width, length, **old)
            elif choice < 0.85:
                kind, body = self.packet(chance, ident, width, length)
            elif choice < 0.93 and made:
                kind, body = chance.choice(made)
            else:
                others = [(b"C", struct.pack(">I", ident)), (b"F", b""), (b"S", struct.pack(">IQBI", 7, 0, 0, 99))]
                kind, body = chance.choice(others)
            if chance.random() < 0.1 and len(body) > 8:
                # Not in the size of METADATA: a file that is too long for marks is no difference to a table.
                places = [0, 1, 2, 3] if body[0] == 0x42 else [0, 1, 2, 3, *range(8, min(len(body), 30))]
                at = chance.choice(places)
                body = body[:at] + bytes([body[at] ^ 1 << chance.randrange(8)]) + body[at + 1:]
            made.append((kind, body))
        return made

    def agree(self, number, told, changed, replay, line):
        """What the tool tells of a record, and replay's line of it."""
        fields = dict(re.findall(r"(\w+)=(\d+)", line))
        if "refused" in line:
            self.assertEqual(told, "refused " + line.split()[2], number)
        elif " record " in line:
            self.assertIn(f"absorbed {fields['absorbed']};", told, number)
            shown = replay.transfer.marks
            self.assertEqual((str(shown.edge), fields["complete"] == "1"), (fields["edge"], "complete" in told), number)
        elif " open " in line:
            self.assertEqual((changed, "already" in told), (line.endswith("new"), line.endswith("already-open")), number)
        else:
            self.assertIn("closes", told, number)

    def test_random_passes(self):
        chance, compared = random.Random(611), 0
        for _ in range(60):
            records = self.records(chance)
            lines = subprocess.run([PROVED], input=b"".join(record(*one) for one in records), capture_output=True, check=True)
            by_record = {}
            for line in lines.stdout.decode().splitlines():
                by_record.setdefault(int(line.split()[0]), line)
            for ident in (7, 8):
                replay = marks.Replay(ident)
                for number, (kind, body) in enumerate(records, 1):
                    told, changed = replay.step(kind, body)
                    if told:
                        compared += 1
                        line = "closes" if kind == b"F" else by_record[number]
                        self.agree(number, told, changed, replay, line)
        self.assertGreater(compared, 3000)


class Program(unittest.TestCase):
    def setUp(self):
        holder = tempfile.TemporaryDirectory()
        self.addCleanup(holder.cleanup)
        self.place = holder.name

    def file(self, name, octets):
        path = os.path.join(self.place, name)
        with open(path, "wb") as out:
            out.write(octets)
        return path

    def run_with(self, *options, octets=b""):
        done = subprocess.run([sys.executable, "-B", loading.path_of("marks"), *options], input=octets, capture_output=True,
                              check=False)
        return done.stdout, done.stderr.decode(), done.returncode

    def test_a_saved_area(self):
        saved = area((0, 100))
        out, told, status = self.run_with(self.file("a.marks", saved))
        self.assertEqual((out.decode().splitlines()[0], told, status), ("100 octets received, in 1 run; edge 100", "", 0))
        self.assertEqual(self.run_with(octets=saved)[0], out)
        self.assertEqual(self.run_with("-", octets=saved + b"more")[0], out)
        self.assertEqual(self.run_with("--length", "100", octets=saved)[0].decode().splitlines(), [
            "100 of 100 octets received, in 1 run; edge 100; complete", "      0 " + 64 * "#", "     64 " + 36 * "#"])
        path = os.path.join(self.place, "text")
        self.assertEqual(self.run_with("-o", path, octets=saved), (b"", "", 0))
        with open(path, "rb") as file:
            self.assertEqual(file.read(), out)

    def test_pictures(self):
        path = os.path.join(self.place, "page.png")
        self.assertEqual(self.run_with("--png", path, octets=area((0, 100))), (b"", "", 0))
        with open(path, "rb") as file:
            picture = file.read()
        self.assertEqual(decoded(picture)[2].count(Picture.BLUE), 100)
        self.assertEqual(self.run_with("--png", "-", octets=area((0, 100)))[0], picture)
        out = self.run_with("--pass", "--svg", "-", "--record", "5", PAGE611)[0]
        told = [text.text for text in tree.fromstring(out).iter(SVG + "text")]
        self.assertIn("Marks of page611.pass, transfer 7 after record 5", told)
        self.assertIn("2: 2,000 to 2,999", told)
        self.assertEqual(self.run_with("--svg", path, octets=area((0, 100))), (b"", "", 0))
        out = self.run_with("--pass", "--png", "-", "--record", "5", PAGE611)[0]
        self.assertEqual(decoded(out)[2].count(Picture.BLUE), 2000)
        self.assertEqual(decoded(out)[2].count(Picture.ORANGE), 1000)

    def test_a_pass(self):
        out, told, status = self.run_with("--pass", "--record", "7", PAGE611)
        self.assertEqual((told, status), ("", 0))
        self.assertTrue(out.startswith(b"3,000 of 3,000 octets received, in 1 run; edge 3,000; complete\n      0 ###"), out)
        out = self.run_with("--pass", PAGE611)[0]
        self.assertEqual(self.run_with("--pass", "--id", "7", PAGE611)[0], out)
        self.assertEqual(out.count(b"record "), 6)
        with open(PAGE611, "rb") as file:
            octets = file.read()
        out, told, status = self.run_with("--pass", octets=octets[:-1])
        self.assertEqual((told, status), ("marks: standard input: cut short: the pass ends inside its last record\n", 1))
        self.assertEqual(out.count(b"record "), 5)

    def test_two_tables(self):
        """A merge sets the marks of either, and is refused as the table refuses it."""
        octets = [record(b"O", metadata(7, 16, 30)), record(b"D", data(7, 16, 0, b"a" * 10)), record(b"M", bytes(7) + b"\7"),
                  record(b"T", b"\1"), record(b"O", metadata(7, 16, 30)), record(b"D", data(7, 16, 10, b"b" * 5)),
                  record(b"D", data(7, 16, 20, b"b" * 10)), record(b"T", b"\0"), record(b"M", bytes(7) + b"\7"),
                  record(b"M", bytes(7) + b"\x08"), record(b"T", b"\2"), record(b"T", b"\1"), record(b"F"),
                  record(b"O", metadata(7, 16, 31)), record(b"M", bytes(7) + b"\7"), record(b"C", bytes(3) + b"\7"),
                  record(b"O", metadata(7, 32, 30)), record(b"M", bytes(7) + b"\7")]
        lines = self.run_with("--pass", octets=b"".join(octets))[0].decode().splitlines()
        told = [line for line in lines if line.startswith("record")]
        self.assertEqual(told[2], "record 3: refused 12")
        self.assertEqual(told[3], "record 4: table 1")
        self.assertTrue(told[8].startswith("record 9: table 1 merged into table 0; 25 of 30 octets received, in 2 runs; edge 30; "), told[8])
        self.assertIn("record 15: refused 18", told)
        self.assertIn("record 18: refused 13", told)
        self.assertEqual(lines[-1], "ignored: M records 1, T records 1")
        both = self.run_with("--pass", "--record", "9", octets=b"".join(octets))[0].decode()
        self.assertIn("###############.....##########", both)

    def test_messages(self):
        name = self.file("short", bytes(8191))
        self.assertEqual(self.run_with(name), (b"", f"marks: {name}: 8,191 octets, and marks have 8,192\n", 1))
        self.assertEqual(self.run_with(octets=b"x"), (b"", "marks: standard input: 1 octet, and marks have 8,192\n", 1))
        self.assertEqual(self.run_with("/nowhere/marks"), (b"", "marks: /nowhere/marks: No such file or directory\n", 1))
        self.assertEqual(self.run_with("--png", "/dev/full", octets=bytes(8192)),
                         (b"", "marks: /dev/full: No space left on device\n", 1))
        self.assertEqual(self.run_with("--pass", "--record", "10", PAGE611)[1:],
                         (f"marks: {PAGE611}: no record 10: the pass has 9\n", 1))
        self.assertEqual(self.run_with("--pass", "--record", "9", PAGE611)[1:],
                         (f"marks: {PAGE611}: transfer 7 isn't open after record 9\n", 1))
        two = record(b"O", metadata(300, 16, 9)) + record(b"O", metadata(8, 16, 9)) + record(b"O", metadata(9, 64, 65536))
        self.assertEqual(self.run_with("--pass", octets=two)[1:],
                         ("marks: standard input: --id is needed: the transfers that are opened are 8, 300\n", 1))
        self.assertEqual(self.run_with("--pass", octets=b"")[1:],
                         ("marks: standard input: --id is needed: the transfers that are opened are none\n", 1))

    def test_without_the_library(self):
        """Saved marks are shown, and of a pass it is told what lacks."""
        env = dict(os.environ, SARATOGA_LIBRARY="/nowhere/libsaratoga.so")
        command = [sys.executable, "-B", loading.path_of("marks")]
        self.assertEqual(subprocess.run(command, input=bytes(8192), env=env, capture_output=True, check=False).returncode, 0)
        done = subprocess.run([*command, "--pass", PAGE611], env=env, capture_output=True, check=False)
        self.assertEqual((done.stdout, done.returncode), (b"", 1))
        self.assertRegex(done.stderr.decode(), "^marks: .*: the library, which judges its packets, can't be loaded: .*/nowhere/.*\n$")

    def test_wrong_options(self):
        for options in (["--record", "1"], ["--id", "7"], ["--pass", "--length", "3"], ["--length", "65536"], ["--length", "x"],
                        ["--pass", "--record", "0"], ["--pass", "--id", "4294967296"], ["--png", "a", "-o", "b"], ["--png", "a", "--svg", "b"], ["--what"]):
            out, told, status = self.run_with(*options)
            self.assertEqual((out, status), (b"", 2), options)
            self.assertIn("usage: marks", told)

    def test_help(self):
        out, told, status = self.run_with("--help")
        self.assertEqual((told, status), ("", 0))
        self.assertIn(b"usage: marks", out)

    def test_the_packets_of_a_page(self):
        lines = self.run_with("--pass", octets=b"".join(record(b"P", packet) for packet in page_packets()))[0].decode().splitlines()
        self.assertEqual([line.split(";")[0] for line in lines if line.startswith("record")],
                         ["record 1: opens transfer 7, 3,000 octets, width 16", "record 2: 0 to 999, absorbed 0",
                          "record 3: 2,000 to 2,999, absorbed 0", "record 5: 1,000 to 1,999, absorbed 2"])
        self.assertEqual(lines[-1], "ignored: P records 3, records of other transfers 1")


if __name__ == "__main__":
    unittest.main()
