"""passplot: what it draws of replay's lines, and the lines that errors name."""
import functools
import os
import random
import re
import subprocess
import sys
import tempfile
import time
import unittest
import xml.etree.ElementTree as tree

import loading
from packets import data, metadata, record, split, time_record

passplot = loading.tool("passplot")
SVG = "{http://www.w3.org/2000/svg}"

EVERY_LINE = """\
1 fresh
2 open id=7 width=16 length=3000 edge=0 complete=0 new
3 open id=7 width=16 length=3000 edge=0 complete=0 already-open
4 record id=7 offset=0 length=1000 edge=1000 complete=0 absorbed=0
5 status 440000000000000703e80bb803e807d0
6 close id=7
7 refused 14 code=9
8 metadata id=7 flags=000000 width=16 checksum= properties=0000 size=3000 mtime=0 ctime=0 path=706167653631312e706c61
9 data id=7 flags=000000 width=16 timestamp= offset=0 length=1000
10 success id=7 flags=000000 width=16 timestamp= progress=1000 in-response-to=3000 holes=1000-2000,2500-2600
11 failure id=7 status=6 flags=000006
12 send 4400000600000007
13 unknown kind 58
14 bad length
15 beacon flags=000000 largest-width=16 bundles=0 streams=0 send=cannot receive=cannot free-width= free= endpoint=
16 plan count=2 pieces=1000+400,1400+200
17 check passes=1
18 table 1
19 open id=7 width=16 length=3000 edge=0 complete=0 new
20 table 0
21 cut short
"""

LATE = """\
1 open id=7 width=16 length=3000 edge=0 complete=0 new
2 record id=7 offset=2000 length=1000 edge=3000 complete=0 absorbed=0
3 record id=7 offset=0 length=1000 edge=3000 complete=0 absorbed=0
3 send 440000000000000703e80bb803e807d0
4 record id=7 offset=0 length=1000 edge=3000 complete=0 absorbed=1
5 record id=7 offset=500 length=2000 edge=3000 complete=1 absorbed=2
6 open id=9 width=32 length=70000 edge=0 complete=0 new
7 record id=9 offset=10 length=10 edge=20 complete=0 absorbed=0
8 refused 12 code=6
"""


TWO_TABLES = """\
1 open id=7 width=16 length=3000 edge=0 complete=0 new
2 record id=7 offset=0 length=1000 edge=1000 complete=0 absorbed=0
3 table 1
4 open id=7 width=16 length=3000 edge=0 complete=0 new
5 record id=7 offset=900 length=600 edge=1500 complete=0 absorbed=0
6 record id=7 offset=2000 length=1000 edge=3000 complete=0 absorbed=0
7 table 0
8 merge id=7 edge=3000 complete=0
9 merge id=7 edge=3000 complete=0
10 record id=7 offset=1500 length=500 edge=3000 complete=1 absorbed=2
11 table 1
12 merge id=7 edge=3000 complete=1
13 fresh
14 open id=7 width=16 length=9 edge=0 complete=0 new
"""


def drawing(text, times=None, passed=None):
    drawn = passplot.read(text.split("\n"))
    if passed is not None:
        passplot.give_names(drawn, split(passed)[0])
        times = passplot.times_in(drawn, split(passed)[0])
    return passplot.Drawing(drawn, "Pass", times).svg()


def boxes(svg, fill):
    """The boxes of a colour that say what they are: those of the legend don't."""
    return [box for box in tree.fromstring(svg).iter(SVG + "rect")
            if box.get("fill") == fill and box.find(SVG + "title") is not None]


def texts(svg):
    return [element.text for element in tree.fromstring(svg).iter(SVG + "text")]


def tips(svg):
    return [element.text for element in tree.fromstring(svg).iter(SVG + "title")]


# For the test in Chromium alone: how many texts leave their drawing, and which.
MEASURE = """<script>
var texts = document.querySelectorAll("svg text"), out = [];
for (var i = 0; i < texts.length; i++) {
  var box = texts[i].getBoundingClientRect(), frame = texts[i].closest("svg").getBoundingClientRect();
  if (box.left < frame.left || box.right > frame.right || box.top < frame.top || box.bottom > frame.bottom)
    out.push(texts[i].textContent.slice(0, 60));
}
var told = document.createElement("pre");
told.textContent = "MEASURED " + out.length + " of " + texts.length + ":" + out.join("; ") + "END";
document.body.appendChild(told);
</script>"""


@functools.lru_cache(None)
def extremes():
    """Drawings with the longest names, numbers and lists."""
    top, wide = 2**64 - 1, record(b"P", metadata(7, 64, 2**64 - 1, b"W" * 1000))
    opened = f"1 open id=7 width=64 length={top} edge=0 complete=0 new\n"
    two = (f"2 record id=7 offset=0 length={2**63} edge={2**63} complete=0 absorbed=0\n"
           f"3 record id=7 offset={top - 2} length=1 edge={top - 1} complete=0 absorbed=0\n")
    refused = "".join(f"{number} refused {2**64 - number} code=9\n" for number in range(4, 40))
    late = opened.replace("1 open", f"{top - 9} open") + f"{top} status 4400000000000007\n"
    many = "".join(f"{2 * at + 1} open id={2**32 - 1 - at} width=64 length={top} edge=0 complete=0 new\n"
                   f"{2 * at + 2} record id={2**32 - 1 - at} offset=0 length={top - 1} edge={top - 1} complete=0 absorbed=0\n"
                   for at in range(12))
    merged = opened + two + "4 table 1\n" + opened.replace("1 open", "5 open") + f"6 merge id=7 edge={top - 1} complete=0\n"
    times = {1: 0, 2: 10**9, 3: 2**64 - 1}
    drawings = {"long": drawing(opened + two), "refused": drawing(opened + two + refused), "late": drawing(late), "strips": drawing(many),
                "merged": drawing(merged), "named": drawing(opened, passed=wide), "times": drawing(opened + two, times),
                "small": drawing(LATE), "tables": drawing(TWO_TABLES)}
    drawings["title"] = passplot.Drawing(passplot.read(LATE.split("\n")), "W" * 300).svg()
    return drawings


class Drawn(unittest.TestCase):
    def test_every_line_of_replay_is_taken(self):
        svg = drawing(EVERY_LINE)
        self.assertIn("21 records; 2 transfers, 0 complete; 1 refused (14); the pass is cut short", texts(svg))
        self.assertIn("NOT complete: 1,000 of 3,000 octets received, nothing from 1,000 on", texts(svg))
        self.assertIn("closed", texts(svg))

    def test_two_tables_and_what_is_merged(self):
        svg = drawing(TWO_TABLES)
        told = texts(svg)
        self.assertIn("14 records; 3 transfers, 2 complete", told)
        self.assertIn("Transfer 7: 3,000 octets, width 16", told)
        self.assertIn("Transfer 7 of table 1: 3,000 octets, width 16", told)
        self.assertIn("Transfer 7 of table 1, opened again (2): 9 octets, width 16", told)
        self.assertIn("complete at record 10", told)
        self.assertIn("complete at record 12", told)
        self.assertIn("Record 8: transfer 7 of table 1 merged into table 0: 1,000 and 1,600 octets are 2,500 of 3,000", told)
        self.assertIn("Record 9: transfer 7 of table 1 merged into table 0: 2,500 and 1,600 octets are 2,500 of 3,000", told)
        self.assertIn("Record 12: transfer 7 of table 0 merged into table 1: 1,600 and 3,000 octets are 3,000, complete", told)
        self.assertEqual(told.count("joined"), 3)
        # Three rows: what the first had, what the other had, and both; of the panel, what the merge brought.
        shown = tips(svg)
        for tip in ("table 0: 0 to 1,000", "table 1: 900 to 1,500", "table 1: 2,000 to 3,000", "joined: 0 to 1,500", "joined: 2,000 to 3,000",
                    "record 8: 1,000 to 1,500", "record 8: 2,000 to 3,000", "merged at record 8", "merged at record 12"):
            self.assertIn(tip, shown)
        self.assertFalse(any(tip.endswith(" again") for tip in shown))
        self.assertIn("merge", told)
        self.assertNotIn("merge", texts(drawing(LATE)))

    def test_merges_that_do_not_follow(self):
        lines = TWO_TABLES.split("\n")
        for number, wrong, told in (
                (8, "8 merge id=7 edge=3000 complete=1", "line 8: edge=3000 complete=1, but the records so far give"),
                (8, "8 merge id=7 edge=1500 complete=0", "line 8: edge=1500 complete=0"),
                (8, "8 merge id=9 edge=1 complete=0", "line 8: transfer 9, which no line before opened"),
                (3, "3 merge id=7 edge=1000 complete=0", "line 3: transfer 7 is merged, and no line before opened it in table 1"),
                (3, "3 table 2", "line 3: table is followed by 0 or 1"),
                (4, "4 open id=7 width=32 length=3000 edge=0 complete=0 new", "line 8: transfer 7 is merged, and has another width")):
            with self.assertRaises(passplot.Wrong) as raised:
                passplot.read(lines[:number - 1] + [wrong] + lines[number:])
            self.assertIn(told, str(raised.exception))

    def test_many_merges_are_drawn_as_far_as_there_is_room(self):
        lines = TWO_TABLES.split("\n")[:8] + [f"{record} merge id=7 edge=3000 complete=0" for record in range(9, 60)]
        told = texts(drawing("\n".join(lines)))
        self.assertEqual(told.count("joined"), passplot.MOST_MERGES)
        self.assertIn("and 28 merges more", told)

    def test_holes_pieces_repeats_and_completion(self):
        svg = drawing(LATE)
        told = texts(svg)
        self.assertIn("Transfer 7: 3,000 octets, width 16", told)
        self.assertIn("complete at record 5", told)
        self.assertIn("4 recordings, 3 runs absorbed, 1 left", told)
        self.assertIn("1 recording, 0 runs absorbed, 1 left", told)
        self.assertIn("Transfer 9: 70,000 octets, width 32", told)
        self.assertIn("NOT complete: 10 of 70,000 octets received, 1 hole, nothing from 20 on", told)
        self.assertIn("the file goes on to 70,000", told)
        self.assertIn("0 – 10", told)
        for tip in ("record 2: 2,000 to 3,000", "hole 0 to 2,000, from record 2", "record 3: 0 to 1,000",
                    "hole 1,000 to 2,000, from record 3", "record 4: 0 to 1,000 again", "record 5: 1,000 to 2,000",
                    "complete at record 5", "record 3: STATUS", "record 8: refused with 12"):
            self.assertIn(tip, tips(svg))

    def test_a_beacon_is_no_transfer(self):
        """Of a BEACON nothing is drawn: the picture is the one with any other record in its place that adds nothing."""
        beacons = ("beacon flags=9e5000 largest-width=64 bundles=0 streams=1 send=willing receive=not-now free-width=32 "
                   "free=1048576 endpoint=64697368",
                   'on-air send=willing receive=not-now free= largest-width=64 endpoint="dish 3 id=7 complete=1"')
        passed_over = drawing(LATE.replace("6 open id=9", "6 failure id=7 status=6 flags=000006\n7 open id=9")
                              .replace("7 record", "8 record").replace("8 refused", "9 refused"))
        for beacon in beacons:
            svg = drawing(LATE.replace("6 open id=9", f"6 {beacon}\n7 open id=9")
                          .replace("7 record", "8 record").replace("8 refused", "9 refused"))
            self.assertEqual(svg, passed_over)
        self.assertIn("No transfer was opened in this pass.", texts(drawing(f"1 {beacons[0]}\n2 {beacons[1]}\n")))

    def test_no_length_and_nothing_at_all(self):
        self.assertIn("complete at record 1", texts(drawing("1 open id=9 width=16 length=0 edge=0 complete=1 new\n")))
        self.assertIn("No transfer was opened in this pass.", texts(drawing("")))

    def test_an_id_opened_again(self):
        svg = drawing("1 open id=7 width=16 length=1 edge=0 complete=0 new\n2 fresh\n"
                      "3 open id=7 width=16 length=2 edge=0 complete=0 new\n")
        self.assertIn("Transfer 7, opened again (2): 2 octets, width 16", texts(svg))

    def test_everything_lies_inside(self):
        """Random passes: the drawing is well formed, and no shape has a negative size or lies outside."""
        chance = random.Random(611)
        for length in (1, 7, 3000, 2**64 - 1):
            lines, transfer = [f"1 open id=7 width=64 length={length} edge=0 complete=0 new"], passplot.Transfer(
                1, 7, 64, length)
            for number in range(2, 300):
                start = chance.randrange(length)
                stop = chance.randrange(start, min(length, start + max(length // 50, 1))) + 1
                absorbed = transfer.record(number, start, stop)
                lines.append(f"{number} record id=7 offset={start} length={stop - start} edge={transfer.edge} "
                             f"complete={int(transfer.complete)} absorbed={absorbed}")
            svg = drawing("\n".join(lines))
            height = float(tree.fromstring(svg).get("height"))
            for box in tree.fromstring(svg).iter(SVG + "rect"):
                x, y = float(box.get("x", 0)), float(box.get("y", 0))
                wide, high = float(box.get("width")), float(box.get("height"))
                self.assertTrue(wide >= 0 and high >= 0 and x >= 0 and y >= 0, box.attrib)
                self.assertTrue(x + wide <= passplot.WIDTH + 0.1 and y + high <= height + 0.1, box.attrib)

    def test_every_label_lies_inside(self):
        """In passes with the longest names and numbers: none crosses a side of the picture, or the next of its kind."""
        for name, svg in extremes().items():
            for element in tree.fromstring(svg).iter(SVG + "text"):
                if element.get("transform"):
                    continue
                size, bold = passplot.SIZES[element.get("class", "")]
                long = min(passplot.wide(element.text, size, bold or "bold" in element.get("style", "")),
                           float(element.get("textLength", "inf")))
                x = float(element.get("x")) - {"start": 0, "middle": long / 2, "end": long}[element.get("text-anchor")]
                self.assertTrue(x >= 3.9 and x + long <= passplot.WIDTH - 3.9, f"{name}: {element.text}")

    def test_numbers_are_exact(self):
        svg = extremes()["long"]
        told = texts(svg)
        self.assertIn(f"{2**63:,} – {2**64 - 3:,}", told)
        self.assertIn(f"{2**64 - 1:,}", told)
        self.assertIn("5,000,000,000,000,000,000", told)
        for svg in extremes().values():
            self.assertFalse([text for text in texts(svg) if re.search(r"\de\+?\d", text)])
        nearly = extremes()["strips"]
        self.assertIn(f"NOT complete: 99.9% of {2**64 - 1:,}", texts(nearly))
        self.assertNotIn("100.0%", nearly)

    def test_labels_in_chromium(self):
        """As a browser with fonts of its own measures them."""
        program = loading.chromium(self)
        with tempfile.TemporaryDirectory() as place:
            path = os.path.join(place, "drawings.html")
            with open(path, "w", encoding="utf-8") as file:
                file.write("<!DOCTYPE html><meta charset='utf-8'>" + "\n".join(extremes().values()) + MEASURE)
            told = subprocess.run([*program, "--dump-dom", f"file://{path}"], capture_output=True, check=True,
                                  timeout=120).stdout.decode("utf-8", "replace")
        found = re.search("<pre>MEASURED ([0-9]+) of ([0-9]+):(.*)END</pre>", told, re.S)
        self.assertEqual((found[1], found[3].strip()), ("0", ""))
        self.assertGreater(int(found[2]), 100)

    def test_the_received_set(self):
        """Runs and holes against a set of offsets."""
        chance = random.Random(612)
        for _ in range(200):
            transfer, offsets = passplot.Transfer(1, 7, 16, 60), set()
            for number in range(2, 20):
                start = chance.randrange(60)
                stop = chance.randrange(start, 60) + 1
                transfer.record(number, start, min(stop, start + 9))
                offsets |= set(range(start, min(stop, start + 9)))
                self.assertEqual({o for a, b in transfer.runs for o in range(a, b)}, offsets)
                self.assertEqual({o for a, b in transfer.holes() for o in range(a, b)},
                                 set(range(max(offsets) + 1)) - offsets)
                self.assertEqual(set(transfer.since), set(transfer.holes()))
                self.assertEqual(transfer.complete, len(offsets) == 60)

    def test_names_of_pages(self):
        """From the pass, and from lines with the path. No octet of a path leaves the text it stands in."""
        packets = [record(b"F"), record(b"P", metadata(7, 16, 3000, b"plant/page 611.pla")),
                   record(b"O", metadata(8, 64, 9, b"\x1b[2J</text>&%\xff\r\n", 0x52, bytes(20))),
                   record(b"P", metadata(9, 128, 9, b"wide.pla"))]
        lines = ("1 fresh\n2 open id=7 width=16 length=3000 edge=0 complete=0 new\n"
                 "3 open id=8 width=64 length=9 edge=0 complete=0 new\n"
                 "4 open id=9 width=128 length=9 edge=0 complete=0 new\n")
        told = texts(drawing(lines, passed=b"".join(packets)))
        self.assertIn("Transfer 7, plant/page 611.pla: 3,000 octets, width 16", told)
        self.assertIn("Transfer 8, %1b[2J</text>&%25%ff%0d%0a: 9 octets, width 64", told)
        self.assertIn("Transfer 9, wide.pla: 9 octets, width 128", told)
        shown = ("1 metadata id=7 flags=000000 width=16 checksum= properties=0000 size=3000 mtime=0 ctime=0 "
                 "path=706167653631312e706c61\n2 open id=7 width=16 length=3000 edge=0 complete=0 new\n")
        self.assertIn("Transfer 7, page611.pla: 3,000 octets, width 16", texts(drawing(shown)))
        linked = ("1 open id=7 width=16 length=1 edge=0 complete=0 new\n"
                  "2 record id=7 offset=0 length=1 edge=1 complete=1 absorbed=0\n"
                  "2 complete id=7 length=1 file=00000007.page mtime=0 ctime=0 checksum= path=plant/page611.pla\n"
                  "3 lost id=7 offset=0 length=1\n4 too-large id=8 length=9 code=8\n4 too-many id=9 code=3\n"
                  "4 of-another-sender id=7 code=6\n5 close id=7 to-make-room\n")
        self.assertIn("Transfer 7, plant/page611.pla: 1 octet, width 16", texts(drawing(linked)))
        long = record(b"P", metadata(7, 16, 3000, b"a" * 500 + b"z" * 500))
        svg = drawing("1 open id=7 width=16 length=3000 edge=0 complete=0 new\n", passed=long)
        self.assertTrue(all(len(text) < 120 for text in texts(svg)), texts(svg))
        self.assertIn("Transfer 7, " + "a" * 500 + "z" * 500, tips(svg))

    def test_any_pass_gives_names_or_an_error(self):
        chance = random.Random(613)
        lines = "1 open id=7 width=16 length=3000 edge=0 complete=0 new\n"
        for _ in range(3000):
            packet = bytearray(metadata(7, chance.choice((16, 32, 64)), 3000, chance.randbytes(chance.randrange(20))))
            packet[chance.randrange(len(packet))] = chance.randrange(256)
            try:
                svg = drawing(lines, passed=record(b"P", bytes(packet[:chance.randrange(len(packet) + 1)])))
            except passplot.Wrong:
                continue
            tree.fromstring(svg)

    def test_the_legend_has_every_mark(self):
        told = texts(drawing(LATE))
        for name in ("received by this record", "received before", "hole", "beyond the edge", "not open", "complete",
                     "repeat: nothing new", "closed", "STATUS", "failure STATUS", "refused, with its number"):
            self.assertIn(name, told)

    def test_nothing_received_is_invisible(self):
        """Each packet that brought something lies in a box of a pixel at least, in long files and long passes too."""
        chance = random.Random(614)
        for length, count, times in ((2**64 - 1, 40, None), (10**9, 6000, None), (5000, 6000, None),
                                     (10**6, 900, {record: 10**15 + record // 100 for record in range(1, 901)})):
            lines, transfer = [f"1 open id=7 width=64 length={length} edge=0 complete=0 new"], passplot.Transfer(
                1, 7, 64, length)
            for number in range(2, count + 1):
                start = chance.choice((0, length - 1, chance.randrange(length), number * length // (count + 1)))
                stop = min(length, start + chance.choice((1, 1000)))
                absorbed = transfer.record(number, start, stop)
                lines.append(f"{number} record id=7 offset={start} length={stop - start} edge={transfer.edge} "
                             f"complete={int(transfer.complete)} absorbed={absorbed}")
            svg = drawing("\n".join(lines), times)
            covered = []
            for box in boxes(svg, passplot.NEW):
                self.assertGreaterEqual(float(box.get("width")), 1)
                self.assertGreaterEqual(float(box.get("height")), 1)
                found = re.fullmatch(r"records? (\d+)(?: to (\d+))?: ([\d,]+) to ([\d,]+)", box.find(SVG + "title").text)
                first, last = int(found[1]), int(found[2] or found[1])
                covered.append((first, last, *(int(found[at].replace(",", "")) for at in (3, 4))))
            for record, start, stop in transfer.pieces:
                self.assertTrue(any(first <= record <= last and low <= start and stop <= high
                                    for first, last, low, high in covered), (record, start, stop))
            self.assertLess(len(svg), 2_500_000)

    def test_low_holes_leave_room_for_what_was_received(self):
        """Many holes in few pixels: together they cover no more than half of what they lie in, or little more."""
        lines, runs = ["1 open id=7 width=32 length=60000000 edge=0 complete=0 new"], 60
        for number in range(2, 2 + runs):
            start = (number - 2) * 100000
            lines.append(f"{number} record id=7 offset={start} length=99000 edge={start + 99000} complete=0 absorbed=0")
        lines.append(f"{2 + runs} record id=7 offset=59999999 length=1 edge=60000000 complete=0 absorbed=0")
        svg = drawing("\n".join(lines))
        low = [float(box.get("height")) for box in boxes(svg, passplot.HOLE) if float(box.get("height")) < 1]
        self.assertEqual(len(low), runs - 1)
        self.assertLess(sum(low), 0.7 * 210 * 6000000 / 60000000)
        self.assertGreater(min(low), 0.1)

    def test_many_transfers(self):
        """A line for each, with its name, and the drawing stays low."""
        lines, passed = [], b""
        for ident in range(100):
            lines.append(f"{2 * ident + 1} open id={ident} width=16 length=10 edge=0 complete=0 new")
            lines.append(f"{2 * ident + 2} record id={ident} offset=0 length={ident % 2 * 5 + 5} "
                         f"edge={ident % 2 * 5 + 5} complete={ident % 2} absorbed=0")
            passed += record(b"P", metadata(ident, 16, 10, b"page%d" % ident)) + record(b"P", data(
                ident, 16, 0, bytes(ident % 2 * 5 + 5)))
        svg = drawing("\n".join(lines), passed=passed)
        self.assertLess(float(tree.fromstring(svg).get("height")), 2300)
        told = texts(svg)
        for ident in range(100):
            self.assertIn(f"page{ident} {ident}", told)
        self.assertEqual(told.count("NOT complete: 50.0% of 10"), 50)
        self.assertEqual(len(boxes(svg, passplot.NEW)), 100)

    def test_very_many_transfers_in_a_moment(self):
        """In processor time, which other programs don't change; with a look at all others for each it took 20 seconds."""
        lines = "".join(f"{2 * at + 1} open id=7 width=16 length=9 edge=0 complete=0 new\n{2 * at + 2} fresh\n"
                        for at in range(12000))
        begun = time.process_time()
        self.assertIn("opened again (12000)", drawing(lines))
        self.assertLess(time.process_time() - begun, 10)

    def test_times(self):
        times = {record: 1700000000 * 10**9 + record * 10**9 for record in range(1, 9) if record != 4}
        svg = drawing(LATE, times)
        self.assertIn("s since 2023-11-14 22:13:21 UTC", texts(svg))
        self.assertIn("7", texts(svg))
        self.assertIn("record 4: 0 to 1,000 again", tips(svg))
        for odd in ({1: 0}, {1: 2**64 - 1, 2: 0, 3: 2**63}, {8: 5}, {record: 7 for record in range(1, 9)}):
            tree.fromstring(drawing(LATE, odd))
        self.assertIn("record of the pass", texts(drawing(LATE, {})))

    def test_times_of_a_pass(self):
        """A time is that of the record after it; one that nothing follows, or of another length, is none."""
        start = 1700000000 * 10**9
        passed = [time_record(start), record(b"P", metadata(7, 16, 20)), record(b"F"), time_record(5),
                  time_record(start + 60 * 10**9), record(b"P", data(7, 16, 0, bytes(10))), record(b"W", bytes(7)),
                  record(b"P", data(7, 16, 10, bytes(10))), time_record(9)]
        lines = ("2 open id=7 width=16 length=20 edge=0 complete=0 new\n"
                 "6 record id=7 offset=0 length=10 edge=10 complete=0 absorbed=0\n7 bad length\n"
                 "8 record id=7 offset=10 length=10 edge=20 complete=1 absorbed=1\n")
        self.assertEqual(passplot.times_in(passplot.read(lines.split("\n")), split(b"".join(passed))[0]),
                         {2: start, 6: start + 60 * 10**9})
        told = texts(drawing(lines, passed=b"".join(passed)))
        self.assertIn("s since 2023-11-14 22:13:20 UTC", told)
        self.assertIn("4 records; 1 transfer, 1 complete", told)
        self.assertIn("60", told)

    def test_a_column_ends_where_the_next_time_begins(self):
        """The records between that have no time, as W records, don't make it narrow."""
        scale = passplot.ByTime({2: 0, 4: 10**9, 6: 2 * 10**9}, 0, 800)
        for number in (2, 4, 6):
            self.assertAlmostEqual(scale.stop(number) - scale.x(number), 4)
        crowded = passplot.ByTime({2: 0, 4: 1, 6: 1000}, 0, 800)
        self.assertAlmostEqual(crowded.stop(2), crowded.x(4))

    def test_ticks(self):
        self.assertEqual(list(passplot.ticks(1, 19, 20)), list(range(1, 20)))
        self.assertEqual(list(passplot.ticks(0, 3000, 6)), list(range(0, 3001, 500)))
        self.assertEqual(list(passplot.ticks(1, 533, 20)), list(range(50, 533, 50)))
        for high in (0, 1, 2, 9, 99, 2**32, 2**64 - 1):
            self.assertLessEqual(len(passplot.ticks(0, high, 6)), 7)


class Errors(unittest.TestCase):
    def wrong(self, line, message):
        with self.assertRaises(passplot.Wrong) as raised:
            passplot.read(["1 open id=7 width=16 length=30 edge=0 complete=0 new", line])
        self.assertEqual(str(raised.exception), "line 2: " + message)

    def test_messages(self):
        self.wrong("hello", "no line of replay: it begins with the record's number")
        self.wrong("2 hello", "no line of replay: hello")
        self.wrong("2 record id=8 offset=0 length=1 edge=1 complete=0 absorbed=0", "transfer 8, which no line before opened")
        self.wrong("2 record id=7 offset=0 length=10 edge=10 complete=1 absorbed=0",
                   "edge=10 complete=1, but the records so far give edge=10 complete=0")
        self.wrong("2 record id=7 offset=0 length=31 edge=31 complete=0 absorbed=0",
                   "octets past the end of transfer 7, which has 30")
        self.wrong("2 record id=7 offset=0", "length= and a number are missing")
        self.wrong("2 record id=7 offset=0 length=10 edge=10 complete=0", "absorbed= and a number are missing")
        self.wrong("2 record id=7 offset=0 length=10 edge=10 complete=0 absorbed=1",
                   "absorbed=1, but the records so far give absorbed=0")
        self.wrong("0 fresh", "record 0 after record 1")
        self.wrong("2 open id=7 width=16 length=30 edge=0 complete=0 new", "transfer 7 is open already")
        self.wrong("2 send 44", "send is followed by the octets of a STATUS")
        self.wrong("2 refused", "refused is followed by a number")
        self.wrong("2 taken-up id=7", "a transfer taken up from an earlier run: what was received before isn't in these "
                                      "lines")

    def test_the_program(self):
        def run(text, *options):
            done = subprocess.run([sys.executable, "-B", loading.path_of("passplot"), *options], input=text.encode(),
                                  capture_output=True, check=False)
            return done.stdout.decode(), done.stderr.decode(), done.returncode

        out, told, status = run(LATE, "--title", "Page <611> & more")
        self.assertEqual((told, status), ("", 0))
        self.assertIn("Page <611> & more", texts(out))
        self.assertTrue(re.match(r'<svg xmlns="http://www.w3.org/2000/svg" ', out))
        self.assertEqual(run("1 what\n"), ("", "passplot: standard input: line 1: no line of replay: what\n", 1))
        self.assertEqual(run("1 \x1b[2J\n")[1], "passplot: standard input: line 1: no line of replay: \\x1b[2J\n")
        self.assertEqual(run("9" * 9999 + " fresh\n")[2], 1)
        self.assertEqual(run(LATE, "-o", "/dev/full"), ("", "passplot: /dev/full: No space left on device\n", 1))
        self.assertEqual(run(LATE, "--pass", "/dev/null"), (
            "", "passplot: /dev/null: record 1 is no METADATA, and the lines say that it opened a transfer: they are of "
                "another pass\n", 1))
        with tempfile.TemporaryDirectory() as place:
            name = os.path.join(place, "timed.pass")
            with open(name, "wb") as file:
                file.write(time_record(1700000000 * 10**9) + record(b"P", metadata(7, 16, 20)))
            line = "2 open id=7 width=16 length=20 edge=0 complete=0 new\n"
            self.assertIn("since 2023-11-14 22:13:20 UTC", run(line, "--pass", name)[0])
            self.assertIn("record of the pass", run(line, "--pass", name, "--by-record")[0])
        self.assertEqual(run("", "/nowhere/lines"), ("", "passplot: /nowhere/lines: No such file or directory\n", 1))


if __name__ == "__main__":
    unittest.main()
