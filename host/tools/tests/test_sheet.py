"""sheet: what a page says beside the sheet that it is made from, what is no sheet, and, where Chromium is installed, its one page."""
import os
import re
import subprocess
import sys
import tempfile
import unittest
from xml.etree import ElementTree

import loading

sheet = loading.tool("sheet")

SIGNED = "Signed       ______________________________    Date  ________________\n"
SUM = "8f08d7f8397a63c8cefef65695773be3"
VERDICTS = {
    "whole": ("THE PAGE ARRIVED WHOLE.", "Every octet was received, and the checksum agrees."),
    "unchecked": ("EVERY OCTET WAS RECEIVED. THE PAGE WAS NOT CHECKED.", "There is no MD5 checksum to compare it with."),
    "open": ("DO NOT PRINT: THE PAGE IS NOT COMPLETE.", "Octets are missing."),
    "closed": ("DO NOT PRINT: THE TRANSFER WAS CLOSED.", "Which octets were received is no longer known."),
}


def missing(pairs):
    """The lines of what is missing, one stretch in each."""
    if not pairs:
        return "Missing      none\n"
    count = sum(stop - start for start, stop in pairs)
    first = f"Missing      {count:,} octets (10-20 stands for 10 to 19):\n"
    return first + "".join(f"             {start}-{stop}\n" for start, stop in pairs)


def text_of(verdict="open", pairs=((0, 100), (200, 400), (500, 3000)), length=3000, path='"page 611.pla"', checksum=None,
            ended="not yet", more="", file="0000001f.part"):
    """A sheet as saratoga-link writes it. Where `pairs` is None, it isn't known what is missing."""
    checksum = checksum or f"MD5 {SUM}: " + {"whole": "agrees", "open": "not checked, not complete"}.get(verdict, "not checked")
    headline, reason = VERDICTS[verdict]
    return ("PAGE SHEET\n\n" + f"Page         {path}\nLength       {length:,} octets\nFile         {file}\nTransfer     31, open\n"
            f"\n             {headline}\n             {reason}\n\n" + ("" if pairs is None else missing(list(pairs)))
            + f"Checksum     {checksum}\nRecordings   2, which absorbed 0 runs and left 2\nBegan        2026-11-14 04:00:00 UTC\n"
            f"Ended        {ended}\nWritten      2026-11-15 05:01:07 UTC\n{more}\n" + SIGNED)


def worst():
    """As much as a sheet can hold: the longest path, 65 stretches of the longest numbers."""
    high = 2**63
    pairs = [(0, high)] + [(high + 2 * number + 1, high + 2 * number + 2) for number in range(63)] + [(high + 127, 2**64 - 1)]
    path = "\n             ".join(['"' + "\\x1b\\xff" * 8, *["\\xfe<" * 13] * 3, "... of 1023 octets; all of them are in 0000001f.meta"])
    text = text_of("open", pairs, 2**64 - 1, path)
    return text.replace(f"{SUM}: not checked, not complete", f"{SUM}: not checked, not complete\n             the file has {SUM}").replace(
        "left 2\n", "left 2\n             counted since the program last began\n")


def page_of(text, name="0000001f.sheet"):
    return sheet.html(sheet.read(text.encode("latin-1")), name)


def words_of(page):
    """The text of a page, without its style."""
    tree = ElementTree.fromstring(page.replace("<!DOCTYPE html>\n", ""))
    for head in tree.findall("head"):
        tree.remove(head)
    return "\n".join(tree.itertext())


EXAMPLES = {
    "open": text_of(),
    "whole": text_of("whole", (), ended="2026-11-14 04:00:07 UTC", file="0000001f.page"),
    "unchecked": text_of("unchecked", (), checksum="none in METADATA: not checked", ended="2026-11-14 04:00:07 UTC"),
    "closed": text_of("closed", None, ended="not known"),
    "nothing": text_of(pairs=[(0, 3000)]),
    "empty": text_of("unchecked", (), 0, checksum="none in METADATA: not checked", ended="2026-11-14 04:00:00 UTC"),
    "escapes": text_of(path='"<script>&amp;</style>]]>"', more="Colour       <i>&\n"),
    "worst": worst(),
}


class Pages(unittest.TestCase):
    def test_every_line_of_the_sheet_is_on_the_page(self):
        for name, text in EXAMPLES.items():
            words = words_of(page_of(text))
            for line in text.replace(SIGNED, "Signed\n").splitlines()[1:]:
                for part in (line[:13].strip(), line[13:].rstrip(":")):
                    self.assertIn(part, words, f"{name}: {line}")
            for number in re.findall(r"[0-9][0-9,]*", text):
                self.assertIn(number, words, name)

    def test_nothing_runs_and_nothing_is_fetched(self):
        for name, text in EXAMPLES.items():
            page = page_of(text)
            for word in ("<script", "href", "src=", "@import", "http", "<link", "<iframe", "onload"):
                self.assertNotIn(word, page, name)
            self.assertEqual(set(re.findall(r"url\((.*?)\)", page)), {"#hatch"}, name)
            self.assertIn("@page { size: A4 portrait", page)

    def test_verdicts(self):
        for name, kind in (("open", "not"), ("whole", "whole"), ("unchecked", "unchecked"), ("closed", "not"), ("worst", "not")):
            tree = ElementTree.fromstring(page_of(EXAMPLES[name]).replace("<!DOCTYPE html>\n", ""))
            verdict = [part for part in tree.iter("div") if part.get("class", "").startswith("verdict")]
            self.assertEqual([part.get("class") for part in verdict], [f"verdict {kind}"])
            self.assertEqual(verdict[0][0].tail, sheet.read(EXAMPLES[name].encode()).reason)

    def test_the_picture(self):
        """What is drawn: the file, and over it what is missing, each where it is."""
        def shapes(text):
            page = page_of(text)
            picture = page[page.index("</defs>"):page.index('<rect class="frame" x="0"')]
            return [(kind, float(x), float(wide)) for kind, x, wide in
                    re.findall(r'<rect class="(\w+)" x="([0-9.]+)" y="0" width="([0-9.]+)"', picture)]
        self.assertEqual(shapes(EXAMPLES["open"]), [("received", 0, 1800), ("hole", 0, 60), ("hole", 120, 120), ("beyond", 300, 1500)])
        self.assertEqual(shapes(EXAMPLES["whole"]), [("received", 0, 1800)])
        self.assertEqual(shapes(EXAMPLES["closed"]), [("unknown", 0, 1800)])
        self.assertEqual(shapes(EXAMPLES["nothing"]), [("received", 0, 1800), ("beyond", 0, 1800)])
        self.assertEqual(shapes(EXAMPLES["empty"]), [])
        # What is narrow is seen, received or not, also at either end.
        drawn = shapes(text_of(pairs=[(1, 10**9 // 2), (10**9 // 2 + 1, 10**9 - 1)], length=10**9))
        self.assertEqual([one[0] for one in drawn], ["received", "hole", "hole", "received", "received", "received"])
        self.assertEqual(drawn[3:], [("received", 0, 3), ("received", 900, 3), ("received", 1797, 3)])
        for _, x, wide in shapes(EXAMPLES["worst"]):
            self.assertTrue(0 <= x and x + wide <= 1800 and wide >= 3)

    def test_the_legend(self):
        self.assertIn("received: 200 octets", words_of(page_of(EXAMPLES["open"])))
        self.assertIn("2 holes: 300 octets", words_of(page_of(EXAMPLES["open"])))
        self.assertIn("beyond the edge, 500: 2,500 octets", words_of(page_of(EXAMPLES["open"])))
        self.assertIn("received: 64 octets", words_of(page_of(EXAMPLES["worst"])))
        self.assertNotIn("hole", words_of(page_of(EXAMPLES["whole"])))

    def test_how_long_it_took(self):
        self.assertIn("1 d 1 h 1 min 7 s from beginning to this sheet; it is not over", words_of(page_of(EXAMPLES["open"])))
        self.assertIn("7 s from beginning to end", words_of(page_of(EXAMPLES["whole"])))
        self.assertNotIn("from beginning", words_of(page_of(EXAMPLES["closed"])))

    def test_the_scale(self):
        """Its numbers are exact, the last is the length, and none runs into the next."""
        for length in (0, 1, 2, 7, 3000, 65535, 10**6 + 1, 10**12 - 1, 2**63 + 5, 2**64 - 1):
            places = sheet.ticks(length)
            self.assertEqual(places, sorted(set(places)))
            self.assertEqual(places[-1:], [length] if length else [])
            ends = -40.0
            for place in places:
                x, wide = 1800 * place / max(length, 1), 18 * len(f"{place:,}")
                left = x if place == 0 else x - wide if place == length else x - wide / 2
                self.assertGreater(left, ends, length)
                ends = left + wide
            self.assertIn(f">{length:,}</text>" if length else "<svg", page_of(text_of(pairs=[(0, length)] if length else (), length=length)))

    def test_the_list_has_room(self):
        """By its own count of millimetres, with letters of the least size where there is much."""
        self.assertIn("font-size:9pt", page_of(EXAMPLES["open"]))
        self.assertIn("font-size:6pt", page_of(EXAMPLES["worst"]))
        many = text_of(more="".join(f"Label{number:03}     x\n" for number in range(60)))
        with self.assertRaisesRegex(sheet.Wrong, "does not fit a page"):
            page_of(many)


LINES = """1 fresh
2 open id=31 width=16 length=3000 edge=0 complete=0 new
3 open id=9 width=16 length=9 edge=0 complete=0 new
4 record id=31 offset=100 length=100 edge=200 complete=0 absorbed=0
5 record id=31 offset=400 length=100 edge=500 complete=0 absorbed=0
6 record id=31 offset=400 length=100 edge=500 complete=0 absorbed=1
7 record id=9 offset=0 length=9 edge=9 complete=1 absorbed=0"""


def long_lines(length=2**32 - 1, records=20000):
    """Lines of a pass with very many records, in order, and the stretch at the end that its sheet lacks."""
    lines = [f"1 open id=31 width=32 length={length} edge=0 complete=0 new"]
    step = length // records
    for number in range(records - 1):
        start, absorbed = number * step, 1 if number else 0
        lines.append(f"{number + 2} record id=31 offset={start} length={step} edge={start + step} complete=0 absorbed={absorbed}")
    return lines, [((records - 1) * step, length)]


class When(unittest.TestCase):
    """The picture of what was received when, from lines."""

    def made(self, text, lines):
        parsed = sheet.read(text.encode())
        return sheet.html(parsed, "0000001f.sheet", sheet.history(parsed, lines))

    def shapes(self, page):
        picture = page[page.index('class="when"'):page.index("Missing")]
        return re.findall(r'<rect class="(before|received)" x="([0-9.]+)" y="([0-9]+)" width="([0-9.]+)" height="([0-9]+)"', picture)

    def test_what_each_record_brought(self):
        page = self.made(EXAMPLES["open"], LINES.split("\n"))
        self.assertIn("What was received when", words_of(page))
        self.assertIn("record 2", words_of(page))
        self.assertIn("record 7", words_of(page))
        # 400 high and 6 records wide: record 4 brought 100 to 200 of 3,000, record 5 400 to 500.
        self.assertEqual(self.shapes(page), [
            ("before", "600.00", "374", "1200.00", "13"), ("before", "900.00", "334", "900.00", "13"),
            ("received", "600.00", "374", "300.00", "13"), ("received", "900.00", "334", "300.00", "13")])

    def test_very_many_records(self):
        lines, pairs = long_lines()
        page = self.made(text_of(pairs=pairs, length=2**32 - 1), lines)
        self.assertLess(len(page), 100000)
        self.assertGreater(len(self.shapes(page)), 500)

    def test_no_room(self):
        """The longest list leaves none; the page says so, and has the list."""
        parsed = sheet.read(EXAMPLES["worst"].encode())
        page = sheet.html(parsed, "a", (1, 9, [(2, 0, 9)]))
        self.assertIn("no room on this page", words_of(page))
        self.assertNotIn('class="when"', page)

    def test_an_empty_file(self):
        page = self.made(EXAMPLES["empty"], ["1 open id=31 width=16 length=0 edge=0 complete=1 new"])
        self.assertEqual(self.shapes(page.replace("Missing: none", "Missing")), [])

    def test_other_lines(self):
        for lines, reason in ((LINES.replace("id=31", "id=30"), "no line opens"), (LINES.replace("length=3000", "length=3001"), "no line opens"),
                              ("\n".join(LINES.split("\n")[:4]), "other octets are missing"), ("what", "--lines: line 1: no line of replay"),
                              ("", "no line opens")):
            with self.assertRaisesRegex(sheet.Wrong, reason):
                self.made(EXAMPLES["open"], lines.split("\n"))


class NoSheets(unittest.TestCase):
    def wrong(self, text, reason):
        with self.assertRaisesRegex(sheet.Wrong, reason):
            page_of(text)

    def test_form(self):
        good = EXAMPLES["open"]
        self.wrong("", "PAGE SHEET")
        self.wrong("x" * 7000, "6,144 octets")
        self.wrong(good[:-1], "cut short")
        self.wrong(good.replace("611", "6\xe91"), "line 3: .*ASCII")
        self.wrong(good.replace("611", "6\x1b1"), "line 3")
        self.wrong(good.replace("611", "6" * 90), "line 3")
        self.wrong(good + "\n" * 100, "100 lines")
        for label in sheet.NEEDED:
            self.wrong(re.sub(rf"^{label} .*\n", "", good, flags=re.M), f"{label} is missing|neither none|no stretch")
        self.wrong(good.replace("Began  ", "Ended  "), "line 18: Ended stands twice")
        self.wrong(good.replace("             Octets are missing.\n", ""), "verdict")

    def test_numbers(self):
        good = EXAMPLES["open"]
        self.wrong(good.replace("3,000 octets", "3,00 octets"), "Length")
        self.wrong(good.replace("3,000 octets", "many octets"), "Length")
        self.wrong(good.replace("2,800", "2,801"), "as many")
        self.wrong(good.replace("500-3000", "500-3001"), "past the length")
        self.wrong(good.replace("200-400", "100-400"), "do not rise")
        self.wrong(good.replace("0-100\n", "100-0\n"), "do not rise")
        self.wrong(good.replace("200-400", "200+400"), "no stretch")
        self.wrong(good.replace("(10-20 stands", "(stands"), "neither none")

    def test_contradictions(self):
        """Nothing says that a page may be printed where another line of the sheet says otherwise."""
        good = EXAMPLES["whole"]
        self.wrong(good.replace(": agrees", ": differs"), "does not agree")
        self.wrong(good.replace("none\n", "1 octets (10-20 stands for 10 to 19):\n             5-6\n"), "octets are missing")
        self.wrong(EXAMPLES["unchecked"].replace("Missing      none\n", ""), "octets are missing")
        self.wrong(good.replace("THE PAGE ARRIVED WHOLE.", "FINE."), "none that is known")


class Program(unittest.TestCase):
    def setUp(self):
        holder = tempfile.TemporaryDirectory()
        self.addCleanup(holder.cleanup)
        self.place = holder.name

    def run_with(self, *options, octets=b""):
        done = subprocess.run([sys.executable, "-B", loading.path_of("sheet"), *options], input=octets, capture_output=True, check=False)
        return done.stdout, done.stderr.decode(), done.returncode

    def test_files(self):
        source, target = os.path.join(self.place, "0000001f.sheet"), os.path.join(self.place, "0000001f.html")
        with open(source, "w", encoding="ascii") as file:
            file.write(EXAMPLES["open"])
        self.assertEqual(self.run_with(source, "-o", target), (b"", "", 0))
        with open(target, encoding="utf-8") as file:
            self.assertEqual(file.read(), page_of(EXAMPLES["open"]))
        lines = os.path.join(self.place, "lines")
        with open(lines, "w", encoding="ascii") as file:
            file.write(LINES)
        self.assertIn(b"What was received when", self.run_with(source, "--lines", lines)[0])
        self.assertEqual(self.run_with("--lines", source, source),
                         (b"", f"sheet: {source}: no sheet: --lines: line 1: no line of replay: it begins with the record's number\n", 1))
        out, told, status = self.run_with(octets=EXAMPLES["open"].encode())
        self.assertEqual((out.decode(), told, status), (page_of(EXAMPLES["open"], "standard input"), "", 0))

    def test_messages(self):
        self.assertEqual(self.run_with(octets=b"x"), (b"", "sheet: standard input: no sheet: its first line is not PAGE SHEET\n", 1))
        self.assertEqual(self.run_with("/nowhere/a"), (b"", "sheet: /nowhere/a: No such file or directory\n", 1))
        self.assertEqual(self.run_with("-o", "/dev/full", octets=EXAMPLES["open"].encode())[1:],
                         ("sheet: /dev/full: No space left on device\n", 1))
        self.assertEqual(self.run_with("--what")[2], 2)
        self.assertIn(b"usage: sheet", self.run_with("--help")[0])


# For the test in Chromium alone: measures each box beside the page, in millimetres, and says so in the document.
MEASURE = """<script>
var all = document.querySelectorAll(".page *"), page = document.querySelector(".page").getBoundingClientRect(), out = [];
for (var i = 0; i < all.length; i++) {
  var box = all[i].getBoundingClientRect();
  if (all[i].closest("defs")) continue;
  if (box.right > page.right + 5 || box.left < page.left - 5 || all[i].scrollWidth > all[i].clientWidth + 1 && all[i].clientWidth > 0)
    out.push(all[i].tagName + " " + all[i].textContent.slice(0, 40));
}
var spans = document.querySelectorAll(".list span");
for (var i = 0; i + 1 < spans.length; i++) {
  var here = spans[i].getBoundingClientRect(), next = spans[i + 1].getBoundingClientRect();
  if (here.top == next.top && here.right > next.left) out.push("overlap " + spans[i].textContent);
}
var told = document.createElement("pre");
told.textContent = "MEASURED " + (page.height * 25.4 / 96).toFixed(1) + " " + out.join("; ") + " END";
document.body.appendChild(told);
</script></body>"""


def with_lines():
    """Lines and sheets with a picture of what was received when: few stretches, very many records, and as many stretches as leave room."""
    lines, pairs = long_lines()
    some = ["1 open id=31 width=32 length=3000 edge=0 complete=0 new"]
    for number in range(60):
        some.append(f"{number + 2} record id=31 offset={2 * number} length=1 edge={2 * number + 1} complete=0 absorbed=0")
    gaps = [(2 * number + 1, 2 * number + 2) for number in range(59)] + [(119, 3000)]
    return {"lines": (LINES.split("\n"), EXAMPLES["open"]), "many records": (lines, text_of(pairs=pairs, length=2**32 - 1)),
            "many stretches": (some, text_of(pairs=gaps))}


class InChromium(unittest.TestCase):
    def chromium(self, *options):
        return subprocess.run([*loading.chromium(self), *options], capture_output=True, check=True, timeout=120).stdout.decode("utf-8", "replace")

    def test_one_page_and_nothing_cut(self):
        """The examples with most text; all of them where SARATOGA_EXTRA is set."""
        with tempfile.TemporaryDirectory() as place:
            pages = {name: page_of(text) for name, text in EXAMPLES.items()}
            for name, (lines, text) in with_lines().items():
                parsed = sheet.read(text.encode())
                pages[name] = sheet.html(parsed, "a.sheet", sheet.history(parsed, lines))
            for name, page in pages.items():
                if name not in ("worst", "unchecked", "many stretches") and not os.environ.get("SARATOGA_EXTRA"):
                    continue
                path = os.path.join(place, name.replace(" ", "-"))
                with open(path + ".html", "w", encoding="utf-8") as file:
                    file.write(page)
                self.chromium(f"--print-to-pdf={path}.pdf", "--no-pdf-header-footer", "--print-to-pdf-no-header", f"file://{path}.html")
                with open(path + ".pdf", "rb") as file:
                    pages = re.findall(rb"/Type\s*/Page[^s]", file.read())
                self.assertEqual(len(pages), 1, name)
                self.chromium(f"--screenshot={path}.png", "--window-size=800,1130", f"file://{path}.html")
                self.assertGreater(os.path.getsize(path + ".png"), 5000, name)
                with open(path + ".measured.html", "w", encoding="utf-8") as file:
                    file.write(page.replace("</body>", MEASURE))
                told = re.search("<pre>MEASURED ([0-9.]+) (.*) END", self.chromium("--dump-dom", f"file://{path}.measured.html"), re.S)
                self.assertEqual(told[2], "", name)
                self.assertLessEqual(float(told[1]), sheet.PAGE - 2 * sheet.MARGIN, name)


if __name__ == "__main__":
    unittest.main()
