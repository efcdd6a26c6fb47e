"""Tests of the check before the plate and of the sheet that the printer signs. Run by test.py; each function takes the
program and an empty directory."""
import calendar
import hashlib
import os
import random
import re
import time

from harness import at, check, content, is_there, page, real, records, run, stem as latest, stored
from packets import END_OF_DATA, WANTED, data, metadata
from plant import Link, side_by_side

MD5, DIFFERS = 0x42, 3  # the checksum pair in METADATA, and the exit status
WHOLE, SIGNED = "THE PAGE ARRIVED WHOLE.", "Signed       ______________________________    Date  ________________\n"
FORM = re.compile(r"""PAGE SHEET

Page         (?P<path>".*(?:\n             .*)*)
Length       (?P<length>[0-9,]+) octets
File         (?P<file>\S+)
Transfer     (?P<transfer>.*)

             (?P<headline>.*)
             (?P<reason>.*)

(?:Missing      (?P<missing>.*(?:\n             .*)*)
)?Checksum     (?P<checksum>.*(?:\n             .*)*)
(?:Recordings   (?P<recordings>.*(?:\n             .*)*)
)?Began        (?P<began>.*)
Ended        (?P<ended>.*)
Written      (?P<written>\d{4}-\d\d-\d\d \d\d:\d\d:\d\d UTC)

""" + SIGNED)


def sum_of(octets):
    return hashlib.md5(octets).digest()


def opening(ident, octets, width=32, digest=None, path=b"page 611.pla"):
    """METADATA of these octets, with their MD5 or another."""
    return metadata(ident, width, len(octets), path, flags=MD5, checksum=digest or sum_of(octets))


def flipped(octets, at):
    """The same octets with one bit changed."""
    changed = bytearray(octets)
    changed[at] ^= 1
    return bytes(changed)


def sheet(place, name):
    """The parts of a sheet, which must be one page of plain text."""
    text = content(place, name).decode("ascii")
    lines = text.split("\n")
    check(len(lines) <= 66 and all(len(line) <= 80 for line in lines), f"{name} is no page: {text}")
    found = FORM.fullmatch(text)
    check(found, f"{name} hasn't the form of a sheet: {text}")
    parts = {key: re.sub(r"\n {13}", " ", value or "") for key, value in found.groupdict().items()}
    check((WHOLE in text) == (parts["headline"] == WHOLE), f"{name}: {text}")
    return parts


def has(parts, **expected):
    for key, value in expected.items():
        check(parts[key] == value, f"{key}: {parts[key]!r}, not {value!r}")


def right_files(originals):
    """What the files of all Ids should be: an Id has one, several by their paths, or one and what came in its place."""
    return [octets for known in originals.values()
            for octets in (known.values() if isinstance(known, dict) else known[:1] if isinstance(known, tuple) else [known])]


def every_sheet(place, originals):
    """At every moment: a page has its sheet, and agrees with its MD5; and a sheet says that one arrived whole only where all
    its octets are there."""
    files = right_files(originals)
    for name in os.listdir(place):
        stem, _, suffix = name.rpartition(".")
        if suffix == "page":
            known = content(place, stem + ".meta").decode()
            check(stem + ".sheet" in os.listdir(place), f"{name} has no sheet")
            given = re.search(r"\nchecksum=2:(\w+)\n", known)
            check(not given or given[1] == sum_of(content(place, name)).hex(), f"{name} differs from its checksum")
        if suffix != "sheet":
            continue
        parts, ident = sheet(place, name), int(name[:8], 16)
        if parts["headline"] == WHOLE:
            names = [other for other in (stem + ".page", stem + ".part") if other in os.listdir(place)]
            check(names and content(place, names[0]) in files, f"{name} says that {names} arrived whole")
        if parts["missing"] == "none" and stem == latest(place, ident) and ident in stored(place):
            length, runs = stored(place)[ident]
            check(runs == [(0, length)] or length == 0, f"{name} says that nothing is missing, and the area on disk doesn't")


# What is checked, and what is said.


def agrees(program, place):
    for number, length in enumerate((0, 1, 63, 65536, 65537, 200000)):
        text = page(length, 70 + number)
        chunks = [(at, text[at:at + 50000]) for at in range(0, length, 50000)]
        packets = [opening(number, text), *[data(number, 32, at, chunk, WANTED) for at, chunk in reversed(chunks)]]
        lines, told, status = run(program, place, "-q", "-", octets=records(packets))
        last = lines[-1]
        check((told, status) == ("", 0) and last.split(" ", 1)[1].startswith(
            f"complete id={number} length={length} file={real(place, f'{number:08x}.page')} recordings={len(chunks)} absorbed="), (told, last))
        date = "2000-01-01T00:00:00Z"
        check(f" md5=agrees mtime={date} ctime={date} checksum=2:{sum_of(text).hex()} " in last, last)
        check(content(place, f"{number:08x}.page") == text, "the page")
        runs = min(1, length)
        has(sheet(place, f"{number:08x}.sheet"), path='"page 611.pla"', length=f"{length:,}",
            file=real(place, f"{number:08x}.page"),
            transfer=f"{number}, complete", headline=WHOLE, missing="none", checksum=f"MD5 {sum_of(text).hex()}: agrees",
            recordings=f"{len(chunks)}, which absorbed {len(chunks) - runs} runs and left {runs}")
    check(not any(name.endswith(".differs") for name in os.listdir(place)), os.listdir(place))


def differs(program, place):
    """One bit of a page, or of its checksum: an error that nobody overlooks, and no page."""
    text = page(200000, 80)
    wrong = [(text, flipped(text, at)) for at in (0, 65535, 65536, 131072, 199999)]
    for number, (original, came) in enumerate(wrong + [(b"x", b"y"), (b"", b"")]):
        digest = sum_of(original) if original else flipped(sum_of(b""), 15)
        packets = [opening(number, original, digest=digest)]
        packets += [data(number, 32, at, came[at:at + 60000], WANTED) for at in range(0, len(came), 60000)]
        lines, told, status = run(program, place, "-", octets=records(packets))
        name = real(place, f"{number:08x}.differs")
        check(status == DIFFERS, f"ends with {status}")
        check([line.split("saratoga-link: ERROR: ")[1].split(" ")[0] for line in told.splitlines()] == ["transfer", "1"], told)
        check(f"{place}/{name}" in told and "NOT handed on" in told, told)
        last = str(len(packets))
        runs = min(1, len(came))
        work = f"recordings={len(packets) - 1} absorbed={len(packets) - 1 - runs} runs={runs}"
        said = f"{last} differs id={number} length={len(came)} file={name} {work} md5=differs mtime="
        check(lines[-3].startswith(said), lines[-3])
        check(lines[-2:] == [f"{last} close id={number} differs {work}", f"{last} send 44000006{number:08x}"], lines[-2:])
        check(not any(" complete " in line for line in lines), lines)
        check(content(place, name) == came and number not in stored(place), "it isn't kept, or not closed")
        has(sheet(place, f"{number:08x}.sheet"), headline="DO NOT PRINT: THE CHECKSUM DIFFERS.", file=name, missing="none",
            checksum=f"MD5 {digest.hex()}: differs the file has {sum_of(came).hex()}")
    check(not any(name.endswith((".page", ".part", ".aside")) for name in os.listdir(place)), os.listdir(place))
    # Also where only complete files are reported.
    lines, told, status = run(program, place, "-q", "-", octets=records([opening(99, b"ab"), data(99, 32, 0, b"aB")]))
    check(len(lines) == 1 and lines[0].startswith("2 differs id=99 ") and status == DIFFERS, (lines, told))


def sent_again(program, place):
    """The sender isn't told that the page is complete, and sends it again; the error stays."""
    text = page(3000, 81)
    link = Link(program, place)
    link.quiet_send(opening(7, text), data(7, 32, 0, flipped(text, 9)[:2000], WANTED))
    check(link.send(data(7, 32, 2000, text[2000:], END_OF_DATA)) == bytes.fromhex("4400000600000007"), "the answer")
    check(link.send(data(7, 32, 2000, text[2000:], WANTED)) == bytes.fromhex("4400000600000007"), "the answer to more DATA")
    link.quiet_send(opening(7, text), data(7, 32, 0, text[:2000], WANTED))
    answer = link.send(data(7, 32, 2000, text[2000:], WANTED))
    check(answer == bytes.fromhex("44410000" "00000007" "00000bb8" "00000bb7"), answer)
    check(link.end() == DIFFERS, link.told)
    check(content(place, "00000007.2.page") == text and content(place, "00000007.differs") == flipped(text, 9), "the files")
    has(sheet(place, "00000007.2.sheet"), headline=WHOLE, recordings="2, which absorbed 1 runs and left 1")
    check(sheet(place, "00000007.sheet")["headline"] == "DO NOT PRINT: THE CHECKSUM DIFFERS.", "the first sheet")
    # The next program has nothing to complain of.
    check(run(program, place, "-q", "-")[1:] == ("", 0), "after a restart")


def not_checked(program, place):
    """Other checksums, and none: the page is handed on, and nobody says that it is the one that was sent."""
    pairs = ((0x00, "none in METADATA"), (0x53, "of type 3, which is no MD5"), (0xFF, "of type 15, which is no MD5"),
             (0x44, "of type 4, which is no MD5"))
    for number, (pair, words) in enumerate(pairs):
        text = page(100, 82)
        checksum = sum_of(text) if pair == 0x44 else bytes(4 * (pair >> 4))
        packets = [metadata(number, 16, 100, flags=pair, checksum=checksum), data(number, 16, 0, text)]
        lines, told, status = run(program, place, "-q", "-", octets=records(packets))
        check((told, status) == ("", 0) and " complete " in lines[-1] and " md5=not-checked " in lines[-1], (lines, told))
        check(content(place, f"{number:08x}.page") == text, "the page")
        has(sheet(place, f"{number:08x}.sheet"), checksum=words + ": not checked", missing="none",
            headline="EVERY OCTET WAS RECEIVED. THE PAGE WAS NOT CHECKED.")


def made_again(program, place):
    """Any METADATA that is taken is made again from its text: of none does a restart say that its .meta is another's."""
    chance = random.Random(1321)

    def any_metadata(ident):
        width, size_width = chance.choice((16, 32, 64, 128)), chance.choice((16, 32, 64, 128))
        size = chance.choice((1, 2**16 - 1, chance.getrandbits(min(width, size_width, 64)) or 1))
        kind = chance.choice((0, *range(2, 16)))
        words = {0: 0, 2: 4, 3: 5}.get(kind) if kind < 4 else chance.randrange(1, 16)
        flags = words << 4 | kind | chance.getrandbits(12) << 8 & ~0x080000  # bits 13 to 23 have no rule here; 12 ends a transfer
        path = bytes(chance.randrange(1, 256) for _ in range(chance.choice((1, 12, 1023))))
        return metadata(chance.getrandbits(28) << 4 | ident, width, size, path, flags, chance.randbytes(4 * words),
                        chance.getrandbits(32), chance.getrandbits(32), chance.getrandbits(16) & ~0x03E0, size_width)

    for number in range(8):
        here = os.path.join(place, str(number))
        os.mkdir(here)
        packets = [any_metadata(ident) for ident in range(16)]
        for said in (" new", " already-open"):
            lines, told, status = run(program, here, "--no-fsync", "--largest", str(2**64 - 1), "-", octets=records(packets))
            check((told, status) == ("", 0) and sum(line.endswith(said) for line in lines) == 16, (told, lines))


def restarted(program, place):
    """What an earlier program left is checked before anything is said of it."""
    text = page(100000, 83)

    def left(name):
        """A directory with a complete transfer, as the program leaves it."""
        here = os.path.join(place, name)
        os.mkdir(here)
        packets = [opening(7, text), *[data(7, 32, at, text[at:at + 20000]) for at in range(0, 100000, 20000)]]
        check(run(program, here, "-q", "-", octets=records(packets))[2] == 0, "the first program")
        return here

    def moved(here, old, new, octets=None):
        os.rename(os.path.join(here, "00000007.1." + old), os.path.join(here, "00000007.1." + new))
        if octets:
            with open(os.path.join(here, "00000007.1." + new), "wb") as file:
                file.write(octets)

    # As it was: checked and reported again, and the sheet, which knows how much work it was, stays.
    here = left("same")
    before = content(here, "00000007.sheet")
    lines, told, status = run(program, here, "-q", "-")
    check((told, status, len(lines)) == ("", 0, 1) and " md5=agrees " in lines[0], (lines, told))
    check(content(here, "00000007.sheet") == before and "5, which absorbed 4 runs and left 1" in before.decode(), before)
    # Ended before the page had its sheet, or its name.
    for name, harm in (("sheet", lambda: None), ("name", lambda: moved(here, "page", "part"))):
        here = left(name)
        os.remove(at(here, "00000007.sheet"))
        harm()
        lines, told, status = run(program, here, "-q", "-")
        check((told, status) == ("", 0) and " complete id=7 " in lines[0] and " md5=agrees " in lines[0], (lines, told))
        has(sheet(here, "00000007.sheet"), headline=WHOLE,
            recordings="0, which absorbed 0 runs and left 1 counted since the program last began")
        check(content(here, "00000007.page") == text, "the page")
    # A file that isn't the one: before it had a name, with that of a page, and before its transfer was closed.
    for old, new in (("page", "part"), ("page", "page"), ("page", "differs")):
        here = left("other-" + new)
        moved(here, old, new, flipped(text, 99999))
        for options in (("--list",), ("-q", "-")):
            lines, told, status = run(program, here, *options)
        check(status == DIFFERS and " differs id=7 " in lines[0] and told.count("ERROR") == 2, (new, lines, told))
        check(content(here, "00000007.differs") == flipped(text, 99999) and 7 not in stored(here), "it is handed on")
        check(not os.path.exists(at(here, "00000007.page")), "it is handed on")
        headline = sheet(here, "00000007.sheet")["headline"]
        check(new == "differs" or headline == "DO NOT PRINT: THE CHECKSUM DIFFERS.", headline)
        check(run(program, here, "-q", "-")[1:] == ("", 0), "told again, although it is closed")


# The sheet of a page that isn't complete.


def incomplete(program, place):
    text = page(3000, 84)
    parts = [data(34, 32, 100, text[100:200]), data(34, 32, 400, text[400:500])]
    check(run(program, place, "-", octets=records([opening(34, text), *parts]))[1:] == ("", 0), "it ends")
    told = dict(path='"page 611.pla"', length="3,000", headline="DO NOT PRINT: THE PAGE IS NOT COMPLETE.",
                missing="2,800 octets (10-20 stands for 10 to 19): 0-100  200-400  500-3000",
                checksum=f"MD5 {sum_of(text).hex()}: not checked, not complete")
    has(sheet(place, "00000022.sheet"), file="00000022.1.part", transfer="34, open", ended="not yet",
        recordings="2, which absorbed 0 runs and left 2", **told)
    # A program that hears nothing of it leaves the sheet. Then the page is given up.
    before = content(place, "00000022.sheet")
    run(program, place, "-")
    check(content(place, "00000022.sheet") == before, "a sheet is written without need")
    run(program, place, "-", octets=records(parts[:1]))
    has(sheet(place, "00000022.sheet"), **told,
        recordings="1, which absorbed 1 runs and left 2 counted since the program last began")
    check(run(program, place, "--close", "0000001f.1.sheet")[2] == 1, "it is none of Id 34")
    check(run(program, place, "--close", "00000022.2.sheet")[2] == 1, "it is of another file")
    check(run(program, place, "--close", "00000022.1.sheet")[2] == 0, "--close takes the name of a sheet")
    has(sheet(place, "00000022.sheet"), file="00000022.1.aside", transfer="34, closed: asked", **told)
    check(content(place, "00000022.aside")[100:200] == text[100:200], "what it had")

    # Another file under the Id; one of which nothing came, and that leaves nothing; the rest past the last octet.
    packets = [opening(5, text, path=b"a"), data(5, 32, 0, text[:2999]), opening(5, text, path=b"b"),
               opening(5, text, path=b"c")]
    check(run(program, place, "-q", "-", octets=records(packets))[2] == 0, "it ends")
    has(sheet(place, "00000005.sheet"), path='"a"', transfer="5, closed: other-metadata", file="00000005.2.aside",
        missing="1 octets (10-20 stands for 10 to 19): 2999-3000")
    has(sheet(place, "00000005.4.sheet"), path='"c"', transfer="5, open", recordings="0, which absorbed 0 runs and left 0",
        missing="3,000 octets (10-20 stands for 10 to 19): 0-3000")
    check(not any(name.startswith("00000005.3.") for name in os.listdir(place)), "what nothing came of leaves files")

    # Ended while it was closed: nobody knows any more what came.
    with open(at(place, "00000005.4.part"), "wb") as file:
        file.write(b"some")
    os.remove(os.path.join(place, "area"))
    run(program, place, "-")
    has(sheet(place, "00000005.4.sheet"), path='"c"', transfer="5, closed: the program was ended meanwhile", missing="",
        headline="DO NOT PRINT: THE TRANSFER WAS CLOSED.", file="00000005.4.aside", recordings="")
    has(sheet(place, "00000005.2.sheet"), path='"a"', transfer="5, closed: other-metadata")


def a_page_at_most(program, place):
    """As many holes as there can be, in a file as long as can be, with the longest path: still a page."""
    for ident, width, size, at in ((7, 64, 2**30, 2**29), (8, 64, 12 * 10**12, 10**13), (9, 64, 2**64 - 1, 2**63)):
        path = b"\x1b\xff" * 511 + b"x"
        packets = [metadata(ident, width, size, path, flags=MD5, checksum=bytes(16))]
        if ident < 9:
            packets += [data(ident, width, at + 2 * number, b"x") for number in range(64)]
        lines, told, status = run(program, place, "--no-fsync", "--largest", str(2**64 - 1), "-", octets=records(packets))
        if ident == 8 and "File too large" in told:  # not on this file system
            continue
        parts = sheet(place, f"{ident:08x}.sheet")
        stretches = parts["missing"].split(": ")[1].split()
        ends = [(0, at)] + [(at + 2 * number + 1, at + 2 * number + 2) for number in range(63)] + [(at + 127, size)]
        check(stretches == [f"{start}-{stop}" for start, stop in (ends if ident < 9 else [(0, size)])], stretches)
        check(parts["path"].startswith('"\\x1b\\xff') and
              parts["path"].endswith(f"of 1023 octets; all of them are in {real(place, f'{ident:08x}.meta')}"), parts["path"])
        check(parts["length"] == f"{size:,}", parts["length"])


def times(program, place):
    """When a page began, and when its last octet came, also where programs were started in between."""
    text = page(100, 85)
    run(program, place, "-", octets=records([opening(7, text), data(7, 32, 0, text[:60])]))
    os.utime(at(place, "00000007.meta"), (0, 1234567890))
    begun = int(time.time())
    run(program, place, "-", octets=records([data(7, 32, 60, text[60:])]))
    parts = sheet(place, "00000007.sheet")
    has(parts, began="2009-02-13 23:31:30 UTC", headline=WHOLE)
    ended = calendar.timegm(time.strptime(parts["ended"], "%Y-%m-%d %H:%M:%S UTC"))
    check(begun <= ended <= time.time(), parts)
    # Complete, and the program ended before that was said.
    os.rename(at(place, "00000007.page"), at(place, "00000007.part"))
    os.utime(at(place, "00000007.part"), (0, 1234567899))
    run(program, place, "-")
    has(sheet(place, "00000007.sheet"), began="2009-02-13 23:31:30 UTC", ended="2009-02-13 23:31:39 UTC", headline=WHOLE)


def given_up(program, place):
    """A page whose file isn't there any more, or was cut, isn't whole, whatever its sheet said before."""
    text = page(100, 86)
    for number, now in enumerate((".page", ".part")):
        run(program, place, "-", octets=records([opening(number, text), data(number, 32, 0, text)]))
        name = at(place, f"{number:08x}.page")[:-5]
        os.rename(name + ".page", name + now)
        os.truncate(name + now, 99)
        check(run(program, place, "-")[2] == 0, "it ends")
        has(sheet(place, f"{number:08x}.sheet"), headline="DO NOT PRINT: THE TRANSFER WAS CLOSED.",
            reason="Every octet was received; the file is gone, changed or given up.",
            transfer=f"{number}, closed: faulty", file=os.path.basename(name) + (".aside" if number else ".page"))
    # A file that goes while its transfer is open.
    link = Link(program, place)
    link.quiet_send(opening(2, text), data(2, 32, 0, text[:50], WANTED))
    os.remove(at(place, "00000002.part"))
    check(link.send(data(2, 32, 50, text[50:90], WANTED)) == bytes.fromhex("4400000600000002"), "the answer")
    check(link.end() == 0, link.told)
    has(sheet(place, "00000002.sheet"), headline="DO NOT PRINT: THE PAGE IS NOT COMPLETE.", transfer="2, closed: lost",
        file="none", recordings="2, which absorbed 1 runs and left 1", missing="10 octets (10-20 stands for 10 to 19): 90-100")


def stopped_or_killed(program, place):
    """A program that is stopped writes the sheets of what is open. One that is killed leaves none, nor that of another file."""
    text = page(100, 88)
    for ident, killed in ((9, True), (10, False)):
        link = Link(program, place)
        link.quiet_send(metadata(ident, 32, 9), opening(ident, text), data(ident, 32, 0, text[:50], WANTED))
        if killed:
            link.process.kill()
            link.process.wait()
        link.end()
        check(os.path.exists(at(place, f"{ident:08x}.part")), "the first file's number isn't used again")
        check(os.path.exists(at(place, f"{ident:08x}.sheet")) != killed, f"killed: {killed}")
    has(sheet(place, "0000000a.sheet"), path='"page 611.pla"', missing="50 octets (10-20 stands for 10 to 19): 50-100")


def spoilt():
    """For the tests that end the program: a page that comes with a wrong octet, and then comes again."""
    text = page(101, 87)
    wrong = flipped(text, 60)
    packets = []
    for came in (wrong, text):
        packets += [opening(7, text, 16), data(7, 16, 50, came[50:], WANTED), data(7, 16, 0, came[:50], WANTED)]
    return {7: (text, wrong)}, records(packets)


def all_of_it(program, place):
    """Runs everything; `place` gives a new directory for a name."""
    side_by_side([(test, program) for test in (agrees, differs, sent_again, not_checked, made_again, restarted, incomplete, a_page_at_most, times,
                                              given_up, stopped_or_killed)], place)
