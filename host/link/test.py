#!/usr/bin/env python3
"""Tests the link program end to end: on passes, cut off at every place between two writes, and over a lossy loopback
while it is killed again and again; plant.py has the tests of what a plant does, sheets.py those of the check and the sheet, seen.py
and terminal.py those of what a program and a person see of it.
Needs a C compiler, python3 and the archive; one or two minutes.

    host/link/test.py [SECONDS]     SECONDS bounds the part that kills the program (else 6)

With SHOW_WRONG set it prints how each program with another order of writes was found. With LINK_SANITIZE=thread, or address,undefined, all
programs but the wrong ones are tested with that sanitizer.
"""
import concurrent.futures
import os
import random
import signal
import socket
import struct
import subprocess
import sys
import tempfile
import threading
import time

sys.dont_write_bytecode = True
from harness import (AREA_HEAD, AREA_MAGIC, FAILS, NOSPACE, POWERCUT, SANITIZED, SOURCES, WRAPPED, after_the_cut, at, build,  # noqa: E402
                     check, compiled, content, edited, failing, holds, page, records, run, sanitizer,
                     stamps, stem, stored)
from packets import END_OF_DATA, TIMESTAMP, UNASKED, WANTED, data, failure, metadata, record, success  # noqa: E402
import faults  # noqa: E402
import kills  # noqa: E402
import plant  # noqa: E402
import seen  # noqa: E402
import service  # noqa: E402
import sheets  # noqa: E402
import terminal  # noqa: E402
import threaded  # noqa: E402


def nothing_promised_is_missing(place, originals, lines=()):
    """Each octet that the area on disk holds as received is on disk, and so is each page that was reported, with its sheet."""
    for ident, (length, runs) in (stored(place) or {}).items():
        check(os.path.exists(os.path.join(place, stem(place, ident) + ".meta")), f"transfer {ident} is in the area and has no .meta")
        original = original_of(originals, ident, content(place, stem(place, ident) + ".meta").decode())
        check(length == len(original), f"transfer {ident} of {length} octets")
        check(f"\nlength={length}\n".encode() in content(place, stem(place, ident) + ".meta"), f"the .meta of {ident}")
        names = [name for name in (stem(place, ident) + end for end in (".part", ".page", ".differs"))
                 if name in os.listdir(place)]
        check(names, f"transfer {ident} is in the area and has no file")
        kept, came = content(place, names[0]), originals[ident] if isinstance(originals[ident], tuple) else (original,)
        for start, stop in runs:
            check(kept[start:stop] in [octets[start:stop] for octets in came],
                  f"octets {start} to {stop} of {names[0]} aren't on disk")
    for line in lines:
        words = line.split()
        if words[1] == "complete":
            ident, name = int(words[2][3:]), words[4][5:]
            check(holds(place, name, original_of(originals, ident, line)), f"{line}: the page isn't on disk")
    for ident, told in statuses(lines).items():
        if ident in (stored(place) or {}):
            for start, stop in told:
                check(any(first <= start and stop <= last for first, last in stored(place)[ident][1]),
                      f"a STATUS says that {start} to {stop} of transfer {ident} came, and the area on disk doesn't")
    for ident in stamped(lines) & set(stored(place) or {}):
        check(ident in stamps(place), f"a STATUS had a timestamp of transfer {ident}, and the area on disk keeps none")
    sheets.every_sheet(place, originals)


def original_of(originals, ident, known):
    """The file of an Id; where an Id has several, the one whose path ends this text; where it came spoilt too, the right one."""
    original = originals[ident]
    if isinstance(original, tuple):
        return original[0]
    return original if isinstance(original, bytes) else original.get(known.split("path=")[-1].strip(), b"")


def statuses(lines):
    """For each Id the stretches that its last STATUS among the lines said to be received, at width 16."""
    told = {}
    for line in lines:
        words = line.split()
        if words[1] == "close":
            told.pop(int(words[2][3:]), None)
        if words[1] == "send" and words[2][6:8] == "00":
            packet = bytes.fromhex(words[2])
            ends = [value for value, in struct.iter_unpack(">H", packet[24 if packet[1] & 8 else 8:])]
            starts = [0] + ends[3::2]
            stops = ends[2::2] + [ends[1]]
            told[packet[7]] = [(start, stop) for start, stop in zip(starts, stops) if start < stop]
    return told


def stamped(lines):
    """The Ids whose last STATUS among the lines had a timestamp."""
    told = set()
    for line in lines:
        words = line.split()
        if words[1] == "close":
            told.discard(int(words[2][3:]))
        if words[1] == "send" and words[2][6:8] == "00" and int(words[2][3], 16) & 8:
            told.add(int(words[2][8:16], 16))
    return told


# Passes.

META = "md5=not-checked mtime=2000-01-01T00:00:00Z ctime=2000-01-01T00:00:00Z checksum=none path=page611.pla"


def passes(program, place):
    """The program on a pass: its lines, its files, and what it says of wrong input."""
    text = page(3000, 1)
    packets = [metadata(7, 16, 3000), data(7, 16, 0, text[:1000]), data(7, 16, 2000, text[2000:], WANTED | END_OF_DATA),
               data(7, 16, 2000, text[2000:] + b"x"), data(8, 16, 0, b"x"), b"", success(7, 16, 0, 9, [(0, 4), (5, 6)]),
               failure(7, 9), data(7, 16, 1000, text[1000:2000], WANTED), data(7, 16, 500, text[500:505], WANTED),
               metadata(7, 16, 3000), metadata(9, 16, 0)]
    passed = b"".join(record(b"P", packet) for packet in packets[:4]) + record(b"F") + record(b"X", b"abc")
    passed += b"".join(record(b"P", packet) for packet in packets[4:]) + record(b"P", bytes(70000))
    expected = """\
1 open id=7 width=16 length=3000 edge=0 complete=0 new
1 send 440100000000000700000000
2 record id=7 offset=0 length=1000 edge=1000 complete=0 absorbed=0
3 record id=7 offset=2000 length=1000 edge=3000 complete=0 absorbed=0
3 send 440000000000000703e80bb803e807d0
4 refused 14 code=9
4 send 4400000900000007
7 refused 12 code=6
7 send 4400000600000008
8 refused 1 code=0
9 success id=7 flags=000000 width=16 timestamp= progress=0 in-response-to=9 holes=0-4,5-6
10 failure id=7 status=9 flags=000009
11 record id=7 offset=1000 length=1000 edge=3000 complete=1 absorbed=2
11 send 44010000000000070bb80bb7
11 complete id=7 length=3000 file=00000007.1.page recordings=3 absorbed=2 runs=1 META
12 record id=7 offset=500 length=5 edge=3000 complete=1 absorbed=1
12 send 44010000000000070bb80bb7
13 open id=7 width=16 length=3000 edge=3000 complete=1 already-open
13 send 44010000000000070bb80bb7
14 open id=9 width=16 length=0 edge=0 complete=1 new
14 send 440100000000000900000000
14 complete id=9 length=0 file=00000009.2.page recordings=0 absorbed=0 runs=0 META
15 refused 2 code=0""".replace("META", META).splitlines()
    got = run(program, place, "-", octets=passed)
    check(got == (expected, "", 0), got)
    check(content(place, "00000007.page") == text, "the page isn't the original")
    check(sorted(os.listdir(place)) == ["00000007.1.meta", "00000007.1.page", "00000007.1.sheet", "00000009.2.meta",
                                         "00000009.2.page", "00000009.2.sheet", "area"], os.listdir(place))

    # Taken up: what was complete is reported again, unless it was taken away.
    os.remove(at(place, "00000009.page"))
    got = run(program, place, "-")
    check(got == (["0 taken-up id=7 width=16 length=3000 edge=3000 complete=1",
                   "0 complete id=7 length=3000 file=00000007.1.page recordings=0 absorbed=0 runs=1 " + META,
                   "0 taken-up id=9 width=16 length=0 edge=0 complete=1"], "", 0), got)

    # A pass cut short: what stood before is recorded.
    short = record(b"P", metadata(1, 16, 4)) + record(b"P", data(1, 16, 0, b"ab"))[:-1]
    got = run(program, place, "-q", "-", octets=short)
    check(got[1:] == ("saratoga-link: -: cut short in record 2\n", 1), got)
    check(stored(place)[1] == (4, []), stored(place))

    # A file that was removed: its transfer begins anew.
    os.remove(at(place, "00000001.part"))
    got = run(program, place, "-q", "-")
    check("transfer 1: its .part has fewer octets than were recorded; it is closed" in got[1], got)
    check(1 not in stored(place), "transfer 1 is still open")

    # Closing by hand; a second program; areas that are none.
    got = run(program, place, "--close", "7")
    check(got[0][-1:] == ["0 close id=7 asked recordings=0 absorbed=0 runs=1"], got)
    check(got[2] == 0 and list(stored(place)) == [9], got)
    got = run(program, place, "--close", "7")
    check(got[1:] == ("saratoga-link: transfer 7 isn't open\n", 1), got)
    holder = subprocess.Popen([program, "-d", place, "-"], stdin=subprocess.PIPE, stdout=subprocess.PIPE)
    holder.stdout.readline()
    got = run(program, place, "-")
    check(got[1:] == (f"saratoga-link: {place}: another link program writes there\n", 1), got)
    holder.communicate()
    good = content(place, "area")
    flipped = [good[:number] + bytes([good[number] ^ 1 << number % 8]) + good[number + 1:]
               for number in (15, 16, 31, 32, 39, 40, 47, 48, 48 + 8, 48 + 17287, 48 + 17288, len(good) - 1)]
    for bad in (b"", good[:AREA_HEAD], good[:-1], good + b"\0", b"\xff" + good[1:], good[AREA_HEAD:], bytes(len(good)),
                AREA_MAGIC + bytes(len(good) - 16), b"saratoga-area \n" + good[15:], b"saratoga-area 3x" + good[16:], *flipped):
        with open(os.path.join(place, "area"), "wb") as file:
            file.write(bad)
        before = {name: content(place, name) for name in os.listdir(place)}
        got = run(program, place, "-")
        check("area: isn't whole" in got[1] and "nothing was touched" in got[1] and "to begin anew" in got[1] and got[2] == 1, got)
        check({name: content(place, name) for name in os.listdir(place)} == before, "something was touched")

    for options in ("", "a b", "--udp 65536", "--udp", "--what", "--idle x -", "- --udp 1", "--close -1", "--answers 0 -"):
        got = run(program, place, *options.split())
        check(got[2] == 2 and "see saratoga-link --help" in got[1], got)
    check(run(program, place, "--help")[0][0].startswith("usage: saratoga-link"), "no help")
    check(run(program, "/nowhere", "-")[1:] == ("saratoga-link: /nowhere: No such file or directory\n", 1), "/nowhere")


def layout_1(transfers):
    """The file of an area as it was before timestamps, without a head: for each Id its width in octets, length and runs."""
    words = [0] * 2113
    words[0] = len(transfers)
    for i, (ident, (width, length, runs)) in enumerate(sorted(transfers.items())):
        words[1 + 4 * i:5 + 4 * i] = ident, width, length, len(runs)
        for j, (start, stop) in enumerate(runs):
            words[65 + 64 * i + j], words[1089 + 64 * i + j] = start, stop
    return struct.pack("<2113Q", *words)


def other_layouts(program, place):
    """A file of another layout is refused in words that say what to do, and nothing in the directory is touched."""
    text = page(3000, 5)
    packets = [metadata(7, 16, 3000), data(7, 16, 0, text[:1000]), metadata(9, 16, 2), data(9, 16, 0, b"ab")]
    check(run(program, place, "-", octets=records(packets))[2] == 0, "the files aren't made")
    good = content(place, "area")
    open_ones = {7: (2, 3000, [(0, 1000)]), 9: (2, 2, [(0, 2)])}
    rest = good[AREA_HEAD:]
    others = [(1, layout_1(open_ones)), (1, layout_1({})), (1, b"saratoga-area 1\n" + layout_1(open_ones)),
              (2, b"saratoga-area 2\n" + rest[:17288]), (2, b"saratoga-area 2\n" + bytes(17288)),
              (4, b"saratoga-area 4\n" + rest), (4, b"saratoga-area 4\n"), (4, b"saratoga-area 4"),
              (12, b"saratoga-area 12\n" + rest + bytes(100)), (20, b"saratoga-area 20\n" + rest)]
    for number, other in others:
        with open(os.path.join(place, "area"), "wb") as file:
            file.write(other)
        before = {name: content(place, name) for name in os.listdir(place)}
        for options in (("-",), ("--list",), ("--close", "7"), ("--udp", "0", "--any-peer", "--idle", "1")):
            got = run(program, place, *options, octets=records(packets))
            check(got[0] == [] and got[2] == 1, (options, got))
            for words in (f"area: has layout {number}, and this program reads layout 3; nothing was touched",
                          "With the version that wrote it receive the rest or close its transfers", "to begin anew"):
                check(words in got[1], (options, got))
            check({name: content(place, name) for name in os.listdir(place)} == before, "something was touched")

    # The right one goes on.
    with open(os.path.join(place, "area"), "wb") as file:
        file.write(good)
    got = run(program, place, "-", octets=records([data(7, 16, 1000, text[1000:])]))
    check(got[1:] == ("", 0) and holds(place, "00000007.page", text), got)
    check(content(place, "area").startswith(b"saratoga-area 3\n"), "the area has no head")


def timestamps(program, place):
    """A STATUS carries the timestamp of the last DATA that was taken and had one, also after a restart."""
    first, second, zeros = bytes(range(16)), b"\xa5" * 16, bytes(16)
    got = run(program, place, "-", octets=records([
        metadata(7, 16, 9), data(7, 16, 0, b"ab", WANTED), data(7, 16, 2, b"cd", WANTED | TIMESTAMP, first),
        data(7, 16, 0, b"ab", WANTED), data(7, 16, 8, b"xy", TIMESTAMP, second), metadata(7, 16, 9)]))
    with_first = success(7, 16, 4, 4, flags=TIMESTAMP, timestamp=first).hex()
    check(got == (["1 open id=7 width=16 length=9 edge=0 complete=0 new", "1 send 440100000000000700000000",
                   "2 record id=7 offset=0 length=2 edge=2 complete=0 absorbed=0", "2 send 440000000000000700020002",
                   "3 record id=7 offset=2 length=2 edge=4 complete=0 absorbed=1", "3 send " + with_first,
                   "4 record id=7 offset=0 length=2 edge=4 complete=0 absorbed=1", "4 send " + with_first,
                   "5 refused 14 code=9", "5 send 4400000900000007",
                   "6 open id=7 width=16 length=9 edge=4 complete=0 already-open",
                   "6 send " + success(7, 16, 4, 4, flags=TIMESTAMP | UNASKED, timestamp=first).hex()], "", 0), got)
    check(stamps(place) == {7: first}, stamps(place))

    # A repeat renews it: it is saved before the STATUS that has it, and its octets are not written again.
    packets = [data(7, 16, 0, b"ab", WANTED | TIMESTAMP, second), data(7, 16, 0, b"ab", TIMESTAMP, zeros)]
    got = run(program, place, "-", octets=records(packets))
    check(got[0][1:] == ["1 record id=7 offset=0 length=2 edge=4 complete=0 absorbed=1",
                         "1 send " + success(7, 16, 4, 4, flags=TIMESTAMP, timestamp=second).hex(),
                         "2 record id=7 offset=0 length=2 edge=4 complete=0 absorbed=1"], got)
    check(stamps(place) == {7: zeros} and content(place, "00000007.part")[:4] == b"abcd", "a repeat")

    # Complete with it; then another file under the Id, which has none.
    got = run(program, place, "-", octets=records([data(7, 16, 4, b"efghi"), metadata(7, 16, 8)]))
    check(got[0][2:3] == ["1 send " + success(7, 16, 9, 8, flags=TIMESTAMP | UNASKED, timestamp=zeros).hex()], got)
    check(got[0][-1] == "2 send 440100000000000700000000" and stamps(place) == {}, got)


def plant_settings(program, place):
    """--settings: the line of a file, and a file that is refused before anything is written."""
    def file(octets):
        path = os.path.join(os.path.dirname(place), "plant.settings")
        with open(path, "wb") as made:
            made.write(octets)
        return path

    def told(settings, *words, octets=b""):
        return run(program, place, *words, "--settings", file(settings), "-", octets=octets)

    whole = bytes.fromhex("020301800802 3c031f")
    first = "0 settings version=2 largest-payload=1024 interval=60 partner=31"
    packet = record(b"P", metadata(7, 16, 0))
    bad = [(bytes(1), 24), (b"", 1), (whole[:-1], 1), (whole + b"\0", 25), (b"\3\1\1\5", 24), (b"\1\2\1\5\3\7", 25),
           (b"\1\1\1\5" + bytes(9000), 25), (b"\x80" * 9000, 25)]
    for octets, number in bad:
        got = told(octets, octets=packet)
        check(got[0] == [] and got[2] == 1 and f"plant.settings: refused {number}: " in got[1], f"{octets[:20].hex()}: {got}")
    check(os.listdir(place) == [], f"written beside a refused settings file: {os.listdir(place)}")
    got = told(whole, octets=packet)
    check(got[0][:2] == [first, "1 open id=7 width=16 length=0 edge=0 complete=1 new"] and got[1:] == ("", 0), got)
    for octets, line in ((b"\1\1\1\5", "version=1 largest-payload=5 interval= partner="),
                         (b"\1\2\1\5\2\1", "version=1 largest-payload=5 interval=1 partner="),
                         (b"\2\2\1\5\3\0", "version=2 largest-payload=5 interval= partner=0")):
        got = told(octets)
        check(got[0][:1] == ["0 settings " + line] and got[1:] == ("", 0), got)
    got = told(whole, "--quiet", octets=packet)
    check(not any(line.startswith("0 settings") for line in got[0]) and got[1:] == ("", 0), got)
    got = run(program, place, "--settings=" + file(whole), "-")
    check(got[0][:1] == [first] and got[2] == 0, got)
    for words in (("--list",), ("--close", "7")):
        got = run(program, place, *words, "--settings", file(whole))
        check(got[0] == [] and got[2] == 2, f"{words}: {got}")
    for name in (place, os.path.join(place, "nofile")):
        got = run(program, place, "--settings", name, "-")
        check(got[0] == [] and got[2] == 1 and name in got[1], got)


def more_than_sixteen(program, place):
    """A table that is full: complete transfers make room, others don't."""
    text = page(20, 2)
    packets = [metadata(ident, 16, 20) for ident in range(16)] + [metadata(16, 16, 20), data(3, 16, 0, text),
                                                                  metadata(16, 16, 20), data(16, 16, 0, text)]
    lines, told, status = run(program, place, "-", octets=b"".join(record(b"P", packet) for packet in packets))
    check(told.count("\n") == 1 and "ERROR: transfer 16 is refused: 16 are open" in told and status == 0, told)
    check(lines[32:] == ["17 refused 17 code=3", "17 send 4400000300000010",
                         "18 record id=3 offset=0 length=20 edge=20 complete=1 absorbed=0",
                         "18 send 440100000000000300140013",
                         "18 complete id=3 length=20 file=00000003.4.page recordings=1 absorbed=0 runs=1 " + META,
                         "19 close id=3 to-make-room recordings=1 absorbed=0 runs=1",
                         "19 open id=16 width=16 length=20 edge=0 complete=0 new", "19 send 440100000000001000000000",
                         "20 record id=16 offset=0 length=20 edge=20 complete=1 absorbed=0",
                         "20 send 440100000000001000140013",
                         "20 complete id=16 length=20 file=00000010.17.page recordings=1 absorbed=0 runs=1 " + META],
          lines[32:])


def any_octets(program, place):
    """Damaged packets, and offsets that no file has: every packet gets a line, and the program ends by itself."""
    chance = random.Random(614)
    for number in range(8):
        packets, lengths = [], {ident: chance.choice((0, 1, 40, 2**16 - 1, 2**64 - 1)) for ident in range(20)}
        for _ in range(300):
            ident = chance.randrange(20)
            length = lengths[ident]
            width = 16 if length < 2**16 else 64 << ident % 2
            packet = metadata(ident, width, length)
            if chance.random() < 0.8:
                flags = chance.choice((0, WANTED, WANTED, END_OF_DATA))
                packet = data(ident, width, max(0, chance.choice((0, 7, length // 2, length - 9))), bytes(9), flags)
            packet = bytearray(packet)
            if chance.random() < 0.3:
                packet[chance.randrange(len(packet))] = chance.randrange(256)
            packets.append(bytes(packet[:chance.choice((len(packet), len(packet), chance.randrange(len(packet) + 1)))]))
        here = os.path.join(place, str(number % 2))  # every second run takes up what the one before left
        os.makedirs(here, exist_ok=True)
        lines, told, status = run(program, here, "--no-fsync", "--largest", str(2**64 - 1), "-",
                                  octets=b"".join(record(b"P", p) for p in packets))
        check(status == ("can't be stored" in told), f"status {status}: {told}")
        answered = {int(line.split()[0]) for line in lines}
        check(answered | {0} == set(range(301)), f"no line for packets {set(range(1, 301)) - answered}")
        check(all("File too large" in line or "there is room again" in line or "is kept as" in line or "brings other octets" in line
                  or "are open, and none can be ended" in line for line in told.splitlines()), told)


def descriptors_of_128_bits(program, place):
    """A page whose descriptors have 128 bits: its lines, its STATUS, its .meta, and what is taken up and refused."""
    text = page(3000, 1)
    packets = [metadata(9, 128, 3000), data(9, 128, 2000, text[2000:], WANTED), data(9, 64, 0, text[:1]),
               data(9, 128, 2**64, text[:1]), data(9, 128, 2**64, b""), success(9, 128, 0, 9, [(0, 4)])]
    hole = success(9, 128, 0, 3000, [(0, 2000)]).hex()
    expected = ["1 open id=9 width=128 length=3000 edge=0 complete=0 new",
                "1 send " + success(9, 128, 0, 0, flags=UNASKED).hex(),
                "2 record id=9 offset=2000 length=1000 edge=3000 complete=0 absorbed=0", "2 send " + hole,
                "3 refused 13 code=9", "3 send 4400000900000009",
                "4 refused 5 code=9", "4 send 4400000900000009", "5 refused 5 code=9", "5 send 4400000900000009",
                "6 success id=9 flags=c00000 width=128 timestamp= progress=0 in-response-to=9 holes=0-4"]
    got = run(program, place, "-", octets=b"".join(record(b"P", packet) for packet in packets))
    check(got == (expected, "", 0), got)
    check(b"\nwidth=128\nlength=3000\n" in content(place, "00000009.meta"), content(place, "00000009.meta"))
    got = run(program, place, "-", octets=record(b"P", data(9, 128, 0, text[:2000])))
    check(got == (["0 taken-up id=9 width=128 length=3000 edge=3000 complete=0",
                   "1 record id=9 offset=0 length=2000 edge=3000 complete=1 absorbed=1",
                   "1 send " + success(9, 128, 3000, 2999, flags=UNASKED).hex(),
                   "1 complete id=9 length=3000 file=00000009.1.page recordings=1 absorbed=1 runs=1 " + META], "", 0), got)
    check(content(place, "00000009.page") == text, "the page isn't the original")


def longest_status(program, place):
    """64 holes in 128 bits, with a timestamp: the STATUS has 2,104 octets, and all of them."""
    stamp, holes = bytes(range(16)), [(2 * at, 2 * at + 1) for at in range(64)]
    packets = [metadata(9, 128, 3000)] + [data(9, 128, 2 * at + 1, b"x", WANTED | TIMESTAMP, stamp) for at in range(64)]
    lines, told, status = run(program, place, "-", octets=b"".join(record(b"P", packet) for packet in packets))
    check(status == 0 and lines[-1] == "65 send " + success(9, 128, 0, 128, holes, TIMESTAMP, stamp).hex(), (told, lines[-1]))
    check(len(lines[-1]) == len("65 send ") + 2 * 2104, len(lines[-1]))


# Cut off between two writes.


def run_cut(program, place, octets, cut=0):
    """The program ended at a place. Nothing need be forced to disk: it is not the machine that ends."""
    return run(program, place, "--no-fsync", "-", octets=octets, LINK_CUT=str(cut))


def two_transfers():
    """Two pages, one of them with an MD5, and a pass of both with repeats, overlaps and one packet late."""
    originals = {7: page(900, 3), 9: page(700, 4)}

    def sent(ident, *chunks):
        original = originals[ident]
        packets = [sheets.opening(7, original, 16) if ident == 7 else metadata(ident, 16, len(original))]
        for at, length, flags in chunks:
            stamp = bytes([at // 4 % 256]) * 16 if flags & TIMESTAMP else b""
            packets.append(data(ident, 16, at, original[at:at + length], flags, stamp))
        return packets

    packets = sent(7, (600, 300, END_OF_DATA), (0, 300, WANTED)) + sent(9, (0, 350, 0), (350, 350, TIMESTAMP))
    packets += sent(7, (0, 300, WANTED | TIMESTAMP), (200, 500, WANTED | TIMESTAMP), (0, 900, WANTED))
    return originals, b"".join(record(b"P", packet) for packet in packets)


def last_of(originals, ident):
    """The file that is to be complete in the end."""
    return original_of(originals, ident, "path=b")


def cut_everywhere(program, place, make=two_transfers):
    """The program is ended at each place between two writes, and inside each write; then the pass comes again. Gives
    the number of places."""
    originals, octets = make()
    count = 0
    while True:
        count += 1
        here = os.path.join(place, str(count))
        os.mkdir(here)
        reported, cuts = [], 0
        check(count < 1000, "the program is cut off without end")
        # Cut off at the same place after each restart, until the whole pass gets through.
        cut = count
        while True:
            lines, told, status = run_cut(program, here, octets, cut)
            reported += lines
            check(status in (0, 99) or (status == sheets.DIFFERS and make is sheets.spoilt), told)
            nothing_promised_is_missing(here, originals, lines)
            if status != 99:
                break
            cuts += 1
            cut = count if cuts < 4 else 0
        for ident in originals:
            check(stem(here, ident) and holds(here, stem(here, ident) + ".page", last_of(originals, ident)),
                  f"page {ident} after a cut at place {count}")
            check(any(f"complete id={ident} " in line for line in reported), f"page {ident} was never reported")
        check(make is not sheets.spoilt or any(" differs id=7 " in line for line in reported), "what differs was never reported")
        plant.no_mixture(here, originals)
        check(not any(name.endswith(".part") for name in os.listdir(here)), "a part is left")
        if cuts == 0:
            return count - 1


def cut_while_an_id_is_used_again(program, place):
    """Sixteen transfers, one complete, which is closed to make room and at once opened anew with another length."""
    old, new = page(40, 5), page(60, 6)
    before = [metadata(ident, 16, 40) for ident in range(16)] + [data(7, 16, 0, old), metadata(16, 16, 40)]
    # Id 16 took the place of 7. It completes, then 7 takes its place with another page.
    after = [data(16, 16, 0, old), metadata(7, 16, 60), data(7, 16, 0, new[:30], WANTED), data(7, 16, 30, new[30:])]
    octets = [b"".join(record(b"P", packet) for packet in packets) for packets in (before, after)]
    count = 0
    while True:
        count += 1
        here = os.path.join(place, str(count))
        os.mkdir(here)
        check(run_cut(program, here, octets[0])[2] == 0, "the first pass")
        lines, told, status = run_cut(program, here, octets[1], count)
        check(status in (0, 99), told)
        table = stored(here)
        kept = {ident: old for ident in range(17)}
        kept[7] = new
        nothing_promised_is_missing(here, kept, [line for line in lines if "id=7 length=40" not in line])
        check(7 not in table or table[7][0] == 60, "transfer 7")
        if status == 0:
            return count - 1
        run_cut(program, here, octets[1])
        check(content(here, "00000007.page") == old and content(here, "00000010.page") == old, f"a cut at {count}")
        check(holds(here, stem(here, 7) + ".page", new), f"a cut at {count}")


# Power cuts: what was not forced to disk may be lost, or not.


def power_cuts(program, plain, place, make=two_transfers):
    """The power goes at each call that writes, renames or forces to disk. Whatever then is on disk, nothing that was
    said is missing, and the pass, sent again to the plain program, completes both pages. Gives the number of calls."""
    originals, octets = make()
    chance = random.Random(613)
    count = 0
    while True:
        count += 1
        here, disk = os.path.join(place, f"{count}"), os.path.join(place, f"{count}-disk")
        os.mkdir(here)
        os.mkdir(disk)
        lines, told, status = run(program, here, "-", octets=octets, POWERCUT=str(count), POWERCUT_DISK=disk)
        check(status in (0, 98, sheets.DIFFERS) and count < 1000, f"call {count}: {told}")
        for number, how in enumerate(("none", "names", "octets", "some", "some", "some")):
            left = os.path.join(place, f"{count}-{number}")
            after_the_cut(disk, here, left, how, chance)
            nothing_promised_is_missing(left, originals, lines)
            if plain and number < 4:
                again, told, ended = run(plain, left, "--no-fsync", "-", octets=octets)
                check(ended == (sheets.DIFFERS if "NOT handed on" in told else 0) and
                      all(" is kept as " in line or (" ERROR: " in line and make is sheets.spoilt) for line in told.splitlines()),
                      f"call {count}, {how}: {told}")
                nothing_promised_is_missing(left, originals, again)
                plant.no_mixture(left, originals)
                for ident in originals:
                    check(holds(left, stem(left, ident) + ".page", last_of(originals, ident)),
                          f"page {ident} after call {count}, {how}")
        if status != 98:
            return count - 1


# A lossy loopback, and a program that is killed.


class Receiver:
    """The link program on a socket, with a thread that looks at each page at the moment it is reported."""

    def __init__(self, program, place, address, port, originals, options):
        self.arguments = [program, "-d", place, "--udp", str(port), "--address", address, "--peer", address,
                          *options]
        self.place, self.originals = place, originals
        self.reported, self.wrong, self.kills = set(), [], 0
        self.start()

    def start(self):
        self.process = subprocess.Popen(self.arguments, stdout=subprocess.PIPE, text=True)
        self.thread = threading.Thread(target=self.listen, args=(self.process,), daemon=True)
        self.thread.start()

    def listen(self, process):
        for line in process.stdout:
            words = line.split()
            if line.endswith("\n") and words[1] == "complete":
                ident = int(words[2][3:])
                if content(self.place, words[4][5:]) != self.originals[ident]:
                    self.wrong.append(line)
                self.reported.add(ident)

    def end(self, how):
        self.process.send_signal(how)
        status = self.process.wait(timeout=10)
        self.thread.join(timeout=10)
        self.process.stdout.close()
        check(not self.wrong, f"reported complete and not on disk: {self.wrong}")
        nothing_promised_is_missing(self.place, self.originals)
        return status

    def kill_and_restart(self):
        self.kills += 1
        self.end(signal.SIGKILL)
        self.start()


class Sender:
    """Sends files over a link that loses, repeats and reorders, until STATUS says that they are complete."""

    def __init__(self, address, port, originals, chance):
        family = socket.AF_INET6 if ":" in address else socket.AF_INET
        self.socket = socket.socket(family, socket.SOCK_DGRAM)
        self.socket.settimeout(0.02)
        self.target, self.originals, self.chance = (address, port), originals, chance
        self.missing = {ident: [(0, len(original))] for ident, original in originals.items()}
        self.sent = self.answers = self.failures = 0
        self.delayed = []

    def send(self, packet):
        """Loses one packet in five, sends one in ten twice, and holds one in five back."""
        if self.chance.random() < 0.2:
            return
        for _ in range(2 if self.chance.random() < 0.1 else 1):
            if self.chance.random() < 0.2:
                self.delayed.append(packet)
            else:
                self.socket.sendto(packet, self.target)
                self.sent += 1

    def round(self, ident):
        """One window of a file, and what came back."""
        original, width = self.originals[ident], 128 if ident % 2 else 32
        self.send(sheets.opening(ident, original, width, path=b"../../etc/passwd"))
        chunks, size = [], self.chance.choice((300, 700, 1300))
        for start, stop in self.missing[ident]:
            chunks += [(at, min(at + size, stop)) for at in range(start, stop, size)]
            if len(chunks) > 24:
                break
        chunks = chunks[:24] or [(0, min(size, len(original)))]
        self.chance.shuffle(chunks)
        for number, (start, stop) in enumerate(chunks):
            flags = WANTED if number % 8 == 7 or number == len(chunks) - 1 else 0
            flags |= END_OF_DATA if stop == len(original) else 0
            self.send(data(ident, width, start, original[start:stop], flags))
        self.chance.shuffle(self.delayed)
        while len(self.delayed) > 5:
            self.socket.sendto(self.delayed.pop(), self.target)
        try:
            while True:
                self.hear(self.socket.recv(65535))
        except socket.timeout:
            pass
        except ConnectionRefusedError:
            pass

    def hear(self, packet):
        self.answers += 1
        word, ident = struct.unpack(">II", packet[:8])
        if word & 0xFF:
            self.failures += 1
            check(word & 0xFF in (3, 6), f"a failure STATUS {packet.hex()}")
            return
        size = 2 << (word >> 22 & 3)
        ends = [int.from_bytes(packet[at:at + size], "big") for at in range(8, len(packet), size)]
        missing = list(zip(ends[2::2], ends[3::2]))
        edge = max(ends[0], ends[1])  # In-Response-To of a complete page is its last octet
        if edge < len(self.originals[ident]):
            missing.append((edge, len(self.originals[ident])))
        # What a STATUS said to be received stays so, whatever happened to the program: the area was saved before.
        before = self.missing[ident]
        if self.inside(missing, before):
            self.missing[ident] = missing
        else:
            check(self.inside(before, missing), "a STATUS takes back what another said")

    @staticmethod
    def inside(some, others):
        return all(any(start >= first and stop <= last for first, last in others) for start, stop in some)

    def done(self):
        return not any(self.missing.values())


def loopback(program, place, address, seconds, options):
    """Files over a lossy loopback to a program that is killed at random moments; gives what happened."""
    chance = random.Random(611)
    originals = {7: page(250000, 7), 0xFFFFFFFF: page(91001, 8), 5: page(1, 9)}
    with socket.socket(socket.AF_INET6 if ":" in address else socket.AF_INET, socket.SOCK_DGRAM) as probe:
        probe.bind((address, 0))
        port = probe.getsockname()[1]
    receiver = Receiver(program, place, address, port, originals, options)
    sender = Sender(address, port, originals, chance)
    begun = time.monotonic()
    next_kill = begun + 0.1
    try:
        # Kills go on for the given time; a file that is complete by then is asked about again and again.
        while not sender.done() or time.monotonic() < begun + seconds:
            check(time.monotonic() < begun + seconds + 25, f"not complete in time: {sender.missing}")
            for ident in originals:
                sender.round(ident)
                if next_kill < time.monotonic() < begun + seconds:
                    receiver.kill_and_restart()
                    next_kill = time.monotonic() + chance.uniform(0.01, 0.3)
            if sender.done() and receiver.kills >= 15:
                break
        heard = sender.answers
        while sender.answers == heard:  # the last program started is at work
            check(time.monotonic() < begun + seconds + 25, "no answer any more")
            sender.round(7)
        status = receiver.end(signal.SIGTERM)
        check(status == 0, f"the program ended with {status}")
    finally:
        if receiver.process.poll() is None:
            receiver.process.kill()
    check(receiver.reported == set(originals), f"reported: {receiver.reported}")
    for ident, original in originals.items():
        check(holds(place, stem(place, ident) + ".page", original), f"page {ident} isn't the original")
    check(os.listdir(os.path.dirname(place)) == [os.path.basename(place)], "something was written elsewhere")
    return (f"{len(originals)} files on {address} complete after {sender.sent} packets, {sender.answers} STATUS, "
            f"{sender.failures} of them failures, and {receiver.kills} kills")


# Programs that write in another order, or take an option and don't do what it says, which the tests must find.


def threads_ended(program, place, step=9):
    return threaded.ended(program, place, two_transfers, nothing_promised_is_missing, step)


def threads_cut(program, place, plain=None, step=9, **paces):
    return threaded.power_cuts(program, plain, place, two_transfers, nothing_promised_is_missing, step, **paces)


ENDED, CUT, FULL = "ended", "power cut", "calls that fail"
# Which test finds it: a function, or how the program is built for it and a function.
TWO, TWO_CUT = (ENDED, cut_everywhere), (CUT, lambda program, place: power_cuts(program, None, place))
SLOW_CUT = (CUT, lambda program, place: threads_cut(program, place, paces=(threaded.SLOW,)))  # whatever the machine's own speed
REPLACED = (ENDED, lambda program, place: cut_everywhere(program, place, plant.two_files_of_one_id))
SPOILT = (ENDED, lambda program, place: cut_everywhere(program, place, sheets.spoilt))

WRONG = {
    "tells the engine of octets before they are written": (
        TWO, "    int well = do_stretch(kept.t, &all, &look), error = errno;\n",
        "    for (size_t i = 0; i < count; i++)\n        tell_engine(&kept.packets[i], 0, 1);\n    begin_sync(); finish_sync();\n"
        "    int well = do_stretch(kept.t, &all, &look), error = errno;\n"),
    "reports before the last payload is written": (
        TWO, "    int well = do_stretch(kept.t, &all, &look), error = errno;\n",
        "    int id = (int)kept.t->id; const struct packet *last = &kept.packets[count - 1]; static char d[MOST_META]; meta_for_report(d, kept.t);\n"
        "    if (saratoga_try_record(state, SARATOGA_AREA_OCTETS, last->octets, last->length).complete)\n"
        "        report(\"%d complete id=%d length=%d file=%08x.%d.page %s\", 1, id, 1, id, (int)kept.t->file, d);\n"
        "    int well = do_stretch(kept.t, &all, &look), error = errno;\n"),
    "writes together what doesn't follow on each other": (faults.one_batch, "look->from == kept.to && ", ""),
    "writes octets of two transfers into one file": (faults.one_batch, "look->id == kept.t->id && look->file == kept.t->file &&", ""),
    "writes more together than it has room for": (faults.one_batch, "look->to - kept.from <= MOST_KEPT_OCTETS", "1"),
    "keeps the last packets of a batch": (faults.one_batch, "    store_kept();\n    return taken;\n", "    return taken;\n"),
    "tells the engine of octets that could not be written": (
        (FULL, faults.unwritable), "        if (well < 0) {\n            errno = error;\n", "        if (0) {\n            errno = error;\n"),
    "reports a page before its name is on disk for good": (
        TWO_CUT, "    cut_point(\"between the page's name and its report\");\n", "    if (named == 1)\n        report_page(t);\n"),
    "compares nothing": (faults.other_octets, "        return fd < 0 ? -1 : has_octets(fd, octets, count, look->from);", "        return 1;"),
    "writes octets again that were received": (
        faults.other_octets, "    if (look->kind == SARATOGA_LOOK_COMPARE) {\n", "    if (0) {\n"),
    "writes the area in place": (
        TWO, 'snprintf(new_name, sizeof new_name, "%s.new", name);', 'snprintf(new_name, sizeof new_name, "%s", name);'),
    "tells the engine that a sync is good while the thread is at work": (
        SLOW_CUT, "    start_worker(&syncer, run_sync, NULL);\n",
        "    start_worker(&syncer, run_sync, NULL);\n    saratoga_engine_synced(state, sizeof state, sync.sync, 1);\n"),
    "answers before the area is saved": (
        TWO, "    start_worker(&syncer, run_sync, NULL);\n",
        "    saratoga_engine_synced(state, sizeof state, sync.sync, 1);\n    for (size_t i = 0; i < MOST_FILES; i++) {\n"
        "        struct slot s;\n        if (transfers[i].used && is_open(transfers[i].id, &s) && s.due == sync.sync)\n"
        "            answer_due(transfers[i].id);\n    }\n    start_worker(&syncer, run_sync, NULL);\n"),
    "forces no payload to disk": (
        TWO_CUT, "        if (job.error == 0 && force_to_disk(job.descriptors[i]) != 0)\n", "        if (0)\n"),
    "renames an area that isn't on disk": (TWO_CUT, " || force_to_disk(fd) != 0;", ";"),
    "saves an area before the names of new files": (
        TWO_CUT, "    if (job.error == 0 && job.names && force_to_disk(directory) != 0)\n", "    if (0)\n"),
    "opens a transfer whose .meta isn't on disk": (TWO_CUT, "        add_descriptor(t->meta_fd);\n", ""),
    "opens a transfer before its files are made": (
        TWO, "    struct transfer *t = make(p, read, met->file);\n",
        "    saratoga_engine_opened(state, sizeof state, now_ms(), 0, 0, 0, p->octets, p->length, 1);\n    begin_sync();\n"
        "    finish_sync();\n    struct transfer *t = make(p, read, met->file);\n"),
    "mixes two files of one Id": (REPLACED, "PRIu64 \".%s\", id, file, suffix);", "PRIu64 \".%s\", id, file - file + 1, suffix);"),
    "sets a file aside before its transfer is closed on disk": (
        REPLACED, "    t->why = why;\n    t->put_off = 0;\n", "    set_aside(t);\n    t->why = why;\n    t->put_off = 0;\n"),
    "uses file numbers again after a restart": (
        REPLACED, "    job.area.next = used + RESERVED;\n", "    job.area.next = 1;\n",
        "    return bound == used || save_number(used) == 0;", "    return 1;"),
    "ends a complete page that waits for its report": (
        (FULL, faults.other_octets_before_the_report), "    int is_closed = open_transfer(t->id) != t;\n", "    int is_closed = 1;\n"),
    "takes DATA of any sender": (faults.owners, *kills.WRONG["doesn't look whose an Id is"]),
    "lets a complete page linger for ever": (faults.lingers, " INTERVAL, options.linger,", " INTERVAL, UINT64_MAX,"),
    "never forgets": (faults.full_table_is_told, "options.forget, *from);", "0, *from);"),
    "tells nobody of a full table": (faults.full_table_is_told, "REFUSED_TABLE_FULL && now_ms() >= full_until", "REFUSED_TABLE_FULL && 0"),
    "answers before it has a socket": (faults.answered_after_a_kill, "    if (options.port == NULL)\n        drive();\n", "    drive();\n"),
    "takes a .part that was cut": (
        faults.cut_short, "    return length >= 0 && (uint64_t)length >= t->size && has_name(", "    return length >= 0 && has_name(",
        "(uint64_t)seen.st_size < t->size;", "0;", "    if (!has_name(t->fd, name) || !file_has_length(name, one.length)) {\n", "    if (0) {\n"),
    "lets a second program in": (faults.cut_short, "    if (flock(directory, (to_read", "    if (1 || flock(directory, (to_read"),
    "goes on with what its sender ended": (
        faults.ended_by_its_sender, "    int ends = met->kind == SARATOGA_MEET_ENDED;\n",
        "    int ends = 0;\n    if (met->kind == SARATOGA_MEET_ENDED)\n        return;\n"),
    "ends with status 0 where packets could not be written": (
        (FULL, faults.unwritable), "    something_is_lost();\n    count++;\n", "    count++;\n"),
    "tells of every packet that could not be written": (
        (FULL, faults.unwritable), "    quiet_until = now_ms() + 60000;\n", ""),
    "answers from any address": (
        faults.answers_from_where_it_was_asked, "    if (route->family == AF_INET && of == AF_INET) {\n", "    if (0) {\n"),
    "waits for whoever reads its lines": (
        faults.nobody_reads, "    if (poll(&wait, 1, milliseconds) <= 0)\n", "    if (poll(&wait, 1, -1) <= 0)\n"),
    "answers as often as it is asked": (
        faults.few_answers, "    if (socket_fd < 0 || is_ending())\n", "    if (1)\n"),
    "takes no packet while it syncs": ((FULL, faults.shared_syncs), "    if (!with_threads) {\n", "    if (1) {\n"),
    "has no file number while it syncs": (
        (FULL, faults.opened_while_it_syncs), "    if ((!found || options.port != NULL) && ", "    if (!found && "),
    "finds a fault where a page was taken away": (faults.taken_as_documented, "    if (slot->reported && is_gone)\n", "    if (0)\n"),
    "goes on for senders that it doesn't hear": (
        faults.idle_and_strangers, "ready[0].revents != 0 && take_batch(&number) > 0)", "ready[0].revents != 0 && (take_batch(&number), 1))"),
    "hears the first line of a request alone": (faults.which_file_is_closed, "        done += length + 1;\n", "        done = have;\n"),
    "tells ten times a second that close can't be removed": (
        (FULL, faults.unremovable), "    told = 0;\n    while", "    while", "        told = 1;\n        return;\n", "        return;\n"),
    "writes lines into a file where descriptors are closed": (
        faults.closed_descriptors, "    open_output();\n    take_arguments", "    take_arguments"),
    "lets one page without a name hold up all others": (
        faults.one_without_a_name, "open_transfer(due.id)->put_off <= now)", "1)"),
    "tries again and again what can't be done": (
        faults.one_without_a_name, "    return (int)(until - now);\n", "    return 0;\n"),
    "answers no refused packet where others came since": (
        faults.repair_status, "        t->repair = t->repair != 0 ? t->repair : covering_sync();\n", "        t->repair = UINT64_MAX;\n"),
    "prints all holes of a STATUS": (plant.many_holes, "#define MOST_HOLES 64 ", "#define MOST_HOLES 16384 "),
    "leaves half a line where it is killed": (
        faults.whole_lines, "S_ISREG(seen.st_mode))\n        return channel->have;\n", "S_ISREG(seen.st_mode))\n        return channel->have / 2;\n"),
    "takes a network for one address": (
        faults.peers, "    unsigned whole = network->bits / 8, rest = network->bits % 8;\n", "    unsigned whole = 16, rest = 0;\n"),
    "echoes what was typed": (faults.which_file_is_closed, "argument[0] == ' ' ? argument : shown", "argument"),
    "dies of SIGHUP": (faults.whole_lines, "        sigaction(SIGHUP, end, NULL);\n", "        signal(SIGHUP, SIG_DFL);\n"),
    "makes no room, whatever --make-room says": (
        plant.full_table, "slot.reported || options.make_room", "slot.reported || 0"),
    "makes room by the Id, and not by who was heard longest ago": (
        plant.full_table, "slot.reported ? t->id : slot.heard;", "t->id;"),
    "closes nothing that an operator asks it to": (
        plant.operator, "        close_asked(id, file);\n    else\n", "        ;\n    else\n"),
    "hears every sender, whatever --peer says": (
        plant.who_is_heard, "    if (options.any_peer)\n        return 1;", "    return 1;"),
    "keeps the files of any number of transfers": (plant.kept, "kept < options.most_kept", "1"),
    "ends a transfer for one that isn't taken": (
        plant.kept, "    if (is_over_a_limit(p, read))\n        return;\n    struct transfer *t",
        "    if (old == NULL && is_over_a_limit(p, read))\n        return;\n    struct transfer *t"),
    "answers failure 3 whatever --repair-status says": (plant.runs, "&& options.repair_status &&", "&& 0 &&"),
    "answers no packet of a type that it doesn't know": (
        plant.answers, "    if (saratoga_failure_id(p->octets", "    if (p->octets[0] <= 0x44 && saratoga_failure_id(p->octets"),
    "answers a BEACON": (
        plant.answers, "saratoga_failure_id(p->octets, p->length, code, &id))",
        "code != 0 && p->length >= 8 && (id = saratoga_number_of(p->octets + 4, 4), 1))"),
    "takes an area whose octets were changed": (
        passes, "    return memcmp(digest, file + MAGIC_OCTETS, sizeof digest) == 0;", "    return 1;"),
    "doesn't say that an area is of another layout": (
        other_layouts, "    if (layout != 0 && layout != AREA_LAYOUT)\n", "    if (0)\n"),
    "begins anew where an area is of another layout": (
        other_layouts, "    if (layout != 0 && layout != AREA_LAYOUT)\n",
        "    if (layout != 0 && layout != AREA_LAYOUT)\n        return 0;\n    if (0)\n"),
    "sets files aside before it looks at the area": (
        other_layouts, "    int found = read_area(&area);\n", "    set_orphans_aside();\n    int found = read_area(&area);\n"),
    "knows no area of layout 1": (other_layouts, "have == LAYOUT_1_OCTETS && ", "0 && "),
    "takes a file of any length": (plant.command_line, "read->size > options.largest", "0"),
    "reads no settings": (plant_settings, "        tell_settings(options.settings);\n", "        ;\n"),
    "takes settings that are refused": (plant_settings, "    if (s.number != 0)\n", "    if (0)\n"),
    "counts no recording": (plant.what_is_known, "    t->work.recordings++;\n", ""),
    "hands a page on that differs": (
        sheets.differs, "    if (t->verdict == SARATOGA_DIFFERS)\n        spoil(t);\n    return t->verdict != SARATOGA_DIFFERS;", "    return 1;"),
    "names a page before it is checked": (
        SPOILT, "    int named = is_ready(t) ? give_name(t) : -1;\n",
        "    rename_to(t, \"page\");\n    cut_point(\"early\");\n    int named = is_ready(t) ? give_name(t) : -1;\n"),
    "doesn't check what has the name of a page": (
        sheets.restarted, "    if (!t->checked) {\n", "    t->checked |= strcmp(t->suffix, \"page\") == 0;\n    if (!t->checked) {\n"),
    "checks the first part of a page alone": (
        sheets.agrees, "            saratoga_md5_add(", "            if (have == 0) saratoga_md5_add("),
    "ends with status 0 where a page differs": (sheets.differs, "    return STATUS_DIFFERS;", "    return 0;"),
    "tells a sender that a page which differs is complete": (
        sheets.sent_again, "    int named = is_ready(t) ? give_name(t) : -1;\n", "    int named = 1;\n"),
    "gives a page its name before its sheet": (
        TWO, "    if (!has_its_sheet(t, \"page\"))\n", "    rename_to(t, \"page\");\n    cut_point(\"early\");\n    if (!has_its_sheet(t, \"page\"))\n"),
    "writes a sheet in place": (
        TWO, "replace_file(job.sheet_name, (const uint8_t *)job.sheet, job.sheet_len) == 0 ? 0 : errno;",
        "write_at(open_file(job.sheet_name, O_WRONLY | O_CREAT | O_TRUNC), (const uint8_t *)job.sheet, job.sheet_len, 0);",
        "#include <errno.h>\n#include <string.h>\n\nstatic struct {\n    uint64_t id, file;",
        "#include <errno.h>\n#include <fcntl.h>\n#include <string.h>\n\nstatic struct {\n    uint64_t id, file;"),
    "says that a page which wasn't checked arrived whole": (
        sheets.not_checked, "one->complete && t->verdict == SARATOGA_AGREES", "one->complete && t->verdict != SARATOGA_DIFFERS"),
    "leaves out of what is missing all that lies past the edge": (
        sheets.incomplete, "if (!more && one->edge == one->length)", "if (!more)"),
    "prints numbers in JSON as doubles": (
        seen.exact, "        put(w, value.at, value.length);\n",
        "        { extern double strtod(const char *, char **); char text[40];\n"
        "          put(w, text, (size_t)__builtin_sprintf(text, \"%.0f\", strtod(value.at, 0))); }\n"),
    "takes flags that are digits for a number in JSON": (seen.exact, '"file", "flags", "heard"', '"file", "heard"'),
    "leaves a backslash in JSON as it is": (seen.exact, "word.at[i] == '\"' || word.at[i] == '\\\\'", "word.at[i] == '\"'"),
    "rounds percents up": (
        seen.columns, "100 * one->received / one->length", "(100 * one->received + one->length - 1) / one->length"),
    "counts no hole at the beginning of a file": (seen.columns, "    return count + (saratoga_transfer_hole(", "    return count + 0 * (saratoga_transfer_hole("),
    "counts no refusal by its number": (seen.known_traffic, "counters.refused[number < MOST_REFUSALS ? number : 0]++;", "counters.refused[1]++;"),
    "counts a packet of a further peer with the first": (seen.held_back, "    return &counters.others;", "    return &counters.peers[0];"),
    "counts each time what the kernel dropped since the start": (
        seen.dropped, "counters.dropped += (uint32_t)(count - dropped);", "counters.dropped += count;"),
    "writes the file for Prometheus in place": (
        seen.replaced_whole, "is_due(&written, METRICS_EVERY)", "is_due(&written, 1)", "open(new_name, O_WRONLY", "open(options.metrics, O_WRONLY",
        "    return rename(new_name, options.metrics);", "    return 0;"),
    "writes lines among live lines": (
        terminal.nothing_is_garbled, "    if (beside_live && !hide_live(milliseconds))\n", "    if (0)\n"),
    "takes one live line away of several": (terminal.nothing_is_garbled, '"\\r\\033[%dA\\033[J", shown);', '"\\r\\033[%dA\\033[J", 1);'),
    "lets a live line run over the edge": (terminal.nothing_is_garbled, "    length = length < columns ? length : columns;\n", ""),
    "waits for the reader of a terminal": (
        terminal.unread, "O_WRONLY | O_NONBLOCK | O_NOCTTY", "O_WRONLY | O_NOCTTY"),
    "draws live lines where others print from a pipe": (terminal.only_where_it_fits, "S_ISFIFO(seen.st_mode) || ", ""),
    "forgets the hook of a page before it has ended": (
        service.after_a_kill, "        slot->file = taken.file;\n", "        slot->file = taken.file;\n        forget_note(slot->id, slot->file);\n"),
    "forgets the hook of a page whose transfer is closed": (service.after_a_kill, "    take_up_hooks();\n", ""),
    "hands a page over at each start": (
        service.failed_and_differs, "    if (options.hook != NULL && length_of(name) >= 0)\n", "    if (options.hook != NULL)\n"),
    "hands a page over that was changed": (
        service.not_what_it_was, "        if (check.failed || check.verdict == SARATOGA_DIFFERS || !file_has_length(check.name, check.length)) {\n",
        "        if (check.failed) {\n"),
    "waits for a hook": (service.slow_hooks, "&status, WNOHANG)", "&status, 0)"),
    "runs any number of hooks": (service.slow_hooks, "i < options.hooks &&", "i < MOST_HOOKS &&"),
    "leaves its descriptors to the hook": (service.handed_over, "addclosefrom_np(&actions, 3)", "addclosefrom_np(&actions, 99)"),
    "ignores signals for the hook too": (service.handed_over, "POSIX_SPAWN_SETSIGDEF | ", ""),
    "ends without its hooks": (service.at_the_end, "    write_open_sheets();\n    finish_hooks();\n", "    write_open_sheets();\n"),
    "gives a page up where its hook can't be started": (
        service.no_such_hook, "        slot->pid = 0;\n        not_before = now_ms() + INTERVAL;\n", "        slot->pid = 0;\n        take_first();\n"),
    "says that it is ready before it is": (
        service.managed, "    struct sockaddr_storage own;\n", "    struct sockaddr_storage own;\n    tell_ready(\"early\");\n"),
    "keeps the log open that it had": (service.logged, "    if (options.log != NULL && open_anew() < 0)\n        warn(", "    if (0)\n        warn("),
    "writes the times of where it is": (service.times, "gmtime_r(&now.tv_sec, &parts)", "localtime_r(&now.tv_sec, &parts)"),
    "lets the file of options have the last word": (
        service.config, "    take_files(count, arguments);\n", "", "    pass_over(&from_file);\n", "    take_files(count, arguments);\n    pass_over(&from_file);\n"),
    "leaves the sheet of what is closed as it was": (
        sheets.incomplete, "    if (t->closing_len > 0 && !t->has_sheet) {\n", "    if (0) {\n"),
}


def wrong_programs(place):
    """What isn't edited is compiled once, with cut points and without; what a test links beside it too."""
    made = {cuts: {path: compiled(path, os.path.join(place, f"{number}{cuts}.o"), *([cuts] if cuts else []))
                   for number, path in enumerate(SOURCES)} for cuts in ("", "-DLINK_CUT_POINTS")}
    beside = {CUT: ([compiled(POWERCUT, os.path.join(place, "powercut.o"))], WRAPPED),
              FULL: ([compiled(NOSPACE, os.path.join(place, "nospace.o"))], [*WRAPPED, FAILS])}

    def tried(number, what, test, edits):
        """Why a program was found wrong; None where it wasn't."""
        here = os.path.join(place, str(number), "here")
        os.makedirs(here)
        kind, test = ("", test) if callable(test) else test
        cuts = ["-DLINK_CUT_POINTS"] if kind == ENDED else []
        objects = dict(made["".join(cuts)])
        changed = here + ".edited"
        os.mkdir(changed)
        for path, name in edited(edits, changed).items():
            objects[path] = compiled(name, name + ".o", "-w", *cuts)
        more, options = beside.get(kind, ([], []))
        try:
            plant.one_of_it(test, build([*objects.values(), *more], here + ".out", *options), here)
        except AssertionError as reason:
            return f"a program that {what}: {reason}"
        return None

    with concurrent.futures.ThreadPoolExecutor(plant.AT_ONCE) as pool:
        for what, reason in zip(WRONG, pool.map(tried, range(len(WRONG)), WRONG, *zip(*((test, edits) for test, *edits in WRONG.values())))):
            check(reason, f"a program that {what} isn't found")
            if os.environ.get("SHOW_WRONG"):
                print(f"link: {reason}")


def sanitized(program, name, make=lambda out, *options: build(SOURCES, out, *options)):
    """The program with a sanitizer; without one where the compiler has none, or where all are built with one."""
    if SANITIZED:
        return program
    try:
        return make(program + "-" + name, *sanitizer(name))
    except subprocess.CalledProcessError:
        print(f"link: skipped with sanitizers: the compiler doesn't support {name}")
        return program


def main():
    seconds = float(sys.argv[1]) if len(sys.argv) > 1 else 6.0
    begun = time.monotonic()
    signal.signal(signal.SIGHUP, signal.SIG_DFL)  # nohup has programs ignore it
    with tempfile.TemporaryDirectory() as place:
        def fresh(name):
            path = os.path.join(place, name, "here")
            os.makedirs(path)
            return path

        program = build(SOURCES, os.path.join(place, "saratoga-link"))
        cutting = build(SOURCES, os.path.join(place, "saratoga-link-cut"), "-DLINK_CUT_POINTS")
        power = build([*SOURCES, POWERCUT], os.path.join(place, "saratoga-link-power"), *WRAPPED)
        passes(program, fresh("passes"))
        other_layouts(program, fresh("layouts"))
        timestamps(program, fresh("stamps"))
        plant_settings(program, fresh("settings"))
        more_than_sixteen(program, fresh("sixteen"))
        descriptors_of_128_bits(program, fresh("wide"))
        longest_status(program, fresh("longest"))
        checked, racing = sanitized(program, "address,undefined"), sanitized(program, "thread", failing)
        any_octets(checked, fresh("any"))
        print("link: passes, timestamps, settings, damaged packets, restarts, wrong input and areas of another layout are as "
              "expected")
        plant.all_of_it(checked, fresh)
        print("link: Ids used again, lost files, a full table, the operator, a full disk and traps are as expected")
        faults.all_of_it(checked, fresh)
        print("link: a hostile network, a careless operator and a failing machine find no mixed page, no silence and no stop")
        unit, handed = service.all_of_it(checked, fresh, cutting, power)
        print(f"link: its hook, also ended at each of {handed} places, its service manager, log and file of options are as expected; {unit}")
        sheets.all_of_it(checked, fresh)
        print("link: pages that agree with their MD5, differ or aren't checked, and the sheets of all, are as expected")
        seen.all_of_it(checked, fresh)
        terminal.all_of_it(checked, fresh)
        print(f"link: lines as JSON, {len(seen.EVENTS)} kinds, counters and live lines say what the plain lines say")
        places = cut_everywhere(cutting, fresh("cuts")), cut_while_an_id_is_used_again(cutting, fresh("again")), (
            cut_everywhere(cutting, fresh("replaced"), plant.two_files_of_one_id)), (
            cut_everywhere(cutting, fresh("spoilt"), sheets.spoilt))
        print(f"link: ended at each of {sum(places)} places between and inside writes, nothing promised is missing")
        calls = power_cuts(power, program, fresh("power")) + (
            power_cuts(power, program, fresh("power-replaced"), plant.two_files_of_one_id)) + (
            power_cuts(power, program, fresh("power-spoilt"), sheets.spoilt))
        print(f"link: power cut at each of {calls} calls, whatever of the rest is on disk nothing promised is missing")
        places, calls = threads_ended(cutting, fresh("threads")), threads_cut(power, fresh("threads-power"), program)
        print(f"link: on a socket, with a thread that syncs, ended at {places} places and cut at {calls} calls: nothing promised is missing")
        if not SANITIZED:
            wrong_programs(fresh("wrong"))
            print(f"link: {len(WRONG)} programs with another order of writes, or an option that does nothing, are found")
        print("link: " + loopback(program, fresh("four"), "127.0.0.1", seconds, ()))
        print("link: " + kills.soak(failing(os.path.join(place, "saratoga-link-failing")), fresh("kills"), 40, 32))
        if not SANITIZED:
            kills.wrong_programs(fresh("kills-wrong"), 40, 32, ("reports a page before a sync has saved it",))
        if racing != program:
            print("link: with ThreadSanitizer: " + kills.soak(racing, fresh("racing"), 15, 33))
        try:
            socket.socket(socket.AF_INET6, socket.SOCK_DGRAM).bind(("::1", 0))
        except OSError:
            print("link: skipped on ::1: there is no IPv6 loopback")
        else:
            print("link: " + loopback(program, fresh("six"), "::1", seconds / 2, ("--no-fsync", "--quiet")))
    print(f"link: tested in {time.monotonic() - begun:.0f} s")
    return 0


if __name__ == "__main__":
    try:
        sys.exit(main())
    except AssertionError as error:
        print(f"host/link/test.py: FAILED: {error}", file=sys.stderr)
        sys.exit(1)
