#!/usr/bin/env python3
"""Tests saratoga-merge on the directories of two plants: what is merged and said, what is refused with nothing touched, and the
order of writes: ended at each place between and inside writes, killed at random moments, and with a power cut at each call. The
directories are made by the link program. Needs a C compiler, python3 and the archive.

    host/merge/test.py [SECONDS]     SECONDS bounds the part that kills the program (else 4)

With SHOW_WRONG set it prints how each wrong program was found.
"""
import fcntl
import os
import random
import shutil
import subprocess
import sys
import tempfile
import time

PLACE = os.path.dirname(os.path.abspath(__file__))
sys.dont_write_bytecode = True
sys.path.insert(0, os.path.join(os.path.dirname(PLACE), "link"))
import harness  # noqa: E402
from harness import AREA_HEAD, POWERCUT, WRAPPED, after_the_cut, at, check, content, holds, page, records, stamps, stem, stored  # noqa: E402
from packets import TIMESTAMP, data, metadata  # noqa: E402

LINK = harness.SOURCES
SHARED = [os.path.join(harness.PLACE, name + ".c") for name in ("area", "files", "disk", "meta", "text", "output", "log")]
SOURCES = [os.path.join(PLACE, name + ".c") for name in ("merge", "octets")] + SHARED
LENGTH = 3000
FIRST, SECOND = [(0, 700), (1500, 2100)], [(300, 1200), (1400, 1600), (2600, 3000)]


def build(sources, out, *options):
    return harness.build(sources, out, "-I" + PLACE, *options)


class Plants:
    """Two directories, made anew for each test."""

    def __init__(self, link, place):
        self.link, self.place, self.count = link, place, 0

    def receive(self, directory, packets):
        os.makedirs(directory, exist_ok=True)
        _, told, status = harness.run(self.link, directory, "--no-fsync", "-", octets=records(packets))
        check(status == 0, told)

    def reported(self, directory, ident, octets):
        """The link program, at its start, names and reports what is complete."""
        lines, told, status = harness.run(self.link, directory, "--no-fsync", "-")
        check(status == 0 and told == "" and any(f"complete id={ident} length={len(octets)} file={ident:08x}." in line for line in lines),
              f"{lines}, {told}")
        check(holds(directory, f"{ident:08x}.page", octets), "the page")

    def make(self, *files):
        """Each file is an Id, its octets, the stretches that either plant has of it, and fields of METADATA for either."""
        self.count += 1
        both = [os.path.join(self.place, f"{self.count}-{side}") for side in ("first", "second")]
        for side, directory in enumerate(both):
            packets = []
            for ident, octets, *stretches in files:
                fields = stretches[2 + side] if len(stretches) > 2 else {}
                width = fields.get("width", 16)
                packets.append(metadata(ident, width, len(octets), **{k: v for k, v in fields.items() if k != "width"}))
                packets += [data(ident, width, at, octets[at:stop]) for at, stop in stretches[side] or ()]
                if stretches[side] is None:
                    packets.pop()
            self.receive(directory, packets)
        return both


def run(program, *words, **environment):
    """Lines, messages and exit status of the program."""
    done = subprocess.run([program, *words], stdin=subprocess.DEVNULL, capture_output=True, check=False, timeout=60,
                          env=dict(os.environ, **environment))
    check(b"Sanitizer" not in done.stderr, done.stderr.decode())
    return done.stdout.decode().splitlines(), done.stderr.decode(), done.returncode


def everything(directory):
    """Each name with its octets."""
    return {name: content(directory, name) for name in os.listdir(directory)}


def union(*lists):
    offsets = sorted({offset for runs in lists for run in runs for offset in range(*run)})
    runs = []
    for offset in offsets:
        if runs and runs[-1][1] == offset:
            runs[-1][1] += 1
        else:
            runs.append([offset, offset + 1])
    return [tuple(run) for run in runs]


def octets_are_there(directory, originals):
    """Each octet that the area on disk holds as received is on disk."""
    for ident, (length, runs) in (stored(directory) or {}).items():
        check(os.path.exists(os.path.join(directory, stem(directory, ident) + ".meta")), f"transfer {ident} has no .meta")
        check(length == len(originals[ident]), f"transfer {ident} has {length} octets")
        names = [stem(directory, ident) + end for end in (".part", ".page")]
        there = [name for name in names if os.path.exists(os.path.join(directory, name))]
        check(there, f"transfer {ident} is in the area and has no file")
        kept = content(directory, there[0])
        for start, stop in runs:
            check(kept[start:stop] == originals[ident][start:stop], f"octets {start} to {stop} of {there[0]} aren't on disk")


# What is merged, and what is said.


def one_page(program, plants):
    """Two plants, one page: lines, area and files; again, which changes nothing; and the other way round."""
    octets = page(LENGTH, 1)
    first, second = plants.make((7, octets, FIRST, SECOND))
    line = ("id=7 length=3000 first=1300 second=1500 gained=1000 missing=1200-1400,2100-2600 complete=0 path=page611.pla")
    kept = everything(first), everything(second)
    check(run(program, "--dry-run", first, second) == ([f"would-merge {line}"], "", 0), "what a dry run says")
    check((everything(first), everything(second)) == kept, "a dry run changes something")
    said_of_it = run(program, first, second)
    check(said_of_it == ([f"merge {line}"], "", 0), f"what a merge says: {said_of_it}")
    check(everything(second) == kept[1], "the second is changed")
    check(stored(first)[7] == (LENGTH, union(FIRST, SECOND)), f"the area holds {stored(first)}")
    octets_are_there(first, {7: octets})
    check(everything(first)["00000007.1.meta"] == kept[0]["00000007.1.meta"], "the .meta is changed")
    kept = everything(first)
    lines, told, status = run(program, first, second)
    check((len(lines), told, status) == (1, "", 0) and " gained=0 " in lines[0], f"the same again: {lines}, {told}")
    check(everything(first) == kept, "the same again changes something")
    # The rest comes from the air, at the first plant.
    plants.receive(first, [data(7, 16, 1200, octets[1200:1400]), data(7, 16, 2100, octets[2100:2600])])
    check(holds(first, "00000007.page", octets), "the page after the rest came")
    # The other way round: the first is complete, its file a .page.
    lines, told, status = run(program, second, first)
    check(status == 0 and told == "" and lines[0].startswith("merge id=7 length=3000 first=1500 second=3000 gained=1500 "
                                                             "missing= complete=1 "), f"a page: {lines}, {told}")
    check(len(lines) == 1 and "00000007.1.part" in os.listdir(second), f"named before the link program runs: {lines}")
    plants.reported(second, 7, octets)
    lines, told, status = run(program, second, first)
    check(status == 0 and " gained=0 missing= complete=1" in lines[0] and len(lines) == 1, f"both complete: {lines}, {told}")
    os.remove(at(first, "00000007.page"))
    check(run(program, second, first)[2] == 0, "nothing is needed of a file that was taken away")
    first, second = plants.make((8, octets, [(0, 10)], [(20, 30)]))
    lines, told, status = run(program, first, second)
    check(status == 0 and " gained=10 missing=10-20,30-3000 complete=0 " in lines[0], f"missing after the edge: {lines}, {told}")


def whole_by_merging(program, plants):
    """Neither has the page, both together do. The link program names and reports it."""
    octets = page(LENGTH, 2)
    first, second = plants.make((7, octets, [(0, 1500)], [(1500, LENGTH)]))
    lines, told, status = run(program, first, second)
    check(status == 0 and told == "" and len(lines) == 1 and " missing= complete=1 " in lines[0],
          f"a page that is whole by merging: {lines}, {told}")
    plants.reported(first, 7, octets)
    lines, told, status = harness.run(plants.link, first, "--list")
    check(status == 0 and "id=7 " in lines[0] and "complete=1" in lines[0], f"the list: {lines}")
    # Empty files are complete from the start.
    first, second = plants.make((8, b"", [], []))
    lines, told, status = run(program, first, second)
    check(status == 0 and "missing= complete=1" in lines[0], f"an empty file: {lines}, {told}")


def several(program, plants):
    """All that both have open, or one; others stay."""
    pages = {ident: page(900 + ident, ident) for ident in (3, 5, 7, 9)}
    files = [(3, pages[3], [(0, 100)], None), (5, pages[5], [(0, 100)], [(200, 300)]), (7, pages[7], [(50, 60)], [(55, 900)]),
             (9, pages[9], None, [(0, 9)])]
    first, second = plants.make(*files)
    before = stored(first)
    lines, told, status = run(program, "--id", "7", first, second)
    check(status == 0 and [line.split()[1] for line in lines] == ["id=7"], f"one of several: {lines}, {told}")
    check({**stored(first), 7: 0} == {**before, 7: 0} and stored(first)[7][1] == [(50, 900)], "one of several")
    lines, told, status = run(program, first, second)
    check(status == 0 and [line.split()[1] for line in lines] == ["id=5", "id=7"], f"all: {lines}, {told}")
    check(stored(first)[5][1] == [(0, 100), (200, 300)] and stored(first)[3] == before[3] and 9 not in stored(first), "all")
    octets_are_there(first, pages)
    for ident, where in ((3, second), (9, first), (11, first)):
        lines, told, status = run(program, f"--id=0x{ident:x}", first, second)
        check(status == 1 and f"transfer {ident} isn't open in {where}" in told and not lines, f"{ident}: {told}")
    # An Id used again: of the file that the area has, on either side.
    older = page(500, 40)
    first, second = plants.make((7, older, [(0, 100)], [(0, 500)]))
    plants.receive(second, [metadata(7, 16, 3000), data(7, 16, 5, pages[3][:100])])
    lines, told, status = run(program, first, second)
    check(status == 1 and "octets in" in told, f"another file under the Id: {told}")


def timestamps(program, plants):
    """The first's timestamp stays."""
    octets = page(LENGTH, 3)
    first, second = plants.make((7, octets, [], []))
    for directory, at, octet in ((first, 0, 1), (second, 100, 2)):
        plants.receive(directory, [data(7, 16, at, octets[at:at + 50], TIMESTAMP, bytes([octet]) * 16)])
    check(run(program, first, second)[2] == 0, "merged")
    check(stamps(first) == {7: b"\1" * 16} and stamps(second) == {7: b"\2" * 16}, f"timestamps {stamps(first)}")


# What is refused, with nothing touched.


def refused(program, what, first, second, message, *words):
    kept = everything(first), everything(second)
    lines, told, status = run(program, *words, first, second)
    check(status == 1 and message in told and not lines, f"{what}: {lines}, {told}, {status}")
    check((everything(first), everything(second)) == kept, f"{what}: something is touched")
    lines, told, status = run(program, "--dry-run", *words, first, second)
    check(status == 1 and message in told and not lines, f"{what}, dry run: {told}")
    check((everything(first), everything(second)) == kept, f"{what}: a dry run touches something")


def other_files(program, plants):
    """Each field of METADATA, and octets that both have."""
    octets = page(LENGTH, 4)
    for field, name, line in (({"path": b"other"}, "path", "path=other"), ({"mtime": 1}, "mtime", "mtime=2000-01-01T00:00:01Z"),
                              ({"ctime": 1}, "ctime", "ctime=2000-01-01T00:00:01Z"),
                              ({"flags": 0x42, "checksum": b"c" * 16}, "flags", "flags=000042"), ({"flags": 0x42, "checksum": b"d" * 16}, "checksum", "checksum=2:64"),
                              ({"properties": 1}, "properties", "properties=0001")):
        mine = {"flags": 0x42, "checksum": b"c" * 16} if name == "checksum" else {}
        first, second = plants.make((7, octets, FIRST, SECOND, mine, field))
        refused(program, name, first, second, f"{second} has {line}")
        refused(program, name, second, first, f"{second} has {line}")
    first, second = plants.make((7, octets, FIRST, SECOND, {}, {"width": 32}))
    refused(program, "width", first, second, "descriptors of 16 bits in")
    first, second = plants.make((7, octets, FIRST, SECOND))
    plants.receive(second, [metadata(7, 16, 2900), data(7, 16, 0, octets[:9])])
    refused(program, "length", first, second, "has 3000 octets in")
    # The first octet that differs is named; what one of them alone has may be anything.
    for at, want in ((300, 300), (699, 699), (1500, 1500), (1599, 1599)):
        first, second = plants.make((7, octets, FIRST, SECOND))
        with open(os.path.join(second, "00000007.1.part"), "r+b") as file:
            for place in (at, 650 if at < 650 else at, 1599):
                file.seek(place)
                file.write(bytes([octets[place] ^ 1]))
        refused(program, f"octet {at}", first, second, f"octet {want} is {octets[at]:02x} in {first}/00000007.1.part and "
                f"{octets[at] ^ 1:02x} in {second}/00000007.1.part")
    first, second = plants.make((7, octets, FIRST, SECOND))
    with open(os.path.join(second, "00000007.1.part"), "r+b") as file:
        file.write(b"?" * 300)
    check(run(program, first, second)[2] == 0, "octets that the second hasn't received may be anything")
    octets_are_there(first, {7: octets})
    # One of several that differs: none is merged.
    other = page(500, 5)
    first, second = plants.make((5, other, [(0, 9)], [(20, 30)]), (7, octets, FIRST, SECOND, {}, {"path": b"p"}))
    refused(program, "one of two", first, second, "path=p")
    check(run(program, "--id", "5", first, second)[2] == 0, "the other one by its Id")


def room(program, plants):
    """More than 64 runs in the joined set; 64 and 64 that touch are one."""
    octets = page(LENGTH, 6)
    even, odd = [(4 * i, 4 * i + 1) for i in range(64)], [(4 * i + 2, 4 * i + 3) for i in range(64)]
    first, second = plants.make((7, octets, even, odd))
    refused(program, "128 runs", first, second, "64 and 64 runs are more than 64 together")
    first, second = plants.make((7, octets, even, [(4 * i + 1, 4 * i + 4) for i in range(64)]))
    check(run(program, first, second)[2] == 0 and stored(first)[7][1] == [(0, 256)], "runs that touch")
    octets_are_there(first, {7: octets})


def faulty(program, plants):
    """Directories that hold no table, or lost files; one that is in use; wrong words."""
    octets = page(LENGTH, 7)

    def fresh():
        return plants.make((7, octets, FIRST, SECOND))

    for side in (0, 1):
        both = fresh()
        os.remove(os.path.join(both[side], "area"))
        refused(program, "no area", *both, f"{both[side]}/area: there is none")
        for spoilt, message in ((b"saratoga-area 3\n" + b"\xff" * (AREA_HEAD - 16 + 18696), "isn't whole"), (b"", "isn't whole"),
                                (b"saratoga-area 9\n" + bytes(17288), "has layout 9"),
                                (b"saratoga-area 2\n" + bytes(17288), "has layout 2")):
            with open(os.path.join(both[side], "area"), "wb") as file:
                file.write(spoilt)
            refused(program, "a damaged area", *both, message)
        both = fresh()
        os.remove(at(both[side], "00000007.meta"))
        refused(program, "no .meta", *both, "its .meta isn't there")
        both = fresh()
        os.truncate(os.path.join(both[side], "00000007.1.part"), 1000)
        refused(program, "a short .part", *both, "fewer octets than were recorded")
        both = fresh()
        os.remove(os.path.join(both[side], "00000007.1.part"))
        os.symlink("/etc/passwd", os.path.join(both[side], "00000007.1.part"))
        lines, told, status = run(program, *both)
        check(status == 1 and not lines, f"a link in the place of a file: {told}")
        both = fresh()
        lock = os.open(both[side], os.O_RDONLY)
        fcntl.flock(lock, fcntl.LOCK_EX)
        refused(program, "in use", *both, "another program writes there")
        os.close(lock)
    first, second = fresh()
    plants.receive(second, [data(7, 16, 0, octets)])
    os.remove(at(second, "00000007.page"))
    refused(program, "taken away", first, second, "its file was taken away")
    first, second = plants.make((7, octets, FIRST, None))
    refused(program, "nothing in common", first, second, "no transfer is open in both")
    for words in ((first,), (first, second, first), (first, first), (first, second, "--id"), (first, second, "--id", "x"), ("--what",),
                  (first, second, "--id", "4294967296")):
        lines, told, status = run(program, *words)
        check(status == 2 and told.startswith("saratoga-merge: ") and not lines, f"{words}: {told}, {status}")
    check(run(program, "--help")[2] == 0 and run(program, os.path.join(first, "none"), second)[2] == 1, "help, and no directory")
    full = subprocess.run([program, first, plants.make((7, octets, FIRST, SECOND))[1]], stdout=open("/dev/full", "wb"),
                          capture_output=False, stderr=subprocess.PIPE, check=False)
    check(full.returncode == 1, "output that can't be written")


def random_pairs(program, plants, count):
    """Stretches at random: the area holds what either received, and its octets are there; or it is refused for room."""
    rng = random.Random(25)
    for turn in range(count):
        octets = page(rng.choice([50, 700, 65000]), turn)
        sides = []
        for _ in range(2):
            runs = []
            for _ in range(rng.choice([0, 1, 5, 40])):
                start = rng.randrange(len(octets))
                runs.append((start, min(len(octets), start + rng.choice([1, 7, 30, 9000]))))
            sides.append(runs if len(union(runs)) <= 64 else runs[:3])
        first, second = plants.make((7, octets, *sides))
        want = union(*sides)
        lines, told, status = run(program, "--no-fsync", first, second)
        if len(want) > 64:
            check(status == 1 and "more than 64" in told, f"{turn}: {told}")
        else:
            check(status == 0 and told == "" and stored(first)[7][1] == want, f"{turn}: {lines}, {told}")
        octets_are_there(first, {7: octets})
        shutil.rmtree(first)
        shutil.rmtree(second)


# The order of writes.

PAGES = {5: page(2000, 50), 7: page(LENGTH, 70)}


def two_pages(plants):
    """A page that both have together, and one that misses some still."""
    return plants.make((5, PAGES[5], [(0, 1000)], [(900, 2000)]), (7, PAGES[7], FIRST, SECOND))


def merged_at_last(program, first, second):
    """Run again, it merges everything, whatever was done before."""
    lines, told, status = run(program, "--no-fsync", first, second)
    check(status == 0 and told == "", f"run again: {told}")
    octets_are_there(first, PAGES)
    check(stored(first)[7][1] == union(FIRST, SECOND) and stored(first)[5][1] == [(0, 2000)], "run again, all is merged")


def said(lines, directory):
    """Nothing was said that the area on disk doesn't hold."""
    for line in lines:
        if line.startswith("merge id=7 "):
            check(stored(directory)[7][1] == union(FIRST, SECOND), f"{line}: the area on disk doesn't hold it")
        if line.startswith("merge id=5 "):
            check(stored(directory)[5][1] == [(0, 2000)], f"{line}: the area on disk doesn't hold it")


def cut_everywhere(program, plain, plants):
    """Ended at each place between two writes, and inside each. Gives the number of places."""
    count = 0
    while True:
        count += 1
        check(count < 300, "the program is cut off without end")
        first, second = two_pages(plants)
        kept = everything(second)
        lines, told, status = run(program, "--no-fsync", first, second, LINK_CUT=str(count))
        check(status in (0, 99), told)
        octets_are_there(first, PAGES)
        said(lines, first)
        if plain:
            if status == 99 and count % 2 == 0:  # the link program takes it up in between
                plants.receive(first, [])
                octets_are_there(first, PAGES)
            merged_at_last(plain, first, second)
        check(everything(second) == kept, "the second is changed")
        if status == 0:
            return count - 1


def forced(directory, disk):
    """Notes all of a directory as forced to disk."""
    os.mkdir(disk)
    with open(os.path.join(disk, "names"), "w", encoding="utf-8") as names:
        for name in os.listdir(directory):
            inode = os.stat(os.path.join(directory, name)).st_ino
            names.write(f"{inode} {name}\n")
            with open(os.path.join(disk, f"octets-{inode}"), "wb") as copy:
                copy.write(content(directory, name))


def power_cuts(program, plain, plants):
    """The power goes at each call that writes, renames or forces to disk. Gives the number of calls."""
    chance, count = random.Random(914), 0
    while True:
        count += 1
        check(count < 300, "the power goes without end")
        first, second = two_pages(plants)
        disk = first + "-disk"
        forced(first, disk)
        lines, told, status = run(program, first, second, POWERCUT=str(count), POWERCUT_DISK=disk)
        check(status in (0, 98), told)
        for number, how in enumerate(("none", "names", "octets", "some", "some", "some")):
            left = f"{first}-{number}"
            after_the_cut(disk, first, left, how, chance)
            octets_are_there(left, PAGES)
            said(lines, left)
            if plain and number < 4:
                merged_at_last(plain, left, second)
        if status == 0:
            return count - 1


def killed(program, plants, seconds):
    """Killed at random moments while it merges a long page, and run again until it ends by itself. Gives how often."""
    rng, until, kills, merges = random.Random(), time.monotonic() + seconds, 0, 0
    octets = page(3_000_000, 9)
    width = {"width": 32}
    ours, theirs = [(i * 100_000, i * 100_000 + 40_000) for i in range(30)], [(i * 100_000 + 30_000, (i + 1) * 100_000) for i in range(30)]
    while time.monotonic() < until:
        first, second = plants.make((7, octets, chunks(ours), chunks(theirs), width, width))
        while True:
            process = subprocess.Popen([program, first, second], stdout=subprocess.PIPE, stderr=subprocess.PIPE)
            time.sleep(rng.random() * 0.02)
            process.kill()
            _, told = process.communicate()
            octets_are_there(first, {7: octets})
            kills += process.returncode == -9
            if process.returncode == 0:
                break
            check(process.returncode == -9, told.decode())
        merges += 1
        plants.reported(first, 7, octets)
        shutil.rmtree(first)
        shutil.rmtree(second)
    return kills, merges


def chunks(stretches):
    """Stretches that fit packets."""
    return [(at, min(at + 10_000, stop)) for start, stop in stretches for at in range(start, stop, 10_000)]


ENDED, CUT = "ended", "power cut"

WRONG = {
    "stores the area before the octets are copied": (
        ENDED, "    for (size_t i = 0; i < pair_count; i++)\n        copy_octets(&pairs[i]);\n    if (memcmp", "    if (memcmp",
        '    cut_point("between area and report");\n',
        '    cut_point("between area and report");\n    for (size_t i = 0; i < pair_count; i++)\n        copy_octets(&pairs[i]);\n'),
    "forces no octet to disk": (
        CUT, "        if (pairs[i].first.files->fd >= 0 && force_to_disk(pairs[i].first.files->fd) != 0)\n", "        if (0)\n"),
    "renames an area that isn't on disk": (CUT, " || force_to_disk(fd) != 0;", ";"),
    "writes the area in place": (
        ENDED, 'snprintf(new_name, sizeof new_name, "%s.new", name);', 'snprintf(new_name, sizeof new_name, "%s", name);'),
    "says what it merges before the area is stored": (
        ENDED, "    if (!dry_run)\n        write_all(merged);\n    for (size_t i = 0; i < pair_count; i++)\n        tell(&pairs[i], merged);\n",
        "    for (size_t i = 0; i < pair_count; i++)\n        tell(&pairs[i], merged);\n    if (!dry_run)\n        write_all(merged);\n"),
    "writes in a dry run": (one_page, "    if (!dry_run)\n        write_all(merged);\n", "    write_all(merged);\n"),
    "copies nothing": (one_page, "        copy_octets(&pairs[i]);\n", "        ;\n"),
    "copies all that the second has": (
        other_files, "    in_one_alone(&pair->lacking, &pair->second.runs, &pair->first.runs);\n",
        "    pair->lacking = (struct runs){.count = 1, .at = {{0, pair->second.one.edge}}};\n"),
    "takes any .meta": (other_files, "    if (strcmp(ours, theirs) == 0)\n", "    if (1)\n"),
    "compares the path alone": (
        other_files, "    if (strcmp(ours, theirs) == 0)\n", '    if (strcmp(strstr(ours, "\\npath="), strstr(theirs, "\\npath=")) == 0)\n'),
    "compares no octet": (other_files, "                if (ours[j] != theirs[j])\n", "                if (0)\n"),
    "compares octets that only one has received": (
        other_files, "    in_both(&both, &pair->first.runs, &pair->second.runs);\n",
        "    both = (struct runs){.count = 1, .at = {{0, pair->first.one.edge}}};\n"),
    "judges one transfer after the other": (
        other_files, "    for (size_t i = 0; i < pair_count; i++)\n        judge(&pairs[i], merged);\n",
        "    for (size_t i = 0; i < pair_count; i++) {\n        judge(&pairs[i], merged);\n        if (!dry_run)\n"
        "            write_all(merged);\n    }\n"),
    "merges all, whatever --id says": (several, "    if (one_alone) {\n", "    if (0) {\n"),
    "lets a program run in the second": (
        faulty, "    go_to(second_directory);\n    lock_to_read();\n", "    go_to(second_directory);\n"),
    "merges octets of any file under the Id": (several, "PRIu64 \".%s\", id, file, suffix);", "PRIu64 \".%s\", id, file - file + 1, suffix);"),
    "counts what the second has as gained": (
        one_page, "joined.received - pair->first.one.received", "pair->second.one.received"),
    "says nothing of what is missing after the edge": (
        one_page, "    missing_of(&missing, &have, joined.length);\n", "    missing_of(&missing, &have, joined.edge);\n"),
}


def wrong_programs(link, place):
    sources = {path: content(path).decode() for path in SOURCES}
    for number, (what, (test, *edits)) in enumerate(WRONG.items()):
        edited = dict(sources)
        for old, new in zip(edits[::2], edits[1::2]):
            places = [path for path in SOURCES for _ in range(sources[path].count(old))]
            check(len(places) == 1, f"{what}: {old!r} stands {len(places)} times")
            edited[places[0]] = edited[places[0]].replace(old, new)
        paths = []
        for path, text in edited.items():
            paths.append(os.path.join(place, f"{number}-{os.path.basename(path)}"))
            with open(paths[-1], "w", encoding="utf-8") as file:
                file.write(text)
        os.mkdir(os.path.join(place, str(number)))
        plants, out = Plants(link, os.path.join(place, str(number))), os.path.join(place, f"{number}.out")
        try:
            if test == ENDED:
                cut_everywhere(build(paths, out, "-DLINK_CUT_POINTS", "-Wno-error"), None, plants)
            elif test == CUT:
                power_cuts(build([*paths, POWERCUT], out, "-Wno-error", *WRAPPED), None, plants)
            else:
                test(build(paths, out, "-Wno-error"), plants)
        except AssertionError as reason:
            if os.environ.get("SHOW_WRONG"):
                print(f"merge: a program that {what}: {reason}")
            continue
        check(False, f"a program that {what} isn't found")


def main():
    seconds = float(sys.argv[1]) if len(sys.argv) > 1 else 4.0
    begun = time.monotonic()
    with tempfile.TemporaryDirectory() as place:
        def plants(name):
            path = os.path.join(place, name)
            os.mkdir(path)
            return Plants(link, path)

        link = harness.build(LINK, os.path.join(place, "saratoga-link"), "-O2")
        program = build(SOURCES, os.path.join(place, "saratoga-merge"))
        try:
            checked = build(SOURCES, os.path.join(place, "saratoga-merge-sanitized"), "-fsanitize=address,undefined",
                            "-fno-sanitize-recover=all")
        except subprocess.CalledProcessError:
            print("merge: skipped with sanitizers: the compiler doesn't support them")
            checked = program
        for test in (one_page, whole_by_merging, several, timestamps, other_files, room, faulty):
            test(checked, plants(test.__name__))
        random_pairs(checked, plants("random"), 40)
        print("merge: what is merged, what is refused with nothing touched, and faulty directories are as expected")
        cutting = build(SOURCES, os.path.join(place, "saratoga-merge-cut"), "-DLINK_CUT_POINTS")
        places = cut_everywhere(cutting, program, plants("cuts"))
        print(f"merge: ended at each of {places} places between and inside writes, no octet of the area is missing")
        power = build([*SOURCES, POWERCUT], os.path.join(place, "saratoga-merge-power"), *WRAPPED)
        calls = power_cuts(power, program, plants("power"))
        print(f"merge: power cut at each of {calls} calls, whatever of the rest is on disk no octet of the area is missing")
        kills, merges = killed(program, plants("killed"), seconds)
        print(f"merge: killed {kills} times at random moments, {merges} pages merged")
        os.mkdir(os.path.join(place, "wrong"))
        wrong_programs(link, os.path.join(place, "wrong"))
        print(f"merge: {len(WRONG)} wrong programs are found")
    print(f"merge: tested in {time.monotonic() - begun:.0f} s")
    return 0


if __name__ == "__main__":
    try:
        sys.exit(main())
    except AssertionError as error:
        print(f"host/merge/test.py: FAILED: {error}", file=sys.stderr)
        sys.exit(1)
