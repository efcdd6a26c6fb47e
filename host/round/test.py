#!/usr/bin/env python3
"""One good round (R17.1 to R17.5), end to end. A page is sent over a link that loses, repeats and reorders; then it gets one
round by the plan with no loss, and must have no hole, and be complete where its last octet had come.

    host/round/test.py [SEED]     thousands of rounds over the library (rounds.c), and some tens over loopback, through
                                  saratoga-link and saratoga-plan as a user runs them

Rounds that are spoiled (a piece dropped, 64 runs, and others in rounds.c) must be found to fail. Needs a C compiler, python3
and the archive; some ten seconds.
"""
import os
import random
import subprocess
import sys
import tempfile
import time

sys.dont_write_bytecode = True
PLACE = os.path.dirname(os.path.abspath(__file__))
for folder in ("plan", "link"):  # each has a test.py of its own, which isn't imported
    sys.path.append(os.path.join(os.path.dirname(PLACE), folder))
from harness import ARCHIVE, ROOT, SOURCES, build, check, content, page, stamps, stored  # noqa: E402
from packets import END_OF_DATA, INCOMPLETE, TIMESTAMP, WANTED, data, metadata  # noqa: E402
from plant import Link  # noqa: E402

ROUNDS, SANITIZED, ON_LOOPBACK = 20000, 1000, 40
PLAN = [os.path.join(ROOT, "host", "plan", name) for name in ("plan.c", "input.c", "reason.c")]
LIBRARY = [os.path.join(PLACE, name) for name in ("rounds.c", "lossy.c")]
SANITIZE = ("-fsanitize=address,undefined", "-fno-sanitize-recover=all")
# what the round leaves free of the flags of DATA. Bit 15, which is free too, is set by send()
FREE_FLAGS = 0xFFFFFF & ~(0xC00000 | 0x300000 | TIMESTAMP | WANTED | END_OF_DATA)


# Over the library.


def over_the_library(place, seed):
    def run(program, *words):
        done = subprocess.run([program, *words], capture_output=True, text=True, check=False, timeout=300)
        check(done.returncode == 0, f"rounds {' '.join(words)}: {done.stdout}{done.stderr}")
        return done.stdout.strip()

    plain = build(LIBRARY, os.path.join(place, "rounds"), "-I" + PLACE)
    print(run(plain, "--self-check"))
    print(run(plain, str(seed), str(ROUNDS)))
    try:
        checked = build(LIBRARY, os.path.join(place, "rounds-sanitized"), "-I" + PLACE, *SANITIZE)
    except subprocess.CalledProcessError:
        print("rounds: skipped with sanitizers: the compiler doesn't support them")
        return
    run(checked, "--self-check")
    run(checked, str(seed + ROUNDS), str(SANITIZED))
    print(f"rounds: {SANITIZED} more with sanitizers")


# Over loopback.


class Page:
    """A page, the link program that receives it, and a sender that asks saratoga-plan what to send again."""

    def __init__(self, link, place, plan, ident, chance, length):
        self.link, self.place, self.plan, self.ident, self.chance = link, place, plan, ident, chance
        self.width = chance.choice((16, 32, 64, 128))
        length = length or chance.randrange(1, 1 << chance.randrange(4, 17)) % 60000 + 1
        self.original = page(length, chance.random())
        self.status = self.answer(metadata(ident, self.width, length, b"page"))

    def answer(self, packet):
        """Sends a packet that is answered, and gives the answer."""
        got = self.link.send(packet)
        check(got is not None and got[3] == 0, f"the answer to {packet[:24].hex()} is {got and got.hex()}")
        return got

    def data(self, start, stop, flags):
        stamp = self.chance.randbytes(16) if flags & TIMESTAMP else b""
        return data(self.ident, self.width, start, self.original[start:stop], flags, stamp)

    def send(self, packets, asked=1):
        """Sends (start, stop, flags). Each packet whose number is a multiple of `asked`, and the last, asks for a STATUS and
        waits for it: so loopback itself loses none. A packet that completes the page is answered in any case, and must ask."""
        for number, (start, stop, flags) in enumerate(packets, 1):
            if number % asked and number < len(packets):
                self.link.socket.sendto(self.data(start, stop, flags), ("127.0.0.1", self.link.port))
            else:
                self.status = self.answer(self.data(start, stop, flags | WANTED))

    def lossy(self):
        """What comes of at most 120 packets, in which order, and how often: at most 60 runs. The last octet comes or not."""
        length, chance = len(self.original), self.chance
        size = max(1, -(-length // chance.randrange(1, 121)))
        cut = [(at, min(at + size, length)) for at in range(0, length, size)]
        loss, repeat = chance.random(), chance.random() / 3
        came = [piece for piece in cut if chance.random() >= loss] or [chance.choice(cut)]
        came += [piece for piece in came if chance.random() < repeat]
        late = chance.choice((1, 5, len(came)))
        came = [piece for _, piece in sorted(enumerate(came), key=lambda pair: pair[0] + chance.random() * late)]
        self.send([(start, stop, chance.choice((0, 0, TIMESTAMP)) | (END_OF_DATA if stop == length else 0))
                   for start, stop in came])

    def edge(self):
        return max((stop for _, stop in self.stored()[1]), default=0)

    def stored(self):
        """What the program's area on disk holds, which was saved before the last answer: the length, and the runs."""
        return stored(self.place)[self.ident]

    def planned(self, largest):
        """What saratoga-plan says to the last STATUS, as pairs of start and stop."""
        done = subprocess.run([self.plan, "-m", str(largest)], input=self.status, capture_output=True, check=False,
                              timeout=20)
        check(done.returncode == 0, f"saratoga-plan: {done.stderr.decode()}")
        pieces = [tuple(map(int, line.split())) for line in done.stdout.decode().splitlines()]
        return [(offset, offset + length) for offset, length in pieces]

    def round(self, largest, dropped=None):
        """The round; with `dropped`, without the piece of that number. Fails where R17.3, R17.4 or R17.5 does not hold."""
        before, kept, edge, first = stored(self.place), stamps(self.place), self.edge(), len(self.link.lines)
        check(not int.from_bytes(self.status[:4], "big") & INCOMPLETE, "the STATUS leaves a hole out")
        pieces = self.planned(largest)
        self.send([(start, stop, self.chance.getrandbits(24) & FREE_FLAGS)
                   for number, (start, stop) in enumerate(pieces) if number != dropped], asked=8)
        refused = [line for line in self.link.lines[first:] if " refused " in line]
        check(not refused, f"a piece is refused: {refused}")
        check(self.stored() == (len(self.original), [(0, edge)]), f"after the round: {self.stored()}")
        check({**stored(self.place), self.ident: None} == {**before, self.ident: None}, "another transfer is touched")
        check(stamps(self.place) == kept, "a timestamp is another")
        if edge == len(self.original):
            self.link.wait(self.is_complete)
        check(self.is_complete() == (edge == len(self.original)), "complete, or not, otherwise than by the edge")
        return len(pieces)

    def is_complete(self):
        """Whether the program reported the page, which must then be on disk."""
        lines = [line.split() for line in self.link.lines if f" complete id={self.ident} " in line]
        for words in lines:
            check(content(self.place, words[4][5:]) == self.original, f"{' '.join(words)}: the page on disk is another")
        return bool(lines)

    def finish(self):
        """What lies above the edge is sent in the ordinary way; then the page is complete."""
        edge, length = self.edge(), len(self.original)
        self.send([(at, min(at + 1000, length), 0) for at in range(edge, length, 1000)])
        self.link.wait(self.is_complete)
        return edge == length


class Plant:
    """The link program in a directory of its own, and pages that are sent to it."""

    def __init__(self, programs, place, chance):
        os.mkdir(place)
        self.place, self.plan, self.chance = place, programs[1], chance
        self.link = Link(programs[0], place, "--no-fsync")
        self.link.socket.settimeout(10)
        self.next = chance.getrandbits(31)

    def page(self, length=None):
        self.next += 77
        return Page(self.link, self.place, self.plan, self.next, self.chance, length)

    def __enter__(self):
        return self

    def __exit__(self, failed, *_):
        check(self.link.end() == 0 or failed, self.link.told)


def fails(one, found, *words):
    """A round that must be found to fail, and for this reason."""
    try:
        one.round(*words)
    except AssertionError as error:
        check(found in str(error), f"a spoiled round fails for another reason: {error}")
        return
    check(False, f"a spoiled round is not found: {found}")


def spoiled(programs, place, chance):
    """A round without one piece, and one from 64 runs with octet 0 missing. Both must be found to fail."""
    with Plant(programs, place + "-lacking", chance) as plant:
        one = plant.page(3000)
        one.send([(0, 100, 0), (1000, 1100, 0), (2000, 3000, 0)])
        fails(one, "after the round: (3000, [(0, 600), (1000, 3000)])", 500, 1)
        check(one.round(500) == 1, "the piece that was dropped is not all that is left")
    with Plant(programs, place + "-full", chance) as plant:
        one = plant.page(3000)
        one.send([(at, at + 1, 0) for at in range(2, 2 + 3 * 64, 3)])
        fails(one, f"is 44000003{one.ident:08x}", 1)


def over_loopback(place, seed):
    programs = build(SOURCES, os.path.join(place, "saratoga-link")), build(PLAN, os.path.join(place, "saratoga-plan"))
    chance = random.Random(seed)
    complete = pieces = 0
    spoiled(programs, os.path.join(place, "spoiled"), chance)
    with Plant(programs, os.path.join(place, "here"), chance) as plant:
        beside = plant.page(2000)
        beside.send([(100, 200, TIMESTAMP), (700, 800, 0)])
        for _ in range(ON_LOOPBACK):
            one = plant.page()
            one.lossy()
            few = len(one.original) // chance.randrange(1, 300) + 1
            pieces += one.round(chance.choice((few, chance.randrange(1, 65001))))
            complete += one.finish()
        beside.send([(100, 200, 0)])
        beside.round(7)
    check(complete > 0, "no page had its last octet")
    return (f"{ON_LOOPBACK} over loopback through saratoga-link and saratoga-plan, {pieces} pieces: "
            f"{complete} pages complete by the round")


def main():
    seed = int(sys.argv[1]) if len(sys.argv) > 1 else 12
    begun = time.monotonic()
    check(os.path.exists(ARCHIVE), f"{ARCHIVE} is missing")
    with tempfile.TemporaryDirectory() as place:
        over_the_library(place, seed * 1000000)
        print("rounds: " + over_loopback(place, seed))
    print(f"rounds: tested in {time.monotonic() - begun:.0f} s")
    return 0


if __name__ == "__main__":
    try:
        sys.exit(main())
    except AssertionError as error:
        print(f"host/round/test.py: FAILED: {error}", file=sys.stderr)
        sys.exit(1)
