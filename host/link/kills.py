#!/usr/bin/env python3
"""Kills the link program again and again, and compares every page that it reports with what was sent.

    host/link/kills.py [--kills N] [--seed S] [--program FILE]    else 2,000 kills, some minutes
    host/link/kills.py --wrong                                    wrong programs, each of which must be found

Two senders use a few Ids for one page after the other, one of them both, over a link that loses, repeats and reorders packets; METADATA of a new page is
often lost, so that its DATA comes under that of the page before. The program is killed (SIGKILL) at random moments and started again, the
disk is full or slow now and then, and a bit of the area's file is flipped, which must be refused.

A page that has an MD5 must be the one that was sent. Of one that has none some octets may be of another page that its own sender sent under
the Id: docs/LINK.md says that this can't be told apart. Those are counted. Octets of anybody else, or of nobody, are never allowed.
"""
import argparse
import hashlib
import os
import random
import re
import socket
import struct
import subprocess
import sys
import tempfile
import time

sys.dont_write_bytecode = True
from harness import SOURCES, check, content, edited, failing  # noqa: E402
from packets import WANTED, data, metadata  # noqa: E402

IDS = ((0, 1, 7), (0xFFFFFFFF, 2, 7))  # of each sender: some of its own, and one that both use
FULL = ("w", "f", "r", "o", "e", "p", "d", "h", "wfro")
FAILED = (b"can't be forced to disk, or area not be replaced: Input/output error\n", b"area: can't be written: Input/output error\n")
REPORT = re.compile(r"^\d+ complete id=(\d+) length=(\d+) file=(\S+) .*md5=(\S+) .*path=(\S+)$")


class Page:
    """A page that a sender sends. Every page has another path, so its report says which it is."""

    def __init__(self, sender, ident, number, chance):
        self.sender, self.ident, self.path = sender, ident, f"s{sender}-{number}"
        self.octets = chance.randbytes(chance.choice((0, 1, 700, 5000, chance.randrange(12000))))
        self.has_md5 = chance.random() < 0.6
        self.missing = [(0, len(self.octets))]

    def opening(self):
        if not self.has_md5:
            return metadata(self.ident, 32, len(self.octets), self.path.encode())
        return metadata(self.ident, 32, len(self.octets), self.path.encode(), flags=0x42, checksum=hashlib.md5(self.octets).digest())


class Sender:
    """Sends page after page under each Id, not too carefully."""

    def __init__(self, name, target, chance):
        self.name, self.target, self.chance = name, target, chance
        self.socket = socket.socket(socket.AF_INET, socket.SOCK_DGRAM)
        self.socket.bind(("127.0.0.1", 0))
        self.socket.setblocking(False)
        self.pages, self.delayed, self.sent = [], [], 0
        self.current = {ident: self.new_page(ident) for ident in IDS[name]}

    def new_page(self, ident):
        self.pages.append(Page(self.name, ident, len(self.pages), self.chance))
        return self.pages[-1]

    def send(self, packet, loss=0.15):
        if self.chance.random() < loss:
            return
        for _ in range(2 if self.chance.random() < 0.1 else 1):
            if self.chance.random() < 0.2:
                self.delayed.append(packet)
            else:
                self.put(packet)

    def put(self, packet):
        self.sent += 1
        try:
            self.socket.sendto(packet, self.target)
        except (ConnectionRefusedError, BlockingIOError):
            pass  # the program isn't there: the packet is lost

    def step(self):
        """A few packets of one page, and what was answered. Now and then a page is given up for the next."""
        ident = self.chance.choice(IDS[self.name])
        if not self.current[ident].missing or self.chance.random() < 0.03:
            self.current[ident] = self.new_page(ident)
        page = self.current[ident]
        self.send(page.opening(), loss=0.5)
        size = self.chance.choice((1, 300, 1300))
        chunks = [(at, min(at + size, stop)) for start, stop in page.missing for at in range(start, stop, size)][:12] or [(0, 0)]
        self.chance.shuffle(chunks)
        for start, stop in chunks:
            self.send(data(ident, 32, start, page.octets[start:stop], WANTED if (start, stop) == chunks[-1] else 0))
        self.chance.shuffle(self.delayed)
        while len(self.delayed) > 4:
            self.put(self.delayed.pop())
        self.hear()

    def hear(self):
        while True:
            try:
                packet = self.socket.recv(65535)
            except ConnectionRefusedError:
                continue
            except BlockingIOError:
                return
            word, ident = struct.unpack(">II", packet[:8])
            if word & 0xFF == 0 and packet[1] & 0xC8 == 0x40:  # a success STATUS of width 32 without a timestamp
                self.learn(self.current[ident], [value for value, in struct.iter_unpack(">I", packet[8:])])

    @staticmethod
    def learn(page, ends):
        """What a STATUS says is missing. It may be of the page before: then this one is never finished, or too soon."""
        length, edge = len(page.octets), max(ends[0], ends[1])
        missing = list(zip(ends[2::2], ends[3::2])) + ([(edge, length)] if edge < length else [])
        page.missing = [(start, min(stop, length)) for start, stop in missing if start < length]


class World:
    """A directory, the program in it, and two senders."""

    def __init__(self, program, place, chance):
        self.chance, self.place = chance, os.path.join(place, "files")
        os.mkdir(self.place)
        self.log, self.told, self.marker = (os.path.join(place, name) for name in ("log", "told", "nospace"))
        with socket.socket(socket.AF_INET, socket.SOCK_DGRAM) as probe:
            probe.bind(("127.0.0.1", 0))
            port = probe.getsockname()[1]
        self.arguments = [program, "-d", self.place, "--udp", str(port), "--peer", "127.0.0.1", "--linger", "1"]
        self.senders = [Sender(name, ("127.0.0.1", port), chance) for name in range(2)]
        self.read, self.reported, self.mixed = 0, {}, set()
        self.kills = self.flips = self.faults = 0

    def start(self):
        with open(self.log, "ab") as log, open(self.told, "ab") as told:
            self.process = subprocess.Popen(self.arguments, stdout=log, stderr=told, env=dict(os.environ, NOSPACE=self.marker))

    def live(self, seconds):
        """The senders send for so long, with a disk that is full or slow in some lives."""
        end = time.monotonic() + seconds
        if self.chance.random() < 0.3:
            self.faults += 1
            with open(self.marker, "w", encoding="ascii") as file:
                file.write(self.chance.choice(FULL + ("z",) * len(FULL)))
        while time.monotonic() < end:
            for sender in self.senders:
                sender.step()
            time.sleep(self.chance.choice((0, 0.001, 0.004)))
            if os.path.exists(self.marker) and self.chance.random() < 0.1:
                os.remove(self.marker)

    def kill(self):
        if self.process.poll() is None:
            self.kills += 1
            self.process.kill()
        elif self.process.poll() != 1 or not content(self.told).endswith(FAILED):  # a disk that fails ends it, as docs/LINK.md says
            check(False, f"it ended by itself, with {self.process.poll()}: {content(self.told)[-2000:].decode()}")
        self.process.wait()
        self.look()

    def look(self):
        """Every page that was reported since the last look."""
        with open(self.log, "rb") as log:
            log.seek(self.read)
            text = log.read()
        check(not text or text.endswith(b"\n"), "a half line")
        self.read += len(text)
        for line in text.decode("ascii").splitlines():
            found = REPORT.match(line)
            check(found or " complete id=" not in line, f"no report: {line}")
            if found:
                self.judge(line, *found.groups())

    def judge(self, line, ident, length, name, md5, path):
        sender, number = path[1:].split("-")
        page = self.senders[int(sender)].pages[int(number)]
        check(name.endswith(".page") and os.path.exists(os.path.join(self.place, name)), f"{line}: there is no such page")
        kept = content(os.path.join(self.place, name))
        check((int(ident), int(length)) == (page.ident, len(page.octets)) and len(kept) == len(page.octets), f"{line}: another page")
        check(self.reported.setdefault(name, kept) == kept, f"{line}: reported twice, with other octets")
        check(md5 == ("agrees" if page.has_md5 else "not-checked"), line)
        if kept == page.octets:
            return
        check(not page.has_md5, f"{line}: has an MD5, and isn't the page that was sent")
        others = [other.octets for other in self.senders[page.sender].pages if other.ident == page.ident]
        for at, octet in enumerate(kept):
            check(any(octet == other[at] for other in others if at < len(other)),
                  f"{line}: octet {at} is {octet}, which its sender never sent under this Id")
        self.mixed.add(name)

    def flip(self):
        """A bit of the area's file is flipped: the program must refuse it in words, and touch nothing."""
        path = os.path.join(self.place, "area")
        if not os.path.exists(path):
            return
        good, before = content(path), sorted(os.listdir(self.place))
        bit = self.chance.randrange(8 * len(good))
        with open(path, "wb") as file:
            file.write(good[:bit // 8] + bytes([good[bit // 8] ^ 1 << bit % 8]) + good[bit // 8 + 1:])
        done = subprocess.run(self.arguments + ["--idle", "1"], capture_output=True, check=False, timeout=20)
        check(done.returncode == 1 and b"nothing was touched" in done.stderr and done.stdout == b"", f"bit {bit} of area: {done}")
        check(sorted(os.listdir(self.place)) == before, f"bit {bit} of area: something was touched")
        with open(path, "wb") as file:
            file.write(good)
        self.flips += 1

    def end(self):
        """An orderly end; and each page that was reported still has the octets that it had."""
        self.process.terminate()
        status = self.process.wait(timeout=20)
        check(status in (0, 1, 3), f"status {status}: {content(self.told)[-2000:].decode()}")
        self.look()
        for name, kept in self.reported.items():
            check(content(os.path.join(self.place, name)) == kept, f"{name}: was changed after it was reported")
        for sender in self.senders:
            sender.socket.close()


def soak(program, place, kills, seed):
    """So many kills; gives what happened. A directory is used for some hundred of them."""
    chance, begun = random.Random(seed), time.monotonic()
    worlds = []
    while sum(world.kills for world in worlds) < kills:
        here = os.path.join(place, str(len(worlds)))
        os.mkdir(here)
        world = World(program, here, chance)
        worlds.append(world)
        world.start()
        try:
            for _ in range(min(200, kills - sum(world.kills for world in worlds))):
                world.live(chance.choice((0.01, 0.03, 0.1, 0.2)) * chance.random())
                world.kill()
                if chance.random() < 0.05:
                    world.flip()
                world.start()
            if os.path.exists(world.marker):
                os.remove(world.marker)
            world.live(1.0)
            world.end()
        except AssertionError as reason:
            raise AssertionError(f"kills.py, seed {seed}, after {sum(world.kills for world in worlds)} kills: {reason}") from reason
        finally:
            if world.process.poll() is None:
                world.process.kill()
                world.process.wait()

    def total(of):
        return sum(of(world) for world in worlds)

    reported = total(lambda world: len(world.reported))
    check(reported >= kills / 10, f"only {reported} pages were reported in {kills} kills")
    return (f"{total(lambda world: world.kills)} kills in {time.monotonic() - begun:.0f} s, "
            f"{total(lambda world: sum(sender.sent for sender in world.senders))} packets of "
            f"{total(lambda world: sum(len(sender.pages) for sender in world.senders))} pages, {total(lambda world: world.faults)} times a full or "
            f"slow disk, {total(lambda world: world.flips)} flipped areas refused: {reported} pages reported, none wrong, "
            f"{total(lambda world: len(world.mixed))} without an MD5 that mix two of one sender")


# Wrong programs, which must be found.

WRONG = {
    "doesn't look whose an Id is": (
        "static void take_data(const struct packet *p, const struct saratoga_packet *read)\n{\n",
        "static void take_data(const struct packet *p, const struct saratoga_packet *read)\n{\n    struct packet owned = *p;\n    struct slot slot;\n"
        "    if (is_open(read->id, &slot))\n        owned.from = slot.owner;\n    p = &owned;\n"),
    "reports a page before a sync has saved it": (
        "    hear(t, p);\n    t->work.recordings++;\n",
        "    hear(t, p);\n    if (recorded->complete) {\n        t->verdict = SARATOGA_NOT_CHECKED;\n        report_page(t);\n    }\n    t->work.recordings++;\n"),
    "takes every page for the one that its MD5 is of": (
        "    t->verdict = job.check.verdict;\n", "    t->verdict = job.check.verdict == SARATOGA_NOT_CHECKED ? SARATOGA_NOT_CHECKED : SARATOGA_AGREES;\n"),
    "takes a flipped area": ("    return memcmp(digest, file + MAGIC_OCTETS, sizeof digest) == 0;", "    return 1;"),
}


def wrong_programs(place, kills, seed, names=tuple(WRONG)):
    """Each is found within so many kills. Gives after how many kills and why, for each."""
    found = []
    for number, what in enumerate(names):
        here = os.path.join(place, f"wrong-{number}")
        os.mkdir(here)
        changed = edited(WRONG[what], here)
        program = failing(os.path.join(here, "saratoga-link"), "-w", sources=[changed.get(path, path) for path in SOURCES])
        try:
            soak(program, here, kills, seed)
        except AssertionError as reason:
            found.append(f"a program that {what}: {reason}")
            continue
        check(False, f"a program that {what} isn't found in {kills} kills")
    return found


def main():
    parser = argparse.ArgumentParser(description="Kills the link program again and again.")
    parser.add_argument("--kills", type=int, default=2000)
    parser.add_argument("--seed", type=int, default=random.randrange(10**6))
    parser.add_argument("--program", help="one that was built with nospace.c")
    parser.add_argument("--wrong", action="store_true", help="wrong programs, which must be found")
    given = parser.parse_args()
    with tempfile.TemporaryDirectory() as place:
        if given.wrong:
            print("\n".join(wrong_programs(place, given.kills, given.seed)))
            return 0
        program = given.program or failing(os.path.join(place, "saratoga-link"))
        print(f"kills: seed {given.seed}: " + soak(program, place, given.kills, given.seed))
    return 0


if __name__ == "__main__":
    try:
        sys.exit(main())
    except AssertionError as error:
        print(f"host/link/kills.py: FAILED: {error}", file=sys.stderr)
        sys.exit(1)
