#!/usr/bin/env python3
"""Tests saratoga-plan from its command line: plans and verdicts beside a planner and a check of its own, the reasons it gives,
and hostile files. Needs a C compiler, python3 and the archive.

    host/plan/test.py [COUNT]     COUNT random packets (else 60)
"""
import os
import random
import subprocess
import sys
import tempfile

PLACE = os.path.dirname(os.path.abspath(__file__))
ROOT = os.path.dirname(os.path.dirname(PLACE))
ARCHIVE = os.path.join(ROOT, "target", "staticlib", "libsaratoga.a")
SOURCES = [os.path.join(PLACE, name) for name in ("plan.c", "input.c", "reason.c")]
SANITIZE = "-fsanitize=address,undefined"
TOP = 2 ** 64 - 1


def check(holds, what):
    if not holds:
        raise AssertionError(what)


def build(out):
    """The program, with sanitizers where the compiler has them."""
    command = [os.environ.get("CC", "cc"), "-std=c99", "-Wall", "-Wextra", "-Werror", "-pedantic", "-O1", "-g",
               "-I" + os.path.join(ROOT, "include"), *SOURCES, ARCHIVE, "-o", out]
    if subprocess.run([*command, SANITIZE, "-fno-sanitize-recover=all"], capture_output=True, check=False).returncode != 0:
        subprocess.run(command, check=True)
    return out


class Program:
    def __init__(self, path, place):
        self.path, self.place = path, place

    def file(self, name, octets):
        path = os.path.join(self.place, name)
        with open(path, "wb") as file:
            file.write(octets)
        return path

    def run(self, *words, octets=b""):
        """Output, messages and exit status. It ends by itself, and never by a signal or a sanitizer."""
        done = subprocess.run([self.path, *words], input=octets, capture_output=True, check=False, timeout=60)
        check(done.returncode in (0, 1, 2), f"{words}: ends with {done.returncode}: {done.stderr.decode()}")
        check(b"Sanitizer" not in done.stderr, done.stderr.decode())
        return done.stdout.decode(), done.stderr.decode(), done.returncode

    def verdict(self, packet, largest, text):
        return self.run("-m", str(largest), "--check", self.file("list", text), self.file("status", packet))


def status(holes, width=8, flags=0, progress=None, edge=None):
    """A success STATUS of Id 7, by the layout of document 01."""
    bits = {2: 0x000000, 4: 0x400000, 8: 0x800000, 16: 0xC00000}[width]
    numbers = [progress if progress is not None else holes[0][0] if holes else 9,
               edge if edge is not None else holes[-1][1] if holes else 9]
    numbers += [end for hole in holes for end in hole]
    first = (0x44000000 | bits | flags).to_bytes(4, "big") + (7).to_bytes(4, "big")
    return first + b"".join(number.to_bytes(width, "big") for number in numbers)


def planned(holes, largest):
    return [(at, min(largest, end - at)) for start, end in holes for at in range(start, end, largest)]


def lines(pieces):
    return "".join(f"{offset} {length}\n" for offset, length in pieces)


def passes(pieces, holes, largest):
    """The five conditions, each over the octets of short holes and the numbers of pieces of any length."""
    rise = all(a[0] < b[0] for a, b in zip(pieces, pieces[1:]))
    sizes = all(0 < length <= largest for _, length in pieces)
    inside = all(any(start <= offset and offset + length <= end for start, end in holes) for offset, length in pieces)
    apart = all(a[0] + a[1] <= b[0] or b[0] + b[1] <= a[0] for i, a in enumerate(pieces) for b in pieces[:i] if a[1] and b[1])
    cover = all(any(offset <= octet < offset + length for offset, length in pieces)
                for start, end in holes for octet in range(start, end))
    return rise and sizes and inside and apart and cover


def reason(pieces, holes, largest):
    """What the program has to say of a list that does not pass: the number of the first bad piece, and a word; 0 for none."""
    for i, (offset, length) in enumerate(pieces):
        before = pieces[:i]
        if any(offset <= other for other, _ in before):
            return i + 1, "does not rise"
        if length == 0:
            return i + 1, "is empty"
        if length > largest:
            return i + 1, f"is longer than {largest} octets"
        if not any(start <= offset and offset + length <= end for start, end in holes):
            return i + 1, "lies in no"
        if any(offset < other + size for other, size in before):
            return i + 1, "overlaps the one before"
    return 0, "is not covered"


def plans(program):
    packet = status([(1000, 2000), (3000, 3001)], 2)
    wanted = "1000 400\n1400 400\n1800 200\n3000 1\n"
    path = program.file("status", packet)
    check(program.run("-m", "400", path) == (wanted, "", 0), "a plan")
    check(program.run("-m", "400", octets=packet) == (wanted, "", 0), "a plan from standard input")
    check(program.run("-m", "400", "-", octets=packet) == (wanted, "", 0), "a plan from -")
    check(program.run("--largest", "400", "--", path) == (wanted, "", 0), "a plan after --")
    check(program.run("-m", "400", "--count", path) == ("4\n", "", 0), "a count")
    for text in (packet.hex(), packet.hex().upper(), packet.hex(" "), packet.hex("\n", 3) + "\r\n", " " + packet.hex("\t")):
        check(program.run("-m", "400", octets=text.encode()) == (wanted, "", 0), f"a plan from digits: {text!r}")
    check(program.run("-m", "1", octets=status([])) == ("", "", 0), "a plan without holes")
    out, told, code = program.run("-m", "9", octets=status([(4, 6)], flags=0x020000, progress=1, edge=50))
    check((out, code) == ("4 2\n", 0) and "does not list every hole" in told, f"bit 14: {out} {told}")
    out, told, code = program.run("-m", "9", octets=status([(TOP - 3, TOP)], 16))
    check((out, code) == (f"{TOP - 3} 3\n", 0), f"the last offsets: {out} {told}")
    # More pieces than are printed, and as many as there can be.
    packet = status([(0, TOP)])
    out, told, code = program.run("-m", "1", octets=packet)
    check((out, code) == ("", 2) and f"it takes {TOP} pieces" in told, told)
    check(program.run("-m", "1", "--count", octets=packet) == (f"{TOP}\n", "", 0), "the largest count")


def verdicts(program):
    packet = status([(10, 20), (30, 34)], 4)
    good = b"# made by hand\n\n 10 5\r\n15\t5 \n30 4"
    check(program.verdict(packet, 5, good) == ("passes: 3 pieces\n", "", 0), "a list that passes")
    out = program.run("-m", "5", "--check", "-", program.file("status", packet), octets=good)
    check(out == ("passes: 3 pieces\n", "", 0), "a list from standard input")
    out = program.run("-m", "5", "--check", program.file("list", good), octets=packet)
    check(out == ("passes: 3 pieces\n", "", 0), "a STATUS from standard input")
    check(program.verdict(status([]), 5, b"") == ("passes: 0 pieces\n", "", 0), "no holes, no pieces")
    cases = [
        ("15 5\n10 5\n30 4", "piece 2 (line 2), 10 5, does not rise: the one before starts at 15"),
        ("10 5\n10 5\n15 5\n30 4", "piece 2 (line 2), 10 5, does not rise: the one before starts at 10"),
        ("10 5\n#\n12 0\n15 5\n30 4", "piece 2 (line 3), 12 0, is empty"),
        ("10 6\n16 4\n30 4", "piece 1 (line 1), 10 6, is longer than 5 octets"),
        ("10 5\n15 5\n25 3\n30 4", "piece 3 (line 3), 25 3, lies in no listed hole: it starts in none"),
        ("10 5\n15 5\n20 3\n30 4", "piece 3 (line 3), 20 3, lies in no listed hole: it starts in none"),
        ("9 5\n14 5\n19 1\n30 4", "piece 1 (line 1), 9 5, lies in no listed hole: it starts in none"),
        ("10 5\n17 5\n30 4",
         "piece 2 (line 2), 17 5, lies in no one listed hole: it goes past the end of the hole from 10 to 20"),
        ("10 5\n14 5\n19 1\n30 4", "piece 2 (line 2), 14 5, overlaps the one before, which ends at 15"),
        ("10 5\n16 4\n30 4", "the hole from 10 to 20 is not covered: no piece has the octets from 15 to 16"),
        ("10 5\n15 5\n30 3", "the hole from 30 to 34 is not covered: no piece has the octets from 33 to 34"),
        ("10 5\n15 5", "the hole from 30 to 34 is not covered: no piece has the octets from 30 to 34"),
        ("", "the hole from 10 to 20 is not covered: no piece has the octets from 10 to 20"),
        (f"10 5\n15 5\n30 4\n{TOP} 5", f"piece 4 (line 4), {TOP} 5, lies in no listed hole: it starts in none"),
    ]
    for text, why in cases:
        check(program.verdict(packet, 5, text.encode()) == (f"does not pass: {why}\n", "", 1), f"{text!r}: {why}")
    out = program.verdict(packet, 65000, b"10 24\n")
    check(out[2] == 1 and "goes past the end of the hole from 10 to 20" in out[0], f"one piece over two holes: {out}")
    packet = status([(TOP - 3, TOP)])
    for text in (f"{TOP - 3} {TOP}", f"{TOP - 3} {TOP - 1}", f"{TOP - 3} 4", f"{TOP - 2} 3"):
        check(program.verdict(packet, 65000, text.encode())[2] == 1, text)


def refusals(program):
    good = status([(10, 20)])
    path = program.file("good", good)
    failure = b"\x44\x40\x00\x05\x00\x00\x00\x07"
    cases = [(b"", 1), (good[:7], 1), (b"\x04" + good[1:], 3), (b"\x43" + good[1:], 4), (b"\x40\0\0\0", 4), (failure, 11),
             (good[:-1], 11), (bytes(70000), 2), (bytes(8), 3), (b"\x44" + bytes(65534), 11), (b"\xff" * 3000, 3)]
    for packet, number in cases:
        name = program.file("bad", packet)
        for words in ((), ("--count",), ("--check", program.file("list", b"10 10\n"))):
            for largest in ("0", "10"):
                out, told, code = program.run("-m", largest, *words, name)
                check((out, code) == ("", 2) and f"refused {number}: " in told, f"{packet[:8]!r} {words}: {out} {told} {code}")
    told = program.run("-m", "10", program.file("bad", failure))[1]
    check("failure STATUS" in told, f"a failure STATUS: {told}")
    for largest in ("0", "65001", str(TOP)):
        for words in ((), ("--count",), ("--check", program.file("list", b""))):
            out, told, code = program.run("-m", largest, *words, path)
            check((out, code) == ("", 2) and "refused 21: " in told, f"-m {largest}: {told}")


def bad_usage(program):
    good = program.file("good", status([(10, 20)]))
    listed = program.file("list", b"10 10\n")
    for words in ((), (good,), ("-m",), ("-m", "x", good), ("-m", "", good), ("-m", "-1", good), ("-m", "1 ", good),
                  ("-m", str(TOP + 1), good), ("-m", "0x10", good), ("-m", "5", good, good), ("-m", "5", "--wrong", good),
                  ("-m", "5", "--check"), ("-m", "5", "--check", listed, "--count", good), ("-m", "5", "--check", "-", "-"),
                  ("-m", "5", "--check", "-"), ("-m", "5", os.path.join(program.place, "nofile")), ("-m", "5", program.place),
                  ("-m", "5", "--check", os.path.join(program.place, "nofile"), good),
                  ("-m", "5", "--check", program.place, good), ("--help", "-m"), ("-m5", good)):
        out, told, code = program.run(*words)
        check((out, code) == ("", 2) and told.startswith("saratoga-plan: "), f"{words}: {out} {told} {code}")
    check("usage: saratoga-plan" in program.run("--help")[0], "--help")
    check(program.run("--version")[0].startswith("saratoga-plan (saratoga) "), "--version")
    if os.path.exists("/dev/full"):
        with open("/dev/full", "wb") as full:
            done = subprocess.run([program.path, "-m", "1", good], stdout=full, stderr=subprocess.PIPE, check=False, timeout=60)
        check(done.returncode == 2 and b"can't write" in done.stderr, "a full disk")


def hostile_files(program, rng):
    """Lists and packets of any octets: told to be wrong, or judged."""
    packet = status([(10, 20)])
    bad = [b"10", b"10 ", b"10 1 1", b"10,10", b"10+10", b"a 10", b"10 b", b"-1 10", b"+1 10", b"10 0x5", b"1e1 5", b"10 10x",
           b"10\x0010", b"\x00", b"10 10\n\xff\xfe", f"{TOP + 1} 5".encode(), f"10 {TOP + 1}".encode(), b"9" * 300,
           b"1" * 255 + b" 1", b" " * 300, b"10 10 # why", b"\xef\xbb\xbf10 10", b"10\xc2\xa010", b"10 10\n10"]
    for text in bad:
        out, told, code = program.verdict(packet, 10, text)
        check((out, code) == ("", 2) and "line " in told, f"{text!r}: {out} {told} {code}")
    check(program.verdict(packet, 10, b"0" * 200 + b"10 " + b"0" * 20 + b"10")[2] == 0, "leading zeros")
    long_list = lines((i, 1) for i in range(200000)).encode()
    out, told, code = program.verdict(packet, 10, long_list)
    check(code == 1 and "piece 1 " in out, f"a long list: {out} {told}")
    for digits in (b"4", b"440", b"44 00 0"):
        out, told, code = program.run("-m", "5", octets=digits)
        check(code == 2 and "digit is left over" in told, f"{digits!r}: {told}")
    out, told, code = program.run("-m", "5", octets=bytes(1048577))
    check(code == 2 and "longer than any packet" in told, told)
    for _ in range(25):
        noise = bytearray(packet if rng.random() < 0.5 else rng.randbytes(rng.randrange(80)))
        for _ in range(rng.randrange(4)):
            if noise:
                noise[rng.randrange(len(noise))] = rng.choice(b"\x00\x01\x44\xff 0a")
        program.run("-m", "5", octets=bytes(noise))
        text = bytes(rng.choice(b"0123456789 \n#\x00a-") for _ in range(rng.randrange(60)))
        program.verdict(packet, 10, text)


def random_holes(rng):
    holes, at = [], rng.randrange(3)
    for _ in range(rng.randrange(6)):
        end = at + rng.randrange(1, 12)
        holes.append((at, end))
        at = end + rng.randrange(1, 6)
    up = rng.choice([0, 0, rng.randrange(1000), TOP - holes[-1][1] if holes else 0])
    return [(start + up, end + up) for start, end in holes]


def bent(rng, pieces, largest):
    """The list, bent once or more."""
    pieces = list(pieces)
    for _ in range(rng.choice([1, 1, 2])):
        at = rng.randrange(len(pieces) + 1)
        choice = rng.randrange(7)
        if at == len(pieces) or choice == 0:
            pieces.insert(at, (rng.choice([rng.randrange(50), TOP, TOP - 2]), rng.choice([0, 1, largest, largest + 1, TOP])))
        elif choice == 1:
            del pieces[at]
        elif choice == 2:
            pieces.insert(rng.randrange(len(pieces) + 1), pieces[at])
        elif choice == 3:
            pieces[at] = max(0, pieces[at][0] + rng.choice([-1, 1])), pieces[at][1]
        elif choice == 4:
            pieces[at] = pieces[at][0], max(0, pieces[at][1] + rng.choice([-1, 1]))
        elif choice == 5:
            other = rng.randrange(len(pieces))
            pieces[at], pieces[other] = pieces[other], pieces[at]
        else:
            cut = rng.randrange(pieces[at][1] + 1)
            pieces[at:at + 1] = [(pieces[at][0], cut), (pieces[at][0] + cut, pieces[at][1] - cut)]
    return [(min(offset, TOP), min(length, TOP)) for offset, length in pieces]


def random_packets(program, rng, count):
    for _ in range(count):
        holes, largest = random_holes(rng), rng.choice([1, 2, 3, 5, 65000])
        packet = status(holes, rng.choice([8, 16]))
        plan = planned(holes, largest)
        check(program.run("-m", str(largest), octets=packet) == (lines(plan), "", 0), f"{holes} by {largest}")
        for pieces in (plan, bent(rng, plan, largest), bent(rng, plan, largest)):
            out, told, code = program.verdict(packet, largest, lines(pieces).encode())
            if passes(pieces, holes, largest):
                check((out, code) == (f"passes: {len(pieces)} pieces\n", 0), f"{holes} by {largest}: {pieces}: {out} {told}")
                continue
            number, word = reason(pieces, holes, largest)
            where = f"does not pass: piece {number} (line {number}), " if number else "does not pass: the hole from "
            check(code == 1 and out.startswith(where) and word in out, f"{holes} by {largest}: {pieces}: {out} {told}")


def main():
    count = int(sys.argv[1]) if len(sys.argv) > 1 else 60
    seed = random.randrange(2 ** 32)
    rng = random.Random(seed)
    with tempfile.TemporaryDirectory() as place:
        program = Program(build(os.path.join(place, "saratoga-plan")), place)
        try:
            plans(program)
            verdicts(program)
            refusals(program)
            bad_usage(program)
            hostile_files(program, rng)
            random_packets(program, rng, count)
        except AssertionError as why:
            print(f"saratoga-plan: FAILED, seed {seed}: {why}", file=sys.stderr)
            return 1
    print(f"saratoga-plan: plans, verdicts, reasons and refusals, on {count} random packets and hostile files")
    return 0


if __name__ == "__main__":
    sys.exit(main())
