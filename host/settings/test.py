#!/usr/bin/env python3
"""Tests saratoga-settings from its command line: files made and shown, beside a reader and writer of its own; the octet and the
words of files that are refused; hostile files; and a file that is being replaced when the program is cut off, or when a call fails.
Needs a C compiler, python3 and the archive.

    host/settings/test.py [COUNT]     COUNT random files (else 300)
"""
import os
import random
import stat
import subprocess
import sys
import tempfile

PLACE = os.path.dirname(os.path.abspath(__file__))
ROOT = os.path.dirname(os.path.dirname(PLACE))
ARCHIVE = os.path.join(ROOT, "target", "staticlib", "libsaratoga.a")
SOURCES = [os.path.join(PLACE, name) for name in ("settings.c", "fault.c", "store.c")]
SANITIZE = "-fsanitize=address,undefined"
WRAPPED = "-Wl,--wrap=write,--wrap=fsync,--wrap=rename"
TOP = 2 ** 64 - 1
RANGES = {1: ("largest payload", 1, 65000), 2: ("interval", 1, 3600), 3: ("partner", 0, 2 ** 32 - 1)}


def check(holds, what):
    if not holds:
        raise AssertionError(what)


def build(out, *more):
    """The program, with sanitizers where the compiler has them."""
    command = [os.environ.get("CC", "cc"), "-std=c99", "-Wall", "-Wextra", "-Werror", "-pedantic", "-O1", "-g",
               "-I" + os.path.join(ROOT, "include"), *SOURCES, *more, ARCHIVE, "-o", out]
    if subprocess.run([*command, SANITIZE, "-fno-sanitize-recover=all"], capture_output=True, check=False).returncode != 0:
        subprocess.run(command, check=True)
    return out


class Program:
    def __init__(self, path, place):
        self.path, self.place = path, place

    def file(self, name, octets=None):
        path = os.path.join(self.place, name)
        if octets is not None:
            with open(path, "wb") as file:
                file.write(octets)
        return path

    def run(self, *words, octets=b"", ends=(0, 1, 2), **environment):
        """Output, messages and exit status. It ends by itself, and never by a signal or a sanitizer."""
        done = subprocess.run([self.path, *words], input=octets, capture_output=True, check=False, timeout=60,
                              env=dict(os.environ, **environment))
        check(done.returncode in ends, f"{words}: ends with {done.returncode}: {done.stderr.decode()}")
        check(b"Sanitizer" not in done.stderr, done.stderr.decode())
        return done.stdout.decode(), done.stderr.decode(), done.returncode


def content(path):
    with open(path, "rb") as file:
        return file.read()


# A reader and a writer of the rules (R18.1 and on), which also say where and why.

def form(number):
    octets = []
    while number > 127:
        octets.append(128 + number % 128)
        number //= 128
    return bytes(octets + [number])


class Refused(Exception):
    """The number, how many octets were read when it was clear, and words that the program's message must have."""


class Walk:
    def __init__(self, file):
        self.file, self.at = file, 0

    def number(self, what):
        value = 0
        for group in range(10):
            if self.at == len(self.file):
                raise Refused(1, self.at, "it ends too early" if self.file else "it is empty")
            octet = self.file[self.at]
            self.at += 1
            if group == 9 and octet > 1:
                raise Refused(25, self.at, f"the {what} is above 2^64 - 1")
            if group > 0 and octet == 0:
                raise Refused(25, self.at, f"the {what} is not in its shortest form")
            value += octet % 128 * 128 ** group
            if octet < 128:
                return value
        raise AssertionError("a tenth octet that goes on")


def judged(file, known):
    """The lines that are shown, or an exception."""
    walk = Walk(file)
    version = walk.number("version")
    if not 1 <= version <= min(known, 2):
        raise Refused(24, walk.at, f"version {version} is not known")
    count, values, last = walk.number("count"), {}, 0
    while len(values) < count:
        key = walk.number("key")
        if key > version + 1:
            raise Refused(25, walk.at, f"version {version} has no key {key}")
        if key <= last:
            raise Refused(25, walk.at, f"key {key} comes after key {last}" if key else "there is no key 0")
        name, first, most = RANGES[key]
        value = walk.number(name)
        if not first <= value <= most:
            raise Refused(25, walk.at, f"the {name} is {value}, and must be {first} to {most}")
        values[key], last = value, key
    # Where both are so, the one is clear an octet before the other.
    if 1 not in values:
        raise Refused(25, walk.at, "it has no key 1, the largest payload")
    if walk.at < len(file):
        raise Refused(25, walk.at + 1, "it goes on after its last pair")
    names = {1: "largest-payload", 2: "interval", 3: "partner"}
    return "".join([f"version={version}\n"] + [f"{names[key]}={value}\n" for key, value in sorted(values.items())])


def shown(program, file, known=2):
    """Compares what the program shows of a file, or says of it, with the walk above."""
    out, told, code = program.run("--known", str(known), "-", octets=file)
    try:
        want = judged(file, known)
    except Refused as refused:
        number, at, words = refused.args
        place = "" if number == 1 else f" at octet {at}"
        check((out, code) == ("", 1), f"{file.hex(' ')}: {out!r} {code}")
        want = f"saratoga-settings: standard input: refused {number}{place}: {words}"
        check(told.startswith(want), f"{file.hex(' ')}: {told}")
        return number
    check((out, told, code) == (want, "", 0), f"{file.hex(' ')}: {out!r} {told} {code}")
    return 0


# The tests.

def made_and_shown(program, rng):
    cases = [(largest, interval, partner) for largest in (1, 127, 128, 1024, 16384, 65000)
             for interval in (None, 1, 3600) for partner in (None, 0, 31, 2 ** 32 - 1)]
    for largest, interval, partner in cases:
        path = program.file("made.settings")
        words = ["-m", str(largest)] + (["-i", str(interval)] if interval is not None else [])
        words += ["-p", rng.choice([str(partner), hex(partner)])] if partner is not None else []
        check(program.run(*words, path) == ("", "", 0), f"{words}")
        pairs = [form(1) + form(largest)] + ([form(2) + form(interval)] if interval is not None else [])
        pairs += [form(3) + form(partner)] if partner is not None else []
        want = form(2 if partner is not None else 1) + form(len(pairs)) + b"".join(pairs)
        check(content(path) == want, f"{words}: {content(path).hex(' ')}, not {want.hex(' ')}")
        check(program.run(path)[0] == judged(want, 2), f"{words}: {program.run(path)}")
        check(shown(program, want) == 0, f"{words}")
    path = program.file("made.settings")
    check(program.run("--largest", "5", "--format", "2", "--", path)[2] == 0 and content(path) == b"\2\1\1\5", "a format")
    check(os.listdir(program.place) == ["made.settings"], f"left: {os.listdir(program.place)}")
    for words, number in ((("-m", "0"), 25), (("-m", "65001"), 25), (("-m", str(TOP)), 25), (("-m", "5", "-i", "0"), 25),
                          (("-m", "5", "-i", "3601"), 25), (("-m", "5", "-p", str(2 ** 32)), 25),
                          (("-m", "5", "-p", "1", "--format", "1"), 25), (("-m", "5", "--format", "3"), 24),
                          (("-m", "0", "--format", "0"), 24)):
        out, told, code = program.run(*words, path)
        check((out, code) == ("", 1) and told.startswith(f"saratoga-settings: refused {number}: "), f"{words}: {told}")
        check(content(path) == b"\2\1\1\5", f"{words} changed the file")
    check("1 to 65000" in program.run("-m", "0", path)[1], "words for a largest payload")
    check("1 to 3600" in program.run("-m", "5", "-i", "0", path)[1], "words for an interval")
    check("32 bits" in program.run("-m", "5", "-p", str(TOP), path)[1], "words for a partner")
    check("version 1 has no partner" in program.run("-m", "5", "-p", "1", "--format", "1", path)[1], "words for version 1")


def refused_files(program):
    nine = b"\xff" * 9
    files = ["", "81", "8100", "03", "00", "01", "018000", "0100", "010105", "010100", "010102", "0102010501", "0102020501",
             "0102010503", "01010100", "010101e9fb03", "01010105", "0101010500", "01010205", "010201050291", "01020105020000",
             "0102010502911c", "02020105038080808010", "02030105023c0300", "0103010502 3c", "01018100", "0101018100",
             "0202010503808000", "02010105", "02ac020105", "01ac020105"]
    files = [bytes.fromhex(text) for text in files]
    files += [before + nine + last for before in (b"", b"\1", b"\1\1", b"\1\1\1", b"\2\2\1\5\3")
              for last in (b"", b"\0", b"\1", b"\2", b"\x80", b"\x81\1", b"\xff")]
    files += [b"\1\1\1\5" + bytes(5000), nine + b"\1" + bytes(9000), b"\2" + nine + b"\1\1\5\2\x3c\3\7\4"]
    numbers = {shown(program, file, known) for file in files for known in (0, 1, 2, 3, TOP)}
    check(numbers == {0, 1, 24, 25}, numbers)


def random_files(program, rng, count):
    numbers = []
    for _ in range(count):
        if rng.random() < 0.5:
            version = rng.choice([1, 2, 2])
            pairs = [(1, rng.randrange(1, 65001))] + [pair for pair in ((2, rng.randrange(1, 3601)), (3, rng.getrandbits(32)))
                                                      if rng.random() < 0.5]
            file = bytearray(form(version) + form(len(pairs)) + b"".join(form(key) + form(value) for key, value in pairs))
        else:
            file = bytearray(b"".join(form(rng.choice([0, 1, 2, 3, 4, rng.getrandbits(rng.randrange(64))]))
                                      for _ in range(rng.randrange(8))))
        for _ in range(rng.choice([0, 1, 1, 2])):
            at = rng.randrange(len(file) + 1)
            choice = rng.randrange(4)
            if choice == 0 and at < len(file):
                file[at] = rng.choice([0, 1, 2, 3, 127, 128, 129, 255, rng.getrandbits(8)])
            elif choice == 1 and at < len(file):
                del file[at]
            elif choice == 2:
                file.insert(at, rng.choice([0, 1, 2, 3, 128, 255]))
            else:
                del file[at:]
        numbers.append(shown(program, bytes(file), rng.choice([1, 2, 2, 2, 3])))
    check({0, 1, 24, 25} <= set(numbers), f"never: {({0, 1, 24, 25} - set(numbers))}")


def bad_usage(program):
    good = program.file("good", b"\1\1\1\5")
    for words in ((), (good, good), ("--wrong", good), ("-m", good), ("-m",), ("-m", "x", good), ("-m", "", good),
                  ("-m", "-1", good), ("-m", "1 ", good), ("-m", "0x", good), ("-m", str(TOP + 1), good), ("-i", "5", good),
                  ("-p", "5", good), ("--format", "1", good), ("-m", "5"), ("-m", "5", "-"), ("--known", good),
                  ("--known", "x", good), ("-m", "5", "--known", "2", good), ("--help", "-m"), (program.place,),
                  (os.path.join(program.place, "nofile"),), ("-m", "5", os.path.join(program.place, "nofolder", "x")),
                  ("-m", "5", program.place), ("-m", "5", "")):
        out, told, code = program.run(*words)
        check((out, code) == ("", 2) and told.startswith("saratoga-settings: "), f"{words}: {out} {told} {code}")
    check(content(good) == b"\1\1\1\5", "a wrong option changed the file")
    check("usage: saratoga-settings" in program.run("--help")[0], "--help")
    check(program.run("--version")[0].startswith("saratoga-settings (saratoga) "), "--version")
    if os.path.exists("/dev/full"):
        with open("/dev/full", "wb") as full:
            done = subprocess.run([program.path, good], stdout=full, stderr=subprocess.PIPE, check=False, timeout=60)
        check(done.returncode == 2 and b"can't write" in done.stderr, "a full disk")


def as_it_was(program):
    """The mode of a new file, a file by a name without a folder, and a link, which is replaced and not followed."""
    path = program.file("mode.settings")
    old = os.umask(0o027)
    try:
        check(program.run("-m", "5", path)[2] == 0, "a mask")
    finally:
        os.umask(old)
    check(stat.S_IMODE(os.stat(path).st_mode) == 0o640, f"the mode is {os.stat(path).st_mode:o}")
    done = subprocess.run([program.path, "-m", "7", "mode.settings"], cwd=program.place, check=False, timeout=60)
    check(done.returncode == 0 and content(path) == b"\1\1\1\7", "a file by its name alone")
    target, link = program.file("target", b"mine"), program.file("link.settings")
    os.symlink(target, link)
    check(program.run("-m", "9", link)[2] == 0 and not os.path.islink(link), "a link")
    check(content(link) == b"\1\1\1\x09" and content(target) == b"mine", "a link was followed")


def cut_everywhere(program):
    """Ended before each call, and with each call failing: there is the old file or the new one, and the calls have their order."""
    old, new = b"\1\1\1\5", form(2) + form(3) + form(1) + form(65000) + form(2) + form(3600) + form(3) + form(2 ** 32 - 1)
    words = ("-m", "65000", "-i", "3600", "-p", str(2 ** 32 - 1))
    log, path = program.file("log"), program.file("plant.settings", old)
    check(program.run(*words, path, CUT_LOG=log)[2] == 0 and content(path) == new, "nothing is cut")
    calls = content(log).decode().splitlines()
    check(calls == ["write"] * len(new) + ["fsync file", "rename", "fsync folder"], f"the calls are {calls}")
    for cut in range(1, len(calls) + 1):
        for fails in (False, True):
            for name in os.listdir(program.place):
                os.remove(os.path.join(program.place, name))
            path = program.file("plant.settings", old)
            environment = dict(CUT_LOG=log, CUT=str(cut), **({"CUT_FAILS": "1"} if fails else {}))
            _, told, code = program.run(*words, path, ends=(2,) if fails else (98,), **environment)
            renamed = cut == len(calls)
            check(content(path) == (new if renamed else old), f"cut at call {cut}, {calls[cut - 1]}: {content(path).hex(' ')}")
            check(not fails or told, f"call {cut} failed, and nothing was said")
            left = set(os.listdir(program.place)) - {"plant.settings", "log"}
            check(len(left) <= 1 and (not fails or not left), f"left after call {cut}: {left}")
            check(program.run(*words, path, CUT_LOG=log)[2] == 0 and content(path) == new, f"after a cut at call {cut}")
    return len(calls)


def main():
    count = int(sys.argv[1]) if len(sys.argv) > 1 else 300
    rng = random.Random(19)
    with tempfile.TemporaryDirectory() as place:
        def fresh(name, path):
            folder = os.path.join(place, name)
            os.mkdir(folder)
            return Program(path, folder)

        path = build(os.path.join(place, "saratoga-settings"))
        made_and_shown(fresh("made", path), rng)
        refused_files(fresh("refused", path))
        random_files(fresh("random", path), rng, count)
        bad_usage(fresh("usage", path))
        as_it_was(fresh("was", path))
        calls = cut_everywhere(fresh("cut", build(os.path.join(place, "cut-program"), os.path.join(PLACE, "cut.c"), WRAPPED)))
    print(f"settings: files made and shown, {count} random ones, their faults by octet and words are as expected")
    print(f"settings: ended before each of {calls} calls, and with each of them failing, the old file or the new one is there")
    return 0


if __name__ == "__main__":
    try:
        sys.exit(main())
    except AssertionError as error:
        print(f"host/settings/test.py: FAILED: {error}", file=sys.stderr)
        sys.exit(1)
