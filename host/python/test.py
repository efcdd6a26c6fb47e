#!/usr/bin/env python3
"""Tests of libsaratoga.so and of the module saratoga over it: what is exported, layouts, constants, texts and prototypes beside
the header by a C compiler, and each function and each refusal by calls. Needs target/shared (make shared)."""
import hashlib
import io
import os
import random
import re
import subprocess
import sys
import tempfile
import unittest

HERE = os.path.dirname(os.path.abspath(__file__))
ROOT = os.path.join(HERE, "..", "..")
SHARED = os.path.join(ROOT, "target", "shared")
sys.dont_write_bytecode = True
sys.path[:0] = [HERE, os.path.join(ROOT, "host", "tools")]
import saratoga_pass as made  # noqa: E402  the codec of the tools, written apart from the library
import saratoga  # noqa: E402
from saratoga import Refused  # noqa: E402


class Header:
    """What include/saratoga.h declares, found in its text."""

    def __init__(self):
        with open(os.path.join(ROOT, "include", "saratoga.h"), encoding="ascii") as file:
            text = re.sub(r"/\*.*?\*/", "", file.read(), flags=re.S)
        self.macros = [name for name in re.findall(r"^#define SARATOGA_(\w+) ", text, re.M)]
        self.inlines = re.findall(r"^static inline .*?saratoga_(\w+)\(", text, re.M)
        text = re.sub(r"^static inline .*?^}", "", text, flags=re.S | re.M)
        self.functions = re.findall(r"saratoga_(\w+)\(", re.sub(r"^#.*", "", text, flags=re.M))
        self.structs = {}
        for name, body in re.findall(r"struct saratoga_(\w+) {(.*?)};", text, re.S):
            declared = re.findall(r"(?:uint64_t|struct saratoga_\w+) ([^;]*);", body)
            self.structs[name] = [field.strip() for some in declared for field in some.split(",")]


HEADER = Header()
STRUCTS = {re.sub(r"(?<!^)([A-Z])", r"_\1", kind.__name__).lower(): kind
           for kind in vars(saratoga).values() if isinstance(kind, type) and issubclass(kind, saratoga._Struct) and kind is not saratoga._Struct}


def answers_of(statements, libraries=()):
    """The lines that a C program with these statements prints. It includes the header, and must compile without a warning."""
    with tempfile.TemporaryDirectory() as place:
        source, program = os.path.join(place, "program.c"), os.path.join(place, "program")
        with open(source, "w", encoding="ascii") as file:
            file.write('#include <inttypes.h>\n#include <stdio.h>\n#include "saratoga.h"\nint main(void)\n{\n')
            file.write("\n".join(statements) + "\nreturn 0;\n}\n")
        subprocess.run([os.environ.get("CC", "cc"), "-std=c99", "-Wall", "-Wextra", "-Werror", "-pedantic",
                        "-I" + os.path.join(ROOT, "include"), source, *libraries, "-o", program], check=True)
        where = dict(os.environ, LD_LIBRARY_PATH=SHARED)
        return subprocess.run([program], check=True, stdout=subprocess.PIPE, text=True, env=where).stdout.splitlines()


class TheLibrary(unittest.TestCase):
    FILE = os.path.join(SHARED, "libsaratoga.so.0.1")

    def told(self, *command):
        return subprocess.run([*command, self.FILE], check=True, stdout=subprocess.PIPE, text=True).stdout

    def test_exports_are_the_headers(self):
        names = [line.split()[-1].split("@")[0] for line in self.told("nm", "-D", "--defined-only").splitlines()]
        functions = [name for name in names if name != "SARATOGA_0"]  # the name of the version itself
        self.assertEqual(sorted(functions), sorted("saratoga_" + name for name in HEADER.functions))
        self.assertGreater(len(functions), 20)

    def test_needs_libc_alone(self):
        dynamic = self.told("readelf", "--wide", "--dynamic")
        self.assertIn("(SONAME)             Library soname: [libsaratoga.so.0]", dynamic)
        self.assertEqual(re.findall(r"\(NEEDED\).*\[(.*)\]", dynamic), ["libc.so.6"])
        needed = {line.split()[-1].split("@")[0] for line in self.told("nm", "-D", "--undefined-only").splitlines()}
        self.assertLessEqual(needed, {"memcpy", "memmove", "memset"})
        self.assertNotIn("TEXTREL", dynamic)
        stack = [line for line in self.told("readelf", "--wide", "--segments").splitlines() if "GNU_STACK" in line]
        self.assertRegex(stack[0], r" RW +0x")

    def test_links(self):
        for name, target in (("libsaratoga.so", "libsaratoga.so.0"), ("libsaratoga.so.0", "libsaratoga.so.0.1")):
            self.assertEqual(os.readlink(os.path.join(SHARED, name)), target)

    def test_a_program(self):
        lines = answers_of(["struct saratoga_written w;", "uint8_t out[8];", "w = saratoga_write_failure(7, 6, out, 8);",
                            'printf("%" PRIu64 " %d %d\\n", w.size, out[0], out[7]);'], ["-L" + SHARED, "-lsaratoga"])
        self.assertEqual(lines, ["8 68 7"])


class BesideTheHeader(unittest.TestCase):
    def test_structs(self):
        self.assertEqual(sorted(STRUCTS), sorted(HEADER.structs))
        statements, own = [], []
        for name, fields in HEADER.structs.items():
            kind = STRUCTS[name]
            statements.append(f'printf("{name} %zu\\n", sizeof(struct saratoga_{name}));')
            own.append(f"{name} {saratoga.ctypes.sizeof(kind)}")
            self.assertEqual([field for field, _ in kind._fields_], fields, name)
            for field in fields:
                where = f"offsetof(struct saratoga_{name}, {field}), sizeof ((struct saratoga_{name} *)0)->{field}"
                statements.append(f'printf("{name}.{field} %zu %zu\\n", {where});')
                place = getattr(kind, field)
                own.append(f"{name}.{field} {place.offset} {place.size}")
        self.assertEqual(answers_of(statements), own)

    def test_constants(self):
        self.assertGreater(len(HEADER.macros), 100)
        texts = [name for name in HEADER.macros if isinstance(getattr(saratoga, name), str)]
        statements = [f'printf("{name} %s\\n", SARATOGA_{name});' if name in texts else
                      f'printf("{name} %" PRIu64 "\\n", (uint64_t)SARATOGA_{name});' for name in HEADER.macros]
        self.assertEqual(answers_of(statements), [f"{name} {getattr(saratoga, name)}" for name in HEADER.macros])
        own = {name for name, value in vars(saratoga).items() if re.fullmatch("[A-Z][A-Z0-9_]+", name) and isinstance(value, (int, str))}
        kinds = {"IN", "OUT", "LIST", "PIECES"}
        self.assertEqual(own - kinds, set(HEADER.macros))

    def test_texts(self):
        numbers = [*range(40), 255, 2**64 - 1]
        statements = [f"puts(saratoga_{what}_text(UINT64_C({number})));" for what in ("refusal", "code") for number in numbers]
        self.assertEqual(answers_of(statements), [getattr(saratoga, what + "_text")(number)
                                                  for what in ("refusal", "code") for number in numbers])

    def test_prototypes(self):
        """The compiler compares the table's types with the header's."""
        self.assertEqual(sorted(saratoga.FUNCTIONS), sorted(HEADER.functions))
        self.assertEqual(sorted(HEADER.inlines), ["code_text", "failure_id", "hole_at", "number_of", "refusal_text"])
        named = {kind: "struct saratoga_" + name for name, kind in STRUCTS.items()}
        types = {saratoga.IN: "const uint8_t *, size_t", saratoga.OUT: "uint8_t *, size_t", saratoga.N: "uint64_t",
                 saratoga.LIST: "const struct saratoga_piece *, size_t", saratoga.PIECES: "struct saratoga_piece *, size_t", **named}
        statements = []
        for name, (answer, *takes) in saratoga.FUNCTIONS.items():
            listed = ", ".join(types[taken] for taken in takes)
            statements.append(f"{named[answer]} (*p_{name})({listed}) = saratoga_{name};")
            statements.append(f"if (p_{name} == 0) return 1;")
        self.assertEqual(answers_of(statements, ["-L" + SHARED, "-lsaratoga", "-Wno-address"]), [])

    def test_every_function_is_there(self):
        for name in HEADER.functions + HEADER.inlines:
            self.assertTrue(callable(getattr(saratoga, name)), name)

    def test_inlines(self):
        """Beside the header's own, on any octets."""
        chance, statements, own = random.Random(1), [], []
        for number in range(60):
            packet = bytes(chance.choice((chance.randrange(256), 0x40, 0x43)) for _ in range(chance.randrange(1, 20)))
            code = chance.choice((0, 1, 9, 255))
            listed = ", ".join(map(str, packet))
            statements.append(f"{{ static const uint8_t p[] = {{{listed}}}; uint64_t id = 1; int sent;")
            statements.append(f"sent = saratoga_failure_id(p, {len(packet)}, {code}, &id);")
            statements.append(f'printf("%d %" PRIu64 " %" PRIu64 "\\n", sent, id, saratoga_number_of(p, {len(packet)})); }}')
            ident = saratoga.failure_id(packet, code)
            own.append(f"{int(ident is not None)} {1 if ident is None else ident} {saratoga.number_of(packet)}")
        self.assertEqual(answers_of(statements), own)
        self.assertEqual(len({line.split()[0] for line in own}), 2)
        self.assertEqual(saratoga.number_of(b""), 0)


def page(length):
    return bytes(number * 7 % 251 for number in range(length))


class Calls(unittest.TestCase):
    """Each function, beside packets of another codec."""

    def test_packets(self):
        packet = made.data(7, 16, 1000, b"page", made.WANTED)
        self.assertEqual(saratoga.write_data(saratoga.WIDTH_16 | saratoga.FLAG_STATUS_WANTED, 7, b"", 1000, b"page"), packet)
        answer = saratoga.read(bytearray(packet))
        self.assertEqual((answer.type, answer.id, answer.width, answer.offset), (saratoga.TYPE_DATA, 7, 2, 1000))
        self.assertEqual(saratoga.part(packet, answer, "payload"), b"page")
        self.assertIn("Packet(number=0, code=0, type=3, flags=65536, id=7, width=2, ", repr(answer))
        packet = made.metadata(8, 64, 3000, b"a/b", 0x42, bytes(range(16)), 5, 6)
        self.assertEqual(saratoga.write_metadata(saratoga.WIDTH_64 | saratoga.CHECKSUM_MD5, 8, bytes(range(16)),
                                                 saratoga.PROPERTIES_WIDTH_64, 3000, 5, 6, b"a/b"), packet)
        answer = saratoga.read(memoryview(packet))
        self.assertEqual((answer.size, answer.mtime, answer.ctime), (3000, 5, 6))
        self.assertEqual([saratoga.part(packet, answer, name) for name in ("path", "checksum")], [b"a/b", bytes(range(16))])
        self.assertEqual(saratoga.write_failure(7, 6), made.failure(7, 6))
        packet = made.beacon(b"dish", 64, "willing", "not-now", 2**20, flags=made.STREAMS)
        flags = (saratoga.LARGEST_64 | saratoga.SEND_WILLING | saratoga.RECEIVE_NOT_NOW | saratoga.FLAG_STREAMS
                 | saratoga.FREE_SPACE_32)
        self.assertEqual(saratoga.write_beacon(flags, 2**20, b"dish"), packet)
        answer = saratoga.read(packet)
        self.assertEqual((answer.send, answer.receive, answer.streams, answer.free_space),
                         (saratoga.WILLING, saratoga.NOT_NOW, 1, 2**20))
        self.assertEqual(saratoga.part(packet, answer, "endpoint"), b"dish")
        self.assertEqual(saratoga.write_beacon(saratoga.LARGEST_16), made.beacon(largest=16))

    def test_holes_and_plans(self):
        for width in made.WIDTHS:
            status = made.success(7, width, 1000, 3000, [(1000, 1500), (2000, 3000)])
            answer = saratoga.read(status)
            self.assertEqual(answer.hole_count, 2)
            for index, ends in enumerate([(1000, 1500), (2000, 3000)]):
                for hole in (saratoga.read_hole(status, index), saratoga.hole_at(bytearray(status), answer, index)):
                    self.assertEqual((hole.start, hole.end), ends)
                self.assertEqual(saratoga.read_hole(status, index), saratoga.hole_at(status, answer, index))
            self.assertEqual(saratoga.holes(status), [(1000, 1500), (2000, 3000)])
            pieces = [(1000, 400), (1400, 100), (2000, 400), (2400, 400), (2800, 200)]
            self.assertEqual((saratoga.plan_count(status, 400), saratoga.plan(status, 400)), (5, pieces))
            self.assertTrue(saratoga.check_plan(status, 400, pieces))
            self.assertFalse(saratoga.check_plan(status, 400, pieces[1:]))
        self.assertEqual(saratoga.plan(made.success(7, 16, 5, 5), 400), [])
        self.assertTrue(saratoga.check_plan(made.success(7, 16, 5, 5), 400, []))

    def test_receiving(self):
        """The transfer of README.md: one packet twice, the middle one last."""
        area, text = saratoga.fresh(), page(3000)
        self.assertEqual(saratoga.open(area, made.metadata(7, 16, 3000)).already_open, 0)
        answers = []
        for offset in (0, 0, 2000, 1000):
            packet = made.data(7, 16, offset, text[offset:offset + 1000])
            tried = saratoga.try_record(area, packet)
            done = saratoga.record(area, packet)
            self.assertEqual(tried, done)
            status = saratoga.read(saratoga.write_status(area, 7))
            answers.append((done.edge, done.complete, done.absorbed, done.adds, status.hole_count, status.progress))
        self.assertEqual(answers, [(1000, 0, 0, 1, 0, 1000), (1000, 0, 1, 0, 0, 1000), (3000, 0, 0, 1, 1, 1000),
                                   (3000, 1, 2, 1, 0, 3000)])
        saratoga.open(area, made.metadata(3, 32, 90))
        saratoga.record(area, made.data(3, 32, 10, b"x"))
        saratoga.record(area, made.data(3, 32, 20, b"x"))
        self.assertEqual([one.id for one in saratoga.transfers(area)], [3, 7])
        self.assertEqual(saratoga.transfer(area, 0), saratoga.find(area, 3))
        self.assertEqual(saratoga.transfer_holes(area, 3), [(0, 10), (11, 20)])
        self.assertEqual(saratoga.transfer_hole(area, 3, 1).end, 20)
        self.assertEqual(saratoga.write_status(area, 3, 1, 1), made.success(3, 32, 0, 21, [(11, 20)], made.INCOMPLETE | made.UNASKED))
        other = bytearray(area)
        saratoga.record(other, made.data(3, 32, 0, b"x" * 10))
        merged = saratoga.merge(area, other, 3)
        self.assertEqual((merged.edge, merged.complete), (21, 0))
        self.assertEqual(saratoga.transfer_holes(area, 3), [(11, 20)])
        self.assertIsNone(saratoga.close(area, 3))
        self.assertEqual([one.id for one in saratoga.transfers(area)], [7])
        self.assertEqual(saratoga.fresh(bytearray(b"x" * 20000))[saratoga.AREA_OCTETS:], b"x" * (20000 - saratoga.AREA_OCTETS))

    def test_merge_with_itself(self):
        """What is only read is copied, so that nothing that is passed overlaps."""
        area = saratoga.fresh()
        saratoga.open(area, made.metadata(7, 16, 9))
        before = bytes(area)
        self.assertEqual(saratoga.merge(area, area, 7).edge, 0)
        self.assertEqual(area, before)

    def test_marks(self):
        marks = bytearray(saratoga.BITMAP_OCTETS)
        transfer = saratoga.bitmap_open(marks, made.metadata(7, 16, 3000)).transfer
        done = saratoga.bitmap_record(transfer, marks, made.data(7, 16, 8, b"x" * 8, made.TIMESTAMP, bytes(15) + b"\5"))
        self.assertEqual((done.edge, done.adds, done.transfer.stamped, done.transfer.stamp_low), (16, 1, 1, 5))
        self.assertEqual(marks[:3], b"\0\xff\0")
        self.assertEqual(saratoga.bitmap_status(done.transfer, marks),
                         made.success(7, 16, 0, 16, [(0, 8)], made.TIMESTAMP, bytes(15) + b"\5"))

    def test_md5(self):
        chance = random.Random(2)
        for _ in range(50):
            text, state = chance.randbytes(chance.randrange(300)), saratoga.md5_begin()
            cut = chance.randrange(len(text) + 1)
            saratoga.md5_add(state, text[:cut])
            saratoga.md5_add(state, memoryview(text)[cut:])
            digest = hashlib.md5(text).digest()
            self.assertEqual(saratoga.md5_end(state), digest)
            for checksum, flags, verdict in ((digest, 0x42, saratoga.AGREES), (bytes(16), 0x42, saratoga.DIFFERS),
                                             (b"", 0, saratoga.NOT_CHECKED)):
                packet = made.metadata(7, 16, len(text), flags=flags, checksum=checksum)
                self.assertEqual(saratoga.check_md5(packet, state), verdict)

    def test_settings(self):
        file = saratoga.write_settings(2, 1024, 1, 60, 1, 31)
        settings = saratoga.read_settings(file)
        self.assertEqual((settings.version, settings.largest_payload, settings.interval, settings.partner), (2, 1024, 60, 31))
        self.assertEqual(saratoga.write_settings(1, 1).hex(), "01010101")


class Refusals(unittest.TestCase):
    def refused(self, number, code, call, *arguments, **named):
        with self.assertRaises(Refused) as raised:
            call(*arguments, **named)
        self.assertEqual((raised.exception.number, raised.exception.code), (number, code))
        self.assertEqual(str(raised.exception), f"refused {number}: {saratoga.refusal_text(number)}")
        self.seen.add(number)

    def test_each_number(self):
        self.seen, area, status = set(), saratoga.fresh(), made.success(7, 16, 1, 9, [(1, 2)])
        saratoga.open(area, made.metadata(7, 16, 300))
        before, small = bytes(area), bytes(9)
        for number, code, packet in (
                (1, 0, b"\x43"), (2, 0, b"\x43" + bytes(65535)), (3, 0, bytes(9)), (4, 10, b"\x45" + bytes(9)),
                (5, 9, made.data(7, 128, 2**64, b"x")), (6, 1, made.data(7, 16, 0, b"x", 0x100000)),
                (7, 1, made.metadata(7, 16, 9, flags=0x32)), (8, 1, made.metadata(7, 16, 9, b"")),
                (9, 9, made.metadata(7, 16, 65536, size_width=32)), (10, 1, made.data(7, 16, 0, b"")),
                (11, 0, made.success(7, 16, 1, 9, [(2, 1)])), (26, 0, made.beacon(flags=1))):
            self.refused(number, code, saratoga.read, packet)
        for number, code, packet in ((12, 6, made.data(8, 16, 0, b"x")), (13, 9, made.data(7, 32, 0, b"x")),
                                     (14, 9, made.data(7, 16, 300, b"x")), (15, 1, made.data(7, 16, 0, b"x", made.END_OF_DATA))):
            self.refused(number, code, saratoga.record, area, packet)
        self.refused(18, 9, saratoga.open, area, made.metadata(7, 16, 301))
        self.refused(23, 1, saratoga.open, area, made.metadata(8, 16, 9, flags=0x11, checksum=bytes(4)))
        self.refused(19, 0, saratoga.hole_at, status, saratoga.read(status), 1)
        self.refused(19, 0, saratoga.read_hole, status, 2**64 - 1)
        self.refused(19, 0, saratoga.transfer_hole, area, 7, 0)
        self.refused(20, 0, saratoga.write_status, area, 7, room=11)
        self.refused(20, 0, saratoga.plan, status, 1, 0)
        self.refused(20, 0, saratoga.fresh, bytearray(saratoga.AREA_OCTETS - 1))
        self.refused(20, 0, saratoga.fresh, bytearray())
        self.refused(21, 0, saratoga.write_failure, 7, 0)
        self.refused(21, 0, saratoga.plan, status, 0)
        self.refused(22, 0, saratoga.find, small, 7)
        self.refused(22, 0, saratoga.transfers, small)
        self.refused(24, 0, saratoga.read_settings, b"\2\1\1\1", 1)
        self.refused(25, 0, saratoga.write_settings, 1, 0)
        self.assertEqual(area, before)
        for number in range(64):
            saratoga.record(area, made.data(7, 16, 2 * number, b"x"))
        self.refused(16, 3, saratoga.record, area, made.data(7, 16, 299, b"x"))
        for number in range(15):
            saratoga.open(area, made.metadata(100 + number, 16, 9))
        self.refused(17, 3, saratoga.open, area, made.metadata(99, 16, 9))
        self.assertEqual(self.seen, set(range(1, 27)))

    def test_what_is_no_number(self):
        for value in (-1, 2**64, 2**64 + 7):
            for call in (lambda: saratoga.write_failure(value, 6), lambda: saratoga.find(saratoga.fresh(), value),
                         lambda: saratoga.refusal_text(value), lambda: saratoga.plan(made.success(7, 16, 5, 5), value),
                         lambda: saratoga.check_plan(made.success(7, 16, 5, 5), 1, [(value, 1)])):
                self.assertRaises(OverflowError, call)
        for value in ("7", 7.0, None):
            self.assertRaises(TypeError, saratoga.write_failure, value, 6)

    def test_what_is_no_buffer(self):
        self.assertRaises(TypeError, saratoga.fresh, bytes(saratoga.AREA_OCTETS))
        self.assertRaises(TypeError, saratoga.read, "packet")
        self.assertRaises(TypeError, saratoga.bitmap_record, None, bytearray(8192), b"")
        area = memoryview(bytearray(saratoga.AREA_OCTETS + 8))
        saratoga.fresh(area[8:])
        self.assertEqual(saratoga.transfers(area[8:]), [])

    def test_no_library(self):
        code = "import saratoga"
        told = subprocess.run([sys.executable, "-B", "-c", code], cwd=HERE, stderr=subprocess.PIPE, text=True,
                              env=dict(os.environ, SARATOGA_LIBRARY="/nowhere/libsaratoga.so")).stderr
        self.assertIn("/nowhere/libsaratoga.so", told)


if __name__ == "__main__":
    told = io.StringIO()
    result = unittest.TextTestRunner(told).run(unittest.defaultTestLoader.loadTestsFromModule(sys.modules["__main__"]))
    if not result.wasSuccessful():
        sys.exit(told.getvalue() + "host/python/test.py: FAILED")
    print(f"python: {result.testsRun} tests of libsaratoga.so and of the module over it pass")
