"""passtext: the forms it documents, the round trip of every pass, and the lines that errors name."""
import random
import struct
import subprocess
import sys
import unittest

import loading
from packets import (END_OF_DATA, INCOMPLETE, TIMESTAMP, WANTED, beacon, data, failure, metadata, page_packets, record,
                     success, time_record)

passtext = loading.tool("passtext")


def numbers(*values):
    return struct.pack(f">{len(values)}Q", *values)


def text_of(octets):
    return list(passtext.to_lines(octets))


def pass_of(*lines):
    return passtext.to_pass(lines)


class Forms(unittest.TestCase):
    """Each form and the octets it stands for, both ways."""

    FORMS = [
        ("fresh", record(b"F")),
        ("open id=7 width=16 length=3000 path=page611.pla", record(b"O", metadata(7, 16, 3000))),
        ("open id=4294967295 width=64 length=18446744073709551615 path=a%20b%23%25%ff%00",
         record(b"O", metadata(2**32 - 1, 64, 2**64 - 1, b"a b#%\xff\0"))),
        ("open id=7 width=32 length=9 path=p mtime=1 ctime=2 checksum=2:000102030405060708090a0b0c0d0e0f",
         record(b"O", metadata(7, 32, 9, b"p", 0x42, bytes(range(16)), 1, 2))),
        ("open id=7 width=16 length=3000 path=p flags=0a0000",
         record(b"O", metadata(7, 16, 3000, b"p", 0x0A0000))),
        ("open id=7 width=16 length=70000 path=p properties=0041",
         record(b"O", struct.pack(">IIHIII", 0x42000000, 7, 0x0041, 70000, 0, 0) + b"p\0")),
        ("data id=7 width=16 offset=0 length=1000 fill=00", record(b"D", data(7, 16, 0, bytes(1000)))),
        ("data id=7 width=16 offset=2000 length=1000 fill=2a wanted eod",
         record(b"D", data(7, 16, 2000, b"*" * 1000, WANTED | END_OF_DATA))),
        ("data id=7 width=64 offset=18446744073709551615 payload=0001 timestamp=" + "ab" * 16,
         record(b"D", data(7, 64, 2**64 - 1, b"\0\1", TIMESTAMP, b"\xab" * 16))),
        ("open id=7 width=128 length=3000 path=p",
         record(b"O", bytes.fromhex("42c0000000000007" "00c0" + 28 * "0" + "0bb8" "0000000000000000" "7000"))),
        ("open id=7 width=128 length=3000 path=p properties=0000",
         record(b"O", bytes.fromhex("42c0000000000007" "0000" "0bb8" "0000000000000000" "7000"))),
        ("data id=7 width=128 offset=3 payload=6162",
         record(b"D", bytes.fromhex("43c0000000000007" + 31 * "0" + "3" "6162"))),
        # An offset of 2^64: its eighth octet isn't zero.
        ("data id=7 width=128 offset=18446744073709551616 length=1 fill=61",
         record(b"D", bytes.fromhex("43c0000000000007" "00000000000000010000000000000000" "61"))),
        ("data id=7 width=16 offset=3 payload=", record(b"D", data(7, 16, 3, b""))),
        ("data id=7 width=16 offset=3 length=1 fill=07 flags=000001", record(b"D", data(7, 16, 3, b"\7", 1))),
        ("status id=7 skip=0 unasked=0 room=65535", record(b"S", struct.pack(">IQBI", 7, 0, 0, 65535))),
        ("status id=7 skip=18446744073709551615 unasked=255 room=4294967295",
         record(b"S", struct.pack(">IQBI", 7, 2**64 - 1, 255, 2**32 - 1))),
        ("close id=7", record(b"C", struct.pack(">I", 7))),
        ("read metadata id=7 width=16 length=3000 path=page611.pla", record(b"R", metadata(7, 16, 3000))),
        ("link data id=7 width=32 offset=5 length=2 fill=00 wanted", record(b"P", data(7, 32, 5, b"\0\0", WANTED))),
        ("link success id=7 width=16 progress=1000 in-response-to=3000 holes=1000-2000,2500-2600",
         record(b"P", success(7, 16, 1000, 3000, [(1000, 2000), (2500, 2600)]))),
        ("read success id=7 width=64 progress=0 in-response-to=0 holes= incomplete unasked",
         record(b"R", success(7, 64, 0, 0, flags=INCOMPLETE | 0x010000))),
        ("link success id=7 width=128 progress=0 in-response-to=2 holes=0-1",
         record(b"P", bytes.fromhex("44c0000000000007" + 32 * "0" + 31 * "0" + "2" + 32 * "0" + 31 * "0" + "1"))),
        ("read failure id=7 status=6", record(b"R", failure(7, 6))),
        ("read failure id=7 status=6 flags=c00006", record(b"R", bytes.fromhex("44c0000600000007"))),
        ("time at=1970-01-01T00:00:00.000000000Z", time_record(0)),
        ("time at=2023-11-14T22:13:20.000005000Z", time_record(1700000000000005000)),
        ("time at=2554-07-21T23:34:33.709551615Z", time_record(2**64 - 1)),
        ("packet W 00", record(b"W", b"\0")),
        ("table 0", record(b"T", b"\0")),
        ("table 1", record(b"T", b"\1")),
        ("merge id=7", record(b"M", numbers(7))),
        ("merge id=18446744073709551615", record(b"M", numbers(2**64 - 1))),
        # No table has that number; and other lengths.
        ("packet T 02", record(b"T", b"\2")),
        ("packet T", record(b"T")),
        ("packet T 0001", record(b"T", b"\0\1")),
        ("packet M 00000007", record(b"M", struct.pack(">I", 7))),
        ("read beacon largest-width=64 send=willing receive=not-now free-width=32 free=1048576 endpoint=dish%203",
         record(b"R", bytes.fromhex("408e5000" "00100000") + b"dish 3")),
        ("link beacon largest-width=16 send=cannot receive=cannot endpoint=", record(b"P", bytes.fromhex("40000000"))),
        ("link beacon largest-width=128 send=not-now receive=willing free-width=64 free=18446744073709551615 "
         "endpoint=%00%1b bundles streams udp-lite",
         record(b"P", bytes.fromhex("40fbe000" "ffffffffffffffff" "001b"))),
        # Bits 18 to 23 without 17, and a last flags octet.
        ("read beacon largest-width=32 send=cannot receive=cannot endpoint=p flags=403f00",
         record(b"R", bytes.fromhex("40403f00") + b"p")),
        ("read beacon largest-width=16 send=cannot receive=cannot free-width=16 free=0 endpoint= flags=004f01",
         record(b"R", bytes.fromhex("40004f01" "0000"))),
        ("read beacon largest-width=16 send=cannot receive=cannot free-width=128 free=1 endpoint=p",
         record(b"R", bytes.fromhex("40007000" + 31 * "0" + "1") + b"p")),
        ("plan largest=400 id=7 width=16 progress=1000 in-response-to=1600 holes=1000-1600",
         record(b"L", numbers(400) + success(7, 16, 1000, 1600, [(1000, 1600)]))),
        ("plan largest=18446744073709551615 id=7 width=64 progress=3 in-response-to=3 holes= unasked",
         record(b"L", numbers(2**64 - 1) + success(7, 64, 3, 3, flags=0x010000))),
        ("check largest=400 pieces=1000+400,1400+200 id=7 width=16 progress=1000 in-response-to=1600 holes=1000-1600",
         record(b"K", numbers(400, 2, 1000, 400, 1400, 200) + success(7, 16, 1000, 1600, [(1000, 1600)]))),
        ("check largest=1 pieces=18446744073709551615+18446744073709551615 id=7 width=32 progress=0 in-response-to=1 holes=0-1",
         record(b"K", numbers(1, 1, 2**64 - 1, 2**64 - 1) + success(7, 32, 0, 1, [(0, 1)]))),
        ("check largest=0 pieces= id=7 width=16 progress=0 in-response-to=0 holes=",
         record(b"K", numbers(0, 0) + success(7, 16, 0, 0))),
        # Numbers or pieces that are cut, and packets that are no success STATUS.
        ("packet L 00000000000001", record(b"L", bytes(6) + b"\1")),
        ("packet L 0000000000000190", record(b"L", numbers(400))),
        ("packet L 00000000000001904400000600000007", record(b"L", numbers(400) + failure(7, 6))),
        ("packet K", record(b"K")),
        ("packet K 0000000000000190", record(b"K", numbers(400))),
        ("packet K 00000000000001900000000000000001", record(b"K", numbers(400, 1))),
        ("packet K 0000000000000190ffffffffffffffff" + success(7, 16, 0, 0).hex(),
         record(b"K", numbers(400, 2**64 - 1) + success(7, 16, 0, 0))),
        # A pairing 0 1, a free space that is cut, and a BEACON that no table takes.
        ("packet R 40040000", record(b"R", bytes.fromhex("40040000"))),
        ("packet R 40007000" + 15 * "00", record(b"R", bytes.fromhex("40007000") + bytes(15))),
        ("packet R 4000400000", record(b"R", bytes.fromhex("4000400000"))),
        ("packet O 40000000", record(b"O", bytes.fromhex("40000000"))),
        ("packet O " + data(7, 16, 0, b"x").hex(), record(b"O", data(7, 16, 0, b"x"))),
        ("packet D 42", record(b"D", b"\x42")),
        ("packet P", record(b"P")),
        ("packet F 00", record(b"F", b"\0")),
        ("packet S 00000007", record(b"S", b"\0\0\0\7")),
        ("packet C 0000000007", record(b"C", b"\0\0\0\0\7")),
        ("packet R 43c0000000000007ffff01", record(b"R", bytes.fromhex("43c0000000000007ffff01"))),
        ("packet R 440000000000000703e8", record(b"R", bytes.fromhex("440000000000000703e8"))),
        ("packet X 0102", record(b"X", b"\1\2")),
        ("packet 23", record(b"#")),
        ("packet 00 ff", record(b"\0", b"\xff")),
    ]

    def test_both_ways(self):
        for line, octets in self.FORMS:
            with self.subTest(line=line):
                self.assertEqual(pass_of(line), octets)
                self.assertEqual(text_of(octets), [line])

    def test_cut_short(self):
        whole = record(b"P", b"page")
        for cut in range(1, len(whole)):
            self.assertEqual(text_of(whole + whole[:cut]), ["packet P 70616765", "cut " + whole[:cut].hex()])
            self.assertEqual(pass_of("packet P 70616765", "cut " + whole[:cut].hex()), whole + whole[:cut])

    def test_what_a_person_may_write(self):
        self.assertEqual(pass_of("", "# nothing", "  close   id=0x10  # sixteen", "packet P 44 00 0006\t00000007",
                                 "data id=1 width=16 offset=0 length=5 fill=0102", "status id=1"),
                         record(b"C", struct.pack(">I", 16)) + record(b"P", failure(7, 6))
                         + record(b"D", data(1, 16, 0, b"\1\2\1\2\1"))
                         + record(b"S", struct.pack(">IQBI", 1, 0, 0, 65535)))
        self.assertEqual(pass_of("open path=p length=3 width=16 id=7"), record(b"O", metadata(7, 16, 3, b"p")))
        self.assertEqual(pass_of("read beacon endpoint=p flags=8e5000 free=7", "link beacon flags=040000 endpoint="),
                         record(b"R", beacon(b"p", send="willing", receive="not-now", free=7))
                         + record(b"P", bytes.fromhex("40040000")))


class RoundTrip(unittest.TestCase):
    def same(self, octets):
        lines = text_of(octets)
        self.assertEqual(passtext.to_pass(lines), octets, lines)

    def test_damaged_packets_of_each_kind(self):
        chance = random.Random(611)
        packets = page_packets() + [metadata(7, 64, 5, b"p", 0x11, b"abcd"), data(7, 32, 9, b"x", TIMESTAMP, bytes(16)),
                                    beacon(b"dish"), beacon(b"dish", 128, "willing", "not-now", 9, 64), beacon(free=1),
                                    metadata(7, 128, 5, b"p"), data(7, 128, 9, b"xy"), success(7, 128, 0, 2, [(0, 1)]),
                                    beacon(b"dish", free=9, free_width=128)]
        for _ in range(20000):
            packet = bytearray(chance.choice(packets)[:chance.choice((8, 12, 40, 2000))])
            for _ in range(chance.randrange(3)):
                octet = chance.choice((0, 1, 64, 128, 255, chance.randrange(256)))
                packet[chance.randrange(min(len(packet), 30))] = octet
            packet = packet[:chance.randrange(len(packet) + 1)] if chance.random() < 0.3 else packet
            kind = bytes([chance.choice(b"FODRSCPLKX\0#")])
            before = {b"L": numbers(9), b"K": numbers(9, chance.choice((0, 1, 2)), 5, 6)}.get(kind, b"")
            self.same(record(kind, before + bytes(packet)))

    def test_any_octets(self):
        chance = random.Random(612)
        for _ in range(3000):
            octets = b""
            for _ in range(4):
                body = chance.randbytes(chance.randrange(30))
                octets += record(bytes([chance.randrange(256)]), body) if chance.random() < 0.5 else body[:8]
            self.same(octets)

    def test_a_body_too_long_for_a_packet(self):
        self.same(record(b"P", bytes(70000)) + record(b"D", data(7, 16, 0, bytes(70000))) + record(b"F"))


class Errors(unittest.TestCase):
    def wrong(self, line, message):
        with self.assertRaises(passtext.Wrong) as raised:
            pass_of("fresh", "", line)
        self.assertEqual(str(raised.exception), "line 3: " + message)

    def test_messages(self):
        self.wrong("opne id=7", "no line begins with opne; see passtext --help")
        self.wrong("data id=7 width=16 ofset=0 length=1 fill=00", "data needs offset=")
        self.wrong("data id=7 width=16 offset=0 length=1 fill=00 want",
                   "data has no 'want'; it has id= timestamp= wanted eod flags= width= offset= payload= fill= length=")
        self.wrong("close id=4294967296", "id=4294967296 is over 32 bits")
        self.wrong("close id=x", "id=x is no number")
        self.wrong("close id", "id needs a value: id=...")
        self.wrong("close id=7 id=8", "id stands twice")
        self.wrong("open id=7 width=16 length=65536 path=p", "length=65536 is over 16 bits")
        self.wrong("open id=7 width=24 length=6 path=p", "width=24 is not 16, 32, 64 or 128")
        self.wrong("data id=7 width=128 offset=0x" + "f" * 33 + " payload=00",
                   "offset=0x" + "f" * 33 + " is over 128 bits")
        self.wrong("open id=7 length=6 path=p", "open needs width=")
        self.wrong("open id=7 width=16 length=6", "open needs path=")
        self.wrong("open id=7 width=16 length=6 path=a%2", "a % in a path is followed by two hexadecimal digits; "
                                                           "%25 is the % itself")
        self.wrong("data id=7 width=32 offset=0 payload=00 flags=000000", "width=32, but flags=000000 say 16")
        self.wrong("data id=7 width=16 offset=0 payload=00 eod flags=000000",
                   "flags=000000 lack bits that the other fields set: 008000")
        self.wrong("data id=7 width=16 offset=0 payload=0", "payload=0 is no sequence of pairs of hexadecimal digits")
        self.wrong("data id=7 width=16 offset=0", "data needs length= and fill=, or payload=")
        self.wrong("read", "read is followed by one of metadata, data, success, failure, beacon")
        self.wrong("read beacon largest-width=64 send=maybe receive=cannot endpoint=",
                   "send=maybe is not cannot, not-now or willing")
        self.wrong("read beacon largest-width=8 send=cannot receive=cannot endpoint=",
                   "largest-width=8 is not 16, 32, 64 or 128")
        self.wrong("read beacon largest-width=64 send=cannot endpoint=", "read beacon needs receive=")
        self.wrong("read beacon largest-width=64 send=cannot receive=cannot", "read beacon needs endpoint=")
        self.wrong("read beacon largest-width=64 send=cannot receive=cannot free=1 endpoint=", "free= needs free-width=")
        self.wrong("read beacon largest-width=64 send=cannot receive=cannot free-width=32 endpoint=",
                   "read beacon needs free=")
        self.wrong("read beacon largest-width=64 send=cannot receive=cannot free-width=48 free=1 endpoint=",
                   "free-width=48 is not 16, 32, 64 or 128")
        self.wrong("read beacon flags=8e0000 send=cannot endpoint=",
                   "flags=8e0000 are not those that the other fields make: 820000")
        self.wrong("read beacon flags=000000 streams endpoint=",
                   "flags=000000 are not those that the other fields make: 100000")
        self.wrong("link beacon flags=000000 endpoint=%x", "a % in an endpoint is followed by two hexadecimal digits; "
                                                           "%25 is the % itself")
        self.wrong("read success id=7 width=16 progress=0 in-response-to=9 holes=3",
                   "holes=3: a hole is START-END")
        self.wrong("plan id=7 width=16 progress=0 in-response-to=9 holes=0-9", "plan needs largest=")
        self.wrong("check largest=9 id=7 width=16 progress=0 in-response-to=9 holes=0-9", "check needs pieces=")
        self.wrong("check largest=9 pieces=3 id=7 width=16 progress=0 in-response-to=9 holes=0-9",
                   "pieces=3: a piece is OFFSET+LENGTH")
        self.wrong("check largest=9 pieces=0+18446744073709551616 id=7 width=16 progress=0 in-response-to=9 holes=0-9",
                   "pieces=18446744073709551616 is over 64 bits")
        self.wrong("plan largest=9 pieces=0+9 id=7 width=16 progress=0 in-response-to=9 holes=0-9",
                   "plan has no 'pieces'; it has largest= id= timestamp= incomplete unasked flags= width= progress= "
                   "in-response-to= holes=")
        self.wrong("packet PP 00", "PP is no kind: one character, or two hexadecimal digits")
        self.wrong("fresh now", "fresh takes nothing")

    def test_nothing_follows_cut(self):
        with self.assertRaisesRegex(passtext.Wrong, "line 3: nothing may follow cut, which stands in line 1"):
            pass_of("cut 50", "# done", "fresh")

    def test_the_program(self):
        def run(octets, *options):
            done = subprocess.run([sys.executable, "-B", loading.path_of("passtext"), *options], input=octets,
                                  capture_output=True, check=False)
            return done.stdout, done.stderr.decode(), done.returncode

        self.assertEqual(run(b"fresh\nclose id=7\n", "-p"), (record(b"F") + record(b"C", b"\0\0\0\7"), "", 0))
        self.assertEqual(run(record(b"F") + b"P", "-n"), (b"fresh  # 1\ncut 50  # 2\n", "", 0))
        self.assertEqual(run(b"fresh\nclose\n", "-p"),
                         (b"", "passtext: standard input: line 2: close needs id=\n", 1))
        self.assertEqual(run(b"fresh\n\xff\n", "-p"),
                         (b"", "passtext: standard input: line 2: not text; is it a pass already?\n", 1))
        self.assertEqual(run(b"\x1b[2J\n", "-p"), (b"", "passtext: standard input: line 1: no line begins with "
                                                          "\\x1b[2J; see passtext --help\n", 1))
        self.assertEqual(run(b"close id=" + b"9" * 9999, "-p")[1:],
                         ("passtext: standard input: line 1: id=" + "9" * 40 + "... is over 32 bits\n", 1))
        self.assertEqual(run(record(b"F"), "-o", "/nowhere/text"),
                         (b"", "passtext: /nowhere/text: No such file or directory\n", 1))
        self.assertEqual(run(record(b"F"), "-o", "/dev/full"),
                         (b"", "passtext: /dev/full: No space left on device\n", 1))
        self.assertEqual(run(b"", "/"), (b"", "passtext: /: Is a directory\n", 1))
        self.assertEqual(run(b"", "/nowhere/pass"), (b"", "passtext: /nowhere/pass: No such file or directory\n", 1))


if __name__ == "__main__":
    unittest.main()
