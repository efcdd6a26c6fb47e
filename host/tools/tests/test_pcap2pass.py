"""pcap2pass on captures made here of the project's own packets, and against tshark or tcpdump where there is one."""
import io
import os
import random
import re
import struct
import subprocess
import sys
import tempfile
import unittest

import captures
import loading
from captures import (cooked, cooked2, enhanced, ethernet, fragments4, fragments6, interface, ipv4, ipv6, loopback, pcap, pcapng,
                      section, simple, udp)
from packets import page_packets, record, split, time_of

pcap2pass = loading.tool("pcap2pass")
PACKETS = page_packets()
PASS = b"".join(record(b"P", packet) for packet in PACKETS)

HOP = (0, struct.pack(">B6s", 0, bytes(6)))
ROUTING = (43, struct.pack(">B22s", 2, bytes(22)))
ATOMIC = (44, struct.pack(">BHI", 0, 0, 9))
OPTIONS = (60, struct.pack(">B6s", 0, bytes(6)))
AUTHENTICATION = (51, struct.pack(">B10s", 1, bytes(10)))

WRAPPINGS = {
    "Ethernet, IPv4": (captures.ETHERNET, lambda p: ethernet(ipv4(udp(p)))),
    "Ethernet, IPv6": (captures.ETHERNET, lambda p: ethernet(ipv6(udp(p)))),
    "Ethernet, one tag": (captures.ETHERNET, lambda p: ethernet(ipv4(udp(p)), [0x8100])),
    "Ethernet, two tags": (captures.ETHERNET, lambda p: ethernet(ipv6(udp(p)), [0x88A8, 0x8100])),
    "cooked, IPv4": (captures.COOKED, lambda p: cooked(ipv4(udp(p)))),
    "cooked, IPv6": (captures.COOKED, lambda p: cooked(ipv6(udp(p)))),
    "cooked 2, IPv4": (captures.COOKED2, lambda p: cooked2(ipv4(udp(p)))),
    "cooked 2, IPv6": (captures.COOKED2, lambda p: cooked2(ipv6(udp(p)))),
    "raw, IPv4": (captures.RAW, lambda p: ipv4(udp(p))),
    "raw, IPv6": (captures.RAW, lambda p: ipv6(udp(p))),
    "raw 12": (12, lambda p: ipv4(udp(p))),
    "raw 228": (228, lambda p: ipv4(udp(p))),
    "raw 229": (229, lambda p: ipv6(udp(p))),
    "IPv4 options": (captures.ETHERNET, lambda p: ethernet(ipv4(udp(p), options=b"\x94\x04\0\0" + b"\1" * 4))),
    "IPv6 extensions": (captures.RAW, lambda p: ipv6(udp(p), [HOP, OPTIONS, ROUTING, ATOMIC, AUTHENTICATION])),
    "loopback": (captures.NULL, lambda p: loopback(ipv4(udp(p)))),
    "loopback, the other order": (captures.NULL, lambda p: loopback(ipv6(udp(p)), ">", 30)),
    "loopback of OpenBSD": (captures.LOOP, lambda p: loopback(ipv4(udp(p)), ">")),
    "loopback of OpenBSD, IPv6": (captures.LOOP, lambda p: loopback(ipv6(udp(p)), ">")),
    "source port": (captures.ETHERNET, lambda p: ethernet(ipv4(udp(p, source=7542, target=50000)))),
}


def run(capture, wanted=pcap2pass.Wanted(), **options):
    """Output, messages and exit status of pcap2pass on a capture. The times are left to the tests of times."""
    out, told = io.BytesIO(), []
    status = pcap2pass.convert(pcap2pass.Source(io.BytesIO(capture)), wanted, out, told.append,
                               **{"with_times": False, **options})
    return out.getvalue(), "".join(f"pcap2pass: {message}\n" for message in told), status


def run_program(capture, *options, times=("--no-times",)):
    """The same of the program with options."""
    done = subprocess.run([sys.executable, "-B", loading.path_of("pcap2pass"), *times, *options], input=capture,
                          capture_output=True, check=False)
    return done.stdout, done.stderr.decode(), done.returncode


class Whole(unittest.TestCase):
    def test_each_link_type_and_format(self):
        for name, (link, wrap) in WRAPPINGS.items():
            frames = [wrap(packet) for packet in PACKETS]
            files = {f"pcap {order} {magic:x}": pcap(frames, link, order, magic)
                     for order in "<>" for magic in (0xA1B2C3D4, 0xA1B23C4D)}
            files.update({f"pcapng {order}": pcapng(frames, link, order) for order in "<>"})
            for form, octets in files.items():
                with self.subTest(name=name, form=form):
                    self.assertEqual(run(octets), (PASS, "", 0))

    def test_simple_blocks_sections_and_unknown_blocks(self):
        frames = [ethernet(ipv4(udp(packet))) for packet in PACKETS]
        octets = (section("<") + interface(1, "<") + captures.block(5, bytes(12)) + b"".join(map(simple, frames[:3]))
                  + section(">") + interface(113, ">") + captures.block(0x0BAD, bytes(3), ">") + interface(1, ">")
                  + b"".join(enhanced(frame, ">", which=1) for frame in frames[3:]))
        self.assertEqual(run(octets), (PASS, "", 0))

    def test_a_short_payload_comes_without_the_frame_s_padding(self):
        self.assertEqual(run(pcap([ethernet(ipv4(udp(b"abc")))])), (record(b"P", b"abc"), "", 0))

    def test_an_empty_payload_and_the_longest(self):
        longest = bytes(65507)
        frames = [ethernet(ipv4(udp(b""))), ethernet(ipv4(udp(longest)))]
        self.assertEqual(run(pcap(frames)), (record(b"P") + record(b"P", longest), "", 0))

    def test_another_port(self):
        capture = pcap([ethernet(ipv4(udp(b"here", target=9000))), ethernet(ipv4(udp(b"there")))])
        self.assertEqual(run_program(capture, "--port", "9000"), (record(b"P", b"here"), "", 0))

    def test_out_file_and_named_capture(self):
        with tempfile.TemporaryDirectory() as place:
            capture, out = os.path.join(place, "c.pcap"), os.path.join(place, "p.pass")
            with open(capture, "wb") as file:
                file.write(pcap([ethernet(ipv4(udp(packet))) for packet in PACKETS]))
            self.assertEqual(run_program(b"", "-o", out, capture), (b"", "", 0))
            with open(out, "rb") as file:
                self.assertEqual(file.read(), PASS)


    def test_the_capture_is_not_written_over(self):
        with tempfile.TemporaryDirectory() as place:
            name, octets = os.path.join(place, "capture"), pcap([ethernet(ipv4(udp(b"one")))])
            with open(name, "wb") as file:
                file.write(octets)
            self.assertEqual(run_program(b"", "-o", name, name),
                             (b"", f"pcap2pass: {name}: is the capture, which would be lost\n", 2))
            with open(name, "rb") as file:
                self.assertEqual(file.read(), octets)

    def test_the_program_s_messages_and_status(self):
        self.assertEqual(run_program(b"GIF89a"), (b"", "pcap2pass: broken file: neither pcap nor pcapng: the first "
                                                       "four octets are 47494638\n", 1))
        out, told, status = run_program(b"", "/nowhere/capture")
        self.assertEqual((out, told, status), (b"", "pcap2pass: /nowhere/capture: No such file or directory\n", 1))
        self.assertEqual(run_program(b"", "--port", "65536")[2], 2)

    def test_a_full_disk_is_named(self):
        capture = pcap([ethernet(ipv4(udp(b"one")))])
        self.assertEqual(run_program(capture, "-o", "/dev/full"),
                         (b"", "pcap2pass: /dev/full: No space left on device\n", 1))
        with open("/dev/full", "wb") as full:
            done = subprocess.run([loading.path_of("pcap2pass")], input=capture, stdout=full, stderr=subprocess.PIPE,
                                  check=False)
        self.assertEqual((done.stderr, done.returncode), (b"pcap2pass: standard output: No space left on device\n", 1))


class Skipping(unittest.TestCase):
    def skipped(self, frame, message, link=1, out=b""):
        """`frame` as frame 2 is skipped with a message, or without one; frames 1 and 3 are taken."""
        one, three = ethernet(ipv4(udp(b"one"))), ethernet(ipv4(udp(b"three")))
        if link == captures.RAW:
            one, three = ipv4(udp(b"one")), ipv4(udp(b"three"))
        octets, told, status = run(pcap([one, frame, three], link))
        self.assertEqual((octets, status), (record(b"P", b"one") + out + record(b"P", b"three"), 3 if message else 0))
        first, *rest = told.splitlines(keepends=True) or [""]
        self.assertEqual(first, f"pcap2pass: frame 2: {message}\n" if message else "")
        self.assertEqual(len(rest), 1 if message else 0)
        if message:
            self.assertRegex(rest[0], "^pcap2pass: 3 frames, 2 taken, 1 skipped; [a-z ]+: 1\n$")

    def test_other_ports_and_protocols_silently(self):
        self.skipped(ethernet(ipv4(udp(b"dns", target=53))), "")
        self.skipped(ethernet(ipv4(bytes(20), protocol=6)), "")
        self.skipped(ethernet(ipv6(bytes(20), following=58)), "")
        self.skipped(bytes(12) + b"\x08\x06" + bytes(46), "")

    def test_cut_frames(self):
        frame = ethernet(ipv4(udp(b"x" * 100)))
        self.skipped((frame[:96], len(frame)), "skipped: a UDP length of 108 where 62 octets are there "
                     "(the capture cut this frame)")
        self.skipped((frame[:10], len(frame)), "skipped: the link header is cut short: 10 of 14 octets are there "
                     "(the capture cut this frame)")
        self.skipped((frame[:30], len(frame)), "skipped: the IPv4 header is cut short: 16 of 20 octets are there "
                     "(the capture cut this frame)")

    def test_lengths_that_do_not_fit(self):
        self.skipped(ethernet(ipv4(udp(b"x" * 50, length=7))), "skipped: a UDP length of 7")
        self.skipped(ethernet(ipv4(udp(b"x" * 50, length=59))),
                     "skipped: a UDP length of 59 where 58 octets are there")
        self.skipped(ethernet(ipv4(udp(b"x" * 50), total=10)),
                     "skipped: an IPv4 total length of 10, less than the header's 20")
        self.skipped(b"\x55" + bytes(30), "skipped: an IP packet of version 5", captures.RAW)
        self.skipped(b"", "skipped: the IP packet is cut short: 0 of 1 octets are there", captures.RAW)

    def test_nothing_of_the_port(self):
        self.assertEqual(run(pcap([ethernet(ipv4(udp(b"dns", target=53)))])),
                         (b"", "pcap2pass: no payload of UDP port 7542 in 1 frame\n", 3))

    def test_unknown_link_types(self):
        told = "pcap2pass: frame 1: skipped: link type 105 isn't known\n"
        counted = "pcap2pass: 2 frames, {} taken, {} skipped; unknown link type: {}\n"
        out, messages, status = run(pcap([bytes(60)] * 2, 105))
        self.assertEqual((out, status), (b"", 3))
        self.assertEqual(messages, told + told.replace("frame 1", "frame 2") + counted.format(0, 2, 2)
                         + "pcap2pass: no payload of UDP port 7542 in 2 frames\n")
        mixed = section() + interface(105) + interface(1) + enhanced(bytes(60)) + enhanced(
            ethernet(ipv4(udp(b"one"))), which=1)
        self.assertEqual(run(mixed), (record(b"P", b"one"), told + counted.format(1, 1, 1), 3))

    def test_loopback_of_other_families_and_cut(self):
        frames = [loopback(bytes(40), family=7), loopback(ipv4(udp(b"one"))), b"\2\0\0\0"]
        out, told, status = run(pcap(frames, captures.NULL))
        self.assertEqual((out, status), (record(b"P", b"one"), 3))
        self.assertIn("frame 3: skipped: the link header is cut short: 4 of 5 octets are there\n", told)

    def test_counts_by_reason(self):
        """The first five of a reason are named, one message says that there are more, the last counts all."""
        whole = ethernet(ipv4(udp(b"x" * 100)))
        frames = [ethernet(ipv4(b"x" * 100, fragment=5, ident=ident)) for ident in range(8)] + [(whole[:80], len(whole))] * 2 + [ethernet(ipv4(udp(b"x" * 50, length=7))), whole]
        frames += [ethernet(ipv4(udp(b"dns", target=53)))] * 3 + [ethernet(ipv4(bytes(20), protocol=6))]
        out, told, status = run(pcap(frames))
        lines = told.splitlines()
        self.assertEqual((out, status), (record(b"P", b"x" * 100), 3))
        self.assertEqual(len(lines), 5 + 1 + 2 + 1 + 1)
        self.assertIn("pcap2pass: frame 6: skipped: fragment; more of these are counted, and not named", lines)
        self.assertEqual(lines[-1], "pcap2pass: 16 frames, 1 taken, 11 skipped; cut: 2; fragment: 8; "
                                    "wrong length or version: 1")
        told = run(pcap(frames), with_counts=True)[1]
        self.assertEqual(told.splitlines()[-1], "pcap2pass: 16 frames, 1 taken, 11 skipped; another port: 3; "
                         "another protocol: 1; cut: 2; fragment: 8; wrong length or version: 1")
        self.assertEqual(run(pcap([whole]), with_counts=True)[1], "pcap2pass: 1 frame, 1 taken, 0 skipped\n")


class Fragmented(unittest.TestCase):
    """Packets in fragments: what is put together, and what is told of those that are not."""

    LONG = bytes(number * 7 % 251 for number in range(5000))
    SEGMENT = udp(LONG)

    def packets(self):
        """A long packet in fragments, by IPv4 and IPv6, with extension headers before and behind the fragment's."""
        behind = bytes([17, 0, 1, 4, 0, 0, 0, 0]) + self.SEGMENT  # destination options
        yield "IPv4", fragments4(self.SEGMENT, [1480, 1480, 1480])
        yield "IPv4 with options", fragments4(self.SEGMENT, [8, 1472, 16], options=bytes(12))
        yield "IPv6", fragments6(self.SEGMENT, [1448, 1448, 1448])
        yield "IPv6 behind options", fragments6(self.SEGMENT, [1448, 1448], before=[(0, bytes([0, 1, 4, 0, 0, 0, 0]))])
        yield "IPv6 before options", fragments6(behind, [1448, 1448], following=60)
        yield "IPv6 with the UDP header in the second", fragments6(behind, [8, 1448], following=60)

    def taken(self, frames, *payloads, status=0, told=""):
        self.assertEqual(run(pcap([ethernet(frame) for frame in frames])), (b"".join(record(b"P", one) for one in payloads), told, status))

    def test_in_any_order(self):
        chance = random.Random(7)
        for name, frames in self.packets():
            with self.subTest(name=name):
                self.taken(frames, self.LONG)
                self.taken(frames[::-1], self.LONG)
                for _ in range(5):
                    self.taken(chance.sample(frames, len(frames)), self.LONG)
                self.taken(frames + frames, self.LONG, self.LONG)

    def test_the_record_stands_where_the_last_came(self):
        first, second = fragments4(self.SEGMENT, [2400])
        one, two = ipv4(udp(b"one")), ipv4(udp(b"two"))
        self.taken([first, one, second, two], b"one", self.LONG, b"two")
        out = run(pcap([ethernet(frame) for frame in (first, one, second)]), with_times=True)[0]
        times = [time_of(kind, body) for kind, body in split(out)[0] if kind == b"W"]
        self.assertEqual(times, [1700000001000005000, 1700000002000005000])

    def test_many_at_once(self):
        """Fragments of many packets between each other, of both families and any sizes, each put together by itself."""
        chance = random.Random(8)
        for _ in range(20):
            frames, bodies = [], []
            for ident in range(12):
                body = chance.randbytes(chance.randrange(30, 9000))
                sizes, left = [], len(body)
                while left > 8 and len(sizes) < 20:
                    sizes.append(min(8 * chance.randrange(1, 200), left // 8 * 8))
                    left -= sizes[-1]
                make = chance.choice((fragments4, fragments6))
                sender = "10.0.0.%d" % (ident % 3) if make is fragments4 else "2001:db8::%d" % (ident % 3)
                frames += make(udp(body), sizes, ident=ident // 2, sender=sender)
                bodies.append(body)
            frames += chance.sample(frames, 5) if chance.random() < 0.3 else []
            chance.shuffle(frames)
            out = run(pcapng([ethernet(frame) for frame in frames]))[0]  # all at one time
            self.assertEqual(sorted(body for _, body in split(out)[0]), sorted(bodies))

    def test_repeats_are_no_overlap(self):
        first, second, third = fragments4(self.SEGMENT, [1480, 1480])
        self.taken([first, second, first, second, third], self.LONG)
        self.taken([third, first, third, second], self.LONG)

    def test_overlapping_ones_are_refused(self):
        """Whichever octets were meant, nobody can tell: neither is taken."""
        told = "".join(f"pcap2pass: frame {number}: skipped: of fragments that overlap\n" for number in (1, 2, 3))
        for make in (fragments4, fragments6):
            first, second = make(self.SEGMENT, [2400])
            other = make(self.SEGMENT, [1600])[1]
            changed = make(udp(b"\0" * 5000), [2400])[0]
            for frames in ([first, other, second], [first, changed, second]):
                self.taken(frames, told=told + "pcap2pass: 3 frames, 0 taken, 3 skipped; fragment: 3\n"
                           "pcap2pass: no payload of UDP port 7542 in 3 frames\n", status=3)

    def test_two_ends(self):
        first, second = fragments4(self.SEGMENT, [2400])
        for frames in ([first, second, ipv4(b"x" * 8, fragment=0x2000 | 700)], [ipv4(b"x" * 8, fragment=0x2000 | 700), second, first],
                       [second, ipv4(b"x" * 8, fragment=900)]):
            out, told, status = run(pcap([ethernet(frame) for frame in frames]))
            self.assertEqual(status, 3)
            if frames[0] is first:  # it was whole before
                self.assertEqual(out, record(b"P", self.LONG))
                self.assertIn("frame 3: skipped: a fragment of a UDP packet of which octets never came: 0 to 5599, those from 5608 on", told)
            else:
                self.assertIn("frame 1: skipped: of fragments that differ in where the packet ends\n", told)

    def test_what_is_missing_is_told(self):
        first, second, third = fragments4(self.SEGMENT, [1480, 1480])
        for frames, lacking in (([first, second], "those from 2960 on"), ([first, third], "1480 to 2959"), ([second, third], "0 to 1479"),
                                ([second], "0 to 1479, those from 2960 on")):
            told = "".join(f"pcap2pass: frame {number + 2}: skipped: a fragment of a UDP packet of which octets never came: {lacking}\n"
                           for number in range(len(frames)))
            last = f"pcap2pass: {len(frames) + 1} frames, 1 taken, {len(frames)} skipped; fragment: {len(frames)}\n"
            self.taken([ipv4(udp(b"one")), *frames], b"one", told=told + last, status=3)

    def test_damaged_ones(self):
        for frame, told in ((ipv4(b"x" * 9, fragment=0x2000 | 5), "a fragment of 9 octets that is not the last"),
                            (ipv4(b"x" * 80, fragment=8190), "a fragment that ends at octet 65600: no packet is so long"),
                            (ipv6(b"x" * 9, [(44, struct.pack(">BHI", 0, 41, 9))]), "a fragment of 9 octets that is not the last")):
            out, messages, status = run(pcap([ethernet(frame)]))
            self.assertEqual((out, status), (b"", 3))
            self.assertIn(f"frame 1: skipped: {told}", messages)
        first, second = fragments4(udp(self.LONG, length=7), [2400])
        self.assertIn("frame 2: skipped: a UDP length of 7\n", run(pcap([ethernet(first), ethernet(second)]))[1])
        first, second = fragments4(udp(self.LONG, length=6000), [2400])
        self.assertIn("frame 2: skipped: a UDP length of 6000 where 5008 octets are there\n", run(pcap([ethernet(first), ethernet(second)]))[1])

    def test_cut_by_the_capture(self):
        for make in (fragments4, fragments6):
            first, second = (ethernet(frame, padded=False) for frame in make(self.SEGMENT, [2400]))
            out, told, status = run(pcap([(first[:96], len(first)), second]))
            self.assertEqual((out, status), (b"", 3))
            self.assertIn("frame 1: skipped: the fragment is cut short: 82 of", told)
            self.assertIn("(the capture cut this frame)", told)
            self.assertIn("frame 2: skipped: a fragment of a UDP packet of which octets never came: 0 to 2399", told)

    def test_other_ports_and_protocols_silently(self):
        for segment in (udp(self.LONG, target=53), udp(self.LONG, target=53, length=7)):
            for make in (fragments4, fragments6):
                first, second, third = make(segment, [1480, 1480])
                for frames in ([first, second, third], [second, first, third], [third, second, first]):
                    self.taken([*frames, ipv4(udp(b"one"))], b"one")
                told = run(pcap([ethernet(frame) for frame in (third, first, second)]), with_counts=True)[1]
                self.assertTrue(told.startswith("pcap2pass: 3 frames, 0 taken, 0 skipped; another port: 3\n"), told)
        self.taken([*fragments6(bytes(3000), [1480], following=6), *fragments4(bytes(3000), [1480], protocol=6), ipv4(udp(b"one"))], b"one")
        capture = pcap([ethernet(ipv4(udp(bytes(99), target=53, length=999), fragment=0x2000)),
                        ethernet(ipv4(bytes(99), fragment=13)), ethernet(ipv4(udp(b"one")))])
        self.assertEqual(run(capture), (record(b"P", b"one"), "", 0))
        # The same number again, of the port.
        self.taken([*fragments4(udp(self.LONG, target=53), [1480]), *fragments4(self.SEGMENT, [1480])], self.LONG)

    def test_a_number_used_again_later(self):
        """Fragments over 60 seconds apart are not of one packet."""
        first, second = (ethernet(frame) for frame in fragments4(self.SEGMENT, [2400]))
        for seconds, status in ((60, 0), (61, 3)):
            capture = section() + interface(1) + enhanced(first, time=10**18) + enhanced(second, time=10**18 + seconds * 10**9)
            self.assertEqual(run(capture)[2], status)
        capture = section() + interface(1) + enhanced(first, time=1) + enhanced(first, time=10**12) + enhanced(second, time=10**12)
        out, told, status = run(capture)
        self.assertEqual((out, status), (record(b"P", self.LONG), 3))
        self.assertIn("frame 1: skipped: a fragment of a UDP packet of which octets never came: those from 2400 on\n", told)

    def test_very_many_packets_that_stay_open(self):
        """Of more than 1,024 the oldest is given up."""
        frames = [fragments4(self.SEGMENT, [2400], ident=number)[0] for number in range(1100)]
        last = [fragments4(self.SEGMENT, [2400], ident=number)[1] for number in (76, 75)]
        out, told, status = run(pcapng([ethernet(frame) for frame in frames + last]))
        self.assertEqual((out, status), (record(b"P", self.LONG), 3))
        self.assertEqual(told.splitlines()[-1], "pcap2pass: 1102 frames, 1 taken, 1100 skipped; fragment: 1100; fragments put together: 2")

    def test_counts(self):
        told = run(pcap([ethernet(frame) for frame in fragments4(self.SEGMENT, [2400])]), with_counts=True)[1]
        self.assertEqual(told, "pcap2pass: 2 frames, 1 taken, 0 skipped; fragments put together: 2\n")

    def test_tshark_puts_together_the_same(self):
        program = loading.program(self, "tshark")
        chance = random.Random(9)
        with tempfile.TemporaryDirectory() as place:
            path = os.path.join(place, "capture")
            for name, frames in self.packets():
                octets = pcap([ethernet(frame, padded=False) for frame in chance.sample(frames, len(frames))])
                with open(path, "wb") as file:
                    file.write(octets)
                shown = subprocess.run([program, "-r", path, "-T", "fields", "-e", "udp.payload", "udp.port==7542"],
                                       capture_output=True, check=True, text=True).stdout
                self.assertEqual([bytes.fromhex(line) for line in shown.split()], bodies(run(octets)[0]), name)


class Filters(unittest.TestCase):
    """--from, --to and --port."""

    FRAMES = [ethernet(ipv4(udp(b"there"), sender="10.1.0.1", receiver="10.1.0.2")),
              ethernet(ipv4(udp(b"back", source=7542, target=40000), sender="10.1.0.2", receiver="10.1.0.1")),
              ethernet(ipv6(udp(b"six"), sender="2001:db8::1", receiver="2001:db8::2")),
              ethernet(ipv4(udp(b"far"), sender="10.2.0.1", receiver="10.1.0.2")),
              ethernet(ipv4(udp(b"other", target=9), sender="10.1.0.1", receiver="10.1.0.2"))]

    def taken(self, bodies, *options, status=0):
        out, told, ended = run_program(pcap(self.FRAMES), *options)
        self.assertEqual((out, told if bodies else "", ended), (b"".join(record(b"P", body) for body in bodies), "", status))

    def test_each_filter(self):
        self.taken([b"there", b"back", b"six", b"far"])
        self.taken([b"there"], "--from", "10.1.0.1")
        self.taken([b"there", b"far"], "--to", "10.1.0.2")
        self.taken([b"back"], "--from", "10.1.0.2", "--to", "10.1.0.1")
        self.taken([b"six"], "--from", "2001:DB8:0::1")
        self.taken([b"there", b"back"], "--from", "10.1.0.0/16")
        self.taken([b"there", b"six"], "--from", "10.1.0.1", "--from", "2001:db8::/32")
        self.taken([b"other"], "--port", "9", "--from", "10.1.0.1")

    def test_nothing_left(self):
        out, told, status = run_program(pcap(self.FRAMES), "--from", "10.9.9.9", "--counts")
        self.assertEqual((out, status), (b"", 3))
        self.assertEqual(told, "pcap2pass: 5 frames, 0 taken, 0 skipped; another address: 5\n"
                               "pcap2pass: no payload of UDP port 7542 between the addresses in 5 frames\n")

    def test_fragments_between_other_addresses_are_no_loss(self):
        frames = [ethernet(ipv4(b"x" * 100, fragment=5, sender="10.9.9.9")), self.FRAMES[0],
                  ethernet(ipv6(b"x" * 100, [(44, struct.pack(">BHI", 0, 80, 9))], sender="2001:db8::9"))]
        self.assertEqual(run_program(pcap(frames), "--from", "10.1.0.1"), (record(b"P", b"there"), "", 0))

    def test_wrong_filters(self):
        for option in (("--from", "here"), ("--to", "10.1.0.999"), ("--port", "x"), ("--port", "-1"), ("--port", "65536"),
                       ("--port", "7_0"), ("--from", "")):
            out, told, status = run_program(pcap(self.FRAMES), *option)
            self.assertEqual((out, status), (b"", 2), option)
            self.assertNotIn("Traceback", told)


class Times(unittest.TestCase):
    FRAME = ethernet(ipv4(udp(b"one")))

    def times(self, capture):
        """The time before each packet, None where there is none."""
        times, given = [], None
        for kind, body in split(run(capture, with_times=True)[0])[0]:
            if kind == b"P":
                times.append(given)
            given = time_of(kind, body)
        return times

    def test_pcap(self):
        frames = [self.FRAME, ethernet(ipv4(udp(b"dns", target=53))), self.FRAME]
        self.assertEqual(self.times(pcap(frames)), [1700000000000005000, 1700000002000005000])
        self.assertEqual(self.times(pcap(frames, order=">", magic=0xA1B23C4D)),
                         [1700000000000000005, 1700000002000000005])

    def test_pcapng(self):
        for resolution, time, told in ((9, 1700000000 * 10**9 + 7, 1700000000000000007), (6, 15, 15000),
                                       (0, 3, 3 * 10**9), (0x80 | 10, 1536, 1500000000), (9, 2**64 - 1, 2**64 - 1),
                                       (0xFF, 2**64 - 1, 0), (127, 2**64 - 1, 0), (0, 2**64 - 1, None)):
            capture = section() + interface(1, resolution=resolution) + enhanced(self.FRAME, time=time)
            self.assertEqual(self.times(capture), [told], resolution)
        capture = section() + interface(1, offset=1000) + enhanced(self.FRAME, time=7)
        self.assertEqual(self.times(capture), [1000000000007])
        for offset in (-1000, 2**63 - 1, -2**63):
            capture = section() + interface(1, offset=offset) + enhanced(self.FRAME, time=7)
            self.assertEqual(self.times(capture), [None], offset)
        capture = section() + interface(1) + simple(self.FRAME) + enhanced(self.FRAME, time=10**9)
        self.assertEqual(self.times(capture), [None, 10**9])

    def test_the_program(self):
        timed = bytes.fromhex("5700000008" "17979cfe362a1388") + record(b"P", b"one")
        self.assertEqual(run_program(pcap([self.FRAME]), times=()), (timed, "", 0))
        self.assertEqual(run_program(pcap([self.FRAME])), (record(b"P", b"one"), "", 0))


class Broken(unittest.TestCase):
    def broken(self, capture, message, out=b""):
        self.assertEqual(run(capture), (out, f"pcap2pass: broken file: {message}\n", 1))

    def test_no_capture(self):
        self.broken(b"", "the file is empty")
        self.broken(b"\xd4\xc3", "the file's first four octets: the file ends after 2 of 4 octets, at octet 2")
        self.broken(pcap([])[:-1], "the file's header: the file ends after 19 of 20 octets, at octet 23")
        self.broken(pcap([])[:4], "the file's header: the file ends after 0 of 20 octets, at octet 4")
        self.broken(pcap([]) + bytes(15), "frame 1: its header: the file ends after 15 of 16 octets, at octet 39")
        self.broken(b"GIF89a", "neither pcap nor pcapng: the first four octets are 47494638")

    def test_cut_at_every_octet(self):
        """What stands whole before the cut is converted, and the message names the frame, or there is none."""
        frames = [ethernet(ipv4(udp(packet))) for packet in (b"a" * 30, b"b" * 40)]
        for name, capture in (("pcap", pcap(frames)), ("pcapng", pcapng(frames))):
            ends = []
            for count in (0, 1, 2):
                ends.append(len(pcap(frames[:count]) if name == "pcap" else pcapng(frames[:count])))
            for cut in range(4, len(capture)):
                whole = sum(end <= cut for end in ends[1:])
                boundary = cut in ends or (name == "pcapng" and cut == len(section()))
                out, told, status = run(capture[:cut])
                with self.subTest(name=name, cut=cut):
                    self.assertEqual(out, b"".join(record(b"P", p) for p in (b"a" * 30, b"b" * 40)[:whole]))
                    self.assertEqual(status, (0 if whole else 3) if boundary else 1)
                    if not boundary:
                        self.assertIn("the file ends after", told)
                        if cut > ends[0]:
                            self.assertIn(f"frame {whole + (name == 'pcap')}", told)

    def test_damaged_lengths(self):
        capture = pcap([ethernet(ipv4(udp(b"one")))])
        self.broken(capture[:32] + b"\xff\xff\xff\xff" + capture[36:],
                    "frame 1: its header says 4294967295 octets; no frame has over 262144")
        good = pcapng([ethernet(ipv4(udp(b"one")))])
        self.broken(good + struct.pack("<II", 6, 33) + bytes(33), "block 4, after frame 1: a block of 33 octets",
                    record(b"P", b"one"))
        wrong = good[:-4] + struct.pack("<I", 8)
        self.broken(wrong, f"block 3, after frame 0: its length is {len(good) - len(section() + interface(1))} "
                           "at its start and 8 at its end")
        self.broken(section() + enhanced(bytes(60)),
                    "frame 1: of interface 0, which no block before describes")
        self.broken(section() + interface(1) + captures.block(6, struct.pack("<IIIII", 0, 0, 0, 99, 99) + bytes(8)),
                    "frame 1: 99 octets in a block that has room for 8")

    def test_any_octets_give_an_answer(self):
        """Damaged captures: every one is converted or named as broken, none ends in a traceback."""
        chance = random.Random(611)
        base = [pcap([wrap(p) for p in PACKETS[:4]], link) for link, wrap in WRAPPINGS.values()]
        base += [pcapng([wrap(p) for p in PACKETS[:4]], link) for link, wrap in WRAPPINGS.values()]
        for _ in range(3000):
            octets = bytearray(chance.choice(base))
            for _ in range(chance.randrange(1, 6)):
                octets[chance.randrange(4, min(len(octets), 200))] = chance.randrange(256)
            self.assertIn(run(bytes(octets))[2], (0, 1, 3))


class OtherReaders(unittest.TestCase):
    """tshark or tcpdump read the same payloads from the same captures."""

    def setUp(self):
        self.place = tempfile.TemporaryDirectory()
        self.addCleanup(self.place.cleanup)

    def captures(self):
        for name, (link, wrap) in WRAPPINGS.items():
            frames = [wrap(packet) for packet in PACKETS]
            for form, octets in (("pcap", pcap(frames, link)), ("pcap >", pcap(frames, link, ">", 0xA1B23C4D)),
                                 ("pcapng", pcapng(frames, link)), ("pcapng >", pcapng(frames, link, ">"))):
                if form != "pcapng" and not os.environ.get("SARATOGA_EXTRA"):
                    continue  # each link type in one format is enough for the gate
                path = os.path.join(self.place.name, "capture")
                with open(path, "wb") as file:
                    file.write(octets)
                yield f"{name}, {form}", path, run(octets)[0]

    def test_tcpdump(self):
        program = os.environ.get("TCPDUMP") or loading.program(self, "tcpdump")
        for name, path, passed in self.captures():
            with self.subTest(name=name):
                # -x prints the IP packet; tcpdump finds IP behind links, tags and extensions by its own rules. As
                # root it would change to a user that may not exist.
                user = ["-Z", "root"] if os.geteuid() == 0 else []
                shown = subprocess.run([program, *user, "-n", "-t", "-x", "-r", path], capture_output=True, check=True,
                                       text=True).stdout
                octets, lengths = [], []
                for line in shown.splitlines():
                    hexes = re.match(r"\s+0x[0-9a-f]+:  ([0-9a-f ]+)$", line)
                    if hexes:
                        octets[-1] += bytes.fromhex(hexes.group(1))
                    else:
                        octets.append(b"")
                        lengths.append(int(re.search(r"7542.* UDP, length (\d+)", line).group(1)))
                records = bodies(passed)
                self.assertEqual(lengths, [len(body) for body in records])
                for packet, body in zip(octets, records):
                    padding = packet[packet.rfind(body) + len(body):]
                    self.assertTrue(body in packet and not padding.strip(b"\0"), packet.hex())

    def test_tshark(self):
        program = loading.program(self, "tshark")
        for name, path, passed in self.captures():
            with self.subTest(name=name):
                shown = subprocess.run([program, "-r", path, "-T", "fields", "-e", "udp.payload", "udp.port==7542"],
                                       capture_output=True, check=True, text=True).stdout
                self.assertEqual([bytes.fromhex(line) for line in shown.split()], bodies(passed))


def bodies(passed):
    return [body for _, body in split(passed)[0]]


if __name__ == "__main__":
    unittest.main()
