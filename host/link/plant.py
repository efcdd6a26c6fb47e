"""Tests of the link program as a plant uses it: Ids used again, files taken away, a full table, a full disk, and
packets and files that mean harm. Run by test.py; each function takes the program and an empty directory."""
import concurrent.futures
import hashlib
import os
import random
import re
import resource
import signal
import socket
import struct
import subprocess
import sys
import threading
import time

from harness import PLACE, SANITIZED, SOURCES, at, build, check, content, failing, holds, is_there, page, records, run, stored
from packets import (BUNDLES, END_OF_DATA, STREAMS, UNASKED, WANTED, beacon, data, metadata, record, success, time_record,
                     word)


AT_ONCE = 4  # tests that run beside each other


class Started(threading.local):
    """Processes that a test started. Each thread runs tests of its own."""

    def __init__(self):
        self.processes = []


STARTED = Started()


class Link:
    """The program on a socket of loopback, and a sender beside it."""

    def __init__(self, program, place, *options, sender="127.0.0.1", peer=("--peer", "127.0.0.1"), **environment):
        self.lines, self.told = [], []
        self.process = subprocess.Popen([program, "-d", place, "--udp", "0", *peer, *options], stdout=subprocess.PIPE,
                                        stderr=subprocess.PIPE, env=dict(os.environ, **environment))
        STARTED.processes.append(self.process)
        self.threads = [threading.Thread(target=self.read, args=pair, daemon=True)
                        for pair in ((self.process.stdout, self.lines), (self.process.stderr, self.told))]
        for thread in self.threads:
            thread.start()
        self.wait(lambda: any("listening" in line for line in self.lines))
        line, = [line for line in self.lines if "listening" in line]
        self.port = int(re.search(r"port\W+(\d+)", line)[1])  # of a plain line, or of JSON
        self.socket = socket.socket(socket.AF_INET, socket.SOCK_DGRAM)
        self.socket.bind((sender, 0))
        self.socket.settimeout(1.5 if SANITIZED else 0.5)

    @staticmethod
    def read(stream, lines):
        for line in stream:
            lines.append(line.decode("ascii").rstrip("\n"))

    @staticmethod
    def wait(true):
        for _ in range(500):
            if true():
                return
            time.sleep(0.01)
        check(False, "it didn't happen in 5 seconds")

    def send(self, *packets):
        """Sends packets; gives the answer to the last, None where there is none in half a second."""
        for packet in packets:
            self.socket.sendto(packet, ("127.0.0.1", self.port))
        return self.heard()

    def heard(self):
        try:
            return self.socket.recv(65535)
        except socket.timeout:
            return None

    def drain(self):
        """Drops what was answered up to now, and a moment longer."""
        for _ in range(20):
            if self.heard() is None:
                return

    def quiet_send(self, *packets):
        """Sends packets and drops all answers."""
        for packet in packets:
            self.send(packet)

    def end(self):
        self.socket.close()
        self.process.send_signal(signal.SIGTERM)
        status = self.process.wait(timeout=10)
        for thread in self.threads:
            thread.join(timeout=10)
        self.process.stdout.close()
        self.process.stderr.close()
        return status


def is_complete(answer, length):
    """Whether an answer is a STATUS of success, at width 16, that says that all of a page came."""
    return answer is not None and len(answer) == 12 and answer[:4] == b"\x44\x01\0\0" and (
        struct.unpack(">HH", answer[8:]) == (length, max(length, 1) - 1))


def harmless(lines):
    """Nothing that a terminal would take as a command."""
    return all(0x20 <= ord(char) < 0x7F for line in lines for char in line)


# 1. A new file under a used Id.


def other_metadata():
    """METADATA of Id 7 that differ from the first in one thing each."""
    first = metadata(7, 16, 100, b"a", mtime=5, ctime=6)
    properties = bytearray(first)
    properties[8] |= 0x80
    others = {"path": metadata(7, 16, 100, b"b", mtime=5, ctime=6),
              "mtime": metadata(7, 16, 100, b"a", mtime=4, ctime=6),
              "ctime": metadata(7, 16, 100, b"a", mtime=5, ctime=7), "properties": bytes(properties),
              "checksum": metadata(7, 16, 100, b"a", flags=0x14, checksum=b"\1\2\3\4", mtime=5, ctime=6),
              "size": metadata(7, 16, 101, b"a", mtime=5, ctime=6)}
    return first, others


def used_again(program, place):
    """Old and new octets never mix, and nothing is thrown away."""
    first, others = other_metadata()
    old = page(100, 21)
    for name, other in others.items():
        for got in (50, 100):
            here = os.path.join(place, f"{name}{got}")
            os.mkdir(here)
            new = page(101 if name == "size" else 100, 22)
            before = records([first, first, data(7, 16, 0, old[:got], WANTED)])
            after = records([other, data(7, 16, 40, new[40:], WANTED), other, data(7, 16, 0, new[:40], WANTED)])
            if got == 50:  # with a restart between
                run(program, here, "-", octets=before)
                lines, told, status = run(program, here, "-", octets=after)
            else:
                lines, told, status = run(program, here, "-", octets=before + after)
            check(status == 0, told)
            check(any("close id=7 other-metadata" in line for line in lines), f"{name}: {lines}")
            check(content(here, "00000007.2.page") == new, f"another {name}: the page is a mixture")
            kept = "00000007.aside" if got == 50 else "00000007.page"
            check(content(here, kept) == old[:got], f"another {name}: what was there is gone")
            check(got == 100 or "00000007.1.aside" in told, f"nothing was said: {told}")
            check(sum(" complete id=7 " in line for line in lines) == (1 if got == 50 else 2), lines)


def no_crc_32c(program, place):
    """A new page with a CRC-32c is refused and told in words, once; what is open goes on, also where such METADATA has its Id."""
    unwanted = {"flags": 0x11, "checksum": b"\1\2\3\4"}
    whole = page(100, 25)
    lines, told, status = run(program, place, "-", octets=records(
        [metadata(7, 16, 100, b"a", **unwanted), metadata(7, 16, 100, b"a", **unwanted), data(7, 16, 0, whole[:50], WANTED),
         metadata(8, 16, 100, b"b"), data(8, 16, 0, whole[:50]), metadata(8, 16, 100, b"c", **unwanted), data(8, 16, 50, whole[50:])]))
    refused = [line for line in lines if " refused " in line]
    check(status == 0 and refused == ["1 refused 23 code=1", "2 refused 23 code=1", "3 refused 12 code=6", "6 refused 23 code=1"], lines)
    check("1 send 4400000100000007" in lines and "6 send 4400000100000008" in lines, lines)
    check(told.count("transfer 7 is refused: new transfer with a CRC-32c") == 1 and told.count("transfer 8 is refused") == 1, told)
    check(content(place, "00000008.page") == whole, "an open page does not go on")
    # A transfer whose file is gone is closed all the same, and nothing is opened in its place.
    link = Link(program, place)
    link.quiet_send(metadata(10, 16, 100, b"d"), data(10, 16, 0, whole[:50], WANTED))
    os.remove(at(place, "0000000a.part"))
    check(link.send(metadata(10, 16, 100, b"d", **unwanted)) == bytes.fromhex("440000010000000a"), link.lines)
    check(link.end() == 0 and 10 not in stored(place), "a transfer is open whose file is gone")
    check(any("close id=10 lost" in line for line in link.lines), link.lines)


def two_files_of_one_id():
    """For the tests that end the program: half a file, then another of the same Id and length."""
    originals = {7: {"a": page(100, 23), "b": page(100, 24)}}
    packets = []
    for name, chunks in (("a", ((0, 30), (60, 80))), ("b", ((50, 100), (0, 50)))):
        packets.append(metadata(7, 16, 100, name.encode()))
        packets += [data(7, 16, start, originals[7][name][start:stop], WANTED) for start, stop in chunks]
    return originals, records(packets)


def no_mixture(place, originals):
    """Each page is one of the files, and so is what was set aside, as far as it came."""
    for name in os.listdir(place):
        known = originals[int(name[:8], 16)] if name.endswith((".page", ".aside")) else None
        files = [known] if isinstance(known, bytes) else known[:1] if isinstance(known, tuple) else list((known or {}).values())
        if name.endswith(".page"):
            check(content(place, name) in files, f"{name} is a mixture")
        if name.endswith(".aside"):
            kept = content(place, name)
            check(any(all(octet in (0, original[at]) for at, octet in enumerate(kept))
                      for original in files), f"{name} is a mixture")


# 2. A page that was reported.


def never_overwritten(program, place):
    old, new = page(40, 25), page(40, 26)
    emptied = [metadata(ident, 16, 0) for ident in range(100, 116)]
    packets = [metadata(7, 16, 40), data(7, 16, 0, old), *emptied, metadata(7, 16, 40), data(7, 16, 0, new)]
    lines, told, status = run(program, place, "-", octets=records(packets))
    check(status == 0, told)
    check(content(place, "00000007.page") == old, "a page that was reported was written over")
    check(content(place, "00000007.2.page") == new and any("file=00000007.18.page" in line for line in lines), lines)
    check("path=page611.pla" in content(place, "00000007.meta").decode(), "its .meta is gone")


# 3. A file that is gone.


def taken_away(program, place):
    text = page(100, 27)
    opening = metadata(7, 16, 100)
    link = Link(program, place)
    for harm in (os.remove, lambda part: os.truncate(part, 20), lambda part: (os.remove(part), open(part, "wb").close())):
        link.quiet_send(opening, data(7, 16, 50, text[50:], WANTED))
        harm(at(place, "00000007.part"))
        # Half of it is gone, so nobody may say that all of it is there.
        first, second = data(7, 16, 0, text[:30], WANTED), data(7, 16, 30, text[30:50], WANTED)
        check(not is_complete(link.send(first), 100) and not is_complete(link.send(second), 100), "said to be complete")
        check(not any(name.endswith(".page") for name in os.listdir(place)), "a page")
        link.wait(lambda: not stored(place).get(7) and not is_there(place, "00000007.part") and is_there(place, "00000007.sheet"))
        for name in os.listdir(place):
            if name.startswith("00000007"):
                os.remove(os.path.join(place, name))
    # It starts anew.
    link.quiet_send(opening, data(7, 16, 50, text[50:], WANTED))
    check(is_complete(link.send(data(7, 16, 0, text[:50], WANTED)), 100), "not complete")
    check(link.end() == 0, link.told)
    check(content(place, "00000007.page") == text, "the page")
    check(sum("must begin anew" in line for line in link.told) == 3, link.told)


# 4. A full table, the operator, and who is heard.


def full_table(program, place):
    text = page(20, 28)
    packets = [metadata(ident, 16, 20) for ident in range(16)] + [data(0, 16, 0, text[:5]), metadata(0, 16, 20)]
    packets += [metadata(16, 16, 20), data(16, 16, 0, text), metadata(17, 16, 20), metadata(18, 16, 20)]
    lines, told, status = run(program, place, "--make-room", "-", octets=records(packets))
    check(status == 0, told)
    closed = [line.split(" ", 1)[1] for line in lines if " close " in line]
    # Id 0 was heard last, so 1 goes; 16 is complete, so it goes next; then 2.
    check(closed == [f"close id={ident} to-make-room recordings={took} absorbed=0 runs={took}"
                     for ident, took in ((1, 0), (16, 1), (2, 0))], closed)
    packets = [data(ident, 16, 0, text[:5]) for ident in range(3, 16)] + [metadata(19, 16, 20)]
    lines, told, status = run(program, place, "--make-room", "-", octets=records(packets))
    check("kept as" in told and content(place, "00000000.aside") == text[:5], told)


def operator(program, place):
    text = page(100, 29)
    link = Link(program, place, "--largest", "100")
    link.quiet_send(metadata(31, 16, 100, b"\x1b[2J evil"), data(31, 16, 0, text[:40], WANTED))
    for form in ("31", "id=31", "0x1f", "0000001f.4.part", "0000001f.5.meta"):
        lines, told, status = run(program, place, "--list")
        check((told, status, len(lines)) == ("", 0, 1), (lines, told))
        check(lines[0].startswith("id=31 width=16 length=100 edge=40 runs=1 complete=0 file=0000001f") and
              lines[0].endswith("path=\\x1b[2J\\x20evil"), lines)
        got = run(program, place, "--close", form)
        check(got == (["0 close id=31 asked"], "", 0), got)
        check(run(program, place, "--list") == ([], "", 0), "still open")
        check(31 not in stored(place), "still open")
        link.quiet_send(metadata(31, 16, 100, b"\x1b[2J evil"), data(31, 16, 0, text[:40], WANTED))
    check(sorted(name for name in os.listdir(place) if name.endswith(".aside")) ==
          [f"0000001f.{number}.aside" for number in range(1, 6)],
          os.listdir(place))
    check(run(program, place, "--close", "32")[1:] == ("saratoga-link: transfer 32 isn't open\n", 1), "32")
    for form in ("", "0000001f", "031", "1f", "id=", "0x", "0x1g", "4294967296", "31 ", "-1", "0000001f.", "0000001f.x",
                 "0000001f.6.part/../x", "0000001f.06.part", "0000001f.part", "0000001f.1.page", "0000001f.5.aside"):
        check(run(program, place, "--close", form)[2] in (1, 2) and 31 in stored(place), f"taken as an Id: {form!r}")
    # By hand; what is no Id is told, and does no harm.
    for asked in (b"\x1b]0;x\x07%s%n\n", b"x" * 200, b"\0\n"):
        with open(os.path.join(place, "close"), "wb") as file:
            file.write(asked)
        link.wait(lambda: not os.path.exists(os.path.join(place, "close")))
    with open(os.path.join(place, "close"), "w", encoding="ascii") as file:
        file.write("31\n")
    link.wait(lambda: 31 not in stored(place))
    check(link.end() == 0 and harmless(link.lines + link.told), link.told)
    check(any("no Id: \\x1b]0;x\\x07%s%n" in line for line in link.told), link.told)


def who_is_heard(program, place):
    got = run(program, place, "--udp", "0")
    check(got[2] == 2 and "needs either --peer or --any-peer" in got[1], got)
    check(run(program, place, "--udp", "0", "--peer", "localhost")[2] == 2, "a name is taken")
    for peer, sender, heard in ((("--peer", "127.0.0.2"), "127.0.0.1", False), (("--any-peer",), "127.0.0.1", True),
                                (("--peer", "::1", "--peer", "127.0.0.1"), "127.0.0.1", True)):
        here = os.path.join(place, "-".join(peer).replace("-", "").replace(":", ""))
        os.mkdir(here)
        link = Link(program, here, peer=peer, sender=sender)
        answer = [link.send(metadata(ident, 16, 9)) for ident in range(3)][-1]
        check((answer is not None) == heard and (len(stored(here)) == 3) == heard, f"{peer}: {answer}")
        check(link.end() == 0, link.told)
        check(heard or "3 packets of senders that --peer doesn't name were dropped" in link.told[-1], link.told)


def kept(program, place):
    """A sender that opens one transfer after the other can't fill a directory without end."""
    text = page(20, 34)
    for ident in range(0x10000, 0x10000 + 9998):
        open(os.path.join(place, f"{ident:08x}.1.meta"), "wb").close()
    packets = [metadata(7, 16, 20), metadata(8, 16, 20), data(7, 16, 0, text[:5]), metadata(9, 16, 20),
               metadata(7, 16, 20, b"other"), metadata(10, 16, 0), metadata(7, 16, 20), data(7, 16, 5, text[5:])]
    lines, told, status = run(program, place, "-", octets=records(packets))
    check(status == 0, told)
    check([line for line in lines if "too-many" in line] ==
          ["4 too-many id=9 code=3", "5 too-many id=7 code=3", "6 too-many id=10 code=3"], lines)
    check("4 send 4400000300000009" in lines and "7 open id=7 width=16 length=20 edge=5 complete=0 already-open" in lines,
          lines)
    # What was open goes on, and nothing was ended for what isn't taken.
    check(content(place, "00000007.page") == text and not any(name.endswith(".aside") for name in os.listdir(place)), lines)
    check(not any(name.startswith(("00000009", "0000000a", "00000007.3")) for name in os.listdir(place)), "files are made")
    check(told.count("has the files of 10000 transfers; no new one is opened") == 1 and told.count("\n") == 1, told)
    # Room is made by hand, or by the option.
    os.remove(at(place, "00010000.meta"))
    lines, told, status = run(program, place, "-", octets=records([metadata(9, 16, 20), metadata(10, 16, 20)]))
    check("1 open id=9 width=16 length=20 edge=0 complete=0 new" in lines and "2 too-many id=10 code=3" in lines, lines)
    lines, told, status = run(program, place, "--most-kept=10001", "-", octets=records([metadata(10, 16, 20)]))
    check("1 open id=10 width=16 length=20 edge=0 complete=0 new" in lines and told == "", (lines, told))


def two_senders(program, place):
    """Two senders that use one Id: no page is a mixture of their files."""
    texts = page(100, 36), page(100, 37)
    link = Link(program, place, peer=("--peer", "127.0.0.1", "--peer", "127.0.0.2"))
    other = socket.socket(socket.AF_INET, socket.SOCK_DGRAM)
    other.bind(("127.0.0.2", 0))
    other.settimeout(0.25)

    def sent(which, packet):
        sender = (link.socket, other)[which]
        sender.sendto(packet, ("127.0.0.1", link.port))
        try:
            return sender.recv(65535)
        except socket.timeout:
            return None

    def opening(which):
        return metadata(7, 16, 100, b"ab"[which:which + 1])

    def half(which, start):
        return data(7, 16, start, texts[which][start:start + 50], WANTED)

    sent(0, opening(0)), sent(0, half(0, 0))
    sent(1, opening(1))
    check(sent(0, half(0, 50)) == bytes.fromhex("4400000600000007"), "DATA of another sender is taken")
    sent(1, half(1, 0))
    check(sent(0, half(0, 50)) == bytes.fromhex("4400000600000007"), "DATA of another sender is taken")
    check(is_complete(sent(1, half(1, 50)), 100), link.lines)
    link.wait(lambda: holds(place, "00000007.2.page", texts[1]))
    check(content(place, "00000007.aside") == texts[0][:50], "what the first had")
    link.wait(lambda: "6 of-another-sender id=7 code=6" in link.lines)
    # The first begins anew, also from another place: METADATA tells whose the Id is.
    sent(1, opening(0)), sent(0, opening(0)), sent(0, half(0, 0))
    check(is_complete(sent(0, half(0, 50)), 100), link.lines)
    link.wait(lambda: holds(place, "00000007.3.page", texts[0]))
    other.close()
    check(link.end() == 0, link.told)


# 5. What is known of a page.


def what_is_known(program, place):
    evil = b"../../etc/passwd\n\x1b]0;x\x07 %s%n\\\x7f\x80\xff\r"
    shown = "../../etc/passwd\\x0a\\x1b]0;x\\x07\\x20%s%n\\x5c\\x7f\\x80\\xff\\x0d"
    digest = hashlib.md5(b"12345").digest()
    packet = metadata(31, 32, 5, evil, flags=0x42, checksum=digest, mtime=847944000, ctime=2**32 - 1)
    lines, told, status = run(program, place, "-", octets=records([packet, data(31, 32, 0, b"12345")]))
    check((told, status) == ("", 0) and harmless(lines), (lines, told))
    known = f"mtime=2026-11-14T04:00:00Z ctime=2136-02-07T06:28:15Z checksum=2:{digest.hex()} path={shown}"
    check(f"2 complete id=31 length=5 file=0000001f.1.page recordings=1 absorbed=0 runs=1 md5=agrees {known}" in lines, lines)
    check(content(place, "0000001f.meta").decode() == "saratoga-meta 2\nid=31\nflags=400042\nwidth=32\nlength=5\nproperties=0040\n" +
          known.replace(" ", "\n") + "\n", content(place, "0000001f.meta"))
    check(run(program, place, "-q", "-")[0] ==
          [f"0 complete id=31 length=5 file=0000001f.1.page recordings=0 absorbed=0 runs=1 md5=agrees {known}"], "restarted")
    # The longest path, each octet of it to be escaped, and the longest checksum.
    packet = metadata(32, 64, 0, b"\xff" * 1023, flags=0xFF, checksum=b"\xfe" * 60, mtime=2**32 - 1, ctime=2**32 - 1)
    lines, told, status = run(program, place, "-", octets=records([packet, packet]))
    check((told, status) == ("", 0) and any(line.endswith("\\xff" * 1023) for line in lines), told)
    check(any(line.endswith("already-open") for line in lines), "not the same as itself")
    check(run(program, place, "--list")[0][1].endswith("path=" + "\\xff" * 1023), "the list")


# 6. Sixty-four runs.


def runs(program, place):
    chance = random.Random(616)
    opening = metadata(7, 32, 20000)
    came = {at for at in range(20000) if chance.random() >= 0.01}
    sent = [opening] + [data(7, 32, at, b"x") for at in sorted(came)]
    for option, answered in ((), "44000003"), (("--repair-status",), "44410000"):
        here = os.path.join(place, str(len(option)))
        os.mkdir(here)
        lines, told, status = run(program, here, "--no-fsync", *option, "-", octets=records(sent))
        check(status == 0, told)
        at = min(number for number, line in enumerate(lines) if " refused 16 " in line)
        answer = lines[at + 1].split()
        check(answer[1] == "send" and answer[2].startswith(answered), answer)
        check(not option or len(answer[2]) == 2 * (16 + 8 * 63), answer)  # the 63 holes of 64 runs
        check(4000 < int(lines[at].split()[0]) < 9000, lines[at])
    # With a repair after each 4,000 nothing is refused.
    sent, here = [opening], os.path.join(place, "windows")
    os.mkdir(here)
    for start in range(0, 20000, 4000):
        window = range(start, start + 4000)
        sent += [data(7, 32, at, b"x") for at in window if at in came]
        sent += [data(7, 32, at, b"x") for at in window if at not in came]
    lines, told, status = run(program, here, "--no-fsync", "-", octets=records(sent))
    check(status == 0 and not any(" refused " in line for line in lines), told)
    check(content(here, "00000007.page") == b"x" * 20000, "not complete")
    check(subprocess.run([sys.executable, os.path.join(PLACE, "runs.py"), "--check"], check=False).returncode == 0,
          "docs/LINK.md doesn't hold the figures of runs.py")


# 7. and 8. Who is answered.


def answers(program, place):
    link = Link(program, place)
    check(link.send(metadata(7, 16, 9)) == bytes.fromhex("440100000000000700000000"), "METADATA isn't answered")
    check(link.send(metadata(7, 16, 9)) == bytes.fromhex("440100000000000700000000"), "already open isn't answered")
    check(is_complete(link.send(metadata(8, 16, 0)), 0), "an empty page isn't answered")
    check(is_complete(link.send(data(7, 16, 0, b"123456789", END_OF_DATA)), 9), "completion isn't told")
    check(is_complete(link.send(data(7, 16, 0, b"123456789")), 9), "DATA of a complete page isn't answered")
    link.send(metadata(9, 16, 9))
    check(link.send(data(9, 16, 0, b"1234")) is None, f"answered without need:{link.lines}")
    # A packet that is refused with a code is answered to octets 4 to 7, if it has them; a BEACON never is.
    for kind in (1, 5, 6, 31, 63):
        check(link.send(word(kind, 0) + b"evil") == b"\x44\0\0\x0aevil", f"type {kind} isn't answered")
        check(link.send(word(kind, 0) + b"evi") is None, f"type {kind} of 7 octets is answered")
    check(link.send(word(0, 0) + b"evil" * 5) is None, "BEACON is answered")
    check(link.send(beacon(b"", free=2**64, free_width=128)) is None, "BEACON refused with a code is answered")
    check(link.end() == 0, link.told)


def unsendable(program, place):
    """`program` is built with nospace.c. A sender to whom nothing can be sent doesn't fill the log."""
    marker = os.path.join(os.path.dirname(place), "nospace")
    link = Link(program, place, NOSPACE=marker)
    with open(marker, "w", encoding="ascii") as file:
        file.write("s")
    check([link.send(metadata(ident, 16, 9)) for ident in range(5)] == [None] * 5, "answered")
    os.remove(marker)
    check(link.send(metadata(0, 16, 9)) is not None, "not answered")
    check(link.end() == 0, link.told)
    check([line for line in link.told if "sent" in line] == [
        "saratoga-link: packet 1: the answer can't be sent: Invalid argument; of more only the number is told, at the end",
        "saratoga-link: 5 answers could not be sent"], link.told)


def many_holes(program, place):
    """A STATUS with as many holes as a packet can have costs no more than others, and its line has a bound."""
    holes = [(3 * at, 3 * at + 1) for at in range(8000)]
    packet = success(7, 32, 0, 24000, holes)
    shown = ",".join(f"{start}-{stop}" for start, stop in holes[:64])
    lines, told, status = run(program, place, "-", octets=records([packet] * 400))
    check(status == 0 and len(lines) == 400, told)
    check(lines[-1] == "400 success id=7 flags=400000 width=32 timestamp= progress=0 in-response-to=24000 holes=" + shown +
          ",.. hole-count=8000", lines[-1][:200])
    last = 2**64 - 1
    most = success(7, 64, last - 200, last, [(last - 200 + 2 * at, last - 199 + 2 * at) for at in range(64)])
    lines, told, status = run(program, place, "-", octets=records([most]))
    check(len(lines[0]) < 3200 and lines[0].endswith(f"{last - 74}-{last - 73}"), lines)
    for width in (16, 64, 128):
        lines, told, status = run(program, place, "-", octets=records([success(7, width, 1, 9, [(1, 2), (3, 2**16 - 1)][:1])]))
        check(lines[-1].endswith("holes=1-2"), lines)


# 9. No room.


def no_room(program, place):
    """`program` is built with nospace.c."""
    text, marker = page(100, 30), os.path.join(os.path.dirname(place), "nospace")

    def full(calls):
        if calls:
            with open(marker, "w", encoding="ascii") as file:
                file.write(calls)
        elif os.path.exists(marker):
            os.remove(marker)

    for calls in ("w", "f", "r", "o", "wfro"):
        here = os.path.join(place, calls)
        os.mkdir(here)
        link = Link(program, here, NOSPACE=marker)
        link.quiet_send(metadata(7, 16, 100), data(7, 16, 0, text[:20], WANTED))
        full(calls)
        packets = [data(7, 16, 20, text[20:40], WANTED), metadata(8, 16, 5), metadata(7, 16, 100, b"other"),
                   data(7, 16, 40, text[40:], WANTED), data(7, 16, 20, text[20:], WANTED)]
        for packet in packets:
            answer = link.send(packet)
            check(not is_complete(answer, 100), f"complete on a full disk: {calls}")
            check(not answer or answer[7:8] != b"\7" or struct.unpack(">H", answer[10:12])[0] <= 20, answer)
        check(link.process.poll() is None, f"a full disk ends the program: {link.told}")
        check(sum("can't be stored" in line for line in link.told) == 1, link.told)
        # Killed, and started again on the full disk.
        link.process.kill()
        link.process.wait()
        link.end()
        nothing = run(program, here, "-q", "-", NOSPACE=marker)
        check(nothing[2] in (0, 1) and "counts as lost\n" not in nothing[1], f"a full disk ends the program at its start: {nothing}")
        link = Link(program, here, NOSPACE=marker)
        full("")
        link.quiet_send(metadata(7, 16, 100), data(7, 16, 0, text[:50], WANTED))
        check(is_complete(link.send(data(7, 16, 50, text[50:], WANTED)), 100), f"no way back: {link.told}")
        check(link.end() in (0, 1) and content(here, "00000007.page") == text, link.told)


def work_without_room(program, place):
    """`program` is built with nospace.c. What was recorded and counts as lost is not counted at the page's end."""
    text, marker = page(100, 34), os.path.join(os.path.dirname(place), "nospace")
    link = Link(program, place, NOSPACE=marker)
    link.quiet_send(metadata(7, 16, 100), data(7, 16, 0, text[:20], WANTED))
    with open(marker, "w", encoding="ascii") as file:
        file.write("r")  # the payload is written, the packet is recorded, and then the area can't be saved
    before = success(7, 16, 20, 20)  # what was said before may be said again
    check(link.send(data(7, 16, 60, text[60:], WANTED)) in (None, before), link.lines)
    link.wait(lambda: any("can't be stored" in line for line in link.told))
    os.remove(marker)
    link.drain()
    link.socket.settimeout(2)  # after a sync that failed the next one waits
    link.quiet_send(data(7, 16, 40, text[40:], WANTED), data(7, 16, 0, text[:20], WANTED))
    check(is_complete(link.send(data(7, 16, 20, text[20:40], WANTED)), 100), link.told)
    check(link.end() == 1 and content(place, "00000007.page") == text, link.told)
    # 0 to 19, 40 to 99, 0 to 19 again, and what is between: four packets, of which the repeat absorbs one run and the last two.
    told = [line for line in link.lines if " complete id=7 " in line]
    check(len(told) == 1 and " recordings=4 absorbed=3 runs=1 " in told[0], link.lines)


def no_room_for_a_name(program, place):
    """`program` is built with nospace.c. A complete page waits for its sheet and its name, and isn't said to be complete before;
    and so does one that differs from its checksum."""
    text, marker, said_complete = page(100, 33), os.path.join(os.path.dirname(place), "nospace"), success(7, 16, 100, 99, flags=UNASKED)
    for calls, differs in (("p", 0), ("d", 0), ("h", 0), ("p", 1)):
        here = os.path.join(place, f"{calls}{differs}")
        os.mkdir(here)
        link = Link(program, here, NOSPACE=marker)
        link.quiet_send(metadata(7, 16, 100, flags=0x42, checksum=bytes(16)) if differs else metadata(7, 16, 100),
                        data(7, 16, 0, text[:20], WANTED))
        with open(marker, "w", encoding="ascii") as file:
            file.write(calls)
        for _ in range(2):  # all of it is on disk, and its sender may know; but it isn't reported
            check(not is_complete(link.send(data(7, 16, 20, text[20:], WANTED)), 100) or not differs, "complete, and differs")
        check(not any(" complete id=7 " in line or " differs id=7 " in line for line in link.lines), link.lines)
        link.drain()
        check(link.send(metadata(7, 16, 100, b"other")) in (None, said_complete), "ended while its page waits")
        os.remove(marker)
        said, name, status = (" differs id=7 ", "00000007.differs", 3) if differs else (" complete id=7 ", "00000007.page", 1)
        link.wait(lambda: any(said in line for line in link.lines))
        answer = link.send(data(7, 16, 20, text[20:], WANTED))
        check(answer == bytes.fromhex("4400000600000007") if differs else is_complete(answer, 100), link.lines)
        check(link.end() == status and content(here, name) == text, link.told)
        check(sum("can't be stored" in line for line in link.told) == 1, link.told)
        check(sum(said in line for line in link.lines) == 1, link.lines)
        check(sum("ERROR" in line for line in link.told) == 2 * differs, link.told)


def limits(program, place):
    """A limit on the size of files, and lines that nobody reads."""
    text = page(60000, 31)
    packets = [metadata(7, 16, 60000), data(7, 16, 0, text[:30000], WANTED), data(7, 16, 30000, text[30000:], WANTED)]
    done = subprocess.run([program, "-d", place, "-"], input=records(packets), capture_output=True, check=False,
                          preexec_fn=lambda: resource.setrlimit(resource.RLIMIT_FSIZE, (40000, 40000)))
    check(done.returncode == 1 and b"File too large" in done.stderr and b"3 lost " in done.stdout, done)
    check(stored(place)[7] == (60000, [(0, 30000)]), stored(place))
    with open("/dev/full", "wb") as nowhere:
        done = subprocess.run([program, "-d", place, "-q", "-"], input=records(packets), stdout=nowhere,
                              stderr=subprocess.PIPE, check=False)
    check(done.returncode == 1 and b"standard output can't be written" in done.stderr, done)
    check(content(place, "00000007.page") == text, "the page")
    # A reader that ends.
    again = [metadata(8, 16, 60000), *[data(8, 16, at, text[at:at + 100]) for at in range(0, 60000, 100)]]
    reading, writing = os.pipe()
    os.close(reading)
    done = subprocess.run([program, "-d", place, "-"], input=records(again), stdout=writing, stderr=subprocess.PIPE,
                          check=False)
    os.close(writing)
    check(done.returncode == 1 and done.stderr.count(b"standard output can't be written") == 1, done)
    check(content(place, "00000008.page") == text, "a reader that ends, ends the program")


def stopped(program, place):
    """A signal while the program waits for more of a pass: what came is kept, and that is no error."""
    text = page(100, 35)
    for rest in (b"", record(b"P", b"x" * 50)[:3], record(b"P", b"x" * 50)[:-20]):
        here = os.path.join(place, str(len(rest)))
        os.mkdir(here)
        process = subprocess.Popen([program, "-d", here, "-q", "-"], stdin=subprocess.PIPE, stdout=subprocess.PIPE,
                                   stderr=subprocess.PIPE)
        STARTED.processes.append(process)
        process.stdin.write(records([metadata(7, 16, 100), data(7, 16, 0, text[:40])]) + rest)
        process.stdin.flush()
        Link.wait(lambda: is_there(here, "00000007.part") and len(content(here, "00000007.part")) == 40)
        time.sleep(0.2)
        process.send_signal(signal.SIGTERM)
        status = process.wait(timeout=10)
        told = process.stderr.read().decode()
        for stream in (process.stdin, process.stdout, process.stderr):
            stream.close()
        check((status, told) == (0, ""), (status, told))
        check(stored(here)[7] == (100, [(0, 40)]), stored(here))


# 10. Who is on the air.


def on_air(program, place):
    """BEACONs of a pass: what is told, and what isn't."""
    def line(number, send, receive, free, endpoint, largest=64):
        return f'{number} on-air send={send} receive={receive} free={free} largest-width={largest} endpoint={endpoint}'

    told_once = beacon(b"dish 3", 64, "willing", "not-now", 7)
    packets = [told_once, told_once,
               beacon(b"dish 3", 32, "willing", "not-now", 7, 64, STREAMS | BUNDLES),  # neither willingness nor free space
               beacon(b"dish 3", 64, "willing", "willing", 7), beacon(b"dish 3", 64, "not-now", "willing", 7),
               beacon(b"dish 3", 64, "not-now", "willing", 8), beacon(b"dish 3", 64, "not-now", "willing"),
               beacon(b"dish 3", 64, "not-now", "willing", 0), beacon(b""), beacon(b""), beacon(b"dish", 128),
               told_once, bytes.fromhex("40040000"), beacon(b"dish 3", free=2**64, free_width=128), bytes.fromhex("400000"),
               beacon(b"dish 3", 64, "willing", "not-now", 2**64 - 1, 128)]
    lines, told, status = run(program, place, "-", octets=records(packets))
    check((told, status) == ("", 0), told)
    check(lines == [line(1, "willing", "not-now", 7, '"dish 3"'), line(4, "willing", "willing", 7, '"dish 3"'),
                    line(5, "not-now", "willing", 7, '"dish 3"'), line(6, "not-now", "willing", 8, '"dish 3"'),
                    line(7, "not-now", "willing", "", '"dish 3"'), line(8, "not-now", "willing", 0, '"dish 3"'),
                    line(9, "cannot", "cannot", "", '""'), line(11, "cannot", "cannot", "", '"dish"', 128),
                    line(12, "willing", "not-now", 7, '"dish 3"'), "13 refused 26 code=0", "14 refused 5 code=9",
                    "15 refused 1 code=0", line(16, "willing", "not-now", 2**64 - 1, '"dish 3"')], lines)
    check(run(program, place, "-q", "-", octets=records(packets)) == ([], "", 0), "--quiet")

    # No octet of an endpoint commands a terminal, and different endpoints are different texts.
    evil = b"\x1b]0;x\x07 \"%s%n\\\x00\x7f\x80\xff\r\n1 complete id=7"
    lines, told, status = run(program, place, "-", octets=records([beacon(evil), beacon(b"x" * 255), beacon(b"\xff" * 65531)]))
    check((told, status) == ("", 0) and harmless(lines) and len(lines) == 3, (lines, told))
    check(lines[0] == line(1, "cannot", "cannot", "", r'"\x1b]0;x\x07 \x22%s%n\x5c\x00\x7f\x80\xff\x0d\x0a1 complete id=7"'),
          lines[0])
    check(lines[1].endswith('endpoint="' + "x" * 255 + '"'), lines[1])
    check(lines[2].endswith('"' + r"\xff" * 255 + '" endpoint-length=65531') and len(lines[2]) < 1200, lines[2])
    every = [beacon(bytes([octet])) for octet in range(256)]
    lines = [told for at in range(0, 256, 64) for told in run(program, place, "-", octets=records(every[at:at + 64]))[0]]
    check(harmless(lines) and len({text.split(" endpoint=")[1] for text in lines}) == 256, lines)

    # A page goes on between them.
    text = page(20, 61)
    packets = [metadata(7, 16, 20), told_once, data(7, 16, 0, text[:9]), beacon(b"x"), data(7, 16, 9, text[9:])]
    lines, told, status = run(program, place, "-", octets=records(packets))
    check(any(" complete id=7 length=20 " in text for text in lines) and content(place, "00000007.page") == text, lines)


def too_many_on_air(program, place):
    """Endpoints without end, and one that never keeps still: what is printed stays small, and others are still heard."""
    many = [beacon(b"dish %d" % number) for number in range(64)]
    lines, told, status = run(program, place, "-", octets=records(many + [beacon(b"other %d" % n) for n in range(900)] + many))
    check(len(lines) == 64 and status == 0, lines[64:])
    check(told == "saratoga-link: more than 64 endpoints are on the air; of the others only the number of BEACONs is told, at "
          "the end\nsaratoga-link: 900 BEACONs of further endpoints were heard\n", told)

    link = Link(program, place)
    for number in range(300):
        link.socket.sendto(beacon(b"restless", free=number), ("127.0.0.1", link.port))
        time.sleep(0.001)  # so that none is lost
    check(link.send(beacon(b"calm", 64, "willing")) is None, "a BEACON is answered")
    link.wait(lambda: any("calm" in line for line in link.lines))
    check(len([line for line in link.lines if "restless" in line]) < 20, link.lines)
    time.sleep(1.1)
    link.send(beacon(b"restless", free=299))
    link.wait(lambda: any("free=299 " in line and "restless" in line for line in link.lines))
    check(link.end() == 0 and len(link.told) == 1 and "changes too often" in link.told[0], link.told)

    # One that was silent gives up its place.
    short = build(SOURCES, program + "-short", "-DSILENT=2")
    link = Link(short, place)
    for packet in many:
        link.socket.sendto(packet, ("127.0.0.1", link.port))
        time.sleep(0.001)
    link.wait(lambda: len(link.lines) == 65)
    link.send(beacon(b"too early"))
    time.sleep(3.1)
    link.send(beacon(b"late"))
    link.wait(lambda: any('"late"' in line for line in link.lines))
    check(link.end() == 0 and not any("too early" in line for line in link.lines), link.lines)
    check("1 BEACONs of further endpoints" in link.told[-1], link.told)


# 11. Links, short pages, long lengths, and the command line.


def traps(program, place):
    outside, inside = os.path.join(os.path.dirname(place), "outside"), os.path.join(place, "x")
    with open(outside, "wb") as file:
        file.write(b"precious")
    text = page(20, 32)
    packets = records([metadata(7, 16, 20), data(7, 16, 0, text)])
    for number_of, name in enumerate(("00000007.part", "00000007.page", "00000007.meta", "00000007.aside", "00000007.differs",
                                      "00000007.sheet", "00000007.sheet.new", "area.new", "area", "lock", "close")):
        here = f"{inside}{number_of}"
        os.mkdir(here)
        os.symlink(outside, os.path.join(here, name))
        lines, told, status = run(program, here, "-", octets=packets)
        check(content(outside) == b"precious", f"{name}: a link is followed")
        check(status == 1 or any(" complete id=7 " in line for line in lines), f"{name}: {lines} {told}")
        check(os.path.islink(os.path.join(here, name)) or name == "00000007.part", f"{name}: the link is gone")
    # A page cut short, and one that grew.
    for length in (0, 19, 21):
        here = f"{inside}-{length}"
        os.mkdir(here)
        run(program, here, "-", octets=packets)
        os.truncate(at(here, "00000007.page"), length)
        lines, told, status = run(program, here, "-q", "-")
        check(lines == [] and "its .page hasn't its length" in told and status == 0, (lines, told))
        lines, told, status = run(program, here, "-q", "-", octets=packets)
        check(content(here, "00000007.2.page") == text, "it doesn't begin anew")
    # A .meta that is gone, or not ours.
    for harm in (b"", b"saratoga-meta 1\nid=7\n\x1b[2J", b"saratoga-meta 1\nid=7\nwidth=16\nlength=20\n\x1b[2J\n"):
        here = f"{inside}-meta{len(harm)}"
        os.mkdir(here)
        run(program, here, "-", octets=records([metadata(7, 16, 20), data(7, 16, 0, text[:9])]))
        with open(at(here, "00000007.meta"), "wb") as file:
            file.write(harm)
        check(harmless(run(program, here, "--list")[0]), "the list")
        lines, told, status = run(program, here, "-")
        check(status == 0 and harmless(lines) and "its .meta isn't there" in told, (lines, told))
        check(content(here, "00000007.aside") == text[:9], "what it had is gone")


def command_line(program, place):
    # One octet far away.
    packets = [metadata(7, 64, 2**43), data(7, 64, 2**43 - 1, b"x"), metadata(8, 64, 2**30), metadata(9, 64, 2**30 + 1)]
    lines, told, status = run(program, place, "-", octets=records(packets))
    check(lines[:4] == ["1 too-large id=7 length=8796093022208 code=8", "1 send 4400000800000007",
                        "2 refused 12 code=6", "2 send 4400000600000007"], lines)
    check(list(stored(place)) == [8] and not os.path.exists(at(place, "00000007.part")), stored(place))
    lines, told, status = run(program, place, "--largest=0", "-", octets=records([metadata(7, 16, 1)]))
    check("1 too-large id=7 length=1 code=8" in lines, lines)
    # Records that aren't packets off the link are told.
    passed = record(b"O", metadata(1, 16, 4)) + record(b"D", data(1, 16, 0, b"x")) + record(b"F") + record(b"S")
    got = run(program, place, "-q", "-", octets=passed)
    check("2 records of kinds O and D were passed over" in got[1] and got[2] == 0, got)
    # Times are passed over in silence, and count: the numbers are those of replay.
    passed = time_record(2**64 - 1) + record(b"P", metadata(1, 16, 4)) + record(b"W", b"P") + time_record(5)
    passed += record(b"P", data(1, 16, 0, b"1234"))
    lines, told, status = run(program, place, "-", octets=passed)
    check((told, status) == ("", 0) and [line.split(" ")[0] for line in lines if not line.startswith("0 ")] ==
          ["2", "2", "5", "5", "5"], (lines, told))
    # Forms of options.
    check(run(program, place, "--udp=0", "--any-peer", "--idle=1")[2] == 0, "--idle=1")
    check("more than one pass" in run(program, place, "-q", "--", "-", "x")[1], "--")
    check(run(program, place, "-q", "--", "--x")[1].startswith("saratoga-link: --x: can't be opened"), "--")
    for wrong in ("--quiet=1 -", "--idle= -", "-d=x -", "--largest x -", "--udp 1 --any-peer --peer ::1", "--list -",
                  "--peer", "--what=1 -", "-- - -", "--" + "x" * 200):
        got = run(program, place, *wrong.split())
        check(got[2] == 2 and "see saratoga-link --help" in got[1], got)


def all_of_it(program, place):
    """Runs everything; `place` gives a new directory for a name."""
    full = failing(program + "-full")
    tests = [(test, program) for test in (used_again, no_crc_32c, never_overwritten, taken_away, full_table, operator,
                                          who_is_heard, two_senders, kept, what_is_known, runs, answers, many_holes, on_air,
                                          too_many_on_air, limits, stopped, traps, command_line)]
    side_by_side(tests + [(test, full) for test in (no_room, work_without_room, no_room_for_a_name, unsendable)], place)


def side_by_side(tests, place):
    """Runs tests, each with the program that it takes, some beside each other: they wait most of the time."""
    with concurrent.futures.ThreadPoolExecutor(AT_ONCE) as pool:
        for done in [pool.submit(one_of_it, test, program, place(test.__name__)) for test, program in tests]:
            done.result()


def one_of_it(test, program, place):
    try:
        test(program, place)
    except AssertionError as reason:
        raise AssertionError(f"{test.__name__}: {reason}") from reason
    finally:
        for process in STARTED.processes:  # a test that failed leaves none behind
            if process.poll() is None:
                process.kill()
