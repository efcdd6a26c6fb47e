"""Tests of saratoga-send over loopback, run by test.py: to the receiver of model.py and to saratoga-link, through links that lose,
repeat and reorder; and as a user meets it: options, lines, exit status."""
import hashlib
import os
import pty
import random
import re
import select
import signal
import socket
import subprocess
import threading
import time

from model import Lossy, Model, Relay, check, on_loopback  # first: it says where the others are
from harness import content, holds, page
from plant import Link

START_OF_2000 = 946684800


class Sender:
    """The program, and a folder for what it sends."""

    def __init__(self, program, place):
        self.program, self.place = program, place
        os.makedirs(place, exist_ok=True)

    def file(self, name, octets):
        path = os.path.join(self.place, name)
        with open(path, "wb") as file:
            file.write(octets)
        return path

    def sparse(self, name, length):
        path = self.file(name, b"")
        os.truncate(path, length)
        return path

    def run(self, *words, **more):
        """Output, messages and exit status. It ends by itself, and never by a signal or a sanitizer."""
        done = subprocess.run([self.program, *words], capture_output=True, check=False, timeout=60, **more)
        check(done.returncode in (0, 1, 2), f"{words}: ends with {done.returncode}: {done.stderr.decode()}")
        check(b"Sanitizer" not in done.stderr, done.stderr.decode())
        return done.stdout.decode(), done.stderr.decode(), done.returncode

    def start(self, *words):
        return subprocess.Popen([self.program, *words], stdout=subprocess.PIPE, stderr=subprocess.PIPE)


def at(port):
    return f"127.0.0.1:{port}"


def field(line, name):
    return re.search(rf"\b{name}=(\S+)", line).group(1)


def last_lines(out):
    return [line for line in out.splitlines() if line.startswith(("confirmed", "unconfirmed"))]


# To the model.


def to_the_model(sender, seed, runs, files):
    """Files of any length over links that are lossy in both directions, every receiver's octets compared."""
    chance = random.Random(seed)
    packets = forgot = 0
    for number in range(runs):
        loss = [chance.choice((0, 0.05, 0.2)) for _ in range(2)]
        there, back = (Lossy(chance.random(), each, chance.choice((0, 0.2)), chance.choice((0, 0.2))) for each in loss)
        payload = chance.choice((1, 30, 100, 1400))
        pages = {f"f{i}": page(chance.choice((0, 1, chance.randrange(payload * 60), payload * 100)), chance.random())
                 for i in range(files)}
        forget = chance.choice((0, 0, 0.002))
        words = ["--payload", str(payload), "--ask", str(chance.choice((1, 7, 30, 100))), "--wait", "0.01", "--tries", "200",
                 "--id", str(1000 * number), *chance.choice(([], ["--md5"])), *chance.choice(([], ["--rate", "200"]))]
        with Model(there, back, chance.choice((63, 3)), forget, chance.random()) as model:
            paths = [sender.file(name, octets) for name, octets in pages.items()]
            out, told, status = sender.run(*words, at(model.port), *paths)
            check(status == 0 and not told, f"{words}: {status} {told} {out[-300:]}")
            for i, (name, octets) in enumerate(pages.items()):
                one = model.pages.get(1000 * number + i)
                check(one is not None and one.octets == octets and one.path == name.encode(), f"run {number}, {name}: {words}")
            packets += model.counts["data"]
            forgot += model.counts["forgot"]
    check(forgot > 0, "the model never lost everything")
    return f"{runs * files} files to a receiver in Python over lossy loopback, {packets} packets; it lost all {forgot} times"


def sixty_four_runs(sender):
    """Asked so seldom that the receiver has no room for another run: failure 3, METADATA, repairs."""
    octets = page(20000, 64)
    with Model(Lossy(64, 0.3), Lossy(65, 0.1)) as model:
        out, told, status = sender.run("--payload", "10", "--ask", "5000", "--rate", "20", "--id", "1", "--wait", "0.03", "--tries",
                                       "100", at(model.port), sender.file("runs", octets))
        check(status == 0 and model.pages[1].octets == octets, f"64 runs: {out} {told}")
        check(model.counts["failure3"] > 0 and model.counts["metadata"] > 1, f"64 runs: {model.counts}")


def metadata_fields(sender):
    path = sender.file("page 1.bin", b"abc")
    os.utime(path, (1, START_OF_2000 + 77.5))
    with Model() as model:
        check(sender.run("--md5", "--id", "0xffffffff", at(model.port), path)[2] == 0, "a file")
        one = model.pages[0xFFFFFFFF]
        check((one.path, one.mtime, one.checksum) == (b"page 1.bin", 77, hashlib.md5(b"abc").digest()), f"METADATA: {vars(one)}")
        check(one.ctime == int(os.stat(path).st_ctime) - START_OF_2000, "Ctime")
        os.utime(path, (1, 1))
        check(sender.run("--id", "5", at(model.port), path)[2] == 0 and model.pages[5].mtime == 0, "a time before 2000")
        check(model.pages[5].checksum == b"", "a checksum that nobody asked for")


def widths(sender):
    octets = page(3000, 1)
    path, full, slow = sender.file("w", octets), sender.file("full", bytes(65535)), ("--wait", "0.02", "--tries", "100")
    with Model(Lossy(1, 0.1)) as model:
        for width in (2, 4, 8, 16):
            out = sender.run("--width", str(width), "--id", str(width), "--payload", "100", *slow, at(model.port), path)
            one = model.pages.get(width)
            check(out[2] == 0 and one.octets == octets and one.width == 8 * width, f"width {width}: {out}")
        check(sender.run("--id", "1", *slow, at(model.port), full)[2] == 0 and model.pages[1].width == 16, "65535 octets")
        more = sender.file("more", bytes(65536))
        check(sender.run("--id", "3", *slow, at(model.port), more)[2] == 0 and model.pages[3].width == 32, "65536 octets")
        before = model.counts["metadata"]
        for width, length in ((2, 65536), (4, 2 ** 32)):
            out, told, status = sender.run("--width", str(width), at(model.port), path, sender.sparse("large", length))
            check((out, status) == ("", 2) and f"large: {length} octets are more than" in told, f"too long: {out} {told}")
        check(model.counts["metadata"] == before, "something was sent though a file is refused")


def several(sender):
    """Ids rise; what the receiver refuses does not keep the next from it; without --id they are any."""
    paths = [sender.file(f"s{i}", page(500 * i, i)) for i in range(4)]
    with Model() as model:
        out, told, status = sender.run("-q", "--id", "41", at(model.port), *paths)
        check(status == 0 and sorted(model.pages) == [41, 42, 43, 44], f"several: {out} {told}")
        check([field(line, "id") for line in last_lines(out)] == ["41", "42", "43", "44"], out)
        check(all(model.pages[41 + i].octets == content(path) for i, path in enumerate(paths)), "several: octets")
        first = {field(sender.run(at(model.port), paths[0])[0], "id") for _ in range(3)}
        check(len(first) == 3, f"Ids by chance: {first}")
        with_failure = Model(refuse=8)
        with with_failure:
            out, told, status = sender.run("--id", "1", at(with_failure.port), *paths[:2])
            check(status == 1 and told.count("failure 8, file too long for the receiver") == 2, f"failure 8: {told}")
            check([line.split()[0] for line in last_lines(out)] == ["unconfirmed"] * 2, out)


class WithoutData(Lossy):
    """A link that METADATA passes, and DATA, being longer, does not."""

    def through(self, packet):
        return [packet] if packet[0] == 0x42 else []


def no_answer(sender):
    """wait x tries, and then the exit status; METADATA alone was sent."""
    path = sender.file("n", b"x" * 100)
    with on_loopback() as silent:
        begun = time.monotonic()
        out, told, status = sender.run("--wait", "0.05", "--tries", "6", at(silent.getsockname()[1]), path, path)
        took = time.monotonic() - begun
        check(status == 1 and "did not answer, in 6 tries" in told and "1 more files were not sent" in told, f"silent: {told}")
        check(len(last_lines(out)) == 1 and out.splitlines()[-1].startswith("unconfirmed"), out)
        check(0.3 <= took < 5, f"silent: {took:.2f} s")
        silent.setblocking(False)
        came = []
        while select.select([silent], [], [], 0)[0]:
            came.append(silent.recv(65535)[0])
        check(came == [0x42] * 6, f"silent: {came}")
        port = silent.getsockname()[1]
    out, told, status = sender.run("--wait", "0.02", "--tries", "2", at(port), path)
    check(status == 1 and "the network says: Connection refused" in told, f"nobody there: {told}")
    with Model(WithoutData()) as model:
        out, told, status = sender.run("--wait", "0.1", "--tries", "3", at(model.port), path)
        check(status == 1 and "no octet more was confirmed in 3 tries; 0 of 100 were" in told, f"no DATA: {told}")
        check(model.counts["metadata"] == 3, f"no DATA: {model.counts}")
    with Model(forget=1.0) as model:
        out, told, status = sender.run("--wait", "1", "--tries", "3", at(model.port), path)
        check(status == 1 and "failure was 6, unknown Id" in told and model.counts["metadata"] == 3, f"forgets: {told}")
    with Model(refuse=3) as model:
        out, told, status = sender.run("--wait", "0.1", "--tries", "3", at(model.port), path)
        check(status == 1 and "failure was 3, receiver lacks resources" in told and model.counts["metadata"] == 3, f"full: {told}")


def rate(sender):
    """So many octets take so long, in packets with their heads, and are not sent in one burst."""
    path, times = sender.file("rate", bytes(60000)), []
    with Model(on_data=lambda: times.append(time.monotonic())) as model:
        out, told, status = sender.run("--rate", "1.6", "--payload", "1000", at(model.port), path)
    check(status == 0 and float(field(last_lines(out)[0], "seconds")) > 0.29, f"60 packets of 1,012 octets at 1.6 Mbit/s: {out}")
    check(len(times) == 60 and times[29] - times[0] > 0.05 and times[59] - times[30] > 0.05, f"a burst: {times}")


def changed_files(sender):
    """A file that changes while it is sent is not confirmed."""
    for name, change in (("touched", lambda path: os.utime(path, (5, 5))), ("cut", lambda path: os.truncate(path, 1000)),
                         ("grown", lambda path: os.truncate(path, 700000))):
        path = sender.file(name, bytes(600000))
        with Model(on_data=lambda: change(path)) as model:
            out, told, status = sender.run("--payload", "10000", at(model.port), path)
        check(status == 1 and ("was changed" in told or "shorter than it was" in told), f"{name}: {told}")
        check(last_lines(out)[0].startswith("unconfirmed"), out)


def lines(sender):
    """Plain lines where standard output is no terminal, one line that is overwritten where it is; and none with -q."""
    path = sender.file("lin\x1bes", bytes(150000))
    with Model() as model:
        words = ("--rate", "1", at(model.port), path)
        out, told, status = sender.run(*words)
        kinds = [line.split(" ")[0] for line in out.splitlines()]
        check(kinds == ["send", *["progress"] * (len(kinds) - 2), "confirmed"] and len(kinds) > 2, f"plain: {out}")
        check(status == 0 and "\r" not in out and not told, f"plain: {out} {told}")
        check(re.search(r"progress id=\d+ percent=\d+ mbit=[\d.]+ holes=0", out) and "file=" in out and "\x1b" not in out, out)
    with Model() as model:
        out = on_a_terminal([sender.program, "--rate", "3", at(model.port), path])
        check(re.search(r"\rid \d+ +\d+ % confirmed +[\d.]+ Mbit/s +0 holes", out) and "\nconfirmed" not in out, repr(out))
        check("\rconfirmed" in out and "progress" not in out, repr(out))
        check("%" not in on_a_terminal([sender.program, "-q", "--rate", "5", at(model.port), path]), "-q")


def on_a_terminal(command):
    parent, child = pty.openpty()
    with subprocess.Popen(command, stdout=child, stderr=child) as process:
        os.close(child)
        out = b""
        try:
            while True:
                octets = os.read(parent, 65536)
                out += octets
                if not octets:
                    break
        except OSError:
            pass
        check(process.wait(timeout=20) == 0, out.decode())
    os.close(parent)
    return out.decode()


def bad_usage(sender):
    good = sender.file("good", b"abc")
    to = "127.0.0.1:9"
    for words in ((), (to,), (good,), ("--rate", "0", to, good), ("--rate", "x", to, good), ("--rate", "-1", to, good),
                  ("--rate", to, good), ("--rate",), ("--payload", "0", to, good), ("--payload", "65001", to, good),
                  ("--width", "3", to, good), ("--width", "32", to, good), ("--width", "1", to, good), ("--ask", "0", to, good),
                  ("--ask", "1000001", to, good), ("--id", "4294967296", to, good), ("--id", "4294967295", to, good, good),
                  ("--id", "-1", to, good), ("--wait", "0", to, good), ("--wait", "1s", to, good), ("--tries", "0", to, good),
                  ("--wrong", to, good), ("-x", to, good), ("--md5=1", to, good), ("--" + "y" * 99, to, good),
                  ("127.0.0.1", good), ("127.0.0.1:", good), (":9", good), ("::1:9", good), ("127.0.0.1:99999", good),
                  (to, good, sender.place), (to, os.path.join(sender.place, "nofile")), (to, "/dev/null"), (to, "")):
        out, told, status = sender.run(*words)
        check((out, status) == ("", 2) and told.startswith("saratoga-send: "), f"{words}: {out} {told} {status}")
    check("usage: saratoga-send" in sender.run("--help")[0], "--help")
    check(sender.run("--version")[0].startswith("saratoga-send (saratoga) "), "--version")
    with Model() as model:
        check(sender.run("--id=7", "--ask=2", "--", at(model.port), good)[2] == 0 and 7 in model.pages, "values after =")
        if os.path.exists("/dev/full"):
            with open("/dev/full", "wb") as full:
                done = subprocess.run([sender.program, at(model.port), good], stdout=full, stderr=subprocess.PIPE, check=False,
                                      timeout=60)
            check(done.returncode == 2 and b"can't write" in done.stderr, "a full disk")


# To saratoga-link.


def start_link(program, place, *options, port=0):
    os.makedirs(place, exist_ok=True)
    link = Link(program, place, "--no-fsync", *options, *(("--udp", str(port)) if port else ()))
    link.socket.close()
    return link


def reported(link, ident):
    """The line of a complete transfer."""
    link.wait(lambda: any(f" complete id={ident} " in line for line in link.lines))
    return [line for line in link.lines if f" complete id={ident} " in line][-1]


def received(link):
    """How many packets it has recorded since its start."""
    return sum(" record id=31 " in line for line in link.lines)


def over_a_lossy_link(sender, program, place, seed):
    pages = [page(length, length) for length in (0, 1, 2999, 65535, 65536, 300000)]
    paths = [sender.file(f"p{i}", octets) for i, octets in enumerate(pages)]
    link = start_link(program, place)
    there, back = Lossy(seed, 0.1, 0.1, 0.1), Lossy(seed + 1, 0.1, 0.1, 0.1)
    with Relay(link.port, there, back) as relay:
        out, told, status = sender.run("--md5", "--id", "1", "--wait", "0.03", "--tries", "100", at(relay.port), *paths)
    check(status == 0 and not told, f"over a lossy link: {told} {out}")
    for i, octets in enumerate(pages):
        line = reported(link, 1 + i)
        check(field(line, "md5") == "agrees" and holds(place, field(line, "file"), octets), line)
    check(link.end() == 0, link.told)
    return sum(int(field(line, "packets")) for line in last_lines(out))


def restarts(sender, program, place, forgets):
    """The link program is killed and started again, and with `forgets` in another directory: failure 6."""
    octets = page(400000, 7)
    path, folders = sender.file("restarts", octets), [os.path.join(place, str(i)) for i in range(3)]
    link = start_link(program, folders[0])
    port = link.port
    with sender.start("--md5", "--rate", "5", "--id", "31", "--ask", "10", "--wait", "0.05", "--tries", "100", at(port),
                      path) as process:
        for i in (1, 2):
            link.wait(lambda: received(link) >= 40)
            check(process.poll() is None, "the sender had ended before the receiver was killed")
            link.process.kill()
            link.process.wait()
            link = start_link(program, folders[i if forgets else 0], port=port)
        out, told = (stream.decode() for stream in process.communicate(timeout=30))
    check(process.returncode == 0, f"restarts: {out} {told}")
    line = reported(link, 31)
    check(field(line, "md5") == "agrees" and holds(folders[2 if forgets else 0], field(line, "file"), octets), line)
    check(link.end() == 0, link.told)
    return int(field(last_lines(out)[0], "packets"))


def resumed(sender, program, place):
    """A sender that is killed, and another with its Id: what was confirmed is not sent again."""
    octets = page(400000, 8)
    path = sender.file("resumed", octets)
    link = start_link(program, place)
    with sender.start("--rate", "12", "--id", "31", "--ask", "10", "--payload", "1000", at(link.port), path) as process:
        link.wait(lambda: received(link) >= 40)
        process.send_signal(signal.SIGKILL)
    out, told, status = sender.run("--id", "31", "--payload", "1000", at(link.port), path)
    check(status == 0 and int(field(last_lines(out)[0], "packets")) < 380, f"resumed: {out} {told}")
    check(holds(place, field(reported(link, 31), "file"), octets), "resumed")
    out, told, status = sender.run("--id", "31", at(link.port), path)
    check(status == 0 and field(last_lines(out)[0], "packets") == "0", f"complete already: {out}")
    check(link.end() == 0, link.told)


def with_a_wrong_octet(sender, program, place):
    """One bit is flipped on the way: the receiver finds it by the MD5, and the file is sent again. Always: it is given up."""
    octets = page(50000, 9)
    path = sender.file("flipped", octets)
    for always in (False, True):
        flipped = []

        def flip(packet):
            if packet[0] == 0x43 and len(packet) > 500 and packet[8:10] == b"\0\0" and (always or not flipped):
                flipped.append(1)
                return packet[:100] + bytes([packet[100] ^ 1]) + packet[101:]
            return packet

        folder = os.path.join(place, str(always))
        link = start_link(program, folder)
        with Relay(link.port, change=flip) as relay:
            out, told, status = sender.run("--md5", "--id", "3", "--tries", "3", at(relay.port), path)
        check(status == int(always) and bool(told) == always, f"a wrong octet, {always}: {status} {told} {out}")
        check(not always or "had nothing any more" in told or "its last failure was 6" in told, told)
        check(holds(folder, "00000003.differs", octets[:90] + bytes([octets[90] ^ 1]) + octets[91:]), os.listdir(folder))
        check(always or holds(folder, "00000003.2.page", octets), os.listdir(folder))
        check(link.end() == 3, link.told)


def refused_by_link(sender, program, place):
    paths = [sender.file("larger", bytes(2000)), sender.file("smaller", bytes(900))]
    link = start_link(program, place, "--largest", "1000")
    out, told, status = sender.run("--id", "1", at(link.port), *paths)
    check(status == 1 and "failure 8, file too long" in told, f"--largest: {told}")
    check([line.split()[0] for line in last_lines(out)] == ["unconfirmed", "confirmed"], out)
    check(link.end() == 0, link.told)


def over_ipv6(sender, program, place):
    with socket.socket(socket.AF_INET6, socket.SOCK_DGRAM) as probe:
        try:
            probe.bind(("::1", 0))
        except OSError:
            return
    os.makedirs(place)
    link = Link(program, place, "--address", "::1", peer=("--peer", "::1"))
    path = sender.file("six", page(5000, 6))
    out, told, status = sender.run("--id", "6", f"[::1]:{link.port}", path)
    check(status == 0 and holds(place, field(reported(link, 6), "file"), content(path)), f"IPv6: {out} {told}")
    check(link.end() == 0, link.told)


def run_all(program, link, place, seed):
    sender = Sender(program, os.path.join(place, "sent"))
    yield to_the_model(sender, seed, 12, 25)
    for test in (sixty_four_runs, metadata_fields, widths, several, no_answer, rate, changed_files, lines, bad_usage):
        test(sender)
    yield "METADATA, widths, Ids, rate, waits, lines, changed files and wrong options are as they should be"
    packets = over_a_lossy_link(sender, link, os.path.join(place, "lossy"), seed)
    packets += restarts(sender, link, os.path.join(place, "restarts"), False)
    packets += restarts(sender, link, os.path.join(place, "forgets"), True)
    resumed(sender, link, os.path.join(place, "resumed"))
    with_a_wrong_octet(sender, link, os.path.join(place, "flipped"))
    refused_by_link(sender, link, os.path.join(place, "refused"))
    over_ipv6(sender, link, os.path.join(place, "six"))
    check(threading.active_count() < 20, "threads are left")
    yield f"to saratoga-link over a lossy link, killed, begun anew and with a wrong octet: every page is there, {packets} packets"
