"""Tests of the link program against a hostile network, a careless operator and a failing machine. Run by test.py; each function takes the
program and an empty directory."""
import os
import select
import signal
import socket
import subprocess
import time

from harness import at, check, content, failing, holds, is_there, numbers, page, records, run, stored
from packets import UNASKED, WANTED, data, metadata, success
from plant import STARTED, Link, is_complete, side_by_side

ENDED = 0x080000  # bit 12 of METADATA
UNKNOWN = bytes.fromhex("4400000600000007")


def other_octets(program, place):
    """A packet that brings other octets where some were received ends the transfer: told, set aside, failure 6. Repeats are compared."""
    text, other = page(1000, 101), page(1000, 102)
    link = Link(program, place)
    link.quiet_send(metadata(7, 16, 1000), data(7, 16, 0, text[:500], WANTED))
    check(link.send(data(7, 16, 100, text[100:300], WANTED)) != UNKNOWN, "an equal repeat ends it")
    check(link.send(data(7, 16, 400, text[400:450] + other[450:600], WANTED)) == UNKNOWN, link.lines)
    check(link.send(data(7, 16, 500, text[500:], WANTED)) == UNKNOWN, "still open")
    link.wait(lambda: is_there(place, "00000007.aside"))
    check(content(place, "00000007.aside")[:500] == text[:500], "octets that were received were written over")
    link.quiet_send(metadata(7, 16, 1000), data(7, 16, 0, text[:500], WANTED))
    check(is_complete(link.send(data(7, 16, 500, text[500:], WANTED)), 1000), link.lines)
    # A complete page, and late DATA of another file: also once it was reported, and its file is as it was.
    link.wait(lambda: any(" complete id=7 " in line for line in link.lines))
    check(link.send(data(7, 16, 0, other[:100], WANTED)) == UNKNOWN, "DATA of another file is taken for a complete one")
    check(link.end() == 0, link.told)
    check(sum("ERROR: transfer 7: packet " in line and "brings other octets" in line for line in link.told) == 2, link.told)
    check(holds(place, f"00000007.{numbers(place, 7)[1]}.page", text), "the page was changed")


def other_octets_before_the_report(program, place):
    """`program` is built with nospace.c. A page that is complete and waits for its name isn't ended by other octets: the packet counts as lost."""
    text, other, marker = page(100, 115), page(100, 116), os.path.join(os.path.dirname(place), "nospace")
    link = Link(program, place, NOSPACE=marker)
    link.quiet_send(metadata(7, 16, 100), data(7, 16, 0, text[:50], WANTED))
    with open(marker, "w", encoding="ascii") as file:
        file.write("p")
    link.quiet_send(data(7, 16, 50, text[50:], WANTED))
    for packet in (data(7, 16, 0, other), data(7, 16, 60, other[:9], WANTED)):
        check(link.send(packet) is None, "answered, though the page is about to be reported")
    os.remove(marker)
    link.wait(lambda: any(" complete id=7 " in line for line in link.lines))
    check([line for line in link.lines if " lost " in line] == ["4 lost id=7 offset=0 length=100", "5 lost id=7 offset=60 length=9"], link.lines)
    check(sum("packet 4 brings other octets" in line and "count as lost" in line for line in link.told) == 1, link.told)
    check(not any("packet 5" in line for line in link.told), link.told)
    link.drain()
    check(link.send(data(7, 16, 0, other, WANTED)) == UNKNOWN, "once it was reported other octets end it")
    link.end()
    check(holds(place, "00000007.page", text), "the page")


def lingers(program, place):
    """A complete transfer is closed after a while, so that late DATA of another file meets failure 6."""
    text = page(100, 103)
    link = Link(program, place, "--linger", "1")
    link.quiet_send(metadata(7, 16, 100))
    check(is_complete(link.send(data(7, 16, 0, text)), 100), link.lines)
    check(is_complete(link.send(data(7, 16, 0, text, WANTED)), 100), "it doesn't linger")
    link.wait(lambda: any(" close id=7 lingered " in line for line in link.lines))
    check(link.send(data(7, 16, 0, text, WANTED)) == UNKNOWN, "it lingers for ever")
    check(link.end() == 0 and holds(place, "00000007.page", text), link.told)


def owners(program, place):
    """Two ports of one address, without a restart and with one: DATA of another than the owner is never taken."""
    text, other = page(100, 104), page(100, 105)
    link = Link(program, place)
    stranger = socket.socket(socket.AF_INET, socket.SOCK_DGRAM)
    stranger.bind(("127.0.0.1", 0))
    stranger.settimeout(1)

    def strange(packet):
        stranger.sendto(packet, ("127.0.0.1", link.port))
        try:
            return stranger.recv(65535)
        except socket.timeout:
            return None

    link.quiet_send(metadata(7, 16, 100), data(7, 16, 0, text[:50], WANTED))
    check(strange(data(7, 16, 50, other[50:], WANTED)) == UNKNOWN, "DATA of another port is taken")
    port = link.socket.getsockname()[1]
    link.process.kill()
    link.process.wait()
    link.end()
    link = Link(program, place)
    check(strange(data(7, 16, 50, other[50:], WANTED)) == UNKNOWN, "after a restart DATA of another port is taken")
    link.socket.close()
    link.socket = socket.socket(socket.AF_INET, socket.SOCK_DGRAM)
    link.socket.bind(("127.0.0.1", port))
    link.socket.settimeout(1)
    check(is_complete(link.send(data(7, 16, 50, text[50:], WANTED)), 100), "the owner isn't known after a restart")
    # METADATA that is equal makes its sender the owner.
    strange(metadata(7, 16, 100))
    check(link.send(data(7, 16, 0, text, WANTED)) == UNKNOWN, "the old owner is still heard")
    stranger.close()
    check(link.end() == 0 and holds(place, "00000007.page", text), link.told)


def answered_after_a_kill(program, place):
    """What was due when the program was killed is sent by the next one, to the owner that the area keeps, once it has a socket."""
    link = Link(program, place)
    check(link.send(metadata(7, 16, 100)) is not None, link.lines)
    link.process.kill()
    link.process.wait()
    again = Link(program, place)
    check(link.heard() == bytes.fromhex("440100000000000700000000"), again.lines)
    check(again.end() == 0 and "0 send 440100000000000700000000" in again.lines, again.lines)
    link.end()


def shared_syncs(program, place):
    """`program` is built with nospace.c. On a slow disk packets are taken while a thread syncs, and many openings and questions share one sync."""
    text, marker = page(3000, 117), os.path.join(os.path.dirname(place), "nospace")
    link = Link(program, place, NOSPACE=marker)
    link.quiet_send(metadata(0, 16, 3000))
    with open(marker, "w", encoding="ascii") as file:
        file.write("z")
    before, begun = syncs(place), time.monotonic()
    for ident in range(1, 16):
        link.socket.sendto(metadata(ident, 16, 20), ("127.0.0.1", link.port))
    for start in range(0, 3000, 30):
        link.socket.sendto(data(0, 16, start, text[start:start + 30], WANTED), ("127.0.0.1", link.port))
    link.wait(lambda: sum(" record id=0 " in line for line in link.lines) == 100)
    taken = time.monotonic() - begun
    link.wait(lambda: {line.split()[2][8:16] for line in link.lines if " send 4401" in line} >= {f"{ident:08x}" for ident in range(1, 16)})
    check(syncs(place) - before < 8, f"{syncs(place) - before} syncs for 15 openings and 100 questions")
    check(taken < 1, f"packets waited {taken:.1f} s for a disk that takes 50 ms for each force")
    os.remove(marker)
    link.wait(lambda: any(" complete id=0 " in line for line in link.lines))
    check(link.end() == 0 and holds(place, "00000000.page", text), link.told)


def one_batch(program, place):
    """Packets that come together do what they do one by one, as on a pass: octets that follow on each other, are another transfer's, come again,
    or stand on both sides of what was received."""
    long, first, second = page(180000, 118), page(1000, 119), page(400, 120)
    before = [metadata(6, 32, 180000), metadata(7, 16, 1000), metadata(8, 16, 400), data(7, 16, 300, first[300:400], WANTED)]
    batch = [data(7, 16, 200, first[200:300]), data(7, 16, 400, first[400:500]), data(7, 16, 500, first[500:600]), data(8, 16, 600, b"x"),
             data(8, 16, 0, second[:100]), data(7, 16, 100, first[100:200]), data(8, 16, 200, second[200:300]), data(7, 16, 0, first[:100]),
             data(8, 16, 100, second[100:200]), data(8, 16, 100, second[100:200]), data(7, 16, 550, first[550:700]), b"",
             data(7, 16, 700, first[700:]), *(data(6, 32, start, long[start:start + 60000]) for start in range(0, 180000, 60000)),
             data(8, 16, 300, second[300:]), metadata(9, 16, 0)]
    other = place + "-pass"
    os.mkdir(other)
    expected = [line for line in run(program, other, "-", octets=records(before + batch))[0] if " record " in line or " refused " in line]
    link = Link(program, place)
    link.quiet_send(*before)
    os.kill(link.process.pid, signal.SIGSTOP)
    for packet in batch:
        link.socket.sendto(packet, ("127.0.0.1", link.port))
    os.kill(link.process.pid, signal.SIGCONT)
    link.wait(lambda: sum(" complete id=" in line for line in link.lines) == 4)
    got = [line for line in link.lines if " record " in line or " refused " in line]
    check(got == expected and len(got) == 18, (got, expected))
    check(link.end() == 0, link.told)
    for ident, octets in ((6, long), (7, first), (8, second)):
        check(holds(place, f"0000000{ident}.page", octets), f"page {ident}")


def opened_while_it_syncs(program, place):
    """`program` is built with nospace.c. After a restart METADATA that comes while a sync is under way isn't lost for want of a file number."""
    marker = os.path.join(os.path.dirname(place), "nospace")
    run(program, place, "-", octets=records([metadata(7, 16, 100)]))
    link = Link(program, place, NOSPACE=marker)
    with open(marker, "w", encoding="ascii") as file:
        file.write("z")
    for packet in (metadata(7, 16, 100), metadata(8, 16, 100)):
        link.socket.sendto(packet, ("127.0.0.1", link.port))
        time.sleep(0.02)
    link.wait(lambda: any(" open id=8 " in line or " lost id=8" in line for line in link.lines))
    os.remove(marker)
    check(link.end() == 0 and not any(" lost " in line for line in link.lines), link.lines)


def syncs(place):
    """The number of the last sync."""
    return int.from_bytes(content(place, "area")[32:40], "little")


def unremovable(program, place):
    """`program` is built with nospace.c. A `close` that can't be removed is told once, and isn't heard again and again."""
    marker = os.path.join(os.path.dirname(place), "nospace")
    with open(marker, "w", encoding="ascii") as file:
        file.write("u")
    link = Link(program, place, NOSPACE=marker)
    link.quiet_send(metadata(31, 16, 100), data(31, 16, 0, b"x", WANTED))
    with open(os.path.join(place, "close"), "w", encoding="ascii") as file:
        file.write("31\n")
    link.wait(lambda: link.told)
    time.sleep(1)
    check(len(link.told) == 1 and "can't be removed, and isn't heard" in link.told[0] and 31 in stored(place), link.told)
    os.remove(marker)
    link.wait(lambda: 31 not in stored(place))
    link.end()


def flipped_area(program, place):
    """No bit of the area's file can change unseen, and nothing is touched then."""
    text = page(300, 106)
    run(program, place, "-", octets=records([metadata(7, 16, 300), data(7, 16, 0, text[:100]), data(7, 16, 200, text[200:])]))
    good = content(place, "area")
    names = sorted(os.listdir(place))
    for bit in list(range(0, 8 * 64)) + list(range(8 * 64, 8 * len(good), 997)):
        with open(os.path.join(place, "area"), "wb") as file:
            file.write(good[:bit // 8] + bytes([good[bit // 8] ^ 1 << bit % 8]) + good[bit // 8 + 1:])
        if bit % 40 == 0 or bit < 64:
            got = run(program, place, "-")
            check(got[2] == 1 and "to begin anew" in got[1] and sorted(os.listdir(place)) == names, (bit, got))
    with open(os.path.join(place, "area"), "wb") as file:
        file.write(good)
    got = run(program, place, "-", octets=records([data(7, 16, 100, text[100:200])]))
    check(got[2] == 0 and holds(place, "00000007.page", text), got)


def cut_short(program, place):
    """A .part that is cut while the program runs never becomes a page; and a lock can't be taken away by a name."""
    text = page(100, 107)
    link = Link(program, place)
    link.quiet_send(metadata(7, 16, 100), data(7, 16, 0, text[:60], WANTED))
    os.truncate(at(place, "00000007.part"), 10)
    check(link.send(data(7, 16, 60, text[60:], WANTED)) == UNKNOWN, link.lines)
    check(not any(" complete " in line for line in link.lines), link.lines)
    for name in os.listdir(place):
        if name == "lock":
            os.remove(os.path.join(place, name))
    got = run(program, place, "-")
    check(got[2] == 1 and "another link program writes there" in got[1], got)
    check(link.end() == 0 and not any(name.endswith(".page") for name in os.listdir(place)), link.told)


def ended_by_its_sender(program, place):
    """METADATA with bit 12 ends a transfer and sets it aside; it opens none. The flags stand in .meta."""
    text = page(100, 108)
    ends = metadata(7, 16, 100, flags=ENDED)
    lines, told, status = run(program, place, "-", octets=records(
        [ends, metadata(7, 16, 100), data(7, 16, 0, text[:50]), ends, data(7, 16, 50, text[50:]), metadata(8, 16, 9, flags=0x040000)]))
    check(status == 0 and "1 refused 12 code=6" in lines and "5 refused 12 code=6" in lines, lines)
    check("4 close id=7 ended-by-its-sender recordings=1 absorbed=0 runs=1" in lines, lines)
    check(content(place, "00000007.aside") == text[:50] and 7 not in stored(place), told)
    check(b"\nflags=040000\n" in content(place, "00000008.meta"), content(place, "00000008.meta"))


def unwritable(program, place):
    """`program` is built with nospace.c. Packets that couldn't be written: the exit status tells, and one message for many packets."""
    text, marker = page(1000, 109), os.path.join(os.path.dirname(place), "nospace")
    link = Link(program, place, NOSPACE=marker)
    link.quiet_send(metadata(7, 16, 1000), data(7, 16, 0, text[:10], WANTED))
    with open(marker, "w", encoding="ascii") as file:
        file.write("e")
    for start in range(10, 1000, 10):
        link.socket.sendto(data(7, 16, start, text[start:start + 10]), ("127.0.0.1", link.port))
    link.wait(lambda: sum(" lost id=7 " in line for line in link.lines) == 99)
    os.remove(marker)
    link.send(data(7, 16, 10, text[10:], WANTED))
    check(link.end() == 1, "exit status 0 where packets were not written")
    check(holds(place, "00000007.page", text), "it doesn't go on")
    check(len(link.told) == 1 and "can't be written: Input/output error" in link.told[0], link.told)


def full_table_is_told(program, place):
    """Also with -q, once a minute; and --forget-after makes room by itself."""
    lines, told, status = run(program, place, "-q", "-", octets=records(
        [metadata(ident, 16, 20) for ident in range(16)] + [metadata(ident, 16, 20) for ident in range(16, 20)]))
    check(status == 0 and lines == [] and told.count("ERROR: ") == 1 and "is refused: 16 are open" in told, told)
    link = Link(program, place, "--forget-after", "1")
    link.wait(lambda: sum(" forgotten " in line for line in link.lines) == 16)
    check(link.send(metadata(99, 16, 20)) is not None, "no room after they were forgotten")
    check(link.end() == 0 and list(stored(place)) == [99], link.told)


def answers_from_where_it_was_asked(program, place):
    """A socket of all addresses answers from the one that was asked."""
    link = Link(program, place, "--address", "0.0.0.0", peer=("--peer", "127.0.0.0/8"))
    for address in ("127.0.0.1", "127.0.0.2", "127.1.2.3"):
        link.socket.sendto(metadata(7, 16, 9), (address, link.port))
        _, source = link.socket.recvfrom(65535)
        check(source[0] == address, f"{address} is answered from {source[0]}")
        link.socket.sendto(data(9, 16, 0, b"x"), (address, link.port))
        _, source = link.socket.recvfrom(65535)
        check(source[0] == address, f"{address} is answered from {source[0]}")
    check(link.end() == 0, link.told)


def nobody_reads(program, place):
    """A pipe that nobody reads stops neither reception nor the end."""
    text = page(60000, 110)
    reading, writing = os.pipe()
    process = subprocess.Popen([program, "-d", place, "--udp", "0", "--peer", "127.0.0.1"], stdout=writing, stderr=subprocess.PIPE)
    STARTED.processes.append(process)
    os.close(writing)
    line = b""
    while not line.endswith(b"\n"):
        line += os.read(reading, 1)
    while b"listening" not in line.splitlines()[-1]:
        line += os.read(reading, 1) + b""
        while not line.endswith(b"\n"):
            line += os.read(reading, 1)
    port = int(line.split(b"port=")[1])
    sender = socket.socket(socket.AF_INET, socket.SOCK_DGRAM)
    sender.settimeout(0.2)
    sender.sendto(metadata(7, 16, 60000), ("127.0.0.1", port))
    for turn in range(3):
        for start in range(0, 60000, 25):
            sender.sendto(data(7, 16, start, text[start:start + 25]), ("127.0.0.1", port))
            if start % 2500 == 0:
                time.sleep(0.002)
    for _ in range(20):
        sender.sendto(data(7, 16, 0, text[:30000], WANTED), ("127.0.0.1", port))
        sender.sendto(data(7, 16, 30000, text[30000:], WANTED), ("127.0.0.1", port))
        time.sleep(0.05)
    Link.wait(lambda: holds(place, "00000007.page", text))
    process.send_signal(signal.SIGTERM)
    status = process.wait(timeout=5)
    os.close(reading)
    process.stderr.close()
    sender.close()
    check(status in (0, 1), status)


def few_answers(program, place):
    """One who asks for STATUS thousands of times a second gets some hundred, and the last request is answered."""
    text = page(1000, 111)
    link = Link(program, place, "--answers", "50")
    link.quiet_send(metadata(7, 16, 1000))
    begun = time.monotonic()
    answers = sent = 0
    while time.monotonic() < begun + 1.5:
        link.socket.sendto(data(7, 16, sent % 900, text[sent % 900:sent % 900 + 1], WANTED), ("127.0.0.1", link.port))
        sent += 1
        while select.select([link.socket], [], [], 0)[0]:
            link.socket.recv(65535)
            answers += 1
    link.drain()
    check(sent > 1000 and answers < 150, f"{answers} answers to {sent} requests")
    check(answers >= 20, f"{answers} answers: whoever asks often is never answered")
    check(link.send(data(7, 16, 0, text, WANTED)) is not None, "the last request isn't answered")
    check(link.end() == 0, link.told)


def taken_as_documented(program, place):
    """A page that is taken away with its .meta and its sheet is no fault at the next start."""
    text = page(100, 112)
    run(program, place, "-", octets=records([metadata(7, 16, 100), data(7, 16, 0, text)]))
    for name in os.listdir(place):
        if name.startswith("00000007"):
            os.remove(os.path.join(place, name))
    lines, told, status = run(program, place, "-")
    check((told, status) == ("", 0) and not any(" close " in line or " complete id" in line for line in lines), (lines, told))


def idle_and_strangers(program, place):
    """--idle counts packets of senders that are heard; others don't hold the end off."""
    link = Link(program, place, "--idle", "1", peer=("--peer", "127.0.0.9"))
    for _ in range(30):
        if link.process.poll() is not None:
            break
        link.socket.sendto(b"x", ("127.0.0.1", link.port))
        time.sleep(0.1)
    check(link.process.poll() == 0, "strangers hold --idle off")
    link.end()


def which_file_is_closed(program, place):
    """The name of an earlier file closes nothing; and two lines in `close` are two requests."""
    text = page(100, 113)
    link = Link(program, place)
    link.quiet_send(metadata(31, 16, 100, b"a"), data(31, 16, 0, text, WANTED))
    link.wait(lambda: any(" complete id=31 " in line for line in link.lines))
    old = os.path.basename(at(place, "0000001f.page"))
    link.quiet_send(metadata(31, 16, 100, b"b"), metadata(32, 16, 100), data(31, 16, 0, text[:5], WANTED))
    got = run(program, place, "--close", old)
    check(got[2] == 1 and "isn't open" in got[1] and 31 in stored(place), f"the name of an earlier file closes a later one: {got}")
    with open(os.path.join(place, "close.part"), "w", encoding="ascii") as file:
        file.write("31\n32\n")
    os.rename(os.path.join(place, "close.part"), os.path.join(place, "close"))
    link.wait(lambda: not {31, 32} & set(stored(place)))
    got = run(program, place, "--close", "\x1b[2J")
    check("\x1b" not in got[1] and got[2] == 2, got)
    check(link.end() == 0, link.told)


def closed_descriptors(program, place):
    """Without descriptors 0 to 2 no line and no message goes into a file of the directory."""
    text, file = page(100, 118), os.path.join(os.path.dirname(place), "closed.pass")
    with open(file, "wb") as made:
        made.write(records([metadata(7, 16, 100), metadata(8, 16, 9, flags=0x11, checksum=b"\1\2\3\4"), data(7, 16, 0, text)]))
    for source in (("--udp", "0", "--any-peer", "--idle", "1"), (file,)):
        done = subprocess.run(["sh", "-c", 'exec "$@" <&- >&- 2>&-', "sh", program, "-d", place, *source], check=False, timeout=20)
        check(done.returncode in (0, 1), done)
    check(holds(place, "00000007.page", text), "the page")
    check(all(b"listening" not in content(place, name) and b"is refused" not in content(place, name) for name in os.listdir(place)),
          "a line went into a file")


def one_without_a_name(program, place):
    """A page that can't get its name holds nothing else up: others are reported, and make room. It isn't tried without a pause."""
    text = page(20, 114)
    link = Link(program, place)
    link.quiet_send(metadata(0, 16, 20))
    os.mkdir(os.path.join(place, f"00000000.{numbers(place, 0)[0]}.page"))
    link.send(data(0, 16, 0, text))
    for ident in range(1, 16):
        link.send(metadata(ident, 16, 20))
        link.send(data(ident, 16, 0, text))
    link.wait(lambda: sum(" complete id=" in line for line in link.lines) == 15)
    link.send(metadata(77, 16, 20))
    link.wait(lambda: any(" open id=77 " in line for line in link.lines))
    before = ticks(link.process.pid)
    time.sleep(2)
    check(ticks(link.process.pid) - before < 5, "a page that waits for its name keeps the program at work")
    check(link.end() == 1, "a page without a name, and the exit status says nothing")
    check(sum("can't get its name" in line for line in link.told) == 1, link.told)


def ticks(process):
    """How much a process was at work, in hundredths of a second."""
    fields = content(f"/proc/{process}/stat").rsplit(b")", 1)[1].split()
    return int(fields[11]) + int(fields[12])


def repair_status(program, place):
    """With --repair-status each packet that needs a 65th run is answered with the STATUS, as of a sync; many share one."""
    link = Link(program, place, "--repair-status")
    link.quiet_send(metadata(7, 32, 9000))
    for start in range(0, 128, 2):
        link.socket.sendto(data(7, 32, start, b"x"), ("127.0.0.1", link.port))
    for start in range(1000, 1400, 2):
        link.socket.sendto(data(7, 32, start, b"x"), ("127.0.0.1", link.port))
    heard = [link.heard()]
    while heard[-1] is not None:
        heard.append(link.heard())
    check(1 < len(heard) < 100, f"{len(heard) - 1} STATUS for 200 packets that were refused")
    check(all(answer == success(7, 32, 1, 127, [(at, at + 1) for at in range(1, 127, 2)], flags=UNASKED) for answer in heard[:-1]), heard[0])
    check(link.end() == 0, link.told)


def whole_lines(program, place):
    """A program that is killed leaves no half line in its log; SIGHUP is an orderly end; a `close` that can't go is told once."""
    log = os.path.join(os.path.dirname(place), "log")
    for _ in range(4):
        with open(log, "ab") as file:
            process = subprocess.Popen([program, "-d", place, "--no-fsync", "-"], stdin=subprocess.PIPE, stdout=file,
                                       stderr=subprocess.DEVNULL)
        STARTED.processes.append(process)
        process.stdin.write(records([metadata(7, 16, 60000), *[data(7, 16, start, b"x" * 7) for start in range(0, 30000, 7)]]))
        process.stdin.flush()
        time.sleep(0.05)
        process.kill()
        process.communicate()
        check(content(log) == b"" or content(log).endswith(b"\n"), "a half line")
    check(all(line.split(b" ")[0].isdigit() for line in content(log).splitlines()), "joined lines")
    link = Link(program, place)
    link.send(metadata(9, 16, 20))
    os.mkdir(os.path.join(place, "close"))
    link.process.send_signal(signal.SIGHUP)
    check(link.process.wait(timeout=5) == 0, "SIGHUP ends it without saving")
    link.end()
    check(9 in stored(place) and is_there(place, "00000009.sheet"), "SIGHUP ends it without saving")


def peers(program, place):
    """--peer takes a network and a scope, and nothing that is neither."""
    for peer in ("10.1.0.0/33", "10.1.0.0/", "10.1.0.0/x", "::/129", "127.0.0.1%lo", "fe80::1%nosuchif0", "10.1.0.0/8%lo", "/8"):
        check(run(program, place, "--udp", "0", "--idle", "1", "--peer", peer)[2] == 2, f"taken: {peer}")
    for number, (peer, heard) in enumerate((("127.0.0.0/8", 1), ("127.0.0.1/32", 1), ("127.0.0.2/31", 0), ("128.0.0.0/1", 0),
                                            ("0.0.0.0/0", 1), ("fe80::1%1", 0), ("::/0", 1))):
        here = os.path.join(place, str(number))
        os.mkdir(here)
        link = Link(program, here, peer=("--peer", peer))
        check((link.send(metadata(7, 16, 9)) is not None) == bool(heard), f"{peer}: {heard}")
        link.end()
    version = run(program, place, "--version")
    check(version[0][0].startswith("saratoga-link (saratoga) ") and version[2] == 0, version)


TESTS = (other_octets, one_batch, lingers, owners, answered_after_a_kill, flipped_area, cut_short, ended_by_its_sender, full_table_is_told,
         answers_from_where_it_was_asked, nobody_reads, few_answers, taken_as_documented, idle_and_strangers, which_file_is_closed,
         closed_descriptors, one_without_a_name, repair_status, whole_lines, peers)


def all_of_it(program, place):
    """Runs everything; `place` gives a new directory for a name."""
    full = failing(program + "-failing")
    side_by_side([(test, program) for test in TESTS] + [(test, full) for test in (
        unwritable, other_octets_before_the_report, shared_syncs, opened_while_it_syncs, unremovable)], place)
