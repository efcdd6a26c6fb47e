"""Tests of the link program as a service: its hook, its service manager, its log and its file of options. Run by test.py; each function
takes the program and an empty directory."""
import hashlib
import os
import random
import re
import shutil
import signal
import socket
import subprocess
import time
from datetime import datetime, timezone

from harness import (FAILS, NOSPACE, POWERCUT, ROOT, SOURCES, WRAPPED, after_the_cut, at, build, check, content, edited, failing, is_there, numbers, page,
                     records, run)
from packets import WANTED, data, metadata
from plant import STARTED, Link, is_complete, one_of_it, side_by_side

UNIT = os.path.join(ROOT, "host", "systemd", "saratoga-link@.service")
EXAMPLE = os.path.join(ROOT, "host", "systemd", "saratoga-link.conf.example")
BEGAN, ENDED = "began", "ended"

# What the hooks of these tests do: note that they began, and with which page; wait while the file `hold` is there; end with the status in
# the file `status`.
HOOK = """#!/bin/sh
here=${0%/*}
echo "began $1" >>"$here/notes"
while [ -e "$here/hold" ]; do sleep 0.02; done
echo "ended $1" >>"$here/notes"
if [ -e "$here/status" ]; then exit "$(cat "$here/status")"; fi
exit 0
"""


class Hook:
    """A program for --on-complete, in a folder with a blank, and what it noted."""

    def __init__(self, place, text=HOOK):
        self.folder = place + " the hook"
        os.makedirs(self.folder, exist_ok=True)
        self.path = os.path.join(self.folder, "run me")
        with open(self.path, "w", encoding="ascii") as file:
            file.write(text)
        os.chmod(self.path, 0o755)

    def set(self, name, text=""):
        with open(os.path.join(self.folder, name), "w", encoding="ascii") as file:
            file.write(text)

    def unset(self, name):
        os.remove(os.path.join(self.folder, name))

    def notes(self, which=BEGAN):
        path = os.path.join(self.folder, "notes")
        lines = content(path).decode().splitlines() if os.path.exists(path) else []
        return [line.split(" ", 1)[1] for line in lines if line.startswith(which + " ")]


def pages(*idents, length=60):
    """METADATA and DATA of small files, each with its MD5."""
    return [packet for ident in idents for packet in (
        metadata(ident, 16, length, flags=0x42, checksum=hashlib.md5(page(length, ident)).digest()),
        data(ident, 16, 0, page(length, ident)))]


def hook_lines(lines):
    return [line for line in lines if " hook id=" in line]


def notes_left(place):
    return sorted(name for name in os.listdir(place) if name.endswith(".hook"))


# The hook.


def handed_over(program, place):
    """A page is handed over with its .meta and its sheet, by paths that work anywhere; the hook has nothing else of the program."""
    hook = Hook(place, HOOK.replace("exit 0\n", """
{ for file; do cat "$file"; done; } >"$here/contents"
printf '%s\\n' "$@" >"$here/arguments"
ls -l /proc/self/fd >"$here/descriptors"
grep -E '^Sig(Blk|Ign|Cgt)' /proc/self/status >"$here/signals"
env >"$here/variables"
read -r anything && exit 9
echo "standard output of the hook"
exit 0
"""))
    odd = place + "; echo $(touch harm) 'x'"
    os.rename(place, odd)
    reading, writing = os.pipe()
    with open(place + ".lines", "wb") as out:
        done = subprocess.run([program, "-d", os.path.basename(odd), "--on-complete", hook.path, "-"], input=records(pages(7)),
                              stdout=out, stderr=subprocess.PIPE, cwd=os.path.dirname(place), pass_fds=(reading, writing),
                              env=dict(os.environ, NOTIFY_SOCKET="", WATCHDOG_USEC="5"), check=False, timeout=20)
    os.close(reading)
    os.close(writing)
    lines = content(place + ".lines").decode().splitlines()
    check(done.returncode == 0 and done.stderr == b"standard output of the hook\n", done)
    check(hook_lines(lines) == ["0 hook id=7 file=00000007.1.page status=0"], lines)
    check([" complete id=7 " in line for line in lines].index(True) < lines.index(hook_lines(lines)[0]), lines)
    names = [os.path.join(os.path.realpath(odd), "00000007.1." + ending) for ending in ("page", "meta", "sheet")]
    check(content(hook.folder, "arguments").decode().splitlines() == names, content(hook.folder, "arguments"))
    check(content(hook.folder, "contents") == b"".join(content(name) for name in names), "the files aren't those of the page")
    opened = re.findall(r" (\d+) -> (.*)", content(hook.folder, "descriptors").decode())
    check(dict(opened)["0"] == "/dev/null" and {number for number, _ in opened} == {"0", "1", "2", "3"}, opened)
    signals = dict(line.split(":\t") for line in content(hook.folder, "signals").decode().splitlines())
    ordinary = (1 << 31) - 1  # signals 32 and 33 are the C library's own
    check(int(signals["SigIgn"], 16) & ordinary == 0 and int(signals["SigBlk"], 16) == 0, signals)
    check(b"WATCHDOG_USEC" not in content(hook.folder, "variables") and b"NOTIFY_SOCKET" not in content(hook.folder, "variables"),
          "the hook may speak for the program")
    check(notes_left(odd) == [], "the note stays")
    os.rename(odd, place)


def failed_and_differs(program, place):
    """How a hook ended is told, and one that failed is run again at the next start, and only then. What differs is never handed over."""
    hook = Hook(place)
    spoilt = [metadata(8, 16, 60, flags=0x42, checksum=bytes(16)), data(8, 16, 0, page(60, 8))]
    hook.set("status", "7")
    lines, told, status = run(program, place, "--on-complete", hook.path, "-", octets=records(pages(7) + spoilt))
    check(status == 3 and hook_lines(lines) == ["0 hook id=7 file=00000007.1.page status=7"], (lines, status))
    check("the hook of" in told and "00000007.1.page failed" in told, told)
    hook.unset("status")
    lines, told, status = run(program, place, "-q", "--on-complete", hook.path, "-")
    check(hook_lines(lines) == ["0 hook id=7 file=00000007.1.page status=0"] and (told, status) == ("", 0), (lines, told))
    lines, told, status = run(program, place, "--on-complete", hook.path, "-")
    check(hook_lines(lines) == [] and any(" complete id=7 " in line for line in lines), f"it is handed over once more: {lines}")
    check([os.path.basename(name) for name in hook.notes()] == 2 * ["00000007.1.page"], hook.notes())
    # Another file under the Id; its hook is killed.
    Hook(place, "#!/bin/sh\nkill -9 $$\n")
    lines, told, status = run(program, place, "--on-complete", hook.path, "-", octets=records(pages(9)))
    check(hook_lines(lines) == ["0 hook id=9 file=00000009.3.page signal=9"] and status == 1, (lines, status))
    # Without the option nothing is handed over, and nothing forgotten.
    lines, told, status = run(program, place, "-")
    check(hook_lines(lines) == [] and notes_left(place) == ["00000009.3.hook"] and status == 0, (lines, told))


def after_a_kill(program, place):
    """Killed while the hook runs, the program runs it again: as long as the transfer is open, and once it is closed."""
    for linger in ("60", "0"):
        here = os.path.join(place, linger, "here")
        os.makedirs(here)
        hook = Hook(here)
        hook.set("hold")
        link = Link(program, here, "--on-complete", hook.path, "--linger", linger)
        link.quiet_send(*pages(7))
        link.wait(lambda: hook.notes())  # pylint: disable=cell-var-from-loop
        if linger == "0":
            link.wait(lambda: any(" close id=7 lingered " in line for line in link.lines))  # pylint: disable=cell-var-from-loop
            link.quiet_send(metadata(9, 16, 60))  # its answer says that the closing is on disk
        link.process.kill()
        link.process.wait()
        hook.unset("hold")
        link.wait(lambda: hook.notes(ENDED))  # pylint: disable=cell-var-from-loop
        link.end()
        check(notes_left(here) == ["00000007.1.hook"], os.listdir(here))
        lines, told, status = run(program, here, "--on-complete", hook.path, "-")
        check(hook_lines(lines) == ["0 hook id=7 file=00000007.1.page status=0"] and status == 0, (lines, told))
        check(any(" complete id=7 " in line for line in lines) == (linger == "60"), f"{linger}: {lines}")
        check(len(hook.notes(ENDED)) == 2 and notes_left(here) == [], hook.notes())


def not_what_it_was(program, place):
    """A page of a closed transfer that was changed, or taken away, before its hook ended."""
    hook = Hook(place)
    hook.set("status", "1")
    run(program, place, "--on-complete", hook.path, "--linger", "0", "-", octets=records(pages(7, 8, 9)))
    run(program, place, "--on-complete", hook.path, "--linger", "0", "-")
    check(notes_left(place) == [f"0000000{ident}.{ident - 6}.hook" for ident in (7, 8, 9)], os.listdir(place))
    hook.unset("status")
    hook.unset("notes")
    with open(at(place, "00000007.page"), "r+b") as file:
        file.write(bytes([page(60, 7)[0] ^ 1]))
    os.remove(at(place, "00000008.page"))
    lines, told, status = run(program, place, "--on-complete", hook.path, "-")
    check(sorted(hook_lines(lines)) == ["0 hook id=8 file=00000008.2.page gone", "0 hook id=9 file=00000009.3.page status=0"], lines)
    check("00000007.1.page: isn't what its .meta says, and is NOT handed on" in told and status == 1, told)
    check([os.path.basename(name) for name in hook.notes()] == ["00000009.3.page"], hook.notes())
    check(notes_left(place) == ["00000007.1.hook"], notes_left(place))


def slow_hooks(program, place):
    """Hooks that don't end stop nothing: packets are taken and answered, pages reported. No more run than may, and all get their turn."""
    hook = Hook(place)
    hook.set("hold")
    link = Link(program, place, "--on-complete", hook.path, "--hooks", "2")
    for ident in range(1, 8):
        link.send(pages(ident)[0])
        begun = time.monotonic()
        check(is_complete(link.send(data(ident, 16, 0, page(60, ident), WANTED)), 60), f"page {ident} isn't answered")
        check(time.monotonic() - begun < 0.5, "the answer waits for a hook")
    link.wait(lambda: sum(" complete id=" in line for line in link.lines) == 7)
    time.sleep(0.3)
    check(len(hook.notes()) == 2 and hook_lines(link.lines) == [], f"{len(hook.notes())} hooks run: {link.lines}")
    hook.unset("hold")
    link.wait(lambda: len(hook_lines(link.lines)) == 7)
    check(sorted(hook.notes()) == sorted(set(hook.notes())) and len(hook.notes()) == 7, hook.notes())
    check(link.end() == 0 and notes_left(place) == [], link.told)


def at_the_end(program, place):
    """A program that ends waits for hooks that run, so long; of a pass all are run."""
    hook = Hook(place)
    hook.set("hold")
    link = Link(program, place, "--on-complete", hook.path, "--hooks", "1")
    link.quiet_send(*pages(7, 8))
    link.wait(lambda: hook.notes())
    link.process.send_signal(signal.SIGTERM)
    link.wait(lambda: "0 hooks running=1 waiting=1" in link.lines)
    check(link.process.poll() is None, "it doesn't wait for its hook")
    hook.unset("hold")
    check(link.end() == 0 and hook_lines(link.lines) == ["0 hook id=7 file=00000007.1.page status=0"], link.lines)
    check(link.told == ["saratoga-link: the hooks of 0 pages still run, and those of 1 weren't started; they are run again at the next "
                        "start"], link.told)
    hook.set("hold")
    begun, log = time.monotonic(), place + ".told"  # a hook that goes on would keep a pipe open
    with open(log, "wb") as told:
        status = subprocess.run([program, "-d", place, "--on-complete", hook.path, "--hook-wait", "1", "-"], stdin=subprocess.DEVNULL,
                                stdout=told, stderr=told, check=False, timeout=20).returncode
    check(0.9 < time.monotonic() - begun < 5 and b"the hooks of 1 pages still run" in content(log) and status == 0, content(log))
    hook.unset("hold")
    lines, told, status = run(program, place, "--on-complete", hook.path, "--hooks", "1", "-", octets=records(pages(*range(20, 30))))
    check(len(hook_lines(lines)) == 11 and (told, status) == ("", 0), (lines, told))


def no_such_hook(program, place):
    """One that isn't there is found before anything is written. One that goes is told once and tried again; no page is forgotten."""
    for path, why in (("/nowhere/hook", "No such file"), (os.path.dirname(place), "it is no file"), (EXAMPLE, "Permission denied")):
        got = run(program, place, "--on-complete", path, "-", octets=records(pages(7)))
        if path != EXAMPLE or os.geteuid() != 0 or not os.access(EXAMPLE, os.X_OK):
            check(got[0] == [] and got[2] == 1 and why in got[1] and f"saratoga-link: {path}: can't be run" in got[1], got)
    check(os.listdir(place) == [], os.listdir(place))
    hook = Hook(place)
    link = Link(program, place, "--on-complete", hook.path)
    os.rename(hook.path, hook.path + " not")
    link.quiet_send(*pages(7, 8))
    link.wait(lambda: any("can't be started for 00000007.1.page: No such file" in line for line in link.told))
    check(link.send(metadata(9, 16, 60)) is not None, "it stops for a hook that isn't there")
    os.rename(hook.path + " not", hook.path)
    link.wait(lambda: len(hook_lines(link.lines)) == 2)
    check(link.end() == 1 and len(link.told) == 1, link.told)


def no_room_for_a_note(program, place):
    """`program` is built with nospace.c. A page whose note can't be made isn't reported until it can, and then it is handed over."""
    hook, marker = Hook(place), place + ".nospace"
    link = Link(program, place, "--on-complete", hook.path, NOSPACE=marker)
    link.quiet_send(pages(7)[0])
    os.mkdir(os.path.join(place, f"00000007.{numbers(place, 7)[0]}.hook"))
    link.quiet_send(pages(7)[1])
    link.wait(lambda: any("can't be made, and the page waits" in line for line in link.told))
    check(not any(" complete id=7 " in line for line in link.lines), link.lines)
    os.rmdir(at(place, "00000007.hook"))
    link.wait(lambda: hook_lines(link.lines) == ["0 hook id=7 file=00000007.1.page status=0"])
    check(link.end() == 1, "a page had to wait, and the exit status says nothing")


def cut_with_a_hook(program, place):
    """`program` has cut points. Ended at each of them, and again after each restart: every page is handed over at least once, and whole."""
    looks = HOOK.replace("exit 0\n", 'cmp -s "$1" "$here/whole" || echo "torn $1" >>"$here/notes"\nexit 0\n')
    count = 0
    while True:
        count += 1
        here = os.path.join(place, str(count), "here")
        os.makedirs(here)
        hook = Hook(here, looks)
        with open(os.path.join(hook.folder, "whole"), "wb") as file:
            file.write(page(60, 7))
        for cut in (count, count, 0):
            status = run(program, here, "--no-fsync", "-q", "--linger", "0", "--on-complete", hook.path, "-", octets=records(pages(7)),
                         LINK_CUT=str(cut))[2]
            check(status in (0, 99), status)
            if status == 0:
                break
        Link.wait(lambda: len(hook.notes()) == len(hook.notes(ENDED)))  # pylint: disable=cell-var-from-loop
        kept = [name for name in os.listdir(here) if name.endswith(".page")]
        for name in kept:
            check(any(os.path.basename(path) == name for path in hook.notes(ENDED)), f"{name} wasn't handed over after a cut at {count}")
        check(kept and notes_left(here) == [], f"after a cut at {count}: {sorted(os.listdir(here))}")
        check(hook.notes("torn") == [], f"after a cut at {count} a page is handed over that isn't whole")
        if cut == count and status == 0:
            return count - 1


def power_cut_with_a_hook(program, place, plain):
    """`program` is built with powercut.c. The power goes at each call; the hook fails before that. Whatever of the rest is on disk, a page
    that is there is handed over after the restart. Gives the number of calls."""
    chance = random.Random(614)
    count, status = 0, 98
    while status == 98:
        count += 1
        here, disk = os.path.join(place, str(count)), os.path.join(place, f"{count}-disk")
        os.mkdir(here)
        os.mkdir(disk)
        words = ("-q", "--linger", "0", "--on-complete")
        status = run(program, here, *words, Hook(here, "#!/bin/sh\nexit 1\n").path, "-", octets=records(pages(7)), POWERCUT=str(count),
                     POWERCUT_DISK=disk)[2]
        check(status in (1, 98), status)
        for number, how in enumerate(("none", "names", "some", "some", "some")):
            left = os.path.join(place, f"{count}-{number}")
            after_the_cut(disk, here, left, how, chance)
            found = [name for name in os.listdir(left) if name.endswith(".page")]
            lines, told, _ = run(plain, left, *words, Hook(left).path, "-")
            for name in found:
                check(any(f" file={name} status=0" in line for line in lines), f"call {count}, {how}: {name} isn't handed over: {told}")
    return count - 1


# The service manager.


class Manager:
    """A socket that a service manager would have, and what it was told."""

    def __init__(self, name):
        self.name = name
        self.socket = socket.socket(socket.AF_UNIX, socket.SOCK_DGRAM)
        self.socket.bind("\0" + name[1:] if name.startswith("@") else name)
        self.socket.setblocking(False)
        self.told = []

    def hear(self):
        """Adds what was told, with the time."""
        while True:
            try:
                self.told.append((time.monotonic(), self.socket.recv(4096).decode()))
            except BlockingIOError:
                return [text for _, text in self.told]

    def fed(self, seconds):
        """How often the watchdog was fed in so many seconds from now."""
        self.hear()
        before = len(self.told)
        time.sleep(seconds)
        self.hear()
        return sum(text == "WATCHDOG=1" for _, text in self.told[before:])


def managed(program, place):
    """READY once packets are heard, STATUS as it changes, STOPPING at the end; by a path and by an abstract name."""
    for name in (place + ".notify", f"@saratoga-test-{os.getpid()}-{place}"[:100]):
        here = os.path.join(place, "path" if name.startswith("/") else "name")
        os.mkdir(here)
        manager = Manager(name)
        link = Link(program, here, NOTIFY_SOCKET=name)
        check(manager.hear() == [f"READY=1\nSTATUS=listening on 127.0.0.1, port {link.port}; transfers open: 0, of them complete: 0"],
              manager.told)
        link.quiet_send(metadata(7, 16, 60), metadata(8, 16, 0))
        link.wait(lambda: any(text.endswith("transfers open: 2, of them complete: 1") for text in manager.hear()))  # pylint: disable=cell-var-from-loop
        count = len(manager.hear())
        link.process.send_signal(signal.SIGHUP)
        time.sleep(0.3)
        check(link.send(metadata(9, 16, 60)) is not None, "SIGHUP ends a service that has no log")
        check(link.end() == 0, link.told)
        told = manager.hear()
        check(told[-1].startswith("STOPPING=1\nSTATUS=ending;") and not any("WATCHDOG" in text for text in told), told)
        check(len(told) <= count + 3, told)
        manager.socket.close()
    got = run(program, place, "-", NOTIFY_SOCKET="nowhere")
    check("NOTIFY_SOCKET names no socket" in got[1] and got[2] == 0, got)
    got = run(program, place, "-", NOTIFY_SOCKET=place + "/none")
    check("the service manager can't be told anything: No such file" in got[1] and got[2] == 0, got)


def watched(program, place):
    """`program` is built with nospace.c. The watchdog is fed at half its time by the thread that takes packets, while the disk answers."""
    name, marker = place + ".notify", place + ".nospace"
    manager = Manager(name)
    link = Link(program, place, NOTIFY_SOCKET=name, WATCHDOG_USEC="300000", NOSPACE=marker)
    check(5 <= manager.fed(1.2) <= 9, manager.told)
    link.process.send_signal(signal.SIGSTOP)
    manager.fed(0.1)
    check(manager.fed(0.4) == 0, "a program that is stopped feeds it")
    link.process.send_signal(signal.SIGCONT)
    check(manager.fed(0.5) >= 2, "it isn't fed again")
    with open(marker, "w", encoding="ascii") as file:
        file.write("y")
    link.socket.sendto(metadata(7, 16, 60), ("127.0.0.1", link.port))
    manager.fed(0.7)
    check(manager.fed(0.5) == 0, "a disk that doesn't answer isn't seen")
    os.remove(marker)
    check(manager.fed(0.5) >= 2, "it isn't fed again")
    check(link.end() == 0, link.told)
    other = Link(program, place, NOTIFY_SOCKET=name, WATCHDOG_USEC="100000", WATCHDOG_PID="1")
    check(manager.fed(0.3) == 0, "another program's watchdog is fed")
    check(other.end() == 0, other.told)
    manager.socket.close()


# The log.


def logged(program, place):
    """Lines go to the file, after what it has; SIGHUP opens it anew, and no line is lost between; a file that can't be opened is told."""
    log = place + ".log"
    with open(log, "w", encoding="ascii") as file:
        file.write("what was there\n")
    process = subprocess.Popen([program, "-d", place, "--udp", "0", "--any-peer", "--log", log], stdout=subprocess.PIPE,
                               stderr=subprocess.PIPE)
    STARTED.processes.append(process)
    Link.wait(lambda: b" listening " in content(log))
    port = int(re.search(rb"port=(\d+)", content(log))[1])
    sender = socket.socket(socket.AF_INET, socket.SOCK_DGRAM)
    sender.settimeout(2)
    for number in range(1, 7):
        sender.sendto(metadata(number, 16, 60), ("127.0.0.1", port))
        sender.recv(100)
        if number % 2 == 0:
            os.rename(log, f"{log}.{number}")
            process.send_signal(signal.SIGHUP)
            Link.wait(lambda: os.path.exists(log))
    os.rename(log, log + ".8")
    os.mkdir(log)
    process.send_signal(signal.SIGHUP)
    time.sleep(0.3)
    sender.sendto(metadata(8, 16, 60), ("127.0.0.1", port))
    sender.recv(100)
    sender.close()
    process.send_signal(signal.SIGTERM)
    out, told = process.communicate(timeout=10)
    parts = [content(f"{log}.{number}").decode() for number in (2, 4, 6, 8)]
    check(parts[0].startswith("what was there\n0 listening ") and (out, process.returncode) == (b"", 0), (parts, out))
    check(told.decode() == f"saratoga-link: {log}: can't be opened anew: Is a directory; lines go to the file that was open\n", told)
    check([re.findall(r" open id=(\d)", part) for part in parts] == [["1", "2"], ["3", "4"], ["5", "6"], ["8"]], parts)
    for path in (log, "/nowhere/log"):
        got = run(program, place, "--log", path, "-")
        check(got[2] == 1 and f"saratoga-link: {path}: " in got[1], got)
    os.rmdir(log)
    # Ignored from the start, SIGHUP ends nothing.
    process = subprocess.Popen(["sh", "-c", 'trap "" HUP; exec "$@"', "sh", program, "-d", place, "--udp", "0", "--any-peer"],
                               stdout=subprocess.PIPE)
    STARTED.processes.append(process)
    while b" listening " not in process.stdout.readline():
        pass
    process.send_signal(signal.SIGHUP)
    time.sleep(0.2)
    check(process.poll() is None, "nohup doesn't help")
    process.send_signal(signal.SIGTERM)
    process.communicate(timeout=10)


def times(program, place):
    """Each line and each message begins with the time in UTC, and is else what it was."""
    octets = records([metadata(7, 16, 60), data(7, 16, 0, b"x"), metadata(7, 16, 61), data(7, 16, 0, page(61, 7)), data(9, 16, 0, b"x")])
    plain = os.path.join(place, "plain")
    os.mkdir(plain)
    expected = run(program, plain, "-", octets=octets)
    before = datetime.now(timezone.utc).replace(microsecond=0)
    os.environ["TZ"], zone = "Asia/Kathmandu", os.environ.get("TZ")
    here = os.path.join(place, "timed")
    os.mkdir(here)
    lines, told, status = run(program, here, "--times", "-", octets=octets)
    os.environ.pop("TZ")
    if zone is not None:
        os.environ["TZ"] = zone
    after = datetime.now(timezone.utc)
    rest = []
    for line in lines + told.splitlines():
        check(re.fullmatch(r"\d{4}-\d\d-\d\dT\d\d:\d\d:\d\d\.\d{3}Z .+", line), line)
        check(before <= datetime.fromisoformat(line[:23] + "+00:00") <= after, line)
        rest.append(line[25:])
    check((rest, status) == (expected[0] + expected[1].replace(plain, here).splitlines(), expected[2]) and told, (rest, expected))


# The file of options.


def config(program, place):
    """What a file says is as if it stood before the command line; what is wrong is told with its line."""
    path = place + ".conf"

    def told(text, *words, octets=b""):
        with open(path, "wb") as file:
            file.write(text.encode("latin-1"))
        return run(program, place, "--config", path, *words, octets=octets)

    for text, line, why in (
            ("udp 1\nwhat 3\n", 2, "no such option: --what"), ("\n\n idle x\n", 3, "--idle takes a number"), ("idle", 1, "--idle takes a value"),
            ("quiet yes", 1, "--quiet takes no value"), ("list", 1, "--list belongs on the command line"), ("q", 1, "no such option: --q"),
            ("#\nconfig x", 2, "--config belongs on the command line"), ("close=31", 1, "--close belongs on"), ("help", 1, "--help belongs"),
            ("answers=0", 1, "--answers takes a number that isn't 0"), ("peer 1.2.3", 1, "--peer takes a numeric address"),
            ("a\0b", 1, "the line has an octet 0"), ("\x1b[2J", 1, "no such option: --\\x1b[2J"), ("x" * 100, 1, "no such option: --xxx")):
        got = told(text, "-")
        check(got[0] == [] and got[2] == 2 and got[1].startswith(f"saratoga-link: {path}:{line}: {why}"), (text, got))
    for name, why in (("/nowhere", "No such file"), ("/", "Is a directory")):
        got = run(program, place, "--config", name, "-")
        check(got[2] == 1 and f"saratoga-link: {name}: {why}" in got[1], got)
    check(told("#" * 70000, "-")[2] == 1 and os.listdir(place) == [], "a file that is too long")
    packet = records([metadata(7, 16, 60)])
    check(told("largest = 59\r\n", "-", octets=packet)[0] == ["1 too-large id=7 length=60 code=8", "1 send 4400000800000007"], "name = value")
    for text in ("largest 59", "\t largest=59 \n", "largest\t59\n#largest 60\n", "udp 1\nlargest   59\nany-peer"):
        check(told(text, "-q", "-", octets=packet) == ([], "", 0) and not is_there(place, "00000007.part"), text)
        got = told(text, "--largest=60", "-", octets=packet)
        check(" open id=7 " in got[0][0] and got[2] == 0, f"the command line doesn't win: {got}")
        check(told(text, "--close", "7")[2] == 0, "--close with a file")
    # A service's file serves --list too, and blanks within a value stay.
    blank = place + " with a blank"
    os.mkdir(blank)
    check(run(program, blank, "-", octets=packet)[2] == 0, "the files aren't made")
    with open(path, "w", encoding="ascii") as file:
        file.write(f"directory  {blank} \nudp 7542\npeer 127.0.0.1\nsettings /nowhere\nlog /nowhere/log\ntimes\non-complete /nowhere/hook\n")
    done = subprocess.run([program, "--config=" + path, "--list"], capture_output=True, check=False, timeout=20)
    check(done.stdout.startswith(b"id=7 width=16 ") and done.returncode == 0, done)
    # Peers of the file and of the command line are both heard.
    with open(path, "w", encoding="ascii") as file:
        file.write("udp 1\npeer 127.0.0.1\n")
    link = Link(program, place, "--config", path, "--address", "0.0.0.0", peer=("--peer", "127.0.0.2"))
    check(link.send(metadata(7, 16, 9)) is not None, "the file's peer isn't heard")
    check(link.end() == 0, link.told)


def shipped(program, place):
    """The example of a file of options runs; the unit starts the program with such a file, and systemd finds nothing wrong with it."""
    manager = Manager(place + ".notify")
    process = subprocess.Popen([program, "--config", EXAMPLE, "--directory", place, "--udp", "0"], stdout=subprocess.PIPE,
                               stderr=subprocess.PIPE, env=dict(os.environ, NOTIFY_SOCKET=manager.name))
    STARTED.processes.append(process)
    Link.wait(manager.hear)
    port = int(re.search(r"port (\d+)", manager.hear()[0])[1])
    sender = socket.socket(socket.AF_INET, socket.SOCK_DGRAM)
    for packet in pages(7):
        sender.sendto(packet, ("127.0.0.1", port))
    line = process.stdout.readline()
    sender.close()
    process.send_signal(signal.SIGTERM)
    out, told = process.communicate(timeout=10)
    manager.socket.close()
    check(b" complete id=7 " in line and b"md5=agrees" in line and (out, told, process.returncode) == (b"", b"", 0), (line, told))
    unit = content(UNIT).decode()
    check("ExecStart=@PREFIX@/bin/saratoga-link --config /etc/saratoga/%i.conf --directory /var/lib/saratoga/%i\n" in unit, unit)
    if shutil.which("systemd-analyze") is None:
        return "systemd-analyze isn't installed, and the unit wasn't verified"
    folder = place + ".unit"
    os.makedirs(os.path.join(folder, "bin"))
    shutil.copy(program, os.path.join(folder, "bin", "saratoga-link"))
    with open(os.path.join(folder, "saratoga-link@.service"), "w", encoding="utf-8") as file:
        file.write(unit.replace("@PREFIX@", folder))
    done = subprocess.run(["systemd-analyze", "verify", "--man=no", os.path.join(folder, "saratoga-link@test.service")],
                          capture_output=True, check=False, timeout=60)
    check(done.returncode == 0 and done.stderr == b"", done)
    return "systemd finds nothing wrong with the unit"


TESTS = (handed_over, failed_and_differs, after_a_kill, not_what_it_was, slow_hooks, at_the_end, no_such_hook, managed, logged, times, config)


def found(test, source, edits, place, *words):
    """A program made by edits, and with one source more, must fail a test, which may take more words."""
    os.mkdir(place + ".edited")
    changed = edited(edits, place + ".edited")
    wrong = build([*[changed.get(path, path) for path in SOURCES], source], place + ".out", *WRAPPED, *([FAILS] if source == NOSPACE else []))
    try:
        one_of_it(lambda program, here: test(program, here, *words), wrong, place)
    except AssertionError:
        return
    check(False, f"{test.__name__} doesn't find a wrong program")


def all_of_it(program, place, cutting, power):
    """Runs everything; `place` gives a new directory for a name. Gives what was verified of the unit, and how many places it was cut at."""
    full = failing(program + "-hanging")
    side_by_side([(test, program) for test in TESTS] + [(watched, full), (no_room_for_a_note, full)], lambda name: place("service-" + name))
    found(watched, NOSPACE, ("period > 0 && works(now) && ", "period > 0 && "), place("service-blind"))
    places = cut_with_a_hook(cutting, place("service-cut")) + power_cut_with_a_hook(power, place("service-power"), program)
    found(power_cut_with_a_hook, POWERCUT, ("    close(fd);\n    directory_changed = 1;\n    cut_point", "    close(fd);\n    cut_point"),
          place("service-unforced"), program)
    return shipped(program, place("service-shipped")), places
