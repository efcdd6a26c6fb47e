"""Tests of what a person sees of the link program: live lines on a terminal. The terminal is a pseudo-terminal, whose octets go to a small
model of a screen. Run by test.py; each function takes the program and an empty directory."""
import fcntl
import os
import pty
import re
import signal
import socket
import struct
import subprocess
import termios
import threading
import time

from harness import check, page, records, run
from packets import WANTED, data, metadata
from plant import STARTED, Link, one_of_it

ROW = re.compile(r"id=(\d+) +(\d+)% +(\d+) of (\d+) +(\d+(?:\.\d)?) (B|kB|MB)/s +(\d+) holes  heard (\d+) s ago  (\S*)  (.*)")


class Screen:
    """A terminal of some rows and columns, and all rows that were scrolled out of it. It knows what the program uses, and nothing else."""

    def __init__(self, height, width):
        self.height, self.width = height, width
        self.rows, self.joined = [""], [False]  # whether a row goes on in the next
        self.row = self.column = self.clears = 0
        self.pending = b""

    def feed(self, octets):
        octets = self.pending + octets
        self.pending = b""
        while octets:
            form = re.match(rb"\x1b(?:\[(\d*)([A-Z])?)?", octets)
            if form and form[2] is None and len(form[0]) == len(octets):
                self.pending = octets  # the rest of it is still to come
                return
            check(form is None or form[2] in (b"A", b"J"), f"an escape that the model doesn't know: {octets[:9]!r}")
            if form and form[2] == b"A":
                check(self.row - int(form[1]) >= max(0, len(self.rows) - self.height), "the cursor leaves the screen")
                self.row -= int(form[1])
            elif form:
                self.clear()
            else:
                self.put(octets[:1].decode("ascii"))
            octets = octets[form.end() if form else 1:]

    def clear(self):
        self.clears += 1
        self.rows[self.row] = self.rows[self.row][:self.column]
        self.rows[self.row + 1:] = []
        self.joined = self.joined[:self.row] + [False]

    def down(self, joins):
        self.joined[self.row] = joins
        self.row += 1
        if self.row == len(self.rows):
            self.rows.append("")
            self.joined.append(False)

    def put(self, char):
        if char == "\r":
            self.column = 0
        elif char == "\n":
            self.down(False)
        else:
            check(" " <= char <= "~", f"not printable: {char!r}")
            if self.column == self.width:
                self.down(True)
                self.column = 0
            row = self.rows[self.row].ljust(self.column)
            self.rows[self.row] = row[:self.column] + char + row[self.column + 1:]
            self.column += 1

    def lines(self):
        """What was printed, line by line, whatever the width."""
        whole = [""]
        for row, joins in zip(self.rows, self.joined):
            whole[-1] += row
            if not joins:
                whole.append("")
        return [line for line in whole if line]


class Terminal:
    """The program with a terminal as its standard output and error, unless others are given."""

    def __init__(self, arguments, height=24, width=200, kind="xterm", **streams):
        self.screen, self.lock, self.octets = Screen(height, width), threading.Lock(), b""
        self.master, slave = pty.openpty()
        fcntl.ioctl(slave, termios.TIOCSWINSZ, struct.pack("4H", height, width, 0, 0))
        streams = {"stdin": subprocess.PIPE, "stdout": slave, "stderr": slave, **streams}
        self.process = subprocess.Popen(arguments, env=dict(os.environ, TERM=kind), **streams)
        STARTED.processes.append(self.process)
        os.close(slave)
        self.wrong, self.reading = None, threading.Event()
        self.reading.set()
        self.thread = threading.Thread(target=self.read, daemon=True)
        self.thread.start()

    def read(self):
        try:
            while self.reading.wait() and (octets := os.read(self.master, 4096)):
                with self.lock:
                    self.octets += octets
                    self.screen.feed(octets)
        except OSError:
            pass  # the program has ended
        except AssertionError as reason:
            self.wrong = reason

    def lines(self):
        if self.wrong:
            raise self.wrong
        with self.lock:
            return self.screen.lines()

    def wait(self, true):
        Link.wait(lambda: true(self.lines()))

    def live(self):
        """The live lines, as numbers and texts, by their Id."""
        return {int(found[1]): found for found in map(ROW.fullmatch, self.lines()) if found}

    def send(self, octets):
        self.process.stdin.write(octets)
        self.process.stdin.flush()

    def end(self):
        if self.process.stdin:
            self.process.stdin.close()
        self.process.send_signal(signal.SIGTERM)
        status = self.process.wait(timeout=10)
        self.thread.join(timeout=10)
        os.close(self.master)
        return status


def on_loopback(program, place, *options, **settings):
    """The program on a terminal and a socket, and where it listens."""
    terminal = Terminal([program, "-d", place, "--udp", "0", "--peer", "127.0.0.1", *options], **settings)
    terminal.wait(lambda lines: any(" listening " in line for line in lines))
    line, = [line for line in terminal.lines() if " listening " in line]
    return terminal, ("127.0.0.1", int(line.split("port=")[1]))


def live_lines(program, place):
    """A line for each open transfer: percent, octets, rate, holes, last heard, sender; redrawn a few times a second."""
    text = page(60000, 130)
    terminal, target = on_loopback(program, place)
    with socket.socket(socket.AF_INET, socket.SOCK_DGRAM) as sender:
        for packet in (metadata(31, 32, 60000, b"a page"), metadata(7, 16, 1000), data(7, 16, 100, text[100:350]), data(7, 16, 900, b"x" * 100)):
            sender.sendto(packet, target)
        begun = time.monotonic()
        for at in range(0, 30000, 1000):
            sender.sendto(data(31, 32, at, text[at:at + 1000]), target)
            time.sleep(0.05)
        rate = 30000 / (time.monotonic() - begun)
        terminal.wait(lambda lines: terminal.live().keys() == {7, 31} and terminal.live()[31][3] == "30000")
        seven, other = terminal.live()[7], terminal.live()[31]
        mine = f"127.0.0.1:{sender.getsockname()[1]}"
    check(seven.groups()[1:4] == ("35", "350", "1000") and (seven[7], seven[9], seven[10]) == ("2", mine, "page611.pla"), seven)
    check((other[2], other[4], other[7], other[9], other[10]) == ("50", "60000", "0", mine, "a\\x20page"), other)
    shown = float(other[5]) * {"B": 1, "kB": 1e3, "MB": 1e6}[other[6]]
    check(rate / 2 < shown < 2 * rate, f"{shown} octets a second, and not {rate}")
    check([bool(ROW.fullmatch(line)) for line in terminal.lines()[-3:]] == [False, True, True], terminal.lines()[-3:])
    clears = terminal.screen.clears
    time.sleep(2.1)
    check(5 <= terminal.screen.clears - clears <= 11, f"{terminal.screen.clears - clears} drawings in two seconds")
    terminal.wait(lambda lines: int(terminal.live()[7][8]) in (3, 4))
    terminal.wait(lambda lines: terminal.live()[31][5] + terminal.live()[31][6] == "0B")
    check(terminal.end() == 0, terminal.lines())
    check(terminal.live() == {} and terminal.screen.column == 0 and not any(" holes  heard " in line for line in terminal.lines()),
          terminal.lines()[-3:])


def nothing_is_garbled(program, place):
    """The lines of the log are those that a file would have, whatever the size of the terminal and whenever it is drawn."""
    for number, (height, width) in enumerate(((24, 80), (5, 30), (40, 200))):
        here, other = os.path.join(place, f"{number}"), os.path.join(place, f"{number}-plain")
        os.mkdir(here)
        os.mkdir(other)
        packets = [metadata(ident, 16, 300) for ident in range(16)] + [metadata(99, 16, 300)]
        packets += [data(ident, 16, at, page(300, ident)[at:at + 60], WANTED) for at in (0, 120, 60, 240) for ident in range(16)]
        terminal = Terminal([program, "-d", here, "--no-fsync", "-"], height, width)
        most = sent = 0
        while sent < len(packets) or (most < min(16, height - 2) and sent < 1000):
            packets += packets[-1:] * (sent + 9 - len(packets))  # a slow terminal gets more to draw
            terminal.send(records(packets[sent:sent + 9]))
            sent += 9
            time.sleep(0.07)
            with terminal.lock:
                most = max(most, sum("% " in row for row in terminal.screen.rows))
        check(most == min(16, height - 2), f"{most} live lines on {height} rows")
        check(terminal.end() == 0, terminal.lines())
        plain, told, status = run(program, other, "--no-fsync", "-", octets=records(packets))
        check(sorted(terminal.lines()) == sorted(plain + told.splitlines()) and status == 0,
              set(terminal.lines()) ^ set(plain + told.splitlines()))
        check([line for line in terminal.lines() if line in plain] == plain, "in another order")


def only_where_it_fits(program, place):
    """No live lines with --no-live, without a terminal, on one that knows no escapes, and where the lines go into a pipe."""
    with open(os.devnull, "wb") as nowhere, open(os.path.join(os.path.dirname(place), "log"), "wb") as log:
        for number, (words, settings, has_lines) in enumerate((
                ((), {}, True), (("--no-live",), {}, False), ((), {"kind": "dumb"}, False), ((), {"kind": ""}, False),
                ((), {"stdout": log}, True), ((), {"stdout": subprocess.PIPE}, False), ((), {"stderr": nowhere}, False))):
            here = os.path.join(place, str(number))
            os.mkdir(here)
            terminal = Terminal([program, "-d", here, "-q", *words, "-"], **settings)
            terminal.send(records([metadata(7, 16, 9)]))
            time.sleep(0.3)
            terminal.send(records([metadata(8, 16, 9)]))
            time.sleep(0.1)
            live = terminal.live()
            check(terminal.end() == 0 and (b"\x1b" in terminal.octets) == bool(live) == has_lines, (words, settings, terminal.octets))
            if terminal.process.stdout:
                terminal.process.stdout.close()


def unread(program, place):
    """A terminal that is stopped, or that nobody reads, stops no reception; the lines come when it is read again."""
    stops = ((lambda terminal: termios.tcflow(terminal.master, termios.TCOOFF), lambda terminal: termios.tcflow(terminal.master, termios.TCOON)),
             (lambda terminal: terminal.reading.clear(), lambda terminal: terminal.reading.set()))
    for number, (stop, go_on) in enumerate(stops):
        here = os.path.join(place, str(number))
        os.mkdir(here)
        terminal, target = on_loopback(program, here, "--no-fsync", "--answers", "1000000")
        with socket.socket(socket.AF_INET, socket.SOCK_DGRAM) as sender:
            sender.settimeout(3)
            for ident in range(16):
                sender.sendto(metadata(ident, 16, 3000), target)
                sender.recv(65535)
            terminal.wait(lambda lines: len(terminal.live()) == 16)
            stop(terminal)
            try:
                for at in range(0, 3000, 30):
                    sender.sendto(data(7, 16, at, page(3000, 131)[at:at + 30], WANTED), target)
                    sender.recv(65535)
            except socket.timeout:
                check(False, "a terminal that nobody reads stops the program")
        go_on(terminal)
        terminal.wait(lambda lines: sum(" record id=7 " in line for line in lines) == 100)
        check(terminal.end() == 0, terminal.lines())
        check(sum(" record id=7 " in line for line in terminal.lines()) == 100 and terminal.live() == {}, terminal.lines())


TESTS = live_lines, nothing_is_garbled, only_where_it_fits, unread


def all_of_it(program, place):
    """Runs everything; `place` gives a new directory for a name."""
    for test in TESTS:
        one_of_it(test, program, place(test.__name__))
