"""Receivers for the tests of saratoga-send: a link that loses, repeats and reorders, a relay over it, and a receiver in Python that
is judged by its own set of offsets and lays out its packets itself."""
import os
import random
import select
import socket
import sys
import threading

PLACE = os.path.dirname(os.path.abspath(__file__))
sys.dont_write_bytecode = True
sys.path.append(os.path.join(os.path.dirname(PLACE), "link"))
from harness import check  # noqa: E402
from packets import (FLAGS_WIDTH, INCOMPLETE, TIMESTAMP, UNASKED, WANTED, failure, success)  # noqa: E402

MOST_RUNS = 64


class Lossy:
    """What becomes of packets on their way. A packet that is held back comes after later ones."""

    def __init__(self, seed=0, loss=0.0, repeat=0.0, late=0.0):
        self.chance, self.loss, self.repeat, self.late, self.held = random.Random(seed), loss, repeat, late, []

    def through(self, packet):
        come = []
        for _ in range(1 + (self.chance.random() < self.repeat)):
            if self.chance.random() < self.loss:
                continue
            if self.chance.random() < self.late:
                self.held.append(packet)
            else:
                come.append(packet)
        while self.held and self.chance.random() < 0.5:
            come.append(self.held.pop(self.chance.randrange(len(self.held))))
        return come


class Served:
    """A thread that reads sockets until it is stopped."""

    def __init__(self, sockets):
        self.sockets, self.error = sockets, None
        self.stopping, self.stopper = socket.socketpair()
        self.thread = threading.Thread(target=self.serve, daemon=True)

    def __enter__(self):
        self.thread.start()
        return self

    def __exit__(self, failed, *_):
        self.stopper.send(b"x")
        self.thread.join(timeout=10)
        for one in (*self.sockets, self.stopper, self.stopping):
            one.close()
        if self.error is not None and not failed:
            raise self.error

    def serve(self):
        try:
            while True:
                ready = select.select([*self.sockets, self.stopping], [], [])[0]
                if self.stopping in ready:
                    return
                for one in ready:
                    try:
                        packet, sender = one.recvfrom(65535)
                    except ConnectionError:
                        continue
                    self.came(one, packet, sender)
        except Exception as error:  # told where the thread is ended
            self.error = error


def on_loopback():
    one = socket.socket(socket.AF_INET, socket.SOCK_DGRAM)
    one.setsockopt(socket.SOL_SOCKET, socket.SO_RCVBUF, 1 << 22)
    one.bind(("127.0.0.1", 0))
    return one


class Relay(Served):
    """Between a sender and a receiver on a port of loopback, lossy in both directions. `change` may change a packet to the receiver."""

    def __init__(self, port, there=None, back=None, change=None):
        self.here, self.out = on_loopback(), on_loopback()
        super().__init__([self.here, self.out])
        self.port, self.target, self.sender = self.here.getsockname()[1], ("127.0.0.1", port), None
        self.there, self.back, self.change = there or Lossy(), back or Lossy(), change or (lambda packet: packet)

    def came(self, one, packet, sender):
        if one is self.here:
            self.sender = sender
            for each in self.there.through(self.change(packet)):
                self.out.sendto(each, self.target)
        elif self.sender is not None:
            for each in self.back.through(packet):
                self.here.sendto(each, self.sender)


class Transfer:
    """What the model has of one Id."""

    def __init__(self, packet, width, checksum_len):
        d, at = width // 8, 8 + checksum_len
        self.packet, self.width, self.checksum = packet, width, packet[8:at]
        self.length = int.from_bytes(packet[at + 2:at + 2 + d], "big")
        self.mtime, self.ctime = (int.from_bytes(packet[at + 2 + d + i:at + 6 + d + i], "big") for i in (0, 4))
        self.path = packet[at + 10 + d:-1]
        check(packet[-1] == 0 and len(packet) == at + 11 + d + len(self.path), "METADATA's layout")
        self.octets, self.has = bytearray(self.length), bytearray(self.length)

    def runs(self):
        """The runs of received offsets, and the holes between and before them."""
        runs, at = [], self.has.find(1)
        while at >= 0:
            end = self.has.find(0, at)
            end = self.length if end < 0 else end
            runs.append((at, end))
            at = self.has.find(1, end)
        return runs

    def is_complete(self):
        return 0 not in self.has


class Model(Served):
    """A receiver. `holes`: no STATUS lists more. `forget`: its chance, at each DATA packet, to lose everything."""

    def __init__(self, there=None, back=None, holes=63, forget=0.0, seed=0, on_data=None, refuse=0):
        self.here = on_loopback()
        super().__init__([self.here])
        self.port = self.here.getsockname()[1]
        self.there, self.back, self.holes, self.forget = there or Lossy(), back or Lossy(), holes, forget
        self.chance, self.on_data, self.refuse = random.Random(seed), on_data or (lambda: None), refuse
        self.open, self.pages, self.counts = {}, {}, {"metadata": 0, "data": 0, "asked": 0, "forgot": 0, "failure3": 0}

    def came(self, one, packet, sender):
        for each in self.there.through(packet):
            for answer in self.take(each):
                for back in self.back.through(answer):
                    one.sendto(back, sender)

    def take(self, packet):
        """The answers to a packet, of which there may be none."""
        flags, ident = int.from_bytes(packet[1:4], "big"), int.from_bytes(packet[4:8], "big")
        width = FLAGS_WIDTH[flags & 0xC00000]
        if packet[0] == 0x42:
            self.counts["metadata"] += 1
            return [failure(ident, self.refuse)] if self.refuse else self.take_metadata(packet, ident, width, flags)
        check(packet[0] == 0x43 and not flags & 0x3F7FFF & ~WANTED, f"neither METADATA nor plain DATA: {packet[:8].hex()}")
        self.counts["data"] += 1
        self.counts["asked"] += bool(flags & WANTED)
        self.on_data()
        return self.take_data(packet, ident, width, flags)

    def take_metadata(self, packet, ident, width, flags):
        if ident not in self.open or self.open[ident].packet != packet:
            self.open[ident] = Transfer(packet, width, 16 if flags & 0xFF == 0x42 else 0)
            check(flags & 0xFF in (0, 0x42), "METADATA's checksum")
        return self.status(ident, UNASKED)

    def take_data(self, packet, ident, width, flags):
        if self.chance.random() < self.forget:
            self.open = {}
            self.counts["forgot"] += 1
        if ident not in self.open:
            return [failure(ident, 6)]
        one, d = self.open[ident], width // 8
        offset, payload = int.from_bytes(packet[8:8 + d], "big"), packet[8 + d:]
        end = offset + len(payload)
        check(width == one.width and payload and end <= one.length, "DATA that isn't of its file")
        check(not flags & 0x8000 or end == one.length, "end of data is not the end")
        before = bytes(one.has[offset:end])
        was_complete = one.is_complete()
        one.has[offset:end] = b"\1" * len(payload)
        if len(one.runs()) > MOST_RUNS:
            one.has[offset:end] = before
            self.counts["failure3"] += 1
            return [failure(ident, 3)]
        one.octets[offset:end] = payload
        if flags & WANTED or (one.is_complete() and not was_complete):
            return self.status(ident, 0 if flags & WANTED else UNASKED)
        return []

    def status(self, ident, flags):
        one = self.open[ident]
        runs = one.runs()
        edge = runs[-1][1] if runs else 0
        holes = [(a, b) for (_, a), (b, _) in zip([(0, 0), *runs], runs) if a < b]
        progress = holes[0][0] if holes else edge
        if one.is_complete():
            self.pages[ident] = one
            progress, edge, flags = one.length, max(one.length, 1) - 1, flags | UNASKED
        stamp = self.chance.randbytes(16) if self.chance.random() < 0.3 else b""
        flags |= (INCOMPLETE if len(holes) > self.holes else 0) | (TIMESTAMP if stamp else 0)
        return [success(ident, one.width, progress, edge, holes[:self.holes], flags, stamp)]
