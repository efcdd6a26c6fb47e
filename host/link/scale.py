#!/usr/bin/env python3
"""How much a machine needs for many link programs: starts N receivers, and N senders that each send one file, all over loopback, and
measures the receivers' memory, the CPU time of both, and octets a second. Not part of the gate: it is as quiet as the machine is.

    host/link/scale.py [N..]     for each number of processes (else 1 10 100); needs target/link and target/send

Memory is PSS (/proc/PID/smaps_rollup): what a process has for itself, and its share of what several have. Writes are forced to disk, as in
a service; each receiver has a directory of its own below the one for temporary files.
"""
import os
import re
import resource
import signal
import subprocess
import sys
import tempfile
import time

sys.dont_write_bytecode = True
from harness import ROOT, check  # noqa: E402
from service import Manager  # noqa: E402

LINK, SEND = (os.path.join(ROOT, "target", *path) for path in (("link", "saratoga-link"), ("send", "saratoga-send")))
TOTAL = 64 << 20  # octets of all files together


def kibibytes(pid, file, name):
    with open(f"/proc/{pid}/{file}", encoding="ascii") as lines:
        return int(re.search(rf"^{name}:\s+(\d+) kB$", lines.read(), re.M)[1])


def cpu_seconds(pid):
    """User and system time of a process that runs."""
    with open(f"/proc/{pid}/stat", encoding="ascii") as file:
        fields = file.read().rsplit(")", 1)[1].split()
    return sum(map(int, fields[11:13])) / os.sysconf("SC_CLK_TCK")


def receiver(place, number):
    """A receiver that is ready, its port, which a service manager is told, and that manager."""
    here = os.path.join(place, str(number))
    os.mkdir(here)
    manager = Manager(here + ".notify")
    process = subprocess.Popen([LINK, "-d", here, "--udp", "0", "--peer", "127.0.0.1", "-q"], stdout=subprocess.DEVNULL,
                               env=dict(os.environ, NOTIFY_SOCKET=manager.name))
    while not manager.hear():
        check(process.poll() is None, "a receiver ended")
        time.sleep(0.01)
    port = int(re.search(r"port (\d+)", manager.hear()[0])[1])
    return process, port, manager


def measured(place, count):
    """Numbers for so many processes, as one row."""
    file = os.path.join(place, "file")
    with open(file, "wb") as out:
        out.write(os.urandom(TOTAL // count))
    receivers = [receiver(place, number) for number in range(count)]
    try:
        idle = sum(kibibytes(process.pid, "smaps_rollup", "Pss") for process, *_ in receivers)
        begun, before = time.monotonic(), resource.getrusage(resource.RUSAGE_CHILDREN)
        senders = [subprocess.Popen([SEND, "-q", "--md5", "--wait", "2", f"127.0.0.1:{port}", file], stdout=subprocess.DEVNULL)
                   for _, port, _ in receivers]
        check(all(sender.wait() == 0 for sender in senders), "a file wasn't received")
        seconds, after = time.monotonic() - begun, resource.getrusage(resource.RUSAGE_CHILDREN)
        busy = sum(kibibytes(process.pid, "smaps_rollup", "Pss") for process, *_ in receivers)
        peak = max(kibibytes(process.pid, "status", "VmHWM") for process, *_ in receivers)
        taken = sum(cpu_seconds(process.pid) for process, *_ in receivers)
    finally:
        for process, *_ in receivers:
            process.send_signal(signal.SIGTERM)
        for process, _, manager in receivers:
            process.wait()
            manager.socket.close()
    sent = after.ru_utime + after.ru_stime - before.ru_utime - before.ru_stime
    return (f"| {count} | {TOTAL // count:,} | {idle / count:,.0f} | {busy / count:,.0f} | {peak:,} | {taken:.1f} | {sent:.1f} | "
            f"{TOTAL / seconds / 1e6:,.1f} |")


def main():
    counts = [int(word) for word in sys.argv[1:]] or [1, 10, 100]
    print("| Processes | Octets of each file | PSS of each, idle (KiB) | PSS of each, after a file (KiB) | Highest RSS (KiB) | "
          "CPU of receivers (s) | CPU of senders (s) | All together (million octets a second) |")
    print("|---|---|---|---|---|---|---|---|")
    for count in counts:
        with tempfile.TemporaryDirectory() as place:
            print(measured(place, count), flush=True)
    return 0


if __name__ == "__main__":
    try:
        sys.exit(main())
    except AssertionError as error:
        print(f"host/link/scale.py: FAILED: {error}", file=sys.stderr)
        sys.exit(1)
