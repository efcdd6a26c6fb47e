#!/usr/bin/env python3
"""The link program and saratoga-send beside uftp, on loopback, in one run: how fast a file is confirmed, what the receiver's kernel drops,
how much is sent again, and what it costs. Every file that arrives is compared with the one that was sent.

    host/bench/link/bench.py [--size OCTETS] [--rates MBIT,..] [--losses PERCENT,..] [--repeats N] [--directory DIR]

A rate of 0 is as fast as it goes. DIR should be on the disk that is to be measured (default: target/bench/link).
"""
import argparse
import os
import re
import shutil
import signal
import socket
import statistics
import subprocess
import sys
import time

PLACE = os.path.dirname(os.path.abspath(__file__))
ROOT = os.path.dirname(os.path.dirname(os.path.dirname(PLACE)))
LINK = os.path.join(ROOT, "target", "link", "saratoga-link")
SEND = os.path.join(ROOT, "target", "send", "saratoga-send")
PAYLOAD = 1400
BUFFER = 8 << 20
LIMIT = "/proc/sys/net/core/rmem_max"
WAIT = "0.1"  # seconds: some syncs
AIMS = ((1000, 0.97), (0, 0.5))


def buffer():
    """Octets of the receive buffer that both receivers get. Ours could go beyond the system's limit where it may, and uftpd can't."""
    with open(LIMIT, encoding="ascii") as limit:
        return min(BUFFER, int(limit.read()))


def free_port():
    with socket.socket(socket.AF_INET, socket.SOCK_DGRAM) as probe:
        probe.bind(("127.0.0.1", 0))
        return probe.getsockname()[1]


def socket_line(port):
    """The fields of /proc/net/udp for a port that somebody listens on."""
    with open("/proc/net/udp", encoding="ascii") as table:
        for line in table.readlines()[1:]:
            fields = line.split()
            if int(fields[1].split(":")[1], 16) == port:
                return fields
    return None


def peak_of(process):
    """Octets of memory that a process had at most."""
    with open(f"/proc/{process.pid}/status", encoding="ascii") as status:
        return 1024 * int(re.search(r"^VmHWM:\s+(\d+) kB", status.read(), re.MULTILINE)[1])


class Receiver:
    """A receiver that listens; stop() ends it and gives what it cost."""

    def __init__(self, command, port, environment, log):
        with open(log, "wb") as out:
            self.process = subprocess.Popen(command, stdout=out, stderr=out, env=environment)
        self.port = port
        until = time.monotonic() + 10
        while socket_line(port) is None:
            if self.process.poll() is not None or time.monotonic() > until:
                raise SystemExit(f"bench-link: {command[0]} doesn't listen; {log} says why")
            time.sleep(0.01)

    def stop(self):
        cost = {"dropped": int(socket_line(self.port)[-1]), "peak": peak_of(self.process)}
        self.process.send_signal(signal.SIGTERM)
        used = os.wait4(self.process.pid, 0)[2]
        self.process.returncode = 0
        return cost | {"cpu": used.ru_utime + used.ru_stime}


def lossy(place, loss, seed, report=None):
    """The environment in which a program's packets are lost."""
    environment = os.environ | {"LD_PRELOAD": os.path.join(ROOT, "target", "bench", "lossy.so"), "LOSSY_SHARE": str(loss / 100),
                                "LOSSY_SEED": str(seed), "LOSSY_LEAST": "1000"}
    return environment | ({"LOSSY_REPORT": os.path.join(place, report)} if report else {})


def same(one, other):
    with open(one, "rb") as first, open(other, "rb") as second:
        while True:
            octets = first.read(1 << 20)
            if octets != second.read(1 << 20):
                return False
            if not octets:
                return True


def sent_again(place, size):
    """The share of packets with payload that were sent beyond those that the file needs. Its last may be too short to count."""
    with open(os.path.join(place, "sent"), encoding="ascii") as report:
        sent = int(report.read().split()[0])
    return max(0, sent - size // PAYLOAD) / (size // PAYLOAD)


def forced(path):
    """Seconds until a file is on disk."""
    begun = time.monotonic()
    fd = os.open(path, os.O_RDONLY)
    os.fsync(fd)
    os.close(fd)
    return time.monotonic() - begun


def packets_between_requests(rate, loss):
    """As many as leave room in a transfer's 64 runs for what is lost until an answer comes. Without a rate, four times as many are on the way."""
    most = 1000 if loss == 0 else 256 if rate else 500
    return max(16, min(most, int((320 if rate else 1000) / loss))) if loss else most


def run_ours(place, page, size, rate, loss, seed):
    port, into = free_port(), os.path.join(place, "in")
    receiver = Receiver([LINK, "-d", into, "--udp", str(port), "--peer", "127.0.0.1", "--largest", str(size), "--receive-buffer", str(buffer()),
                         "-q"], port, lossy(place, loss, seed + 1), os.path.join(place, "link.log"))
    try:
        done = subprocess.run([SEND, "-q", "--payload", str(PAYLOAD), "--ask", str(packets_between_requests(rate, loss)), "--wait", WAIT, "--id", "1",
                               *(["--rate", str(rate)] if rate else []), f"127.0.0.1:{port}", page],
                              capture_output=True, text=True, env=lossy(place, loss, seed, "sent"), check=False)
    finally:
        cost = receiver.stop()
    line = re.search(r"^confirmed .* seconds=([\d.]+) ", done.stdout, re.MULTILINE)
    if not line or not same(page, os.path.join(into, "00000001.1.page")):
        raise SystemExit(f"bench-link: the page did not arrive: {done.stdout}{done.stderr}")
    return cost | {"seconds": float(line[1]), "on_disk": float(line[1]), "again": sent_again(place, size)}


def run_uftp(place, page, size, rate, loss, seed):
    port, into = free_port(), os.path.join(place, "in")
    receiver = Receiver(["uftpd", "-d", "-I", "lo", "-p", str(port), "-D", into, "-B", str(buffer())], port, lossy(place, loss, seed + 1),
                        os.path.join(place, "uftpd.log"))
    try:
        done = subprocess.run(["uftp", "-M", "127.0.0.1", "-I", "lo", "-p", str(port), "-R", str(1000 * rate) if rate else "-1",
                               "-B", str(buffer()), "-b", str(PAYLOAD), page],
                              capture_output=True, text=True, env=lossy(place, loss, seed, "sent"), check=False)
        said = done.stdout + done.stderr
        arrived = os.path.join(into, os.path.basename(page))
        seconds = re.search(r"^.*Status: Completed.*\n.*Total elapsed time: ([\d.]+) seconds", said, re.MULTILINE)
        after = forced(arrived) if seconds else 0
    finally:
        cost = receiver.stop()
    if not seconds or not same(page, arrived):
        raise SystemExit(f"bench-link: uftp's file did not arrive: {said[-2000:]}")
    return cost | {"seconds": float(seconds[1]), "on_disk": float(seconds[1]) + after, "again": sent_again(place, size)}


def once(run, place, page, size, rate, loss, seed):
    """One run into an empty directory, with nothing left to be written to disk by others."""
    into = os.path.join(place, "in")
    shutil.rmtree(into, ignore_errors=True)
    os.mkdir(into)
    os.sync()
    result = run(place, page, size, rate, loss, seed)
    shutil.rmtree(into)
    return result


def summed(runs, size):
    """What a receiver did in several runs: the median of each figure, the least and the greatest goodput, and the most packets dropped."""
    if not runs:
        return None
    result = {name: statistics.median(one[name] for one in runs) for name in runs[0]}
    result["dropped"] = max(one["dropped"] for one in runs)
    result["mbit"] = 8 * size / result["seconds"] / 1e6
    result["spread"] = [8 * size / 1e6 / found(one["seconds"] for one in runs) for found in (max, min)]
    result["mbit_on_disk"] = 8 * size / result["on_disk"] / 1e6
    return result


def row(rate, loss, size, ours, uftp):
    """A line of the table; uftp's figures stand before ours."""
    def pair(form, name, scale=1.0):
        return " / ".join(form.format(one[name] * scale) if one else "" for one in (uftp, ours))
    def goodput(one):
        low, high = (f"{mbit:,.0f}" for mbit in one["spread"])
        return f"{one['mbit']:,.0f}" + (f" ({low} to {high})" if low != high else "")
    ratios = [f"{ours['mbit'] / uftp[name]:.2f}" if uftp else "" for name in ("mbit", "mbit_on_disk")]
    return "| " + " | ".join([f"{rate:,}" if rate else "as fast as it goes", f"{loss} %", " / ".join(goodput(one) if one else "" for one in (uftp, ours)), *ratios,
                              pair("{:,.0f}", "dropped"), pair("{:.1f} %", "again", 100), pair("{:.1f}", "cpu", 1e9 / size),
                              pair("{:.1f}", "peak", 1 / (1 << 20))]) + " |"


HEAD = ("| Offered, Mbit/s | Loss | Goodput, Mbit/s: uftp / ours | ours / uftp | ours / uftp with fsync | Dropped by the kernel | Sent again | "
        "Receiver's CPU, s a GB | Its memory, MiB |\n|---|---|---|---|---|---|---|---|---|")


def judge(results):
    """Says of each aim whether it is met."""
    for (rate, loss), (ours, uftp) in results.items():
        aim = next(share for most, share in AIMS if rate and rate <= most or rate == most)
        said = []
        if uftp and ours["mbit"] < aim * uftp["mbit"]:
            said.append(f"{ours['mbit'] / uftp['mbit']:.2f} of uftp's goodput, and should be {aim}")
        if rate and ours["dropped"]:
            said.append(f"{ours['dropped']} packets dropped by the receiver's kernel, and should be none")
        if said and loss == 0:
            print(f"MISSED: {rate or 'no'} Mbit/s: " + "; ".join(said))


def options():
    parser = argparse.ArgumentParser(description=__doc__.split("\n\n", maxsplit=1)[0])
    parser.add_argument("--size", type=int, default=10**9)
    parser.add_argument("--rates", default="100,300,600,1000,0")
    parser.add_argument("--losses", default="0,1,5")
    parser.add_argument("--repeats", type=int, default=1)
    parser.add_argument("--directory", default=os.path.join(ROOT, "target", "bench", "link"))
    return parser.parse_args()


def make_page(name, size):
    with open(name, "wb") as file:
        for left in range(size, 0, -(1 << 20)):
            file.write(os.urandom(min(left, 1 << 20)))


def main():
    asked = options()
    has_uftp = shutil.which("uftp") and shutil.which("uftpd")
    os.makedirs(asked.directory, exist_ok=True)
    page = os.path.join(asked.directory, "page")
    make_page(page, asked.size)
    if not has_uftp:
        print("bench-link: uftp is skipped: it isn't installed (Debian has it as the package uftp)")
    print(f"{asked.size:,} octets, payloads of {PAYLOAD:,}, receive buffers of {buffer():,}; median of {asked.repeats}\n\n{HEAD}")
    results = {}
    for loss in map(int, asked.losses.split(",")):
        for rate in map(int, asked.rates.split(",")):
            ours, uftp = [], []
            for repeat in range(asked.repeats):
                ours.append(once(run_ours, asked.directory, page, asked.size, rate, loss, 1 + 2 * repeat))
                if has_uftp:
                    uftp.append(once(run_uftp, asked.directory, page, asked.size, rate, loss, 1 + 2 * repeat))
            results[rate, loss] = summed(ours, asked.size), summed(uftp, asked.size)
            print(row(rate, loss, asked.size, *results[rate, loss]), flush=True)
    judge(results)
    shutil.rmtree(asked.directory)
    return 0


if __name__ == "__main__":
    sys.exit(main())
