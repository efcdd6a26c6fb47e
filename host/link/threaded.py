"""Kills and power cuts of the link program on a socket, where a thread syncs beside new packets. Run by test.py.

On a pass every job is done where it is given, so the places at which it can be ended are the same in each run. Here they are not: the program
is ended at some of them, and what was said by then is what its sender heard and what it reported."""
import os
import random
import socket
import subprocess

from harness import after_the_cut, check, holds, run, stem

ENDED, CUT = 99, 98  # exit status at a place between two writes, and at a power cut
# The seconds between two packets, and the milliseconds that the disk makes each call of the thread wait: a sync is over before the next packet
# comes, and what is said without waiting for the sync is said well before it has written anything.
SLOW = (0.15, 5)


def packets_of(octets):
    """The packets of a pass."""
    packets = []
    while octets:
        length = int.from_bytes(octets[1:5], "big")
        packets.append(octets[5:5 + length])
        octets = octets[5 + length:]
    return packets


def sent(program, place, packets, pause, **environment):
    """Sends packets to the program, with pauses, until it ends. Gives what it said, as lines, and its exit status."""
    with socket.socket(socket.AF_INET, socket.SOCK_DGRAM) as sender, socket.socket(socket.AF_INET, socket.SOCK_DGRAM) as probe:
        probe.bind(("127.0.0.1", 0))
        port = probe.getsockname()[1]
        probe.close()
        sender.bind(("127.0.0.1", 0))
        sender.settimeout(pause)
        process = subprocess.Popen([program, "-d", place, "--udp", str(port), "--peer", "127.0.0.1"], stdout=subprocess.PIPE,
                                   stderr=subprocess.PIPE, env=dict(os.environ, **environment))
        try:
            first = process.stdout.readline()
            while first and b" listening " not in first:
                first = process.stdout.readline()
            heard = []
            for packet in packets:
                if process.poll() is not None:
                    break
                sender.sendto(packet, ("127.0.0.1", port))
                heard += answers(sender)
            for _ in range(100):  # the last are answered once they are on disk
                if process.poll() is not None:
                    break
                more = answers(sender)
                if not more:
                    break
                heard += more
            process.terminate()
            lines, told = process.communicate(timeout=20)
        finally:
            if process.poll() is None:
                process.kill()
                process.wait()
        heard += answers(sender)
    reported = [line for line in (first + lines).decode().splitlines() if " complete id=" in line or " differs id=" in line]
    return [f"0 send {answer.hex()}" for answer in heard] + reported, told.decode(), process.returncode


def answers(sender):
    """What came back until the socket's wait was over."""
    heard = []
    try:
        while True:
            heard.append(sender.recv(65535))
    except (socket.timeout, ConnectionRefusedError):
        return heard


def ended(program, place, make, whole, step):
    """Ended at places between two writes and inside them, by whichever thread comes there. `whole` says that nothing promised is missing.
    Gives the number of places."""
    originals, octets = make()
    packets, chance = packets_of(octets), random.Random(617)
    count, places, without = 0, 0, 0
    while without < 3:  # the number of places differs from run to run
        count += chance.randrange(1, step + 1)
        here = os.path.join(place, str(count))
        os.mkdir(here)
        lines, told, status = sent(program, here, packets, chance.choice((0.0005, 0.01)), LINK_CUT=str(count))
        check(status in (0, ENDED), f"place {count}: {told}")
        whole(here, originals, lines)
        again, told, good = run(program, here, "--no-fsync", "-", octets=octets)
        check(good == 0, f"after place {count}: {told}")
        whole(here, originals, again)
        for ident in originals:
            check(stem(here, ident) and holds(here, stem(here, ident) + ".page", originals[ident]), f"page {ident} after place {count}")
        places, without = places + (status == ENDED), 0 if status == ENDED else without + 1
    return places


def power_cuts(program, plain, place, make, whole, step, paces=((0.0005, 0), (0.01, 0), SLOW)):
    """The power goes at calls of either thread; one of the paces is chosen for each. Gives the number of calls that were tried."""
    originals, octets = make()
    packets, chance = packets_of(octets), random.Random(618)
    count, calls, without = 0, 0, 0
    while without < 3:
        count += chance.randrange(1, step + 1)
        here, disk = os.path.join(place, f"{count}"), os.path.join(place, f"{count}-disk")
        os.mkdir(here)
        os.mkdir(disk)
        pause, wait = chance.choice(paces)
        lines, told, status = sent(program, here, packets, pause, POWERCUT=str(count), POWERCUT_DISK=disk, POWERCUT_WAIT=str(wait))
        check(status in (0, CUT), f"call {count}: {told}")
        for number, how in enumerate(("none", "names", "octets", "some", "some")):
            left = os.path.join(place, f"{count}-{number}")
            after_the_cut(disk, here, left, how, chance)
            whole(left, originals, lines)
            if plain and number in (0, 3):
                again, told, ended_with = run(plain, left, "--no-fsync", "-", octets=octets)
                check(ended_with == 0, f"call {count}, {how}: {told}")
                whole(left, originals, again)
                for ident in originals:
                    check(holds(left, stem(left, ident) + ".page", originals[ident]), f"page {ident} after call {count}, {how}")
        calls, without = calls + (status == CUT), 0 if status == CUT else without + 1
    return calls
