#!/usr/bin/env python3
"""A page of a gigabyte through the link program, checked against Python's hashlib: as it was sent, and with one octet changed.
Not part of the gate: it writes two gigabytes to disk and takes a minute or so.

    host/link/gigabyte.py [OCTETS]     a file of so many octets (else 1073741824)
"""
import hashlib
import os
import random
import subprocess
import sys
import tempfile
import time

sys.dont_write_bytecode = True
from harness import SOURCES, build, check  # noqa: E402
from packets import END_OF_DATA, data, metadata, record  # noqa: E402

PAYLOAD = 60000


def payloads(octets, wrong=None):
    """The payloads of a file that looks random, the same each time; octet `wrong` is another."""
    chance = random.Random(1321)
    block = chance.randbytes(1 << 20)
    for number, at in enumerate(range(0, octets, PAYLOAD)):
        length = min(PAYLOAD, octets - at)
        payload = number.to_bytes(8, "big") + block[number % 65536:number % 65536 + PAYLOAD]
        payload = bytearray(payload[:length])
        if wrong is not None and at <= wrong < at + length:
            payload[wrong - at] ^= 0x80
        yield at, bytes(payload)


def sent(program, place, octets, digest, wrong=None):
    """Lines, messages and status of the program to which all of the file was sent."""
    with subprocess.Popen([program, "-d", place, "--no-fsync", "-q", "-"], stdin=subprocess.PIPE, stdout=subprocess.PIPE,
                          stderr=subprocess.PIPE) as process:
        write = process.stdin.write
        write(record(b"P", metadata(7, 64, octets, flags=0x42, checksum=digest)))
        for at, payload in payloads(octets, wrong):
            write(record(b"P", data(7, 64, at, payload, END_OF_DATA if at + len(payload) == octets else 0)))
        process.stdin.flush()
        begun = time.monotonic()
        told = process.communicate()
        return told[0].decode(), told[1].decode(), process.returncode, time.monotonic() - begun


def main():
    octets = int(sys.argv[1]) if len(sys.argv) > 1 else 1 << 30
    known = hashlib.md5()
    for _, payload in payloads(octets):
        known.update(payload)
    with tempfile.TemporaryDirectory() as place:
        program = build(SOURCES, os.path.join(place, "saratoga-link"))
        for wrong, said, status in ((None, "complete", 0), (octets - 1, "differs", 3)):
            here = os.path.join(place, said)
            os.mkdir(here)
            lines, told, ended, seconds = sent(program, here, octets, known.digest(), wrong)
            check(ended == status and f" {said} id=7 length={octets} " in lines, (lines, told))
            check((" md5=agrees " in lines) == (wrong is None), lines)
            print(f"gigabyte: {octets:,} octets, {'all right' if wrong is None else 'the last one changed'}: {said}, "
                  f"{seconds:.1f} s after the last packet was sent")
            for name in os.listdir(here):
                os.remove(os.path.join(here, name))
    print(f"gigabyte: hashlib and the library agree: {known.hexdigest()}")
    return 0


if __name__ == "__main__":
    try:
        sys.exit(main())
    except AssertionError as error:
        print(f"host/link/gigabyte.py: FAILED: {error}", file=sys.stderr)
        sys.exit(1)
