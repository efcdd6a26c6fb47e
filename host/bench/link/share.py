#!/usr/bin/env python3
"""The engine's share of a packet's time in the link program: saratoga-send sends a file to one that counts its calls of the engine
(share.c), with and without syncs to disk, as fast as it goes."""
import os
import shutil
import subprocess
import sys

sys.dont_write_bytecode = True
from bench import ROOT, SEND, Receiver, free_port, make_page, same  # noqa: E402

COUNTED = os.path.join(ROOT, "target", "bench", "saratoga-link-counted")
SIZE = 200_000_000


def main():
    place = os.path.join(ROOT, "target", "bench", "share")
    page, log = os.path.join(place, "page"), os.path.join(place, "log")
    for title, options in (("with fsync", []), ("without", ["--no-fsync"])):
        shutil.rmtree(place, ignore_errors=True)
        os.makedirs(os.path.join(place, "in"))
        make_page(page, SIZE)
        port = free_port()
        receiver = Receiver([COUNTED, "-d", os.path.join(place, "in"), "--udp", str(port), "--peer", "127.0.0.1", "-q", *options], port,
                            os.environ, log)
        try:
            subprocess.run([SEND, "-q", "--ask", "1000", "--id", "1", f"127.0.0.1:{port}", page], check=True, stdout=subprocess.DEVNULL)
        finally:
            receiver.stop()
        if not same(page, os.path.join(place, "in", "00000001.1.page")):
            raise SystemExit("bench-engine: another page arrived than was sent")
        with open(log, encoding="ascii") as said:
            print(f"\n{title}\n\n" + "".join(line for line in said if line.startswith("|")), end="")
    shutil.rmtree(place)
    return 0


if __name__ == "__main__":
    sys.exit(main())
