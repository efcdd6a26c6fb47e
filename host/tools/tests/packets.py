"""The packets and records of host/tools/saratoga_pass.py for tests, and the packets of a short transfer."""
import os
import sys

sys.dont_write_bytecode = True
sys.path.insert(0, os.path.join(os.path.dirname(os.path.abspath(__file__)), ".."))
from saratoga_pass import *  # noqa: E402,F401,F403
from saratoga_pass import END_OF_DATA, UNASKED, WANTED, data, failure, metadata, success  # noqa: E402


def page_packets():
    """The packets of a short transfer in both directions: Id 7, width 16, 3,000 octets, one packet late."""
    page = bytes(i * 7 % 251 for i in range(3000))
    return [
        metadata(7, 16, 3000),
        data(7, 16, 0, page[:1000]),
        data(7, 16, 2000, page[2000:], WANTED | END_OF_DATA),
        success(7, 16, 1000, 3000, [(1000, 2000)]),
        data(7, 16, 1000, page[1000:2000], WANTED),
        success(7, 16, 3000, 2999, flags=UNASKED),
        failure(8, 6),
        data(9, 16, 5, b"\x00"),
    ]
