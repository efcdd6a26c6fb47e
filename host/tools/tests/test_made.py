"""The passes that the repository holds are those that their makers make; and the module's own functions."""
import os
import subprocess
import tempfile
import unittest

from packets import (END_OF_DATA, STREAMS, WANTED, beacon, close_record, data, failure, fit, header, metadata, record, split,
                     status_record, success, time_of, time_record)

ROOT = os.path.join(os.path.dirname(os.path.abspath(__file__)), "..", "..", "..")


def content(*names):
    with open(os.path.join(*names), "rb") as file:
        return file.read()


class Made(unittest.TestCase):
    def test_page611(self):
        with tempfile.TemporaryDirectory() as place:
            subprocess.run([os.path.join(ROOT, "host", "tests", "make_page611"), os.path.join(place, "made")], check=True)
            self.assertEqual(content(place, "made"), content(ROOT, "host", "passes", "page611.pass"))

    def test_replay_check(self):
        with tempfile.TemporaryDirectory() as place:
            subprocess.run([os.path.join(ROOT, "host", "tests", "make_replay_check"), place], check=True)
            for name in ("stdin", "stdout"):
                self.assertEqual(content(place, name), content(ROOT, "crates", "replay", name), name)


class Module(unittest.TestCase):
    """Octets worked out by hand from document 01 and section 4.1 of the draft, for each sort of packet and record."""

    def test_packets(self):
        self.assertEqual(header(3, 0x810000, 7).hex(), "4381000000000007")
        self.assertEqual(metadata(7, 16, 3000, b"p", mtime=1, ctime=2).hex(), "4200000000000007" "0000" "0bb8"
                         "00000001" "00000002" "7000")
        self.assertEqual(metadata(7, 32, 3, b"p", 0x11, b"abcd", size_width=64, properties=1).hex(), "4240001100000007"
                         "61626364" "0081" "0000000000000003" "0000000000000000" "7000")
        self.assertEqual(data(7, 64, 5, b"x", WANTED | END_OF_DATA).hex(), "4381800000000007" "0000000000000005" "78")
        self.assertEqual(success(7, 16, 1, 9, [(1, 2), (4, 9)]).hex(), "4400000000000007" "00010009" "00010002" "00040009")
        self.assertEqual(metadata(7, 128, 3, b"p").hex(), "42c0000000000007" "00c0" + 31 * "0" + "3" + 16 * "0" + "7000")
        self.assertEqual(data(7, 128, 2**64 + 5, b"x").hex(), "43c0000000000007" "0000000000000001" "0000000000000005" "78")
        self.assertEqual(success(7, 128, 1, 1).hex(), "44c0000000000007" + 2 * (31 * "0" + "1"))
        self.assertEqual(failure(7, 6).hex(), "4400000600000007")
        self.assertEqual(beacon(b"dish", 64, "willing", "not-now", 2**20, flags=STREAMS).hex(), "409e5000" "00100000"
                         "64697368")
        self.assertEqual(beacon(largest=128, send="not-now", receive="willing", free=1, free_width=64).hex(), "40cb6000"
                         "0000000000000001")
        self.assertEqual(beacon(b"x", 16, free=255, free_width=128).hex(), "40007000" + 30 * "0" + "ff" "78")
        self.assertEqual((beacon(largest=16).hex(), beacon(b"x", 32, free=65535, free_width=16).hex()),
                         ("40000000", "40404000" "ffff" "78"))

    def test_numbers_that_do_not_fit(self):
        for make in (lambda: data(7, 16, 65536, b""), lambda: metadata(7, 16, 65536), lambda: success(7, 16, -1, 0),
                     lambda: beacon(free=65536, free_width=16), lambda: data(7, 128, 2**128, b"")):
            self.assertRaises(OverflowError, make)
        self.assertEqual((fit(65537, 16), fit(-1, 16)), (1, 65535))

    def test_records(self):
        self.assertEqual(record(b"P", b"ab"), b"P\0\0\0\2ab")
        self.assertEqual(close_record(7), b"C\0\0\0\4\0\0\0\7")
        self.assertEqual(status_record(7).hex(), "5300000011" "00000007" "0000000000000000" "00" "0000ffff")
        self.assertEqual(time_record(2**63 + 1).hex(), "5700000008" "8000000000000001")
        self.assertEqual([time_of(b"W", body) for body in (bytes(7), b"\0" * 7 + b"\x05", bytes(9))], [None, 5, None])
        self.assertEqual(time_of(b"P", bytes(8)), None)
        whole = record(b"F") + record(b"P", b"page")
        for cut in range(len(whole) + 1):
            records, rest = split(whole[:cut])
            self.assertEqual(b"".join(record(*one) for one in records) + rest, whole[:cut])
            self.assertEqual(len(records), (cut >= 5) + (cut >= len(whole)))


if __name__ == "__main__":
    unittest.main()
