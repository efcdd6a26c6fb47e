"""replay as a user runs it: what it says and how it ends. The lines are the proved program's, passed on unchanged."""
import os
import shutil
import signal
import subprocess
import tempfile
import threading
import time
import unittest

from packets import data, metadata, record

ROOT = os.path.join(os.path.dirname(os.path.abspath(__file__)), "..", "..", "..")
PROVED = os.path.join(ROOT, "target", "bin", "replay")
PASS = record(b"F") + record(b"C", b"\0\0\0\7")
LINES = b"1 fresh\n2 refused 12 code=6\n"


@unittest.skipUnless(os.path.exists(PROVED), "target/bin/replay isn't there; make replay-program makes it")
class Replay(unittest.TestCase):
    @classmethod
    def setUpClass(cls):
        holder = tempfile.TemporaryDirectory()
        cls.addClassCleanup(holder.cleanup)
        cls.place = holder.name
        os.chmod(cls.place, 0o755)
        os.makedirs(cls.in_place("libexec", "saratoga"))
        os.mkdir(cls.in_place("bin"))
        shutil.copy(PROVED, cls.in_place("libexec", "saratoga", "replay"))
        cls.program = cls.in_place("bin", "replay")
        subprocess.run([os.environ.get("CC", "cc"), "-std=c99", "-O1", "-g", "-Wall", "-Wextra", "-Werror", "-pedantic",
                        '-DVERSION="7.8"', os.path.join(ROOT, "host", "replay", "replay.c"), "-o", cls.program], check=True)

    @classmethod
    def in_place(cls, *names):
        return os.path.join(cls.place, *names)

    def file(self, octets, name="a.pass"):
        with open(self.in_place(name), "wb") as out:
            out.write(octets)
        return self.in_place(name)

    def ends(self, arguments, lines, told, status, octets=b"", **more):
        done = subprocess.run([self.program, *arguments], input=octets, stdout=subprocess.PIPE, stderr=subprocess.PIPE,
                              check=False, timeout=20, **more)
        self.assertEqual((done.stdout, done.stderr.decode(), done.returncode), (lines, told, status))

    def test_a_file_and_standard_input(self):
        self.ends([], LINES, "", 0, PASS)
        self.ends(["-"], LINES, "", 0, PASS)
        self.ends([self.file(PASS)], LINES, "", 0, b"not this")
        self.ends(["--", self.file(PASS)], LINES, "", 0)
        self.ends([], b"", "", 0, b"")

    def test_a_name_that_begins_with_a_dash(self):
        self.file(PASS, "-x")
        self.ends(["--", "-x"], LINES, "", 0, cwd=self.place)

    def test_all_lines_of_a_long_pass(self):
        """As the proved program prints them alone, through pipes that fill up many times."""
        passed = record(b"O", metadata(7, 16, 60000)) + b"".join(
            record(b"P", data(7, 16, at % 50000, bytes(1 + at % 9))) for at in range(40000))
        lines = subprocess.run([PROVED], input=passed, capture_output=True, check=True).stdout
        self.assertEqual(lines.count(b"\n"), 40001)
        self.ends([], lines, "", 0, passed)
        self.ends([self.file(passed)], lines, "", 0)

    def test_help_and_version(self):
        for option in ("--help", "-h"):
            done = subprocess.run([self.program, option], capture_output=True, check=False)
            self.assertEqual((done.returncode, done.stderr), (0, b""))
            self.assertIn(b"usage: replay [PASS]", done.stdout)
            self.assertIn(b"Exit status", done.stdout)
        self.ends(["--version"], b"replay (saratoga) 7.8\n", "", 0)

    def test_wrong_command_lines(self):
        usage = "usage: replay [PASS]; replay --help says more\n"
        self.ends(["--verbose"], b"", "replay: --verbose: no such option\n" + usage, 2)
        self.ends(["-x"], b"", "replay: -x: no such option\n" + usage, 2)
        self.ends([self.file(PASS), "b.pass"], b"", "replay: b.pass: one pass at a time\n" + usage, 2)
        self.ends(["-", "-"], b"", "replay: -: one pass at a time\n" + usage, 2)

    def test_files_that_cannot_be_read(self):
        self.ends(["/nowhere/pass"], b"", "replay: /nowhere/pass: No such file or directory\n", 1)
        self.ends([""], b"", "replay: : No such file or directory\n", 1)
        self.ends([self.place], b"", f"replay: {self.place}: Is a directory\n", 1)
        folder = os.open(self.place, os.O_RDONLY)
        self.addCleanup(os.close, folder)
        done = subprocess.run([self.program], stdin=folder, capture_output=True, check=False)
        self.assertEqual((done.stdout, done.stderr, done.returncode),
                         (b"", b"replay: standard input: Is a directory\n", 1))

    def test_no_permission(self):
        name = self.file(PASS, "secret.pass")
        os.chmod(name, 0)
        user = {"user": 65534} if os.geteuid() == 0 else {}
        self.ends([name], b"", f"replay: {name}: Permission denied\n", 1, **user)

    def test_a_name_that_would_steer_a_terminal(self):
        self.ends(["\x1b[2J\n%n%s"], b"", "replay: \\x1b[2J\\x0a%n%s: No such file or directory\n", 1)

    def test_cut_short(self):
        told = "cut short: the pass ends inside its last record\n"
        for cut in range(1, 9):
            self.ends([], b"1 fresh\n2 cut short\n", "replay: standard input: " + told, 1, PASS[:5 + cut])
        name = self.file(PASS[:-1])
        self.ends([name], b"1 fresh\n2 cut short\n", f"replay: {name}: {told}", 1)
        self.ends([], b"1 cut short\n", "replay: standard input: " + told, 1, b"F")

    def test_a_full_disk(self):
        for passed in (PASS, PASS * 30000):
            with open("/dev/full", "wb") as full:
                done = subprocess.run([self.program], input=passed, stdout=full, stderr=subprocess.PIPE, check=False,
                                      timeout=20)
            self.assertEqual((done.stderr, done.returncode),
                             (b"replay: standard output: No space left on device\n", 1))
        with open("/dev/full", "wb") as full:
            done = subprocess.run([self.program, "--help"], stdout=full, stderr=subprocess.PIPE, check=False)
        self.assertEqual((done.stderr, done.returncode), (b"replay: standard output: No space left on device\n", 1))

    def test_a_file_size_limit(self):
        script = 'ulimit -f 1; exec "$0" "$1" > "$2"'
        done = subprocess.run(["bash", "-c", script, self.program, self.file(PASS * 30000), self.in_place("lines")],
                              stderr=subprocess.PIPE, check=False, timeout=20)
        self.assertEqual((done.stderr, done.returncode), (b"replay: standard output: File too large\n", 1))

    def test_a_reader_that_ends(self):
        """No message, a status that tells, and no process that stays, though the input goes on."""
        feed, pour = os.pipe()
        run = subprocess.Popen([self.program], stdin=feed, stdout=subprocess.PIPE, stderr=subprocess.PIPE)
        os.close(feed)
        os.write(pour, PASS)
        self.assertEqual(run.stdout.read(len(LINES)), LINES)
        run.stdout.close()
        os.write(pour, PASS)
        self.assertEqual((run.wait(10), run.stderr.read()), (1, b""))
        run.stderr.close()
        with self.assertRaises(BrokenPipeError):
            os.write(pour, PASS)
        os.close(pour)

    def test_files_that_do_not_wait(self):
        """Another program may have set what it shares with replay to O_NONBLOCK."""
        passed = PASS * 20000
        feed, pour = os.pipe()
        drain, lines = os.pipe()
        os.set_blocking(feed, False)
        os.set_blocking(lines, False)
        run = subprocess.Popen([self.program], stdin=feed, stdout=lines, stderr=subprocess.PIPE)
        os.close(feed)
        os.close(lines)

        def write():
            time.sleep(0.1)
            with os.fdopen(pour, "wb") as file:
                file.write(passed)

        writer = threading.Thread(target=write)
        writer.start()
        time.sleep(0.3)
        with os.fdopen(drain, "rb") as file:
            self.assertEqual(file.read().count(b"\n"), 40000)
        writer.join()
        self.assertEqual((run.wait(10), run.stderr.read()), (0, b""))
        run.stderr.close()

    def test_a_caller_that_waits_for_nobody(self):
        self.ends([], LINES, "", 0, PASS, preexec_fn=lambda: signal.signal(signal.SIGCHLD, signal.SIG_IGN))

    def test_killed(self):
        """What it started ends with it."""
        feed, pour = os.pipe()
        with subprocess.Popen([self.program], stdin=feed, stdout=subprocess.PIPE) as run:
            os.close(feed)
            os.write(pour, PASS)
            self.assertEqual(run.stdout.read(len(LINES)), LINES)
            run.send_signal(signal.SIGKILL)
            self.assertEqual(run.wait(10), -signal.SIGKILL)
            self.assertEqual(run.stdout.read(), b"")
        for _ in range(100):
            try:
                os.write(pour, b"F")
            except BrokenPipeError:
                break
            time.sleep(0.05)
        else:
            self.fail("something still holds the input open")
        os.close(pour)

    def test_closed_standard_files(self):
        name = self.file(PASS)
        done = subprocess.run(["bash", "-c", '"$0" "$1" >&-', self.program, name], capture_output=True, check=False)
        self.assertEqual((done.stderr, done.returncode), (b"replay: standard output: Bad file descriptor\n", 1))
        done = subprocess.run(["bash", "-c", '"$0" <&-', self.program], capture_output=True, check=False)
        self.assertEqual((done.stderr, done.returncode), (b"replay: standard input: Bad file descriptor\n", 1))
        done = subprocess.run(["bash", "-c", '"$0" "$1" <&- 2>&-', self.program, name], capture_output=True, check=False)
        self.assertEqual((done.stdout, done.returncode), (LINES, 0))

    def test_without_the_proved_program(self):
        os.makedirs(self.in_place("alone", "bin"))
        alone = self.in_place("alone", "bin", "replay")
        shutil.copy(self.program, alone)
        done = subprocess.run([alone], input=PASS, capture_output=True, check=False)
        self.assertEqual((done.stdout, done.returncode), (b"", 1))
        self.assertIn(b"libexec/saratoga/replay: the proved program is not here", done.stderr)
        os.makedirs(self.in_place("alone", "libexec", "saratoga"))
        shutil.copy("/bin/false", self.in_place("alone", "libexec", "saratoga", "replay"))
        done = subprocess.run([alone], input=PASS, capture_output=True, check=False)
        self.assertEqual((done.stdout, done.returncode), (b"", 1))
        self.assertIn(b"the proved program did not end by itself", done.stderr)

    def test_make_replay(self):
        def make(name):
            return subprocess.run(["make", "-C", ROOT, "--silent", "-o", "replay-program", "replay", f"PASS={name}"],
                                  capture_output=True, check=False, text=True)

        done = make("no file.pass")
        self.assertNotEqual(done.returncode, 0)
        self.assertIn("replay: no file.pass: No such file or directory", done.stderr)
        done = make(self.file(PASS))
        self.assertEqual((done.returncode, done.stderr), (0, ""))
        self.assertTrue(done.stdout.endswith(LINES.decode()), done.stdout)


if __name__ == "__main__":
    unittest.main()
