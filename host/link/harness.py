"""What the tests of the link program share: building it, running it, and looking at what it left on disk."""
import hashlib
import os
import random
import re
import struct
import subprocess
import sys

PLACE = os.path.dirname(os.path.abspath(__file__))
ROOT = os.path.dirname(os.path.dirname(PLACE))
sys.dont_write_bytecode = True
sys.path.insert(0, os.path.join(ROOT, "host", "tools", "tests"))
from packets import record  # noqa: E402

ARCHIVE = os.path.join(ROOT, "target", "staticlib", "libsaratoga.a")
ARCHIVES = [os.path.join(ROOT, "target", "staticlib", f"libsaratoga{name}.a") for name in ("_engine", "")]
SOURCES = [os.path.join(PLACE, name + ".c") for name in (
    "link", "options", "source", "udp", "peers", "packets", "answers", "shell", "sync", "worker", "area", "pages", "closing", "start",
    "files", "disk", "meta", "check", "sheet", "onair", "control", "settings", "text", "output", "json", "progress", "live", "counters",
    "metrics", "log", "config", "hook", "notify")]
POWERCUT, NOSPACE = os.path.join(PLACE, "powercut.c"), os.path.join(PLACE, "nospace.c")
WRAPPED = ["-Wl," + ",".join(f"--wrap={name}" for name in (
    "openat", "openat64", "pwrite", "pwrite64", "renameat", "unlinkat", "fsync"))]
FAILS = "-Wl,--wrap=sendmsg"
AREA_MAGIC, AREA_HEAD, AREA_WORDS, SLOT_WORDS, PLACES = b"saratoga-area 3\n", 48, 2161, 12, 16
ENDINGS = ("part", "page", "differs", "meta", "sheet", "aside", "hook")


def check(holds, what):
    if not holds:
        raise AssertionError(what)


COMPILER = [os.environ.get("CC", "cc"), "-std=c11", "-Wall", "-Wextra", "-Werror", "-pedantic", "-O1", "-g", "-pthread",
            "-I" + os.path.join(ROOT, "include"), "-I" + PLACE]
os.environ.setdefault("TSAN_OPTIONS", "halt_on_error=1")


def sanitizer(name):
    return ["-fsanitize=" + name, "-fno-sanitize-recover=all"]


# LINK_SANITIZE=thread, or address,undefined: every program of the tests is built with it, and wrong ones are not.
SANITIZED = os.environ.get("LINK_SANITIZE")
if SANITIZED:
    COMPILER += sanitizer(SANITIZED)


def build(sources, out, *options):
    """A program from sources, or from what compiled() made of them."""
    subprocess.run([*COMPILER, *options, *sources, *ARCHIVES, "-o", out], check=True)
    return out


def failing(out, *options, sources=tuple(SOURCES)):
    """The program on a machine whose calls fail (nospace.c)."""
    return build([*sources, NOSPACE], out, *options, *WRAPPED, FAILS)


def edited(edits, place):
    """For each source that edits change, its path and that of the edited one in `place`. What is edited stands once in the sources."""
    texts, changed = {path: content(path).decode() for path in SOURCES}, {}
    for old, new in zip(edits[::2], edits[1::2]):
        places = [path for path in SOURCES for _ in range(texts[path].count(old))]
        check(len(places) == 1, f"{old!r} stands {len(places)} times in the sources")
        path = places[0]
        texts[path] = texts[path].replace(old, new)
        changed[path] = os.path.join(place, os.path.basename(path))
    for path, new_path in changed.items():
        with open(new_path, "w", encoding="utf-8") as file:
            file.write(texts[path])
    return changed


def compiled(source, out, *options):
    subprocess.run([*COMPILER, *options, "-c", source, "-o", out], check=True)
    return out


def run(program, place, *options, octets=b"", **environment):
    """Lines, messages and exit status of the program."""
    done = subprocess.run([program, "-d", place, *options], input=octets, capture_output=True, check=False, timeout=120,
                          env=dict(os.environ, **environment))
    return done.stdout.decode().splitlines(), done.stderr.decode(), done.returncode


def numbers(place, ident):
    """The file numbers under an Id, in order."""
    found = {int(number) for name in os.listdir(place)
             for number in re.findall(rf"^{ident:08x}\.(\d+)\.(?:{'|'.join(ENDINGS)})$", name)}
    return sorted(found)


def real(place, name):
    """The name of a file in the directory. Tests write 00000007.page for the first file under Id 7, 00000007.2.page for the second."""
    form = re.fullmatch(rf"([0-9a-f]{{8}})(?:\.(\d+))?\.({'|'.join(ENDINGS)})", name)
    if not form or os.path.lexists(os.path.join(place, name)):
        return name
    have, which = numbers(place, int(form[1], 16)), int(form[2] or 1)
    return f"{form[1]}.{have[which - 1]}.{form[3]}" if which <= len(have) else name


def at(place, name):
    return os.path.join(place, real(place, name))


def content(*parts):
    with open(at(os.path.join(*parts[:-1]), parts[-1]) if len(parts) > 1 else parts[0], "rb") as file:
        return file.read()


def holds(place, name, octets):
    """Whether a file is there and has these octets."""
    return os.path.exists(at(place, name)) and content(place, name) == octets


def is_there(place, name):
    return os.path.lexists(at(place, name))


def area_of(place):
    """The words of the snapshot on disk, after the head that docs/LINK.md gives its file. None where there is none."""
    try:
        octets = content(place, "area")
    except FileNotFoundError:
        return None
    words = AREA_WORDS + PLACES * SLOT_WORDS
    check(octets.startswith(AREA_MAGIC), f"an area that begins {octets[:16]!r}")
    check(len(octets) == AREA_HEAD + 8 * words, f"an area of {len(octets)} octets")
    check(hashlib.md5(octets[32:]).digest() == octets[16:32], "an area that isn't whole")
    return struct.unpack(f"<{words}Q", octets[AREA_HEAD:])


def stored(place):
    """The area on disk as docs/AREA.md lays it out: for each Id its length and runs. None where there is none."""
    words = area_of(place)
    if words is None:
        return None
    table = {}
    for i in range(words[0]):
        ident, _, length, count = words[1 + 5 * i:5 + 5 * i]
        table[ident] = length, [(words[81 + 64 * i + j], words[1105 + 64 * i + j]) for j in range(count)]
    return table


def files(place):
    """The file number of each Id that the area on disk holds."""
    words = area_of(place)
    return {words[1 + 5 * i]: words[AREA_WORDS + SLOT_WORDS * i] for i in range(words[0] if words else 0)}


def stamps(place):
    """The timestamps that the area on disk keeps, by Id."""
    words = area_of(place)
    return {words[1 + 5 * i]: struct.pack("<2Q", *words[2129 + 2 * i:2131 + 2 * i])
            for i in range(words[0] if words else 0) if words[5 + 5 * i]}


def stem(place, ident):
    """The name, without its ending, of the files of an open transfer; of one that is closed, of the highest number with a .meta."""
    known = files(place)
    if ident in known:
        return f"{ident:08x}.{known[ident]}"
    found = [number for number in numbers(place, ident) if f"{ident:08x}.{number}.meta" in os.listdir(place)]
    return f"{ident:08x}.{found[-1]}" if found else None


def page(length, seed):
    return random.Random(seed).randbytes(length)


def records(packets):
    """A pass of these packets."""
    return b"".join(record(b"P", packet) for packet in packets)


def after_the_cut(disk, place, target, how, chance):
    """Makes `target` the directory as a power cut leaves it. `how`: which of the things not forced to disk are there
    all the same: "none", "names" (of files, not their octets), "octets" (not names), or "some"."""
    def lines(name):
        path = os.path.join(disk, name)
        return content(path).decode().splitlines() if os.path.exists(path) else []

    names = {}
    for line in lines("names"):
        inode, name = line.split()
        names[name] = inode
    for line in lines("changes"):
        if how == "names" or (how == "some" and chance.random() < 0.5):
            what, inode, name, *new = line.split()
            names.pop(name, None)
            names[new[0] if what == "rename" else name] = inode
    now = {str(os.stat(os.path.join(place, name)).st_ino): content(place, name) for name in os.listdir(place)}
    os.mkdir(target)
    for name, inode in names.items():
        kept = os.path.join(disk, "octets-" + inode)
        octets = content(kept) if os.path.exists(kept) else b""
        if inode in now and (how == "octets" or (how == "some" and chance.random() < 0.5)):
            octets = now[inode]
        with open(os.path.join(target, name), "wb") as file:
            file.write(octets)
