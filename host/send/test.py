#!/usr/bin/env python3
"""Tests saratoga-send: its decisions over a simulated network (sim.c), and the program over loopback, through links that lose, repeat
and reorder, to a receiver in Python (model.py) and to saratoga-link. Wrong senders must be found. Needs a C compiler, python3
and the archive; some twenty seconds.

    host/send/test.py [SEED]
"""
import os
import subprocess
import sys
import tempfile
import time

sys.dont_write_bytecode = True
PLACE = os.path.dirname(os.path.abspath(__file__))
sys.path.insert(0, PLACE)
import onloopback  # noqa: E402
from model import check  # noqa: E402
from harness import ARCHIVE, SOURCES, build, compiled  # noqa: E402

SIMULATED, SANITIZED, FOUND_IN = 20000, 500, 20000
PROGRAM = ("send", "options", "page", "transfer", "round", "run", "wire", "lines")
SIMULATION = ("sim", "sim_net", "transfer", "round")
SANITIZE = ("-fsanitize=address,undefined", "-fno-sanitize-recover=all")

# A change to a source, and what the simulation must say of it.
WRONG_DECISIONS = (
    ("repairs one octet short", "transfer", "piece = t->pieces[t->piece_at++];",
     "piece = t->pieces[t->piece_at++], piece.length -= piece.length > 1;", "not one packet more for each that was lost"),
    ("believes an old STATUS", "transfer", "is_older(&report, &t->best)", "0", "octets were sent again that had come"),
    ("takes any STATUS for the answer to its round", "transfer",
     "return !is_in_round(t) && (", "return !is_in_round(t) && (1 || ", "octets were sent again that had come"),
    ("plans a round while another is sent", "transfer",
     "return !is_in_round(t) && (", "return (", "octets were sent again that had come"),
    ("never asks", "transfer",
     "step.flags |= SARATOGA_FLAG_STATUS_WANTED;", ";", "it waits for an answer, and has not asked"),
    ("asks one packet late", "transfer",
     "++t->since_ask >= t->ask", "t->since_ask++ >= t->ask", "too many packets without a request"),
    ("does not ask at the end of a round", "transfer",
     "|| ends_round ||", "||", "it waits for an answer, and has not asked"),
    ("believes that an edge at the end is all", "transfer",
     "report.progress == t->length", "report.edge == t->length", "confirmed, and the receiver never had it all"),
    ("believes a STATUS of another transfer", "transfer",
     "|| read.id != t->id ||", "||", "confirmed, and the receiver never had it all"),
    ("sends DATA at once", "transfer", "t->state = OPENING;\n    t->deadline", "t->state = SENDING;\n    t->deadline",
     "DATA before METADATA was answered"),
    ("tries for ever", "transfer", "t->tries += t->state == OPENING;", "", "it does not end"),
    ("tries once too often", "transfer", "t->tries == t->most_tries ?", "t->tries > t->most_tries ?", "not given up after"),
    ("gives up for an unknown Id", "transfer",
     "code != SARATOGA_CODE_UNKNOWN_ID &&", "1 &&", "not confirmed, though the receiver is there"),
    ("gives up for failure 3", "transfer", "if (!no_room && code != SARATOGA_CODE_UNKNOWN_ID",
     "if (code != SARATOGA_CODE_UNKNOWN_ID", "not confirmed, though the receiver is there"),
    ("goes on after METADATA where it was", "transfer", "t->next = report->edge;",
     "if (t->next == 0) t->next = report->edge;", "not confirmed, though the receiver is there"),
    ("leaves the last hole out", "round", "packet_len = cut_holes(packet, &list, payload, most);",
     "packet_len = cut_holes(packet, &list, payload, most) - 2 * (size_t)list.width;",
     "not confirmed, though the receiver is there"),
    ("begins with octet 0 though there is no room for a run", "round", "int is_full = no_room ||", "int is_full = 0 &&",
     "not confirmed, though the receiver is there"),
)
# A change to a source, and the test over loopback that must find it.
WRONG_PROGRAMS = (
    ("ends with 0 though nothing is confirmed", "send", "status = NOT_CONFIRMED;", "status = ALL_CONFIRMED;", "no_answer"),
    ("sends as fast as it can", "run", "return options->rate > 0 ?", "return options->rate < 0 ?", "rate"),
    ("waits half as long", "options", "seconds * (double)SECOND", "seconds * (double)SECOND / 2", "no_answer"),
    ("tells its folders", "page", "slash != NULL ? slash + 1 :", "slash != NULL ? page->name :", "metadata_fields"),
    ("leaves the MD5 out", "send", "options->id + i, options, options->md5)", "options->id + i, options, 0)",
     "metadata_fields"),
    ("does not see that a file changes", "send", "changed = page_changed(page);", "changed = 0;", "changed_files"),
    ("reads at another place", "page", "return block + (offset - block_start);", "return block;", "widths"),
    ("gives all files one Id", "send", "options->id + i, options, options->md5)", "options->id, options, options->md5)",
     "several"),
    ("takes a file that is too long for the width", "page", "page->length > width_limit(page->width)", "0", "widths"),
    ("overwrites its line where there is no terminal", "lines", "terminal = isatty(STDOUT_FILENO);", "terminal = 1;", "lines"),
)


def changed(place, name, old, new):
    """The source with one place changed, as a file; it finds its headers by -I."""
    with open(os.path.join(PLACE, name + ".c"), encoding="utf-8") as file:
        text = file.read()
    check(text.count(old) == 1, f"{name}.c has {old!r} {text.count(old)} times")
    path = os.path.join(place, "wrong-" + name + ".c")
    with open(path, "w", encoding="utf-8") as file:
        file.write(text.replace(old, new))
    return path


def compile_with(place, out, names, options=(), wrong=None):
    """A program of these sources, each compiled once; with `wrong`, one of them changed."""
    objects = []
    for name in names:
        made = os.path.join(place, name + str(len(options)) + ".o")
        if wrong is not None and name == wrong[0]:
            made = compiled(changed(place, *wrong), os.path.join(place, "wrong.o"), "-I" + PLACE, *options, "-w")
        elif not os.path.exists(made):
            compiled(os.path.join(PLACE, name + ".c"), made, "-I" + PLACE, *options)
        objects.append(made)
    return build(objects, os.path.join(place, out), *options)


def simulate(program, seed, count):
    done = subprocess.run([program, str(seed), str(count)], capture_output=True, text=True, check=False, timeout=300)
    check("Sanitizer" not in done.stderr, done.stderr)
    return done.stdout.strip(), done.returncode


def simulated(place, seed):
    said, status = simulate(compile_with(place, "sim", SIMULATION, ("-O2",)), seed, SIMULATED)
    check(status == 0, said)
    print("send: " + said)
    try:
        checked = compile_with(place, "sim-sanitized", SIMULATION, SANITIZE)
    except subprocess.CalledProcessError:
        print("send: skipped with sanitizers: the compiler doesn't support them")
    else:
        said, status = simulate(checked, seed + SIMULATED, SANITIZED)
        check(status == 0, said)
    for what, name, old, new, found in WRONG_DECISIONS:
        wrong = compile_with(place, "sim-wrong", SIMULATION, ("-O2",), (name, old, new))
        said, status = simulate(wrong, 1, FOUND_IN)
        check(status == 1 and found in said, f"a sender that {what} is not found: {said}")
    print(f"send: {len(WRONG_DECISIONS)} wrong senders are found")


def wrong_programs(place):
    """Each must be found by its test, which the right program has passed."""
    for what, name, old, new, test in WRONG_PROGRAMS:
        wrong = onloopback.Sender(compile_with(place, "wrong", PROGRAM, (), (name, old, new)), os.path.join(place, "wrong-sent"))
        try:
            getattr(onloopback, test)(wrong)
        except AssertionError:
            continue
        check(False, f"a program that {what} is not found")
    print(f"send: {len(WRONG_PROGRAMS)} wrong programs are found")


def main():
    seed = int(sys.argv[1]) if len(sys.argv) > 1 else 32
    begun = time.monotonic()
    check(os.path.exists(ARCHIVE), f"{ARCHIVE} is missing")
    with tempfile.TemporaryDirectory() as place:
        simulated(place, seed * 1000000)
        try:
            program = compile_with(place, "saratoga-send", PROGRAM, SANITIZE)
        except subprocess.CalledProcessError:
            program = compile_with(place, "saratoga-send", PROGRAM)
        link = build(SOURCES, os.path.join(place, "saratoga-link"))
        for line in onloopback.run_all(program, link, place, seed):
            print("send: " + line)
        wrong_programs(place)
    print(f"send: tested in {time.monotonic() - begun:.0f} s")
    return 0


if __name__ == "__main__":
    try:
        sys.exit(main())
    except AssertionError as error:
        print(f"host/send/test.py: FAILED: {error}", file=sys.stderr)
        sys.exit(1)
