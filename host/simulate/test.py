#!/usr/bin/env python3
"""Tests the engine by simulation: a shell over its exported functions on a model disk and a model network, 10^6 events; the same calls on
a second engine, 3 * 10^5 of them. Wrong shells and wrong engines must be found. Needs a C compiler, python3 and the archives; some
ten seconds.

    host/simulate/test.py [--stand-in]

With --stand-in the second engine stands in for the exported one: for work on the simulation itself.
"""
import os
import subprocess
import sys
import tempfile
import time

sys.dont_write_bytecode = True
PLACE = os.path.dirname(os.path.abspath(__file__))
ROOT = os.path.dirname(os.path.dirname(PLACE))
sys.path.insert(0, PLACE)
from wrong_engines import WRONG_ENGINES  # noqa: E402
from wrong_shells import WRONG_SHELLS  # noqa: E402

LIBRARY = os.path.join(ROOT, "target", "staticlib", "libsaratoga.a")
ENGINE = os.path.join(ROOT, "target", "staticlib", "libsaratoga_engine.a")
EVENTS, SANITIZED, CALLS = 1000000, 40000, 300000
SANITIZE = ("-fsanitize=address,undefined", "-fno-sanitize-recover=all")
COMPILER = [os.environ.get("CC", "cc"), "-std=c11", "-Wall", "-Wextra", "-Werror", "-pedantic", "-I" + os.path.join(ROOT, "include"),
            "-I" + PLACE]
STAND_IN = "--stand-in" in sys.argv[1:]
SIMULATION = ("simulate", "disk", "network", "judge", "listen", "shell")


def check(holds, what):
    if not holds:
        raise AssertionError(what)


class Builder:
    """Programs, from sources that are compiled once for each list of options."""

    def __init__(self, place, *options):
        self.place, self.options, self.made = place, options, {}

    def compiled(self, path, *options):
        key = (path, options)
        if key not in self.made:
            out = os.path.join(self.place, f"{os.path.basename(path)}-{len(self.made)}.o")
            subprocess.run([*COMPILER, *self.options, *options, "-c", path, "-o", out], check=True)
            self.made[key] = out
        return self.made[key]

    def source(self, name, *options):
        return self.compiled(os.path.join(PLACE, name + ".c"), *options)

    def changed(self, name, what, changes):
        """A source with some places changed."""
        with open(os.path.join(PLACE, name + ".c"), encoding="utf-8") as file:
            text = file.read()
        for old, new in changes:
            check(text.count(old) == 1, f"{what}: {name}.c has {old!r} {text.count(old)} times")
            text = text.replace(old, new)
        path = os.path.join(self.place, "wrong.c")
        with open(path, "w", encoding="utf-8") as file:
            file.write(text)
        self.made.pop((path, ("-w",)), None)
        return self.compiled(path, "-w")

    def first(self):
        """The exported engine, or what stands in for it."""
        return [self.source("second", "-Dsecond_engine=first_engine")] if STAND_IN else [self.source("first"), ENGINE]

    def linked(self, out, objects):
        out = os.path.join(self.place, out)
        subprocess.run([*COMPILER, *self.options, *objects, LIBRARY, "-o", out], check=True)
        return out


def said(program, *options):
    done = subprocess.run([program, *map(str, options)], capture_output=True, text=True, check=False, timeout=600)
    check("Sanitizer" not in done.stderr, done.stderr)
    return done.stdout.strip(), done.returncode


def passes(program, *options):
    lines, status = said(program, *options)
    check(status == 0, lines)
    return lines


def simulated(builder, place):
    parts = [*map(builder.source, SIMULATION), *builder.first(), builder.source("second")]
    program = builder.linked("simulate", parts)
    print("simulate: " + passes(program, "--events", EVENTS))
    passes(program, "--engine", "second", "--events", EVENTS // 10)
    checked = Builder(os.path.join(place, "sanitized"), *SANITIZE)
    os.mkdir(checked.place)
    try:
        parts = [*map(checked.source, SIMULATION), *checked.first(), checked.source("second")]
        passes(checked.linked("simulate", parts), "--seed", 5000, "--events", SANITIZED)
    except subprocess.CalledProcessError:
        print("simulate: skipped with sanitizers: the compiler doesn't support them")


def wrong_shells(builder):
    kept = [builder.source(name) for name in SIMULATION if name != "shell"]
    for what, rule, changes in WRONG_SHELLS:
        program = builder.linked("wrong", [*kept, builder.changed("shell", what, changes), *builder.first(), builder.source("second")])
        lines, status = said(program, "--events", EVENTS)
        check(status == 1 and rule in lines.splitlines()[0], f"a shell that {what} is not found: {lines}")
        check("again: simulate" in lines, f"no command that repeats it: {lines}")
    print(f"simulate: {len(WRONG_SHELLS)} wrong shells are found")


def wrong_engines(builder):
    by_simulation = 0
    for what, rule, changes in WRONG_ENGINES:
        wrong = builder.changed("second", what, changes)
        program = builder.linked("wrong", [builder.source("compare"), *builder.first(), wrong])
        lines, status = said(program, "--calls", CALLS)
        check(status == 1 and "FAILED" in lines, f"the comparison does not find an engine that {what}: {lines}")
        if rule is None:
            continue
        program = builder.linked("wrong", [*map(builder.source, SIMULATION), *builder.first(), wrong])
        lines, status = said(program, "--engine", "second", "--events", EVENTS)
        check(status == 1 and rule in lines.splitlines()[0], f"the simulation does not find an engine that {what}: {lines}")
        by_simulation += 1
    print(f"simulate: {len(WRONG_ENGINES)} wrong engines are found by the comparison, {by_simulation} of them by the simulation too")


def main():
    begun = time.monotonic()
    for archive in (LIBRARY,) if STAND_IN else (LIBRARY, ENGINE):
        check(os.path.exists(archive), f"{archive} is missing; run first: make lib engine")
    with tempfile.TemporaryDirectory() as place:
        builder = Builder(place, "-O2")
        simulated(builder, place)
        compare = builder.linked("compare", [builder.source("compare"), *builder.first(), builder.source("second")])
        print("simulate: " + passes(compare, "--calls", CALLS))
        wrong_shells(builder)
        wrong_engines(builder)
    print(f"simulate: tested in {time.monotonic() - begun:.0f} s")
    return 0


if __name__ == "__main__":
    try:
        sys.exit(main())
    except AssertionError as error:
        print(f"host/simulate/test.py: FAILED: {error}", file=sys.stderr)
        sys.exit(1)
