#!/usr/bin/env python3
"""Counts, in crates/*/src, the places that docs/DESIGN-PASS.md speaks of: run it at the top of a checkout; -v lists each place."""

import collections
import glob
import re
import sys

VERBOSE = "-v" in sys.argv[1:]
WORDS = {"if", "let", "mut", "while", "for", "return", "match", "else", "as", "in"}


def sources():
    for path in sorted(glob.glob("crates/*/src/**/*.rt", recursive=True)):
        with open(path, encoding="utf-8") as file:
            yield path.split("/")[1], file.read()


def functions(text):
    """Each function: its name, its head with the contract, and its body."""
    for m in re.finditer(r"(?m)^ *(?:pub )?(?:const )?fn (\w+)((?:.|\n)*?)\n *\{\n((?:.|\n)*?)\n *\}\n", text):
        yield m[1], m[2], m[3], text[: m.start()]


def structs(text):
    """Each struct that C does not see: its name and its fields."""
    for m in re.finditer(r"((?:#\[[^\n]*\n)*)(?:pub )?struct (\w+)[^{;\n]* \{\n((?:.|\n)*?)\n\}", text):
        if "repr(C)" not in m[1]:
            yield m[2], m[3]


def enums(text):
    for m in re.finditer(r"((?:#\[[^\n]*\n)*)(?:pub )?enum (\w+)[^{\n]* \{\n((?:.|\n)*?)\n\}", text):
        yield m[2], m[3], m[1]


def comment_above(before):
    lines = before.rstrip("\n").split("\n")
    out = []
    while lines and (lines[-1].startswith("//") or lines[-1].startswith("#[")):
        out.append(lines.pop())
    return " ".join(out)


def shape(body):
    """A body without its names, literals and comments."""
    body = re.sub(r"//[^\n]*", "", body)
    body = re.sub(r"\b(0x[0-9a-f]+|\d+)\b", "N", body)
    body = re.sub(r"\b[A-Za-z_]\w*(::\w+)*\b", lambda m: m[0] if m[0] in WORDS else "X", body)
    return re.sub(r"\s+", " ", body)


def main():
    found = collections.OrderedDict()

    def add(point, place):
        found.setdefault(point, []).append(place)

    twins = collections.defaultdict(list)
    clauses = collections.defaultdict(list)
    for crate, text in sources():
        for line in text.split("\n"):
            if re.match(r"\s*(?:while\b|loop \{)", line):
                add("3 a loop by while or loop", f"{crate}: {line.strip()}")
        for name, variants, attributes in enums(text):
            if re.search(r"(?m)^ *Refused\(", variants):
                add("1 an enum of its own with a variant Refused", f"{crate}::{name}")
            if "Debug" not in attributes:
                add("4 an enum with no derive but Clone and Copy", f"{crate}::{name}")
        for name, fields in structs(text):
            if re.search(r"(?m)^ *(?:pub )?(number|refusal): u64", fields) and name != "Refusal":
                add("1 a struct with a refusal's number", f"{crate}::{name}")
            if re.search(r": bool\b", fields):
                add("1 a struct with a bool (read: is it a flag of another field?)", f"{crate}::{name}")
        for name, head, body, before in functions(text):
            place = f"{crate}::{name}"
            above = comment_above(before)
            number = re.search(r"-> (u64|u8|usize)\b", head)
            if number and ("0 for none" in above or re.search(r"(refusal|excess|refused|unread)$", name)):
                add("1 a function that answers a refusal's number, 0 for none", place)
            for width in re.findall(r"if (?:d|width) == 2 \{", body):
                add("2 a switch over the widths 2, 4, 8 and 16", place)
            if len(shape(body)) > 40:
                twins[shape(body)].append(place)
            if re.fullmatch(r"\s*if (\w+) < (\w+) \{\s*(\w+)\s*\} else \{\s*(\w+)\s*\}\s*", body):
                add("4 a maximum or minimum by hand", place)
            parameters = re.match(r"(?:<[^>]*>)?\(((?:.|\n)*?)\)\s*(?:->|\n|$)", head)
            if parameters and len(re.findall(r"\w+: ", parameters[1])) > 6:
                add("5 a function with more than six parameters", place)
            for clause in re.findall(r"(?m)^ *requires \{ (.*) \}$", head):
                for part in clause.split(" × "):
                    part = part.strip("() ")
                    clauses[re.sub(r"\.old|\.now", "", part)].append(place)
            if re.search(r"starts: &(mut )?\[u64\]", head):
                add("6 parallel arrays", place)
    for places in twins.values():
        if len(places) > 1:
            for place in places:
                add("2 a function whose body is another's but for names, types and literals", place)
    for part, places in sorted(clauses.items(), key=lambda item: -len(item[1])):
        if len(places) >= 3:
            add("5 a fact asked by three functions or more", f"{part}: {len(places)}")
    for point in sorted(found):
        print(f"{len(found[point]):4}  {point}")
        if VERBOSE:
            for place in found[point]:
                print(f"      {place}")


main()
