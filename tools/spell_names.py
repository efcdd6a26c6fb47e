#!/usr/bin/env python3
"""Spells the repository's own ghost names as Rattle does today: definitions, lemmas, fields and constructors in snake case.

usage: tools/spell_names.py [--list]      at the top of the repository; --list prints the table and changes nothing

A name that crates/*/specs or crates/*/proofs declare and that has a capital inside or a dash gets underscores: beDigits is be_digits,
in-reach is in_reach. Where a lemma would then have the name of a definition, or a word that its file has already, it gets the ending _lem.
Types and modules, functions of src/, strings, and names that Rattle makes (behind a dot) stay as they are. It turns .antt and .rt files,
the must-fail edits, and the code spans of README.md and docs/.
"""
import collections
import os
import re
import sys

NAME = r'[^\s(){}.;,@"«»`]+'
QUIET = re.compile(r'"(?:[^"\\\n]|\\.)*"')
DECLARED = re.compile(rf"(?m)^( *)((?:\w+ )*?)({NAME})(?: \{{[^{{}}\n]*\}})* :(?=[ \n])")
RECORD = re.compile(r"(?m)^(?:pub |abbrev |unfoldable )*record [^\n]*\n((?:(?: [^\n]*)?\n)*)")
FIELD = re.compile(rf"(?m)^ +(?:pub )?({NAME}) :(?=[ \n])")
SPAN = re.compile(r"`[^`\n]+`")


def snake(name):
    return re.sub(r"(?<=[a-z0-9])[A-Z]", lambda m: "_" + m[0].lower(), name).replace("-", "_")


def read(path):
    with open(path, encoding="utf-8", newline="") as f:
        return f.read()


def files(top, endings):
    for folder, folders, names in os.walk(top):
        folders[:] = sorted(d for d in folders if d != "out")
        yield from (os.path.join(folder, n) for n in sorted(names) if n.endswith(endings))


def code_of(text):
    return QUIET.sub(" ", re.sub(r"(?m)(?<!\S)--[^\n]*", " ", text))


def gathered():
    """The names that are declared, the ones of specs/ among them, and the fields of records."""
    names, specs, fields = set(), set(), set()
    for path in files("crates", ".antt"):
        code = code_of(read(path))
        found = {m[3] for m in DECLARED.finditer(code) if not m[3][0].isupper()}
        inside = {f for m in RECORD.finditer(code) for f in FIELD.findall(m[1])}
        names |= found | inside
        fields |= inside
        if "/specs/" in path:
            specs |= found
    return names, specs, fields


def table_of(names, specs):
    """Each name that changes, with its new spelling."""
    groups = collections.defaultdict(list)
    for name in sorted(names):
        groups[snake(name)].append(name)
    table = {}
    for new, olds in groups.items():
        keeps = [n for n in olds if n in specs and "-" not in n] or [n for n in olds if n == new] or olds[:1]
        for old in olds:
            if old == new:
                continue
            table[old] = new if old in keeps or len(olds) == 1 else new + "_lem"
    return table


ALIAS = re.compile(r"(?m)^use Rattle\.(\w+)\.\S+ as (\S+)$")


def aliases(text, crates):
    """The names by which the file calls modules of the repository."""
    return {name for crate, name in ALIAS.findall(text) if crate in crates and name not in ("tie", "goal")}


def turned(text, table, fields, heads=()):
    """The text with each name of the table in its new spelling; behind a dot only what is a field, a module's, or has a capital."""

    def one(m):
        word, before = m[0], text[max(0, m.start() - 80) : m.start()]
        new = table.get(word)
        if new is None:
            bare = word.rstrip("'")
            new = table.get(bare)
            if new is None:
                return word
            new += word[len(bare) :]
        if before.endswith("."):
            head = re.search(rf"({NAME})\.$", before)
            module = head and (head[1][0].isupper() or head[1] in heads)
            if not (module or word in fields or re.search("[a-z][A-Z]", word)):
                return word
        return new

    return re.sub(NAME, one, text)


def outside_strings(text, table, fields):
    out, at, heads = [], 0, aliases(text, set(os.listdir("crates")))
    for m in QUIET.finditer(text):
        out += [turned(text[at : m.start()], table, fields, heads), m[0]]
        at = m.end()
    return "".join(out + [turned(text[at:], table, fields, heads)])


BLOCK = re.compile(r"(?<![^\s(){};,])(?:where|do|let|mutual) +(?=\S)")


def realigned(old, new):
    """The new text, in which the later lines of a block stand under its first item again."""
    was, now, lines = old.split("\n"), new.split("\n"), new.split("\n")
    by = [0] * len(lines)
    for row, (a, b) in enumerate(zip(was, now)):
        for x, y in zip(BLOCK.finditer(a), BLOCK.finditer(b)) if a != b else ():
            below = row + 1
            while x.end() != y.end() and below < len(was):
                if was[below].strip() and was[below][: x.end()].strip():
                    break
                by[below] += (y.end() - x.end()) * bool(was[below].strip())
                below += 1
    return "\n".join(" " * n + line if n >= 0 else line[-n:] for n, line in zip(by, lines))


IMPORT = re.compile(rf"(?m)^\s*(?:pub |unfoldable )*(?:ghost )?use ([^\s{{;]+?)\.\{{([^}}]*)\}}")


def of_others(text, crates):
    """The names that the file imports from the kit's libraries: these keep their spelling in it."""
    theirs, ours = set(), set()
    for module, names in IMPORT.findall(text):
        steps = module.split(".")
        mine = steps[0] == "Rattle" and len(steps) > 1 and steps[1] in crates
        (ours if mine else theirs).update(re.findall(NAME, names.replace(" as ", " ")))
    return theirs - ours


def own_table(text, table, said, path):
    """The table for one file: a word that the file has already, and that a name would be spelled like, gives way if it is the file's own."""
    words = set(re.findall(NAME, code_of(text)))
    theirs = of_others(text, set(os.listdir("crates")))
    mine = {old: new for old, new in table.items() if old not in theirs}
    declared = {m[3] for m in DECLARED.finditer(code_of(text))}
    bound = set(re.findall(rf"(?:let|λ|\() *\(?({NAME})(?= *[:=.])", code_of(text)))
    for old in sorted(words & set(mine)):
        new = mine[old]
        if new in words and new not in mine:
            used = [m.start() for m in re.finditer(rf"(?<![^\s(){{}};,])" + re.escape(new) + r"(?![^\s(){}.;,])", text)]
            if not used:
                continue  # only a field
            if new in declared or new in bound:
                mine[new] = new + "_lem"
            else:
                said.append(f"look: {path}: {old} becomes {new}, which the file has already")
    return mine


def wider(text, table, declared):
    """The table, with each name with a capital inside whose new spelling was declared before."""
    more = {w: snake(w) for w in re.findall(NAME, text) if re.match("[a-z]+[A-Z]", w) and snake(w) in declared}
    return {**more, **table}


def main(arguments):
    names, specs, fields = gathered()
    table = table_of(names, specs)
    if arguments == ["--list"]:
        for old, new in sorted(table.items()):
            print(f"{old}\t{new}")
        return 0
    if arguments:
        print(__doc__)
        return 0 if arguments[0] in ("-h", "--help") else 2
    declared = set(table.values()) | names
    said, changed = [], 0
    for path in list(files("crates", (".antt", ".rt", ".edit"))):
        text = read(path)
        mine = own_table(text, table, said, path) if path.endswith((".antt", ".rt")) else table
        if path.endswith(".edit"):
            new = turned(text, wider(text, {k: v for k, v in table.items() if "-" not in k}, declared), fields)
        else:
            new = outside_strings(text, mine, fields)
        if path.endswith(".antt"):
            new = realigned(text, new)
        if new != text:
            changed += 1
            with open(path, "w", encoding="utf-8", newline="") as f:
                f.write(new)
    for path in ["README.md", *files("docs", ".md")]:
        text = read(path)
        new = SPAN.sub(lambda m: turned(m[0], wider(m[0], table, declared), fields), text)
        if new != text:
            changed += 1
            with open(path, "w", encoding="utf-8", newline="") as f:
                f.write(new)
    print("\n".join(said))
    print(f"{len(table)} names, {changed} files changed")
    return 0


if __name__ == "__main__":
    sys.exit(main(sys.argv[1:]))
