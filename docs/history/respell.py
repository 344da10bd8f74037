#!/usr/bin/env python3
"""Brings the names of this repository's definitions and lemmas to one spelling: words in snake case, types in camel case.

usage: python3 tools/respell.py [--check] [--names]        at the top of the repository, once, after the toolchain's own script

What is renamed is declared in crates/*/specs or crates/*/proofs: definitions, lemmas, fields, constructors and locals. Names that
come from a source file or that the toolchain makes keep their spelling. The crate csv, whose name the toolchain's libraries have,
becomes rfc4180. With --check nothing is written, with --names the table of names is shown, and names that would fall together are shown
either way.
"""

import collections
import os
import re
import sys

WORD = re.compile(r"[^\s(){}.;,@\"«»]+")
HEAD = re.compile(r"^\s*(?:let |where )?(?:(?:pub|abbrev|unfoldable|pattern|record|data) )*([^\s(){}:.;,@\"«»]+)(?: \{[^}]*\})?(?: \([^:]*:.*\))* :(?: |$)(.*)")
LET = re.compile(r"\blet ([^\s(){}:.;,@\"«»]+)")
BOUND = re.compile(r"[({λ]\s*((?:[^\s(){}:.;,@\"«»]+ )+): ")
LAMBDA = re.compile(r"λ ((?:[^\s(){}:.;,@\"«»]+ ?)+)\.")
IMPORT = re.compile(r"^\s*(?:ghost )?(?:pub )?use ([^\s{;]+?)\.\{([^}]*)\}")
TYPE = re.compile(r"(?:^|→ |\) )Type \S+$")
OLD_CRATE, NEW_CRATE = "csv", "rfc4180"
# names whose words the rules below do not find
WORDS = {"getD-row": "get_or_row", "natAbs-zero": "unsigned_abs_zero", "zero-natAbs": "zero_unsigned_abs"}
# words that the toolchain's script spells as a tactic
TACTICS = {"first_of": "first_refusal"}
# lemmas that would have the name of the definition that they are about, by a part of their file's path
LEMMAS = [("Digits.antt", "digit_at"), ("Fields.antt", "plain_at")]


def files(kind):
    for folder, dirs, names in os.walk("crates"):
        dirs[:] = sorted(d for d in dirs if d not in ("out", "target"))
        for name in sorted(names):
            if name.endswith(kind):
                yield os.path.join(folder, name)


def read(path):
    with open(path, encoding="utf-8") as f:
        return f.read()


def own_crates():
    return {c for c in os.listdir("crates") if os.path.isdir(os.path.join("crates", c))}


def wants(name):
    """Whether the spelling is neither snake case nor a type's."""
    return bool(re.search(r"[a-z0-9ℤℕ][A-Z]", name) and name[0].islower() or re.search(r"\w-\w", name))


def snake(name):
    name = re.sub(r"(?<=[a-z0-9])(?=[A-Z])", "_", name.replace("-", "_"))
    return "".join(c.lower() if c.isascii() else c for c in name)


def camel(name):
    """A type's spelling; a lemma on something whose name is one capital keeps that apart."""
    parts = name.split("-")
    return name.replace("-", "_") if len(parts[0]) == 1 else "".join(part[:1].upper() + part[1:] for part in parts)


def code(text):
    """The lines of an antt file without its comments."""
    return [re.sub(r"(^|\s)--( .*|$)", "", line) for line in text.split("\n")]


def table():
    """Old names and new ones, and the names that are not ours."""
    own, crates, ours, foreign = {}, own_crates(), set(), set()
    for path in files(".antt"):
        for line in code(read(path)):
            match = IMPORT.match(line)
            if match:
                head = match.group(1)
                inside = re.match(r"Rattle\.(\w+)\.(specs|proofs)\b", head)
                made = ".declared." in head or head.endswith((".Goals", ".Given"))
                if not inside or inside.group(1) not in crates or made:
                    for item in match.group(2).split(","):
                        foreign.update(item.split(" as ")[0].split())
                continue
            if line.startswith(("use ", "pub use ", "pub mod ", "mod ")):
                continue
            found = []
            match = HEAD.match(line)
            if match and not match.group(2).startswith("goal."):
                found.append(match.group(1))
            elif match:
                foreign.add(match.group(1))
            found += LET.findall(line)
            for pattern in (BOUND, LAMBDA):
                for group in pattern.findall(line):
                    found += group.split()
            ours.update(found)
    for name in ours - foreign:
        if wants(name):
            own[name] = WORDS.get(name) or (camel(name) if name[0].isupper() else snake(name))
        elif name in TACTICS:
            own[name] = TACTICS[name]
    taken = {name for name in ours if not wants(name)} | {new for name, new in own.items() if "-" not in name}
    for name, new in own.items():
        if "-" in name and new in taken:
            own[name] = new + "_lem"
    return own


def turned(line, own, dashes=True):
    """The line with its names respelled; one with a dash may be a difference in code, and plain words in a comment."""

    def one(match):
        name = match.group(0)
        new = own.get(name)
        if new is None or ("-" in name and not dashes) or (name in TACTICS and "Prim." in line):
            return name
        return new

    return WORD.sub(one, line)


def renamed_crate(text, kind):
    old, new = OLD_CRATE, NEW_CRATE
    text = re.sub(rf"\bRattle\.{old}\.", f"Rattle.{new}.", text)
    if kind in (".rt", ".edit"):
        text = re.sub(rf"(?<![\w.:]){old}::", f"{new}::", text)
        text = re.sub(rf"(?m)^(\s*(?:pub )?use ){old}(?=[:;])", rf"\1{new}", text)
    return text


def turn(path, own):
    text = read(path)
    kind = os.path.splitext(path)[1]
    lines = renamed_crate(text, kind).split("\n")
    out = []
    clause = False
    if kind == ".antt":
        own = own | {name: name + "_lem" for part, name in LEMMAS if path.endswith(part)}
    for line in lines:
        if kind == ".antt":
            head, sep, tail = line, "", ""
            match = re.search(r"(?:^|\s)--(?: |$)", line)
            if match:
                head, tail = line[: match.start()], line[match.start() :]
            out.append(turned(head, own) + turned(tail, own, dashes=False))
        else:
            begins = re.match(r"\s*(ghost\b|requires\b|ensures\b)", line)
            clause = bool(begins) or (clause and not re.match(r"\s*(\{|fn |pub |\}|$)", line))
            out.append(turned(line, own, dashes=clause))
    return text, "\n".join(out)


def falls(path, new_text, old_text, own):
    """New names that the file already has as names of something else."""
    before = set(WORD.findall("\n".join(code(old_text))))
    used = collections.defaultdict(set)
    for name in before:
        if name in own:
            used[own[name]].add(name)
    for new, olds in sorted(used.items()):
        if len(olds) > 1 or new in before:
            print(f"falls together: {path}: {new} from {', '.join(sorted(olds))}{' and ' + new if new in before else ''}")


def main():
    check = "--check" in sys.argv[1:]
    own = table()
    for kind in (".antt", ".rt", ".edit"):
        for path in list(files(kind)):
            old, new = turn(path, own)
            if kind != ".edit":
                falls(path, new, old, own)
            if new != old and not check:
                with open(path, "w", encoding="utf-8") as f:
                    f.write(new)
    if not check:
        lines = read("crates.txt")
        with open("crates.txt", "w", encoding="utf-8") as f:
            f.write(re.sub(rf"(?m)(?<!\w){OLD_CRATE}(?!\w)", NEW_CRATE, lines))
        old, new = os.path.join("crates", OLD_CRATE), os.path.join("crates", NEW_CRATE)
        if os.path.isdir(old):
            os.rename(old, new)
    if "--names" in sys.argv[1:]:
        for name in sorted(own):
            print(name, own[name])


main()
