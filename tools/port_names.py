#!/usr/bin/env python3
"""Brings the repository's own names in specs/ and proofs/ to today's spelling: words in snake case.

usage: port_names.py [--list]     at the top of a tree that port.py has turned

    isDigit -> is_digit, lineEndAt -> line_end_at, at16A -> at16a, line-apart -> line_apart

It reads the names that the .antt files define: definitions, constructors, fields of records, lemmas and local functions. It rewrites each place of
these names in .antt files, in the clauses and ghost items of .rt files, in comments there, and in the must-fail edits and edits/ that name such a
file. Where a name would fall together with another one of the repository's, with a word of the library that is imported beside it, or with a
parameter of a function whose clauses cite it, OTHERS says its new name. Functions of src/, C names, strings and answers of proofs keep theirs.
--list prints the table and what falls together, and writes nothing.
"""

import collections
import glob
import os
import re
import sys

NAME = r"[^\s(){}.;,\"«»\[\]\\:λ]+"
TOKEN = re.compile(NAME)
HEAD = re.compile(
    r"^(\s*)(?:(?:unfoldable|abbrev|pub) )*(?:(data|record|ruleset|abbrev) )?(?:pub )?(" + NAME + r")(?:(?: \([^)]*\)| \{[^}]*\})*) : (.*)$"
)
LOWER = re.compile(r"^[a-zα-ω]")
# What the rule alone would make fall together with another name, and words that are taken.
OTHERS = {
    # a field beside the definition streamCodes
    "stream-codes": "stream_codes_short",
    # a theorem beside the definition isNever, and lemmas beside definitions
    "is_never": "is_never_lem",
    "all_are": "all_are_lem",
    "from_last": "from_last_lem",
    "goes_on": "goes_on_lem",
    "is_later": "is_later_lem",
    "is_open": "is_open_lem",
    "no_name": "no_name_lem",
    "numbers_of": "numbers_of_lem",
    "part_left": "part_left_lem",
    "place_at": "place_at_lem",
    "same_code": "same_code_lem",
}


def snake(part):
    """isDigit: is_digit; at16A: at16a; fB20: f_b20. A part that begins with a capital is a fact's name and stays."""
    if not re.match(r"^[a-z]", part) or not re.search("[A-Z]", part):
        return part
    part = re.sub(r"(?<=[0-9])([A-Z])", lambda m: m[1].lower(), part)
    return re.sub(r"(?<=[a-z0-9'])([A-Z])", lambda m: "_" + m[1].lower(), part)


def renamed(name):
    return OTHERS.get(name) or "_".join(snake(p) for p in name.split("-"))


def antt():
    for folder in ("specs", "proofs"):
        yield from sorted(glob.glob(f"crates/*/{folder}/**/*.antt", recursive=True))


def read(path):
    with open(path, encoding="utf-8", newline="") as file:
        return file.read()


def of_a_function(path):
    return path.endswith(("/Proof.antt",))


def names():
    """What the .antt files define: name -> set of files; and, of each proof of a function, the answers that it holds."""
    defined, answers = collections.defaultdict(set), collections.defaultdict(set)
    for path in antt():
        for line in read(path).split("\n"):
            m = HEAD.match(line)
            if not m or m[3] in ("let", "where", "use", "--"):
                continue
            if of_a_function(path) and re.match(r"(tie|\{M : Type)\b|\{M", m[4]) and not m[1]:
                answers[path].add(m[3])
                continue
            defined[m[3]].add(path)
    return defined, answers


def table(defined):
    """Each of the repository's names that is not spelled as today's, with its new one."""
    found = {}
    for name in defined:
        if not LOWER.match(name) or re.search(r"[≡≢≤<+*∷≟→]", name):
            continue
        new = renamed(name)
        if new != name:
            found[name] = new
    # A lemma that would have a definition's name, or another lemma's, gets _lem.
    together = collections.defaultdict(set)
    for name in defined:
        together[found.get(name, name)].add(name)
    for new, olds in together.items():
        if len(olds) > 1:
            for old in olds:
                if "-" in old and old not in OTHERS:
                    found[old] = new + "_lem"
    return found


IMPORT = re.compile(r"use (?!Rattle\.(?!std\b|core\b|std_\w+\b|io\b))[\w.·◌+-]+\.\{([^}]*)\}")


def imported(text):
    """The names that a file imports from the library: they are not ours."""
    out = set()
    for m in IMPORT.finditer(text):
        for name in m[1].split(","):
            out |= set(name.replace(" as ", " ").split())
    return out


def fields():
    """The fields of the repository's records and the constructors of its types."""
    out = set()
    for path in antt():
        inside = False
        for line in read(path).split("\n"):
            if re.match(r"(pub )?(record|data) ", line):
                inside = True
            elif line and not line.startswith(" ") and not line.startswith("--"):
                inside = False
            m = HEAD.match(line)
            if inside and m and m[1]:
                out.add(m[3])
    return out


# Lower camel case that no line defines by itself: variables, and patterns.
CAMEL = re.compile(r"^[a-z][a-z0-9]*[A-Z]")
LIBRARY = re.compile(r"^(bool|uint|shr_slice|mut_slice|byte|index|walk|is)_[A-Z]|^(byte)-[A-Z]")


def turned(text, found, kept, of_records=None, variables=True):
    """With of_records, a name behind a dot is turned only if it is a field's: other such names are those that a check makes."""

    def one(m):
        name = m[0]
        if name in kept:
            return name
        behind_dot = text[m.start() - 1 : m.start()] == "." and not re.search(r"(Laws|laws|proofs|specs)\.\Z", text[: m.start()][-12:])
        if behind_dot and of_records is not None and name not in of_records and not CAMEL.match(name):
            return name
        if name in found:
            return found[name]
        if variables and CAMEL.match(name) and not LIBRARY.match(name) and "-" not in name and "_" not in name and "·" not in name:
            return renamed(name)
        return name

    return TOKEN.sub(one, text)


STRING = re.compile(r'b?"(?:[^"\\\n]|\\.)*"')


def source(text, found, variables=True):
    """Turns names in clauses, ghost items and comments of a .rt file: all but strings, where only a name of the table in camel case is meant."""
    camel = {k: v for k, v in found.items() if "-" not in k and re.search("[A-Z]", k)}
    out, at = [], 0
    for m in STRING.finditer(text):
        out += [turned(text[at : m.start()], camel, (), None, variables), m[0]]
        at = m.end()
    return "".join(out + [turned(text[at:], camel, (), None, variables)])


def main():
    listing = "--list" in sys.argv[1:]
    defined, answers = names()
    found = table(defined)
    if listing:
        together = collections.defaultdict(set)
        for name in defined:
            together[found.get(name, name)].add(name)
        for new, olds in sorted(together.items()):
            if len(olds) > 1:
                for old in sorted(olds):
                    print("together:", new, "<-", old, " ".join(sorted(defined[old]))[:200])
        for name, new in sorted(found.items()):
            print(name, new)
        return 0
    of_records = fields()
    for path in antt():
        text = read(path)
        new = turned(text, found, set(answers.get(path, ())) | imported(text), of_records)
        if new != text:
            open(path, "w", encoding="utf-8", newline="").write(new)
    for path in sorted(glob.glob("crates/*/src/**/*.rt", recursive=True)):
        text = read(path)
        new = source(text, found)
        if new != text:
            open(path, "w", encoding="utf-8", newline="").write(new)
    for path in sorted(glob.glob("crates/*/must-fail/*.edit") + glob.glob("edits/*/*.edit")):
        text = read(path)
        new = "\n".join(
            line if line.startswith("file:") else (turned(line, found, (), None, False) if ".antt" in text.split("\n")[0] else source(line, found, False))
            for line in text.split("\n")
        )
        if new != text:
            open(path, "w", encoding="utf-8", newline="").write(new)
    return 0


if __name__ == "__main__":
    raise SystemExit(main())
