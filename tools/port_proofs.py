#!/usr/bin/env python3
"""Turns the proofs of functions of the older kit (Proof.antt) into today's Invariants.antt and Answers.antt.

usage: port_proofs.py NAMES CRATE..     at the top of the repository

NAMES is a folder that 'rt names NAMES' filled. Of each function whose Proof.antt ends in 'tie.close (tie.spec ..)' it writes the two files anew and
takes Proof.antt away. Goals and steps get the names that names.json lists. Answers that say no more than the check tries by itself are left out.
It prints what it could not turn.
"""

import collections
import json
import os
import re
import sys

N = r"[^\s(){}.;,\"«»\[\]\\:λ|]+"
TOKEN = re.compile(N)
PATH = re.compile(r"(?<![^\s(){};,\[\]|])((?:\w|[^\x00-\x7f])[^\s(){}.;,\"\[\]\\:|]*)((?:\.[^\s(){}.;,\"\[\]\\:|]+)+)")
norm = lambda s: s.replace("_", "-")


def blocks(text):
    """The declarations of a file, each with its comment: parts between blank lines, a part that begins indented joined to the one before."""
    out = []
    for part in re.split(r"\n\s*\n", text.strip("\n")):
        if out and (part.startswith((" ", "\t"))):
            out[-1] += "\n\n" + part
        else:
            out.append(part)
    # several declarations without a blank line between
    return out


def split_top(text, sep=","):
    """The parts of a text at the top-level separator."""
    parts, depth, cur = [], 0, ""
    for ch in text:
        if ch in "([{":
            depth += 1
        if ch in ")]}":
            depth -= 1
        if ch == sep and depth == 0:
            parts.append(cur)
            cur = ""
        else:
            cur += ch
    parts.append(cur)
    return [p.strip() for p in parts]


def lets(body):
    """A body's leading lets, and the rest."""
    head = ""
    rest = body
    while True:
        m = re.match(r"\s*let ", rest)
        if not m:
            break
        # find the matching ' in' at depth 0, counting nested lets
        depth, i, level = 0, m.end(), 1
        found = None
        for t in re.finditer(r"[(\[{]|[)\]}]|(?<![^\s(])let(?=\s)|(?<![^\s)])in(?=\s)", rest[m.end():]):
            s = t[0]
            if s in "([{":
                depth += 1
            elif s in ")]}":
                depth -= 1
            elif depth == 0:
                level += 1 if s == "let" else -1
                if level == 0:
                    found = m.end() + t.end()
                    break
        if found is None:
            break
        head += rest[:found]
        rest = rest[found:]
    return head, rest


def tuple_parts(rest):
    """The parts of a body that is one tuple, else None."""
    t = rest.strip()
    if not t.startswith("("):
        return None
    depth = 0
    for i, ch in enumerate(t):
        depth += ch in "([{"
        depth -= ch in ")]}"
        if depth == 0:
            if i != len(t) - 1:
                return None
            break
    parts = split_top(t[1:-1])
    if parts and not parts[-1]:
        parts.pop()
    return parts if len(parts) > 1 else None


def flat(parts, n):
    """A nested tuple as n parts, where it can be."""
    parts = list(parts)
    while len(parts) < n:
        more = tuple_parts(parts[-1])
        if not more:
            return None
        parts = parts[:-1] + more
    if len(parts) == n + 1 and parts[-1] == "tt":
        parts = parts[:-1]
    return parts if len(parts) == n else None


class Function:
    def __init__(self, of):
        self.of = of
        self.needs = {norm(a): b for a, b in of["needs"]}
        # the plain old names without an overflow prefix
        self.steps = {}
        self.fields = collections.defaultdict(dict)
        self.clauses = {}
        for i, place in enumerate(of["places"]):
            old, new = place[2]
            if old:
                self.steps.setdefault(norm(old), new)
                for a, b in place[4]:
                    self.fields[norm(old)][norm(a)] = b
            told = of["clauses"][i] if i < len(of["clauses"]) else None
            if told and told.get("fields"):
                self.clauses[norm(old)] = told["fields"]
        self.arms = {}
        for arm in of["arms"]:
            if not arm:
                continue
            name, n, rows = arm
            for new, step, path in rows:
                if new.endswith("-own"):
                    continue
                self.arms[(norm(step),) + tuple(norm(p) for p in path)] = (name, new)
        self.parents = {p[0]: p for p in of["places"]}
        self.at = {norm(n[0]): a[0] for n, a in zip(of["needs"], of["asked_at"])}
        self.chain = {}
        self.own = {}
        self.arm_of = {p[0]: a for p, a in zip(of["places"], of["arms"])}
        self.loops = {norm(a): (b, vs) for (a, b), vs in of["loops"]}
        for a, (b, vs) in list(self.loops.items()):
            self.steps[a] = b
        self.pre = (of.get("pre") or {}).get("fields")
        self.asked = {norm(k): v for k, v in of["asked"].items()}

    def stand(self, need):
        """The steps on the way to a goal, the nearest first."""
        self.chain = {}
        self.own = {}
        place = self.at.get(need)
        while place in self.parents:
            row = self.parents[place]
            if self.arm_of.get(place):
                name, _, rows = self.arm_of[place]
                for new, step, path in rows:
                    if new.endswith("-own"):
                        self.own.setdefault(norm(step), ["c", name, new])
            if row[2][0]:
                self.chain.setdefault(norm(row[2][0]), row[2][1])
            place = row[1]

    def goal(self, need):
        for it in (need, re.sub(r"^(overflow|nonzero)-(add|sub|mul|shl|shr|cast|step|div|rem)-", r"\2-", need)):
            if norm(it) in self.needs:
                return norm(it), self.needs[norm(it)]
        return None, None

    def path(self, root, fields, aliases):
        """c.before.before.lit.ensures -> c.lit.ensures"""
        if root not in aliases:
            return None
        fields = [f for f in fields]
        while fields and fields[0] == "before":
            fields.pop(0)
        if not fields:
            return "c"
        step = norm(fields[0])
        rest = fields[1:]
        if fields[0] in ("args", "requires", "ranges", "well_formed", "auto", "type_inv", "utf8"):
            if fields[0] == "requires" and self.pre and rest:
                rest = named(self.pre, rest)
            return ".".join(["c", fields[0]] + rest)
        for k in range(len(rest), -1, -1):
            key = (step,) + tuple(norm(r) for r in rest[:k])
            if k and key in self.arms:
                name, new = self.arms[key]
                return ".".join(["c", name, new] + rest[k:])
        if step in self.own:
            return ".".join(self.own[step] + rest)
        new = self.chain.get(step) or self.steps.get(step)
        if new is None:
            return ".".join(["c", fields[0]] + rest)
        if rest and norm(rest[0]) in self.fields.get(step, {}):
            rest = [self.fields[step][norm(rest[0])]] + rest[1:]
        elif rest and rest[0] == "branch":
            rest = ["branch-raw"] + rest[1:]
        elif rest and rest[0] == "ensures" and step in self.clauses:
            rest = ["ensures"] + named(self.clauses[step], rest[1:])
        return ".".join(["c", new] + rest)

    def turned(self, body):
        aliases = {"c"}
        more = True
        while more:
            more = False
            for m in re.finditer(r"let (" + N + r") = (" + N + r")((?:\.before)*) in", body):
                if m[2] in aliases and m[1] not in aliases:
                    aliases.add(m[1])
                    more = True

        def one(m):
            out = self.path(m[1], m[2][1:].split("."), aliases)
            return out if out is not None else m[0]

        new = PATH.sub(one, body)
        for a in aliases - {"c"}:
            new = re.sub(r"let %s = c in\s*" % re.escape(a), "", new)
        return new


def named(fields, rest):
    """.1.0 of nested pairs is the second of three clauses by its name."""
    n, i = len(fields), 0
    rest = list(rest)
    while rest and rest[0] in ("0", "1") and i < n:
        if rest[0] == "0" or i == n - 1:
            if i == n - 1:
                return [fields[i]] + rest
            rest.pop(0)
            return [fields[i]] + rest
        i += 1
        rest.pop(0)
    if i == n - 1:
        return [fields[i]] + rest
    # the pair of what is left
    return ["?rest%d?" % i] + rest


TRIVIAL = {"search rules", "omega arith", "tt", "search (rules)", "omega (arith)", "(search rules)"}


def used(imports, text):
    """The import lines whose names a text has."""
    toks = set(TOKEN.findall(text))
    holes = re.findall(r"\S+", text)
    out = []
    for line in imports:
        m = re.match(r"use (\S+?)\.\{(.*)\}$", line)
        if not m:
            out.append(line)
            continue
        keep = []
        for name in m[2].split(","):
            name = name.strip()
            if not name:
                continue
            if name == "[]":
                if "[]" in text:
                    keep.append(name)
            elif "◌" in name:
                ops = [p for p in name.split("◌") if p]
                if all(o in text for o in ops):
                    keep.append(name)
            elif name.split(" as ")[-1] in toks:
                keep.append(name)
        if keep:
            out.append("use %s.{%s}" % (m[1], ", ".join(keep)))
    return out


def convert(crate, path, of, said):
    folder = os.path.dirname(path)
    text = open(path, encoding="utf-8").read()
    module = "Rattle.%s.proofs.%s" % (crate, os.path.relpath(folder, "crates/%s/proofs" % crate).replace("/", "."))
    if "tie.close" not in text:
        said.append("%s: by hand" % path)
        return
    f = Function(of)
    imports, answers, invariants, helpers = [], [], [], []
    where = "%s:" % path
    for block in blocks(text):
        if block.startswith("use "):
            lines = block.split("\n")
            for line in lines:
                if re.match(r"use \S*\.(Statement\.\{statement\}|Tie as tie|Reads as reads|Lts as lts|Goals as .*|Reads.*|Lts.*)$", line):
                    continue
                if line.startswith("use "):
                    imports.append(line)
                elif line.strip():
                    helpers.append(line)
            continue
        m = re.search(r"(?m)^(?:pub )?(?:abbrev )?(?:pub )?(\S+) : (.*)$", block)
        if not m:
            helpers.append(block)
            continue
        name, kind = m[1], m[2]
        if re.match(r"\{M : ", kind):
            continue
        k = re.match(r"tie\.(invariant|decreases)-(\S+)", kind)
        if k:
            eq = re.search(r"(?ms)^%s((?: \S+)*?) =(.*)\Z" % re.escape(name), block)
            if not eq:
                said.append("%s the invariant %s" % (where, name))
                continue
            params, body = eq[1].split(), eq[2]
            new, vs = f.loops.get(norm(k[2]), (None, []))
            if not new:
                said.append("%s no loop %s" % (where, k[2]))
                continue
            table = {}
            for p in params:
                base = p.rstrip("₀")
                if base not in vs:
                    if p != "_" and re.search(r"(?<![^\s(),.;])%s(?![^\s(),.;])" % re.escape(p), body):
                        said.append("%s %s uses %s, which is no variable of %s" % (where, name, p, new))
                    continue
                table[p] = ("l.initial." if p.endswith("₀") else "l.") + base
            for b in re.findall(r"λ ([^.]*)\.", body) + re.findall(r"\(([^():]+) : [^)]*\) →", body):
                for t in re.findall(N, b):
                    if t in table:
                        said.append("%s %s binds %s again" % (where, name, t))
            body = re.sub(r"(?<![.])(?<![^\s(){}.;,\[\]])" + N, lambda t: table.get(t[0], t[0]), body)
            made = "%s-%s" % (k[1], new)
            opens = re.findall(r"(?m)^unfolding .*$", block)
            comment = "\n".join(l for l in block.split("\n") if l.startswith("--"))
            invariants.append("\n".join([x for x in [comment] if x] + ["abbrev pub %s : goal.%s" % (made, made)] + opens + ["%s l =%s" % (made, body)]))
            continue
        k = re.match(r"tie\.Need-(\S+)", kind)
        if not k:
            helpers.append(f.turned(block))
            continue
        old, new = f.goal(k[1])
        eq = re.search(r"(?ms)^%s((?: [^\s=]+)*?) =(.*)\Z" % re.escape(name), block)
        if not eq:
            said.append("%s the answer %s is read as none" % (where, name))
            continue
        binders, body = eq[1].split(), eq[2]
        if " ".join(body.split()) in TRIVIAL and not re.search(r"(?m)^unfolding ", block):
            continue
        if new is None:
            said.append("%s no goal %s any more" % (where, k[1]))
            continue
        f.stand(old)
        body = f.turned(body)
        if binders and binders[0] != "c" and "c" not in binders:
            # another name of c
            body = re.sub(r"(?<![^\s(])%s\." % re.escape(binders[0]), "c.", body)
        fields = f.asked.get(old)
        if fields and len(fields) > 1:
            head, rest = lets(body)
            parts = tuple_parts(rest)
            parts = flat(parts, len(fields)) if parts else None
            if parts:
                body = head + " record { " + "; ".join("%s = %s" % (a, b) for a, b in zip(fields, parts)) + " }"
            elif re.match(r"\s*(search|omega|grind|simp|cc|rw)\b", rest):
                t = rest.strip()
                body = head + " record { " + "; ".join("%s = %s" % (a, t) for a in fields) + " }"
            elif re.match(r"\s*record\b", rest):
                pass
            else:
                t = rest.strip()
                paths = ["0"] if len(fields) == 1 else [".".join(["1"] * i + (["0"] if i < len(fields) - 1 else [])) for i in range(len(fields))]
                body = head + " record { " + "; ".join("%s = (%s).%s" % (a, t, p) for a, p in zip(fields, paths)) + " }"
                said.append("%s %s is one term for the clauses %s" % (where, new, fields))
        if "?rest" in body:
            said.append("%s %s names a pair of clauses" % (where, new))
        opens = re.findall(r"(?m)^unfolding .*$", block[: eq.start()])
        comment = "\n".join(l for l in block.split("\n") if l.startswith("--"))
        answers.append("\n".join([x for x in [comment] if x] + ["pub %s : goal.%s" % (new, new)] + opens + ["%s c =%s" % (new, body)]))
    if invariants:
        body = "\n\n".join(invariants) + "\n"
        inside = [h for h in helpers if re.search(r"(?m)^(?:abbrev )?(\S+) :", h) and re.search(r"(?m)^(?:abbrev )?(\S+) :", h)[1] in set(TOKEN.findall(body))]
        body = "\n\n".join(inside + [body])
        with open(os.path.join(folder, "Invariants.antt"), "w", encoding="utf-8") as out:
            out.write("\n".join(used(imports, body) + ["use %s.Given as goal" % module, "", body]))
    if answers:
        body = "\n\n".join(helpers + answers) + "\n"
        with open(os.path.join(folder, "Answers.antt"), "w", encoding="utf-8") as out:
            out.write("\n".join(used(imports, body) + ["use %s.Goals as goal" % module, "", body]))
    os.remove(path)
    if not os.listdir(folder):
        os.rmdir(folder)


def main(names, *crates):
    said = []
    for crate in crates:
        listed = json.load(open(os.path.join(names, "crates", crate, "names.json"), encoding="utf-8"))
        functions = {}
        for key, of in listed.items():
            m = re.match(r"Rattle-%s-proofs\.(.*)\.Lts$" % crate, key)
            if m:
                functions[m[1]] = of
        for folder, _, files in os.walk("crates/%s/proofs" % crate):
            if "Proof.antt" in files:
                path = os.path.join(folder, "Proof.antt")
                name = os.path.relpath(folder, "crates/%s/proofs" % crate).replace("/", ".")
                if name not in functions:
                    said.append("%s: no function %s in names.json" % (path, name))
                    continue
                try:
                    convert(crate, path, functions[name], said)
                except Exception as e:  # told, and the file stays
                    said.append("%s: %r" % (path, e))
    print("\n".join(said))


if __name__ == "__main__":
    main(*sys.argv[1:])
