"""days.py LIBRARY: the days that are worked out in crates/model/proofs (Stories, Days..), each run over the plain engine and compared.

A day there is an equation between a list of calls and what each answers, writes, tries and leaves. This reads the equations of those files with
a small evaluator of their notation; what the calls do comes from the plain engine alone, lent as a shared library. Prints how many days there were.
"""
import ctypes
import glob
import os
import re
import struct
import sys
import threading

HERE = os.path.dirname(os.path.abspath(__file__))
PROOFS = os.path.join(HERE, "..", "..", "crates", "model", "proofs")


# ---- the plain engine

class Bank(ctypes.Structure):
    _fields_ = [(n, ctypes.c_uint64) for n in ("code", "flags", "balance", "sublimit", "waiting")]


class Tables(ctypes.Structure):
    _fields_ = [("desk", ctypes.c_uint64 * 22), ("banks", Bank * 64), ("batches", ctypes.c_uint64 * 349 * 32),
                ("references", ctypes.c_uint64 * 3 * 2048), ("bins", ctypes.c_uint64 * 3 * 512)]


class Lent(ctypes.Structure):
    _fields_ = [("out", ctypes.c_void_p), ("room", ctypes.c_size_t), ("tries", ctypes.c_void_p), ("rows", ctypes.c_size_t)]


class Told(ctypes.Structure):
    _fields_ = [("answer", ctypes.c_uint64), ("written", ctypes.c_size_t), ("tried", ctypes.c_size_t)]


def load(path):
    library = ctypes.CDLL(path)
    for name in ("open", "message", "sublimit", "status", "tick", "close", "closing_book"):
        getattr(library, "plain_" + name).restype = Told
    return library


def ask(t, call):
    """One call on the tables: answer, bytes, tries."""
    asked = call["asked"]
    out = (ctypes.c_uint8 * (call["room"] + 1))()
    tries = (ctypes.c_uint64 * (call["rows"] + 1))()
    lent = Lent(ctypes.addressof(out), call["room"], ctypes.addressof(tries), call["rows"])
    word = ctypes.c_uint64
    begin = (ctypes.byref(t), ctypes.c_int(asked["quick"]), word(asked["clock"]), lent)
    text = bytes(asked["input"])
    kind, *args = asked["action"]
    if kind == "Opening":
        told = LIBRARY.plain_open(*begin, text, ctypes.c_size_t(len(text)))
    elif kind == "Message":
        told = LIBRARY.plain_message(*begin, word(args[0]), text, ctypes.c_size_t(len(text)))
    elif kind == "SubLimit":
        told = LIBRARY.plain_sublimit(*begin, word(args[0]), word(args[1]))
    elif kind == "Status":
        told = LIBRARY.plain_status(*begin, word(args[0]), word(args[1]["high"]), word(args[1]["low"]), word(args[2]))
    elif kind == "ClosingBook":
        told = LIBRARY.plain_closing_book(*begin, word(args[0]))
    else:
        told = {"Tick": LIBRARY.plain_tick, "Close": LIBRARY.plain_close}[kind](*begin)
    return told.answer, list(out[:told.written]), list(tries[:told.tried])


# ---- states as the definitions have them, and as words (docs/FORMAT.md)

PHASES = ["Fresh", "Open", "Closed"]


def code_words(c):
    return [c["high"], c["low"]]


def payment_words(p):
    return [p[1], p[2], 0] if p[0] == "credit" else [p[2], p[3], p[1]]


def waiting_against(batches, bank):
    """The total of a bank's debits in pending and queued batches."""
    return sum(x[3] for p in batches["pending"] + batches["queue"] for m in batches["places"][p][1]["messages"]
               for x in m["payments"] if x[0] == "debit" and x[2] == bank)


def tables_of(engine):
    s, t = engine["state"], Tables()
    day, house, books, batches = s["day"], s["house"], s["books"], s["batches"]
    streams = [w for x in house["streams"] for w in (x["code"], x["sender"])]
    desk = [PHASES.index(day["phase"][0]), day["date"], day["clock"], day["texts"], house["banks"], len(house["streams"])] + streams
    t.desk[:len(desk)] = desk
    for i in range(64):
        t.banks[i] = Bank(house["codes"][i], house["flags"][i], books["balances"][i], books["sublimits"][i], waiting_against(batches, i))
    for p, place in enumerate(batches["places"]):
        if place[0] == "free":
            continue
        b = place[1]
        phase = 3 if p in batches["queue"] else 2 if p in batches["pending"] else 1
        rank = batches["queue"].index(p) if phase == 3 else batches["pending"].index(p) if phase == 2 else 0
        activation = 0 if b["activation"][0] == "AtOnce" else b["activation"][1] + 1
        payments = [w for m in b["messages"] for x in m["payments"] for w in payment_words(x)]
        row = [phase, rank] + code_words(b["bin"]) + [b["count"], activation, engine["memory"][p], len(b["messages"]), len(payments) // 3]
        for m in b["messages"]:
            row += code_words(m["reference"]) + [m["number"], len(m["payments"])]
        row += [0] * (49 - len(row)) + payments
        t.batches[p][:len(row)] = row
    for table, name in ((t.references, "references"), (t.bins, "bins")):
        for i, e in enumerate(s["known"][name]):
            table[i][:] = code_words(e["code"]) + [e["day"]]
    return t


def code_at(row, i):
    return {"high": row[i], "low": row[i + 1]}


def place_of(row):
    if row[0] == 0:
        return ("free",)
    messages, at = [], 49
    for i in range(row[7]):
        n = row[12 + 4 * i]
        lines = [row[at + 3 * j:at + 3 * j + 3] for j in range(n)]
        at += 3 * n
        payments = [("debit", l[2], l[0], l[1]) if l[2] else ("credit", l[0], l[1]) for l in lines]
        messages.append({"reference": code_at(row, 9 + 4 * i), "number": row[11 + 4 * i], "payments": payments})
    activation = ("Minute", row[5] - 1) if row[5] else ("AtOnce",)
    return ("live", {"bin": code_at(row, 2), "count": row[4], "activation": activation, "messages": messages})


def engine_of(t):
    desk, rows = list(t.desk), [list(r) for r in t.batches]
    banks = list(t.banks)
    order = {k: [p for _, p in sorted((r[1], p) for p, r in enumerate(rows) if r[0] == k)] for k in (2, 3)}
    entries = [[{"code": {"high": a, "low": b}, "day": d} for a, b, d in table] for table in (t.references, t.bins)]
    return {
        "state": {
            "day": {"phase": (PHASES[desk[0]],), "date": desk[1], "clock": desk[2], "texts": desk[3]},
            "house": {"streams": [{"code": desk[6 + 2 * i], "sender": desk[7 + 2 * i]} for i in range(desk[5])], "banks": desk[4],
                      "codes": [b.code for b in banks], "flags": [b.flags for b in banks]},
            "books": {"balances": [b.balance for b in banks], "sublimits": [b.sublimit for b in banks]},
            "batches": {"places": [place_of(r) for r in rows], "pending": order[2], "queue": order[3]},
            "known": {"references": entries[0], "bins": entries[1]},
        },
        "memory": [r[6] for r in rows],
    }


def goes(engine, calls):
    t, lines = tables_of(engine), []
    for call in calls:
        number, out, tries = ask(t, call)
        lines.append({"number": number, "out": out, "tries": tries, "balances": [t.banks[0].balance, t.banks[1].balance]})
    return lines


def leaves(engine, calls):
    t = tables_of(engine)
    for call in calls:
        ask(t, call)
    return engine_of(t)


# ---- what the days are told with, where Stories takes it from below the engine

def text(string):
    return list(string.encode())


def long_of(b):
    b = bytes(b).ljust(16, b"\0")
    return {"high": int.from_bytes(b[:8], "big"), "low": int.from_bytes(b[8:], "big")}


def date_digits(day):
    """YYMMDD of a day number; zeros past 2099, as the book's writer has it."""
    months = [31, 28, 31, 30, 31, 30, 31, 31, 30, 31, 30, 31]
    for year in range(100):
        for month, n in enumerate(months, 1):
            n += month == 2 and year % 4 == 0
            if day < n:
                return b"%02d%02d%02d" % (year, month, day + 1)
            day -= n
    return b"000000"


def sealed(block):
    block = bytes(block).ljust(508, b"\0")
    return block + struct.pack("<I", sum(struct.unpack("<127I", block)) % 2 ** 32)


def book_bytes(day, streams, banks):
    blocks = 1 + (len(banks) + 19) // 20
    out = sealed(b"BFS" + bytes([0, len(streams), blocks, 0, 0]) + date_digits(day) + b"\0\0"
                 + b"".join(x["code"].to_bytes(4, "big") + bytes([x["sender"] % 256, 0, 0, 0]) for x in streams))
    for k in range(1, blocks):
        part = banks[20 * (k - 1):20 * k]
        out += sealed(b"BFB" + bytes([k, len(part), blocks, 0, 0])
                      + b"".join(b["code"].to_bytes(4, "big") + bytes([b["flags"] % 2, b["flags"] // 2 % 256, 0, 0])
                                 + struct.pack("<QQ", b["balance"], b["sublimit"]) for b in part))
    return list(out)


FRESH = engine_of(Tables())

# what the plain engine does in the model's place
RUN = {"goes": 2, "leaves": 2, "plays": 1}


def fn(n, f):
    """A function of n arguments, one by one."""
    def take(*got):
        return f(*got) if len(got) == n else lambda x: take(*got, x)
    return take()


NATIVE = {
    "true": 1, "false": 0, "zero": 0,
    "suc": fn(1, lambda n: n + 1),
    "bytes": fn(1, text),
    "short_at": fn(2, lambda b, i: int.from_bytes(bytes(b[i:i + 4]).ljust(4, b"\0"), "big")),
    "long_of": fn(1, long_of),
    "digits_of": fn(2, lambda w, n: text(str(n % 10 ** w).zfill(w))),
    "book_bytes": fn(3, book_bytes),
    "take": fn(2, lambda n, l: l[:n]),
    "drop": fn(2, lambda n, l: l[n:]),
    "set": fn(3, lambda l, i, x: l[:i] + [x] + l[i + 1:]),
    "replicate": fn(2, lambda n, x: [x] * n),
    "map": fn(2, lambda f, l: [f(x) for x in l]),
    "by": fn(2, lambda quick, c: dict(c, asked=dict(c["asked"], quick=quick))),
    "most_written": 33705, "rows_needed": 528,
    "accounts": fn(2, lambda b, l: {"balances": b, "sublimits": l}),
    "with_clock": fn(2, lambda d, clock: dict(d, clock=clock)),
    "no_entry": {"code": {"high": 0, "low": 0}, "day": 0}, "no_memory": [0] * 32,
    "no_batches": FRESH["state"]["batches"], "cleared": FRESH,
    "goes": fn(2, goes), "leaves": fn(2, leaves), "plays": fn(1, lambda calls: goes(FRESH, calls)),
}
for name, n in (("Opening", 0), ("Message", 1), ("SubLimit", 2), ("Status", 3), ("Tick", 0), ("Close", 0), ("ClosingBook", 1), ("Open", 0),
                ("AtOnce", 0), ("Minute", 1), ("free", 0), ("live", 1), ("credit", 2), ("debit", 3)):
    NATIVE[name] = fn(n, lambda *a, k=name: (k,) + a) if n else (name,)


# ---- the notation

TOKEN = re.compile(r'\s*("(?:[^"\\]|\\.)*"|\[\]|∷|\+\+|[(){};≡=+*]|\.[\w-]+|[^\s(){};".]+)')


def tokens(source):
    at, found = 0, []
    source = source.rstrip()
    while at < len(source):
        m = TOKEN.match(source, at)
        found.append(m.group(1))
        at = m.end()
    return found


class Expression:
    """Reads an expression: a function of the values of its names."""

    def __init__(self, words):
        self.words, self.at = words, 0

    def next(self):
        return self.words[self.at] if self.at < len(self.words) else None

    def skip(self, word):
        if self.next() != word:
            raise ValueError(f"{word} expected, {self.words[self.at:self.at + 8]} found")
        self.at += 1

    def whole(self):
        e = self.list()
        if self.next() is not None:
            raise ValueError(f"{self.words[self.at:self.at + 8]} left over")
        return e

    def list(self):
        left = self.sum()
        if self.next() not in ("∷", "++"):
            return left
        operator = self.next()
        self.at += 1
        right = self.list()
        return (lambda v: [left(v)] + right(v)) if operator == "∷" else (lambda v: left(v) + right(v))

    def sum(self):
        left = self.product()
        while self.next() == "+":
            self.at += 1
            left = (lambda a, b: lambda v: a(v) + b(v))(left, self.product())
        return left

    def product(self):
        left = self.applied()
        while self.next() == "*":
            self.at += 1
            left = (lambda a, b: lambda v: a(v) * b(v))(left, self.applied())
        return left

    def applied(self):
        e = self.atom()
        while True:
            word = self.next()
            if word is None or word in (")", "}", ";", "∷", "++", "+", "*", "≡", "="):
                return e
            e = (lambda f, a: lambda v: f(v)(a(v)))(e, self.atom())

    def atom(self):
        e = self.bare()
        while (self.next() or "").startswith(".") and len(self.next()) > 1:
            e = (lambda f, k: lambda v: f(v)[k])(e, self.next()[1:])
            self.at += 1
        return e

    def bare(self):
        word = self.next()
        self.at += 1
        if word == "(":
            e = self.list()
            self.skip(")")
            return e
        if word == "record":
            return self.record()
        if word == "[]":
            return lambda v: []
        if word.startswith('"'):
            string = word[1:-1].replace("\\r", "\r").replace("\\n", "\n")
            return lambda v: string
        if word.isdigit():
            return lambda v: int(word)
        return lambda v: v(word)

    def record(self):
        fields = {}
        self.skip("{")
        while self.next() != "}":
            name = self.next()
            self.at += 1
            self.skip("=")
            fields[name] = self.list()
            if self.next() == ";":
                self.at += 1
        self.skip("}")
        return lambda v: {k: e(v) for k, e in fields.items()}


class Module:
    """A file: the definitions that it makes, the names that it uses of others, and its equations."""

    def __init__(self, path):
        self.clauses, self.uses, self.equations = {}, {}, []
        self.values = {}
        with open(path, encoding="utf-8") as f:
            source = re.sub(r"(?m)^\s*--.*\n|\s+--.*$", lambda m: "\n" if m.group(0).endswith("\n") else "", f.read())
        for item in re.split(r"\n(?=[^\s})])", source):
            self.read(item.strip())

    def read(self, item):
        used = re.match(r"(?:pub )?use Rattle\.model\.proofs\.(\w+)\.\{(.*)\}", item, re.S)
        if used:
            self.uses.update({name.strip(): used.group(1) for name in used.group(2).split(",")})
        elif re.match(r"(abbrev|unfoldable|unfolding|use|pub use|pub record)\b", item) or item.startswith("pub mod"):
            return
        elif item.startswith("pub "):
            name, statement = item[4:].split(" : ", 1)
            if "≡" in statement:
                left, right = statement.split("≡", 1)
                self.equations.append((name, left, right))
        elif item and not item.endswith("= refl"):
            head, body = item.split("=", 1)
            name, *patterns = tokens(head)
            if name not in RUN:
                self.clauses.setdefault(name, []).append((patterns, body))

    def define(self, name):
        clauses = [(pattern_of(p), Expression(tokens(b)).whole()) for p, b in self.clauses[name]]
        n = len(clauses[0][0])

        def apply(*values):
            for patterns, body in clauses:
                bound = {}
                if all(p(x, bound) for p, x in zip(patterns, values)):
                    return body(lambda w: bound[w] if w in bound else self.value(w))
            raise ValueError(f"{name}: no clause fits")
        return fn(n, apply) if n else apply()

    def value(self, name):
        if name not in self.values:
            if name in self.clauses:
                self.values[name] = self.define(name)
            elif name in self.uses and name not in RUN:
                self.values[name] = MODULES[self.uses[name]].value(name)
            else:
                self.values[name] = NATIVE[name]
        return self.values[name]

    def of(self, source):
        return Expression(tokens(source)).whole()(self.value)


def pattern_of(words):
    """Patterns of a clause: names, zero, (suc n)."""
    found, i = [], 0
    while i < len(words):
        if words[i] == "(" and words[i + 1] == "suc":
            found.append(lambda x, b, n=words[i + 2]: x > 0 and b.update({n: x - 1}) is None)
            i += 4
        elif words[i] == "zero":
            found.append(lambda x, b: x == 0)
            i += 1
        else:
            found.append(lambda x, b, n=words[i]: b.update({n: x}) is None)
            i += 1
    return found


def main():
    days, calls = 0, 0
    for path in sorted(glob.glob(os.path.join(PROOFS, "Days*.antt")) + [os.path.join(PROOFS, "Stories.antt")]):
        MODULES[os.path.basename(path)[:-5]] = Module(path)
    for name, module in MODULES.items():
        for equation, left, right in module.equations:
            # what the model's batches hold inside is no answer of a call
            if "payments_at" in str(left):
                continue
            got, wanted = module.of(left), module.of(right)
            days += 1
            calls += len(wanted) if isinstance(wanted, list) else 0
            if got != wanted:
                print(f"tests/engine: {name}.{equation} differs on the plain engine", file=sys.stderr)
                if isinstance(got, list):
                    for i, (g, w) in enumerate(zip(got, wanted)):
                        if g != w:
                            print(f"at {i}:\n  {shown(g)}\nwanted\n  {shown(w)}", file=sys.stderr)
                            break
                sys.exit(1)
    if days < 20:
        sys.exit(f"tests/engine: only {days} days were found")
    print(f"{days} equations of the model's days, {calls} lines")


def shown(line):
    return dict(line, out=bytes(line["out"])) if isinstance(line, dict) and "out" in line else line


MODULES = {}
if __name__ == "__main__":
    LIBRARY = load(sys.argv[1])
    failed = []

    def run():
        failed.append(True)
        main()
        failed.clear()
    # 2,048 entries are made one behind the other
    sys.setrecursionlimit(200_000)
    threading.stack_size(512 << 20)
    thread = threading.Thread(target=run)
    thread.start()
    thread.join()
    sys.exit(1 if failed else 0)
