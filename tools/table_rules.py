#!/usr/bin/env python3
"""Tables that keep the table rules and tables that break just one of them, made from documents 01 and 02 and docs/FORMAT.md.

Writes crates/run_rules/stdin, the tables word by word, and crates/run_rules/stdout, what a test of the rules answers.
Each case is judged by `broken`, which names the rules that a table breaks; a case is to break
just the rules that it names.
Run it at the top of the repository: python3 tools/table_rules.py
"""
import copy
import sys

MOST = 6_400_000_000_000_000
TABLES = [("codes", 32, 64), ("flags", 128, 64), ("balances", 224, 64), ("limits", 320, 64),
          ("batches", 512, 32 * 349), ("references", 11776, 2048 * 3), ("bins", 17984, 512 * 3), ("sheet", 19584, 64)]
SCALARS = ["phase", "date", "clock", "texts", "banks", "n"]
CODE = set(b"ABCDEFGHIJKLMNOPQRSTUVWXYZ0123456789")
DIGIT = set(b"0123456789")


# ---- words

def short(text):
    return int.from_bytes(text.encode(), "big")


def code(text):
    b = text.encode().ljust(16, b"\0")
    return [int.from_bytes(b[:8], "big"), int.from_bytes(b[8:], "big")]


def letters(text):
    return short(text)


class State:
    """What is lent: the desk's scalars, its streams, and the eight tables as lists of words."""

    def __init__(self):
        self.desk = dict.fromkeys(SCALARS, 0)
        self.streams = [0] * 16
        for name, _, n in TABLES:
            setattr(self, name, [0] * n)
        self.own_sheet = False  # whether a case gives the sheet; else it follows the batches

    def words(self):
        w = {i: self.desk[k] for i, k in enumerate(SCALARS)}
        w.update({6 + i: x for i, x in enumerate(self.streams)})
        for i, (name, at, n) in enumerate(TABLES):
            t = getattr(self, name)
            w[24 + i] = len(t)
            w.update({at + j: x for j, x in enumerate(t)})
            w.update({at + j: 0 for j in range(len(t), n + 1)})
        return w


def put_bank(s, p, text, flag, balance, limit):
    s.codes[p], s.flags[p], s.balances[p], s.limits[p] = short(text), flag, balance, limit


def put_entry(table, p, text, day):
    table[3 * p:3 * p + 3] = code(text) + [day]


def put_batch(s, p, phase, rank, bin_text, count, activation, memory, messages):
    """A message is a reference, its number and its payments; a payment a bank place, cents and letters ('' for a credit)."""
    row = [phase, rank] + code(bin_text) + [count, activation, memory, len(messages), sum(len(m[2]) for m in messages)]
    for reference, number, payments in messages:
        row += code(reference) + [number, len(payments)]
    row += [0] * (49 - len(row))
    for _, _, payments in messages:
        for bank, cents, text in payments:
            row += [bank, cents, letters(text) if text else 0]
    row += [0] * (349 - len(row))
    s.batches[349 * p:349 * p + 349] = row


# ---- the rules

def is_short(v):
    return v < 2 ** 32 and all(b in CODE for b in v.to_bytes(4, "big"))


def text_of(high, low):
    """The characters of a code, or None where something stands behind the first zero."""
    b = high.to_bytes(8, "big") + low.to_bytes(8, "big")
    t = b.split(b"\0")[0]
    return t if t.ljust(16, b"\0") == b else None


def is_reference(high, low):
    t = text_of(high, low)
    return bool(t) and all(b in CODE for b in t) and t[:4] not in (b"RITS", b"ACLR", b"ASXC")


def is_bin(high, low):
    t = text_of(high, low)
    return t is not None and len(t) == 8 and all(b in CODE for b in t[:4]) and all(b in DIGIT for b in t[4:])


def are_letters(v):
    if v >= 2 ** 32:
        return False
    b = v.to_bytes(4, "big")
    return all(c in b"ADP " for c in b[:3]) and (b[3] == 32 or 65 <= b[3] <= 90)


def is_remembered(day, today):
    return day <= today and today - day <= 14


def entries(table):
    return [tuple(table[i:i + 3]) for i in range(0, len(table), 3)]


def kept(table, today):
    return [(h, l) for h, l, d in entries(table) if (h, l) != (0, 0) and is_remembered(d, today)]


def row_faults(row, banks):
    """The rules that one batch place breaks."""
    phase, rank, count, activation, memory, there, total = row[0], row[1], row[4], row[5], row[6], row[7], row[8]
    if phase == 0:
        return set() if not any(row) else {"zero or live"}
    if phase > 3:
        return {"zero or live"}
    bad = set()
    if not is_bin(row[2], row[3]):
        bad.add("bin")
    if not 1 <= count <= 10:
        return bad | {"count"}
    if activation > 1440:
        bad.add("activation")
    if not 1 <= there <= count:
        return bad | {"messages there"}
    messages = [row[9 + 4 * i:13 + 4 * i] for i in range(there)]
    for high, low, number, size in messages:
        if not is_reference(high, low):
            bad.add("message reference")
        if not 1 <= number <= count:
            bad.add("number")
        if not 1 <= size <= 10:
            bad.add("payments of a message")
    if len({m[2] for m in messages}) < there:
        bad.add("numbers differ")
    if sum(m[3] for m in messages) != total:
        return bad | {"payments there"}
    if total > 100:
        return bad | {"payments of a message"}
    payments = [row[49 + 3 * j:52 + 3 * j] for j in range(total)]
    for bank, cents, text in payments:
        if bank >= banks:
            bad.add("bank place")
        if cents > 999_999_999_999:
            bad.add("cents")
        if text and not are_letters(text):
            bad.add("letters")
    if len({p[0] for p in payments}) < total:
        bad.add("banks differ")
    if any(row[9 + 4 * there:49]) or any(row[49 + 3 * total:]):
        bad.add("unused words")
    even = sum(p[1] for p in payments if not p[2]) == sum(p[1] for p in payments if p[2])
    if phase == 1:
        if rank:
            bad.add("rank")
        if there == count:
            bad.add("complete or assembling")
    else:
        if there != count:
            bad.add("complete or assembling")
        if not even:
            bad.add("credits equal debits")
    if phase == 2 and activation == 0:
        bad.add("pending has a minute")
    if memory and (phase != 3 or not any(p[0] == memory - 1 and p[2] for p in payments)):
        bad.add("memory")
    return bad


def totals(s):
    """Ticket 2: of each bank the total of its debits in pending and queued batches; of places as far as they can be read."""
    sums = [0] * 64
    for p in range(len(s.batches) // 349):
        place = s.batches[349 * p:349 * p + 349]
        if place[0] in (2, 3):
            for bank, cents, text in (place[49 + 3 * j:52 + 3 * j] for j in range(min(place[8], 100))):
                if text and bank < 64:
                    sums[bank] += cents
    return sums


def broken(s):
    """The rules that desk and tables break, by name."""
    d = s.desk
    for name, _, n in TABLES:
        if len(getattr(s, name)) != n:
            return {"lengths"}
    if d["phase"] == 0:
        zero = not any(d.values()) and not any(s.streams) and not any(any(getattr(s, t[0])) for t in TABLES)
        return set() if zero else {"no day"}
    bad = set()
    if d["date"] > 36_524:
        bad.add("date")
    if d["clock"] > 86_399:
        bad.add("clock")
    if not 1 <= d["n"] <= 8:
        return bad | {"streams"}
    if not 1 <= d["banks"] <= 64:
        return bad | {"bank count"}
    n, banks = d["n"], d["banks"]
    streams = [(s.streams[2 * i], s.streams[2 * i + 1]) for i in range(n)]
    if not all(is_short(c) for c, _ in streams):
        bad.add("stream code")
    if any(a[0] >= b[0] for a, b in zip(streams, streams[1:])):
        bad.add("streams rise")
    if not all(1 <= a <= 255 for _, a in streams):
        bad.add("administrator")
    if any(s.streams[2 * n:]):
        bad.add("streams past zero")
    if not all(is_short(c) for c in s.codes[:banks]):
        bad.add("bank code")
    if any(a >= b for a, b in zip(s.codes[:banks], s.codes[1:banks])):
        bad.add("banks ascending")
    if any(f >= 2 ** (n + 1) for f in s.flags[:banks]):
        bad.add("flags")
    if any(x > MOST for x in s.limits):
        bad.add("sub-limit")
    if sum(s.balances) > MOST:
        bad.add("total")
    if any(any(t[banks:]) for t in (s.codes, s.flags, s.balances, s.limits)):
        bad.add("records past zero")
    rows = [s.batches[349 * p:349 * p + 349] for p in range(32)]
    for row in rows:
        bad |= row_faults(row, banks)
    for phase, name in ((2, "pending order"), (3, "queue order")):
        ranks = sorted(r[1] for r in rows if r[0] == phase)
        if ranks != list(range(len(ranks))):
            bad.add(name)
    if d["phase"] == 2 and any(s.batches):
        bad.add("live only on an open day")
    if s.sheet != totals(s):
        bad.add("what waits against each bank")
    today = d["date"]
    for table, test, name in ((s.references, is_reference, "reference"), (s.bins, is_bin, "remembered bin")):
        for high, low, day in entries(table):
            if (high, low, day) != (0, 0, 0) and not (test(high, low) and day <= today):
                bad.add(name)
        known = kept(table, today)
        if len(set(known)) < len(known):
            bad.add(name + " twice")
    live = [(r[2], r[3]) for r in rows if r[0]]
    if len(set(live)) < len(live):
        bad.add("live bins differ")
    if not all(b in kept(s.bins, today) for b in live):
        bad.add("live bins remembered")
    noted = sum((h, l) != (0, 0) and day == today for h, l, day in entries(s.references))
    if d["texts"] + sum(r[7] for r in rows if r[0]) > noted:
        bad.add("texts and live messages")
    return bad


# ---- the base: an open day with five banks, two streams, six live batches

TODAY = 9895  # 2027-02-03


def base():
    s = State()
    s.desk.update(phase=1, date=TODAY, clock=36_930, texts=3, banks=5, n=2)
    s.streams[:4] = [short("EQTY"), 17, short("PROP"), 5]
    for p, (name, flag, balance, limit) in enumerate([("AAAA", 6, 1_000_000, 300_000), ("BBBB", 7, 0, 0), ("CCCC", 2, 50, 0),
                                                      ("DDDD", 0, 20_000, 30_000), ("ZZZ9", 6, MOST - 1_020_050, MOST)]):
        put_bank(s, p, name, flag, balance, limit)
    batches = [
        (0, 3, 1, "PROP0001", 1, 0, 1, [("PROPNET000000001", 1, [(0, 70_001, "AAAA"), (1, 70_001, "")])]),
        (1, 1, 0, "EQTY0007", 3, 0, 0, [("E2", 2, [(2, 5, "P  Z"), (3, 999_999_999_999, "")]), ("E1", 1, [(4, 7, "DPA ")])]),
        (2, 2, 0, "PROP0002", 2, 1, 0, [("P21", 1, [(0, 10, "    ")]), ("P22", 2, [(4, 10, "")])]),
        (4, 3, 0, "PROP0003", 1, 1440, 0, [("0123456789ABCDEF", 1, [(3, 0, "PPPP"), (2, 0, "")])]),
        (7, 2, 1, "EQTY9999", 1, 1440, 0, [("RITZ", 1, [(1, 4, "AAAA"), (0, 4, "")])]),
        (31, 3, 2, "PROP0004", 1, 5, 3, [("A", 1, [(2, 60, "A A "), (4, 60, "")])]),
    ]
    for b in batches:
        put_batch(s, *b)
    for p, b in enumerate(batches):
        put_entry(s.bins, p, b[3], TODAY)
    put_entry(s.bins, 6, "OLDS0001", TODAY - 14)
    put_entry(s.bins, 7, "OLDS0001", TODAY - 15)
    put_entry(s.bins, 511, "EQTY0001", TODAY - 1)
    names = [m[0] for b in batches for m in b[7]] + ["T1", "T2", "T3"]
    for p, name in enumerate(names):
        put_entry(s.references, p, name, TODAY)
    put_entry(s.references, 20, "OLD", TODAY - 14)
    put_entry(s.references, 21, "OLDER", TODAY - 15)
    put_entry(s.references, 22, "PROPNET000000001", TODAY - 15)
    put_entry(s.references, 2047, "LAST", 0)
    s.sheet = totals(s)
    return s


# ---- the cases: a name, the rule that is broken (None: all are kept; more than one where one cannot be broken alone), and what is changed

CASES = []


def case(name, rule):
    def take(change):
        CASES.append((name, rule, change))
        return change
    return take


def changed(name, rule, **words):
    """One word of a table: codes=(2, 5) sets word 2 of the codes to 5."""
    def change(s):
        s.own_sheet = "sheet" in words
        for table, (i, v) in words.items():
            if table in SCALARS:
                raise ValueError(table)
            getattr(s, table)[i] = v
    CASES.append((name, rule, change))


def scalar(name, rule, **words):
    CASES.append((name, rule, lambda s: s.desk.update(words)))


def row(p, i):
    return 349 * p + i


# as it is
CASES.append(("the base", None, lambda s: None))

# "lengths 64, 32, 2,048, 512" (R1)
for table, _, n in TABLES:
    def shortened(s, t=table):
        s.own_sheet = True
        setattr(s, t, getattr(s, t)[:-1])

    def lengthened(s, t=table):
        s.own_sheet = True
        getattr(s, t).append(0)

    CASES.append((f"{table}: one word fewer", "lengths", shortened))
    CASES.append((f"{table}: one word more", "lengths", lengthened))

# the day's scalars (R6)


def empty_day(s):
    """An open day with no batch, no text and nothing noted."""
    s.batches[:] = [0] * len(s.batches)
    s.references[:] = [0] * len(s.references)
    s.bins[:] = [0] * len(s.bins)
    s.desk["texts"] = 0


def with_empty(name, rule, **words):
    def change(s):
        empty_day(s)
        s.desk.update(words)
    CASES.append((name, rule, change))


with_empty("an open day with nothing in it", None)
with_empty("date: the last day of 2099", None, date=36_524)
with_empty("date: the first day after 2099", "date", date=36_525)
scalar("clock: the last second", None, clock=86_399)
scalar("clock: past the last second", "clock", clock=86_400)
with_empty("texts: none noted, one written", "texts and live messages", texts=1)
scalar("streams: none", "streams", n=0)
scalar("streams: nine", "streams", n=9)
with_empty("banks: none", "bank count", banks=0)
with_empty("banks: 65", "bank count", banks=65)
changed("stream: a code in small letters", "stream code", streams=(2, short("PRop")))
changed("stream: a code of five characters", "stream code", streams=(2, 0x41_5052_4F50))
changed("streams: two alike", "streams rise", streams=(0, short("PROP")))
changed("streams: falling", "streams rise", streams=(0, short("PROQ")))
changed("administrator: 0", "administrator", streams=(1, 0))
changed("administrator: 255", None, streams=(1, 255))
changed("administrator: 256", "administrator", streams=(3, 256))
changed("administrators: one with two streams", None, streams=(1, 5))
changed("streams: a word past those in use", "streams past zero", streams=(4, 1))

# "banks ascending by code, total in range"
changed("bank: a code with a space", "bank code", codes=(1, short("BB B")))
changed("bank: a code of five characters", "bank code", codes=(4, 2 ** 32 + short("ZZZ9")))
changed("banks: two alike", "banks ascending", codes=(1, short("AAAA")))
changed("banks: falling", "banks ascending", codes=(1, short("CCCD")))
changed("banks: another code in its order", None, codes=(1, short("BBBC")))
changed("flags: all bits of two streams and suspended", None, flags=(0, 7))
changed("flags: a bit with no stream", "flags", flags=(0, 8))
changed("sub-limit: the most", None, limits=(0, MOST))
changed("sub-limit: over the most", "sub-limit", limits=(0, MOST + 1))


@case("balances: another balance, the total in range", None)
def _(s):
    s.balances[0], s.balances[1] = 999_999, 1


changed("balances: a total one over the most", "total", balances=(1, 1))
changed("balances: a sum that a word cannot hold", "total", balances=(1, 2 ** 64 - 16))
changed("balances: one fewer", None, balances=(0, 999_999))

# "account records past it zero"
for table in ("codes", "flags", "balances", "limits"):
    def past(s, t=table):
        s.balances[4] -= 1
        getattr(s, t)[5] = 1
    CASES.append((f"{table}: a word past the banks", "records past zero", past))
changed("sub-limit: a word in the last record", "records past zero", limits=(63, 1))


@case("banks: one more, its record of a bank", None)
def _(s):
    s.desk["banks"] = 6
    put_bank(s, 5, "ZZZZ", 0, 0, 0)


@case("banks: one more, its record zero but for the flags", ("bank code", "banks ascending"))
def _(s):
    s.desk["banks"] = 6
    s.flags[5] = 1


@case("banks: one fewer, its record not zero", "records past zero")
def _(s):
    empty_day(s)
    s.desk["banks"] = 4


@case("banks: one fewer, its record zero", None)
def _(s):
    empty_day(s)
    s.desk["banks"] = 4
    put_bank(s, 4, "\0\0\0\0", 0, 0, 0)


# "each batch place zero or one live batch" (R3)
changed("place: a phase past the last", "zero or live", batches=(row(31, 0), 4))
changed("free place: a BIN", "zero or live", batches=(row(3, 2), code("PROP0009")[0]))
changed("free place: its last word", "zero or live", batches=(row(30, 348), 1))
changed("free place: a rank", "zero or live", batches=(row(3, 1), 1))


def both(name, rule, old, new, also=True):
    """Another BIN in a batch and in the memory."""
    def change(s):
        p = [i for i in range(32) if s.batches[row(i, 2)] == code(old)[0]][0]
        s.batches[row(p, 2):row(p, 4)] = code(new)
        if also:
            q = [i for i, e in enumerate(entries(s.bins)) if list(e[:2]) == code(old)][0]
            s.bins[3 * q:3 * q + 2] = code(new)
    CASES.append((name, rule, change))


both("BIN: another", None, "PROP0001", "9ZZZ0000")
both("BIN: of a stream that is not in the book", None, "PROP0001", "CHES0001")
changed("activation: the last minute", None, batches=(row(0, 5), 1440))
changed("activation: past the last minute", "activation", batches=(row(0, 5), 1441))
changed("activation: none in a pending batch", "pending has a minute", batches=(row(2, 5), 0))
changed("activation: one in a batch that is assembled", None, batches=(row(1, 5), 700))
changed("count: none", "count", batches=(row(1, 4), 0))
changed("count: ten", None, batches=(row(1, 4), 10))
changed("count: eleven", "count", batches=(row(1, 4), 11))
changed("assembled: its count is there", "complete or assembling", batches=(row(1, 4), 2))
changed("queued: one message is missing", "complete or assembling", batches=(row(0, 4), 2))
changed("pending: one message is missing", "complete or assembling", batches=(row(2, 4), 3))
changed("assembled: a rank", "rank", batches=(row(1, 1), 1))


@case("messages: none there", "messages there")
def _(s):
    s.batches[row(1, 7):row(1, 49)] = [0] * 42
    s.batches[row(1, 49):row(2, 0)] = [0] * 300


changed("message: a reference in small letters", "message reference", batches=(row(0, 9), code("propnet0")[0]))
changed("message: no reference", "message reference", batches=(row(31, 9), 0))
changed("message: a reference beginning RITS", "message reference", batches=(row(7, 9), code("RITS")[0]))
changed("message: a reference beginning ACLR", "message reference", batches=(row(7, 9), code("ACLR5")[0]))
changed("message: a reference beginning ASXC", "message reference", batches=(row(7, 9), code("ASXC")[0]))
changed("message: a reference beginning ASX", None, batches=(row(7, 9), code("ASX")[0]))
changed("message: a reference with a gap", "message reference", batches=(row(31, 10), code("A")[0]))
changed("message: the number 0", "number", batches=(row(1, 11), 0))
changed("message: the number of the count", None, batches=(row(1, 11), 3))
changed("message: a number above the count", "number", batches=(row(1, 11), 4))
changed("message: a number twice", "numbers differ", batches=(row(1, 15), 2))


@case("message: numbers in another order", None)
def _(s):
    s.batches[row(2, 11)], s.batches[row(2, 15)] = 2, 1


changed("message: no payments", ("payments there", "payments of a message"), batches=(row(1, 16), 0))


@case("message: no payments, and their number fits", "payments of a message")
def _(s):
    s.batches[row(1, 12)], s.batches[row(1, 16)] = 3, 0


def many(s, sizes, banks=24):
    """The batch at place 1 with messages of so many payments, all of different banks."""
    s.desk["banks"] = banks
    for p in range(banks):
        put_bank(s, p, f"B{p:03d}", 0, 0, 0)
    s.balances[:] = [0] * 64
    s.batches[:] = [0] * len(s.batches)
    s.references[:] = [0] * len(s.references)
    s.desk["texts"] = 0
    bank = 0
    messages = []
    for k, n in enumerate(sizes):
        messages.append((f"M{k}", k + 1, [((bank + j) % 64, 1, "AAAA") for j in range(n)]))
        bank += n
        put_entry(s.references, k, f"M{k}", TODAY)
    put_batch(s, 1, 1, 0, "PROP0001", 10, 0, 0, messages)


CASES.append(("message: ten payments", None, lambda s: many(s, [10, 10])))
CASES.append(("message: eleven payments", "payments of a message", lambda s: many(s, [11, 9])))
changed("payments: their number one too many", "payments there", batches=(row(0, 8), 3))
changed("payments: their number one too few", "payments there", batches=(row(0, 8), 1))

# "bank places below the bank count"
changed("payment: the last bank", None, batches=(row(0, 52), 4))
changed("payment: the bank count for a place", "bank place", batches=(row(0, 52), 5))
changed("payment: a place that no word of a byte holds", "bank place", batches=(row(0, 52), 2 ** 32))

# cents and letters
changed("payment: ten digits and two of cents", None, batches=(row(1, 50), 999_999_999_999))
changed("payment: one cent more", "cents", batches=(row(1, 50), 1_000_000_000_000))
for name, text, rule in (("a letter that is none", "XAAA", "letters"), ("a wrong credit letter", "AXAA", "letters"), ("a wrong cash letter", "AAXA", "letters"),
                         ("a fourth letter of A-Z", "AAAQ", None), ("a fourth that is a digit", "AAA1", "letters"), ("spaces", "    ", None),
                         ("small letters", "aaaa", "letters")):
    changed(f"letters: {name}", rule, batches=(row(1, 51), letters(text)))
changed("letters: five characters", "letters", batches=(row(1, 51), 2 ** 32 + letters("AAAA")))
changed("letters: one character", "letters", batches=(row(1, 51), letters("A")))


@case("credit: a letter, the sums still equal", "letters")
def _(s):
    s.batches[row(4, 54)] = 1


@case("credit and debit: letters exchanged", None)
def _(s):
    s.batches[row(0, 51)], s.batches[row(0, 54)] = 0, letters("AAAA")
    s.batches[row(0, 6)] = 2


# "in a complete batch all banks differ and credits equal debits" (R2)
changed("queued: a bank twice", "banks differ", batches=(row(0, 52), 0))
changed("pending: a bank twice", "banks differ", batches=(row(2, 52), 0))
changed("assembled: a bank twice in two messages", "banks differ", batches=(row(1, 55), 2))
changed("queued: another bank", None, batches=(row(0, 52), 3))
changed("queued: credits over debits", "credits equal debits", batches=(row(0, 53), 70_002))
changed("pending: debits over credits", "credits equal debits", batches=(row(2, 50), 11))
changed("assembled: credits unlike debits", None, batches=(row(1, 50), 6))


@case("queued: credits and debits changed alike", None)
def _(s):
    s.batches[row(0, 50)] = s.batches[row(0, 53)] = 70_002


# unused words
changed("unused: a word behind the messages", "unused words", batches=(row(0, 13), 1))
changed("unused: the last word behind the messages", "unused words", batches=(row(0, 48), 1))
changed("unused: a word behind the payments", "unused words", batches=(row(0, 55), 1))
changed("unused: the last word of the place", "unused words", batches=(row(0, 348), 1))

# "the queue's order without gap or repeat" (R7)


@case("queue: two ranks swapped", None)
def _(s):
    s.batches[row(0, 1)], s.batches[row(4, 1)] = 0, 1


changed("queue: a rank twice", "queue order", batches=(row(0, 1), 0))
changed("queue: a gap", "queue order", batches=(row(31, 1), 3))
changed("queue: from 1 on", "queue order", batches=(row(4, 1), 3))
changed("queue: a rank that is far off", "queue order", batches=(row(31, 1), 2 ** 63))


@case("pending: two ranks swapped", None)
def _(s):
    s.batches[row(2, 1)], s.batches[row(7, 1)] = 1, 0


changed("pending: a rank twice", "pending order", batches=(row(7, 1), 0))
changed("pending: a gap", "pending order", batches=(row(7, 1), 2))

# the quick test's memory (R8)
changed("memory: none", None, batches=(row(0, 6), 0))
changed("memory: a bank with a credit only", "memory", batches=(row(0, 6), 2))
changed("memory: a bank that is not in the batch", "memory", batches=(row(0, 6), 5))
changed("memory: no bank", "memory", batches=(row(0, 6), 6))
changed("memory: of a pending batch", "memory", batches=(row(2, 6), 1))
changed("memory: of a batch that is assembled", "memory", batches=(row(1, 6), 3))

# "each stored value ..": remembered entries (R4)
changed("reference: beginning RITS, expired", "reference", references=(63, code("RITS1")[0]))
changed("reference: small letters, expired", "reference", references=(63, code("older")[0]))
changed("reference: a gap in it", "reference", references=(64, 1))
changed("reference: noted tomorrow", "reference", references=(62, TODAY + 1))
changed("reference: noted yesterday", None, references=(62, TODAY - 1))
changed("reference: a day without a code", "reference", references=(3 * 100 + 2, 1))
changed("reference: the second half alone", "reference", references=(3 * 100 + 1, code("A")[0]))
changed("remembered BIN: seven characters", "remembered bin", bins=(3 * 511, code("EQTY001")[0]))
changed("remembered BIN: nine characters", "remembered bin", bins=(3 * 511 + 1, code("1")[0]))
changed("remembered BIN: a letter for a digit", "remembered bin", bins=(3 * 511, code("EQTY000A")[0]))
changed("remembered BIN: a small letter in its stream", "remembered bin", bins=(3 * 511, code("EQTy0001")[0]))
changed("remembered BIN: digits for its stream", None, bins=(3 * 511, code("12340001")[0]))
changed("remembered BIN: noted tomorrow", "remembered bin", bins=(3 * 511 + 2, TODAY + 1))


# "no reference or BIN remembered twice"


def entry(name, rule, table, p, text, day):
    CASES.append((name, rule, lambda s: put_entry(getattr(s, table), p, text, day)))


entry("reference: a second copy of today", "reference twice", "references", 30, "P21", TODAY)
entry("reference: a second copy of 14 days back", "reference twice", "references", 30, "P21", TODAY - 14)
entry("reference: a second copy of 15 days back", None, "references", 30, "P21", TODAY - 15)
entry("reference: a second copy of one that has expired", None, "references", 30, "OLDER", TODAY)
entry("reference: two copies that have expired", None, "references", 30, "OLDER", TODAY - 20)
entry("reference: a second copy in the last places", "reference twice", "references", 2046, "OLD", TODAY - 3)
entry("reference: the same beginning", None, "references", 30, "PROPNET000000002", TODAY)
entry("reference: the same end", None, "references", 30, "QROPNET000000001", TODAY)
entry("BIN: a second copy", "remembered bin twice", "bins", 100, "PROP0003", TODAY - 2)
entry("BIN: a second copy of 15 days back", None, "bins", 100, "PROP0003", TODAY - 15)
entry("BIN: a second copy of one that is not live", "remembered bin twice", "bins", 100, "OLDS0001", TODAY)

# "live BINs differ and are remembered"
both("BINs: two live ones alike", "live bins differ", "PROP0004", "PROP0001", also=False)
both("BINs: a live one that is not remembered", "live bins remembered", "PROP0004", "PROP0005", also=False)
changed("BINs: a live one noted 14 days back", None, bins=(2, TODAY - 14))
changed("BINs: a live one noted 15 days back", "live bins remembered", bins=(2, TODAY - 15))
both("BINs: a live one of an expired entry", "live bins remembered", "PROP0004", "EXPD0001", also=False)

# "texts written today and live messages together no more than today's references"
scalar("texts: one fewer", None, texts=2)
scalar("texts: one more", "texts and live messages", texts=4)
scalar("texts: a number that a sum cannot hold", "texts and live messages", texts=2 ** 64 - 16)
entry("references of today: one fewer", "texts and live messages", "references", 10, "T3", TODAY - 1)

# "no live batch unless the day is open"


@case("a closed day with a live batch", "live only on an open day")
def _(s):
    s.desk["phase"] = 2


@case("a closed day", None)
def _(s):
    s.desk["phase"] = 2
    s.batches[:] = [0] * len(s.batches)


@case("a closed day, the last word of the batches not zero", ("zero or live", "live only on an open day"))
def _(s):
    s.desk["phase"] = 2
    s.batches[:] = [0] * len(s.batches)
    s.batches[-1] = 1


# ticket 2: the total of each bank's debits in pending and queued batches: AAAA 70,001 queued and 10 pending, BBBB 4 pending, CCCC 60 queued
WAITING = "what waits against each bank"
changed("sheet: a total one more", WAITING, sheet=(0, 70_012))
changed("sheet: a total one less", WAITING, sheet=(0, 70_010))
changed("sheet: a pending batch left out", WAITING, sheet=(0, 70_001))
changed("sheet: a queued batch left out", WAITING, sheet=(0, 10))
changed("sheet: a batch being assembled counted", WAITING, sheet=(2, 65))
changed("sheet: credits counted", WAITING, sheet=(4, 70))
changed("sheet: no total at all", WAITING, sheet=(1, 0))
changed("sheet: a total of a payer of 0", WAITING, sheet=(3, 1))
changed("sheet: a total of the first record past the banks", WAITING, sheet=(5, 1))
changed("sheet: a total of the last record", WAITING, sheet=(63, 1))
changed("sheet: a total that is right but for 2^32", WAITING, sheet=(0, 70_011 + 2 ** 32))


@case("sheet: the totals of two banks exchanged", WAITING)
def _(s):
    s.own_sheet = True
    s.sheet[1], s.sheet[2] = s.sheet[2], s.sheet[1]


@case("sheet: a debit of another bank, the totals as they were", WAITING)
def _(s):
    s.own_sheet = True
    s.batches[row(2, 49)] = 3


@case("sheet: a debit of another bank, and the totals follow", None)
def _(s):
    s.batches[row(2, 49)] = 3


@case("sheet: a debit and its credit of other cents, the totals as they were", WAITING)
def _(s):
    s.own_sheet = True
    s.batches[row(31, 50)] = s.batches[row(31, 53)] = 61


@case("sheet: a debit and its credit of other cents, and the totals follow", None)
def _(s):
    s.batches[row(31, 50)] = s.batches[row(31, 53)] = 61


changed("sheet: a debit with other letters", None, batches=(row(31, 51), short("D   ")))


@case("sheet: a total on a closed day", WAITING)
def _(s):
    s.desk["phase"] = 2
    s.batches[:] = [0] * len(s.batches)
    s.own_sheet = True
    s.sheet[:] = [0, 0, 60] + [0] * 61


@case("sheet: the totals of a day that was closed", WAITING)
def _(s):
    s.own_sheet = True
    s.desk["phase"] = 2
    s.batches[:] = [0] * len(s.batches)


# R5: no day yet
def nothing(s):
    s.own_sheet = True
    for k in SCALARS:
        s.desk[k] = 0
    s.streams[:] = [0] * 16
    for name, _, n in TABLES:
        setattr(s, name, [0] * n)


CASES.append(("a fresh start", None, nothing))
for k in SCALARS[1:]:
    CASES.append((f"a fresh start: {k} not 0", "no day", lambda s, k=k: (nothing(s), s.desk.update({k: 1}))))
CASES.append(("a fresh start: a stream", "no day", lambda s: (nothing(s), s.streams.__setitem__(15, 1))))
for table, _, n in TABLES:
    CASES.append((f"a fresh start: the last word of {table}", "no day", lambda s, t=table: (nothing(s), getattr(s, t).__setitem__(-1, 1))))
CASES.append(("all zero on an open day", "streams", lambda s: (nothing(s), s.desk.update(phase=1))))
CASES.append(("all zero on a closed day", "streams", lambda s: (nothing(s), s.desk.update(phase=2))))


def main():
    inputs, outputs = [], []
    names = set()

    def lines(w, now):
        for i in sorted(now):
            if w.get(i, 0) != now[i]:
                yield f"{i} {now[i]}"

    before = {}
    for name, rule, change in CASES:
        s = copy.deepcopy(base())
        change(s)
        if not s.own_sheet:
            s.sheet = totals(s)
        found = broken(s)
        if found != (set() if rule is None else {rule} if isinstance(rule, str) else set(rule)):
            sys.exit(f"{name}: expected {rule}, found {sorted(found)}")
        if name in names:
            sys.exit(f"{name}: named twice")
        names.add(name)
        now = s.words()
        inputs += list(lines(before, now)) + [name]
        before = now
        outputs.append(f"{name} {'06' if found else '0'}")
    with open("crates/run_rules/stdin", "w") as f:
        f.write("\n".join(inputs) + "\n")
    with open("crates/run_rules/stdout", "w") as f:
        f.write("\n".join(outputs) + "\n")


if __name__ == "__main__":
    main()
