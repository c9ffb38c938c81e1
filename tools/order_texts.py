#!/usr/bin/env python3
"""Writes crates/run_orders/stdin and stdout: orders, and the text or the number that document 01 asks for.

The writer here is written from document 01 and docs/DECISIONS.md; the number is that of the reader in
request_texts.py. Run it at the top of the repository.
"""
import random
from request_texts import answer

NAME = b"ABCDEFGHIJKLMNOPQRSTUVWXYZ0123456789"
PLACE = 3


def name(raw):
    """Up to 16 of A-Z 0-9, filled up with zero bytes; nothing else can stand in a text."""
    text = raw.rstrip(b"\0")
    return text if all(byte in NAME for byte in text) else b""


def digits(value, width):
    return b"%0*d" % (width, value) if value < 10**width else b""


def four(value):
    return value.to_bytes(4, "big") if value < 2**32 else b""


def amount(cents):
    return b"AUD%d,%02d" % divmod(cents, 100) if cents < 10**12 else b""


def text_of(order):
    lines = [
        b":20:" + name(order["reference"]), b":12:" + digits(order["subtype"], 3), b":77E:",
        b":22A:" + four(order["stream"]), b":119:" + name(order["bin"]),
    ]
    if order["subtype"] == 131:
        lines.append(b":16A:" + digits(order["number"], 2) + b"/" + digits(order["count"], 2))
        lines.append(b":171:" + digits(order["date"], 6))
        if order["activation"]:
            minute = order["activation"] - 1
            lines.append(b":175:" + (b"%02d%02d" % divmod(minute, 60) if minute < 1440 else b""))
        for side, cents, bank in order["lines"][:min(order["n"], 10)]:
            lines.append(b":127:" + (b"DR" if side else b"CR"))
            lines.append(b":32B:" + amount(cents))
            if side:
                lines.append(b":113:" + four(side - 1))
            lines.append(b":102:" + four(bank))
        lines.append(b":203:" + (b"%d" % order["n"] if order["n"] < 100 else b""))
    return b"".join(line + b"\r\n" for line in lines)


def code(value):
    return int.from_bytes(value, "big")


def debit(letters=b"AAA ", cents=1250, bank=b"AAAA"):
    return (code(letters) + 1, cents, code(bank))


def credit(cents=1250, bank=b"BBBB"):
    return (0, cents, code(bank))


def base(**changes):
    order = {
        "subtype": 131, "reference": b"PROPNET000000001", "stream": code(b"PROP"), "bin": b"PROP0001", "number": 1, "count": 2,
        "date": 270203, "activation": 631, "n": 2, "lines": [debit(), credit()],
    }
    order.update(changes)
    order["lines"] = (order["lines"] + [(0, 0, 0)] * 10)[:10]
    order.setdefault("room", PLACE + len(text_of(order)) + 2)
    return order


def orders():
    yield base()
    yield base(subtype=133)
    for subtype in (0, 130, 132, 134, 999, 1000, 10**17):
        yield base(subtype=subtype)
    for reference in (b"", b"A", b"0", b"RITS", b"RITS1", b"ACLRX", b"ASXC", b"RIT", b"a", b"PROPNET00000000z", b"A B", b"A\0B", b"\0A", b"\xc3\x84",
                      b"ABCDEFGHIJ01234\xff", b"A\r"):
        yield base(reference=reference)
        yield base(reference=reference, subtype=133)
    for stream, bin_ in ((b"PROP", b"PROP"), (b"PROP", b"PROP00010"), (b"PROP", b"QROP0001"), (b"0000", b"00000000"), (b"prop", b"prop0001"),
                         (b"PR P", b"PR P0001"), (b"PROP", b"PROP000A"), (b"PROP", b""), (b"ZZZZ", b"ZZZZ9999"), (b"\xffROP", b"\xffROP0001")):
        yield base(stream=code(stream), bin=bin_)
    for stream in (0, 2**32, 2**32 + code(b"PROP"), 10**18 - 1):
        yield base(stream=stream)
    for number, count in ((0, 1), (1, 0), (1, 1), (2, 1), (10, 10), (9, 10), (1, 11), (11, 11), (99, 99), (100, 1), (1, 100), (10**17, 2), (0, 0)):
        yield base(number=number, count=count)
    for date in (0, 101, 229, 10229, 991231, 270229, 280229, 271301, 999999, 1000000, 10**17, 20203, 270200):
        yield base(date=date)
    for minute in (0, 1, 59, 60, 1439, 1440, 1441, 10**17):
        yield base(activation=minute + 1)
    yield base(activation=0)
    for cents in (0, 1, 9, 10, 99, 100, 101, 999, 1000, 12345, 10**6, 99999999999, 10**11, 999999999999, 10**12, 10**12 + 1, 10**18 - 1):
        yield base(lines=[debit(cents=cents), credit(cents=cents)])
    for letters in (b"    ", b"ADP ", b"PDAZ", b"DDDD", b" A  ", b"A P ", b"XAAA", b"AXAA", b"AAXA", b"AAA1", b"AAAa", b"aAAA", b"XXXX", b"AXX1", b"\0AAA", b"AA\rA",
                    b"\xffAAA"):
        yield base(lines=[debit(letters=letters), credit()])
    yield base(lines=[(2**32 + 1, 5, code(b"AAAA")), credit()])
    for bank in (b"0000", b"ZZ99", b"aaaa", b"A AA", b"AAA\0", b"\xe9AAA"):
        yield base(lines=[debit(bank=bank), credit()])
        yield base(lines=[credit(bank=bank), debit()])
    yield base(lines=[debit(), (0, 5, 2**32)])
    for n in (0, 1, 2, 9, 10, 11, 12, 99, 100, 10**17):
        yield base(n=n, lines=[debit(cents=k, bank=b"A%03d" % k) if k % 2 else credit(cents=k, bank=b"B%03d" % k) for k in range(10)])
    # the longest text, and buffers about its length
    longest = base(n=10, lines=[debit(b"PPPZ", 999999999999, b"ZZZZ")] * 10, number=10, count=10)
    size = len(text_of(longest))
    for room in (size + PLACE + 1, size + PLACE, size + PLACE - 1, PLACE, PLACE - 1, 0):
        yield dict(longest, room=room)
    short = base(subtype=133, reference=b"A")
    size = len(text_of(short))
    for room in (size + PLACE, size + PLACE - 1, size, 1, 0):
        yield dict(short, room=room)
    # a refusal comes before 07
    yield base(subtype=132, room=0)
    yield base(number=0, room=0)
    chance = random.Random(4)
    for _ in range(60):
        count = chance.randint(1, 10)
        stream = bytes(chance.choice(NAME) for _ in range(4))
        yield base(
            subtype=chance.choice((131, 131, 131, 133)), reference=bytes(chance.choice(NAME) for _ in range(chance.randint(1, 16))),
            stream=code(stream), bin=stream + b"%04d" % chance.randint(0, 9999), number=chance.randint(1, count), count=count,
            date=chance.choice((270203, 991231, 401130)), activation=chance.choice((0, chance.randint(1, 1440))), n=chance.randint(1, 10),
            lines=[chance.choice((debit(bytes(chance.choice(b"ADP ") for _ in range(3)) + bytes([chance.choice(b" AZM")]), chance.randint(0, 10**12 - 1),
                                        bytes(chance.choice(NAME) for _ in range(4))),
                                  credit(chance.randint(0, 10**chance.randint(1, 12) - 1), bytes(chance.choice(NAME) for _ in range(4))))) for _ in range(10)])


def record(order):
    number = lambda value: b"%018d" % value
    return (number(order["subtype"]) + order["reference"].ljust(16, b"\0") + number(order["stream"]) + order["bin"].ljust(16, b"\0")
            + b"".join(number(order[key]) for key in ("number", "count", "date", "activation", "n", "room"))
            + b"".join(number(value) for line in order["lines"] for value in line) + b"\n")


def wanted(order):
    text = text_of(order)
    read = answer(text)
    out = b"." * order["room"]
    if read[0] == "refused":
        told = b"refused %d\n" % read[1]
    elif PLACE + len(text) > len(out):
        told = b"refused 7\n"
    else:
        told = b"written to %d\n" % (PLACE + len(text))
        out = out[:PLACE] + text + out[PLACE + len(text):]
    return told + out + b"\n"


def main():
    all_orders = list(orders())
    with open("crates/run_orders/stdin", "wb") as file:
        file.write(b"".join(map(record, all_orders)))
    with open("crates/run_orders/stdout", "wb") as file:
        file.write(b"".join(map(wanted, all_orders)))


if __name__ == "__main__":
    main()
