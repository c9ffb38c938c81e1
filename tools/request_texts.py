#!/usr/bin/env python3
"""Writes crates/run_requests/stdin and stdout: texts, sound and broken, and what document 01 says of each.

The reader here is written from document 01 and from docs/DECISIONS.md, line by line of the text, and shares nothing with
the crates. Run it at the top of the repository.
"""
import datetime, re

CRLF = b"\r\n"


class Broken(Exception):
    """A break: refusal number, where its line begins, whether a mandatory field is missing there."""


def code(value, width):
    return int.from_bytes(value.ljust(width, b"\0"), "big")


def name(start, value):
    whole = value.ljust(16, b"\0")
    return [start, start + len(value), code(whole[:8], 8), code(whole[8:], 8)]


class Text:
    def __init__(self, text):
        self.text, self.at = text, 0

    def here(self, tag):
        return self.text.startswith(tag, self.at)

    def line(self, tag):
        """The value of the line with this tag, where it starts, and where the line began."""
        began = self.at
        if not self.here(tag):
            raise Broken(87, began, True)
        start = began + len(tag)
        end = self.text.find(CRLF, start)
        if end < 0:
            raise Broken(87, began, False)
        self.at = end + 2
        return self.text[start:end], start, began

    def field(self, tag, pattern, judge=lambda value: 0):
        """An item: start, end, number. The judge answers None for a value that is wrong."""
        value, start, began = self.line(tag)
        if not re.fullmatch(pattern, value, re.S):
            raise Broken(87, began, False)
        number = judge(value)
        if number is None:
            raise Broken(87, began, False)
        return [start, start + len(value), number]


def day(value):
    try:
        date = datetime.date(2000 + int(value[:2]), int(value[2:4]), int(value[4:]))
    except ValueError:
        return None
    return (date - datetime.date(2000, 1, 1)).days


def minute(value):
    hours, minutes = int(value[:2]), int(value[2:])
    return hours * 60 + minutes if hours < 24 and minutes < 60 else None


def numbers(value):
    number, count = int(value[:2]), int(value[3:])
    return number * 100 + count if 1 <= number <= count <= 10 else None


def cents(value):
    whole, part = value[3:].split(b",")
    return int(whole) * 100 + int((part + b"00")[:2])


def letters(text):
    value, start, began = text.line(b":113:")
    if len(value) != 4:
        raise Broken(87, began, False)
    for letter, allowed, number in zip(value, (b"ADP ", b"ADP ", b"ADP ", b" ABCDEFGHIJKLMNOPQRSTUVWXYZ"), (80, 81, 81, 87)):
        if letter not in allowed:
            raise Broken(number, began, False)
    return [start, start + 4, code(value, 4)]


def payment(text):
    side = text.field(b":127:", rb"CR|DR", lambda value: int(value == b"DR"))
    amount = text.field(b":32B:", rb"AUD[0-9]{1,10},[0-9]{0,2}", cents)
    held = [0, 0, 0]
    if side[2]:
        held = letters(text)
    elif text.here(b":113:"):
        raise Broken(87, text.at, False)
    return side + amount + held + text.field(b":102:", rb"[A-Z0-9]{4}", lambda value: code(value, 4))


def ended(text):
    if text.at != len(text.text):
        raise Broken(87, text.at, True)


def answer(raw):
    text = Text(raw)
    sub_type, address = [0] * 3, ["nothing"] + [0] * 7  # what a refused text keeps
    try:
        reference = text.field(b":20:", rb"(?!RITS|ACLR|ASXC)[A-Z0-9]{1,16}")
        sub_line = text.at
        sub = text.field(b":12:", rb"[0-9]{3}", int)
        if sub[2] not in (131, 133):
            raise Broken(88, sub_line, False)
        sub_type = sub
        text.field(b":77E:", rb"")
        stream = text.field(b":22A:", rb"[A-Z0-9]{4}", lambda value: code(value, 4))
        characters = raw[stream[0]:stream[1]]
        address = ["stream"] + stream + [0] * 4
        bin_ = text.field(b":119:", re.escape(characters) + rb"[0-9]{4}")
        address = ["bin"] + stream + name(bin_[0], raw[bin_[0]:bin_[1]])
        head = name(reference[0], raw[reference[0]:reference[1]]) + sub + address
        if sub[2] == 133:
            ended(text)
            return ["recall"] + head + [0] * 7 + ["at", "once"] + [0] * 2 + [0] * 4
        numbering = text.field(b":16A:", rb"[0-9]{2}/[0-9]{2}", numbers)
        date = text.field(b":171:", rb"[0-9]{6}", day)
        activation = ["at", "once", 0, 0]
        if text.here(b":175:"):
            start, end, number = text.field(b":175:", rb"[0-9]{4}", minute)
            activation = ["minute", number, start, end]
        paid = [payment(text)]
        while len(paid) < 10 and text.here(b":127:"):
            paid.append(payment(text))
        count = text.field(b":203:", rb"[1-9][0-9]?", lambda value: int(value) if int(value) == len(paid) else None)
        ended(text)
    except Broken as broken:
        number, at, missing = broken.args
        return ["refused", number, at, "missing" if missing else "wrong"] + [0] * 4 + sub_type + address + [0] * 7 + ["at", "once"] + [0] * 2 + [0] * 4
    terms = numbering[:2] + [numbering[2] // 100, numbering[2] % 100] + date + activation
    return ["settlement"] + head + terms + [len(paid)] + sum(paid, []) + count


HEAD = [b":20:PROPNET000000001", b":12:131", b":77E:", b":22A:PROP", b":119:PROP0001"]
TERMS = [b":16A:01/02", b":171:270203", b":175:1430"]
DEBIT = [b":127:DR", b":32B:AUD12,5", b":113:AAA ", b":102:AAAA"]
CREDIT = [b":127:CR", b":32B:AUD9999999999,99", b":102:BB01"]
WHOLE = HEAD + TERMS + DEBIT + CREDIT + [b":203:2"]
RECALL = [b":20:R1", b":12:133", b":77E:", b":22A:0Z9A", b":119:0Z9A9999"]

# values to stand in place of a line's own, by its tag
VALUES = {
    b":20:": [b"", b"A", b"ABCDEFGHIJ012345", b"ABCDEFGHIJ0123456", b"RITS", b"RITS1", b"ACLR0", b"ASXC", b"RIT", b"ARITS", b"a", b"A B", b"A\rB", b"A\nB", b"\xc3\x84", b"A\x00"],
    b":12:": [b"", b"13", b"1310", b"132", b"134", b"999", b"000", b"1A1", b"13 ", b"131 "],
    b":77E:": [b" ", b"X", b"\r", b"\n"],
    b":22A:": [b"", b"PRO", b"PROPP", b"prop", b"PR P", b"QROP", b"PR\rP"],
    b":119:": [b"", b"PROP", b"PROP001", b"PROP00001", b"PRO10001", b"QROP0001", b"PROP000A", b"0001PROP", b"PROP 001"],
    b":16A:": [b"", b"01/01", b"10/10", b"00/01", b"01/00", b"02/01", b"01/11", b"11/11", b"1/2", b"01/2", b"1/02", b"01-02", b"001/02", b"01/020", b"0A/02", b"01/1\r"],
    b":171:": [b"", b"27020", b"2702030", b"270229", b"280229", b"000101", b"000229", b"991231", b"270431", b"271301", b"270001", b"270200", b"27A203", b"270132"],
    b":175:": [b"", b"0000", b"2359", b"2400", b"1260", b"143", b"14300", b"14:30", b"1 30"],
    b":127:": [b"", b"CR", b"DR", b"C", b"CRR", b"cr", b"XR", b"D\r"],
    b":32B:": [b"", b"AUD0,00", b"AUD7,", b"AUD,50", b"AUD10000000000,00", b"AUD0000000001,0", b"AUD1,234", b"AUD1", b"AUD1.00", b"USD1,00", b"aud1,00", b"AUD-1,00", b"AUD 1,00", b"AUD1,0 ", b"AUD1,,0", b"AUD1,\r"],
    b":113:": [b"", b"AAA", b"AAAAA", b"    ", b"DDDD", b"PPPZ", b"XAA ", b"AXA ", b"AAX ", b"AAA1", b"AAAa", b"XXXX", b"AXX1", b" X  ", b"XAAAA", b"A\rAA", b"A\nAA", b"\rAAA", b"AAA\r", b"\xc3\x84AA", b"\x00AAA", b"A\xffAA", b"aAAA"],
    b":102:": [b"", b"AAA", b"AAAAA", b"aaaa", b"A AA", b"0000", b"AA\nA", b"\xe9AAA"],
    b":203:": [b"", b"1", b"3", b"02", b"002", b"2 ", b"0", b"10", b"2A", b"12"],
}


def tag(line):
    return line[:line.index(b":", 1) + 1]


def lines(parts):
    return b"".join(part + CRLF for part in parts)


def texts():
    for base in (WHOLE, RECALL):
        sound = lines(base)
        yield sound
        yield from (sound[:-1], sound[:-2], sound[:-3], sound + b"A", sound + b"\0", sound + CRLF, sound + sound, CRLF + sound, b" " + sound)
        yield sound.replace(CRLF, b"\n")
        yield sound.replace(CRLF, b"\r")
        yield sound.replace(CRLF, b"\n\r")
        for i, line in enumerate(base):
            where = lines(base[:i]), lines(base[i + 1:])
            yield where[0]
            yield where[0] + where[1]
            yield where[0] + line
            yield where[0] + lines([line, line]) + where[1]
            if i + 1 < len(base):
                yield lines(base[:i] + [base[i + 1], line] + base[i + 2:])
            yield where[0] + line[:2] + b"9" + line[3:] + CRLF + where[1]
            yield where[0] + line[1:] + CRLF + where[1]
            yield where[0] + line.replace(b":", b";") + CRLF + where[1]
            yield where[0] + line + b"\n" + where[1]
            for value in VALUES[tag(line)]:
                yield where[0] + tag(line) + value + CRLF + where[1]
    # an inner CR LF, a 113 after CR, no payments, one to twelve of them
    yield lines(HEAD + TERMS + [b":127:DR", b":32B:AUD1,", b":113:\r\nAA", b":102:AAAA", b":203:1"])
    yield lines(HEAD + TERMS + [b":127:DR", b":32B:AUD1,", b":113:A\r\nA", b":102:AAAA", b":203:1"])
    yield lines(HEAD + TERMS + [b":127:DR", b":32B:AUD1,", b":113:AAAA"])[:-2]
    yield lines(HEAD + TERMS + [b":127:DR", b":32B:AUD1,", b":113:XAAA"])[:-2]
    yield lines(HEAD + TERMS + [b":127:CR", b":32B:AUD1,", b":113:AAAA", b":102:AAAA", b":203:1"])
    yield lines(HEAD + TERMS + [b":127:CR", b":32B:AUD1,", b":113:XXXX", b":102:AAAA", b":203:1"])
    yield lines(HEAD + TERMS + [b":203:0"])
    yield lines(HEAD + TERMS[:2] + CREDIT + [b":203:1"])
    for n in range(1, 13):
        paid = [line for k in range(n) for line in (DEBIT if k % 3 else CREDIT)]
        yield lines(HEAD + TERMS + paid + [b":203:%d" % n])
        yield lines(HEAD + TERMS[:2] + paid + [b":203:%d" % (n + 1)])
    # 88 after the reference is judged, and 87 for a sub type that is cut off
    yield lines([b":20:RITS1", b":12:999"])
    yield lines([b":20:A", b":12:999"])
    yield b":20:A\r\n:12:999"
    yield lines([b":20:A", b":12:133"])
    # nothing, one byte of every value, and 64 KiB
    yield b""
    for byte in (0, 10, 13, 48, 58, 65, 127, 128, 255):
        yield bytes([byte])
    yield lines(WHOLE).ljust(65536, b"A")
    yield lines(HEAD + TERMS + DEBIT * 1500)[:65536].ljust(65536, b"\0")


def main():
    given, wanted = [], []
    for text in texts():
        given.append(b"%05d\n" % len(text) + text)
        wanted.append(" ".join(map(str, answer(text))) + "\n")
    with open("crates/run_requests/stdin", "wb") as file:
        file.write(b"".join(given))
    with open("crates/run_requests/stdout", "w") as file:
        file.write("".join(wanted))


if __name__ == "__main__":
    main()
