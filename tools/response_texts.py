#!/usr/bin/env python3
"""Writes crates/run_responses/stdin and stdout: responses, sound and broken, and what document 01 says of each.

The reader and the writer here are written from document 01 and from docs/DECISIONS.md, and share nothing with the crates. Run
it at the top of the repository.
"""
import datetime, re

CRLF = b"\r\n"
PLACE, ROOM = 5, 128


class Broken(Exception):
    """A break: refusal number, where its line begins, whether a mandatory field is missing there."""


def code(value, width):
    return int.from_bytes(value.ljust(width, b"\0"), "big")


def name(value):
    whole = value.ljust(16, b"\0")
    return [code(whole[:8], 8), code(whole[8:], 8)]


def moment(value):
    """Day number and second of the day of YYMMDDHHMMSS, or None."""
    try:
        date = datetime.datetime.strptime("20" + value.decode(), "%Y%m%d%H%M%S")
    except ValueError:
        return None
    seconds = (date.hour * 60 + date.minute) * 60 + date.second
    return [(date.date() - datetime.date(2000, 1, 1)).days, seconds]


class Text:
    def __init__(self, text):
        self.text, self.at, self.parts = text, 0, {}

    def field(self, tag, pattern):
        """The value of the line with this tag; its part is kept."""
        began, mark = self.at, b":" + tag + b":"
        if not self.text.startswith(mark, began):
            raise Broken(87, began, True)
        start = began + len(mark)
        end = self.text.find(CRLF, start)
        if end < 0 or not re.fullmatch(pattern, self.text[start:end], re.S):
            raise Broken(87, began, False)
        self.at = end + 2
        self.parts[tag] = [start, end]
        return self.text[start:end]


def ending(text, sub):
    """What 451 and its followers say, in words."""
    if text.field(b"451", rb"[01]") == b"1":
        return ["rejected" if sub == b"132" else "kept", int(text.field(b"432", rb"[0-9]{2}"))]
    if sub == b"134":
        return ["recalled"]
    began = text.at
    when = moment(text.field(b"13E", rb"[0-9]{12}"))
    if when is None:
        raise Broken(87, began, False)
    return ["settled"] + when


def read(raw):
    text = Text(raw)
    number = int(text.field(b"20", rb"B[0-9]{7}")[1:])
    sub_line = text.at
    sub = text.field(b"12", rb"[0-9]{3}")
    if sub not in (b"132", b"134"):
        raise Broken(88, sub_line, False)
    text.field(b"77E", rb"")
    values = ["settlement" if sub == b"132" else "recall", number]
    values += name(text.field(b"21", rb"(?!RITS|ACLR|ASXC)[A-Z0-9]{1,16}"))
    if sub == b"132":
        stream = text.field(b"22A", rb"[A-Z0-9]{4}")
        values += [code(stream, 4)] + name(text.field(b"119", stream + rb"[0-9]{4}"))
    values += ending(text, sub)
    if text.at != len(raw):
        raise Broken(87, text.at, True)
    for tag in (b"20", b"12", b"21", b"22A", b"119", b"451"):
        values += text.parts.get(tag, [0, 0])
    return values + text.parts.get(b"13E", text.parts.get(b"432", [0, 0]))


def answer(raw):
    """The line of an answer, and after it what a buffer of points holds in which the response is written again: once with
    room, once in a buffer that is one byte short, which stays as it is, and 07 for it."""
    try:
        values = read(raw)
    except Broken as broken:
        number, at, missing = broken.args
        return b"refused %d %d %s\n" % (number, at, b"missing" if missing else b"wrong")
    full = b"." * PLACE + raw
    return b"%s\n%s\n%s 7\n" % (" ".join(map(str, values)).encode(), full.ljust(ROOM, b"."), b"." * (len(full) - 1))


SETTLED = [(b"20", b"B0000001"), (b"12", b"132"), (b"77E", b""), (b"21", b"PROPNET000000001"), (b"22A", b"PROP"),
           (b"119", b"PROP0001"), (b"451", b"0"), (b"13E", b"270203101530")]
REJECTED = SETTLED[:6] + [(b"451", b"1"), (b"432", b"74")]
RECALLED = [(b"20", b"B0000002"), (b"12", b"134"), (b"77E", b""), (b"21", b"R1"), (b"451", b"0")]
KEPT = RECALLED[:4] + [(b"451", b"1"), (b"432", b"02")]
SOUND = [SETTLED, REJECTED, RECALLED, KEPT]

# Other values of a field: right ones and wrong ones.
OTHERS = {
    b"20": [b"B0000000", b"B9999999", b"b0000001", b"00000001", b"B000001", b"B00000001", b"B000000A", b"C0000001", b"B", b""],
    b"12": [b"131", b"133", b"134", b"132", b"999", b"000", b"13", b"1320", b"13A", b"", b" 32"],
    b"77E": [b" ", b"A", b"CALL"],
    b"21": [b"A", b"0", b"RITA", b"RITS", b"RITS1", b"ACLR0001", b"ASXC", b"ARITS", b"PROPNET0000000001", b"", b"a", b"A B", b"A\rB", b"A\nB", b"\xc3\x84", b"\0"],
    b"22A": [b"0000", b"PRO", b"PROP1", b"prop", b"", b"PR P", b"OTHR"],
    b"119": [b"PROP9999", b"PROP000", b"PROP00001", b"PROPABCD", b"OTHR0001", b"0001PROP", b""],
    b"451": [b"2", b"9", b"", b"00", b"01", b"10", b"A", b" "],
    b"13E": [b"000101000000", b"991231235959", b"240229120000", b"230229120000", b"270203240000", b"270203106000", b"270203101560", b"271303101530",
             b"270003101530", b"270200101530", b"270431101530", b"27020310153", b"2702031015300", b"270203", b"270203 01530", b""],
    b"432": [b"00", b"99", b"1", b"123", b"", b"A1", b"-1", b"1 "],
}


def join(lines):
    return b"".join(b":" + tag + b":" + value + CRLF for tag, value in lines)


def texts():
    for sound in SOUND:
        whole = join(sound)
        yield whole
        yield whole + b"\n"
        yield whole + join(sound[-1:])
        yield whole[:-2]
        yield whole[:-1]
        yield whole[:-2] + b"\r\r\n"
        yield whole.replace(CRLF, b"\n")
        for i in range(len(sound)):
            tag, value = sound[i]
            yield join(sound[:i] + sound[i + 1:])
            yield join(sound[:i] + [sound[i]] * 2 + sound[i + 1:])
            yield join(sound[:i] + [(tag[:-1], value)] + sound[i + 1:])
            yield join(sound[:i] + [sound[i], (b"175", b"1430")] + sound[i + 1:])
            yield join(sound[:i])
            if i + 1 < len(sound):
                yield join(sound[:i] + [sound[i + 1], sound[i]] + sound[i + 2:])
            for other in OTHERS[tag]:
                yield join(sound[:i] + [(tag, other)] + sound[i + 1:])
    yield b""
    yield b"\r\n"
    yield join(SETTLED[:6] + [(b"451", b"0"), (b"432", b"74")])
    yield join(SETTLED[:6] + [(b"451", b"1"), (b"13E", b"270203101530")])
    yield join(SETTLED[:6] + [(b"451", b"0")])
    yield join(RECALLED + [(b"432", b"02")])
    yield join(SETTLED[:4] + SETTLED[6:])
    yield join(RECALLED[:4] + SETTLED[4:6] + RECALLED[4:])
    yield join([(b"20", b"PROPNET000000001"), (b"12", b"131")])
    yield b":20:B0000001\r\n:12:999"
    yield b":20:B0000001\r\n:12:999\r\n"
    yield b":20:b0000001\r\n:12:999\r\n"
    yield join(SETTLED) + b"A" * 4200
    yield b":" * 5000


def main():
    with open("crates/run_responses/stdin", "wb") as stdin, open("crates/run_responses/stdout", "wb") as stdout:
        for text in texts():
            stdin.write(b"%05d\n" % len(text) + text)
            stdout.write(answer(text))


main()
