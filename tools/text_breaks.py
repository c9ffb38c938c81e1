#!/usr/bin/env python3
"""Where and why a text breaks, as `inspect` must tell it.

    text_breaks.py request|response FILE..          prints what inspect prints of texts that are refused
    text_breaks.py split request|response FOLDER    writes the texts of crates/run_../stdin that are refused, each into a file

The reader here is written from document 01, by the tags that may stand where a line begins, and shares nothing with the crates.
"""
import datetime, re, sys

CRLF = b"\r\n"


class Broken(Exception):
    """A break: the refusal number, and why in words."""


def true_date(digits):
    try:
        datetime.date(2000 + int(digits[:2]), int(digits[2:4]), int(digits[4:6]))
    except ValueError:
        return False
    return True


def letters(value):
    """The number of a 113 that is wrong, or 0."""
    if len(value) != 4:
        return 87
    for letter, allowed, number in zip(value, (b"ADP ", b"ADP ", b"ADP ", b" ABCDEFGHIJKLMNOPQRSTUVWXYZ"), (80, 81, 81, 87)):
        if letter not in allowed:
            return number
    return 0


class Text:
    def __init__(self, raw):
        self.raw, self.at, self.line = raw, 0, 1

    def stands(self, tag):
        return self.raw.startswith(b":%s:" % tag, self.at)

    def shown(self):
        end = self.raw.find(CRLF, self.at)
        line = self.raw[self.at:] if end < 0 else self.raw[self.at:end]
        words = {13: "\\r", 10: "\\n", 34: '\\"', 92: "\\\\"}
        told = "".join(words.get(b, chr(b) if 32 <= b < 127 else "\\x%02x" % b) for b in line[:40])
        return '"%s"%s' % (told, ".." if len(line) > 40 else "")

    def expect(self, *tags):
        """The tag that stands here, one of those that may."""
        for tag in tags:
            if self.stands(tag):
                return tag
        words = " or ".join(":%s:" % tag.decode() for tag in tags) or "the end of the text"
        raise Broken(87, words + " expected" + (", not " + self.shown() if self.at < len(self.raw) else ", and the text ends"))

    def wrong(self, number, words):
        raise Broken(number, "%s, in %s" % (words, self.shown()))

    def value(self, tag, good):
        """The value of the line with this tag, which stands here."""
        start = self.at + len(tag) + 2
        end = self.raw.find(CRLF, start)
        number = 87 if end < 0 else good(self.raw[start:end])
        if number:
            self.wrong(number, ":12: has another sub type" if number == 88 else ":%s: has a wrong value" % tag.decode())
        value = self.raw[start:end]
        self.at, self.line = end + 2, self.line + 1
        return value

    def field(self, tag, pattern, also=lambda value: True):
        self.expect(tag)
        return self.value(tag, lambda value: 0 if re.fullmatch(pattern, value, re.S) and also(value) else 87)

    def sub_type(self, *known):
        self.expect(b"12")
        return self.value(b"12", lambda value: 87 if not re.fullmatch(rb"[0-9]{3}", value) else 0 if value in known else 88)

    def end(self):
        if self.at < len(self.raw):
            self.expect()


REFERENCE = rb"(?!RITS|ACLR|ASXC)[A-Z0-9]{1,16}"


def read_request(text):
    text.field(b"20", REFERENCE)
    sub = text.sub_type(b"131", b"133")
    text.field(b"77E", rb"")
    stream = text.field(b"22A", rb"[A-Z0-9]{4}")
    text.field(b"119", stream + rb"[0-9]{4}")
    if sub == b"133":
        return text.end()
    text.field(b"16A", rb"[0-9]{2}/[0-9]{2}", lambda value: 1 <= int(value[:2]) <= int(value[3:]) <= 10)
    text.field(b"171", rb"[0-9]{6}", true_date)
    if text.expect(b"175", b"127") == b"175":
        text.field(b"175", rb"[0-9]{4}", lambda value: int(value[:2]) < 24 and int(value[2:]) < 60)
    paid = 0
    while paid == 0 or paid < 10 and text.expect(b"127", b"203") == b"127":
        side = text.field(b"127", rb"CR|DR")
        text.field(b"32B", rb"AUD[0-9]{1,10},[0-9]{0,2}")
        if side == b"DR":
            text.expect(b"113")
            text.value(b"113", letters)
        elif text.stands(b"113"):
            text.wrong(87, ":113: may not stand after CR")
        text.field(b"102", rb"[A-Z0-9]{4}")
        paid += 1
    text.field(b"203", rb"[1-9][0-9]?", lambda value: int(value) == paid)
    text.end()


def read_response(text):
    text.field(b"20", rb"B[0-9]{7}")
    sub = text.sub_type(b"132", b"134")
    text.field(b"77E", rb"")
    text.field(b"21", REFERENCE)
    if sub == b"132":
        stream = text.field(b"22A", rb"[A-Z0-9]{4}")
        text.field(b"119", stream + rb"[0-9]{4}")
    if text.field(b"451", rb"[01]") == b"1":
        text.field(b"432", rb"[0-9]{2}")
    elif sub == b"132":
        text.field(b"13E", rb"[0-9]{12}", lambda value: true_date(value) and int(value[6:8]) < 24 and int(value[8:10]) < 60 and int(value[10:]) < 60)
    text.end()


READ = {"request": read_request, "response": read_response}


def told(kind, raw):
    """The two lines of a text that is refused; nothing of one that is accepted."""
    text = Text(raw)
    try:
        READ[kind](text)
    except Broken as broken:
        number, why = broken.args
        return "refused %02d\nat byte %d, line %d: %s\n" % (number, text.at, text.line, why)
    return ""


def split(kind, folder):
    with open("crates/run_%ss/stdin" % kind, "rb") as file:
        rest, n = file.read(), 0
    while rest:
        size = int(rest[:5])
        text, rest = rest[6:6 + size], rest[6 + size:]
        if told(kind, text):
            with open("%s/%s-%04d" % (folder, kind, n), "wb") as file:
                file.write(text)
            n += 1


def main():
    if sys.argv[1] == "split":
        return split(*sys.argv[2:])
    for name in sys.argv[2:]:
        with open(name, "rb") as file:
            sys.stdout.write("file %s\n%s" % (name, told(sys.argv[1], file.read())))


main()
