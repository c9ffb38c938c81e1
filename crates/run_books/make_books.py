"""make_books.py FOLDER: books for the example program and the answers that they must get, as FOLDER/stdin and FOLDER/stdout.

An independent reading of document 01, 'The book': builds books, breaks them, judges them, and writes the program's
standard input (each book after its length in two bytes) and the standard output that it must give.
"""
import struct, sys, datetime, copy

MOST = 6_400_000_000_000_000
CODE = set(b"ABCDEFGHIJKLMNOPQRSTUVWXYZ0123456789")


def seal(block):
    words = struct.unpack("<127I", bytes(block[:508]))
    return bytes(block[:508]) + struct.pack("<I", sum(words) % 2**32)


def build(date, streams, banks, blocks=None):
    parts = [banks[i:i + 20] for i in range(0, len(banks), 20)]
    total = blocks or len(parts) + 1
    out = []
    body = bytearray(512)
    body[:8] = b"BFS" + bytes([0, len(streams), total, 0, 0])
    body[8:14] = date
    for i, (code, admin) in enumerate(streams):
        body[16 + 8 * i:24 + 8 * i] = code + bytes([admin, 0, 0, 0])
    out.append(seal(body))
    for k, part in enumerate(parts, 1):
        body = bytearray(512)
        body[:8] = b"BFB" + bytes([k, len(part), total, 0, 0])
        for i, (code, flag, bits, balance, limit) in enumerate(part):
            at = 8 + 24 * i
            body[at:at + 24] = code + bytes([flag, bits, 0, 0]) + struct.pack("<QQ", balance, limit)
        out.append(seal(body))
    return b"".join(out)


def day_number(digits):
    if not digits.isdigit():
        return None
    try:
        d = datetime.date(2000 + int(digits[:2]), int(digits[2:4]), int(digits[4:6]))
    except ValueError:
        return None
    return (d - datetime.date(2000, 1, 1)).days


def judge(book):
    """The line that the program must write."""
    if len(book) % 512 or not 2 <= len(book) // 512 <= 5:
        return "11"
    blocks = [book[i:i + 512] for i in range(0, len(book), 512)]
    streams, banks, last_code = 0, 0, b""
    total = 0
    day = None
    for k, b in enumerate(blocks):
        if sum(struct.unpack("<127I", b[:508])) % 2**32 != struct.unpack("<I", b[508:])[0]:
            return "12"
        n = b[4]
        if b[:3] != (b"BFS" if k == 0 else b"BFB") or b[3] != k or b[5] != len(blocks) or b[6:8] != b"\0\0":
            return "13"
        if k == 0:
            if not 1 <= n <= 8:
                return "13"
            day = day_number(b[8:14].decode("latin-1"))
            if day is None or any(b[14:16]) or any(b[16 + 8 * n:508]):
                return "13"
            previous = b""
            for i in range(n):
                e = b[16 + 8 * i:24 + 8 * i]
                if not set(e[:4]) <= CODE or e[4] == 0 or any(e[5:]) or not previous < e[:4]:
                    return "14"
                previous = e[:4]
            streams = n
        else:
            if (k < len(blocks) - 1 and n != 20) or not 1 <= n <= 20 or banks + n > 64 or any(b[8 + 24 * n:508]):
                return "13"
            for i in range(n):
                e = b[8 + 24 * i:32 + 24 * i]
                balance, limit = struct.unpack("<QQ", e[8:])
                if (not set(e[:4]) <= CODE or e[4] > 1 or e[5] >> streams or any(e[6:8]) or balance > MOST or limit > MOST
                        or not last_code < e[:4]):
                    return "14"
                last_code = e[:4]
                total += balance
            banks += n
    if total > MOST:
        return "15"
    return "00 %02d %02d %05d same" % (banks, streams, day)


def code(i):
    return ("B%03d" % i).encode()


def some_banks(n, streams=2):
    return [(code(i), i % 2, i % (1 << streams), 1000 * i, 10 * i) for i in range(n)]


STREAMS = [(b"ASXS", 7), (b"PROP", 255)]
cases = []


def case(book):
    cases.append(bytes(book))


def resealed(book, changes):
    """The book with bytes changed and the checks of its blocks made anew."""
    b = bytearray(book)
    for at, value in changes:
        b[at] = value
    whole = len(b) // 512 * 512
    return b"".join(seal(b[i:i + 512]) for i in range(0, whole, 512)) + bytes(b[whole:])


for n in (1, 20, 21, 40, 60, 64):
    case(build(b"270203", STREAMS, some_banks(n)))
good = build(b"270203", STREAMS, some_banks(21))
# lengths
case(b"")
case(good[:512])
case(good[:1023])
case(good[:1024])
case(good + bytes(512) * 3)
case(good + b"\0")
# a flipped bit in the first, a middle and the last byte of a block, and in its check
for at in (0, 300, 507, 508, 511, 512, 1023, 1024, 1535):
    b = bytearray(good)
    b[at] ^= 1
    case(b)
# headers: marks, letters, numbers, counts, blocks in all, zeros
for at, value in [(0, 67), (1, 71), (2, 66), (3, 1), (4, 0), (4, 1), (4, 3), (4, 9), (5, 2), (6, 1), (7, 1), (14, 1), (15, 1), (32, 1), (507, 1),
                  (514, 83), (515, 2), (515, 0), (516, 19), (516, 21), (1028, 0), (1028, 2), (1028, 21), (1029, 4), (1030, 1), (1031, 1),
                  (512 + 488, 1), (1024 + 32, 1), (1024 + 507, 1)]:
    case(resealed(good, [(at, value)]))
# 65 banks; 64 in the right places; an empty last block
case(build(b"270203", STREAMS, some_banks(65)))
empty = bytearray(512)
empty[:8] = b"BFB" + bytes([2, 0, 3, 0, 0])
case(build(b"270203", STREAMS, some_banks(20), 3) + seal(empty))
# dates
for date in (b"270229", b"280229", b"000229", b"000101", b"991231", b"990229", b"271301", b"270001", b"270100", b"270431", b"27020 ", b"2702:3"):
    case(build(date, STREAMS, some_banks(3)))
# streams: eight, codes that do not rise, wrong characters, administrators, zeros
eight = [(("S%03d" % i).encode(), i + 1) for i in range(8)]
case(build(b"270203", eight, some_banks(3, 8)))
case(build(b"270203", eight[:1], some_banks(2, 1)))
case(build(b"270203", [(b"PROP", 1), (b"PROP", 2)], some_banks(3)))
case(build(b"270203", [(b"PROP", 1), (b"ASXS", 2)], some_banks(3)))
case(build(b"270203", [(b"prop", 1)], some_banks(1)))
case(build(b"270203", [(b"PROP", 0)], some_banks(1)))
case(build(b"270203", [(b"PROP", 9), (b"PROQ", 9)], some_banks(3)))
for at in (21, 22, 23, 29):
    case(resealed(good, [(at, 1)]))
# banks: codes across blocks, characters, flags, bits, zeros, money
b = some_banks(21)
case(build(b"270203", STREAMS, b[:20] + [(b[19][0], 0, 0, 0, 0)]))
case(build(b"270203", STREAMS, b[:19] + [(b"B9ZZ", 0, 0, 0, 0), (b"B9ZY", 0, 0, 0, 0)]))
case(build(b"270203", STREAMS, [b[1], b[0]]))
case(build(b"270203", STREAMS, [b[0], b[0]]))
case(build(b"270203", STREAMS, [(b"B-00", 0, 0, 0, 0)]))
case(build(b"270203", STREAMS, [(b"ZZZZ", 1, 3, 0, 0)]))
case(build(b"270203", STREAMS, [(b"ZZZZ", 2, 3, 0, 0)]))
case(build(b"270203", STREAMS, [(b"ZZZZ", 0, 4, 0, 0)]))
case(build(b"270203", eight, [(b"ZZZZ", 0, 255, 0, 0)]))
case(build(b"270203", eight[:7], [(b"ZZZZ", 0, 128, 0, 0)]))
for at in (512 + 14, 512 + 15, 1024 + 14):
    case(resealed(good, [(at, 1)]))
case(build(b"270203", STREAMS, [(b"AAAA", 0, 0, MOST, MOST)]))
case(build(b"270203", STREAMS, [(b"AAAA", 0, 0, MOST + 1, 0)]))
case(build(b"270203", STREAMS, [(b"AAAA", 0, 0, 0, MOST + 1)]))
case(build(b"270203", STREAMS, [(b"AAAA", 0, 0, 2**64 - 1, 0)]))
case(build(b"270203", STREAMS, [(b"AAAA", 0, 0, MOST - 1, 0), (b"AAAB", 0, 0, 1, 0)]))
case(build(b"270203", STREAMS, [(b"AAAA", 0, 0, MOST, 0), (b"AAAB", 0, 0, 1, 0)]))
case(build(b"270203", STREAMS, [(code(i), 0, 0, MOST if i in (0, 63) else 0, 0) for i in range(64)]))
# the order of the numbers: a wrong check before a wrong header of the same block, entries of one block before the check of the next
x = bytearray(build(b"270229", STREAMS, [(b"AAAA", 2, 0, MOST + 1, 0)]))
case(x)
x[600] ^= 1
case(x)
y = bytearray(build(b"270203", [(b"PROP", 0)], [(b"AAAA", 2, 0, MOST + 1, 0)]))
y[600] ^= 1
case(y)

with open(sys.argv[1] + "/stdin", "wb") as f:
    for book in cases:
        f.write(struct.pack("<H", len(book)) + book)
with open(sys.argv[1] + "/stdout", "w") as f:
    for book in cases:
        f.write(judge(book).ljust(19) + "\n")
print(len(cases), "books")
