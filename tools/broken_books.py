#!/usr/bin/env python3
"""Writes broken books into crates/inspect/data, one for each test of a book, and prints what is to be told of them.

    tools/broken_books.py inspect     what `inspect book` prints of each, in the order of their names
    tools/broken_books.py gateway     what the gateway's example program prints of each

Every book is the same sound one of three streams and 45 banks but for one place, and its checks are made anew
behind that place. Written from document 01 and from nothing of the project's code.
"""
import os
import struct
import sys

MOST = 6_400_000_000_000_000


def sound():
    blocks = [bytearray(512) for _ in range(4)]
    counts = [3, 20, 20, 5]
    for k, block in enumerate(blocks):
        block[0:8] = b"BF" + (b"B" if k else b"S") + bytes([k, counts[k], 4, 0, 0])
    blocks[0][8:14] = b"270203"
    for i, code in enumerate([b"PROP", b"RURL", b"TERM"]):
        blocks[0][16 + 8 * i : 24 + 8 * i] = code + bytes([i + 1, 0, 0, 0])
    for i in range(45):
        at = 8 + 24 * (i % 20)
        code = b"B%03d" % i
        blocks[1 + i // 20][at : at + 24] = code + bytes([i % 2, i % 8, 0, 0]) + struct.pack("<QQ", 1000 * i, i)
    return blocks


def sealed(blocks):
    for block in blocks:
        total = sum(struct.unpack("<127I", block[:508])) % 2**32
        block[508:512] = struct.pack("<I", total)
    return b"".join(blocks)


def bank(entry):
    return 8 + 24 * entry


# name, block, entry or none, the block's bytes from a place on, number, number of the fault for C, words
BREAKS = [
    ("13-head", 2, None, 3, b"\x01", 13, 3, "the head is not that of this block"),
    ("13-count", 3, None, 4, b"\x00", 13, 4, "the count of entries is out of range"),
    ("13-date", 0, None, 8, b"270229", 13, 5, "the date is not a true one"),
    ("13-after-date", 0, None, 15, b"\x01", 13, 6, "the bytes behind the date are not zero"),
    ("13-unused", 1, None, 507, b"\x01", 13, 7, "unused bytes are not zero"),
    ("14-code", 2, 5, bank(5), b"b", 14, 8, "the code is not four of A-Z 0-9"),
    ("14-not-above", 2, 0, bank(0), b"B019", 14, 9, "the code is not above the one before"),
    ("14-administrator", 0, 1, 16 + 8 + 4, b"\x00", 14, 10, "the administrator is 0"),
    ("14-flag", 1, 19, bank(19) + 4, b"\x02", 14, 11, "the flag is neither 0 nor 1"),
    ("14-bit", 3, 4, bank(4) + 5, b"\x08", 14, 12, "a stream bit has no stream"),
    ("14-zeros", 1, 0, bank(0) + 7, b"\x80", 14, 13, "bytes that must be zero are not"),
    ("14-balance", 3, 0, bank(0) + 8, struct.pack("<Q", MOST + 1), 14, 14, "the balance is out of range"),
    ("14-limit", 1, 7, bank(7) + 16, struct.pack("<Q", 2**64 - 1), 14, 15, "the sub-limit is out of range"),
]

os.chdir(os.path.join(os.path.dirname(os.path.abspath(__file__)), "..", "crates", "inspect", "data"))
for name, block, entry, at, value, number, fault, words in sorted(BREAKS):
    blocks = sound()
    blocks[block][at : at + len(value)] = value
    with open("book-" + name, "wb") as out:
        out.write(sealed(blocks))
    if sys.argv[1:] == ["inspect"]:
        place = f"block {block}" if entry is None else f"block {block}, entry {entry}"
        print(f"file book-{name}\nrefused {number}\nat {place}: {words}")
    if sys.argv[1:] == ["gateway"]:
        print(f"refused {number} at block {block}, entry {entry or 0}, fault {fault}")
