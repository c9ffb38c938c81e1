#!/usr/bin/env python3
"""Settlements on a row of 64 accounts, worked out from document 01 and docs/FORMAT.md.

Writes crates/run_records/stdin, a script of accounts, batches and settlements, and crates/run_records/stdout, what is
answered and the row that is left.
Run it at the top of the repository: python3 tools/settled_rows.py
"""
MOST = 6_400_000_000_000_000  # cents: "Balances, their total and sub-limits run from 0 to 6,400,000,000,000,000."
WIDTH, COUNT, FIRST, LIVE, BANKS, PAYMENTS, WORD = 349, 8, 49, 32, 64, 100, 2 ** 64
CREDIT, P, A = 0, int.from_bytes(b"P   ", "big"), int.from_bytes(b"A   ", "big")

script, answers = [], []
row = [(0, 0, 0, 0)] * BANKS
words = {}


def short(text):
    return int.from_bytes(text.encode(), "big")


def account(place, code, flags, balance, limit):
    script.append(f"a {place} {code} {flags} {balance} {limit}")
    right = place < BANKS and code < 2 ** 32 and flags < 2 ** 9 and balance <= MOST and limit <= MOST
    if right:
        row[place] = (code, flags, balance, limit)
    answers.append(f"a {place} {'00' if right else '14'}")


def word(at, value):
    script.append(f"w {at} {value}")
    words[at] = value


def batch(place, payments, count=None):
    word(place * WIDTH + COUNT, len(payments) if count is None else count)
    for i, payment in enumerate(payments):
        for j, value in enumerate(payment):
            word(place * WIDTH + FIRST + 3 * i + j, value)


def left_by(place):
    """The row that a settlement leaves, or None where it cannot be made."""
    if place >= LIVE or words.get(place * WIDTH + COUNT, 0) > PAYMENTS:
        return None
    after = list(row)
    for i in range(words.get(place * WIDTH + COUNT, 0)):
        bank, cents, letters = (words.get(place * WIDTH + FIRST + 3 * i + j, 0) for j in range(3))
        if bank >= BANKS:
            return None
        code, flags, balance, limit = after[bank]
        balance += cents if letters == CREDIT else -cents
        if not 0 <= balance < WORD:
            return None
        after[bank] = code, flags, balance, limit
    return after


def settle(place):
    global row
    script.append(f"s {place}")
    after = left_by(place)
    answers.append(f"s {place} {'06' if after is None else '00'}")
    row = row if after is None else after


def show():
    script.append("p")
    answers.extend(" ".join(map(str, (place, *a))) for place, a in enumerate(row) if a[0])


def accounts():
    account(0, short("ABCD"), 0, 10_000, 4_000)
    account(1, short("BANK"), 3, 0, 0)
    account(63, short("ZZ99"), 511, MOST, MOST)
    # each value out of range by one
    account(2, 2 ** 32, 0, 1, 1)
    account(2, short("CASH"), 512, 1, 1)
    account(2, short("CASH"), 0, MOST + 1, 1)
    account(2, short("CASH"), 0, 1, MOST + 1)
    account(64, short("CASH"), 0, 1, 1)
    account(2, short("CASH"), 510, 700, 300)
    show()


def settlements():
    # a debit and two credits; the sub-limits stay
    batch(0, [(0, 6_500, P), (1, 6_000, CREDIT), (2, 500, CREDIT)])
    settle(0)
    show()
    # the same again: the debit has no money now, and nothing changes
    settle(0)
    show()
    # the money came in the same batch, before the debit and after it
    batch(1, [(1, 1_000, CREDIT), (1, 7_000, A), (0, 6_000, CREDIT)])
    settle(1)
    batch(2, [(1, 1, P), (1, 1, CREDIT)])
    settle(2)
    show()
    # all the money of an account, to the cent, and a cent more
    batch(3, [(63, MOST, P), (2, MOST, CREDIT)])
    settle(3)
    batch(4, [(2, MOST + 1_201, P), (63, MOST + 1_201, CREDIT)])
    settle(4)
    show()


def refusals():
    # nothing is paid, a place of the last row, and places past it
    batch(31, [])
    settle(31)
    for place in (32, 64, 1_844_674_407_370_955_160):
        settle(place)
    # the last bank and the one behind it
    batch(5, [(63, 5, CREDIT), (2, 5, P)])
    settle(5)
    batch(5, [(0, 5, CREDIT), (64, 5, CREDIT)])
    settle(5)
    # a credit without room in the word, and one that has it
    batch(6, [(1, 18_446_744_073_709_551_609, CREDIT), (1, 6, CREDIT), (1, 1, CREDIT)])
    settle(6)
    batch(6, [(1, 18_446_744_073_709_551_609, CREDIT), (1, 6, CREDIT), (1, 18_446_744_073_709_551_609, P), (1, 6, P)])
    settle(6)
    # 100 payments, and one more
    batch(7, [(0, 1, CREDIT), (0, 1, A)] * 50)
    settle(7)
    word(7 * WIDTH + COUNT, 101)
    settle(7)
    show()


accounts()
settlements()
refusals()
for name, lines in ("stdin", script), ("stdout", answers):
    with open(f"crates/run_records/{name}", "w") as out:
        out.write("\n".join(lines) + "\n")
print(f"{len(script)} lines, {len(answers)} answers")
