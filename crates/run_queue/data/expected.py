"""Works out by itself what `run_queue` has to write: `expected.py script` prints the script (stdin), `expected.py` its answer (stdout).

It shares nothing with the proved code. The quick test here keeps no memory: it looks back on the list of all that has happened
and applies document 01's omission rule to it, word by word.
"""
import random
import sys

P, A, D, SPACE = 80, 65, 68, 32
out = []


class Run:
    def __init__(self):
        self.balance = [0] * 64
        self.limit = [0] * 64
        self.batch = {}
        self.queue = []
        self.events = []

    def covered(self, bank, cents, letter):
        if letter == P:
            return cents <= self.balance[bank]
        if letter in (A, SPACE):
            return cents <= self.balance[bank] - self.limit[bank]
        return False

    def first_uncovered(self, place):
        for bank, cents, letter in self.batch[place]:
            if letter and not self.covered(bank, cents, letter):
                return bank
        return None

    def held_at(self, place):
        """The remembered bank, if a try of this batch is omitted: what happened since its last try in the quick list."""
        for i in reversed(range(len(self.events))):
            event = self.events[i]
            if event in (("status", place), ("joined", place)):
                return None
            if event[:2] == ("failed", place):
                bank = event[2]
                freed = any(e in (("credit", bank), ("limit", bank)) for e in self.events[i + 1:])
                return None if freed else bank
        return None

    def test(self, quick):
        tries = []
        settled = True
        while settled:
            settled = False
            for place in list(self.queue):
                if quick and self.held_at(place) is not None:
                    continue
                stop = self.first_uncovered(place)
                if stop is not None:
                    tries.append(2 * place)
                    if quick:
                        self.events.append(("failed", place, stop))
                    continue
                tries.append(2 * place + 1)
                settled = True
                self.queue.remove(place)
                for bank, cents, letter in self.batch[place]:
                    self.balance[bank] += -cents if letter else cents
                    if not letter:
                        self.events.append(("credit", bank))
        memory = [0 if self.held_at(p) is None else self.held_at(p) + 1 for p in range(32)]
        for name, row in (("t", tries), ("q", self.queue), ("m", memory), ("b", self.balance[:40])):
            out.append(" ".join([name] + [str(x) for x in row]))
        return tries


lines = []
state = Run()


def line(op, a=0, b=0, c=0):
    global state
    lines.append(f"{op} {a} {b} {c}")
    if op == 1:
        state = Run()
    elif op == 2:
        state.balance[a] = b
    elif op == 3:
        state.limit[a] = b
        state.events.append(("limit", a))
    elif op == 4:
        state.queue.append(a)
        state.batch[a] = []
        state.events.append(("joined", a))
    elif op == 5:
        state.batch[state.queue[-1]].append((a, b, c))
    elif op == 6:
        state.batch[a] = [(bank, cents, c if letter and bank == b else letter) for bank, cents, letter in state.batch[a]]
        state.events.append(("status", a))
    else:
        return state.test(op == 8)


def batch(place, *payments):
    line(4, place)
    for bank, cents, letter in payments:
        line(5, bank, cents, letter)


def transfer(place, payer, payee, cents, letter=A):
    batch(place, (payer, cents, letter), (payee, cents, 0))


def both(scenario):
    """The same story with the plain and with the quick test: equal but for tries and memory."""
    told = []
    for op in (7, 8):
        start = len(out)
        line(1)
        scenario(lambda: line(op))
        told.append([s for s in out[start:] if s[0] in "qb"])
    assert told[0] == told[1]


def example_12(test):
    line(2, 1, 50)
    transfer(0, 0, 1, 50)
    transfer(1, 1, 0, 50)
    test()


def example_13(test):
    line(2, 1, 50)
    transfer(0, 0, 1, 10)
    transfer(1, 1, 2, 50)
    test()


def gridlock(test):
    """32 batches, the last first: each walk of the plain test settles one."""
    line(2, 32, 5000)
    for i in range(32):
        transfer(i, i + 1, i, 50)
    tries = test()
    assert len(tries) in (528, 63)


def chain(test):
    line(2, 0, 70)
    for i in range(12):
        transfer(i, i, i + 1, 70)
    test()


def circle(test):
    line(2, 5, 100)
    for i in range(10):
        transfer(i, i, (i + 1) % 10, 100)
    test()
    for i in range(10):
        transfer(10 + i, i, (i + 3) % 10, 30, P)
    test()


def zeros(test):
    """A debit of 0 waits behind a sub-limit above the balance; a credit of 0 has it tried again, and it waits on."""
    line(2, 0, 20000)
    line(3, 0, 30000)
    transfer(0, 0, 1, 0)
    transfer(1, 0, 2, 0, P)
    transfer(2, 3, 4, 0, D)
    test()
    transfer(3, 5, 0, 0)
    test()
    line(3, 0, 20000)
    test()
    line(3, 0, 20000)
    line(6, 2, 3, SPACE)
    test()


def statuses(test):
    line(2, 0, 100000)
    line(3, 0, 30000)
    transfer(0, 0, 1, 70001)
    transfer(1, 0, 2, 100000, D)
    test()
    test()
    line(6, 0, 0, D)
    test()
    line(6, 1, 0, P)
    test()
    line(6, 0, 0, P)
    test()
    line(2, 0, 70001)
    line(3, 0, 0)
    test()


def several(test):
    """Cover is each payer's own, and credits of a batch cover none of its debits."""
    line(2, 0, 100)
    line(2, 1, 10)
    batch(0, (0, 60, A), (1, 60, A), (2, 120, 0))
    batch(1, (3, 40, 0), (4, 40, A))
    batch(2, (0, 50, P), (1, 10, SPACE), (4, 60, 0))
    test()
    transfer(3, 4, 1, 20)
    test()


def mixed(seed):
    """Plain and quick tests by turns on the same rows."""
    draw = random.Random(seed)
    banks = draw.randint(3, 12)
    line(1)
    for k in range(banks):
        line(2, k, draw.randint(0, 300))
        if draw.random() < 0.3:
            line(3, k, draw.randint(0, 200))
    for _ in range(draw.randint(4, 9)):
        for _ in range(draw.randint(1, 4)):
            free = [p for p in range(32) if p not in state.queue]
            chosen = draw.sample(range(banks), draw.randint(2, min(banks, 5)))
            payers = draw.randint(1, len(chosen) - 1)
            amounts = [draw.choice([0, 10, 50, draw.randint(0, 200)]) for _ in range(payers)]
            debits = [(k, c, draw.choice([A, A, P, SPACE, D if draw.random() < 0.2 else A])) for k, c in zip(chosen, amounts)]
            rest = sum(amounts)
            credits = []
            for k in chosen[payers:-1]:
                c = draw.randint(0, rest)
                credits.append((k, c, 0))
                rest -= c
            credits.append((chosen[-1], rest, 0))
            both_sides = debits + credits
            draw.shuffle(both_sides)
            batch(draw.choice(free), *both_sides)
        for _ in range(draw.randint(0, 2)):
            if draw.random() < 0.5:
                line(3, draw.randrange(banks), draw.randint(0, 150))
            elif state.queue:
                place = draw.choice(state.queue)
                line(6, place, draw.choice([k for k, c, l in state.batch[place] if l]), draw.choice([A, P, D, SPACE]))
        line(draw.choice([7, 8, 8]))


for scenario in (example_12, example_13, gridlock, chain, circle, zeros, statuses, several):
    both(scenario)
for seed in range(12):
    mixed(seed)

assert len(lines) < 2048 and sum(len(s) + 1 for s in lines) < 65536
print("\n".join(lines if sys.argv[1:] == ["script"] else out))
