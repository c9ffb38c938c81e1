#!/usr/bin/env python3
"""The files of examples/day: an opening book, the texts of the administrators and the script of their day, made from document 01.

What the script must print (examples/day/expected-plain, expected-quick) and its closing book (expected-book) come from
the plain engine, tests/engine/day.c. The script writes that book to 270204.book, which is not kept.
Run it at the top of the repository: python3 tools/day_example.py
"""
import os
import struct

FOLDER = "examples/day"
DATE = "270203"

# stream and administrator
STREAMS = [("CARD", 7), ("PROP", 5), ("RURL", 9)]
# bank, its streams, balance and sub-limit in dollars; LAUN is suspended
BANKS = [
    ("ADEL", "CARD PROP RURL", 120_000, 0), ("BRIS", "CARD PROP", 20_000, 5_000), ("CAIR", "CARD PROP RURL", 8_000, 0),
    ("DARW", "CARD PROP RURL", 90_000, 10_000), ("GEEL", "CARD RURL", 15_000, 0), ("HOBA", "PROP", 80_000, 30_000),
    ("LAUN", "PROP RURL", 40_000, 0), ("MELB", "CARD PROP RURL", 300_000, 100_000), ("NEWC", "CARD PROP", 10_000, 0),
    ("PERT", "PROP RURL", 60_000, 0), ("SYDN", "CARD PROP RURL", 500_000, 50_000), ("TOWN", "RURL", 25_000, 25_000),
]
SUSPENDED = {"LAUN"}


# ---- the book

def sealed(block):
    block = block.ljust(508, b"\0")
    return block + struct.pack("<I", sum(struct.unpack("<127I", block)) % 2 ** 32)


def book():
    bits = {code: 1 << i for i, (code, _) in enumerate(STREAMS)}
    first = b"BFS" + bytes([0, len(STREAMS), 2, 0, 0]) + DATE.encode() + b"\0\0"
    first += b"".join(code.encode() + bytes([administrator, 0, 0, 0]) for code, administrator in STREAMS)
    second = b"BFB" + bytes([1, len(BANKS), 2, 0, 0])
    for code, streams, balance, limit in BANKS:
        second += code.encode() + bytes([code in SUSPENDED, sum(bits[s] for s in streams.split()), 0, 0])
        second += struct.pack("<QQ", 100 * balance, 100 * limit)
    return sealed(first) + sealed(second)


# ---- texts

def text(lines):
    return "".join(f":{tag}:{value}\r\n" for tag, value in lines).encode()


def head(reference, sub_type, bin_code):
    return [("20", reference), ("12", sub_type), ("77E", ""), ("22A", bin_code[:4]), ("119", bin_code)]


def payment(words):
    """`DR SYDN 250000 |A A ` is a debit of 250,000 dollars with the letters behind the bar; `CR MELB 200000` a credit."""
    said, _, letters = words.partition("|")
    side, bank, dollars = said.split()
    lines = [("127", side), ("32B", f"AUD{dollars},00")]
    return lines + ([("113", letters)] if side == "DR" else []) + [("102", bank)]


def request(reference, bin_code, numbers, payments, activation=None, date=DATE):
    lines = head(reference, "131", bin_code) + [("16A", numbers), ("171", date)] + ([("175", activation)] if activation else [])
    return text(lines + [line for p in payments for line in payment(p)] + [("203", str(len(payments)))])


def recall(reference, bin_code):
    return text(head(reference, "133", bin_code))


FILES = {}
SCRIPT = []


def tell(*words):
    SCRIPT.append("# " + " ".join(words))


def call(line):
    SCRIPT.append(line)


def send(clock, content, name, sender=None):
    """A message of the stream's administrator, or of another sender."""
    path = f"texts/{name}"
    FILES[f"{FOLDER}/{path}"] = content
    stream = content.split(b":22A:")[1][:4].decode()
    call(f"message {seconds(clock)} {sender or dict(STREAMS)[stream]} {path}")


def seconds(clock):
    h, m, s = (int(x) for x in clock.split(":"))
    return 3600 * h + 60 * m + s


# ---- the day

def morning():
    tell("3 February 2027. Three streams, twelve banks; cents everywhere.")
    call("clear")
    call(f"open {seconds('09:00:00')} {DATE}.book")
    call("show")
    SCRIPT.append("")
    tell("PROP0001 comes in three parts, out of order. SYDN and HOBA pay 310,000.00; together they have 580,000.00 and sub-limits of 80,000.00, so an engine")
    tell("that pools its payers would settle it. HOBA by itself may pay 50,000.00 and owes 60,000.00: the batch waits for HOBA alone.")
    send("09:10:00", request("PROPNET000000003", "PROP0001", "03/03", ["CR MELB 200000", "CR BRIS 110000"]), "PROP0001-03")
    send("09:10:05", request("PROPNET000000001", "PROP0001", "01/03", ["DR SYDN 250000 |AAA "]), "PROP0001-01")
    send("09:10:09", request("PROPNET000000002", "PROP0001", "02/03", ["DR HOBA 60000 |A A "]), "PROP0001-02")
    call("why")
    SCRIPT.append("")
    tell("A batch behind it settles at once. GEEL is short by itself; NEWC and CAIR owe each other and neither can begin.")
    send("09:20:00", request("RURLNET000000001", "RURL0001", "01/01", ["DR ADEL 30000 |AAA ", "DR DARW 12500 |PAA ", "CR PERT 42500"]), "RURL0001")
    send("09:25:00", request("CARDNET000000001", "CARD0001", "01/01", ["DR GEEL 40000 |P   ", "CR SYDN 40000"]), "CARD0001")
    send("09:30:00", request("PROPNET000000004", "PROP0002", "01/02", ["DR NEWC 70000 |    "]), "PROP0002-01")
    send("09:30:10", request("PROPNET000000005", "PROP0002", "02/02", ["CR CAIR 70000"]), "PROP0002-02")
    send("09:31:00", request("PROPNET000000006", "PROP0003", "01/01", ["DR CAIR 65000 |AAA ", "CR NEWC 65000"]), "PROP0003")
    call("why")
    SCRIPT.append("")
    tell("A credit frees CARD0001 in the call that settles it: the queue is tried again from its head.")
    send("09:40:00", request("RURLNET000000002", "RURL0002", "01/01", ["DR MELB 25000 |AAA ", "CR GEEL 25000"]), "RURL0002")
    tell("A sub-limit one cent too high leaves PROP0001 where it is, and `why` tells the cent; the next frees it.")
    call(f"sublimit {seconds('09:45:00')} HOBA 2000001")
    call("why")
    call(f"sublimit {seconds('09:46:00')} HOBA 2000000")
    tell("An unknown bank, and a sub-limit out of range.")
    call(f"sublimit {seconds('09:47:00')} NONE 0")
    call(f"sublimit {seconds('09:47:00')} HOBA 6400000000000001")


def refusals():
    SCRIPT.append("")
    tell("A stranger's message, a wrong ESA letter and another sub type touch no batch.")
    send("10:00:00", request("PROPNET000000007", "PROP0003", "01/01", ["DR CAIR 1 |AAA ", "CR NEWC 1"]), "stranger", sender=9)
    send("10:00:10", request("PROPNET000000007", "PROP0004", "01/02", ["DR ADEL 1000 |XAA "]), "wrong-letter")
    send("10:00:20", request("PROPNET000000007", "PROP0004", "01/02", ["DR ADEL 1000 |AAA "]).replace(b":12:131", b":12:132"), "sub-type")
    tell("A suspended receiver in the second part rejects both parts of PROP0004; sums that differ reject CARD0002; a used reference ends RURL0004.")
    send("10:01:00", request("PROPNET000000007", "PROP0004", "01/02", ["DR ADEL 1000 |AAA "]), "PROP0004-01")
    send("10:01:10", request("PROPNET000000008", "PROP0004", "02/02", ["CR LAUN 1000"]), "PROP0004-02")
    send("10:02:00", request("CARDNET000000002", "CARD0002", "01/01", ["DR ADEL 1000 |AAA ", "CR SYDN 1001"]), "CARD0002")
    send("10:03:00", request("RURLNET000000003", "RURL0004", "01/02", ["DR TOWN 10 |AAA "]), "RURL0004-01")
    send("10:03:10", request("RURLNET000000001", "RURL0004", "02/02", ["CR PERT 10"]), "RURL0004-02")
    tell("PROP0001 has settled, so that its BIN is refused alone; a date after today; a bank of another stream.")
    send("10:04:00", request("PROPNET000000009", "PROP0001", "01/01", ["DR SYDN 5 |AAA ", "CR MELB 5"]), "PROP0001-again")
    send("10:05:00", request("CARDNET000000003", "CARD0003", "01/01", ["DR SYDN 5 |AAA ", "CR MELB 5"], date="270204"), "CARD0003")
    send("10:06:00", request("RURLNET000000004", "RURL0008", "01/01", ["DR SYDN 5 |AAA ", "CR BRIS 5"]), "RURL0008")


def midday():
    SCRIPT.append("")
    tell("Activation minutes: three batches wait for theirs. RURL0003 is recalled before it comes, and once more in vain.")
    send("11:00:00", request("RURLNET000000005", "RURL0003", "01/01", ["DR TOWN 100 |PAA ", "CR ADEL 100"], "1400"), "RURL0003")
    send("11:01:00", request("RURLNET000000006", "RURL0005", "01/02", ["DR PERT 5000 |AAA "], "1200"), "RURL0005-01")
    send("11:01:10", request("RURLNET000000007", "RURL0005", "02/02", ["CR ADEL 5000"], "1200"), "RURL0005-02")
    send("11:02:00", request("RURLNET000000008", "RURL0006", "01/01", ["DR MELB 7000 |AAA ", "CR DARW 7000"], "1130"), "RURL0006")
    send("11:03:00", recall("RURLNET000000009", "RURL0003"), "recall-RURL0003")
    send("11:04:00", recall("RURLNET000000010", "RURL0003"), "recall-again")
    call("show")
    tell("Both minutes have begun by noon: by activation, RURL0006 before RURL0005.")
    call(f"tick {seconds('12:00:30')}")
    tell("PERT has the money and has deferred its debit; no other letter than A, D or P is taken, nor a bank that does not pay there.")
    send("12:10:00", request("PROPNET000000010", "PROP0005", "01/01", ["DR PERT 20000 |DAA ", "CR SYDN 20000"]), "PROP0005")
    call("why")
    call(f"status {seconds('12:11:00')} PERT PROP0005 X")
    call(f"status {seconds('12:11:10')} SYDN PROP0005 A")
    call(f"status {seconds('12:12:00')} PERT PROP0005 A")
    tell("A credit to NEWC lets PROP0002 settle, which pays CAIR, which lets PROP0003 settle: one call.")
    send("12:30:00", request("CARDNET000000004", "CARD0004", "01/01", ["DR SYDN 60000 |AAA ", "CR NEWC 60000"]), "CARD0004")


def evening():
    SCRIPT.append("")
    tell("What is left at the close ends with 86, by the arrival of its first message: one being assembled, one that is held, one whose minute has not come.")
    send("15:00:00", request("PROPNET000000011", "PROP0006", "02/03", ["DR ADEL 500 |AAA ", "CR BRIS 500"]), "PROP0006-02")
    send("15:10:00", request("RURLNET000000011", "RURL0007", "01/01", ["DR TOWN 1 |AAA ", "CR ADEL 1"]), "RURL0007")
    send("15:20:00", request("CARDNET000000005", "CARD0005", "01/01", ["DR SYDN 1 |AAA ", "CR ADEL 1"], "1700"), "CARD0005")
    call("why")
    call("show")
    tell("A clock that goes back is the wrong moment, and so is a closing book of the day itself.")
    call(f"tick {seconds('15:00:00')}")
    call(f"close {seconds('16:30:00')}")
    call("show")
    call(f"closing {seconds('16:31:00')} {DATE} 270204.book")
    call(f"closing {seconds('16:31:00')} 270204 270204.book")


def next_day():
    SCRIPT.append("")
    tell("4 February: yesterday's book is refused and the closing book opens it. Yesterday's references and BINs are remembered.")
    call(f"open {seconds('09:00:00')} {DATE}.book")
    call(f"open {seconds('09:00:00')} 270204.book")
    send("09:05:00", request("PROPNET000000001", "PROP0007", "01/01", ["DR SYDN 100 |AAA ", "CR HOBA 100"], date="270204"), "used-reference")
    send("09:06:00", request("RURLNET000000012", "RURL0007", "01/01", ["DR TOWN 1 |AAA ", "CR ADEL 1"], date="270204"), "used-bin")
    send("09:07:00", request("PROPNET000000012", "PROP0007", "01/01", ["DR SYDN 100 |AAA ", "CR HOBA 100"], date="270204"), "PROP0007")
    call(f"close {seconds('16:30:00')}")
    call("show")


def main():
    for part in (morning, refusals, midday, evening, next_day):
        part()
    os.makedirs(f"{FOLDER}/texts", exist_ok=True)
    FILES[f"{FOLDER}/{DATE}.book"] = book()
    FILES[f"{FOLDER}/script"] = ("\n".join(SCRIPT) + "\n").encode()
    for path, content in FILES.items():
        with open(path, "wb") as f:
            f.write(content)


if __name__ == "__main__":
    main()
