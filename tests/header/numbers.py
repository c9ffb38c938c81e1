#!/usr/bin/env python3
"""The constants of the crates that include/purmagheli.h repeats, as `NAME number`, a line each: those that are public in the sources of c_gateway,
c_engine and c_version, the room and the tries of a call, and the words of a batch's row. One that is said by others, as `TEXTS * Settlement::LONGEST`,
is worked out. Words that the crates name by their place alone come from the tables of docs/FORMAT.md, and tests/engine looks at them."""
import glob
import re

SHOWN = sorted(glob.glob("crates/c_gateway/src/*.rt")) + ["crates/c_engine/src/lib.rt", "crates/c_version/src/lib.rt"]
ROOM = "crates/tables/src/moment.rt"
TRIES = "crates/settle/src/lib.rt"
OTHERS = ["crates/codes/src/lib.rt", "crates/response_write/src/lib.rt"]

said = {}  # (file, name) of a file's own constants, (None, Type::NAME) of a type's: the file and what it says
public = []
for path in SHOWN + [ROOM, TRIES] + OTHERS:
    owner = None
    for line in open(path):
        owner = (re.match(r"impl (\w+) \{$", line) or [None, owner])[1] if not line.startswith("}") else None
        found = re.match(r" *(pub )?const (\w+): \w+ = (.*);$", line)
        if found:
            said[(None, f"{owner}::{found[2]}") if owner else (path, found[2])] = (path, found[3])
            if found[1] and not owner and path in SHOWN:
                public.append((path, found[2]))


def number(path, text):
    def known(name):
        return str(number(*said[(None, name[0]) if "::" in name[0] else (path, name[0])]))

    text = re.sub(r"[A-Za-z]\w*(::\w+)?", known, text.replace("_", "") if text.replace("_", "").isdigit() else text)
    if not re.fullmatch(r"[0-9+*() ]+", text):
        raise SystemExit(f"tests/header: {path} has a constant that is not worked out here: {text}")
    return eval(text)


# the header's name of a word, and that of `settle::Batch`
BATCH = {"PHASE": "PHASE", "RANK": "RANK", "BIN": "BIN", "COUNT": "COUNT", "ACTIVATION": "ACTIVATION", "MEMORY": "MEMORY",
         "MESSAGES": "MESSAGES_THERE", "PAYMENTS": "PAYMENTS_THERE", "MESSAGE": "MESSAGE", "MESSAGE_WORDS": "MESSAGE_WIDTH",
         "PAYMENT": "PAYMENT", "PAYMENT_WORDS": "PAYMENT_WIDTH"}
PLACES = {"BATCH": ["FREE", "ASSEMBLING", "PENDING", "QUEUED"], "BATCH_MESSAGE": ["REFERENCE", None, "NUMBER", "SIZE"],
          "BATCH_PAYMENT": ["BANK", "CENTS", "LETTERS"], "REFERENCE": ["CODE", None, "DAY"], "BIN": ["CODE", None, "DAY"]}
for name, own in BATCH.items():
    print(f"BATCH_{name}", number(*said[(None, f"Batch::{own}")]))
for row, words in PLACES.items():
    for place, word in enumerate(words):
        if word:
            print(f"{row}_{word}", place)
for path, name in public:
    print(name, number(*said[(path, name)]))
print("ROOM", number(*said[(ROOM, "ROOM")]))
print("TRIES", number(*said[(None, "Batch::TRIES")]))
