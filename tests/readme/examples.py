#!/usr/bin/env python3
"""examples.py FOLDER PAGE..: runs the commands of the pages in a copy of the examples, and looks for what else they quote."""
import os
import re
import shutil
import subprocess
import sys

folder, pages = sys.argv[1], sys.argv[2:]
here = os.getcwd()
# Commands that build or test everything; the library is built by the caller.
LEFT_OUT = ("./test", "./purmagheli library")
SOURCES = ["examples/day/script", "examples/day/expected-quick", "examples/day/expected-plain", "tests/engine/lines-expected", "examples/engine.c"]
wrong = []


def lines_of(path):
    with open(os.path.join(here, path), "rb") as file:
        return [line.rstrip("\r").strip() for line in file.read().decode("latin-1").split("\n")]


known = [lines_of(path) for path in SOURCES]


def is_quoted(block):
    """Whether the lines stand in a source, one behind another or each for itself; `..` stands for any lines."""
    parts, part = [], []
    for line in block:
        if line == "..":
            parts.append(part)
            part = []
        else:
            part.append(line.strip())
    parts.append(part)

    def stands(part):
        return any(part == lines[i:i + len(part)] for lines in known for i in range(len(lines) - len(part) + 1))
    return all(not part or stands(part) for part in parts) or all(stands([line.strip()]) for line in block)


def run(command):
    command = re.sub(r"^gcc ", os.environ["X86_CC"] + " ", command)
    command = command.replace("&& /tmp/", "&& " + os.environ["X86_START"].replace("env", "") + " /tmp/").replace("/tmp/", folder + "/")
    if command.startswith(folder + "/"):
        command = os.environ["X86_START"] + " " + command
    done = subprocess.run(["bash", "-c", command], stdout=subprocess.PIPE, stderr=subprocess.PIPE, stdin=subprocess.DEVNULL)
    return done.returncode, done.stdout.decode("latin-1").replace("\r", "").replace(folder + "/", "/tmp/"), done.stderr.decode("latin-1")


def commands_of(block):
    """The commands behind `$`, each with the lines that it prints."""
    commands = []
    for line in block:
        if line.startswith("$ "):
            commands.append((line[2:], []))
        else:
            commands[-1][1].append(line)
    return commands


def compare(page, command, wanted):
    status, printed, said = run(command)
    # a command that shows a refusal ends with 1
    if wanted is not None and printed.rstrip("\n") != "\n".join(wanted):
        wrong.append(f"{page}: '{command}' prints:\n{printed}{said}")
    elif status not in (0, 1) or said:
        wrong.append(f"{page}: '{command}' ends with {status}: {said}")


def blocks_of(page):
    block = []
    for line in open(os.path.join(here, page), encoding="utf-8").read().split("\n") + [""]:
        if line.startswith("    "):
            block.append(line[4:])
        else:
            if block:
                yield block
            block = []


for name in ["crates", "gateway", "include", "target", "purmagheli", "crates.txt", "tools"]:
    os.symlink(os.path.join(here, name), os.path.join(folder, name))
shutil.copytree(os.path.join(here, "examples"), os.path.join(folder, "examples"))
os.chdir(folder)
shutil.copy("examples/day/script", "script")
for name in ("270203.book", "texts"):
    os.symlink(os.path.join("examples/day", name), name)
count = 0
for page in pages:
    for block in blocks_of(page):
        first = block[0]
        if first.startswith("$ "):
            for command, wanted in commands_of(block):
                compare(page, command, wanted)
                count += 1
        elif re.match(r"\./|gcc |/tmp/", first):
            for line in block:
                command = line.split("   ")[0].strip()
                if not command.startswith(LEFT_OUT):
                    compare(page, command, None)
                    count += 1
        elif re.match(r"script +=|WORD NN|script:\d+:\d+: ", first):
            continue
        elif not is_quoted(block):
            wrong.append(f"{page}: this example stands nowhere else:\n" + "\n".join(block))
if wrong:
    print("\n".join(wrong), file=sys.stderr)
    sys.exit("tests/readme: a page says something else than the programs")
print(f"tests/readme: {count} commands print what the pages say")
