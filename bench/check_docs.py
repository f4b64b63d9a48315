#!/usr/bin/env python3
"""Checks the documents against the repository: links, names of files, commands and sessions. Prints what is wrong; its status is 1 then.

    bench/check_docs.py

It builds the program once (`rt run` in crates/gi_tool, which proves it first), so it is no part of the gate. Checked are

- each relative link of a document, and each file name with a folder in it, in backquotes or bare;
- each command of README.md: an answer as `s SATISFIABLE` behind its `#` is among what it prints, and `status N` is its status;
- each session in README.md, TUTORIAL.md and PROTOCOL.md: lines of two columns, or a block that is followed by 'is answered' and another;
- each line of Rust in README.md, which stands in crates/gi_example.
"""
import pathlib
import re
import subprocess
import sys

TOP = pathlib.Path(__file__).resolve().parent.parent
TOOL = TOP / "crates" / "gi_tool"
DOCUMENTS = [TOP / "README.md", *sorted((TOP / "docs").glob("*.md")), *sorted((TOP / "crates").glob("*/README.md")), TOP / "bench" / "README.md"]
GATE = "bash .ci/run"
faults = []


def fault(document, text):
    faults.append(f"{document.relative_to(TOP)}: {text}")


def check_links(document):
    text = document.read_text()
    for target in re.findall(r"\]\(([^)#]+)(?:#[^)]*)?\)", text):
        if "://" not in target and not (document.parent / target).exists():
            fault(document, f"link to {target}, which isn't there")
    for name in set(re.findall(r"(?<![\w/.-])((?:crates|docs|bench|examples|\.ci)/[\w./-]*\w)", text)):
        if not (TOP / name).exists() and "out" not in name.split("/"):
            fault(document, f"names {name}, which isn't there")


def blocks(text):
    """Each indented block of a document, with the paragraph line before it."""
    block, before, last = [], "", ""
    for line in text.splitlines() + [""]:
        if line.startswith("    ") and line.strip():
            if not block:
                before = last
            block.append(line[4:].rstrip())
            continue
        if block:
            yield before, block
            block = []
        if line.strip():
            last = line.strip()


def is_rust(block):
    return block[0].endswith((";", "{"))


def check_rust(document):
    sources = (TOP / "crates" / "gi_example" / "src").glob("*.rt")
    lines = {line.strip() for source in sources for line in source.read_text().splitlines()}
    for _, block in blocks(document.read_text()):
        for line in block if is_rust(block) else []:
            if line.strip() not in lines:
                fault(document, f"'{line.strip()}' isn't in crates/gi_example")


def session(lines):
    run = subprocess.run([TOOL / "out" / "gi_tool", "run"], input="\n".join(lines) + "\n", capture_output=True, text=True, timeout=60)
    return run.stdout.splitlines()


def check_sessions(document):
    asked = None
    for before, block in blocks(document.read_text()):
        if before == "is answered" and asked is not None:
            if session(asked) != block:
                fault(document, f"the session that begins with '{asked[0]}' is answered otherwise")
            asked = None
            continue
        asked = None
        if block[0].startswith(("cd ", "rt ", "bash ", "git ")) or is_rust(block):
            continue
        columns = [re.split(r" {2,}", line, maxsplit=1) for line in block]
        if any(len(c) == 2 for c in columns):
            answers = [c[1] for c in columns if len(c) == 2]
            if session([c[0] for c in columns]) != answers:
                fault(document, f"the session that begins with '{columns[0][0]}' is answered otherwise")
        else:
            asked = block


def check_commands(document):
    folder = TOP
    for _, block in blocks(document.read_text()):
        for line in block:
            command, _, said = line.partition(" # ")
            command = command.strip()
            if not command.startswith(("cd ", "rt ", "bash ", "bench/")) or command == GATE:
                continue
            if command.startswith("rt "):
                folder = TOOL
            run = subprocess.run(command, shell=True, cwd=folder, capture_output=True, text=True, stdin=subprocess.DEVNULL)
            folder = TOP
            status = re.search(r"status (\d+)", said)
            if run.returncode != (int(status.group(1)) if status else 0):
                fault(document, f"'{command}' ends with {run.returncode}")
            printed = re.match(r"\s*(s [A-Z]+)", said)
            if printed and printed.group(1) not in run.stdout:
                fault(document, f"'{command}' doesn't print '{printed.group(1)}'")


built = subprocess.run(["rt", "run", "--", "--version"], cwd=TOOL, capture_output=True, text=True)
if built.returncode != 0:
    sys.exit("the program couldn't be built:\n" + built.stderr[-2000:])
for document in DOCUMENTS:
    check_links(document)
for name in ("README.md", "docs/TUTORIAL.md", "docs/PROTOCOL.md"):
    check_sessions(TOP / name)
check_commands(TOP / "README.md")
check_rust(TOP / "README.md")
print("\n".join(faults) if faults else f"{len(DOCUMENTS)} documents hold")
sys.exit(bool(faults))
