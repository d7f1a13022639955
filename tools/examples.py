#!/usr/bin/env python3
"""Runs each command of examples/README.md and compares what it prints and its status, and the sessions of other pages.

Usage: examples.py [PROGRAM]

A command is a line `    $ cec WORDS`; the lines below it, up to `    status N`, are what it prints on standard output and on
standard error. PROGRAM is the repository's own where it is left out. Status 1 where anything differs. The gate runs the same
commands (the program `cec_examples`), and what it compares with is asked to be what the page says.

A session of README.md, docs/REFERENCE.md or docs/FORMATS.md is lines `    $ ./cec WORDS`, each followed by what it prints, perhaps
only the first lines of it before `    ...`. docs/FORMATS.md has a check in full: the files that it leaves are asked to stand there.
"""
import shutil
import subprocess
import sys
import tempfile
from pathlib import Path

import house

SESSIONS = ["README.md", "docs/REFERENCE.md", "docs/FORMATS.md"]


def examples(text):
    """(words, lines, status) of each command."""
    words, lines = None, []
    for line in text.split("\n"):
        if line.startswith("    $ cec "):
            words, lines = line[len("    $ cec "):].split(), []
        elif words and line.startswith("    status "):
            yield words, lines, int(line.split()[1])
            words = None
        elif words:
            lines.append(line[4:])


def sessions(text):
    """(words, lines) of each command of a session."""
    words, lines = None, []
    for line in text.split("\n") + [""]:
        if words and (not line.startswith("    ") or line.startswith("    $ ")):
            yield words, lines
            words = None
        if line.startswith("    $ ./cec "):
            words, lines = line[len("    $ ./cec "):].split(), []
        elif words:
            lines.append(line[4:])


def wrong_sessions(program, room):
    """What sessions print and their page hasn't: (page, words, lines)."""
    for page in SESSIONS:
        for words, lines in sessions((house.TOP / page).read_text()):
            here = [word.replace("/tmp", str(room)).replace("examples/", f"{room}/") for word in words]
            ran = subprocess.run([program, *here], cwd=room, capture_output=True, text=True)
            said = (ran.stdout + ran.stderr).splitlines()
            if lines[-1:] == ["..."]:
                said, lines = said[:len(lines) - 1], lines[:-1]
            if said != lines:
                yield page, " ".join(words), said


def not_in_formats(room):
    """What the check of docs/FORMATS.md left and the page hasn't."""
    page = (house.TOP / "docs" / "FORMATS.md").read_text()
    for name in ["and.0.cnf", "and.0.lrat"]:
        left = (Path(room) / name).read_text() if (Path(room) / name).is_file() else "not there\n"
        if "\n\n" + "".join(f"    {line}\n" for line in left.splitlines()) + "\n" not in page:
            yield name


def main():
    program = house.program(sys.argv[1] if len(sys.argv) > 1 else None)
    folder, wrong, count = house.TOP / "examples", 0, 0
    page = list(examples((folder / "README.md").read_text()))
    told = "".join(f"$ cec {' '.join(w)}\n" + "".join(f"{l}\n" for l in ls) + f"status {s}\n" for w, ls, s in page)
    # (behind them stands what `./cec` says of words that ask for help)
    if not (house.TOP / "crates" / "cec_examples" / "stdout").read_text().startswith(told + "$ cec --version\n"):
        wrong += 1
        print("crates/cec_examples/stdout isn't what the page says")
    with tempfile.TemporaryDirectory() as room:
        for file in folder.iterdir():
            shutil.copy(file, room)
        for words, lines, status in page:
            ran = subprocess.run([program, *words], cwd=room, capture_output=True, text=True)
            said = (ran.stdout + ran.stderr).splitlines()
            count += 1
            if (said, ran.returncode) != (lines, status):
                wrong += 1
                print(f"cec {' '.join(words)}: {said} with status {ran.returncode}, and not {lines} with {status}")
        for name, words, said in wrong_sessions(program, room):
            wrong += 1
            print(f"{name}: ./cec {words} prints {said}")
        for name in not_in_formats(room):
            wrong += 1
            print(f"docs/FORMATS.md hasn't the lines of {name} that its example leaves")
    print(f"{count} examples, {wrong} wrong")
    sys.exit(1 if wrong or not count else 0)


if __name__ == "__main__":
    main()
