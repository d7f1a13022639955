#!/usr/bin/env python3
"""Edit scripts that are wrong, or as large as may be: what was told before the refused line has to stand.

Usage: script_faults.py [PROGRAM [CHECKER]] [--runs N] [--seed N] [--only WORD]

PROGRAM is the repository's own where it is left out; CHECKER is as for `pairs.py`, else tools/lrat_strict.c where `cc` is there. The
groups, of which --only runs those alone whose names have the word:

cut     N random scripts (20), each cut at every byte
bytes   ten times as many, in which some bytes are changed, put in or taken out
pairs   lines of each form with every set of faults that they can have, over random circuits, and N/5 spoilt forms of each of
        these lines that are no line: the fault that stands first in its form's table is told
long    lines of a megabyte, taken and refused
many    scripts of 100,000 lines; their seconds and their peak memory are told
limit   a side that has as many gates as it may have: `too many gates` is told before every later fault; likewise

second_edits.py says which line is refused and what each check is of, and the tables here say it once more where a line has several
faults. Every check's verdict is judged by the circuits' values on each input, and its files by the checker, as in `scripts.py`; other
files may not lie there. Status 1 where anything is wrong.
"""
import argparse
import itertools
import os
import random
import shutil
import subprocess
import tempfile
import time
from pathlib import Path

from pairs import random_circuit, rewritten
from rounds import SEED, Tally, house
from scripts import drawn_pair, drawn_script, line_of, shortened, tried
from second_edits import checks_of, command_in, edited, fault_of

MB = 1 << 20
LINES = 100_000
# A new gate costs as much as the circuits have gates.
GATES = 5_000
MOST_GATES = 1 << 24


class Round:
    """Runs the program on scripts, and counts what is wrong."""

    def __init__(self, words, checker):
        self.program, self.runs, self.checker = house.program(words.program), words.runs, checker
        self.rng, self.tally = random.Random(words.seed), Tally(words.seed)

    def judge(self, sides, script, refused=None):
        """A run over these circuits; where a refused line is named, the second implementation has to say the same."""
        if refused is not None and checks_of(sides, script)[1] != refused:
            self.tally.add("none", f"the second implementation doesn't say {refused!r} of {shortened(script)}")
        self.tally.add(*tried(self.program, self.checker, sides, ((), ()), script))


# ---- cut and changed scripts

def drawn_long_script(rng, sides):
    """A script of some lines, a check among them."""
    while True:
        script = drawn_script(rng, sides)
        if script.count(b"\n") > 4 and b"check" in script:
            return script


def cut(round_):
    for _ in range(round_.runs):
        sides = drawn_pair(round_.rng)
        script = drawn_long_script(round_.rng, sides)
        for end in range(len(script) + 1):
            round_.judge(sides, script[:end])


def changed(rng, script):
    """The script with some bytes changed, put in or taken out, or a part of it moved or doubled."""
    script = bytearray(script)
    for _ in range(rng.randrange(1, 4)):
        at, behind = sorted(rng.randrange(len(script) + 1) for _ in range(2))
        kind = rng.choice(["byte", "byte", "in", "in", "out", "part", "twice"])
        if kind == "byte" and at < len(script):
            script[at] = rng.choice([rng.randrange(256), *b" \n0-+\r\tabx"])
        elif kind == "in":
            script.insert(at, rng.choice([rng.randrange(256), *b" \n0-+\r\tabx"]))
        elif kind == "out":
            del script[at:at + 1]
        elif kind == "part":
            del script[at:behind]
        else:
            script[at:at] = script[at:behind]
    return bytes(script)


def bytes_(round_):
    for _ in range(10 * round_.runs):
        sides = drawn_pair(round_.rng)
        round_.judge(sides, changed(round_.rng, drawn_long_script(round_.rng, sides)))


# ---- faults in pairs

def drawn_fitting_pair(rng):
    """A random pair whose second circuit has a gate that nothing reads, an output, and gates before and behind a read one."""
    while True:
        a = random_circuit(rng, rng.randrange(1, 4), rng.randrange(1, 3), rng.randrange(3, 8))
        sides = {"a": a, "b": rewritten(rng, a)}
        inputs, outputs, gates = sides["b"]
        if any(fault_of(sides["b"], ["drop", "b", lhs]) is None for lhs, _, _ in gates) and len(gates) > 3:
            return sides


def literals_by_kind(circuit, place, lhs):
    """Literals by what they are as a fanin of a gate at this place: earlier, not earlier, or of no variable, one of which may be lhs."""
    inputs, _, gates = circuit
    early = [0, *inputs, *(gate[0] for gate in gates[:place])]
    late = [gate[0] for gate in gates[place:]]
    none = {2 + max([0, *inputs, *(gate[0] for gate in gates)]), 33_554_432} | ({lhs} if lhs not in early + late else set())
    return {"ok": early, "late": late, "none": sorted(none)}


def fanins(rng, circuit, place, lhs):
    """Every two kinds of fanins that there are here, with literals of them."""
    kinds = literals_by_kind(circuit, place, lhs)
    for first, second in itertools.product(["ok", "none", "late"], repeat=2):
        if kinds[first] and kinds[second]:
            left, right = (rng.choice(kinds[kind]) + rng.randrange(2) for kind in (first, second))
            yield (first, left), (second, right)


def faults_of_fanins(left, right):
    """The faults of two fanins, in the order of the table."""
    found = [f"no literal {literal}" for kind, literal in (left, right) if kind == "none"]
    return found + [f"literal {literal} is not earlier" for kind, literal in (left, right) if kind == "late"]


def set_lines(rng, side, circuit):
    """(the line's words, its faults in the table's order)."""
    gates = circuit[2]
    absent = 2 + max(gate[0] for gate in gates)
    for lhs, faults in ((rng.choice(gates[1:-1])[0], []), (absent, [f"no gate {absent}"]), (circuit[0][0], [f"no gate {circuit[0][0]}"])):
        place = next((k for k, gate in enumerate(gates) if gate[0] == lhs), len(gates) // 2)
        for left, right in fanins(rng, circuit, place, lhs):
            yield ["set", side, lhs, left[1], right[1]], faults + faults_of_fanins(left, right)


def new_lines(rng, side, circuit):
    inputs, _, gates = circuit
    fresh = 2 + max(gate[0] for gate in gates)
    absent = fresh + 2 * rng.randrange(3)
    places = [(None, len(gates), []), (absent, len(gates) // 2, [f"no gate {absent}"])]
    places += [(gates[k][0], k, []) for k in (0, rng.randrange(1, len(gates)))]
    for lhs in (fresh, 0, inputs[0], rng.choice(gates)[0]):
        taken = [] if lhs == fresh else [f"literal {lhs} is taken"]
        for before, place, no_place in places:
            for left, right in fanins(rng, circuit, place, lhs):
                yield ["new", side, lhs, left[1], right[1], before], taken + no_place + faults_of_fanins(left, right)


def drop_lines(rng, side, circuit):
    inputs, outputs, gates = circuit
    read = {literal & ~1 for gate in gates for literal in gate[1:]} | {literal & ~1 for literal in outputs}
    for lhs, _, _ in gates:
        yield ["drop", side, lhs], [f"gate {lhs} is in use"] if lhs in read else []
    for lhs in (0, inputs[0], 2 + max(gate[0] for gate in gates)):
        yield ["drop", side, lhs], [f"no gate {lhs}"]


def out_lines(rng, side, circuit):
    _, outputs, gates = circuit
    absent = 3 + max(gate[0] for gate in gates)
    for j, no_output in ((rng.randrange(len(outputs)), []), (len(outputs), [f"no output {len(outputs)}"])):
        for literal, no_literal in ((rng.choice(gates)[0] + 1, []), (absent, [f"no literal {absent}"])):
            yield ["out", side, j, literal], no_output + no_literal


def replaced(words, at, word):
    return b" ".join([*words[:at], word, *words[at + 1:]])


def no_lines(line):
    """The line in forms that are none of a script."""
    words = line.split(b" ")
    yield from (line + b" ", b" " + line, line + b"\r", line + b" 2", line.replace(b" ", b"  ", 1), b" ".join(words[:-1]), line.upper())
    yield from (replaced(words, 1, word) for word in (b"c", b"A", b"", b"ab"))
    gates = {b"set": [2], b"new": [2, 6], b"drop": [2], b"out": []}[words[0]]
    for at, word in enumerate(words):
        if word.isdigit():
            bad = [b"-" + word, b"+" + word, word + b".", b"0x2", b"", b"33554434", b"9" * 30] + [b"7"] * (at in gates)
            yield from (replaced(words, at, other) for other in bad)


def pairs(round_):
    for turn in range(max(1, round_.runs // 5)):
        sides = drawn_fitting_pair(round_.rng)
        lhs, left, right = round_.rng.choice(sides["b"][2])
        begun = f"set b {lhs} {right} {left}\ncheck\n\n".encode()
        for lines in (set_lines, new_lines, drop_lines, out_lines):
            for edit, faults in lines(round_.rng, "b", edited(sides["b"], ["set", "b", lhs, right, left])):
                line = line_of(edit).encode()
                round_.judge(sides, begun + line + b"\ncheck\n", (4, faults[0]) if faults else None)
                if turn == 0 and faults:
                    forms = list(no_lines(line))
                    for spoilt in round_.rng.sample(forms, min(len(forms), max(2, round_.runs // 5))):
                        round_.judge(sides, begun + spoilt + b"\ncheck\n", (4, "bad line"))


# ---- long lines

def long_lines(circuit):
    """Lines of a megabyte for the second circuit."""
    (lhs, left, right), zeros = circuit[2][-1], b"0" * MB
    fresh = 2 + max(gate[0] for gate in circuit[2])
    numbers = [b"%d" % number for number in (lhs, left, right)]
    yield from (b"set b " + replaced(numbers, at, zeros + number) for at, number in enumerate(numbers))
    yield b"new b %d %d %d before " % (fresh, left, right) + zeros + numbers[0]
    yield b"new b " + zeros + b"%d %d %d end" % (fresh, left, right)
    yield b"drop b " + zeros + numbers[0]
    yield b"out b " + zeros + b" " + numbers[0]
    yield b"out b 0 " + zeros + numbers[0]
    plain = b"set b " + b" ".join(numbers)
    for byte in (b" ", b"0", b"9", b"x", b"\0", b"\xff", b"\r"):
        yield from (byte * MB, plain + byte * MB, byte * MB + plain, b"set b" + byte * MB + numbers[0] + b" 2 4", b"check" + byte * MB)
    yield from (b"set b %d " % lhs + b"9" * MB + b" 2", b"drop b " + b"2 " * (MB // 2), b"check " * (MB // 6), plain + b" end" * (MB // 4))
    yield b"new b %d 0 0 " % fresh + b"before " * (MB // 7)


def long(round_):
    for _ in range(max(1, round_.runs // 10)):
        sides = drawn_fitting_pair(round_.rng)
        for line in long_lines(sides["b"]):
            for script in (line, b"\ncheck\n" + line + b"\ncheck\n", b"\n" * 1000 + line + b"\ncheck\ncheck x\n"):
                round_.judge(sides, script)
        taken = [line for line in long_lines(sides["b"]) if line.startswith(b"set b") and command_in(line)]
        round_.judge(sides, b"\n".join(taken * 8) + b"\ncheck\n" + b"x" * MB)


# ---- many lines

def told(round_, name, files, said, status, warned, *options):
    """A run whose end is known, with its seconds and its peak memory."""
    with tempfile.TemporaryDirectory() as folder:
        for file, content in files.items():
            Path(folder, file).write_bytes(content)
        begun = time.monotonic()
        with open(Path(folder, "said"), "wb") as out, open(Path(folder, "warned"), "wb") as err:
            command = [round_.program, "check", "A", "B", "--edits", "F", *options]
            running = subprocess.Popen(command, cwd=folder, stdout=out, stderr=err)
            _, ended, used = os.wait4(running.pid, 0)
        seconds, code = time.monotonic() - begun, os.waitstatus_to_exitcode(ended)
        out, err = (Path(folder, file).read_bytes() for file in ("said", "warned"))
    right = (code, out, err) == (status, said, warned)
    round_.tally.add(code, None if right else f"{name}: status {code}, said {out[-200:]!r}, warned {err!r}")
    print(f"{name}: {seconds:.2f} s, {used.ru_maxrss / 1000:.0f} MB", flush=True)


AND = b"aag 3 2 0 1 1\n2\n4\n6\n6 2 4\n"
SAME = b"EQUIVALENT\n"


def many(round_):
    """Scripts of many lines for two ANDs."""
    empty, turn = b"\n" * LINES, b"set b 6 4 2\nset b 6 2 4\n"
    chain = b"".join(b"new b %d %d 4 end\n" % (2 * k, 2 * k - 2) for k in range(4, GATES + 4))
    first = b"".join(b"new b %d 2 4 before 6\n" % (2 * k) for k in range(4, GATES + 4))
    gone = b"".join(b"drop b %d\n" % (2 * k) for k in range(GATES + 3, 3, -1))
    cases = [
        ("100,000 empty lines", empty, 1, None),
        ("a bad line behind 100,000 empty ones", empty + b"x", 1, (LINES + 1, "bad line")),
        ("a refused line before 100,000 others", b"drop b 6\n" + turn * (LINES // 2), 1, (1, "gate 6 is in use")),
        ("100,000 edits of a gate, and a check", turn * (LINES // 2) + b"check\n", 2, None),
        ("a fault behind 100,000 edits of a gate and a check", turn * (LINES // 2) + b"check\nset b 6 6 2", 2, (LINES + 2, "literal 6 is not earlier")),
        ("100,000 edits of an output, and a check", b"out b 0 2\nout b 0 6\n" * (LINES // 2) + b"check\n", 2, None),
        ("5,000 new gates at the end, and a check", chain + b"check\n", 2, None),
        ("5,000 new gates in front, and a check", first + b"check\n", 2, None),
        ("5,000 new gates, 5,000 dropped, a check and a fault", chain + gone + b"check\ndrop b 8", 2, (2 * GATES + 2, "no gate 8")),
        ("5,000 new gates, a check, 5,000 dropped, and a check", chain + b"check\n" + gone + b"check\n", 3, None),
        ("100,000 checks", b"check\n" * LINES, LINES + 1, None),
        ("100,000 checks, an edit before each", turn.replace(b"\n", b"\ncheck\n") * (LINES // 2), LINES + 1, None),
        ("a fault behind 100,000 checks", b"check\n" * LINES + b"out b 1 2\n", LINES + 1, (LINES + 1, "no output 1")),
    ]
    for name, script, checks, refused in cases:
        warned = b"cec: F: line %d: %s\n" % (refused[0], refused[1].encode()) if refused else b""
        told(round_, name, {"A": AND, "B": AND, "F": script}, SAME * checks, 4 if refused else 0, warned)


def limit(round_):
    """A circuit of as many gates as may be, so that every variable is taken: the limit is told before that, before a gate that isn't there
    and before a fanin that isn't earlier. It has no output, so check 0 finds it equivalent to an empty circuit."""
    full = f"aig {MOST_GATES} 0 0 0 {MOST_GATES}\n".encode() + b"\x02\x00" * MOST_GATES
    script = f"\nnew a 0 {2 * MOST_GATES + 1} {2 * MOST_GATES} before 0\n".encode()
    files = {"A": full, "B": b"aag 0 0 0 0 0\n", "F": script}
    told(round_, "a gate more than 16,777,216", files, SAME, 4, b"cec: F: line 2: too many gates\n")


GROUPS = {"cut": cut, "bytes": bytes_, "pairs": pairs, "long": long, "many": many, "limit": limit}


def main():
    parser = argparse.ArgumentParser(description=__doc__, formatter_class=argparse.RawDescriptionHelpFormatter)
    for name in ("program", "checker"):
        parser.add_argument(name, nargs="?")
    parser.add_argument("--runs", type=int, default=20)
    parser.add_argument("--seed", type=int, default=SEED)
    parser.add_argument("--only", default="")
    words = parser.parse_args()
    with tempfile.TemporaryDirectory() as made:
        checker = [house.compiled(made)] if words.checker is None and shutil.which("cc") else house.checker(words.checker)
        round_ = Round(words, checker)
        for name, group in GROUPS.items():
            if words.only in name:
                begun, before = time.monotonic(), sum(round_.tally.found.values())
                group(round_)
                print(f"{name}: {sum(round_.tally.found.values()) - before} runs, {time.monotonic() - begun:.1f} s", flush=True)
    round_.tally.end()


if __name__ == "__main__":
    main()
