#!/usr/bin/env python3
"""Runs in which memory is refused: each allocation alone, and from a drawn one on all that follow.

Usage: memory.py [PROGRAM] [--runs N] [--seed N]

PROGRAM is the repository's own where it is left out. tools/fail_alloc.c is compiled and preloaded. Each command below is run
once with memory enough. Then each of its allocations is refused in turn, of a run that has more of them N that are drawn
(1000, which is more than most of them have today), and for some that are drawn all from them on. Such a run must answer what the
whole run does, in status, streams and files; or it ends with status 7, says nothing (or, of `cec self`, what its circuits are), warns
`cec: out of memory` or, where there is none for the line, nothing at all, and leaves of each file that it writes nothing or a first
part, and of the proof only what stands beside a whole CNF. With an edit script the verdicts of the first checks may be said too, and
then their files stand whole. Files that are read stay as they are. Where several workers make a proof it may be another one each time:
then tools/lrat_strict.c judges it, and of a first part the lines that are whole. Status 1 where anything is wrong.
"""
import os
import random
import subprocess
import tempfile
from pathlib import Path

from rounds import Tally, house, words_of
from scripts import VERDICT
import workload

LIBRARY = house.TOP / "tools" / "fail_alloc.c"
SHORT = "cec: out of memory\n"

FILES = {
    "and": "aag 3 2 0 1 1\n2\n4\n6\n6 2 4\n",
    "swapped": "aag 3 2 0 1 1\n2\n4\n6\n6 4 2\n",
    "false": "aag 2 2 0 1 0\n2\n4\n0\n",
    "wide": "aag 3 3 0 1 0\n2\n4\n6\n6\n",
    "xor": "aag 5 2 0 1 3\n2\n4\n11\n6 2 5\n8 3 4\n10 7 9\n",
    "other-xor": "aag 5 2 0 1 3\n2\n4\n10\n6 2 4\n8 3 5\n10 7 9\ni0 x\nc a comment\n",
    "binary": b"aig 3 2 0 1 1\n6\n\x02\x02",
    "turned": "aag 4 2 0 1 2\n2\n4\n8\n8 6 4\n6 2 4\n",
    "cut": "aag 3 2 0 1 1\n2\n4\n6\n6 2",
    "cnf": "p cnf 1 2\n1 0\n0\n",
    "lrat": "3 0 2 0\n",
    "bad-lrat": "3 0 1 0\n",
    "there-and-back": "set b 6 4 4\ncheck\nset b 6 4 2\ncheck\n",
    "grown": "new b 8 6 2 end\nout b 0 8\ncheck\n\nnew a 8 4 5 before 6\nset a 6 4 2\ncheck\ndrop a 8\ncheck",
    "refused": "new b 12 11 2 end\nout b 0 13\ncheck\ndrop b 10\n",
    "no-line": "out b 0 11\ncheck\nout b 0 10\ncheck\nout  b 0 11\n",
    "pairs": "aag 10 4 0 2 6\n2\n4\n6\n8\n15\n21\n10 2 5\n12 3 4\n14 11 13\n16 6 9\n18 7 8\n20 17 19\n",
    "other-pairs": "aag 10 4 0 2 6\n2\n4\n6\n8\n14\n20\n10 2 4\n12 3 5\n14 11 13\n16 6 8\n18 7 9\n20 17 19\n",
    "crossed": "out b 0 20\nout b 1 14\ncheck\nout b 0 14\nout b 1 20\nset a 10 5 2\ncheck\n",
    "opened": "out a 0 10\nout b 0 11\ncheck\nout b 0 0\nout a 0 0\ncheck\n",
}

# A chain and a tree of exclusive ORs: their sums are added up in a merge, and with a small budget in the proof of the output.
FILES["chain"], FILES["tree"] = (circuit.ascii() for circuit in workload.parity(7))

COMMANDS = [
    "check and swapped --out p",
    "check xor other-xor --out p",
    "check and false --out p",
    "check xor other-xor --sweep-budget 1 --budget 1 --out p",
    "check xor other-xor --sweep-budget 1 --budget 1",
    "check binary turned --words 1 --seed 7",
    "check and wide",
    "check and cut",
    "check and nothing",
    "check chain tree --out p",
    "check chain tree --sweep-budget 1 --out p",
    "lrat cnf lrat",
    "lrat cnf bad-lrat",
    "lrat and lrat",
    "self comparator 3",
    "--help",
    "--version",
    "check and",
    "check and swapped --budget 0",
    "check and swapped --edits there-and-back --out p",
    "check and swapped --edits grown --out p",
    "check and swapped --edits grown",
    "check xor other-xor --edits refused --out p",
    "check xor other-xor --edits no-line --out p",
    "check xor other-xor --edits opened --sweep-budget 1 --budget 1 --out p",
    "check and swapped --edits nothing",
]

# Two tasks, or two outputs, for two workers or more.
BY_WORKERS = [
    "check pairs other-pairs --workers 2 --out p",
    "check pairs other-pairs --workers 64",
    "check pairs other-pairs --workers 2 --edits crossed --out p",
    "check pairs other-pairs --workers 2 --sweep-budget 1 --budget 1 --out p",
]


def put(folder):
    """The files to be read, and no other."""
    for name in os.listdir(folder):
        Path(folder, name).unlink()
    for name, content in FILES.items():
        Path(folder, name).write_bytes(content if isinstance(content, bytes) else content.encode())


def ran(command, folder, refused):
    """Status, streams and files of the command with these allocations refused."""
    put(folder)
    done = subprocess.run(command, cwd=folder, capture_output=True, env={**os.environ, **refused}, timeout=60)
    files = {name: Path(folder, name).read_bytes() for name in sorted(os.listdir(folder))}
    return done.returncode, done.stdout.decode(), done.stderr.decode(), files


def range_of(first, last):
    return {"FAIL_ALLOC_FROM": str(first), "FAIL_ALLOC_LAST": str(last)}


def counts_in(said):
    """The lines that `cec self` says of its circuits before it checks them."""
    return "".join(line for line in said.splitlines(keepends=True) if line.startswith(("kind ", "gates ", "outputs ")))


def told_in(whole, said, has_script):
    """How many checks are told in what is said, which has to be what the whole run says of them, or None."""
    counts = counts_in(whole)
    told = [counts + "".join(VERDICT.findall(whole)[:number]) for number in range(1 + len(VERDICT.findall(whole)) * has_script)]
    return 0 if said == "" else told.index(said) if said in told else None


def names_of(check):
    """The names of the files of the check with this number."""
    return f"p.{check}.cnf", f"p.{check}.lrat"


class Checker:
    """The checker of proofs in C."""

    def __init__(self, folder):
        self.folder, self.program = folder, house.compiled(folder)

    def takes(self, cnf, proof, is_whole):
        """Whether the lines of a proof are right, as far as they are whole; of the proof of a yes its last one too."""
        files = [Path(self.folder, name) for name in ("cnf", "lrat")]
        for file, content in zip(files, (cnf, proof if is_whole else proof[:proof.rfind(b"\n") + 1])):
            file.write_bytes(content)
        done = subprocess.run([self.program, *([] if is_whole else ["--steps"]), *files], capture_output=True, text=True, check=False)
        return done.stdout.startswith("VERIFIED" if is_whole else ("STEPS", "VERIFIED"))


def is_right(checker, right, files, name):
    """Whether a file that a run wrote is the right one; a proof may be another one."""
    found, wanted = files.get(name), right.get(name)
    if found == wanted or found is None or wanted is None or not name.endswith(".lrat"):
        return found == wanted
    cnf = right[name.replace(".lrat", ".cnf")]
    return checker.takes(cnf, found, checker.takes(cnf, wanted, True))


def is_first_part(checker, right, files, name):
    """The same of a file that may be there in part, or not be there."""
    found, wanted = files.get(name, b""), right.get(name, b"")
    return wanted.startswith(found) or (name.endswith(".lrat") and bool(wanted) and checker.takes(right[name.replace(".lrat", ".cnf")], found, False))


def fault_in_files(read, right, files, told, checker):
    """What is wrong with the files of a run that ended in the check behind those that were told, beside the right ones. Those that are
    read have these names."""
    whole, begun = {*read, *(name for check in range(told) for name in names_of(check))}, names_of(told)
    if set(files) - {*whole, *begun} or not all(is_right(checker, right, files, name) for name in whole):
        return "other files"
    if not all(is_first_part(checker, right, files, name) for name in begun):
        return "a file of other bytes"
    cnf, proof = begun
    return "a proof beside a part of the CNF" if proof in files and files.get(cnf) != right[cnf] else None


def fault_in(whole, run, has_script, checker):
    """What is wrong with a run in which memory was refused, beside the run in which it wasn't."""
    status, said, warned, files = run
    if run[:3] == whole[:3]:
        is_whole = set(files) == set(whole[3]) and all(is_right(checker, whole[3], files, name) for name in files)
        return None if is_whole else "other files"
    if status != 7:
        return "another answer"
    told = told_in(whole[1], said, has_script)
    if told is None or warned not in ("", SHORT):
        return "out of memory, with other words"
    fault = fault_in_files(FILES, whole[3], files, told, checker)
    return fault and f"out of memory, with {fault}"


def cases(rng, calls, most):
    """The allocations that are refused: pairs of the first and the last."""
    single = range(1, calls + 1)
    drawn = single if calls <= most else sorted(rng.sample(single, most))
    return [(n, n) for n in drawn] + [(n, 1 << 60) for n in sorted(rng.sample(single, min(calls, most // 4)))]


def main():
    words = words_of(__doc__, 1000)
    rng, tally = random.Random(words.seed), Tally(words.seed)
    with tempfile.TemporaryDirectory() as tools, tempfile.TemporaryDirectory() as folder:
        library = os.path.join(tools, "fail_alloc.so")
        subprocess.run(["cc", "-shared", "-fPIC", "-O2", "-o", library, str(LIBRARY), "-ldl"], check=True)
        count, checker = os.path.join(tools, "count"), Checker(tools)
        for line in COMMANDS + BY_WORKERS:
            command = ["env", "LD_PRELOAD=" + library, words.program, *line.split()]
            whole = ran(command, folder, {"FAIL_ALLOC_COUNT": count})
            calls = int(Path(count).read_text())
            tally.add(whole[0], "memory enough, and no answer: " + line if whole[0] == 7 else None)
            for first, last in cases(rng, calls, words.runs):
                run = ran(command, folder, range_of(first, last))
                fault = fault_in(whole, run, "--edits" in line, checker)
                tally.add(run[0], fault and f"{fault}: {line}, allocations {first} to {last}: {run[:3]!r}")
    tally.end()


if __name__ == "__main__":
    main()
