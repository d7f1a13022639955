#!/usr/bin/env python3
"""Measures `fraig` beside ABC's `&fraig` and `fraig` on the same circuits: time, and the gates that each leaves.

Usage: fraig.py [FOLDER] [--program PROGRAM] [--options WORDS] [--classes tiny small medium] [--limit SECONDS] [--rounds N]
                [--only REGEX] [--unchecked]

FOLDER is as for `sweep.py`; circuit A of each pair is reduced. `PROGRAM fraig A OUT --out P` writes the proof too, once as it is and once
with `--sweep-budget 1000`, each with the words of --options; `berkeley-abc` reads A, runs `&fraig` or `fraig` and writes what is left. The
seconds are those of the processor, the least of the rounds, with reading and writing; a run that takes more than the limit has none.

Both results of the program are then judged, each in as many seconds: OUT against A by `PROGRAM check` and by ABC's `cec`, the proof by the
checker in C, and `yosys` reads OUT. A judge that takes longer or isn't installed is left out, and how many were is said.

Prints a line for each circuit, then the geometric means of the program's time over each peer's, times below a hundredth of a second
counting as that; of its gates over the fewest of both peers'; and how many gates the default budget leaves that 1000 doesn't. Status 1
where a judge is against a result.
"""
import re
import shutil
import subprocess
import sys
import tempfile
from pathlib import Path

sys.path.insert(0, str(Path(__file__).resolve().parents[1] / "tools"))
from house import compiled, program
import made_pairs
from solver import best, mean, ratio, shown

PEERS = {"&fraig": "&get; &fraig; &put", "fraig": "fraig"}
BUDGETS = {"cec": [], "at 1000": ["--sweep-budget", "1000"]}
HEAD = f"{'circuit':32} {'gates':>7}" + "".join(f" {name + ' s':>9} {'left':>7}" for name in (*BUDGETS, *PEERS)) + "  judged"


def gates_in(path):
    """How many gates the header of a file tells of."""
    return int(path.read_bytes().split(b"\n", 1)[0].split()[5])


class Judges:
    """Who judges a result: what each found, and how many had no answer in time."""

    def __init__(self, mine, place, limit):
        self.mine, self.limit, self.late, self.wrong = mine, limit, 0, 0
        self.reference = compiled(place)

    def ran(self, command):
        """A run that ends in time, or none."""
        try:
            return subprocess.run(command, capture_output=True, text=True, timeout=self.limit, check=False)
        except subprocess.TimeoutExpired:
            return None

    def answers(self, a, out, prefix):
        """What each judge that is there says of a result: that it is right, that it isn't, or nothing."""
        check = self.ran([self.mine, "check", a, out])
        yield "check", check and {0: True, 1: False}.get(check.returncode)
        proof = self.ran([self.reference, prefix + ".0.cnf", prefix + ".0.lrat"])
        yield "proof", proof and proof.returncode == 0
        if shutil.which("berkeley-abc"):
            abc = self.ran(["berkeley-abc", "-q", f"cec -n {a} {out}"])
            yield "cec", abc and (False if "NOT" in abc.stdout else True if "are equivalent" in abc.stdout else None)
        if shutil.which("yosys"):
            read = self.ran(["yosys", "-q", "-p", f"read_aiger -module_name reduced {out}; check -assert"])
            yield "yosys", read and read.returncode == 0

    def said(self, a, out, prefix):
        """The judges that are against a result, and those that had no answer."""
        told = dict(self.answers(a, out, prefix))
        late, against = ([name for name, answer in told.items() if answer is way] for way in (None, False))
        self.late += len(late)
        self.wrong += len(against)
        return "WRONG by " + ", ".join(against) if against else "right" + (f", not by {', '.join(late)}" if late else "")


def reduced(mine, row, name, words, place):
    """The program's run on a circuit, the gates that it leaves, and its two files' names."""
    files = place / name.replace(" ", "_")
    a, out, prefix = str(words.folder / f"{row['name']}.a.aig"), f"{files}.aig", str(files)
    run = best([mine, "fraig", a, out, "--out", prefix, *BUDGETS[name], *words.options.split()], words.limit, words.rounds)
    done = run and re.fullmatch(r"gates \d+ (\d+)\nEQUIVALENT\n", run[2])
    return (run, int(done[1]), (a, out, prefix)) if done else (None, None, None)


def left_by(peer, row, words, place):
    """The run of one of ABC's commands on a circuit, and the gates that it leaves."""
    out = place / "abc.aig"
    out.unlink(missing_ok=True)
    a = words.folder / f"{row['name']}.a.aig"
    run = best(["berkeley-abc", "-q", f"read_aiger {a}; strash; {PEERS[peer]}; write_aiger {out}"], words.limit, words.rounds)
    return (run, gates_in(out)) if run and out.exists() else (None, None)


def print_means(found):
    """The geometric means over the circuits on which both have an answer."""
    for name in BUDGETS:
        for peer in PEERS:
            both = [(row[name][0], row[peer][0]) for row in found if row[name][0] and row[peer][0]]
            print(f"{name}: time over {peer}'s: geometric mean {mean([ratio(*pair) for pair in both]):.2f} over {len(both)} circuits")
        least = [(row[name][1], min(row[peer][1] for peer in PEERS)) for row in found
                 if row[name][1] and all(row[peer][1] for peer in PEERS)]
        print(f"{name}: gates over the fewest of both: geometric mean {mean([mine / other for mine, other in least]):.4f} "
              f"over {len(least)} circuits, {sum(mine > other for mine, other in least)} with more and {sum(mine < other for mine, other in least)} with fewer")
    both = [row["cec"][1] - row["at 1000"][1] for row in found if row["cec"][1] and row["at 1000"][1]]
    print(f"the default budget leaves {sum(both)} gates more than 1000 does, on {sum(more > 0 for more in both)} of {len(both)} circuits")


def measured(words, rows):
    """Measures each circuit of these rows, and gives the script's status."""
    mine = program(words.program)
    if not shutil.which("berkeley-abc"):
        print("skipped: berkeley-abc is not there (Debian's package berkeley-abc)")
        return 0
    found = []
    print(HEAD)
    with tempfile.TemporaryDirectory() as made:
        place = Path(made)
        judges = Judges(mine, made, words.limit)
        for row in rows:
            runs = {name: reduced(mine, row, name, words, place) for name in BUDGETS}
            runs |= {peer: left_by(peer, row, words, place) for peer in PEERS}
            results = [] if words.unchecked else [runs[name][2] for name in BUDGETS if runs[name][2]]
            said = sorted({judges.said(*files) for files in results})
            numbers = "".join(f" {shown(run[0]):>9} {run[1] or '-':>7}" for run in runs.values())
            print(f"{row['name']:32} {gates_in(words.folder / (row['name'] + '.a.aig')):>7}{numbers}  {'; '.join(said) or '-'}", flush=True)
            found.append(runs)
    print_means(found)
    print(f"wrong {judges.wrong}, judges without an answer in time {judges.late}")
    return 1 if judges.wrong else 0


def words_given():
    parser = made_pairs.words_for(__doc__.splitlines()[0], "tiny", "small", "medium")
    parser.add_argument("--unchecked", action="store_true")
    return parser.parse_args()


if __name__ == "__main__":
    sys.exit(made_pairs.measured_by(measured, words_given()))
