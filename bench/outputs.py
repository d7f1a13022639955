#!/usr/bin/env python3
"""Measures each output that structure and sweep leave open by itself, beside CaDiCaL and MiniSat on the miter of that output alone.

Usage: outputs.py [FOLDER] [--program PROGRAM] [--options WORDS] [--classes tiny small medium] [--limit SECONDS] [--rounds N] [--only REGEX]
                  [--most N]

FOLDER is as for `solver.py`; without it, one is made with the pairs of `made_hard.py`. `PROGRAM check A B --budget 1` names the outputs
that are open. Both circuits are cut to the gates below each of them, of which only the first N are measured with --most, and
`PROGRAM check --workers 1 --stats --out P` is given the two. A solver gets the CNF of the miter of these, made by `tools/miter.py`.
The seconds are those of the processor, the least of the rounds; a run that takes more than the limit has none. The solvers write no
proof; that of the program is judged by the checker in C.

Prints a line for each output: seconds and conflicts of the three, and the steps and kB of the program's proof. Then the geometric mean of the
program's time over each solver's, and of what a conflict takes, over the outputs that both decide; times below a hundredth of a second
count as that. Status 1 where a verdict is wrong or a proof is refused.
"""
import re
import subprocess
import sys
import tempfile
from pathlib import Path

sys.path.insert(0, str(Path(__file__).resolve().parents[1] / "tools"))
import made_hard
import made_pairs
import miter
from house import compiled, program
from solver import LEAST, VERDICTS, mean, peers, ratio, seconds, shown

COUNTED = {"cec": r"cec: conflicts (\d+)", "minisat": r"conflicts *: *(\d+)", "cadical": r"c conflicts: *(\d+)"}
# The solvers tell their conflicts where they aren't asked to be quiet.
TOLD = {"minisat": ["minisat", "-verb=1"], "cadical": ["cadical", "-n"]}


def cone(circuit, output):
    """The text of the circuit with that output alone, and with the gates below it."""
    wanted, gates = {circuit.outputs[output] // 2}, []
    for variable, left, right in reversed(circuit.gates):
        if variable in wanted:
            wanted |= {left // 2, right // 2}
            gates.insert(0, (variable, left, right))
    number = {0: 0} | {variable: place for place, variable in enumerate([*circuit.inputs, *(gate[0] for gate in gates)], 1)}
    moved = lambda literal: 2 * number[literal // 2] + literal % 2
    rows = [f"aag {len(number) - 1} {len(circuit.inputs)} 0 1 {len(gates)}", *(str(2 * number[variable]) for variable in circuit.inputs)]
    rows += [str(moved(circuit.outputs[output]))]
    rows += [f"{moved(2 * variable)} {moved(left)} {moved(right)}" for variable, left, right in gates]
    return "\n".join(rows) + "\n"


def open_outputs(mine, pair, limit):
    """The outputs that a check leaves open that may learn next to nothing for one."""
    said = seconds([mine, "check", *pair, "--workers", "1", "--budget", "1"], limit)
    return [int(number) for number in re.findall(r"^output (\d+)$", said[2], re.M)] if said and said[1] == 2 else []


def run_of(command, name, limit, rounds):
    """The seconds of the fastest run, its status, and its conflicts; None where one took too long."""
    runs = []
    for _ in range(rounds):
        run = seconds(["sh", "-c", 'exec "$@" 2>&1', "sh", *command], limit)
        if run is None:
            return None
        found = re.search(COUNTED[name], run[2])
        runs.append((run[0], run[1], int(found[1]) if found else 0, run[2]))
    return min(runs)


def conflicts(run):
    return "-" if run is None else str(run[2])


def judged(reference, prefix):
    return subprocess.run([reference, prefix + ".0.cnf", prefix + ".0.lrat"], capture_output=True, check=False).returncode == 0


def measured_output(words, mine, there, reference, pair, output, folder):
    """The runs of one output, the steps and size of its proof, and whether all agree."""
    files = []
    for circuit in pair:
        files.append(folder / f"cone{len(files)}.aag")
        files[-1].write_text(cone(circuit, output))
    prefix = str(folder / "p")
    cnf = folder / "miter.cnf"
    cnf.write_text("\n".join(miter.lines(*miter.miter(*map(miter.circuit_in, files)))) + "\n")
    command = [mine, "check", *map(str, files), "--workers", "1", "--stats", "--out", prefix, *words.options.split()]
    runs = {"cec": run_of(command, "cec", words.limit, words.rounds)}
    runs |= {name: run_of([*TOLD[name], str(cnf)], name, words.limit, words.rounds) for name in there}
    mine_run = runs["cec"]
    verdict = mine_run[3].split()[0] if mine_run else "-"
    is_good = verdict != "EQUIVALENT" or judged(reference, prefix)
    if verdict in VERDICTS:
        is_good = is_good and all(run is None or run[1] == VERDICTS[verdict] for name, run in runs.items() if name != "cec")
    steps = re.search(r"cec: steps (\d+)", mine_run[3]) if mine_run else None
    size = Path(prefix + ".0.lrat").stat().st_size // 1000 if verdict == "EQUIVALENT" else 0
    return runs, verdict, steps[1] if steps else "-", size, is_good


def measured(words, rows):
    """Measures the open outputs of each pair of these rows, and gives the script's status."""
    mine, there = program(words.program), peers()
    times, paces, wrong = {name: [] for name in there}, {name: [] for name in there}, 0
    print(f"{'pair':20} {'output':>6} {'verdict':10} " + " ".join(f"{name:>8} {'conflicts':>9}" for name in ("cec", *there)) + "    steps   proof kB")
    with tempfile.TemporaryDirectory() as place:
        reference = compiled(place)
        for row in rows:
            files = [words.folder / f"{row['name']}.{side}.aag" for side in "ab"]
            pair = [miter.circuit_in(file) for file in files]
            for output in open_outputs(mine, list(map(str, files)), words.limit)[:words.most]:
                runs, verdict, steps, size, is_good = measured_output(words, mine, there, reference, pair, output, Path(place))
                wrong += not is_good
                print(f"{row['name']:20} {output:>6} {verdict:10} " + " ".join(f"{shown(run):>8} {conflicts(run):>9}" for run in runs.values())
                      + f" {steps:>8} {size:>10}{'' if is_good else ' WRONG'}", flush=True)
                for name in there:
                    if verdict in VERDICTS and runs[name]:
                        times[name].append(ratio(runs["cec"], runs[name]))
                        each = [max(run[0], LEAST) / max(run[2], 1) for run in (runs["cec"], runs[name])]
                        paces[name].append(each[0] / each[1])
    for name in there:
        print(f"time over {name}'s: geometric mean {mean(times[name]):.2f} over {len(times[name])} outputs; of a conflict {mean(paces[name]):.2f}")
    print(f"wrong {wrong}")
    return 1 if wrong else 0


if __name__ == "__main__":
    parser = made_pairs.words_for(__doc__.splitlines()[0], "tiny", "small", "medium")
    parser.add_argument("--most", type=int, default=1000, help="how many open outputs of a pair are measured")
    sys.exit(made_pairs.measured_by(measured, parser.parse_args(), made_hard.lay_out))
