#!/usr/bin/env python3
"""Measures `check` beside ABC's `&cec` and CaDiCaL on the same pairs, and has each proof checked.

Usage: sweep.py [FOLDER | --made] [--program PROGRAM] [--options WORDS] [--classes tiny small medium] [--limit SECONDS] [--rounds N]
                [--only REGEX] [--statistics]

FOLDER is as for `solver.py`, with the binary files `NAME.a.aig` and `NAME.b.aig` too (`corpus/build.py` makes the one of docs/MEASURED.md); with --made it is one with the ten pairs of
`made_designs.py`, else without FOLDER one with those of `made_pairs.py`. Each pair is given to `PROGRAM check A B --out
P` with the words of --options, to `berkeley-abc` (`&cec`), and the miter that the program wrote, else that of `tools/miter.py`, to
`cadical`; a peer that isn't installed (Debian's packages `berkeley-abc` and `cadical`) is left out with one line. The checker of proofs in C judges each
refutation. The seconds are those of the processor, the least of the rounds; a run that takes more than the limit has none.

With --statistics a second table says of each pair what the check did (rounds, merges, Aparts, Spents, conflicts, decisions, entries
dropped), how long it searched, judged and asked whole cones for merges, Aparts, Spents and outputs, and how many steps merges took, as
a program tells that is changed so that it counts (`statistics_of_checks.py`); and, where `perf` is there, in which crates the seconds
were spent.

Prints a line for each pair, then, for each class and peer, how many pairs the program decides and the geometric mean of its time
over the peer's on the pairs that both decide; times below a hundredth of a second count as that. Status 1 where a verdict is wrong
or a proof is refused.
"""
import shutil
import subprocess
import sys
import tempfile
from pathlib import Path

sys.path.insert(0, str(Path(__file__).resolve().parents[1] / "tools"))
from house import TOP, compiled, program
import made_designs
import made_pairs
import statistics_of_checks
from solver import best, mean, ratio, shown

ABC_WORDS = {"Networks are equivalent": "EQUIVALENT", "Networks are NOT EQUIVALENT": "DIFFERENT"}


def of_abc(run):
    """The verdict of ABC's output, or none."""
    found = [verdict for words, verdict in ABC_WORDS.items() if run and words in run[2]]
    return found[0] if found else None


def of_cadical(run):
    return {10: "DIFFERENT", 20: "EQUIVALENT"}.get(run[1]) if run else None


def peers(folder, name, cnf, limit, rounds, have):
    """What each peer that is there says of a pair: its run and its verdict."""
    a, b = (folder / f"{name}.{side}.aig" for side in "ab")
    said = {}
    if have["berkeley-abc"]:
        run = best(["berkeley-abc", "-q", f"&cec {a} {b}"], limit, rounds)
        said["berkeley-abc"] = (run, of_abc(run))
    if have["cadical"]:
        run = best(["cadical", "-q", "-n", str(cnf)], limit, rounds)
        said["cadical"] = (run, of_cadical(run))
    return said


def has_miter(pair, run, cnf):
    """Has the pair's miter written where the program didn't end in time and so promises nothing of its own."""
    if run is None:
        with cnf.open("wb") as put:
            subprocess.run([sys.executable, TOP / "tools" / "miter.py", *pair], stdout=put, check=True)
    return cnf


def times_of(said, have):
    """The seconds of each peer that gave a verdict; a dash stands where it gave none in time, a slash where it isn't there."""
    for name, there in have.items():
        run, answer = said.get(name, (None, None))
        yield f"{shown(run) if answer else '-' if there else '/':>8}"


def judged(reference, verdict, prefix):
    """What the checker says of the proof of EQUIVALENT."""
    if verdict != "EQUIVALENT":
        return "-"
    command = [reference, prefix + ".0.cnf", prefix + ".0.lrat"]
    return "VERIFIED" if subprocess.run(command, capture_output=True, check=False).returncode == 0 else "REFUSED"


def words_given():
    parser = made_pairs.words_for(__doc__.splitlines()[0], "tiny", "small", "medium")
    parser.add_argument("--made", action="store_true", help="measure the pairs of made_designs.py")
    parser.add_argument("--statistics", action="store_true")
    words = parser.parse_args()
    if words.made and words.folder:
        parser.error("either a folder or --made")
    return words


def print_statistics(words, mine, rows):
    """What the check of each pair did, and where its seconds went."""
    pairs = [[str(words.folder / f"{row['name']}.{side}.aig") for side in "ab"] for row in rows]
    for row, pair, lines in zip(rows, pairs, statistics_of_checks.counted(pairs)):
        for line in lines:
            print(f"{row['name']}: {line}")
        with tempfile.TemporaryDirectory() as place:
            spent = statistics_of_checks.by_crate([mine, "check", *pair, "--out", str(Path(place) / "p")], place)
        if spent:
            print(f"{row['name']}: seconds by crate: {spent}")


def measured(words, rows):
    """Measures each pair of these rows, and gives the script's status."""
    mine = program(words.program)
    have = {name: shutil.which(name) is not None for name in ("berkeley-abc", "cadical")}
    for name in (name for name, there in have.items() if not there):
        print(f"{name} isn't installed: apt-get install {name}")
    ratios, decided, wrong = {}, {}, 0
    print(f"{'pair':32} {'verdict':10} {'cec':>7} {'&cec':>8} {'cadical':>8} {'proof kB':>8} proof")
    with tempfile.TemporaryDirectory() as place:
        reference = compiled(place)
        for row in rows:
            prefix = str(Path(place) / row["name"])
            pair = [str(words.folder / f"{row['name']}.{side}.aig") for side in "ab"]
            run = best([mine, "check", *pair, "--out", prefix, *words.options.split()], words.limit, words.rounds)
            verdict = run[2].split()[0] if run and run[2] else "-"
            cnf = has_miter(pair, run, Path(prefix + ".0.cnf")) if have["cadical"] else None
            said = peers(words.folder, row["name"], cnf, words.limit, words.rounds, have)
            proof = judged(reference, verdict, prefix)
            size = Path(prefix + ".0.lrat").stat().st_size // 1000 if verdict == "EQUIVALENT" else 0
            if verdict in ("EQUIVALENT", "DIFFERENT"):
                decided[row["class"]] = decided.get(row["class"], 0) + 1
                wrong += verdict != row["expected"] or proof == "REFUSED"
                for name, (other, answer) in said.items():
                    if answer:
                        ratios.setdefault((row["class"], name), []).append(ratio(run, other))
            times = " ".join(times_of(said, have))
            print(f"{row['name']:32} {verdict:10} {shown(run):>7} {times} {size:>8} {proof}", flush=True)
    if words.statistics:
        print_statistics(words, mine, rows)
    for kind in words.classes:
        print(f"{kind}: decided {decided.get(kind, 0)} of {sum(row['class'] == kind for row in rows)}")
    for (kind, name), list_of in sorted(ratios.items()):
        print(f"{kind}: time over {name}'s: geometric mean {mean(list_of):.2f} over {len(list_of)} pairs")
    print(f"wrong {wrong}")
    return 1 if wrong else 0


if __name__ == "__main__":
    asked = words_given()
    sys.exit(made_pairs.measured_by(measured, asked, made_designs.lay_out if asked.made else made_pairs.lay_out))
