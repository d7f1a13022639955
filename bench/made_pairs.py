"""A small corpus of the repository's own, for measurements without another: adders, parities and comparators in two architectures, and each
pair once more with a gate of the second circuit turned so that they differ."""
import argparse
import csv
import re
import sys
from contextlib import contextmanager
from pathlib import Path
from tempfile import TemporaryDirectory

sys.path.insert(0, str(Path(__file__).resolve().parents[1] / "tools"))
from workload import KINDS

SIZES = {"tiny": (4, 8), "small": (32, 64), "medium": (256, 512)}


def turned(circuit):
    """The same circuit with its last output negated."""
    circuit.outputs[-1] ^= 1
    return circuit


def write(folder, name, a, b):
    for side, circuit in zip("ab", (a, b)):
        (folder / f"{name}.{side}.aag").write_bytes(circuit.ascii())
        (folder / f"{name}.{side}.aig").write_bytes(circuit.binary())


def lay_out(folder):
    """Writes the pairs and their table into the folder."""
    rows = ["name\tclass\texpected"]
    for size_class, sizes in SIZES.items():
        for kind, make in KINDS.items():
            for size in sizes:
                name = f"{kind}{size}"
                write(folder, name, *make(size))
                a, b = make(size)
                write(folder, f"{name}-turned", a, turned(b))
                rows += [f"{name}\t{size_class}\tEQUIVALENT", f"{name}-turned\t{size_class}\tDIFFERENT"]
    (folder / "manifest.tsv").write_text("\n".join(rows) + "\n")


@contextmanager
def corpus(folder, make=lay_out):
    """The folder that is given, else one with the pairs that are made for it, which is gone afterwards."""
    if folder:
        yield folder
        return
    with TemporaryDirectory() as made:
        make(Path(made))
        yield Path(made)


def words_for(description, *classes):
    """The words that each script takes that measures pairs of a folder."""
    parser = argparse.ArgumentParser(description=description)
    parser.add_argument("folder", type=Path, nargs="?")
    parser.add_argument("--program", help="the built program, else the repository's own")
    parser.add_argument("--options", default="", help="further words for the program")
    parser.add_argument("--classes", nargs="+", default=classes)
    parser.add_argument("--limit", type=float, default=60)
    parser.add_argument("--rounds", type=int, default=1)
    parser.add_argument("--only", type=re.compile, default=re.compile(""))
    return parser


def measured_by(measure, words, make=lay_out):
    """Calls for the rows of the folder's manifest that the words want, and gives the script's status."""
    with corpus(words.folder, make) as folder:
        words.folder = folder
        with open(folder / "manifest.tsv", newline="", encoding="utf-8") as table:
            rows = [row for row in csv.DictReader(table, delimiter="\t") if row["class"] in words.classes]
        return measure(words, [row for row in rows if words.only.search(row["name"])])
