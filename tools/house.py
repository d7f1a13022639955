"""What the scripts of bench/, fuzz/ and tools/ find in the repository: the built program, and the checkers of proofs."""
import os
import subprocess
import sys
from pathlib import Path

TOP = Path(__file__).resolve().parents[1]
CHECKER = TOP / "tools" / "lrat_strict.py"
REFERENCE = TOP / "tools" / "lrat_strict.c"


def program(given=None):
    """The path of the program: the one that is given, else the one that `./cec` runs, which is made where none stands."""
    if given:
        return str(Path(given).resolve())
    made = [sys.executable, "-B", str(TOP / "tools" / "wrapper.py"), "--path"]
    return subprocess.run(made, stdout=subprocess.PIPE, text=True, check=True).stdout.strip()


def compiled(folder, source=REFERENCE):
    """The path of the checker in C, compiled into the folder."""
    made = os.path.join(folder, "reference")
    subprocess.run(["cc", "-O2", "-o", made, str(source)], check=True)
    return made


def checker(given=None):
    """The words that call the checker in Python, or the one that is given."""
    return given.split() if given else [sys.executable, str(CHECKER)]
