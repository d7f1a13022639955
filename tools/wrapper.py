"""What `./cec` can't do at once: it proves the program (`./cec prove`), or makes it without its proof where none stands, and runs it.

`./cec` calls this, with the word that it was called by, the line that it says of a program without its proof, and its own words;
scripts call it with the word `--path`, and it prints the program's.
"""
import os
import sys
import tempfile
import time

import caller
from crates import built, crate_lines
from house import TOP
from prove import prove, stop, stop_without_toolchain
from standing import PROVED, UNPROVED, in_turn, sum_of_sources


def build_unproved(found, since):
    """Builds the program of these sources without its proof."""
    caller.say("building the program without its proof first: two to four minutes")
    source, uses = (TOP / "crates" / "cec" / "src" / "main.rt").read_text(), crate_lines()["cec"].split()
    with tempfile.TemporaryDirectory(prefix="cec-build-") as folder:
        try:
            made = built(folder, "cec", source, uses, is_checked=False)
        except SystemExit as error:
            if isinstance(error.code, str):
                stop(f"{error.code}\ncec: not built; 'cd crates/cec && rt check' shows every message")
            raise
        if sum_of_sources() != found:
            stop("a source changed while the program was built: call again")
        UNPROVED.put(made, found, since)


def ready(called, line):
    """The path of the program of these sources: the proved one where it stands, else one without its proof, which is said."""
    since, found = time.time_ns(), sum_of_sources()
    if PROVED.is_of(found):
        PROVED.stood(since)
        return PROVED.program
    if os.environ.get("CEC_PROVED") == "1":
        stop(f"the program of these sources isn't proved, and CEC_PROVED=1 asks for one that is: '{called} prove' makes it")
    if not UNPROVED.is_of(found):
        stop_without_toolchain()
        with in_turn(UNPROVED, "building the program"):
            if not UNPROVED.is_of(found):
                build_unproved(found, since)
    UNPROVED.stood(since)
    caller.say(line)
    return UNPROVED.program


def main(called, line="this program isn't proved yet: './cec prove' proves it", *words):
    caller.follow()
    try:
        if words == ("prove",):
            prove()
            return
        program = ready(called, line)
    finally:
        caller.end_all()
    if called == "--path":
        print(program)
    else:
        caller.become(program, [program, *words])


if __name__ == "__main__":
    main(*sys.argv[1:])
