"""The builds of the program that `./cec` runs, and whether they are of the sources as they stand."""
import contextlib
import fcntl
import hashlib
import os
import shutil
import time
from pathlib import Path

import caller
from crates import crate_lines, lines_below
from house import TOP


class Build:
    """A program, and beside it a stamp: the sum of the sources that it was made of. The stamp's time is one at which these stood, so
    `./cec` needs no sum where no file is newer."""

    def __init__(self, folder):
        self.folder, self.program, self.stamp = folder, folder / "cec", folder / "stamp"

    def is_of(self, found):
        """Whether the program is there and was made of the sources with this sum."""
        with contextlib.suppress(OSError):
            return os.access(self.program, os.X_OK) and self.stamp.read_text() == found
        return False

    def stood(self, since):
        """Notes that the sources of the stamp stood at this time."""
        with contextlib.suppress(OSError):
            os.utime(self.stamp, ns=(since, since))

    def put(self, made, found, since):
        """Puts a program of these sources here, in place of the one before. A call that runs that one keeps it."""
        new = self.folder / "cec.new"
        try:
            shutil.copy(made, new)
            self.stamp.unlink(missing_ok=True)
            os.replace(new, self.program)
            self.stamp.write_text(found)
            self.stood(since)
        finally:
            new.unlink(missing_ok=True)


PROVED, UNPROVED = Build(TOP / "built"), Build(TOP / "built" / "unproved")


def libraries():
    """The crates that the program stands on, and itself, lowest first."""
    return list(lines_below(["cec"], crate_lines()))


def sum_of_sources():
    """A sum of all that the program is made and proved of."""
    found, lines = hashlib.sha256((TOP / "HANDLES").read_bytes()), crate_lines()
    for crate in sorted(libraries()):
        found.update(f"{crate}:{lines[crate]}\n".encode())
        for part in ("src", "specs", "proofs"):
            for file in sorted((TOP / "crates" / crate / part).rglob("*")):
                if file.is_file():
                    text = file.read_bytes()
                    found.update(f"{file.relative_to(TOP)} {len(text)}\n".encode() + text)
    return found.hexdigest()


@contextlib.contextmanager
def in_turn(build, what):
    """One call makes a build, and another one meanwhile waits for it."""
    build.folder.mkdir(parents=True, exist_ok=True)
    held, is_told = os.open(build.folder, os.O_RDONLY), False
    try:
        while True:
            try:
                fcntl.flock(held, fcntl.LOCK_EX | fcntl.LOCK_NB)
                break
            except BlockingIOError:
                if not is_told:
                    caller.say(f"another call is {what}; this one waits for it")
                is_told = True
            caller.stop_if_gone()
            time.sleep(0.2)
        yield
    finally:
        os.close(held)
