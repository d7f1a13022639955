"""`./cec prove`: proves the crates that the program stands on, side by side, builds the program, and puts it into `built/`."""
import os
import re
import sys
import tempfile
import time
from pathlib import Path

import caller
from house import TOP
from standing import PROVED, in_turn, libraries, sum_of_sources

# Beside the program's own statuses, that of a call that ran none.
NO_PROGRAM = 70
# What `tools/gate_times.py` measured.
SECONDS = TOP / "tools" / "gate_seconds.txt"
# A crate that wasn't measured yet.
UNKNOWN = 60
# Of the proof of one crate, and what the largest ones were seen to take.
BYTES_OF_MEMORY = 3_000_000_000
# What `rt` says that a reader has to know at once, and its faults.
WAITING = re.compile(r"waiting for")
FAULT = re.compile(r"error(\[[\w-]+\])?:|^rt: mend|^[a-z_]+: (failed|not run)|NOT PROVED|the disk is full")
MOST_FAULTS = 20


def stop(why):
    caller.say(why)
    raise SystemExit(NO_PROGRAM)


def weights():
    """The seconds of a processor that the proof of each of the program's crates takes."""
    rows = (line.split() for line in SECONDS.read_text().splitlines() if line and not line.startswith("#"))
    known = {row[0]: float(row[1]) for row in rows}
    return {crate: known.get(crate, UNKNOWN) for crate in libraries()}


def jobs():
    """How many crates are proved side by side: as many as there are processors, and memory for."""
    free = re.search(r"MemAvailable:\s+(\d+)", Path("/proc/meminfo").read_text())
    return max(1, min(len(os.sched_getaffinity(0)), int(free[1]) * 1024 // BYTES_OF_MEMORY))


def some(seconds):
    """A time left, as a reader needs it."""
    minutes = round(seconds / 60)
    return "under a minute left" if minutes < 1 else f"some {minutes} minute{'s' * (minutes > 1)} left"


class Progress:
    """How many crates are proved, told when that changes: on a terminal in one line that is written over."""

    def __init__(self, lanes):
        self.left, self.start, self.lanes = weights(), time.monotonic(), lanes
        self.many, self.done, self.is_terminal = len(self.left), 0.0, sys.stderr is not None and sys.stderr.isatty()

    def estimate(self):
        """The seconds that the crates left take at the rate so far. It begins as if each lane had had a minute of its own."""
        rate = (self.done + 60 * self.lanes) / (time.monotonic() - self.start + 60)
        return sum(self.left.values()) / rate

    def tell(self):
        number = self.many - len(self.left)
        text = f"cec: {number} of {self.many} crates proved, {some(self.estimate())}"
        caller.write(f"\r\033[K{text}" if self.is_terminal else f"{text}\n")

    def ended(self, crate):
        """Counts a crate whose proof has ended."""
        if crate in self.left:
            self.done += self.left.pop(crate)
            self.tell()

    def close(self):
        if self.is_terminal:
            caller.write("\r\033[K")


def new_lines(said):
    """The whole lines that were written since the last look."""
    start = said.tell()
    for line in iter(said.readline, ""):
        if not line.endswith("\n"):
            break
        start = said.tell()
        yield line.rstrip("\n")
    said.seek(start)


def watched(words, heard):
    """The status of a command of `rt` over the program's crate, and its faults. Each line that it writes is handed on as it comes."""
    faults = []
    with tempfile.TemporaryFile("w+", errors="replace") as log, open(f"/proc/self/fd/{log.fileno()}", errors="replace") as said:
        with caller.started(["rt", *words], cwd=TOP / "crates" / "cec", stdout=log, stderr=log) as process:
            is_over = False
            while not is_over:
                is_over = process.poll() is not None
                for line in new_lines(said):
                    heard(line)
                    faults += [line] * bool(FAULT.search(line))
                caller.stop_if_gone()
                time.sleep(0.2)
            return process.returncode, faults


def proved(progress):
    """Proves the crates and builds the program, which is left where `rt` puts it."""

    def heard(line):
        if line.startswith("== "):
            progress.ended(line[3:])
        elif WAITING.search(line):
            progress.close()
            caller.say(line.removeprefix("rt: "))

    status, faults = watched(["all", "check", "--jobs", str(progress.lanes)], heard)
    if not status:
        status, faults = watched(["run", "--", "--help"], lambda line: None)
    progress.close()
    if status:
        for line in faults[:MOST_FAULTS]:
            caller.say(line)
        stop("not proved; 'rt check' in the folder of the crate that failed shows every message")
    return TOP / "crates" / "cec" / "out" / "cec"


def stop_without_toolchain():
    for path in os.environ.get("PATH", os.defpath).split(os.pathsep):
        if os.access(Path(path) / "rt", os.X_OK):
            return
    stop("the toolchain's command rt isn't there; CONTRIBUTING.md says what to install")


def prove():
    """Proves and builds the program of these sources, unless it stands."""
    with in_turn(PROVED, "proving the program"):
        since, found = time.time_ns(), sum_of_sources()
        if PROVED.is_of(found):
            PROVED.stood(since)
            caller.say(f"proved already: {PROVED.program}")
            return
        stop_without_toolchain()
        progress = Progress(jobs())
        caller.say(f"proving {progress.many} crates, {progress.lanes} at a time: {some(progress.estimate())}")
        made = proved(progress)
        if sum_of_sources() != found:
            stop("a source changed while the program was proved: call again")
        PROVED.put(made, found, since)
        minutes = round((time.monotonic() - progress.start) / 60)
        caller.say(f"proved and built in {minutes} minutes: {PROVED.program}")
