#!/usr/bin/env python3
"""What a run of `rt ci` spends its processor time on: each crate's proof, its tests, and each must-fail edit.

Usage: gate_times.py [--write] [NAME ..]      runs `rt ci NAME ..`, whose lines come on standard error, and watches it
       gate_times.py [--write] --pid PID      watches a run that is under way, from now to its end

It looks at the prover's processes twice a second, and takes from each its crate and its folder. The table has the seconds of a
processor, the dearest crate first. `base` is what a crate with several edits is proved for once more, as each is tried over it. What is
kept from an earlier run takes nothing, and isn't listed; `rt ci --anew` keeps nothing. A signal ends the watch early, with its table.

`--write` puts the proofs that were seen to their end into `gate_seconds.txt`, from which `./cec prove` tells how long it will take.
"""
import argparse
import collections
import contextlib
import os
import re
import signal
import subprocess
import sys
import time
from pathlib import Path

from house import TOP

SECONDS = TOP / "tools" / "gate_seconds.txt"
HEAD = "# crate, seconds of a processor that its proof takes; written by tools/gate_times.py --write\n"
BETWEEN_LOOKS = 0.5
TICKS = os.sysconf("SC_CLK_TCK")
# The folder of an edit's check, and a line of an edit.
ROOM = re.compile(r"rt-edit-\d+-\w+")
LINE = re.compile(r"(file|old|new): (.*)")
PROOF, TESTS, BASE = "proof", "tests", "base"


class Process:
    """A process as `/proc` has it: its parent, when it started, and the seconds that it took."""

    def __init__(self, number):
        self.at = Path("/proc") / number
        # (its name may have blanks and brackets)
        found = (self.at / "stat").read_text().rpartition(")")[2].split()
        self.parent, self.key = found[1], (number, found[19])
        self.seconds = (int(found[11]) + int(found[12])) / TICKS

    def words(self):
        return (self.at / "cmdline").read_text(errors="replace").split("\0")

    def folder(self):
        return Path(os.readlink(self.at / "cwd"))


def processes():
    """All that run now, by their numbers."""
    found = {}
    for number in filter(str.isdigit, os.listdir("/proc")):
        with contextlib.suppress(OSError):
            found[number] = Process(number)
    return found


def pairs_of(edit):
    """The file, the old and the new text of each pair of an edit."""
    file = old = ""
    for kind, text in LINE.findall(edit.read_text(errors="replace")):
        if kind == "file":
            file = text.strip()
        elif kind == "old":
            old = text
        else:
            yield file, old, text


def is_made(edit, room):
    """Whether the crate in this folder was changed as the edit says."""
    for file, old, new in pairs_of(edit):
        text = (room / file).read_text(errors="replace")
        if new not in text or (old in text and old not in new):
            return False
    return True


def what_is_done(process):
    """The crate that a process of the prover works on, and for what; nothing of other processes."""
    words = process.words()
    if "--crate-name" not in words:
        return None
    crate, folder = words[words.index("--crate-name") + 1], process.folder()
    if not ROOM.fullmatch(folder.name):
        return crate, TESTS if "--test" in words else PROOF
    for edit in sorted((TOP / "crates" / crate / "must-fail").glob("*.edit")):
        if is_made(edit, folder):
            return crate, edit.stem
    return crate, BASE


class Watch:
    """What the processes below one were seen to take."""

    def __init__(self, root):
        self.root, self.took, self.what, self.running = root, {}, {}, set()

    def line_of(self, number, every):
        """The process, its parent, and so on up to the root; nothing of a process that isn't below it."""
        line = []
        while number in every:
            line.append(every[number])
            if number == self.root:
                return line
            number = every[number].parent
        return []

    def task_of(self, line):
        """What the lowest process of the line that is one of the prover's works on."""
        for process in line:
            with contextlib.suppress(OSError):
                if process.key not in self.what and (done := what_is_done(process)):
                    self.what[process.key] = done
            if process.key in self.what:
                return self.what[process.key]
        return None

    def look(self):
        """Notes what runs now, and says whether the root does."""
        every = processes()
        self.running = {process.key for process in every.values()}
        for number in every:
            line = self.line_of(number, every)
            if line and (task := self.task_of(line)):
                self.took[line[0].key] = task, line[0].seconds
        return self.root in every

    def by_task(self, left_out=()):
        """The seconds of each crate's tasks."""
        sums = collections.defaultdict(collections.Counter)
        for key, ((crate, task), seconds) in self.took.items():
            if key not in left_out:
                sums[crate][task] += seconds
        return sums


def told(sums):
    """The table's lines."""
    yield "    all   proof   tests  crate             edits"
    total = collections.Counter()
    for crate, tasks in sorted(sums.items(), key=lambda it: -sum(it[1].values())):
        edits = {task: seconds for task, seconds in tasks.items() if task not in (PROOF, TESTS)}
        said = ", ".join(f"{task} {seconds:.0f}" for task, seconds in sorted(edits.items()))
        yield f"{sum(tasks.values()):7.0f} {tasks[PROOF]:7.0f} {tasks[TESTS]:7.0f}  {crate:16}  {said}".rstrip()
        total.update({PROOF: tasks[PROOF], TESTS: tasks[TESTS], BASE: sum(edits.values())})
    yield f"{sum(total.values()):7.0f} {total[PROOF]:7.0f} {total[TESTS]:7.0f}  {'(all)':16}  {total[BASE]:.0f}"


def write(proofs):
    """Puts these proofs into the table of `./cec prove`, and leaves its other lines."""
    rows = dict(line.split() for line in SECONDS.read_text().splitlines() if line and not line.startswith("#"))
    rows.update({crate: f"{seconds:.0f}" for crate, seconds in proofs.items()})
    SECONDS.write_text(HEAD + "".join(f"{crate} {rows[crate]}\n" for crate in sorted(rows)))


def main():
    words = argparse.ArgumentParser(description=__doc__, formatter_class=argparse.RawDescriptionHelpFormatter)
    words.add_argument("names", nargs="*", metavar="NAME")
    words.add_argument("--pid", help="that of a run of rt ci")
    words.add_argument("--write", action="store_true", help="put the proofs into gate_seconds.txt")
    asked = words.parse_args()
    started = None
    if not asked.pid:
        started = subprocess.Popen(["rt", "ci", *asked.names], cwd=TOP, stdin=subprocess.DEVNULL, stdout=sys.stderr)
    watch = Watch(asked.pid or str(started.pid))
    for number in (signal.SIGTERM, signal.SIGHUP):
        signal.signal(number, signal.default_int_handler)
    with contextlib.suppress(KeyboardInterrupt):
        # (a run of this one's own stays a process until its status is asked)
        while watch.look() and (not started or started.poll() is None):
            time.sleep(BETWEEN_LOOKS)
    print(*told(watch.by_task()), sep="\n")
    if asked.write:
        write({crate: tasks[PROOF] for crate, tasks in watch.by_task(watch.running).items() if tasks[PROOF]})
    return started.wait() if started else 0


if __name__ == "__main__":
    sys.exit(main())
