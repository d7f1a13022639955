#!/usr/bin/env python3
"""Runs in strange surroundings and under load, over a real file system.

Usage: hostile.py [PROGRAM] [--runs N] [--seed N] [--only WORD] [--megabytes N]

PROGRAM is the repository's own where it is left out; N is how many runs are ended by a signal (40), and --only runs
the groups of cases alone whose names have the word. The runs of the group `load` may take --megabytes (4096) each.
Where it may, the script mounts small file systems in a name space of its own, and takes the user `nobody` for cases
about what may be read and written; what can't be had here is told as left out.

Each case has to end by itself, with a status of the program's and its one line; a verdict is said only with its files,
and no file but the check's own is touched. A run that is ended from outside says no verdict without its files. Cases
that took more than five times as long as others of their size (pairs of roots: twice) are told as slow, and don't count as wrong. Prints the
counts; status 1 where anything is wrong.
"""
import argparse
import contextlib
import itertools
import os
import random
import resource
import shutil
import signal
import subprocess
import sys
import tempfile
import threading
import time
from pathlib import Path

import sharing
from memory import Checker, fault_in_files, told_in
from rounds import SEED, Tally, house
from scripts import VERDICT
from aiger import make_binary
from workload import adder

ALONE = "HOSTILE_HAS_MOUNTS_OF_ITS_OWN"
MB = 1 << 20
SECONDS = 300
NOBODY = 65534
AND = b"aag 3 2 0 1 1\n2\n4\n6\n6 2 4\n"
SWAPPED = b"aag 3 2 0 1 1\n2\n4\n6\n6 4 2\n"
CANNOT_WRITE = b"cec: cannot write\n"
OUT_OF_MEMORY = b"cec: out of memory\n"
CHECK = ["check", "A", "B", "--out", "p"]
OWN = ("p.0.cnf", "p.0.lrat")
SCRIPT = b"set b 6 4 4\ncheck\nset b 6 4 2\ncheck\n"
EDITS = ["check", "A", "B", "--edits", "F", "--out", "p"]


class Ran:
    """How a run ended: its status or `hang`, what it said and warned, its seconds, and the files of its folder."""

    def __init__(self, status, said, warned, seconds, files):
        self.status, self.said, self.warned, self.seconds, self.files = status, said, warned, seconds, files

    def __repr__(self):
        sizes = {name: len(content) for name, content in self.files.items()}
        return f"status {self.status}, said {self.said!r}, warned {self.warned!r}, files {sizes}, {self.seconds:.1f} s"


def files_in(folder):
    """The bytes of each file of a folder; of what is no file, its kind."""
    found = {}
    for name in sorted(os.listdir(folder)):
        path = Path(folder, name)
        found[name] = path.read_bytes() if path.is_file() and not path.is_symlink() else b"no file"
    return found


def adders(bits):
    """The bytes of two adders of so many bits."""
    return [circuit.binary() for circuit in adder(bits)]


def limited(limits):
    """What sets these limits of resources in the process that is to run."""
    def set_all():
        for kind, most in limits.items():
            resource.setrlimit(kind, (most, most))
    return set_all if limits else None


class Rig:
    """Runs the program over folders that it lays out, and counts what is wrong."""

    def __init__(self, program, words):
        self.words, self.tally = words, Tally(words.seed)
        self.rng = random.Random(words.seed)
        self.left_out, self.slow = [], []
        self.scratch = tempfile.mkdtemp(prefix="hostile-")
        os.chmod(self.scratch, 0o755)
        self.program, self.checker = shutil.copy(program, self.scratch), Checker(self.scratch)
        self.whole = {}

    @contextlib.contextmanager
    def folder(self, **files):
        """A folder with these files, and for A and B the two ANDs."""
        made = tempfile.mkdtemp(dir=self.scratch)
        os.chmod(made, 0o777)
        for name, content in {"A": AND, "B": SWAPPED, **files}.items():
            if content is not None:
                Path(made, name).write_bytes(content)
        try:
            yield made
        finally:
            shutil.rmtree(made, ignore_errors=True)

    def started(self, folder, words, limits=None, **how):
        """A process of the program. A check that leaves its files is made by one worker, so that they are the same each time."""
        if "--out" in words and "--workers" not in words:
            words = [*words, "--workers", "1"]
        how = {"stdin": subprocess.DEVNULL, "stdout": subprocess.PIPE, "stderr": subprocess.PIPE, **how}
        return subprocess.Popen([self.program, *words], cwd=folder, preexec_fn=limited(limits), **how)

    def ran(self, folder, words=None, limits=None, seconds=SECONDS, given=None, **how):
        """How a run in the folder ends."""
        start = time.monotonic()
        process = self.started(folder, words or CHECK, limits, **how)
        try:
            said, warned = process.communicate(given, timeout=seconds)
            status = process.returncode
        except subprocess.TimeoutExpired:
            process.kill()
            said, warned = process.communicate()
            status = "hang"
        return Ran(status, said or b"", warned or b"", time.monotonic() - start, files_in(folder))

    def whole_of(self, a, b, *options):
        """The run on these files with nothing in its way."""
        key = (a, b, options)
        if key not in self.whole:
            with self.folder(A=a, B=b) as folder:
                run = self.ran(folder, CHECK + list(options))
            self.judge("with nothing in its way", run, None if run.status in (0, 1, 2) else "no verdict")
            self.whole[key] = run
        return self.whole[key]

    def judge(self, name, run, fault):
        """Counts the run, which is wrong where there is a fault."""
        self.tally.add(run.status, f"{name}: {fault}: {run}" if fault else None)

    def end(self):
        for line in self.slow:
            print("slow: " + line)
        for line in self.left_out:
            print("left out: " + line)
        shutil.rmtree(self.scratch, ignore_errors=True)
        self.tally.end()


def fault_of_files(run, before, whole=None):
    """What is wrong with the files of a run, beside those that lay there: others have to stay, and of the check's own
    stands a first part of what the whole run leaves, and of the proof only beside a whole CNF."""
    for name in set(run.files) | set(before):
        if name not in OWN and run.files.get(name) != before.get(name):
            return f"{name} is touched"
    if whole is None:
        return None
    for name in OWN:
        found = run.files.get(name)
        if found not in (None, before.get(name)) and not whole.files[name].startswith(found):
            return f"{name} has other bytes"
    are_whole = [run.files.get(name) == whole.files[name] for name in OWN]
    if OWN[1] in set(run.files) - set(before) and not are_whole[0]:
        return "a proof stands beside a part of the CNF"
    if run.said and not all(are_whole):
        return "a verdict is said without its files"
    return None


def fault_of_end(run, status, line=b"", said=b""):
    """What is wrong with how a run ended that was to end with this status, this warning, and this said."""
    if run.status == "hang":
        return "it hangs"
    if (run.status, run.warned, run.said) != (status, line, said):
        return f"not status {status} with {line!r} and {said!r}"
    return None


def first(*faults):
    return next((fault for fault in faults if fault), None)


def expect(rig, name, folder, status, line=b"", said=b"", words=None, whole=None, **how):
    """Runs in the folder, and asks for this end and that no other file is touched."""
    before = files_in(folder)
    run = rig.ran(folder, words, **how)
    rig.judge(name, run, first(fault_of_end(run, status, line, said), fault_of_files(run, before, whole)))
    return run


def may_mount(folder, options):
    """Whether a file system in memory was mounted there."""
    done = subprocess.run(["mount", "-t", "tmpfs", "-o", options, "none", folder], capture_output=True, check=False)
    return done.returncode == 0


@contextlib.contextmanager
def mounted(rig, options, what):
    """A folder of its own file system, or None."""
    folder = tempfile.mkdtemp(dir=rig.scratch)
    if os.geteuid() != 0 or not may_mount(folder, options):
        rig.left_out.append(f"{what}: no such file system can be mounted here")
        yield None
        return
    try:
        yield folder
    finally:
        subprocess.run(["umount", folder], check=False)


def as_nobody(rig, what):
    """The words that run a process as nobody, or None."""
    if os.geteuid() == 0:
        return {"user": NOBODY, "group": NOBODY, "extra_groups": []}
    rig.left_out.append(what + ": only root can take another user")
    return None


def names(rig):
    """Names that can't be read or written."""
    whole = rig.whole_of(AND, SWAPPED)
    long = "n" * 4096
    unreadable = [("missing", "X"), ("a folder", "."), ("empty", ""), ("of 256 bytes", "n" * 256),
                  ("of 4,096 bytes", long), ("behind a file", "B/A")]
    for what, name in unreadable:
        with rig.folder() as folder:
            line = f"cec: {name}: cannot read\n".encode()
            expect(rig, f"A {what}", folder, 5, line, words=["check", name, "B", "--out", "p"])
            expect(rig, f"a CNF {what}", folder, 5, line, words=["lrat", name, "B"])
    for what, prefix in [("in no folder", "none/p"), ("of 4,096 bytes", long), ("behind a file", "A/p")]:
        with rig.folder() as folder:
            expect(rig, f"a prefix {what}", folder, 6, CANNOT_WRITE, words=CHECK[:-1] + [prefix])
    for name in OWN:
        with rig.folder() as folder:
            os.mkdir(Path(folder, name))
            run = expect(rig, f"a folder {name}", folder, 6, CANNOT_WRITE)
            kept = run.files.get("p.0.cnf") == whole.files["p.0.cnf"]
            rig.judge("the CNF beside a folder", run, None if name == "p.0.cnf" or kept else "no whole CNF")
    how = as_nobody(rig, "files and folders without leave")
    if how:
        with rig.folder() as folder:
            os.chmod(folder, 0o555)
            expect(rig, "a read-only folder", folder, 6, CANNOT_WRITE, **how)
        with rig.folder() as folder:
            os.chmod(Path(folder, "A"), 0)
            expect(rig, "A without leave", folder, 5, b"cec: A: cannot read\n", **how)
        with rig.folder(**{"p.0.lrat": b"old"}) as folder:
            os.chmod(Path(folder, "p.0.lrat"), 0o444)
            expect(rig, "a proof that may not be written", folder, 6, CANNOT_WRITE, **how)


def devices(rig):
    """Devices that are full, and quotas."""
    whole = rig.whole_of(AND, SWAPPED)
    for name in OWN:
        with rig.folder() as folder:
            os.symlink("/dev/full", Path(folder, name))
            expect(rig, f"/dev/full as {name}", folder, 6, CANNOT_WRITE)
    a, b = adders(64)
    large = rig.whole_of(a, b)
    tight = [("a proof", AND, SWAPPED, whole, 4), ("a CNF", a, b, large, 8), ("a part of a proof", a, b, large, 128)]
    for what, one, other, full, size in tight:
        name = f"a device that is full for {what}"
        with mounted(rig, f"size={size}k", name) as place, rig.folder(A=one, B=other) as folder:
            cannot_write(rig, name, folder, place, full)
    quota = f"size=1m,usrquota,usrquota_block_hardlimit={64 << 10}"
    with mounted(rig, quota, "a quota") as place, rig.folder(A=a, B=b) as folder:
        cannot_write(rig, "a quota", folder, place, large, user=NOBODY, group=NOBODY, extra_groups=[])
    with mounted(rig, "size=1m", "a read-only file system") as place, rig.folder() as folder:
        if place:
            subprocess.run(["mount", "-o", "remount,ro", place], check=True)
        cannot_write(rig, "a read-only file system", folder, place, whole)
    sizes_of_files(rig, a, b, large)


def cannot_write(rig, name, folder, place, whole, **how):
    """A run that leaves its files in the place, if there is one, and can't."""
    if place:
        before = files_in(folder)
        run = rig.ran(folder, CHECK[:-1] + [os.path.join(place, "p")], **how)
        run.files.update(files_in(place))
        rig.judge(name, run, first(fault_of_end(run, 6, CANNOT_WRITE), fault_of_files(run, before, whole)))


def sizes_of_files(rig, a, b, large):
    """A limit on the size of files. Where the signal that comes with it isn't ignored, it ends the run."""
    for most in (0, 1, 100, 4096, 100_000):
        for ignored in (True, False):
            with rig.folder(A=a, B=b) as folder:
                before = files_in(folder)
                run = rig.ran(folder, limits={resource.RLIMIT_FSIZE: most}, restore_signals=not ignored)
                ends = fault_of_end(run, 6, CANNOT_WRITE)
                if not ignored and run.status == -signal.SIGXFSZ:
                    ends = "a verdict" if run.said else None
                rig.judge(f"files of at most {most} bytes", run, first(ends, fault_of_files(run, before, large)))


def closed(*numbers):
    """What closes these streams in the process that is to run."""
    def close_all():
        for number in numbers:
            os.close(number)
    return close_all


def with_closed(rig, folder, words, numbers):
    """How a run ends with these streams closed."""
    start = time.monotonic()
    process = subprocess.Popen([rig.program, *words], cwd=folder, stdin=subprocess.DEVNULL, stdout=subprocess.PIPE,
                               stderr=subprocess.PIPE, preexec_fn=closed(*numbers))
    said, warned = process.communicate(timeout=SECONDS)
    return Ran(process.returncode, said, warned, time.monotonic() - start, files_in(folder))


def streams(rig):
    """Streams that are closed, full or read by nobody."""
    whole = rig.whole_of(AND, SWAPPED)
    said = b"EQUIVALENT\n"
    ends = {(0,): (0, said, b""), (1,): (6, b"", CANNOT_WRITE), (2,): (0, said, b""), (1, 2): (6, b"", b""),
            (0, 1, 2): (6, b"", b"")}
    for numbers, (status, said, line) in ends.items():
        with rig.folder() as folder:
            before = files_in(folder)
            run = with_closed(rig, folder, CHECK, numbers)
            fault = first(fault_of_end(run, status, line, said), fault_of_files(run, before, whole))
            rig.judge(f"streams {numbers} closed", run, fault)
            stand = all(run.files.get(name) == whole.files[name] for name in OWN)
            rig.judge(f"files beside streams {numbers} closed", run, None if stand else "a file isn't whole")
            if 2 in numbers:
                run = with_closed(rig, folder, ["check", "X", "B"], numbers)
                rig.judge(f"a missing file with streams {numbers} closed", run, fault_of_end(run, 5))
    with rig.folder() as folder, open("/dev/full", "wb") as full:
        expect(rig, "a full standard output", folder, 6, CANNOT_WRITE, whole=whole, stdout=full)
        expect(rig, "a full standard error", folder, 5, words=["check", "X", "B"], stderr=full)
    with rig.folder() as folder:
        reader, writer = os.pipe()
        os.close(reader)
        expect(rig, "a pipe without a reader", folder, 6, CANNOT_WRITE, whole=whole, stdout=writer)
        expect(rig, "warnings to a pipe without a reader", folder, 5, words=["check", "X", "B"], stderr=writer)
        os.close(writer)
        reader, writer = os.pipe()
        expect(rig, "a pipe that nobody reads", folder, 0, whole=whole, stdout=writer)
        os.close(reader)
        os.close(writer)


def put_slowly(path, content):
    """Writes to a FIFO, byte by byte at first."""
    with open(path, "wb", buffering=0) as fifo:
        for at in range(len(content)):
            fifo.write(content[at:at + 1])


def inputs(rig):
    """Files that are no plain ones: FIFOs, streams, devices, files that grow."""
    whole = rig.whole_of(AND, SWAPPED)
    with rig.folder(A=None) as folder:
        path = Path(folder, "A")
        os.mkfifo(path)
        writer = threading.Thread(target=put_slowly, args=(path, AND), daemon=True)
        writer.start()
        expect(rig, "a FIFO", folder, 0, said=b"EQUIVALENT\n", whole=whole)
        writer.join(5)
    with rig.folder() as folder:
        words = ["check", "/dev/stdin", "B", "--out", "p"]
        how = {"stdin": subprocess.PIPE, "given": AND}
        expect(rig, "/dev/stdin", folder, 0, said=b"EQUIVALENT\n", words=words, whole=whole, **how)
        expect(rig, "an empty /dev/stdin", folder, 4, b"cec: /dev/stdin: bad header\n", words=words)
        expect(rig, "/dev/null", folder, 4, b"cec: /dev/null: bad header\n", words=["check", "/dev/null", "B"])
        line = b"cec: /dev/zero: longer than 1073741824 bytes\n"
        expect(rig, "/dev/zero", folder, 4, line, words=["check", "/dev/zero", "B"])
        expect(rig, "/dev/zero as a proof", folder, 4, b"cec: A: bad header\n", words=["lrat", "A", "/dev/zero"])
    with rig.folder(A=AND + b"c\n") as folder:
        ended = threading.Event()

        def grow():
            with open(Path(folder, "A"), "ab", buffering=0) as file:
                while not ended.is_set() and file.tell() < 256 * MB:
                    file.write(b"x" * (1 << 16))
        writer = threading.Thread(target=grow)
        writer.start()
        run = rig.ran(folder)
        ended.set()
        writer.join()
        same = run.files.get(OWN[0]) == whole.files[OWN[0]]
        fault = first(fault_of_end(run, 0, b"", b"EQUIVALENT\n"), None if same else "another CNF")
        rig.judge("a file that grows", run, fault)


def signals(rig):
    """Runs that are ended by a signal after a drawn time. What stands then promises nothing, but no verdict is said
    without its files, and no other file is touched."""
    a = make_binary(rig.words.seed, 64, 40_000)
    whole = rig.whole_of(a, a)
    ended = 0
    for _ in range(rig.words.runs):
        number = rig.rng.choice([signal.SIGTERM, signal.SIGINT, signal.SIGKILL, signal.SIGHUP, signal.SIGPIPE])
        with rig.folder(A=a, B=a) as folder:
            before = files_in(folder)
            start = time.monotonic()
            process = rig.started(folder, CHECK)
            time.sleep(rig.rng.uniform(0, 1.1 * whole.seconds))
            process.send_signal(number)
            said, warned = process.communicate(timeout=SECONDS)
            run = Ran(process.returncode, said, warned, time.monotonic() - start, files_in(folder))
            ended += run.status == -number
            right = run.status in (-number, whole.status) and run.said in (b"", whole.said)
            fault = first(None if right else "another end", fault_of_files(run, before, whole))
            rig.judge(f"signal {number}", run, fault)
    print(f"{ended} of {rig.words.runs} runs were ended by their signal, in up to {whole.seconds:.1f} s")


def together(rig):
    """Two runs at once with one prefix: each has its own verdict, and their files may be mixed."""
    mixed = 0
    (a, b), (c, d) = adders(512), adders(511)
    pairs = [("A", "B"), ("C", "D")]
    wholes = [rig.whole_of(a, b), rig.whole_of(c, d)]
    for _ in range(20):
        with rig.folder(A=a, B=b, C=c, D=d) as folder:
            before = files_in(folder)
            runs = [rig.started(folder, ["check", *pair, "--out", "p"]) for pair in pairs]
            for whole, process in zip(wholes, runs):
                said, warned = process.communicate(timeout=SECONDS)
                run = Ran(process.returncode, said, warned, 0, files_in(folder))
                fault = fault_of_end(run, whole.status, b"", whole.said)
                rig.judge("two runs with one prefix", run, first(fault, fault_of_files(run, before)))
            left = files_in(folder)
            mixed += not any(all(left[name] == whole.files[name] for name in OWN) for whole in wholes)
    print(f"{mixed} of 20 pairs of runs with one prefix left files that are neither's")


def within(rig, name, files, words, whole, megabytes):
    """Runs in so much memory: the whole answer, or want of memory and no verdict."""
    with rig.folder(**files) as folder:
        before = files_in(folder)
        run = rig.ran(folder, words, {resource.RLIMIT_AS: megabytes * MB})
        fault = fault_of_end(run, whole.status, b"", whole.said)
        if run.status == 7 and run.warned in (OUT_OF_MEMORY, b"") and not run.said:
            fault = None
        left = whole if "--out" in words else None
        rig.judge(f"{name} in {megabytes} MB", run, first(fault, fault_of_files(run, before, left)))
        return run.status


def with_stack(rig, name, files, words, kilobytes):
    """A run with so large a stack for each thread. docs/REFERENCE.md asks for 192 KB: with less a run may be ended by a signal, and says nothing."""
    with rig.folder(**files) as folder:
        before = files_in(folder)
        run = rig.ran(folder, words, {resource.RLIMIT_STACK: kilobytes << 10})
        ends = fault_of_end(run, 0, b"", b"EQUIVALENT\n")
        if kilobytes < 192 and run.status == -signal.SIGSEGV:
            ends = "a verdict" if run.said else None
            print(f"{name} with stacks of {kilobytes} KB: ended by a signal")
        rig.judge(f"{name} with stacks of {kilobytes} KB", run, first(ends, fault_of_files(run, before)))


def memory(rig):
    """Little memory and little stack: on a million gates without files, and on a hundred thousand with them."""
    large = {name: make_binary(rig.words.seed, 64, 1_000_000) for name in "AB"}
    with rig.folder(**large) as folder:
        whole = expect(rig, "a million gates", folder, 0, said=b"EQUIVALENT\n", words=CHECK[:3])
    statuses = [within(rig, "a million gates", large, CHECK[:3], whole, megabytes)
                for megabytes in (20, 50, 100, 200, 300, 400, 500, 700, 1000)]
    print(f"a million gates in 20 to 1,000 MB: statuses {statuses}, {whole.seconds:.1f} s with memory enough")
    small = {name: make_binary(rig.words.seed, 64, 100_000) for name in "AB"}
    whole = rig.whole_of(small["A"], small["B"])
    for megabytes in (20, 30, 40, 60, 80, 100, 150, 200):
        within(rig, "a hundred thousand gates", small, CHECK, whole, megabytes)
    for kilobytes in (64, 128, 192):
        with_stack(rig, "a million gates", large, CHECK[:3], kilobytes)


def fault_of_script(rig, run, whole):
    """What is wrong with a run over a script that ended before its last check: the verdicts that are said have their files, and of
    the next check stands a first part."""
    told = told_in(whole.said.decode(), run.said.decode(), True)
    if told is None:
        return "other words than verdicts"
    return fault_in_files(("A", "B", "F"), whole.files, run.files, told, rig.checker)


def expect_script(rig, name, folder, whole, checks, status, line=b"", words=None, **how):
    """Runs with the script, and asks for this end behind so many checks. What is no file isn't looked at."""
    run = rig.ran(folder, words or EDITS, **how)
    run.files = {file: content for file, content in run.files.items() if content != b"no file"}
    said = "".join(VERDICT.findall(whole.said.decode())[:checks]).encode()
    rig.judge(name, run, first(fault_of_end(run, status, line, said), fault_of_script(rig, run, whole)))


def scripts(rig):
    """Edit scripts that can't be read or are no plain files, and checks behind the first whose files can't be written."""
    with rig.folder(F=SCRIPT) as folder:
        whole = rig.ran(folder, EDITS)
    rig.judge("a script", whole, fault_of_end(whole, 0, b"", b"EQUIVALENT\nDIFFERENT\noutput 0\ninput 01\nEQUIVALENT\n"))
    scripts_that_cannot_be_read(rig)
    scripts_that_are_no_plain_files(rig, whole)
    ways = {"a folder": os.mkdir, "/dev/full": lambda path: os.symlink("/dev/full", path)}
    for check, kind, what in itertools.product(range(3), ("cnf", "lrat"), ways):
        name = f"p.{check}.{kind}"
        # Nothing is written of the empty proof of the check that differs.
        if what == "a folder" or whole.files[name]:
            with rig.folder(F=SCRIPT) as folder:
                ways[what](Path(folder, name))
                expect_script(rig, f"{what} {name}", folder, whole, check, 6, CANNOT_WRITE)
    scripts_and_signals(rig)


def scripts_that_cannot_be_read(rig):
    for what, name in [("missing", "X"), ("a folder", "."), ("empty", ""), ("of 256 bytes", "n" * 256), ("behind a file", "B/A")]:
        with rig.folder() as folder:
            words = EDITS[:4] + [name] + EDITS[5:]
            expect(rig, f"a script {what}", folder, 5, f"cec: {name}: cannot read\n".encode(), words=words)
    with rig.folder() as folder:
        line = b"cec: /dev/zero: longer than 1073741824 bytes\n"
        expect(rig, "/dev/zero as a script", folder, 4, line, words=EDITS[:4] + ["/dev/zero"] + EDITS[5:])
        line = b"cec: A: line 1: bad line\n"
        expect(rig, "a circuit as a script", folder, 4, line, said=b"EQUIVALENT\n", words=EDITS[:4] + ["A"])


def scripts_that_are_no_plain_files(rig, whole):
    with rig.folder() as folder:
        path = Path(folder, "F")
        os.mkfifo(path)
        writer = threading.Thread(target=put_slowly, args=(path, SCRIPT), daemon=True)
        writer.start()
        run = rig.ran(folder, EDITS)
        run.files["F"] = SCRIPT
        rig.judge("a FIFO as a script", run, first(fault_of_end(run, 0, b"", whole.said), fault_of_script(rig, run, whole)))
        writer.join(5)
    for name, checks, how in (("/dev/stdin", 3, {"stdin": subprocess.PIPE, "given": SCRIPT}), ("/dev/null", 1, {})):
        with rig.folder(F=SCRIPT) as folder:
            expect_script(rig, f"{name} as a script", folder, whole, checks, 0, words=EDITS[:4] + [name] + EDITS[5:], **how)
    # All three files are read before the first check writes over them.
    for read, name in (("A", "p.0.cnf"), ("B", "p.1.cnf"), ("F", "p.2.lrat")):
        with rig.folder(F=SCRIPT) as folder:
            os.rename(Path(folder, read), Path(folder, name))
            run = rig.ran(folder, [name if word == read else word for word in EDITS])
            same = all(run.files.get(file) == content for file, content in whole.files.items() if file.startswith("p."))
            ends = fault_of_end(run, 0, b"", whole.said)
            rig.judge(f"{read} under the name {name}", run, first(ends, None if same else "other files"))


def scripts_and_signals(rig):
    """Runs over a long script that are ended by a signal: a verdict is said only with its files."""
    with rig.folder(F=SCRIPT * 200) as folder:
        whole = rig.ran(folder, EDITS)
    rig.judge("a long script", whole, fault_of_end(whole, 0, b"", b"EQUIVALENT\n" + 200 * b"DIFFERENT\noutput 0\ninput 01\nEQUIVALENT\n"))
    ended = 0
    for _ in range(rig.words.runs):
        with rig.folder(F=SCRIPT * 200) as folder:
            start = time.monotonic()
            process = rig.started(folder, EDITS)
            time.sleep(rig.rng.uniform(0, 1.1 * whole.seconds))
            process.kill()
            said, warned = process.communicate(timeout=SECONDS)
            run = Ran(process.returncode, said, warned, time.monotonic() - start, files_in(folder))
            ended += run.status == -signal.SIGKILL
            rig.judge("a long script that is killed", run, fault_of_script(rig, run, whole))
    print(f"{ended} of {rig.words.runs} runs over a long script were killed, in up to {whole.seconds:.1f} s")


def options(rig):
    """Lemma files, witnesses and reduced circuits under names that can't be read or written."""
    said = b"EQUIVALENT\n"
    check = ["check", "A", "B"]
    with rig.folder() as folder:
        lemmas = rig.ran(folder, [*check, "--save", "L"]).files["L"]
    for name in ("X", ".", "", "n" * 256, "n" * 4096, "A/X"):
        with rig.folder() as folder:
            line = f"cec: {name}: cannot read\n".encode()
            expect(rig, f"lemmas in {name[:9]}", folder, 5, line, words=[*check, "--load", name])
            expect(rig, f"a circuit in {name[:9]}", folder, 5, line, words=["fraig", name, "OUT"])
    faults = {"/dev/null": "line 1: ends too early", "A": "line 1: bad line", "/dev/zero": "longer than 1073741824 bytes"}
    for name, fault in faults.items():
        with rig.folder() as folder:
            expect(rig, f"{name} as lemmas", folder, 4, f"cec: {name}: {fault}\n".encode(), words=[*check, "--load", name])
    with rig.folder(L=lemmas) as folder:
        how = {"stdin": subprocess.PIPE, "given": lemmas}
        for name in ("L", "/dev/stdin"):
            expect(rig, f"lemmas in {name}", folder, 0, said=b"lemmas 2 of 2\n" + said, words=[*check, "--load", name], **how)
    different = ["check", "A", "F"]
    for name in ("none/X", "n" * 4096, "A/X", ".", "/dev/full"):
        with rig.folder(F=b"aag 2 2 0 1 0\n2\n4\n0\n") as folder:
            expect(rig, f"lemmas to {name[:9]}", folder, 6, CANNOT_WRITE, said, words=[*check, "--save", name])
            expect(rig, f"a witness to {name[:9]}", folder, 6, CANNOT_WRITE, words=[*different, "--witness", name])
            expect(rig, f"a circuit to {name[:9]}", folder, 6, CANNOT_WRITE, words=["fraig", "A", name])
    with rig.folder() as folder:
        run = rig.ran(folder, ["fraig", "A", "OUT", "--out", "none/p"])
        ends = fault_of_end(run, 6, CANNOT_WRITE)
        rig.judge("a circuit whose proof can't be written", run, first(ends, None if run.files.get("OUT") else "no OUT"))


def threads(rig):
    """64 workers where few threads or none can be started, for want of address space, of leave or of stack."""
    pair, words = dict(zip("AB", adders(64))), ["check", "A", "B", "--workers", "64"]
    with rig.folder(**pair) as folder:
        whole = expect(rig, "64 workers", folder, 0, said=b"EQUIVALENT\n", words=words)
    statuses = [within(rig, "64 workers", pair, words, whole, megabytes) for megabytes in (12, 15, 20, 40, 100, 200, 400, 1000)]
    print(f"64 workers in 12 to 1,000 MB: statuses {statuses}")
    for kilobytes in (64, 128, 192, 256):
        with_stack(rig, "64 workers", pair, words, kilobytes)
    how = as_nobody(rig, "threads without leave")
    for most in (1, 2, 3, 5, 20, 60) if how else ():
        with rig.folder(**pair) as folder:
            before = files_in(folder)
            run = rig.ran(folder, words, {resource.RLIMIT_NPROC: most}, **how)
            without = run.status == 7 and run.warned == OUT_OF_MEMORY and not run.said
            ends = None if without else fault_of_end(run, 0, b"", b"EQUIVALENT\n")
            rig.judge(f"64 workers with leave for {most} threads", run, first(ends, fault_of_files(run, before)))


def processor_seconds():
    """The processor's seconds of the processes that were run so far."""
    used = resource.getrusage(resource.RUSAGE_CHILDREN)
    return used.ru_utime + used.ru_stime


def load(rig):
    """As many inputs, gates and outputs as may be, and one more, in so much memory."""
    most = 1 << 24
    limits = {resource.RLIMIT_AS: rig.words.megabytes * MB}
    gates = f"aig {most} 0 0 0 {most}\n".encode() + b"\x02\x00" * most
    outputs = f"aig 0 0 0 {most} 0\n".encode() + b"0\n" * most
    for what, file in [("inputs", f"aig {most} {most} 0 0 0\n".encode()), ("gates", gates), ("outputs", outputs)]:
        other = b"aag 0 0 0 0 0\n" if what == "gates" else file
        with rig.folder(A=file, B=other) as folder:
            start = processor_seconds()
            run = rig.ran(folder, CHECK[:3], limits, seconds=1800)
            ends = None if run.status == 7 and not run.said else fault_of_end(run, 0, b"", b"EQUIVALENT\n")
            rig.judge(f"{most} {what}", run, ends)
            print(f"{most} {what}: status {run.status} in {processor_seconds() - start:.1f} s", flush=True)
    for counts in ("0 0 0 0", f"{most + 1} 0 0 0", f"0 0 {most + 1} 0", f"0 0 0 {most + 1}"):
        with rig.folder(A=f"aag {most + 1} {counts}\n".encode()) as folder:
            expect(rig, f"counts {counts}", folder, 4, f"cec: A: {most + 1} is above {most}\n".encode())
    with rig.folder(A=b"p cnf 2147483647 2147483647\n", B=b"") as folder:
        line = b"cec: A: 2147483647 clauses announced, 0 found\n"
        expect(rig, "counts of a CNF", folder, 4, line, words=["lrat", "A", "B"])


def compared(rig, what, words, files, count, most=5):
    """Runs on files that share slots and on others of their size, and tells where the first took more than `most` times
    as long, in the processor's seconds. A file stands for both names, or two stand for one each; `count` parts are in each."""
    seconds = []
    for file in files:
        first, second = file if isinstance(file, tuple) else (file, file)
        with rig.folder(A=first, B=second, EMPTY=b"", SMALL=AND) as folder:
            start = processor_seconds()
            run = rig.ran(folder, words, seconds=1800)
            seconds.append(processor_seconds() - start)
            ends = {0: None, 1: None, "hang": "it hangs"}
            rig.judge(what, run, ends.get(run.status, "no verdict"))
    each = [1e6 * taken / count for taken in seconds]
    line = f"{what}: {seconds[0]:.2f} s, {each[0]:.1f} us each, and {seconds[1]:.2f} s, {each[1]:.1f} us, where they don't share slots"
    print(line, flush=True)
    if seconds[0] > most * seconds[1]:
        rig.slow.append(line)


def slots(rig):
    """100,000 nodes, pairs of roots, signatures and literals that share slots of tables, and 1,000,000 gates with one fanin in common."""
    count, many, check = 100_000, 1_000_000, ["check", "A", "B"]
    compared(rig, "pairs of roots", check, sharing.pairs_of_roots(rig.rng, count), count, most=2)
    compared(rig, "pairs of roots under another seed", check, sharing.roots_of_a_seed(rig.rng, count), count, most=2)
    compared(rig, "gates with one fanin in common", check, sharing.one_fanin(rig.rng, many), many, most=2)
    compared(rig, "merged nodes", check, sharing.merged_nodes(count), count)
    compared(rig, "signatures", check + ["--words", "1"], sharing.signatures(rig.rng, count), count)
    compared(rig, "literals of a clause", ["lrat", "A", "EMPTY"], sharing.literals(rig.rng, count), count)
    compared(rig, "literals of a line", ["lrat", "A", "B"], sharing.proofs(rig.rng, count), count)
    compared(rig, "literals of a lemma", ["check", "SMALL", "SMALL", "--load", "A"], sharing.lemmas(rig.rng, count), count)


GROUPS = (names, devices, streams, inputs, options, signals, scripts, threads, together, memory, load, slots)


def main():
    parser = argparse.ArgumentParser(description=__doc__, formatter_class=argparse.RawDescriptionHelpFormatter)
    parser.add_argument("program", nargs="?")
    parser.add_argument("--runs", type=int, default=40)
    parser.add_argument("--seed", type=int, default=SEED)
    parser.add_argument("--only", default="")
    parser.add_argument("--megabytes", type=int, default=4096)
    words = parser.parse_args()
    if os.geteuid() == 0 and ALONE not in os.environ and shutil.which("unshare"):
        command = ["unshare", "--mount", sys.executable, *sys.argv]
        os.execvpe("unshare", command, {**os.environ, ALONE: "1"})
    rig = Rig(house.program(words.program), words)
    try:
        for group in GROUPS:
            if words.only in group.__name__:
                start = time.monotonic()
                group(rig)
                print(f"{group.__name__}: {time.monotonic() - start:.1f} s", flush=True)
    finally:
        rig.end()


if __name__ == "__main__":
    main()
