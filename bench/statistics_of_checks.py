"""What a check by one worker does, pair by pair: how often, how long for what, and how long the steps of merges became.

The program that is proved tells no numbers, since at a verdict nothing else is said. So a copy of the crates is changed until it counts
and reads the thread's clock, and built at -O2 without proof: that takes minutes, once for all pairs, and its checks take about as long as
those of the proved program. Where `perf` is there, the proved program's seconds are told by crate too.
"""
import re
import shutil
import subprocess
import sys
import tempfile
from collections import Counter
from pathlib import Path

sys.path.insert(0, str(Path(__file__).resolve().parents[1] / "tools"))
from crates import built, replaced

USES = ["lits", "desk_port", "netlist", "aiger_file", "lemma_book", "strash_pass", "check_session"]
CAUSES = ["merge", "apart", "spent", "output"]
PARTS = ["search", "judge", "cone"]
COUNTS = ["rounds", "aparts by the filter", "merges by search", "aparts by search", "merges by cone", "aparts by cone", "spents",
          "outputs by search", "outputs by cone", "entries dropped", "conflicts of the search", "decisions of the search"]
STEPS = [2, 10, 30, 102]
FIRST_TIME = len(COUNTS)
FIRST_STEP = FIRST_TIME + len(CAUSES) * len(PARTS)
SIZE = FIRST_STEP + len(STEPS) + 3

SEARCH, SESSION, SWEEP = "circuit_search/src/search.rt", "check_session/src/session.rt", "check_session/src/sweep.rt"
RARE, PROPOSER = "check_session/src/rare.rt", "circuit_search/src/proposer.rt"
WORKER, ROUNDS = "sweep_workers/src/worker.rt", "sweep_workers/src/rounds.rt"

# Methods that count in the copy: a worker's times by the kind of entry that it came to, and the steps of what it found.
COUNTING = f"""
/// The thread's time in nanoseconds.
pub fn now<T: CpuClock>(rt: &T) -> u64 {{
    match rt.thread_cpu_time() {{
        Ok(time) => time.as_nanos() as u64,
        Err(_) => 0,
    }}
}}

impl Search {{
    fn count(&mut self, place: usize, many: u64) {{
        self.tally[place] += many;
    }}

    /// Counts what was found for an entry of its kind, from when on, and up to when by the search.
    pub fn told<T: CpuClock>(&mut self, rt: &T, entry: &Entry, by_search: bool, begun: u64, searched: u64) {{
        let cone = if by_search {{ 0 }} else {{ 1 }};
        let cause = match entry {{
            Entry::Merge {{ .. }} => 0,
            Entry::Apart {{ .. }} => 1,
            Entry::Spent {{ .. }} => 2,
            _ => 3,
        }};
        let judged = self.judging;
        self.judging = 0;
        let first = {FIRST_TIME} + cause * {len(PARTS)};
        self.count(first, searched - begun - judged);
        self.count(first + 1, judged);
        self.count(first + 2, now(rt) - searched);
        match entry {{
            Entry::Merge {{ steps, .. }} => {{
                self.count(2 + 2 * cone, 1);
                self.steps(steps.as_slice().len());
            }}
            Entry::Apart {{ .. }} => self.count(3 + 2 * cone, 1),
            Entry::Spent {{ .. }} => self.count(6, 1),
            Entry::Out {{ steps, .. }} => {{
                self.count(7 + cone, 1);
                self.count({SIZE - 1}, steps.as_slice().len() as u64);
            }}
            _ => self.count(7 + cone, 1),
        }}
        self.tally[9] = self.dropped;
    }}

    /// A pair that no worker asks about isn't counted.
    pub fn uncounted(&mut self, alloc: Global, net: &Net, book: &Book, task: &Task, caps: Caps) -> Result<Option<Entry>, AllocError> {{
        self.proposer.catch_up(net, book);
        let steps = book.sweep_budget().saturating_add(2);
        match self.proposer.pair(alloc, net, task, caps, steps)? {{
            Some(entry) => judged(alloc, net, book, &mut self.judge, entry),
            None => Ok(None),
        }}
    }}

    fn steps(&mut self, many: usize) {{
        let limits = {STEPS};
        let mut place = 0;
        while place < {len(STEPS)} && many > limits[place] {{
            place += 1;
        }}
        self.count({FIRST_STEP} + place, 1);
        self.count({SIZE - 2}, many as u64);
    }}
}}
"""

TIMED = """        let begun = now(rt);
        let search = made(&mut self.search, alloc, net)?;
        let found = {call}?;
        let searched = now(rt);
        let by_search = found.is_some();
        let entry = match found {
            Some(entry) => entry,
            None => {query}?,
        };
        search.told(rt, &entry, by_search, begun, searched);
        Ok(entry)
"""

QUERY = """self
                    .queries
                    .{call}(alloc, net, seen, {asked}, &mut self.refuter)"""
PAIR_CALL, PAIR_QUERY = "search.pair(alloc, net, seen, task, caps)", QUERY.format(call="pair", asked="task")
OUTPUT_CALL, OUTPUT_QUERY = "searched(rt, alloc, net, &self.shared, seen, search, output)", QUERY.format(call="output", asked="output")

# How a worker asks the search and then the whole cone, of a pair and of an output.
PAIR = f"""        let search = made(&mut self.search, alloc, net)?;
        match {PAIR_CALL}? {{
            Some(entry) => {{
                count_merge(&mut self.tally.by_search, &entry);
                Ok(entry)
            }}
            None => {{
                let entry = {PAIR_QUERY}?;
                count_merge(&mut self.tally.by_cone, &entry);
                count_open(&mut self.tally.open, &entry);
                count_learned(&mut self.tally.conflicts, &entry, self.refuter.log());
                Ok(entry)
            }}
        }}
"""
OUTPUT = f"""        let search = made(&mut self.search, alloc, net)?;
        match {OUTPUT_CALL}? {{
            Some(entry) => Ok(entry),
            None => {{
                let entry = {OUTPUT_QUERY}?;
                count_open(&mut self.tally.open, &entry);
                count_learned(&mut self.tally.conflicts, &entry, self.refuter.log());
                Ok(entry)
            }}
        }}
"""


def timed(call, query):
    """The same with its times taken."""
    return TIMED.replace("{call}", call.replace("(alloc", "(rt, alloc")).replace("{query}", query)


# file, what stands there, what is put in its place
CHANGES = [
    (SEARCH, "    dropped: u64,\n}", f"    dropped: u64,\n    pub tally: [u64; {SIZE}],\n    judging: u64,\n}}"),
    (SEARCH, "            dropped: 0,\n", f"            dropped: 0,\n            tally: [0; {SIZE}],\n            judging: 0,\n"),
    (SEARCH, "            dropped: _,\n", "            dropped: _,\n            tally: _,\n            judging: _,\n"),
    (SEARCH, "        &mut self,\n        alloc: Global,\n", "        &mut self,\n        rt: &T,\n        alloc: Global,\n"),
    (SEARCH, "    pub fn pair(", "    pub fn pair<T: CpuClock>("),
    (SEARCH, "    pub fn output(", "    pub fn output<T: CpuClock>("),
    (SEARCH, "    pub fn output_shortly(", "    pub fn output_shortly<T: CpuClock>("),
    (SEARCH, "    pub fn exchange(", "    pub fn exchange<T: CpuClock>("),
    (SEARCH, "    fn judged(", "    fn judged<T: CpuClock>("),
    (SEARCH, "self.judged(alloc", "self.judged(rt, alloc"),
    (SEARCH, "        match self.proposer.pair(alloc, net, task, caps, steps)? {",
     "        let found = self.proposer.pair(alloc, net, task, caps, steps)?;\n"
     "        let left = self.proposer.lazy.left();\n"
     "        self.count(10, caps.conflicts.saturating_sub(left.conflicts));\n"
     "        self.count(11, caps.decisions.saturating_sub(left.decisions));\n"
     "        match found {"),
    (PROPOSER, "    lazy: LazySolver,\n", "    pub(crate) lazy: LazySolver,\n"),
    (SEARCH, "        let judged = judged(alloc, net, book, &mut self.judge, entry)?;\n",
     "        let begun = now(rt);\n        let judged = judged(alloc, net, book, &mut self.judge, entry)?;\n"
     "        self.judging += now(rt) - begun;\n"),
    (RARE, "search.pair(", "search.uncounted("),
    ("circuit_search/src/lib.rt", "pub use search::Search;", "pub use search::{Search, now};"),
    (WORKER, "use circuit_search::{Caps, Search, Shared, apart};", "use circuit_search::{Caps, Search, Shared, apart, now};"),
    (WORKER, "search.output_shortly(alloc", "search.output_shortly(rt, alloc"),
    (WORKER, "search.output(alloc", "search.output(rt, alloc"),
    (WORKER, "search.exchange(alloc", "search.exchange(rt, alloc"),
    (WORKER, PAIR, timed(PAIR_CALL, PAIR_QUERY)),
    (WORKER, OUTPUT, timed(OUTPUT_CALL, OUTPUT_QUERY)),
    (WORKER, "    fn found(\n        &mut self,\n", "    fn found<T: CpuClock>(\n        &mut self,\n        rt: &T,\n"),
    (WORKER, "self.found(alloc", "self.found(rt, alloc"),
    (WORKER, "    search: Option<Search>,\n", "    pub search: Option<Search>,\n    pub rounds: u64,\n    pub sifted: u64,\n"),
    (WORKER, "            search: _,\n", "            search: _,\n            rounds: _,\n            sifted: _,\n"),
    (WORKER, "            search: None,\n", "            search: None,\n            rounds: 0,\n            sifted: 0,\n"),
    (WORKER, "            Some(entry) => Ok(entry),\n            None => self.ask(",
     "            Some(entry) => {\n                self.sifted += 1;\n                Ok(entry)\n            }\n            None => self.ask("),
    (ROUNDS, "    let is_due = sieve", "    workers[0].rounds += 1;\n    let is_due = sieve"),
    (SWEEP, "    pub(crate) work: Work,\n}", f"    pub(crate) work: Work,\n    pub(crate) tally: [u64; {SIZE}],\n}}"),
    (SWEEP, "        work,\n    })\n}\n\n/// The verdict of the sweep",
     f"        work,\n        tally: [0; {SIZE}],\n    }})\n}}\n\n/// The verdict of the sweep"),
    (SWEEP, "        work,\n    })\n}\n\n/// So many workers", "        work,\n        tally,\n    })\n}\n\n/// So many workers"),
    (SWEEP, "    let work = Work::of(behind_structure, workers);\n",
     "    let work = Work::of(behind_structure, workers);\n"
     f"    let mut tally = match &workers[0].search {{\n        Some(search) => search.tally,\n        None => [0; {SIZE}],\n    }};\n"
     "    tally[0] = workers[0].rounds;\n    tally[1] = workers[0].sifted;\n"),
    (SESSION, "    work: Work,\n}", f"    work: Work,\n    pub tally: [u64; {SIZE}],\n}}"),
    (SESSION, "            work: _,\n        } = self;", "            work: _,\n            tally: _,\n        } = self;"),
    (SESSION, "            work: Work::none(0),\n", f"            work: Work::none(0),\n            tally: [0; {SIZE}],\n"),
    (SESSION, "        self.book = checked.book;", "        self.tally = checked.tally;\n        self.book = checked.book;"),
]

# What has a runtime in these crates may read the clock in the copy.
CLOCKED = [("T: Threads + Wait + Sync", "T: Threads + Wait + Sync + CpuClock"), ("<T: Wait,", "<T: Wait + CpuClock,"),
           ("<T: Wait>", "<T: Wait + CpuClock>")]

PROGRAM = """//! The counts of a check of two files.
#![tactic(auto)]

use check_session::{Options, Session};
use desk_port::OpenGate;
use std::alloc::Global;
use std::env;
use std::fs::{self, Files};
use std::io::{self, Write};
use std::sync::Wait;
use std::thread::Threads;
use std::time::CpuClock;

const OPTIONS: Options = Options {
    workers: 1,
    seed: 1,
    words: 4,
    sweep_budget: 100,
    out_budget: 100000,
    by_name: false,
};

fn answer<R: Files + Alloc + Threads + Wait + Sync + CpuClock>(rt: &R, alloc: Global, words: &[String], text: &mut String) -> io::Result<()> {
    let a = aiger_file::read(alloc, fs::read(rt, words[1].as_str())?.as_slice());
    let b = aiger_file::read(alloc, fs::read(rt, words[2].as_str())?.as_slice());
    let (Ok(a), Ok(b)) = (a, b) else {
        return Ok(());
    };
    let Ok(mut session) = Session::open(alloc, a, b, OPTIONS) else {
        return Ok(());
    };
    let _verdict = session.check(rt, alloc, &OpenGate)?;
    for number in session.tally {
        write!(text, "{number} ")?;
    }
    Ok(())
}

fn main(rt: HostRuntime) -> io::Result<()> {
    let alloc = rt.alloc();
    let words: Vec<String> = env::args(&rt)?.collect(alloc)?;
    let mut out = rt.stdout();
    let mut told = String::new(alloc);
    if words.len() > 2 {
        answer(&rt, alloc, words.as_slice(), &mut told)?;
    }
    out.write_all(told.as_bytes())?;
    Ok(())
}
"""


def changed(crates):
    """Has the copy of the crates count."""
    for file, old, new in CHANGES:
        replaced(crates / file, old, new)
    search = crates / SEARCH
    search.write_text(with_clock(search.read_text()) + COUNTING)
    for file in [*crates.glob("sweep_workers/src/*.rt"), *crates.glob("check_session/src/*.rt")]:
        plain = text = file.read_text()
        for old, new in CLOCKED:
            text = text.replace(old, new)
        if text != plain or file == crates / WORKER:
            file.write_text(with_clock(text))


def with_clock(text):
    """The text of a module that names the clock."""
    return re.sub(r"^use ", "use std::time::CpuClock;\nuse ", text, count=1, flags=re.M)


def shown(numbers):
    """The lines that say what was counted."""
    yield ", ".join(f"{name} {number}" for name, number in zip(COUNTS, numbers))
    for k, cause in enumerate(CAUSES):
        spent = numbers[FIRST_TIME + k * len(PARTS):][:len(PARTS)]
        yield f"seconds for {cause}: " + ", ".join(f"{part} {time / 1e9:.3f}" for part, time in zip(PARTS, spent))
    limits = [f"up to {limit}" for limit in STEPS] + ["more"]
    merges = ", ".join(f"{name} {number}" for name, number in zip(limits, numbers[FIRST_STEP:]))
    yield f"merges by their steps: {merges}; {numbers[-2]} steps in all, and {numbers[-1]} of outputs"


def counted(pairs):
    """What was counted of each pair of files, in lines; of a pair that a pattern tells apart at once all is 0."""
    with tempfile.TemporaryDirectory() as made:
        program = built(made, "counting", PROGRAM, USES, change=changed)
        for pair in pairs:
            said = subprocess.run([program, *pair], capture_output=True, text=True, check=True).stdout
            yield list(shown([int(number) for number in said.split()] or [0] * SIZE))


def by_crate(command, folder):
    """The seconds of a command by the crate of the function in which they were spent, or none where `perf` can't tell."""
    if not shutil.which("perf"):
        return None
    record = ["perf", "record", "-q", "-F", "500", "-o", str(Path(folder) / "perf.data"), "--", *command]
    subprocess.run(record, capture_output=True, check=False)
    report = ["perf", "report", "-i", str(Path(folder) / "perf.data"), "--stdio", "-q", "-g", "none", "-F", "sample,symbol"]
    said = subprocess.run(report, capture_output=True, text=True, check=False).stdout
    found = Counter()
    for samples, name in re.findall(r"^\s*(\d+)\s+\[[.k]\]\s+(\S+)", said, re.M):
        found[name.split("::")[0] if "::" in name else "other"] += int(samples)
    return ", ".join(f"{name} {samples / 500:.2f}" for name, samples in found.most_common(8)) or None
