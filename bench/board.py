#!/usr/bin/env python3
"""Measures the turns of the board beside a list under a mutex, in Rust.

Usage: board.py [--turns N] [--passes P ..] [--folder DIR]

In a program over the repository's crates, built by LLVM at -O2 with no proof, P passes, each on a thread of its own, take N turns in
all, offers and looks by turns: an offer is an entry that is judged good over what the pass has seen before it asks for the lock. Where
`rustc` is there, the same work is done with a `Mutex<Vec<Arc<_>>>`: a push is an offer, and a look copies the references past those
that are known; before each push it passes the time that making and judging an entry takes. Prints for each P the turns a second of
both, and the ratio of the rates, each the best of three runs.
"""
import argparse
import shutil
import subprocess
import sys
import tempfile
from pathlib import Path

sys.path.insert(0, str(Path(__file__).resolve().parents[1] / "tools"))
from crates import built
from house import TOP

USES = ["lits", "netlist", "lemma_book", "board_lock", "worked_circuits"]
SPECS = TOP / "crates" / "board_rows" / "specs"

# What P = 2^k passes do stands as k functions, each over the one before: a thread for each half.
FAN = """
fn fan_NEXT<R: Threads + Wait + Sync>(rt: &R, alloc: Global, net: &Net, board: &Board, mut pass: Pass, rounds: u32) -> Pass
    requires may { MayWork net.now board.now pass }
    requires share { share_of pass ≤ 2 ^ 62 }
    ensures table { result.table ≡ pass.table }
    ensures share { share_of result ≡ share_of pass }
{
    let Some(other) = half(alloc, net, board, &mut pass) else {
        return pass;
    };
    let (mut one, two) = join(
        rt,
        || -> Pass
            requires { IsSync R.row × (MayWork net.now board.now pass × (share_of pass ≤ 2 ^ 62)) }
            ensures { (result.table ≡ pass.table) × (share_of result ≡ share_of pass) }
        { fan_LAST(rt, alloc, net, board, pass, rounds) },
        || -> Pass
            requires { IsSync R.row × (MayWork net.now board.now other × (share_of other ≤ 2 ^ 62)) }
            ensures { (result.table ≡ other.table) × (share_of result ≡ share_of other) }
        { fan_LAST(rt, alloc, net, board, other, rounds) },
    );
    one.join(board, two);
    one
}
"""

RUN = """
fn run_LAST<R: Threads + Wait + Sync + Clock + Print>(rt: &R, alloc: Global, net: &Net, rounds: u32) -> io::Result<()> {
    let Ok((board, pass)) = Board::open(alloc, net, Book::new(alloc, 1, 1), 1) else {
        return Ok(());
    };
    let start = Instant::now(rt)?;
    let pass = fan_LAST(rt, alloc, net, &board, pass, rounds);
    let nanos = start.elapsed(rt)?.as_nanos();
    let (book, record) = board.close(pass);
    println!(rt; "{} {} {} {}", nanos, record.turns.len(), record.missed, book.len())
}
"""

PROGRAM = """//! Times the turns of passes at one board.
#![tactic(auto)]

ghost use Rattle.std.specs.Prelude.{◌≡◌, ◌≤◌, ◌^◌, ◌+◌, IfSome, IfNone};
ghost use Rattle.std.specs.Thread.{IsSync};
ghost use Rattle.lemma_book.specs.Book.{IsLegal};
ghost use Rattle.lemma_book.specs.Good.{IsGood};
ghost use Rattle.board_lock.specs.Pass.{share_of};
ghost use Rattle.board_bench.specs.Work.{MayWork, IsSplit};

use board_lock::{Board, Pass};
use lemma_book::{Book, Entry, Judgement};
use lits::{Listed, Lit, Node, Side};
use netlist::Net;
use std::alloc::Global;
use std::io::{self, Read};
use std::rt::Clock;
use std::sync::Wait;
use std::thread::{Threads, join};
use std::time::Instant;

fn made(alloc: Global) -> Option<Entry> {
    let lit = Lit { node: Node::Input(0), neg: false };
    let input = Vec::from_slice(alloc, &[true, false]).ok()?;
    Some(Entry::Apart { node: Node::Gate(Side::B, 3), lit, input: Listed::of(input) })
}

fn good(alloc: Global, net: &Net, book: &Book) -> Option<Entry>
    requires { IsLegal net.now book.now }
    ensures { IfSome result (IsGood net.now book.now) }
{
    let entry = made(alloc)?;
    match book.judge(alloc, net, &entry) {
        Ok(Judgement::Good) => Some(entry),
        _ => None,
    }
}

fn offer_once<R: Wait>(rt: &R, alloc: Global, net: &Net, board: &Board, pass: &mut Pass)
    requires may { MayWork net.now board.now pass.old }
    ensures may { MayWork net.now board.now pass.new }
    ensures share { share_of pass.new ≡ share_of pass.old }
{
    if pass.left() < 1 {
        return;
    }
    if let Some(entry) = good(alloc, net, pass.seen()) {
        let _offered = pass.offer(rt, alloc, net, board, entry);
    }
}

fn look_once<R: Wait>(rt: &R, alloc: Global, net: &Net, board: &Board, pass: &mut Pass)
    requires may { MayWork net.now board.now pass.old }
    ensures may { MayWork net.now board.now pass.new }
    ensures share { share_of pass.new ≡ share_of pass.old }
{
    if pass.left() < 1 {
        return;
    }
    let _known = pass.refresh(rt, alloc, board);
}

fn fan_0<R: Threads + Wait + Sync>(rt: &R, alloc: Global, net: &Net, board: &Board, mut pass: Pass, rounds: u32) -> Pass
    requires may { MayWork net.now board.now pass }
    requires share { share_of pass ≤ 2 ^ 62 }
    ensures table { result.table ≡ pass.table }
    ensures share { share_of result ≡ share_of pass }
{
    for _ in 0..rounds {
        offer_once(rt, alloc, net, board, &mut pass);
        look_once(rt, alloc, net, board, &mut pass);
    }
    pass
}

fn half(alloc: Global, net: &Net, board: &Board, pass: &mut Pass) -> Option<Pass>
    requires may { MayWork net.now board.now pass.old }
    ensures may { MayWork net.now board.now pass.new }
    ensures split { IfSome result (IsSplit net.now board.now pass.old pass.new) }
    ensures none { IfNone result (share_of pass.new ≡ share_of pass.old) }
{
    if pass.left() < 4 {
        return None;
    }
    pass.split(alloc, board, pass.left() / 2).ok()
}
FUNCTIONS
fn judge_many<R: Clock + Print>(rt: &R, alloc: Global, net: &Net, many: u32) -> io::Result<()> {
    let book = Book::new(alloc, 1, 1);
    let mut found: u32 = 0;
    let start = Instant::now(rt)?;
    for _ in 0..many {
        found = found.saturating_add(u32::from(good(alloc, net, &book).is_some()));
    }
    println!(rt; "{} {}", start.elapsed(rt)?.as_nanos(), found)
}

fn main(rt: HostRuntime) -> io::Result<()> {
    let alloc = rt.alloc();
    let mut word = Vec::new(alloc);
    rt.stdin().read_to_end(&mut word)?;
    if word.is_empty() {
        return Ok(());
    }
    let Ok((a, b)) = worked_circuits::swapped_ands(alloc) else {
        return Ok(());
    };
    let Ok(net) = Net::of(alloc, a, b) else {
        return Ok(());
    };
    judge_many(&rt, alloc, &net, MANY)?;
    CALLS
    Ok(())
}
"""

MUTEX = """
use std::sync::{Arc, Mutex};
use std::time::Instant;

struct Entry { _input: Vec<bool> }

fn main() {
    let words: Vec<usize> = std::env::args().skip(1).map(|word| word.parse().unwrap()).collect();
    let (passes, rounds, work) = (words[0], words[1], std::time::Duration::from_nanos(words[2] as u64));
    let book: Arc<Mutex<(Vec<Arc<Entry>>, Vec<(u64, u64)>)>> = Arc::new(Mutex::new((Vec::new(), Vec::new())));
    let start = Instant::now();
    let threads: Vec<_> = (0..passes as u64)
        .map(|number| {
            let book = Arc::clone(&book);
            std::thread::spawn(move || {
                let mut seen: Vec<Arc<Entry>> = Vec::new();
                for _ in 0..rounds {
                    let entry = Arc::new(Entry { _input: vec![true, false] });
                    let begun = Instant::now();
                    while begun.elapsed() < work {}
                    let mut held = book.lock().unwrap();
                    let place = held.0.len() as u64;
                    held.0.push(entry);
                    held.1.push((number, place));
                    drop(held);
                    let mut held = book.lock().unwrap();
                    let known = seen.len();
                    seen.extend(held.0[known..].iter().cloned());
                    held.1.push((number, known as u64));
                }
                seen.len()
            })
        })
        .collect();
    for thread in threads {
        thread.join().unwrap();
    }
    println!("{}", start.elapsed().as_nanos());
}
"""


JUDGED = 100000
RUNS = 3


def source(passes, turns):
    """The program's text, for these numbers of passes, each a power of two."""
    steps = max(passes).bit_length() - 1
    fans = [FAN.replace("NEXT", str(k + 1)).replace("LAST", str(k)) for k in range(steps)]
    runs = [RUN.replace("LAST", str(p.bit_length() - 1)) for p in passes]
    calls = [f"run_{p.bit_length() - 1}(&rt, alloc, &net, {turns // (2 * p)})?;" for p in passes]
    text = PROGRAM.replace("FUNCTIONS", "".join(fans + runs)).replace("CALLS", "\n    ".join(calls))
    return text.replace("MANY", str(JUDGED))


def with_board(program):
    """The nanoseconds that an entry takes to be judged, and for each number of passes those of all turns and the record's counts."""
    said = subprocess.run([program], input=b"go", stdout=subprocess.PIPE, check=True).stdout.decode().splitlines()
    counts = [[int(word) for word in line.split()] for line in said]
    return counts[0][0] / JUDGED, counts[1:]


def with_mutex(folder, passes, turns, work):
    """The nanoseconds that the list under a mutex takes for each number of passes; none where there is no `rustc`."""
    if not shutil.which("rustc"):
        print("rustc isn't there, so there is nothing beside the board")
        return [None] * len(passes)
    (folder / "mutex.rs").write_text(MUTEX)
    subprocess.run(["rustc", "-O", "-o", str(folder / "mutex"), str(folder / "mutex.rs")], check=True)
    runs = [[str(folder / "mutex"), str(p), str(turns // (2 * p)), str(round(work))] for p in passes]
    return [min(float(subprocess.run(run, stdout=subprocess.PIPE, check=True).stdout) for _ in range(RUNS)) for run in runs]


def main():
    words = argparse.ArgumentParser(description=__doc__, formatter_class=argparse.RawDescriptionHelpFormatter)
    words.add_argument("--turns", type=int, default=256000)
    words.add_argument("--passes", type=int, nargs="+", default=[1, 2, 4, 64])
    words.add_argument("--folder", type=Path)
    asked = words.parse_args()
    if not shutil.which("rt"):
        print("skipped: the toolchain's command rt is not there")
        return
    with tempfile.TemporaryDirectory() as made:
        folder = asked.folder or Path(made)
        program = built(folder, "board_bench", source(asked.passes, asked.turns), USES, SPECS)
        works, runs = zip(*(with_board(program) for _ in range(RUNS)))
        plain = with_mutex(folder, asked.passes, asked.turns, min(works))
    print(f"{min(works):.0f} ns to make and judge an entry")
    print("passes  turns/s: board     mutex  ratio   turns  missed  entries")
    for p, lines, nanos in zip(asked.passes, zip(*runs), plain):
        took, turns, missed, entries = min(lines)
        beside = f"{turns / nanos * 1e9:9.0f}  {nanos / took:5.2f}" if nanos else f"{'-':>9}  {'-':>5}"
        print(f"{p:6}  {turns / took * 1e9:14.0f}  {beside}  {turns:6}  {missed:6}  {entries:7}")


if __name__ == "__main__":
    main()
