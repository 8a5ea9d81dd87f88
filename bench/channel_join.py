#!/usr/bin/env python3
"""Time of a join of a channel, as a ratio to a plain atomic increment.

usage: bench/channel_join.py [RUNS]

Copies the crates below channel_cell into a temporary repository, adds the program that stands here as
text, proves and builds it with rt, and runs it RUNS times (5 if it isn't given). Each time is the least of
the runs. A join on one thread is three moves: an offer that stands, the offer that joins it, and the recall
that finds the join. Over two threads each end makes 400,000 moves: it offers, lets an offer that stands do
so for twenty increments of a counter of its own, and recalls it. The time of both threads over the number
of joins depends on how often the threads meet. The first build proves every crate, in some minutes.
Machines are noisy: read the ratios.
"""
import os
import shutil
import subprocess
import sys
import tempfile

TOP = os.path.dirname(os.path.dirname(os.path.abspath(__file__)))
CELL = "channel_cell"
NAME = "join_time"

MAIN = """\
//! Times an atomic increment, joins on one thread and joins over two threads.
#![tactic(auto)]

ghost use Rattle.std.specs.Prelude.{◌≡◌, ◌≤◌};
ghost use Rattle.java_values.specs.declared.kind.Kind.TheVariants as kinds;

use anyhow::Result;
use channel_cell::{Channel, ReceiverEnd, SenderEnd, settle};
use java_values::Kind;
use std::sync::atomic::{AtomicU64, Ordering};
use std::thread::join;
use std::time::{Duration, Instant};

const OFFERS: u32 = 200_000;

const MOVES: u32 = 400_000;

const INCREMENTS: u32 = 10_000_000;

// How many increments of its own counter an end lets its offer stand.
const STAND: u32 = 20;

fn increments(counter: &AtomicU64, count: u32) {
    for _ in 0..count {
        counter.fetch_add(1, Ordering::SeqCst);
    }
}

fn meet(sender: &mut SenderEnd, receiver: &mut ReceiverEnd)
    requires kind { sender.old.kind ≡ kinds.Int }
    requires sender_room { 400001 ≤ sender.old.room }
    requires receiver_room { 400001 ≤ receiver.old.room }
    ensures sender { (sender.new.channel ≡ sender.old.channel) × (1 ≤ sender.new.room) }
    ensures receiver { (receiver.new.channel ≡ receiver.old.channel) × (1 ≤ receiver.new.room) }
{
    for i in 0..OFFERS {
        let stamp = u64::from(i);
        if !receiver.standing() {
            receiver.offer(stamp);
        }
        if !sender.standing() {
            sender.offer(7, stamp);
        }
        if receiver.standing() {
            receiver.recall();
        }
    }
}

fn send(mut end: SenderEnd) -> SenderEnd
    requires { (400001 ≤ end.room) × (end.kind ≡ kinds.Int) }
    ensures { (result.channel ≡ end.channel) × (1 ≤ result.room) }
{
    let counter = AtomicU64::new(0);
    for i in 0..MOVES {
        if end.standing() {
            increments(&counter, STAND);
            end.recall();
        } else {
            end.offer(7, u64::from(i));
        }
    }
    end
}

fn receive(mut end: ReceiverEnd) -> ReceiverEnd
    requires { 400001 ≤ end.room }
    ensures { (result.channel ≡ end.channel) × (1 ≤ result.room) }
{
    let counter = AtomicU64::new(0);
    for i in 0..MOVES {
        if end.standing() {
            increments(&counter, STAND);
            end.recall();
        } else {
            end.offer(u64::from(i));
        }
    }
    end
}

fn print(rt: &HostRuntime, what: &str, time: Duration, count: u32) -> Result<()> {
    println!(rt; "{what} {} {count}", time.as_nanos())?;
    Ok(())
}

fn main(rt: HostRuntime) -> Result<()> {
    let counter = AtomicU64::new(0);
    let start = Instant::now(&rt)?;
    increments(&counter, INCREMENTS);
    print(&rt, "increment", start.elapsed(&rt)?, INCREMENTS)?;

    let (mut sender, mut receiver) = Channel::open(rt.alloc(), Kind::Int, OFFERS)?;
    let start = Instant::now(&rt)?;
    meet(&mut sender, &mut receiver);
    let time = start.elapsed(&rt)?;
    print(&rt, "one", time, settle(sender, receiver).joins)?;

    let (sender, receiver) = Channel::open(rt.alloc(), Kind::Int, OFFERS)?;
    let start = Instant::now(&rt)?;
    let (sender, receiver) = join(
        &rt,
        move || -> SenderEnd
            requires { (400001 ≤ sender.room) × (sender.kind ≡ kinds.Int) }
            ensures { (result.channel ≡ sender.channel) × (1 ≤ result.room) }
        { send(sender) },
        move || -> ReceiverEnd
            requires { 400001 ≤ receiver.room }
            ensures { (result.channel ≡ receiver.channel) × (1 ≤ result.room) }
        { receive(receiver) },
    );
    let time = start.elapsed(&rt)?;
    print(&rt, "two", time, settle(sender, receiver).joins)
}
"""

INVARIANT = """\
use Rattle.std.proofs.Common.{{◌≡◌, ◌+◌, ◌*◌, ◌≤◌}}
use Rattle.join_time.proofs.{function}.Given as goal

abbrev pub invariant-loop-i : goal.invariant-loop-i
invariant-loop-i l = {fact}
"""

FACTS = {
    "meet": "(l.sender.channel ≡ l.fn.sender.channel) × (l.receiver.channel ≡ l.fn.receiver.channel)"
    " × (l.sender.kind ≡ l.fn.sender.kind) × (400001 ≤ l.sender.room + l.i)"
    " × (400001 ≤ l.receiver.room + 2 * l.i)",
    "send": "(l.end.channel ≡ l.fn.end.channel) × (l.end.kind ≡ l.fn.end.kind)"
    " × (l.end.room + l.i ≡ l.fn.end.room)",
    "receive": "(l.end.channel ≡ l.fn.end.channel) × (l.end.room + l.i ≡ l.fn.end.room)",
}


def crates_below(name, lines):
    """The crates of the repository that a crate stands on, with itself."""
    if name not in lines:
        return set()
    below = {name}
    for low in lines[name].split(":", 1)[1].split():
        below |= crates_below(low, lines)
    return below


def write(path, text):
    os.makedirs(os.path.dirname(path), exist_ok=True)
    with open(path, "w", encoding="utf-8") as out:
        out.write(text)


def make_repository(folder):
    with open(os.path.join(TOP, "crates.txt"), encoding="utf-8") as file:
        lines = {line.split(":")[0].split()[0]: line.strip() for line in file if line.strip()}
    needed = crates_below(CELL, lines)
    for name in needed:
        shutil.copytree(
            os.path.join(TOP, "crates", name),
            os.path.join(folder, "crates", name),
            ignore=shutil.ignore_patterns("out", "must-fail"),
        )
    shutil.copy(os.path.join(TOP, "HANDLES"), folder)
    kept = [lines[name] for name in lines if name in needed]
    write(os.path.join(folder, "crates.txt"), "\n".join(kept + [f"{NAME}: {CELL} java_values anyhow", ""]))
    crate = os.path.join(folder, "crates", NAME)
    write(os.path.join(crate, "src", "main.rt"), MAIN)
    for function, fact in FACTS.items():
        path = os.path.join(crate, "proofs", function, "Invariants.antt")
        write(path, INVARIANT.format(function=function, fact=fact))
    return crate


def times(output):
    """Nanoseconds for each increment and for each join, by the lines of the program."""
    found = {}
    for line in output.splitlines():
        words = line.split()
        if len(words) == 3 and words[0] in ("increment", "one", "two") and int(words[2]):
            found[words[0]] = (int(words[1]) / int(words[2]), int(words[2]))
    return found


def main():
    runs = int(sys.argv[1]) if len(sys.argv) > 1 else 5
    best = {}
    with tempfile.TemporaryDirectory() as folder:
        crate = make_repository(folder)
        for _ in range(runs):
            ran = subprocess.run(["rt", "run"], cwd=crate, capture_output=True, text=True, check=False)
            if ran.returncode:
                sys.exit(ran.stdout + ran.stderr)
            for what, got in times(ran.stdout).items():
                best[what] = min(best.get(what, got), got)
    plain = best["increment"][0]
    print(f"a plain atomic increment    {plain:8.1f} ns")
    for what, title in (("one", "a join on one thread"), ("two", "a join over two threads")):
        if what in best:
            each, joins = best[what]
            print(f"{title:26}  {each:8.1f} ns  ratio {each / plain:7.1f}  ({joins:,} joins)")
        else:
            print(f"{title:26}  none was made")


if __name__ == "__main__":
    main()
