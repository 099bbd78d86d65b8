#!/usr/bin/env bash
# Times turns at a turnstile and under a Mutex, in one run: turns a second with 1, 2 and 4 threads,
# empty turns and turns of about a microsecond. The program is written below. It is proved, built
# and run in a folder of its own, over the kept work of the crates below it where there is some.
# usage: bench/turns.sh [TURNS]
set -euo pipefail
turns="${1:-1000000}"
top="$(cd "$(dirname "$0")/.." && pwd)"
room="$(mktemp -d)"
trap 'rm -rf "$room"' EXIT

for crate in plain_lists refusal_codes turnstile; do
  mkdir -p "$room/crates"
  cp -r "$top/crates/$crate" "$room/crates/$crate"
  grep "^$crate[ :]" "$top/crates.txt" >>"$room/crates.txt"
done
echo 'turns: turnstile atomic_table refusal_codes' >>"$room/crates.txt"
cp "$top/HANDLES" "$room/"
mkdir -p "$room/crates/turns/src" "$room/crates/turns/proofs/"{take_turns,all_turns,at_turnstile}
cd "$room/crates/turns"

cat >src/main.rt <<PROGRAM
#![tactic(auto)]

ghost use Rattle.std.specs.Prelude.{◌≡◌, ◌<◌, false, [], All, length};

use refusal_codes::NoMemory;
use std::alloc::Global;
use std::io;
use std::sync::{Mutex, Wait};
use std::thread;
use std::thread::Threads;
use std::time::{Clock, Instant};
use turnstile::{Counted, Pass, Turnstile};

const TURNS: u64 = $turns;

const ROUNDS: u64 = 100_000_000;

/// A number that turns change. It stands for no entries.
#[derive(Drop)]
struct Number {
    value: u64,
}

impl Counted for Number {
    type Entry = u64;

    type Root = u64;

    ghost entries = { λ n. [] };

    ghost root = { λ n. 0 };

    fn count(&self) -> u64 {
        0
    }
}

impl Number {
    fn work(&mut self, rounds: u64) {
        let mut value = self.value;
        for round in 0..rounds {
            value = value
                .wrapping_mul(6_364_136_223_846_793_005)
                .wrapping_add(round);
        }
        self.value = value.wrapping_add(1);
    }
}

fn take_turns<R: Wait>(
    rt: &R,
    turnstile: &Turnstile<Number>,
    pass: &mut Pass<Number>,
    turns: u64,
    rounds: u64,
)
    requires { (pass.old.table ≡ turnstile.now.table) × (pass.old.is_out ≡ false) }
    ensures { (pass.new.table ≡ turnstile.now.table) × (pass.new.is_out ≡ false) }
{
    for _turn in 0..turns {
        let mut lent = turnstile.enter(rt, pass);
        lent.value.work(rounds);
        turnstile.leave(pass, lent);
    }
}

fn all_turns<R: Threads + Wait + Sync>(
    rt: &R,
    turnstile: &Turnstile<Number>,
    passes: &mut [Pass<Number>],
    turns: u64,
    rounds: u64,
)
    requires some { 0 < length passes.old }
    requires free { All (λ p. (p.table ≡ turnstile.now.table) × (p.is_out ≡ false)) passes.old }
{
    let threads = passes.len();
    thread::for_each_mut(
        rt,
        passes,
        threads,
        &|_, pass: &mut Pass<Number>|
            requires { (pass.old.table ≡ turnstile.now.table) × (pass.old.is_out ≡ false) }
        { take_turns(rt, turnstile, pass, turns, rounds) },
    );
}

fn lock_turns<R: Wait>(rt: &R, mutex: &Mutex<Number>, turns: u64, rounds: u64) {
    for _turn in 0..turns {
        mutex.lock(rt).work(rounds);
    }
}

/// Nanoseconds for all turns at a turnstile, or 0 where no clock can be read.
fn at_turnstile<R: Threads + Wait + Clock + Sync>(
    rt: &R,
    alloc: Global,
    threads: u32,
    rounds: u64,
) -> Result<u128, NoMemory>
    requires { 0 < threads }
{
    let number = Number { value: 1 };
    let (turnstile, mut passes) = Turnstile::new(alloc, number, threads)?;
    let each = TURNS / threads as u64;
    let start = Instant::now(rt);
    all_turns(rt, &turnstile, passes.as_mut_slice(), each, rounds);
    Ok(nanoseconds_since(rt, start))
}

/// The same under a lock.
fn under_mutex<R: Threads + Wait + Clock + Sync>(
    rt: &R,
    alloc: Global,
    threads: u32,
    rounds: u64,
) -> Result<u128, NoMemory>
    requires { 0 < threads }
{
    let mutex = Mutex::new(Number { value: 1 });
    let mut workers = Vec::with_capacity(alloc, threads as usize)?;
    for worker in 0..threads {
        workers.push(worker)?;
    }
    let each = TURNS / threads as u64;
    let start = Instant::now(rt);
    thread::for_each_mut(
        rt,
        workers.as_mut_slice(),
        threads as usize,
        &|_, _worker: &mut u32| lock_turns(rt, &mutex, each, rounds),
    );
    Ok(nanoseconds_since(rt, start))
}

fn nanoseconds_since<R: Clock>(rt: &R, start: io::Result<Instant>) -> u128 {
    let Ok(start) = start else {
        return 0;
    };
    match start.elapsed(rt) {
        Ok(time) => time.as_nanos(),
        Err(_) => 0,
    }
}

fn a_second(nanoseconds: u128) -> u128 {
    TURNS as u128 * 1_000_000_000 / nanoseconds.max(1)
}

fn compare<R: Threads + Wait + Clock + Sync + Print>(
    rt: &R,
    alloc: Global,
    threads: u32,
    rounds: u64,
) -> io::Result<()>
    requires { 0 < threads }
{
    let (Ok(turnstile), Ok(mutex)) = (
        at_turnstile(rt, alloc, threads, rounds),
        under_mutex(rt, alloc, threads, rounds),
    ) else {
        return println!(rt; "no memory");
    };
    let turnstile = a_second(turnstile);
    let mutex = a_second(mutex);
    print!(rt; "{threads} threads, {rounds} rounds: ")?;
    println!(rt; "turnstile {turnstile}, mutex {mutex} turns a second")
}

fn main(rt: HostRuntime) -> io::Result<()> {
    let mut number = Number { value: 1 };
    let start = Instant::now(&rt);
    number.work(ROUNDS);
    let micros = u64::try_from(nanoseconds_since(&rt, start) / 1000).unwrap_or(u64::MAX);
    let rounds = ROUNDS / micros.max(1);
    let told = number.value;
    println!(rt; "{TURNS} turns, and {rounds} rounds of work a microsecond ({told})")?;
    for work in [0, rounds] {
        compare(&rt, rt.alloc(), 1, work)?;
        compare(&rt, rt.alloc(), 2, work)?;
        compare(&rt, rt.alloc(), 4, work)?;
    }
    Ok(())
}
PROGRAM

cat >proofs/Lib.antt <<'PROOF'
pub mod Fresh
PROOF
cat >proofs/Fresh.antt <<'PROOF'
use Rattle.std.proofs.Common.{◌≡◌, ℕ, zero, suc, ◌+◌, false, refl}
use Rattle.std.specs.List.{All}
use Rattle.std.proofs.lemmas.List.Elements.{All-nil, All-cons}
use Rattle.turnstile.specs.Passes.{TurnstileView, PassView, new_pass, new_passes}

abbrev pub IsFree : TurnstileView → PassView ℕ ℕ → Type 0
IsFree t p = (p.table ≡ t.table) × (p.is_out ≡ false)

pub fresh : (t : TurnstileView) (root from n : ℕ)
    → All (IsFree t) (new_passes {E = ℕ} t.table root from n)
fresh t root from zero = All-nil (IsFree t)
fresh t root from (suc n) =
    All-cons (IsFree t) (new_pass t.table root from) (new_passes t.table root (from + 1) n)
        (refl, refl) (fresh t root (from + 1) n)
PROOF
cat >proofs/take_turns/Invariants.antt <<'PROOF'
use Rattle.std.proofs.Common.{◌≡◌, false}
use Rattle.turns.proofs.take_turns.Given as goal

abbrev pub invariant-loop-turn : goal.invariant-loop-turn
invariant-loop-turn g l = (l.pass.table ≡ l.turnstile.table) × (l.pass.is_out ≡ false)
PROOF
cat >proofs/all_turns/Answers.antt <<'PROOF'
use denote.Param.Send.{sendable}
use Rattle.std.proofs.Crossing.{crosses}
use Rattle.turnstile.specs.Sending.{seat_send}
use Rattle.turns.proofs.all_turns.Goals as goal

pub for_each_mut-requires-send-T : goal.for_each_mut-requires-send-T
for_each_mut-requires-send-T g c κs within = search (seat_send, sendable, crosses) depth 40
PROOF
cat >proofs/at_turnstile/Answers.antt <<'PROOF'
use Rattle.std.proofs.Common.{◌∙◌}
use Rattle.std.proofs.lemmas.List.Elements.{All-same}
use Rattle.turns.proofs.Fresh.{IsFree, fresh}
use Rattle.turns.proofs.at_turnstile.Goals as goal

pub all_turns-requires-clause-free : goal.all_turns-requires-clause-free
all_turns-requires-clause-free g c κs within =
    let t = c.in_ok-turnstile.turnstile in
    All-same (IsFree t) c.as_mut_slice.result.now _
        (c.as_mut_slice.ensures.value ∙ c.in_ok-turnstile.ensures.each) (fresh t 0 0 c.args.threads)
PROOF

rt run --jobs 1 >told 2>&1 || { cat told; exit 1; }
cat told
