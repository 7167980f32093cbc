#!/bin/sh
# Measures a turn beside std::sync::Mutex of Rust, one after the other, three times:
#   bench/turn_lock.sh [FOLDER]
# It makes a scratch repository in FOLDER (by default /tmp/turn_lock_bench) with the crate turn_lock and a program over
# it, and a Rust program that does the same over a Mutex. Both are optimized. It needs rt and rustc.
set -eu
here=$(cd "$(dirname "$0")/.." && pwd)
there=${1:-/tmp/turn_lock_bench}
mkdir -p "$there/crates/cost/src"
cp "$here/HANDLES" "$there/HANDLES"
rm -rf "$there/crates/turn_lock/src" "$there/crates/turn_lock/specs" "$there/crates/turn_lock/proofs"
mkdir -p "$there/crates/turn_lock"
cp -r "$here/crates/turn_lock/src" "$here/crates/turn_lock/specs" "$here/crates/turn_lock/proofs" "$there/crates/turn_lock/"
cat > "$there/crates.txt" <<'END'
turn_lock: atomic_table
cost: turn_lock
END
cat > "$there/crates/cost/src/main.rt" <<'END'
//! The cost of a turn with an empty closure: by one thread alone, and by four at once.
#![tactic(auto)]

ghost use Rattle.std.specs.Prelude.{◌≡◌, [], IfSome, All};

use std::io;
use std::sync::Wait;
use std::thread::{Threads, join};
use std::time::Instant;
use turn_lock::{Seat, Standing, Turn};

/// A value with no entry.
#[derive(Drop)]
struct Nothing;

impl Standing for Nothing {
    type Origin = ();

    type Entry = ();

    ghost origin = { λ _. tt };

    ghost list = { λ _. [] };

    ghost seat_of = { λ _. 0 };

    fn entries(&self) -> u64 {
        0
    }
}

type Place = Seat<(), ()>;

// The last of the seats.
fn last(turn: &Turn<Nothing>, seats: &mut Vec<Place>) -> Option<Place>
    requires { All (λ s. s.turn ≡ turn.now) seats.old.items }
    ensures taken { IfSome result (λ s. s.turn ≡ turn.now) }
    ensures left { All (λ s. s.turn ≡ turn.now) seats.new.items }
{
    seats.pop()
}

fn four(turn: &Turn<Nothing>, mut seats: Vec<Place>) -> Option<(Place, Place, Place, Place)>
    requires { All (λ s. s.turn ≡ turn.now) seats.items }
    ensures { IfSome result (λ r. (r.0.turn ≡ turn.now) × (r.1.turn ≡ turn.now) × (r.2.turn ≡ turn.now) × (r.3.turn ≡ turn.now)) }
{
    let d = last(turn, &mut seats)?;
    let c = last(turn, &mut seats)?;
    let b = last(turn, &mut seats)?;
    let a = last(turn, &mut seats)?;
    Some((a, b, c, d))
}

fn turns<W: Wait>(rt: &W, turn: &Turn<Nothing>, mut seat: Place, count: u64) -> Place
    requires { seat.turn ≡ turn.now }
    ensures { result.turn ≡ turn.now }
{
    for _ in 0..count {
        turn.with_change(rt, &mut seat, |_, _| ());
    }
    seat
}

fn by_four<R: Threads + Wait + Sync>(
    rt: &R,
    turn: &Turn<Nothing>,
    a: Place,
    b: Place,
    c: Place,
    d: Place,
    count: u64,
)
    requires { (a.turn ≡ turn.now) × (b.turn ≡ turn.now) × (c.turn ≡ turn.now) × (d.turn ≡ turn.now) }
{
    join(
        rt,
        move || requires { (a.turn ≡ turn.now) × (b.turn ≡ turn.now) } {
            join(
                rt,
                move || requires { a.turn ≡ turn.now } { drop(turns(rt, turn, a, count)) },
                move || requires { b.turn ≡ turn.now } { drop(turns(rt, turn, b, count)) },
            );
        },
        move || requires { (c.turn ≡ turn.now) × (d.turn ≡ turn.now) } {
            join(
                rt,
                move || requires { c.turn ≡ turn.now } { drop(turns(rt, turn, c, count)) },
                move || requires { d.turn ≡ turn.now } { drop(turns(rt, turn, d, count)) },
            );
        },
    );
}

const ALONE: u64 = 20_000_000;

const EACH: u64 = 5_000_000;

fn main(rt: HostRuntime) -> io::Result<()> {
    let Ok((turn, seats)) = Turn::new(rt.alloc(), Nothing, 4) else {
        return Ok(());
    };
    let Some((a, b, c, d)) = four(&turn, seats) else {
        return Ok(());
    };
    let start = Instant::now(&rt)?;
    let a = turns(&rt, &turn, a, ALONE);
    let alone = start.elapsed(&rt)?.as_nanos();
    let start = Instant::now(&rt)?;
    by_four(&rt, &turn, a, b, c, d, EACH);
    let four = start.elapsed(&rt)?.as_nanos().max(1);
    let per_call = alone / u128::from(ALONE);
    let per_second = 4 * u128::from(EACH) * 1_000_000_000 / four;
    println!(rt; "turn:  {per_call} ns alone, {per_second} calls a second by four threads")?;
    Ok(())
}
END
mkdir -p "$there/crates/cost/proofs/turns"
cat > "$there/crates/cost/proofs/turns/Invariants.antt" <<'END'
use Rattle.std.proofs.Common.{◌≡◌}
use Rattle.cost.proofs.turns.Given as goal

abbrev pub invariant-loop : goal.invariant-loop
invariant-loop g l = l.seat.turn ≡ l.fn.seat.turn
END
cat > "$there/mutex.rs" <<'END'
use std::hint::black_box;
use std::sync::Mutex;
use std::time::Instant;

const ALONE: u64 = 20_000_000;
const EACH: u64 = 5_000_000;

fn turns(lock: &Mutex<u64>, count: u64) {
    for _ in 0..count {
        let mut held = lock.lock().unwrap();
        black_box(&mut *held);
    }
}

fn main() {
    let lock = Mutex::new(0);
    let start = Instant::now();
    turns(&lock, ALONE);
    let alone = start.elapsed().as_nanos();
    let start = Instant::now();
    std::thread::scope(|scope| {
        for _ in 0..4 {
            scope.spawn(|| turns(&lock, EACH));
        }
    });
    let four = start.elapsed().as_nanos();
    println!(
        "mutex: {} ns alone, {} calls a second by four threads",
        alone / u128::from(ALONE),
        4 * u128::from(EACH) * 1_000_000_000 / four
    );
}
END
rustc -O -o "$there/mutex" "$there/mutex.rs"
cd "$there/crates/cost"
rt run >"$there/first.log" 2>&1 || { cat "$there/first.log"; exit 1; }
for _ in 1 2 3; do
    rt run 2>/dev/null | grep '^turn'
    "$there/mutex"
done
