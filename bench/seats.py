#!/usr/bin/env python3
"""Measures steps of a lake that seats share beside the plain steps of a lake: bench/seats.py [FOLDER]

In rounds that take turns in one process, a plain lake and a shared one, each with 1,000 staged keys, are asked for
each of the keys, and take a deletion at each of as many others. Then one seat of the shared lake looks 4,000 times,
and four seats, a thread each, look 1,000 times each. The scratch repository is in FOLDER (a new one by default). It
needs rt.
"""
import sys
import tempfile

import rounds
import scratch

PROGRAM = r'''//! What a step of a shared lake costs beside the plain step.
#![tactic(auto)]

ghost use Rattle.std.specs.Prelude.{◌≡◌, None, IfOk, IfSome};
ghost use Rattle.lake_model.specs.Uncommitted.{put_number};

mod said;

use commit_graph::RefExpr;
use fresh_lakes::fresh_lake;
use keeper::SureKeeper;
use lake_base::{Path, RefName, RepoName, Text};
use lake_core::Lake;
use lake_format::USUAL_CUT;
use lake_model::By;
use lake_values::{Change, Entry, Pairs, Place};
use said::{bad, say, told};
use shared_lake::{LakeSeat, Shared};
use std::alloc::Global;
use std::env;
use std::io;
use std::marker::Model;
use std::sync::Wait;
use std::thread::{Threads, for_each_mut};
use std::time::{Clock, Instant};

// What the steps name.
#[derive(Drop)]
struct Names {
    repo: RepoName,
    branch: RefName,
    e: RefExpr,
}

fn all_names(alloc: Global) -> io::Result<Names> {
    Ok(Names {
        repo: RepoName::read(alloc, b"quickstart".as_slice()).map_err(bad)?,
        branch: RefName::read(alloc, b"main".as_slice()).map_err(bad)?,
        e: RefExpr::read(alloc, b"main".as_slice()).map_err(bad)?,
    })
}

// So many paths that begin like this.
fn paths(alloc: Global, front: &[u8], count: u64) -> io::Result<Vec<Path>> {
    let mut paths = Vec::new(alloc);
    for number in 0..count {
        let mut text = Vec::from_slice(alloc, front)?;
        let digits = (1_000_000_000 + number % 1_000_000_000).to_string(alloc)?;
        text.extend_from_slice(digits.as_bytes())?;
        paths.push(Path::read(alloc, text.as_slice()).map_err(bad)?)?;
    }
    Ok(paths)
}

// The entry of an object outside is put.
fn change(alloc: Global) -> io::Result<Change>
    ensures { IfOk result (λ change. put_number change ≡ None) }
{
    let place = Place::External {
        at: Text::read(alloc, b"s3://x".as_slice(), 65536).map_err(bad)?,
        checksum: Text::read(alloc, b"".as_slice(), 65536).map_err(bad)?,
    };
    let content_type = Text::read(alloc, b"a/b".as_slice(), 65536).map_err(bad)?;
    if !Entry::can_hold(&place, &content_type) {
        return Err(io::Error::from(io::ErrorKind::InvalidData));
    }
    Ok(Change::Put(Entry {
        place,
        size: 9,
        mtime: 7,
        content_type,
        metadata: Pairs::new(alloc),
    }))
}

// A lake that one seat has alone.
fn plain_lake(alloc: Global) -> io::Result<Lake<SureKeeper>> {
    let keeper = SureKeeper::holding(alloc, Vec::new(alloc));
    Lake::opened(alloc, keeper, USUAL_CUT).map_err(bad)
}

// Puts an entry at each path.
fn plain_puts(alloc: Global, lake: &mut Lake<SureKeeper>, names: &Names, paths: Vec<Path>) -> io::Result<()> {
    let by = By { seat: 0, call: 1 };
    for path in paths {
        lake.stage(by, &names.repo, &names.branch, 1, path, change(alloc)?).map_err(bad)?;
    }
    Ok(())
}

// Deletes what stands at each path.
fn plain_deletes(lake: &mut Lake<SureKeeper>, names: &Names, paths: Vec<Path>) -> io::Result<()> {
    let by = By { seat: 0, call: 1 };
    for path in paths {
        lake.stage(by, &names.repo, &names.branch, 1, path, Change::Delete).map_err(bad)?;
    }
    Ok(())
}

// At how many of the paths something stands.
fn plain_looks(lake: &Lake<SureKeeper>, names: &Names, paths: &[Path]) -> io::Result<u64> {
    let mut met = 0u64;
    for path in paths {
        if lake.look(&names.repo, &names.e, path).map_err(bad)?.found.is_some() {
            met = met.wrapping_add(1);
        }
    }
    Ok(met)
}

/// A seat at a shared lake. Contracts see what it met.
#[derive(Drop)]
struct Desk<'a> {
    lake: &'a Shared<SureKeeper>,
    seat: LakeSeat,
    met: u64,
}

impl<'a> Model for Desk<'a> {
    ghost use Rattle.std.specs.Prelude.{◌≡◌, ℕ};

    ghost Value = { ℕ };

    ghost view = { λ desk. desk.met };

    ghost invariant = { λ desk. desk.seat.turn ≡ desk.lake.now };
}

impl<'a> Desk<'a> {
    // Puts an entry at each path.
    fn put<W: Wait>(&mut self, rt: &W, alloc: Global, names: &Names, paths: Vec<Path>) -> io::Result<()> {
        for path in paths {
            self.stage(rt, names, path, change(alloc)?)?;
        }
        Ok(())
    }

    // Deletes what stands at each path.
    fn delete<W: Wait>(&mut self, rt: &W, names: &Names, paths: Vec<Path>) -> io::Result<()> {
        for path in paths {
            self.stage(rt, names, path, Change::Delete)?;
        }
        Ok(())
    }

    fn stage<W: Wait>(&mut self, rt: &W, names: &Names, path: Path, change: Change) -> io::Result<()>
        requires { put_number change ≡ None }
    {
        self.lake.stage(rt, &mut self.seat, 1, &names.repo, &names.branch, 1, path, change).map_err(bad)?;
        Ok(())
    }

    // Looks at each path, so often.
    fn look<W: Wait>(&mut self, rt: &W, names: &Names, paths: &[Path], times: u64) {
        for _ in 0..times {
            for path in paths {
                self.look_once(rt, names, path);
            }
        }
    }

    fn look_once<W: Wait>(&mut self, rt: &W, names: &Names, path: &Path) {
        if let Ok(seen) = self.lake.look(rt, &mut self.seat, &names.repo, &names.e, path) {
            if seen.found.is_some() {
                self.met = self.met.wrapping_add(1);
            }
        }
    }
}

fn desk_at<'a>(lake: &'a Shared<SureKeeper>, seat: Option<LakeSeat>) -> io::Result<Desk<'a>>
    requires { IfSome seat (λ seat. seat.turn ≡ lake.now) }
{
    match seat {
        Some(seat) => Ok(Desk { lake, seat, met: 0 }),
        None => Err(io::Error::from(io::ErrorKind::InvalidData)),
    }
}

// The desks look at each path, all at once.
fn look_at_once<R: Threads + Wait + Sync>(
    rt: &R,
    desks: &mut [Desk<'_>],
    names: &Names,
    paths: &[Path],
    times: u64,
) {
    let look = |_: usize, desk: &mut Desk<'_>| { desk.look(rt, names, paths, times) };
    for_each_mut(rt, desks, 4, &look);
}

const TIMES: u64 = 40;

// The rounds, with one desk apart and four that look at once.
fn in_rounds<R: Threads + Wait + Sync + Print + Clock + AllocGlobal>(
    rt: &R,
    names: &Names,
    plain: &mut Lake<SureKeeper>,
    one: &mut Desk<'_>,
    four: &mut [Desk<'_>],
    rounds: u64,
) -> io::Result<()> {
    let alloc = rt.alloc();
    plain_puts(alloc, plain, names, paths(alloc, b"tables/part-".as_slice(), 1_000)?)?;
    one.put(rt, alloc, names, paths(alloc, b"tables/part-".as_slice(), 1_000)?)?;
    let keys = paths(alloc, b"tables/part-".as_slice(), 1_000)?;
    for round in 0..rounds {
        let start = Instant::now(rt)?;
        let met = plain_looks(plain, names, keys.as_slice())?;
        say(rt, "plain_look", start.elapsed(rt)?)?;
        let start = Instant::now(rt)?;
        one.look(rt, names, keys.as_slice(), 1);
        say(rt, "shared_look", start.elapsed(rt)?)?;
        told(rt, "met", met)?;
        let gone = paths(alloc, b"tables/gone-".as_slice(), 1_000)?;
        let start = Instant::now(rt)?;
        plain_deletes(plain, names, gone)?;
        say(rt, "plain_stage", start.elapsed(rt)?)?;
        let gone = paths(alloc, b"tables/gone-".as_slice(), 1_000)?;
        let start = Instant::now(rt)?;
        one.delete(rt, names, gone)?;
        say(rt, "shared_stage", start.elapsed(rt)?)?;
        if round % 8 == 0 {
            let start = Instant::now(rt)?;
            one.look(rt, names, keys.as_slice(), 4 * TIMES);
            say(rt, "alone", start.elapsed(rt)?)?;
            let start = Instant::now(rt)?;
            look_at_once(rt, four, names, keys.as_slice(), TIMES);
            say(rt, "at_once", start.elapsed(rt)?)?;
        }
    }
    told(rt, "one", one.met)
}

fn main(rt: HostRuntime) -> io::Result<()> {
    let Some(count) = env::args(&rt)?.skip(1).next() else {
        return Ok(());
    };
    let count: u64 = count.as_str().parse().map_err(bad)?;
    measure(&rt, count)
}

fn measure<R: Threads + Wait + Sync + Print + Clock + AllocGlobal>(rt: &R, rounds: u64) -> io::Result<()> {
    let alloc = rt.alloc();
    let names = all_names(alloc)?;
    let mut plain = plain_lake(alloc)?;
    let (lake, mut seats) = fresh_lake(alloc, 5).map_err(bad)?;
    let mut one = desk_at(&lake, seats.pop())?;
    let mut four = Vec::new(alloc);
    four.push(desk_at(&lake, seats.pop())?)?;
    four.push(desk_at(&lake, seats.pop())?)?;
    four.push(desk_at(&lake, seats.pop())?)?;
    four.push(desk_at(&lake, seats.pop())?)?;
    in_rounds(rt, &names, &mut plain, &mut one, four.as_mut_slice(), rounds)?;
    let mut met = 0u64;
    for desk in four.as_slice() {
        met = met.wrapping_add(desk.met);
    }
    told(rt, "four", met)
}
'''

STANDS_ON = ['lake_base', 'lake_values', 'lake_format', 'commit_graph', 'keeper', 'lake_model', 'lake_core', 'shared_lake',
             'fresh_lakes']


def main():
    folder = sys.argv[1] if len(sys.argv) > 1 else tempfile.mkdtemp(prefix='seats-')
    program = scratch.built(folder, 'seat_cost', PROGRAM, STANDS_ON, {'said': rounds.SAID})
    found = rounds.told([program, '201'])
    for what in ('look', 'stage'):
        times, one, other = rounds.ratio(found, 'shared_' + what, 'plain_' + what)
        print(f'a shared {what}: {one / 1000:.0f} ns, the plain step {other / 1000:.0f} ns: {times:.2f} times')
    times, alone, at_once = rounds.ratio(found, 'alone', 'at_once')
    print(f'160,000 looks by one seat: {alone / 1e6:.0f} ms, by four at once {at_once / 1e6:.0f} ms: '
          f'{times:.2f} times as much in the same time')


if __name__ == '__main__':
    main()
