#!/usr/bin/env python3
"""Measures calls of several steps beside their parts: bench/flows.py [FOLDER [PART..]]

`bodies`: objects of 1 KiB and of 64 MiB are put, in turns with the toolchain's sha2 on the same bytes.

`commits`: on lakes of 1,000, 100,000 and 1,000,000 keys, one path is changed and committed: by the plain steps of a
lake, by those of a shared lake, and by the whole call. What a commit does under the turn are the seal, the reading of
what it is made from, and the swap; the draft is made outside of it. KEYS in the place of `commits` names one number of
keys.

Both parts are measured by default, each in rounds that take turns in one process. The scratch repository is in FOLDER
(a new one by default). It needs rt.
"""
import os
import statistics
import sys
import tempfile

import rounds
import scratch

BODIES = r'''//! What it costs to put an object beside SHA-256 of its bytes.
#![tactic(auto)]

mod said;

use block_store::SureBlocks;
use fresh_lakes::lone_lake;
use keeper::SureKeeper;
use lake_base::{Path, RefName, RepoName, Text};
use said::{bad, say, told};
use sha2::{Digest, Sha256};
use shared_lake::{Client, LakeSeat, NoPause, Shared};
use std::alloc::Global;
use std::env;
use std::io;
use std::marker::Model;
use std::sync::Wait;
use std::time::{Clock, Instant};
use write_flow::put_object;

// Where objects are put.
#[derive(Drop)]
struct Target {
    repo: RepoName,
    branch: RefName,
    path: Path,
}

fn new_target(alloc: Global) -> io::Result<Target> {
    Ok(Target {
        repo: RepoName::read(alloc, b"quickstart".as_slice()).map_err(bad)?,
        branch: RefName::read(alloc, b"main".as_slice()).map_err(bad)?,
        path: Path::read(alloc, b"tables/part-0".as_slice()).map_err(bad)?,
    })
}

/// A seat at a lake, with its own store of objects. Contracts see how many it put.
#[derive(Drop)]
struct Desk<'a> {
    lake: &'a Shared<SureKeeper>,
    seat: LakeSeat,
    blocks: SureBlocks,
    put: u64,
}

impl<'a> Model for Desk<'a> {
    ghost use Rattle.std.specs.Prelude.{◌≡◌, ℕ};

    ghost Value = { ℕ };

    ghost view = { λ desk. desk.put };

    ghost invariant = { λ desk. desk.seat.turn ≡ desk.lake.now };
}

impl<'a> Desk<'a> {
    // Puts a body, so often.
    fn put<W: Wait>(&mut self, rt: &W, alloc: Global, target: &Target, body: &[u8], times: u64) -> io::Result<()> {
        for _ in 0..times {
            self.put_once(rt, alloc, target, body)?;
        }
        Ok(())
    }

    fn put_once<W: Wait>(&mut self, rt: &W, alloc: Global, target: &Target, body: &[u8]) -> io::Result<()> {
        let content_type = Text::read(alloc, b"a/b".as_slice(), 255).map_err(bad)?;
        let mut pause = NoPause;
        let mut client = Client {
            blocks: &mut self.blocks,
            pause: &mut pause,
            now: 7,
            call: 1,
        };
        let answer = put_object(
            rt,
            alloc,
            self.lake,
            &mut self.seat,
            &mut client,
            &target.repo,
            &target.branch,
            &target.path,
            body,
            &content_type,
        );
        answer.outcome.map_err(bad)?;
        self.put = self.put.saturating_add(1);
        Ok(())
    }

    // Drops the bodies.
    fn clear(&mut self, alloc: Global) {
        self.blocks = SureBlocks::new(alloc);
    }
}

fn hashes(bytes: &[u8], times: u64) -> u64 {
    let mut sum = 0u64;
    for _ in 0..times {
        sum = sum.wrapping_add(u64::from(Sha256::digest(bytes)[0]));
    }
    sum
}

fn in_rounds<R: Wait + Print + Clock + AllocGlobal>(
    rt: &R,
    desk: &mut Desk<'_>,
    length: u64,
    times: u64,
    rounds: u64,
) -> io::Result<()> {
    let alloc = rt.alloc();
    let target = new_target(alloc)?;
    let mut body = Vec::new(alloc);
    for number in 0..length {
        body.push((number % 251) as u8)?;
    }
    for _ in 0..rounds {
        let start = Instant::now(rt)?;
        desk.put(rt, alloc, &target, body.as_slice(), times)?;
        say(rt, "put", start.elapsed(rt)?)?;
        let start = Instant::now(rt)?;
        let sum = hashes(body.as_slice(), times);
        say(rt, "sha2", start.elapsed(rt)?)?;
        told(rt, "sum", sum)?;
        desk.clear(alloc);
    }
    told(rt, "all", desk.put)
}

fn main(rt: HostRuntime) -> io::Result<()> {
    let mut words = env::args(&rt)?.skip(1);
    let (Some(length), Some(times), Some(rounds)) = (words.next(), words.next(), words.next()) else {
        return Ok(());
    };
    let length: u64 = length.as_str().parse().map_err(bad)?;
    let times: u64 = times.as_str().parse().map_err(bad)?;
    let rounds: u64 = rounds.as_str().parse().map_err(bad)?;
    let (lake, seat, _) = lone_lake(rt.alloc()).map_err(bad)?;
    let mut desk = Desk {
        lake: &lake,
        seat,
        blocks: SureBlocks::new(rt.alloc()),
        put: 0,
    };
    in_rounds(&rt, &mut desk, length, times, rounds)
}
'''

COMMITS = r'''//! What a commit of one path costs, by its steps and as a whole.
#![tactic(auto)]

ghost use Rattle.std.specs.Prelude.{◌≡◌, ◌<◌, None, All, IfOk, IsTrue};
ghost use Rattle.lake_model.specs.Uncommitted.{put_number};

mod said;

use block_store::SureBlocks;
use commit_flow::commit;
use head_drafts::draft_head;
use head_steps::head_once;
use keeper::SureKeeper;
use lake_base::{Path, RefName, RepoName, Text, TryCopy};
use lake_calls::CommitCall;
use lake_core::Lake;
use lake_format::USUAL_CUT;
use lake_model::{By, SealFor, SwapKind};
use lake_values::{About, Change, Entry, Pairs, Place};
use said::{bad, say, told};
use shared_lake::{Client, LakeSeat, NoPause, Pause, Shared};
use std::alloc::Global;
use std::env;
use std::io;
use std::marker::Model;
use std::sync::Wait;
use std::time::{Clock, Instant};

fn none() -> io::Error {
    io::Error::from(io::ErrorKind::InvalidData)
}

// What the steps name and say.
#[derive(Drop)]
struct Words {
    repo: RepoName,
    branch: RefName,
    about: About,
}

fn what_is_said(alloc: Global) -> io::Result<Words> {
    let committer = Text::read(alloc, b"me".as_slice(), 128).map_err(bad)?;
    let message = Text::read(alloc, b"one path".as_slice(), 128).map_err(bad)?;
    if !CommitCall::fits(&committer, &message) {
        return Err(none());
    }
    Ok(Words {
        repo: RepoName::read(alloc, b"quickstart".as_slice()).map_err(bad)?,
        branch: RefName::read(alloc, b"main".as_slice()).map_err(bad)?,
        about: About {
            committer,
            message,
            metadata: Pairs::new(alloc),
            date: 7,
        },
    })
}

fn path(alloc: Global, number: u64) -> io::Result<Path> {
    let mut text = Vec::from_slice(alloc, b"tables/part-".as_slice())?;
    let digits = (1_000_000_000 + number % 1_000_000_000).to_string(alloc)?;
    text.extend_from_slice(digits.as_bytes())?;
    Path::read(alloc, text.as_slice()).map_err(bad)
}

// The entry of an object outside, of this size, is put.
fn change(alloc: Global, size: u64) -> io::Result<Change>
    ensures { IfOk result (λ change. put_number change ≡ None) }
{
    let place = Place::External {
        at: Text::read(alloc, b"s3://x".as_slice(), 65536).map_err(bad)?,
        checksum: Text::read(alloc, b"".as_slice(), 65536).map_err(bad)?,
    };
    let content_type = Text::read(alloc, b"a/b".as_slice(), 65536).map_err(bad)?;
    if !Entry::can_hold(&place, &content_type) {
        return Err(none());
    }
    Ok(Change::Put(Entry {
        place,
        size,
        mtime: 7,
        content_type,
        metadata: Pairs::new(alloc),
    }))
}

// Stages an entry at this path.
fn put(alloc: Global, lake: &mut Lake<SureKeeper>, said: &Words, number: u64, size: u64) -> io::Result<()> {
    let by = By { seat: 0, call: 1 };
    let version = lake.versions(&said.repo, &said.branch).map_err(bad)?.version;
    let path = path(alloc, number)?;
    let change = change(alloc, size)?;
    lake.stage(by, &said.repo, &said.branch, version, path, change).map_err(bad)?;
    Ok(())
}

// Commits by the steps of a lake, each told with its time.
fn plain_commit<R: Wait + Print + Clock + AllocGlobal>(rt: &R, lake: &mut Lake<SureKeeper>, said: &Words) -> io::Result<()> {
    let alloc = rt.alloc();
    let by = By { seat: 0, call: 1 };
    let start = Instant::now(rt)?;
    lake.seal(by, &said.repo, &said.branch, SealFor::Commit).map_err(bad)?;
    say(rt, "plain_seal", start.elapsed(rt)?)?;
    let start = Instant::now(rt)?;
    let prepared = lake.prepare(&said.repo, &said.branch, None).map_err(bad)?;
    say(rt, "plain_prepare", start.elapsed(rt)?)?;
    drop(prepared);
    let about = said.about.copy(alloc).map_err(bad)?;
    let start = Instant::now(rt)?;
    let head = draft_head(alloc, lake, &said.repo, &said.branch, SwapKind::Commit, &about).map_err(bad)?;
    say(rt, "draft", start.elapsed(rt)?)?;
    let (version, settings) = (head.version, head.settings);
    let start = Instant::now(rt)?;
    lake.swap(by, &said.repo, &said.branch, version, settings, SwapKind::Commit, about, head.tree).map_err(bad)?;
    say(rt, "plain_swap", start.elapsed(rt)?)
}

/// A pause that keeps its last moment.
#[derive(Drop)]
struct Clocked<'a, R> {
    rt: &'a R,
    at: Option<Instant>,
}

impl<'a, R: Clock> Pause for Clocked<'a, R> {
    ghost use Rattle.std.specs.Prelude.{None};

    ghost calls = { λ _. None };

    fn between(&mut self) {
        self.at = Instant::now(self.rt).ok();
    }
}

/// A seat at a shared lake. Contracts see how many commits it made.
#[derive(Drop)]
struct Desk<'a> {
    lake: &'a Shared<SureKeeper>,
    seat: LakeSeat,
    made: u64,
}

impl<'a> Model for Desk<'a> {
    ghost use Rattle.std.specs.Prelude.{◌≡◌, ℕ};

    ghost Value = { ℕ };

    ghost view = { λ desk. desk.made };

    ghost invariant = { λ desk. desk.seat.turn ≡ desk.lake.now };
}

impl<'a> Desk<'a> {
    // Stages an entry at this path.
    fn put<R: Wait + Print + Clock + AllocGlobal>(&mut self, rt: &R, said: &Words, number: u64, size: u64) -> io::Result<()> {
        let alloc = rt.alloc();
        let versions = self.lake.versions(rt, &mut self.seat, &said.repo, &said.branch).map_err(bad)?;
        let path = path(alloc, number)?;
        let change = change(alloc, size)?;
        self.lake
            .stage(rt, &mut self.seat, 1, &said.repo, &said.branch, versions.version, path, change)
            .map_err(bad)?;
        Ok(())
    }

    // Commits by the steps, each told with its time.
    fn commit_by_steps<R: Wait + Print + Clock + AllocGlobal>(&mut self, rt: &R, said: &Words) -> io::Result<()> {
        let start = Instant::now(rt)?;
        self.lake.seal(rt, &mut self.seat, 1, &said.repo, &said.branch, SealFor::Commit).map_err(bad)?;
        say(rt, "shared_seal", start.elapsed(rt)?)?;
        let start = Instant::now(rt)?;
        let prepared = self.lake.prepare(rt, &mut self.seat, &said.repo, &said.branch, None).map_err(bad)?;
        say(rt, "shared_prepare", start.elapsed(rt)?)?;
        drop(prepared);
        let mut pause = Clocked { rt, at: None };
        let kind = SwapKind::Commit;
        let made = head_once(
            rt,
            rt.alloc(),
            self.lake,
            &mut self.seat,
            &mut pause,
            1,
            &said.repo,
            &said.branch,
            kind,
            &said.about,
        );
        let Some(start) = pause.at else {
            return Err(none());
        };
        say(rt, "shared_swap", start.elapsed(rt)?)?;
        made.map_err(bad)?;
        self.made = self.made.saturating_add(1);
        Ok(())
    }

    // Commits by the whole call, told with its time.
    fn commit_at_once<R: Wait + Print + Clock + AllocGlobal>(&mut self, rt: &R, said: &Words) -> io::Result<()> {
        let about = said.about.copy(rt.alloc()).map_err(bad)?;
        let mut blocks = SureBlocks::new(rt.alloc());
        let mut pause = NoPause;
        let mut client = Client {
            blocks: &mut blocks,
            pause: &mut pause,
            now: 7,
            call: 1,
        };
        let start = Instant::now(rt)?;
        let answer =
            commit(rt, rt.alloc(), self.lake, &mut self.seat, &mut client, &said.repo, &said.branch, about);
        say(rt, "whole", start.elapsed(rt)?)?;
        answer.outcome.map_err(bad)?;
        self.made = self.made.saturating_add(1);
        Ok(())
    }
}

// Whether all entries are of the first seat.
fn is_of_one(lake: &Lake<SureKeeper>) -> bool
    ensures { IsTrue result → All (λ e. e.by.seat < 1) lake.now.history }
{
    lake.history().iter().all(|entry| entry.by.seat < 1)
}

// Two commits of a shared lake: by its steps, and at once.
fn shared_commits<R: Wait + Print + Clock + AllocGlobal>(
    rt: &R,
    lake: &Shared<SureKeeper>,
    seat: LakeSeat,
    said: &Words,
    number: u64,
    size: u64,
) -> io::Result<LakeSeat>
    requires { seat.turn ≡ lake.now }
    ensures { IfOk result (λ seat. seat.turn ≡ lake.now) }
{
    let mut desk = Desk { lake, seat, made: 0 };
    desk.put(rt, said, number, size)?;
    desk.commit_by_steps(rt, said)?;
    desk.put(rt, said, number, size.wrapping_add(1))?;
    desk.commit_at_once(rt, said)?;
    Ok(desk.seat)
}

// A round: a commit by the plain steps, and two of the same lake behind a turn.
fn round<R: Wait + Print + Clock + AllocGlobal>(
    rt: &R,
    lake: Lake<SureKeeper>,
    said: &Words,
    number: u64,
    size: u64,
) -> io::Result<Lake<SureKeeper>> {
    let mut lake = lake;
    put(rt.alloc(), &mut lake, said, number, size)?;
    plain_commit(rt, &mut lake, said)?;
    if !is_of_one(&lake) {
        return Err(none());
    }
    let (shared, mut seats) = Shared::new(rt.alloc(), lake, 1).map_err(bad)?;
    let seat = seats.pop().ok_or(none())?;
    let seat = shared_commits(rt, &shared, seat, said, number, size.wrapping_add(1))?;
    let mut seats = Vec::new(rt.alloc());
    seats.push(seat)?;
    Ok(shared.close(rt, seats))
}

// A lake of so many keys, all committed.
fn lake_of<R: Wait + Print + Clock + AllocGlobal>(rt: &R, said: &Words, keys: u64) -> io::Result<Lake<SureKeeper>> {
    let alloc = rt.alloc();
    let keeper = SureKeeper::holding(alloc, Vec::new(alloc));
    let mut lake = Lake::opened(alloc, keeper, USUAL_CUT).map_err(bad)?;
    for number in 0..keys {
        put(alloc, &mut lake, said, number, 1)?;
    }
    plain_commit(rt, &mut lake, said)?;
    Ok(lake)
}

fn main(rt: HostRuntime) -> io::Result<()> {
    let mut words = env::args(&rt)?.skip(1);
    let (Some(keys), Some(rounds)) = (words.next(), words.next()) else {
        return Ok(());
    };
    let keys: u64 = keys.as_str().parse().map_err(bad)?;
    let rounds: u64 = rounds.as_str().parse().map_err(bad)?;
    let said = what_is_said(rt.alloc())?;
    let mut lake = lake_of(&rt, &said, keys)?;
    for number in 0..rounds {
        lake = round(&rt, lake, &said, keys / 2, 3u64.saturating_mul(number).saturating_add(2))?;
    }
    told(&rt, "entries", lake.entries())
}
'''


def bodies(folder):
    program = scratch.built(folder, 'body_cost', BODIES,
                            ['lake_base', 'keeper', 'shared_lake', 'write_flow', 'block_store', 'fresh_lakes', 'sha2'],
                            {'said': rounds.SAID})
    for length, times, many in ((1_024, 100, 401), (67_108_864, 1, 15)):
        found = rounds.told([program, str(length), str(times), str(many)])
        part, one, other = rounds.ratio(found, 'put', 'sha2')
        print(f'put_object of {length} bytes: {one / times / 1e3:.2f} us, sha2 alone {other / times / 1e3:.2f} us: '
              f'{part:.2f} times')


UNDER = ('seal', 'prepare', 'swap')


def commits(folder, all_keys=('1000', '100000', '1000000')):
    program = scratch.built(folder, 'commit_cost', COMMITS,
                            ['lake_base', 'lake_values', 'lake_format', 'commit_graph', 'meta_range', 'keeper', 'lake_model',
                             'lake_core', 'shared_lake', 'lake_calls', 'block_store', 'head_drafts', 'head_steps', 'commit_flow'],
                            {'said': rounds.SAID})
    for keys in all_keys:
        found = rounds.told([program, keys, {'1000': '201', '100000': '21'}.get(keys, '7')])
        # The first of the plain ones is the commit of all keys.
        plain = {step: found['plain_' + step][1:] for step in UNDER}
        shared = {step: found['shared_' + step] for step in UNDER}
        sums = [[sum(of[step][at] for step in UNDER) for at in range(len(found['whole']))] for of in (plain, shared)]
        median = statistics.median
        print(f'{keys} keys: under the turn {median(sums[1]) / 1e3:.0f} us, '
              f'the plain steps {median(sums[0]) / 1e3:.0f} us: '
              f'{median(b / a for a, b in zip(*sums)):.2f} times ' +
              ', '.join(f'({step} {median(shared[step]) / 1e3:.1f} and {median(plain[step]) / 1e3:.1f})' for step in UNDER))
        draft = found['draft'][1:]
        print(f"the whole call {median(found['whole']) / 1e6:.2f} ms, the draft alone {median(draft) / 1e6:.2f} ms: "
              f"{median(a / b for a, b in zip(found['whole'], draft)):.2f} times")


def main():
    folder = sys.argv[1] if len(sys.argv) > 1 else tempfile.mkdtemp(prefix='flows-')
    for name in sys.argv[2:] or ('bodies', 'commits'):
        part = 'bodies' if name == 'bodies' else 'commits'
        os.makedirs(os.path.join(folder, part), exist_ok=True)
        if name.isdigit():
            commits(os.path.join(folder, part), (name,))
        else:
            {'bodies': bodies, 'commits': commits}[name](os.path.join(folder, part))


if __name__ == '__main__':
    main()
