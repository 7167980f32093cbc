#!/usr/bin/env python3
"""Measures staging beside an ordered map of Rust in the same run: bench/tokens.py [PATHS [FOLDER]]

Stages PATHS paths (1,000,000 by default) in random order under one token, looks each up again, overlays them, and
resets a prefix of a thousandth of them. A Rust program puts the same strings into a BTreeMap and looks them up. Each
is run for the paths and for a tenth of them. The scratch repository is in FOLDER (a new one by default). It needs rt
and rustc.
"""
import os
import subprocess
import sys
import tempfile

import scratch

PROGRAM = r'''//! What staging costs.
#![tactic(auto)]

use branch_record::{BranchRecord, Looked, Tokens};
use lake_base::{Digest, Path, Text};
use lake_values::{Change, ResetWhat};
use std::alloc::Global;
use std::env;
use std::io;
use std::time::{Duration, Instant};

fn bad<E: Drop>(_fault: E) -> io::Error {
    io::Error::from(io::ErrorKind::InvalidData)
}

fn path(alloc: Global, front: &[u8], seed: u64) -> io::Result<Path> {
    let mut text = Vec::from_slice(alloc, front)?;
    let digits = (10_000_000_000_000_000_000 + seed % 1_000_000_000_000_000_000).to_string(alloc)?;
    text.extend_from_slice(digits.as_bytes())?;
    Path::read(alloc, text.as_slice()).map_err(bad)
}

fn next(seed: u64) -> u64 {
    seed.wrapping_mul(6_364_136_223_846_793_005).wrapping_add(1_442_695_040_888_963_407)
}

fn say(rt: &HostRuntime, what: &str, time: Duration) -> io::Result<()> {
    let micros = time.as_micros();
    println!(rt; "{what} {micros}")
}

fn stage(alloc: Global, record: &BranchRecord, tokens: &mut Tokens, front: &[u8], count: u64) -> io::Result<()> {
    let mut seed = 1u64;
    for _ in 0..count {
        seed = next(seed);
        record.stage(tokens, path(alloc, front, seed)?, Change::Delete).map_err(bad)?;
    }
    Ok(())
}

fn look(alloc: Global, record: &BranchRecord, tokens: &Tokens, front: &[u8], count: u64) -> io::Result<u64> {
    let mut seed = 1u64;
    let mut met = 0u64;
    for _ in 0..count {
        seed = next(seed);
        let path = path(alloc, front, seed)?;
        if let Looked::Tombstone = record.look(tokens, &path) {
            met = met.saturating_add(1);
        }
    }
    Ok(met)
}

fn main(rt: HostRuntime) -> io::Result<()> {
    measure(&rt, b"tables/".as_slice(), b"tables/10001".as_slice())
}

fn measure(rt: &HostRuntime, front: &[u8], prefix: &[u8]) -> io::Result<()> {
    let Some(count) = env::args(rt)?.skip(1).next() else {
        return Ok(());
    };
    let count: u64 = count.as_str().parse().map_err(bad)?;
    let record = BranchRecord::fresh(rt.alloc(), 1, Digest([1u8; 32]), 7);
    let mut tokens = Tokens::new(rt.alloc());
    let start = Instant::now(rt)?;
    stage(rt.alloc(), &record, &mut tokens, front, count)?;
    say(rt, "stage", start.elapsed(rt)?)?;
    asked(rt, &record, &tokens, front, count)?;
    reset(rt, &record, &mut tokens, prefix)
}

fn asked(rt: &HostRuntime, record: &BranchRecord, tokens: &Tokens, front: &[u8], count: u64) -> io::Result<()> {
    let start = Instant::now(rt)?;
    let met = look(rt.alloc(), record, tokens, front, count)?;
    say(rt, "look", start.elapsed(rt)?)?;
    let start = Instant::now(rt)?;
    let changes = record.overlay(rt.alloc(), tokens, false).map_err(bad)?;
    say(rt, "overlay", start.elapsed(rt)?)?;
    let many = changes.len();
    println!(rt; "met {met}\noverlaid {many}")
}

fn reset(rt: &HostRuntime, record: &BranchRecord, tokens: &mut Tokens, prefix: &[u8]) -> io::Result<()> {
    let prefix = ResetWhat::Prefix(Text::read(rt.alloc(), prefix, 100).map_err(bad)?);
    let start = Instant::now(rt)?;
    record.reset(tokens, &prefix);
    say(rt, "reset", start.elapsed(rt)?)
}
'''

PEER = r'''use std::collections::BTreeMap;
use std::time::Instant;

fn path(seed: u64) -> Vec<u8> {
    format!("tables/{}", 10_000_000_000_000_000_000 + seed % 1_000_000_000_000_000_000).into_bytes()
}

fn next(seed: u64) -> u64 {
    seed.wrapping_mul(6_364_136_223_846_793_005).wrapping_add(1_442_695_040_888_963_407)
}

fn main() {
    let count: u64 = std::env::args().nth(1).unwrap().parse().unwrap();
    let mut map: BTreeMap<Vec<u8>, Option<[u64; 16]>> = BTreeMap::new();
    let start = Instant::now();
    let mut seed = 1u64;
    for _ in 0..count {
        seed = next(seed);
        map.insert(path(seed), None);
    }
    println!("stage {}", start.elapsed().as_micros());
    let start = Instant::now();
    let mut seed = 1u64;
    let mut met = 0u64;
    for _ in 0..count {
        seed = next(seed);
        met += u64::from(map.contains_key(&path(seed)));
    }
    println!("look {}", start.elapsed().as_micros());
    let start = Instant::now();
    let copy: Vec<_> = map.iter().map(|(path, change)| (path.clone(), *change)).collect();
    println!("overlay {}\nmet {met} {}", start.elapsed().as_micros(), copy.len());
}
'''


def told(program, count):
    out, _, most = scratch.run([program, str(count)])
    return {line.split()[0]: int(line.split()[1]) for line in out.splitlines()}, most


def main():
    count = int(sys.argv[1]) if len(sys.argv) > 1 else 1000000
    folder = sys.argv[2] if len(sys.argv) > 2 else tempfile.mkdtemp(prefix='tokens-')
    program = scratch.built(folder, 'token_cost', PROGRAM, ['lake_base', 'lake_values', 'branch_record'])
    peer = os.path.join(folder, 'peer')
    with open(peer + '.rs', 'w') as file:
        file.write(PEER)
    subprocess.run(['rustc', '-O', '-o', peer, peer + '.rs'], check=True)
    for many in (count // 10, count):
        mine, most = told(program, many)
        theirs, their_most = told(peer, many)
        parts = [f'{what} {mine[what] / 1000:.0f} ms ({mine[what] / max(1, theirs[what]):.1f} times BTreeMap)'
                 for what in ('stage', 'look', 'overlay')]
        print(f'{many} paths: {", ".join(parts)}, reset of a prefix {mine["reset"] / 1000:.1f} ms; '
              f'{most:.0f} MB at most, and {their_most:.0f}')


if __name__ == '__main__':
    main()
