#!/usr/bin/env python3
"""Measures trees beside SHA-256 in the same run: bench/trees.py [ROWS [FOLDER]]

Makes a key map of ROWS rows (1,000,000 by default), each with a path of 45 bytes and an own object, builds its
tree by the usual cut, reads the tree from its files, looks up 1,000,000 paths, walks all rows, and hashes the same
bytes by the toolchain's sha2. Prints the times, each as a ratio to that of the hash, and the largest memory beside
that of the rows alone. The scratch repository is in FOLDER (a new one by default). It needs rt.
"""
import sys
import tempfile

import scratch

PROGRAM = r'''//! What a tree costs beside SHA-256 of its bytes.
#![tactic(auto)]

use lake_base::{Digest, NoMemory, Path, Text};
use lake_values::{Entry, EntryCursor, KeyMap, Pairs, Place, has_ascending_keys};
use meta_range::{File, Tree};
use range_file::Cut;
use std::alloc::Global;
use std::env;
use std::io;
use std::time::{Duration, Instant};

fn bad<E: Drop>(_fault: E) -> io::Error {
    io::Error::from(io::ErrorKind::InvalidData)
}

fn path(alloc: Global, front: &[u8], number: u64) -> io::Result<Path> {
    let mut text = Vec::from_slice(alloc, front)?;
    let digits = (1_000_000_000 + number % 1_000_000_000).to_string(alloc)?;
    text.extend_from_slice(digits.as_bytes())?;
    Path::read(alloc, text.as_slice()).map_err(bad)
}

fn entry(alloc: Global, number: u64, content_type: &[u8]) -> io::Result<Entry> {
    let content_type = Text::read(alloc, content_type, 255).map_err(bad)?;
    if content_type.as_slice().len() > 255 {
        return Err(io::Error::from(io::ErrorKind::InvalidData));
    }
    let digest = Digest([7u8; 32]);
    Ok(Entry {
        place: Place::Own { number, digest },
        size: number,
        mtime: number,
        content_type,
        metadata: Pairs::new(alloc),
    })
}

fn map(alloc: Global, front: &[u8], content_type: &[u8], count: u64) -> io::Result<KeyMap> {
    let mut rows = Vec::new(alloc);
    for number in 0..count {
        let path = path(alloc, front, number)?;
        let entry = entry(alloc, number, content_type)?;
        rows.push((path, entry))?;
    }
    if !has_ascending_keys(rows.as_slice()) {
        return Err(io::Error::from(io::ErrorKind::InvalidData));
    }
    Ok(KeyMap::from_vec(rows))
}

// So many looks at paths in a scattered order, and how many of them found an entry.
fn look(alloc: Global, tree: &Tree, front: &[u8], count: u64, looks: u64) -> io::Result<u64> {
    let mut found = 0u64;
    let mut paths = Vec::new(alloc);
    for step in 0..1024u64 {
        paths.push(path(alloc, front, step.wrapping_mul(2_654_435_761) % count.max(1))?)?;
    }
    for step in 0..looks {
        let Some(path) = paths.get((step % 1024) as usize) else {
            break;
        };
        if tree.get(path).is_some() {
            found = found.saturating_add(1);
        }
    }
    Ok(found)
}

fn walk(tree: &Tree) -> u64 {
    let mut cursor = tree.seek(None);
    let mut total = 0u64;
    for _ in 0..u64::MAX {
        let Some((path, entry)) = cursor.next() else {
            break;
        };
        total = total.wrapping_add(entry.size).wrapping_add(path.as_slice().len() as u64);
    }
    total
}

fn hash(files: &[File]) -> u8 {
    let mut sum = 0u8;
    for file in files {
        sum ^= Digest::of(file.bytes.as_slice()).0[0];
    }
    sum
}

fn say(rt: &HostRuntime, what: &str, time: Duration) -> io::Result<()> {
    let micros = time.as_micros();
    println!(rt; "{what} {micros}")
}

fn main(rt: HostRuntime) -> io::Result<()> {
    measure(&rt, b"tables/events/date=2026-11-27/part-".as_slice(), b"application/octet-stream".as_slice())
}

fn measure(rt: &HostRuntime, front: &[u8], content_type: &[u8]) -> io::Result<()> {
    let mut words = env::args(rt)?.skip(1);
    let Some(count) = words.next() else {
        return Ok(());
    };
    let count: u64 = count.as_str().parse().map_err(bad)?;
    let map = map(rt.alloc(), front, content_type, count)?;
    if words.next().is_some() {
        return told(rt, "rows", map.len() as u64);
    }
    built(rt, map, front, count)
}

const CUT: Cut = Cut { max_bytes: 1_048_576, modulus: 1024 };

fn built(rt: &HostRuntime, map: KeyMap, front: &[u8], count: u64) -> io::Result<()> {
    let start = Instant::now(rt)?;
    let tree = Tree::build(rt.alloc(), &map, &CUT).map_err(bad)?;
    say(rt, "build", start.elapsed(rt)?)?;
    drop(map);
    filed(rt, &tree, front, count)
}

fn filed(rt: &HostRuntime, tree: &Tree, front: &[u8], count: u64) -> io::Result<()> {
    let start = Instant::now(rt)?;
    let files = tree.files(rt.alloc()).map_err(bad)?;
    say(rt, "files", start.elapsed(rt)?)?;
    hashed(rt, files.as_slice())?;
    read(rt, &tree.name(), files.as_slice(), front, count)
}

fn hashed(rt: &HostRuntime, files: &[File]) -> io::Result<()> {
    let start = Instant::now(rt)?;
    let sum = hash(files);
    say(rt, "sha2", start.elapsed(rt)?)?;
    let mut bytes = u64::from(sum) / 256;
    for file in files {
        bytes = bytes.saturating_add(file.bytes.as_slice().len() as u64);
    }
    told(rt, "bytes", bytes)?;
    told(rt, "files_count", files.len() as u64)
}

fn read(rt: &HostRuntime, name: &Digest, files: &[File], front: &[u8], count: u64) -> io::Result<()> {
    let start = Instant::now(rt)?;
    let tree = Tree::read(rt.alloc(), name, files, &CUT).map_err(bad)?;
    say(rt, "read", start.elapsed(rt)?)?;
    asked(rt, &tree, front, count)
}

fn asked(rt: &HostRuntime, tree: &Tree, front: &[u8], count: u64) -> io::Result<()> {
    let start = Instant::now(rt)?;
    let found = look(rt.alloc(), tree, front, count, 1_000_000)?;
    say(rt, "get", start.elapsed(rt)?)?;
    told(rt, "found", found)?;
    let start = Instant::now(rt)?;
    let total = walk(tree);
    say(rt, "walk", start.elapsed(rt)?)?;
    told(rt, "total", total)
}

fn told(rt: &HostRuntime, what: &str, number: u64) -> io::Result<()> {
    println!(rt; "{what} {number}")
}
'''


def main():
    rows = sys.argv[1] if len(sys.argv) > 1 else '1000000'
    folder = sys.argv[2] if len(sys.argv) > 2 else tempfile.mkdtemp(prefix='trees-')
    program = scratch.built(folder, 'tree_cost', PROGRAM, ['lake_base', 'lake_values', 'range_file', 'meta_range'])
    _, _, alone = scratch.run([program, rows, 'alone'])
    out, _, most = scratch.run([program, rows])
    told = {line.split()[0]: int(line.split()[1]) for line in out.splitlines()}
    print(f"{rows} rows, {told['bytes']} bytes in {told['files_count']} files; sha2 of these: {told['sha2'] / 1000:.0f} ms")
    for what in ('build', 'files', 'read', 'walk'):
        print(f"{what}: {told[what] / 1000:.0f} ms, {told[what] / told['sha2']:.2f} times sha2")
    print(f"get: {told['get'] / 1000:.0f} ns a look, {told['found']} of 1000000 found")
    print(f"memory: {alone:.0f} MB of the rows alone, {most:.0f} MB at most with the trees, their files and the rows")


if __name__ == '__main__':
    main()
