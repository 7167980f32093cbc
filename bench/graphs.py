#!/usr/bin/env python3
"""Measures graphs of commits beside Git on the same history in the same run: bench/graphs.py [COMMITS [FOLDER]]

A line of COMMITS commits (100,000 by default) with two branches that part 10 commits before their heads. Prints what
the graph takes for the merge base of the heads, for `~N` half way back, for the first page of the log and for one late
in it, for the walk of first parents, and for an iteration of all commits, of fewer too; and what Git takes as a
process, less what it takes to start, with its commit graph file written. The scratch repository is in FOLDER (a new
one by default). It needs rt and git.
"""
import os
import subprocess
import sys
import tempfile
import time

import scratch

PROGRAM = r'''//! What questions of a long history cost.
#![tactic(auto)]
ghost use Rattle.std.specs.Prelude.{IfOk, IsSome};
ghost use Rattle.lake_values.specs.Ancestry.{commit_of};

use commit_graph::{Graph, Move};
use lake_base::{Digest, Sequence, Text};
use lake_values::{CommitId, CommitRecord, Pairs};
use std::alloc::Global;
use std::env;
use std::io;
use std::time::{Duration, Instant};

fn bad<E: Drop>(_fault: E) -> io::Error {
    invalid()
}

fn invalid() -> io::Error {
    io::Error::from(io::ErrorKind::InvalidData)
}

fn text(alloc: Global, bytes: &[u8]) -> io::Result<Text> {
    Text::read(alloc, bytes, 128).map_err(bad)
}

fn next(alloc: Global, graph: &mut Graph, parent: Option<CommitId>, number: u64, committer: &[u8], message: &[u8]) -> io::Result<CommitId> {
    let mut parents = Vec::new(alloc);
    if let Some(parent) = parent {
        parents.push(parent)?;
    }
    let committer = text(alloc, committer)?;
    let message = text(alloc, message)?;
    if number == 0 || committer.as_slice().is_empty() || committer.as_slice().len() > 128 || parents.len() > 2 {
        return Err(invalid());
    }
    if message.as_slice().len() > 65_536 {
        return Err(invalid());
    }
    let commit = CommitRecord {
        meta_range: Digest([1u8; 32]),
        generation: number,
        date: number,
        parents: Sequence::of(parents),
        committer,
        message,
        metadata: Pairs::new(alloc),
    };
    graph.add(alloc, commit).map_err(bad)
}

fn line(alloc: Global, graph: &mut Graph, parent: Option<CommitId>, from: u64, to: u64, message: &[u8]) -> io::Result<Option<CommitId>> {
    let mut last = parent;
    for number in from..to {
        last = Some(next(alloc, graph, last, number, message, message)?);
    }
    Ok(last)
}

fn say(rt: &HostRuntime, what: &str, time: Duration) -> io::Result<()> {
    let nanos = time.as_nanos();
    println!(rt; "{what} {nanos}")
}

fn there(graph: &Graph, id: Option<CommitId>) -> io::Result<CommitId>
    ensures { IfOk result (λ id. IsSome (commit_of graph.now id)) }
{
    let Some(id) = id else {
        return Err(invalid());
    };
    match graph.get(&id) {
        Some(_) => Ok(id),
        None => Err(invalid()),
    }
}

fn main(rt: HostRuntime) -> io::Result<()> {
    let Some(count) = env::args(&rt)?.skip(1).next() else {
        return Ok(());
    };
    let count: u64 = count.as_str().parse().map_err(bad)?;
    let mut graph = Graph::new(rt.alloc());
    let (fork, a, b) = grown(&rt, &mut graph, count)?;
    let a = there(&graph, a)?;
    let b = there(&graph, b)?;
    based(&rt, &graph, fork, &a, &b)?;
    paged(&rt, &graph, &a, u32::try_from(count / 2).map_err(bad)?)?;
    walked(&rt, &graph, &a)?;
    iterated(&rt, &graph)
}

type Heads = (Option<CommitId>, Option<CommitId>, Option<CommitId>);

fn grown(rt: &HostRuntime, graph: &mut Graph, count: u64) -> io::Result<Heads> {
    let alloc = rt.alloc();
    let stem = count.saturating_sub(10);
    let start = Instant::now(rt)?;
    let fork = line(alloc, graph, None, 1, stem, b"stem".as_slice())?;
    let a = line(alloc, graph, fork, stem, count, b"a".as_slice())?;
    let b = line(alloc, graph, fork, stem, count, b"b".as_slice())?;
    say(rt, "add", start.elapsed(rt)?)?;
    Ok((fork, a, b))
}

fn based(rt: &HostRuntime, graph: &Graph, fork: Option<CommitId>, a: &CommitId, b: &CommitId) -> io::Result<()>
    requires { IsSome (commit_of graph.now a.now) × IsSome (commit_of graph.now b.now) }
{
    let start = Instant::now(rt)?;
    let mut met = 0u64;
    for _ in 0..100 {
        if graph.base(rt.alloc(), a, b).map_err(bad)? == fork {
            met = met.saturating_add(1);
        }
    }
    say(rt, "base_of_100", start.elapsed(rt)?)?;
    println!(rt; "met {met}")
}

fn paged(rt: &HostRuntime, graph: &Graph, a: &CommitId, half: u32) -> io::Result<()>
    requires { IsSome (commit_of graph.now a.now) }
{
    let start = Instant::now(rt)?;
    let middle = match graph.resolve(a, &[Move::Back(half)]) {
        Ok(middle) => middle,
        Err(_) => return Err(invalid()),
    };
    say(rt, "resolve", start.elapsed(rt)?)?;
    let start = Instant::now(rt)?;
    let first = graph.log(rt.alloc(), a, None, None, 100).map_err(bad)?;
    say(rt, "first_page", start.elapsed(rt)?)?;
    let start = Instant::now(rt)?;
    let late = graph.log(rt.alloc(), a, Some(&middle), None, 100).map_err(bad)?;
    say(rt, "late_page", start.elapsed(rt)?)?;
    let (first, late) = (first.ids.as_slice().len(), late.ids.as_slice().len());
    println!(rt; "pages {first}\npages_late {late}")
}

fn walked(rt: &HostRuntime, graph: &Graph, a: &CommitId) -> io::Result<()> {
    let start = Instant::now(rt)?;
    let walk = graph.first_parents(rt.alloc(), a).map_err(bad)?;
    say(rt, "walk", start.elapsed(rt)?)?;
    let walk = walk.len();
    println!(rt; "walked {walk}")
}

fn iterated(rt: &HostRuntime, graph: &Graph) -> io::Result<()> {
    let start = Instant::now(rt)?;
    let mut dates = 0u64;
    for (_, commit) in graph.iter() {
        dates = dates.saturating_add(commit.date);
    }
    say(rt, "iterated", start.elapsed(rt)?)?;
    println!(rt; "dates {dates}")
}
'''


def history(folder, count):
    """The same history with Git, its commit graph file written."""
    subprocess.run(['git', 'init', '-q', folder], check=True)
    stream, stem = [], count - 10
    for branch, numbers, parent in (('stem', range(1, stem), 0), ('a', range(stem, count), 1), ('b', range(stem, count), 1)):
        for number in numbers:
            mark = number + (count if branch == 'b' else 0)
            stream.append(f'commit refs/heads/{branch}\nmark :{mark}\ncommitter a <a@example.org> {number} +0000\n'
                          f'data {len(branch)}\n{branch}\n')
            if parent and number == stem:
                stream.append(f'from :{stem - 1}\n')
            stream.append('\n')
    subprocess.run(['git', '-C', folder, 'fast-import', '--quiet'], input=''.join(stream).encode(), check=True)
    subprocess.run(['git', '-C', folder, 'repack', '-adq'], check=True)
    subprocess.run(['git', '-C', folder, 'commit-graph', 'write', '--reachable'], check=True, stderr=subprocess.DEVNULL)


def git_time(folder, *words):
    """Milliseconds of a call of Git, the least of five."""
    least = None
    for _ in range(5):
        start = time.monotonic()
        subprocess.run(['git', '-C', folder, *words], stdout=subprocess.DEVNULL, check=True)
        took = (time.monotonic() - start) * 1000
        least = took if least is None else min(least, took)
    return least


def main():
    count = int(sys.argv[1]) if len(sys.argv) > 1 else 100000
    folder = sys.argv[2] if len(sys.argv) > 2 else tempfile.mkdtemp(prefix='graphs-')
    program = scratch.built(folder, 'graph_cost', PROGRAM, ['lake_base', 'lake_values', 'commit_graph'])
    out, _, most = scratch.run([program, str(count)])
    told = {line.split()[0]: int(line.split()[1]) for line in out.splitlines()}
    there = os.path.join(folder, 'git')
    history(there, count)
    start = git_time(there, 'rev-parse', 'a')
    print(f'{count} commits; the graph has at most {most:.0f} MB; {told["add"] / count / 1000:.1f} us an add')
    for few in (count // 100, count // 10, count):
        out, _, _ = scratch.run([program, str(few)])
        took = next(int(line.split()[1]) for line in out.splitlines() if line.startswith('iterated '))
        print(f'an iteration of {few} commits: {took / few:.1f} ns a commit')
    for what, mine, words in (
            ('merge base of two heads', told['base_of_100'] / 100, ('merge-base', 'a', 'b')),
            ('half way back', told['resolve'], ('rev-parse', f'a~{count // 2}')),
            ('first 100 of the log', told['first_page'], ('rev-list', '--topo-order', '-n', '100', 'a')),
            ('100 half way in the log', told['late_page'],
             ('rev-list', '--topo-order', '-n', '100', f'--skip={count // 2}', 'a')),
            ('walk of first parents', told['walk'], ('rev-list', '--first-parent', 'a'))):
        print(f'{what}: {mine / 1e6:.3f} ms; Git {git_time(there, *words) - start:.3f} ms beside {start:.1f} ms to start')


if __name__ == '__main__':
    main()
