#!/usr/bin/env python3
"""Measures lakectl's words beside the steps that they lead to: bench/words.py [FOLDER]

The words of one `fs upload` become the text of a request, and its reply becomes what is shown, in turns with what the
upload does to a lake in memory: a number is taken, the versions are read, and the object is staged. Then lines of
8 KiB to 64 KiB become a request's text: one of a long body, and one of many words, which no command takes. All goes
in rounds in one process. The scratch repository is in FOLDER (a new one by default). It needs rt.
"""
import statistics
import sys
import tempfile

import rounds
import scratch

PROGRAM = r'''//! What the words of an upload cost beside its steps, and what long lines cost.
#![tactic(auto)]

mod said;

use http_wire::Reply;
use keeper::SureKeeper;
use lake_base::{Digest, Path, RefName, RepoName, Sequence, Text};
use lake_core::Lake;
use lake_format::USUAL_CUT;
use lake_model::By;
use lake_values::{Change, Entry, Pairs, Place};
use lakectl_words::{LineWords, line_words, request_of, request_text, shown};
use said::{bad, say, told};
use std::alloc::Global;
use std::env;
use std::io;
use std::time::{Clock, Instant};

fn none() -> io::Error {
    io::Error::from(io::ErrorKind::InvalidData)
}

// The words of a line.
fn words_of(alloc: Global, line: &[u8]) -> io::Result<Sequence<Text>> {
    match line_words(alloc, line).map_err(bad)? {
        LineWords::Words(words) => Ok(words),
        _ => Err(none()),
    }
}

// The reply to an upload.
fn reply(alloc: Global, body: &[u8]) -> io::Result<Reply> {
    Ok(Reply {
        status: 201,
        content_type: Text::read(alloc, b"application/json".as_slice(), 100).map_err(bad)?,
        body: Sequence::of(Vec::from_slice(alloc, body)?),
        close: false,
    })
}

// The words become a text, and the reply what is shown, so often: the bytes of both.
fn words_once(alloc: Global, words: &[Text], reply: &Reply, times: u64) -> io::Result<u64> {
    let mut bytes = 0u64;
    for _ in 0..times {
        let call = request_of(alloc, words).map_err(bad)?;
        let text = request_text(alloc, &call.request).map_err(bad)?;
        let shown = shown(alloc, &call, reply).map_err(bad)?;
        bytes = bytes.wrapping_add(text.as_slice().len() as u64).wrapping_add(shown.out.as_slice().len() as u64);
    }
    Ok(bytes)
}

// A path and a content type for each of so many objects.
fn objects(alloc: Global, front: &[u8], count: u64) -> io::Result<Vec<(Path, Text)>> {
    let mut objects = Vec::new(alloc);
    for number in 0..count {
        let mut text = Vec::from_slice(alloc, front)?;
        let digits = (1_000_000_000 + number % 1_000_000_000).to_string(alloc)?;
        text.extend_from_slice(digits.as_bytes())?;
        let path = Path::read(alloc, text.as_slice()).map_err(bad)?;
        let content_type = Text::read(alloc, b"application/octet-stream".as_slice(), 255).map_err(bad)?;
        objects.push((path, content_type))?;
    }
    Ok(objects)
}

// The steps of an upload for each of the objects.
fn steps(
    alloc: Global,
    lake: &mut Lake<SureKeeper>,
    repo: &RepoName,
    branch: &RefName,
    objects: Vec<(Path, Text)>,
) -> io::Result<()> {
    let by = By { seat: 0, call: 1 };
    for (path, content_type) in objects {
        let (_, number) = lake.take_ticket(by, repo, branch).map_err(bad)?;
        let versions = lake.versions(repo, branch).map_err(bad)?;
        if content_type.as_slice().len() > 255 || !lake.has_ticket(0, number) {
            return Err(none());
        }
        let change = Change::Put(Entry {
            place: Place::Own { number, digest: Digest([7u8; 32]) },
            size: 5,
            mtime: 7,
            content_type,
            metadata: Pairs::new(alloc),
        });
        lake.stage(by, repo, branch, versions.version, path, change).map_err(bad)?;
    }
    Ok(())
}

// A line of this length in all, which goes on with these bytes again and again.
fn line(alloc: Global, front: &[u8], more: &[u8], length: usize) -> io::Result<Vec<u8>> {
    let mut line = Vec::from_slice(alloc, front)?;
    for place in 0..length.saturating_sub(front.len()) {
        if let Some(byte) = more.get(place % more.len().max(1)) {
            line.push(*byte)?;
        }
    }
    Ok(line)
}

// A line becomes a request's text, or its words are refused, so often: the bytes.
fn lines(alloc: Global, line: &[u8], times: u64) -> io::Result<u64> {
    let mut bytes = 0u64;
    for _ in 0..times {
        let words = words_of(alloc, line)?;
        if let Ok(call) = request_of(alloc, words.as_slice()) {
            let text = request_text(alloc, &call.request).map_err(bad)?;
            bytes = bytes.wrapping_add(text.as_slice().len() as u64);
        }
    }
    Ok(bytes)
}

fn uploads<R: Print + Clock + AllocGlobal>(rt: &R, rounds: u64) -> io::Result<()> {
    let alloc = rt.alloc();
    let repo = RepoName::read(alloc, b"quickstart".as_slice()).map_err(bad)?;
    let branch = RefName::read(alloc, b"main".as_slice()).map_err(bad)?;
    let keeper = SureKeeper::holding(alloc, Vec::new(alloc));
    let mut lake = Lake::opened(alloc, keeper, USUAL_CUT).map_err(bad)?;
    let words =
        words_of(alloc, b"fs upload lakefs://quickstart/main/tables/part-1000000001 --text hello".as_slice())?;
    let reply = reply(alloc, b"{\"checksum\":\"2cf24dba5fb0a30e26e83b2ac5b9e29e1b161e5c1fa7425e73043362938b9824\",\
\"content_type\":\"application/octet-stream\",\"metadata\":{},\"mtime\":1700000000,\"path\":\"tables/part-1000000001\",\
\"path_type\":\"object\",\"physical_address\":\"lake://objects/1\",\"size_bytes\":5}\n".as_slice())?;
    for _ in 0..rounds {
        let start = Instant::now(rt)?;
        let bytes = words_once(alloc, words.as_slice(), &reply, 1_000)?;
        say(rt, "words", start.elapsed(rt)?)?;
        told(rt, "bytes", bytes)?;
        let objects = objects(alloc, b"tables/part-".as_slice(), 1_000)?;
        let start = Instant::now(rt)?;
        steps(alloc, &mut lake, &repo, &branch, objects)?;
        say(rt, "steps", start.elapsed(rt)?)?;
    }
    Ok(())
}

fn long_lines<R: Print + Clock + AllocGlobal>(rt: &R, what: &str, front: &[u8], more: &[u8], rounds: u64) -> io::Result<()> {
    let alloc = rt.alloc();
    for _ in 0..rounds {
        for length in [8_192usize, 16_384, 32_768, 65_536] {
            let line = line(alloc, front, more, length)?;
            let start = Instant::now(rt)?;
            let bytes = lines(alloc, line.as_slice(), 524_288 / length as u64)?;
            say(rt, what, start.elapsed(rt)?)?;
            told(rt, "bytes", bytes)?;
        }
    }
    Ok(())
}

fn main(rt: HostRuntime) -> io::Result<()> {
    let Some(count) = env::args(&rt)?.skip(1).next() else {
        return Ok(());
    };
    let count: u64 = count.as_str().parse().map_err(bad)?;
    uploads(&rt, count)?;
    long_lines(&rt, "long_word", b"fs upload lakefs://quickstart/main/a --text ".as_slice(), b"x".as_slice(), count)?;
    long_lines(&rt, "many_words", b"fs upload lakefs://quickstart/main/a --text x".as_slice(), b" y".as_slice(), count)
}
'''

STANDS_ON = ['lake_base', 'lake_values', 'lake_format', 'keeper', 'lake_model', 'lake_core', 'http_wire', 'lakectl_words']


def main():
    folder = sys.argv[1] if len(sys.argv) > 1 else tempfile.mkdtemp(prefix='words-')
    program = scratch.built(folder, 'word_cost', PROGRAM, STANDS_ON, {'said': rounds.SAID})
    found = rounds.told([program, '201'])
    part, one, other = rounds.ratio(found, 'words', 'steps')
    print(f'the words of an upload and what is shown {one / 1e6:.2f} us, its steps {other / 1e6:.2f} us: {part:.3f} times')
    for what in ('long_word', 'many_words'):
        rows = [found[what][at::4] for at in range(4)]
        parts = [statistics.median(b / a for a, b in zip(rows[0], row)) for row in rows]
        print(f'{what}: ' + ', '.join(f'{8 << at} KiB {statistics.median(row) / 524288:.2f} ns a byte ({part:.2f} of that at 8 KiB)'
                                      for at, (row, part) in enumerate(zip(rows, parts))))


if __name__ == '__main__':
    main()
