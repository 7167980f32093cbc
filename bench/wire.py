#!/usr/bin/env python3
"""Measures messages of HTTP beside their parts in the same run: bench/wire.py [FOLDER [PART..]]

Reads a small GET, as curl sends it, beside the toolchain's `httparse` alone on its head; a head that comes byte by byte;
and a body of 64 MiB beside a copy of it into a vector that grows. Counts the reads of a small request and the writes of
replies, and what memory replies take while they are written, as valgrind tells it. Prints lists of 1,000 and of 10,000
objects. Each time is the median of rounds that take turns in one process. The scratch repositories are in FOLDER (a
new one by default); the parts are `messages` and `lists` (both by default). It needs rt and valgrind.
"""
import os
import statistics
import sys
import tempfile

import rounds
import scratch

WIRE = r'''//! What messages cost beside their parts.
#![tactic(auto)]

mod ends;
mod said;

use ends::{Again, Taker};
use http_wire::{Buffer, Reply, read_request, write_reply};
use httparse::Status;
use httparse::spans::{EMPTY_HEADER_SPAN, parse_request};
use lake_base::{Sequence, Text};
use said::{bad, say, told};
use std::alloc::Global;
use std::env;
use std::io;
use std::time::Instant;

// A GET as curl sends it.
const GET: &[u8] = b"GET /api/v1/repositories/quickstart/refs/main/objects?path=images%2Faxolotl.png HTTP/1.1\r\n\
Host: 127.0.0.1:8000\r\nUser-Agent: curl/8.5.0\r\nAccept: */*\r\n\r\n";

// So many requests are read, and what their targets and bodies have is counted.
fn read_all(alloc: Global, source: &mut Again, buffer: &mut Buffer, count: u64) -> io::Result<u64> {
    let mut met = 0u64;
    for _ in 0..count {
        let request = read_request(alloc, source, buffer).map_err(bad)?;
        met = met.wrapping_add(request.target.as_slice().len() as u64);
        met = met.wrapping_add(request.body.as_slice().len() as u64);
    }
    Ok(met)
}

// The place where the path of a head ends, by httparse alone.
fn parsed(head: &[u8]) -> u64 {
    let mut spans = [EMPTY_HEADER_SPAN; 64];
    match parse_request(head, &mut spans) {
        Ok(Status::Complete(found)) => found.path.end as u64,
        _ => 0,
    }
}

fn parse_all(heads: &[Vec<u8>], count: u64) -> u64 {
    let mut met = 0u64;
    for _ in 0..count {
        for head in heads {
            met = met.wrapping_add(parsed(head.as_slice()));
        }
    }
    met
}

fn copies(alloc: Global, text: &[u8], count: u64) -> io::Result<Vec<Vec<u8>>> {
    let mut list = Vec::new(alloc);
    for _ in 0..count {
        list.push(Vec::from_slice(alloc, text)?)?;
    }
    Ok(list)
}

// A small GET, in rounds: by this crate, with the buffer kept and with a new one, and by httparse alone.
fn small(rt: &HostRuntime, text: &[u8], rounds: u64) -> io::Result<()> {
    let heads = copies(rt.alloc(), text, 64)?;
    let mut source = Again::new(Vec::from_slice(rt.alloc(), text)?, text.len());
    let mut buffer = Buffer::new(rt.alloc());
    for _ in 0..rounds {
        let start = Instant::now(rt)?;
        let met = read_all(rt.alloc(), &mut source, &mut buffer, 64)?;
        say(rt, "get", start.elapsed(rt)?)?;
        let start = Instant::now(rt)?;
        let other = parse_all(heads.as_slice(), 1);
        say(rt, "httparse", start.elapsed(rt)?)?;
        told(rt, "met", met.wrapping_add(other))?;
    }
    told(rt, "get_reads", source.reads)
}

// A head with fields of 200 bytes, of this length in all.
fn long_head(alloc: Global, length: usize) -> io::Result<Vec<u8>> {
    let mut head = Vec::from_slice(alloc, b"GET / HTTP/1.1\r\n".as_slice())?;
    for _ in 0..length / 250 {
        head.extend_from_slice(b"X-Field: ".as_slice())?;
        for _ in 0..239 {
            head.push(b'a')?;
        }
        head.extend_from_slice(b"\r\n".as_slice())?;
    }
    head.extend_from_slice(b"\r\n".as_slice())?;
    Ok(head)
}

// A head that comes byte by byte, or whole.
fn slow(rt: &HostRuntime, what: &str, length: usize, piece: usize, count: u64) -> io::Result<()> {
    let head = long_head(rt.alloc(), length)?;
    let bytes = (head.len() as u64).saturating_mul(count);
    let mut source = Again::new(head, piece);
    let mut buffer = Buffer::new(rt.alloc());
    let start = Instant::now(rt)?;
    let met = read_all(rt.alloc(), &mut source, &mut buffer, count)?;
    say(rt, what, start.elapsed(rt)?)?;
    told(rt, "of", bytes)?;
    told(rt, "met", met)
}

// A copy into a vector that grows.
fn copied(alloc: Global, bytes: &[u8], piece: usize) -> io::Result<Vec<u8>> {
    let mut copy = Vec::new(alloc);
    for part in bytes.chunks(piece.max(1)) {
        copy.extend_from_slice(part)?;
    }
    Ok(copy)
}

// A body of 64 MiB, in rounds: by this crate, and copied.
fn body(rt: &HostRuntime, text: &[u8], piece: usize, rounds: u64) -> io::Result<()> {
    let mut bytes = Vec::new(rt.alloc());
    for number in 0..67_108_864u64 {
        bytes.push((number % 251) as u8)?;
    }
    let mut message = Vec::from_slice(rt.alloc(), text)?;
    message.extend_from_slice(bytes.as_slice())?;
    let mut source = Again::new(message, piece);
    let mut buffer = Buffer::new(rt.alloc());
    for _ in 0..rounds {
        let start = Instant::now(rt)?;
        let met = read_all(rt.alloc(), &mut source, &mut buffer, 1)?;
        say(rt, "body", start.elapsed(rt)?)?;
        let start = Instant::now(rt)?;
        let copy = copied(rt.alloc(), bytes.as_slice(), piece)?;
        let other = copy.len() as u64;
        drop(copy);
        say(rt, "copy", start.elapsed(rt)?)?;
        told(rt, "met", met.wrapping_add(other))?;
    }
    told(rt, "body_reads", source.reads)
}

// A reply with a body of this length.
fn reply(alloc: Global, content_type: &[u8], length: u64) -> io::Result<Reply> {
    let mut body = Vec::new(alloc);
    for _ in 0..length {
        body.push(b'b')?;
    }
    let content_type = Text::read(alloc, content_type, 100).map_err(bad)?;
    Ok(Reply {
        status: 200,
        content_type,
        body: Sequence::of(body),
        close: false,
    })
}

// So many replies are written.
fn write_all(reply: &Reply, count: u64) -> io::Result<Taker> {
    let mut sink = Taker {
        writes: 0,
        bytes: 0,
    };
    for _ in 0..count {
        write_reply(&mut sink, reply).map_err(bad)?;
    }
    Ok(sink)
}

// Replies with a short body and with a long one.
fn replies(rt: &HostRuntime, content_type: &[u8], count: u64) -> io::Result<()> {
    for length in [40u64, 900, 1_000_000] {
        let reply = reply(rt.alloc(), content_type, length)?;
        let start = Instant::now(rt)?;
        let sink = write_all(&reply, count)?;
        say(rt, "replies", start.elapsed(rt)?)?;
        told(rt, "length", length)?;
        told(rt, "writes", sink.writes)?;
        told(rt, "bytes", sink.bytes)?;
    }
    Ok(())
}

fn main(rt: HostRuntime) -> io::Result<()> {
    measure(
        &rt,
        b"PUT /api/v1/repositories/quickstart/branches/main/objects?path=a HTTP/1.1\r\nHost: 127.0.0.1:8000\r\n\
User-Agent: curl/8.5.0\r\nAccept: */*\r\nContent-Length: 67108864\r\n\r\n"
            .as_slice(),
        b"application/json".as_slice(),
    )
}

fn measure(rt: &HostRuntime, put: &[u8], content_type: &[u8]) -> io::Result<()> {
    let mut words = env::args(rt)?.skip(1);
    let (Some(what), Some(count)) = (words.next(), words.next()) else {
        return Ok(());
    };
    let count: u64 = count.as_str().parse().map_err(bad)?;
    match what.as_str() {
        "small" => small(rt, GET, count),
        "slow" => slowly(rt, count),
        "body" => body(rt, put, usize::MAX, count),
        "pieces" => body(rt, put, 65_536, count),
        "replies" => replies(rt, content_type, count),
        _ => Ok(()),
    }
}

fn slowly(rt: &HostRuntime, rounds: u64) -> io::Result<()> {
    for _ in 0..rounds {
        slow(rt, "bytewise_1000", 1_000, 1, 16)?;
        slow(rt, "bytewise_4000", 4_000, 1, 4)?;
        slow(rt, "bytewise_16000", 16_000, 1, 1)?;
        slow(rt, "whole_16000", 16_000, usize::MAX, 1)?;
    }
    Ok(())
}
'''

LISTS = r'''//! What it costs to print lists of objects.
#![tactic(auto)]

mod said;

use api_replies::print;
use lake_base::{Digest, Path, Sequence, Text};
use lake_calls::{CallReply, Done};
use lake_pages::{Item, Page};
use lake_values::{Entry, Pairs, Place};
use said::{bad, say, told};
use std::alloc::Global;
use std::env;
use std::io;
use std::time::Instant;

fn path(alloc: Global, front: &[u8], number: u64) -> io::Result<Path> {
    let mut text = Vec::from_slice(alloc, front)?;
    let digits = (1_000_000_000 + number % 1_000_000_000).to_string(alloc)?;
    text.extend_from_slice(digits.as_bytes())?;
    Path::read(alloc, text.as_slice()).map_err(bad)
}

fn entry(alloc: Global, number: u64, content_type: &[u8]) -> io::Result<Entry> {
    let content_type = Text::read(alloc, content_type, 255).map_err(bad)?;
    if content_type.as_slice().len() > 255 {
        return Err(io::Error::from(io::ErrorKind::InvalidData));
    }
    let digest = Digest([7u8; 32]);
    Ok(Entry {
        place: Place::Own { number, digest },
        size: number,
        mtime: number,
        content_type,
        metadata: Pairs::new(alloc),
    })
}

fn page(alloc: Global, front: &[u8], content_type: &[u8], count: u64) -> io::Result<Page> {
    let mut items = Vec::new(alloc);
    for number in 0..count {
        let path = path(alloc, front, number)?;
        let entry = entry(alloc, number, content_type)?;
        items.push(Item::Object { path, entry })?;
    }
    Ok(Page {
        items: Sequence::of(items),
        has_more: true,
    })
}

fn printed(alloc: Global, page: Page) -> io::Result<u64> {
    let reply = print(alloc, CallReply::Done(Done::Listing(page))).map_err(bad)?;
    Ok(reply.body.as_slice().len() as u64)
}

fn main(rt: HostRuntime) -> io::Result<()> {
    measure(&rt, b"tables/events/date=2026-11-27/part-".as_slice(), b"application/octet-stream".as_slice())
}

fn measure(rt: &HostRuntime, front: &[u8], content_type: &[u8]) -> io::Result<()> {
    let mut words = env::args(rt)?.skip(1);
    let Some(rounds) = words.next() else {
        return Ok(());
    };
    let rounds: u64 = rounds.as_str().parse().map_err(bad)?;
    if let Some(objects) = words.next() {
        let objects: u64 = objects.as_str().parse().map_err(bad)?;
        for _ in 0..rounds {
            once(rt, "alone", page(rt.alloc(), front, content_type, objects)?)?;
        }
        return Ok(());
    }
    for _ in 0..rounds {
        for _ in 0..10 {
            once(rt, "small", page(rt.alloc(), front, content_type, 1_000)?)?;
        }
        once(rt, "large", page(rt.alloc(), front, content_type, 10_000)?)?;
    }
    Ok(())
}

fn once(rt: &HostRuntime, what: &str, page: Page) -> io::Result<()> {
    let start = Instant::now(rt)?;
    let bytes = printed(rt.alloc(), page)?;
    say(rt, what, start.elapsed(rt)?)?;
    told(rt, "bytes", bytes)
}
'''


def messages(folder):
    program = scratch.built(folder, 'wire_cost', WIRE, ['lake_base', 'http_wire', 'httparse'], {'ends': rounds.ENDS, 'said': rounds.SAID})
    found = rounds.told([program, 'small', '2001'])
    times, one, other = rounds.ratio(found, 'get', 'httparse')
    print(f'a small GET: {one / 64:.0f} ns, httparse alone {other / 64:.0f} ns: {times:.2f} times')
    print(f"reads of a small request: {found['get_reads'][0] / (2001 * 64):.3f}")
    found = rounds.told([program, 'slow', '201'])
    lengths = [number for number in found['of']][:4]
    for at, what in enumerate(('bytewise_1000', 'bytewise_4000', 'bytewise_16000', 'whole_16000')):
        print(f'{what}: {statistics.median(found[what]) / lengths[at]:.2f} ns a byte')
    for what in ('body', 'pieces'):
        found = rounds.told([program, what, '11'])
        times, one, other = rounds.ratio(found, 'body', 'copy')
        print(f"64 MiB ({what}): {one / 1e6:.1f} ms, the copy {other / 1e6:.1f} ms: {times:.2f} times; "
              f"{found['body_reads'][0] / 11:.0f} reads")
    found = rounds.told([program, 'replies', '1000'])
    for length, writes, time in zip(found['length'], found['writes'], found['replies']):
        print(f'a reply of {length} bytes: {writes / 1000:.2f} writes, {time / 1000:.0f} ns')
    print(f"memory taken by 10 and by 1,000 replies: {rounds.takings([program, 'replies', '10'])} and "
          f"{rounds.takings([program, 'replies', '1000'])} times")


def lists(folder):
    program = scratch.built(folder, 'list_cost', LISTS,
                            ['lake_base', 'lake_values', 'lake_pages', 'lake_calls', 'http_wire', 'api_replies'],
                            {'said': rounds.SAID})
    for keeping in ([], rounds.KEEPING):
        found = rounds.told(['env', *keeping, program, '31'])
        small, large = statistics.median(found['small']) / 1000, statistics.median(found['large']) / 10000
        print(f'a list of 1,000 objects: {small:.0f} ns an object, of 10,000: {large:.0f} ns, {large / small:.2f} times'
              + ', what is free kept' * bool(keeping))
    counts = [rounds.instructions([program, str(lists), str(objects)], 'api_replies::reply::printed') / 10000
              for lists, objects in ((10, 1000), (1, 10000))]
    print(f'own instructions an object: {counts[0]:.0f} and {counts[1]:.0f}, {counts[1] / counts[0]:.2f} times')


def main():
    folder = sys.argv[1] if len(sys.argv) > 1 else tempfile.mkdtemp(prefix='wire-')
    parts = {'messages': messages, 'lists': lists}
    for name in sys.argv[2:] or parts:
        os.makedirs(os.path.join(folder, name), exist_ok=True)
        parts[name](os.path.join(folder, name))


if __name__ == '__main__':
    main()
