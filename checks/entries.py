#!/usr/bin/env python3
"""Checks the spelling of entries against an independent one: checks/entries.py [COUNT [SEED]]

Makes COUNT random entries (10,000 by default). Spells each by the format as it is written down in docs/FORMATS.md, has
lake_format's `entry_read` read all of them back, and compares every field; then has `entry_bytes` spell the same
entries from their fields, reads those bytes by a reader of its own, and compares every field again. Nothing is
stored: a scratch repository in a temporary folder has lake_base, lake_values, lake_format and a program over them. It
needs rt.
"""
import hashlib
import os
import random
import shutil
import struct
import subprocess
import sys
import tempfile

HERE = os.path.dirname(os.path.dirname(os.path.abspath(__file__)))

# The crates that the program stands on, each with its line of crates.txt, and the program's own line.
CRATES = {
    'lake_base': 'sha2 hex thiserror',
    'lake_values': 'lake_base thiserror',
    'lake_format': 'lake_base lake_values hex thiserror',
}
BELOW = 'lake_base lake_values lake_format hex'

PROGRAM = r'''//! Reads spelled entries and shows their fields, a line each; or spells the entries of such lines.
#![tactic(auto)]

use lake_base::{Digest, Text};
use lake_format::{entry_bytes, entry_read};
use lake_values::{Entry, Pairs, Place};
use std::alloc::Global;
use std::env;
use std::io::{self, BufWriter, Read, Write};
use std::str::Split;

fn bad<E: Drop>(_fault: E) -> io::Error {
    invalid()
}

fn text(alloc: Global, field: &str) -> io::Result<Text> {
    let bytes = hex::decode(alloc, field).map_err(bad)?;
    Text::read(alloc, bytes.as_slice(), 4096).map_err(bad)
}

fn show(alloc: Global, out: &mut impl Write, entry: &Entry) -> io::Result<()> {
    match &entry.place {
        Place::Own { number, digest } => {
            write!(out, "own\t{number}\t{}", digest.hex(alloc).map_err(bad)?.as_str())?;
        }
        Place::External { at, checksum } => {
            let at = hex::encode(alloc, at.as_slice())?;
            let checksum = hex::encode(alloc, checksum.as_slice())?;
            write!(out, "external\t{}\t{}", at.as_str(), checksum.as_str())?;
        }
    }
    let content_type = hex::encode(alloc, entry.content_type.as_slice())?;
    write!(out, "\t{}\t{}\t{}", entry.size, entry.mtime, content_type.as_str())?;
    for (key, value) in entry.metadata.as_slice() {
        let key = hex::encode(alloc, key.as_slice())?;
        let value = hex::encode(alloc, value.as_slice())?;
        write!(out, "\t{}={}", key.as_str(), value.as_str())?;
    }
    writeln!(out)
}

fn read_all(alloc: Global, bytes: &[u8], out: &mut impl Write) -> io::Result<()> {
    let mut at = 0usize;
    for _ in 0..u64::MAX {
        if at >= bytes.len() {
            break;
        }
        let (entry, end) = entry_read(alloc, bytes, at).map_err(bad)?;
        show(alloc, out, &entry)?;
        at = end;
    }
    Ok(())
}

fn invalid() -> io::Error {
    io::Error::from(io::ErrorKind::InvalidData)
}

fn field<'a>(fields: &mut Split<'a, char>) -> io::Result<&'a str> {
    match fields.next() {
        Some(field) => Ok(field),
        None => Err(invalid()),
    }
}

fn number(field: &str) -> io::Result<u64> {
    field.parse().map_err(bad)
}

fn pairs(alloc: Global, fields: Split<'_, char>) -> io::Result<Pairs> {
    let mut pairs = Pairs::new(alloc);
    for field in fields {
        let Some((key, value)) = field.split_once('=') else {
            return Err(invalid());
        };
        pairs.set(text(alloc, key)?, text(alloc, value)?).map_err(bad)?;
    }
    Ok(pairs)
}

fn own(number: u64, digest: Digest, size: u64, mtime: u64, content_type: Text, metadata: Pairs) -> io::Result<Entry> {
    if content_type.as_slice().len() > 255 {
        return Err(invalid());
    }
    Ok(Entry { place: Place::Own { number, digest }, size, mtime, content_type, metadata })
}

fn external(at: Text, checksum: Text, size: u64, mtime: u64, content_type: Text, metadata: Pairs) -> io::Result<Entry> {
    let address = at.as_slice();
    if address.is_empty() || address.len() > 2048 || address.starts_with(b"lake://") {
        return Err(invalid());
    }
    if checksum.as_slice().len() > 128 || content_type.as_slice().len() > 255 {
        return Err(invalid());
    }
    Ok(Entry { place: Place::External { at, checksum }, size, mtime, content_type, metadata })
}

fn entry_of(alloc: Global, line: &str) -> io::Result<Entry> {
    let mut fields = line.split('\t');
    let kind = field(&mut fields)?;
    let (first, second) = (field(&mut fields)?, field(&mut fields)?);
    let size = number(field(&mut fields)?)?;
    let mtime = number(field(&mut fields)?)?;
    let content_type = text(alloc, field(&mut fields)?)?;
    let metadata = pairs(alloc, fields)?;
    if kind == "own" {
        let digest = Digest::read(second.as_bytes()).map_err(bad)?;
        own(number(first)?, digest, size, mtime, content_type, metadata)
    } else {
        external(text(alloc, first)?, text(alloc, second)?, size, mtime, content_type, metadata)
    }
}

fn spell_all(alloc: Global, lines: &str, out: &mut impl Write) -> io::Result<()> {
    for line in lines.lines() {
        out.write_all(entry_bytes(alloc, &entry_of(alloc, line)?).map_err(bad)?.as_slice())?;
    }
    Ok(())
}

fn main(rt: HostRuntime) -> io::Result<()> {
    let alloc = rt.alloc();
    let mut input = Vec::new(alloc);
    rt.stdin().read_to_end(&mut input)?;
    let mut out = BufWriter::new(alloc, rt.stdout())?;
    let is_reader = env::args(&rt)?.skip(1).any(|word| word.as_str() == "read");
    if is_reader {
        read_all(alloc, input.as_slice(), &mut out)?;
    } else {
        let lines = str::from_utf8(input.as_slice()).map_err(bad)?;
        spell_all(alloc, lines, &mut out)?;
    }
    out.flush()
}
'''


def some_text(chance, least, most):
    """A random text of least to most bytes of UTF-8, of one to four bytes a character."""
    size = chance.choice([least, most, chance.randint(least, most), chance.randint(least, min(most, least + 9))])
    made = ''
    while True:
        top = chance.choice([0x7f, 0x7ff, 0xffff, 0x10ffff])
        char = chr(chance.randint(0, top))
        if '\ud800' <= char <= '\udfff':
            continue
        if len((made + char).encode()) > size:
            break
        made += char
    made = made.encode()
    return made + b'x' * max(0, least - len(made))


def some_number(chance):
    return chance.choice([0, 1, 2 ** 64 - 1, chance.getrandbits(64), chance.getrandbits(8)])


def some_entry(chance):
    if chance.random() < 0.5:
        place = ('own', some_number(chance), hashlib.sha256(chance.randbytes(9)).digest())
    else:
        at = some_text(chance, 1, 2048)
        while at.startswith(b'lake://'):
            at = some_text(chance, 1, 2048)
        place = ('external', at, some_text(chance, 0, 128))
    count = chance.choice([0, 0, 1, 2, chance.randint(0, 64)])
    metadata = {some_text(chance, 1, 128): some_text(chance, 0, 1024) for _ in range(count)}
    return place + (some_number(chance), some_number(chance), some_text(chance, 0, 255), sorted(metadata.items()))


def short(text):
    return struct.pack('>H', len(text)) + text


def spelled(entry):
    kind, first, second, size, mtime, content_type, metadata = entry
    if kind == 'own':
        place = b'\0' + struct.pack('>Q', first) + second
    else:
        place = b'\1' + short(first) + short(second)
    pairs = b''.join(short(key) + short(value) for key, value in metadata)
    return place + struct.pack('>QQ', size, mtime) + short(content_type) + struct.pack('>H', len(metadata)) + pairs


def line_of(entry):
    kind, first, second, size, mtime, content_type, metadata = entry
    fields = [kind, str(first) if kind == 'own' else first.hex(), second.hex(), str(size), str(mtime), content_type.hex()]
    return '\t'.join(fields + [key.hex() + '=' + value.hex() for key, value in metadata]) + '\n'


class Reader:
    """Reads fields from the left of some bytes."""

    def __init__(self, data):
        self.data, self.at = data, 0

    def take(self, count):
        part = self.data[self.at:self.at + count]
        assert len(part) == count, 'the bytes end inside a field'
        self.at += count
        return part

    def number(self, width):
        return int.from_bytes(self.take(width), 'big')

    def text(self):
        return self.take(self.number(2))

    def entry(self):
        if self.number(1) == 0:
            place = ('own', self.number(8), self.take(32))
        else:
            place = ('external', self.text(), self.text())
        size, mtime, content_type = self.number(8), self.number(8), self.text()
        metadata = [(self.text(), self.text()) for _ in range(self.number(2))]
        return place + (size, mtime, content_type, metadata)


def scratch(folder):
    """A repository with the crates and the program."""
    for crate in CRATES:
        for part in ('src', 'specs', 'proofs'):
            shutil.copytree(os.path.join(HERE, 'crates', crate, part), os.path.join(folder, 'crates', crate, part))
    os.makedirs(os.path.join(folder, 'crates/entries/src'))
    with open(os.path.join(folder, 'crates/entries/src/main.rt'), 'w') as file:
        file.write(PROGRAM)
    with open(os.path.join(folder, 'crates.txt'), 'w') as file:
        for crate, below in CRATES.items():
            file.write(f'{crate}: {below}\n')
        file.write(f'entries: {BELOW}\n')


def built(folder):
    """The program's path, proved and built."""
    made = subprocess.run(['rt', 'run', '--', 'read'], cwd=os.path.join(folder, 'crates/entries'), stdin=subprocess.DEVNULL,
                          stdout=subprocess.PIPE, stderr=subprocess.STDOUT)
    if made.returncode != 0:
        sys.exit(made.stdout.decode())
    return os.path.join(folder, 'crates/entries/out/entries')


def run(program, word, data):
    return subprocess.run([program, word], input=data, stdout=subprocess.PIPE, check=True).stdout


def main():
    count = int(sys.argv[1]) if len(sys.argv) > 1 else 10000
    seed = int(sys.argv[2]) if len(sys.argv) > 2 else 1
    chance = random.Random(seed)
    entries = [some_entry(chance) for _ in range(count)]
    lines = ''.join(map(line_of, entries))
    with tempfile.TemporaryDirectory() as folder:
        scratch(folder)
        program = built(folder)
        shown = run(program, 'read', b''.join(map(spelled, entries)))
        made = run(program, 'spell', lines.encode())
    assert shown.decode() == lines, 'entry_read answered other fields'
    reader = Reader(made)
    for number, entry in enumerate(entries):
        assert reader.entry() == entry, f'entry {number} was spelled otherwise'
    assert reader.at == len(made), 'bytes are left'
    print(f'{count} entries were read back, and {count} spelled, of seed {seed}')


if __name__ == '__main__':
    main()
