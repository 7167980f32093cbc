"""What measurements in rounds share: parts of their programs, and what their programs print.

A program does a block of each thing that is compared, one after the other, and that many times. So a ratio is the median
of those of the rounds, and a machine that does other work beside tells on both alike.
"""
import os
import re
import statistics
import subprocess
import tempfile

import scratch

SAID = r'''//! What is said of a round, and what stands for each fault.

use std::io;
use std::time::Duration;

pub fn bad<E: Drop>(_fault: E) -> io::Error {
    io::Error::from(io::ErrorKind::InvalidData)
}

/// A line with a time in nanoseconds.
pub fn say<R: Print>(rt: &R, what: &str, time: Duration) -> io::Result<()> {
    let nanos = time.as_nanos();
    println!(rt; "{what} {nanos}")
}

/// A line with a number.
pub fn told<R: Print>(rt: &R, what: &str, number: u64) -> io::Result<()> {
    println!(rt; "{what} {number}")
}
'''

ENDS = r'''//! A source that gives its bytes again and again, and a sink that takes all; each counts its calls.

use lake_base::{Failed, Sink, Source};

/// A source that gives its bytes again and again, at most `piece` a read.
#[derive(Debug, Drop)]
pub struct Again {
    bytes: Vec<u8>,
    at: usize,
    piece: usize,
    pub reads: u64,
}

impl Again {
    pub fn new(bytes: Vec<u8>, piece: usize) -> Again {
        Again {
            bytes,
            at: 0,
            piece,
            reads: 0,
        }
    }
}

impl Source for Again {
    ghost use Rattle.std.specs.Prelude.{None};

    ghost left = { λ _. None };

    ghost faults = { λ _. 0 };

    fn read(&mut self, room: &mut [u8]) -> Result<usize, Failed> {
        self.reads = self.reads.saturating_add(1);
        if self.at >= self.bytes.len() {
            self.at = 0;
        }
        let left = &self.bytes[self.at..];
        let count = room.len().min(self.piece).min(left.len());
        room[..count].copy_from_slice(&left[..count]);
        self.at += count;
        Ok(count)
    }
}

/// A sink that takes all that it is given.
#[derive(Debug, Drop)]
pub struct Taker {
    pub writes: u64,
    pub bytes: u64,
}

impl Sink for Taker {
    ghost use Rattle.std.specs.Prelude.{None};

    ghost written = { λ _. None };

    ghost faults = { λ _. 0 };

    fn write(&mut self, bytes: &[u8]) -> Result<usize, Failed> {
        self.writes = self.writes.saturating_add(1);
        self.bytes = self.bytes.wrapping_add(bytes.len() as u64);
        Ok(bytes.len())
    }
}
'''


def told(words):
    """What a program prints, by its words: a list of numbers for each."""
    out, _, _ = scratch.run(words)
    found = {}
    for line in out.splitlines():
        word, number = line.split()
        found.setdefault(word, []).append(int(number))
    return found


def ratio(found, one, other):
    """The median of the rounds' ratios, with the median times of both."""
    ratios = [a / b for a, b in zip(found[one], found[other])]
    return statistics.median(ratios), statistics.median(found[one]), statistics.median(found[other])


def takings(words):
    """How often a program takes memory, as valgrind tells it."""
    made = subprocess.run(['valgrind', *words], stdout=subprocess.DEVNULL, stderr=subprocess.PIPE, text=True)
    return int(re.search(r'total heap usage: ([\d,]+) allocs', made.stderr).group(1).replace(',', ''))


# The C library's allocator gives nothing back to the kernel.
KEEPING = ['MALLOC_TRIM_THRESHOLD_=1000000000', 'MALLOC_MMAP_THRESHOLD_=1000000000', 'MALLOC_TOP_PAD_=100000000']


def instructions(words, within=None):
    """How many instructions a program's own functions execute, within one of them where it is named, without what the
    C library does: the allocator and copies of bytes. Valgrind's callgrind counts them."""
    only = [f'--toggle-collect={within}'] if within else []
    with tempfile.TemporaryDirectory() as folder:
        out = os.path.join(folder, 'out')
        subprocess.run(['valgrind', '-q', '--tool=callgrind', *only, f'--callgrind-out-file={out}', *words], check=True,
                       stdout=subprocess.DEVNULL, stderr=subprocess.DEVNULL)
        told = subprocess.run(['callgrind_annotate', '--threshold=100', '--auto=no', out], check=True,
                              stdout=subprocess.PIPE, text=True).stdout
    own = re.findall(r'^ *([\d,]+) .*\[(.*)\]$', told, re.MULTILINE)
    return sum(int(count.replace(',', '')) for count, where in own if where == words[0])
