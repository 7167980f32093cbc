#!/usr/bin/env python3
"""Measures lakes in folders: bench/folders.py [PROGRAM [OBJECTS [PUTS]]]

Seconds by the clock, each number the least of three runs, with what a peer takes in the same run.

- Opening a lake of OBJECTS objects (100,000 by default) in one commit, and in 100 commits that share all but one of their
  ranges: `lakefs ctl --local`, less what it takes on a lake of one object; the peer reads the rows by Python's sqlite3 and
  digests each range once by hashlib.
- PUTS durable uploads of 1 KiB (1,000 by default), as lines of one batch; the peer makes two transactions of two upserts
  for each in a file of SQLite, in the same folder, with a log and a sync at each commit; and the same with a synced file of
  1 KiB for each.

PROGRAM is the built program (by default crates/lakefs/out/lakefs). The pairs of the large lake are spelled by
checks/pairs.py.
"""
import contextlib
import hashlib
import importlib.util
import os
import pathlib
import sqlite3
import subprocess
import sys
import tempfile
import time

TOP = pathlib.Path(__file__).resolve().parent.parent
ROUNDS = 3
COMMITS = 100
MAKE = 'CREATE TABLE IF NOT EXISTS pairs (key BLOB PRIMARY KEY NOT NULL, value BLOB NOT NULL)'
UPSERT = 'INSERT INTO pairs (key, value) VALUES (?1, ?2) ON CONFLICT (key) DO UPDATE SET value = excluded.value'


def pairs_module():
    spec = importlib.util.spec_from_file_location('pairs', TOP / 'checks' / 'pairs.py')
    module = importlib.util.module_from_spec(spec)
    spec.loader.exec_module(module)
    return module


PAIRS = pairs_module()


def is_break(path):
    value = 14695981039346656037
    for byte in path.encode():
        value = (value ^ byte) * 1099511628211 & 0xffffffffffffffff
    return value % 1024 == 0


def cut(rows):
    """The ranges of these rows by the usual cut."""
    ranges, now, size = [], [], 0
    for path, number in rows:
        length = 2 + len(path) + len(PAIRS.entry(number))
        if now and size + length > 1048576:
            ranges.append(now)
            now, size = [], 0
        now.append((path, number))
        size += length
        if is_break(path):
            ranges.append(now)
            now, size = [], 0
    return [*ranges, now] if now else ranges


def lake(objects, commits):
    """The pairs of a lake whose commits each have so many objects, and differ in their first."""
    made, parents, generation = {}, [], 1
    tail = cut([(f'p/{number:07}', number) for number in range(1, objects)])
    for at in range(commits):
        ranges = cut([('a', objects + at if at else 0), *(tail[0] if tail else [])]) + tail[1:]
        files = [PAIRS.range_(PAIRS.range_file(rows)) for rows in ranges]
        whole = PAIRS.metarange_file(ranges)
        data = PAIRS.commit_bytes(PAIRS.digest(whole), generation, parents, f'commit {at}')
        made.update([*files, PAIRS.metarange(whole), PAIRS.commit(data)])
        parents, generation = [PAIRS.digest(data)], generation + 1
    made.update([
        PAIRS.branch('main', parents[0], 1, 0), PAIRS.repository(settings=0),
        PAIRS.counts(number=objects + commits + 1, version=2, token=1)])
    return made


def keep(folder, made):
    with contextlib.closing(sqlite3.connect(folder / 'lake.db')) as base, base:
        base.execute(MAKE)
        base.executemany('INSERT INTO pairs (key, value) VALUES (?1, ?2)', sorted(made.items()))


def least(call):
    found = []
    for _ in range(ROUNDS):
        begun = time.monotonic()
        call()
        found.append(time.monotonic() - begun)
    return min(found)


def opened(program, folder):
    words = [program, 'ctl', '--local', str(folder), 'branch', 'list', 'lakefs://quickstart']
    return least(lambda: subprocess.run(words, check=True, stdout=subprocess.DEVNULL))


def read_and_digested(folder):
    def call():
        with contextlib.closing(sqlite3.connect(folder / 'lake.db')) as base:
            for key, value in base.execute('SELECT key, value FROM pairs ORDER BY key'):
                if key[:1] == b'G':
                    hashlib.sha256(value).digest()
    return least(call)


def measure_opening(program, objects):
    with tempfile.TemporaryDirectory() as name:
        small, large, many = (pathlib.Path(name) / word for word in ('small', 'large', 'many'))
        for folder, made in ((small, lake(1, 1)), (large, lake(objects, 1)), (many, lake(objects, COMMITS))):
            folder.mkdir()
            keep(folder, made)
        start = opened(program, small)
        for folder, text in ((large, 'one commit'), (many, f'{COMMITS} commits')):
            took, peer = opened(program, folder) - start, read_and_digested(folder)
            print(f'opening {objects} objects, {text}: {took:.3f} s; rows and digests {peer:.3f} s; ratio {took / peer:.2f}')


def uploads(count):
    text = 'x' * 1024
    return ''.join(f'fs upload lakefs://quickstart/main/p/{number:06} --text {text}\n' for number in range(count)).encode()


def put_all(program, folder, count):
    words = [program, 'batch', '--local', str(folder)]
    subprocess.run(words, input=uploads(count), check=True, stdout=subprocess.DEVNULL)


def put_peer(folder, count, with_files):
    folder.mkdir(exist_ok=True)
    body = b'x' * 1024
    with contextlib.closing(sqlite3.connect(folder / 'peer.db', isolation_level=None)) as base:
        base.execute('PRAGMA journal_mode = WAL')
        base.execute('PRAGMA synchronous = FULL')
        base.execute(MAKE)
        for number in range(count):
            if with_files:
                with open(folder / f'{number}.new', 'wb') as file:
                    file.write(body)
                    file.flush()
                    os.fsync(file.fileno())
                os.rename(folder / f'{number}.new', folder / f'{number}')
            for part in range(2):
                base.execute('BEGIN IMMEDIATE')
                base.execute(UPSERT, (b'Z', bytes(24)))
                base.execute(UPSERT, (b'S%d-%d' % (part, number), bytes(80)))
                base.execute('COMMIT')


def fresh(call):
    """The least time of a call on a new folder."""
    found = []
    for _ in range(ROUNDS):
        with tempfile.TemporaryDirectory(dir='.') as name:
            begun = time.monotonic()
            call(pathlib.Path(name) / 'lake')
            found.append(time.monotonic() - begun)
    return min(found)


def measure_puts(program, count):
    took = fresh(lambda folder: put_all(program, folder, count)) - fresh(lambda folder: put_all(program, folder, 0))
    bare, synced = (fresh(lambda folder: put_peer(folder, count, files)) for files in (False, True))
    print(f'{count} durable uploads of 1 KiB: {took:.2f} s, {count / took:.0f} a second; SQLite at two transactions each '
          f'{bare:.2f} s (rate {bare / took:.2f} of it), with a synced file each {synced:.2f} s ({synced / took:.2f} of it)')


def main():
    program = str(pathlib.Path(sys.argv[1] if len(sys.argv) > 1 else TOP / 'crates/lakefs/out/lakefs').resolve())
    measure_opening(program, int(sys.argv[2]) if len(sys.argv) > 2 else 100_000)
    measure_puts(program, int(sys.argv[3]) if len(sys.argv) > 3 else 1_000)


main()
