#!/usr/bin/env python3
"""Measures batches: bench/batches.py [PROGRAM]

Seconds of the processor and the greatest memory of `lakefs batch`, each number the least of three runs, with what a
peer takes in the same run: `git fast-import` of the same blobs and paths in one commit. PROGRAM is the built program (by
default crates/lakefs/out/lakefs, which `rt run` in its folder leaves there). It needs git.
"""
import os
import pathlib
import subprocess
import sys
import tempfile

TOP = pathlib.Path(__file__).resolve().parent.parent
LAKE = 'lakefs://quickstart/main'
ROUNDS = 3


# A process of its own, so that the memory of this one, which holds the input, isn't counted.
LAUNCH = """
import os, subprocess, sys
with open('input', 'rb') as file:
    child = subprocess.Popen(sys.argv[1:], stdin=file, stdout=subprocess.DEVNULL, stderr=subprocess.DEVNULL)
    _, _, used = os.wait4(child.pid, 0)
print(used.ru_utime + used.ru_stime, used.ru_maxrss)
"""


def once(words, data, folder):
    """Seconds of the processor and KiB of memory of one run."""
    with open(os.path.join(folder, 'input'), 'wb') as file:
        file.write(data)
    said = subprocess.run([sys.executable, '-c', LAUNCH, *words], cwd=folder, stdout=subprocess.PIPE, check=True).stdout.split()
    return float(said[0]), int(said[1])


def least(words, lines):
    """The least time, and the greatest memory in MiB, of a few runs."""
    data = ''.join(line + '\n' for line in lines).encode()
    found = []
    for _ in range(ROUNDS):
        with tempfile.TemporaryDirectory() as folder:
            found.append(once(words, data, folder))
    return min(time for time, _ in found), max(room for _, room in found) / 1024


def uploads(count):
    return [f'fs upload {LAKE}/p/{number:06} --text {number:06}' for number in range(count)]


def imported(count):
    """The same objects as one commit, for `git fast-import`."""
    yield 'commit refs/heads/main\ncommitter a <a@example.org> 1700000000 +0000\ndata 1\nx'
    for number in range(count):
        yield f'M 100644 inline p/{number:06}\ndata 6\n{number:06}'


def git_time(count):
    data = ''.join(line + '\n' for line in imported(count)).encode()
    found = []
    for _ in range(ROUNDS):
        with tempfile.TemporaryDirectory() as folder:
            subprocess.run(['git', 'init', '-q', '--bare', folder + '/g'], check=True)
            found.append(once(['git', '-C', folder + '/g', 'fast-import', '--quiet'], data, folder)[0])
    return min(found)


def main():
    program = str(pathlib.Path(sys.argv[1] if len(sys.argv) > 1 else TOP / 'crates/lakefs/out/lakefs').resolve())
    batch = [program, 'batch', '--at', '1700000000']
    commit = [f'commit {LAKE} -m all']
    for count in (5_000, 100_000):
        time, room = least(batch, uploads(count) + commit)
        git = git_time(count)
        print(f'{count} uploads and a commit: {time:.2f} s, {room:.0f} MiB; git fast-import {git:.2f} s: {time / git:.1f} times')
    for count in (1_000, 100_000):
        made = uploads(count) + commit
        alone, _ = least(batch, made)
        listed, _ = least(batch, made + [f'fs ls {LAKE}/ --recursive --amount 100'] * 1_000)
        print(f'a page of 100 of {count} keys: {(listed - alone) * 1000:.2f} ms')
    for count in (8_000, 800_000):
        time, room = least(batch, ['fs cat x'] * count)
        print(f'{count} refused lines: {time:.2f} s, {room:.0f} MiB')


if __name__ == '__main__':
    main()
