#!/usr/bin/env python3
"""Measures the generator: bench/generator.py [PROGRAM]

Seconds of the processor and the greatest memory of `lakefs gen`, each the least of three runs, with what a peer takes
in the same run: `git fast-import` of the same blobs, paths, commits and merge. PROGRAM is the built program (by default
crates/lakefs/out/lakefs, which `rt run` in its folder leaves there). It needs git.
"""
import os
import pathlib
import subprocess
import sys
import tempfile

TOP = pathlib.Path(__file__).resolve().parent.parent
sys.path.insert(0, str(TOP / 'checks'))
from generator import numbers  # noqa: E402

NUMBER = 7
ROUNDS = 3

# A process of its own, so that the memory of this one, which holds the input, isn't counted.
LAUNCH = """
import os, subprocess, sys
with open(sys.argv[1], 'rb') as file:
    child = subprocess.Popen(sys.argv[2:], stdin=file, stdout=subprocess.DEVNULL, stderr=subprocess.DEVNULL)
    _, status, used = os.wait4(child.pid, 0)
print(used.ru_utime + used.ru_stime, used.ru_maxrss, status)
"""


def once(words, data, folder):
    """Seconds of the processor and MiB of memory of one run."""
    path = os.path.join(folder, 'input')
    with open(path, 'wb') as file:
        file.write(data)
    said = subprocess.run([sys.executable, '-c', LAUNCH, path, *words], cwd=folder, stdout=subprocess.PIPE, check=True)
    seconds, room, status = said.stdout.split()
    if status != b'0':
        sys.exit(f'{words[0]} failed')
    return float(seconds), int(room) / 1024


def imported(objects):
    """The same lines for `git fast-import`: blobs, commits of both branches, and at the end a merge."""
    yield 'reset refs/heads/main\n'
    since, dev = {'main': {}, 'dev': {}}, {}
    for at, x in enumerate(numbers(NUMBER, objects), 1):
        yield f'blob\nmark :{at}\ndata 16\n{x:016x}\n'
        since['main' if x < 2**63 else 'dev'][f'p/{x // 65536 % 16777216:06x}'] = at
        if at % 1000 == 0 or at == objects:
            for branch, changed in since.items():
                yield from commit(branch, changed, f'g{at}')
            dev |= since['dev']
            since = {'main': {}, 'dev': {}}
    yield from commit('main', dev, 'merge', 'merge refs/heads/dev\n')


def commit(branch, changed, message, merge=''):
    yield f'commit refs/heads/{branch}\ncommitter a <a@example.org> 0 +0000\ndata {len(message)}\n{message}\n{merge}'
    for path, mark in changed.items():
        yield f'M 100644 :{mark} {path}\n'


def least(words, data, prepare=()):
    found = []
    for _ in range(ROUNDS):
        with tempfile.TemporaryDirectory() as folder:
            if prepare:
                subprocess.run(prepare, cwd=folder, check=True)
            found.append(once(words, data, folder))
    return min(time for time, _ in found), max(room for _, room in found)


def main():
    program = str(pathlib.Path(sys.argv[1] if len(sys.argv) > 1 else TOP / 'crates/lakefs/out/lakefs').resolve())
    for objects in (5_000, 100_000):
        lake, room = least([program, 'gen', '--number', str(NUMBER), '--objects', str(objects)], b'')
        data = ''.join(imported(objects)).encode()
        git, _ = least(['git', '--git-dir', 'g', 'fast-import', '--quiet'], data, ['git', 'init', '-q', '--bare', 'g'])
        print(f'{objects} objects: {lake:.2f} s, {room:.0f} MiB; git fast-import {git:.2f} s: {lake / git:.1f} times')


if __name__ == '__main__':
    main()
