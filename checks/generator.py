#!/usr/bin/env python3
"""Compares what `lakefs gen` prints with what a model of its own says.

Usage: checks/generator.py [PROGRAM]

The model makes the lines' numbers by itself, keeps the branches as maps of paths, commits and merges them by the rules,
and spells the map of main's head and its files by docs/FORMATS.md. The program is run for a table of numbers and
counts, and for words that are none of its own. PROGRAM is the built program (crates/lakefs/out/lakefs).
"""
import hashlib
import pathlib
import subprocess
import sys

TOP = pathlib.Path(__file__).resolve().parent.parent

# Numbers, and how many objects: one object, both sides of each thousandth, and more than one range.
RUNS = [(0, 1), (0, 2), (1, 10), (7, 40), (7, 200), (7, 5_000), (2**64 - 1, 999), (2**64 - 1, 1_000), (2**64 - 1, 1_001),
        (12345678901234567890, 1_000), (3, 2_500), (2**63, 20_000), (99, 100_000)]

# Words that are none of the program's.
OTHERS = [('0', '0'), ('0', '100001'), ('0', '+1'), ('', '1'), ('0' * 21, '1'), (str(2**64), '1'), ('0', '1' * 20)]


def numbers(number, objects):
    for _ in range(objects):
        number = (number * 6364136223846793005 + 1442695040888963407) % 2**64
        yield number


def uploaded(number, at):
    """The path and the entry of a number, the at-th upload from 0."""
    text = f'{number:016x}'.encode()
    entry = b'\0' + at.to_bytes(8, 'big') + hashlib.sha256(text).digest() + len(text).to_bytes(8, 'big') + bytes(8)
    kind = b'application/octet-stream'
    return f'p/{number // 65536 % 16777216:06x}'.encode(), entry + len(kind).to_bytes(2, 'big') + kind + bytes(2)


def merged(base, source, dest):
    """The map of a merge in which the source wins."""
    made = {}
    for path in base.keys() | source.keys() | dest.keys():
        was, theirs, ours = base.get(path), source.get(path), dest.get(path)
        value = ours if theirs == was else theirs
        if value is not None:
            made[path] = value
    return made


def is_break(path):
    state = 14695981039346656037
    for byte in path:
        state = (state ^ byte) * 1099511628211 % 2**64
    return state % 1024 == 0


def ranges(rows):
    """The rows, cut into ranges: behind a key that breaks, and before a row for which there is no room."""
    cut, size = [[]], 0
    for path, entry in rows:
        row = len(path).to_bytes(2, 'big') + path + entry
        if cut[-1] and (is_break(cut[-1][-1][0]) or size + len(row) > 1_048_576):
            cut.append([])
            size = 0
        cut[-1].append((path, row))
        size += len(row)
    return [some for some in cut if some]


def map_id(objects):
    cut = ranges(sorted(objects.items()))
    said = b'\x01' + len(cut).to_bytes(4, 'big')
    for rows in cut:
        file = b'\x01' + len(rows).to_bytes(4, 'big') + b''.join(row for _, row in rows)
        first, last = rows[0][0], rows[-1][0]
        said += hashlib.sha256(file).digest() + len(rows).to_bytes(4, 'big')
        said += len(first).to_bytes(2, 'big') + first + len(last).to_bytes(2, 'big') + last
    return hashlib.sha256(said).hexdigest()


def printed(number, objects):
    heads, now, commits = {'main': {}, 'dev': {}}, {'main': {}, 'dev': {}}, 0
    for at, x in enumerate(numbers(number, objects)):
        path, entry = uploaded(x, at)
        now['main' if x < 2**63 else 'dev'][path] = entry
        if (at + 1) % 1000 == 0 or at + 1 == objects:
            for branch in ('main', 'dev'):
                commits += now[branch] != heads[branch]
                heads[branch] = dict(now[branch])
    commits += heads['dev'] != {}
    main = merged({}, heads['dev'], heads['main'])
    return f'objects: {objects}\ncommits: {commits}\npaths: {len(main)}\nmetarange: {map_id(main)}\n'


def ran(program, number, objects):
    done = subprocess.run([program, 'gen', '--number', number, '--objects', objects], capture_output=True, text=True)
    return done.stdout, done.stderr, done.returncode


def main():
    program = pathlib.Path(sys.argv[1] if len(sys.argv) > 1 else TOP / 'crates/lakefs/out/lakefs').resolve()
    differ = 0
    for number, objects in RUNS:
        due = (printed(number, objects), '', 0)
        if ran(program, str(number), str(objects)) != due:
            differ += 1
            print(f'{number} {objects}: differs')
    for number, objects in OTHERS:
        if ran(program, number, objects) != ('', 'Error: usage\n', 2):
            differ += 1
            print(f'{number} {objects}: is taken')
    print(f'{len(RUNS)} runs and {len(OTHERS)} words, {differ} differ')
    return 1 if differ else 0


if __name__ == '__main__':
    sys.exit(main())
