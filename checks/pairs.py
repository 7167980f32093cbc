#!/usr/bin/env python3
"""Spells the pairs of a small lake and of lakes that are broken in one place: checks/pairs.py [FOLDER]

The bytes are made here by the format as docs/FORMATS.md has it, and which pair is due as the broken one is said here, row
by row. It writes the tables that crates/test_pairs goes over (src/rows.rt and src/other_rows.rt there) to FOLDER, or compares
those files with them and prints `same` or `differs`; its status is 1 where they differ. `rt fmt` lays the files out: what is
compared are their words.
"""
import hashlib
import os
import struct
import sys

HERE = os.path.dirname(os.path.dirname(os.path.abspath(__file__)))
SOURCES = os.path.join(HERE, 'crates', 'test_pairs', 'src')
SOUND, UNREAD = 'Due::Sound', 'Due::Unread'


def b16(n):
    return struct.pack('>H', n)


def b32(n):
    return struct.pack('>I', n)


def b64(n):
    return struct.pack('>Q', n)


def s16(text):
    text = text.encode() if isinstance(text, str) else text
    return b16(len(text)) + text


def digest(data):
    return hashlib.sha256(data).digest()


# ---- files

def entry(number):
    return b'\0' + b64(number) + digest(b'hello') + b64(5) + b64(0) + s16('') + b16(0)


def range_file(rows):
    return b'\1' + b32(len(rows)) + b''.join(s16(path) + entry(number) for path, number in rows)


def metarange_file(ranges):
    return b'\1' + b32(len(ranges)) + b''.join(
        digest(range_file(rows)) + b32(len(rows)) + s16(rows[0][0]) + s16(rows[-1][0]) for rows in ranges)


def commit_bytes(metarange, generation, parents, message):
    message = message.encode()
    return (b'\1' + metarange + b64(generation) + b64(0) + b16(len(parents)) + b''.join(parents) + s16('ann')
            + b32(len(message)) + message + b16(0))


# ---- pairs

def repository(repo='quickstart', default='main', settings=1):
    return b'R' + s16(repo), b64(0) + s16(default) + b64(settings)


def branch(name, head, version, staging, sealed=(), repo='quickstart'):
    value = b64(version) + head + b64(staging) + b32(len(sealed)) + b''.join(b64(token) for token in sealed)
    return b'B' + s16(repo) + s16(name), value


def tag(commit, repo='quickstart'):
    return b'T' + s16(repo) + s16('v1'), commit


def commit(data, expired=False, named=None, repo='quickstart'):
    return b'C' + s16(repo) + (named or digest(data)), bytes([expired]) + data


def metarange(data):
    return b'M' + digest(data), data


def range_(data):
    return b'G' + digest(data), data


def staged(token, path, number):
    return b'S' + b64(token) + path.encode(), b'\1' + entry(number)


def note(text, kind=2, repo='quickstart'):
    return b'N' + s16(repo) + bytes([kind]), text.encode()


def gone(number):
    return b'X' + b64(number), b''


def counts(number=4, version=4, token=4):
    return b'Z', b64(number) + b64(version) + b64(token)


# ---- the lake: two branches, two commits, a tag, a setting, two changes that aren't committed, a number that is gone

NONE, ONE = metarange_file([]), metarange_file([[('a', 0)]])
FILE = range_file([('a', 0)])
FIRST = commit_bytes(digest(NONE), 1, [], 'first')
SECOND = commit_bytes(digest(ONE), 2, [digest(FIRST)], 'second')
C1, C2, ABSENT = digest(FIRST), digest(SECOND), b'\xff' * 32
DEV, MAIN = branch('dev', C1, 2, 1, [2]), branch('main', C2, 3, 3)
TEXT = '[{"pattern":"v*"}]'
LAKE = dict([
    DEV, MAIN, commit(FIRST), commit(SECOND), range_(FILE), metarange(NONE), metarange(ONE), note(TEXT), repository(),
    staged(2, 'b', 1), staged(3, 'c', 2), tag(C1), gone(3), counts(),
])

# Other commits in the place of the second one.
LATE = commit_bytes(digest(ONE), 3, [digest(FIRST)], 'second')
OTHER = commit_bytes(digest(ONE), 2, [digest(FIRST)], 'other')
TOP = branch('dev', C2, 2, 1, [2])
FAR = branch('main', C1, 3, 3)

TABLE = {}


def group(name):
    """The rows that follow are those of this name."""
    TABLE[name] = []


def row(about, due, without=(), put=()):
    """A lake without these keys, and then with these pairs. What is due is Sound, Unread, or the key of the broken pair."""
    pairs = {key: value for key, value in LAKE.items() if key not in without}
    pairs.update(dict(put))
    if isinstance(due, bytes):
        due = f'Due::Broken({sorted(pairs).index(due)})'
    TABLE[list(TABLE)[-1]].append((about, without, put, due))


def cut(pair, count=1):
    return pair[0], pair[1][:-count]


def changed(pair):
    return pair[0], pair[1][:-1] + bytes([pair[1][-1] ^ 0xff])


group('REPOSITORIES')
row('the lake as it is', SOUND)

# its repository has a pair
row('no repository', DEV[0], without=[repository()[0]])
row('a branch of no repository', branch('main', C1, 2, 0, repo='other')[0], put=[branch('main', C1, 2, 0, repo='other')])
row('a commit of no repository', commit(FIRST, repo='other')[0], put=[commit(FIRST, repo='other')])
row('a setting of no repository', note(TEXT, repo='other')[0], put=[note(TEXT, repo='other')])
row('a tag of no repository', tag(C1, repo='other')[0], put=[tag(C1, repo='other')])

# a default branch, a head, a tag's commit and a parent are there
group('PLACES')
row('no default branch', repository()[0], put=[repository(default='none')])
row('no head', DEV[0], put=[branch('dev', ABSENT, 2, 1, [2])])
row('no commit of a tag', tag(C1)[0], put=[tag(ABSENT)])
row('no parent', commit(SECOND)[0], without=[commit(FIRST)[0]], put=[TOP, tag(C2)])

# a generation is due, and an id is that of the bytes
group('COMMITS')
row('a later generation', commit(LATE)[0], without=[commit(SECOND)[0]], put=[commit(LATE), branch('main', digest(LATE), 3, 3)])
row('other bytes of an id', commit(SECOND)[0], put=[commit(OTHER, named=C2)])

# a head and a tagged commit aren't expired
row('an expired head', MAIN[0], put=[commit(SECOND, expired=True)])
row('an expired commit of a tag', tag(C2)[0], put=[FAR, tag(C2), commit(SECOND, expired=True)])
row('an expired commit that nothing names', SOUND, put=[FAR, commit(SECOND, expired=True)])

# tokens
group('TOKENS')
row('a token of an earlier branch', MAIN[0], put=[branch('main', C2, 3, 1)])
row('a token of one branch twice', DEV[0], put=[branch('dev', C1, 2, 1, [2, 1])])
row('a change under no token', staged(0, 'x', 1)[0], put=[staged(0, 'x', 1)])
row('a token that was not given out', MAIN[0], put=[branch('main', C2, 3, 4)])
row('a sealed token that was not given out', DEV[0], put=[branch('dev', C1, 2, 1, [2, 4])])

# settings
group('SETTINGS')
row('a text with a space', note(TEXT)[0], put=[note('[{"pattern": "v*"}]')])
row('a text of another kind', note(TEXT)[0], put=[note('{"pattern":"v*"}')])
row('a text of another setting', note(TEXT, kind=3)[0], put=[note(TEXT, kind=3)])

# versions
row('a version that was not given out', DEV[0], put=[branch('dev', C1, 4, 1, [2])])
row('a version of settings that was not given out', repository()[0], put=[repository(settings=4)])

# numbers
group('GIVEN_NUMBERS')
row('a committed number that was not given out', range_(FILE)[0], put=[counts(number=0)])
row('a sealed number that was not given out', staged(2, 'b', 1)[0], put=[counts(number=1)])
row('a staged number that was not given out', staged(3, 'c', 2)[0], put=[counts(number=2)])
row('a number that is gone and was not given out', gone(3)[0], put=[counts(number=3)])
group('GONE_NUMBERS')
row('a committed number that is gone', range_(FILE)[0], put=[gone(0)])
row('a sealed number that is gone', staged(2, 'b', 1)[0], put=[gone(1)])
row('a staged number that is gone', staged(3, 'c', 2)[0], put=[gone(2)])
row('a number of an expired commit that is gone', SOUND, put=[FAR, commit(SECOND, expired=True), gone(0)])
row('a number that is gone under a newer change', SOUND, put=[
    branch('dev', C1, 2, 1, [0, 2]), staged(0, 'b', 0), gone(1)])

# what is given out next
group('COUNTS')
row('no counts', sorted(LAKE)[0], without=[counts()[0]])
row('a large next number', counts()[0], put=[counts(number=1 << 63)])
row('a large next version', counts()[0], put=[counts(version=1 << 63)])
row('a large next token', counts()[0], put=[counts(token=1 << 63)])

# one digest, in two repositories
group('DIGESTS')
SECOND_LAKE = [repository(repo='second', settings=0), branch('main', C1, 1, 0, repo='second')]
row('a commit in two repositories', SOUND, put=[*SECOND_LAKE, commit(FIRST, repo='second')])
row('two commits of one id', commit(FIRST, repo='second')[0], put=[*SECOND_LAKE, commit(OTHER, named=C1, repo='second')])

# files
group('FILES')
row('a range that nothing names', SOUND, put=[range_(range_file([('z', 3)]))])
row('a metarange that nothing names', SOUND, put=[metarange(metarange_file([[('z', 3)]]))])
row('no range', UNREAD, without=[range_(FILE)[0]])
row('no metarange', UNREAD, without=[metarange(ONE)[0]])
row('a damaged range', UNREAD, put=[changed(range_(FILE))])

# of no form: never another pair that names it
group('NAMED_FORMS')
row('a head of no form', commit(SECOND)[0], put=[cut(commit(SECOND))])
row('a parent of no form', commit(FIRST)[0], put=[TOP, tag(C2), cut(commit(FIRST))])
row('a repository of no form', repository()[0], put=[cut(repository())])
row('a branch of no form', DEV[0], put=[cut(DEV)])
row('a tag of no form', tag(C1)[0], put=[cut(tag(C1))])
group('OTHER_FORMS')
row('a change of no form', staged(3, 'c', 2)[0], put=[cut(staged(3, 'c', 2))])
row('a gone number of no form', gone(3)[0], put=[(gone(3)[0], b'\0')])
row('counts of no form', counts()[0], put=[cut(counts())])
row('a key of no form', b'Q', put=[(b'Q', b'')])
row('a branch with the name of an id', branch('0' * 64, C1, 2, 0)[0], put=[branch('0' * 64, C1, 2, 0)])


# ---- the table

def literal(pairs):
    return '&[' + ', '.join(f'("{key.hex()}", "{value.hex()}")' for key, value in pairs) + ']'


def rows_of(names):
    lines = []
    for name in names:
        rows = TABLE[name]
        lines += ['', f'pub(crate) static {name}: [Row; {len(rows)}] = [']
        for about, without, put, due in rows:
            keys = '&[' + ', '.join(f'"{key.hex()}"' for key in without) + ']'
            lines.append(f'Row {{ about: "{about}", without: {keys}, put: {literal(put)}, due: {due} }},')
        lines.append('];')
    return [*lines, '']


def tables():
    names = list(TABLE)
    first = names.index('GIVEN_NUMBERS')
    lake = [
        '//! The pairs of a small lake, and lakes that are broken in one place, as `checks/pairs.py` spells them.', '',
        '/// What an opening is to come to.', '#[derive(Clone, Copy, Debug, PartialEq, Eq)]', 'pub(crate) enum Due {',
        '/// A lake, over the same pairs.', 'Sound,', '/// The pair of this number is broken, counted from 0.', 'Broken(u64),',
        '/// The tree of a commit isn\'t read.', 'Unread,', '}', '',
        '/// A lake without the pairs of these keys, and then with these pairs, all in hex.', 'pub(crate) struct Row {',
        'pub about: &\'static str,', 'pub without: &\'static [&\'static str],',
        'pub put: &\'static [(&\'static str, &\'static str)],', 'pub due: Due,', '}', '', '/// The pairs of the lake, in hex.',
        f'pub(crate) static LAKE: &[(&str, &str)] = {literal(sorted(LAKE.items()))};']
    others = [
        '//! Lakes that are broken in a number, a count or a file, or by a pair of no form, as `checks/pairs.py` spells them.', '',
        'use crate::rows::{Due, Row};']
    return {
        'rows.rt': '\n'.join(lake + rows_of(names[:first])),
        'other_rows.rt': '\n'.join(others + rows_of(names[first:])),
    }


def words(text):
    return ''.join(text.split()).replace(',]', ']').replace(',}', '}').replace(',)', ')')


def main():
    if len(sys.argv) > 1:
        for name, text in tables().items():
            with open(os.path.join(sys.argv[1], name), 'w', encoding='utf-8') as it:
                it.write(text)
        return 0
    same = True
    for name, text in tables().items():
        with open(os.path.join(SOURCES, name), encoding='utf-8') as it:
            same = same and words(it.read()) == words(text)
    print('same' if same else 'differs')
    return 0 if same else 1


if __name__ == "__main__":
    sys.exit(main())
