#!/usr/bin/env python3
"""Checks lakes in folders: checks/folder.py PROGRAM [BATCHES [KILLS]] [CASE..]

BATCHES is a folder of batches as checks/batches.py takes it; without one the batch below alone is cut. KILLS, 1 to 200, is
how often the server is killed, by default 20. A CASE is a name of a function without `case_`; by default all run. The
cases: a batch in two runs beside one run in memory, and its lines as commands; a server that is killed under load, and what
its next run has; folders that are held, forbidden, full or damaged; what sqlite3 reads. What is due is what docs/USING.md says.
It prints what differs, and last `N checked, M differ`; its status is 1 where something differs.
"""
import concurrent.futures
import contextlib
import hashlib
import http.client
import json
import os
import pathlib
import random
import resource
import shutil
import signal
import socket
import sqlite3
import subprocess
import sys
import tempfile
import time

AT, WAIT = '1700000000', 60
LAKE = '/api/v1/repositories/quickstart'
MAIN, REFS = LAKE + '/branches/main', LAKE + '/refs/main'
LOG = 'log', 'lakefs://quickstart/main'
LINES = b'''fs upload lakefs://quickstart/main/a --text one
fs upload lakefs://quickstart/main/b/c --text two
fs stat lakefs://quickstart/main/a
commit lakefs://quickstart/main -m first
branch create lakefs://quickstart/dev --source lakefs://quickstart/main
fs upload lakefs://quickstart/dev/d --text three
fs rm lakefs://quickstart/dev/a
fs cat lakefs://quickstart/dev/a
commit lakefs://quickstart/dev -m second
merge lakefs://quickstart/dev lakefs://quickstart/main
tag create lakefs://quickstart/v1 lakefs://quickstart/main
fs upload lakefs://quickstart/main/e --text four
fs ls lakefs://quickstart/main/
fs cat lakefs://quickstart/v1/d
branch list lakefs://quickstart
log lakefs://quickstart/main
'''
CHECKED, ASKED = [], {'kills': 20, 'batches': None}


def same(name, found, due):
    CHECKED.append(found == due)
    if found != due:
        print(f'{name}: found {str(found)[:400]}, due {str(due)[:400]}', flush=True)


@contextlib.contextmanager
def room():
    with tempfile.TemporaryDirectory() as name:
        yield pathlib.Path(name)


def ran(program, *words, lines=b'', at=None, **more):
    done = subprocess.run([program, *words], input=lines, capture_output=True, timeout=WAIT, cwd=at, **more)
    return done.returncode, done.stdout, done.stderr


def batch(program, lines, at, folder=None):
    """The status and the output of a batch at one moment, in memory or in a folder."""
    words = ('batch', '--at', AT, *(('--local', folder) if folder else ()))
    status, out, errors = ran(program, *words, lines=lines, at=at)
    same('errors of a batch', errors, b'')
    return status, out


def command(program, folder, *words):
    return ran(program, 'ctl', '--at', AT, '--local', folder, *words)


# ---- batches, cut


def cuts(lines):
    """Some of the places between two lines: the first, the last and three others."""
    last = len(lines) - 1
    return sorted({max(1, min(last, place)) for place in (1, last // 4, last // 2, 3 * last // 4, last)}) if last > 0 else []


def worse(first, second):
    return next(status for status in (3, 4, 5, 6, 7, 1, 0, first) if status in (first, second))


def cut_batch(program, name, text, due, status):
    lines = text.splitlines(keepends=True)
    for place in cuts(lines):
        with room() as at:
            folder = str(at / 'lake')
            (at / 'files').mkdir()
            parts = [batch(program, b''.join(part), at / 'files', folder) for part in (lines[:place], lines[place:])]
            found = worse(parts[0][0], parts[1][0]), parts[0][1] + parts[1][1]
            same(f'{name}, cut behind line {place}', found, (status, due))


def case_batches(program):
    with room() as at:
        status, due = batch(program, LINES, at)
    same('the batch in memory', status, 1)
    cut_batch(program, 'own batch', LINES, due, status)
    for file in sorted(pathlib.Path(ASKED['batches']).glob('*.lines')) if ASKED['batches'] else ():
        text, due = file.read_bytes(), file.with_suffix('.out').read_bytes()
        cut_batch(program, file.stem, text, due, int(file.with_suffix('.status').read_text()))


def case_commands(program):
    """Each line by itself, as a command in a folder."""
    with room() as at:
        _, due = batch(program, LINES, at)
        folder = str(at / 'lake')
        parts = [command(program, folder, *line.decode().split()) for line in LINES.splitlines()]
    same('commands in a folder', b''.join(out + errors for _, out, errors in parts), due)
    same('their statuses', {status for status, _, _ in parts}, {0, 1})


# ---- a server that is killed


class Server:
    """The program while it serves a folder."""

    def __init__(self, program, folder, workers=4):
        with socket.create_server(('127.0.0.1', 0)) as door:
            self.port = door.getsockname()[1]
        words = [program, 'run', '--listen', f'127.0.0.1:{self.port}', '--folder', folder, '--workers', str(workers)]
        self.run = subprocess.Popen(words, stdout=subprocess.DEVNULL, stderr=subprocess.DEVNULL)

    def __enter__(self):
        return self

    def __exit__(self, *_):
        self.kill()

    def kill(self):
        self.run.kill()
        self.run.wait()

    def link(self):
        """A connection, which is tried until the program listens."""
        link = http.client.HTTPConnection('127.0.0.1', self.port, timeout=WAIT)
        for _ in range(6000):
            try:
                link.connect()
                return link
            except ConnectionRefusedError:
                if self.run.poll() is not None:
                    break
                time.sleep(0.01)
        raise TimeoutError(f'nobody listens; status {self.run.poll()}')


def ask(link, method, path, sent=None):
    link.request(method, path, sent)
    reply = link.getresponse()
    return reply.status, reply.read()


class Answered:
    """What was answered to the clients of a server: the bytes of each path, None where it was deleted; the commits. A request
    under way when the server ends may have been done: its path holds what either says."""

    def __init__(self):
        self.paths, self.open, self.commits = {}, {}, []

    def upload(self, link, path, data):
        self.open[path] = data
        if ask(link, 'POST', f'{MAIN}/objects?path={path}', data)[0] == 201:
            self.paths[path] = data
            del self.open[path]

    def delete(self, link, path):
        self.open[path] = None
        if ask(link, 'DELETE', f'{MAIN}/objects?path={path}')[0] == 204:
            self.paths[path] = None
            del self.open[path]

    def commit(self, link, message):
        status, body = ask(link, 'POST', MAIN + '/commits', json.dumps({'message': message}).encode())
        if status == 201:
            self.commits.append(json.loads(body)['id'])

    def client(self, server, number, seed):
        """One client: uploads, deletes and commits of its own paths, until the server is gone."""
        chance, own = random.Random(f'{seed} {number}'), []
        with contextlib.suppress(OSError, http.client.HTTPException, TimeoutError):
            link = server.link()
            while True:
                kind = chance.random()
                if kind < 0.1 and own:
                    self.delete(link, own.pop(chance.randrange(len(own))))
                elif kind < 0.2:
                    self.commit(link, f'{seed} {number}')
                else:
                    own.append(f'{seed}/{number}/{len(own)}-{chance.randrange(1 << 30)}')
                    self.upload(link, own[-1], chance.randbytes(chance.choice((0, 5, 300, 70_000))))

    def settle(self, link, path, data):
        """What a path holds whose request wasn't answered: as before, or as asked."""
        status, body = ask(link, 'GET', f'{REFS}/objects?path={path}')
        found = body if status == 200 else None
        same(f'unanswered {path}', status in (200, 404) and found in (self.paths.get(path), data), True)
        self.paths[path] = found

    def check(self, link, name):
        for path in list(self.open):
            self.settle(link, path, self.open.pop(path))
        lost = [path for path, data in self.paths.items() if not self.holds(link, path, data)]
        same(f'{name}: lost of {len(self.paths)} paths', lost, [])
        gone = [name for name in self.commits if ask(link, 'GET', f'{LAKE}/commits/{name}')[0] != 200]
        same(f'{name}: lost of {len(self.commits)} commits', gone, [])
        log = logged(link)
        same(f'{name}: not in the log', [name for name in self.commits if name not in log], [])
        self.forget()

    def holds(self, link, path, data):
        status, body = ask(link, 'GET', f'{REFS}/objects?path={path}')
        return status == 404 if data is None else (status, body) == (200, data)

    def forget(self, most=300):
        """Keeps some of what was checked, so that the next check stays short."""
        for path in random.sample(sorted(self.paths), max(0, len(self.paths) - most)):
            del self.paths[path]
        self.commits = random.sample(self.commits, min(most, len(self.commits)))


def logged(link):
    """The ids of all commits of main."""
    ids, after = set(), ''
    while True:
        page = json.loads(ask(link, 'GET', f'{REFS}/commits?amount=1000{after}')[1])
        ids |= {row['id'] for row in page['results']}
        if not page['pagination']['has_more']:
            return ids
        after = '&after=' + page['pagination']['next_offset']


def case_kills(program):
    chance, answered, seed = random.Random(), Answered(), random.randrange(1 << 30)
    with room() as at:
        folder = str(at / 'lake')
        for turn in range(ASKED['kills']):
            with Server(program, folder) as server, concurrent.futures.ThreadPoolExecutor(4) as pool:
                work = [pool.submit(answered.client, server, number, f'{seed}-{turn}') for number in range(4)]
                server.link().close()
                time.sleep(chance.uniform(0.02, 1.5))
                server.kill()
                for one in work:
                    one.result(WAIT)
            with Server(program, folder, 1) as server:
                answered.check(server.link(), f'kill {turn} of seed {seed}')
    same('something was answered', bool(answered.paths and answered.commits), True)


# ---- folders that are held, forbidden, damaged


def made(program, at):
    """A folder with the lake of the batch above, closed, its pairs all in one file, and what `log` prints of it."""
    folder = at / 'lake'
    batch(program, LINES, at, str(folder))
    with contextlib.closing(sqlite3.connect(folder / 'lake.db')) as database:
        database.execute('PRAGMA wal_checkpoint(TRUNCATE)').fetchall()
    return folder, command(program, str(folder), *LOG)


def case_held(program):
    with room() as at:
        folder, due = made(program, at)
        with Server(program, str(folder)) as server:
            link = server.link()
            for words in (('batch', '--local', folder), ('ctl', '--local', folder, *LOG),
                          ('run', '--listen', '127.0.0.1:0', '--folder', folder)):
                same(f'a second {words[0]}', ran(program, *map(str, words), lines=LINES), (5, b'', b''))
            same('the first one then', ask(link, 'POST', f'{MAIN}/objects?path=x', b'held')[0], 201)
            same('and its object', ask(link, 'GET', f'{REFS}/objects?path=x'), (200, b'held'))
        same('the log behind it', command(program, str(folder), *LOG), due)
        same('the object behind it', command(program, str(folder), 'fs', 'cat', 'lakefs://quickstart/main/x'), (0, b'held', b''))


def case_forbidden(program):
    with room() as at:
        at.chmod(0o755)
        copy = shutil.copy(program, at / 'program')
        os.chmod(copy, 0o755)
        (at / 'file').write_bytes(b'')
        (at / 'locked').mkdir(mode=0o500)
        folder, _ = made(program, at)
        folder.chmod(0o700)
        # (To the superuser nothing is forbidden: another user runs it then.)
        other = {'user': 65534, 'group': 65534, 'extra_groups': []} if os.geteuid() == 0 else {}
        folders = [at / 'file', at / 'file' / 'lake', at / 'locked' / 'lake', *([folder] if other else [])]
        for name in folders:
            for words in (('batch', '--local'), ('run', '--listen', '127.0.0.1:0', '--folder')):
                found = ran(str(copy), *words, str(name), lines=LINES, at=at, **other)
                same(f'{words[0]} on {name.relative_to(at)}', found, (5, b'', b''))


def limited(most):
    """Makes each write that takes a file beyond so many bytes fail, as on a disk without room."""
    signal.signal(signal.SIGXFSZ, signal.SIG_IGN)
    resource.setrlimit(resource.RLIMIT_FSIZE, (most, most))


def case_full(program):
    names = [f'f{number}' for number in range(30)]
    texts = {name: name * 600 for name in names}
    lines = [f'fs upload lakefs://quickstart/main/{name} --text {texts[name]}' for name in names]
    for most in (1_000, 40_000, 120_000):
        with room() as at:
            folder, _ = made(program, at)
            text = '\n'.join(lines).encode()
            words = 'batch', '--at', AT, '--local', str(folder)
            status, out, _ = ran(program, *words, lines=text, at=at, preexec_fn=lambda: limited(most))
            same(f'status with files of {most} bytes', status in (1, 5), True)
            answered = [name for name in names if f'Path: {name}\n' in out.decode()]
            same(f'a full disk is met with files of {most} bytes', len(answered) < len(names), True)
            for name in names:
                found = command(program, str(folder), 'fs', 'cat', f'lakefs://quickstart/main/{name}')
                if name in answered:
                    same(f'{name} behind files of {most} bytes', found, (0, texts[name].encode(), b''))
                else:
                    same(f'{name} is whole or not there', found in ((0, texts[name].encode(), b''), (1, b'', f'Error: path not found: {name} [404]\n'.encode())), True)
            same(f'a batch behind files of {most} bytes', batch(program, text, at, str(folder))[0], 0)


def opens(program, folder):
    return ran(program, 'ctl', '--at', AT, '--local', str(folder), *LOG)


def flipped(data, place):
    return data[:place] + bytes([data[place] ^ 1 << random.randrange(8)]) + data[place + 1:]


def case_damaged(program):
    """Files of pairs that aren't whole. The bytes of commits and trees are named by their digests, so that any flip shows; one
    elsewhere in the file may stand in bytes that nothing reads, or make another lake, but it is no crash."""
    with room() as at:
        folder, due = made(program, at)
        file = folder / 'lake.db'
        with contextlib.closing(sqlite3.connect(file)) as database:
            rows = database.execute("SELECT value FROM pairs WHERE substr(key, 1, 1) IN (x'43', x'4d', x'47')")
            values = [row[0] for row in rows]
        whole = file.read_bytes()
        named = [whole.index(value) + random.randrange(1, len(value)) for value in values if whole.count(value) == 1]
        same('some files to flip', len(named) > 2, True)
        files = [('cut in half', whole[:len(whole) // 2], True), ('cut by a byte', whole[:-1], True),
                 ('text', b'no database', True), ('a flip of the head', flipped(whole, 3), True)]
        files += [(f'a flip at {place}', flipped(whole, place), True) for place in named]
        places = (random.randrange(len(whole)) for _ in range(100))
        files += [(f'any flip at {place}', flipped(whole, place), False) for place in places]
        for name, data, shows in files:
            for left in ('lake.db-wal', 'lake.db-shm', 'lake.db-journal'):
                (folder / left).unlink(missing_ok=True)
            file.write_bytes(data)
            status, out, errors = opens(program, folder)
            same(f'{name}: status {status}', status in ((5, 6) if shows else (0, 1, 5, 6)), True)
            if status in (5, 6):
                same(f'{name}: nothing is printed, and the file is as it was', (out, errors, file.read_bytes() == data), (b'', b'', True))
        file.write_bytes(whole)
        same('the whole file', opens(program, folder), due)


def case_objects(program):
    """An object's file with another byte, cut, longer, or gone: no other bytes are read."""
    with room() as at:
        folder, _ = made(program, at)
        file = next(file for file in (folder / 'objects').iterdir() if file.read_bytes() == b'three')
        read = 'fs', 'cat', 'lakefs://quickstart/main/d'
        same('the object', command(program, str(folder), *read), (0, b'three', b''))
        for data in (b'Three', b'thre', b'three.', b''):
            file.write_bytes(data)
            same(f'damaged: {data}', command(program, str(folder), *read), (1, b'', b'Error: object damaged: d [500]\n'))
        with Server(program, str(folder)) as server:
            found = ask(server.link(), 'GET', f'{REFS}/objects?path=d')
            same('damaged, over HTTP', found, (500, b'{"message":"object damaged: d"}'))
        file.unlink()
        same('gone', command(program, str(folder), *read), (1, b'', b'Error: object lost: d [500]\n'))


def case_sqlite(program):
    """What sqlite3 reads of a closed folder; and its objects are their digests'."""
    with room() as at:
        folder, due = made(program, at)
        with contextlib.closing(sqlite3.connect(folder / 'lake.db')) as database:
            rows = database.execute('SELECT key, value FROM pairs ORDER BY key').fetchall()
            same('integrity', database.execute('PRAGMA integrity_check').fetchall(), [('ok',)])
        same('blobs', {type(cell) for row in rows for cell in row}, {bytes})
        same('keys ascend', [key for key, _ in rows], sorted({key for key, _ in rows}))
        same('kinds of pairs', {key[:1] for key, _ in rows} >= set(map(bytes, zip(b'RBTCMGSZ'))), True)
        for key, value in rows:
            if key[:1] in (b'C', b'M', b'G'):
                same('named by its digest', hashlib.sha256(value[key[:1] == b'C':]).digest(), key[-32:])
        held = sorted(file.read_bytes() for file in (folder / 'objects').iterdir())
        same('objects', held, sorted([b'one', b'two', b'three', b'four']))
        same('the log behind it', opens(program, folder), due)
        with Server(program, str(folder)) as server:
            server.link().close()
            with contextlib.closing(sqlite3.connect(folder / 'lake.db', timeout=0)) as database:
                try:
                    found = database.execute('SELECT count(*) FROM pairs').fetchall()
                except sqlite3.OperationalError as refused:
                    found = str(refused)
            same('sqlite3 beside a server', found, 'database is locked')


def main():
    program = str(pathlib.Path(sys.argv[1]).resolve())
    words = sys.argv[2:]
    if words and pathlib.Path(words[0]).is_dir():
        ASKED['batches'] = words.pop(0)
    if words and words[0].isdigit():
        ASKED['kills'] = max(1, min(200, int(words.pop(0))))
    for name in words or [name[5:] for name in globals() if name.startswith('case_')]:
        try:
            globals()['case_' + name](program)
        except Exception as raised:
            same(name, f'{type(raised).__name__}: {raised}', 'no exception')
    print(f'{len(CHECKED)} checked, {CHECKED.count(False)} differ')
    return 0 if CHECKED and all(CHECKED) else 1


if __name__ == '__main__':
    sys.exit(main())
