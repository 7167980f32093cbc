#!/usr/bin/env python3
"""Checks `lakefs run` over real sockets: checks/server.py PROGRAM [CASE..]

Starts the program on a free port and asks it as a client, also by curl where there is one. What is due is what docs/HTTP.md
and docs/USING.md say. It prints what differs, and last `N checked, M differ`; its status is 1 where something differs. A
CASE is a name of a function without `case_`: by default it runs all but `silent`, which takes minutes.
"""
import concurrent.futures
import contextlib
import hashlib
import http.client
import json
import pathlib
import random
import select
import shutil
import socket
import struct
import subprocess
import sys
import tempfile
import time

API, LAKE = '/api/v1', '/repositories/quickstart'
MAIN, REFS = LAKE + '/branches/main', LAKE + '/refs'
JSON, GREATEST, HEAD, WAIT = 'application/json', 67_108_864, 16_384, 30
FORMS = {
    'creation_date default_branch id': 'repository', 'commit_id id': 'reference', 'path path_type': 'prefix',
    'committer creation_date generation id message meta_range_id metadata parents': 'commit',
    'checksum content_type metadata mtime path path_type physical_address size_bytes': 'statistics',
    'has_more max_per_page next_offset results': 'page', 'reference': 'merged'}
CHECKED = []


def same(name, found, due):
    CHECKED.append(found == due)
    if found != due:
        print(f'{name}: found {str(found)[:300]}, due {str(due)[:300]}', flush=True)


class Server:
    """The program while it listens. A connection is tried until the program takes it, so that none is spent on that."""

    def __init__(self, program, workers=1, host='127.0.0.1', more=(), before=()):
        self.program, self.host = program, host
        with socket.create_server(('127.0.0.1', 0)) as door:
            self.port = door.getsockname()[1]
        words = [*before, program, 'run', '--listen', f'{host}:{self.port}', '--workers', str(workers), *more]
        self.run = subprocess.Popen(words, stdout=subprocess.PIPE, stderr=subprocess.STDOUT)

    def __enter__(self):
        return self

    def __exit__(self, *_):
        self.run.kill()
        self.run.communicate()

    def connect(self):
        for _ in range(1000):
            try:
                return socket.create_connection((self.host, self.port), timeout=WAIT)
            except ConnectionRefusedError:
                time.sleep(0.01)
        raise TimeoutError('nobody listens')

    def ask(self, method, path, sent=None, fields=()):
        """A request on a connection of its own, by http.client: the status, the content type and the body's bytes."""
        link = http.client.HTTPConnection(self.host, self.port)
        link.sock = self.connect()
        link.request(method, API + path, sent if sent is None or isinstance(sent, bytes) else compact(sent), dict(fields))
        reply = link.getresponse()
        found = reply.status, reply.getheader('Content-Type'), reply.read()
        link.close()
        return found

    def told(self, method, path, sent=None, fields=()):
        return json.loads(self.ask(method, path, sent, fields)[2])

    def serves(self):
        return self.ask('GET', '/repositories')[0] == 200

    def upload(self, branch, path, data):
        return self.told('POST', f'{LAKE}/branches/{branch}/objects?path={path}', data, {'Content-Type': 'text/plain'})


class Client:
    """A connection whose requests are written as bytes."""

    def __init__(self, server, sent=b'', wait=WAIT):
        self.link, self.ahead = server.connect(), bytearray()
        self.link.settimeout(wait)
        self.link.sendall(sent)

    def more(self):
        piece = self.link.recv(1 << 16)
        self.ahead += piece
        return bool(piece)

    def reply(self):
        """The next reply's status, its fields and its body; None at the end."""
        while b'\r\n\r\n' not in self.ahead:
            if not self.more():
                return None
        head = self.ahead.index(b'\r\n\r\n') + 4
        first, *rest = self.ahead[:head].decode().strip().split('\r\n')
        fields = dict(line.lower().split(': ', 1) for line in rest)
        end = head + int(fields.get('content-length', 0))
        while len(self.ahead) < end and self.more():
            pass
        body, self.ahead = bytes(self.ahead[head:end]), self.ahead[end:]
        return int(first.split()[1]), fields, body

    def statuses(self, sent, count):
        self.link.sendall(sent)
        return [self.reply()[0] for _ in range(count)]

    def closing(self):
        """The next reply's status and message, and whether the connection closes behind it, as is said and as is done."""
        status, fields, body = self.reply()
        return status, json.loads(body).get('message'), fields.get('connection') == 'close', self.reply() is None


def request(method, path, body=b'', fields=(), version='1.1'):
    length = [f'Content-Length: {len(body)}'] if body else []
    return '\r\n'.join([f'{method} {API}{path} HTTP/{version}', 'Host: lake', *fields, *length, '', '']).encode() + body


GET, BIG = request('GET', '/repositories'), request('GET', REFS + '/main/objects?path=big')
UPLOAD = request('POST', MAIN + '/objects?path=x', b'hello')


def compact(value):
    return json.dumps(value, sort_keys=True, separators=(',', ':'), ensure_ascii=False).encode()


def shape(value):
    """A form's name, a list's names of forms, or the value itself."""
    if isinstance(value, dict) and sorted(value) == ['pagination', 'results']:
        counted = value['pagination']['results'] == len(value['results'])
        return [shape(row) for row in value['results']] if counted and shape(value['pagination']) == 'page' else value
    return FORMS.get(' '.join(sorted(value)), value) if isinstance(value, dict) else value


def route_rows(first):
    """Each route, and some refusals: what is sent, the status, and of the body its form, itself, or its type and bytes."""
    dev, tags = LAKE + '/branches/dev', LAKE + '/tags'
    rules, hooks = LAKE + '/settings/branch_protection', LAKE + '/settings/hooks'
    far = {'physical_address': 's3://bucket/far', 'checksum': '', 'size_bytes': 5}
    return [
        ('GET', '/repositories?amount=10', None, 200, ['repository']),
        ('POST', '/repositories', {'name': 'demo', 'storage_namespace': 'x'}, 201, 'repository'),
        ('GET', LAKE + '/branches', None, 200, ['reference']),
        ('POST', LAKE + '/branches', {'name': 'dev', 'source': 'main'}, 201, ('text/plain', first.encode())),
        ('GET', dev, None, 200, 'reference'),
        ('POST', dev + '/objects?path=a%2F1', b'one', 201, 'statistics'),
        ('PUT', dev + '/objects?path=far', far, 201, 'statistics'),
        ('POST', dev + '/objects/copy?dest_path=a%2F2', {'src_path': 'a/1'}, 201, 'statistics'),
        ('GET', REFS + '/dev/objects?path=a/2', None, 200, ('application/octet-stream', b'one')),
        ('GET', REFS + '/dev/objects?path=far', None, 422, {'message': 'object held outside: far'}),
        ('GET', REFS + '/dev/objects/stat?path=far', None, 200, 'statistics'),
        ('GET', REFS + '/dev/objects/ls?delimiter=/', None, 200, ['prefix', 'statistics']),
        ('DELETE', dev + '/objects?path=far', None, 204, None),
        ('PUT', dev, {'type': 'object', 'path': 'a/1'}, 204, None),
        ('PUT', dev, {'type': 'reset'}, 204, None),
        ('POST', dev + '/objects?path=b', b'two', 201, 'statistics'),
        ('POST', dev + '/commits', {'message': 'b'}, 201, 'commit'),
        ('GET', REFS + '/dev/commits?amount=5', None, 200, ['commit', 'commit']),
        ('GET', LAKE + '/commits/' + first, None, 200, 'commit'),
        ('POST', REFS + '/dev/merge/main', {'strategy': 'source-wins'}, 200, 'merged'),
        ('POST', dev + '/revert', {'ref': 'dev', 'parent_number': 0}, 201, 'commit'),
        ('POST', dev + '/cherry-pick', {'ref': 'dev~1'}, 201, 'commit'),
        ('POST', tags, {'id': 'v1', 'ref': 'dev'}, 201, 'reference'),
        ('GET', tags + '/v1', None, 200, 'reference'),
        ('GET', tags, None, 200, ['reference']),
        ('DELETE', tags + '/v1', None, 204, None),
        ('DELETE', dev, None, 204, None),
        ('PUT', rules, [{'pattern': 'ma*', 'other': 1}], 204, None),
        ('GET', rules, None, 200, [{'pattern': 'ma*'}]),
        ('PUT', hooks, [{'type': 'require_meta', 'branch': 'ma*', 'key': 'owner'}], 204, None),
        ('GET', hooks, None, 200, [{'branch': 'ma*', 'key': 'owner', 'type': 'require_meta'}]),
        ('PATCH', REFS + '/main/commits', None, 405, {'message': 'method not allowed'}),
        ('POST', MAIN + '/objects?path=x', b'', 403, {'message': 'branch protected by rule 0'}),
    ]


def case_routes(server):
    first = server.told('GET', MAIN)['commit_id']
    for method, path, sent, status, due in route_rows(first):
        found, kind, body = server.ask(method, path, sent)
        if due is None or isinstance(due, tuple):
            same(f'{method} {path}', (found, kind, body), (status, *(due or (None, b''))))
        else:
            value = json.loads(body)
            same(f'{method} {path}', (found, kind, shape(value), body), (status, JSON, due, compact(value)))


def case_day(server):
    def committed(branch, message):
        sent = {'message': message, 'metadata': {'owner': 'I'}}
        return server.told('POST', f'{LAKE}/branches/{branch}/commits', sent, {'Lake-User': 'me'})

    begun, path = int(time.time()), 'caf%C3%A9/1'
    first = server.ask('POST', LAKE + '/branches', {'name': 'dev', 'source': 'main'})[2].decode()
    made, commit = server.upload('dev', path, b'one'), committed('dev', 'first')
    same('upload', (made['path'], made['checksum'], made['size_bytes']), ('café/1', hashlib.sha256(b'one').hexdigest(), 3))
    told = [commit[key] for key in ('committer', 'message', 'metadata', 'parents')]
    same('commit', told, ['me', 'first', {'owner': 'I'}, [first]])
    same('moments', all(begun <= moment <= time.time() for moment in (commit['creation_date'], made['mtime'])), True)
    server.told('POST', REFS + '/dev/merge/main', {})
    tag = server.told('POST', LAKE + '/tags', {'id': 'v1', 'ref': 'main'})
    server.upload('main', path, b'two')
    same('unclean', server.told('POST', REFS + '/dev/merge/main', {}), {'message': 'uncommitted changes: café/1'})
    second = committed('main', 'second')
    back = server.told('POST', MAIN + '/revert', {'ref': 'main', 'parent_number': 1})
    for name, due in (('main', b'one'), ('main~1', b'two'), ('v1', b'one'), (second['id'], b'two')):
        same(f'read of {name}', server.ask('GET', f'{REFS}/{name}/objects?path={path}'), (200, 'text/plain', due))
    log = server.told('GET', REFS + '/main/commits')['results']
    due = [f'Revert {second["id"]}', 'second', "Merge 'dev' into 'main'", 'first']
    same('log', [row['message'] for row in log[:4]], due)
    same('ids', [row['id'] for row in log], [back['id'], second['id'], tag['commit_id'], commit['id'], first])


def case_kept(server):
    client = Client(server)
    same('in turn', [client.statuses(one, 1) for one in (GET, UPLOAD, GET) * 20], [[200], [201], [200]] * 20)
    same('in one write', client.statuses((GET + UPLOAD) * 50, 100), [200, 201] * 50)
    for place in range(len(UPLOAD)):
        client.link.sendall(UPLOAD[place:place + 1])
        time.sleep(0.001)
    same('byte by byte', client.reply()[0], 201)
    client.link.close()
    client = Client(server)
    same('10,000 requests', [client.statuses(GET * 100, 100) for _ in range(100)], [[200] * 100] * 100)
    same('behind them', client.reply(), None)
    client.link.close()
    for version, fields in (('1.1', ['Connection: close']), ('1.1', ['Connection: x, ClOsE']), ('1.0', [])):
        status, _, *closes = Client(server, request('GET', '/repositories', b'', fields, version)).closing()
        same(f'close of {version} {fields}', (status, closes), (200, [True, True]))


def case_bodies(server):
    data = random.Random(1).randbytes(GREATEST)
    made = server.upload('main', 'big', data)
    same('64 MiB up', (made['size_bytes'], made['checksum']), (GREATEST, hashlib.sha256(data).hexdigest()))
    status, kind, body = server.ask('GET', REFS + '/main/objects?path=big')
    same('64 MiB down', (status, kind, body == data), (200, 'text/plain', True))
    client = Client(server, request('POST', MAIN + '/objects?path=y', b'', [f'Content-Length: {GREATEST + 1}']))
    left = GREATEST + 1
    # Where it can't send, the reply has come and the server has taken its last MiB since the loop's condition.
    with contextlib.suppress(BrokenPipeError, ConnectionResetError):
        while left and not select.select([client.link], [], [], 0)[0]:
            left -= client.link.send(data[:min(left, 1 << 16)])
    same('one byte more', (*client.closing(), left > 0), (413, 'body too long', True, True, True))


def case_heads(server):
    pads = (count - len(GET) - len('Pad: \r\n') for count in (HEAD, HEAD + 1, 4 * HEAD))
    most, above, far = (request('GET', '/repositories', b'', ['Pad: ' + 'x' * pad]) for pad in pads)
    chunks = request('POST', MAIN + '/objects?path=x', b'', ['Transfer-Encoding: chunked']) + b'1\r\nx\r\n0\r\n\r\n'
    bad = [(above, 431, 'head too long'), (far, 431, 'head too long'),
           (chunks, 501, 'chunked bodies are not read'), (b'\0\r\n\r\n', 400, 'bad request head'),
           (request('POST', MAIN, b'', ['Content-Length: x']), 400, 'bad length')]
    same('a head of 16,384', Client(server, most + GET).statuses(b'', 2), [200, 200])
    for sent, status, message in bad:
        same(f'{message} ({len(sent)})', Client(server, sent).closing(), (status, message, True, True))


def case_gone(server):
    """Clients that go away, each in another place; one worker serves the next."""
    server.upload('main', 'big', bytes(GREATEST))
    half = request('POST', MAIN + '/objects?path=x', bytes(100_000))[:50_000]
    for name, sent, reads in (('nothing', b'', 0), ('half a head', GET[:20], 0), ('half a body', half, 0),
                              ('half a reply', BIG, 1000), ('no reply', BIG, 0), ('some replies', GET * 200, 100)):
        for broken in (0, 1):
            link = Client(server, sent).link
            link.recv(reads) if reads else time.sleep(0.02)
            link.setsockopt(socket.SOL_SOCKET, socket.SO_LINGER, struct.pack('ii', broken, 0))
            link.close()
            same(f'gone behind {name}, {broken}', server.serves(), True)
    client = Client(server, GET[:20])
    client.link.shutdown(socket.SHUT_WR)
    same('end inside a head', (client.reply(), server.serves()), (None, True))


def case_curl(server):
    def curl(*words):
        ran = subprocess.run(['curl', '-sS', '-m', '9', '-w', '\n%{http_code}', *words], input=b'x', capture_output=True)
        body, _, status = ran.stdout.rpartition(b'\n')
        return int(status), body

    if not shutil.which('curl') or not server.serves():
        return
    url = f'http://127.0.0.1:{server.port}{API}{MAIN}/objects?path=x'
    with tempfile.NamedTemporaryFile() as file:
        put = '-X', 'POST', '-T', file.name
        ways = ('--data-binary', '@' + file.name), put, ('-HExpect:', *put)
        for count in (0, 5, 3_000_000, GREATEST):
            data = random.Random(count).randbytes(count)
            pathlib.Path(file.name).write_bytes(data)
            for words in ways:
                same(f'curl {words[0]}, {count} up', curl(*words, url)[0], 201)
            same(f'curl, {count} down', curl(url.replace('/branches/', '/refs/')), (200, data))
        pathlib.Path(file.name).write_bytes(bytes(GREATEST + 1))
        for words in ways:
            same(f'curl {words[0]}, too long', curl(*words, url), (413, b'{"message":"body too long"}'))
    same('curl -T -', curl('-X', 'POST', '-T', '-', url), (501, b'{"message":"chunked bodies are not read"}'))


def case_statuses(server):
    for where in (f'127.0.0.1:{server.port}', 'nowhere') if server.serves() else ():
        done = subprocess.run([server.program, 'run', '--listen', where], capture_output=True, timeout=WAIT)
        same(f'at {where}', (done.returncode, done.stdout, done.stderr), (5, b'', b''))
    with Server(server.program, 2, more=('--connections', '3')) as other:
        ended = [other.serves() for _ in range(3)], other.run.wait(WAIT), other.run.stdout.read()
        same('three connections', ended, ([True] * 3, 0, b''))
    with Server(server.program, host='localhost') as other:
        same('localhost', other.serves(), True)
    with Server(server.program, 4) as other, concurrent.futures.ThreadPoolExecutor(200) as pool:
        same('200 at once', list(pool.map(lambda _: other.serves(), range(200))), [True] * 200)


def case_silent(server):
    """A client that sends nothing loses the connection in 60 seconds, and one that takes nothing in three minutes; 10 seconds more are given, and 30."""
    server.upload('main', 'big', bytes(GREATEST))
    for name, sent, most in (('sends', b'', 70), ('takes', BIG, 210)):
        begun, silent = time.monotonic(), Client(server, sent)
        next_served = Client(server, GET, 10 * WAIT).reply()[0]
        same(f'{name} nothing', (next_served, (time.monotonic() - begun) // most), (200, 0))
        silent.link.close()


def main():
    program = str(pathlib.Path(sys.argv[1]).resolve())
    cases = sys.argv[2:] or [name[5:] for name in globals() if name.startswith('case_') and name != 'case_silent']
    for name in cases:
        with Server(program) as server:
            try:
                globals()['case_' + name](server)
            except Exception as raised:
                same(name, f'{type(raised).__name__}: {raised}', 'no exception')
    print(f'{len(CHECKED)} checked, {CHECKED.count(False)} differ')
    return 0 if CHECKED and all(CHECKED) else 1


if __name__ == '__main__':
    sys.exit(main())
