#!/usr/bin/env python3
"""Measures `lakefs run` beside nginx and the toolchain's sha2: bench/server.py PROGRAM [FOLDER [PART..]]

`bodies`: 64 MiB go up and down over one connection, in turns with a program that hashes the same bytes by the
toolchain's sha2; also told is what the server itself took of a processor.

`rates`: by wrk, over 4 kept connections, requests a second of a server with 4 workers: GETs of an object of 1 KiB, of
a listing of about as many bytes, and of uploads of 1 KiB, at one path a connection and each at a path of its own. After
each of them nginx with 4 workers is asked: it gives a file of 1 KiB, or takes PUTs of 1 KiB by its dav module into a
memory file system, at one path a connection or each at a path of its own. Each worker of lakefs has its own store of
objects, so that each connection gets what it has put itself, now and then anew, since a connection ends behind 10,000
requests (nginx is told to do the same) and the next may come to another worker; so a few replies are refusals, and
their share is printed.

Both parts are measured by default. Each ratio is of a rate to the peer's in the same round: the median of the rounds,
with the least and the greatest. Everything runs on two processors. It needs wrk, nginx and rt, which proves the program
of the hash in FOLDER (a new one by default), and takes two minutes.
"""
import hashlib
import os
import pathlib
import random
import re
import socket
import statistics
import subprocess
import sys
import tempfile
import time

import scratch

ROUNDS, SECONDS = 5, 2
BODY_ROUNDS = 11
GREATEST = 67_108_864
LAKE = '/api/v1/repositories/quickstart'
PUT, READ = LAKE + '/branches/main/objects?path=', LAKE + '/refs/main/objects?path='
LIST = LAKE + '/refs/main/objects/ls?amount=4'

HASH = r'''//! What SHA-256 of standard input costs by the toolchain's sha2: its microseconds, and the digest's bytes.
#![tactic(auto)]

use sha2::{Digest, Sha256};
use std::io::{self, Read};
use std::time::Instant;

fn main(rt: HostRuntime) -> io::Result<()> {
    let mut bytes = Vec::new(rt.alloc());
    rt.stdin().read_to_end(&mut bytes)?;
    let start = Instant::now(&rt)?;
    let digest = Sha256::digest(bytes.as_slice());
    let micros = start.elapsed(&rt)?.as_micros();
    println!(rt; "{micros}")?;
    for byte in digest {
        println!(rt; "{byte}")?;
    }
    Ok(())
}
'''

# The first word says what is asked, the second whether the paths are those of a lake.
SCRIPT = f'''
local threads = 0

function setup(thread)
    thread:set("own", threads)
    threads = threads + 1
end

function init(words)
    local body = string.rep("x", 1024)
    local method, into = "PUT", "/put/"
    if words[2] == "lake" then method, into = "POST", "{PUT}" end
    local put = wrk.format(method, into .. own, nil, body)
    local get = wrk.format("GET", words[2] == "lake" and "{READ}" .. own or "/file")
    local list = wrk.format("GET", "{LIST}")
    local made = 0
    asked = {{
        get = function() return words[2] == "lake" and (made < 4 or made % 1000 == 0) and put or get end,
        list = function() return made < 4 and put or list end,
        put = function() return put end,
        new = function() return wrk.format(method, into .. own .. "/" .. made, nil, body) end,
    }}
    local ask = asked[words[1]]
    request = function()
        made = made + 1
        return ask()
    end
end

function request()
end
'''

NGINX = '''
user root; daemon off; worker_processes 4; pid %(folder)s/pid; error_log %(folder)s/errors;
events { worker_connections 64; }
http {
    access_log off; keepalive_requests 10000; open_file_cache max=8;
    client_body_temp_path %(folder)s/came;
    server {
        listen 127.0.0.1:%(port)d; root %(folder)s;
        location /put/ { dav_methods PUT; create_full_put_path on; }
    }
}
'''


class Program:
    """A program that listens at a port, until the end of a block."""

    def __init__(self, port, *words):
        self.port = port
        self.run = subprocess.Popen(words, stdout=subprocess.DEVNULL, stderr=subprocess.DEVNULL)

    def __enter__(self):
        self.connect().close()
        return self

    def __exit__(self, *_):
        self.run.terminate()
        self.run.wait()

    def connect(self):
        for _ in range(1000):
            try:
                return socket.create_connection(('127.0.0.1', self.port), timeout=60)
            except ConnectionRefusedError:
                time.sleep(0.01)
        raise TimeoutError('nobody listens')


def free_port():
    with socket.create_server(('127.0.0.1', 0)) as door:
        return door.getsockname()[1]


def lake(program, workers):
    port = free_port()
    return Program(port, program, 'run', '--listen', f'127.0.0.1:{port}', '--workers', str(workers))


def nginx(folder):
    port = free_port()
    (folder / 'file').write_bytes(b'x' * 1024)
    (folder / 'conf').write_text(NGINX % {'folder': folder, 'port': port})
    return Program(port, 'nginx', '-c', str(folder / 'conf'), '-e', str(folder / 'errors'))


def loaded(server, script, *words):
    """Requests a second over 4 kept connections, and the share of them that were refused or got no reply, in %."""
    url = f'http://127.0.0.1:{server.port}'
    said = subprocess.run(['wrk', '-t4', '-c4', f'-d{SECONDS}s', '-s', str(script), url, '--', *words],
                          stdout=subprocess.PIPE, text=True, check=True).stdout
    rate = float(re.search(r'Requests/sec: +([0-9.]+)', said)[1])
    refused = re.search(r'Non-2xx or 3xx responses: ([0-9]+)', said)
    count = int(re.search(r'([0-9]+) requests in', said)[1])
    return rate, 100 * int(refused[1] if refused else 0) / max(count, 1)


def ratios(found, peer):
    """The median ratio of the rounds, and in brackets the least and the greatest."""
    each = sorted(one / other for one, other in zip(found, peer))
    return f'{statistics.median(each):.2f} ({each[0]:.2f} to {each[-1]:.2f})'


# What is asked of the lake, and the word of what is asked of nginx beside it.
ASKED = (('GET of an object of 1 KiB', 'get', 'get'), ('a listing of 4 objects', 'list', 'get'),
         ('upload of 1 KiB at one path', 'put', 'put'), ('upload of 1 KiB at new paths', 'new', 'new'))


def rates(program, script):
    found, peer = ({name: [] for name, _, _ in ASKED} for _ in range(2))
    for _ in range(ROUNDS):
        for name, word, beside in ASKED:
            with lake(program, 4) as server:
                found[name].append(loaded(server, script, word, 'lake'))
            with tempfile.TemporaryDirectory(dir='/dev/shm') as room, nginx(pathlib.Path(room)) as server:
                peer[name].append(loaded(server, script, beside, 'file'))
    for name, _, beside in ASKED:
        rate, refused = zip(*found[name])
        usual, lost = zip(*peer[name])
        print(f'{name}: {statistics.median(rate):.0f}/s, {ratios(rate, usual)} of nginx, '
              f'{statistics.median(usual):.0f}/s ({beside}); refused {max(refused):.2f} %, {max(lost):.2f} % by nginx')


def seconds(work, *words):
    begun = time.perf_counter()
    work(*words)
    return time.perf_counter() - begun


def sent(link, data):
    head = f'POST {PUT}big HTTP/1.1\r\nHost: lake\r\nContent-Length: {len(data)}\r\n\r\n'
    link.sendall(head.encode())
    link.sendall(data)
    assert link.recv(1 << 12).startswith(b'HTTP/1.1 201 ')


def taken(link, room):
    link.sendall(f'GET {READ}big HTTP/1.1\r\nHost: lake\r\n\r\n'.encode())
    came = link.recv_into(room)
    head = bytes(room[:came]).index(b'\r\n\r\n') + 4
    while came < head + GREATEST:
        came += link.recv_into(room[came:])
    return head


def hashed(program, file):
    """Seconds of SHA-256 of a file, by the clock and of a processor, and the digest."""
    with open(file, 'rb') as data:
        run = subprocess.Popen([program], stdin=data, stdout=subprocess.PIPE)
    said = run.stdout.read().split()
    _, status, took = os.wait4(run.pid, 0)
    run.returncode = os.waitstatus_to_exitcode(status)
    return int(said[0]) / 1_000_000, took.ru_utime, bytes(map(int, said[1:]))


def used(server):
    """The seconds that a program has had of processors."""
    words = pathlib.Path(f'/proc/{server.run.pid}/stat').read_text().rpartition(')')[2].split()
    return (int(words[11]) + int(words[12])) / os.sysconf('SC_CLK_TCK')


def bodies(program, hasher, file):
    data, room = random.Random(1).randbytes(GREATEST), memoryview(bytearray(GREATEST + (1 << 16)))
    file.write_bytes(data)
    times = {'sha2': [], 'up': [], 'down': []}
    own = {'sha2': [], 'up': [], 'down': []}
    with lake(program, 1) as server, server.connect() as link:
        for _ in range(BODY_ROUNDS):
            took, alone, digest = hashed(hasher, file)
            assert digest == hashlib.sha256(data).digest()
            times['sha2'].append(took)
            own['sha2'].append(alone)
            for name, work, what in (('up', sent, data), ('down', taken, room)):
                before = used(server)
                times[name].append(seconds(work, link, what))
                own[name].append(used(server) - before)
        head = taken(link, room)
        assert room[head:head + GREATEST] == data
    for name in times:
        took, alone = statistics.median(times[name]), statistics.median(own[name])
        print(f'64 MiB {name}: {took * 1000:.0f} ms, {ratios(times["sha2"], times[name])} of the rate of sha2; '
              f'of a processor {alone * 1000:.0f} ms, {ratios(own["sha2"], own[name])} of it')


def main():
    program = str(pathlib.Path(sys.argv[1]).resolve())
    parts = sys.argv[3:] or ['bodies', 'rates']
    with tempfile.TemporaryDirectory() as fresh, tempfile.TemporaryDirectory(dir='/dev/shm') as memory:
        folder = sys.argv[2] if len(sys.argv) > 2 else fresh
        if 'bodies' in parts:
            hasher = scratch.built(folder, 'hash_cost', HASH, ['sha2'])
        os.sched_setaffinity(0, sorted(os.sched_getaffinity(0))[:2])
        if 'bodies' in parts:
            bodies(program, hasher, pathlib.Path(memory) / 'data')
        if 'rates' in parts:
            script = pathlib.Path(fresh) / 'script.lua'
            script.write_text(SCRIPT)
            rates(program, script)


if __name__ == '__main__':
    main()
