#!/usr/bin/env python3
"""Checks `lakefs ctl --server` against `lakefs run`: checks/control.py PROGRAM

A day's work goes to a server command by command, and what each prints, with its status, is compared with what a batch of
one line more prints of it: a batch of the lines up to this one, less that of the lines before. Ids, digests of commits and
seconds differ, since the moments do, and are told apart by their first appearance alone. Then servers that aren't any:
nobody listens, a name that isn't one, a peer that says nothing, sends no reply, an early end, or a reply of another form;
and words that are no command. It prints what differs, and last `N checked, M differ`; its status is 1 where something does.
"""
import pathlib
import re
import shlex
import socket
import subprocess
import sys
import tempfile
import threading
import time

TOP = pathlib.Path(__file__).resolve().parent.parent
WAIT = 30
CHECKED = []
REFUSED = '''
fs cat lakefs://quickstart/main/none
commit lakefs://quickstart/main -m x
branch create lakefs://quickstart/main --source lakefs://quickstart/none
fs upload lakefs://quickstart/main/a --source none
fs stat lakefs://none/main/a
log lakefs://quickstart/main --amount x
branch revert lakefs://quickstart/main main~9
frobnicate
fs
fs ls lakefs://quickstart
'''
PEERS = {
    'says nothing': (b'', 8),
    'no reply': (b'SSH-2.0-OpenSSH_9.2\r\n\r\n', 8),
    'an early end': (b'HTTP/1.1 200 OK\r\nContent-Type: application/json\r\nContent-Length: 99\r\n\r\n{}', 8),
    'another form': (b'HTTP/1.1 200 OK\r\nContent-Type: application/json\r\nContent-Length: 2\r\n\r\n{}', 8),
    'another status': (b'HTTP/1.1 302 Found\r\nContent-Length: 0\r\n\r\n', 8),
    'a refusal': (b'HTTP/1.1 403 Forbidden\r\nContent-Type: application/json\r\nContent-Length: 16\r\n\r\n{"message":"no"}', 1),
}


def same(name, found, due):
    CHECKED.append(found == due)
    if found != due:
        print(f'{name}: found {str(found)[:400]}, due {str(due)[:400]}', flush=True)


def free_port():
    with socket.create_server(('127.0.0.1', 0)) as door:
        return door.getsockname()[1]


def named(text):
    """The text with ids and digests as their places of first appearance, and each second as one word."""
    seen = {}
    text = re.sub(rb'\b1[0-9]{9}\b', b'#second', text)
    return re.sub(rb'\b[0-9a-f]{64}\b', lambda found: b'#%d' % seen.setdefault(found[0], len(seen)), text)


def controlled(program, at, words, room):
    ran = subprocess.run([program, 'ctl', '--server', at, *words], cwd=room, capture_output=True, timeout=WAIT)
    return ran.returncode, ran.stdout, ran.stderr


def batched(program, lines, room):
    text = '\n'.join(lines) + '\n' if lines else ''
    return subprocess.run([program, 'batch'], cwd=room, input=text.encode(), capture_output=True, timeout=WAIT).stdout


def work(program, at, lines, rooms):
    shown, before = b'', []
    for line in lines:
        status, out, err = controlled(program, at, shlex.split(line), rooms[0])
        shown += out + err
        before.append(line)
        # (Commits of one generation are logged by their ids, which differ by the second: so a batch may try again.)
        for _ in range(10):
            alone = batched(program, before, rooms[1])
            if named(shown) == named(alone):
                break
            time.sleep(1)
        same(line, named(shown), named(alone))
        refused = err.startswith(b'Error: ')
        same(f'status of {line}', (status != 0, out == b'' or not refused), (refused, True))
        shown = shown if named(shown) == named(alone) else alone


def answer(door, sent):
    link, _ = door.accept()
    link.recv(1 << 16)
    link.sendall(sent)
    link.shutdown(socket.SHUT_WR)
    time.sleep(0.1)
    link.close()


def strangers(program, room):
    ask = ['branch', 'list', 'lakefs://quickstart']
    for name, at in ('nobody', f'127.0.0.1:{free_port()}'), ('no name', 'nowhere.invalid:80'), ('no port', 'localhost'):
        same(name, controlled(program, at, ask, room), (5, b'', b''))
    for name, (sent, status) in PEERS.items():
        with socket.create_server(('127.0.0.1', 0)) as door:
            peer = threading.Thread(target=answer, args=(door, sent))
            peer.start()
            found = controlled(program, f'127.0.0.1:{door.getsockname()[1]}', ask, room)
            peer.join()
        same(name, found, (status, b'', b'Error: no [403]\n' if status == 1 else b''))
    for words in ([], ['--server'], ['--server', ''], ['--at', 'x', '--server', 'a:1', 'fs'], ['--local'], ['--at', 'x', '--local', 'y', 'fs']):
        ran = subprocess.run([program, 'ctl', *words], capture_output=True, timeout=WAIT)
        same(f'words {words}', (ran.returncode, ran.stdout, ran.stderr), (2, b'', b'Error: usage\n'))
    same('no command', controlled(program, 'nowhere.invalid:80', [], room), (2, b'', b'Error: no command\n'))


def main():
    program = str(pathlib.Path(sys.argv[1]).resolve())
    lines = [line for line in (TOP / 'crates/lakefs/stdin').read_text().split('\n') if line and not line.startswith('#')]
    port = free_port()
    with tempfile.TemporaryDirectory() as one, tempfile.TemporaryDirectory() as other:
        server = subprocess.Popen([program, 'run', '--listen', f'localhost:{port}', '--workers', '1'])
        try:
            for _ in range(1000):
                if controlled(program, f'localhost:{port}', ['repo', 'list'], one)[0] == 0:
                    break
                time.sleep(0.01)
            work(program, f'localhost:{port}', lines + REFUSED.strip().split('\n'), (one, other))
            at_moment = ['--at', '5', '--server', f'127.0.0.1:{port}', 'repo', 'list']
            ran = subprocess.run([program, 'ctl', *at_moment], capture_output=True, timeout=WAIT)
            same('--at', (ran.returncode, ran.stdout[:11], ran.stderr), (0, b'demo\t' + ran.stdout[5:11], b''))
            strangers(program, one)
        finally:
            server.kill()
            server.wait()
    print(f'{len(CHECKED)} checked, {CHECKED.count(False)} differ')
    return 0 if CHECKED and all(CHECKED) else 1


if __name__ == '__main__':
    sys.exit(main())
