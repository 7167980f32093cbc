"""A scratch repository with some of the crates and one program over them, for what measures and what checks."""
import os
import shutil
import subprocess
import sys
import time

HERE = os.path.dirname(os.path.dirname(os.path.abspath(__file__)))


def lines():
    """What each crate stands on, by the lines of crates.txt."""
    with open(os.path.join(HERE, 'crates.txt')) as file:
        pairs = [line.split('#')[0].partition(':') for line in file]
    return {head.split()[0]: (head.strip(), below.split()) for head, colon, below in pairs if colon}


def below(names):
    """These crates of the repository and those below them, lowest first."""
    known = lines()
    found = []

    def visit(name):
        if name in known and name not in found:
            for need in known[name][1]:
                visit(need)
            found.append(name)

    for name in names:
        visit(name)
    return found


def built(folder, name, program, stands_on, modules=None):
    """The path of a program, proved and built in a scratch repository in the folder; its modules by name."""
    known = lines()
    with open(os.path.join(folder, 'crates.txt'), 'w') as file:
        for crate in below(stands_on):
            for part in ('src', 'specs', 'proofs'):
                source = os.path.join(HERE, 'crates', crate, part)
                target = os.path.join(folder, 'crates', crate, part)
                if os.path.isdir(source):
                    shutil.rmtree(target, ignore_errors=True)
                    shutil.copytree(source, target)
            file.write(f'{known[crate][0]}: {" ".join(known[crate][1])}\n')
        file.write(f'{name}: {" ".join(stands_on)}\n')
    shutil.copy(os.path.join(HERE, 'HANDLES'), os.path.join(folder, 'HANDLES'))
    os.makedirs(os.path.join(folder, 'crates', name, 'src'), exist_ok=True)
    for part, text in {'main': program, **(modules or {})}.items():
        with open(os.path.join(folder, 'crates', name, 'src', part + '.rt'), 'w') as file:
            file.write(text)
    made = subprocess.run(['rt', 'run'], cwd=os.path.join(folder, 'crates', name), stdin=subprocess.DEVNULL,
                          stdout=subprocess.PIPE, stderr=subprocess.STDOUT)
    path = os.path.join(folder, 'crates', name, 'out', name)
    if not os.path.exists(path):
        sys.exit(made.stdout.decode())
    return path


def run(words, data=b''):
    """What a program prints, its seconds by the clock, and its largest memory in MB."""
    start = time.monotonic()
    child = subprocess.Popen(words, stdin=subprocess.PIPE, stdout=subprocess.PIPE)
    if data:
        child.stdin.write(data)
    child.stdin.close()
    out = child.stdout.read()
    _, status, used = os.wait4(child.pid, 0)
    if status != 0:
        sys.exit(f'{words[0]} ended with {status}: {out.decode()}')
    return out.decode(), time.monotonic() - start, used.ru_maxrss / 1024
