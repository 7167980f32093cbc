#!/usr/bin/env python3
"""What the merge gate costs: bench/gate_cost.py [--here], or [--watch FILE], or [--table FILE]

Clones this repository into a scratch folder, runs `rt ci` there, from nothing (`--anew` where the kit has that word), and
watches its processes. Prints a table, a row a crate: processor minutes of its proofs, of its tests and of its
must-fail edits, the largest memory of one process and the longest process, its lines (.rt and .antt), and processor
minutes a thousand lines; then the whole run, and the longest chain of crates that stand on one another. With --here
it runs in this folder and not in a clone. It needs rt and nothing else; other programs on the machine make the
minutes of the clock longer, and those of the processor hardly, unless its processors share cores.

Where one run from nothing takes too long, --watch FILE watches each `rt ci` of this machine, until it is ended, and keeps
in FILE what each of its processes used; --table FILE prints the table of that. Of a crate that was proved, tested or tried
in several runs the last one counts.
"""
import json
import os
import re
import shutil
import subprocess
import sys
import tempfile
import time

HERE = os.path.dirname(os.path.dirname(os.path.abspath(__file__)))
TICK = os.sysconf("SC_CLK_TCK")


def processes():
    """Each process of the compiler: its id, its command line and its folder."""
    for entry in os.listdir("/proc"):
        if not entry.isdigit():
            continue
        try:
            with open(f"/proc/{entry}/cmdline", "rb") as file:
                words = file.read().decode(errors="replace").split("\0")
            if len(words) < 2 or not words[0].endswith("/rattle"):
                continue
            yield int(entry), words, os.readlink(f"/proc/{entry}/cwd")
        except OSError:
            continue


def parents(pid):
    """The ids of the processes that started this one."""
    found = []
    while pid > 1:
        try:
            with open(f"/proc/{pid}/stat") as file:
                pid = int(file.read().rsplit(")", 1)[1].split()[1])
        except (OSError, IndexError, ValueError):
            break
        found.append(pid)
    return found


def used(pid):
    """Processor seconds, and the largest memory in GB, of a process so far."""
    with open(f"/proc/{pid}/stat") as file:
        fields = file.read().rsplit(")", 1)[1].split()
    with open(f"/proc/{pid}/status") as file:
        peak = re.search(r"VmHWM:\s+(\d+)", file.read())
    return (int(fields[11]) + int(fields[12])) / TICK, int(peak.group(1)) / 1e6 if peak else 0.0


def kind_of(words, folder):
    """What a process of the compiler does, and for which crate."""
    crate = words[words.index("--crate-name") + 1] if "--crate-name" in words else ""
    if "/rt-edit" in folder:
        return crate, "edits"
    if "--test" in words:
        return crate, "tests"
    return crate, "proofs"


def note(seen, pid, words, folder):
    """Keeps what a process used so far."""
    seconds, peak = used(pid)
    key = f"{pid} {' '.join(words)}"
    before = seen.get(key, [0, 0, 0, 0, time.time()])
    crate, kind = kind_of(words, folder)
    seen[key] = [crate, kind, max(before[2], seconds), max(before[3], peak), before[4], time.time(), folder]


def watch(run):
    """Follows a run of the gate, and gives what each of its processes used."""
    seen = {}
    while run.poll() is None:
        for pid, words, folder in processes():
            try:
                if run.pid in parents(pid):
                    note(seen, pid, words, folder)
            except OSError:
                continue
        time.sleep(0.2)
    return seen.values()


def is_gate(pid):
    """Whether a process is a run of the gate."""
    try:
        with open(f"/proc/{pid}/cmdline", "rb") as file:
            words = file.read().decode(errors="replace").split("\0")[:4]
    except OSError:
        return False
    return "ci" in words and any(word.endswith("/rt") for word in words)


def watch_all(name):
    """Follows each run of the gate on this machine, until it is ended, and keeps what each of its processes used."""
    seen = {}
    kept = time.time()
    while True:
        for pid, words, folder in processes():
            try:
                if any(is_gate(parent) for parent in parents(pid)):
                    note(seen, pid, words, folder)
            except OSError:
                continue
        if time.time() - kept > 10:
            with open(f"{name}.new", "w") as file:
                json.dump(list(seen.values()), file)
            os.replace(f"{name}.new", name)
            kept = time.time()
        time.sleep(0.5)


def run_of(row):
    """In which run a process was: by the folder of the clone, or by the number of the run in that of an edit."""
    edit = re.search(r"/rt-edit-(\d+)-", row[6])
    return edit.group(1) if edit else row[6].split("/crates/")[0]


def of_last_runs(rows):
    """What was used for each crate's proofs, tests and edits in the last run in which they were made."""
    last = {}
    for row in rows:
        key = (row[0], row[1])
        if key not in last or row[5] > last[key][0]:
            last[key] = (row[5], run_of(row))
    return [row for row in rows if run_of(row) == last[(row[0], row[1])][1]]


def crates(top):
    """The crates and what each stands on, in the order of crates.txt."""
    found = {}
    with open(f"{top}/crates.txt") as file:
        for line in file:
            head, colon, below = line.split("#")[0].partition(":")
            if colon:
                found[head.split()[0]] = below.split()
    return found


def lines(top, crate):
    """How many lines of code, definitions and proofs a crate has."""
    count = 0
    for folder, _, files in os.walk(f"{top}/crates/{crate}"):
        if "/out" in folder:
            continue
        for name in files:
            if name.endswith((".rt", ".antt")):
                with open(f"{folder}/{name}", encoding="utf-8") as file:
                    count += sum(1 for _ in file)
    return count


def chain(below, minutes):
    """The longest chain of crates that stand on one another, by the clock's minutes of their proofs."""
    best = {}
    for crate, needs in below.items():
        longest = max((best[need] for need in needs if need in best), default=(0, []))
        best[crate] = (longest[0] + minutes.get(crate, 0), longest[1] + [crate])
    return max(best.values())


def anew():
    """The word by which rt ci proves everything from nothing, where the kit has one: else it always does."""
    told = subprocess.run(["rt", "help"], stdout=subprocess.PIPE, stderr=subprocess.STDOUT, check=False).stdout.decode(errors="replace")
    return ["--anew"] if "--anew" in told else []


def table(top, used_by):
    """Prints the table, and gives the minutes of the clock that each crate's proofs took, and all of the processor's."""
    total = {"proofs": 0.0, "tests": 0.0, "edits": 0.0}
    clock = {}
    count = 0
    print("| crate | proofs | tests | edits | longest process | largest memory | lines | a thousand lines |")
    print("|---|---|---|---|---|---|---|---|")
    for crate in crates(top):
        mine = [row for row in used_by if row[0] == crate]
        spent = {kind: sum(row[2] for row in mine if row[1] == kind) / 60 for kind in total}
        clock[crate] = sum(row[5] - row[4] for row in mine if row[1] == "proofs") / 60
        longest = max((row[2] for row in mine), default=0) / 60
        peak = max((row[3] for row in mine), default=0)
        size = lines(top, crate)
        count += size
        for kind in total:
            total[kind] += spent[kind]
        rate = sum(spent.values()) / size * 1000 if size else 0
        print(f"| {crate} | {spent['proofs']:.1f} | {spent['tests']:.1f} | {spent['edits']:.1f} "
              f"| {longest:.1f} min | {peak:.1f} GB | {size} | {rate:.1f} |")
    everything = sum(total.values())
    print(f"| all | {total['proofs']:.1f} | {total['tests']:.1f} | {total['edits']:.1f} | | | {count} "
          f"| {everything / count * 1000:.1f} |")
    return clock, everything


def main():
    if "--watch" in sys.argv:
        watch_all(sys.argv[sys.argv.index("--watch") + 1])
    if "--table" in sys.argv:
        with open(sys.argv[sys.argv.index("--table") + 1]) as file:
            _, everything = table(HERE, of_last_runs(json.load(file)))
        print(f"\nAll: {everything:.0f} processor minutes, on {os.cpu_count()} processors.")
        return 0
    top = HERE if "--here" in sys.argv else f"{tempfile.mkdtemp(prefix='gate-')}/clone"
    if top != HERE:
        subprocess.run(["git", "clone", "-q", HERE, top], check=True)
    start = time.time()
    with open(f"{top}/../gate.log" if top != HERE else os.devnull, "w") as log:
        run = subprocess.Popen(["rt", "ci", *anew()], cwd=top, stdout=log, stderr=subprocess.STDOUT)
        used_by = list(watch(run))
    whole = (time.time() - start) / 60
    clock, everything = table(top, used_by)
    length, names = chain(crates(top), clock)
    print(f"\nThe whole run: {whole:.1f} minutes by the clock, {everything:.0f} processor minutes, on {os.cpu_count()} processors.")
    print(f"The longest chain: {' - '.join(names)}, {length:.1f} minutes by the clock.")
    if top != HERE:
        with open(f"{top}/../gate.log") as log:
            print(log.read().strip().splitlines()[-1])
        shutil.rmtree(os.path.dirname(top))
    return run.returncode


if __name__ == "__main__":
    sys.exit(main())
