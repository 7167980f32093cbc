#!/usr/bin/env python3
"""Runs batches of commands and compares what they print and their status with what is due.

Usage: checks/batches.py FOLDER [PROGRAM]

FOLDER has files NAME.lines, NAME.out and NAME.status: the input, the bytes due, and the status due at the moment
1700000000. Each batch runs in an empty folder of its own. PROGRAM is the built program (crates/lakefs/out/lakefs).
"""
import pathlib
import subprocess
import sys
import tempfile

TOP = pathlib.Path(__file__).resolve().parent.parent


def main():
    folder = pathlib.Path(sys.argv[1])
    program = pathlib.Path(sys.argv[2] if len(sys.argv) > 2 else TOP / "crates/lakefs/out/lakefs").resolve()
    names = sorted(file.stem for file in folder.glob("*.lines"))
    differ = 0
    for name in names:
        due = (folder / f"{name}.out").read_bytes()
        status = int((folder / f"{name}.status").read_text())
        with tempfile.TemporaryDirectory() as room:
            with open(folder / f"{name}.lines", "rb") as lines:
                ran = subprocess.run([program, "batch", "--at", "1700000000"], cwd=room, stdin=lines, capture_output=True)
        same = (ran.stdout, ran.returncode) == (due, status)
        differ += not same
        if not same:
            print(f"{name}: differs")
    print(f"{len(names)} batches, {differ} differ")
    return 1 if differ or not names else 0


if __name__ == "__main__":
    sys.exit(main())
