#!/usr/bin/env python3
"""Lists parted by `new` on standard input: runs a program once for each and compares what it prints with model.py, byte for byte.

  against.py turns|tables PROGRAM [ARG..]"""
import subprocess
import sys

sys.dont_write_bytecode = True
import model


def compare(lists, mode, program, tick=0):
    """Stops with status 1 at the first list on which they differ. A fresh kernel begins at that tick."""
    calls = 0
    for data in lists:
        want, given = [], model.lines_of(data)
        model.run(data, mode == "tables", want, tick)
        got = subprocess.run(program, input=data, capture_output=True)
        if got.stdout != "".join(want).encode() or got.returncode != 0:
            lines = got.stdout.decode(errors="replace").splitlines(True)
            first = next((n for n, w in enumerate(want) if lines[n:n + 1] != [w]), len(want))
            print(f"differs, status {got.returncode}, after the last of these calls:")
            print(b"\n".join(given[:first // (2 if mode == "tables" else 1) + 1]).decode(errors="replace"))
            print("model:   " + "".join(want[first:first + 1]) + "program: " + "".join(lines[first:first + 1]), end="")
            sys.exit(1)
        calls += len(given)
    print(f"{len(lists)} lists, {calls} calls: equal")


if __name__ == "__main__":
    if len(sys.argv) < 3 or sys.argv[1] not in ("turns", "tables"):
        sys.exit(__doc__)
    compare([part for part in sys.stdin.buffer.read().split(b"new\n") if part], sys.argv[1], sys.argv[2:])
