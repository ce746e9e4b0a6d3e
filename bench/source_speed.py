#!/usr/bin/env python3
"""Prints how many nodes of files are read a second, from the tokens to the tree: functions, statements, long sums, classes.

Run it at the top of the repository, behind `rt run -- many` in crates/source_cases, which builds the program, with the
program's path if it stands elsewhere.
"""
import os
import subprocess
import sys
import tempfile
import time

PROGRAM = sys.argv[1] if len(sys.argv) > 1 else os.path.join("crates", "source_cases", "out", "source_cases")

TEXTS = {
    "functions": lambda n: "def f(): pass\n" * n,
    "operands of a sum": lambda n: "1" + " + 1" * n + "\n",
    "statements of a suite": lambda n: "if a:\n" + " x = y\n" * n,
    "names that are declared": lambda n: "cdef int x" + ", x" * n + "\n",
    "members of a class": lambda n: "cdef class A:\n" + " cdef int x\n" * n,
    "arms of an if": lambda n: "if a: b\n" + "elif a: b\n" * n,
}


def main():
    with tempfile.TemporaryDirectory() as folder:
        for name, text_of in TEXTS.items():
            for n in (50_000, 100_000, 200_000, 300_000):
                text = text_of(n)
                if len(text) > 4194304:
                    continue
                path = os.path.join(folder, "source.pyx")
                with open(path, "w", encoding="ascii") as out:
                    out.write(text)
                best = None
                for _ in range(3):
                    start = time.perf_counter()
                    told = subprocess.run([PROGRAM, "count", path], check=True, capture_output=True, text=True).stdout
                    seconds = time.perf_counter() - start
                    best = seconds if best is None else min(best, seconds)
                nodes = int(told.split(": ")[1].split()[0])
                print(f"{name}: {nodes} nodes, {best:.3f} s, {nodes / 1e6 / best:.1f} million a second")


if __name__ == "__main__":
    main()
