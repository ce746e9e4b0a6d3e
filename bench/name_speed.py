#!/usr/bin/env python3
"""Prints how many names are resolved a second: C variables of a module, and locals of a function, half as many.

A set that keeps the rules is read, resolved and printed, name by name; one that declares a name twice at its end is read,
and refused there. Run it at the top of the repository, behind `rt run -- many` in crates/source_cases, which builds the
program, with the program's path if it stands elsewhere.
"""
import os
import subprocess
import sys
import tempfile
import time

PROGRAM = sys.argv[1] if len(sys.argv) > 1 else os.path.join("crates", "source_cases", "out", "source_cases")


def line_of(n, end):
    variables = "".join(f"cdef int x{i}\\n" for i in range(n))
    names = "".join(f"    y{i} = 1\\n" for i in range(n // 2))
    return f"many|a.pyx|{variables}def f():\\n{names}{end}\n"


def main():
    with tempfile.TemporaryDirectory() as folder:
        for name, end in (("accepted", ""), ("refused at the end", "cdef int x0\\n")):
            for n in (25_000, 50_000, 100_000, 150_000):
                path = os.path.join(folder, "set.txt")
                with open(path, "w", encoding="ascii") as out:
                    out.write(line_of(n, end))
                best = None
                for _ in range(3):
                    start = time.perf_counter()
                    subprocess.run([PROGRAM, "resolve", path], check=True, capture_output=True)
                    seconds = time.perf_counter() - start
                    best = seconds if best is None else min(best, seconds)
                names = n + n // 2
                print(f"{name}: {names} names, {best:.3f} s, {names / 1e3 / best:.0f} thousand a second")


if __name__ == "__main__":
    main()
