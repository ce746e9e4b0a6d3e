#!/usr/bin/env python3
"""Prints how many megabytes of C text are read and printed a second, over a module that is repeated up to 64 MiB.

Run it at the top of the repository, behind `rt run` in crates/read_cases, which builds the program, with the program's path
if it stands elsewhere. Processor time, the best of five runs each; what a part takes is the difference to the part before.
"""
import os
import subprocess
import sys

PROGRAM = sys.argv[1] if len(sys.argv) > 1 else os.path.join("crates", "read_cases", "out", "read_cases")
MODULE = os.path.join("crates", "read_cases", "data", "m.c")
MEGABYTE = 1 << 20


def seconds(part, copies):
    best = None
    for _ in range(5):
        before = os.times()
        subprocess.run([PROGRAM, part, MODULE, str(copies)], check=True, stdout=subprocess.DEVNULL)
        after = os.times()
        taken = (after.children_user - before.children_user) + (after.children_system - before.children_system)
        best = taken if best is None else min(best, taken)
    return best


def main():
    size = os.path.getsize(MODULE)
    for megabytes in (1, 10, 20, 64):
        copies = megabytes * MEGABYTE // size
        built, read, printed = (seconds(part, copies) for part in ("build", "read", "print"))
        told = copies * size / MEGABYTE
        print(f"{told:.0f} MiB: read in {read - built:.2f} s, {told / (read - built):.0f} MiB a second; "
              f"printed in {printed - read:.2f} s, {told / (printed - read):.0f} MiB a second")


if __name__ == "__main__":
    main()
