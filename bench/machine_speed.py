#!/usr/bin/env python3
"""Prints how long the machine takes for steps, as the function, the script or the events so far grow.

Run it at the top of the repository, behind `rt run -- data/cases.txt` in crates/machine_cases, which builds the program. It
tells processor time; that of the same cases with few steps, which reads the script and makes and links the C, is taken off.
"""
import os
import resource
import subprocess
import sys
import tempfile

PROGRAM = os.path.join("crates", "machine_cases", "out", "machine_cases")
CASE = "speed|{change}|def f(a, b): return a + b|ok F1 / ok F2 / ok F3 / ok F4 / enter m.f F5 F6{more}|{steps}\n"
# The first steps initialise the module and enter the function.
FIRST = 30
STEPS = 100_000
# A turn of the function that asks: an operation, a decrement and a jump.
TURN = 3


def processor_time():
    used = resource.getrusage(resource.RUSAGE_CHILDREN)
    return used.ru_utime + used.ru_stime


def told(folder, case, times):
    path = os.path.join(folder, "cases.txt")
    with open(path, "w", encoding="ascii") as out:
        out.write(case * times)
    start = processor_time()
    ran = subprocess.run([PROGRAM, path], check=True, capture_output=True, text=True)
    taken = processor_time() - start
    assert ran.stdout.count("went on\n") == times, ran.stdout[-200:]
    return taken


def microseconds(folder, change, entries, steps, times):
    """A step's time: the best of five runs, each of so many machines that make so many steps."""
    more = " / ok F7" * entries
    few = CASE.format(change=change, more=more, steps=FIRST)
    many = CASE.format(change=change, more=more, steps=FIRST + steps)
    before = min(told(folder, few, times) for _ in range(5))
    after = min(told(folder, many, times) for _ in range(5))
    return (after - before) / (steps * times) * 1e6


def main():
    with tempfile.TemporaryDirectory() as folder:
        for size in (100, 1_000, 10_000):
            each = microseconds(folder, f"loop {size}", 0, STEPS, 1)
            print(f"{size} labels and variables: {each:.3f} us a step")
        for entries in (100, 1_000, 10_000):
            each = microseconds(folder, "loop 100", entries, STEPS, 1)
            print(f"{entries} entries left in the script: {each:.3f} us a step")
        for events in (100, 1_000, 10_000, 100_000):
            steps = events * TURN // 2
            each = microseconds(folder, "asks", events // 2 + FIRST, steps, 100_000 // events)
            print(f"{events} events, and half as many entries: {each:.3f} us a step")
            sys.stdout.flush()


if __name__ == "__main__":
    main()
