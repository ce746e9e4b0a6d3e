#!/usr/bin/env python3
"""Prints how many tokens a second are read as one expression: long sums, long lists, and nests of a hundred in a row.

Run it at the top of the repository, behind `rt run -- cases.txt` in crates/expr_cases, which builds the program.
"""
import os
import subprocess
import tempfile
import time

PROGRAM = os.path.join("crates", "expr_cases", "out", "expr_cases")

TEXTS = {
    "operands of a sum": lambda n: "a" + "+b" * n,
    "items of a list": lambda n: "[" + "a," * n + "]",
    "entries of a dict": lambda n: "{" + "a:b," * (n // 2) + "}",
    "parts of a postfix": lambda n: "a" + ".b" * n,
    "indexes": lambda n: "a[" + "b:c," * (n // 2) + "]",
    "nests of a hundred": lambda n: "[" + ("(" * 99 + "a" + ")" * 99 + ",") * (n // 100) + "]",
    "operands of every level": lambda n: "a" + " or not a<b|c^d&e<<f+g*-h" * (n // 12),
}


def main():
    with tempfile.TemporaryDirectory() as folder:
        for name, text_of in TEXTS.items():
            for n in (100_000, 200_000, 400_000, 1_000_000):
                text = text_of(n)
                if len(text) > 4194304:
                    continue
                path = os.path.join(folder, "source.pyx")
                with open(path, "w", encoding="ascii") as out:
                    out.write(text)
                best = None
                for _ in range(3):
                    start = time.perf_counter()
                    told = subprocess.run([PROGRAM, "count", path], check=True, capture_output=True, text=True).stdout
                    seconds = time.perf_counter() - start
                    best = seconds if best is None else min(best, seconds)
                tokens = int(told.split()[0])
                print(f"{name}: {tokens} tokens, {best:.3f} s, {tokens / 1e6 / best:.1f} million a second")


if __name__ == "__main__":
    main()
