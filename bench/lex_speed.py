#!/usr/bin/env python3
"""Prints how many megabytes a second the lexer reads, over generated sources of 1, 2 and 4 MiB.

Run it at the top of the repository, behind `rt run -- data/accepted.txt` in crates/lex_cases, which builds the program.
"""
import os
import subprocess
import tempfile
import time

PROGRAM = os.path.join("crates", "lex_cases", "out", "lex_cases")
LIMIT = 4194304

CLASS = '''cdef class Grid{n}(Base{n}):
    """A grid of numbers, {n} of them."""
    cdef public Py_ssize_t rows, columns
    cdef long[:, ::1] cells

    def __init__(self, rows, columns, start=0):
        # rows and columns are kept as they are given
        self.rows = rows
        self.columns = columns

    cpdef long total_{n}(self, long first, long last) except? -1:
        cdef long sum = 0x{n:x}, step = 1_000
        cdef Py_ssize_t row, column
        for row in range(self.rows):
            for column in range(self.columns):
                if first <= self.cells[row, column] < last and not row == column:
                    sum += self.cells[row, column] * (step // 3)
                elif self.cells[row, column] >= {n}:
                    sum = (sum << 2) ^ ~self.cells[
                        row,
                        column
                    ]
                else:
                    raise ValueError("no such cell: %d\\n" % row)
        return sum

'''


def source(size):
    text, n = "# cython: language_level=3\n", 0
    while len(text) < size:
        text += CLASS.format(n=n)
        n += 1
    return text[: text.rindex("\ncdef class") + 1] if len(text) > size else text


def main():
    with tempfile.TemporaryDirectory() as folder:
        for part in (4, 2, 1):
            text = source(LIMIT // part).encode()
            path = os.path.join(folder, "source.pyx")
            with open(path, "wb") as out:
                out.write(text)
            best = None
            for _ in range(5):
                start = time.perf_counter()
                told = subprocess.run([PROGRAM, "count", path], check=True, capture_output=True, text=True).stdout
                seconds = time.perf_counter() - start
                best = seconds if best is None else min(best, seconds)
            print("%7d bytes, %s: %.3f s, %.1f MB/s" % (len(text), told.strip(), best, len(text) / 1e6 / best))


if __name__ == "__main__":
    main()
