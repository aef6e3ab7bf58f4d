#!/usr/bin/env python3
"""Checks `col_tool make N` against a plain loop in Python, and times both.

    python3 bench/make.py [--program PATH] [--runs K] [N ..]

For each N (1000000 where none is named) it works out the summary from the table as
`docs/FORMATS.md` describes it, row by row, with Python's own integers, and compares it with what
the program writes. It prints the least seconds of the runs of the whole process `col_tool make N`
and its greatest memory, and beside it the seconds of the loop and the memory of the Python process
that runs it; then the ratio of the seconds: below 1, `make` is ahead. Where a summary differs it
prints both and ends with 1.

It stands on Python's standard library alone, and is no part of the tests. The program has to
be built first: `rt run` in crates/col_tool builds it.
"""
import argparse
import os
import sys
import time


def quotient(number, divisor):
    """The quotient toward zero, of a divisor above 0."""
    return number // divisor if number >= 0 else -(-number // divisor)


def wrapped(number, has_sign):
    """The one number of 64 bits that differs from this one by a multiple of 2^64."""
    number %= 2**64
    return number - 2**64 if has_sign and number >= 2**63 else number


def clamped(number):
    """The number of 64 bits with a sign that is nearest."""
    return max(-(2**63), min(2**63 - 1, number))


def shown(total, has_sign, has_value):
    """A total as a page writes it."""
    return str(wrapped(total, has_sign)) if has_value else "null"


def summary(rows):
    """What `make` writes of so many rows."""
    hundredths = squares = thirds = differences = 0
    has_product = has_difference = False
    for i in range(rows):
        c0 = None if i % 50 == 49 else 37 * i % 20001 - 10000
        c1 = None if i % 64 == 63 else i % 7 + 1
        c2 = 2**64 - 1 - i
        if c0 is not None and c1 is not None:
            product = c0 * c1
            if -(2**63) <= product < 2**63:
                hundredths += quotient(product, 100)
                has_product = True
            differences += clamped(c0 - c1)
            has_difference = True
        squares += wrapped(c2 * c2, False)
        thirds += quotient(c2, 3)
    return (
        f"rows {rows}\n"
        f"Int64 {shown(hundredths, True, has_product)}\n"
        f"UInt64 {shown(squares, False, True)}\n"
        f"UInt64 {shown(thirds, False, True)}\n"
        f"Int64 {shown(differences, True, has_difference)}\n"
    )


def measured(action):
    """What an action in a process of its own answers, with its seconds and its memory in MB."""
    reading, writing = os.pipe()
    start = time.perf_counter()
    child = os.fork()
    if child == 0:
        os.close(reading)
        os.dup2(writing, 1)
        action()
        os._exit(70)
    os.close(writing)
    with os.fdopen(reading, "rb") as pipe:
        text = pipe.read().decode()
    _, status, usage = os.wait4(child, 0)
    seconds = time.perf_counter() - start
    return text, os.waitstatus_to_exitcode(status), seconds, usage.ru_maxrss / 1000


def looped(rows):
    """Writes the summary from the loop, and ends the process."""
    os.write(1, summary(rows).encode())
    os._exit(0)


def main():
    own = os.path.join(os.path.dirname(os.path.abspath(__file__)), "..")
    parser = argparse.ArgumentParser(description="Checks and times `col_tool make N`.")
    parser.add_argument("rows", nargs="*", type=int, default=[1000000], metavar="N")
    parser.add_argument("--program", default=os.path.join(own, "crates/col_tool/out/col_tool"))
    parser.add_argument("--runs", type=int, default=5)
    given = parser.parse_args()
    if not os.path.exists(given.program):
        sys.exit(f"bench: no program at {given.program}")
    differ = 0
    for rows in given.rows:
        words = [given.program, "make", str(rows)]
        runs = [measured(lambda: os.execv(words[0], words)) for _ in range(given.runs)]
        wanted, _, loop_seconds, loop_memory = measured(lambda: looped(rows))
        for text, status, _, _ in runs:
            if (text, status) != (wanted, 0):
                print(f"make {rows} differs: status {status}, {text!r}, wanted {wanted!r}")
                differ += 1
                break
        seconds = min(run[2] for run in runs)
        memory = max(run[3] for run in runs)
        print(
            f"make {rows}: {seconds:.3f} s, {memory:.0f} MB; "
            f"Python {loop_seconds:.3f} s, {loop_memory:.0f} MB; ratio {seconds / loop_seconds:.3f}"
        )
    sys.exit(1 if differ else 0)


if __name__ == "__main__":
    main()
