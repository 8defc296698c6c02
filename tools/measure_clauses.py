#!/usr/bin/env python3
"""Times the table of terms and the making of clauses.

    tools/measure_clauses.py [PROGRAM]

PROGRAM is crates/jesc_clauses_tests/out/jesc_clauses_tests_tests where none is given, as `rt test` leaves it. It times
250,000 and a million calls that make terms, over 25,000 and 100,000 distinct ones, and the clauses of 12,500 and 50,000
small formulas. Each figure is the least of five runs, in microseconds; of the larger ones it prints how many times as long
they took as the smaller: 4 is linear.
"""
import os
import re
import subprocess
import sys

PAIRS = (
    ("equal_terms_are_found", "four_times_as_many_equal_terms"),
    ("clauses_are_made", "four_times_as_many_clauses"),
)


def run(program, test):
    """What one run of a test measures, its size, and the microseconds."""
    ran = subprocess.run([program, f"times::{test}"], capture_output=True, text=True, timeout=600)
    found = re.search(r"^(\w+) (\d+) (\d+) us$", ran.stdout, re.MULTILINE)
    if ran.returncode or not found:
        sys.exit(f"{program} times::{test}: status {ran.returncode}: {ran.stdout}{ran.stderr}")
    return found[1], int(found[2]), int(found[3])


def least(program, test):
    """The same with the least time of five runs."""
    return min((run(program, test) for _ in range(5)), key=lambda measured: measured[2])


def program_of(words):
    """The program that the words name, else the one of this checkout."""
    here = os.path.dirname(os.path.abspath(__file__))
    made = "../crates/jesc_clauses_tests/out/jesc_clauses_tests_tests"
    return os.path.abspath(words[1] if len(words) > 1 else os.path.join(here, made))


def main():
    program = program_of(sys.argv)
    for smaller, larger in PAIRS:
        name, few, less = least(program, smaller)
        name, many, more = least(program, larger)
        print(f"{name}: {few} in {less} us; {many} in {more} us; {more / max(less, 1):.1f} times")


if __name__ == "__main__":
    main()
