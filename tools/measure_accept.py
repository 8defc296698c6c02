#!/usr/bin/env python3
"""Times the checker of certificates on large certificates.

    tools/measure_accept.py [PROGRAM]

PROGRAM is crates/jesc_leaves/out/jesc_leaves where none is given, as `rt run` leaves it there. For each shape of
certificate it times 12,500 to 100,000 leaves or lemmas over 1,000 atoms: the least of five runs, in microseconds of the
call alone, and how many times as long the largest took as the smallest: 8 is linear. Then it times 100,000 lemmas of
congruence over 1,000 to 100,000 atoms, where 1 is a time that the size of the table doesn't change.
"""
import os
import re
import subprocess
import sys

SHAPES = ("tree", "chain", "congruence", "further", "steps")
SIZES = (12_500, 25_000, 50_000, 100_000)
ATOMS = (1_000, 10_000, 100_000)


def run(program, shape, leaves, atoms):
    """The microseconds of one run, whose certificate has to be accepted."""
    words = [program, shape, str(leaves), str(atoms)]
    ran = subprocess.run(words, capture_output=True, text=True, timeout=600)
    found = re.search(r"^in (\d+) us$", ran.stderr, re.MULTILINE)
    if ran.returncode or not found or not ran.stdout.startswith("yes: "):
        sys.exit(f"{' '.join(words)}: status {ran.returncode}: {ran.stdout}{ran.stderr}")
    return int(found[1])


def least(program, shape, leaves, atoms):
    return min(run(program, shape, leaves, atoms) for _ in range(5))


def line(what, counts, times):
    """What was timed, with each time and how many times as long the last took as the first."""
    told = ", ".join(f"{count:,} in {time} us" for count, time in zip(counts, times))
    return f"{what}: {told}; {times[-1] / max(times[0], 1):.1f} times"


def program_of(words):
    """The program that the words name, else the one of this checkout."""
    here = os.path.dirname(os.path.abspath(__file__))
    made = "../crates/jesc_leaves/out/jesc_leaves"
    return os.path.abspath(words[1] if len(words) > 1 else os.path.join(here, made))


def main():
    program = program_of(sys.argv)
    for shape in SHAPES:
        print(line(shape, SIZES, [least(program, shape, leaves, ATOMS[0]) for leaves in SIZES]))
    print(line("congruence, by atoms", ATOMS, [least(program, "congruence", SIZES[-1], atoms) for atoms in ATOMS]))


if __name__ == "__main__":
    main()
