#!/usr/bin/env python3
"""Times jesc on one class of small methods, at an eighth, a quarter, a half and the whole of 1,048,576 bytes.

    tools/measure.py [PROGRAM]

PROGRAM is crates/jesc/out/jesc where none is given. Each figure is the least of five runs, in seconds, with the peak
of memory in MB. A last line compares an empty class with /bin/true.
"""
import os
import subprocess
import sys
import tempfile
import time

LIMIT = 1_048_576


def method(number):
    return (
        "  //@ requires x < 1000;\n"
        "  //@ ensures \\result > x;\n"
        f"  static int m{number}(int x) {{\n"
        f"    int y = x + {number % 1000 + 1};\n"
        "    //@ assert y > x;\n"
        "    return y;\n"
        "  }\n"
    )


def source(size, head="class Made {\n"):
    """A class of whole methods behind this head, of at most this many bytes, and their number."""
    text, length, number = [head], len(head) + 2, 0
    while length + len(method(number)) <= size:
        text.append(method(number))
        length += len(text[-1])
        number += 1
    return "".join([*text, "}\n"]), number


def timed(words):
    begin = time.perf_counter()
    done = subprocess.run(words, capture_output=True)
    return time.perf_counter() - begin, done


def run(program, name):
    """The least time of five runs, the peak of memory in bytes, the status, and the last line of what was written."""
    runs = [timed([program, "--esc", name]) for _ in range(5)]
    done = runs[0][1]
    # (a process that Python starts itself would count Python's own memory)
    told = subprocess.run(["/usr/bin/time", "-f", "%M", program, "--esc", name], stdout=subprocess.DEVNULL, stderr=subprocess.PIPE, text=True)
    last = (done.stdout or done.stderr).decode().splitlines()[-1:]
    return min(taken for taken, _ in runs), int(told.stderr.split()[-1]) * 1024, done.returncode, last


def program_of(words):
    """The program that the words name, else the one of this checkout."""
    here = os.path.dirname(os.path.abspath(__file__))
    return os.path.abspath(words[1] if len(words) > 1 else os.path.join(here, "../crates/jesc/out/jesc"))


def main():
    program = program_of(sys.argv)
    with tempfile.TemporaryDirectory() as folder:
        os.chdir(folder)
        for part in (8, 4, 2, 1):
            text, count = source(LIMIT // part)
            with open("Made.java", "w") as file:
                file.write(text)
            taken, peak, status, last = run(program, "Made.java")
            print(f"1/{part}: {len(text)} bytes, {count} methods: {taken:.4f} s, {peak / 1e6:.1f} MB, status {status}, {last}")
        with open("E.java", "w") as file:
            file.write("class E { }\n")
        taken, peak, status, last = run(program, "E.java")
        trivial = min(timed(["/bin/true"])[0] for _ in range(5))
        print(f"empty class: {taken * 1000:.2f} ms, {peak / 1e6:.1f} MB; /bin/true: {trivial * 1000:.2f} ms; ratio {taken / trivial:.2f}")


if __name__ == "__main__":
    main()
