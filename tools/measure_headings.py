#!/usr/bin/env python3
"""Times the headings of hostile programs.

    tools/measure_headings.py PROGRAM [CLASSES]

PROGRAM is crates/jesc_headings/out/jesc_headings. Of each shape it makes programs of a quarter of CLASSES (100,000
unless said otherwise) and of all, over files of less than a megabyte, and prints the answers with the microseconds that
the headings took, and how many times as long the larger one took: 4 is linear.
"""
import re
import subprocess
import sys
import tempfile


def chain(count):
    """Each class extends the one before it."""
    return ["class C0 { }"] + [f"class C{i} extends C{i - 1} {{ }}" for i in range(1, count)]


def chain_turned(count):
    """Each class extends the one behind it."""
    return [f"class C{i} extends C{i + 1} {{ }}" for i in range(count - 1)] + [f"class C{count - 1} {{ }}"]


def star(count):
    """All classes extend the last one."""
    return [f"class C{i} extends C{count - 1} {{ }}" for i in range(count - 1)] + [f"class C{count - 1} {{ }}"]


def last_cycle(count):
    """A chain towards a cycle of the last two classes."""
    return [f"class C{i} extends C{i + 1} {{ }}" for i in range(count - 1)] + [f"class C{count - 1} extends C{count - 2} {{ }}"]


def two_cycles(count):
    """A cycle of two, a chain of interfaces from it, and a cycle of two behind that."""
    last = count - 1
    middle = [f"interface C{i} extends C{i + 1} {{ }}" for i in range(2, last - 1)]
    begin = ["interface C0 extends C2, C1 { }", "interface C1 extends C0 { }"]
    return middle + begin + [f"interface C{last - 1} extends C{last} {{ }}", f"interface C{last} extends C{last - 1} {{ }}"]


def itself(count):
    """A chain, and the last class extends itself."""
    return chain(count)[:-1] + [f"class C{count - 1} extends C{count - 1} {{ }}"]


def diamonds(count):
    """Interfaces that extend the two before them."""
    return ["interface C0 { }", "interface C1 { }"] + [f"interface C{i} extends C{i - 1}, C{i - 2} {{ }}" for i in range(2, count)]


def overriding(count):
    """A chain of classes, each of which overrides one method."""
    first = ["class C0 { int f(int a) { return a; } }"]
    return first + [f"class C{i} extends C{i - 1} {{ int f(int a) {{ return a; }} }}" for i in range(1, count)]


def members(count):
    """One class with a fifth as many fields and methods."""
    return ["class C {"] + [f"int f{i}; int g{i}(int a) {{ return a; }}" for i in range(count // 10)] + ["}"]


def deep_diamonds(count):
    """Diamonds of interfaces, one upon the other, each interface with a method of its own."""
    lines = ["interface C0 { }"]
    for i in range(1, count // 3):
        sides = [f"interface {side}{i} extends C{i - 1} {{ int {side.lower()}{i}(); }}" for side in "AB"]
        lines += [*sides, f"interface C{i} extends A{i}, B{i} {{ int c{i}(); }}"]
    return lines


def groups(count):
    """A fifth as many fields in one model field, and a chain of model fields towards it."""
    chain = [f"/*@ model int m{i}; in m{i + 1}; @*/" for i in range(100)]
    return ["class C {", *chain, "/*@ model int m100; @*/"] + [f"int f{i}; /*@ in m100; @*/" for i in range(count // 5)] + ["}"]


def files_of(lines, folder):
    """Writes the lines to files of less than a megabyte, and gives their names."""
    names, text = [], ""
    for line in [*lines, None]:
        if text and (line is None or len(text) + len(line) > 1_000_000):
            names.append(f"{folder}/F{len(names)}.java")
            with open(names[-1], "w", encoding="utf-8") as it:
                it.write(text)
            text = ""
        text += f"{line}\n" if line else ""
    return names


def timed(program, lines):
    """What the program says of these classes, and the microseconds."""
    with tempfile.TemporaryDirectory() as folder:
        ran = subprocess.run([program, *files_of(lines, folder)], capture_output=True, text=True, timeout=600)
    found = re.search(r"in (\d+) us", ran.stderr)
    if not found:
        sys.exit(f"{program}: status {ran.returncode}: {ran.stdout}{ran.stderr}")
    return f"{ran.stdout.strip()} in {found[1]} us", int(found[1])


def main():
    if len(sys.argv) < 2:
        sys.exit(__doc__)
    count = int(sys.argv[2]) if len(sys.argv) > 2 else 100_000
    for shape in (chain, chain_turned, star, last_cycle, two_cycles, itself, diamonds, overriding, members, deep_diamonds, groups):
        small, less = timed(sys.argv[1], shape(count // 4))
        large, more = timed(sys.argv[1], shape(count))
        print(f"{shape.__name__}: {small}; {large}; {more / max(less, 1):.1f} times")


if __name__ == "__main__":
    main()
