#!/usr/bin/env python3
"""Times how jesc reads files of the whole grammar, beside javac's parser on the same text.

    tools/measure_reading.py [PROGRAM]

PROGRAM is crates/jesc/out/jesc where none is given. The text is a class of small methods behind an empty interface, so
that jesc reads all of it and then refuses it at its first token with P1: what is timed is reading alone. Figures are
the least of five runs in seconds, less that of an empty file, with the peak of memory less that of an empty file, a
byte of source. javac's parser (`com.sun.source`, as `javac -proc:none` has it) runs in one process, and its figure is
the least of forty parses of the same text.
"""
import os
import subprocess
import sys
import tempfile

from measure import LIMIT, program_of, run, source

HEAD = "interface None { }\nclass Made {\n"

HARNESS = """
import com.sun.source.util.JavacTask;
import java.net.URI;
import java.nio.file.*;
import java.util.List;
import javax.tools.*;

class Parse {
  public static void main(String[] words) throws Exception {
    String text = Files.readString(Path.of(words[0]));
    JavaCompiler compiler = ToolProvider.getSystemJavaCompiler();
    long best = Long.MAX_VALUE;
    for (int turn = 0; turn < 40; turn++) {
      JavaFileObject file = new SimpleJavaFileObject(URI.create("string:///Made.java"), JavaFileObject.Kind.SOURCE) {
        public CharSequence getCharContent(boolean ignore) { return text; }
      };
      JavacTask task = (JavacTask) compiler.getTask(null, null, null, List.of("-proc:none"), null, List.of(file));
      long begin = System.nanoTime();
      for (var unit : task.parse()) { unit.getTypeDecls(); }
      best = Math.min(best, System.nanoTime() - begin);
    }
    System.out.println(best / 1e9);
  }
}
"""


def main():
    program = program_of(sys.argv)
    with tempfile.TemporaryDirectory() as folder:
        os.chdir(folder)
        with open("Empty.java", "w") as file:
            file.write("interface None { }\n")
        start, base, _, _ = run(program, "Empty.java")
        print(f"an empty interface: {start:.4f} s, {base / 1e6:.1f} MB")
        for part in (8, 4, 2, 1):
            text, _ = source(LIMIT // part, HEAD)
            with open("Made.java", "w") as file:
                file.write(text)
            taken, peak, _, _ = run(program, "Made.java")
            print(f"{len(text)} bytes: {taken - start:.4f} s, {len(text) / (taken - start) / 1e6:.1f} MB/s, {(peak - base) / len(text):.1f} bytes of memory a byte")
        with open("Parse.java", "w") as file:
            file.write(HARNESS)
        subprocess.run(["javac", "Parse.java"], check=True)
        javac = float(subprocess.run(["java", "Parse", "Made.java"], check=True, capture_output=True, text=True).stdout)
        print(f"javac's parser, warm: {javac:.4f} s, {len(text) / javac / 1e6:.1f} MB/s; jesc takes {(taken - start) / javac:.2f} of its time")


if __name__ == "__main__":
    main()
