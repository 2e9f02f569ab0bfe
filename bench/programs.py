#!/usr/bin/env python3
"""Programs that the benchmarks are run on.

    bench/programs.py SEED PARTS    prints the three programs of `hpr sample SEED PARTS`, not indented: the base, A and B
    bench/programs.py               compares those of a stored row of hpr_calls with that row
"""
import argparse
import pathlib
import random
import sys


class Program:
    """Lines of parts, which get the tags 1.1, 1.2, .. in preorder, and the lines that close blocks."""

    def __init__(self, draw=None):
        self.draw = draw
        self.count = 0
        self.level = 0
        self.lines = []
        self.tops = []

    def put(self, text):
        if self.level == 0:
            self.tops.append(len(self.lines))
        self.count += 1
        self.lines.append(f"1.{self.count}: {text}")
        if not text.endswith(";"):
            self.level += 1

    def close(self, text):
        self.lines.append(text)
        if text != "else":
            self.level -= 1

    def text(self, finals):
        """The program as it stands, with these finals."""
        return spell(f"1:{self.count}", self.lines, finals)

    def with_part(self, at, tag, text, finals):
        """The program with a further part of another author, in front of its top part number `at`."""
        line = (self.tops + [len(self.lines)])[at]
        lines = self.lines[:line] + [f"{tag}: {text}"] + self.lines[line:]
        author, serial = tag.split(".")
        return spell(f"1:{self.count}, {author}:{serial}", lines, finals)


def spell(issued, lines, finals):
    body = "\n".join(lines)
    return f"program\nissued {issued}\n{body}\nend({', '.join(finals)})\n"


NAMES = [f"v{at}" for at in range(8)]


def words_of(seed):
    """Draws from the words of SplitMix64, begun with the seed: each call takes the next word, modulo a number."""
    state = seed

    def draw(below):
        nonlocal state
        state = (state + 0x9E3779B97F4A7C15) % 2**64
        word = (state ^ state >> 30) * 0xBF58476D1CE4E5B9 % 2**64
        word = (word ^ word >> 27) * 0x94D049BB133111EB % 2**64
        return (word ^ word >> 31) % below

    return draw


def sample(parts, seed=7):
    """The base of the sample of a seed: assignments, conditionals of three parts and loops of four over eight
    variables. docs/formats.md says in which order they are drawn."""
    draw = words_of(seed)
    name = lambda: NAMES[draw(8)]
    program = Program(draw)
    while program.count < parts:
        kind = draw(3) if parts - program.count >= 4 else 0
        if kind == 0:
            program.put(f"{name()} := {name()} + {draw(100)};")
        elif kind == 1:
            tested = name()
            program.put(f"if {tested} < {draw(100)} then")
            target = name()
            program.put(f"{target} := {tested} + 1;")
            program.close("else")
            program.put(f"{target} := {draw(100)};")
            program.close("fi")
        else:
            program.put("c := 0;")
            program.put(f"while c < {draw(10)} do")
            target = name()
            program.put(f"{target} := {target} + {name()};")
            program.put("c := c + 1;")
            program.close("od")
    return program


def variants(program):
    """The texts of a base and of its variants A and B, each of which adds a part that defines a name of its own."""
    draw = program.draw or random.Random(program.count).randrange
    place = lambda: draw(len(program.tops) + 1)
    one = lambda: NAMES[draw(8)]
    a = program.with_part(place(), "2.1", f"a := {one()} + {one()};", ["a"] + NAMES)
    b = program.with_part(place(), "3.1", f"b := {one()} * {one()};", ["b"] + NAMES)
    return program.text(NAMES), a, b


def many(program, count):
    """The texts of so many variants, each of which adds a part that defines a name of its own."""
    draw = random.Random(count).randrange
    for author in range(2, count + 2):
        part = f"w{author} := {NAMES[draw(8)]} + {NAMES[draw(8)]};"
        yield program.with_part(draw(len(program.tops) + 1), f"{author}.1", part, [f"w{author}"] + NAMES)


def flat(parts):
    """Assignments alone, each of which reads two of the eight variables."""
    draw = random.Random(parts).randrange
    program = Program()
    for _ in range(parts):
        one, two, three = (NAMES[draw(8)] for _ in range(3))
        program.put(f"{one} := {two} + {three};")
    return program


def nested(levels, parts):
    """Conditionals one in another, and in the innermost assignments that read one another."""
    program = Program()
    for _ in range(levels - 1):
        program.put("if v0 < 9 then")
    for at in range(parts - levels + 1):
        program.put(f"{NAMES[at % 8]} := {NAMES[(at + 3) % 8]} + {NAMES[(at + 5) % 8]};")
    for _ in range(levels - 1):
        program.close("fi")
    return program


def skipped(definitions, uses):
    """Definitions of one variable, each of which may be skipped, and uses of it behind them: an order
    edge for each pair of definitions and each use."""
    program = Program()
    for _ in range(definitions):
        program.put("if a < 1 then")
        program.put("x := a;")
        program.close("else")
        program.close("fi")
    for _ in range(uses):
        program.put("y := x;")
    return program


def deep(levels, parts):
    """Loops one in another, with assignments that read one another in the innermost."""
    program = Program()
    for _ in range(levels):
        program.put("while a < 9 do")
    names = [f"w{at}" for at in range(8)]
    for at in range(parts - levels):
        program.put(f"{names[at % 8]} := {names[(at + 3) % 8]} + {names[(at + 5) % 8]};")
    for _ in range(levels):
        program.close("od")
    return program


def of_lines(*lines):
    """The program of these lines, which close blocks by words of their own."""
    program = Program()
    for line in lines:
        (program.close if line in ("else", "fi", "od") else program.put)(line)
    return program


def turning(turns, *body):
    """A loop that counts its turns, with this body before."""
    return of_lines("i := 0;", f"while i < {turns} do", *body, "i := i + 1;", "od")


def sieve(numbers):
    """The sieve of Eratosthenes below a number: the elements of composite numbers become 1, and the primes are counted."""
    return of_lines(
        "i := 2;", f"while i * i < {numbers} do", "if a[i] = 0 then", "j := i * i;", f"while j < {numbers} do", "a[j] := 1;",
        "j := j + i;", "od", "fi", "i := i + 1;", "od",
        "i := 2;", f"while i < {numbers} do", "if a[i] = 0 then", "primes := primes + 1;", "fi", "i := i + 1;", "od",
    )


def main():
    words = argparse.ArgumentParser(usage="bench/programs.py [SEED PARTS]")
    words.add_argument("numbers", nargs="*", type=int, metavar="SEED PARTS")
    numbers = words.parse_args().numbers
    if len(numbers) not in (0, 2):
        words.error("a seed and a number of parts, or neither")
    if numbers:
        seed, parts = numbers
        print("".join(variants(sample(parts, seed))), end="")
        return 0
    rows = pathlib.Path(__file__).resolve().parent.parent / "crates" / "hpr_calls" / "stdin"
    stored = rows.read_text().partition("a sample of 12 parts: base, A and B\n")[2].partition("#")[0]
    told = [line[1:].strip() for line in stored.splitlines() if line.startswith("=")]
    same = told == "".join(variants(sample(12))).splitlines()
    print(f"programs: the sample of seed 7 with 12 parts is {'' if same else 'not '}that of the stored row")
    return 0 if same else 1


if __name__ == "__main__":
    sys.exit(main())
