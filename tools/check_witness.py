#!/usr/bin/env python3
"""Checks the runs that `witness` prints, with exact fractions and with readers of its own: each is a run of the definitions, ends
at the position, and at the time told.

Usage: check_witness.py PROGRAM [--drawings FILE ..] [--cases FILE ..] [--within E]

A file of cases has three lines a case: `rows:` with a row of numbers, `kinds:` (not used here), and `answers:` with the answer for
each position, parted by `|`. For drawings nothing but the run itself is checked, and those with too many kinds of states are left out.
"""
import argparse
import re
import subprocess
import sys
import tempfile
from fractions import Fraction
from math import lcm

RELATIONS = {
    "<=": lambda a, b: a <= b,
    "<": lambda a, b: a < b,
    ">=": lambda a, b: a >= b,
    ">": lambda a, b: a > b,
    "=": lambda a, b: a == b,
}
CODES = ["<=", "<", ">=", ">"]


class Wrong(Exception):
    """The output is not what it should be."""


class Clockwork:
    """positions: a list of tests for each; steps: (from, to, tests, resets); a test: (clock, relation, number)."""

    def __init__(self, clocks, positions, steps, clock_names, position_names):
        self.clocks = clocks
        self.positions = positions
        self.steps = steps
        self.clock_names = clock_names
        self.position_names = position_names

    def holds(self, tests, values):
        return all(RELATIONS[sign](values[clock], number) for clock, sign, number in tests)


def read_row(numbers):
    words = iter(numbers)

    def tests():
        return [(next(words), CODES[next(words)], next(words)) for _ in range(next(words))]

    clocks = next(words)
    positions = [tests() for _ in range(next(words))]
    steps = []
    for source in words:
        target = next(words)
        guard = tests()
        steps.append((source, target, guard, [next(words) for _ in range(next(words))]))
    return Clockwork(clocks, positions, steps, None, [str(i) for i in range(len(positions))])


def read_drawing(text):
    clocks, positions, lines = [], [], []
    for line in text.lstrip("\ufeff").splitlines():
        line = line.split("#")[0].strip()
        if line.startswith("clocks"):
            clocks += line[6:].replace(",", " ").split()
        elif line.startswith("position"):
            name, _, tests = line[8:].partition(":")
            positions.append((name.strip(), tests))
        elif line:
            lines.append(line)

    def read_tests(tests):
        found = []
        for test in filter(None, (t.strip() for t in tests.split(","))):
            name, sign, number = re.fullmatch(r"(\S+?)\s*(<=|<|>=|>|=)\s*(\d+)", test).groups()
            found.append((clocks.index(name), sign, int(number)))
        return found

    names = [name for name, _ in positions]
    steps = []
    for line in lines:
        source, target, tests, resets = re.fullmatch(
            r"step\s+(\S+?)\s*->\s*(\S+)(?:\s+when\s+(.*?))?(?:\s+reset\s+(.*))?", line
        ).groups()
        back = [clocks.index(name) for name in (resets or "").replace(",", " ").split()]
        steps.append((names.index(source), names.index(target), read_tests(tests or ""), back))
    return Clockwork(len(clocks), [read_tests(tests) for _, tests in positions], steps, clocks, names)


def cells(line):
    return re.split(r"\s{2,}", line.strip())


def follow(work, lines):
    """Goes through the lines of waits and steps; gives the state, the number of waits, all fractions told and the lines left."""
    values, time, place, waits, told = [Fraction(0)] * work.clocks, Fraction(0), 0, 0, []
    if not work.holds(work.positions[0], values):
        raise Wrong("the start is not allowed")
    while lines and re.match(r"(wait|step) ", lines[0]):
        what, at, position, *clocks = cells(lines[0])
        kind, number = what.split(" ")
        if kind == "wait":
            delay = Fraction(number)
            if delay <= 0:
                raise Wrong(f"a wait that takes no time: {lines[0]}")
            values = [value + delay for value in values]
            time += delay
            waits += 1
            told.append(delay)
        else:
            source, target, guard, resets = work.steps[int(number)]
            if source != place:
                raise Wrong(f"the step leads from another position: {lines[0]}")
            if not work.holds(guard, values):
                raise Wrong(f"the tests of the step do not hold: {lines[0]}")
            values = [Fraction(0) if clock in resets else value for clock, value in enumerate(values)]
            place = target
        if not work.holds(work.positions[place], values):
            raise Wrong(f"the tests of the position do not hold: {lines[0]}")
        names = work.clock_names or [f"x{i}" for i in range(work.clocks)]
        shown = [f"{name} = {value}" for name, value in zip(names, values)]
        if at != f"at {time}" or position != work.position_names[place] or clocks != shown:
            raise Wrong(f"the line does not tell the state (at {time}, {work.position_names[place]}, {shown}): {lines[0]}")
        told += [time] + values
        lines = lines[1:]
    return values, time, place, waits, told, lines


def check_bounds(work, values, lines):
    """Each line is a bound that holds of the clocks at the end of the run; each clock has one."""
    names = work.clock_names or [f"x{i}" for i in range(work.clocks)]
    bounded = set()

    def value_of(text):
        if re.fullmatch(r"-?\d+", text):
            return Fraction(text)
        if text in names:
            bounded.add(text)
            return values[names.index(text)]
        first, second = text.split(" - ")
        return values[names.index(first)] - values[names.index(second)]

    for line in lines:
        parts = re.split(r" (<=|<|>=|>|=) ", line)
        terms, signs = parts[0::2], parts[1::2]
        if not signs:
            raise Wrong(f"no bound: {line}")
        for left, sign, right in zip(terms, signs, terms[1:]):
            if not RELATIONS[sign](value_of(left), value_of(right)):
                raise Wrong(f"the bound does not hold of the run: {line}")
    if bounded != set(names):
        raise Wrong(f"no bound on {sorted(set(names) - bounded)}")


def check_position(work, output, number, within, expected):
    """Whether there was an answer: none where there are more kinds of states than fit."""
    lines = output.splitlines()
    if expected is None and len(lines) == 1 and lines[0].startswith("many: more than "):
        return False
    name, answer = cells(lines[0])
    if name != work.position_names[number]:
        raise Wrong(f"the first line is of another position: {lines[0]}")
    if expected is not None and answer != expected:
        raise Wrong(f"answer {answer}, expected {expected}")
    if answer == "never":
        if lines[1:]:
            raise Wrong(f"more than the answer: {lines[1]}")
        return True
    values, time, place, waits, told, rest = follow(work, lines[1:])
    if place != number:
        raise Wrong("the run does not end at the position")
    kind, whole = answer.split(" ")
    whole, near = int(whole), 1 if kind == "at" else within
    if not (time == whole if kind == "at" else whole < time < whole + Fraction(1, within)):
        raise Wrong(f"the run ends at {time}, told {answer}")
    if lcm(*[fraction.denominator for fraction in told], 1) > (waits + 1) * near:
        raise Wrong("the denominators are too large")
    check_bounds(work, values, rest)
    return True


def ask(program, path, rows, position, within):
    call = [program, path, "--position", position, "--within", str(within)] + (["--rows"] if rows else [])
    done = subprocess.run(call, capture_output=True, text=True)
    if done.returncode != 0 or done.stderr:
        raise Wrong(f"status {done.returncode}: {done.stderr.strip()}")
    return done.stdout


def check_clockwork(program, path, rows, work, within, answers):
    """How many positions had an answer, and how many were wrong."""
    told = wrong = 0
    for number, name in enumerate(work.position_names):
        try:
            output = ask(program, path, rows, name, within)
            told += check_position(work, output, number, within, answers and answers[number])
        except (Wrong, ValueError, IndexError) as problem:
            wrong += 1
            print(f"{path}: position {name}: {problem}")
    return told, wrong


def read_cases(path):
    row = None
    for line in open(path, encoding="utf-8"):
        if line.startswith("rows:"):
            row = line[5:].strip()
        elif line.startswith("answers:"):
            yield row, [answer.strip() for answer in line[8:].split("|")]


def main():
    parser = argparse.ArgumentParser(description=__doc__, formatter_class=argparse.RawDescriptionHelpFormatter)
    parser.add_argument("program")
    parser.add_argument("--drawings", nargs="*", default=[])
    parser.add_argument("--cases", nargs="*", default=[])
    parser.add_argument("--within", type=int, default=100)
    options = parser.parse_args()
    positions = wrong = 0
    for path in options.drawings:
        work = read_drawing(open(path, encoding="utf-8").read())
        count, bad = check_clockwork(options.program, path, False, work, options.within, None)
        positions, wrong = positions + count, wrong + bad
    for path in options.cases:
        for row, answers in read_cases(path):
            with tempfile.NamedTemporaryFile("w", suffix=".row") as file:
                file.write(row + "\n")
                file.flush()
                work = read_row([int(word) for word in row.split()])
                count, bad = check_clockwork(options.program, file.name, True, work, options.within, answers)
                positions, wrong = positions + count, wrong + bad
    print(f"{positions} positions are right, {wrong} wrong")
    sys.exit(1 if wrong or not positions else 0)


if __name__ == "__main__":
    main()
