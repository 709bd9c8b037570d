#!/usr/bin/env python3
"""Gives `earliest` and `witness` damaged drawings, rows and calls, and checks how each is answered or refused; docs/DAMAGE.md says more.

Usage: damage.py EARLIEST WITNESS [--count N] [--seed N] [--jobs N] [--case N] [--seconds N] [--keep FOLDER] [--planted]

Of each case the damage depends only on the seed and its number. The input of one that fails is kept in FOLDER, and `--case N` runs it
again alone. With `--planted` programs that are wrong in a known way stand in for the two, and each of them has to be found out.
"""
import argparse
import errno
import itertools
import multiprocessing
import os
import random
import re
import shutil
import subprocess
import sys
import tempfile
import time
from dataclasses import dataclass, field
from pathlib import Path

from damages import (
    DAMAGES, MARK, NUMBERS, TEXT_BYTES, Count, as_drawing, as_row, is_row, numbers_of, some_work, work_at_limits,
)  # fmt: skip

ROOT = Path(__file__).resolve().parent.parent
HEAP_BYTES = 4 * 1024 * 1024
NOBODY = 65534


class Wrong(Exception):
    """The answer is not what it should be."""


@dataclass
class Case:
    """A call of a program. `prints` is what it should print where it is known, `fits` whether it should be accepted, `message` what a
    refusal should say after the name of the source."""

    kind: str
    program: str
    words: list = field(default_factory=list)
    text: bytes = b""
    rows: bool = False
    by_file: bool = False
    prints: str = ""
    fits: bool = None
    message: str = None
    place: str = "input"  # or one of PLACES, for what is read or written there


@dataclass
class Answer:
    status: int
    out: bytes
    err: bytes
    seconds: float


# Cases.


def some_text(dice, seeds, rows):
    """A drawing or a row, of those that there are or made."""
    if dice.random() < 0.5:
        return dice.choice(seeds["rows" if rows else "drawings"])
    work = some_work(dice)
    return (" ".join(map(str, as_row(*work))) + "\n" if rows else as_drawing(*work)).encode()


def position_names(text):
    return re.findall(r"^position (\w+(?:-\w+)*)", text.decode(), re.M)


def ask(dice, case):
    """What the program is asked of the text of the case."""
    if case.program == "witness":
        case.prints, case.words = "run", ["--position", str(dice.choice([0, 0, 0, 1, 2]))]
        case.words += ["--within", str(dice.choice([1, 2, 100, 2**32 - 1]))] * (dice.random() < 0.3)
    else:
        case.prints, case.words = dice.choice(
            [("answers", []), ("answers", []), ("line", ["--position", "0"]), ("row", ["--print-rows"]), ("drawing", ["--print-drawing"]),
             ("summary", ["--summary"])]
        )  # fmt: skip
    if case.prints in ("answers", "line", "run") and dice.random() < 0.2:
        case.words += ["--kinds", str(dice.choice([0, 1, 10, 1000]))]
    if case.rows:
        case.words.insert(0, "--rows")


def damaged_text(dice, case, seeds):
    case.rows = dice.random() < 0.45
    damage = DAMAGES.get(case.kind) or dice.choice(list(DAMAGES.values()))
    case.text = damage(dice, some_text(dice, seeds, case.rows))
    if case.kind == "nothing":
        case.fits = True
    elif dice.random() < 0.1:
        case.text = DAMAGES[dice.choice(["cut", "bytes", "bits", "line ends"])](dice, case.text)
    ask(dice, case)


def counts(dice, case, seeds):
    case.rows = True
    row = as_row(*some_work(dice))
    for at in dice.sample([i for i, n in enumerate(row) if isinstance(n, Count)], dice.choice([1, 1, 2])):
        row[at] = dice.choice([row[at] + 1, row[at] + 1, max(row[at], 1) - 1, *NUMBERS])
    case.text = " ".join(map(str, row)).encode()
    ask(dice, case)


def limits(dice, case, seeds):
    work = work_at_limits(dice)
    case.rows, case.fits = dice.random() < 0.5, is_row(as_row(*work))
    case.text = (" ".join(map(str, as_row(*work))) if case.rows else as_drawing(*work)).encode()
    ask(dice, case)


def spliced(dice, case, seeds):
    """The head of one text and the tail of another, and texts that are read in the wrong form."""
    case.rows = dice.random() < 0.5
    first, second = (some_text(dice, seeds, case.rows != (dice.random() < 0.3)) for _ in range(2))
    case.text = first[: dice.randint(0, len(first))] + second[dice.randint(0, len(second)) :]
    ask(dice, case)


def mistype(dice, word):
    at, letter = dice.randrange(len(word)), dice.choice("aez_-X9")
    return dice.choice(
        [word.swapcase(), word[:at] + word[at + 1 :], word[:at] + letter + word[at:], word[:at] + letter + word[at + 1 :],
         word[:at] + word[at : at + 2][::-1] + word[at + 2 :], word + letter * 2, "elsewhere", "", "-", "12345", "計"]
    )  # fmt: skip


def nearly(a, b):
    """Whether two words are equal but for case, or but for one change, as docs/FORMAT.md says."""
    if a.isascii() and a.lower() == b.lower():
        return True
    start = len(os.path.commonprefix([a, b]))
    a, b = a[start:], b[start:]
    return a[1:] == b[1:] or a[1:] == b or a == b[1:] or (a[:2] == b[:2][::-1] and a[2:] == b[2:])


def hint(names, word):
    near = next((name for name in names if nearly(name, word)), None)
    return f"; did you mean `{near}`?" if near else ""


def names(dice, case, seeds):
    """Positions and options that are nearly called so, or not at all: the refusal is known to the letter."""
    case.rows = dice.random() < 0.2
    case.text = some_text(dice, seeds, case.rows)
    known = [] if case.rows else position_names(case.text)
    if dice.random() < 0.3:
        known = seeds[case.program]
        word = "--" + mistype(dice, dice.choice(known)[2:])
        word += "x" * (word in known)
        case.words = [word]
        case.message = f"{case.program}: no option is called `{word}`{hint(known, word)}; `{case.program} --help` shows the options"
        return
    word = mistype(dice, dice.choice(known or ["3"]))
    while word in known or re.fullmatch(r"\+?\d+", word):
        word = word[:-1] + "xx"
    listed = ", ".join(known) or f"0 to {int(case.text.split()[1]) - 1}"
    case.words = ["--rows"] * case.rows + ["--position", word]
    case.message = f"SOURCE: no position is called `{word}`{hint(known, word)}; the positions are {listed}"


def options(dice, case, seeds):
    """Options with damaged values, in any number and order."""
    case.text = some_text(dice, seeds, False)
    values = ["", " ", "-", "--", "-h", "a b", "１", b"\xff", b"\xed\xa0\x80", *position_names(case.text), *seeds[case.program]]
    count = dice.choice([1, 1, 2, 2, 3, 5, 300])
    values += [*NUMBERS, "é" * (50000 if count < 300 else 100)]
    for _ in range(count):
        option = dice.choice(seeds[case.program])
        way = dice.randrange(8)
        if way < 5:
            case.words += [option] + [dice.choice(values)] * (option in ("--kinds", "--position", "--within"))
        elif way == 5:
            case.words.append(dice.choice([option, option[1:], option[:-1], option + "=1", option.upper()]))
        else:
            case.words.append(dice.choice(values))


PLACES = {
    "missing": errno.ENOENT,
    "folder": errno.EISDIR,
    "locked": errno.EACCES,
    "loop": errno.ELOOP,
    "text/below": errno.ENOTDIR,
    "n" * 300: errno.ENAMETOOLONG,
    "": errno.ENOENT,
    "/proc/self/mem": errno.EIO,
    "/dev/zero": None,
    "input: folder": errno.EISDIR,
    "input: closed": errno.EBADF,
    "output: closed": errno.EBADF,
    "output: full": errno.ENOSPC,
    "output: broken": errno.EPIPE,
}


def files(dice, case, seeds):
    """Files and streams that cannot be read or written: the refusal says why."""
    case.text = some_text(dice, seeds, False)
    case.words = ["--position", "0"] if case.program == "witness" else dice.choice([[], ["--summary"], ["--print-rows"]])
    case.place = dice.choice(list(PLACES))
    case.by_file = case.by_file and case.place.startswith("output")
    code = PLACES[case.place]
    source = "standard output" if case.place.startswith("output") else "SOURCE"
    case.message = f"{source}: {os.strerror(code)} (os error {code})" if code else f"SOURCE: the text is larger than {TEXT_BYTES} bytes"


MAKERS = {
    **dict.fromkeys(DAMAGES, damaged_text),
    "counts": counts,
    "limits": limits,
    "spliced": spliced,
    "memory": damaged_text,
    "names": names,
    "options": options,
    "files": files,
}
KINDS = list(MAKERS)


def make_case(seed, number, seeds):
    dice = random.Random(f"{seed} {number}")
    kind = KINDS[number % len(KINDS)]
    case = Case(kind, dice.choice(["earliest", "earliest", "witness"]), by_file=dice.random() < 0.5)
    MAKERS[kind](dice, case, seeds)
    return case, dice


# Calls.


class Programs:
    """The two programs, copied into a folder with the files that calls name."""

    def __init__(self, paths, folder, seconds, measured=True):
        self.folder, self.seconds = folder, seconds
        self.paths = {name: shutil.copy(path, f"{folder}/{name}") for name, path in zip(("earliest", "witness"), paths)}
        for path in (folder, *self.paths.values()):
            os.chmod(path, 0o755)
        os.mkdir(f"{folder}/folder")
        os.symlink("loop", f"{folder}/loop")
        Path(f"{folder}/text").touch()
        Path(f"{folder}/locked").touch(mode=0)
        self.least = {name: self.least_space(name) for name in self.paths if measured}

    def least_space(self, name):
        """The least limit in KiB under which the program can say its version."""
        low, high = 0, 1 << 17
        while low + 1 < high:
            middle = (low + high) // 2
            works = self.call(name, ["--version"], shell=f"ulimit -v {middle}; ")[0].status == 0
            low, high = (low, middle) if works else (middle, high)
        return high

    def call(self, program, words, text=b"", by_file=False, place="input", shell=""):
        """The answer, and what the program has to call its source. A shell limits or closes, and gives its place to the program."""
        path = f"{self.folder}/text-{os.getpid()}"
        if not place.startswith(("input", "output")):
            path = os.path.join(self.folder, place) if place else ""
        elif by_file:
            Path(path).write_bytes(text)
        else:
            path = None
        shell += {
            "input: folder": 'exec "$0" "$@" </',
            "input: closed": 'exec "$0" "$@" <&-',
            "output: closed": 'exec "$0" "$@" >&-',
            "output: full": 'exec "$0" "$@" >/dev/full',
        }.get(place, 'exec "$0" "$@"' if shell else "")
        words = (["sh", "-c", shell] if shell else []) + [self.paths[program], *words] + [path] * (path is not None)
        how = {"user": NOBODY} if place == "locked" and os.geteuid() == 0 else {}
        output = subprocess.PIPE
        if place == "output: broken":
            unread, output = os.pipe()
            os.close(unread)
        begun = time.monotonic()
        try:
            done = subprocess.run(words, input=text, stdout=output, stderr=subprocess.PIPE, timeout=self.seconds, **how)
        except subprocess.TimeoutExpired:
            raise Wrong(f"no answer within {self.seconds} s") from None
        finally:
            if output != subprocess.PIPE:
                os.close(output)
        took = time.monotonic() - begun
        return Answer(done.returncode, done.stdout or b"", done.stderr, took), "standard input" if path is None else path


# What is asked of an answer.


def pattern(cell):
    """A cell of a table of docs/FORMAT.md as a pattern. What stands between `` ` `` is told as it is, but for names of what varies."""
    fence = re.match("`+", cell)[0]
    told = re.escape(cell[len(fence) :].split(fence)[0].strip()).replace(r"\.\.", ".*")
    told = re.sub(r"^(FILE|standard\\ output):\\ \.\*$", r"\1: .* [(]os error [0-9]+[)]", told)
    told = told.replace(r";\ did\ you\ mean\ `NAME`\?", "(; did you mean `.*`[?])?")
    return re.sub(r"\bN\b", "[0-9]+", re.sub(r"NAME|WORD|\\-\\-OPTION", ".*", told))


def read_messages():
    """What was expected in drawings and in rows, the messages without a place, and those of calls: the four tables of docs/FORMAT.md."""
    text = (ROOT / "docs/FORMAT.md").read_text(encoding="utf-8")
    tables = re.findall(r"^\| (?:Expected|Words) \| When \|\n.*\n((?:\|.*\n)+)", text, re.M)
    drawings, rows, others, calls = ("|".join(pattern(line[1:].strip()) for line in table.splitlines()) for table in tables)
    calls = f"PROGRAM: (?:{calls})(; did you mean `.*`[?])?; `PROGRAM --help` shows the options"
    return {False: drawings, True: rows, "other": others, "call": calls}


def check_place(text, rows, line, column, found):
    """The place is in the text, and what was found stands there."""
    text = text if rows else text.removeprefix(MARK)
    parts = text.split(b"\n")
    if not 1 <= line <= len(parts):
        raise Wrong("the line is not there")
    part = parts[line - 1]
    starts = itertools.chain((at for at, byte in enumerate(part) if byte & 0xC0 != 0x80), [len(part)])
    start = next(itertools.islice(starts, column - 1, None), None) if column else None
    if start is None:
        raise Wrong("the column is not there")
    rest = part[start:]
    if word := re.fullmatch("`(.*)`", found):
        there = rest.startswith(word[1].encode())
    elif letter := re.fullmatch("the character '(.)'", found):
        there = rest.startswith(letter[1].encode())
    elif found == "the end of the line":
        there = not rest.split(b"#")[0].strip()
    elif found in ("the end of the text", "more than 16384 numbers"):
        there = not rest and line == len(parts)
    elif found == "bytes that are not text":
        try:
            there = not text.decode()
        except UnicodeDecodeError as error:
            before = text[: error.start].split(b"\n")
            there = (line, column) == (len(before), 1 + sum(byte & 0xC0 != 0x80 for byte in before[-1]))
    else:
        there = found == "something else" if rows else found.startswith("the character '\\")
    if not there:
        raise Wrong("what was found does not stand at the place")


def check_refusal(case, answer, source, messages):
    """One message, as docs/FORMAT.md says, and nothing else. Whether it is the text that is refused."""
    if answer.out:
        raise Wrong("an output beside a refusal")
    said = answer.err.decode()
    if not said.endswith("\n") or len(said) < 2 or said.count("\n") != 1:
        raise Wrong("not one message of one line")
    if case.message and said[:-1] != case.message.replace("SOURCE", source):
        raise Wrong(f"expected {case.message}")
    # An option can take the file as its value, and a value can stand for a file. The text is given to standard input too.
    words = [word for word in case.words if isinstance(word, str) and word != "-"]
    files = [source] if case.prints else [source, "standard input", *words]
    file = next((file for file in files if said.startswith(f"{file}:")), None)
    said = said[:-1].replace(case.program, "PROGRAM") if file is None else "FILE" + said[len(file) : -1]
    if placed := re.fullmatch(r"FILE:([0-9]+):([0-9]+): found (.+), expected (.+?)", said):
        rows = "--rows" in case.words
        if not re.fullmatch(messages[rows], placed[4]):
            raise Wrong("a message that docs/FORMAT.md does not know")
        check_place(case.text, rows, int(placed[1]), int(placed[2]), placed[3])
    elif not re.fullmatch(messages["other"], said) and not re.fullmatch(messages["call"], said):
        raise Wrong("a message that docs/FORMAT.md does not know")
    too_large = "the text is larger" in said
    if case.prints and too_large != (len(case.text) > TEXT_BYTES):
        raise Wrong("the size of the text")
    return bool(placed) or too_large


ANSWER = r".*  (at [0-9]+|after [0-9]+|never)|many: more than [0-9]+ kinds of states"


def check_output(case, out):
    if not out.endswith("\n"):
        raise Wrong("an answer without a line")
    lines = out[:-1].split("\n")
    right = {
        "answers": lambda: all(re.fullmatch(ANSWER, line) for line in lines),
        "line": lambda: len(lines) == 1 and re.fullmatch(ANSWER, lines[0]),
        "run": lambda: re.fullmatch(ANSWER, lines[0]),
        "row": lambda: len(lines) == 1 and is_row(numbers_of(out.encode())),
        "drawing": lambda: lines[0].startswith("clocks x0"),
    }
    if not right.get(case.prints, lambda: True)():
        raise Wrong("an output of another form")


class Tester:
    def __init__(self, programs, seed, messages, seeds):
        self.programs, self.seed, self.messages, self.seeds = programs, seed, messages, seeds

    def accepted(self, program, words, text):
        answer, _ = self.programs.call(program, words, text)
        if answer.status or answer.err:
            raise Wrong(f"then {program} {words}: status {answer.status}: {answer.err.decode(errors='replace').strip()}")
        return answer.out

    def go_round(self, case, answer):
        """The row is the one of its drawing, and both programs answer alike."""
        form = ["--rows"] if case.rows else []
        row = self.accepted("earliest", ["--print-rows", *form], case.text)
        if not is_row(numbers_of(row)) or case.rows and numbers_of(row) != numbers_of(case.text):
            raise Wrong("the row that is printed is none, or another")
        drawing = self.accepted("earliest", ["--rows", "--print-drawing"], row)
        if self.accepted("earliest", ["--print-rows"], drawing) != row:
            raise Wrong("the row of the drawing of the row is another")
        if case.prints == "run":
            words = [word for i, word in enumerate(case.words) if "--within" not in case.words[max(i - 1, 0) : i + 1]]
            if self.accepted("earliest", words, case.text) != answer.out.split(b"\n")[0] + b"\n":
                raise Wrong("earliest answers in another way")

    def check_memory(self, case, answer, dice):
        """Under a limit on memory the answer is the same, or that there is none."""
        room = dice.randrange(HEAP_BYTES // 1024 + 1024)
        shell = f"ulimit -v {self.programs.least[case.program] + room}; "
        limited, source = self.programs.call(case.program, case.words, case.text, case.by_file, shell=shell)
        if (limited.status, limited.out, limited.err) == (answer.status, answer.out, answer.err):
            return
        said = limited.err.decode()
        if limited.status != 1 or limited.out or said != f"{source}: not enough memory\n":
            raise Wrong(f"under {shell}status {limited.status}, {said.strip()}")
        if room * 1024 >= HEAP_BYTES:
            raise Wrong(f"under {shell}no memory, where all buffers have 4 MiB")

    def judge(self, case, answer, source, dice):
        if answer.status not in (0, 1):
            raise Wrong(f"status {answer.status}")
        if answer.status == 0 and answer.err:
            raise Wrong("a message beside an answer")
        if answer.status == 0 and case.message:
            raise Wrong(f"no refusal, expected {case.message}")
        refused = answer.status == 1 and check_refusal(case, answer, source, self.messages)
        if answer.status == 0:
            check_output(case, answer.out.decode())
        fits = case.fits
        if case.rows and case.prints:
            fits = len(case.text) <= TEXT_BYTES and is_row(numbers_of(case.text))
        if fits is not None and fits == refused:
            raise Wrong("refused, expected an answer" if fits else "accepted, expected a refusal")
        if answer.status == 0 and case.prints:
            self.go_round(case, answer)
        if case.kind == "memory":
            self.check_memory(case, answer, dice)

    def run(self, number):
        """The case, its answer, and what is wrong with it, if something is."""
        case, dice = make_case(self.seed, number, self.seeds)
        answer, source = None, ""
        try:
            answer, source = self.programs.call(case.program, case.words, case.text, case.by_file, case.place)
            self.judge(case, answer, source, dice)
        except Wrong as wrong:
            return case, answer, str(wrong)
        except Exception as error:  # an output that cannot be read, say
            return case, answer, repr(error)
        return case, answer, None


# What a program that is wrong does with the answer of the right one.
PLANTED = {
    "exits with 2 where it refuses": "status *= 2",
    "is ended by a signal where it refuses": "if status: os.kill(os.getpid(), 11)",
    "takes two seconds where it answers": "if not status: time.sleep(2)",
    "says nothing where it refuses": "err = b''",
    "says an empty line where it refuses": "err = err and b'\\n'",
    "says two things where it refuses": "err *= 2",
    "prints where it refuses": "out = out or b'never\\n'",
    "warns where it answers": "err = err or b'warning\\n'",
    "prints nothing where it answers": "out = b''",
    "refuses all": "out, err, status = b'', b'standard input:1:1: found bytes that are not text, expected text in UTF-8\\n', 1",
    "answers all": "out, err, status = out or b'x  at 0\\n', b'', 0",
    "tells the next line": "err = re.sub(rb'(\\d+)(:\\d+: found)', lambda m: b'%d' % (int(m[1]) + 1) + m[2], err)",
    "tells the next column": "err = re.sub(rb'(\\d+)(: found)', lambda m: b'%d' % (int(m[1]) + 1) + m[2], err)",
    "has words of its own": "err = err.replace(b'expected a', b'wanted a')",
    "suggests nothing": "err = re.sub(rb'; did you mean `.*`[?]', b'', err)",
    "prints a row that is none": "out = out[:-1] + b' 1\\n' if '--print-rows' in sys.argv else out",
    "prints another row": "out = out.replace(b'3', b'2') if '--print-rows' in sys.argv else out",
    "draws another clockwork": "out = out.replace(b'<=', b'<') if '--print-drawing' in sys.argv else out",
    "answers unlike the other": "out = out.replace(b'after', b'at') if sys.argv[0].endswith('witness') else out",
}
STAND_IN = """#!{python} -IS
import os, re, subprocess, sys, time
done = subprocess.run([{program!r}, *sys.argv[1:]], stdout=subprocess.PIPE, stderr=subprocess.PIPE)
status, out, err = done.returncode, done.stdout, done.stderr
{wrong}
sys.stdout.buffer.write(out)
sys.stderr.buffer.write(err)
sys.exit(status)
"""


def plant(options, folder, seeds, messages):
    """How many wrong programs are not found out, by a case of the first 1,000 that the right ones pass. Under a limit on memory, and as
    another user, the stand-ins cannot run."""
    missed = 0
    numbers = [number for number in range(1000) if KINDS[number % len(KINDS)] not in ("memory", "files")]
    os.mkdir(f"{folder}/right")
    programs = Programs([options.earliest, options.witness], f"{folder}/right", options.seconds, measured=False)
    right = Tester(programs, options.seed, messages, seeds)
    for place, (name, wrong) in enumerate(PLANTED.items()):
        paths = []
        for program in map(Path, (options.earliest, options.witness)):
            paths.append(f"{folder}/{program.name}")
            Path(paths[-1]).write_text(STAND_IN.format(python=sys.executable, program=str(program.resolve()), wrong=wrong))
        os.mkdir(f"{folder}/{place}")
        programs = Programs(paths, f"{folder}/{place}", options.seconds, measured=False)
        tester = Tester(programs, options.seed, messages, seeds)
        failed = ((number, *tester.run(number)) for number in numbers)
        found = next(((number, case, wrong) for number, case, _, wrong in failed if wrong and not right.run(number)[2]), None)
        missed += not found
        print(f"{name}: " + ("case {0} ({1.kind}): {2}".format(*found) if found else "NOT FOUND OUT"), flush=True)
    print(f"{len(PLANTED) - missed} of {len(PLANTED)} wrong programs are found out")
    return missed


def read_seeds(program_paths):
    seeds = {"drawings": [path.read_bytes() for path in sorted((ROOT / "drawings").glob("*.clock"))]}
    seeds["rows"] = re.findall(rb"^rows: (.*\n)", (ROOT / "crates/examples/data/cases.txt").read_bytes(), re.M)
    for name, path in zip(("earliest", "witness"), program_paths):
        told = subprocess.run([path, "--help"], capture_output=True, text=True, check=True).stdout
        seeds[name] = re.findall("^  (--[a-z-]+)", told, re.M)
    return seeds


def shown(case, answer, wrong, text):
    words = " ".join(repr(word)[:100] for word in case.words[:20])
    told = f"status {answer.status}, {len(answer.out)} bytes, {answer.err[:300]!r}" if answer else "no answer"
    return f"{case.kind}: {case.program} {words} {text if case.by_file else '< ' + text} ({case.place})\n  {told}\n  {wrong or 'right'}"


def keep(folder, number, case):
    os.makedirs(folder, exist_ok=True)
    path = f"{folder}/{number}.text"
    Path(path).write_bytes(case.text)
    return path


tester = None


def run_one(number):
    case, answer, wrong = tester.run(number)
    told = f"case {number}, {shown(case, answer, wrong, keep(tester.keep, number, case))}" if wrong else None
    return case.kind, answer.status if answer else None, answer.seconds if answer else tester.programs.seconds, told


def run_all(options):
    table = {kind: [0, 0, 0, 0.0] for kind in KINDS}
    failed, begun = 0, time.monotonic()
    with multiprocessing.get_context("fork").Pool(options.jobs) as pool:
        try:
            for kind, status, seconds, told in pool.imap_unordered(run_one, range(options.count), 50):
                line = table[kind]
                line[0] += 1
                line[1] += status == 0
                line[2] += status == 1
                line[3] = max(line[3], seconds)
                if told:
                    failed += 1
                    print(told, flush=True)
        except KeyboardInterrupt:
            print("stopped")
    print(f"{'damage':12} {'cases':>8} {'accepted':>8} {'refused':>8} {'slowest':>8}")
    table["all"] = [sum(column) for column in list(zip(*table.values()))[:3]] + [max(line[3] for line in table.values())]
    for kind, (cases, accepted, refused, slowest) in table.items():
        print(f"{kind:12} {cases:8} {accepted:8} {refused:8} {slowest * 1000:5.0f} ms")
    print(f"seed {options.seed}, {options.jobs} at once, {time.monotonic() - begun:.0f} s: {failed} failed")
    return failed


def main():
    global tester
    parser = argparse.ArgumentParser(description=__doc__, formatter_class=argparse.RawDescriptionHelpFormatter)
    parser.add_argument("earliest")
    parser.add_argument("witness")
    parser.add_argument("--count", type=int, default=100000)
    parser.add_argument("--seed", type=int, default=20261127)
    parser.add_argument("--jobs", type=int, default=os.cpu_count())
    parser.add_argument("--case", type=int)
    parser.add_argument("--keep", default="damaged-cases")
    parser.add_argument("--seconds", type=float, default=1)
    parser.add_argument("--planted", action="store_true")
    options = parser.parse_args()
    paths = [options.earliest, options.witness]
    seeds, messages = read_seeds(paths), read_messages()
    print(f"seed {options.seed}", flush=True)
    with tempfile.TemporaryDirectory() as folder:
        if options.planted:
            return plant(options, folder, seeds, messages)
        tester = Tester(Programs(paths, folder, options.seconds), options.seed, messages, seeds)
        tester.keep = options.keep
        if options.case is None:
            return run_all(options)
        case, answer, wrong = tester.run(options.case)
        print(shown(case, answer, wrong, keep(options.keep, options.case, case)))
        return wrong is not None


if __name__ == "__main__":
    sys.exit(1 if main() else 0)
