#!/usr/bin/env python3
"""Runs the programs on the cases that are stored beside them, and compares what they print, their messages and their statuses.

    python3 tools/cases.py [PROGRAM..] [--write]

A program's cases stand in crates/PROGRAM/cases: a file NAME is the standard input, and NAME.args has the arguments, one a line, where {} is the
path of the file. In place of NAME there may be NAME.repeat: a number, a part on the next line, and then the text behind which
the part is written so many times. What all of them print stands in crates/PROGRAM/cases.stdout, each under a line `== NAME`; the messages,
and a line with the status of each, stand in crates/PROGRAM/cases.stderr. --write writes both files.

The programs are run by `rt try`, without a proof; PLANT_TRY gives words to be put in front.
"""
import argparse
import os
import pathlib
import re
import shutil
import subprocess
import sys
import tempfile

ROOT = pathlib.Path(__file__).resolve().parent.parent
# The program's own input, as one more case.
OWN = "its-own-input"


def spread(crate, to):
    """Copies the cases, with the files that are made of a part, and the program's own input."""
    for file in (crate / "cases").iterdir():
        if file.suffix == ".repeat":
            count, part, front = file.read_bytes().split(b"\n", 2)
            (to / file.stem).write_bytes(front + part * int(count))
        else:
            shutil.copyfile(file, to / file.name)
    for name, ending in (("stdin", ""), ("args", ".args")):
        if (crate / name).exists():
            shutil.copyfile(crate / name, to / (OWN + ending))


def parts(printed, said):
    """For each case what it printed, its messages and its status, out of the whole output and the whole of the messages."""
    outputs, found, name, lines = {}, {}, None, []
    for line in printed.splitlines(keepends=True):
        if line.startswith(b"== "):
            name = line[3:].strip().decode()
        elif name:
            outputs[name] = outputs.get(name, b"") + line
    for line in said.splitlines(keepends=True):
        end = re.match(rb"(?:-- (\S+): status (\d+)|case=(\S+) .*?status=(\d+))", line)
        if end:
            name = (end[1] or end[3]).decode()
            found[name] = (outputs.get(name, b""), b"".join(lines), int(end[2] or end[4]))
            lines = []
        elif not line.startswith(b"cases="):
            lines.append(line)
    return found


def run(crate):
    """What the program prints and says on its cases and on its own input."""
    with tempfile.TemporaryDirectory(prefix="cases-") as room:
        spread(crate, pathlib.Path(room))
        words = [*os.environ.get("PLANT_TRY", "").split(), "rt", "try", "--steps", "1", "--cases", room]
        ran = subprocess.run(words, cwd=crate, stdin=subprocess.DEVNULL, stdout=subprocess.PIPE, stderr=subprocess.PIPE)
    return parts(ran.stdout, ran.stderr)


def stored(crate):
    read = lambda it: (crate / it).read_bytes() if (crate / it).exists() else b""
    own = {OWN: (read("stdout"), b"", int(read("status") or b"0"))}
    return {**parts(read("cases.stdout"), read("cases.stderr")), **own}


def differing(crate):
    """The names of the cases that are not as stored."""
    found, wanted = run(crate), stored(crate)
    return [it for it in sorted({*found, *wanted}, key=lambda it: (it != OWN, it)) if found.get(it) != wanted.get(it)]


def write(crate):
    found = {name: it for name, it in run(crate).items() if name != OWN}
    (crate / "cases.stdout").write_bytes(b"".join(f"== {name}\n".encode() + it[0] for name, it in sorted(found.items())))
    said = (it[1] + f"-- {name}: status {it[2]}\n".encode() for name, it in sorted(found.items()))
    (crate / "cases.stderr").write_bytes(b"".join(said))


def main():
    parser = argparse.ArgumentParser(description=__doc__, formatter_class=argparse.RawDescriptionHelpFormatter)
    parser.add_argument("programs", nargs="*")
    parser.add_argument("--write", action="store_true")
    options = parser.parse_args()
    wrong = 0
    for name in options.programs or [it.parent.name for it in sorted(ROOT.glob("crates/*/cases"))]:
        crate = ROOT / "crates" / name
        if options.write:
            write(crate)
            continue
        differ = differing(crate)
        print(f"{name}: {'not as stored: ' + ', '.join(differ) if differ else f'all {len(stored(crate))} as stored'}")
        wrong += bool(differ)
    return 1 if wrong else 0


if __name__ == "__main__":
    sys.exit(main())
