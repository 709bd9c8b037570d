#!/usr/bin/env python3
"""Gives the definitions and lemmas of this repository the spelling of the newer Rattle: words in snake case, types in camel case.

Run once, at the top of the repository, after the toolchain's own port script: tools/respell.py
tools/respell.txt has a line for each name: the old one and the new one.
"""
import pathlib
import re

TOP = pathlib.Path(__file__).resolve().parent.parent

NAMES = dict(line.split() for line in (TOP / "tools/respell.txt").read_text().splitlines())

# a whole name of antt: what stands between blanks, brackets and dots
NAME = re.compile(r"[^\s:(){}\[\].,;⌜⌝@|`\"]+")



def respell(text: str) -> str:
    """The text with each whole name replaced."""
    return NAME.sub(lambda found: NAMES.get(found.group(0), found.group(0)), text)


def clauses_of(text: str) -> str:
    """The text of a source file with the names in its clauses and imports replaced, and the code left as it is."""
    lines = []
    depth = 0
    for line in text.split("\n"):
        head = line.lstrip()
        ghostly = depth > 0 or head.startswith(("ghost ", "requires ", "ensures ", "ghost use"))
        if ghostly:
            depth += line.count("{") - line.count("}")
            depth = max(depth, 0)
        lines.append(respell(line) if ghostly else line)
    return "\n".join(lines)


def main() -> None:
    for path in sorted((TOP / "crates").rglob("*")):
        if "out" in path.parts or path.is_symlink() or not path.is_file():
            continue
        old = None
        if path.suffix == ".antt":
            old = path.read_text()
            new = respell(old)
        elif path.suffix == ".rt":
            old = path.read_text()
            new = clauses_of(old)
        elif path.suffix == ".edit":
            old = path.read_text()
            new = respell(old) if "file: specs/" in old or "file: proofs/" in old else old
        if old is not None and new != old:
            path.write_text(new)


if __name__ == "__main__":
    main()
