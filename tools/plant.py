#!/usr/bin/env python3
"""Plants the errors of tools/planted one at a time in a copy of the repository, and tells what notices each: a fact of a proof, or what a
program or a test above prints.

    python3 tools/plant.py [WORD..] [--jobs N] [--copies FOLDER] [--part check|runs] [--quick] [--together] [--every]
        [--anew]
        [--table]

WORD: only the edits whose names have one of these words. --jobs: so many copies at work, each on a crate of its own (3).
--copies: where the copies stand (a folder beside the repository); they stay, so that a later run begins with what they proved.
--part check: only the checks; --part runs: only the programs and the tests above, whatever a check says. Without it, those of the edits that
are proved. --quick: a check looks only at the module of the edit, where the edit stands in a function's body; it does not look first whether the
crate is proved without an edit. --together: one check for many edits, where they stand in different functions. --every: runs every program above, and not only until one notices. --anew: tries again what an earlier run tried of the same files.
--table: tries nothing, and prints what is known as the table of docs/PLANTED.md.

An edit has the form of a must-fail edit: a line `file:` with a path from the top of the repository, and pairs of lines `old:` and `new:`; each
`old:` text stands once in that file. A line `says:` tells in words what is wrong then. The copies are of the last commit.

A check is `rt check` in the crate; where PLANT_CHECK names a command, that command with the crate's name, in the copy. Programs are run by
`rt try`, without a proof; PLANT_TRY gives words to be put in front.
"""
import argparse
import hashlib
import json
import os
import pathlib
import re
import subprocess
import sys
import threading
import time

sys.dont_write_bytecode = True
sys.path.insert(0, str(pathlib.Path(__file__).resolve().parent))
import cases

ROOT = pathlib.Path(__file__).resolve().parent.parent
EDITS = ROOT / "tools" / "planted"
LIMIT = 1800

# What a check says of an edit, and what the runs do.
REFUSED, LIMITED, OTHER, PROVED = "a fact", "a limit of the prover", "another reason", "proved"
SEEN, UNSEEN = "seen", "not seen"

# What the prover says where it meets a limit of its own, and of a proof file that names what an edit took away.
AT_LIMIT = re.compile(r"ran out of (stack|the (steps|memory))|outgrew the memory limit|stopped at the step limit")
GONE = re.compile(r"has no field|is not in scope|has no `|was not admitted|is no name")


class Edit:
    def __init__(self, path):
        self.name, self.says, self.file, self.pairs, old = path.stem, "", "", [], None
        text = path.read_text(encoding="utf-8")
        self.sum = hashlib.sha256(text.encode()).hexdigest()
        for line in text.splitlines():
            word, _, rest = line.partition(":")
            rest = rest.removeprefix(" ")
            if word == "says":
                self.says = rest
            elif word == "file":
                self.file = rest.strip()
            elif word == "old":
                old = rest
            elif word == "new" and old is not None:
                self.pairs.append((old, rest))
                old = None
        self.crate = self.file.split("/")[1]

    def applied(self, text):
        """The text with the edit, or why it cannot be applied."""
        was = text
        for old, new in self.pairs:
            if text.count(old) != 1:
                return None, f"an `old:` text stands {text.count(old)} times in {self.file}"
            text = text.replace(old, new)
        return (text, None) if text != was else (None, "it changes nothing")

    def module(self, text):
        """The module whose proofs alone an edit of a function's body can break; none where it changes what others read, too."""
        name, line = pathlib.Path(self.file).stem, text[: text.find(self.pairs[0][0])].count("\n")
        lines = text.splitlines()
        before = [it for it in lines[:line] if re.match(r"\S", it) and not it.startswith(("//", "{", "}", ")"))]
        stands_in_code = bool(before) and re.match(r"(pub |pub\(crate\) )?(fn|impl)\b", before[-1]) and lines[line].startswith(" ")
        return name if stands_in_code and name not in ("main", "lib") else None


    def function(self, text):
        """The module and the name of the function in whose body the edit stands; none where it stands elsewhere, or where all of a crate
        is looked at."""
        module = self.module(text)
        before = text[: text.find(self.pairs[0][0])]
        names = re.findall(r"^ *(?:pub |pub\(crate\) )?fn ([a-z_0-9]+)", before, re.M)
        one_place = all(text.count(old) == 1 for old, _ in self.pairs)
        return (module, names[-1]) if module and names and one_place else None


class Crates:
    """What crates.txt says: which crate stands on which, and which are programs or have tests."""

    def __init__(self, top):
        self.top, self.below = top, {}
        for line in (top / "crates.txt").read_text().splitlines():
            name, found, rest = line.partition("#")[0].partition(":")
            if found:
                self.below[name.split()[0]] = rest.split()
        self.below = {name: [it for it in on if it in self.below] for name, on in self.below.items()}

    def stands_on(self, name, low):
        return name == low or any(self.stands_on(it, low) for it in self.below[name])

    def runs(self):
        """What can be run: a program on its own input, or on its cases too, and tests."""
        for name in self.below:
            crate = self.top / "crates" / name
            files = [it.read_text() for it in (crate / "src").rglob("*.rt")]
            if (crate / "src" / "main.rt").exists():
                yield name, "cases" if (crate / "cases").exists() else "program"
            if any("#[test]" in it for it in files):
                yield name, "tests"

    def has_code(self, name):
        """Whether a plain check of the crate looks at more than its tests."""
        kinds = [it for it in (self.top / "crates" / name / "src").rglob("*.rt") if "#[test]" not in it.read_text()]
        return any(re.search(r"\bfn ", it.read_text()) for it in kinds)


def call(words, where, given=b"", limit=LIMIT):
    """Runs a command, and gives its status, its output and its messages."""
    try:
        ran = subprocess.run(words, cwd=where, input=given, stdout=subprocess.PIPE, stderr=subprocess.PIPE, timeout=limit)
    except subprocess.TimeoutExpired as late:
        return None, late.stdout or b"", late.stderr or b""
    return ran.returncode, ran.stdout, ran.stderr


def judge(status, lines):
    """What a check says of an edited crate, and the first reason."""
    if status == 0:
        return PROVED, ""
    whole = "\n".join(lines)
    told = [it for it in lines if re.match(r"(?:so far: )?(?:note: )?\S+:\d+:\d+:", it)]
    errors = [it for it in told if ": error" in it] or [it for it in told if "it is not proved" in it]
    unproved = re.findall(r"^fn (\S+?): (?:not proved|no proof)", whole, re.M)
    if any(it.startswith(("logic=", "only=")) for it in lines):
        facts = [it for it in errors if not (re.match(r"(\./)?proofs/", it) and GONE.search(it))]
        # what could not be read in src or specs is no fact either
        facts = [it for it in facts if not re.match(r"(\./)?(src|specs)/\S+ error", it) or "not proved" in it]
        named = re.search(r"error: `([^`]*)`", facts[0]) if facts else None
        where = ", ".join(it.split("::", 1)[-1] for it in unproved[:2])
        goal = f" at {named[1]}" if named else ""
        if facts or unproved and not errors:
            return REFUSED, f"{where}{goal}"
        return OTHER, "a proof file names what is gone: " + (errors[0] if errors else "")[:120]
    if AT_LIMIT.search(whole):
        return LIMITED, ", ".join(unproved[:2])
    compiler = next((it for it in lines if re.search(r"\berror(\[|:)", it)), "")
    return OTHER, f"status {status}: {compiler[:160]}"


class Copy:
    """A clone that stands beside the repository, with what its checks left."""

    def __init__(self, folder, commit):
        self.top = folder
        if not (folder / ".git").exists():
            subprocess.run(["git", "clone", "-q", "--no-checkout", str(ROOT), str(folder)], check=True)
        subprocess.run(["git", "fetch", "-q", str(ROOT), commit], cwd=folder, check=True)
        subprocess.run(["git", "checkout", "-q", "--force", "--detach", commit], cwd=folder, check=True)
        self.crates = Crates(folder)

    def check(self, crate, only=None):
        own = os.environ.get("PLANT_CHECK")
        words, where = ([*own.split(), crate], self.top) if own else (["rt", "check"], self.top / "crates" / crate)
        names = [only] if isinstance(only, str) else only or []
        status, out, err = call([*words, *[it for name in names for it in ("--only", name)]], where)
        return status, (out + err).decode(errors="replace").splitlines()

    def run(self, name, what):
        """Runs a program, its cases or tests without a proof. Gives what is not as stored; an empty text: nothing."""
        crate = self.top / "crates" / name
        if what == "cases":
            return ", ".join(f"case {it}" if it != cases.OWN else "its stored output" for it in cases.differing(crate))
        read = lambda it: (crate / it).read_bytes() if (crate / it).exists() else b""
        words = [*os.environ.get("PLANT_TRY", "").split(), "rt", "try", "--steps", "1", "--seconds", "600"]
        if what == "tests":
            status, out, err = call([*words, "--test"], crate)
            return "" if status == 0 else f"status {status}: {last_line(out + err)}"
        data = crate / "data"
        for it in sorted(data.rglob("*")) if data.exists() else []:
            if it.is_file():
                words += ["--data", f"{it.relative_to(data)}={it.relative_to(crate)}"]
        arguments = read("args").decode().splitlines()
        status, out, err = call([*words, "--", *arguments], crate, read("stdin"))
        wanted = int(read("status") or b"0")
        if out != read("stdout"):
            at = next((i for i, (a, b) in enumerate(zip(out.splitlines(), read("stdout").splitlines()), 1) if a != b), None)
            return f"its stored output, line {at}" if at else f"the end of its output; {last_line(err)}"
        return "" if status == wanted else f"status {status}, and not {wanted}: {last_line(err)}"


def last_line(text):
    lines = [it for it in text.decode(errors="replace").splitlines() if it.strip() and not re.match(r"(rt|checked|run=|case=)", it)]
    return lines[-1][:120] if lines else ""


class Bench:
    """All edits that are to be tried, what is known of them, and which runs look at which crate."""

    def __init__(self, options, edits, commit):
        self.options, self.edits, self.commit = options, edits, commit
        self.crates, self.trees = Crates(ROOT), {}
        self.file = options.copies / "known.json"
        self.known = json.loads(self.file.read_text()) if self.file.exists() else {}
        self.lock, self.seconds, self.base = threading.Lock(), {}, {}

    def tree(self, crate, part):
        """A sum of the files, at the commit, that a check of the crate reads, or that the runs above it do."""
        if (crate, part) not in self.trees:
            above = [it for it in self.crates.below if part == "runs" and self.crates.stands_on(it, crate)]
            near = [it for it in self.crates.below if any(self.crates.stands_on(one, it) for one in [crate, *above])]
            words = ["git", "rev-parse", *[f"{self.commit}:crates/{it}" for it in sorted(near)]]
            said = subprocess.run(words, cwd=ROOT, stdout=subprocess.PIPE, check=True).stdout
            self.trees[crate, part] = hashlib.sha256(said).hexdigest()
        return self.trees[crate, part]

    def told(self, edit, part):
        """What is known of an edit by its check, or by the runs: a kind and a reason."""
        had = self.known.get(edit.name, {}).get(part)
        return tuple(had[2:]) if had and had[:2] == [edit.sum, self.tree(edit.crate, part)] else None

    def lacks(self, edit, part):
        return self.options.part in (part, None) and (self.options.anew or not self.told(edit, part))

    def note(self, edit, part, kind, why):
        with self.lock:
            self.known.setdefault(edit.name, {})[part] = [edit.sum, self.tree(edit.crate, part), kind, why]
            self.file.write_text(json.dumps(self.known, indent=1, sort_keys=True))
            print(f"{edit.name}: {kind}{': ' + why if why else ''}", flush=True)

    def looks(self, copy, crate):
        """The runs that a change in the crate can be seen by, the quick ones first; each was as stored without an edit."""
        runs = [it for it in copy.crates.runs() if copy.crates.stands_on(it[0], crate)]
        for it in runs:
            with self.lock:
                is_first = it not in self.base
                done = self.base.setdefault(it, threading.Event())
            if is_first:
                began = time.monotonic()
                wrong = copy.run(*it)
                self.seconds[it] = time.monotonic() - began
                if wrong:
                    print(f"warning: without an edit, the {it[1]} of {it[0]} is not as stored: {wrong}", flush=True)
                    self.seconds[it] = None
                done.set()
            done.wait()
        return sorted((it for it in runs if self.seconds[it] is not None), key=lambda it: self.seconds[it])

    def look(self, copy, crate):
        """Which runs notice what stands in the copy."""
        seen = []
        for name, what in self.looks_of[crate]:
            wrong = copy.run(name, what)
            if wrong:
                seen.append(f"{name}: {wrong[:160]}")
                if not self.options.every:
                    break
        return seen

    def try_one(self, copy, edit):
        path = copy.top / edit.file
        text = path.read_text(encoding="utf-8")
        changed, why = edit.applied(text)
        if why:
            return self.note(edit, "check", OTHER, why)
        path.write_text(changed, encoding="utf-8")
        try:
            if self.lacks(edit, "check"):
                only = edit.module(text) if self.options.quick else None
                self.note(edit, "check", *(judge(*copy.check(edit.crate, only)) if copy.crates.has_code(edit.crate) else (PROVED, "")))
            if self.lacks(edit, "runs") and (self.options.part or self.told(edit, "check")[0] == PROVED):
                seen = self.look(copy, edit.crate)
                self.note(edit, "runs", SEEN if seen else UNSEEN, "; ".join(seen))
        finally:
            path.write_text(text, encoding="utf-8")

    looks_of = {}

    def work(self, number, queue):
        copy = Copy(self.options.copies / str(number), self.commit)
        while True:
            with self.lock:
                if not queue:
                    return
                crate = queue.pop(0)
            mine = [it for it in self.edits if it.crate == crate and (self.lacks(it, "check") or self.lacks(it, "runs"))]
            if not mine:
                continue
            if copy.crates.has_code(crate) and self.options.part != "runs" and not self.options.quick:
                kind, why = judge(*copy.check(crate))
                if kind != PROVED:
                    print(f"{crate}: not proved without an edit, so none is tried: {why}", flush=True)
                    continue
            if self.options.together and self.options.part != "runs":
                self.check_together(copy, crate)
            if self.options.part != "check":
                self.looks_of[crate] = self.looks(copy, crate)
            for edit in mine:
                if not self.options.together or self.options.part != "check":
                    self.try_one(copy, edit)

    def check_together(self, copy, crate):
        """Checks as many edits at a time as stand in different functions. A function's proof rests on the contracts of what it calls and not on
        their bodies, so that its own line tells of its own edit; one whose line waits for another is tried again without that."""
        texts = {it.file: (copy.top / it.file).read_text(encoding="utf-8") for it in self.edits if it.crate == crate}
        left = [it for it in self.edits if it.crate == crate and self.lacks(it, "check") and it.function(texts[it.file])]
        while left:
            chosen = {}
            for edit in left:
                chosen.setdefault(edit.function(texts[edit.file]), edit)
            now = dict(texts)
            for edit in chosen.values():
                changed, why = edit.applied(now[edit.file])
                if why:
                    self.note(edit, "check", OTHER, why)
                else:
                    now[edit.file] = changed
            try:
                for file, text in now.items():
                    (copy.top / file).write_text(text, encoding="utf-8")
                modules = sorted({module for module, _ in chosen})
                status, lines = copy.check(crate, modules)
            finally:
                for file, text in texts.items():
                    (copy.top / file).write_text(text, encoding="utf-8")
            found = self.share(crate, chosen, status, lines)
            for edit, (kind, why) in found.items():
                self.note(edit, "check", kind, why)
            left = [it for it in left if it not in found]
            if not found:
                # none can be told apart, so one is tried alone, as elsewhere
                return

    def share(self, crate, chosen, status, lines):
        """Which of the edits the lines of one check tell of."""
        found = {}
        told = re.findall(r"^fn (\S+): (.*)", "\n".join(lines), re.M)
        if not any(it.startswith(("only=", "logic=")) for it in lines):
            # the compiler refuses one of them
            for (module, name), edit in chosen.items():
                here = [it for it in lines if re.search(rf"\berror\b", it)]
                places = [it for it in lines if f"src/{module}.rt:" in it]
                if here and any(self.stands_at(edit, it) for it in places):
                    found[edit] = (OTHER, here[0][:120])
            return found
        for (module, name), edit in chosen.items():
            own = [(path, how) for path, how in told if re.match(rf"{crate}::(\w+::)*{module}::", path) or f"::{module}::" in path]
            own = [(path, how) for path, how in own if name in re.split(r"\W+", path)]
            bad = [it for it in own if not it[1].startswith("proved")]
            if own and not bad:
                found[edit] = (PROVED, "")
            elif bad and not all("waits" in how for _, how in bad):
                path = bad[0][0]
                error = next((it for it in lines if ": error" in it and f"/{name}/" in it), "")
                goal = re.search(r"error: `([^`]*)`", error)
                found[edit] = (REFUSED, path.split("::", 1)[-1] + (f" at {goal[1]}" if goal else ""))
        return found

    def stands_at(self, edit, line):
        at = re.search(r":(\d+):\d+", line)
        text = (ROOT / edit.file).read_text()
        return bool(at) and text[: text.find(edit.pairs[0][0])].count("\n") + 1 == int(at[1])

    def all(self):
        crates = sorted({it.crate for it in self.edits}, key=lambda it: -sum(e.crate == it for e in self.edits))
        workers = [threading.Thread(target=self.work, args=(it, crates)) for it in range(self.options.jobs)]
        for it in workers:
            it.start()
        for it in workers:
            it.join()

    def noticed(self, edit):
        """By what an edit is noticed, and where."""
        kind, why = self.told(edit, "check") or (None, "")
        runs = self.told(edit, "runs")
        if kind is None:
            return ("not tried", "") if not runs else (f"not checked; {runs[0]} by the runs", runs[1])
        if kind != PROVED:
            return f"proof: {kind}" if kind in (REFUSED, LIMITED) else kind, why
        kind, why = runs or ("proved, not run", "")
        return {SEEN: "a test only", UNSEEN: "**neither**"}.get(kind, kind), why

    def table(self):
        """The lines of the table, by crate."""
        count = {}
        for crate in sorted({it.crate for it in self.edits}):
            print(f"\n### {crate}\n\n| Edit | What is wrong then | Noticed by | Where |\n|---|---|---|---|")
            for edit in (it for it in self.edits if it.crate == crate):
                kind, why = self.noticed(edit)
                count[kind] = count.get(kind, 0) + 1
                cell = lambda it: it.replace("|", "\\|")
                print(f"| {edit.name.removeprefix(crate + '-')} | {cell(edit.says)} | {kind} | {cell(why)} |")
        print("\n" + "; ".join(f"{kind}: {number}" for kind, number in sorted(count.items())) + f"; in all {len(self.edits)}")


def main():
    parser = argparse.ArgumentParser(description=__doc__, formatter_class=argparse.RawDescriptionHelpFormatter)
    parser.add_argument("words", nargs="*")
    parser.add_argument("--jobs", type=int, default=3)
    parser.add_argument("--part", choices=("check", "runs"))
    parser.add_argument("--copies", type=pathlib.Path, default=ROOT.parent / f"{ROOT.name}-copies")
    for it in ("--quick", "--together", "--every", "--anew", "--table"):
        parser.add_argument(it, action="store_true")
    options = parser.parse_args()
    options.copies = options.copies.resolve()
    options.copies.mkdir(parents=True, exist_ok=True)
    edits = [Edit(it) for it in sorted(EDITS.glob("*.edit"))]
    edits = [it for it in edits if not options.words or any(word in it.name for word in options.words)]
    commit = subprocess.run(["git", "rev-parse", "HEAD"], cwd=ROOT, stdout=subprocess.PIPE, check=True).stdout.decode().strip()
    bench = Bench(options, edits, commit)
    if not options.table:
        bench.all()
    bench.table()
    return 0


if __name__ == "__main__":
    sys.exit(main())
