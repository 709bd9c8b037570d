"""Lists the places in src/ at which the points of docs/DESIGN-PASS.md look, one line for each, or with --count how many there are.

    python3 tools/places.py [POINT..] [--count]

It finds by the shape of the text alone; which of the lines are places of a point is told in the page.
"""

import collections
import pathlib
import re
import sys

FILES = sorted(pathlib.Path('crates').glob('*/src/**/*.rt'))


def lines():
    for file in FILES:
        for number, line in enumerate(file.read_text().splitlines(), 1):
            yield file, number, line


def matching(pattern):
    found = re.compile(pattern)
    return [f'{file}:{number}: {line.strip()}' for file, number, line in lines() if found.search(line)]


def spanning(pattern):
    """As `matching`, for a pattern that goes over line ends; the number is that of its first line."""
    found = re.compile(pattern, re.M)
    texts = [(file, file.read_text()) for file in FILES]
    return [
        f'{file}:{text.count(chr(10), 0, match.start()) + 1}: {" ".join(match.group().split())}'
        for file, text in texts
        for match in found.finditer(text)
    ]


def functions():
    """Each function's head, up to its clauses or body."""
    head = re.compile(r'^ *(?:pub(?:\(crate\))? )?fn ([a-z_0-9]+)[^(]*\((.*?)\)(?: ->|\n| \{)', re.S | re.M)
    for file in FILES:
        text = file.read_text()
        for match in head.finditer(text):
            number = text.count('\n', 0, match.start(1)) + 1
            yield file, number, match.group(1), match.group(2)


def clauses():
    return [(file, number, line.strip()) for file, number, line in lines() if re.match(r' *(requires|ensures)', line)]


def enums():
    return matching(r'^(pub(\(crate\))? )?enum ')


def flags():
    return matching(r'\) -> ((io::)?Result<)?bool')


def handed_on():
    """What `?`, `ok_or`, `map_err` hand on, handed on by a `let .. else`, an `if let` or an arm of a `match`."""
    return spanning(
        r'let (Some|Ok)\b[^;{}]* else \{\s*return (Err|None)\b'
        r'|if let (Err|None)\b[^\n{]*\{\s*return (Err|None)\b'
        r'|(None|Err\([^\n=]*\)) => (return )?(None|Err)\b'
    )


def numbers_for_kinds():
    return matching(r'^(pub )?const [A-Z_0-9]+: (u8|u32) = ')


def twins():
    """Names of functions, types and constants that stand in more than one crate."""
    where = collections.defaultdict(set)
    pattern = re.compile(r'^ *(?:pub(?:\(crate\))? )?(fn|struct|enum|const) ([A-Za-z_0-9]+)')
    for file, _, line in lines():
        match = pattern.match(line)
        if match and match.group(2) not in ('fmt', 'from', 'main', 'new'):
            where[match.group(1) + ' ' + match.group(2)].add(file.parts[1])
    return [f'{name}: {", ".join(sorted(crates))}' for name, crates in sorted(where.items()) if len(crates) > 1]


def index_loops():
    return matching(r"^ *('[a-z_]+: )?(while |for [a-z_]+ in [^{]*\.\.)")


def walks():
    """Loops with a place or a number counted beside them, or that end by a test inside; and an element reached by its number."""
    return matching(r"^ *('[a-z_]+: )?loop \{|\b(at|place|count|[ijn]) = next|\b[a-z_]+ \+= |\.nth\(")


def by_hand():
    return matching(r'^impl.*\b(PartialEq|Eq|PartialOrd|Ord|Clone|Copy|From|TryFrom|Display|Error)\b.* for ')


def conversions():
    """Functions that go by a match over all variants to a number, a sign or a text, or back, and comparisons of fields."""
    return matching(r'fn (code|relation|decode_[a-z_]+|sign|same|earlier|tighter|[a-z_]*_sign|kind_of|option_of)\(') + matching(
        r'\.0 [!=]= [a-z_.]+\.0')


def premises():
    """Facts that three or more clauses ask for, in a `requires` or before an arrow, with how many clauses do."""
    count = collections.Counter()
    for _, _, clause in clauses():
        asked = clause if clause.startswith('requires') else clause.rpartition('→')[0]
        for fact in set(re.findall(r'(?<![:.] )(?<!\.)\b(?!IfOk|OnOk|IfSome)[A-Z][A-Za-z]+(?= )|[a-z_.]+ [≤<] [0-9a-z_.^]+', asked)):
            count[fact] += 1
    return [f'{fact}: {number} clauses' for fact, number in sorted(count.items()) if number >= 3]


def long_heads():
    """Functions of six parameters or more."""
    return [
        f'{file}:{number}: {name} ({count})'
        for file, number, name, parameters in functions()
        for count in [len([p for p in re.split(r',\s*(?![^<>\[\]()]*[>\]\)])', parameters) if p.strip()])]
        if count >= 6
    ]


def lent_words():
    """Slices of words as parameters or fields: each may have a count or a place beside it."""
    return matching(r"\b[a-z_]+: &('[a-z]+ )?(mut )?\[u32\]")


def arenas():
    """Fields that are vectors: they may be lists that are searched, or hold numbers of other elements."""
    return matching(r'^ *(pub(\([a-z]+\))? )?[a-z_]+: Vec<')


def cut_by_hand():
    """The first of a list, or what is left of it, by a number."""
    return matching(r'[a-z_]\[(0|1\.\.|at\.\.|[a-z_]+ \+ 1\.\.)\]')


def switches():
    """Closures, `dyn` and pointers to functions as types."""
    return matching(r'\b(dyn|impl Fn)\b|\b(fn|Fn|FnMut|FnOnce)\(')


POINTS = {
    '1': [enums, flags, handed_on, numbers_for_kinds],
    '2': [twins],
    '3': [index_loops, walks],
    '4': [by_hand, conversions],
    '5': [premises, long_heads],
    '6': [lent_words, arenas, cut_by_hand],
    '7': [switches],
}


def main():
    words = sys.argv[1:]
    points = [word for word in words if word in POINTS] or sorted(POINTS)
    for point in points:
        for look in POINTS[point]:
            found = look()
            print(f'point {point}, {look.__name__}: {len(found)}')
            if '--count' not in words:
                for line in found:
                    print('  ' + line)


if __name__ == '__main__':
    main()
