"""Drawings and rows to be damaged, and damage to a text, for damage.py: each function takes a source of chance and gives the same for the
same."""
import itertools
import re

TEXT_BYTES = 262144
MARK = "\ufeff".encode()
SIGNS = ["<=", "<", ">=", ">"]
NUMBERS = [0, 1, 7, 8, 9, 255, 256, 257, 9999, 10000, 10001, 2**16 - 1, 2**16, 2**31 - 1, 2**31, 2**32 - 1, 2**32, 2**64 - 1, 2**64, 10**40]
NUMBERS = [str(n) for n in NUMBERS] + ["-1", "-0", "+1", "0003", "1.0", "1e3", "0x10", "1_000", "٣", "1" * 5000]
VOCABULARY = "clocks position step when reset x y p0 : , -> - > < <= =< >= = # 3 10000 ( ; é 計 _ _a a-b --".split()


class Count(int):
    """A number of a row that says how many things follow."""


# Clockworks: the number of clocks, the tests of each position, and the steps.


def some_tests(dice, clocks, relations, most):
    return [(dice.randrange(clocks), dice.randrange(relations), dice.randint(0, most)) for _ in range(dice.choice([0, 0, 1, 1, 2]))]


def some_work(dice):
    clocks, count, most = dice.choice([1, 1, 2, 2, 3, 4, 8]), dice.randint(1, 6), dice.choice([1, 3, 5, 10000])
    positions = [some_tests(dice, clocks, 2, most) for _ in range(count)]
    steps = []
    for _ in range(dice.randint(0, 9)):
        ends = dice.randrange(count), dice.randrange(count)
        steps.append((*ends, some_tests(dice, clocks, 4, most), dice.choices(range(clocks), k=dice.randint(0, 2))))
    return clocks, positions, steps


def work_at_limits(dice):
    """As many clocks, positions and numbers of the row as there may be, or one more or less."""
    clocks, count = dice.choice([0, 1, 7, 8, 9, 10]), dice.choice([0, 1, 255, 256, 257, 300])
    tests = [(0, 0, n % 10001) for n in range(dice.choice([0, 1, 50]))]
    positions = [list(tests) if i < 100 else [] for i in range(count)]
    steps, size = [], 2 + sum(1 + 3 * len(tests) for tests in positions)
    wanted = dice.choice([size, 16383, 16384, 16385, 16386, 20000])
    guard = [(0, 2, 0)] * dice.choice([0, 1, 100, 5000])
    while size + 4 + 3 * len(guard) <= wanted:
        resets = min(dice.choice([0, 8, 20000]), wanted - size - 4 - 3 * len(guard))
        rest = wanted - size - 4 - 3 * len(guard) - resets
        resets += rest if rest < 4 + 3 * len(guard) else 0  # the last one fills the row up
        steps.append((0, 0, guard, [0] * resets))
        size += 4 + 3 * len(guard) + resets
    return clocks, positions, steps


def as_row(clocks, positions, steps):
    row = [Count(clocks), Count(len(positions))]
    for tests in positions:
        row += [Count(len(tests)), *itertools.chain(*tests)]
    for source, target, tests, resets in steps:
        row += [source, target, Count(len(tests)), *itertools.chain(*tests), Count(len(resets)), *resets]
    return row


def as_drawing(clocks, positions, steps):
    def told(word, tests):
        return word + ", ".join(f"x{clock} {SIGNS[relation]} {number}" for clock, relation, number in tests) if tests else ""

    lines = ["clocks" + "".join(f" x{i}" for i in range(clocks))] if clocks else []
    lines += [f"position p{i}" + told(": ", tests) for i, tests in enumerate(positions)]
    for source, target, tests, resets in steps:
        back = " reset" + "".join(f" x{clock}" for clock in resets) if resets else ""
        lines.append(f"step p{source} -> p{target}" + told(" when ", tests) + back)
    return "".join(line + "\n" for line in lines)


def is_row(numbers):
    """Whether there are numbers, and these are the row of a clockwork within the limits: a reader of its own."""
    take = (numbers or [])[::-1].pop

    def tests(relations):
        return all(take() < clocks and take() < relations and take() <= 10000 for _ in range(take()))

    try:
        clocks, count = take(), take()
        if not (len(numbers) <= 16384 and 1 <= clocks <= 8 and 1 <= count <= 256 and all(tests(2) for _ in range(count))):
            return False
        while True:
            try:
                source = take()
            except IndexError:
                return True
            if not (source < count and take() < count and tests(4) and all(take() < clocks for _ in range(take()))):
                return False
    except IndexError:
        return False


def numbers_of(text):
    """The numbers of a row that is given as text, or None."""
    if re.search(rb"[^0-9 \t-\r]", text):
        return None
    numbers = [int(word.lstrip(b"0")[:11] or b"0") for word in text.split()]
    return numbers if max(numbers, default=0) < 2**32 else None


# Damage to a text.


def cut(dice, text):
    places = [range(len(text) + 1), [m.start() for m in re.finditer(rb"\S+|$", text)], [m.end() for m in re.finditer(rb"\n|^", text)]]
    a, b = sorted(dice.choices(dice.choice(places), k=2))
    return dice.choice([text[:a], text[:a], text[a:], text[:a] + text[b:], text[a:b]])


def rearrange(dice, parts, strange):
    """Swaps, doubles, repeats, leaves out and puts in parts."""
    for _ in range(dice.choice([1, 1, 2, 5])):
        a, b, way = dice.randrange(len(parts) or 1), dice.randrange(len(parts) or 1), dice.randrange(5)
        if way == 0 or not parts:
            parts.insert(a, strange(dice))
        elif way == 1:
            parts[a], parts[b] = parts[b], parts[a]
        elif way == 2:
            parts.insert(b, parts[a])
        elif way == 3:
            parts[a:a] = [parts[a]] * dice.choice([1, 2, 9, 300, 3000])
        else:
            del parts[a]
    return b"".join(parts)


def some_line(dice):
    return " ".join(dice.choices(VOCABULARY, k=dice.randint(1, 8))).encode() + b"\n"


def lines(dice, text):
    return rearrange(dice, text.splitlines(keepends=True), some_line)


def words(dice, text):
    return rearrange(dice, re.findall(rb"\w+|\s+|[^\w\s]+", text), lambda dice: f" {dice.choice(VOCABULARY)} ".encode())


def put(dice, text, piece, over=False):
    at = dice.choice([0, len(text), dice.randint(0, len(text)), dice.randint(0, len(text))])
    return text[:at] + piece + text[at + over * len(piece) :]


def some_bytes(dice, text):
    for _ in range(dice.choice([1, 1, 3, 30])):
        text = put(dice, text, dice.randbytes(dice.choice([1, 1, 2, 40])), dice.random() < 0.5)
    return text


def bits(dice, text):
    text = bytearray(text)
    for _ in range(dice.choice([1, 1, 2, 8]) if text else 0):
        text[dice.randrange(len(text))] ^= 1 << dice.randrange(8)
    return bytes(text)


def no_utf8(dice, text):
    if dice.random() < 0.1:
        return text.decode().encode(dice.choice(["utf-16", "utf-16-le", "utf-32-be"]))
    bad = [b"\xff", b"\xfe", b"\x80", b"\xc3", b"\xc0\x80", b"\xe2\x82", b"\xed\xa0\x80", b"\xf0\x9f\x98", b"\xf4\x90\x80\x80"]
    bad.append(b"\xf8\x88\x80\x80\x80")
    return put(dice, text, dice.choice(bad) * dice.choice([1, 1, 5]))


def strange_characters(dice, text):
    """NUL and other characters that control something, and letters, digits and signs of other scripts."""
    some = "\0\1\a\b\v\f\x1b\x7f\x85\xa0é\u0301Ж計ǅªⅷ٣²‿\u2028\u200b\u202e\ufeff\ufffd\ufffe😀\U0010ffff'\"\\"
    for _ in range(dice.choice([1, 1, 4])):
        text = put(dice, text, (dice.choice(some) * dice.choice([1, 1, 1, 50])).encode())
    return text


def line_ends(dice, text):
    ends = [b"\r\n", b"\r", b"\n\r", b"\r\r\n", b"\n\n", b"\v", b"\f", b" \n", b"\t\n", b"#\n", b"\\\n", b"\0\n"]
    text = text.replace(b"\n", dice.choice(ends), dice.choice([1, 2, -1]))
    return dice.choice([b"", b"", MARK, MARK + MARK, b"\r\n"]) + text


def long_words(dice, text):
    """A long word, name, number, comment or line."""
    size = dice.choice([39, 40, 41, 1000, 65535, 65536, 131072, 250000, 300000])
    piece = (dice.choice(["a", "é", "計", "0", "9", "#", " ", "\t", "-", ">", "x ", "x, ", "a\n", "\n", "1 "]) * size)[:size].encode()
    if dice.random() < 0.5:
        word = dice.choice(re.findall(rb"\w+", text) or [b" "])
        return text.replace(word, piece, dice.choice([1, 3]))
    return put(dice, text, piece)


def numbers(dice, text):
    found = list(re.finditer(rb"\b[0-9]+\b", text)) or list(re.finditer(rb"$", text))
    for match in sorted(dice.sample(found, min(len(found), dice.choice([1, 1, 2]))), key=lambda m: -m.start()):
        text = text[: match.start()] + dice.choice(NUMBERS).encode() + text[match.end() :]
    return text


def sizes(dice, text):
    """About as many bytes as a text may have, or far more."""
    missing = dice.choice([TEXT_BYTES - 1, TEXT_BYTES, TEXT_BYTES, TEXT_BYTES + 1, TEXT_BYTES + 2, 2 * TEXT_BYTES, 5000000]) - len(text)
    blank = dice.choice([b" ", b"\n", b"\t", b"\r\n"] + [b"#", b"# x\n", b"a\n", b"7"] * (dice.random() < 0.5))
    filling = (blank * (missing // len(blank) + 1))[:missing]
    return dice.choice([text + filling, filling + text])


def empty(dice, text):
    blank = [b"", b"\n", b" ", b"\t\n" * 99, b"#", b"# a\n", b"\r\n", b"\r", b"\0", MARK, MARK + b"\n"]
    return dice.choice([*blank, b"clocks", b"0", b"1", b"1 1"])


DAMAGES = {
    "nothing": lambda dice, text: text,
    "cut": cut,
    "lines": lines,
    "words": words,
    "bytes": some_bytes,
    "bits": bits,
    "no UTF-8": no_utf8,
    "characters": strange_characters,
    "line ends": line_ends,
    "long": long_words,
    "numbers": numbers,
    "size": sizes,
    "empty": empty,
}
