#!/usr/bin/env python3
"""texts.py COUNT SEED > cases: small pages whose texts have 0 to 60 bytes, so that every byte that is told apart stands at every place of
eight: blanks, bytes to escape, their neighbours, control characters, characters of two to four bytes. The texts stand where they are shown
in different ways: in a block, in a pre, in a list, in a cell and behind it, in an `a` that opens an entry and in one that does not, as an
alt, an address and a field's value. Each page goes under one option line, all formattings in turn. For oracle/compare.sh: CASES=FILE."""
import random
import sys

from pages import ELEMENT, TEXT, framed, sheet

PLAIN = "abcdefghijklmnopqrstuvwxyz0123456789.,"
BLANKS = " \t\n\x0b\x0c\r"
SPECIAL = "&\"<>"
NEIGHBOURS = "\x00\x08\x0e\x1f!#%'=?@\x7f\u0080\u00a0\u00a2\u00a6\u00bc\u00be\u00e9\u2028\u65e5\U0001f600"
LINES = ["20110011000", "10110011000", "00110011000", "20111011000", "20111111000", "10111111000", "00111111000", "20101111000"]


def text(rng):
    length = rng.choice([rng.randrange(0, 8), rng.randrange(8, 26), rng.randrange(26, 61)])
    rare = rng.choice([0, 4, 15, 50])
    s = ""
    while len(s.encode()) < length:
        k = rng.randrange(100)
        if k < rare:
            s += rng.choice(rng.choice([BLANKS, SPECIAL, NEIGHBOURS]))
        elif k < rare + 14:
            s += " "
        else:
            s += rng.choice(PLAIN)
    return s


def words(rng, depth):
    return [depth, TEXT, 0, "", text(rng), []]


def element(depth, name, *attributes):
    return [depth, ELEMENT, 0, name, "", list(attributes)]


def part(rng, depth):
    """A row or several, with texts."""
    k = rng.randrange(12)
    if k < 4:
        return [words(rng, depth)]
    if k < 6:
        name = rng.choice(["p", "div", "li", "pre", "pre", "textarea", "h2", "span"])
        return [element(depth, name)] + [words(rng, depth + 1) for _ in range(rng.randrange(1, 3))]
    if k < 8:
        inside = [element(depth + 1, "img", ("alt", text(rng)))] if rng.randrange(3) == 0 else []
        return [element(depth, "a", ("href", text(rng)))] + inside + [words(rng, depth + 1)]
    if k == 8:
        cell = [element(depth + 1, "td"), words(rng, depth + 2), words(rng, depth + 1)]
        return [element(depth, "tr")] + cell + [element(depth + 1, "td"), words(rng, depth + 2)]
    if k == 9:
        return [element(depth, "input", ("value", text(rng)), ("placeholder", text(rng)))]
    if k == 10:
        return [element(depth, "img", ("alt", text(rng)))]
    return [element(depth, "b"), element(depth + 1, "i"), words(rng, depth + 2), element(depth, "a"), words(rng, depth + 1)]


def main():
    count, seed = int(sys.argv[1]), int(sys.argv[2])
    rng = random.Random(seed)
    for i in range(count):
        # the root is body, or a row below it
        rows = [element(0, "body"), element(1, rng.choice(["div", "a", "pre", "li", "td"]))]
        for _ in range(rng.randrange(1, 6)):
            rows += part(rng, 2)
        sys.stdout.buffer.write(framed(LINES[i % len(LINES)], sheet(rows, rng.randrange(2))))


if __name__ == "__main__":
    main()
