#!/usr/bin/env python3
"""Cases for missing_alt (document 02, request 4): an img or area without alt is to be written as one with alt="[picture]".
missing_alt.py pictured SEED FROM < cases > cases: more pictures in the cases, by the seed and the number of each: some elements become an
img or an area; some of their alts are taken out, emptied, made blank, or named ALT and the like; most lines get alt_texts 1.
missing_alt.py bare < cases > cases: every span becomes an area, and every alt of an img or area is taken out.
missing_alt.py digit 0|1 < cases > cases: the same cases with that missing_alt.
missing_alt.py written < cases > cases: those with missing_alt 1 get 0, and alt="[picture]" in each img and area without alt.
missing_alt.py by COMMAND .. < cases > answers: the answers of COMMAND to these.
missing_alt.py count CASES ANSWERS OTHER-ANSWERS: six numbers: cases; those whose answers differ; imgs and areas without alt, with an empty
one, with a blank one, and those of the first that have it in other letters.
missing_alt.py mixed SEED FROM < cases > cases: icons and missing_alt by chance, some lines wrong, and every third sheet damaged
(oracle/marks.py).
missing_alt.py answers [--needs] < cases > answers: 33, or the sheet's number by oracle/marks.py, or what oracle/reference.py says."""
import random
import subprocess
import sys

import difference
import marks
import pages
import reference

ALT_TEXTS, ICONS, MISSING_ALT = 3, 9, 10
KIND, NAME, COUNT = 1, 3, 7
NAMES = (b"img", b"area")
WORD = b"[picture]"


class Sheet:
    """A case as lines of numbers, which can be changed; strings that are new stand behind the pool."""

    def __init__(self, case):
        self.line, sheet = case[:reference.LINE], case[reference.LINE:]
        numbers = lambda at, count: [int(sheet[at + 8 * k:at + 8 * k + 8]) for k in range(count)]
        n, a, _, self.root = numbers(0, 4)
        self.nodes = [numbers(33 + 65 * i, 8) for i in range(n)]
        lines = [numbers(33 + 65 * n + 33 * j, 4) for j in range(a)]
        self.attributes, used = [], 0
        for row in self.nodes:
            self.attributes.append(lines[used:used + row[COUNT]])
            used += row[COUNT]
        self.pool = bytearray(sheet[33 + 65 * n + 33 * a:])

    def case(self):
        lines = [line for row in self.attributes for line in row]
        assert len(lines) <= pages.MOST_ATTRIBUTES and len(self.pool) <= pages.MOST_BYTES
        nodes = [row[:COUNT] + [len(a)] for row, a in zip(self.nodes, self.attributes)]
        header = [len(nodes), len(lines), len(self.pool), self.root]
        return self.line + marks.sheet_of(header, nodes, lines, bytes(self.pool))

    def shown(self, at, length):
        return bytes(self.pool[at:at + length])

    def put(self, s):
        self.pool.extend(s)
        return [len(self.pool) - len(s), len(s)]

    def name(self, i):
        return self.shown(*self.nodes[i][NAME:NAME + 2]) if self.nodes[i][KIND] == pages.ELEMENT else b""

    def rename(self, i, name):
        self.nodes[i][NAME:NAME + 2] = self.put(name)

    def pictures(self):
        return [i for i in range(len(self.nodes)) if self.name(i) in NAMES]

    def alts(self, i):
        return [a for a in self.attributes[i] if self.shown(*a[:2]) == b"alt"]

    def take_alts(self, i):
        alts = self.alts(i)
        self.attributes[i] = [a for a in self.attributes[i] if a not in alts]

    def give(self, i, at, name, value):
        self.attributes[i].insert(at, self.put(name) + self.put(value))


def with_digit(case, at, digit):
    return case[:at] + digit + case[at + 1:]


def pictured(case, r):
    s, share = Sheet(with_digit(case, ALT_TEXTS, b"1") if r.random() < 0.85 else case), r.choice([0, 0.05, 0.2, 0.6])
    for i in range(1, len(s.nodes)):
        if s.name(i) and r.random() < share:
            s.rename(i, r.choice(NAMES))
    for i in s.pictures():
        k = r.random()
        if k < 0.85:
            s.take_alts(i)
        at = r.randrange(len(s.attributes[i]) + 1)
        if 0.45 <= k < 0.60:
            s.give(i, at, b"alt", b"")
        elif 0.60 <= k < 0.75:
            s.give(i, at, b"alt", r.choice([b" ", b"  ", b"\n", b"\t ", b"\x0b", b"\r\x0c"]))
        elif 0.75 <= k < 0.85:
            s.give(i, at, r.choice([b"ALT", b"ALT", b"Alt", b"alT", b"al", b"alts", b"alt ", b""]), r.choice([b"i", b"", b"alt"]))
    return s.case()


def bare(case):
    s = Sheet(case)
    for i in range(len(s.nodes)):
        if s.name(i) == b"span":
            s.rename(i, b"area")
    for i in s.pictures():
        s.take_alts(i)
    return s.case()


def written(case):
    if case[MISSING_ALT:MISSING_ALT + 1] == b"0":
        return case
    s = Sheet(with_digit(case, MISSING_ALT, b"0"))
    for i in s.pictures():
        if not s.alts(i):
            s.give(i, len(s.attributes[i]), b"alt", WORD)
    return s.case()


def mixed(case, r, number):
    for at in (ICONS, MISSING_ALT):
        case = with_digit(case, at, r.choice([b"0", b"1"]))
    if r.random() < 0.03:
        case = with_digit(case, r.randrange(reference.LINE), r.choice([b"0", b"2", b"3", b" ", b"\n", b"\r", b"/", b"\xff"]))
    return case[:reference.LINE] + marks.damaged(r, case[reference.LINE:]) if number % 3 == 2 else case


def answer(case, needs):
    try:
        marks.options_of(case[:reference.LINE])
        marks.Sheet(case[reference.LINE:])
    except marks.Refused as refused:
        return b"%8d%8d%8d%8d\n" % (*refused.args, 0, 0) * (2 if needs else 1)
    return reference.needs(case) if needs else reference.answer(case)


def count(cases, answers, others):
    cases = difference.split_cases(open(cases, "rb").read())
    answers, others = (difference.split_answers(open(name, "rb").read()) for name in (answers, others))
    assert len(cases) == len(answers) == len(others)
    absent = empty = blank = other_letters = 0
    for case in cases:
        s = Sheet(case)
        for i in s.pictures():
            value = next((s.shown(*a[2:]) for a in s.alts(i)), None)
            absent += value is None
            empty += value == b""
            blank += bool(value) and reference.trim(value) == b""
            other_letters += value is None and any(s.shown(*a[:2]).lower() == b"alt" for a in s.attributes[i])
    print(len(cases), sum(a != b for a, b in zip(answers, others)), absent, empty, blank, other_letters)


def main():
    mode, args = sys.argv[1], sys.argv[2:]
    if mode == "count":
        return count(*args)
    out = sys.stdout.buffer
    put = lambda case: out.write(b"%8d\n" % len(case) + case)
    cases = difference.split_cases(sys.stdin.buffer.read())
    if mode in ("pictured", "mixed"):
        seed, first = map(int, args)
        for number, case in enumerate(cases, first):
            r = random.Random("%s %d %d" % (mode, seed, number))
            put(pictured(case, r) if mode == "pictured" else mixed(case, r, number))
    elif mode == "bare":
        for case in cases:
            put(bare(case))
    elif mode == "digit":
        for case in cases:
            put(with_digit(case, MISSING_ALT, args[0].encode()))
    elif mode == "written":
        for case in cases:
            put(written(case))
    elif mode == "by":
        framed = b"".join(b"%8d\n" % len(c) + c for c in map(written, cases))
        out.write(subprocess.run(args, input=framed, stdout=subprocess.PIPE, check=True).stdout)
    elif mode == "answers":
        for case in cases:
            out.write(answer(case, "--needs" in args))
    else:
        sys.exit(__doc__)


if __name__ == "__main__":
    main()
