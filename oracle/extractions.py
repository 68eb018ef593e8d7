#!/usr/bin/env python3
"""Writes tests/vectors/extractions.in and extractions.out: calls of `extract` with lent buffers of every length that matters, and how
each buffer stands afterwards. The texts of document 01's pages and of the Rust's quirks are those of oracle/pages.py, written by hand;
needs and numbers are oracle/reference.py's, which agrees with the unchanged Rust on the generated cases (docs/DIFFERENCES.md)."""
import os
import sys

sys.dont_write_bytecode = True
sys.path.insert(0, os.path.dirname(__file__))
sys.setrecursionlimit(10000)
import pages
import reference

ROOM = {"sheet": 262144, "out": 262144, "work": 65536}
calls, answers = bytearray(), bytearray()


def sum_of(s):
    n = 0
    for b in s:
        n = (n * 31 + b) % 1000003
    return n


def state(length, word):
    return "empty" if length == 0 else word


def call(options, parts, out, work, answer, text):
    """`parts`: bytes, bytes and how often they stand, bytes."""
    a, b, times, c = parts
    end = len(a) + times * len(b)
    assert end + len(c) <= ROOM["sheet"] and out <= ROOM["out"] and work <= ROOM["work"]
    calls.extend(b"".join(b"%8d" % n for n in (out, work, len(a), len(b), end, end + len(c))) + b"\n" + options.encode() + b"\n" + a + b + c)
    number = answer[0]
    line = "%d %d %d %d " % tuple(answer)
    line += "work %s out " % state(work, "zero" if number in (0, 32) else "unchanged")
    line += "text and zeros\n" if number == 0 else state(out, "unchanged") + "\n"
    answers.extend(line.encode())
    if number == 0:
        answers.extend(text + b"\n" if len(text) <= 200 else b"sum %d \n" % sum_of(text))


def answered(options, parts, out, work):
    a, b, times, c = parts
    p, o = reference.Page(a + b * times + c), reference.Options(options.encode())
    call(options, parts, out, work, *reference.extraction(p, o, out, work))


def needs(options, sheet):
    """The needs of work and out, and the text's length."""
    p, o = reference.Page(sheet), reference.Options(options.encode())
    work = reference.extraction(p, o, 0, 0)[0]
    work = work[1] if work[0] == 31 else 0
    out = reference.extraction(p, o, 0, work)[0]
    return work, out[1] if out[0] == 32 else 0


def around(options, parts):
    """Lent buffers at the needs, one short, empty, and longer."""
    work, out = needs(options, parts[0] + parts[1] * parts[2] + parts[3])
    for o, w in [(out + 40, work + 40), (out, work), (out, work - 1), (out - 1, work), (out - 1, work - 1), (0, 0), (out, 0), (0, work)]:
        if o >= 0 and w >= 0:
            answered(options, parts, o, w)


def plain(sheet):
    return sheet, b"", 0, b""


def line(*numbers):
    return b"".join(b"%8d" % n for n in numbers) + b"\n"


def repeated(rows, times, pool, root=0):
    """A body and, below it, so many times the same rows; ranges count from the pool's start, where `body` stands."""
    count = 1 + len(rows) * times
    return line(count, 0, len(pool), root) + line(0, 1, 0, 0, 4, 0, 0, 0), b"".join(line(*r) for r in rows), times, pool


def main():
    for options, markup, text in pages.WORKED:
        sheet = pages.written(markup)
        p, o = reference.Page(sheet), reference.Options(options.encode())
        answer, by_reference = reference.extraction(p, o, 5000, 5000)
        assert by_reference == text.encode()
        call(options, plain(sheet), 5000, 5000, answer, text.encode())
    for options, markup, _ in pages.DOCUMENT + pages.PRIVATE + pages.MISSING + pages.QUIRKS:
        around(options, plain(pages.written(markup)))
    # the word for a missing alt counts in both needs
    assert needs(pages.PICTURES, pages.written("<img/>")) == (9, 9) and needs(pages.STANDING, pages.written("<img/>")) == (0, 0)
    # 21: the level of a childless list stays up; 22: a childless row stays open. Off counts no list level.
    for name in (b"ul", b"ol", b"li", b"tr"):
        pool = b"body" + name + b"x"
        rows = [(1, 1, 0, 4, 2, 0, 0, 0)]
        for times in (1024, 1025, 1026):
            for options in (pages.STANDING, pages.OFF, pages.HTML):
                if name == b"li" and options != pages.STANDING:
                    continue
                answered(options, repeated(rows, times, pool), 3000, 3000)
    # a refusal of 21 or 22 comes before 31 and 32, and leaves empty buffers alone
    answered(pages.STANDING, repeated([(1, 1, 0, 4, 2, 0, 0, 0)], 1025, b"bodyul"), 0, 0)
    answered(pages.STANDING, repeated([(1, 1, 0, 4, 2, 0, 0, 0)], 1025, b"bodytr"), 0, 0)
    # ranges that overlap: a thousand paragraphs show the same hundred bytes, of which each begins two bytes later
    pool = b"bodyp" + ("minus − one & two  " * 10).encode()[:190]
    rows = [(1, 1, 0, 4, 1, 0, 0, 0), (2, 3, 0, 0, 0, 5, 100, 0)]
    for options in (pages.STANDING, pages.OFF, pages.HTML):
        around(options, repeated(rows, 1000, pool))
    # one entry: two thousand texts of one range
    around(pages.OFF, repeated([(1, 3, 0, 0, 0, 5, 30, 0)], 2000, pool))
    # depth 500, each row in the one before
    deep = [[d, 1, False, "div" if d else "body", "", []] for d in range(500)] + [[500, 3, False, "", "deep", []]]
    lists = [[d, 1, False, ("ul" if d % 2 else "li") if d else "body", "", []] for d in range(500)] + [[500, 3, False, "", "deep", []]]
    for options in (pages.STANDING, pages.OFF, pages.HTML):
        answered(options, plain(pages.sheet(deep)), 5000, 5000)
        answered(options, plain(pages.sheet(lists)), 60000, 5000)
    # a sheet's refusals leave both buffers alone
    here = os.path.join(os.path.dirname(__file__), "..", "tests", "vectors")
    data, seen = open(os.path.join(here, "verdicts.in"), "rb").read(), set()
    for said in open(os.path.join(here, "verdicts.out")):
        size = int(data[:8])
        sheet, data = data[9:9 + size], data[9 + size:]
        number, second = map(int, said.split())
        if number and number not in seen and size <= 40000:
            seen.add(number)
            for out, work in ((100, 100), (0, 0)):
                call(pages.STANDING, plain(sheet), out, work, [number, second, 0, 0], b"")
    assert seen == set(range(11, 18))
    for name, bytes_ in (("extractions.in", calls), ("extractions.out", answers)):
        with open(os.path.join(here, name), "wb") as f:
            f.write(bytes_)


if __name__ == "__main__":
    main()
