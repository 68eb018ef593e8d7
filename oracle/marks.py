#!/usr/bin/env python3
"""The marker as a reference, by docs/SHEET.md and change request 1 (document 02); nothing here was taken from the crates. An option line,
noscript and a sheet give four numbers and the sheet afterwards.

Use: marks.py vectors: writes tests/vectors/marks.in and marks.out.
marks.py calls SEED FROM COUNT > calls: calls by their numbers, sound ones, damaged ones and, below BOUNDARIES, boundaries.
marks.py answers < calls > answers: what must come back.
marks.py unmarked < cases > cases: cases (oracle/rust/src/cases.rs) without their marks.
marks.py compare BY-RUST BY-MARKER: the lines of oracle/rust's mode `marks` and of `oracle/marks.c --cases`.

A call: three numbers in 8 columns and LF, the option line's length, noscript and the sheet's length; then the two byte strings. An
answer is a line: the four numbers, and behind them each place of the sheet at which a 1 must stand now and did not before."""
import os
import random
import re
import sys

HERE = os.path.dirname(os.path.abspath(__file__))
VECTORS = os.path.join(HERE, "..", "tests", "vectors")

# ---- docs/SHEET.md, "The sheet": numbers in columns, lines, limits

ELEMENT, TEXT, COMMENT = 1, 3, 8
MOST_NODES, MOST_ATTRIBUTES, MOST_BYTES, MOST_DEPTH = 20000, 60000, 4194304, 500
HEADER, NODE, ATTRIBUTE = 33, 65, 33
COLUMNS = 8
DEPTH, KIND, SKIP, NAME_AT, NAME_LENGTH, VALUE_AT, VALUE_LENGTH, COUNT = range(8)

# "a decimal number, right-justified with spaces, without leading zeros; zero is one `0`"
FIELD = re.compile(rb" *(0|[1-9][0-9]*)")


def numbers_of(line):
    """The fields of a line, or None where one is wrong or the line does not end in LF."""
    if line[-1:] != b"\n":
        return None
    numbers = []
    for at in range(0, len(line) - 1, COLUMNS):
        found = FIELD.fullmatch(line[at:at + COLUMNS])
        if not found:
            return None
        numbers.append(int(found.group(1)))
    return numbers


class Refused(Exception):
    """A number and a second number."""


def shown(pool, at, length):
    """The bytes of a range, or None where it passes the pool."""
    return pool[at:at + length] if at + length <= len(pool) else None


def is_utf8(s):
    try:
        s.decode("utf-8", "strict")
        return True
    except UnicodeDecodeError:
        return False


class Sheet:
    """A sheet that docs/SHEET.md accepts; `Refused` where it does not. The stages stand in the order of its table."""

    def __init__(self, s):
        if len(s) < HEADER:
            raise Refused(11, HEADER)
        header = numbers_of(s[:HEADER])
        if header is None:
            raise Refused(12, 0)
        n, a, p, self.root = header
        if n == 0 or n > MOST_NODES or a > MOST_ATTRIBUTES or p > MOST_BYTES or self.root >= n:
            raise Refused(13, 0)
        size = HEADER + NODE * n + ATTRIBUTE * a + p
        if len(s) != size:
            raise Refused(11, size)
        self.nodes = [numbers_of(s[self.node_at(i):self.node_at(i + 1)]) for i in range(n)]
        at = self.node_at(n)
        self.attributes = [numbers_of(s[at + ATTRIBUTE * j:at + ATTRIBUTE * (j + 1)]) for j in range(a)]
        self.pool = s[size - p:]
        for stage in (self.format, self.kinds, self.tree, self.ranges, self.encodings):
            stage()

    @staticmethod
    def node_at(i):
        return HEADER + NODE * i

    def lines(self):
        """Each line with its number; the header is line 0."""
        return enumerate(self.nodes + self.attributes, 1)

    def format(self):
        for line, numbers in self.lines():
            if numbers is None:
                raise Refused(12, line)

    def kinds(self):
        for line, r in enumerate(self.nodes, 1):
            if r[KIND] not in (ELEMENT, TEXT, COMMENT) or r[SKIP] not in (0, 1):
                raise Refused(15, line)
            if r[KIND] == ELEMENT and r[VALUE_LENGTH] != 0:
                raise Refused(15, line)
            if r[KIND] != ELEMENT and (r[NAME_LENGTH] != 0 or r[COUNT] != 0):
                raise Refused(15, line)

    def tree(self):
        # "A row's parent is the last earlier row whose depth is one less."
        self.parents, last = [None], {}
        for i, r in enumerate(self.nodes):
            d = r[DEPTH]
            if i == 0:
                right = d == 0 and r[KIND] == ELEMENT and shown(self.pool, r[NAME_AT], r[NAME_LENGTH]) == b"body"
            else:
                right = 0 < d <= MOST_DEPTH and d <= self.nodes[i - 1][DEPTH] + 1 and self.nodes[last[d - 1]][KIND] == ELEMENT
                if right:
                    self.parents.append(last[d - 1])
            if not right:
                raise Refused(14, i + 1)
            last[d] = i
        if self.nodes[self.root][KIND] != ELEMENT:
            raise Refused(14, 0)

    def both_ranges(self, numbers):
        if len(numbers) == 8:
            return [numbers[NAME_AT:NAME_AT + 2], numbers[VALUE_AT:VALUE_AT + 2]]
        return [numbers[0:2], numbers[2:4]]

    def ranges(self):
        for line, numbers in self.lines():
            if any(shown(self.pool, *r) is None for r in self.both_ranges(numbers)):
                raise Refused(16, line)
        if sum(r[COUNT] for r in self.nodes) != len(self.attributes):
            raise Refused(16, 0)

    def encodings(self):
        for line, numbers in self.lines():
            if not all(is_utf8(shown(self.pool, *r)) for r in self.both_ranges(numbers)):
                raise Refused(17, line)

    def below_root(self):
        """The rows that have the root for a parent, or for a parent's parent, and so on."""
        below = set()
        for i in range(1, len(self.nodes)):
            if self.parents[i] == self.root or self.parents[i] in below:
                below.add(i)
        return sorted(below)

    def name(self, i):
        return shown(self.pool, self.nodes[i][NAME_AT], self.nodes[i][NAME_LENGTH])


# ---- docs/SHEET.md, "The options": eleven digits and LF

DIGITS = 11
ALT_TEXTS, FORM_FIELDS = 3, 5


def options_of(line):
    flags = line[1:DIGITS]
    if line[DIGITS:DIGITS + 1] != b"\n" or line[0:1] not in (b"0", b"1", b"2") or any(c not in b"01" for c in flags):
        raise Refused(33, 0)
    return line[:DIGITS]


# ---- change request 1: "the fixed lists that `extract_plain_text` uses under these options"

ALWAYS = b"script style iframe frame template".split()
NO_ALT_TEXTS = b"object video audio embed img area svg figcaption figure".split()
NO_NOSCRIPT = [b"noscript"]
NO_FORM_FIELDS = b"textarea input button select option label".split()
NAMES = ALWAYS + NO_ALT_TEXTS + NO_NOSCRIPT + NO_FORM_FIELDS


def names_of(options, noscript):
    names = list(ALWAYS)
    if options[ALT_TEXTS:ALT_TEXTS + 1] == b"0":
        names += NO_ALT_TEXTS
    if noscript == 0:
        names += NO_NOSCRIPT
    if options[FORM_FIELDS:FORM_FIELDS + 1] == b"0":
        names += NO_FORM_FIELDS
    return names


def mark(line, noscript, sheet):
    """The four numbers, and the sheet afterwards."""
    try:
        names = names_of(options_of(line), noscript)
        s = Sheet(sheet)
    except Refused as refused:
        return [*refused.args, 0, 0], sheet
    after, new = bytearray(sheet), 0
    for i in s.below_root():
        r = s.nodes[i]
        if r[KIND] == ELEMENT and s.name(i) in names and r[SKIP] == 0:
            at = s.node_at(i) + COLUMNS * SKIP
            after[at:at + COLUMNS] = b"%8d" % 1
            new += 1
    return [0, 0, 0, new], bytes(after)


def answer(line, noscript, sheet):
    numbers, after = mark(line, noscript, sheet)
    assert len(after) == len(sheet)
    places = []
    if after != sheet:
        places = [k for k in range(len(sheet)) if after[k] != sheet[k]]
    assert all(after[k:k + 1] == b"1" for k in places)
    # "Marking its result again with the same options sets none."
    if numbers[0] == 0 and len(sheet) < 100000:
        assert mark(line, noscript, after) == ([0, 0, 0, 0], after)
    return (" ".join("%d" % n for n in numbers + places) + "\n").encode()


def framed(line, noscript, sheet):
    return b"%8d%8d%8d\n" % (len(line), noscript, len(sheet)) + line + sheet


def unframed(f):
    while head := f.read(25):
        line, noscript, sheet = (int(head[k:k + 8]) for k in (0, 8, 16))
        yield f.read(line), noscript, f.read(sheet)


# ---- sheets

STANDING = b"10110011000\n"
OFF = b"00110011000\n"
NO_ALT = b"10100011000\n"
FIELDS = b"10110111000\n"
NO_ALT_BUT_FIELDS = b"10100111000\n"
LINES = [STANDING, NO_ALT, FIELDS, NO_ALT_BUT_FIELDS]


def written(rows, root=0):
    """Rows as (depth, kind, skip, name or value, attributes): each string that does not stand in the pool yet is put behind it."""
    pool, nodes, lines = bytearray(), [], []

    def put(s):
        at = pool.find(s)
        if at < 0:
            at = len(pool)
            pool.extend(s)
        return [at, len(s)]

    for depth, kind, skip, s, *more in rows:
        at, length = put(s)
        ranges = [at, length, 0, 0] if kind == ELEMENT else [0, 0, at, length]
        count = more[0] if more else []
        nodes.append([depth, kind, skip] + ranges + [len(count)])
        lines += [put(n) + put(v) for n, v in count]
    return sheet_of([len(nodes), len(lines), len(pool), root], nodes, lines, bytes(pool))


def sheet_of(header, nodes, lines, pool):
    return b"".join(b"".join(b"%8d" % n for n in numbers) + b"\n" for numbers in [header] + nodes + lines) + pool


def element(depth, name, skip=0, attributes=()):
    return depth, ELEMENT, skip, name, list(attributes)


def text(depth, value, skip=0):
    return depth, TEXT, skip, value


def comment(depth, value, skip=0):
    return depth, COMMENT, skip, value


BODY = element(0, b"body")

# `<script>a</script><p><noscript>n</noscript><img alt=i><label><input value=v></label>t</p><SCRIPT>S</SCRIPT><!--script-->style`
EXAMPLE = [
    BODY,
    element(1, b"script"), text(2, b"a"),
    element(1, b"p"),
    element(2, b"noscript"), text(3, b"n"),
    element(2, b"img", 0, [(b"alt", b"i")]),
    element(2, b"label"), element(3, b"input", 0, [(b"value", b"v")]),
    text(2, b"t"),
    element(1, b"SCRIPT"), text(2, b"S"),
    comment(1, b"script"),
    text(1, b"style"),
]

# roots in it: what stands behind their end is not below them
NESTED = [
    BODY,
    element(1, b"div"), element(2, b"style"), element(3, b"object"), element(4, b"select"), element(5, b"option"),
    element(3, b"frame"), element(2, b"button"), text(3, b"script"),
    element(1, b"figure"), element(2, b"figcaption"), element(3, b"svg"), element(1, b"template"), element(1, b"textarea"),
]


def near(name):
    """Strings that are nearly that name, and it."""
    yield from (name, name.upper(), name.capitalize(), name[:-1] + name[-1:].upper())
    yield from (name[:-1], name[1:], name + b"s", b"x" + name, name + name, name + b" ", b" " + name, name + b"\0", b"\0" + name)
    yield from (name[:-1] + bytes([name[-1] ^ 1]), bytes([name[0] ^ 1]) + name[1:], name + b"\xc3\xa9")


def names_page(names, skip=0):
    return written([BODY] + [element(1, n, skip) for n in names])


def vectors():
    # the page of the examples, from each of its elements, under each choice of lists
    for root, row in enumerate(EXAMPLE):
        if row[1] == ELEMENT:
            for line in LINES:
                for noscript in (0, 1):
                    yield line, noscript, written(EXAMPLE, root)
    yield OFF, 0, written(EXAMPLE)
    # a page from each of its elements, and as far as it goes
    for root, row in enumerate(NESTED):
        if row[1] == ELEMENT:
            yield NO_ALT, 0, written(NESTED, root)
            yield FIELDS, 1, written(NESTED[:root + 1], root)
    # each name and what is nearly one, under each choice of lists
    for name in NAMES:
        yield NO_ALT, 0, names_page(near(name))
    for line in LINES:
        for noscript in (0, 1):
            yield line, noscript, names_page(NAMES)
            yield line, noscript, names_page(NAMES, 1)
    # the other options mark nothing, nor take a mark away
    small = written([BODY, element(1, b"script"), element(1, b"img"), element(1, b"p"), element(1, b"noscript")])
    for k in range(DIGITS):
        for c in b"0", b"1", b"2":
            yield STANDING[:k] + c + STANDING[k + 1:], 0, small
    # option lines that are wrong, of every length; what stands behind the line end is no part of it; 33 comes before the sheet's numbers
    for k in range(len(STANDING) + 1):
        yield STANDING[:k], 0, small
    for k in range(len(STANDING)):
        for c in b"3", b"/", b" ", b"\n", b"\0", b"\xff":
            if STANDING[k:k + 1] != c:
                yield STANDING[:k] + c + STANDING[k + 1:], 0, small
    for line in (STANDING[:10] + b"\n", STANDING[:11] + b"0\n"):
        yield line, 0, small
    for more in (b"0", b"\n", b"x" * 50, small):
        yield STANDING + more, 1, small
    for sheet in (b"", small[:-1], b"x" * 40):
        yield STANDING[:-1], 0, sheet
        yield STANDING, 0, sheet
    # noscript by any number
    for noscript in (2, 10, 255, 256, 65536, 99999999):
        yield STANDING, noscript, small
    # marked rows stay: each alone, all, all but one
    for k in range(len(EXAMPLE)):
        for marks in ([k], [i for i in range(len(EXAMPLE)) if i != k]):
            yield NO_ALT, 0, written([(d, kind, int(i in marks), *more) for i, (d, kind, _, *more) in enumerate(EXAMPLE)])
    yield NO_ALT, 0, written([(d, kind, 1, *more) for d, kind, _, *more in EXAMPLE], 3)
    # names that lie in one another: script in noscript, frame in iframe, an empty name at the pool's end
    pool = b"bodynoscriptiframe"
    rows = [[0, 1, 0, 0, 4, 0, 0, 0]] + [[1, 1, 0, at, length, 0, 0, 0]
                                         for at, length in ((4, 8), (6, 6), (12, 6), (13, 5), (5, 7), (6, 12), (18, 0), (0, 0), (17, 1))]
    yield STANDING, 0, sheet_of([len(rows), 0, len(pool), 0], rows, [], pool)
    # texts and comments have no name; attributes are not names
    yield STANDING, 0, written([BODY, text(1, b"script"), comment(1, b"style"), element(1, b"p", 0, [(b"script", b"style")])])
    # one row; the root is the last row
    yield STANDING, 0, written([BODY])
    yield STANDING, 0, written([BODY, element(1, b"script"), element(2, b"script")], 2)
    # damaged sheets: each fault with marks to set before and behind it
    for sheet in damages(written(EXAMPLE)):
        yield NO_ALT, 0, sheet


def damages(s):
    """A sheet with one fault, for each of 11 to 17."""
    patch = lambda at, new: s[:at] + new + s[at + len(new):]
    node = lambda i, k: Sheet.node_at(i) + COLUMNS * k
    n = int(s[:8])
    pool = len(s) - int(s[16:24])
    yield from (s[:32], s[:-1], s + b"x", b"")
    yield from (patch(0, b"      0"), patch(32, b" "), patch(0, b"       0"), patch(0, b"   20001"), patch(24, b"%8d" % n))
    for i in (1, n // 2, n - 1):
        for k in range(8):
            yield patch(node(i, k), b"      -1")
            yield patch(node(i, k), b"99999999")
        yield patch(node(i, SKIP), b"       2")
        yield patch(node(i, SKIP), b"      01")
        yield patch(node(i, DEPTH), b"       0")
        yield patch(node(i, 8), b"\r")
    yield patch(pool + 4, b"\xff")
    yield patch(len(s) - 1, b"\xc3")


def write_vectors():
    calls = list(vectors())
    with open(os.path.join(VECTORS, "marks.in"), "wb") as f:
        f.write(b"".join(framed(*c) for c in calls))
    with open(os.path.join(VECTORS, "marks.out"), "wb") as f:
        f.write(b"".join(answer(*c) for c in calls))
    print(len(calls), "calls")


def check_verdicts():
    """The reading above against the numbers that stand beside the damages of oracle/sheet_verdicts.py, written there by hand."""
    data = open(os.path.join(VECTORS, "verdicts.in"), "rb").read()
    for line in open(os.path.join(VECTORS, "verdicts.out")):
        size = int(data[:8])
        sheet, data = data[9:9 + size], data[9 + size:]
        said = mark(STANDING, 0, sheet)[0][:2]
        assert said == [int(n) for n in line.split()], (said, line)
    assert not data


# ---- calls by their numbers

OTHERS = b"div p span a ul li td tr table b em body main section h1 pre br form fieldset title x script2".split() + [b"", "é".encode()]
VALUES = [b"t", b"script", b"style", b"", "ü".encode()]


def any_name(r):
    k = r.random()
    return r.choice(NAMES) if k < 0.5 else r.choice(list(near(r.choice(NAMES)))) if k < 0.65 else r.choice(OTHERS)


def any_line(r):
    line = bytearray(b"%d" % r.randrange(3) + b"".join(b"%d" % r.randrange(2) for _ in range(DIGITS - 1)) + b"\n")
    k = r.random()
    if k < 0.03:
        line[r.randrange(len(line))] = r.choice(b"0123 \n\0/:\xff")
    elif k < 0.05:
        del line[r.randrange(len(line) + 1):]
    elif k < 0.10:
        line += r.choice([b"0", b"\n", b"abc", bytes(line)])
    return bytes(line)


def any_noscript(r):
    return r.choice([0, 0, 0, 1, 1, 2, 256, 65536, r.randrange(100000000)])


def any_sheet(r, rows=None):
    """A sound sheet."""
    count = rows or r.choice([1, 2, 3, 5, 8, 12, 20, 40, r.randrange(1, 120)])
    marks, elements, deeper = r.choice([0, 0, 0, 0.1, 0.1, 0.5, 1]), r.choice([0.5, 0.8, 1]), r.choice([0.2, 0.5, 0.9])
    pool = bytearray(r.choice([b"", b"body", b"noscriptbodyiframe", b"\xff\x80", b"figcaptiontextareabody"]))
    share = r.random() < 0.6
    nodes, lines = [], []

    def put(s):
        at = pool.find(s) if share else -1
        if at < 0:
            if r.random() < 0.1:
                pool.extend(r.choice([b"\xff", b"x", b"script"]))
            at = len(pool)
            pool.extend(s)
        return [at, len(s)]

    depth = 0
    for i in range(count):
        kind = ELEMENT
        if i:
            most = depth + (nodes[-1][KIND] == ELEMENT)
            depth = min(most, MOST_DEPTH) if r.random() < deeper and most else r.randint(1, min(most, MOST_DEPTH))
            kind = ELEMENT if r.random() < elements else r.choice([TEXT, COMMENT])
        skip = int(r.random() < marks)
        if kind != ELEMENT:
            nodes.append([depth, kind, skip, r.randrange(len(pool) + 1), 0] + put(r.choice(VALUES)) + [0])
            continue
        count_here = r.choice([0, 0, 0, 1, 2])
        nodes.append([depth, kind, skip] + put(any_name(r) if i else b"body") + [r.randrange(len(pool) + 1), 0, count_here])
        lines += [put(any_name(r)) + put(r.choice(VALUES)) for _ in range(count_here)]
    if r.random() < 0.3:
        pool.extend(r.choice([b"\xff", b"script", b"\n"]))
    roots = [i for i, n in enumerate(nodes) if n[KIND] == ELEMENT]
    root = r.choice([0] * 6 + [roots[-1]] + [r.choice(roots[:r.randint(1, len(roots))])] * 4)
    return sheet_of([len(nodes), len(lines), len(pool), root], nodes, lines, bytes(pool))


def damaged(r, s):
    """A sheet with something else in it somewhere."""
    n, a, p = (int(s[k:k + 8]) for k in (0, 8, 16))
    s = bytearray(s)
    for _ in range(r.choice([1, 1, 1, 2, 3])):
        k = r.random()
        if k < 0.10:
            s = s[:r.randrange(len(s) + 1)]
        elif k < 0.15:
            s += bytes(r.randrange(256) for _ in range(r.randrange(1, 4)))
        elif k < 0.20:
            at = 8 * r.randrange(4)
            s[at:at + 8] = b"%8d" % r.choice([0, 1, n, a, p, n - 1, n + 1, 20000, 20001, 60000, 60001, 4194304, 4194305])
        elif k < 0.55:
            # a field of a row gets another number
            at = Sheet.node_at(r.randrange(n)) + 8 * r.randrange(8)
            s[at:at + 8] = b"%8d" % r.choice([0, 1, 2, 3, 8, 4, 6, p, p + 1, 500, 501, r.randrange(20), 99999999])
        elif k < 0.60 and a:
            at = Sheet.node_at(n) + ATTRIBUTE * r.randrange(a) + 8 * r.randrange(4)
            s[at:at + 8] = b"%8d" % r.choice([0, 1, p, p + 1, r.randrange(20), 99999999])
        elif k < 0.70 and p and s:
            s[len(s) - 1 - r.randrange(min(p, len(s)))] = r.choice(b"\xff\x80\xc3\xe2sS")
        elif s:
            s[r.randrange(len(s))] = r.choice(b"0123456789 \n\r-+\xc3\x80z\0")
        if len(s) < Sheet.node_at(n) + ATTRIBUTE * a:
            break
    return bytes(s)


def chain(depth, name, root=0):
    return written([BODY] + [element(d, name) for d in range(1, depth + 1)], root)


def boundaries():
    """Calls at every boundary, the greatest sheets among them."""
    names = [element(d, NAMES[d % len(NAMES)], d % 7 == 0) for d in range(1, MOST_DEPTH + 1)]
    for root in (0, 1, 250, 499, 500):
        yield STANDING, 0, chain(MOST_DEPTH, b"script", root)
        yield NO_ALT, 0, written([BODY] + names + [element(1, b"style")], root)
    yield STANDING, 0, chain(MOST_DEPTH + 1, b"script")
    wide = [[1, 1, 0, 4, 6, 0, 0, 0]] * (MOST_NODES - 1)
    body = [0, 1, 0, 0, 4, 0, 0, 0]
    pool = b"bodyscriptp"
    for root in (0, 1, MOST_NODES - 1, MOST_NODES):
        yield STANDING, 0, sheet_of([MOST_NODES, 0, len(pool), root], [body] + wide, [], pool)
    yield STANDING, 0, sheet_of([MOST_NODES + 1, 0, len(pool), 0], [body] + wide + wide[:1], [], pool)
    # every second row marked already, every third a p
    mixed = [[1, 1, int(i % 2), *([10, 1] if i % 3 else [4, 6]), 0, 0, 0] for i in range(MOST_NODES - 1)]
    yield STANDING, 0, sheet_of([MOST_NODES, 0, len(pool), 0], [body] + mixed, [], pool)
    # a fault in the last row, behind 19,998 rows that would be marked
    for fault in ([1, 1, 2, 4, 6, 0, 0, 0], [3, 1, 0, 4, 6, 0, 0, 0], [1, 1, 0, 4, 8, 0, 0, 0], [1, 2, 0, 4, 6, 0, 0, 0]):
        yield STANDING, 0, sheet_of([MOST_NODES, 0, len(pool), 0], [body] + wide[:-1] + [fault], [], pool)
    # the longest sheet there is, and one with a byte of its last range that is no UTF-8
    deep = [[1 + i % 500, 1, 0, 4, 6, 0, 0, 3] for i in range(MOST_NODES - 1)]
    rows = [[0, 1, 0, 0, 4, 0, 0, 3]] + deep
    lines = [[4, 6, 10, 1]] * (MOST_ATTRIBUTES - 1)
    for last, fill in (([0, 1, MOST_BYTES - 1, 1], b"x"), ([0, 1, MOST_BYTES - 1, 1], b"\xff"), ([0, 1, MOST_BYTES, 1], b"x")):
        filled = pool + b"x" * (MOST_BYTES - len(pool) - 1) + fill
        yield STANDING, 0, sheet_of([MOST_NODES, MOST_ATTRIBUTES, MOST_BYTES, 7], rows, lines + [last], filled)


BOUNDARIES = 24


def call(seed, number):
    r = random.Random("%d %d" % (seed, number))
    line, noscript = any_line(r), any_noscript(r)
    sheet = any_sheet(r, r.choice([500, 2000, 5000]) if number % 2000 == 0 else None)
    return line, noscript, damaged(r, sheet) if number % 3 == 2 else sheet


def write_calls(seed, start, count, to):
    if start < BOUNDARIES:
        first = list(boundaries())
        assert len(first) == BOUNDARIES
        for c in first[start:start + count]:
            to.write(framed(*c))
    for number in range(max(start, BOUNDARIES), start + count):
        to.write(framed(*call(seed, number)))


# ---- cases of the comparison with the Rust


def cases_of(f):
    while head := f.read(9):
        yield f.read(int(head))


def unmarked(case):
    s, line = bytearray(case), DIGITS + 1
    for i in range(int(s[line:line + COLUMNS])):
        at = line + Sheet.node_at(i) + COLUMNS * SKIP
        s[at:at + COLUMNS] = b"%8d" % 0
    return b"%8d\n" % len(s) + bytes(s)


def compare(by_rust, by_marker):
    """Two lines a call: new marks and marked rows; the text. The Rust has no bound on list levels and open rows."""
    calls = new = rows = with_marks = limits = 0
    with open(by_rust) as a, open(by_marker) as b:
        while x := a.readline():
            y = b.readline()
            if x != y:
                sys.exit("call %d: the Rust %r, the marker %r" % (calls, x, y))
            count, *marked = x.split()
            calls, new, rows, with_marks = calls + 1, new + int(count), rows + len(marked), with_marks + (count != "0")
            x, y = a.readline(), b.readline()
            if y.split()[0] in ("21", "22"):
                limits += 1
            elif x != y:
                sys.exit("text of call %d: the Rust %r, the marker %r" % (calls, x, y))
        if b.readline():
            sys.exit("more answers than calls")
    print("%d calls, %d of them with new marks, %d new marks, %d marked rows afterwards" % (calls, with_marks, new, rows), end="")
    print("; no difference, %d past a limit of ours" % limits)


def main():
    mode, args = sys.argv[1], sys.argv[2:]
    out = sys.stdout.buffer
    if mode == "vectors":
        check_verdicts()
        write_vectors()
    elif mode == "calls":
        write_calls(*map(int, args), out)
    elif mode == "answers":
        for c in unframed(sys.stdin.buffer):
            out.write(answer(*c))
    elif mode == "unmarked":
        for c in cases_of(sys.stdin.buffer):
            out.write(unmarked(c))
    elif mode == "compare":
        compare(*args)
    else:
        sys.exit(__doc__)


if __name__ == "__main__":
    main()
