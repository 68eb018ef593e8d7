#!/usr/bin/env python3
"""The visible text of a row as a reference, by change request 6 (document 02) and its readings, as a recursion over the rows that stand
beside each other; nothing here was taken from the crates. A sheet, a row and a lent out give four numbers and out afterwards. What is
wrong with a sheet is told by oracle/marks.py.

Use: visible_text.py vectors PROGRAM: writes tests/vectors/visible_text.in and visible_text.out, whose answers are those of the unchanged
Rust (PROGRAM: that of oracle/serialize.sh with needs); the reference must give the same.
visible_text.py answers < calls > answers: what must come back.
visible_text.py once < cases > cases: of cases (oracle/rust/src/cases.rs) that differ by option line, marks and root alone, the first.
visible_text.py compare LIBRARY [COUNT [SEED]]: levzhada_visible_text of a shared library (oracle/visible_text.sh makes it) beside the
reference: the sample of the vectors, COUNT sheets by chance, every third of them damaged, and large ones; all rows of a sheet and rows past
its end, with out of every length that matters. Every byte of out is compared, and the bytes on both sides of it.

Calls on a sheet: two numbers in 8 columns and LF, the sheet's length and how many calls; the sheet; then for each call two numbers in 8
columns and LF, the row and the length of out. Each byte of out is `#` before it. An answer: a line with the four numbers, then the bytes of
out and LF."""
import ctypes
import os
import random
import re
import subprocess
import sys

sys.dont_write_bytecode = True
HERE = os.path.dirname(os.path.abspath(__file__))
sys.path.insert(0, HERE)
sys.setrecursionlimit(10000)
import marks

VECTORS = os.path.join(HERE, "..", "tests", "vectors")
ELEMENT, TEXT, COMMENT = marks.ELEMENT, marks.TEXT, marks.COMMENT
FILL = b"#"

# ---- change request 6: the sets

BLOCKS = b"""address article aside blockquote canvas dd div dl dt fieldset figcaption figure footer form h1 h2 h3 h4 h5 h6 header hr li
    main nav ol p pre section table tfoot ul video""".split()
SILENT = b"script style noscript".split()
# "U+000B is no blank there"
BLANKS = b"\t\n\x0c\r "
RUN = re.compile(rb"[\t\n\x0c\r ]+")
# Unicode's White_Space (PropList.txt)
WHITE = re.compile("[\\u0009-\\u000d\\u0020\\u0085\\u00a0\\u1680\\u2000-\\u200a\\u2028\\u2029\\u202f\\u205f\\u3000]*")

# ---- a text that grows


class Shown:
    def __init__(self):
        self.text, self.need = bytearray(), 0

    def add(self, s):
        self.text += s
        self.need = max(self.need, len(self.text))

    def strip(self):
        while self.text[-1:] and self.text[-1] in BLANKS:
            del self.text[-1]

    def ends_blank(self):
        return not self.text or self.text[-1] in BLANKS


def add_text(shown, value):
    value = RUN.sub(b" ", value)
    if shown.ends_blank():
        value = trimmed(value)
    shown.add(value)


def trimmed(value):
    return WHITE.sub("", value.decode(), count=1).encode()


def add_block(shown, name):
    if name in BLOCKS:
        shown.strip()
        shown.add(b"\n\n" if name == b"p" else b"\n")


# ---- a page


class Page:
    """The rows of a sheet that is not refused."""

    def __init__(self, sheet):
        read = marks.Sheet(sheet)
        self.root, self.marked = read.root, [r[marks.SKIP] == 1 for r in read.nodes]
        self.kind = [r[marks.KIND] for r in read.nodes]
        self.name = [read.name(i) for i in range(len(read.nodes))]
        self.value = [marks.shown(read.pool, r[marks.VALUE_AT], r[marks.VALUE_LENGTH]) for r in read.nodes]
        self.children = [[] for _ in read.nodes]
        for i, parent in enumerate(read.parents):
            if parent is not None:
                self.children[parent].append(i)

    def content(self, i):
        """All text below a row, as it stands."""
        if self.kind[i] == TEXT:
            return self.value[i]
        return b"".join(self.content(j) for j in self.children[i])


def add_row(shown, page, i):
    if page.kind[i] == TEXT:
        add_text(shown, page.value[i])
    if page.kind[i] != ELEMENT or page.name[i] in SILENT:
        return
    if page.name[i] == b"br":
        shown.add(b"\n")
    elif page.name[i] == b"pre":
        shown.add(page.content(i))
    else:
        add_block(shown, page.name[i])
        add_rows(shown, page, page.children[i])


def add_rows(shown, page, rows):
    """Rows that stand beside each other: the end step is met by the last of them alone."""
    for i in rows:
        add_row(shown, page, i)
    if rows:
        add_block(shown, page.name[rows[-1]])


def visible(page, row):
    shown = Shown()
    add_rows(shown, page, page.children[row])
    return bytes(shown.text), shown.need


def read(sheet):
    """The page, and the numbers of the sheet's refusal."""
    try:
        return Page(sheet), None
    except marks.Refused as refused:
        return None, [*refused.args, 0, 0]


def answered(page, refused, row, out):
    """The four numbers, and out afterwards."""
    if refused:
        return refused, out
    if row >= len(page.kind):
        return [35, row, 0, 0], out
    text, need = visible(page, row)
    if len(out) < need:
        return [53, need, 0, 0], out
    return [0, 0, 0, len(text)], text + bytes(len(out) - len(text))


# ---- calls and answers


def framed(sheet, calls):
    return b"%8d%8d\n" % (len(sheet), len(calls)) + sheet + b"".join(b"%8d%8d\n" % c for c in calls)


def unframed(f):
    while head := f.read(17):
        sheet = f.read(int(head[:8]))
        lines = [f.read(17) for _ in range(int(head[8:16]))]
        yield sheet, [(int(line[:8]), int(line[8:16])) for line in lines]


def answers(sheet, calls):
    page, refused = read(sheet)
    for row, room in calls:
        numbers, out = answered(page, refused, row, FILL * room)
        yield b"%d %d %d %d\n" % tuple(numbers) + out + b"\n"


# ---- pages as nested lists: a string is a text, a tuple an element's name and what is below it, "!" names a comment


def rows_of(trees, depth=1):
    for tree in trees:
        if isinstance(tree, str):
            yield depth, TEXT, 0, tree.encode()
        elif tree[0] == "!":
            yield depth, COMMENT, 0, tree[1].encode()
        else:
            yield depth, ELEMENT, 0, tree[0].encode()
            yield from rows_of(tree[1:], depth + 1)


def body(*trees):
    return [(0, ELEMENT, 0, b"body"), *rows_of(trees)]


# what ../shared/requests.md says: a page, the row, its text and the need
WORKED = [
    (body("a", ("div", "b")), 0, "a\nb\n", 4),
    (body(("div", "a"), "b"), 0, "\nab", 3),
    (body(("div", "a"), ("!", "c"), "b"), 0, "\nab", 3),
    (body(("p", "a"), ("p", "b")), 0, "\n\na\n\nb\n\n", 8),
    (body(("div", ("span", ("p", "a")))), 0, "\n\na\n", 5),
    (body(("span", ("div", "a")), "b"), 0, "\na\nb", 4),
    (body("x ", ("pre", " a  b "), "c"), 0, "x  a  b c", 9),
    (body("x", ("pre", "a     ")), 0, "xa\n", 7),
    (body("a", *[("br",)] * 5, ("div", "b")), 0, "a\nb\n", 6),
    (body("1", ("canvas", "2"), "3", ("video", "4"), "5", ("tfoot", "6"), "7"), 0, "1\n23\n45\n67", 10),
    (body(("table", ("tr", ("td", "1"), ("td", "2")), ("tr", ("td", "3"), ("td", "4"))), "x"), 0, "\n1234x", 6),
    (body(("br", "x"), "y"), 0, "\ny", 2),
    (body("\v \va"), 0, "a", 1),
    (body("a ", "\u00a0\u2003 x"), 0, "a x", 3),
    (body(("pre", " a  b ", ("br",), "c")), 1, "a b \nc", 6),
]

# what the readings leave to the steps
MORE = [
    body(),
    body(""),
    body(" "),
    body("a", ("!", " b "), ("div",)),
    body(("div", "a"), " "),
    body(("div", "a", ("!", "")), "b"),
    body(("div", ("p",))),
    body(("p",), ("p",), "a", ("p",)),
    body("a ", ("p",), " b ", ("div",), "\tc"),
    body("a", ("span", " "), " b"),
    body("a\n\n b", ("b", "\x0c"), "\r c "),
    body("a ", ("span", ("span", " b "), " "), " c"),
    body("a\v", " b", ("div", "c \v"), "\v d"),
    body("a\u00a0", " b"),
    body("a \u00a0", ("div", "\u2003b \u2003"), "c"),
    body("x ", "\u00a0 \u3000 \v\n"),
    body("x", "\u00a0 y"),
    body("\u001c a"),
    body("\ufeff a"),
    body("\u200b a"),
    body("x", ("pre", " \n"), " y"),
    body("x", ("pre", "\t"), ("pre", "\t"), ("div", "y")),
    body("x", ("pre", "a ", ("b", " b"), ("!", "no"), ("pre", " c"), ("br", " d"), ("script", " e")), "f"),
    body(("pre", "\n a"), ("pre", "b\n\n\n")),
    body(("span", ("pre", "a\n")), "b"),
    body(("pre", ("div", "a"), " b  c"), ("p", "d")),
    body(("script", "a", ("div", "b")), "c"),
    body("a", ("style", "b")),
    body("a", ("noscript", ("p", "b"))),
    body(("div", ("script", "a")), "b"),
    body("a", ("br",), ("br", ("p", "b"))),
    body("a ", ("br",), " b"),
    body("a", ("br",), ("!", "c")),
    body("a ", ("hr",), "b", ("hr",)),
    body(("ul", " ", ("li", "1"), " ", ("li", "2"), " "), "x"),
    body(("ul", ("li", "1"), ("li", ("ul", ("li", "2")))), "x"),
    body(("dl", ("dt", "a"), ("dd", "b"))),
    body(("table", ("thead", ("tr", ("th", "a"))), ("tbody", ("tr", ("td", "b"))), ("tfoot", ("tr", ("td", "c"))))),
    body(("P", "a"), ("DIV", "b"), ("Pre", " c  d "), ("BR",), ("SCRIPT", "e")),
    body(("body", "a"), ("html", "b"), ("", "c"), ("\u2003", "d")),
    body(("p", ("p", ("p", "a")))),
    body(("p", ("p", ("p", "a"), "b"), "c"), "d"),
    body(("div", "a "), ("span", ("span", ("p", "b   ", ("br",), ("br",), ("br",))))),
    body("a" * 200 + " " * 50, ("div", "b" * 100)),
    body(("h1", "a"), "\n", ("h6", "b"), "\n"),
    body(("h1", "a"), "\n", ("h7", "b"), "\n"),
    body("日本 ", ("p", " é  😀 "), "ß"),
]
NAMED = BLOCKS + SILENT + [b"br"]
INLINE = b"""center details hgroup tr td th tbody thead caption span a b body html listing xmp plaintext textarea summary dialog menu dir
    svg audio iframe template title option search object img input""".split()
SPACES = [c for c in map(chr, range(0x10000)) if WHITE.fullmatch(c)]
NEIGHBOURS = "\x08\x0e\x1c\x1f\x21\x84\x86\x9f\xa1\u167f\u1681\u180e\u1fff\u200b\u2027\u202a\u202e\u2030\u205e\u2060\u2fff\u3001\ufeff"


def near(name):
    yield from (name.upper(), name.capitalize(), name[:-1], name + b"s", b"x" + name, name + b" ", name + b"\0", name[::-1])


def named(name):
    """An element of that name with a next sibling, as the last of its rows, and without rows below it."""
    name = name.decode()
    return body("a ", (name, " b  "), "c", ("em", (name, "d ")), (name,))


def spaced(c):
    """A character first and last in a text, behind a blank and behind a letter, and before a block."""
    return body("x ", c + "y" + c, " z", c, ("em", "a" + c), ("div", c + " " + c, "b"), c + c, ("pre", c), c + "e" + c)


def sample():
    """The sheets of tests/vectors with the rows that are asked."""
    for rows, row, text, need in WORKED:
        sheet = marks.written(rows)
        assert visible(Page(sheet), row) == (text.encode(), need), (rows, visible(Page(sheet), row))
        yield sheet, range(len(rows) + 1)
    for rows in MORE:
        yield marks.written(rows), range(len(rows))
    for name in NAMED + INLINE:
        yield marks.written(named(name)), [0]
    # the names that are nearly some, six in a page
    unlike = [n for name in NAMED for n in near(name) if n not in NAMED]
    for at in range(0, len(unlike), 6):
        page = [("em", (n.decode(), " a"), "b") for n in unlike[at:at + 6]]
        yield marks.written(body("x ", *page, (unlike[at].decode(), "c"))), [0]
    for c in SPACES + list(NEIGHBOURS):
        yield marks.written(spaced(c)), [0]
    # marks and root have no say
    rows = WORKED[-1][0] + list(rows_of(["a", ("p", ("script", "b"), "c"), ("!", "d")]))
    for marked in range(len(rows)):
        yield marks.written([(d, kind, int(i == marked), s) for i, (d, kind, _, s) in enumerate(rows)]), [0, 1]
        if rows[marked][1] == ELEMENT:
            yield marks.written([(d, kind, 1, s) for d, kind, _, s in rows], marked), [0, marked]
    # a nest: every end step, at every level
    for names in (["p"], ["span"], ["div", "p"], ["p", "b", "b"], ["canvas", "em", "tfoot"]):
        yield marks.written([(0, ELEMENT, 0, b"body")] + [(d, ELEMENT, 0, names[d % len(names)].encode()) for d in range(1, 40)]
                            + [(40, TEXT, 0, b" a ")]), [0, 1, 2, 38, 39, 40]
    # refused sheets, and rows that are not there
    sheet = marks.written(rows)
    for damaged in [*marks.damages(sheet), sheet[:33], b"x" * 40]:
        yield damaged, [0, 99]
    yield sheet, [len(rows), len(rows) + 1, 20000, 99999999]
    r = random.Random(6)
    for _ in range(250):
        sheet = any_sheet(r, r.randrange(2, 12))
        yield sheet, range(int(sheet[:8]))


def rooms(page, refused, row, more):
    """Lengths of out: none, one too few, enough and more; of a refused call, none and some."""
    if refused or row >= len(page.kind):
        return [0, 5]
    text, need = visible(page, row)
    return sorted({0, max(need - 1, 0), need, need + more} | ({len(text)} if len(text) < need else set()))


def write_vectors(program):
    sheets, calls = [], 0
    for sheet, rows in sample():
        page, refused = read(sheet)
        asked = [(row, room) for row in rows for room in rooms(page, refused, row, 3)]
        # none of out is asked of a page's first row alone, where it is enough
        asked = [c for k, c in enumerate(asked) if k == 0 or c[1] > 0 or refused or c[0] >= len(page.kind)]
        sheets.append((sheet, asked))
        calls += len(asked)
    data = b"".join(framed(*s) for s in sheets)
    by_rust = subprocess.run([program, "answers"], input=data, stdout=subprocess.PIPE, check=True).stdout
    by_reference = b"".join(a for s in sheets for a in answers(*s))
    if by_rust != by_reference:
        sys.exit("the Rust and the reference differ")
    with open(os.path.join(VECTORS, "visible_text.in"), "wb") as f:
        f.write(data)
    with open(os.path.join(VECTORS, "visible_text.out"), "wb") as f:
        f.write(by_rust)
    print(len(sheets), "sheets,", calls, "calls,", len(data), "and", len(by_rust), "bytes")


# ---- sheets by chance

PIECES = ["a", "b", "word", "two words", "x", "&", "é", "日", "😀", "long enough for eight bytes", "\0", "\x1f"]


def any_text(r):
    parts = []
    for _ in range(r.choice([0, 1, 1, 2, 3, 5])):
        k = r.random()
        if k < 0.3:
            parts.append("".join(r.choice("\t\n\f\r ") for _ in range(r.randint(1, 3))))
        elif k < 0.5:
            parts.append("".join(r.choice(SPACES) for _ in range(r.randint(1, 3))))
        elif k < 0.6:
            parts.append(r.choice(NEIGHBOURS))
        else:
            parts.append(r.choice(PIECES))
    return "".join(parts).encode()


def any_name(r):
    k = r.random()
    if k < 0.45:
        return r.choice(BLOCKS)
    if k < 0.75:
        return r.choice([b"p", b"p", b"pre", b"pre", b"br", b"br", *SILENT])
    return r.choice(INLINE) if k < 0.92 else r.choice(list(near(r.choice(NAMED)))) if k < 0.99 else b""


def any_sheet(r, count):
    """A sound sheet."""
    marked, elements, deeper = r.choice([0, 0, 0.2, 1]), r.choice([0.3, 0.5, 0.8]), r.choice([0.2, 0.5, 0.9])
    share, litter = r.random() < 0.5, r.choice([0, 0, 0.2])
    pool, nodes, lines = bytearray(r.choice([b"", b"body", b"\xff\x80", b"\xe2\x80"])), [], []

    def put(s):
        at = pool.find(s) if share else -1
        if at < 0:
            if r.random() < litter:
                pool.extend(r.choice([b"\xff", b" ", b"\xc2", b"p"]))
            at = len(pool)
            pool.extend(s)
        return [at, len(s)]

    depth = 0
    for i in range(count):
        kind = ELEMENT
        if i:
            most = min(depth + (nodes[-1][marks.KIND] == ELEMENT), marks.MOST_DEPTH)
            depth = most if r.random() < deeper and most else r.randint(1, max(most, 1))
            kind = ELEMENT if r.random() < elements else r.choice([TEXT, TEXT, TEXT, COMMENT])
        skip, empty = int(r.random() < marked), [r.randrange(len(pool) + 1), 0]
        if kind != ELEMENT:
            nodes.append([depth, kind, skip] + empty + put(any_text(r)) + [0])
            continue
        attributes = r.choice([0, 0, 0, 0, 1, 2])
        nodes.append([depth, kind, skip] + put(any_name(r) if i else b"body") + empty + [attributes])
        lines += [put(any_name(r)) + put(any_text(r)) for _ in range(attributes)]
    roots = [i for i, n in enumerate(nodes) if n[marks.KIND] == ELEMENT]
    return marks.sheet_of([len(nodes), len(lines), len(pool), r.choice([0, 0, r.choice(roots)])], nodes, lines, bytes(pool))


def large():
    """The most rows, the greatest depth, the longest pool, and ranges that are shown many times; with the rows that are asked."""
    body_line, pool = [0, ELEMENT, 0, 0, 4, 0, 0, 0], b"bodypprea "
    p, pre = [1, ELEMENT, 0, 4, 1, 0, 0, 0], [1, ELEMENT, 0, 5, 3, 0, 0, 0]
    a, beside, blank = [2, TEXT, 0, 0, 0, 8, 2, 0], [1, TEXT, 0, 0, 0, 8, 2, 0], [1, TEXT, 0, 0, 0, 9, 1, 0]
    most = marks.MOST_NODES
    for rows in ([p, a] * (most // 2 - 1), [pre, a] * (most // 2 - 1), [p] * (most - 1), [blank] * (most - 1), [beside] * (most - 1)):
        yield marks.sheet_of([len(rows) + 1, 0, len(pool), 0], [body_line] + rows, [], pool), [0, 1, len(rows) // 2, len(rows), most]
    for name in (4, 1), (5, 3), (8, 1):
        deep = [[d, ELEMENT, 0, *name, 0, 0, 0] for d in range(1, marks.MOST_DEPTH)] + [[marks.MOST_DEPTH, TEXT, 0, 0, 0, 8, 2, 0]]
        yield marks.sheet_of([len(deep) + 1, 0, len(pool), 0], [body_line] + deep, [], pool), [0, 1, 250, 498, 499, 500, 501]
    for fill in (b"x", b" ", b"\n", "\u2003".encode(), b"\va "):
        filled = pool + fill * ((marks.MOST_BYTES - len(pool)) // len(fill))
        text = [TEXT, 0, 0, 0, len(pool), len(filled) - len(pool), 0]
        rows = [[1, *text], p, [2, *text], pre, [2, *text], [1, *text]]
        yield marks.sheet_of([len(rows) + 1, 0, len(filled), 0], [body_line] + rows, [], filled), [0, 2, 4, 7]


# ---- the library beside it


class Answer(ctypes.Structure):
    _fields_ = [(name, ctypes.c_size_t) for name in ("number", "second", "visits", "length")]


class Difference(Exception):
    pass


class Library:
    EDGE = 64

    def __init__(self, path):
        self.visible_text = ctypes.CDLL(path).levzhada_visible_text
        self.visible_text.restype = Answer
        self.visible_text.argtypes = [ctypes.c_char_p, ctypes.c_size_t, ctypes.c_size_t, ctypes.c_void_p, ctypes.c_size_t]
        self.size = 0
        self.grow(4096)

    def grow(self, room):
        if room + 2 * self.EDGE > self.size:
            self.size = 2 * room + 2 * self.EDGE
            self.held = ctypes.create_string_buffer(self.size)
            self.at = ctypes.addressof(self.held)
            self.fill = FILL * self.size

    def called(self, sheet, row, room):
        """The four numbers, out and what stands around it."""
        self.grow(room)
        size = room + 2 * self.EDGE
        ctypes.memmove(self.at, self.fill, size)
        a = self.visible_text(sheet, len(sheet), row, self.at + self.EDGE, room)
        return [a.number, a.second, a.visits, a.length], ctypes.string_at(self.at, size)


class Comparison:
    """What was compared so far."""

    def __init__(self, path):
        self.library = Library(path)
        self.edge = FILL * Library.EDGE
        self.sheets = self.rows = self.longer = 0
        self.count = {}

    def call(self, sheet, page, refused, row, room):
        numbers, out = answered(page, refused, row, FILL * room)
        got = self.library.called(sheet, row, room)
        if got != (numbers, self.edge + out + self.edge):
            shown = "%r, row %d into %d bytes: %r %r, and not %r %r"
            raise Difference(shown % (sheet[:5000], row, room, got[0], got[1][:500], numbers, out[:500]))
        self.count[numbers[0]] = self.count.get(numbers[0], 0) + 1

    def sheet(self, sheet, rows, short=16):
        page, refused = read(sheet)
        for row in rows:
            lengths = rooms(page, refused, row, 1)
            if not refused and row < len(page.kind):
                text, need = visible(page, row)
                self.longer += need > len(text)
                lengths = range(need + 3) if need <= short else lengths
            for room in lengths:
                self.call(sheet, page, refused, row, room)
            self.rows += 1
        self.sheets += 1

    def said(self):
        numbers = ", ".join("%d with %d" % (n, k) for k, n in sorted(self.count.items()))
        return "%d sheets, %d rows asked, %d needs above the length; %d calls: %s" % (
            self.sheets, self.rows, self.longer, sum(self.count.values()), numbers)


def asked(r, n):
    """All of n rows or thirty of them, the first past them, and others that are not there."""
    rows = range(n) if n <= 30 else sorted(r.sample(range(n), 30))
    return [*rows, n, n + 1, r.choice([20000, 2**31, 2**32, 2**63, 2**64 - 1, r.randrange(2**64)])]


def by_chance(count, seed):
    for number in range(count):
        r = random.Random("%d %d" % (seed, number))
        if number % 7 == 6:
            sheet = marks.any_sheet(r)
        else:
            sheet = any_sheet(r, r.choice([1, 2, 3, 5, 8, 12, 20, 40] + ([400] if number % 100 == 0 else [])))
        rows = asked(r, int(sheet[:8]))
        if number % 3 == 2:
            yield marks.damaged(r, sheet), r.sample(rows, 3)
        else:
            yield sheet, rows


def compare(path, count, seed):
    c = Comparison(path)
    try:
        for name, made in (("the vectors", sample()), ("large sheets", large()), ("by chance, seed %d" % seed, by_chance(count, seed))):
            before = c.sheets
            for sheet, rows in made:
                c.sheet(sheet, rows)
            print("%s: %d sheets" % (name, c.sheets - before), flush=True)
    except Difference as difference:
        sys.exit("after %s:\n%s" % (c.said(), difference))
    print(c.said() + "; no difference")


def once(f, to):
    """Of cases one behind the other that differ by option line, marks and root alone, the first."""
    before = None
    for case in marks.cases_of(f):
        bare = bytearray(marks.unmarked(case))[9 + marks.DIGITS + 1:]
        bare[24:32] = b"%8d" % 0
        if bare != before:
            to.write(b"%8d\n" % len(case) + case)
        before = bare


def main():
    mode, args = sys.argv[1] if len(sys.argv) > 1 else "", sys.argv[2:]
    if mode == "vectors":
        write_vectors(args[0])
    elif mode == "answers":
        for c in unframed(sys.stdin.buffer):
            sys.stdout.buffer.writelines(answers(*c))
    elif mode == "once":
        once(sys.stdin.buffer, sys.stdout.buffer)
    elif mode == "compare":
        compare(args[0], *map(int, args[1:] + ["20000", "1"][len(args) - 1:]))
    else:
        sys.exit(__doc__)


if __name__ == "__main__":
    main()
