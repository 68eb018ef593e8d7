#!/usr/bin/env python3
"""Writes tests/vectors/verdicts.in and verdicts.out: sheets damaged in each way that document 01 names under 11 to 17, each
with the number and the second number that the document fixes, written here by hand beside the damage."""
import os

ELEMENT, TEXT, COMMENT = 1, 3, 8


class Page:
    """A small sheet: body (class, id), p in it, a text, a comment, a table row with a cell."""

    def __init__(self):
        self.pool = b""
        self.nodes, self.attributes = [], []
        self.root = 0
        self.element(0, b"body", [(b"class", b"c"), (b"id", b"d")])
        self.element(1, b"p", [(b"title", "é".encode())])
        self.leaf(2, TEXT, "a−b".encode())
        self.leaf(1, COMMENT, b"note")
        self.element(1, b"tr", [])
        self.element(2, b"td", [])
        self.leaf(3, TEXT, b"")

    def put(self, s):
        at = len(self.pool)
        self.pool += s
        return [at, len(s)]

    def element(self, depth, name, attributes):
        self.nodes.append([depth, ELEMENT, 0] + self.put(name) + [0, 0, len(attributes)])
        for n, v in attributes:
            self.attributes.append(self.put(n) + self.put(v))

    def leaf(self, depth, kind, value):
        self.nodes.append([depth, kind, 0, 0, 0] + self.put(value) + [0])

    def header(self):
        return [len(self.nodes), len(self.attributes), len(self.pool), self.root]

    def bytes(self, header=None):
        line = lambda numbers: "".join("%8d" % n for n in numbers).encode() + b"\n"
        lines = [header or self.header()] + self.nodes + self.attributes
        return b"".join(map(line, lines)) + self.pool


CASES = []


def case(expected, sheet):
    CASES.append((expected, sheet))


def damaged(expected, damage):
    page = Page()
    damage(page)
    case(expected, page.bytes())


def cut(expected, damage):
    case(expected, damage(Page().bytes()))


def patch(s, at, new):
    return s[:at] + new + s[at + len(new):]


N, A, P = Page().header()[:3]
SIZE = 33 + 65 * N + 33 * A + P
node = lambda i: 33 + 65 * i
attribute = lambda j: 33 + 65 * N + 33 * j

case((0, 0), Page().bytes())
# 11: short, then the header, then the length
case((11, 33), b"")
cut((11, 33), lambda s: s[:32])
cut((11, SIZE), lambda s: s[:33])
cut((11, SIZE), lambda s: s[:-1])
cut((11, SIZE), lambda s: s + b"x")
# 12: the header's fields and line end; a field's forms
cut((12, 0), lambda s: patch(s, 32, b" "))
cut((12, 0), lambda s: patch(s, 0, b"      07"))
cut((12, 0), lambda s: patch(s, 0, b"      -7"))
cut((12, 0), lambda s: patch(s, 0, b"      +7"))
cut((12, 0), lambda s: patch(s, 0, b"     7 0"))
cut((12, 0), lambda s: patch(s, 0, b"7       "))
cut((12, 0), lambda s: patch(s, 0, b"        "))
cut((12, 0), lambda s: patch(s, 24, b"      00"))
cut((12, 0), lambda s: patch(s, 24, b"       x"))
# 13: counts and root
counts = lambda *h: case((13, 0), Page().bytes(list(h)))
counts(0, A, P, 0)
counts(20001, A, P, 0)
counts(N, 60001, P, 0)
counts(N, A, 4194305, 0)
counts(N, A, P, N)
case((11, 33 + 65 * 20000 + 33 * 60000 + 4194304), Page().bytes([20000, 60000, 4194304, 19999]))
# 12: node and attribute lines, the first one at fault
cut((12, 1), lambda s: patch(s, node(0) + 64, b" "))
cut((12, N), lambda s: patch(s, node(N - 1) + 64, b"0"))
cut((12, N + 1), lambda s: patch(s, attribute(0) + 32, b"\r"))
cut((12, N + A), lambda s: patch(s, attribute(A - 1) + 32, b"0"))
for k in range(8):
    cut((12, 3), lambda s: patch(s, node(2) + 8 * k, b"      01"))
for k in range(4):
    cut((12, N + 2), lambda s: patch(s, attribute(1) + 8 * k, b"       a"))
cut((12, 2), lambda s: patch(patch(s, node(1), b"       -"), node(4), b"        "))
# 15: kinds
damaged((15, 3), lambda p: p.nodes[2].__setitem__(1, 2))
damaged((15, 3), lambda p: p.nodes[2].__setitem__(1, 0))
damaged((15, 5), lambda p: p.nodes[4].__setitem__(2, 2))
damaged((15, 3), lambda p: p.nodes[2].__setitem__(4, 1))
damaged((15, 3), lambda p: p.nodes[2].__setitem__(7, 1))
damaged((15, 4), lambda p: p.nodes[3].__setitem__(4, 1))
damaged((15, 4), lambda p: p.nodes[3].__setitem__(7, 1))
damaged((15, 2), lambda p: p.nodes[1].__setitem__(6, 1))
damaged((0, 0), lambda p: p.nodes[3].__setitem__(2, 1))
# 14: row 0, depths, parents, the root
damaged((14, 1), lambda p: p.nodes[0].__setitem__(0, 1))
damaged((14, 1), lambda p: p.nodes[0].__setitem__(4, 3))
damaged((14, 1), lambda p: p.nodes[0].__setitem__(3, P))
damaged((14, 1), lambda p: p.nodes[0].__setitem__(3, 99999999))
damaged((14, 2), lambda p: p.nodes[1].__setitem__(0, 0))
damaged((14, 2), lambda p: p.nodes[1].__setitem__(0, 2))
damaged((14, 6), lambda p: p.nodes[5].__setitem__(0, 3))
damaged((14, 5), lambda p: p.nodes[4].__setitem__(0, 3))
damaged((14, 5), lambda p: p.nodes[4].__setitem__(0, 2))
damaged((14, 4), lambda p: p.nodes[3].__setitem__(0, 3))
damaged((14, 7), lambda p: p.nodes[6].__setitem__(0, 501))


def text_row_0(p):
    p.nodes[0][1:8] = [TEXT, 0, 0, 0, 0, 4, 0]


damaged((14, 1), text_row_0)
damaged((14, 0), lambda p: setattr(p, "root", 3))
damaged((14, 0), lambda p: setattr(p, "root", 2))
damaged((0, 0), lambda p: setattr(p, "root", 4))





def deep(depth):
    """Elements one below the other down to that depth."""
    p = Page()
    for d in range(1, depth + 1):
        p.element(d, b"b", [])
    return p.bytes()


case((0, 0), deep(500))
case((14, N + 501), deep(501))

# 16: ranges, then counts
damaged((16, 3), lambda p: p.nodes[2].__setitem__(6, P - p.nodes[2][5] + 1))
damaged((0, 0), lambda p: p.nodes[1].__setitem__(5, P))
damaged((16, 2), lambda p: p.nodes[1].__setitem__(5, P + 1))
damaged((16, 7), lambda p: p.nodes[6].__setitem__(5, P + 1))
damaged((16, 5), lambda p: p.nodes[4].__setitem__(3, P - 1))
damaged((16, N + 1), lambda p: p.attributes[0].__setitem__(0, P))
damaged((16, N + 3), lambda p: p.attributes[2].__setitem__(3, 99999999))
damaged((16, 0), lambda p: p.nodes[1].__setitem__(7, 0))
damaged((16, 0), lambda p: p.nodes[1].__setitem__(7, 99999999))


# 17: each class of RFC 3629 error, in a name, a value and an attribute
def bad(where, octets):
    p = Page()
    if where == "name":
        p.nodes[4][3:5] = p.put(octets)
        line = 5
    elif where == "value":
        p.nodes[2][5:7] = p.put(octets)
        line = 3
    else:
        p.attributes[1][2:4] = p.put(octets)
        line = N + 2
    case((17, line), p.bytes())


for octets in [b"\xE2\x82", b"\xC3", b"\xF0\x9F\x98", b"\xC0\x80", b"\xE0\x9F\xBF", b"\xF0\x8F\xBF\xBF", b"\xED\xA0\x80", b"\xF4\x90\x80\x80", b"a\x80", b"\xFF"]:
    for where in ["name", "value", "attribute"]:
        bad(where, octets)


# two faults at once: the earlier stage is told, and in a stage the first line
def both(expected, *damages):
    p = Page()
    for f in damages:
        f(p)
    case(expected, p.bytes())


kind = lambda p: p.nodes[5].__setitem__(2, 7)
tree = lambda p: p.nodes[1].__setitem__(0, 0)
ranges = lambda p: p.nodes[1].__setitem__(3, P)
attribute_range = lambda p: p.attributes[0].__setitem__(0, P)
sums = lambda p: p.nodes[4].__setitem__(7, 1)
text = lambda p: p.nodes[2].__setitem__(5, p.nodes[2][5] + 2)
root = lambda p: setattr(p, "root", 3)
both((15, 6), kind, tree, ranges, text)
both((14, 2), tree, ranges, text, root)
both((14, 0), root, ranges, text)
both((16, 2), ranges, attribute_range, sums)
both((16, N + 1), attribute_range, sums, text)
both((16, 0), sums, text)
both((17, 3), text)


def main():
    here = os.path.join(os.path.dirname(os.path.abspath(__file__)), "..", "tests", "vectors")
    with open(os.path.join(here, "verdicts.in"), "wb") as f:
        for _, sheet in CASES:
            f.write(b"%8d\n" % len(sheet) + sheet)
    with open(os.path.join(here, "verdicts.out"), "w") as f:
        for (number, second), _ in CASES:
            f.write("%d %d\n" % (number, second))
    print(len(CASES), "sheets,", os.path.getsize(os.path.join(here, "verdicts.in")), "bytes")


main()
