#!/usr/bin/env python3
"""Writes tests/vectors/questions.in and questions.out: a sheet of a page with nested and childless rows, attributes of one name
twice, and the answers to the single-row questions, read off the page's nested lists and not off the sheet."""
import os

BODY = ("body", [("class", "top"), ("id", "")], [
    ("ul", [], [
        ("li", [("class", "a b")], ["one"]),
        ("li", [("id", "x"), ("class", "first"), ("class", "second")], []),
        "  ",
        ("li", [("Class", "upper"), ("title", "t")], [("a", [("href", "u"), ("id", "n")], ["two", ("b", [], ["three"])]), "four"]),
    ]),
    None,
    ("table", [], [("tr", [], [("td", [("class", "−")], []), ("td", [], ["0.4"])])]),
    "tail",
])

rows, attributes, pool, answers = [], [], b"", []


def put(text):
    global pool
    at = len(pool)
    pool += text.encode()
    return [at, len(text.encode())]


def relative(row):
    return "0 0 0, " if row is None else "0 %d 1, " % row


def walk(node, depth, parent):
    """Adds a node and what is below it; a str is a text, None a comment."""
    row = len(rows)
    if node is None or isinstance(node, str):
        rows.append([depth, 3 if node is not None else 8, 0, 0, 0] + put(node or "note") + [0])
        answers.append([relative(parent), relative(None), None, "none, ", "none, "])
        return row
    name, attrs, children = node
    rows.append([depth, 1, 0] + put(name) + [0, 0, len(attrs)])
    asked = {"class": "none, ", "id": "none, "}
    for key, value in attrs:
        k, v = put(key), put(value)
        attributes.append(k + v)
        if asked.get(key) == "none, ":
            asked[key] = "0 %d %d, " % tuple(v)
    answers.append([relative(parent), None, None, asked["class"], asked["id"]])
    below = [walk(child, depth + 1, row) for child in children]
    answers[row][1] = relative(below[0] if below else None)
    for child, following in zip(below, below[1:] + [None]):
        answers[child][2] = relative(following)
    return row


walk(BODY, 0, None)
answers[0][2] = relative(None)
answers.append(["35 %d 0, " % len(rows)] * 5)
line = lambda numbers: "".join("%8d" % n for n in numbers).encode() + b"\n"
sheet = b"".join(map(line, [[len(rows), len(attributes), len(pool), 0]] + rows + attributes)) + pool
here = os.path.join(os.path.dirname(os.path.abspath(__file__)), "..", "tests", "vectors")
open(os.path.join(here, "questions.in"), "wb").write(sheet)
open(os.path.join(here, "questions.out"), "w").write("".join("".join(a) + "\n" for a in answers))
print(len(rows), "rows,", len(sheet), "bytes")
