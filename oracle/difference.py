#!/usr/bin/env python3
"""Use: difference.py CASES BY-RUST BY-READER RUST-COMMAND READER-COMMAND TO
Tells the first case on which the answers differ, makes it smaller as long as they do, writes it to TO, and ends with 1. The Rust has no bound on
list levels and open rows: where the reader says 21 or 22, oracle/reference.py must say so too."""
import subprocess
import sys

import reference


def split_cases(data):
    cases, at = [], 0
    while at < len(data):
        n = int(data[at:at + 8])
        cases.append(data[at + 9:at + 9 + n])
        at += 9 + n
    return cases


def split_answers(data):
    answers, at = [], 0
    while at < len(data):
        number, length = int(data[at:at + 8]), int(data[at + 24:at + 32])
        end = at + 33 + (length + 1 if number == 0 else 0)
        answers.append(data[at:end])
        at = end
    return answers


def differ(case, rust, reader):
    if rust == reader:
        return False
    if int(reader[:8]) in (21, 22) and int(rust[:8]) == 0:
        return reader != reference.answer(case)
    return True


# ---- a case as a list of rows, and back


class Rows:
    def __init__(self, case):
        self.options = case[:reference.LINE - 1]
        p = reference.Page(case[reference.LINE:])
        kinds = {reference.ELEMENT: 1, reference.TEXT: 3, reference.COMMENT: 8}
        self.root = p.root
        self.rows = [[d, kinds[n.kind], int(m), n.name if n.kind == reference.ELEMENT else b"", n.value, list(n.attributes)]
                     for d, n, m in zip(p.depths, p.node, p.marked)]

    def copy(self):
        other = object.__new__(Rows)
        other.options, other.root = self.options, self.root
        other.rows = [r[:5] + [list(r[5])] for r in self.rows]
        return other

    def case(self):
        pool, nodes, attributes = bytearray(), [], []

        def put(s):
            pool.extend(s)
            return [len(pool) - len(s), len(s)]

        for depth, kind, skip, name, value, attrs in self.rows:
            nodes.append([depth, kind, skip] + put(name) + put(value) + [len(attrs)])
            for n, v in attrs:
                attributes.append(put(n) + put(v))
        line = lambda numbers: b"".join(b"%8d" % n for n in numbers) + b"\n"
        return self.options + b"\n" + b"".join(map(line, [[len(nodes), len(attributes), len(pool), self.root]] + nodes + attributes)) + bytes(pool)

    def past(self, i):
        j = i + 1
        while j < len(self.rows) and self.rows[j][0] > self.rows[i][0]:
            j += 1
        return j

    def smaller(self):
        """Cases that are one step smaller, the greatest steps first."""
        for i in range(1, len(self.rows)):
            end = self.past(i)
            if not i <= self.root < end:
                other = self.copy()
                del other.rows[i:end]
                other.root -= end - i if self.root >= end else 0
                yield other
        for i in range(1, len(self.rows)):
            if i != self.root and self.past(i) > i + 1:
                other = self.copy()
                for r in other.rows[i:self.past(i)]:
                    r[0] -= 1
                del other.rows[i]
                other.root -= self.root > i
                yield other
        if self.root:
            other = self.copy()
            other.root = 0
            yield other
        for i, r in enumerate(self.rows):
            for k in range(len(r[5])):
                other = self.copy()
                del other.rows[i][5][k]
                yield other
            if r[2]:
                other = self.copy()
                other.rows[i][2] = 0
                yield other
        for k, (digit, standing) in enumerate(zip(self.options, b"10110011000")):
            if digit != standing:
                other = self.copy()
                other.options = self.options[:k] + bytes([standing]) + self.options[k + 1:]
                yield other
        for i, r in enumerate(self.rows):
            for s in shorter(r[4]):
                other = self.copy()
                other.rows[i][4] = s
                yield other
            if r[1] == 1 and i and r[3] not in (b"b", b""):
                other = self.copy()
                other.rows[i][3] = b"b"
                yield other
            for k, (n, v) in enumerate(r[5]):
                for s in shorter(v):
                    other = self.copy()
                    other.rows[i][5][k] = (n, s)
                    yield other

    def __str__(self):
        names = "formatting main_content list_bullets alt_texts links form_fields comments post_meta hidden_elements icons missing_alt"
        lines = ["options %s (%s), root row %d" % (self.options.decode(), names, self.root)]
        for i, (depth, kind, skip, name, value, attrs) in enumerate(self.rows):
            shown = {1: "<%s%s>" % (name.decode(), "".join(" %s=%r" % (n.decode(), v.decode()) for n, v in attrs)), 3: repr(value.decode()), 8: "<!--%s-->" % value.decode()}[kind]
            lines.append("%4d %s%s%s" % (i, "  " * depth, shown, " (marked)" if skip else ""))
        return "\n".join(lines)


def shorter(s):
    text = s.decode()
    if text:
        yield b""
    if len(text) > 3:
        yield text[:len(text) // 2].encode()
        yield text[len(text) // 2:].encode()
    if len(text) <= 40:
        for k in range(len(text)):
            yield (text[:k] + text[k + 1:]).encode()


def answers_of(command, cases):
    data = b"".join(b"%8d\n" % len(c) + c for c in cases)
    return split_answers(subprocess.run(command.split(), input=data, stdout=subprocess.PIPE, check=True).stdout)


def shrunk(rows, rust, reader):
    while True:
        steps = list(rows.smaller())
        for at in range(0, len(steps), 500):
            part = steps[at:at + 500]
            cases = [s.case() for s in part]
            found = [s for s, c, a, b in zip(part, cases, answers_of(rust, cases), answers_of(reader, cases)) if differ(c, a, b)]
            if found:
                rows = found[0]
                break
        else:
            return rows


def write(case, to):
    with open(to, "wb") as f:
        f.write(b"%8d\n" % len(case) + case)
    print("the case stands in %s" % to)
    sys.exit(1)


def main():
    files, (rust, reader, to) = sys.argv[1:4], sys.argv[4:7]
    cases, by_rust, by_reader = (f(open(name, "rb").read()) for f, name in zip((split_cases, split_answers, split_answers), files))
    if not len(cases) == len(by_rust) == len(by_reader):
        print("%d cases, %d answers of the Rust, %d of the reader" % (len(cases), len(by_rust), len(by_reader)))
        sys.exit(1)
    for i, (c, a, b) in enumerate(zip(cases, by_rust, by_reader)):
        if not differ(c, a, b):
            continue
        print("case %d of %s differs" % (i, files[0]))
        if {int(a[:8]), int(b[:8])} & set(range(11, 18)):
            print("of a wrong sheet: %s, %s" % (a[:32].decode(), b[:32].decode()))
            write(c, to)
        rows = Rows(c)
        small = rows.case()
        if differ(small, answers_of(rust, [small])[0], answers_of(reader, [small])[0]):
            rows = shrunk(rows, rust, reader)
            c = rows.case()
            a, b = answers_of(rust, [c])[0], answers_of(reader, [c])[0]
        else:
            print("only with its own pool:")
        print(rows)
        for name, said in (("Rust:  ", a), ("reader:", b)):
            print("the %s %s %r" % (name, said[:32].decode(), said[33:-1].decode("utf-8", "replace")))
        write(c, to)


if __name__ == "__main__":
    main()
