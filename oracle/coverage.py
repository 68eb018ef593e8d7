#!/usr/bin/env python3
"""What the counters of a Rust program built with `-C instrument-coverage` count: the regions and conditions of html2text.rs and
filters.rs, read from the program's own sections (LLVM's "Code Coverage Mapping Format", version 7, and __llvm_prf_data).
Use: coverage.py PROGRAM COUNTS: of the counts that oracle/rust/coverage/main.rs wrote, which regions and conditions were not met."""
import hashlib
import struct
import sys
import zlib

FILES = ("html2text.rs", "filters.rs")


def sections(data):
    at, size, count, names = struct.unpack_from("<Q", data, 0x28)[0], *struct.unpack_from("<HHH", data, 0x3A)
    heads = [struct.unpack_from("<IIQQQQ", data, at + size * i) for i in range(count)]
    strings = heads[names][4]
    name = lambda h: data[strings + h[0]:data.index(b"\0", strings + h[0])].decode()
    return {name(h): (h[3], data[h[4]:h[4] + h[5]]) for h in heads}


class Bytes:
    def __init__(self, data):
        self.data, self.at = data, 0

    def number(self):
        n = shift = 0
        while True:
            b = self.data[self.at]
            self.at += 1
            n |= (b & 0x7F) << shift
            shift += 7
            if b < 0x80:
                return n


def file_names(covmap):
    """The names that a record's reference, the hash of their bytes, stands for."""
    found, at = {}, 0
    while at + 16 <= len(covmap):
        _, size, _, version = struct.unpack_from("<IIII", covmap, at)
        assert version == 6, version  # that is version 7: they count from 0
        blob = covmap[at + 16:at + 16 + size]
        b = Bytes(blob)
        count, plain, packed = b.number(), b.number(), b.number()
        b = Bytes(zlib.decompress(blob[b.at:b.at + packed]) if packed else blob[b.at:b.at + plain])
        names = []
        for _ in range(count):
            n = b.number()
            names.append(b.data[b.at:b.at + n].decode())
            b.at += n
        found[int.from_bytes(hashlib.md5(blob).digest()[:8], "little")] = names
        at += (16 + size + 7) // 8 * 8
    return found


class Program:
    """`points`: (file, what, place) and how it is counted: for a region a counter, for a condition two."""

    def __init__(self, name):
        data = open(name, "rb").read()
        parts = sections(data)
        counters_at = parts["__llvm_prf_cnts"][0]
        base = {}
        at, records = parts["__llvm_prf_data"]
        for k in range(0, len(records), 64):
            ref, _, relative = struct.unpack_from("<QQQ", records, k)
            base[ref] = ((at + k + relative - counters_at) % 2**64) // 8
        names = file_names(parts["__llvm_covmap"][1])
        self.points = {}
        records, at = parts["__llvm_covfun"][1], 0
        while at + 28 <= len(records):
            ref, size, _, files = struct.unpack_from("<QIQQ", records, at)
            self.function(base.get(ref), Bytes(records[at + 28:at + 28 + size]), names[files])
            at += (28 + size + 7) // 8 * 8

    def function(self, base, b, names):
        files = [names[b.number()] for _ in range(b.number())]
        expressions = [(b.number(), b.number()) for _ in range(b.number())]

        def counter(code):
            tag, n = code & 3, code >> 2
            if tag == 0 or base is None:
                return ()
            if tag == 1:
                return ((base + n, 1),)
            left, right = (counter(c) for c in expressions[n])
            return left + tuple((c, f if tag == 3 else -f) for c, f in right)

        for file in files:
            line = 0
            for _ in range(b.number()):
                code, kind, counts = b.number(), "region", None
                if code & 3:
                    counts = (counter(code),)
                elif code & 4:
                    kind = None
                else:
                    kind = {0: "region", 4: "condition"}.get(code >> 3)
                    if code >> 3 == 4:
                        counts = (counter(b.number()), counter(b.number()))
                    elif code >> 3 == 5:
                        b.number(), b.number()
                    elif code >> 3 == 6:
                        for _ in range(5):
                            b.number()
                    counts = counts or ((),)
                line += b.number()
                first, lines, last = b.number(), b.number(), b.number()
                name = file.split("/")[-1]
                if kind and name in FILES and not last >> 31:
                    for k, c in enumerate(counts):
                        what = kind if kind == "region" else "condition %s" % ("true" if k == 0 else "false")
                        self.points.setdefault((name, line, first, line + lines, last, what), []).append(c)

    def met(self, counts):
        """The points that were met, by the counts of one case."""
        for point, ways in self.points.items():
            if any(sum(f * counts.get(c, 0) for c, f in way) > 0 for way in ways):
                yield point


def read_counts(data):
    at = 0
    while at < len(data):
        n = struct.unpack_from("<I", data, at)[0]
        pairs = struct.unpack_from("<%dI" % (2 * n), data, at + 4)
        yield dict(zip(pairs[::2], pairs[1::2]))
        at += 4 + 8 * n


def main():
    program = Program(sys.argv[1])
    met, total = set(), {}
    for counts in read_counts(open(sys.argv[2], "rb").read()):
        for c, n in counts.items():
            total[c] = total.get(c, 0) + n
    met = set(program.met(total))
    for point in sorted(program.points):
        if point not in met:
            print("not met: %s %d:%d to %d:%d, %s" % point)
    print("%d of %d regions and conditions met" % (len(met), len(program.points)))


if __name__ == "__main__":
    main()
