#!/usr/bin/env python3
"""The inverse of `escape` as a reference, by change request 5 (document 02), with regular expressions; nothing here was taken from the
crates. A text and a lent out give four numbers and out afterwards.

Use: unescape.py vectors: writes tests/vectors/unescape.in and unescape.out.
unescape.py answers < calls > answers: what must come back.
unescape.py compare LIBRARY [COUNT [SEED]]: levzhada_unescape of a shared library (oracle/unescape.sh makes it) beside the reference: on all
short texts of some alphabets, on names that are damaged in every way, and on COUNT texts by chance. Every byte of out is compared, and the
bytes on both sides of it. Where a text is accepted `html.unescape` must give its characters too. That reading back undoes `escape`, and
where `escape` undoes reading back, is asked of the library alone.

A call: two numbers in 8 columns and LF, the lengths of out and of the text; then the text. Each byte of out is `#` before it. An answer: a
line with the four numbers, then the bytes of out and LF."""
import ctypes
import html
import itertools
import os
import random
import re
import sys

HERE = os.path.dirname(os.path.abspath(__file__))
VECTORS = os.path.join(HERE, "..", "tests", "vectors")
FILL = b"#"

# ---- change request 5: "the four names become their characters, all else is copied"

CHARACTERS = {b"&amp;": b"&", b"&quot;": b'"', b"&lt;": b"<", b"&gt;": b">"}
NAMES = list(CHARACTERS)
NAME = re.compile(b"|".join(NAMES))


def no_entity(text):
    """Where the first ampersand stands that starts none of the four names."""
    for ampersand in re.finditer(rb"&", text):
        if not NAME.match(text, ampersand.start()):
            return ampersand.start()
    return None


def characters(text):
    return NAME.sub(lambda name: CHARACTERS[name.group()], text)


def unescape(text, out):
    """The four numbers, and out afterwards."""
    at = no_entity(text)
    if at is not None:
        return [51, at, 0, 0], out
    shown = characters(text)
    if len(out) < len(shown):
        return [52, len(shown), 0, 0], out
    return [0, 0, 0, len(shown)], shown + bytes(len(out) - len(shown))


# the same by one expression over the whole text
ACCEPTED = re.compile(rb"(?:[^&]|&(?:amp|quot|lt|gt);)*")


def escape(text):
    return re.sub(rb"[&\"<>]", lambda c: NAMES[b"&\"<>".index(c.group())], text)


# ---- calls and answers


def framed(room, text):
    return b"%8d%8d\n" % (room, len(text)) + text


def unframed(f):
    while head := f.read(17):
        yield int(head[:8]), f.read(int(head[8:16]))


def answer(room, text):
    numbers, out = unescape(text, FILL * room)
    return b"%d %d %d %d\n" % tuple(numbers) + out + b"\n"


# ---- texts

# what is no name of ours, though some of it is one of HTML
OTHERS = rb"""&amp &AMP; &#38; &apos; & &; && &&amp; &#; &#x26; &#X26; &#39; &#34; &#60; &#62; &nbsp; &copy; &Amp; &LT; &Quot; &QUOT; &GT;
    &lt &gt &quot &lt= &lt< &ltt; &llt; &lt: &lt,; &quo &quote; &qout; &am;p; &amp&amp; &amp&lt; &;lt; &lt&; &t; &a; &amps; &l&lt; &#lt;
    &ampamp;""".split()
SPACED = [b"& lt;", b"&lt ;", b"&l t;", b"& ", b" & ", b"&\0lt;", b"&lt\0;", b"&lt\n;", b"&lt ", b"&amp b", b"&\xc3\xa9;", b"&lt\xef\xbc"]
# what is accepted
SOUND = rb"""&quot;&lt;&gt;&amp; a&amp;b &amp;lt; &amp;gt; &amp;quot; &amp;amp; &amp;amp;lt; &amp;amp;amp; &amp;#38; &amp;#x26; &amp;apos;
    &amp;nbsp; lt; amp; ; amp;&lt; &lt;; &lt;lt; <p>"a"</p> a<b a>b a"b <&lt;> "&quot;" </> <>" '""".split()
BLANKS = [b"", b" ", b"\0", b"\n&gt;\n", b" \t &lt; \r ", b"a  b", b"&lt;\0&gt;", b"\xef\xbc\x86lt;", b"\xff&lt;\x80\xc3"]
# what is refused behind something else
LATER = [b"&amp;&x;", b"aaaa&", b"&lt;&gt;&", b"&amp;&amp;&x;&y;", b"\xc3\xa9&", b"\xff\x80&lt", b"<&", b"&quot;\0&amp", b"&amp;amp;&amp"]


def damages(name):
    """A name with one byte less, twice, in the other case, another, and all of its beginnings."""
    for k in range(len(name)):
        yield name[:k]
        yield name[:k] + name[k + 1:]
        yield name[:k + 1] + name[k:]
        yield name[:k] + name[k:k + 1].swapcase() + name[k + 1:]
        for bit in (1, 2, 4, 128):
            yield name[:k] + bytes([name[k] ^ bit]) + name[k + 1:]
    yield from (name.upper(), name.title(), name[:-1] + b" ", name[:-1] + b":", name + name[1:], name[:-1] + name, b"&" + name, name + b"&")


def texts():
    """The sample of tests/vectors, some of it twice."""
    yield from NAMES + SOUND + BLANKS + OTHERS + SPACED + LATER
    for one, other in itertools.product(NAMES, NAMES):
        yield one + other
        yield one + other[1:]
        yield one + b"a" + other[:-1]
    # out is filled by names alone
    for name in NAMES:
        for count in (2, 3, 7, 8, 9, 17, 50):
            yield name * count
    for name in NAMES:
        for damaged in damages(name):
            yield damaged
            yield name + damaged + b"x"
    for b in range(256):
        yield b"&lt;" + bytes([b]) + b"&gt;"
    # a name, a name that the end cuts short and an ampersand, at each place of eight
    for at in range(18):
        plain = b"abcdefghijklmnopq"[:at]
        for name in NAMES:
            yield plain + name
            yield plain + name + b"rstuvwxyz"
            yield plain + name[:-1]
        yield plain + b"&"
        yield plain + b"&rstuvwxyz&lt;"
        yield escape(plain + b"\"<&>") + plain + b"&"
    r = random.Random(5)
    for _ in range(600):
        yield any_text(r, r.choice([1, 2, 4, 8]))


def rooms(text, more):
    """Lengths of out: none, one too few, enough and more; around the text's own length where it is refused."""
    need = len(characters(text) if no_entity(text) is None else text)
    return sorted({0, max(need - 1, 0), need, need + more})


def write_vectors():
    sample = list(dict.fromkeys(texts()))
    calls = [(room, text) for text in sample for room in rooms(text, 3)]
    with open(os.path.join(VECTORS, "unescape.in"), "wb") as f:
        f.write(b"".join(framed(*c) for c in calls))
    with open(os.path.join(VECTORS, "unescape.out"), "wb") as f:
        f.write(b"".join(answer(*c) for c in calls))
    print(len(sample), "texts,", len(calls), "calls")


PLAIN = b"abcdefghijklmnopqrstuvwxyz 0123456789 amplquotg;;"
UTF8 = "aé日\U0001f600 \u00a0\u2028ß".encode()


def run(r, most):
    """Bytes without an ampersand."""
    length, k = r.randrange(most + 1), r.random()
    if k < 0.4:
        return bytes(r.choice(PLAIN) for _ in range(length))
    if k < 0.6:
        return bytes(r.choice(b'<>" ;ab') for _ in range(length))
    if k < 0.7:
        return (UTF8 * 3)[:length]
    if k < 0.8:
        return bytes(r.choice(b"\0\x01%'\xa6\xa5\x80\xff") for _ in range(length))
    return r.randbytes(length).replace(b"&", b"%")


def any_text(r, pieces):
    made, faults = [], r.choice([0, 0, 0.05, 0.3])
    for _ in range(pieces):
        k = r.random()
        if k < faults:
            made.append(r.choice([b"&", r.choice(OTHERS), r.choice(list(damages(r.choice(NAMES))))]))
        elif k < 0.5:
            made.append(r.choice(NAMES) * r.choice([1, 1, 1, 2, 5]))
        elif k < 0.9:
            made.append(run(r, r.choice([1, 8, 40])))
        else:
            made.append(escape(r.randbytes(r.randrange(20))))
    return b"".join(made)


# ---- the library beside it


class Answer(ctypes.Structure):
    _fields_ = [(name, ctypes.c_size_t) for name in ("number", "second", "visits", "length")]


class Difference(Exception):
    pass


class Library:
    EDGE = 64

    def __init__(self, path):
        library = ctypes.CDLL(path)
        self.unescape, self.escape = library.levzhada_unescape, library.levzhada_escape
        for f in (self.unescape, self.escape):
            f.restype, f.argtypes = Answer, [ctypes.c_char_p, ctypes.c_size_t, ctypes.c_void_p, ctypes.c_size_t]
        self.size = 0
        self.grow(4096)

    def grow(self, room):
        if room + 2 * self.EDGE > self.size:
            self.size = 2 * room + 2 * self.EDGE
            self.held = ctypes.create_string_buffer(self.size)
            self.at = ctypes.addressof(self.held)
            self.fill = FILL * self.size

    def called(self, f, text, room):
        """The four numbers, out and what stands around it."""
        self.grow(room)
        size = room + 2 * self.EDGE
        ctypes.memmove(self.at, self.fill, size)
        a = f(text, len(text), self.at + self.EDGE, room)
        return [a.number, a.second, a.visits, a.length], ctypes.string_at(self.at, size)


class Comparison:
    """What was compared so far."""

    def __init__(self, path):
        self.library = Library(path)
        self.edge = FILL * Library.EDGE
        self.count = dict.fromkeys("texts accepted bare calls 0 51 52".split(), 0)

    def call(self, text, room):
        numbers, out = unescape(text, FILL * room)
        got = self.library.called(self.library.unescape, text, room)
        if got != (numbers, self.edge + out + self.edge):
            raise Difference("%r into %d bytes: %r %r, and not %r %r" % (text[:200], room, *got, numbers, out))
        self.count["calls"] += 1
        self.count[str(numbers[0])] += 1

    def read_back(self, text, escaped, wanted):
        """What `escape` writes of a text is `escaped` or, where that is not wanted, something else; read back it is the text."""
        numbers, out = self.library.called(self.library.escape, text, 6 * len(text))
        out = out[Library.EDGE:Library.EDGE + numbers[3]]
        if (out == escaped) != wanted:
            raise Difference("escape of %r: %r, beside %r" % (text[:200], out[:200], escaped[:200]))
        numbers, after = self.library.called(self.library.unescape, out, len(out))
        if numbers != [0, 0, 0, len(text)] or after[Library.EDGE:][:len(text)] != text:
            raise Difference("escape of %r, read back: %r %r" % (text[:200], numbers, after))

    def text(self, text, short=16):
        accepted = no_entity(text) is None
        assert accepted == bool(ACCEPTED.fullmatch(text))
        need = len(characters(text) if accepted else text)
        for room in range(need + 3) if len(text) <= short else rooms(text, 1):
            self.call(text, room)
        self.count["texts"] += 1
        self.read_back(text, escape(text), True)
        if accepted:
            # every text as characters one by one, and as UTF-8 where it is
            shown, bare = characters(text), any(c in text for c in (b'"', b"<", b">"))
            for encoding in ("latin-1", "utf-8"):
                try:
                    by_html = html.unescape(text.decode(encoding)).encode(encoding)
                except UnicodeDecodeError:
                    continue
                if by_html != shown:
                    raise Difference("html.unescape of %r: %r, and not %r" % (text[:200], by_html, shown))
            self.read_back(shown, text, not bare)
            self.count["accepted"] += 1
            self.count["bare"] += bare

    def said(self):
        c = self.count
        return "%d texts, %d of them accepted, %d of these with a bare character; %d calls, %d accepted, %d with 51, %d with 52" % (
            c["texts"], c["accepted"], c["bare"], c["calls"], c["0"], c["51"], c["52"])


def all_of(alphabet, most):
    for length in range(most + 1):
        for text in itertools.product(alphabet, repeat=length):
            yield bytes(text)


def damaged_in_every_way():
    for name in NAMES:
        yield from damages(name)
        for k in range(len(name)):
            for b in range(256):
                for text in (name[:k] + bytes([b]) + name[k + 1:], name[:k] + bytes([b]) + name[k:]):
                    yield text
                    yield b"&amp;x" + text + b"lt;"
        # every byte behind a name, and behind its beginnings
        for k in range(1, len(name) + 1):
            for b in range(256):
                yield name[:k] + bytes([b])


def at_every_place():
    """Each name and beginning of one at each of 70 offsets, the text's end behind it and up to 17 bytes away."""
    for at in range(70):
        for name in NAMES:
            for k in range(1, len(name) + 1):
                for behind in (0, 1, 2, 7, 8, 9, 17):
                    yield b"<" * at + name[:k] + b"y" * behind
                    yield b"&quot;" * (at % 9) + b"z" * at + name[:k] + b"\xa6" * behind


def long():
    for name in NAMES:
        yield name * 200000
        yield name * 200000 + b"&"
        yield name[:-1] + name * 200000
    for plain in (b"a", b"\0", b"\xff", b'"'):
        yield plain * (1 << 20)
        yield plain * (1 << 20) + b"&gt;"
        yield plain * (1 << 20) + b"&gt"


def compare(path, count, seed):
    c = Comparison(path)
    r = random.Random(seed)
    try:
        for name, made in [
                ("texts of up to 7 bytes & l t ; <", all_of(b"&lt;<", 7)),
                ("texts of up to 7 bytes & a m p ;", all_of(b"&amp;", 7)),
                ("texts of up to 5 bytes & a m p ; g q", all_of(b"&amp;gq", 5)),
                ("texts of up to 6 bytes & q u o t ;", all_of(b"&quot;", 6)),
                ("texts of up to 2 bytes", all_of(range(256), 2)),
                ("names, damaged", damaged_in_every_way()),
                ("names at every place", at_every_place()),
                ("long texts", long()),
                ("the vectors", texts()),
                ("by chance, seed %d" % seed, (any_text(r, r.choice([0, 1, 2, 3, 4, 6, 10, 10, 20, 60])) for _ in range(count)))]:
            before = c.count["texts"]
            for text in made:
                c.text(text)
            print("%s: %d" % (name, c.count["texts"] - before), flush=True)
    except Difference as difference:
        sys.exit("after %s:\n%s" % (c.said(), difference))
    print(c.said() + "; no difference")


def main():
    mode, args = sys.argv[1] if len(sys.argv) > 1 else "", sys.argv[2:]
    if mode == "vectors":
        write_vectors()
    elif mode == "answers":
        for c in unframed(sys.stdin.buffer):
            sys.stdout.buffer.write(answer(*c))
    elif mode == "compare":
        compare(args[0], *map(int, args[1:] + ["100000", "1"][len(args) - 1:]))
    else:
        sys.exit(__doc__)


if __name__ == "__main__":
    main()
