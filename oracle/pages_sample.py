#!/usr/bin/env python3
"""Use: pages_sample.py CANDIDATES COUNTS PROGRAM SAMPLE
Of the candidates, which cases a sample needs: small ones first, each that meets something new. Something is a region or a
condition of html2text.rs and filters.rs (oracle/coverage.py), a word of a list, an answer of a pattern or of the link measure, a
kind of entry in a kind of state of `serialize`, an option line. COUNTS are the counters that PROGRAM, built with counters, wrote
for the candidates. SAMPLE is written: tests/vectors/replay.in."""
import sys

import coverage
import difference
import pages
import reference

# 16,384 bytes is the most that document 01's program reads; out and work are as long
MOST = 16384
# a longer case is worth its bytes for a branch of the Rust or for one of these
USUAL, LONG = 1400, 3200
WORTH = {"limit", "ratio", "nested", "nearer body", "block", "row", "answer", "html2text.rs", "filters.rs"}

# ---- what a case meets, told by the definitions as they run

MET = set()


def told(name, tell):
    """What a definition answers, and of what."""
    inner = getattr(reference, name)

    def outer(*args):
        said = inner(*args)
        MET.update(tell(said, *args))
        return said

    setattr(reference, name, outer)


def asked(name, tell):
    """What a definition is asked of, before it goes on."""
    inner = getattr(reference, name)

    def outer(*args):
        MET.update(tell(*args))
        return inner(*args)

    setattr(reference, name, outer)


def few(n):
    return min(n, 2)


def text_class(s):
    if not s:
        return "empty"
    if not reference.struck(s):
        return "blank"
    return ("blank first" if reference.is_space(s[0]) else "", "blank last" if reference.is_space(s[-1]) else "", "bytes" if max(s) > 127 else "")


def step_met(f, bullets, n, text, S):
    prefix = "" if not S.prefix else "number" if S.prefix[-2:] == b". " else "bullet"
    yield "entry", f, n.tag, n.end, n.has_children, n.pre_depth > 0, n.block
    yield "html", f, bullets, n.tag, n.end, few(S.depth), few(S.margins)
    yield "text", f, bullets, n.block, n.collapse_margins, n.escape, few(n.pre_depth), text_class(text), few(S.margins)
    yield "lead", f, bullets, few(S.depth), S.bullet, prefix, text_class(text) == "empty"
    yield "out", f, n.tag, S.text == b"", reference.ends_blank(S.text), S.margins > 0
    yield "row", f, reference.is_cell(n.tag), n.end, text_class(text) == "empty", few(len(S.row_has_cell)), bool(S.row_has_cell) and S.row_has_cell[-1], reference.ends_blank(S.text), S.text == b""
    yield "list", f, bullets, n.tag if n.tag in (3, 4, 5) else 0, n.end, few(S.depth), few(reference.number_of(S)), S.bullet


def event_met(o, nodes, e):
    t = reference.tag_number(e.node)
    yield "event", t, e.end, e.children, o.formatting, o.links and t in (0, 37), o.form_fields and t in (38, 41, 42), o.alt_texts and t in (39, 40), e.node.kind
    if t in (37, 39, 40, 42):
        for name in ("href", "alt", "value", "placeholder", "type"):
            value = reference.attribute(e.node.attributes, name.encode())
            yield "attribute", o.formatting, t, e.end, name, value is None, value is not None and text_class(value)
    if o.missing_alt and t in (39, 40):
        alt, last = reference.attribute(e.node.attributes, b"alt"), nodes[-1].node if nodes else None
        yield "missing alt", o.formatting, o.alt_texts, t, e.end, e.children, alt is None or text_class(alt)
        if o.alt_texts and alt is None:
            yield "missing alt", o.formatting, o.links, last and (last.tag, last.end, last.pre_depth > 0)


def cluster_met(said, p, rule, i):
    total = reference.text_bytes(p, i)
    links = reference.link_bytes(p, i)
    limit = rule[1]
    fifths = 1 if rule[0] < 0.5 else 3
    yield "cluster", rule, said, links == 0, total == 0
    if limit and abs(total - limit) < 2:
        yield "limit", rule, total - limit, 5 * links > fifths * total
    once = sum(reference.text_bytes(p, j) for j in p.below(i) if reference.is_link_node(p.node[j]) and not reference.is_link_node(p.node[p.parent[j]]))
    if total:
        yield "nested", rule, 5 * links > fifths * total, 5 * once > fifths * total
    if abs(5 * links - fifths * total) <= 5:
        yield "ratio", rule, (5 * links > fifths * total) - (5 * links < fifths * total)


def main_met(said, p, o, i, depth):
    n = p.node[i]
    if n.kind == reference.ELEMENT:
        yield "main", n.name if n.name in NAMES else b"", min(depth, 6), said
        if p.depths[i] != depth:
            yield "nearer body", n.name if n.name in NAMES else b"", min(depth, 6), said
        yield "options", o.comments, o.post_meta, o.hidden_elements, said
    else:
        text = reference.trim(n.value)
        yield "icon", said, o.icons, min(len(text), 5), text[0] >> 4 if text else 0, text != n.value
        if len(text) == 3:
            yield "bytes", said, o.icons, text[0] in (0xE2, 0xEE, 0xEF) and text[0], text[1] in (0x80, 0xA3, 0xA4) and text[1], text[2] in (0x80, 0xBF) and text[2]
        if len(text) == 4 and text[0] in (0xF3, 0xF4):
            yield "bytes", said, o.icons, text[0], text[1] in (0x80, 0x8F, 0xAF, 0xB0, 0xBF) and text[1], text[2] == 0xBF, text[3] > 0xBC and text[3]


def block_met(said, o, cluster, depth, name, attributes, class_, id_):
    role = reference.trim(reference.attr_of(attributes, "role"))
    yield "block", said, reference.rel_main(attributes), role == b"main", min(depth, 3)


def watch():
    asked("step", step_met)
    asked("collect", event_met)
    told("link_cluster", cluster_met)
    told("is_main_content", main_met)
    told("by_block", block_met)
    told("one_of", lambda said, s, ws: [("word", ws[0], len(ws), s if said else None)])
    told("is_", lambda said, s, w: [("is", w, said)])
    told("finds", lambda said, name, s: [("finds", name, said, len(s) == 0)])
    told("has_attr", lambda said, attributes, name: [("has", name, said)])
    told("attr_among", lambda said, attributes, name, values: [("among", name, reference.trim(reference.attr_of(attributes, name)) if said else None)])


NAMES = set(reference.TAG_NAMES) | set(b"th body audio video time span".split())


def met_by_definitions(case):
    MET.clear()
    answer = reference.answer(case, MOST, MOST)
    p, o = reference.Page(case[reference.LINE:]), reference.Options(case)
    MET.add(("answer", int(answer[:8])))
    MET.add(("line", case[:9]))
    MET.add(("root", p.root > 0, p.marked[p.root], o.main_content, any(p.marked), reference.is_body(p.node[p.root])))
    return answer, set(MET)


def agreed(sample, by_rust, answers):
    """The Rust and the definitions say the same of every case, but for icons 1 and missing_alt 1, which the Rust has not, and 31 and 32."""
    cases, rust, said = (f(open(name, "rb").read()) for f, name in zip((difference.split_cases,) + (difference.split_answers,) * 2, (sample, by_rust, answers)))
    same = 0
    for c, a, b in zip(cases, rust, said):
        if int(a[:8]) == 33 and b"1" in c[9:11] or int(b[:8]) in (31, 32):
            continue
        if a != b:
            sys.exit("the Rust and the definitions differ on %r: %r, %r" % (c, a, b))
        same += 1
    assert len(cases) == len(rust) == len(said)
    print("%d answers are the Rust's, %d the definitions' alone" % (same, len(cases) - same))


def inputs():
    """Inputs with a wrong option line, and two of the greatest length that the program takes."""
    right = pages.STANDING.encode() + b"\n"
    for at in range(12):
        yield right[:at]
    sheet = pages.written("<p>a</p><img/>")
    for at in range(12):
        for byte in b"/:" + (b"13" if at == 0 else b"12" if at < 11 else b"\r "):
            yield right[:at] + bytes([byte]) + right[at + 1:] + sheet
    # ten digits, with the sheet behind its LF or behind another byte, and twelve
    for line in (right[:10] + b"\n", right[:10] + b"\n0", right[:10] + b"\n\n", right[:11] + b"0\n"):
        yield line + sheet
    yield b"0" * MOST
    text = b"a" * (MOST - len(right) - 33 - 65 * 2 - 4)
    yield right + b"%8d%8d%8d%8d\n" % (2, 0, 4 + len(text), 0) + b"%8d" * 8 % (0, 1, 0, 0, 4, 0, 0, 0) + b"\n" + b"%8d" * 8 % (1, 3, 0, 0, 0, 4, len(text), 0) + b"\nbody" + text


def add_inputs(sample):
    with open(sample, "ab") as f:
        for case in inputs():
            f.write(b"%8d\n" % len(case) + case)


def main():
    if sys.argv[1] == "--inputs":
        return add_inputs(sys.argv[2])
    if sys.argv[1] == "--agreed":
        return agreed(*sys.argv[2:5])
    candidates, counts, program, sample = sys.argv[1:5]
    cases = difference.split_cases(open(candidates, "rb").read())
    program = coverage.Program(program)
    watch()
    shown = pages.DOCUMENT + pages.PRIVATE + pages.MISSING + pages.QUIRKS
    always = set(difference.split_cases(b"".join(pages.framed(o, pages.written(m)) for o, m, _ in shown)))
    always |= set(pages.long_pages())
    found = []
    for case, moved in zip(cases, coverage.read_counts(open(counts, "rb").read())):
        if case in always or len(case) <= LONG:
            found.append((case not in always, len(case), case, moved))
    # a case that meets more for its length comes first among those of its size
    found.sort(key=lambda f: (f[0], f[1] // 200))
    chosen, seen, size = [], {}, 0
    for kept, length, case, moved in found:
        _, met = met_by_definitions(case)
        met |= set(program.met(moved))
        new = [m for m in met if m not in seen and (length <= USUAL or m[0] in WORTH)]
        if new or not kept:
            for m in met:
                seen[m] = seen.get(m, 0) + 1
            chosen.append(case)
            size += len(case) + 9
    # the same pages with icons 1, where a text is judged in a way not met yet, and with missing_alt 1, where an alt is read in such a way
    for at, kinds in ((9, ("icon", "bytes")), (10, ("missing alt",))):
        for _, length, case, _ in found:
            if length <= 600 and (at == 10 or case[1:2] == b"1") and case[9:11] == b"00":
                other = case[:at] + b"1" + case[at + 1:]
                _, met = met_by_definitions(other)
                if any(m not in seen for m in met if m[0] in kinds):
                    for m in met:
                        seen[m] = seen.get(m, 0) + 1
                    chosen.append(other)
                    size += len(other) + 9
    print("%d of %d cases, %d bytes, %d things met" % (len(chosen), len(cases), size, len(seen)))
    with open(sample, "wb") as f:
        for case in chosen:
            f.write(b"%8d\n" % len(case) + case)


if __name__ == "__main__":
    main()
