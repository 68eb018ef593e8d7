#!/usr/bin/env python3
"""The definitions of crates/{text,tags,tree,links,patterns,filters,html2text}/specs, word for word in Python, to be run beside
the Rust: that the two agree says that the definitions mean what html2text.rs and filters.rs do. Nothing here was taken from the
Rust. The patterns are read from crates/patterns/specs/Patterns.antt; which character is private use is asked of Python's table of
Unicode (general category Co).

Use: reference.py [--program] [--out N] [--work N] [--laws] < cases > answers      (cases and answers as in oracle/rust/src/cases.rs)
--program: what document 01's program prints, 33 and 34 too. --out, --work: the lengths of the lent buffers (none: long enough). --laws: the theorems on pages are tried on each case too.
reference.py --needs < cases: the numbers of each without buffers, and with the work that is needed (as oracle/driver.c has it).
Sheets must be accepted ones."""
import os
import re
import sys
import unicodedata
from fractions import Fraction

sys.setrecursionlimit(100000)

# ---- crates/text/specs/Text.antt


def is_ascii_whitespace(c):
    return c == 0x09 or c == 0x0A or c == 0x0C or c == 0x0D or c == 0x20


def is_space(c):
    return is_ascii_whitespace(c) or c == 0x0B


def trim_start(s):
    i = 0
    while i < len(s) and is_space(s[i]):
        i += 1
    return s[i:]


def rstrip(s):
    n = len(s)
    while n > 0 and is_space(s[n - 1]):
        n -= 1
    return s[:n]


def trim(s):
    return rstrip(trim_start(s))


def collapse(s):
    out, space = bytearray(), False
    for c in s:
        blank = is_space(c)
        if not blank:
            out.append(c)
        elif not space:
            out.append(0x20)
        space = blank
    return bytes(out)


def struck(s):
    return bytes(c for c in s if not is_space(c))


def escape(s):
    names = {0x26: b"&amp;", 0x22: b"&quot;", 0x3C: b"&lt;", 0x3E: b"&gt;"}
    return b"".join(names.get(c) or bytes([c]) for c in s)


# ---- crates/tags/specs/{Words,Tags}.antt


def words(line):
    return line.encode().split(b" ")


def is_(s, word):
    return s == word.encode()


def one_of(s, ws):
    return s in ws


BLOCK = words("address article aside blockquote br center details dd dt div dl fieldset figcaption figure footer form h1 h2 h3 h4 h5 h6 header hgroup hr li main nav ol p pre section table tr ul")


def is_block(name):
    return one_of(name, BLOCK)


TAG_NAMES = words("tr td ul ol li pre br h1 h2 h3 h4 h5 h6 p address article aside blockquote center details dd dt div dl fieldset figcaption figure footer form header hgroup hr main nav section table a textarea img area button input")


def tag_of(name):
    name = b"td" if is_(name, "th") else name
    return TAG_NAMES.index(name) + 1 if name in TAG_NAMES else 0


def name_of(t):
    return TAG_NAMES[t - 1]


is_tr = lambda t: t == 1
is_cell = lambda t: t == 2
is_ul = lambda t: t == 3
is_ol = lambda t: t == 4
is_list = lambda t: is_ul(t) or is_ol(t)
is_li = lambda t: t == 5
is_pre = lambda t: t == 6
is_br = lambda t: t == 7
is_heading_or_p = lambda t: 8 <= t and t <= 14
is_big_block = lambda t: (8 <= t and t <= 11) or t == 14
is_block_tag = lambda t: is_tr(t) or (3 <= t and t <= 36)
is_a = lambda t: t == 37
is_textarea = lambda t: t == 38
is_image = lambda t: t == 39 or t == 40
is_button = lambda t: t == 41
is_input = lambda t: t == 42


# ---- crates/options/specs/{Options,Line}.antt

OFF, BASIC, MINIMAL_HTML = 0, 1, 2
# the digits and LF
LINE = 12


class Options:
    def __init__(self, line):
        digits = [b - 48 for b in line[:LINE - 1]]
        self.formatting = digits[0]
        names = "main_content list_bullets alt_texts links form_fields comments post_meta hidden_elements icons missing_alt".split()
        for name, digit in zip(names, digits[1:]):
            setattr(self, name, digit == 1)


# ---- crates/tree/specs/{Node,Page,Rows,TextContent}.antt

ELEMENT, TEXT, COMMENT = "element", "text", "comment"


class Node:
    def __init__(self, kind, name, value, attributes):
        self.kind, self.name, self.value, self.attributes = kind, name, value, attributes


def tag(n):
    return n.name if n.kind == ELEMENT else b""


# the first of that name; None where it is absent, which is not an empty one
def attribute(attributes, name):
    for a, value in attributes:
        if a == name:
            return value
    return None


def is_there(value):
    return value is not None


# for a caller that does not ask whether it is there
def or_empty(value):
    return value if is_there(value) else b""


def attribute_or_empty(attributes, name):
    return or_empty(attribute(attributes, name))


class Page:
    """`pageOf` of an accepted sheet."""

    def __init__(self, sheet):
        number = lambda at: int(sheet[at:at + 8])
        n, a, _, self.root = (number(8 * k) for k in range(4))
        pool = sheet[33 + 65 * n + 33 * a:]
        shown = lambda at: pool[number(at):number(at) + number(at + 8)]
        kinds = {1: ELEMENT, 3: TEXT}
        self.depths, self.node, self.marked = [], [], []
        used = 0
        for i in range(n):
            line = 33 + 65 * i
            count = number(line + 56)
            lines = [33 + 65 * n + 33 * j for j in range(used, used + count)]
            used += count
            self.depths.append(number(line))
            self.marked.append(number(line + 16) == 1)
            self.node.append(Node(kinds.get(number(line + 8), COMMENT), shown(line + 24), shown(line + 40), [(shown(l), shown(l + 16)) for l in lines]))
        # "A row's parent is the last earlier row one depth less"
        self.parent, last = [], {}
        for i, d in enumerate(self.depths):
            self.parent.append(last.get(d - 1))
            last[d] = i

    def scan(self, d, j):
        """The first row at depth d from row j on, before any that is less deep."""
        while j < len(self.depths):
            if self.depths[j] < d:
                return None
            if self.depths[j] == d:
                return j
            j += 1
        return None

    def first_child(self, i):
        return self.scan(self.depths[i] + 1, i + 1)

    def next_sibling(self, i):
        return self.scan(self.depths[i], i + 1)

    def build(self, j, d):
        """`build`: the trees at depth d from row j on, as a list of (row, children); a list in the place of `Forest`."""
        trees = []
        k = self.scan(d, j)
        while k is not None:
            trees.append((k, self.build(k + 1, d + 1)))
            k = self.next_sibling(k)
        return trees

    def children(self, i):
        return self.build(i + 1, self.depths[i] + 1)

    def below(self, i):
        """`preorder (childrenOf depths i)`"""
        j = i + 1
        while j < len(self.depths) and self.depths[j] > self.depths[i]:
            yield j
            j += 1

    def text_content(self, i):
        if self.node[i].kind != ELEMENT:
            return self.node[i].value
        return b"".join(self.node[j].value for j in self.below(i) if self.node[j].kind == TEXT)


# ---- crates/links/specs/Links.antt


def is_link_node(n):
    return is_(tag(n), "a")


def text_bytes(p, i):
    return len(collapse(p.text_content(i)))


def link_bytes(p, i):
    return sum(text_bytes(p, j) for j in p.below(i) if is_link_node(p.node[j]))


FIFTH_OF_ANY, FIFTH_OF_500 = (1 / 5, 0), (1 / 5, 500)
THREE_FIFTHS_OF_800, THREE_FIFTHS_OF_1500 = (3 / 5, 800), (3 / 5, 1500)
EXACT = {1 / 5: Fraction(1, 5), 3 / 5: Fraction(3, 5)}


def link_cluster(p, rule, i):
    ratio, limit = rule
    if p.node[i].kind != ELEMENT:
        return False
    total = text_bytes(p, i)
    if 0 < limit and limit < total:
        return False
    if total == 0:
        return False
    links = link_bytes(p, i)
    if links == 0:
        return False
    yes = ratio < links / total
    assert yes == (EXACT[ratio] < Fraction(links, total))
    return yes


# ---- crates/patterns/specs/Patterns.antt, read as it stands; crates/byte_regex/specs/{Regex,Match,Joined}.antt


def read_patterns():
    here = os.path.dirname(os.path.abspath(__file__))
    source = open(os.path.join(here, "..", "crates", "patterns", "specs", "Patterns.antt"), encoding="utf-8").read()
    source = re.sub(r"(?m)^\s*--.*$", "", source)
    known = {
        "at_start": rb"\A", "at_end": rb"\Z", "blank": rb"[\t\n\v\f\r ]", "blanks": rb"[\t\n\v\f\r ]*", "dash": rb"[-_]", "dashes": rb"[-_]*",
        "separator": rb"[\t\n\v\f\r \-_]", "hex_digits": rb"[0-9a-fA-F]+",
    }

    def letter(c):
        return b"[" + c.encode() + c.upper().encode() + b"]" if "a" <= c <= "z" else re.escape(c).encode()

    def expression(tokens):
        ways = [sequence(tokens)]
        while tokens and tokens[0] == "or":
            tokens.pop(0)
            ways.append(sequence(tokens))
        return b"(?:" + b"|".join(ways) + b")"

    def sequence(tokens):
        parts = [part(tokens)]
        while tokens and tokens[0] == "then":
            tokens.pop(0)
            parts.append(part(tokens))
        return b"".join(parts)

    def part(tokens):
        token = tokens.pop(0)
        if token == "(":
            inside = expression(tokens)
            assert tokens.pop(0) == ")"
            return inside
        if token == "optional":
            return b"(?:" + part(tokens) + b")?"
        if token == "word":
            return b"".join(letter(c) for c in tokens.pop(0)[1:-1])
        if token == "exact":
            return re.escape(tokens.pop(0)[1:-1]).encode()
        return known[token]

    for name, body in re.findall(r"(?m)^abbrev pub (\w+) : Regex\n\1 =((?:\n?[ \t].*)+)", source):
        tokens = re.findall(r'"[^"]*"|[()]|\w+', body)
        known[name] = expression(tokens)
        assert not tokens
    order = re.search(r"(?m)^patterns =((?:\n[ \t].*)+)", source).group(1)
    names = [t for t in re.findall(r"\w+", order)]
    assert len(names) == 21
    return {name: re.compile(known[name]) for name in names}


PATTERNS = read_patterns()


def finds(pattern, s):
    return len(s) > 0 and PATTERNS[pattern].search(s) is not None


def joined(class_, id_):
    return id_ if class_ == b"" else class_ + b" " + id_


# ---- crates/filters/specs/Icon.antt


def is_icon(icons, text):
    if icons:
        characters = text.decode()
        return characters == "\u00b6" or len(characters) == 1 and unicodedata.category(characters) == "Co"
    if text == b"\xc2\xb6":
        return True
    if len(text) != 3:
        return False
    a, b, c = text
    return 0x8080EE <= a + 256 * b + 65536 * c <= 0xBFA3EF


# ---- crates/filters/specs/Footer.antt


def is_body(n):
    return is_(tag(n), "body")


def body_above(p, i):
    for _ in range(p.depths[i]):
        if is_body(p.node[i]) or p.parent[i] is None:
            return i
        i = p.parent[i]
    return i


def content_follows(p, next_):
    return next_ is not None and (p.node[next_].kind != TEXT or p.next_sibling(next_) is not None)


def followed(p, i):
    for _ in range(p.depths[i]):
        parent = p.parent[i]
        if parent is None:
            return False
        if is_body(p.node[parent]):
            return False
        if content_follows(p, p.next_sibling(i)):
            return True
        i = parent
    return False


# ---- crates/filters/specs/Filters.antt


def has_attr(attributes, name):
    return is_there(attribute(attributes, name.encode()))


def attr_of(attributes, name):
    return attribute_or_empty(attributes, name.encode())


def attr_among(attributes, name, values):
    return one_of(trim(attr_of(attributes, name)), words(values))


def hidden_by_attribute(attributes):
    return (has_attr(attributes, "hidden") or attr_among(attributes, "rel", "author icon search prev next tag")
            or attr_among(attributes, "itemprop", "datePublished author url") or attr_among(attributes, "aria-hidden", "true")
            or attr_among(attributes, "aria-expanded", "false"))


def not_displayed(hidden_elements, class_, style):
    return (not hidden_elements and finds("display_cls", class_)) or finds("display_css", style)


def skip_link(name, combined):
    return one_of(name, words("a div li")) and finds("skip_link_cls", combined)


def signin_meta_or_social(post_meta, depth, class_):
    return 2 < depth and (finds("signin_cls", class_) or (not post_meta and finds("post_meta_cls", class_)) or finds("social_cls", class_))


def ad_attribute(attributes):
    return has_attr(attributes, "data-ad") or has_attr(attributes, "data-advertisement") or has_attr(attributes, "data-text-ad")


def logo_or_ad(attributes, class_, combined):
    return finds("logo_cls", combined) or finds("ads_cls", combined) or ad_attribute(attributes) or finds("other_junk_cls", class_)


def not_block(name):
    return not is_block(name) and not is_(name, "td")


def rel_main(attributes):
    return attr_among(attributes, "rel", "main")


def role_outside(attributes):
    return attr_among(attributes, "role", "alert banner checkbox comment complementary contentinfo dialog img menu menubar menuitem navigation presentation radio search searchbox separator tab toolbar tooltip")


def comment_section(comments, combined):
    return not comments and finds("comments_cls", combined)


def article(name, combined):
    return is_(name, "article") or finds("article_cls", combined)


def landmark(id_, combined):
    return (finds("landmark_id", id_) or finds("header_cls", combined) or finds("footer_cls", combined) or finds("nav_cls", combined)
            or finds("recommended_cls", combined) or finds("search_cls", combined) or finds("sidebar_cls", combined)
            or finds("modal_cls", combined) or finds("gallery_cls", combined) or finds("print_cls", combined))


def by_block(o, cluster, depth, name, attributes, class_, id_):
    if rel_main(attributes):
        return True
    if role_outside(attributes):
        return False
    if comment_section(o.comments, joined(class_, id_)):
        return False
    if article(name, joined(class_, id_)):
        return True
    if landmark(id_, joined(class_, id_)):
        return False
    return not (2 < depth and is_(name, "div") and cluster(THREE_FIFTHS_OF_1500))


def by_class_and_id(o, cluster, depth, name, attributes, class_, id_):
    if skip_link(name, joined(class_, id_)):
        return False
    if signin_meta_or_social(o.post_meta, depth, class_):
        return False
    if logo_or_ad(attributes, class_, joined(class_, id_)):
        return False
    if not_block(name):
        return True
    return by_block(o, cluster, depth, name, attributes, class_, id_)


def by_attributes(o, cluster, depth, name, attributes):
    class_, id_ = attr_of(attributes, "class"), attr_of(attributes, "id")
    if hidden_by_attribute(attributes):
        return False
    if not_displayed(o.hidden_elements, class_, attr_of(attributes, "style")):
        return False
    if class_ == b"" and id_ == b"":
        return not is_(name, "div") or depth <= 5 or not cluster(THREE_FIFTHS_OF_800)
    return by_class_and_id(o, cluster, depth, name, attributes, class_, id_)


def by_name(p, o, i, depth, name, attributes):
    cluster = lambda rule: link_cluster(p, rule, i)
    if one_of(name, words("body main h1")):
        return True
    if is_(name, "footer"):
        return False if depth < 3 or cluster(FIFTH_OF_ANY) else followed(p, i)
    if is_(name, "ul") and (depth < 4 or cluster(FIFTH_OF_ANY)):
        return False
    if is_(name, "article") and 2 < depth and cluster(FIFTH_OF_500):
        return False
    if one_of(name, words("nav aside audio video time")):
        return False
    return by_attributes(o, cluster, depth, name, attributes)


def is_main_content(p, o, i, depth):
    n = p.node[i]
    if n.kind == TEXT:
        return not is_icon(o.icons, trim(n.value))
    if n.kind == COMMENT:
        return True
    return by_name(p, o, i, depth, n.name, n.attributes)


def filter_depth(p, i):
    return max(0, p.depths[i] - p.depths[body_above(p, p.root)])


def filtered(p, o, i):
    return o.main_content and not is_main_content(p, o, i, filter_depth(p, i))


# ---- crates/html2text/specs/Collect.antt


class Event:
    def __init__(self, row, node, children, depth, end):
        self.row, self.node, self.children, self.depth, self.end = row, node, children, depth, end


class ExtractNode:
    FIELDS = "tag has_children depth pre_depth collapse_margins block big_block end escape".split()

    def __init__(self, **fields):
        for name in self.FIELDS:
            setattr(self, name, fields[name])

    def but(self, **fields):
        return ExtractNode(**{name: fields.get(name, getattr(self, name)) for name in self.FIELDS})

    def key(self):
        return tuple(getattr(self, name) for name in self.FIELDS)


class Entry:
    def __init__(self, row, node, text):
        self.row, self.node, self.text = row, node, text

    def key(self):
        return self.row, self.node.key(), self.text


def tag_number(n):
    return tag_of(tag(n))


# an absent one reads as empty
def attr(n, name):
    return attribute_or_empty(n.attributes, name.encode())


def last_pre_depth(nodes):
    return nodes[-1].node.pre_depth if nodes else 0


def is_link(o, t):
    return o.links and is_a(t)


def pushes_after(o, last, t, depth):
    return (is_block_tag(t) or depth < last) or (is_link(o, t) or (is_textarea(t) or is_cell(t)))


# entries are held oldest first here, and newest first in the definition
def pushes(o, nodes, e):
    return not nodes or pushes_after(o, nodes[-1].node.depth, tag_number(e.node), e.depth)


def pre_depth(t, end, before):
    if is_pre(t) or is_textarea(t):
        return max(0, before - 1) if end else before + 1
    return before


def pushed_node(o, before, e):
    t = tag_number(e.node)
    return ExtractNode(tag=t, has_children=e.children, depth=e.depth, pre_depth=pre_depth(t, e.end, before), collapse_margins=True,
                       block=is_block_tag(t), big_block=is_big_block(t), end=e.end, escape=o.formatting == MINIMAL_HTML)


def pushed(o, nodes, e):
    return Entry(e.row, pushed_node(o, last_pre_depth(nodes), e), b"")


def is_break(o, t):
    return o.formatting == BASIC and is_br(t)


def marked(o, t, n):
    return n.but(collapse_margins=n.collapse_margins and not is_break(o, t), block=n.block and not is_link(o, t),
                 escape=n.escape and not (o.formatting == MINIMAL_HTML and is_link(o, t)))


def link_text(f, end, href):
    if f == MINIMAL_HTML:
        return b"</a>" if end else b'<a href="' + escape(trim(href)) + b'">'
    return b" (" + trim(href) + b")" if end else b""


def is_unshown_type(s):
    return one_of(s, words("checkbox color file hidden radio reset"))


def field_value(n):
    return attr(n, "placeholder") if trim(attr(n, "value")) == b"" else attr(n, "value")


# what stands for an alt that is absent
def missing_alt(on):
    return b"[picture]" if on else b""


def alt_text(o, n):
    alt = attribute(n.attributes, b"alt")
    return alt if is_there(alt) else missing_alt(o.missing_alt)


def added_by_element(o, n, end):
    t = tag_number(n)
    if is_break(o, t):
        return b""
    if is_link(o, t):
        return link_text(o.formatting, end, attr(n, "href"))
    if o.alt_texts and is_image(t):
        return alt_text(o, n)
    if o.form_fields and (is_textarea(t) or is_button(t)):
        return b" ] " if end else b"[ "
    if o.form_fields and is_input(t) and not is_unshown_type(trim(attr(n, "type"))):
        return b"" if trim(field_value(n)) == b"" else b"[ " + trim(field_value(n)) + b" ] "
    return b""


def added(o, n, end, current):
    if n.kind == ELEMENT:
        return added_by_element(o, n, end)
    if n.kind == TEXT:
        return escape(n.value) if o.formatting == MINIMAL_HTML and is_a(current) else n.value
    return b""


def amended(o, e, n):
    return Entry(n.row, marked(o, tag_number(e.node), n.node), n.text + added(o, e.node, e.end, n.node.tag))


def collect(o, nodes, e):
    """In place."""
    if pushes(o, nodes, e):
        nodes.append(pushed(o, nodes, e))
    nodes[-1] = amended(o, e, nodes[-1])


def collect_all(o, es):
    nodes = []
    for e in es:
        collect(o, nodes, e)
    return nodes


# ---- crates/html2text/specs/Walk.antt


class Walk:
    def __init__(self, p, o):
        self.p, self.o = p, o
        self.known = {}

    def hidden(self, i):
        if i not in self.known:
            self.known[i] = self.p.marked[i] or filtered(self.p, self.o, i)
        return self.known[i]

    def left_out(self, i):
        return self.p.node[i].kind == COMMENT or self.hidden(i)

    def event_at(self, i, children, d, end):
        return Event(i, self.p.node[i], children, d, end)

    # over the tree

    def events(self, d, trees, to):
        for i, children in trees:
            if self.left_out(i):
                continue
            to.append(self.event_at(i, children != [], d, False))
            self.events(d + 1, children, to)
            if children != []:
                to.append(self.event_at(i, True, d, True))
        return to

    def visits(self, trees):
        return sum(1 if self.left_out(i) else 1 + (children != []) + self.visits(children) for i, children in trees)

    def tree(self):
        return [(self.p.root, self.p.children(self.p.root))]

    # as the Rust's loop

    def loop(self):
        p = self.p
        nodes, passes = [], 0
        current, d, end = p.root, 0, False
        for _ in range(2 * len(p.depths)):
            if current is None:
                break
            i = current
            child = p.first_child(i)
            if not self.left_out(i):
                collect(self.o, nodes, self.event_at(i, child is not None, d, end))
            passes += 1
            end = self.left_out(i) or end
            if not end and child is not None:
                current, d, end = child, d + 1, False
            elif i == p.root:
                current, end = None, True
            elif p.next_sibling(i) is not None:
                current, end = p.next_sibling(i), False
            else:
                current, d, end = p.parent[i], max(0, d - 1), True
        assert current is None
        return nodes, passes


# ---- crates/writer/specs/Out.antt, crates/html2text/specs/Serialize.antt


class State:
    def __init__(self):
        self.text, self.peak = b"", 0
        self.prefix, self.bullet = b"", False
        self.depth, self.margins, self.uncollapsed = 0, 0, 0
        self.numbering, self.row_has_cell = [], []

    def push_all(self, s):
        self.text += s
        self.peak = max(self.peak, len(self.text))

    def strip(self):
        self.text = rstrip(self.text)


def ends_blank(text):
    return len(text) > 0 and is_space(text[-1])


def collapses(off, n):
    return n.pre_depth == 0 or off


def margin(bare, off, S):
    size = S.margins
    if size != 0:
        if bare:
            S.strip()
        if len(S.text) != 0:
            S.push_all(b" " if off else b"\n" * size)
    S.margins = 0


def rows(n, S):
    if is_tr(n.tag):
        if n.end:
            S.row_has_cell = S.row_has_cell[:max(0, len(S.row_has_cell) - 1)]
        else:
            S.row_has_cell = S.row_has_cell + [False]


def between(off, S):
    if off:
        if not (len(S.text) == 0 or ends_blank(S.text)):
            S.push_all(b" ")
    else:
        S.push_all(b"\t\t")


def in_row(off, S):
    if len(S.row_has_cell) != 0:
        if S.row_has_cell[-1]:
            between(off, S)
        S.row_has_cell = S.row_has_cell[:-1] + [True]


def cell(off, n, S):
    if is_cell(n.tag):
        margin(collapses(off, n), off, S)
        in_row(off, S)


def count_uncollapsed(n, S):
    if n.block and not n.collapse_margins:
        S.uncollapsed += 1


def changes_level(t, depth):
    return is_list(t) or (is_li(t) and depth == 0)


def level(n, S):
    if changes_level(n.tag, S.depth):
        if n.end:
            S.depth, S.numbering = max(0, S.depth - 1), S.numbering[:max(0, len(S.numbering) - 1)]
            S.bullet = False
            S.prefix = b""
        else:
            S.depth, S.numbering = S.depth + 1, S.numbering + [int(is_ol(n.tag))]


def number_of(S):
    return S.numbering[-1] if S.numbering else 0


def item(bullets, n, S):
    if bullets and is_li(n.tag):
        number = number_of(S)
        if number == 0:
            S.prefix = b"\xe2\x80\xa2 "
        else:
            if not n.end:
                S.numbering = S.numbering[:-1] + [number + 1]
            S.prefix = b"%d. " % number
        S.bullet = not n.end


def html_item(bullets, n, S):
    if bullets and is_li(n.tag):
        margin(collapses(False, n), False, S)
        if n.end:
            if n.pre_depth == 0:
                S.strip()
            S.push_all(b"</li>\n")
        else:
            S.push_all(b" " * (S.depth * 2))
            S.push_all(b"<li>")
        S.margins = 0


def html_pre(n, S):
    if is_pre(n.tag):
        if n.end:
            S.push_all(b"</pre>")
        else:
            margin(collapses(False, n), False, S)
            S.push_all(b"<pre>")
        S.margins = 0


def html_br(n, S):
    if is_br(n.tag):
        S.push_all(b"<br>")


def html_marks(bullets, n, S):
    html_item(bullets, n, S)
    html_pre(n, S)
    html_br(n, S)


def wants_tag(bullets, n):
    return n.has_children and (is_heading_or_p(n.tag) or (is_list(n.tag) and bullets))


def opens_tag(n, uncollapsed):
    return (not n.end and n.pre_depth == 0) or (0 < uncollapsed and n.collapse_margins)


def tag_margins(n, block, margins):
    size = int(block) + int(n.big_block)
    return max(margins, size) if n.collapse_margins else margins + size


def before_tag(n, block, S):
    if opens_tag(n, S.uncollapsed):
        S.margins = tag_margins(n, block, S.margins)
        margin(collapses(False, n), False, S)
        S.uncollapsed = 0


def tag_out(bullets, n, depth, S):
    opening_list = is_list(n.tag) and not n.end
    if bullets:
        S.push_all(b" " * (max(0, depth - int(opening_list)) * 2))
    S.push_all(b"</" if n.end else b"<")
    S.push_all(name_of(n.tag))
    S.push_all(b">")
    S.push_all(b"\n" if opening_list and n.pre_depth == 0 else b"")


def html_tag(bullets, n, block, S):
    if wants_tag(bullets, n):
        before_tag(n, block, S)
        tag_out(bullets, n, S.depth, S)


def block_after_marks(bullets, n):
    return n.block and not (bullets and is_li(n.tag) and not n.end) and n.pre_depth == 0


def block_after_tag(bullets, n, uncollapsed):
    return not (wants_tag(bullets, n) and opens_tag(n, uncollapsed)) and block_after_marks(bullets, n)


def block_margin(block, n, S):
    if block:
        if n.collapse_margins:
            S.margins = max(S.margins, 2 if n.big_block and n.pre_depth == 0 else 1)
        else:
            S.margins += 2 if n.big_block else 1


def shortened(squeeze, trims, text):
    if squeeze:
        return trim_start(collapse(text)) if trims else collapse(text)
    return text


def indent_text(basic, bullets, S):
    if basic and 0 < S.depth:
        S.push_all(b" " * ((S.depth + int(bullets and not S.bullet)) * 2))
        S.bullet = False


def lead(basic, bullets, S):
    indent_text(basic, bullets, S)
    S.push_all(S.prefix)
    S.prefix = b""


def put_text(off, basic, bullets, n, block, text, S):
    t = shortened(collapses(off, n), block or ends_blank(S.text), text)
    if t != b"":
        margin(collapses(off, n), off, S)
        S.uncollapsed = 0
        lead(basic, bullets, S)
        S.push_all(escape(t) if n.escape else t)


def after_off(bullets, n, text, S):
    block_margin(n.block, n, S)
    put_text(True, False, bullets, n, n.block, text, S)


def after_basic(bullets, n, text, S):
    count_uncollapsed(n, S)
    level(n, S)
    item(bullets, n, S)
    block_margin(n.block, n, S)
    put_text(False, True, bullets, n, n.block, text, S)


def after_html(bullets, n, text, S):
    count_uncollapsed(n, S)
    level(n, S)
    html_marks(bullets, n, S)
    block = block_after_tag(bullets, n, S.uncollapsed)
    html_tag(bullets, n, block_after_marks(bullets, n), S)
    block_margin(block, n, S)
    put_text(False, False, bullets, n, block, text, S)


def step(f, bullets, n, text, S):
    off = f == OFF
    rows(n, S)
    if is_cell(n.tag) and n.end:
        return
    cell(off, n, S)
    (after_off, after_basic, after_html)[f](bullets, n, text, S)


# ---- crates/html2text/specs/Extract.antt


def passes_levels(f, n, S):
    return f != OFF and not n.end and changes_level(n.tag, S.depth) and 1024 <= S.depth


def passes_rows(n, S):
    return is_tr(n.tag) and not n.end and 1024 <= len(S.row_has_cell)


class Refused(Exception):
    pass


def serialized(o, entries, met=None):
    """The state after all entries; 21 or 22 with the line of the first that is refused. `met` is shown the state before each."""
    S = State()
    for e in entries:
        if met:
            met(e, S)
        if passes_levels(o.formatting, e.node, S):
            raise Refused(21, e.row + 1)
        if passes_rows(e.node, S):
            raise Refused(22, e.row + 1)
        step(o.formatting, o.list_bullets, e.node, e.text, S)
    return S


def names_length(n):
    return len(attr(n, "class")) + 1 + len(attr(n, "id")) if n.kind == ELEMENT else 0


def extraction(p, o, out=None, work=None, laws=False):
    """The four numbers and the text."""
    walk = Walk(p, o)
    entries = collect_all(o, walk.events(0, walk.tree(), []))
    passes = walk.visits(walk.tree())
    if laws:
        try_laws(walk, entries, passes)
    need = max([len(e.text) for e in entries] + [0])
    if o.main_content:
        need = max([need] + [names_length(n) for n in p.node])
    try:
        S = serialized(o, entries)
    except Refused as r:
        return list(r.args) + [0, 0], b""
    if work is not None and work < need:
        return [31, need, 0, 0], b""
    if out is not None and out < S.peak:
        return [32, S.peak, 0, 0], b""
    text = rstrip(S.text)
    return [0, 0, passes, len(text)], text


# ---- crates/html2text/specs/{Theorems,Fused,Pieces,Demand,MissingAlt}.antt, tried on one page


def try_laws(walk, entries, passes):
    p, o = walk.p, walk.o
    # WalkOfTree
    nodes, looped = walk.loop()
    assert [e.key() for e in nodes] == [e.key() for e in entries] and looped == passes, "WalkOfTree"
    assert passes <= 2 * len(p.depths), "visits"

    # LevelMet
    def met(e, S):
        if o.formatting != OFF and is_li(e.node.tag):
            depth = S.depth + (1 if changes_level(e.node.tag, S.depth) and not e.node.end else 0)
            depth -= 1 if changes_level(e.node.tag, S.depth) and e.node.end else 0
            assert 1 <= depth, "LevelMet"
        assert S.depth == len(S.numbering), "levels"

    try:
        S = serialized(o, entries, met)
    except Refused:
        return
    text = rstrip(S.text)
    missing_alt_right(walk, S)
    if o.formatting == OFF:
        demand_3(walk, text)


def element_pieces(o, n, end):
    if o.links and is_(n.name, "a"):
        return [b"(" + trim(attr(n, "href")) + b")"] if end else []
    if o.alt_texts and one_of(n.name, words("img area")):
        return [alt_text(o, n)]
    if o.form_fields and one_of(n.name, words("textarea button")):
        return [b"]" if end else b"["]
    if o.form_fields and is_(n.name, "input") and not is_unshown_type(trim(attr(n, "type"))):
        value = trim(attr(n, "placeholder")) if trim(attr(n, "value")) == b"" else trim(attr(n, "value"))
        return [] if value == b"" else [b"[" + value + b"]"]
    return []


def row_pieces(o, n, end):
    return element_pieces(o, n, end) if n.kind == ELEMENT else [n.value] if n.kind == TEXT else []


def pieces(walk, trees, up=()):
    """Each with its row and those above it."""
    for i, children in trees:
        if walk.left_out(i):
            continue
        path = up + (i,)
        yield from ((path, s) for s in row_pieces(walk.o, walk.p.node[i], False))
        yield from pieces(walk, children, path)
        if children != []:
            yield from ((path, s) for s in row_pieces(walk.o, walk.p.node[i], True))


def struck_pieces(ps):
    return b"".join(struck(s) for _, s in ps)


def cells_right(p):
    for i, n in enumerate(p.node):
        if not one_of(tag(n), words("td th")):
            continue
        if p.parent[i] is None or not is_(tag(p.node[p.parent[i]]), "tr"):
            return False
        j = p.next_sibling(i)
        while j is not None:
            m = p.node[j]
            blank = m.kind == TEXT and struck(m.value) == b""
            if not (one_of(tag(m), words("td th")) or m.kind == COMMENT or blank or p.marked[j]):
                return False
            j = p.next_sibling(j)
    return True


def blanks_right(text):
    for i, c in enumerate(text):
        assert not is_space(c) or c == 0x20, "spaces"
        assert i + 2 >= len(text) or not all(is_space(c) for c in text[i:i + 3]), "apart"
    assert not ends_blank(text), "last"


def demand_3(walk, text):
    p, o = walk.p, walk.o
    blanks_right(text)
    if not cells_right(p):
        return
    first = list(pieces(walk, walk.tree()))
    assert struck(text) == struck_pieces(first), "first"
    # further marks, by the row's number and the page's length
    further = {i for i in range(len(p.depths)) if not p.marked[i] and (i * 2654435761 + len(p.depths)) >> 5 & 7 == 0}
    other = object.__new__(Page)
    other.__dict__.update(p.__dict__)
    other.marked = [m or i in further for i, m in enumerate(p.marked)]
    assert cells_right(other), "cells"
    again = Walk(other, o)
    try:
        S = serialized(o, collect_all(o, again.events(0, again.tree(), [])))
    except Refused:
        return
    text = rstrip(S.text)
    blanks_right(text)
    assert struck(text) == struck_pieces(pieces(again, again.tree())), "second"
    assert struck(text) == struck_pieces((path, s) for path, s in first if not further & set(path)), "second less"


def lacks_alt(n):
    return one_of(tag(n), words("img area")) and not is_there(attribute(n.attributes, b"alt"))


def with_alt(alt, n):
    return Node(n.kind, n.name, n.value, ([(b"alt", alt)] if lacks_alt(n) else []) + n.attributes)


def alt_written(alt, p):
    other = object.__new__(Page)
    other.__dict__.update(p.__dict__)
    other.node = [with_alt(alt, n) for n in p.node]
    return other


def with_missing_alt(on, o):
    other = object.__new__(Options)
    other.__dict__.update(o.__dict__)
    other.missing_alt = on
    return other


def missing_alt_right(walk, S):
    p, o = walk.p, walk.o
    if not o.missing_alt:
        assert all(alt_text(o, n) == attr(n, "alt") for n in p.node), "off"
    # GiveTheSame: the entries, and so every need; the text; the pieces
    entries = collect_all(o, walk.events(0, walk.tree(), []))
    written = [(alt_written(missing_alt(o.missing_alt), p), on) for on in (False, True)]
    for other, on in written + ([] if o.alt_texts else [(p, not o.missing_alt)]):
        again = Walk(other, with_missing_alt(on, o))
        others = collect_all(again.o, again.events(0, again.tree(), []))
        assert [e.key() for e in others] == [e.key() for e in entries], "written" if other is not p else "without"
        T = serialized(again.o, others)
        assert (T.text, T.peak) == (S.text, S.peak), "text"
        assert list(pieces(again, again.tree())) == list(pieces(walk, walk.tree())), "pieces"


# ---- the program


def answer(case, out=None, work=None, laws=False):
    numbers, text = extraction(Page(case[LINE:]), Options(case[:LINE]), out, work, laws)
    said = b"%8d%8d%8d%8d\n" % tuple(numbers)
    return said + text + b"\n" if numbers[0] == 0 else said


# crates/printing/specs/Printed.antt, crates/options/specs/Line.antt
ROOM = 16384


def line_right(case):
    return len(case) >= LINE and case[LINE - 1] == 10 and case[0] in b"012" and all(b in b"01" for b in case[1:LINE - 1])


def printed(case):
    if len(case) > ROOM:
        return b"%8d%8d%8d%8d\n" % (34, 0, 0, 0)
    if not line_right(case):
        return b"%8d%8d%8d%8d\n" % (33, 0, 0, 0)
    return answer(case, ROOM, ROOM)


def needs(case):
    first = second = answer(case, 0, 0)[:33]
    if int(first[:8]) == 31:
        second = answer(case, 0, int(first[8:16]))[:33]
    return first + second


def main():
    args = sys.argv[1:]
    length = lambda name: int(args[args.index(name) + 1]) if name in args else None
    cases, answers = sys.stdin.buffer, sys.stdout.buffer
    while True:
        head = cases.read(9)
        if not head:
            break
        case = cases.read(int(head))
        answers.write(needs(case) if "--needs" in args else printed(case) if "--program" in args else answer(case, length("--out"), length("--work"), "--laws" in args))


if __name__ == "__main__":
    main()
