#!/usr/bin/env python3
"""Sheets of pages.
pages.py worked > cases: document 01's pages, and those that show a quirk of the Rust.
pages.py long > cases: pages that need 16,384 bytes of work or of out, one less and one more.
pages.py check < answers: whether the answers to these cases have the texts that document 01 and the list below give. Answers of
the Rust to a page with icons 1 or missing_alt 1 (33) are passed over.
pages.py real COUNT > cases: pages of Debian's documentation packages, read by html5lib (Debian's python3-html5lib), each under
several option lines. Packages used: python3.11-doc apache2-doc sqlite3-doc postgresql-doc-15 python-django-doc
developers-reference debian-reference-en debian-faq git-doc, and what else is in /usr/share/doc.
pages.py packages EACH PACKAGE .. > cases: so many pages of each of these packages, or as many as fit a sheet whole, read the same
way, each under the option lines of bench/bench.rs; their files, one a page, to standard error."""
import glob
import gzip
import os
import re
import subprocess
import sys

ELEMENT, TEXT, COMMENT = 1, 3, 8
MOST_ROWS, MOST_ATTRIBUTES, MOST_BYTES, MOST_DEPTH = 20000, 60000, 4194304, 500

# ---- a page as rows: [depth, kind, marked, name, value, attributes]


def sheet(rows, root=0):
    pool, nodes, attributes, known = bytearray(), [], [], {}

    def put(s):
        s = s.encode()
        if s not in known:
            known[s] = len(pool)
            pool.extend(s)
        return [known[s], len(s)]

    for depth, kind, marked, name, value, attrs in rows:
        nodes.append([depth, kind, int(marked)] + put(name) + put(value) + [len(attrs)])
        for n, v in attrs:
            attributes.append(put(n) + put(v))
    line = lambda numbers: b"".join(b"%8d" % n for n in numbers) + b"\n"
    header = [len(nodes), len(attributes), len(pool), root]
    assert header[0] <= MOST_ROWS and header[1] <= MOST_ATTRIBUTES and header[2] <= MOST_BYTES and max(r[0] for r in rows) <= MOST_DEPTH
    return b"".join(map(line, [header] + nodes + attributes)) + bytes(pool)


def framed(options, page):
    case = options.encode() + b"\n" + page
    return b"%8d\n" % len(case) + case


# ---- pages written as marked-up text: `<x/>` is childless, a `*` before a name marks the row, `!` makes it the root


def written(markup):
    rows, depth, root = [[0, ELEMENT, False, "body", "", []]], 1, 0
    for part in re.findall(r"<!--.*?-->|<[^>]*>|[^<]+", markup, re.S):
        if part.startswith("<!--"):
            rows.append([depth, COMMENT, False, "", part[4:-3], []])
        elif part.startswith("</"):
            depth -= 1
        elif part.startswith("<"):
            flags, name = re.match(r"<([*!]*)([^\s/>]*)", part).groups()
            attrs = [(n, v.replace("&lt;", "<").replace("&gt;", ">")) for n, v in re.findall(r'\s([\w-]+)="([^"]*)"', part)]
            root = len(rows) if "!" in flags else root
            rows.append([depth, ELEMENT, "*" in flags, name, "", attrs])
            depth += not part.endswith("/>")
        else:
            rows.append([depth, TEXT, False, "", part, []])
    assert depth == 1
    return sheet(rows, root)


STANDING = "10110011000"
OFF = "00110011000"
HTML = "20110011000"
MAIN = "11110011000"
ICONS = "11110011010"
PICTURES = "10110011001"


def linked(total, links):
    """Document 01's rule (0.2, 500): an article at depth 3 with so many bytes, so many of them in a link."""
    return "<div><div><article>%s<a>%s</a></article></div></div>" % ("x" * (total - links), "y" * links)


# what document 01 says, "Pages and their texts"
DOCUMENT = [
    (STANDING, "", ""),
    (STANDING, "<ul><li>a</li><li>b</li></ul>", "  • a\n  • b"),
    (STANDING, "<li>a</li><p>b</p>", "  • a\n\n    • b"),
    (STANDING, "<ul/><p>b</p>", "    b"),
    (OFF, "<span><div>a</div></span> b", "a  b"),
    (OFF, " x", " x"),
    (STANDING, "<tr><td>1</td><td>2</td></tr>", "1\t\t2"),
    (OFF, "<tr><td>1</td><td>2</td></tr>", "1 2"),
    (STANDING, "<tr><td>1</td>x</tr>", "1"),
    (STANDING, "a<br/><br/>b", "a\n\nb"),
    ("10111011000", '<a href=" u ">t</a>', "t (u)"),
    (HTML, "<p>a&b</p>", "<p>a&amp;b</p>"),
    (MAIN, "<td>−<b>0.4</b></td>", "0.4"),
    (ICONS, "<td>−<b>0.4</b></td>", "−0.4"),
    (MAIN, "\uE000", ""),
    (MAIN, "\uF8FF", ""),
    (MAIN, "−", ""),
    (MAIN, "\uFFFD", ""),
    (MAIN, "\u2000", "\u2000"),
    (MAIN, "\uF93F", "\uF93F"),
    (MAIN, "abc", "abc"),
    (MAIN, linked(100, 20), "x" * 80 + "y" * 20),
    (MAIN, linked(100, 21), ""),
    (MAIN, linked(500, 101), ""),
    (MAIN, linked(501, 501), "y" * 501),
    (MAIN, '<p id="ad">t</p>', ""),
    (MAIN, '<p id="ad x">t</p>', "t"),
    (STANDING, "hi", "hi"),
]

# document 02, request 2: the ends of the private-use ranges and "¶", what stands beside them, two characters, blanks around, icons 0
PRIVATE = [(ICONS, c, "") for c in "\uE000\uF8FF\U000F0000\U000FFFFD\U00100000\U0010FFFD¶"]
PRIVATE += [(ICONS, c, c) for c in "\uF900\U000EFFFF\U000FFFFE\U0010FFFE−\uFFFD"]
PRIVATE += [(ICONS, s, s) for s in ["\uE000\uE000", "\u00A0\uE000"]]
PRIVATE += [
    (ICONS, "<td> \n\U000F0000\t <b>0.4</b></td>", "0.4"),
    (MAIN, "<td>\U000F0000<b>0.4</b></td>", "\U000F00000.4"),
]

# document 02, request 4: an img or area without alt under missing_alt
MISSING = [
    (PICTURES, "<img/>", "[picture]"),
    (PICTURES, "a<img/>b", "a[picture]b"),
    (PICTURES, "a<area/>b", "a[picture]b"),
    (PICTURES, "<!img/>", "[picture]"),
    # one with children is written twice, two are written beside each other
    (PICTURES, "<img>c</img>", "[picture]c[picture]"),
    (PICTURES, "<area> </area>", "[picture] [picture]"),
    (PICTURES, "<img/><area/>", "[picture][picture]"),
    (PICTURES, '<img alt="i"/><img/><area alt="j"/>', "i[picture]j"),
    # an empty or blank alt is there, and the first of two counts
    (PICTURES, 'a<img alt=""/>b', "ab"),
    (PICTURES, 'a<area alt="">c</area>b', "acb"),
    (PICTURES, 'a<img alt=" "/>b', "a b"),
    (PICTURES, 'a<area alt="\t\n"/>b', "a b"),
    (PICTURES, 'a<img alt="" alt="i"/>b', "ab"),
    # names are compared byte for byte
    (PICTURES, 'a<img ALT="i"/>b', "a[picture]b"),
    (PICTURES, 'a<img ALT="i" alt=""/>b', "ab"),
    (PICTURES, 'a<area al="i" alts="j" title="k" src="l"/>b', "a[picture]b"),
    (PICTURES, 'a<IMG/><Area/><image/><svg/><object/><input/><b alt="i"/>b', "ab"),
    # either option off
    (STANDING, "a<img/>b<area>c</area>", "abc"),
    ("10100011001", "a<img/>b<area>c</area>", "abc"),
    ("10100011001", 'a<img alt="i"/>b', "ab"),
    # a row that is left out, and what is lost behind a cell
    (PICTURES, "a<*img/>b", "ab"),
    (PICTURES, "a<*p><img/></p>b", "ab"),
    (PICTURES, "<tr><td>1</td><img/></tr>", "1"),
    ("00110011001", "<tr><td>1</td><img/></tr>", "1"),
    (PICTURES, "<tr><td><img/></td><td><area/></td></tr>", "[picture]\t\t[picture]"),
    # in lists, in pre, between blanks, behind a br
    (PICTURES, "<ul><li><img/></li></ul>", "  • [picture]"),
    (PICTURES, "<ol><li><img/></li><li>b</li></ol>", "  1. [picture]\n  2. b"),
    (PICTURES, "<pre> <img/>  x</pre>", " [picture]  x"),
    (PICTURES, "<p> <img/> </p>b", "[picture]\n\nb"),
    (PICTURES, "a<br/><img/>", "a\n[picture]"),
    # in links and fields
    ("10111011001", '<a href="u"><img/></a>', "[picture] (u)"),
    ("10111011001", "<a><img/></a>", "[picture] ()"),
    ("10111011001", '<img><a href="u">t</a></img>', "[picture]t (u)[picture]"),
    ("20111011001", '<p><a href="u"><img/></a></p>', '<p><a href="u">[picture]</a></p>'),
    ("20110011001", '<p><a href="u"><img/>&</a></p>', "<p>[picture]&amp;</p>"),
    ("10110111001", "<button><img/></button><input/>", "[ [picture] ]"),
    # nothing of it is escaped
    ("20110011001", "&<img/><area>c</area>", "&amp;[picture][picture]c[picture]"),
    ("20110011001", "<pre><img/></pre>", "<pre>[picture]</pre>"),
    ("00110011001", "a <img/> <area/>b", "a [picture] [picture]b"),
    # with main_content, and with icons too
    ("11110011001", "a<img/>b<nav><img/></nav>", "a[picture]b"),
    ("11110011011", "\uE000<img/>−", "[picture]−"),
    ("11110011001", "\uE000<img/>−", "[picture]"),
]

# quirks of the Rust, and the false friends
QUIRKS = [
    (STANDING, "a<pre/>  b  c<p>d  e</p>", "a\n  b  c\nd  e"),
    (STANDING, "<tr/><td>1</td><td>2</td>", "1\t\t2"),
    (HTML, "<!a>a&b</a>", "a&amp;amp;b"),
    ("20111011000", '<a href="u"><img alt="&lt;b&gt;&"/></a>', '<a href="u"><b>&</a>'),
    (OFF, "<span><td>1</td></span>x", "1x"),
    (OFF, "<tr><td/>x</tr>", "x"),
    (OFF, '<tr><td>1</td><a href="u">t</a></tr>', "1"),
    ("00111011000", '<tr><td>1</td><a href="u">t</a></tr>', "1t (u)"),
    ("00111011000", "<a>t</a>", "t ()"),
    # the level of a lone li stays up, that of a childless ul too
    (STANDING, "<li>a</li>b", "  • a\n    • b"),
    # blanks in front of a text are trimmed where out ends in a blank before its margin is written
    (STANDING, "a<br/> b", "a\nb"),
    (STANDING, "a<p/> b", "a\n\nb"),
    (STANDING, "<div>a </div> b", "a\nb"),
    # an li's end leaves a prefix, which the next text takes
    (STANDING, "<ol><li>a</li>b<li>c</li></ol>", "  1. a\n    2. b\n  2. c"),
    # a mark on the root takes all, one above it nothing
    (STANDING, "<*!div>a</div>", ""),
    (STANDING, "<*div>b<!p>a</p></div>", "a"),
    (STANDING, "a<*p>b</p><!-- c -->d", "ad"),
    # an img, area or input with children is written twice
    (OFF, '<img alt="i">x</img>', "ixi"),
    ("00110111000", '<input value=" v ">x</input>', "[ v ] x[ v ]"),
    ("00110111000", '<input type="radio" value="v"/><input placeholder="p"/><textarea>t</textarea><button/>', "[ p ] [ t ] [ ".rstrip()),
    # no blank between two cells where nothing stands yet
    (OFF, "<tr><td/><td>x</td></tr>", "x"),
    # the first attribute of a name counts
    (OFF, '<img alt="i" alt="j"/>', "i"),
    # names are compared byte for byte
    (STANDING, "<UL><LI>a</LI></UL>", "a"),
    # a three-byte text of two characters
    (MAIN, "<p>aé</p><p>éa</p>", "éa"),
    (MAIN, "<p> ¶ </p><p>¶¶</p>", "¶¶"),
    # class and id are joined by a blank, also where there is no id: then "ad" is not at the end
    (MAIN, '<p class="ad">t</p>', "t"),
    # a footer that is followed skips all later tests
    (MAIN, '<div><div><footer class="sidebar" hidden="">f</footer><p>p</p></div></div>', "f\n\np"),
    (MAIN, "<div><div><footer>f</footer>t</div></div>", "t"),
    (MAIN, "<div><div><footer>f</footer>t<!--c--></div></div>", "f\nt"),
]

# quirks of filters.rs, with main_content: which rows it drops (docs/DIFFERENCES.md says why); two divs put a row at depth 3
NO_META = "11110010000"
FILTERS = [
    (MAIN, '<div class="l-modal">t</div>', "t"),
    (MAIN, '<div class="-lmodal">t</div>', ""),
    (MAIN, '<p role="banner">t</p>', "t"),
    (MAIN, '<p role="banner" id="x">t</p>', ""),
    (MAIN, '<p role="banner" class="">t</p>', "t"),
    (MAIN, '<p role="banner" class=" ">t</p>', ""),
    (MAIN, '<div data-ad="">t</div>', "t"),
    (MAIN, '<div data-ad="" class="x">t</div>', ""),
    (MAIN, '<td class="sidebar">t</td>', ""),
    (MAIN, '<th class="sidebar">t</th>', "t"),
    (MAIN, '<h1 hidden="">t</h1>', "t"),
    (MAIN, '<h2 hidden="">t</h2>', ""),
    (MAIN, "<div><div><div><a>t</a></div></div></div>", "t"),
    (MAIN, '<div><div><div class=" "><a>t</a></div></div></div>', ""),
    (MAIN, "<!nav>t</nav>", ""),
    (MAIN, '<!div class="main-content" hidden="">t</div>', ""),
    (MAIN, '<p style="display:none">t</p>', ""),
    (MAIN, '<p style="display:none!important">t</p>', "t"),
    (NO_META, '<div><div><p class="bylinex">t</p></div></div>', ""),
    (NO_META, '<div><div><p class="xbyline">t</p></div></div>', "t"),
    (NO_META, '<p class="byline">t</p>', "t"),
    (MAIN, '<p class="catalogo">t</p>', ""),
    (MAIN, '<p class="xspinner">t</p>', ""),
    (MAIN, '<p class="Spinner">t</p>', "t"),
    (MAIN, '<p class="x ad">t</p>', "t"),
    (MAIN, '<div class="header">t</div>', "t"),
    (MAIN, '<div id="header">t</div>', ""),
    (MAIN, "<ul><li>t</li></ul>", ""),
    (MAIN, "<ol><li>t</li></ol>", "  1. t"),
]
WORKED = DOCUMENT + PRIVATE + MISSING + QUIRKS + FILTERS


def long_pages():
    """Pages whose need of work or of out is 16,384 bytes, one less or one more; their rows show one range many times."""

    element = lambda depth, name: [depth, ELEMENT, False, name, "", []]
    text = lambda depth, value: [depth, TEXT, False, "", value, []]

    def page(options, names, total, picture, before=()):
        rows, first = [element(0, "body"), *before], 2 if before else 1
        # the last row may be an img without alt, whose word counts as a text does
        at, total = 0, total - len("[picture]") * picture
        while at < total:
            part = min(200, total - at)
            rows += [element(depth, name) for depth, name in enumerate(names, first)]
            rows.append(text(first + len(names), "x" * part))
            at += part
        if picture:
            rows.append(element(first + len(names), "img"))
        return b"%s%d\n" % (options[:-1].encode(), picture) + sheet(rows)

    for total in (16383, 16384, 16385, 20000):
        for picture in (False, True):
            # one entry
            yield page(STANDING, [], total, picture)
            # entries of 200 bytes, and a blank or LF between two
            separate = (total + 1) // 201
            yield page(OFF, ["p"], total - separate, picture)
            yield page(STANDING, ["div"], total - separate, picture)
            # one entry that is lost behind a cell
            yield page(STANDING, [], total, picture, [element(1, "tr"), element(2, "td"), text(3, "1")])


def worked(out):
    for options, markup, _ in WORKED:
        out.write(framed(options, written(markup)))


def check(answers):
    right = 0
    for options, markup, text in WORKED:
        number, _, _, length = (int(answers.read(8)) for _ in range(4))
        answers.read(1)
        if number == 33 and "1" in options[9:]:
            continue
        said = answers.read(length + 1)[:-1].decode() if number == 0 else number
        if said != text:
            sys.exit("%s %s: %r, and not %r" % (options, markup, said, text))
        right += 1
    assert not answers.read(1)
    print("%d worked pages" % right)


# ---- pages of the packages

# html2text.rs: the selectors that the marks stand for, and those of candidates for the root
ALWAYS = "script style iframe frame template noscript".split()
NO_ALT_TEXTS = "object video audio embed img area svg figcaption figure".split()
NO_FORM_FIELDS = "textarea input button select option label".split()
CANDIDATES = "article-body articleBody contentBody article-text main-content postcontent post-content single-post".split()


def candidates(rows):
    """The rows that the selectors find, counted once for each selector."""
    for i, row in enumerate(rows[1:], 1):
        attrs = dict(reversed(row[5]))
        for name in CANDIDATES:
            if name in attrs.get("class", "").split():
                yield i
        if attrs.get("role") == "main":
            yield i


def rows_of(document):
    rows, attributes = [], 0

    def add(node, depth):
        nonlocal attributes
        if len(rows) >= MOST_ROWS or depth > MOST_DEPTH:
            return
        clean = lambda s: s.encode("utf-8", "replace").decode()
        if node.nodeType == node.ELEMENT_NODE:
            attrs = [(clean(n), clean(v)) for n, v in node.attributes.items()]
            attrs = attrs if attributes + len(attrs) <= MOST_ATTRIBUTES else []
            attributes += len(attrs)
            rows.append([depth, ELEMENT, False, clean(node.localName or node.tagName), "", attrs])
            for child in node.childNodes:
                add(child, depth + 1)
        elif node.nodeType in (node.TEXT_NODE, node.COMMENT_NODE):
            rows.append([depth, node.nodeType, False, "", clean(node.data), []])

    body = document.getElementsByTagName("body")
    if body:
        add(body[0], 0)
    return rows


def marked(rows, options):
    names = ALWAYS + (NO_ALT_TEXTS if options[3] == "0" else []) + (NO_FORM_FIELDS if options[5] == "0" else [])
    return [r[:2] + [i > 0 and r[3] in names] + r[3:] for i, r in enumerate(rows)]


LINES = [STANDING, OFF, HTML, MAIN, "01110011000", "21110011000", "10111111000", "20111111000", "00111111000", "11000000000"]
LINES += ["11111111100", "21101100000", "00011100000", "11100000100"]


def parsed(name):
    """The rows of a file; none where it is long or nearly empty."""
    import html5lib

    data = (gzip.open if name.endswith(".gz") else open)(name, "rb").read()
    if len(data) > 400000:
        return []
    rows = rows_of(html5lib.parse(data, treebuilder="dom", namespaceHTMLElements=False))
    return rows if len(rows) >= 5 else []


def case_of(rows, options):
    roots = list(candidates(rows))
    root = roots[0] if options[1] == "1" and len(roots) == 1 else 0
    return framed(options, sheet(marked(rows, options), root))


def real(count, out):
    files = sorted(set(glob.glob("/usr/share/doc/**/*.html", recursive=True) + glob.glob("/usr/share/doc/**/*.html.en", recursive=True)
                       + glob.glob("/usr/share/doc/**/*.html.gz", recursive=True) + glob.glob("/usr/share/debian-reference/*.html")
                       + glob.glob("/usr/share/developers-reference/*.html")))
    files = [f for f in files if os.path.isfile(f)]
    # spread over the folders, in one order everywhere
    step = max(1, len(files) // count)
    done = 0
    for name in files[::step]:
        if done >= count:
            break
        rows = parsed(name)
        if not rows:
            continue
        for k in range(5):
            out.write(case_of(rows, LINES[(done + 3 * k) % len(LINES)]))
        done += 1
        if done % 20 == 0:
            print("%d pages" % done, file=sys.stderr)


def whole(rows):
    """Whether there are rows, and no limit has cut them."""
    attributes = sum(len(r[5]) for r in rows)
    return rows and len(rows) < MOST_ROWS and attributes < MOST_ATTRIBUTES and max(r[0] for r in rows) < MOST_DEPTH


def pages_of(package):
    files = subprocess.run(["dpkg", "-L", package], capture_output=True, text=True).stdout.split("\n")
    return sorted({os.path.realpath(f) for f in files if re.search(r"\.html?(\.en|\.gz)?$", f) and os.path.isfile(f)})


def packages(each, names, out):
    for package in names:
        files = pages_of(package)
        # of each of so many parts the first page that fits
        for k in range(each):
            for name in files[k * len(files) // each : (k + 1) * len(files) // each]:
                rows = parsed(name)
                if whole(rows):
                    for options in [STANDING, OFF, HTML, "20111111000", MAIN]:
                        out.write(case_of(rows, options))
                    print(name, file=sys.stderr)
                    break


def main():
    if sys.argv[1] == "worked":
        worked(sys.stdout.buffer)
    elif sys.argv[1] == "long":
        for case in long_pages():
            sys.stdout.buffer.write(b"%8d\n" % len(case) + case)
    elif sys.argv[1] == "check":
        check(sys.stdin.buffer)
    elif sys.argv[1] == "packages":
        packages(int(sys.argv[2]), sys.argv[3:], sys.stdout.buffer)
    else:
        real(int(sys.argv[2]), sys.stdout.buffer)


if __name__ == "__main__":
    main()
