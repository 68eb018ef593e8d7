#!/usr/bin/env python3
"""Wrong readings of the Rust, each an edit of oracle/reference.py: does the sample tests/vectors/replay.in tell it from the right one? And
of change request 5, each an edit of oracle/unescape.py: does tests/vectors/unescape.in? And of change request 6, each an edit of
oracle/visible_text.py: does tests/vectors/visible_text.in?
Use: wrong_readings.py [NAME ..]: all, or those of these names; `replay`, `unescape` and `visible_text` are all of a sample.
Ends with 1 if one of them is not told apart. `SAME` has edits that no sheet can tell apart."""
import os
import subprocess
import sys

HERE = os.path.dirname(os.path.abspath(__file__))
VECTORS = os.path.join(HERE, "..", "tests", "vectors")

WRONG = [
    # document 01, "False friends"
    ("three bytes as private use", "return 0x8080EE <= a + 256 * b + 65536 * c <= 0xBFA3EF", "return 0xEE8080 <= 65536 * a + 256 * b + c <= 0xEFA3BF"),
    ("a lone li closes its level", "return is_list(t) or (is_li(t) and depth == 0)", "return is_list(t) or is_li(t)"),
    ("a childless ul closes its level", "        else:\n            S.depth, S.numbering = S.depth + 1", "        elif n.has_children or not is_list(n.tag):\n            S.depth, S.numbering = S.depth + 1"),
    ("leading blanks, asked after the margin", "    t = shortened(collapses(off, n), block or ends_blank(S.text), text)\n    if t != b\"\":\n        margin(collapses(off, n), off, S)\n", "    t = shortened(collapses(off, n), block or ends_blank(S.text), text)\n    if t != b\"\":\n        margin(collapses(off, n), off, S)\n        t = shortened(collapses(off, n), ends_blank(S.text), t)\n"),
    ("an li's end clears the prefix", "        S.bullet = not n.end\n", "        S.bullet = not n.end\n        S.prefix = b\"\" if n.end else S.prefix\n"),
    # bytes
    ("U+000B is no blank", "return is_ascii_whitespace(c) or c == 0x0B", "return is_ascii_whitespace(c)"),
    ("quotes are not escaped", "0x22: b\"&quot;\", ", ""),
    # icons
    ("the range's last", "0xBFA3EF", "0xBFA3EE"),
    ("the range's first", "return 0x8080EE <=", "return 0x8080EE <"),
    ("an icon is not trimmed", "is_icon(o.icons, trim(n.value))", "is_icon(o.icons, n.value)"),
    ("a pilcrow is no icon", "if text == b\"\\xc2\\xb6\":", "if False:"),
    ("icons 1, a pilcrow is none", "characters == \"\\u00b6\" or ", ""),
    ("icons 1, the first character decides", "len(characters) == 1 and unicodedata.category(characters)", "characters != \"\" and unicodedata.category(characters[0])"),
    ("icons 1, what is not assigned too", "== \"Co\"", "in (\"Co\", \"Cn\")"),
    ("icons 1, the first plane alone", "== \"Co\"", "== \"Co\" and characters < \"\\uFFFF\""),
    # collect
    ("an entry at the same depth", "depth < last) or", "depth <= last) or"),
    ("a textarea is no pre", "    if is_pre(t) or is_textarea(t):", "    if is_pre(t):"),
    ("h5 is big", "(8 <= t and t <= 11) or t == 14", "(8 <= t and t <= 12) or t == 14"),
    ("th is no cell", "b\"td\" if is_(name, \"th\") else name", "name"),
    ("no escape in collect", "escape(n.value) if o.formatting == MINIMAL_HTML and is_a(current) else n.value", "n.value"),
    ("an end without children", "            if children != []:\n                to.append", "            if True:\n                to.append"),
    ("href is not trimmed", "return b\" (\" + trim(href)", "return b\" (\" + href"),
    ("an input's type is not trimmed", "is_input(t) and not is_unshown_type(trim(attr(n, \"type\")))", "is_input(t) and not is_unshown_type(attr(n, \"type\"))"),
    ("a blank value keeps the placeholder out", "return attr(n, \"placeholder\") if trim(attr(n, \"value\")) == b\"\"", "return attr(n, \"placeholder\") if attr(n, \"value\") == b\"\""),
    ("the last attribute of a name", "    for a, value in attributes:\n", "    for a, value in reversed(attributes):\n"),
    # serialize
    ("a list's tag is indented as its items", "max(0, depth - int(opening_list)) * 2", "depth * 2"),
    ("LF behind a list's tag in pre", "opening_list and n.pre_depth == 0 else", "opening_list else"),
    ("an li's end strips in pre", "            if n.pre_depth == 0:\n                S.strip()\n", "            S.strip()\n"),
    ("blocks in pre", "and not (bullets and is_li(n.tag) and not n.end) and n.pre_depth == 0", "and not (bullets and is_li(n.tag) and not n.end)"),
    ("big blocks in pre", "2 if n.big_block and n.pre_depth == 0 else 1", "2 if n.big_block else 1"),
    ("two br are one", "            S.margins += 2 if n.big_block else 1", "            S.margins = max(S.margins, 1)"),
    ("a blank behind a blank between cells", "if not (len(S.text) == 0 or ends_blank(S.text)):", "if not len(S.text) == 0:"),
    ("a blank before the first cell", "if not (len(S.text) == 0 or ends_blank(S.text)):", "if not ends_blank(S.text):"),
    ("no indent for want of a bullet", "(S.depth + int(bullets and not S.bullet)) * 2", "S.depth * 2"),
    ("the bullet stays", "* 2))\n        S.bullet = False\n", "* 2))\n"),
    ("numbers rise at an li's end", "            if not n.end:\n                S.numbering = S.numbering[:-1] + [number + 1]", "            S.numbering = S.numbering[:-1] + [number + 1]"),
    ("rows stay open", "S.row_has_cell[:max(0, len(S.row_has_cell) - 1)]", "S.row_has_cell"),
    ("a margin strips in pre", "        if bare:\n            S.strip()", "        S.strip()"),
    ("Off keeps pre", "return n.pre_depth == 0 or off", "return n.pre_depth == 0"),
    ("a cell's end is not dropped", "    if is_cell(n.tag) and n.end:\n        return\n", ""),
    ("the last strip is left out", "    text = rstrip(S.text)\n    return [0", "    text = S.text\n    return [0"),
    # the walk
    ("the root's mark", "self.p.marked[i] or filtered", "(i != self.p.root and self.p.marked[i]) or filtered"),
    ("the root is not filtered", "self.p.marked[i] or filtered(self.p, self.o, i)", "self.p.marked[i] or (i != self.p.root and filtered(self.p, self.o, i))"),
    ("depth counts from row 0", "p.depths[i] - p.depths[body_above(p, p.root)]", "p.depths[i]"),
    ("visits of a left-out row", "return sum(1 if self.left_out(i) else", "return sum(0 if self.left_out(i) else"),
    # is_main_content
    ("footer at depth 3", "return False if depth < 3 or cluster", "return False if depth < 4 or cluster"),
    ("a footer's tests go on", "else followed(p, i)\n", "else followed(p, i) and by_attributes(o, cluster, depth, name, attributes)\n"),
    ("what follows a footer", "p.node[next_].kind != TEXT or p.next_sibling(next_) is not None", "p.node[next_].kind != TEXT"),
    ("a body above a footer", "        if is_body(p.node[parent]):\n            return False\n", "        if parent == 0:\n            return False\n"),
    ("ul at depth 3", "(depth < 4 or cluster", "(depth < 3 or cluster"),
    ("article at depth 3", "is_(name, \"article\") and 2 < depth", "is_(name, \"article\") and 3 < depth"),
    ("div at depth 5", "depth <= 5", "depth <= 4"),
    ("div at depth 3", "not (2 < depth and is_(name, \"div\")", "not (3 < depth and is_(name, \"div\")"),
    ("sign-in at depth 2", "return 2 < depth and (finds", "return 1 < depth and (finds"),
    ("limit 500", "(1 / 5, 500)", "(1 / 5, 499)"),
    ("limit 800", "(3 / 5, 800)", "(3 / 5, 801)"),
    ("limit 1500", "(3 / 5, 1500)", "(3 / 5, 1501)"),
    ("a share equal to the ratio", "yes = ratio < links / total\n    assert yes == (EXACT[ratio] < Fraction(links, total))", "yes = ratio <= links / total"),
    ("nested links once", "return sum(text_bytes(p, j) for j in p.below(i) if is_link_node(p.node[j]))", "return sum(text_bytes(p, j) for j in p.below(i) if is_link_node(p.node[j]) and not is_link_node(p.node[p.parent[j]]))"),
    ("comments are text", "for j in self.below(i) if self.node[j].kind == TEXT)", "for j in self.below(i) if self.node[j].kind != ELEMENT)"),
    ("text is not collapsed", "return len(collapse(p.text_content(i)))", "return len(p.text_content(i))"),
    ("class and id joined only where both are", "return id_ if class_ == b\"\" else class_ + b\" \" + id_", "return (class_ + b\" \" + id_).strip(b\" \")"),
    ("hidden_elements", "(not hidden_elements and finds", "(finds"),
    ("post_meta", "(not post_meta and finds", "(finds"),
    ("comments", "return not comments and finds", "return finds"),
    ("td is no block", "not is_block(name) and not is_(name, \"td\")", "not is_block(name)"),
    ("th is a block", "not is_block(name) and not is_(name, \"td\")", "not is_block(name) and not one_of(name, words(\"td th\"))"),
    ("junk in an id", "finds(\"other_junk_cls\", class_)", "finds(\"other_junk_cls\", combined)"),
    ("a landmark's class", "finds(\"landmark_id\", id_)", "finds(\"landmark_id\", combined)"),
    ("role main", "attr_among(attributes, \"rel\", \"main\")", "attr_among(attributes, \"role\", \"main\")"),
    ("attributes are not trimmed", "return one_of(trim(attr_of(attributes, name)), words(values))", "return one_of(attr_of(attributes, name), words(values))"),
    ("an empty hidden", "return is_there(attribute(attributes, name.encode()))", "return or_empty(attribute(attributes, name.encode())) != b\"\""),
]

# missing_alt: what is missing, where the word stands, and what it is
SAID, WORD = "return alt if is_there(alt) else missing_alt(o.missing_alt)", "return b\"[picture]\" if on else b\"\""
WRITTEN, SHOWS = "return alt_text(o, n)\n", "if o.alt_texts and is_image(t):"
LACKS = "not is_there(attribute(n.attributes, b\"alt\"))"
WRONG += [
    ("an empty alt is missing", SAID, "return alt if alt else missing_alt(o.missing_alt)"),
    ("a blank alt is missing", SAID, "return alt if is_there(alt) and (alt == b\"\" or trim(alt)) else missing_alt(o.missing_alt)"),
    ("an empty or blank alt is missing", SAID, "return alt if trim(or_empty(alt)) else missing_alt(o.missing_alt)"),
    ("ALT is alt", "alt = attribute(n.attributes, b\"alt\")", "alt = attribute([(a.lower(), v) for a, v in n.attributes], b\"alt\")"),
    ("a title stands for it", "alt = attribute(n.attributes, b\"alt\")", "alt = attribute(n.attributes, b\"alt\") or attribute(n.attributes, b\"title\")"),
    ("the last alt counts", "alt = attribute(n.attributes, b\"alt\")", "alt = attribute(n.attributes[::-1], b\"alt\")"),
    ("an img alone", SAID, "return or_empty(alt) if is_(n.name, \"area\") else alt if is_there(alt) else missing_alt(o.missing_alt)"),
    ("an area alone", SAID, "return or_empty(alt) if is_(n.name, \"img\") else alt if is_there(alt) else missing_alt(o.missing_alt)"),
    ("any element", SHOWS, "if o.alt_texts and (is_image(t) or o.missing_alt):"),
    ("an svg or object too", SHOWS, "if o.alt_texts and (is_image(t) or o.missing_alt and one_of(n.name, words(\"svg object\"))):"),
    ("an IMG too", SHOWS, "if o.alt_texts and (is_image(t) or o.missing_alt and one_of(n.name.lower(), words(\"img area\"))):"),
    ("a missing href too", "return link_text(o.formatting, end, attr(n, \"href\"))", "return link_text(o.formatting, end, attr(n, \"href\") or missing_alt(o.missing_alt))"),
    ("an input without value too", "return b\"\" if trim(field_value(n)) == b\"\"", "return missing_alt(o.missing_alt) if trim(field_value(n)) == b\"\""),
    ("the word with alt_texts off", SHOWS, "if is_image(t) and (o.alt_texts or o.missing_alt and %s):" % LACKS),
    ("all alts with alt_texts off", SHOWS, "if is_image(t) and (o.alt_texts or o.missing_alt):"),
    ("the word with missing_alt off", WORD, "return b\"[picture]\""),
    ("no word at all", WORD, "return b\"\""),
    ("missing_alt before icons", "hidden_elements icons missing_alt\"", "hidden_elements missing_alt icons\""),
    ("the word at the beginning alone", WRITTEN, "return b\"\" if end and %s else alt_text(o, n)\n" % LACKS),
    ("the word at the end alone", WRITTEN, "return b\"\" if not end and %s else alt_text(o, n)\n" % LACKS),
    ("no word with children", "n.text + added(o, e.node, e.end, n.node.tag)", "n.text + (b\"\" if e.children and lacks_alt(e.node) else added(o, e.node, e.end, n.node.tag))"),
    ("no word in an a", "return added_by_element(o, n, end)", "return b\"\" if is_a(current) and lacks_alt(n) else added_by_element(o, n, end)"),
    ("the word behind a cell is not lost", "return not nodes or pushes_after", "return not nodes or o.missing_alt and lacks_alt(e.node) or pushes_after"),
    ("the word opens a block", "block=is_block_tag(t), big", "block=is_block_tag(t) or o.missing_alt and lacks_alt(e.node), big"),
    ("the word of a row that is left out", "            if self.left_out(i):\n                continue\n            to.append", "            if self.left_out(i) and not (self.o.missing_alt and lacks_alt(self.p.node[i])):\n                continue\n            to.append"),
    ("the word is not counted in 31", "need = max([len(e.text) for e in entries] + [0])", "need = max([len(e.text.replace(b\"[picture]\", b\"\")) for e in entries] + [0])"),
    ("the word is not counted in 32", "self.peak = max(self.peak, len(self.text))", "self.peak = max(self.peak, len(self.text.replace(b\"[picture]\", b\"\")))"),
    ("the lost word is not counted in 31", "need = max([len(e.text) for e in entries] + [0])", "need = max([len(e.text) for e in entries if not (is_cell(e.node.tag) and e.node.end)] + [0])"),
    ("ten digits too", "all(b in b\"01\" for b in case[1:LINE - 1])", "all(b in b\"01\" for b in case[1:LINE - 1]) or case[10:11] == b\"\\n\" and case[0] in b\"012\" and all(b in b\"01\" for b in case[1:10])"),
    ("ten digits and a byte too", "all(b in b\"01\" for b in case[1:LINE - 1])", "all(b in b\"01\" for b in case[1:LINE - 2])"),
    ("CR for LF", "case[LINE - 1] == 10", "case[LINE - 1] in b\"\\n\\r\""),
]
for word in "[picture", "picture]", "picture", "[Picture]", "[PICTURE]", "[image]", "[pictures]", "[picture] ", " [picture]", " [picture] ", "[ picture ]", "[picture]\\n":
    WRONG.append(("the word as %r" % word, WORD, "return b\"%s\" if on else b\"\"" % word))

# the ends of the private-use ranges
for end in "\\uE000", "\\uF8FF", "\\U000F0000", "\\U000FFFFD", "\\U00100000", "\\U0010FFFD":
    WRONG.append(("icons 1, not " + end, "== \"Co\"", "== \"Co\" and characters != \"%s\"" % end))

# these change nothing that a sheet can show
SAME = [
    ("uncollapsed", "0 < uncollapsed and n.collapse_margins", "False"),
    ("pre_depth below 0", "max(0, before - 1) if end", "before - 1 if end"),
    ("a link stays a block", "block=n.block and not is_link(o, t),\n", "block=n.block,\n"),
    ("a row is a link of itself", "for j in p.below(i) if is_link_node(p.node[j]))", "for j in [i] + list(p.below(i)) if is_link_node(p.node[j]))"),
    ("margins at a pre's end", "            S.push_all(b\"<pre>\")\n        S.margins = 0\n", "            S.push_all(b\"<pre>\")\n"),
]

# change request 5: what is a name
TABLE, PATTERN = 'NAMES = list(CHARACTERS)\n', 'NAME = re.compile(b"|".join(NAMES))'
READ, STARTS = 'NAME.sub(lambda name: CHARACTERS[name.group()], text)', 'if not NAME.match(text, ampersand.start()):'


def names(more):
    return TABLE, "CHARACTERS.update(%s)\n" % more + TABLE


def in_turn(*names):
    return READ, "text" + "".join('.replace(b"&%s;", CHARACTERS[b"&%s;"])' % (n, n) for n in names)


def without_semicolon(behind):
    return PATTERN, 'CHARACTERS.update({n[:-1]: c for n, c in CHARACTERS.items()})\nNAME = re.compile(rb"&(?:amp|quot|lt|gt)(?:;|%s)")' % behind


UNESCAPE = [
    ("what a name has become is read again", READ, READ.replace("text", READ)),
    ("read again as long as there is a name", READ, "(lambda t: t if t == text else characters(t))(%s)" % READ),
    ("&amp; before the others", *in_turn("amp", "quot", "lt", "gt")),
    ("&amp; before &quot;", *in_turn("lt", "gt", "amp", "quot")),
    ("&amp; before &gt;", *in_turn("quot", "lt", "amp", "gt")),
    ("&amp; before &lt;", *in_turn("quot", "gt", "amp", "lt")),
    ("the first name alone", READ, READ.replace("text", "text, 1")),
    ("&apos;", *names('{b"&apos;": b"\'"}')),
    ("&#39;", *names('{b"&#39;": b"\'"}')),
    ("&nbsp;", *names('{b"&nbsp;": b"\\xc2\\xa0"}')),
    ("numbers", *names('{b"&#%d;" % n: bytes([n]) for n in range(128)}')),
    ("hexadecimal numbers", *names('{b"&#x%x;" % n: bytes([n]) for n in range(128)}')),
    ("any case", *names('{bytes(n): c for name, c in CHARACTERS.items() for n in itertools.product(*zip(name, name.upper()))}')),
    ("capitals", *names('{n.upper(): c for n, c in CHARACTERS.items()}')),
    ("a first capital", *names('{n.title(): c for n, c in CHARACTERS.items()}')),
    ("a blank before the semicolon", *names('{n[:-1] + b" ;": c for n, c in CHARACTERS.items()}')),
    ("a blank behind the ampersand", *names('{b"& " + n[1:]: c for n, c in CHARACTERS.items()}')),
    ("a colon for the semicolon", *names('{n[:-1] + b":": c for n, c in CHARACTERS.items()}')),
    ("the semicolon stays", READ, 'NAME.sub(lambda name: CHARACTERS[name.group()] + b";", text)'),
    ("no semicolon", *without_semicolon("")),
    ("no semicolon at the end", *without_semicolon("\\Z")),
    ("no semicolon before a blank", *without_semicolon("(?= )")),
    ("no semicolon before an ampersand", *without_semicolon("(?=&)")),
    ("&lt; and &gt; change places", *names('{b"&lt;": b">", b"&gt;": b"<"}')),
    ("&quot; is an apostrophe", *names('{b"&quot;": b"\'"}')),
    ("an ampersand alone is copied", STARTS, "if False:"),
    ("an ampersand at the end is copied", STARTS, "if ampersand.end() < len(text) and" + STARTS[2:]),
    ("an ampersand before a blank is copied", STARTS, 'if text[ampersand.end():][:1] != b" " and' + STARTS[2:]),
    ("an ampersand before an ampersand is copied", STARTS, 'if text[ampersand.end():][:1] != b"&" and' + STARTS[2:]),
    ("an ampersand with no semicolon behind it is copied", STARTS, 'if b";" in text[ampersand.end():] and' + STARTS[2:]),
    ("the ampersand of a semicolon is copied", STARTS, 'if text[ampersand.end():][:1] != b";" and' + STARTS[2:]),
]
for name in "&amp;", "&quot;", "&lt;", "&gt;":
    UNESCAPE.append(("no %s" % name, TABLE, 'del CHARACTERS[b"%s"]\n' % name + TABLE))

# which ampersand is told, how long out must be, and how it stands
FIRST, TOLD = "    at = no_entity(text)\n", "return [51, at, 0, 0], out"
FITS, SHORT = "if len(out) < len(shown):", "return [52, len(shown), 0, 0], out"
NUMBERS, BEHIND = "return [0, 0, 0, len(shown)]", "shown + bytes(len(out) - len(shown))"
UNESCAPE += [
    ("an ampersand that starts no name is left out", FIRST, '    text = re.sub(rb"&(?!(?:amp|quot|lt|gt);)", b"", text)\n' + FIRST),
    ("the last such ampersand", 'for ampersand in re.finditer(rb"&", text):', 'for ampersand in reversed(list(re.finditer(rb"&", text))):'),
    ("the offset in the characters", TOLD, TOLD.replace("at,", "len(characters(text[:at])),")),
    ("the offset from 1", TOLD, TOLD.replace("at,", "at + 1,")),
    ("the offset from the end", TOLD, TOLD.replace("at,", "len(text) - at,")),
    ("the offset in characters of UTF-8", TOLD, TOLD.replace("at,", 'len(text[:at].decode("utf-8", "replace")),')),
    ("the offset of the first ampersand", TOLD, TOLD.replace("at,", 'text.find(b"&"),')),
    ("the number of the ampersand", TOLD, TOLD.replace("at,", 'text.count(b"&", 0, at),')),
    ("52 before 51", FIRST, "    if len(out) < len(characters(text)):\n        return [52, len(characters(text)), 0, 0], out\n" + FIRST),
    ("51 as far as out goes", "if at is not None:\n        " + TOLD, "if at is not None and len(characters(text[:at])) <= len(out):\n        " + TOLD),
    ("the need is one more", SHORT, SHORT.replace("len(shown)", "len(shown) + 1")),
    ("the need is one less", SHORT, SHORT.replace("len(shown)", "len(shown) - 1")),
    ("the need is the text's length", SHORT, SHORT.replace("len(shown)", "len(text)")),
    ("the need is what is missing", SHORT, SHORT.replace("len(shown)", "len(shown) - len(out)")),
    ("the need is out's length", SHORT, SHORT.replace("len(shown)", "len(out)")),
    ("out must have a byte more", FITS, FITS.replace("<", "<=")),
    ("out must be as long as the text", FITS, FITS.replace("shown", "text")),
    ("out as far as it goes", FITS, "shown = shown[:len(out)]\n    if False:"),
    ("51 clears out", TOLD, TOLD.replace(" out", " bytes(len(out))")),
    ("51 leaves what stands before it", TOLD, TOLD.replace(" out", " (characters(text[:at]) + out)[:len(out)]")),
    ("52 clears out", SHORT, SHORT.replace(" out", " bytes(len(out))")),
    ("52 leaves what fits", SHORT, SHORT.replace(" out", " shown[:len(out)]")),
    ("no zeros", BEHIND, "shown + out[len(shown):]"),
    ("one zero", BEHIND, '(shown + b"\\0" + out[len(shown) + 1:])[:len(out)]'),
    ("zeros to the text's length", BEHIND, "(shown + bytes(len(text) - len(shown)) + out[len(text):])[:len(out)]"),
    ("spaces for zeros", BEHIND, 'shown.ljust(len(out))'),
    ("zeros before the bytes", BEHIND, "bytes(len(out) - len(shown)) + shown"),
    ("32 for 52", SHORT, SHORT.replace("52", "32")),
    ("a refusal has a length", SHORT, SHORT.replace("0, 0]", "0, len(shown)]")),
    ("a visit", NUMBERS, NUMBERS.replace("0, 0, 0", "0, 0, 1")),
    ("the length as the second number", NUMBERS, "return [0, len(shown), 0, 0]"),
    ("the length is out's", NUMBERS, NUMBERS.replace("shown", "out")),
    ("the length is the text's", NUMBERS, NUMBERS.replace("shown", "text")),
    ("UTF-8 alone", FIRST, '    if text.decode("utf-8", "ignore").encode() != text:\n        return [17, 0, 0, 0], out\n' + FIRST),
    ("NUL ends a text", FIRST, '    text = text.split(b"\\0")[0]\n' + FIRST),
    ("bit 7 is not looked at", 're.finditer(rb"&", text)', 're.finditer(rb"[&\\xa6]", text)'),
    ("blanks collapse", READ, 're.sub(rb"[ \\t\\n\\x0b\\x0c\\r]+", b" ", %s)' % READ),
    ("blanks at the ends go", READ, READ + ".strip()"),
]
for bare in "<", ">", '\\"':
    UNESCAPE.append(("a bare %s is refused" % bare[-1], FIRST, FIRST + '    at = text.find(b"%s") if at is None and b"%s" in text else at\n' % (bare, bare)))

# change request 6: the sets
BLOCK_SET, SILENT_SET = "    main nav ol p pre section table tfoot ul video\"\"\".split()", 'SILENT = b"script style noscript".split()'
IS_BLOCK, BLANK_SET, RUNS = "    if name in BLOCKS:\n", 'BLANKS = b"\\t\\n\\x0c\\r "', 'RUN = re.compile(rb"[\\t\\n\\x0c\\r ]+")'
WHITE_SET = "[\\\\u0009-\\\\u000d\\\\u0020\\\\u0085\\\\u00a0\\\\u1680\\\\u2000-\\\\u200a\\\\u2028\\\\u2029\\\\u202f\\\\u205f\\\\u3000]"
COLLAPSED = '    value = RUN.sub(b" ", value)\n'
TRIM = '    return WHITE.sub("", value.decode(), count=1).encode()\n'
TRIMMED = "        value = trimmed(value)\n"
TRIMS, ENDS_BLANK = "    if shown.ends_blank():\n", "return not self.text or self.text[-1] in BLANKS"
LAST_BLANK = "while self.text[-1:] and self.text[-1] in BLANKS:"
# the steps
STRIP, LINES = "        shown.strip()\n", 'shown.add(b"\\n\\n" if name == b"p" else b"\\n")'
OPENS, BELOW = "        add_block(shown, page.name[i])\n", "        add_rows(shown, page, page.children[i])\n"
END = "    if rows:\n        add_block(shown, page.name[rows[-1]])\n"
BREAK, WHOLE = '        shown.add(b"\\n")\n', "shown.add(page.content(i))"
LEFT_OUT = "if page.kind[i] != ELEMENT or page.name[i] in SILENT:"
SHOWN = "    if page.kind[i] == TEXT:\n        add_text"
EACH = "    for i in rows:\n        add_row(shown, page, i)\n"
ASKED = "    add_rows(shown, page, page.children[row])\n"
CONTENT = "        if self.kind[i] == TEXT:\n"
# the answer
NEED, MOST = "self.need = max(self.need, len(self.text))", "    return bytes(shown.text), shown.need"
NO_ROW, NOT_THERE = "    if row >= len(page.kind):\n        return [35, row, 0, 0], out\n", "    if row >= len(page.kind):"
REFUSED = "    if refused:\n        return refused, out\n"
TOO_SHORT, HOLDS = "        return [53, need, 0, 0], out\n", "    if len(out) < need:\n"
RIGHT, ZEROS = "return [0, 0, 0, len(text)]", "text + bytes(len(out) - len(text))"


def more_blocks(names):
    return BLOCK_SET, BLOCK_SET + ' + b"%s".split()' % names


VISIBLE_TEXT = [
    # blocks
    ("center is a block", *more_blocks("center")),
    ("details is a block", *more_blocks("details")),
    ("hgroup is a block", *more_blocks("hgroup")),
    ("tr is a block", *more_blocks("tr")),
    ("td is a block", *more_blocks("td")),
    ("th is a block", *more_blocks("th")),
    ("thead and tbody are blocks", *more_blocks("thead tbody")),
    ("caption is a block", *more_blocks("caption")),
    ("br is a block", *more_blocks("br")),
    ("audio is a block", *more_blocks("audio")),
    ("textarea is a block", *more_blocks("textarea")),
    ("listing is a block", *more_blocks("listing")),
    ("body is a block", *more_blocks("body")),
    ("summary is a block", *more_blocks("summary")),
    ("any case of a block's name", IS_BLOCK, "    if name.lower() in BLOCKS:\n"),
    ("a block's name begins so", IS_BLOCK, "    if any(name.startswith(b) for b in BLOCKS):\n"),
    ("an unknown name is a block", IS_BLOCK, "    if name in BLOCKS or name == b\"\":\n"),
    # what is left out
    ("noscript is shown", SILENT_SET, 'SILENT = b"script style".split()'),
    ("style is shown", SILENT_SET, 'SILENT = b"script noscript".split()'),
    ("script is shown", SILENT_SET, 'SILENT = b"style noscript".split()'),
    ("template is left out", SILENT_SET, 'SILENT = b"script style noscript template".split()'),
    ("iframe is left out", SILENT_SET, 'SILENT = b"script style noscript iframe".split()'),
    ("textarea is left out", SILENT_SET, 'SILENT = b"script style noscript textarea".split()'),
    ("title is left out", SILENT_SET, 'SILENT = b"script style noscript title".split()'),
    ("SCRIPT is left out", LEFT_OUT, "if page.kind[i] != ELEMENT or page.name[i].lower() in SILENT:"),
    ("a marked row is left out", LEFT_OUT, "if page.marked[i] or page.kind[i] != ELEMENT or page.name[i] in SILENT:"),
    ("a marked row and its texts are left out", SHOWN, "    if page.marked[i]:\n        return\n" + SHOWN),
    ("comments are shown", SHOWN, SHOWN.replace("== TEXT", "!= ELEMENT")),
    ("comments in a pre are shown", CONTENT, "        if self.kind[i] != ELEMENT:\n"),
    ("a script in a pre is not shown", CONTENT, "        if self.name[i] in SILENT:\n            return b\"\"\n" + CONTENT),
    ("a br in a pre is LF", CONTENT, "        if self.name[i] == b\"br\":\n            return b\"\\n\"\n" + CONTENT),
    # blanks
    ("U+000B is a blank", BLANK_SET + "\n" + RUNS, 'BLANKS = b"\\t\\n\\x0b\\x0c\\r "\nRUN = re.compile(rb"[\\t\\n\\x0b\\x0c\\r ]+")'),
    ("U+000B collapses", RUNS, RUNS.replace("\\x0c", "\\x0b\\x0c")),
    ("U+000B is a last blank", ENDS_BLANK, 'return not self.text or self.text[-1] in BLANKS + b"\\v"'),
    ("U+000B is stripped", LAST_BLANK, LAST_BLANK.replace("in BLANKS", 'in BLANKS + b"\\v"')),
    ("FF is no blank", BLANK_SET + "\n" + RUNS, 'BLANKS = b"\\t\\n\\r "\nRUN = re.compile(rb"[\\t\\n\\r ]+")'),
    ("FF does not collapse", RUNS, RUNS.replace("\\x0c", "")),
    ("CR does not collapse", RUNS, RUNS.replace("\\r", "")),
    ("TAB does not collapse", RUNS, RUNS.replace("\\t", "")),
    ("LF does not collapse", RUNS, RUNS.replace("\\n", "")),
    ("NBSP collapses", COLLAPSED, '    value = RUN.sub(b" ", value.replace(b"\\xc2\\xa0", b" "))\n'),
    ("a run keeps its first blank", COLLAPSED, "    value = RUN.sub(lambda run: run.group()[:1], value)\n"),
    ("a run keeps an LF", COLLAPSED, '    value = RUN.sub(lambda run: b"\\n" if b"\\n" in run.group() else b" ", value)\n'),
    ("texts do not collapse", COLLAPSED, ""),
    ("a space alone collapses", RUNS, 'RUN = re.compile(rb" +")'),
    ("the end of a text is trimmed", COLLAPSED, COLLAPSED + "    value = value.rstrip(BLANKS)\n"),
    ("a last NBSP is a blank", ENDS_BLANK, 'return not self.text or self.text[-1] in BLANKS or self.text[-2:] == b"\\xc2\\xa0"'),
    ("Unicode's blanks are stripped", LAST_BLANK,
     'self.text[:] = WHITE.sub("", self.text.decode()[::-1], count=1)[::-1].encode()\n        while False:'),
    # the trim
    ("the trim is ASCII's", TRIM, "    return value.lstrip(BLANKS)\n"),
    ("the trim is ASCII's and U+000B", TRIM, '    return value.lstrip(BLANKS + b"\\v")\n'),
    ("the trim is Python's", TRIM, "    return value.decode().lstrip().encode()\n"),
    ("one character is trimmed", TRIM,
     '    return re.sub(WHITE.pattern[:-1], "", value.decode()[:1]).encode() + value.decode()[1:].encode()\n'),
    ("the trim takes a BOM", TRIM, '    return WHITE.sub("", value.decode().lstrip("\\ufeff"), count=1).encode()\n'),
    ("the trim takes a zero width space", TRIM, '    return WHITE.sub("", value.decode().lstrip("\\u200b"), count=1).encode()\n'),
    ("the trim leaves U+000B", TRIM, '    return value if value[:1] == b"\\v" else WHITE.sub("", value.decode(), count=1).encode()\n'),
    ("the trim is of both ends", TRIM,
     '    value = WHITE.sub("", value.decode(), count=1)\n    return WHITE.sub("", value[::-1], count=1)[::-1].encode()\n'),
    ("every text is trimmed", TRIMS, "    if True:\n"),
    ("no text is trimmed", TRIMS, "    if False:\n"),
    ("the first text is not trimmed", ENDS_BLANK, "return bool(self.text) and self.text[-1] in BLANKS"),
    ("a text behind LF is not trimmed", ENDS_BLANK, 'return not self.text or self.text[-1] in BLANKS and self.text[-1] != 10'),
    ("a text is trimmed before it collapses, of blanks", COLLAPSED + TRIMS,
     "    if shown.ends_blank():\n        value = value.lstrip(BLANKS)\n" + COLLAPSED + "    if False:\n"),
    # the end step
    ("the end step of every row", EACH + END,
     "    for i in rows:\n        add_row(shown, page, i)\n        add_block(shown, page.name[i])\n"),
    ("no end step", END, ""),
    ("the end step of the first row", END, "    if rows:\n        add_block(shown, page.name[rows[0]])\n"),
    ("the end step of all rows but the last", END, "    for i in rows[:-1]:\n        add_block(shown, page.name[i])\n"),
    ("the end step of a row with rows below it", END,
     "    if rows and page.children[rows[-1]]:\n        add_block(shown, page.name[rows[-1]])\n"),
    ("comments are no next siblings", END, "    rows = [i for i in rows if page.kind[i] != COMMENT]\n" + END),
    ("comments and texts are no next siblings", END, "    rows = [i for i in rows if page.kind[i] == ELEMENT]\n" + END),
    ("blank texts are no next siblings", END, "    rows = [i for i in rows if page.kind[i] != TEXT or page.value[i].strip()]\n" + END),
    ("empty texts are no next siblings", END, "    rows = [i for i in rows if page.kind[i] != TEXT or page.value[i]]\n" + END),
    ("scripts are no next siblings", END, "    rows = [i for i in rows if page.name[i] not in SILENT]\n" + END),
    ("marked rows are no next siblings", END, "    rows = [i for i in rows if not page.marked[i]]\n" + END),
    ("no end step of a p", END, "    if rows and page.name[rows[-1]] != b\"p\":\n        add_block(shown, page.name[rows[-1]])\n"),
    ("no end step of a pre", END, "    if rows and page.name[rows[-1]] != b\"pre\":\n        add_block(shown, page.name[rows[-1]])\n"),
    ("no end step of an hr", END, "    if rows and page.name[rows[-1]] != b\"hr\":\n        add_block(shown, page.name[rows[-1]])\n"),
    # a block
    ("a p has one LF", LINES, 'shown.add(b"\\n")'),
    ("every block has two LFs", LINES, 'shown.add(b"\\n\\n")'),
    ("headings have two LFs", LINES, 'shown.add(b"\\n\\n" if name == b"p" or name[:1] == b"h" and name[1:].isdigit() else b"\\n")'),
    ("a p has two LFs at its begin alone", END,
     END.replace("if rows:", 'if rows and page.name[rows[-1]] == b"p":\n        shown.strip()\n        shown.add(b"\\n")\n    elif rows:')),
    ("a block strips nothing", STRIP, ""),
    ("a block strips one blank", LAST_BLANK, "if self.text[-1:] and self.text[-1] in BLANKS:"),
    ("a block strips spaces alone", LAST_BLANK, "while self.text[-1:] == b\" \":"),
    ("a block strips LFs alone", LAST_BLANK, "while self.text[-1:] == b\"\\n\":"),
    ("no LF at the start", LINES, 'shown.add(b"" if not shown.text else b"\\n\\n" if name == b"p" else b"\\n")'),
    ("no begin step of a block", OPENS, ""),
    ("a block without rows has no begin step", OPENS, "        if page.children[i]:\n            add_block(shown, page.name[i])\n"),
    ("a space for LF", LINES, 'shown.add(b"\\n\\n" if name == b"p" else b" ")'),
    ("CR LF", LINES, 'shown.add(b"\\n\\n" if name == b"p" else b"\\r\\n")'),
    # pre and br
    ("a pre collapses", WHOLE, 'shown.add(RUN.sub(b" ", page.content(i)))'),
    ("a pre is trimmed", WHOLE, "shown.add(page.content(i).lstrip(BLANKS) if shown.ends_blank() else page.content(i))"),
    ("a pre's first LF goes", WHOLE, 'shown.add(re.sub(rb"^\\n", b"", page.content(i)))'),
    ("a pre is a block at its begin", WHOLE, "add_block(shown, b\"pre\")\n        shown.add(page.content(i))"),
    ("a pre is none of it", 'elif page.name[i] == b"pre":', 'elif False:'),
    ("a pre's texts alone, not those below", WHOLE, 'shown.add(b"".join(page.value[j] for j in page.children[i] if page.kind[j] == TEXT))'),
    ("a pre's rows are gone over too", WHOLE, "shown.add(page.content(i))\n        add_rows(shown, page, page.children[i])"),
    ("PRE is a pre", 'elif page.name[i] == b"pre":', 'elif page.name[i].lower() == b"pre":'),
    ("a textarea is copied whole", 'elif page.name[i] == b"pre":', 'elif page.name[i] in (b"pre", b"textarea"):'),
    ("a listing is copied whole", 'elif page.name[i] == b"pre":', 'elif page.name[i] in (b"pre", b"listing"):'),
    ("the asked pre is copied whole", ASKED,
     "    if page.name[row] == b\"pre\":\n        shown.add(page.content(row))\n    else:\n    " + ASKED),
    ("rows below a br are shown", BREAK, BREAK + "        add_rows(shown, page, page.children[i])\n"),
    ("a br strips", BREAK, STRIP + BREAK),
    ("a br is a space", BREAK, '        shown.add(b" ")\n'),
    ("a br behind LF is none", BREAK, '        shown.add(b"" if shown.text[-1:] == b"\\n" else b"\\n")\n'),
    ("BR is a br", 'if page.name[i] == b"br":', 'if page.name[i].lower() == b"br":'),
    ("an hr is a br", 'if page.name[i] == b"br":', 'if page.name[i] in (b"br", b"hr"):'),
    # the asked row
    ("the asked row has its begin step", ASKED, "    add_block(shown, page.name[row])\n" + ASKED),
    ("the asked row has its end step", ASKED, ASKED + "    add_block(shown, page.name[row])\n"),
    ("the asked row has both", ASKED, "    add_row(shown, page, row)\n    add_block(shown, page.name[row])\n"),
    ("an asked text is shown", ASKED, ASKED + "    if page.kind[row] == TEXT:\n        add_text(shown, page.value[row])\n"),
    ("an asked script is left out", ASKED, "    if page.name[row] not in SILENT:\n    " + ASKED),
    ("an asked br is left out", ASKED, "    if page.name[row] != b\"br\":\n    " + ASKED),
    ("the sheet's root is asked", ASKED, ASKED.replace("[row]", "[page.root]")),
    ("the text's end is stripped", ASKED, ASKED + "    shown.strip()\n"),
    ("the text's start is stripped", MOST, "    return bytes(shown.text).lstrip(BLANKS), shown.need"),
    # the answer
    ("the need is the last length", MOST, "    return bytes(shown.text), len(shown.text)"),
    ("the need is one more", TOO_SHORT, TOO_SHORT.replace("need,", "need + 1,")),
    ("the need is the last length where out is short", TOO_SHORT, TOO_SHORT.replace("need,", "len(text),")),
    ("the need is what is missing", TOO_SHORT, TOO_SHORT.replace("need,", "need - len(out),")),
    ("the need counts characters", TOO_SHORT, TOO_SHORT.replace("need,", "need - len(text) + len(text.decode()),")),
    ("the need counts the texts before they collapse", COLLAPSED,
     "    shown.need = max(shown.need, len(shown.text) + len(value))\n" + COLLAPSED),
    ("the need counts a text before its trim", TRIMS, "    shown.need = max(shown.need, len(shown.text) + len(value))\n" + TRIMS),
    ("a block's LFs are needed before it strips", STRIP,
     "        shown.need = max(shown.need, len(shown.text) + 1 + (name == b\"p\"))\n" + STRIP),
    ("out must have a byte more", HOLDS, HOLDS.replace("<", "<=")),
    ("out must hold the text alone", HOLDS, HOLDS.replace("need", "len(text)")),
    ("53 clears out", TOO_SHORT, TOO_SHORT.replace(" out\n", " bytes(len(out))\n")),
    ("53 leaves what fits", TOO_SHORT, TOO_SHORT.replace(" out\n", " (text + out)[:len(out)]\n")),
    ("53 has a length", TOO_SHORT, TOO_SHORT.replace("0, 0]", "0, len(text)]")),
    ("32 for 53", TOO_SHORT, TOO_SHORT.replace("53", "32")),
    ("52 for 53", TOO_SHORT, TOO_SHORT.replace("53", "52")),
    ("no zeros", ZEROS, "text + out[len(text):]"),
    ("one zero", ZEROS, '(text + b"\\0" + out[len(text) + 1:])[:len(out)]'),
    ("zeros to the need alone", ZEROS, "(text + bytes(need - len(text)) + out[need:])"),
    ("what was taken away stays behind the text", ZEROS, "text + b\"\\n\" * (need - len(text)) + bytes(len(out) - need)"),
    ("a visit", RIGHT, RIGHT.replace("0, 0, 0", "0, 0, 1")),
    ("the visits are the rows below", RIGHT, RIGHT.replace("0, 0, 0", "0, 0, len(page.children[row])")),
    ("the need as the second number", RIGHT, RIGHT.replace("0, 0, 0", "0, need, 0")),
    ("the length is the need", RIGHT, RIGHT.replace("len(text)", "need")),
    ("the length is out's", RIGHT, RIGHT.replace("len(text)", "len(out)")),
    # the row
    ("the row past the last is asked", NOT_THERE, "    row = min(row, len(page.kind) - 1) if row == len(page.kind) else row\n" + NOT_THERE),
    ("35 with the number of rows", NO_ROW, NO_ROW.replace("[35, row,", "[35, len(page.kind),")),
    ("35 with the line", NO_ROW, NO_ROW.replace("[35, row,", "[35, row + 1,")),
    ("35 before the sheet's numbers", REFUSED, "    if refused and row > 50:\n        return [35, row, 0, 0], out\n" + REFUSED),
    ("35 where the row is no element", NOT_THERE, "    if row >= len(page.kind) or page.kind[row] != ELEMENT:"),
    ("35 where the row is not below the root", NOT_THERE, "    if row >= len(page.kind) or row < page.root:"),
    ("a row is a line", ASKED, ASKED.replace("[row]", "[max(row - 1, 0)]")),
    ("53 before the sheet's numbers", REFUSED, "    if refused and not out:\n        return [53, 1, 0, 0], out\n" + REFUSED),
    ("a refusal clears out", REFUSED, REFUSED.replace(" out\n", " bytes(len(out))\n")),
    ("35 clears out", NO_ROW, NO_ROW.replace(" out\n", " bytes(len(out))\n")),
]
for name in """address article aside blockquote canvas dd div dl dt fieldset figcaption figure footer form h1 h2 h3 h4 h5 h6 header hr li
        main nav ol p pre section table tfoot ul video""".split():
    VISIBLE_TEXT.append(("%s is no block" % name, BLOCK_SET, BLOCK_SET + '\nBLOCKS.remove(b"%s")' % name))
for code in [0x0B, 0x85, 0xA0, 0x1680, *range(0x2000, 0x200B), 0x2028, 0x2029, 0x202F, 0x205F, 0x3000]:
    VISIBLE_TEXT.append(("U+%04X is not trimmed" % code, WHITE_SET, "(?:(?!\\\\u%04x)%s)" % (code, WHITE_SET)))
for code in 8, 14, 0x1C, 0x1F, 0x84, 0x86, 0x167F, 0x1681, 0x180E, 0x1FFF, 0x200B, 0x2027, 0x202A, 0x2060, 0x2FFF, 0x3001, 0xFEFF:
    VISIBLE_TEXT.append(("U+%04X is trimmed" % code, WHITE_SET, WHITE_SET.replace("[", "[\\\\u%04x" % code)))

# these change nothing that a call can show: what is trimmed begins with no blank, and collapsing touches no other White_Space
SAME_TEXT = [
    ("the trim goes before the collapse", COLLAPSED + TRIMS + TRIMMED, TRIMS + TRIMMED + COLLAPSED),
    ("a script's end step", END, "    if rows and page.name[rows[-1]] not in SILENT:\n        add_block(shown, page.name[rows[-1]])\n"),
]

SAMPLES = [
    ("replay", "reference.py", "--program", WRONG, SAME),
    ("unescape", "unescape.py", "answers", UNESCAPE, []),
    ("visible_text", "visible_text.py", "answers", VISIBLE_TEXT, SAME_TEXT),
]


def said(file, mode, cases, old, new):
    reference = os.path.join(HERE, file)
    source = open(reference).read()
    if source.count(old) != 1:
        sys.exit("found %d times: %r" % (source.count(old), old))
    code = "import sys\nexec(compile(sys.argv.pop(1), %r, 'exec'), {'__name__': '__main__', '__file__': %r})" % (reference, reference)
    command = [sys.executable, "-c", code, source.replace(old, new), mode]
    with open(cases, "rb") as f:
        return subprocess.run(command, stdin=f, stdout=subprocess.PIPE, stderr=subprocess.DEVNULL)


def main():
    asked, all_missed = sys.argv[1:], 0
    for sample, file, mode, wrong, same in SAMPLES:
        vectors = os.path.join(VECTORS, sample)
        right = open(vectors + ".out", "rb").read()
        tried = missed = 0
        for told, edits in ((True, wrong), (False, same)):
            for name, old, new in edits:
                if asked and sample not in asked and name not in asked:
                    continue
                run = said(file, mode, vectors + ".in", old, new)
                tried += told
                if (run.returncode != 0 or run.stdout != right) != told:
                    print("%s: %s" % (name, "not told apart" if told else "told apart"))
                    sys.stdout.flush()
                    missed += 1
        if tried or missed:
            print("%s: %d wrong readings, %d not as said" % (sample, tried, missed), flush=True)
        all_missed += missed
    sys.exit(all_missed > 0)


if __name__ == "__main__":
    main()
