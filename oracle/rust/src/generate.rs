//! Sheets for the comparison. A case is fixed by the seed and its number. Every sheet is an accepted one.

use crate::cases::{ICONS, LINE, MISSING_ALT};
use crate::random::Random;
use crate::sheet;

// ---- pages

#[derive(Clone)]
pub enum Kind {
    Element { name: String, attributes: Vec<(String, String)>, children: Vec<Tree> },
    Text(String),
    Comment(String),
}

#[derive(Clone)]
pub struct Tree {
    pub kind: Kind,
    pub marked: bool,
}

fn text(s: impl Into<String>) -> Tree {
    Tree { kind: Kind::Text(s.into()), marked: false }
}

fn comment(s: &str) -> Tree {
    Tree { kind: Kind::Comment(s.into()), marked: false }
}

fn element(name: &str, attributes: Vec<(String, String)>, children: Vec<Tree>) -> Tree {
    Tree { kind: Kind::Element { name: name.into(), attributes, children }, marked: false }
}

fn plain(name: &str, children: Vec<Tree>) -> Tree {
    element(name, vec![], children)
}

fn with(name: &str, attribute: &str, value: &str, children: Vec<Tree>) -> Tree {
    element(name, vec![(attribute.into(), value.into())], children)
}

/// `levels` elements around the trees.
fn wrapped(names: &[&str], levels: usize, mut trees: Vec<Tree>) -> Vec<Tree> {
    for i in 0..levels {
        trees = vec![plain(names[i % names.len()], trees)];
    }
    trees
}

// ---- a page as a sheet

/// Where the strings of a page stand in the pool.
#[derive(Clone, Copy, PartialEq)]
enum Layout {
    /// One after the other.
    Apart,
    /// A string that stands somewhere already is not stored again; others overlap where they can.
    Overlapping,
    /// Bytes that no range shows stand between them.
    Littered,
}

struct Writer<'a> {
    random: &'a mut Random,
    layout: Layout,
    pool: Vec<u8>,
    nodes: Vec<[usize; 8]>,
    attributes: Vec<[usize; 4]>,
}

impl Writer<'_> {
    fn place(&mut self, s: &str) -> [usize; 2] {
        let s = s.as_bytes();
        if s.is_empty() {
            return [self.random.below(self.pool.len() + 1), 0];
        }
        if self.layout == Layout::Littered && self.random.percent(30) {
            let litter: &[u8] = *self.random.one(&[b"\xff" as &[u8], b"\x80\xc3", b"\0\n", b"zz", b"<&>"]);
            self.pool.extend(litter);
        }
        if self.layout == Layout::Overlapping {
            if let Some(at) = self.pool.windows(s.len()).position(|w| w == s) {
                return [at, s.len()];
            }
            let shared = (1..s.len()).rev().find(|&k| self.pool.ends_with(&s[..k])).unwrap_or(0);
            let at = self.pool.len() - shared;
            self.pool.extend(&s[shared..]);
            return [at, s.len()];
        }
        let at = self.pool.len();
        self.pool.extend(s);
        [at, s.len()]
    }
    /// A range of the pool as it is, if it shows UTF-8.
    fn any_range(&mut self) -> Option<[usize; 2]> {
        let at = self.random.below(self.pool.len() + 1);
        let len = self.random.below(16).min(self.pool.len() - at);
        std::str::from_utf8(&self.pool[at..at + len]).is_ok().then_some([at, len])
    }
    fn add(&mut self, depth: usize, tree: &Tree) {
        let nothing = self.place("");
        let (kind, name, value, count) = match &tree.kind {
            Kind::Element { name, attributes, .. } => (sheet::ELEMENT, self.place(name), nothing, attributes.len()),
            Kind::Text(s) => {
                let shown = if self.layout == Layout::Overlapping && self.random.percent(3) { self.any_range() } else { None };
                (sheet::TEXT, nothing, shown.unwrap_or_else(|| self.place(s)), 0)
            }
            Kind::Comment(s) => (sheet::COMMENT, nothing, self.place(s), 0),
        };
        self.nodes.push([depth, kind, tree.marked as usize, name[0], name[1], value[0], value[1], count]);
        if let Kind::Element { attributes, children, .. } = &tree.kind {
            for (n, v) in attributes {
                let (n, v) = (self.place(n), self.place(v));
                self.attributes.push([n[0], n[1], v[0], v[1]]);
            }
            for child in children {
                self.add(depth + 1, child);
            }
        }
    }
}

fn lines<const K: usize>(numbers: &[[usize; K]], to: &mut Vec<u8>) {
    for line in numbers {
        for n in line {
            to.extend(format!("{:8}", n).as_bytes());
        }
        to.push(b'\n');
    }
}

/// How the root is chosen.
#[derive(Clone, Copy)]
enum Root {
    Body,
    Anywhere,
}

fn sheet_of(random: &mut Random, layout: Layout, root: Root, body: &Tree) -> Vec<u8> {
    let mut w = Writer { random, layout, pool: vec![], nodes: vec![], attributes: vec![] };
    w.add(0, body);
    let elements: Vec<usize> = (0..w.nodes.len()).filter(|&i| w.nodes[i][1] == sheet::ELEMENT).collect();
    let root = match root {
        Root::Body => 0,
        Root::Anywhere => *w.random.one(&elements),
    };
    let mut bytes = vec![];
    lines(&[[w.nodes.len(), w.attributes.len(), w.pool.len(), root]], &mut bytes);
    lines(&w.nodes, &mut bytes);
    lines(&w.attributes, &mut bytes);
    bytes.extend(&w.pool);
    bytes
}

fn mark(random: &mut Random, percent: usize, tree: &mut Tree) {
    tree.marked = random.percent(percent);
    if let Kind::Element { children, .. } = &mut tree.kind {
        for child in children {
            mark(random, percent, child);
        }
    }
}

// ---- options

/// The line with the digits that are the same in all cases.
fn with_own_digits(mut line: [u8; LINE]) -> [u8; LINE] {
    (line[9], line[10]) = (ICONS, MISSING_ALT);
    line
}

/// The 768 option lines with icons 0, or 1, and missing_alt 0.
fn option_line(k: usize) -> [u8; LINE] {
    let mut line = with_own_digits(*b"00000000000\n");
    line[0] = b'0' + (k % 3) as u8;
    for j in 0..8 {
        line[1 + j] = b'0' + (k / 3 >> j & 1) as u8;
    }
    line
}

const MAIN_CONTENT: usize = 1;

fn any_options(random: &mut Random) -> [u8; LINE] {
    option_line(random.below(768))
}

fn main_content_options(random: &mut Random) -> [u8; LINE] {
    let mut line = any_options(random);
    if random.percent(90) {
        line[MAIN_CONTENT] = b'1';
    }
    line
}

// ---- words

// Every name that the two files test for, and near ones.
const BLOCKS: &str = "address article aside blockquote br center details dd dt div dl fieldset figcaption figure footer form h1 h2 h3 h4 h5 h6 header hgroup hr li main nav ol p pre section table tr ul";
const OTHERS: &str = "td th a textarea img area button input body audio video time";
const INLINE: &str = "span b em tbody thead caption select option label noscript script svg x h7 trr t LI TD A Body BR pr é";

fn any_name(random: &mut Random) -> &'static str {
    match random.below(20) {
        0..9 => random.word(BLOCKS),
        9..15 => random.word(OTHERS),
        15..19 => random.word(INLINE),
        _ => "",
    }
}

const BLANKS: [char; 6] = ['\t', '\n', '\x0B', '\x0C', '\r', ' '];

fn blanks(random: &mut Random) -> String {
    match random.below(10) {
        0..5 => " ".into(),
        5 => String::new(),
        6 => "  ".into(),
        7 => "\n".into(),
        _ => (0..random.between(1, 4)).map(|_| *random.one(&BLANKS)).collect(),
    }
}

const PIECES: &[&str] = &[
    "a", "b", "c", "word", "two words", "x", "0.4", "1.", "-", "(", "]", "&", "<", ">", "\"", "&amp;", "<b>", "'", "é", "ß", "−", "日本", "😀", "•", "¶", "\u{A0}",
    "\u{2003}", "\u{3000}", "\u{85}", "\0", "\x1F", "\x08", "\x0E", "abc", "aé", "éa", "\u{FEFF}", "\u{10FFFF}",
];

fn any_text(random: &mut Random) -> String {
    if random.percent(10) {
        return blanks(random);
    }
    if random.percent(3) {
        return String::new();
    }
    let mut s = String::new();
    for _ in 0..random.between(1, 4) {
        if random.percent(35) {
            s += &blanks(random);
        }
        s += *random.one(PIECES);
    }
    if random.percent(30) {
        s += &blanks(random);
    }
    s
}

/// The ends of the private-use ranges, and what stands beside them.
const ENDS: [char; 13] = [
    '\u{D7FF}', '\u{E000}', '\u{F8FF}', '\u{F900}', '\u{EFFFF}', '\u{F0000}', '\u{FFFFD}', '\u{FFFFE}', '\u{FFFFF}', '\u{100000}',
    '\u{10FFFD}', '\u{10FFFE}', '\u{10FFFF}',
];

/// A text of three bytes, of "¶", of private use, or of a little more.
fn icon_text(random: &mut Random) -> String {
    let two = |random: &mut Random| char::from_u32(random.between(0x80, 0x7FF) as u32).unwrap();
    let one = |random: &mut Random| random.between(0x21, 0x7E) as u8 as char;
    let core: String = match random.below(16) {
        0 => "¶".into(),
        1 => "\u{E000}".into(),
        2 => "\u{F8FF}".into(),
        3 => "\u{2212}".into(),
        4 => "\u{FFFD}".into(),
        5 => "\u{2000}".into(),
        6 => "\u{F93F}".into(),
        7 => [one(random), one(random), one(random)].iter().collect(),
        8 => [one(random), two(random)].iter().collect(),
        9 => [two(random), one(random)].iter().collect(),
        // three bytes near the ends of the range, where the last byte decides first
        10 => {
            let bytes = [*random.one(&[0xE2, 0xED, 0xEE, 0xEF]), *random.one(&[0x80, 0x81, 0x9F, 0xA2, 0xA3, 0xA4, 0xBF]), *random.one(&[0x80, 0x81, 0xBE, 0xBF])];
            std::str::from_utf8(&bytes).unwrap_or("¶").into()
        }
        11 => (*random.one(&ENDS)).into(),
        12 => char::from_u32(random.between(0xEFF00, 0x10FFFF) as u32).unwrap().into(),
        13 => char::from_u32(random.between(0, 0x10FFFF) as u32).unwrap_or('¶').into(),
        14 => "\u{A0}\u{E000}".into(),
        _ => char::from_u32(random.between(0x800, 0xFFFF) as u32).unwrap_or('−').into(),
    };
    let core = if random.percent(10) { core.clone() + &core } else { core };
    let before = if random.percent(40) { blanks(random) } else { String::new() };
    let after = if random.percent(40) { blanks(random) } else { String::new() };
    before + &core + &after
}

/// Strings that fit the 21 patterns, and near misses (oracle/pattern_vectors.sh).
fn pattern_string(random: &mut Random) -> String {
    static LIST: std::sync::LazyLock<Vec<String>> = std::sync::LazyLock::new(|| {
        let lines = std::str::from_utf8(include_bytes!("pattern_strings")).unwrap().trim_end_matches('\n');
        lines.split('\n').map(|s| s.replace('\x01', "\n")).collect()
    });
    random.one(&LIST).clone()
}

const CLASSES: &str = "x post entry nav menu sidebar header footer site-header page_footer copyright login sign-up account social share comments reply logo brand-logo ad ads advert banner sponsor modal popup gallery carousel search print-only spinner short-view-count hidden is-hidden invisible collapsed skip next prev pagination related popular byline metadata post-meta author-date main-content single-post text col-md-6 right head foot";

fn class(random: &mut Random) -> String {
    match random.below(10) {
        0..4 => pattern_string(random),
        4..8 => random.word(CLASSES).into(),
        8 => format!("{} {}", random.word(CLASSES), random.word(CLASSES)),
        _ => random.one(&["", " ", "x", "plain", "A B", "\u{A0}", "\t"]).to_string(),
    }
}

/// A word of a list, as it is or nearly so.
fn near(random: &mut Random, line: &'static str) -> String {
    let word = random.word(line);
    match random.below(12) {
        0..6 => word.into(),
        6 => format!("{}{}{}", blanks(random), word, blanks(random)),
        7 => word.to_uppercase(),
        8 => format!("{}x", word),
        9 => word[1..].into(),
        10 => format!("\u{A0}{}", word),
        _ => format!("{} {}", word, word),
    }
}

fn style(random: &mut Random) -> String {
    match random.below(4) {
        0 => pattern_string(random),
        _ => {
            let parts = ["display", "visibility", ":", " : ", "none", "hidden", ";", "; ", " ", "color:red", "\t", ";\n "];
            let none = if random.percent(60) { "display:none" } else { "" };
            (0..random.between(1, 6)).map(|_| *random.one(&parts)).collect::<String>() + none
        }
    }
}

fn attribute(random: &mut Random) -> (String, String) {
    let (name, value) = match random.below(26) {
        0..6 => ("class", class(random)),
        6..9 => ("id", class(random)),
        9 => ("style", style(random)),
        10..12 => ("rel", near(random, "author icon search prev next tag main")),
        12 => ("itemprop", near(random, "datePublished author url")),
        13 => ("aria-hidden", near(random, "true")),
        14 => ("aria-expanded", near(random, "false")),
        15 => ("hidden", near(random, "hidden false x")),
        16..19 => (
            "role",
            near(random, "alert banner checkbox comment complementary contentinfo dialog img menu menubar menuitem navigation presentation radio search searchbox separator tab toolbar tooltip main article"),
        ),
        19 => (random.word("data-ad data-advertisement data-text-ad"), any_text(random)),
        20 => ("href", any_text(random)),
        21 => ("alt", any_text(random)),
        22 => ("type", near(random, "checkbox color file hidden radio reset text submit")),
        23 => ("value", any_text(random)),
        24 => ("placeholder", any_text(random)),
        _ => (random.word("Class ID classs cl data-ads data title src é hidde"), class(random)),
    };
    (name.into(), value)
}

/// The attributes that `collect` reads of an element, where it may have them, and `more` others in a hundred.
fn attributes(random: &mut Random, name: &str, more: usize) -> Vec<(String, String)> {
    let mut list: Vec<(String, String)> = vec![];
    let mut add = |random: &mut Random, n: &str, percent: usize| {
        if random.percent(percent) {
            let value = any_text(random);
            list.push((n.into(), value));
        }
    };
    match name {
        "a" => add(random, "href", 75),
        "img" | "area" => add(random, "alt", 80),
        "input" => {
            add(random, "value", 60);
            add(random, "placeholder", 50);
            if random.percent(50) {
                list.push(("type".into(), near(random, "checkbox color file hidden radio reset text")));
            }
        }
        _ => {}
    }
    while random.percent(more) && list.len() < 6 {
        let a = attribute(random);
        list.push(a);
    }
    if !list.is_empty() && random.percent(4) {
        let mut again = random.one(&list).clone();
        again.1 = any_text(random);
        let at = random.below(list.len() + 1);
        list.insert(at, again);
    }
    list
}

// ---- pages that grow

#[derive(Clone, Copy, PartialEq)]
enum Place {
    Flow,
    List,
    Table,
    Row,
    Inline,
    Any,
}

/// How a page grows: `left` rows may still be made; `more` attributes and `chaos` elements out of place, in a hundred.
struct Growth<'a> {
    random: &'a mut Random,
    left: usize,
    more: usize,
    chaos: usize,
    icons: usize,
}

impl Growth<'_> {
    fn text(&mut self) -> Tree {
        if self.random.percent(self.icons) { text(icon_text(self.random)) } else { text(any_text(self.random)) }
    }
    fn element(&mut self, name: &str, place: Place, depth: usize, most: usize) -> Tree {
        let attributes = attributes(self.random, name, self.more);
        // now and then childless
        let most = if self.random.percent(12) { 0 } else { most };
        element(name, attributes, self.children(place, depth + 1, most))
    }
    fn children(&mut self, place: Place, depth: usize, most: usize) -> Vec<Tree> {
        let mut list = vec![];
        if depth < 12 {
            for _ in 0..self.random.below(most + 1) {
                if self.left > 0 {
                    list.push(self.tree(place, depth));
                }
            }
        }
        list
    }
    fn tree(&mut self, place: Place, depth: usize) -> Tree {
        self.left -= 1;
        let place = if self.random.percent(self.chaos) { Place::Any } else { place };
        let roll = self.random.below(100);
        match place {
            Place::Any => match roll {
                0..25 => self.text(),
                25..30 => comment("note"),
                _ => {
                    let name = any_name(self.random);
                    let inside = *self.random.one(&[Place::Any, Place::Flow, Place::Inline, Place::List, Place::Table, Place::Row]);
                    self.element(name, inside, depth, 4)
                }
            },
            Place::Flow => match roll {
                0..22 => self.text(),
                22..27 => comment(" c "),
                27..47 => {
                    let name = self.random.word("div p section article div p h1 h2 h4 h5 blockquote dd main header");
                    let inside = *self.random.one(&[Place::Flow, Place::Inline]);
                    self.element(name, inside, depth, 4)
                }
                47..55 => {
                    let name = self.random.word("ul ol");
                    self.element(name, Place::List, depth, 4)
                }
                55..63 => self.element("table", Place::Table, depth, 4),
                63..67 => self.element("pre", Place::Inline, depth, 4),
                67..71 => self.element("br", Place::Inline, depth, 0),
                71..75 => {
                    let name = self.random.word("footer nav aside form figure body ul article");
                    self.element(name, Place::Flow, depth, 4)
                }
                _ => self.tree_again(Place::Inline, depth),
            },
            Place::List => match roll {
                0..68 => {
                    let inside = *self.random.one(&[Place::Inline, Place::Inline, Place::Flow]);
                    self.element("li", inside, depth, 3)
                }
                68..80 => text(blanks(self.random)),
                80..84 => comment(""),
                84..92 => {
                    let name = self.random.word("ul ol");
                    self.element(name, Place::List, depth, 3)
                }
                _ => self.tree_again(Place::Flow, depth),
            },
            Place::Table => match roll {
                0..50 => self.element("tr", Place::Row, depth, 4),
                50..68 => {
                    let name = self.random.word("tbody thead tfoot");
                    self.element(name, Place::Table, depth, 4)
                }
                68..80 => text(blanks(self.random)),
                80..84 => comment("c"),
                84..93 => self.tree_again(Place::Row, depth),
                _ => self.tree_again(Place::Flow, depth),
            },
            Place::Row => match roll {
                0..66 => {
                    let name = self.random.word("td td th");
                    let inside = *self.random.one(&[Place::Inline, Place::Inline, Place::Flow]);
                    self.element(name, inside, depth, 3)
                }
                66..80 => text(blanks(self.random)),
                80..84 => comment("c"),
                84..92 => {
                    let name = self.random.word("span a b");
                    self.element(name, Place::Row, depth, 3)
                }
                92..96 => self.text(),
                _ => self.tree_again(Place::Flow, depth),
            },
            Place::Inline => match roll {
                0..50 => self.text(),
                50..62 => self.element("a", Place::Inline, depth, 3),
                62..72 => {
                    let name = self.random.word("span b em x label");
                    self.element(name, Place::Inline, depth, 3)
                }
                72..78 => {
                    let name = self.random.word("img area img");
                    self.element(name, Place::Inline, depth, 1)
                }
                78..83 => self.element("input", Place::Inline, depth, 1),
                83..86 => self.element("button", Place::Inline, depth, 2),
                86..90 => self.element("textarea", Place::Inline, depth, 2),
                90..94 => self.element("br", Place::Inline, depth, 1),
                94..96 => comment("inline"),
                96..98 => self.element("td", Place::Inline, depth, 2),
                _ => self.tree_again(Place::Flow, depth),
            },
        }
    }
    fn tree_again(&mut self, place: Place, depth: usize) -> Tree {
        self.left += 1;
        self.tree(place, depth)
    }
}

fn grown(random: &mut Random, place: Place, rows: usize, more: usize, chaos: usize, icons: usize) -> Vec<Tree> {
    let mut growth = Growth { random, left: rows, more, chaos, icons };
    let mut trees = vec![];
    while growth.left > 0 {
        trees.push(growth.tree(place, 1));
    }
    trees
}

// ---- all small pages

const INSIDE: &[&str] = &["p", "div", "span", "li", "ul", "ol", "pre", "textarea", "td", "tr", "table", "a", "h1", "h5", "button", "img", "br", "input"];
const LEAVES: usize = 5;
const LABELS: usize = LEAVES + INSIDE.len();

fn label(k: usize, children: Vec<Tree>) -> Tree {
    let name = match k {
        0 if children.is_empty() => return text("a"),
        1 if children.is_empty() => return text(" "),
        2 if children.is_empty() => return text(" b\n"),
        3 if children.is_empty() => return text("c  d&"),
        4 if children.is_empty() => return comment("x"),
        // a row with children is an element
        0..LEAVES => INSIDE[k],
        _ => INSIDE[k - LEAVES],
    };
    match name {
        "a" => with(name, "href", " u& ", children),
        "img" => with(name, "alt", " i> ", children),
        "input" => with(name, "value", " v ", children),
        _ => plain(name, children),
    }
}

/// The forests of k rows as depths from 1.
fn shapes(k: usize) -> Vec<Vec<usize>> {
    let mut list = vec![vec![1]];
    for _ in 1..k {
        list = list.into_iter().flat_map(|s: Vec<usize>| (1..=s[s.len() - 1] + 1).map(move |d| [&s[..], &[d]].concat())).collect();
    }
    list
}

fn forest(depths: &[usize], labels: &[usize], d: usize) -> Vec<Tree> {
    let mut trees = vec![];
    for i in 0..depths.len() {
        if depths[i] == d {
            let below = depths[i + 1..].iter().take_while(|&&e| e > d).count();
            trees.push(label(labels[i], forest(&depths[i + 1..i + 1 + below], &labels[i + 1..i + 1 + below], d + 1)));
        }
    }
    trees
}

fn small_page(rows: usize, mut k: usize) -> Vec<Tree> {
    let shapes = shapes(rows);
    let shape = &shapes[k % shapes.len()];
    k /= shapes.len();
    let labels: Vec<usize> = (0..rows)
        .map(|_| {
            let l = k % LABELS;
            k /= LABELS;
            l
        })
        .collect();
    forest(shape, &labels, 1)
}

fn pages_of(rows: usize) -> usize {
    shapes(rows).len() * LABELS.pow(rows as u32)
}

/// All pages of one and two rows below body under the options that matter without main_content, in an order that mixes them.
fn smallest(k: usize) -> ([u8; LINE], Vec<Tree>) {
    let total = 48 * (pages_of(1) + pages_of(2));
    let k = (k * 104729) % total;
    let (o, k) = (k % 48, k / 48);
    let mut line = with_own_digits(*b"10000011000\n");
    line[0] = b'0' + (o % 3) as u8;
    for j in 0..4 {
        line[2 + j] = b'0' + (o / 3 >> j & 1) as u8;
    }
    (line, if k < pages_of(1) { small_page(1, k) } else { small_page(2, k - pages_of(1)) })
}

// ---- pages about one thing

/// An element under so many others, with any attributes: the filters' tests at every depth.
fn filtered(random: &mut Random) -> Vec<Tree> {
    let name = any_name(random);
    let mut list: Vec<(String, String)> = (0..random.below(3)).map(|_| attribute(random)).collect();
    if random.percent(50) {
        list.push(("class".into(), class(random)));
    }
    if random.percent(25) {
        list.push(("id".into(), class(random)));
    }
    let mut trees = vec![element(name, list, vec![text("in")])];
    while random.percent(30) {
        let name = any_name(random);
        trees.push(element(name, attributes(random, name, 40), vec![text("by")]));
    }
    trees.push(text("t"));
    let around = random.word("div section span x");
    for _ in 0..random.below(8) {
        let name = if random.percent(6) { "body" } else { around };
        trees = vec![plain(name, trees)];
    }
    trees.push(text("after"));
    trees
}

/// So many bytes of text, with runs of blanks that collapse to one.
fn run(random: &mut Random, bytes: usize) -> String {
    let mut s = String::new();
    let mut left = bytes;
    while left > 0 {
        if left >= 2 && random.percent(4) {
            s.push('é');
            left -= 2;
        } else if left >= 2 && s.ends_with('x') && random.percent(10) {
            s += &format!("{} x", blanks(random));
            left -= 2;
        } else {
            s.push('x');
            left -= 1;
        }
    }
    s
}

/// Text and links near the ratio and the limit of a rule, in an element that it is for.
fn cluster(random: &mut Random) -> Vec<Tree> {
    // name, the least depth at which the rule is asked, fifths, limit
    let (name, depth, fifths, limit) = *random.one(&[
        ("ul", 4, 1, 0),
        ("footer", 3, 1, 0),
        ("article", 3, 1, 500),
        ("div", 6, 3, 800),
        ("div", 3, 3, 1500),
    ]);
    let total: usize = if limit > 0 && random.percent(40) { limit - 1 + random.below(3) } else { random.between(1, 120) };
    let links = match random.below(8) {
        0 => 0,
        1 | 2 => total,
        _ => (total * fifths / 5 + random.below(3)).saturating_sub(1).min(total),
    };
    let mut inside = vec![];
    let parts = random.between(1, 3);
    for k in 0..parts {
        let share = |n: usize| n / parts + (k < n % parts) as usize;
        let s = run(random, share(links));
        let link = match random.below(16) {
            // nested links count twice
            0 => plain("a", vec![plain("a", vec![text(s)])]),
            1 => plain("a", vec![plain("b", vec![text(s)]), comment("xxxxxxxxxx")]),
            2 => plain("A", vec![text(s)]),
            3 => Tree { marked: true, ..plain("a", vec![text(s)]) },
            4 => plain("a", vec![text(s), text(blanks(random))]),
            _ => plain("a", vec![text(s)]),
        };
        inside.push(link);
        let s = run(random, share(total - links));
        inside.push(match random.below(16) {
            0 => plain("span", vec![text(s)]),
            1 => text(format!("{}{}", s, blanks(random))),
            2 => comment(&s),
            _ => text(s),
        });
    }
    let attributes = match (limit, random.below(10)) {
        (_, 0) => attributes(random, name, 30),
        (1500, _) => vec![(random.word("class id").into(), random.word("x plain y").into())],
        _ => vec![],
    };
    let name = if random.percent(5) { random.word("section li a nav main") } else { name };
    let mut trees = vec![element(name, attributes, inside)];
    // a footer must be followed to be kept
    if name == "footer" && random.percent(70) {
        trees.push(plain("p", vec![text("p")]));
    }
    while random.percent(20) {
        trees.push(match random.below(3) {
            0 => text("t"),
            1 => plain("p", vec![text("p")]),
            _ => comment("c"),
        });
    }
    let levels = (depth + random.below(4)).saturating_sub(2);
    wrapped(&["section"], levels, trees)
}

/// Footers at several depths, and what follows them and the rows above them.
fn footers(random: &mut Random) -> Vec<Tree> {
    let mut trees = vec![element("footer", attributes(random, "footer", 20), vec![text("foot")])];
    for _ in 0..random.below(7) {
        for _ in 0..random.below(3) {
            trees.push(match random.below(5) {
                0 | 1 => text(" "),
                2 => comment("c"),
                3 => plain("p", vec![text("p")]),
                _ => text("t"),
            });
        }
        let around = random.word("div div div section article body li");
        trees = vec![plain(around, trees)];
        if random.percent(20) {
            trees.insert(0, text("before"));
        }
    }
    if random.percent(60) {
        trees.push(plain("p", vec![text("end")]));
    }
    trees
}

fn icons(random: &mut Random) -> Vec<Tree> {
    let mut inside: Vec<Tree> = (0..random.between(1, 4)).map(|_| if random.percent(70) { text(icon_text(random)) } else { plain("b", vec![text(icon_text(random))]) }).collect();
    if random.percent(30) {
        inside.push(plain("br", vec![]));
    }
    let name = random.word("td p div pre li a span");
    vec![plain(name, inside), text(icon_text(random))]
}

/// Rows one below the other.
fn deep(random: &mut Random) -> Vec<Tree> {
    let levels = *random.one(&[20, 60, 200, 500]);
    let names: &[&str] = *random.one(&[
        &["div"] as &[&str],
        &["ul", "li"],
        &["ol", "li"],
        &["li"],
        &["table", "tr", "td"],
        &["tr"],
        &["pre"],
        &["a"],
        &["span", "div"],
        &["p"],
        &["textarea", "button"],
        &["body", "div", "footer"],
    ]);
    let mut trees = vec![];
    for i in 0..levels - 1 {
        if trees.is_empty() || random.percent(10) {
            trees.push(text(any_text(random)));
        }
        if random.percent(5) {
            trees.insert(0, text(any_text(random)));
        }
        trees = vec![plain(names[i % names.len()], trees)];
    }
    trees
}

/// Childless rows that stay open, as many as the levels of lists or the open rows that are allowed, and a few more or less.
fn open_rows(random: &mut Random) -> Vec<Tree> {
    let count = random.between(1020, 1028);
    let (name, inside) = *random.one(&[("ul", "li"), ("ol", "li"), ("tr", "td"), ("li", "li")]);
    let mut trees: Vec<Tree> = (0..count).map(|_| plain(name, vec![])).collect();
    for _ in 0..4 {
        let at = random.below(trees.len() + 1);
        trees.insert(at, plain(inside, vec![text("x")]));
        trees.insert(at, plain(name, vec![text("y")]));
    }
    trees
}

/// All small pages: those of one and two rows below body under 48 option lines, then those of three rows under one each.
pub fn small_cases() -> usize {
    48 * (pages_of(1) + pages_of(2)) + pages_of(3)
}

pub fn small_case(k: usize) -> Vec<u8> {
    let smaller = small_cases() - pages_of(3);
    let (options, trees) = if k < smaller { smallest(k) } else { (option_line(k * 7919 % 768), small_page(3, k - smaller)) };
    let sheet = sheet_of(&mut Random(k as u64), Layout::Apart, Root::Body, &plain("body", trees));
    [&options[..], &sheet].concat()
}

// ---- cases

/// Case `number`: an option line and a sheet.
pub fn case(seed: u64, number: u64) -> Vec<u8> {
    let random = &mut Random(seed.wrapping_mul(0x2545F4914F6CDD1D) ^ number);
    random.next();
    let group = (number / 16) as usize;
    let mut marks = *random.one(&[0, 0, 0, 2, 8, 25]);
    let mut root = if random.percent(15) { Root::Anywhere } else { Root::Body };
    let mut layout = *random.one(&[Layout::Apart, Layout::Overlapping, Layout::Overlapping, Layout::Littered]);
    let any = any_options(random);
    let (options, trees) = match number % 16 {
        0..4 if ICONS == b'1' => (main_content_options(random), icons(random)),
        0 | 1 => {
            (marks, root) = (0, Root::Body);
            smallest(group * 2 + (number % 16) as usize)
        }
        2 | 3 => {
            let rows = *random.one(&[3, 3, 3, 4]);
            (option_line(random.below(768)), small_page(rows, random.below(pages_of(rows))))
        }
        4 | 5 => (main_content_options(random), filtered(random)),
        6 => {
            let rows = random.between(1, 30);
            (any, grown(random, Place::Any, rows, 15, 100, 5))
        }
        7 => {
            let (rows, chaos) = (random.between(3, 40), *random.one(&[0, 5, 20]));
            (any, vec![plain(if random.percent(70) { "ul" } else { "ol" }, grown(random, Place::List, rows, 4, chaos, 1)), text("z")])
        }
        8 => {
            let (rows, chaos) = (random.between(3, 40), *random.one(&[0, 5, 20]));
            (any, vec![plain("table", grown(random, Place::Table, rows, 4, chaos, 3)), text("z")])
        }
        9 => {
            let (rows, chaos) = (random.between(2, 30), *random.one(&[0, 5, 20]));
            let name = random.word("pre p div a textarea td li span");
            (any, vec![text("s"), plain(name, grown(random, Place::Inline, rows, 4, chaos, 3)), text(" z")])
        }
        10 => {
            let (rows, more) = (random.between(5, 40), *random.one(&[10, 40, 60]));
            (main_content_options(random), grown(random, Place::Flow, rows, more, 8, 8))
        }
        11 => {
            let rows = random.between(5, 60);
            (any, grown(random, Place::Flow, rows, 6, 4, 2))
        }
        12 => (main_content_options(random), cluster(random)),
        13 => {
            let trees = match random.below(3) {
                0 => footers(random),
                1 => icons(random),
                _ => filtered(random),
            };
            (main_content_options(random), trees)
        }
        14 => (main_content_options(random), filtered(random)),
        _ if random.percent(5) => {
            layout = Layout::Apart;
            match random.below(20) {
                0 | 1 => {
                    root = Root::Body;
                    (any, open_rows(random))
                }
                2 => {
                    let rows = random.between(200, 1500);
                    (any, grown(random, Place::Flow, rows, 20, 5, 3))
                }
                _ => (any, deep(random)),
            }
        }
        _ => {
            let (place, rows) = (*random.one(&[Place::Flow, Place::Inline, Place::Row, Place::List]), random.between(1, 20));
            let (more, chaos) = (*random.one(&[0, 20, 50]), *random.one(&[0, 10, 50]));
            (any, grown(random, place, rows, more, chaos, 10))
        }
    };
    let mut body = if random.percent(10) { element("body", attributes(random, "body", 40), trees) } else { plain("body", trees) };
    if marks > 0 {
        mark(random, marks, &mut body);
        // the page's own mark hides all
        body.marked = body.marked && random.percent(20);
    }
    let sheet = sheet_of(random, layout, root, &body);
    if let Err(refusal) = sheet::read(&sheet) {
        panic!("case {}: {:?}", number, refusal);
    }
    [&options[..], &sheet].concat()
}

// ---- cases with names that the Rust takes out

const LISTED: &str = "script style iframe frame template object video audio embed img area svg figcaption figure noscript textarea input \
                      button select option label";
const NEARLY_LISTED: &str = "SCRIPT Style iFrame scrip scripts noscriptx xnoscript fram ifram i templates Object videos im imgs are svgs \
                             s fig figur nos text area2 inputs butto labels opt Label";

/// Case `number` of `generate`, some of its elements but the first with other names. These stand behind the pool; all else is as it was.
pub fn listed_case(seed: u64, number: u64) -> Vec<u8> {
    let mut case = case(seed, number);
    let random = &mut Random(!seed.wrapping_mul(0x2545F4914F6CDD1D) ^ number);
    random.next();
    let sheet = &mut case[LINE..];
    let field = |at: usize, sheet: &[u8]| -> usize { std::str::from_utf8(&sheet[at..at + 8]).unwrap().trim_start().parse().unwrap() };
    let (rows, pool) = (field(0, sheet), field(16, sheet));
    let names = format!("{} {}", LISTED, NEARLY_LISTED);
    let percent = *random.one(&[5, 20, 60]);
    for i in 1..rows {
        let row = 33 + 65 * i;
        if field(row + 8, sheet) == sheet::ELEMENT && random.percent(percent) {
            let list = if random.percent(80) { LISTED } else { NEARLY_LISTED };
            let name = random.word(list);
            // wherever it stands, in a longer name too
            let at = names.match_indices(name).map(|(at, _)| at).nth(random.below(names.matches(name).count())).unwrap();
            sheet[row + 24..row + 40].copy_from_slice(format!("{:8}{:8}", pool + at, name.len()).as_bytes());
        }
    }
    sheet[16..24].copy_from_slice(format!("{:8}", pool + names.len()).as_bytes());
    case.extend(names.as_bytes());
    if let Err(refusal) = sheet::read(&case[LINE..]) {
        panic!("case {}: {:?}", number, refusal);
    }
    case
}
