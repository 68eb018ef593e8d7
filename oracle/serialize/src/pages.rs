//! Sheets for the comparison, each by its seed and number alone: names of the block set and the others that the steps tell apart, names
//! near them, every White_Space character, comments and blank texts between siblings.

use crate::random::Random;
use crate::sheet::{COMMENT, ELEMENT, TEXT};

// ---- a page that grows row by row

/// Where the strings of a page stand in the pool.
#[derive(Clone, Copy, PartialEq)]
enum Layout {
    /// One after the other.
    Apart,
    /// A string that stands somewhere already is not stored again.
    Shared,
    /// Bytes that no range shows stand between them.
    Littered,
}

struct Sheet {
    layout: Layout,
    marks: usize,
    nodes: Vec<[usize; 8]>,
    attributes: Vec<[usize; 4]>,
    pool: Vec<u8>,
}

impl Sheet {
    fn new(layout: Layout, marks: usize) -> Sheet {
        Sheet { layout, marks, nodes: vec![], attributes: vec![], pool: vec![] }
    }
    fn put(&mut self, random: &mut Random, s: &str) -> [usize; 2] {
        if s.is_empty() {
            return [random.below(self.pool.len() + 1), 0];
        }
        if self.layout == Layout::Littered && random.percent(30) {
            let litter: &[u8] = *random.one(&[b"\xff" as &[u8], b"\x80\xc3", b" \n", b"\xe2\x80", b"p"]);
            self.pool.extend(litter);
        }
        let found = match self.layout {
            Layout::Shared => self.pool.windows(s.len()).position(|w| w == s.as_bytes()),
            _ => None,
        };
        let at = found.unwrap_or(self.pool.len());
        if found.is_none() {
            self.pool.extend(s.as_bytes());
        }
        [at, s.len()]
    }
    fn row(&mut self, random: &mut Random, depth: usize, kind: usize, s: &str) {
        let (shown, nothing) = (self.put(random, s), self.put(random, ""));
        let (name, value) = if kind == ELEMENT { (shown, nothing) } else { (nothing, shown) };
        let marked = random.percent(self.marks) as usize;
        let count = if kind == ELEMENT && random.percent(5) { random.between(1, 2) } else { 0 };
        self.nodes.push([depth, kind, marked, name[0], name[1], value[0], value[1], count]);
        for _ in 0..count {
            let (n, v) = (self.put(random, "hidden"), self.put(random, "pre"));
            self.attributes.push([n[0], n[1], v[0], v[1]]);
        }
    }
    fn bytes(&self, root: usize) -> Vec<u8> {
        let mut bytes = vec![];
        lines(&[[self.nodes.len(), self.attributes.len(), self.pool.len(), root]], &mut bytes);
        lines(&self.nodes, &mut bytes);
        lines(&self.attributes, &mut bytes);
        bytes.extend(&self.pool);
        bytes
    }
}

fn lines<const K: usize>(numbers: &[[usize; K]], to: &mut Vec<u8>) {
    for line in numbers {
        for n in line {
            to.extend(format!("{:8}", n).as_bytes());
        }
        to.push(b'\n');
    }
}

// ---- words

const BLOCKS: &str = "address article aside blockquote canvas dd div dl dt fieldset figcaption figure footer form h1 h2 h3 h4 h5 h6 header \
                      hr li main nav ol p pre section table tfoot ul video";
const SILENT: &str = "script style noscript";
const INLINE: &str = "span a b em td th tr tbody thead caption center details hgroup body img textarea button svg audio iframe template \
                      title";
/// No name that is told apart, though nearly one.
const NEAR: &str = "P DIV Pre PRE Br BR LI Script SCRIPT NoScript h7 h0 h11 pr prer pres bra b0 dvi divs di scrip scripts styles noscript2 \
                    fieldse fieldsets figur figures figcaptions heade headers foote mai navs sectio table1 tfoo tfoots vide videos canva x \
                    é listing xmp plaintext";

fn name(random: &mut Random) -> &'static str {
    match random.below(100) {
        0..35 => random.word(BLOCKS),
        35..45 => "p",
        45..53 => "pre",
        53..61 => "br",
        61..67 => random.word(SILENT),
        67..90 => random.word(INLINE),
        90..98 => random.word(NEAR),
        98 => "\u{2003}",
        _ => "",
    }
}

const BLANKS: [char; 5] = ['\t', '\n', '\x0C', '\r', ' '];
/// White_Space, and beside it characters that are not, some of them blanks elsewhere.
const WHITE: [char; 25] = [
    '\t', '\n', '\x0B', '\x0C', '\r', ' ', '\u{85}', '\u{A0}', '\u{1680}', '\u{2000}', '\u{2001}', '\u{2002}', '\u{2003}', '\u{2004}',
    '\u{2005}', '\u{2006}', '\u{2007}', '\u{2008}', '\u{2009}', '\u{200A}', '\u{2028}', '\u{2029}', '\u{202F}', '\u{205F}', '\u{3000}',
];
const NOT_WHITE: [char; 22] = [
    '\x08', '\x0E', '\x1C', '\x1F', '!', '\0', '\u{84}', '\u{86}', '\u{9F}', '\u{A1}', '\u{167F}', '\u{1681}', '\u{180E}', '\u{1FFF}',
    '\u{200B}', '\u{2027}', '\u{202A}', '\u{2060}', '\u{2FFF}', '\u{3001}', '\u{FEFF}', '\u{A085}',
];
const PIECES: [&str; 14] = [
    "a", "b", "word", "two words", "x", "0", "&", "<p>", "é", "日本", "😀", "\u{10FFFF}", "\u{FFFD}", "long enough for two words of eight",
];

fn blanks(random: &mut Random) -> String {
    (0..random.between(1, 4)).map(|_| *random.one(&BLANKS)).collect()
}

fn white(random: &mut Random) -> String {
    (0..random.between(1, 3)).map(|_| if random.percent(60) { *random.one(&WHITE) } else { *random.one(&BLANKS) }).collect()
}

fn part(random: &mut Random) -> String {
    match random.below(20) {
        0..6 => blanks(random),
        6..11 => white(random),
        11..13 => (*random.one(&NOT_WHITE)).into(),
        13 => char::from_u32(random.between(0, 0x10FFFF) as u32).unwrap_or('x').into(),
        _ => (*random.one(&PIECES)).into(),
    }
}

fn text(random: &mut Random) -> String {
    match random.below(20) {
        0 => String::new(),
        1 | 2 => " ".into(),
        3 => "\n".into(),
        4 => white(random),
        5..8 => (*random.one(&PIECES)).into(),
        _ => (0..random.between(1, 5)).map(|_| part(random)).collect(),
    }
}

// ---- pages by chance

fn any_rows(random: &mut Random, s: &mut Sheet, rows: usize) {
    let (deeper, elements, comments) = (*random.one(&[15, 35, 60, 85]), *random.one(&[30, 50, 80]), *random.one(&[5, 15, 30]));
    s.row(random, 0, ELEMENT, "body");
    let mut depth = 0;
    while s.nodes.len() < rows {
        let is_element = s.nodes[s.nodes.len() - 1][1] == ELEMENT;
        let most = (depth + is_element as usize).clamp(1, 500);
        depth = if random.percent(deeper) { most } else { random.between(1, most) };
        let roll = random.below(100);
        if roll < elements {
            let name = name(random);
            s.row(random, depth, ELEMENT, name);
        } else if roll < elements + comments {
            let value = text(random);
            s.row(random, depth, COMMENT, &value);
        } else {
            let value = text(random);
            s.row(random, depth, TEXT, &value);
        }
    }
}

/// Rows one below the other, texts and comments at some of them.
fn nest(random: &mut Random, s: &mut Sheet) {
    let levels = *random.one(&[20, 60, 200, 499]);
    let names: &[&str] = *random.one(&[
        &["div"] as &[&str],
        &["p"],
        &["span"],
        &["p", "span"],
        &["ul", "li"],
        &["canvas", "b", "tfoot"],
        &["span", "span", "span", "pre"],
        &["a", "br"],
        &["div", "noscript"],
    ]);
    s.row(random, 0, ELEMENT, "body");
    for depth in 1..=levels {
        if random.percent(10) {
            let value = text(random);
            s.row(random, depth, TEXT, &value);
        }
        s.row(random, depth, ELEMENT, names[depth % names.len()]);
    }
    let value = text(random);
    s.row(random, levels + 1, TEXT, &value);
    // some of them have a next sibling
    for depth in (1..=levels).rev() {
        if random.percent(15) {
            let (kind, value) = (*random.one(&[TEXT, COMMENT]), text(random));
            s.row(random, depth, kind, &value);
        }
    }
}

pub fn generated(seed: u64, number: u64) -> Vec<u8> {
    let random = &mut Random(seed.wrapping_mul(0x2545F4914F6CDD1D) ^ number);
    random.next();
    let layout = *random.one(&[Layout::Apart, Layout::Shared, Layout::Littered]);
    let marks = *random.one(&[0, 0, 10, 100]);
    let mut s = Sheet::new(layout, marks);
    if number % 50 == 49 {
        nest(random, &mut s);
    } else {
        let rows = if number % 50 == 48 { random.between(60, 400) } else { random.between(2, 24) };
        any_rows(random, &mut s, rows);
    }
    let elements: Vec<usize> = (0..s.nodes.len()).filter(|&i| s.nodes[i][1] == ELEMENT).collect();
    let root = if random.percent(20) { *random.one(&elements) } else { 0 };
    s.bytes(root)
}

// ---- all small pages

/// What a row of a small page is: a text or a comment where it has no children, otherwise an element.
const LEAVES: [(usize, &str); 8] = [
    (TEXT, "a"),
    (TEXT, " "),
    (TEXT, " b\n"),
    (TEXT, "\x0Bc  d\u{A0}"),
    (TEXT, ""),
    (COMMENT, "x"),
    (TEXT, "\u{2003} e"),
    (COMMENT, " "),
];
const NAMES: [&str; 18] = [
    "p", "div", "span", "pre", "br", "script", "canvas", "tfoot", "td", "li", "h1", "table", "noscript", "style", "video", "hr", "DIV", "",
];
/// Those of pages of four rows.
const FEW_LEAVES: [(usize, &str); 4] = [LEAVES[0], LEAVES[2], LEAVES[3], LEAVES[5]];
const FEW: [&str; 8] = ["p", "div", "span", "pre", "br", "script", "canvas", "td"];

/// The forests of k rows as depths from 1.
fn shapes(k: usize) -> Vec<Vec<usize>> {
    let mut list = vec![vec![1]];
    for _ in 1..k {
        list = list.into_iter().flat_map(|s: Vec<usize>| (1..=s[s.len() - 1] + 1).map(move |d| [&s[..], &[d]].concat())).collect();
    }
    list
}

/// Leaves, names and how many rows.
const SIZES: [(&[(usize, &str)], &[&str], usize); 4] =
    [(&LEAVES, &NAMES, 1), (&LEAVES, &NAMES, 2), (&LEAVES, &NAMES, 3), (&FEW_LEAVES, &FEW, 4)];

fn pages_of((leaves, names, rows): (&[(usize, &str)], &[&str], usize)) -> usize {
    shapes(rows).len() * (leaves.len() + names.len()).pow(rows as u32)
}

pub fn small_pages() -> u64 {
    SIZES.map(pages_of).iter().sum::<usize>() as u64
}

pub fn small(k: u64) -> Vec<u8> {
    let mut k = k as usize;
    let mut size = 0;
    while k >= pages_of(SIZES[size]) {
        k -= pages_of(SIZES[size]);
        size += 1;
    }
    let (leaves, names, rows) = SIZES[size];
    let shapes = shapes(rows);
    let shape = &shapes[k % shapes.len()];
    k /= shapes.len();
    let mut s = Sheet::new(Layout::Apart, 0);
    let random = &mut Random(k as u64);
    s.row(random, 0, ELEMENT, "body");
    for i in 0..rows {
        let label = k % (leaves.len() + names.len());
        k /= leaves.len() + names.len();
        let has_children = i + 1 < rows && shape[i + 1] > shape[i];
        let (kind, value) = match leaves.get(label) {
            Some(&leaf) if !has_children => leaf,
            Some(_) => (ELEMENT, names[label]),
            None => (ELEMENT, names[label - leaves.len()]),
        };
        s.row(random, shape[i], kind, value);
    }
    s.bytes(0)
}
