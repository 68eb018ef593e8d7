//! Times serialize.rs (unchanged, its tree already built) and levzhada_visible_text (sheet and all, with its validation and without it) on
//! the same rows, run after run in turns, and prints the medians in one table: times, and ratios of runs beside each other. The texts must
//! be the same.
//! bench [CASES]: with a file of cases, the first row of all their pages together, then a row in the middle of each.
use serialize::library::{check, visible_text};
use serialize::random::Random;
use serialize::sheet::{self, ELEMENT, TEXT};
use serialize::tree::Tree;
use serialize::visible;
use std::hint::black_box;
use std::time::Instant;

// ---- pages

/// A sheet that grows row by row, each string stored apart.
#[derive(Default)]
struct Writer {
    nodes: String,
    pool: String,
    rows: usize,
}

impl Writer {
    fn row(&mut self, depth: usize, kind: usize, s: &str) {
        let (name, value) = if kind == ELEMENT { (s.len(), 0) } else { (0, s.len()) };
        let at = self.pool.len();
        self.nodes += &format!("{:8}{:8}{:8}{:8}{:8}{:8}{:8}{:8}\n", depth, kind, 0, at, name, at, value, 0);
        self.pool += s;
        self.rows += 1;
    }
    fn element(&mut self, depth: usize, name: &str) {
        self.row(depth, ELEMENT, name);
    }
    fn text(&mut self, depth: usize, value: &str) {
        self.row(depth, TEXT, value);
    }
    fn bytes(&self) -> Vec<u8> {
        format!("{:8}{:8}{:8}{:8}\n{}{}", self.rows, 0, self.pool.len(), 0, self.nodes, self.pool).into_bytes()
    }
}

fn page() -> Writer {
    let mut w = Writer::default();
    w.element(0, "body");
    w
}

const WORDS: &[&str] = &["the", "winch", "drum", "is", "driven", "by", "a", "chain", "and", "its", "brake", "holds", "power", "über"];

fn prose(random: &mut Random, words: usize) -> String {
    let mut s = String::new();
    for _ in 0..words {
        s.push_str(*random.one(WORDS));
        s.push_str(if random.percent(8) { "\n   " } else { " " });
    }
    s
}

/// Headings, paragraphs with links, lists, pres and tables, as a handbook has them.
fn handbook(rows: usize) -> Vec<u8> {
    let random = &mut Random(1);
    let mut w = page();
    while w.rows + 60 < rows {
        w.element(1, "section");
        w.element(2, "h2");
        w.text(3, &prose(random, 4));
        for _ in 0..random.between(1, 4) {
            w.element(2, "p");
            w.text(3, &prose(random, 12));
            w.element(3, "a");
            w.text(4, &prose(random, 2));
            w.text(3, &prose(random, 9));
            w.text(2, "\n");
        }
        w.element(2, "ul");
        for _ in 0..4 {
            w.text(3, "\n");
            w.element(3, "li");
            w.text(4, &prose(random, 8));
        }
        w.element(2, "pre");
        w.text(3, "let x = 1;\n    y(x);\n");
        w.element(2, "table");
        for _ in 0..3 {
            w.element(3, "tr");
            w.element(4, "td");
            w.text(5, &prose(random, 3));
        }
    }
    while w.rows < rows {
        w.text(1, "\n");
    }
    w.bytes()
}

/// So many rows in all: of an element at depth 1, or of a text, or of both.
fn flat(rows: usize, name: &str, value: &str) -> Vec<u8> {
    let mut w = page();
    while w.rows + 2 <= rows {
        if !name.is_empty() {
            w.element(1, name);
        }
        if !value.is_empty() {
            w.text(if name.is_empty() { 1 } else { 2 }, value);
        }
    }
    w.bytes()
}

/// Elements one below the other, 490 levels of them again and again, with a text at the bottom.
fn nests(rows: usize, name: &str) -> Vec<u8> {
    let mut w = page();
    while w.rows < rows {
        let levels = (rows - w.rows).min(491) - 1;
        (1..=levels).for_each(|depth| w.element(depth, name));
        w.text(levels + 1, "at the bottom");
    }
    w.bytes()
}

/// 4,190,000 bytes in one row, in an element of that name or in none.
fn long(name: &str, part: &str) -> Vec<u8> {
    let mut w = page();
    if !name.is_empty() {
        w.element(1, name);
    }
    w.text(if name.is_empty() { 1 } else { 2 }, &part.repeat(4_190_000 / part.len()));
    w.bytes()
}

// ---- what is timed

struct Asked {
    sheet: Vec<u8>,
    tree: Tree,
    rows: usize,
    row: usize,
    out: Vec<u8>,
}

/// A row of a sheet, with an out that is long enough and no longer or, with ROOM in the environment, of half the sheet's length, as the Rust
/// crate's first buffer; the texts are the same.
fn asked(name: &str, sheet: Vec<u8>, row: impl Fn(&sheet::Page) -> usize) -> Asked {
    let page = sheet::read(&sheet).unwrap();
    let mut a = Asked { tree: Tree::new(&page), rows: page.rows.len(), row: row(&page), sheet, out: vec![] };
    let first = visible_text(&a.sheet, a.row, &mut a.out);
    if first.number == 53 {
        let room = if std::env::var_os("ROOM").is_some() { a.sheet.len() / 2 } else { 0 };
        a.out.resize(first.second.max(room), 0);
    }
    let said = visible_text(&a.sheet, a.row, &mut a.out);
    let text = visible(&a.tree, a.row);
    assert!(said.number == 0 && a.out[..said.length] == *text.as_bytes(), "{}: the texts differ", name);
    a
}

/// The element at or before the row in the middle.
fn middle(page: &sheet::Page) -> usize {
    (0..=page.rows.len() / 2).rev().find(|&i| page.rows[i].kind == ELEMENT).unwrap()
}

type Program = fn(&mut Asked);

fn by_rust(a: &mut Asked) {
    black_box(visible(&a.tree, a.row));
}

fn by_library(a: &mut Asked) {
    black_box(visible_text(&a.sheet, a.row, &mut a.out));
}

fn by_check(a: &mut Asked) {
    black_box(check(&a.sheet));
}

fn timed(times: usize, by: Program, all: &mut [Asked]) -> f64 {
    let start = Instant::now();
    for _ in 0..times {
        all.iter_mut().for_each(by);
    }
    start.elapsed().as_nanos() as f64 / times as f64
}

fn median(mut times: Vec<f64>) -> f64 {
    times.sort_by(f64::total_cmp);
    times[times.len() / 2]
}

/// Medians in ns for one time over all, each run about 20 ms, and of the library's ratio to the Rust, with its validation and without it.
struct Times {
    rust: f64,
    library: f64,
    check: f64,
    ratio: f64,
    bare: f64,
}

fn times(all: &mut [Asked]) -> Times {
    const ROUNDS: usize = 15;
    let programs: [Program; 3] = [by_rust, by_library, by_check];
    let often = programs.map(|by| ((20e6 / timed(1, by, all)) as usize).max(1));
    let mut runs = [const { vec![] }; 3];
    for _ in 0..ROUNDS {
        for k in 0..programs.len() {
            runs[k].push(timed(often[k], programs[k], all));
        }
    }
    let ratio = (0..ROUNDS).map(|i| runs[1][i] / runs[0][i]).collect();
    let bare = (0..ROUNDS).map(|i| (runs[1][i] - runs[2][i]) / runs[0][i]).collect();
    let [rust, library, check] = runs.map(median);
    Times { rust, library, check, ratio: median(ratio), bare: median(bare) }
}

fn measure(name: &str, all: &mut [Asked]) {
    let Times { rust, library, check, ratio, bare } = times(all);
    let rows: usize = all.iter().map(|a| a.rows).sum();
    let (bytes, out) = (all.iter().map(|a| a.sheet.len()).sum::<usize>(), all.iter().map(|a| a.out.len()).sum::<usize>());
    let (us, a_row) = (|ns: f64| ns / 1e3, |ns: f64| ns / rows as f64);
    print!("{:36}{:8}{:10}{:10}{:11.1}{:11.1}{:11.1}", name, rows, bytes, out, us(rust), us(library), us(check));
    println!("{:12.1}{:10.2}{:8.2}", a_row(library), ratio, bare);
}

fn measure_one(name: &str, sheet: Vec<u8>) {
    measure(name, &mut [asked(name, sheet, |_| 0)]);
}

/// A number of thousands, with its comma.
fn grouped(n: usize) -> String {
    format!("{},{:03}", n / 1000, n % 1000)
}

fn made_pages() {
    measure_one("handbook, 5,000", handbook(5_000));
    measure_one("handbook, 20,000", handbook(20_000));
    measure("handbook, 20,000, row in the middle", &mut [asked("middle", handbook(20_000), middle)]);
    for rows in [2_500, 5_000, 10_000, 20_000] {
        measure_one(&format!("p with a text, {}", grouped(rows)), flat(rows, "p", "a text of some words"));
    }
    for rows in [2_500, 5_000, 10_000, 20_000] {
        measure_one(&format!("div alone, {}", grouped(rows)), flat(rows, "div", ""));
    }
    for rows in [2_500, 5_000, 10_000, 20_000] {
        measure_one(&format!("nests of div, {}", grouped(rows)), nests(rows, "div"));
    }
    for rows in [2_500, 5_000, 10_000, 20_000] {
        measure_one(&format!("nests of pre, {}", grouped(rows)), nests(rows, "pre"));
    }
    measure_one("nests of span, 20,000", nests(20_000, "span"));
    measure_one("pre with a text, 20,000", flat(20_000, "pre", "a text of  some words\n"));
    measure_one("br alone, 20,000", flat(20_000, "br", ""));
    measure_one("blank texts alone, 20,000", flat(20_000, "", " \n  "));
    measure_one("text of 4 MB", long("", "the drum turns, the brake holds; \n "));
    measure_one("text of 4 MB, no blank", long("", "the-drum-turns-"));
    measure_one("text of 4 MB, blanks alone", long("", " "));
    measure_one("text of 4 MB, U+2003 alone", long("", "\u{2003}"));
    measure_one("text of 4 MB, a letter and a blank", long("", "a "));
    measure_one("pre of 4 MB", long("pre", "the drum turns, the brake holds; \n "));
    measure_one("pre of 4 MB, blanks alone", long("pre", " "));
}

/// The cases of a file, the option line before each of no matter.
fn real_pages(bytes: &[u8]) {
    const LINE: usize = 12;
    let (mut sheets, mut rest) = (vec![], bytes);
    while !rest.is_empty() {
        let n: usize = std::str::from_utf8(&rest[..8]).unwrap().trim_start().parse().unwrap();
        sheets.push(rest[9 + LINE..9 + n].to_vec());
        rest = &rest[9 + n..];
    }
    let all = |row: fn(&sheet::Page) -> usize| sheets.iter().map(|s| asked("a page", s.clone(), row)).collect::<Vec<_>>();
    measure(&format!("{} real pages", sheets.len()), &mut all(|_| 0));
    let ratios: Vec<f64> = all(|_| 0).chunks_mut(1).map(|p| times(p).ratio).collect();
    let least = ratios.iter().copied().fold(f64::MAX, f64::min);
    let greatest = ratios.iter().copied().fold(0.0, f64::max);
    println!("    each by itself: the ratios from {:.2} to {:.2}, median {:.2}", least, greatest, median(ratios));
    measure(&format!("{} real pages, rows in the middle", sheets.len()), &mut all(middle));
}

fn main() {
    print!("{:36}{:>8}{:>10}{:>10}{:>11}{:>11}{:>11}", "page", "rows", "bytes", "out", "Rust", "library", "validation");
    println!("{:>12}{:>10}{:>8}", "a row", "ratio", "bare");
    println!("{:64}{:>11}{:>11}{:>11}{:>12}", "", "us", "us", "us", "ns");
    made_pages();
    if let Some(file) = std::env::args().nth(1) {
        real_pages(&std::fs::read(file).unwrap());
    }
}
