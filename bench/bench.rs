//! Times the Rust (html2text.rs and filters.rs, unchanged, its tree already built) and the reader (sheet and all, through the C
//! functions of oracle/driver.c, with the sheet's validation and without it) on the same pages, run after run in turns, and prints the
//! medians in one table. Built with BEFORE, an older build of the reader too, whose answers and bytes must be the reader's.
//! bench [CASES]: with a file of cases, those too, all of one option line together, and how many of them are slower.
use oracle::cases;
use oracle::extract::html2text::{ExtractOptions, extract_plain_text};
use oracle::parse::html::tree::HtmlTree;
use oracle::random::Random;
use oracle::sheet;
use std::hint::black_box;
use std::time::Instant;

#[repr(C)]
#[derive(Debug, PartialEq)]
struct Answer {
    number: u64,
    second: u64,
    visits: u64,
    length: u64,
}

/// Of an option line, a sheet, out and work.
type Extract = unsafe extern "C" fn(*const u8, *const u8, usize, *mut u8, usize, *mut u8, usize) -> Answer;

unsafe extern "C" {
    fn reader_check(sheet: *const u8, len: usize) -> u64;
    fn reader_answer(_: *const u8, _: *const u8, _: usize, _: *mut u8, _: usize, _: *mut u8, _: usize) -> Answer;
    fn before_answer(_: *const u8, _: *const u8, _: usize, _: *mut u8, _: usize, _: *mut u8, _: usize) -> Answer;
}

/// The older build; it is linked with BEFORE alone.
const BEFORE: Option<Extract> = if option_env!("BEFORE").is_some() { Some(before_answer) } else { None };

const BASIC: &str = "10110011000";
const OFF: &str = "00110011000";
const HTML: &str = "20110011000";
const HTML_LINKS: &str = "20111011000";
const HTML_LINKS_FORMS: &str = "20111111000";
const MAIN_CONTENT: &str = "11110011000";

// ---- pages

/// A sheet that grows row by row, each string stored apart.
#[derive(Default)]
struct Writer {
    nodes: String,
    attributes: String,
    pool: String,
    counts: [usize; 2],
}

impl Writer {
    fn put(&mut self, s: &str) -> String {
        let at = self.pool.len();
        self.pool += s;
        format!("{:8}{:8}", at, s.len())
    }
    fn row(&mut self, depth: usize, kind: usize, name: &str, value: &str, attributes: &[(&str, &str)]) {
        let (name, value) = (self.put(name), self.put(value));
        self.nodes += &format!("{:8}{:8}{:8}{}{}{:8}\n", depth, kind, 0, name, value, attributes.len());
        for (n, v) in attributes {
            let (n, v) = (self.put(n), self.put(v));
            self.attributes += &format!("{}{}\n", n, v);
        }
        self.counts[0] += 1;
        self.counts[1] += attributes.len();
    }
    fn element(&mut self, depth: usize, name: &str, attributes: &[(&str, &str)]) {
        self.row(depth, sheet::ELEMENT, name, "", attributes);
    }
    fn text(&mut self, depth: usize, value: &str) {
        self.row(depth, sheet::TEXT, "", value, &[]);
    }
    fn bytes(&self) -> Vec<u8> {
        format!("{:8}{:8}{:8}{:8}\n{}{}{}", self.counts[0], self.counts[1], self.pool.len(), 0, self.nodes, self.attributes, self.pool).into_bytes()
    }
}

fn page() -> Writer {
    let mut w = Writer::default();
    w.element(0, "body", &[]);
    w
}

const WORDS: &[&str] = &["the", "winch", "drum", "is", "driven", "by", "a", "chain", "and", "its", "brake", "holds", "when", "power", "fails", "über", "check", "oil,", "bolts", "2.5"];

fn prose(random: &mut Random, words: usize) -> String {
    let mut s = String::new();
    for i in 0..words {
        if i > 0 {
            s.push_str(if random.percent(8) { "\n   " } else { " " });
        }
        s.push_str(*random.one(WORDS));
    }
    s
}

/// Prose of so many bytes, with an `&` or a `<` about once in 200 words.
fn prose_of(random: &mut Random, bytes: usize) -> String {
    let mut s = String::new();
    while s.len() < bytes {
        s.push_str(if random.below(200) == 0 { *random.one(&["&", "<"]) } else { *random.one(WORDS) });
        s.push_str(if random.percent(8) { "\n   " } else { " " });
    }
    let end = s.floor_char_boundary(bytes);
    s.replace_range(end.., &"x".repeat(bytes - end));
    s
}

/// Headings, paragraphs with links and emphasis, lists and tables, with classes on some, as a handbook has them.
fn handbook(rows: usize) -> Vec<u8> {
    let random = &mut Random(1);
    let mut w = page();
    w.element(1, "div", &[("class", "document"), ("id", "main")]);
    while w.counts[0] + 40 < rows {
        w.element(2, "div", &[("class", "section"), ("id", "s1")]);
        w.element(3, "h2", &[]);
        w.text(4, &prose(random, 4));
        for _ in 0..random.between(1, 4) {
            w.element(3, "p", &[]);
            w.text(4, &prose(random, 12));
            w.element(4, "a", &[("class", "reference internal"), ("href", "other.html#s2")]);
            w.text(5, &prose(random, 2));
            w.text(4, &prose(random, 9));
            w.element(4, "em", &[]);
            w.text(5, &prose(random, 1));
            w.text(4, &prose(random, 6));
            w.text(3, "\n");
        }
        if random.percent(40) {
            w.element(3, "ul", &[("class", "simple")]);
            for _ in 0..4 {
                w.text(4, "\n");
                w.element(4, "li", &[]);
                w.element(5, "p", &[]);
                w.text(6, &prose(random, 8));
            }
        }
        if random.percent(25) {
            w.element(3, "pre", &[]);
            w.text(4, "let x = 1;\n    y(x);\n");
        }
    }
    while w.counts[0] < rows {
        w.text(1, "\n");
    }
    w.bytes()
}

fn deep(rows: usize) -> Vec<u8> {
    let random = &mut Random(2);
    let mut w = page();
    while w.counts[0] + 500 < rows {
        for depth in 1..400 {
            w.element(depth, if depth % 3 == 0 { "section" } else { "div" }, &[]);
            if depth % 20 == 0 {
                w.text(depth + 1, &prose(random, 5));
            }
        }
        w.text(400, &prose(random, 8));
    }
    w.bytes()
}

/// Paragraphs, one beside the other.
fn wide(rows: usize) -> Vec<u8> {
    let random = &mut Random(7);
    let mut w = page();
    while w.counts[0] + 2 < rows {
        w.element(1, "p", &[]);
        w.text(2, &prose(random, 6));
    }
    w.bytes()
}

/// Footers, one beside the other, in two divs: each is asked for what stands behind it and behind the rows above it.
fn footers(rows: usize) -> Vec<u8> {
    let random = &mut Random(8);
    let mut w = page();
    w.element(1, "div", &[]);
    w.element(2, "div", &[]);
    while w.counts[0] + 2 < rows {
        w.element(3, "footer", &[]);
        w.text(4, &prose(random, 6));
    }
    w.bytes()
}

fn tables() -> Vec<u8> {
    let random = &mut Random(3);
    let mut w = page();
    while w.counts[0] + 200 < 20_000 {
        w.element(1, "table", &[("class", "docutils")]);
        w.element(2, "tbody", &[]);
        for _ in 0..15 {
            w.element(3, "tr", &[]);
            for _ in 0..5 {
                w.element(4, "td", &[]);
                w.text(5, &prose(random, 3));
                w.text(4, "\n");
            }
        }
    }
    w.bytes()
}

fn lists() -> Vec<u8> {
    let random = &mut Random(4);
    let mut w = page();
    while w.counts[0] + 200 < 20_000 {
        for depth in 0..6 {
            w.element(2 * depth + 1, if depth % 2 == 0 { "ul" } else { "ol" }, &[]);
            for _ in 0..8 {
                w.element(2 * depth + 2, "li", &[]);
                w.text(2 * depth + 3, &prose(random, 4));
            }
        }
    }
    w.bytes()
}

fn classes() -> Vec<u8> {
    let random = &mut Random(5);
    let names = [
        "col-md-6 col-sm-12 js-item", "entry-content clearfix", "wp-block-group alignwide", "post-4711 type-post status-publish", "menu-item menu-item-type-custom",
        "widget_text widget-odd", "btn btn-primary btn-lg", "site-main container-fluid", "row no-gutters", "caption-text text-muted small", "elementor-element elementor-widget",
        "td-pb-span8 td-main-content", "has-large-font-size has-text-align-center",
    ];
    let mut w = page();
    w.element(1, "main", &[]);
    while w.counts[0] + 40 < 20_000 {
        let name: &str = *random.one(&["div", "section", "p", "span", "td", "div"]);
        let (class, id) = (*random.one(&names), format!("node-{}-{}", random.below(9999), random.word("left middle item box")));
        w.element(2, "div", &[("class", class), ("id", &id)]);
        w.element(3, name, &[("class", *random.one(&names)), ("style", "margin: 0; color: #333")]);
        w.text(4, &prose(random, 8));
    }
    w.bytes()
}

fn long_text() -> Vec<u8> {
    let random = &mut Random(6);
    let mut w = page();
    for _ in 0..150 {
        w.element(1, "p", &[]);
        w.text(2, &prose(random, 4000));
    }
    w.bytes()
}

/// 4,190,000 bytes in ten texts: near to the most that a pool holds.
fn four_megabytes() -> Vec<u8> {
    let random = &mut Random(9);
    let mut w = page();
    for _ in 0..10 {
        w.element(1, "p", &[]);
        w.text(2, &prose_of(random, 419_000));
    }
    w.bytes()
}

fn link(bytes: usize) -> Vec<u8> {
    let random = &mut Random(10);
    let mut w = page();
    w.element(1, "p", &[]);
    w.element(2, "a", &[("href", "other.html#s2")]);
    w.text(3, &prose_of(random, bytes));
    w.bytes()
}

fn small() -> Vec<u8> {
    let mut w = page();
    w.element(1, "h1", &[]);
    w.text(2, "Winch 4");
    w.element(1, "p", &[("class", "note")]);
    w.text(2, "Grease the chain ");
    w.element(2, "b", &[]);
    w.text(3, "weekly");
    w.text(2, ".");
    w.element(1, "ul", &[]);
    w.element(2, "li", &[]);
    w.text(3, "drum");
    w.element(2, "li", &[]);
    w.text(3, "brake");
    w.bytes()
}

// ---- answers

/// A page, what each program takes of it, and the buffers that are lent.
struct Page {
    name: String,
    options: Vec<u8>,
    sheet: Vec<u8>,
    rows: usize,
    opts: ExtractOptions,
    tree: HtmlTree,
    out: Vec<u8>,
    work: Vec<u8>,
}

fn page_of(name: String, options: &str, sheet: Vec<u8>) -> Page {
    let options = format!("{}\n", options).into_bytes();
    let read = sheet::read(&sheet).unwrap();
    let (opts, rows, tree) = (cases::options(&options).unwrap(), read.rows.len(), HtmlTree(read.shared()));
    let mut p = Page { name, options, sheet, rows, opts, tree, out: vec![], work: vec![] };
    let length = lend(&mut p);
    assert!(p.out[..length] == *extract_plain_text(&p.tree, &p.opts).unwrap().as_bytes(), "{}: the texts differ", p.name);
    p
}

fn extract(by: Extract, p: &mut Page) -> Answer {
    let (options, sheet, out, work) = (&p.options, &p.sheet, &mut p.out, &mut p.work);
    unsafe { by(options.as_ptr(), sheet.as_ptr(), sheet.len(), out.as_mut_ptr(), out.len(), work.as_mut_ptr(), work.len()) }
}

/// An answer, the buffers filled before it.
fn answer(by: Extract, p: &mut Page) -> Answer {
    p.out.fill(0xA5);
    p.work.fill(0xA5);
    extract(by, p)
}

/// The reader's answer; that of the older build is the same, and so is every byte of both buffers after it.
fn agreed(p: &mut Page) -> Answer {
    let Some(before) = BEFORE else {
        return answer(reader_answer, p);
    };
    let was = (answer(before, p), p.out.clone(), p.work.clone());
    let a = answer(reader_answer, p);
    assert_eq!(a, was.0, "{}: the answers of reader and older build", p.name);
    assert!(p.out == was.1 && p.work == was.2, "{}: reader and older build leave other bytes", p.name);
    a
}

/// Lends buffers that are long enough and no longer; then out holds the text, whose length is given.
fn lend(p: &mut Page) -> usize {
    loop {
        let a = agreed(p);
        match a.number {
            0 => return a.length as usize,
            31 => p.work.resize(a.second as usize, 0),
            32 => p.out.resize(a.second as usize, 0),
            n => panic!("{}: refused, {} {}", p.name, n, a.second),
        }
    }
}

// ---- times

type Program = fn(&mut Page);

fn by_rust(p: &mut Page) {
    black_box(extract_plain_text(&p.tree, &p.opts).unwrap());
}

fn by_reader(p: &mut Page) {
    black_box(extract(reader_answer, p));
}

fn by_before(p: &mut Page) {
    black_box(extract(BEFORE.unwrap(), p));
}

fn by_check(p: &mut Page) {
    black_box(unsafe { reader_check(p.sheet.as_ptr(), p.sheet.len()) });
}

fn median(mut times: Vec<f64>) -> f64 {
    times.sort_by(f64::total_cmp);
    times[times.len() / 2]
}

/// ns for one time over the pages, of so many.
fn timed(times: usize, by: Program, pages: &mut [Page]) -> f64 {
    let start = Instant::now();
    for _ in 0..times {
        pages.iter_mut().for_each(by);
    }
    start.elapsed().as_nanos() as f64 / times as f64
}

/// Medians, in ns for one time over the pages.
struct Times {
    check: f64,
    rust: f64,
    reader: f64,
    before: Option<f64>,
    /// Of the ratios of the reader's run to that of the older build beside it.
    after_before: f64,
}

/// The programs in turns, each run about so many ns; reader and older build, the last, change places after each round.
fn times(pages: &mut [Page], rounds: usize, ns: f64) -> Times {
    let mut programs: Vec<Program> = vec![by_check, by_rust, by_reader];
    if BEFORE.is_some() {
        programs.push(by_before);
    }
    let often: Vec<usize> = programs.iter().map(|&by| ((ns / timed(1, by, pages)) as usize).max(1)).collect();
    let mut runs = vec![vec![]; programs.len()];
    let mut order: Vec<usize> = (0..programs.len()).collect();
    for _ in 0..rounds {
        for &k in &order {
            runs[k].push(timed(often[k], programs[k], pages));
        }
        order[2..].reverse();
    }
    let ratios = runs[2].iter().zip(runs.last().unwrap()).map(|(after, before)| after / before).collect();
    let medians: Vec<f64> = runs.into_iter().map(median).collect();
    Times { check: medians[0], rust: medians[1], reader: medians[2], before: medians.get(3).copied(), after_before: median(ratios) }
}

fn head() {
    let reader = std::env::var("READER").unwrap_or("reader".into());
    // "bare": without the sheet's validation, whose time is taken by itself
    print!("{:34}{:>8}{:>10}{:>10}{:>10}{:>10}{:>8}{:>8}", "page", "rows", "bytes", "Rust", reader, "bare", "ratio", "bare");
    println!("{}", if BEFORE.is_some() { format!("{:>10}{:>14}", "before", "after/before") } else { String::new() });
    print!("{:52}{:>10}{:>10}{:>10}", "", "ns a row", "ns a row", "ns a row");
    println!("{}", if BEFORE.is_some() { format!("{:>26}", "ns a row") } else { String::new() });
}

fn measure(name: &str, pages: &mut [Page]) {
    let rows: usize = pages.iter().map(|p| p.rows).sum();
    let bytes: usize = pages.iter().map(|p| p.sheet.len()).sum();
    // about 20 ms a run; more rounds for the smaller differences of two builds
    let t = times(pages, if BEFORE.is_some() { 21 } else { 11 }, 20e6);
    let a_row = |ns: f64| ns / rows as f64;
    let (rust, reader, bare) = (a_row(t.rust), a_row(t.reader), a_row(t.reader - t.check));
    print!("{:34}{:8}{:10}{:10.1}{:10.1}{:10.1}{:8.2}{:8.2}", name, rows, bytes, rust, reader, bare, reader / rust, bare / rust);
    println!("{}", t.before.map_or(String::new(), |b| format!("{:10.1}{:14.3}", a_row(b), t.after_before)));
}

/// How many of the pages' ratios are above `above`, their median, and the highest with the number of its page.
fn slower(than: &str, above: f64, ratios: Vec<f64>) {
    let (pages, count) = (ratios.len(), ratios.iter().filter(|&&r| r > above).count());
    let (at, highest) = ratios.iter().enumerate().max_by(|(_, r), (_, s)| r.total_cmp(s)).unwrap();
    print!("    above {:.2} of {}: {} of {} pages, highest {:.2} (page {})", above, than, count, pages, highest, at + 1);
    println!(", median {:.3}", median(ratios));
}

/// Each page by itself.
fn measure_apart(pages: &mut [Page]) {
    let all: Vec<Times> = pages.chunks_mut(1).map(|p| times(p, 21, 1e6)).collect();
    slower("the Rust", 1.0, all.iter().map(|t| t.reader / t.rust).collect());
    if BEFORE.is_some() {
        slower("before", 1.05, all.iter().map(|t| t.after_before).collect());
    }
}

fn measure_one(name: &str, options: &str, sheet: Vec<u8>) {
    measure(name, &mut [page_of(name.into(), options, sheet)]);
}

/// In Basic, Off and MinimalHtml.
fn measure_each(name: &str, sheet: Vec<u8>) {
    measure_one(name, BASIC, sheet.clone());
    measure_one(&format!("{}, Off", name), OFF, sheet.clone());
    measure_one(&format!("{}, MinimalHtml", name), HTML, sheet);
}

fn made_pages() {
    measure_one("small", BASIC, small());
    measure_each("handbook, 5,000", handbook(5_000));
    measure_one("handbook, 5,000, main_content", MAIN_CONTENT, handbook(5_000));
    measure_one("handbook, 20,000", BASIC, handbook(20_000));
    measure_one("handbook, 20,000, MinimalHtml", HTML, handbook(20_000));
    measure_one("handbook, 20,000, main_content", MAIN_CONTENT, handbook(20_000));
    for rows in [5_000, 10_000, 20_000] {
        measure_each(&format!("wide, {}", rows), wide(rows));
        measure_one(&format!("wide, {}, main_content", rows), MAIN_CONTENT, wide(rows));
        measure_each(&format!("deep, {}", rows), deep(rows));
        measure_one(&format!("deep, {}, main_content", rows), MAIN_CONTENT, deep(rows));
    }
    for rows in [5_000, 10_000, 20_000] {
        measure_one(&format!("footers, {}, main_content", rows), MAIN_CONTENT, footers(rows));
    }
    measure_each("tables", tables());
    measure_each("lists", lists());
    measure_one("classes, main_content", MAIN_CONTENT, classes());
    measure_each("long text", long_text());
    measure_each("4 MB of text", four_megabytes());
    measure_one("link of 19,999 bytes, MinimalHtml", HTML_LINKS, link(19_999));
}

/// The cases of a file, by their options.
fn real_pages(bytes: &[u8]) {
    for options in [BASIC, OFF, HTML, HTML_LINKS_FORMS, MAIN_CONTENT] {
        let cases = cases::unframed(bytes).into_iter().filter(|c| c[..options.len()] == *options.as_bytes()).enumerate();
        let page = |(i, c): (usize, &[u8])| page_of(format!("page {}, {}", i + 1, options), options, c[cases::LINE..].to_vec());
        let mut pages: Vec<Page> = cases.map(page).collect();
        if pages.is_empty() {
            continue;
        }
        measure(&format!("{} cases, {}", pages.len(), options), &mut pages);
        measure_apart(&mut pages);
    }
}

fn main() {
    head();
    made_pages();
    if let Some(file) = std::env::args().nth(1) {
        real_pages(&std::fs::read(file).unwrap());
    }
}
