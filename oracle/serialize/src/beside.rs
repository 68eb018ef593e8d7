//! The library and the Rust, row by row.

use serialize::library::{Answer, check, visible_text};
use serialize::sheet::{self, Page};
use serialize::tree::Tree;
use serialize::visible;
use std::io::{BufWriter, Read, Write};

/// Rows that are asked of one page, at most: each call reads the whole sheet.
const MOST: usize = 2500;
const EDGE: usize = 64;
const FILL: u8 = 0xA5;

#[derive(Default)]
struct Counts {
    pages: usize,
    rows: usize,
    calls: usize,
    texts: usize,
    longer_needs: usize,
    longest: usize,
}

/// Out, and what stands on both sides of it.
#[derive(Default)]
struct Room(Vec<u8>);

impl Room {
    /// A call into so many bytes; the answer, out, and whether the bytes around it are as they were.
    fn call(&mut self, sheet: &[u8], row: usize, room: usize) -> (Answer, &[u8], bool) {
        self.0.clear();
        self.0.resize(room + 2 * EDGE, FILL);
        let a = visible_text(sheet, row, &mut self.0[EDGE..EDGE + room]);
        let edges = self.0[..EDGE].iter().chain(&self.0[EDGE + room..]).all(|&b| b == FILL);
        (a, &self.0[EDGE..EDGE + room], edges)
    }
}

fn shown(page: &Page) -> String {
    let rows = page.rows.iter().enumerate();
    rows.map(|(i, r)| format!("{:4} {}{} {:?} {:?}\n", i, "  ".repeat(r.depth), r.kind, r.name, r.value)).collect()
}

/// What the call must say, and out after it.
fn wanted(text: &str, need: usize, room: usize) -> (Answer, Vec<u8>) {
    let answer = |number, second, length| Answer { number, second, visits: 0, length };
    if room < need {
        return (answer(53, need, 0), vec![FILL; room]);
    }
    let mut out = vec![0; room];
    out[..text.len()].copy_from_slice(text.as_bytes());
    (answer(0, 0, text.len()), out)
}

fn page(bytes: &[u8], room: &mut Room, counts: &mut Counts) {
    let page = sheet::read(bytes).unwrap();
    assert_eq!(check(bytes).number, 0, "the sheet is refused");
    let tree = Tree::new(&page);
    let step = page.rows.len().div_ceil(MOST);
    for row in (0..page.rows.len()).step_by(step) {
        let text = visible(&tree, row);
        let need = text.longest;
        let mut rooms = vec![need.saturating_sub(1), need, need + 1 + row % 7];
        if page.rows.len() < 100 {
            rooms.extend([0, need / 2, text.len(), need + 1]);
        }
        for length in rooms {
            let (answer, out) = wanted(&text, need, length);
            let (a, after, edges) = room.call(bytes, row, length);
            if a != answer || after != out || !edges {
                let said = String::from_utf8_lossy(&after[..a.length.min(after.len())]);
                eprintln!("{}row {} into {} bytes, those around it kept: {}", shown(&page), row, length, edges);
                eprintln!("the library {:?} {:?}\nthe Rust {:?} {:?}, need {}", a, said, answer, text.as_str(), need);
                std::fs::write("target/oracle/difference", bytes).unwrap();
                std::process::exit(1);
            }
            counts.calls += 1;
        }
        counts.rows += 1;
        counts.texts += (text.len() > 0) as usize;
        counts.longer_needs += (need > text.len()) as usize;
        counts.longest = counts.longest.max(need);
    }
    counts.pages += 1;
}

pub fn pages(sheets: impl Iterator<Item = Vec<u8>>) {
    let (mut room, mut counts) = (Room::default(), Counts::default());
    sheets.for_each(|s| page(&s, &mut room, &mut counts));
    let Counts { pages, rows, calls, texts, longer_needs, longest } = counts;
    print!("{} pages, {} rows, {} calls; {} texts not empty, {} needs above the length, ", pages, rows, calls, texts, longer_needs);
    println!("the greatest {}; no difference", longest);
}

const LINE: usize = 12;

/// The numbers of a line in columns of 8; none at the end.
fn numbers<const K: usize>(from: &mut impl Read) -> Option<[usize; K]> {
    let mut line = vec![0; 8 * K + 1];
    let first = from.read(&mut line[..1]).unwrap();
    if first == 0 {
        return None;
    }
    from.read_exact(&mut line[1..]).unwrap();
    let number = |k: usize| std::str::from_utf8(&line[8 * k..8 * k + 8]).unwrap().trim_start().parse().unwrap();
    Some(std::array::from_fn(number))
}

fn bytes(from: &mut impl Read, length: usize) -> Vec<u8> {
    let mut s = vec![0; length];
    from.read_exact(&mut s).unwrap();
    s
}

pub fn cases() {
    let mut from = std::io::BufReader::new(std::io::stdin().lock());
    pages(std::iter::from_fn(|| numbers::<1>(&mut from).map(|[n]| bytes(&mut from, n)[LINE..].to_vec())));
}

/// A page, how many calls, and the row and out's length of each.
pub fn answers() {
    let mut from = std::io::BufReader::new(std::io::stdin().lock());
    let mut to = BufWriter::new(std::io::stdout().lock());
    while let Some([length, calls]) = numbers(&mut from) {
        let bytes = bytes(&mut from, length);
        let page = sheet::read(&bytes);
        let tree = page.as_ref().ok().map(Tree::new);
        for _ in 0..calls {
            let [row, room] = numbers(&mut from).unwrap();
            let unchanged = vec![b'#'; room];
            let (numbers, out) = match (&page, &tree) {
                (Err((number, second)), _) => ([*number, *second, 0, 0], unchanged),
                (Ok(page), _) if row >= page.rows.len() => ([35, row, 0, 0], unchanged),
                (_, Some(tree)) => {
                    let text = visible(tree, row);
                    let (a, out) = wanted(&text, text.longest, room);
                    ([a.number, a.second, 0, a.length], if a.number == 0 { out } else { unchanged })
                }
                _ => unreachable!(),
            };
            let [a, b, c, d] = numbers;
            writeln!(to, "{} {} {} {}", a, b, c, d).unwrap();
            to.write_all(&out).unwrap();
            to.write_all(b"\n").unwrap();
        }
    }
}
