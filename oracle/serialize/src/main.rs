//! serialize cases: every row of the pages on standard input, by the library and by the Rust; a case is its length in 8 columns, LF, an
//! option line and a sheet (oracle/rust/src/cases.rs). Of pages of more than MOST rows as many rows, evenly spread.
//! serialize generated SEED FROM COUNT, serialize small FROM COUNT: the same for the pages of pages.rs.
//! serialize answers: the Rust's answers to the calls on standard input (oracle/visible_text.py has their form).
//! serialize sums SEED FROM COUNT: a sum of each generated page's texts by the Rust, to be compared between the two builds.
#[cfg(feature = "needs")]
mod beside;

use serialize::sheet;
use serialize::tree::Tree;
use serialize::{pages, visible};
use std::io::{BufWriter, Write};

/// FNV-1a.
fn sum(n: u64, text: &str) -> u64 {
    text.bytes().chain([0xff]).fold(n, |n, b| (n ^ b as u64).wrapping_mul(0x100000001b3))
}

fn sums(seed: u64, from: u64, count: u64) {
    let mut out = BufWriter::new(std::io::stdout().lock());
    for number in from..from + count {
        let page = sheet::read(&pages::generated(seed, number)).unwrap();
        let tree = Tree::new(&page);
        let all = (0..page.rows.len()).fold(0xcbf29ce484222325, |n, row| sum(n, &visible(&tree, row)));
        writeln!(out, "{:016x}", all).unwrap();
    }
}

fn main() {
    let args: Vec<String> = std::env::args().collect();
    let number = |k: usize| args.get(k).and_then(|s: &String| s.parse::<u64>().ok()).expect("a number");
    match args.get(1).map(String::as_str) {
        Some("sums") => sums(number(2), number(3), number(4)),
        #[cfg(feature = "needs")]
        Some("answers") => beside::answers(),
        #[cfg(feature = "needs")]
        Some("cases") => beside::cases(),
        #[cfg(feature = "needs")]
        Some("generated") => beside::pages((number(3)..number(3) + number(4)).map(|k| pages::generated(number(2), k))),
        #[cfg(feature = "needs")]
        Some("small") => beside::pages((number(2)..pages::small_pages()).take(number(3) as usize).map(pages::small)),
        _ => panic!("cases, generated SEED FROM COUNT, small FROM COUNT, answers, or sums SEED FROM COUNT"),
    }
}
