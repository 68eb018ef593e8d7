//! Cases and answers as bytes. A case is its length in 8 columns, LF, and so many bytes: an option line and a sheet, as document
//! 01's program reads them. An answer is what that program prints.

use crate::extract::html2text::{ExtractOptions, Formatting, extract_plain_text};
use crate::parse::html::tree::HtmlTree;
use crate::sheet::{self, Page, Refusal};
use std::rc::Rc;

pub fn framed(case: &[u8]) -> Vec<u8> {
    let mut bytes = format!("{:8}\n", case.len()).into_bytes();
    bytes.extend(case);
    bytes
}

pub fn unframed(bytes: &[u8]) -> Vec<&[u8]> {
    let (mut cases, mut rest) = (vec![], bytes);
    while !rest.is_empty() {
        let n: usize = std::str::from_utf8(&rest[..8]).unwrap().trim_start().parse().unwrap();
        cases.push(&rest[9..9 + n]);
        rest = &rest[9 + n..];
    }
    cases
}

/// The digit of icons. Only 0 is the Rust's; built with ICONS it is 1, and the rule is that of oracle/rust/icons.diff.
pub const ICONS: u8 = if option_env!("ICONS").is_some() { b'1' } else { b'0' };

/// The digit of missing_alt: the Rust has no other.
pub const MISSING_ALT: u8 = b'0';

/// The length of an option line: eleven digits and LF.
pub const LINE: usize = 12;

/// The options of a line; none where the Rust has not got them.
pub fn options(line: &[u8]) -> Option<ExtractOptions> {
    let [f, flags @ .., ICONS, MISSING_ALT, b'\n'] = line else {
        return None;
    };
    if line.len() != LINE || flags.iter().any(|b| !matches!(b, b'0' | b'1')) {
        return None;
    }
    let on = |k: usize| flags[k] == b'1';
    Some(ExtractOptions {
        formatting: [Formatting::Off, Formatting::Basic, Formatting::MinimalHtml].get(f.checked_sub(b'0')? as usize).copied()?,
        main_content: on(0),
        list_bullets: on(1),
        alt_texts: on(2),
        links: on(3),
        form_fields: on(4),
        noscript: false,
        comments: on(5),
        post_meta: on(6),
        hidden_elements: on(7),
        skip_elements: vec![],
    })
}

pub struct Answer {
    pub numbers: [usize; 4],
    pub text: String,
}

impl Answer {
    pub fn refused((number, second): Refusal) -> Answer {
        Answer { numbers: [number, second, 0, 0], text: String::new() }
    }
    pub fn bytes(&self) -> Vec<u8> {
        let [a, b, c, d] = self.numbers;
        let mut bytes = format!("{:8}{:8}{:8}{:8}\n", a, b, c, d).into_bytes();
        if a == 0 {
            bytes.extend(self.text.as_bytes());
            bytes.push(b'\n');
        }
        bytes
    }
}

/// What the Rust says of a page.
pub fn extracted(page: &Rc<Page>, opts: &ExtractOptions) -> Answer {
    page.passes.set(0);
    let text = extract_plain_text(&HtmlTree(page.clone()), opts).unwrap();
    Answer { numbers: [0, 0, page.passes.get(), text.len()], text }
}

pub fn answer(case: &[u8]) -> Answer {
    let Some(opts) = case.get(..LINE).and_then(options) else {
        return Answer::refused((33, 0));
    };
    match sheet::read(&case[LINE..]) {
        Ok(page) => extracted(&page.shared(), &opts),
        Err(refusal) => Answer::refused(refusal),
    }
}

/// FNV-1a.
fn sum(text: &str) -> u64 {
    text.bytes().fold(0xcbf29ce484222325, |n, b| (n ^ b as u64).wrapping_mul(0x100000001b3))
}

/// What the Rust takes out of a page by name, as oracle/marks.c tells it: how many rows it finds below the root that have no mark, and the
/// rows that it finds or that have one; then visits, length and sum of the text.
pub fn taken_out(case: &[u8], noscript: bool) -> String {
    let mut opts = case.get(..LINE).and_then(options).expect("an option line");
    opts.noscript = noscript;
    let mut page = sheet::read(&case[LINE..]).expect("a sheet");
    page.by_name = true;
    let page = page.shared();
    let Answer { numbers: [_, _, visits, length], text } = extracted(&page, &opts);
    let found: Vec<usize> = page.found.take().into_iter().filter(|&i| i != page.root).collect();
    let mut line = found.iter().filter(|&&i| !page.rows[i].marked).count().to_string();
    for i in found {
        line += &format!(" {}", i);
    }
    format!("{}\ntext {} {} {:016x}\n", line, visits, length, sum(&text))
}
