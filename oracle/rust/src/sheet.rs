//! A sheet, read as document 01 has it, and the tree that it holds.

use std::cell::{Cell, RefCell};
use std::rc::Rc;

pub const ELEMENT: usize = 1;
pub const TEXT: usize = 3;
pub const COMMENT: usize = 8;

pub struct Row {
    pub depth: usize,
    pub kind: usize,
    pub marked: bool,
    pub name: Box<str>,
    pub value: Box<str>,
    pub attributes: Vec<(Box<str>, Box<str>)>,
    pub parent: Option<usize>,
    pub first_child: Option<usize>,
    pub next_sibling: Option<usize>,
    /// The first row past this one and all below it.
    pub past: usize,
}

pub struct Page {
    pub rows: Vec<Row>,
    pub root: usize,
    /// The passes of the walk's loop (parse.rs).
    pub passes: Cell<usize>,
    /// Whether the list of selectors finds rows by their names, and not the marked ones alone.
    pub by_name: bool,
    /// The rows that the list of selectors found last.
    pub found: RefCell<Vec<usize>>,
}

/// A number and a second number of document 01.
pub type Refusal = (usize, usize);

fn field(bytes: &[u8]) -> Option<usize> {
    let digits = bytes.iter().position(|&b| b != b' ').map(|i| &bytes[i..])?;
    if digits.iter().any(|b| !b.is_ascii_digit()) || (digits[0] == b'0' && digits.len() > 1) {
        return None;
    }
    Some(digits.iter().fold(0, |n, b| n * 10 + (b - b'0') as usize))
}

/// The numbers of a line, whose last byte is LF.
fn line<const K: usize>(bytes: &[u8]) -> Option<[usize; K]> {
    let mut numbers = [0; K];
    for (k, n) in numbers.iter_mut().enumerate() {
        *n = field(&bytes[8 * k..8 * k + 8])?;
    }
    (bytes[8 * K] == b'\n').then_some(numbers)
}

// The fields of a node line and of an attribute line.
const DEPTH: usize = 0;
const KIND: usize = 1;
const SKIP: usize = 2;
const NAME: usize = 3;
const VALUE: usize = 5;
const ATTRIBUTES: usize = 7;
const NODE_RANGES: [usize; 2] = [NAME, VALUE];
const ATTRIBUTE_RANGES: [usize; 2] = [0, 2];

fn first<T>(lines: &[T], wrong: impl Fn(usize, &T) -> bool) -> Option<usize> {
    (0..lines.len()).find(|&i| wrong(i, &lines[i]))
}

/// The page of a sheet, or document 01's refusal, 11 to 17.
pub fn read(sheet: &[u8]) -> Result<Page, Refusal> {
    if sheet.len() < 33 {
        return Err((11, 33));
    }
    let [n, a, p, root] = line::<4>(sheet).ok_or((12, 0))?;
    if !(1..=20_000).contains(&n) || a > 60_000 || p > 4_194_304 || root >= n {
        return Err((13, 0));
    }
    let pool_at = 33 + 65 * n + 33 * a;
    if sheet.len() != pool_at + p {
        return Err((11, pool_at + p));
    }
    let pool = &sheet[pool_at..];
    let mut nodes: Vec<[usize; 8]> = vec![];
    for i in 0..n {
        nodes.push(line(&sheet[33 + 65 * i..]).ok_or((12, i + 1))?);
    }
    let mut attributes: Vec<[usize; 4]> = vec![];
    for j in 0..a {
        attributes.push(line(&sheet[33 + 65 * n + 33 * j..]).ok_or((12, n + j + 1))?);
    }

    let wrong_kind = |_: usize, r: &[usize; 8]| {
        let element = r[KIND] == ELEMENT;
        ![ELEMENT, TEXT, COMMENT].contains(&r[KIND])
            || r[SKIP] > 1
            || (!element && (r[NAME + 1] != 0 || r[ATTRIBUTES] != 0))
            || (element && r[VALUE + 1] != 0)
    };
    if let Some(i) = first(&nodes, wrong_kind) {
        return Err((15, i + 1));
    }

    let is_body = |r: &[usize; 8]| r[KIND] == ELEMENT && pool.get(r[NAME]..r[NAME] + r[NAME + 1]) == Some(b"body") && r[DEPTH] == 0;
    let parent = |i: usize| (0..i).rev().find(|&j| nodes[j][DEPTH] + 1 == nodes[i][DEPTH]);
    // the last row at each depth so far
    let mut last: Vec<usize> = vec![];
    for (i, r) in nodes.iter().enumerate() {
        if i == 0 {
            if !is_body(r) {
                return Err((14, 1));
            }
        } else {
            let d = r[DEPTH];
            if d == 0 || d > 500 || d > nodes[i - 1][DEPTH] + 1 || nodes[last[d - 1]][KIND] != ELEMENT {
                return Err((14, i + 1));
            }
            debug_assert_eq!(parent(i), Some(last[d - 1]));
        }
        last.truncate(r[DEPTH]);
        last.push(i);
    }
    if nodes[root][KIND] != ELEMENT {
        return Err((14, 0));
    }

    let outside = |r: &[usize], ranges: [usize; 2]| ranges.iter().any(|&k| r[k] + r[k + 1] > p);
    if let Some(i) = first(&nodes, |_, r| outside(r, NODE_RANGES)) {
        return Err((16, i + 1));
    }
    if let Some(j) = first(&attributes, |_, r| outside(r, ATTRIBUTE_RANGES)) {
        return Err((16, n + j + 1));
    }
    if nodes.iter().map(|r| r[ATTRIBUTES]).sum::<usize>() != a {
        return Err((16, 0));
    }

    let text = |r: &[usize], k: usize| std::str::from_utf8(&pool[r[k]..r[k] + r[k + 1]]);
    if let Some(i) = first(&nodes, |_, r| NODE_RANGES.iter().any(|&k| text(r, k).is_err())) {
        return Err((17, i + 1));
    }
    if let Some(j) = first(&attributes, |_, r| ATTRIBUTE_RANGES.iter().any(|&k| text(r, k).is_err())) {
        return Err((17, n + j + 1));
    }

    let owned = |r: &[usize], k: usize| text(r, k).unwrap().into();
    let mut rows: Vec<Row> = vec![];
    let mut used = 0;
    for r in &nodes {
        rows.push(Row {
            depth: r[DEPTH],
            kind: r[KIND],
            marked: r[SKIP] == 1,
            name: owned(r, NAME),
            value: owned(r, VALUE),
            attributes: attributes[used..used + r[ATTRIBUTES]].iter().map(|a| (owned(a, 0), owned(a, 2))).collect(),
            parent: None,
            first_child: None,
            next_sibling: None,
            past: n,
        });
        used += r[ATTRIBUTES];
    }
    relate(&mut rows);
    Ok(Page { rows, root, passes: Cell::new(0), by_name: false, found: RefCell::default() })
}

fn relate(rows: &mut [Row]) {
    // the open rows, the last the deepest
    let mut open: Vec<usize> = vec![];
    for i in 0..rows.len() {
        let d = rows[i].depth;
        while open.len() > d {
            let j = open.pop().unwrap();
            rows[j].past = i;
            if rows[j].depth == d {
                rows[j].next_sibling = Some(i);
            }
        }
        rows[i].parent = open.last().copied();
        if i > 0 && rows[i - 1].depth < d {
            rows[i - 1].first_child = Some(i);
        }
        open.push(i);
    }
}

impl Page {
    pub fn shared(self) -> Rc<Page> {
        Rc::new(self)
    }
}
