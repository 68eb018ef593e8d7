//! The visible text of a row; tests/c/visible_text.c has more pages, and the buffers.

use levzhada::{visible_text, Refusal};

/// A row: its depth and what it is. An element's name has no blank.
enum Row {
    Element(usize, &'static str),
    Text(usize, &'static str),
    Comment(usize, &'static str),
}
use Row::{Comment, Element, Text};

/// A body and these rows below it, each marked or none.
fn page(rows: &[Row], marked: bool) -> Vec<u8> {
    let mut lines = format!("{:8}{:8}{:8}{:8}{:8}{:8}{:8}{:8}\n", 0, 1, 0, 0, 4, 0, 0, 0);
    let mut pool = String::from("body");
    for row in rows {
        let (depth, kind, shown) = match row {
            Element(depth, name) => (depth, 1, name),
            Text(depth, value) => (depth, 3, value),
            Comment(depth, value) => (depth, 8, value),
        };
        let (at, length) = (pool.len(), shown.len());
        let (name, value) = if kind == 1 { (length, 0) } else { (0, length) };
        lines += &format!(
            "{:8}{:8}{:8}{:8}{:8}{:8}{:8}{:8}\n",
            depth,
            kind,
            usize::from(marked),
            at,
            name,
            at,
            value,
            0
        );
        pool += shown;
    }
    let header = format!("{:8}{:8}{:8}{:8}\n", rows.len() + 1, 0, pool.len(), 0);
    (header + &lines + &pool).into_bytes()
}

fn check_text(rows: &[Row], row: usize, text: &str) {
    for marked in [false, true] {
        assert_eq!(visible_text(&page(rows, marked), row).as_deref(), Ok(text));
    }
}

#[test]
fn blocks() {
    check_text(&[], 0, "");
    check_text(
        &[Text(1, "a"), Element(1, "div"), Text(2, "b")],
        0,
        "a\nb\n",
    );
    check_text(&[Element(1, "div"), Text(2, "a"), Text(1, "b")], 0, "\nab");
    check_text(
        &[
            Element(1, "div"),
            Text(2, "a"),
            Comment(1, "c"),
            Text(1, "b"),
        ],
        0,
        "\nab",
    );
    check_text(
        &[Element(1, "p"), Text(2, "a"), Element(1, "p"), Text(2, "b")],
        0,
        "\n\na\n\nb\n\n",
    );
    check_text(
        &[
            Element(1, "div"),
            Element(2, "span"),
            Element(3, "p"),
            Text(4, "a"),
        ],
        0,
        "\n\na\n",
    );
    check_text(&[Element(1, "canvas"), Text(2, "a")], 0, "\na\n");
    check_text(&[Element(1, "center"), Text(2, "a")], 0, "a");
}

#[test]
fn texts() {
    check_text(&[Text(1, "\u{b} \u{b}a")], 0, "a");
    check_text(&[Text(1, "a "), Text(1, "\u{a0}\u{2003} x")], 0, "a x");
    check_text(&[Text(1, "a"), Text(1, "\u{a0} \n x")], 0, "a\u{a0} x");
    check_text(
        &[Element(1, "br"), Text(2, "x"), Text(1, "é–𝄞")],
        0,
        "\né–𝄞",
    );
    check_text(&[Element(1, "script"), Text(2, "x"), Text(1, "y")], 0, "y");
}

#[test]
fn pres() {
    let rows = [
        Text(1, "x "),
        Element(1, "pre"),
        Text(2, " a  b "),
        Text(1, "c"),
    ];
    check_text(&rows, 0, "x  a  b c");
    // the asked row is no pre, and the end is not stripped
    check_text(&rows, 2, "a b ");
    check_text(&rows, 1, "");
}

#[test]
fn refusals() {
    let sheet = page(&[Text(1, "a")], false);
    assert_eq!(visible_text(&sheet, 2), Err(Refusal::Row(2)));
    assert_eq!(
        visible_text(&sheet, usize::MAX),
        Err(Refusal::Row(usize::MAX))
    );
    assert_eq!(visible_text(b"", 0), Err(Refusal::Length(33)));
    assert_eq!(visible_text(&sheet[1..], 9), Err(Refusal::Format(0)));
    let mut damaged = sheet;
    *damaged.last_mut().unwrap() = 0xff;
    assert_eq!(visible_text(&damaged, 0), Err(Refusal::Encoding(2)));
    assert_eq!(visible_text(&damaged, 2), Err(Refusal::Encoding(2)));
}

/// The need is above the first length of out, and above the text's.
#[test]
fn buffers_grow() {
    let blanks: &str = Box::leak(" ".repeat(50_000).into_boxed_str());
    let rows = [Text(1, "x"), Element(1, "pre"), Text(2, blanks)];
    check_text(&rows, 0, "x\n");
    check_text(&rows, 2, "");
    let word: &str = Box::leak("y".repeat(50_000).into_boxed_str());
    check_text(&[Text(1, word)], 0, word);
}
