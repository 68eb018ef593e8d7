//! The text of a page; tests/c/extract.c has more pages, and the buffers.

use levzhada::{extract, Formatting, Options, Refusal};
use std::process::Command;

/// A body and so many rows below it, of one kind and of one name or value.
fn rows(count: usize, kind: usize, bytes: &str) -> Vec<u8> {
    let (name, value) = if kind == 1 {
        (bytes.len(), 0)
    } else {
        (0, bytes.len())
    };
    let pool = format!("body{bytes}");
    let mut sheet = format!("{:8}{:8}{:8}{:8}\n", count + 1, 0, pool.len(), 0);
    sheet += &format!("{:8}{:8}{:8}{:8}{:8}{:8}{:8}{:8}\n", 0, 1, 0, 0, 4, 0, 0, 0);
    for _ in 0..count {
        sheet += &format!(
            "{:8}{:8}{:8}{:8}{:8}{:8}{:8}{:8}\n",
            1, kind, 0, 4, name, 4, value, 0
        );
    }
    (sheet + &pool).into_bytes()
}

fn formatted(formatting: Formatting) -> Options {
    let mut options = Options::default();
    options.formatting = formatting;
    options
}

fn check_text(sheet: &[u8], options: &Options, text: &str, visits: usize) {
    let t = extract(sheet, options).unwrap();
    assert_eq!((t.text.as_str(), t.visits), (text, visits));
}

#[test]
fn lines() {
    assert_eq!(&Options::default().line(), b"10110011000\n");
    let mut options = formatted(Formatting::MinimalHtml);
    options.icons = true;
    assert_eq!(&options.line(), b"20110011010\n");
    options.missing_alt = true;
    assert_eq!(&options.line(), b"20110011011\n");
    let mut options = formatted(Formatting::Off);
    options.main_content = true;
    options.links = true;
    assert_eq!(&options.line(), b"01111011000\n");
}

#[test]
fn texts() {
    let standing = Options::default();
    check_text(&rows(0, 3, ""), &standing, "", 1);
    check_text(&rows(1, 3, "hi"), &standing, "hi", 3);
    check_text(&rows(1, 3, "é–𝄞"), &standing, "é–𝄞", 3);
    let html = formatted(Formatting::MinimalHtml);
    check_text(&rows(1, 3, "a&b"), &html, "a&amp;b", 3);
}

#[test]
fn icons() {
    let mut options = Options::default();
    options.main_content = true;
    check_text(&rows(1, 3, "\u{F0000}"), &options, "\u{F0000}", 3);
    check_text(&rows(1, 3, "−"), &options, "", 3);
    options.icons = true;
    check_text(&rows(1, 3, "\u{F0000}"), &options, "", 3);
    check_text(&rows(1, 3, "\u{FFFFE}"), &options, "\u{FFFFE}", 3);
    check_text(&rows(1, 3, "−"), &options, "−", 3);
}

/// A body with an element of that name, which has one attribute.
fn element(name: &str, attribute: &str, value: &str) -> Vec<u8> {
    let (n, a, v) = (name.len(), attribute.len(), value.len());
    let mut sheet = format!("{:8}{:8}{:8}{:8}\n", 2, 1, 4 + n + a + v, 0);
    sheet += &format!("{:8}{:8}{:8}{:8}{:8}{:8}{:8}{:8}\n", 0, 1, 0, 0, 4, 0, 0, 0);
    sheet += &format!("{:8}{:8}{:8}{:8}{:8}{:8}{:8}{:8}\n", 1, 1, 0, 4, n, 0, 0, 1);
    sheet += &format!("{:8}{:8}{:8}{:8}\n", 4 + n, a, 4 + n + a, v);
    (sheet + "body" + name + attribute + value).into_bytes()
}

#[test]
fn missing_alts() {
    let mut options = Options::default();
    check_text(&rows(2, 1, "img"), &options, "", 4);
    options.missing_alt = true;
    check_text(&rows(2, 1, "img"), &options, "[picture][picture]", 4);
    check_text(&element("area", "title", "t"), &options, "[picture]", 3);
    check_text(&element("img", "ALT", "i"), &options, "[picture]", 3);
    check_text(&element("img", "alt", ""), &options, "", 3);
    check_text(&element("area", "alt", "i"), &options, "i", 3);
    check_text(&rows(1, 1, "svg"), &options, "", 3);
    options.alt_texts = false;
    check_text(&rows(1, 1, "img"), &options, "", 3);
}

#[test]
fn buffers_grow() {
    let word = "x".repeat(5000);
    check_text(&rows(1, 3, &word), &Options::default(), &word, 3);
    let html = formatted(Formatting::MinimalHtml);
    let escaped = "&amp;".repeat(4000);
    check_text(&rows(1, 3, &"&".repeat(4000)), &html, &escaped, 3);
}

#[test]
fn refusals() {
    let standing = Options::default();
    assert_eq!(extract(b"", &standing), Err(Refusal::Length(33)));
    assert_eq!(
        extract(&rows(1, 3, "\0")[1..], &standing),
        Err(Refusal::Format(0))
    );
    assert_eq!(
        extract(&rows(1025, 1, "ul"), &standing),
        Err(Refusal::ListLevels(1026))
    );
    assert_eq!(
        extract(&rows(1025, 1, "tr"), &standing),
        Err(Refusal::OpenRows(1026))
    );
}

#[test]
fn a_thread_with_little_stack() {
    let sheet = rows(19_999, 3, "ab");
    let mut options = formatted(Formatting::MinimalHtml);
    options.main_content = true;
    let thread = std::thread::Builder::new().stack_size(levzhada::STACK + (64 << 10));
    let read = thread.spawn(move || check_text(&sheet, &options, &"ab".repeat(19_999), 20_001));
    read.unwrap().join().unwrap();
}

/// Runs a test once more, in a process of its own with so many KiB of address space; true in that process.
fn is_limited(test: &str, kib: usize) -> bool {
    const LIMITED: &str = "LEVZHADA_TEST_LIMITED";
    if std::env::var_os(LIMITED).is_some() {
        return true;
    }
    let run = Command::new("sh")
        .args(["-c", "ulimit -v \"$2\" && exec \"$0\" --exact \"$1\""])
        .arg(std::env::current_exe().unwrap())
        .args([test, &kib.to_string()])
        .env(LIMITED, "1")
        .output()
        .unwrap();
    let said = String::from_utf8_lossy(&run.stdout);
    assert!(run.status.success(), "{}: {said}", run.status);
    assert!(said.contains("1 passed"), "{said}");
    false
}

#[test]
fn no_memory_for_work() {
    if is_limited("no_memory_for_work", 1_000_000) {
        let sheet = rows(1500, 3, &"x".repeat(4_194_300));
        let refusal = extract(&sheet, &Options::default()).unwrap_err();
        assert_eq!(refusal, Refusal::Work(6_291_450_000));
        assert_eq!(refusal.numbers(), (31, 6_291_450_000));
    }
}

#[test]
fn no_memory_for_out() {
    if is_limited("no_memory_for_out", 400_000) {
        let sheet = rows(20, 3, &"&".repeat(4_194_300));
        let refusal = extract(&sheet, &formatted(Formatting::MinimalHtml)).unwrap_err();
        assert_eq!(refusal, Refusal::Out(419_430_000));
        assert_eq!(refusal.numbers(), (32, 419_430_000));
    }
}

/// The text is within the limit, its characters beside it are not.
#[test]
fn no_memory_for_characters() {
    if is_limited("no_memory_for_characters", 400_000) {
        let refusal = levzhada::unescape(&vec![0; 220_000_000]).unwrap_err();
        assert_eq!(refusal, Refusal::Characters(220_000_000));
        assert_eq!(refusal.numbers(), (52, 220_000_000));
    }
}

#[test]
fn no_memory_for_a_visible_text() {
    if is_limited("no_memory_for_a_visible_text", 400_000) {
        let sheet = rows(150, 3, &"x".repeat(4_194_300));
        let refusal = levzhada::visible_text(&sheet, 0).unwrap_err();
        assert_eq!(refusal, Refusal::VisibleText(629_145_000));
        assert_eq!(refusal.numbers(), (53, 629_145_000));
        let said = "53: no memory for 629145000 bytes of visible text";
        assert_eq!(refusal.to_string(), said);
    }
}
