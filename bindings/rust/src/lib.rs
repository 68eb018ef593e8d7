//! Reads a web page's tree sheet: safe functions over `liblevzhada.a`.
//!
//! A sheet is the byte string that docs/SHEET.md of the repository lays down; numbers in brackets below are its refusals. Every function
//! comes back for every input, and none panics or aborts: where the allocator has not the memory for a text, that is a refusal with the
//! need. (A system that grants more memory than it has may still end the process when the memory is used.) The answers are proved of the
//! archive; the few lines here are tested.
//!
//! ```
//! use levzhada::Refusal;
//! let sheet = b"       1       0       4       0\n       0       1       0       0       4       0       0       0\nbody";
//! assert_eq!(levzhada::check(sheet), Ok(()));
//! assert_eq!(levzhada::parent(sheet, 1), Err(Refusal::Row(1)));
//! ```
//!
//! A call takes stack: [`extract()`] up to 384 KiB ([`STACK`]), 64 KiB on a sheet of up to 256 rows, and every other function up to 32 KiB.
//! This is measured (tests/c/stack.c of the repository), not proved, and it is the archive's share.

mod extract;
mod mark;
mod visible_text;

pub use extract::{extract, Formatting, Options, Text};
pub use mark::mark;
use std::error::Error;
use std::fmt;
use std::ops::Range;
pub use visible_text::visible_text;

/// The stack that the archive takes in any call, in bytes: at most this, as measured. A thread that makes calls has it and some more for
/// its own frames.
///
/// ```
/// let reading = std::thread::Builder::new().stack_size(levzhada::STACK + (64 << 10));
/// let read = reading.spawn(|| levzhada::extract(b"", &levzhada::Options::default()));
/// assert!(read.unwrap().join().unwrap().is_err());
/// ```
pub const STACK: usize = 393_216;

/// The functions of include/levzhada.h.
mod raw {
    #[repr(C)]
    #[derive(Clone, Copy)]
    pub struct Answer {
        pub number: usize,
        pub second: usize,
        pub visits: usize,
        pub length: usize,
    }

    #[repr(C)]
    pub struct Range {
        pub answer: Answer,
        pub present: usize,
        pub at: usize,
    }

    #[repr(C)]
    pub struct LinkMeasure {
        pub answer: Answer,
        pub exceeds: usize,
        pub share: f64,
    }

    extern "C" {
        pub fn levzhada_check(sheet: *const u8, sheet_length: usize) -> Answer;
        pub fn levzhada_parent(sheet: *const u8, sheet_length: usize, row: usize) -> Answer;
        pub fn levzhada_first_child(sheet: *const u8, sheet_length: usize, row: usize) -> Answer;
        pub fn levzhada_next_sibling(sheet: *const u8, sheet_length: usize, row: usize) -> Answer;
        pub fn levzhada_attribute(
            sheet: *const u8,
            sheet_length: usize,
            row: usize,
            name: *const u8,
            name_length: usize,
        ) -> Range;
        pub fn levzhada_text_length(sheet: *const u8, sheet_length: usize, row: usize) -> Answer;
        pub fn levzhada_measure(
            sheet: *const u8,
            sheet_length: usize,
            row: usize,
            ratio: f64,
            limit: usize,
        ) -> LinkMeasure;
        pub fn levzhada_matches(pattern: usize, text: *const u8, text_length: usize) -> Answer;
        pub fn levzhada_extract(
            sheet: *const u8,
            sheet_length: usize,
            options: *const u8,
            options_length: usize,
            out: *mut u8,
            out_length: usize,
            work: *mut u8,
            work_length: usize,
        ) -> Answer;
        pub fn levzhada_mark(
            sheet: *mut u8,
            sheet_length: usize,
            options: *const u8,
            options_length: usize,
            noscript: usize,
        ) -> Answer;
        pub fn levzhada_visible_text(
            sheet: *const u8,
            sheet_length: usize,
            row: usize,
            out: *mut u8,
            out_length: usize,
        ) -> Answer;
        pub fn levzhada_collapse(
            text: *const u8,
            text_length: usize,
            out: *mut u8,
            out_length: usize,
        ) -> Answer;
        pub fn levzhada_escape(
            text: *const u8,
            text_length: usize,
            out: *mut u8,
            out_length: usize,
        ) -> Answer;
        pub fn levzhada_unescape(
            text: *const u8,
            text_length: usize,
            out: *mut u8,
            out_length: usize,
        ) -> Answer;
    }
}

/// Why there is no answer: the numbers of docs/SHEET.md, each with its second number. The header is line 0, row 0 line 1.
///
/// An option line is never wrong (33): `Options` writes it.
#[derive(Clone, Copy, Debug, PartialEq, Eq)]
#[non_exhaustive]
pub enum Refusal {
    /// 11: the length that the sheet should have.
    Length(usize),
    /// 12: a field or the end of this line.
    Format(usize),
    /// 13: counts out of range, or a root that is no row.
    Counts,
    /// 14: the depth or the parent of this line, or the root (line 0).
    Tree(usize),
    /// 15: the kind of this line, or what such a kind may not have.
    Kind(usize),
    /// 16: a range of this line passes the pool, or the attribute counts do not sum up (line 0).
    Range(usize),
    /// 17: a range of this line is not UTF-8.
    Encoding(usize),
    /// 21: list levels pass 1,024 at this line.
    ListLevels(usize),
    /// 22: open table rows pass 1,024 at this line.
    OpenRows(usize),
    /// 31: an extraction needs this many bytes to work in, and the allocator has not got them.
    Work(usize),
    /// 32: the text needs this many bytes while it is written, and the allocator has not got them.
    Out(usize),
    /// 35: the sheet has no such row or, for the link measure, it is no element.
    Row(usize),
    /// 36: there is no such pattern.
    Pattern(usize),
    /// 51: the ampersand at this offset of an escaped text, in bytes from 0, starts none of the four names.
    Entity(usize),
    /// 52: the characters of an escaped text need this many bytes, and the allocator has not got them.
    Characters(usize),
    /// 53: the visible text of a row needs this many bytes while it is written, and the allocator has not got them.
    VisibleText(usize),
    /// An answer that the archive is proved never to give here, in its numbers; of a text that is not UTF-8, 0 and where that begins.
    /// Another archive was linked.
    Other(usize, usize),
}

impl Refusal {
    /// The number and the second number.
    pub fn numbers(self) -> (usize, usize) {
        match self {
            Refusal::Length(n) => (11, n),
            Refusal::Format(line) => (12, line),
            Refusal::Counts => (13, 0),
            Refusal::Tree(line) => (14, line),
            Refusal::Kind(line) => (15, line),
            Refusal::Range(line) => (16, line),
            Refusal::Encoding(line) => (17, line),
            Refusal::ListLevels(line) => (21, line),
            Refusal::OpenRows(line) => (22, line),
            Refusal::Work(need) => (31, need),
            Refusal::Out(need) => (32, need),
            Refusal::Row(row) => (35, row),
            Refusal::Pattern(pattern) => (36, pattern),
            Refusal::Entity(at) => (51, at),
            Refusal::Characters(need) => (52, need),
            Refusal::VisibleText(need) => (53, need),
            Refusal::Other(number, second) => (number, second),
        }
    }
}

impl fmt::Display for Refusal {
    fn fmt(&self, f: &mut fmt::Formatter) -> fmt::Result {
        let number = self.numbers().0;
        match self {
            Refusal::Length(n) => write!(f, "{number}: the sheet has not {n} bytes"),
            Refusal::Format(line) => write!(f, "{number}: a field or the end of line {line}"),
            Refusal::Counts => write!(f, "{number}: the counts or the root"),
            Refusal::Tree(line) => write!(f, "{number}: the place of line {line} in the tree"),
            Refusal::Kind(line) => write!(f, "{number}: the kind of line {line}"),
            Refusal::Range(line) => write!(f, "{number}: a range of line {line}"),
            Refusal::Encoding(line) => write!(f, "{number}: line {line} is not UTF-8"),
            Refusal::ListLevels(line) => write!(f, "{number}: too many list levels at line {line}"),
            Refusal::OpenRows(line) => {
                write!(f, "{number}: too many open table rows at line {line}")
            }
            Refusal::Work(need) => write!(f, "{number}: no memory for {need} bytes of work"),
            Refusal::Out(need) => write!(f, "{number}: no memory for {need} bytes of text"),
            Refusal::Row(row) => write!(f, "{number}: row {row} is not there, or no element"),
            Refusal::Pattern(pattern) => write!(f, "{number}: no pattern {pattern}"),
            Refusal::Entity(at) => write!(f, "{number}: the ampersand at {at} starts no name"),
            Refusal::Characters(need) => {
                write!(f, "{number}: no memory for {need} bytes of characters")
            }
            Refusal::VisibleText(need) => {
                write!(f, "{number}: no memory for {need} bytes of visible text")
            }
            Refusal::Other(number, second) => write!(
                f,
                "{number} {second}: no answer of the archive that this crate is for"
            ),
        }
    }
}

impl Error for Refusal {}

/// The answer where it is accepted.
fn accepted(a: raw::Answer) -> Result<raw::Answer, Refusal> {
    Err(match (a.number, a.second) {
        (0, _) => return Ok(a),
        (11, n) => Refusal::Length(n),
        (12, line) => Refusal::Format(line),
        (13, _) => Refusal::Counts,
        (14, line) => Refusal::Tree(line),
        (15, line) => Refusal::Kind(line),
        (16, line) => Refusal::Range(line),
        (17, line) => Refusal::Encoding(line),
        (21, line) => Refusal::ListLevels(line),
        (22, line) => Refusal::OpenRows(line),
        (31, need) => Refusal::Work(need),
        (32, need) => Refusal::Out(need),
        (35, row) => Refusal::Row(row),
        (36, pattern) => Refusal::Pattern(pattern),
        (51, at) => Refusal::Entity(at),
        (52, need) => Refusal::Characters(need),
        (53, need) => Refusal::VisibleText(need),
        (number, second) => Refusal::Other(number, second),
    })
}

/// Makes a buffer as long as a need, all zero. False where it is that long already, and where the allocator has not the memory; then
/// the answer that told the need stands.
fn grow(buffer: &mut Vec<u8>, need: usize) -> bool {
    if need <= buffer.len() {
        return false;
    }
    *buffer = Vec::new(); // what it holds is not needed
    if buffer.try_reserve_exact(need).is_err() {
        return false;
    }
    buffer.resize(need, 0);
    true
}

/// What is wrong with a sheet (11 to 17).
pub fn check(sheet: &[u8]) -> Result<(), Refusal> {
    accepted(unsafe { raw::levzhada_check(sheet.as_ptr(), sheet.len()) }).map(|_| ())
}

fn relative(a: raw::Answer) -> Result<Option<usize>, Refusal> {
    accepted(a).map(|a| (a.length == 1).then_some(a.second))
}

/// The parent of a row.
pub fn parent(sheet: &[u8], row: usize) -> Result<Option<usize>, Refusal> {
    relative(unsafe { raw::levzhada_parent(sheet.as_ptr(), sheet.len(), row) })
}

/// The first child of a row.
pub fn first_child(sheet: &[u8], row: usize) -> Result<Option<usize>, Refusal> {
    relative(unsafe { raw::levzhada_first_child(sheet.as_ptr(), sheet.len(), row) })
}

/// The next sibling of a row.
pub fn next_sibling(sheet: &[u8], row: usize) -> Result<Option<usize>, Refusal> {
    relative(unsafe { raw::levzhada_next_sibling(sheet.as_ptr(), sheet.len(), row) })
}

/// Where the value of a row's first attribute of that name lies in the pool; the value may be empty.
pub fn attribute(sheet: &[u8], row: usize, name: &[u8]) -> Result<Option<Range<usize>>, Refusal> {
    let r = unsafe {
        raw::levzhada_attribute(sheet.as_ptr(), sheet.len(), row, name.as_ptr(), name.len())
    };
    accepted(r.answer).map(|a| (r.present == 1).then_some(r.at..r.at + a.length))
}

/// The length of a row's text content, runs of blanks collapsed.
pub fn text_length(sheet: &[u8], row: usize) -> Result<usize, Refusal> {
    accepted(unsafe { raw::levzhada_text_length(sheet.as_ptr(), sheet.len(), row) })
        .map(|a| a.length)
}

/// A cluster rule: a ratio and a length limit; limit 0 is none.
#[derive(Clone, Copy, Debug, PartialEq)]
pub struct Rule {
    pub ratio: f64,
    pub limit: usize,
}

/// The rules of the filters.
impl Rule {
    pub const FIFTH_OF_ANY: Rule = Rule {
        ratio: 0.2,
        limit: 0,
    };
    pub const FIFTH_OF_500: Rule = Rule {
        ratio: 0.2,
        limit: 500,
    };
    pub const THREE_FIFTHS_OF_800: Rule = Rule {
        ratio: 0.6,
        limit: 800,
    };
    pub const THREE_FIFTHS_OF_1500: Rule = Rule {
        ratio: 0.6,
        limit: 1500,
    };
}

/// The link measure of an element.
#[derive(Clone, Copy, Debug, PartialEq)]
pub enum Measure {
    NoText,
    TooLong,
    NoLinks,
    /// Link bytes by text bytes, and whether that exceeds the rule's ratio.
    Share {
        share: f64,
        exceeds: bool,
    },
}

/// The link measure of a row.
pub fn measure(sheet: &[u8], row: usize, rule: Rule) -> Result<Measure, Refusal> {
    let m =
        unsafe { raw::levzhada_measure(sheet.as_ptr(), sheet.len(), row, rule.ratio, rule.limit) };
    match accepted(m.answer)?.second {
        0 => Ok(Measure::NoText),
        1 => Ok(Measure::TooLong),
        2 => Ok(Measure::NoLinks),
        3 => Ok(Measure::Share {
            share: m.share,
            exceeds: m.exceeds == 1,
        }),
        outcome => Err(Refusal::Other(0, outcome)),
    }
}

/// Whether a text matches one of the patterns 0 to 20.
pub fn matches(pattern: usize, text: &[u8]) -> Result<bool, Refusal> {
    accepted(unsafe { raw::levzhada_matches(pattern, text.as_ptr(), text.len()) })
        .map(|a| a.second == 1)
}

type Write = unsafe extern "C" fn(*const u8, usize, *mut u8, usize) -> raw::Answer;

/// What a call writes of a text, the buffer grown to the need where it was too short.
fn written(call: Write, text: &[u8]) -> Result<Vec<u8>, Refusal> {
    let mut out = Vec::new();
    grow(&mut out, text.len());
    loop {
        let a = unsafe { call(text.as_ptr(), text.len(), out.as_mut_ptr(), out.len()) };
        if matches!(a.number, 32 | 52) && grow(&mut out, a.second) {
            continue;
        }
        out.truncate(accepted(a)?.length);
        return Ok(out);
    }
}

/// Each run of blanks as one space (32 alone).
pub fn collapse(text: &[u8]) -> Result<Vec<u8>, Refusal> {
    written(raw::levzhada_collapse, text)
}

/// & < > and " as entities (32 alone).
pub fn escape(text: &[u8]) -> Result<Vec<u8>, Refusal> {
    written(raw::levzhada_escape, text)
}

/// The inverse of [`escape()`] (51, 52): the names `&amp;`, `&quot;`, `&lt;` and `&gt;`, in this spelling and with the semicolon, become
/// their characters, and every other byte is copied, UTF-8 or not. What a name has become is not read again.
///
/// What [`escape()`] wrote is never refused and comes back as it was. The other way round an accepted text comes back exactly where it has
/// no bare `"`, `<` or `>`. A MinimalHtml text may have an ampersand that is not escaped, as that of an alt in an `a` with links has: it is
/// refused, unless a name starts there.
///
/// ```
/// use levzhada::Refusal;
/// assert_eq!(levzhada::unescape(b"1 &lt; 2 &amp;lt;").unwrap(), b"1 < 2 &lt;");
/// assert_eq!(levzhada::unescape(b"&amp;&x;"), Err(Refusal::Entity(5)));
/// ```
pub fn unescape(text: &[u8]) -> Result<Vec<u8>, Refusal> {
    written(raw::levzhada_unescape, text)
}

#[cfg(test)]
mod tests {
    use super::*;

    #[test]
    fn buffers() {
        let mut buffer = vec![7; 3];
        assert!(grow(&mut buffer, 5));
        assert_eq!(buffer, [0; 5]);
        assert!(!grow(&mut buffer, 5));
        assert!(!grow(&mut buffer, 4));
        assert_eq!(buffer, [0; 5]);
        assert!(!grow(&mut buffer, usize::MAX));
        assert!(!grow(&mut buffer, isize::MAX as usize));
    }

    /// What an archive answers that is not ours.
    unsafe extern "C" fn answering<const NUMBER: usize, const SECOND: usize>(
        _: *const u8,
        _: usize,
        _: *mut u8,
        _: usize,
    ) -> raw::Answer {
        raw::Answer {
            number: NUMBER,
            second: SECOND,
            visits: 0,
            length: 0,
        }
    }

    #[test]
    fn needs_that_cannot_be_met() {
        const MOST: usize = usize::MAX;
        assert_eq!(
            written(answering::<32, MOST>, b"a"),
            Err(Refusal::Out(MOST))
        );
        assert_eq!(written(answering::<32, 0>, b"a"), Err(Refusal::Out(0)));
        assert_eq!(
            written(answering::<52, MOST>, b"a"),
            Err(Refusal::Characters(MOST))
        );
        assert_eq!(
            written(answering::<52, 1>, b"a"),
            Err(Refusal::Characters(1))
        );
    }

    #[test]
    fn numbers_of_another_archive() {
        assert_eq!(
            written(answering::<33, 0>, b"a"),
            Err(Refusal::Other(33, 0))
        );
        let other = written(answering::<99, 7>, b"a").unwrap_err();
        assert_eq!(other, Refusal::Other(99, 7));
        assert_eq!(other.numbers(), (99, 7));
    }
}
