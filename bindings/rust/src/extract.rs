//! The text of a page.

use crate::{accepted, grow, raw, Refusal};

#[derive(Clone, Copy, Debug, PartialEq, Eq)]
pub enum Formatting {
    Off,
    Basic,
    MinimalHtml,
}

/// The options of an extraction; `default` has the standing ones, and each is set by its field.
///
/// ```
/// let mut options = levzhada::Options::default();
/// options.links = true;
/// assert_eq!(&options.line(), b"10111011000\n");
/// ```
#[derive(Clone, Copy, Debug, PartialEq, Eq)]
#[non_exhaustive]
pub struct Options {
    pub formatting: Formatting,
    pub main_content: bool,
    pub list_bullets: bool,
    pub alt_texts: bool,
    pub links: bool,
    pub form_fields: bool,
    pub comments: bool,
    pub post_meta: bool,
    pub hidden_elements: bool,
    /// Which text is an icon: false as the Rust has it; true "¶", and one private-use character (U+E000 to U+F8FF, U+F0000 to
    /// U+FFFFD, U+100000 to U+10FFFD).
    pub icons: bool,
    /// With `alt_texts`: an img or area that has no attribute alt is written as one with `alt="[picture]"`; an empty alt is there.
    pub missing_alt: bool,
}

impl Default for Options {
    fn default() -> Options {
        Options {
            formatting: Formatting::Basic,
            main_content: false,
            list_bullets: true,
            alt_texts: true,
            links: false,
            form_fields: false,
            comments: true,
            post_meta: true,
            hidden_elements: false,
            icons: false,
            missing_alt: false,
        }
    }
}

impl Options {
    /// The option line: eleven digits and LF.
    pub fn line(&self) -> [u8; 12] {
        let flag = |on| b'0' + u8::from(on);
        [
            b'0' + self.formatting as u8,
            flag(self.main_content),
            flag(self.list_bullets),
            flag(self.alt_texts),
            flag(self.links),
            flag(self.form_fields),
            flag(self.comments),
            flag(self.post_meta),
            flag(self.hidden_elements),
            flag(self.icons),
            flag(self.missing_alt),
            b'\n',
        ]
    }
}

/// A page's text, and the passes of the walk.
///
/// That every text is UTF-8 is a theorem about the archive (docs/PROOFS.md of the repository). The bytes are looked at once more, since
/// nothing here can know which archive was linked; that takes some 0.25 ns a byte of ASCII.
#[derive(Clone, Debug, PartialEq, Eq)]
#[non_exhaustive]
pub struct Text {
    /// It may have more capacity than it needs, up to half the sheet's length.
    pub text: String,
    pub visits: usize,
}

/// How long both buffers are at first: half the sheet's length. A row's line has 65 bytes and most rows show fewer than half as many, so
/// that this is mostly enough; a page that needs more is read once or twice again. Not less than 4,096, since few rows can show the
/// whole of a small sheet, and not more than half of the longest sheet that is accepted.
pub(crate) fn first_length(sheet: &[u8]) -> usize {
    (sheet.len() / 2).clamp(4_096, 7_474_337 / 2)
}

/// The text of a page (11 to 17, 21, 22, 31, 32).
pub fn extract(sheet: &[u8], options: &Options) -> Result<Text, Refusal> {
    let line = options.line();
    let (mut out, mut work) = (Vec::new(), Vec::new());
    grow(&mut out, first_length(sheet));
    grow(&mut work, first_length(sheet));
    loop {
        let a = unsafe {
            raw::levzhada_extract(
                sheet.as_ptr(),
                sheet.len(),
                line.as_ptr(),
                line.len(),
                out.as_mut_ptr(),
                out.len(),
                work.as_mut_ptr(),
                work.len(),
            )
        };
        let grown = match a.number {
            31 => grow(&mut work, a.second),
            32 => grow(&mut out, a.second),
            _ => false,
        };
        if !grown {
            return text_of(accepted(a)?, out);
        }
    }
}

/// The text that stands in `out`.
pub(crate) fn text_of(a: raw::Answer, mut out: Vec<u8>) -> Result<Text, Refusal> {
    out.truncate(a.length);
    let visits = a.visits;
    match String::from_utf8(out) {
        Ok(text) => Ok(Text { text, visits }),
        Err(e) => Err(Refusal::Other(0, e.utf8_error().valid_up_to())),
    }
}

#[cfg(test)]
mod tests {
    use super::*;

    #[test]
    fn texts() {
        let answer = |length| raw::Answer {
            number: 0,
            second: 0,
            visits: 3,
            length,
        };
        let text = text_of(answer(2), b"hi\0\0".to_vec()).unwrap();
        assert_eq!((text.text.as_str(), text.visits), ("hi", 3));
        assert_eq!(
            text_of(answer(3), b"hi\xff\0".to_vec()),
            Err(Refusal::Other(0, 2))
        );
    }

    #[test]
    fn first_lengths() {
        assert_eq!(first_length(b""), 4_096);
        assert_eq!(first_length(&[0; 100_000]), 50_000);
        assert_eq!(first_length(&vec![0; 10_000_000]), 3_737_168);
    }
}
