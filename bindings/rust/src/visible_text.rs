//! The visible text of a row.

use crate::extract::{first_length, text_of};
use crate::{accepted, grow, raw, Refusal};

/// The visible text of a row (11 to 17, 35, 53), as `node_format_visible_text` of serialize.rs gives it of the same tree: another text than
/// that of [`extract()`](crate::extract()), in which marks, options and the sheet's root have no say. Any row may be asked; a text or
/// comment row has an empty text.
///
/// Texts are added with each run of TAB, LF, FF, CR and space as one space; behind such a blank, and at the beginning, without the
/// White_Space at their start. A block takes away such blanks at the end and adds LF, a `p` two, at its beginning and, if it has no next
/// sibling, at its end. A `pre` is copied as it stands, a `br` is LF, and `script`, `style`, `noscript` and comments are left out. The row
/// itself is none of these. include/levzhada.h of the repository has the names.
///
/// As for a page's text, the bytes are looked at once more, since nothing here can know which archive was linked.
///
/// ```
/// let sheet = b"       4       0       9       0
///        0       1       0       0       4       0       0       0
///        1       3       0       0       0       4       1       0
///        1       1       0       5       3       0       0       0
///        2       3       0       0       0       8       1       0
/// bodyadivb";
/// assert_eq!(levzhada::visible_text(sheet, 0).unwrap(), "a\nb\n");
/// assert_eq!(levzhada::visible_text(sheet, 2).unwrap(), "b");
/// assert_eq!(levzhada::visible_text(sheet, 4), Err(levzhada::Refusal::Row(4)));
/// ```
pub fn visible_text(sheet: &[u8], row: usize) -> Result<String, Refusal> {
    let mut out = Vec::new();
    grow(&mut out, first_length(sheet));
    loop {
        let a = unsafe {
            raw::levzhada_visible_text(
                sheet.as_ptr(),
                sheet.len(),
                row,
                out.as_mut_ptr(),
                out.len(),
            )
        };
        if a.number == 53 && grow(&mut out, a.second) {
            continue;
        }
        return text_of(accepted(a)?, out).map(|t| t.text);
    }
}
