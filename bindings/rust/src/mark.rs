//! Marks by name.

use crate::{accepted, raw, Options, Refusal};

/// Marks, in the sheet itself, the elements below the root that the Rust takes out under these options by their names, and says how many
/// marks it set (11 to 17, the sheet unchanged).
///
/// The names: `script style iframe frame template`; with `alt_texts` off `object video audio embed img area svg figcaption figure`; with
/// `noscript` off `noscript`; with `form_fields` off `textarea input button select option label`. They are compared byte for byte: write
/// them in lower case. A row that is marked already stays so and is not counted, so that the same call again sets none.
///
/// ```
/// let options = levzhada::Options::default();
/// let mut sheet = b"       3       0      11       0
///        0       1       0       0       4       0       0       0
///        1       1       0       4       6       0       0       0
///        2       3       0       0       0      10       1       0
/// bodyscripta".to_vec();
/// assert_eq!(levzhada::extract(&sheet, &options).unwrap().text, "a");
/// assert_eq!(levzhada::mark(&mut sheet, &options, false), Ok(1));
/// assert_eq!(levzhada::extract(&sheet, &options).unwrap().text, "");
/// ```
pub fn mark(sheet: &mut [u8], options: &Options, noscript: bool) -> Result<usize, Refusal> {
    let line = options.line();
    let a = unsafe {
        raw::levzhada_mark(
            sheet.as_mut_ptr(),
            sheet.len(),
            line.as_ptr(),
            line.len(),
            usize::from(noscript),
        )
    };
    accepted(a).map(|a| a.length)
}
