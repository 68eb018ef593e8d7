//! The Rust behind a C function like the reader's (oracle/driver.c), for trying the driver and the benchmark without the reader.
//! It reads the sheet, builds the tree and extracts; it knows no 21, 22 or 31, and of 32 only the length of the text.

use crate::cases;
use crate::sheet;

/// # Safety
/// Each pointer is the start of so many bytes (numbers), of which `out` and `answer` may be written.
#[unsafe(no_mangle)]
pub unsafe extern "C" fn stand_in_extract(
    sheet_at: *const u8,
    sheet_len: usize,
    options_at: *const u8,
    options_len: usize,
    out_at: *mut u8,
    out_len: usize,
    _work_at: *mut u8,
    _work_len: usize,
    answer_at: *mut u64,
    answer_len: usize,
) {
    let (sheet, line, out, answer) = unsafe {
        (
            std::slice::from_raw_parts(sheet_at, sheet_len),
            std::slice::from_raw_parts(options_at, options_len),
            std::slice::from_raw_parts_mut(out_at, out_len),
            std::slice::from_raw_parts_mut(answer_at, answer_len),
        )
    };
    let mut said = match (cases::options(line), sheet::read(sheet)) {
        (None, _) => cases::Answer::refused((33, 0)),
        (_, Err(refusal)) => cases::Answer::refused(refusal),
        (Some(opts), Ok(page)) => cases::extracted(&page.shared(), &opts),
    };
    if said.text.len() > out.len() {
        said = cases::Answer::refused((32, said.text.len()));
    } else if said.numbers[0] == 0 {
        out.fill(0);
        out[..said.text.len()].copy_from_slice(said.text.as_bytes());
    }
    for (to, from) in answer.iter_mut().zip(said.numbers) {
        *to = from as u64;
    }
}
