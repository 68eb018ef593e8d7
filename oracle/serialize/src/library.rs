//! levzhada_visible_text beside the Rust. The archive is linked where this is used.

#[repr(C)]
#[derive(Clone, Copy, Debug, PartialEq, Eq)]
pub struct Answer {
    pub number: usize,
    pub second: usize,
    pub visits: usize,
    pub length: usize,
}

unsafe extern "C" {
    fn levzhada_check(sheet: *const u8, sheet_length: usize) -> Answer;
    fn levzhada_visible_text(sheet: *const u8, sheet_length: usize, row: usize, out: *mut u8, out_length: usize) -> Answer;
}

pub fn check(sheet: &[u8]) -> Answer {
    unsafe { levzhada_check(sheet.as_ptr(), sheet.len()) }
}

pub fn visible_text(sheet: &[u8], row: usize, out: &mut [u8]) -> Answer {
    unsafe { levzhada_visible_text(sheet.as_ptr(), sheet.len(), row, out.as_mut_ptr(), out.len()) }
}
