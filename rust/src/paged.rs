//! A concordance judged through a reader, line by line, as crates/paged offers it to tests. No header has it.
#![allow(unsafe_code)]

use crate::ffi::{CLength, Told};
use crate::types::Reason;

unsafe extern "C" {
    fn oes_paged(text: *const u8, text_length: usize, out: *mut u8, out_bytes: usize) -> CLength;
}

/// As [`crate::judge_text`], by `reader::next_line` in a loop. Reasons 18, 12.
#[inline]
pub fn judge_text(text: &[u8], out: &mut [u8]) -> Result<usize, Reason> {
    // SAFETY: each pointer and length are those of one slice; the lent one is borrowed alone.
    let answer = unsafe { oes_paged(text.as_ptr(), text.len(), out.as_mut_ptr(), out.len()) };
    Ok(answer.told()?.length)
}
