//! The listing of operations in machine code.
use crate::raw;

/// Lists the operations in little-endian A64 code, a line each with its offset, and the bytes behind the last whole word.
pub fn list(code: &[u8]) -> String {
    let mut lines = Vec::new();
    let mut text = [0u8; 4096];
    let mut done = 0;
    while code.len() - done >= 4 {
        let (_, listed) = raw::call::list(&code[done..], done as u64, &mut text);
        lines.extend_from_slice(&text[..listed.written as usize]);
        done += listed.used as usize;
    }
    let (_, tailed) = raw::call::tail(code.len() - done, &mut text);
    lines.extend_from_slice(&text[..tailed.written as usize]);
    lines.into_iter().map(char::from).collect()
}
