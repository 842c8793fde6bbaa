//! The move from edition 1: the codes are laid with the operation first, from their end.

use super::{read, Refused};

/// How many bytes were given.
pub fn move_sheet(sheet: &[u8], moved: &mut [u8]) -> Result<usize, Refused> {
    let (_, _, first, past) = read(sheet)?;
    if let Some(k) = sheet[first..past].chunks_exact(2).position(|code| code == [0xFF, 0xF3]) {
        return Err((19, first + 2 * k));
    }
    if moved.len() < sheet.len() {
        return Err((9, sheet.len()));
    }
    let (mut codes, mut laid) = ([0; 2048], [0; 2048]);
    for (code, bytes) in codes.iter_mut().zip(sheet[first..past].chunks_exact(2)) {
        *code = u16::from_be_bytes([bytes[0], bytes[1]]);
    }
    let count = (past - first) / 2;
    lay_first(&codes, count, &mut laid, count);
    moved[..first].copy_from_slice(&sheet[..first]);
    moved[4] = 2;
    moved[first - 3] = 4;
    for (bytes, code) in moved[first..past].chunks_exact_mut(2).zip(laid) {
        bytes.copy_from_slice(&code.to_be_bytes());
    }
    Ok(sheet.len())
}

/// Lays the formula whose codes end at `end` so that it ends at `past` of the other array, and gives where its codes start.
fn lay_first(codes: &[u16; 2048], end: usize, laid: &mut [u16; 2048], past: usize) -> usize {
    let at = end - 1;
    let code = codes[at];
    if code < 0xFFF0 {
        laid[past - 1] = code;
        return at;
    }
    let mid = lay_first(codes, at, laid, past);
    let left = past - (at - mid);
    let start = lay_first(codes, mid, laid, left);
    laid[left - (mid - start) - 1] = code;
    start
}
