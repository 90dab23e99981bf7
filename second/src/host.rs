//! The second settlement for a caller in another language, such as a fuzzer's harness.

use crate::divide::{check, divide_alone};
use crate::refusal::COUNT;
use crate::statement::statement;
use std::slice;

/// Writes the statement of the text to `out` where it has room for it, else nothing; answers the
/// statement's length either way.
///
/// # Safety
///
/// Neither pointer is null; all bytes of `text_len` and `out_len` are lent; they don't overlap.
#[no_mangle]
pub unsafe extern "C" fn second_statement(
    text: *const u8,
    text_len: usize,
    out: *mut u8,
    out_len: usize,
) -> usize {
    // SAFETY: the caller lends these bytes.
    let (text, out) = unsafe {
        (
            slice::from_raw_parts(text, text_len),
            slice::from_raw_parts_mut(out, out_len),
        )
    };
    let statement = statement(text);
    if let Some(place) = out.get_mut(..statement.len()) {
        place.copy_from_slice(&statement);
    }
    statement.len()
}

/// Divides the pot, and answers 0 or the refusal's number. Lists are bytes, eight to a number, low
/// byte first; accepted, the amounts stand at the front of `out`, else it is untouched.
///
/// # Safety
///
/// As for `second_statement`.
#[no_mangle]
pub unsafe extern "C" fn second_divide(
    pot: u64,
    weights: *const u8,
    weights_len: usize,
    out: *mut u8,
    out_len: usize,
) -> u64 {
    // SAFETY: the caller lends these bytes.
    let (weights, out) = unsafe {
        (
            slice::from_raw_parts(weights, weights_len),
            slice::from_raw_parts_mut(out, out_len),
        )
    };
    let Some(weights) = numbers(weights).filter(|_| out.len() % 8 == 0) else {
        return COUNT;
    };
    match divide_alone(pot, &weights, out.len() / 8) {
        Ok(shares) => {
            for (place, share) in out.chunks_exact_mut(8).zip(shares) {
                place.copy_from_slice(&(share as u64).to_le_bytes());
            }
            0
        }
        Err(number) => number,
    }
}

/// Checks a division: 256 for yes, 0 for no, or the refusal's number.
///
/// # Safety
///
/// As for `second_statement`.
#[no_mangle]
pub unsafe extern "C" fn second_check(
    pot: u64,
    weights: *const u8,
    weights_len: usize,
    amounts: *const u8,
    amounts_len: usize,
) -> u64 {
    // SAFETY: the caller lends these bytes.
    let (weights, amounts) = unsafe {
        (
            slice::from_raw_parts(weights, weights_len),
            slice::from_raw_parts(amounts, amounts_len),
        )
    };
    let (Some(weights), Some(amounts)) = (numbers(weights), numbers(amounts)) else {
        return COUNT;
    };
    match check(pot, &weights, &amounts) {
        Ok(closest) => u64::from(closest) << 8,
        Err(number) => number,
    }
}

fn numbers(bytes: &[u8]) -> Option<Vec<u64>> {
    let chunks = bytes.chunks_exact(8);
    if !chunks.remainder().is_empty() {
        return None;
    }
    Some(
        chunks
            .map(|chunk| u64::from_le_bytes(chunk.try_into().expect("eight bytes")))
            .collect(),
    )
}
