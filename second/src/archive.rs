//! The proved archive's statement.

use crate::refusal::ROOM;
use noketualo::raw::noketualo_statement;

/// What the archive answered.
#[derive(Debug, PartialEq, Eq)]
pub enum Answer {
    /// It wrote so many bytes.
    Written(usize),
    /// The output is too short.
    Room,
    /// No answer that a statement has.
    Strange(u64),
}

/// The archive's statement of the text, at the front of the output.
pub fn statement_into(text: &[u8], out: &mut [u8]) -> Answer {
    // SAFETY: a slice's pointer is never null, its whole length is lent, and an exclusive slice
    // overlaps no other.
    let answer =
        unsafe { noketualo_statement(text.as_ptr(), text.len(), out.as_mut_ptr(), out.len()) };
    let value = (answer >> 8) as usize;
    match answer & 0xff {
        0 => Answer::Written(value),
        ROOM if value == 0 => Answer::Room,
        _ => Answer::Strange(answer),
    }
}
