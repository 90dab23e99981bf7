//! The statement of a month file, dividing a pot of cents by weights so that it comes out to the
//! cent, and checking a division that someone else made.
//!
//! The work is done by Noketualo's proved core, which this crate links as a static library (built
//! by `rt lib` in `crates/host`). The crate lends it memory and opens its answers; it settles and divides
//! nothing.
//!
//! ```
//! use noketualo::{check, divide};
//!
//! let weights = [1, 2, 4];
//! let shares = divide(100, &weights)?;
//! assert_eq!(shares, [14, 29, 57]);
//! assert!(check(100, &weights, &shares)?);
//! assert!(!check(100, &weights, &[15, 28, 57])?);
//! # Ok::<(), noketualo::Refusal>(())
//! ```

#![deny(missing_docs)]

pub mod raw;
mod refusal;

pub use refusal::Refusal;

use std::mem::size_of_val;
use std::slice;

#[cfg(target_endian = "big")]
compile_error!("the archive reads numbers low byte first, and this crate lends them as they lie");

/// The most weights that a pot is divided by.
pub const MOST_WEIGHTS: usize = 64;

/// The largest pot that is divided, in cents.
pub const LARGEST_POT: u64 = 100_000_000_000;

/// The most that the weights may add up to.
pub const LARGEST_WEIGHT_SUM: u64 = 10_000_000_000_000;

/// The most bytes that a month file may have; the statement of a longer one is `refuse=1,0,0`.
pub const MOST_FILE_BYTES: usize = 65_536;

/// Room that is enough for every statement, which is proved.
pub const STATEMENT_ROOM: usize = 12_144;

/// Divides the pot, in cents, by the weights, and returns the shares in their order.
///
/// Share *i* is the whole part of pot times weight *i* over the sum of the weights. The leftover
/// cents go one each to the largest remainders, lower position first among equals. A pot of zero
/// with weights that add up to zero gives zeros.
///
/// # Errors
///
/// The first that applies:
///
/// - [`Count`](Refusal::Count) for more than 64 weights;
/// - [`Big`](Refusal::Big) for a pot above 10^11, or weights that add up to more than 10^13;
/// - [`Base`](Refusal::Base) for a pot above zero and weights that add up to zero.
///
/// ```
/// use noketualo::{divide, Refusal};
///
/// assert_eq!(divide(100, &[1, 1, 1]), Ok(vec![34, 33, 33]));
/// assert_eq!(divide(2, &[1, 1, 1, 1]), Ok(vec![1, 1, 0, 0]));
/// assert_eq!(divide(0, &[]), Ok(vec![]));
/// assert_eq!(divide(1, &[0, 0]), Err(Refusal::Base));
/// ```
pub fn divide(pot: u64, weights: &[u64]) -> Result<Vec<u64>, Refusal> {
    // More weights are refused before the output is looked at, so they need no room.
    let mut amounts = vec![0; weights.len().min(MOST_WEIGHTS)];
    divide_into(pot, weights, &mut amounts)?;
    Ok(amounts)
}

/// Divides as [`divide`] does, into lent memory.
///
/// Accepted, it writes one amount for each weight at the front of `amounts` and leaves the rest as
/// it was; refused, it writes nothing.
///
/// # Errors
///
/// As [`divide`]; and [`Room`](Refusal::Room), looked at after `Count`, where there are fewer
/// amounts than weights.
///
/// ```
/// use noketualo::{divide_into, Refusal};
///
/// let mut amounts = [7; 4];
/// assert_eq!(divide_into(100, &[1, 1, 1], &mut amounts), Ok(()));
/// assert_eq!(amounts, [34, 33, 33, 7]);
/// assert_eq!(divide_into(100, &[1; 5], &mut amounts), Err(Refusal::Room));
/// assert_eq!(amounts, [34, 33, 33, 7]);
/// ```
pub fn divide_into(pot: u64, weights: &[u64], amounts: &mut [u64]) -> Result<(), Refusal> {
    divide_bytes(pot, bytes_of(weights), bytes_of_mut(amounts))
}

/// Whether the amounts are a closest division of the pot by the weights.
///
/// They are where they add up to the pot and no other list of whole cents with that sum lies closer
/// to the exact shares, by the sum of squares. Where leftover cents could as well lie elsewhere,
/// every such division is a yes. A pot of zero with weights that add up to zero is a yes exactly
/// when all amounts are zero. Amounts may be of any size.
///
/// # Errors
///
/// As [`divide`]; weights and amounts that differ in number are [`Count`](Refusal::Count) too.
///
/// ```
/// use noketualo::{check, Refusal};
///
/// assert_eq!(check(2, &[1, 1, 1, 1], &[0, 1, 0, 1]), Ok(true));
/// assert_eq!(check(2, &[1, 1, 1, 1], &[2, 0, 0, 0]), Ok(false));
/// assert_eq!(check(2, &[1, 1, 1, 1], &[1, 1]), Err(Refusal::Count));
/// ```
pub fn check(pot: u64, weights: &[u64], amounts: &[u64]) -> Result<bool, Refusal> {
    check_bytes(pot, bytes_of(weights), bytes_of(amounts))
}

/// Divides as [`divide_into`] does, on bytes, eight to a number, low byte first.
///
/// # Errors
///
/// As [`divide_into`]; a length of either that is no multiple of eight is [`Count`](Refusal::Count)
/// too.
///
/// ```
/// use noketualo::{divide_bytes, Refusal};
///
/// let weights = 7_u64.to_le_bytes();
/// let mut amounts = [0; 8];
/// assert_eq!(divide_bytes(258, &weights, &mut amounts), Ok(()));
/// assert_eq!(amounts, [2, 1, 0, 0, 0, 0, 0, 0]);
/// assert_eq!(divide_bytes(258, &weights[..5], &mut amounts), Err(Refusal::Count));
/// ```
pub fn divide_bytes(pot: u64, weights: &[u8], amounts: &mut [u8]) -> Result<(), Refusal> {
    // SAFETY: a slice's pointer is never null, its whole length is lent, and an exclusive slice
    // overlaps no other.
    let answer = unsafe {
        raw::noketualo_divide(
            pot,
            weights.as_ptr(),
            weights.len(),
            amounts.as_mut_ptr(),
            amounts.len(),
        )
    };
    open(answer).map(|_| ())
}

/// Checks as [`check`] does, on bytes, eight to a number, low byte first.
///
/// # Errors
///
/// As [`check`]; a length of either that is no multiple of eight is [`Count`](Refusal::Count) too.
///
/// ```
/// use noketualo::{check_bytes, Refusal};
///
/// let weights = 7_u64.to_le_bytes();
/// assert_eq!(check_bytes(258, &weights, &[2, 1, 0, 0, 0, 0, 0, 0]), Ok(true));
/// assert_eq!(check_bytes(258, &weights, &[2, 1]), Err(Refusal::Count));
/// ```
pub fn check_bytes(pot: u64, weights: &[u8], amounts: &[u8]) -> Result<bool, Refusal> {
    // SAFETY: a slice's pointer is never null and its whole length is lent.
    let answer = unsafe {
        raw::noketualo_check(
            pot,
            weights.as_ptr(),
            weights.len(),
            amounts.as_ptr(),
            amounts.len(),
        )
    };
    open(answer).map(|value| value == 1)
}

/// The statement of a month file: the lines of its charges, its credits and both totals, or the one
/// line `refuse=number,table,row` where the file or its month is refused.
///
/// ```
/// let file = b"month=2\ndays=30\nnonzone=0\ndaily=0\nweekly=0\nmonthly=0\nweekday=1\nend=0\n";
/// assert_eq!(noketualo::statement(file), b"refuse=3,0,0\n");
/// ```
pub fn statement(text: &[u8]) -> Vec<u8> {
    let mut out = vec![0; STATEMENT_ROOM];
    let length = statement_into(text, &mut out)
        .unwrap_or_else(|refusal| unreachable!("{STATEMENT_ROOM} bytes are enough: {refusal}"));
    out.truncate(length);
    out
}

/// Writes the statement of a month file to the front of `out`, and returns its length.
///
/// The bytes beyond it stay as they were; refused, all do.
///
/// # Errors
///
/// [`Room`](Refusal::Room) where `out` is too short for the statement.
///
/// ```
/// use noketualo::{statement_into, Refusal};
///
/// let mut out = [b'-'; 14];
/// assert_eq!(statement_into(b"month=13\n", &mut out), Ok(14));
/// assert_eq!(&out, b"refuse=10,0,9\n");
/// assert_eq!(statement_into(b"month=13\n", &mut out[..13]), Err(Refusal::Room));
/// ```
pub fn statement_into(text: &[u8], out: &mut [u8]) -> Result<usize, Refusal> {
    // SAFETY: a slice's pointer is never null, its whole length is lent, and an exclusive slice
    // overlaps no other.
    let answer =
        unsafe { raw::noketualo_statement(text.as_ptr(), text.len(), out.as_mut_ptr(), out.len()) };
    open(answer).map(|length| length as usize)
}

/// The value of an accepted call, or the refusal.
fn open(answer: u64) -> Result<u64, Refusal> {
    match (answer & 0xff) as u8 {
        0 => Ok(answer >> 8),
        number => Err(Refusal::from_number(number)
            .unwrap_or_else(|| unreachable!("the archive answered {answer}, which is no refusal"))),
    }
}

fn bytes_of(numbers: &[u64]) -> &[u8] {
    // SAFETY: numbers are bytes without gaps, and a byte may lie at any address.
    unsafe { slice::from_raw_parts(numbers.as_ptr().cast(), size_of_val(numbers)) }
}

fn bytes_of_mut(numbers: &mut [u64]) -> &mut [u8] {
    // SAFETY: as in `bytes_of`; and any eight bytes are a number.
    unsafe { slice::from_raw_parts_mut(numbers.as_mut_ptr().cast(), size_of_val(numbers)) }
}
