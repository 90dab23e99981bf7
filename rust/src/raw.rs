//! The archive's calls as `include/noketualo.h` declares them, for memory that is no slice.
//!
//! No pointer may be null, also where its length is 0; a length counts bytes, all of them lent; the
//! output overlaps no input. The answer's low byte is the refusal's number, 0 where accepted, and
//! the bits above it are the call's value.

extern "C" {
    /// Divides the pot; see [`divide_bytes`](crate::divide_bytes). Its value is 0 today.
    pub fn noketualo_divide(
        pot: u64,
        weights: *const u8,
        weights_len: usize,
        amounts: *mut u8,
        amounts_len: usize,
    ) -> u64;

    /// Checks a division; see [`check_bytes`](crate::check_bytes). Its value is 1 for yes.
    pub fn noketualo_check(
        pot: u64,
        weights: *const u8,
        weights_len: usize,
        amounts: *const u8,
        amounts_len: usize,
    ) -> u64;

    /// Writes a month file's statement; see [`statement_into`](crate::statement_into). Its value is
    /// the statement's length.
    pub fn noketualo_statement(
        text: *const u8,
        text_len: usize,
        out: *mut u8,
        out_len: usize,
    ) -> u64;
}
