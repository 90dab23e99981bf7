//! "When the answer is a number and no month."

/// Number, table and row.
pub type Refusal = (u64, u64, u64);

/// A table isn't whole rows; a table or input is over its limit; more than 64 weights; weights and
/// amounts differ in number.
pub const COUNT: u64 = 1;
/// A lent output is too short.
pub const ROOM: u64 = 2;
/// Month not 1..12, or days not its length.
pub const MONTH: u64 = 3;
/// An entry outside its range.
pub const RANGE: u64 = 4;
/// A row not above the one before.
pub const ORDER: u64 = 5;
/// A named row doesn't exist.
pub const LINK: u64 = 6;
/// Customer and zone already taken by an earlier account.
pub const PAIR: u64 = 7;
/// P above 10^11 or W above 10^13.
pub const BIG: u64 = 8;
/// P above zero and W zero.
pub const BASE: u64 = 9;
/// A month file line that doesn't fit.
pub const TEXT: u64 = 10;
