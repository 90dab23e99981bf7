//! Holds the second settlement to the paper's figures, and the makers to what they promise to
//! reach.

mod balance;
mod division;
mod examples;
mod figures;
mod files;
mod firm;
mod makers;
mod refusals;
mod round_trips;
mod settled;

use second::tables::{Head, Tables, FORMS};

/// Without rates.
const APRIL: Head = Head {
    month: 4,
    days: 30,
    non_zone_rate: 0,
    daily_rate: 0,
    weekly_rate: 0,
    monthly_rate: 0,
    weekday: 1,
};

/// These tables, and the others without rows.
fn tables_of(first: &[&[u64]]) -> Tables {
    let rows = |table: usize| first.get(table).copied().unwrap_or_default();
    std::array::from_fn(|table| rows(table).to_vec())
}

/// Where the table of that number stands.
fn position_of(number: u64) -> usize {
    let position = FORMS.iter().position(|form| form.number == number);
    position.expect("a table's number")
}
