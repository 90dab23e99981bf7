//! "Tables and their numbers": the tables as they are lent, their rows by name, and what is judged
//! of them before anything is divided.

use crate::refusal::{Refusal, COUNT, LINK, MONTH, ORDER, PAIR, RANGE};
use std::ops::RangeInclusive;

/// Table 0, plain numbers.
#[derive(Clone, Copy, Debug, Default, PartialEq, Eq)]
pub struct Head {
    pub month: u64,
    pub days: u64,
    pub non_zone_rate: u64,
    pub daily_rate: u64,
    pub weekly_rate: u64,
    pub monthly_rate: u64,
    /// Of day 1, "1..7 from Monday".
    pub weekday: u64,
}

/// The keys of the head's lines in a month file, in their order.
pub const HEAD_KEYS: [&str; 7] = [
    "month", "days", "nonzone", "daily", "weekly", "monthly", "weekday",
];

impl Head {
    /// Takes the numbers in the order of their keys.
    pub fn from_numbers(numbers: [u64; HEAD_KEYS.len()]) -> Head {
        let [month, days, non_zone_rate, daily_rate, weekly_rate, monthly_rate, weekday] = numbers;
        Head {
            month,
            days,
            non_zone_rate,
            daily_rate,
            weekly_rate,
            monthly_rate,
            weekday,
        }
    }

    pub fn numbers(&self) -> [u64; HEAD_KEYS.len()] {
        [
            self.month,
            self.days,
            self.non_zone_rate,
            self.daily_rate,
            self.weekly_rate,
            self.monthly_rate,
            self.weekday,
        ]
    }
}

/// Every other table by its number in refusals and its key in a month file: how many entries a row
/// has, and how many rows there are at most.
pub struct Form {
    pub number: u64,
    pub key: &'static str,
    pub width: usize,
    pub limit: usize,
}

/// The tables in the order in which a settlement looks at them and a month file has them.
pub const FORMS: [Form; 7] = [
    form(1, "zone", 2, 16),
    form(2, "owner", 3, 64),
    form(3, "unit", 6, 64),
    form(4, "account", 3, 32),
    form(5, "load", 3, 992),
    form(6, "ptp", 3, 32),
    form(10, "firm", 5, 992),
];

const fn form(number: u64, key: &'static str, width: usize, limit: usize) -> Form {
    Form {
        number,
        key,
        width,
        limit,
    }
}

impl Form {
    /// How many entries a table has that is full.
    pub fn full_size(&self) -> usize {
        self.limit * self.width
    }
}

/// The tables' positions.
pub const ZONES: usize = 0;
pub const OWNERS: usize = 1;
pub const UNITS: usize = 2;
pub const ACCOUNTS: usize = 3;
pub const LOADS: usize = 4;
pub const RESERVATIONS: usize = 5;
pub const FIRM: usize = 6;

/// The tables' entries, "rows laid end to end".
pub type Tables = [Vec<u64>; FORMS.len()];

const ZONE: RangeInclusive<u128> = 1..=999;
const ZONE_OR_BORDER: RangeInclusive<u128> = 0..=999;
const OWNER: RangeInclusive<u128> = 1..=9_999;
const UNIT: RangeInclusive<u128> = 1..=9_999;
const ACCOUNT: RangeInclusive<u128> = 1..=9_999;
const CUSTOMER: RangeInclusive<u128> = 1..=1_000_000_000;
const RATE: RangeInclusive<u128> = 0..=100_000_000;
const ANNUAL_REQUIREMENT: RangeInclusive<u128> = 0..=1_000_000_000_000;
const RESERVE_CREDIT: RangeInclusive<u128> = 0..=10_000_000_000;
const CONTRIBUTION: RangeInclusive<u128> = 0..=1_000_000;
const ENERGY: RangeInclusive<u128> = 0..=1_000_000_000;
const WEEKDAY: RangeInclusive<u128> = 1..=7;
const TERM: RangeInclusive<u128> = DAILY..=MONTHLY;
const MISO: RangeInclusive<u128> = 0..=1;
const CAPACITY: RangeInclusive<u128> = 0..=1_000_000;

/// The services by number.
pub const BLACK_START: u128 = 1;
pub const REACTIVE: u128 = 2;

/// The terms by number.
pub const DAILY: u128 = 1;
pub const WEEKLY: u128 = 2;
pub const MONTHLY: u128 = 3;

/// An account's zone where it is non-zone or at the border.
pub const BORDER: u128 = 0;

/// A month's tables, row by row.
pub struct Month {
    pub month: u128,
    pub days: u128,
    pub non_zone_rate: u128,
    /// Daily, weekly and monthly.
    pub firm_rates: [u128; 3],
    pub weekday: u128,
    pub zones: Vec<Zone>,
    pub owners: Vec<Owner>,
    pub units: Vec<Unit>,
    pub accounts: Vec<Account>,
    pub loads: Vec<Load>,
    pub reservations: Vec<Reservation>,
    pub firm: Vec<Firm>,
}

pub struct Zone {
    pub zone: u128,
    pub rate: u128,
}

pub struct Owner {
    pub owner: u128,
    pub zone: u128,
    pub requirement: u128,
}

pub struct Unit {
    pub unit: u128,
    pub owner: u128,
    pub zone: u128,
    pub service: u128,
    pub requirement: u128,
    pub reserve_credit: u128,
}

pub struct Account {
    pub account: u128,
    pub customer: u128,
    pub zone: u128,
}

pub struct Load {
    pub account: u128,
    pub day: u128,
    pub contribution: u128,
}

pub struct Reservation {
    pub account: u128,
    pub reserved: u128,
    pub curtailed: u128,
}

pub struct Firm {
    pub account: u128,
    pub term: u128,
    pub miso: u128,
    pub first_day: u128,
    pub capacity: u128,
}

/// COUNT: each table is whole rows, and no more than its limit.
pub fn judge_counts(tables: &Tables) -> Result<(), Refusal> {
    for (form, table) in FORMS.iter().zip(tables) {
        if table.len() % form.width != 0 || table.len() > form.full_size() {
            return Err((COUNT, form.number, 0));
        }
    }
    Ok(())
}

impl Month {
    /// Takes tables of whole rows.
    pub fn from_tables(head: Head, tables: &Tables) -> Month {
        Month {
            month: u128::from(head.month),
            days: u128::from(head.days),
            non_zone_rate: u128::from(head.non_zone_rate),
            firm_rates: [head.daily_rate, head.weekly_rate, head.monthly_rate].map(u128::from),
            weekday: u128::from(head.weekday),
            zones: rows(&tables[ZONES], |[zone, rate]| Zone { zone, rate }),
            owners: rows(&tables[OWNERS], |[owner, zone, requirement]| Owner {
                owner,
                zone,
                requirement,
            }),
            units: rows(
                &tables[UNITS],
                |[unit, owner, zone, service, requirement, reserve_credit]| Unit {
                    unit,
                    owner,
                    zone,
                    service,
                    requirement,
                    reserve_credit,
                },
            ),
            accounts: rows(&tables[ACCOUNTS], |[account, customer, zone]| Account {
                account,
                customer,
                zone,
            }),
            loads: rows(&tables[LOADS], |[account, day, contribution]| Load {
                account,
                day,
                contribution,
            }),
            reservations: rows(&tables[RESERVATIONS], |[account, reserved, curtailed]| {
                Reservation {
                    account,
                    reserved,
                    curtailed,
                }
            }),
            firm: rows(
                &tables[FIRM],
                |[account, term, miso, first_day, capacity]| Firm {
                    account,
                    term,
                    miso,
                    first_day,
                    capacity,
                },
            ),
        }
    }

    /// "MONTH, the non-zone rate's RANGE", that of the head's other entries, then the tables "row by
    /// row, in a row RANGE, ORDER, LINK, PAIR".
    pub fn judge(&self) -> Result<(), Refusal> {
        if !is_length_of(self.days, self.month) {
            return Err((MONTH, 0, 0));
        }
        let mut rates = self.firm_rates.iter().chain([&self.non_zone_rate]);
        if !rates.all(|rate| RATE.contains(rate)) || !WEEKDAY.contains(&self.weekday) {
            return Err((RANGE, 0, 0));
        }
        judge_rows(ZONES, &self.zones, |row, earlier| {
            range(ZONE.contains(&row.zone) && RATE.contains(&row.rate))?;
            order(earlier, |last| last.zone < row.zone)
        })?;
        judge_rows(OWNERS, &self.owners, |row, earlier| {
            range(
                OWNER.contains(&row.owner)
                    && ZONE.contains(&row.zone)
                    && ANNUAL_REQUIREMENT.contains(&row.requirement),
            )?;
            order(earlier, |last| last.owner < row.owner)?;
            link(self.has_zone(row.zone))
        })?;
        judge_rows(UNITS, &self.units, |row, earlier| {
            range(
                UNIT.contains(&row.unit)
                    && OWNER.contains(&row.owner)
                    && ZONE.contains(&row.zone)
                    && (row.service == BLACK_START || row.service == REACTIVE)
                    && ANNUAL_REQUIREMENT.contains(&row.requirement)
                    && RESERVE_CREDIT.contains(&row.reserve_credit)
                    && (row.service != REACTIVE || row.reserve_credit == 0),
            )?;
            order(earlier, |last| last.unit < row.unit)?;
            link(self.has_owner(row.owner) && self.has_zone(row.zone))
        })?;
        judge_rows(ACCOUNTS, &self.accounts, |row, earlier| {
            range(
                ACCOUNT.contains(&row.account)
                    && CUSTOMER.contains(&row.customer)
                    && ZONE_OR_BORDER.contains(&row.zone),
            )?;
            order(earlier, |last| last.account < row.account)?;
            link(row.zone == BORDER || self.has_zone(row.zone))?;
            pair(
                !earlier
                    .iter()
                    .any(|taken| taken.customer == row.customer && taken.zone == row.zone),
            )
        })?;
        judge_rows(LOADS, &self.loads, |row, earlier| {
            range(
                ACCOUNT.contains(&row.account)
                    && (1..=self.days).contains(&row.day)
                    && CONTRIBUTION.contains(&row.contribution),
            )?;
            order(earlier, |last| {
                (last.account, last.day) < (row.account, row.day)
            })?;
            link(self.has_account(row.account))
        })?;
        judge_rows(RESERVATIONS, &self.reservations, |row, earlier| {
            range(
                ACCOUNT.contains(&row.account)
                    && ENERGY.contains(&row.reserved)
                    && ENERGY.contains(&row.curtailed)
                    && row.curtailed <= row.reserved,
            )?;
            order(earlier, |last| last.account < row.account)?;
            link(self.has_account(row.account))
        })?;
        judge_rows(FIRM, &self.firm, |row, earlier| {
            range(
                ACCOUNT.contains(&row.account)
                    && TERM.contains(&row.term)
                    && MISO.contains(&row.miso)
                    && (1..=self.days).contains(&row.first_day)
                    && (row.term != MONTHLY || row.first_day == 1)
                    && CAPACITY.contains(&row.capacity),
            )?;
            order(earlier, |last| {
                let key = |row: &Firm| (row.account, row.term, row.miso, row.first_day);
                key(last) < key(row)
            })?;
            link(self.has_account(row.account))
        })
    }

    fn has_zone(&self, zone: u128) -> bool {
        self.zones.iter().any(|row| row.zone == zone)
    }

    fn has_owner(&self, owner: u128) -> bool {
        self.owners.iter().any(|row| row.owner == owner)
    }

    fn has_account(&self, account: u128) -> bool {
        self.accounts.iter().any(|row| row.account == account)
    }
}

/// "Days must be the month's length, February 28 or 29."
fn is_length_of(days: u128, month: u128) -> bool {
    match month {
        1 | 3 | 5 | 7 | 8 | 10 | 12 => days == 31,
        4 | 6 | 9 | 11 => days == 30,
        2 => days == 28 || days == 29,
        _ => false,
    }
}

fn rows<const WIDTH: usize, Row>(entries: &[u64], row: impl Fn([u128; WIDTH]) -> Row) -> Vec<Row> {
    entries
        .chunks_exact(WIDTH)
        .map(|entries| row(std::array::from_fn(|entry| u128::from(entries[entry]))))
        .collect()
}

/// Looks at each row beside the ones before it; the first bad one names the table and itself.
fn judge_rows<Row>(
    table: usize,
    rows: &[Row],
    judge: impl Fn(&Row, &[Row]) -> Result<(), u64>,
) -> Result<(), Refusal> {
    for (position, row) in rows.iter().enumerate() {
        judge(row, &rows[..position])
            .map_err(|number| (number, FORMS[table].number, position as u64))?;
    }
    Ok(())
}

fn range(good: bool) -> Result<(), u64> {
    good.then_some(()).ok_or(RANGE)
}

fn order<Row>(earlier: &[Row], below: impl Fn(&Row) -> bool) -> Result<(), u64> {
    earlier.last().is_none_or(below).then_some(()).ok_or(ORDER)
}

fn link(good: bool) -> Result<(), u64> {
    good.then_some(()).ok_or(LINK)
}

fn pair(good: bool) -> Result<(), u64> {
    good.then_some(()).ok_or(PAIR)
}
