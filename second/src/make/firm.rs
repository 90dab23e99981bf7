//! Firm reservations: those of good months, and aims at what they can come to.

use super::aims::{near, POT};
use super::good::{Level, Sizes};
use super::numbers::Numbers;
use super::{row, Made, Row};
use crate::tables::{Head, ACCOUNTS, FIRM, OWNERS, ZONES};

const DAILY: u64 = 1;
const WEEKLY: u64 = 2;
const MONTHLY: u64 = 3;

const HIGHEST_RATE: u64 = 100_000_000;
const HIGHEST_CAPACITY: u64 = 1_000_000;

/// Rows of some terms on some days. Weeks come out below their bounds, at them and above.
pub fn make_firm(
    numbers: &mut Numbers,
    made: &mut Made,
    sizes: &Sizes,
    level: Level,
    careless: bool,
) {
    let all = all_rows(numbers, made, sizes.firm == Sizes::FULL.firm);
    let mut rows = numbers.so_many_of(&all, sizes.firm);
    let capacity = |numbers: &mut Numbers| match level {
        Level::Alike(capacity) => capacity,
        Level::Small => numbers.up_to(30),
        Level::Middle => numbers.up_to(5_000),
        Level::Large => match numbers.once_in(8) {
            true => HIGHEST_CAPACITY,
            false => numbers.up_to(HIGHEST_CAPACITY),
        },
    };
    let usual = capacity(numbers);
    for row in &mut rows {
        row[4] = match numbers.once_in(2) {
            true => usual,
            false => capacity(numbers),
        };
    }
    made.rows[FIRM] = rows;
    make_rates(numbers, made, level, careless);
}

/// All rows that accounts can have of some terms, with MISO delivery or without, on some days.
fn all_rows(numbers: &mut Numbers, made: &Made, full: bool) -> Vec<Row> {
    let mut terms: &[u64] = numbers.one_of(&[
        &[DAILY],
        &[DAILY],
        &[DAILY, WEEKLY],
        &[DAILY, MONTHLY],
        &[DAILY, WEEKLY, MONTHLY],
        &[DAILY, WEEKLY, MONTHLY],
        &[WEEKLY],
        &[WEEKLY, MONTHLY],
        &[MONTHLY],
    ]);
    let mut misos: &[u64] = numbers.one_of(&[&[0], &[0], &[0, 1], &[0, 1], &[0, 1], &[1]]);
    let last = made.head.days;
    let length = numbers.between(1, 10);
    let mut days = match numbers.below(6) {
        0 => 1..=length,
        1 => last + 1 - length..=last,
        2 => {
            let first = numbers.between(1, last + 1 - length);
            first..=first + length - 1
        }
        _ => 1..=last,
    };
    if full {
        // Every day's row of 32 accounts fills the table; there are more where there are other terms.
        terms = numbers.one_of(&[&[DAILY][..], &[DAILY, WEEKLY, MONTHLY]]);
        misos = numbers.one_of(&[&[0][..], &[0, 1]]);
        days = 1..=last;
    }
    let mut rows = Vec::new();
    for account in made.column(ACCOUNTS, 0) {
        for &term in terms {
            let days = if term == MONTHLY { 1..=1 } else { days.clone() };
            for &miso in misos {
                rows.extend(days.clone().map(|day| row([account, term, miso, day])));
            }
        }
    }
    rows
}

fn make_rates(numbers: &mut Numbers, made: &mut Made, level: Level, careless: bool) {
    let rows = made.rows[FIRM].iter().filter(|row| row[2] == 0);
    let capacities: u64 = rows.map(|row| row[4]).sum();
    let credited = made.rows[OWNERS].iter().any(|row| row[2] > 0);
    // At this rate all rows together come to a pot of no more than its limit.
    let highest = match capacities {
        0 => HIGHEST_RATE,
        _ if !credited && !careless => 0,
        _ => (10 * POT / capacities).min(HIGHEST_RATE),
    };
    let mut rate = || match level {
        Level::Alike(_) => numbers.one_of(&[0, 1, 3, 5, 10, 15, 1_005]),
        Level::Small => match numbers.once_in(4) {
            true => highest,
            false => numbers.up_to(300),
        },
        Level::Middle => numbers.up_to(30_000),
        Level::Large => match numbers.once_in(3) {
            true => highest,
            false => numbers.up_to(highest),
        },
    };
    let [daily, other, monthly] = [rate(), rate(), rate()];
    // So many days of the same capacity cost as much as a week, or nearly.
    let days = numbers.between(1, 7);
    let weekly = match numbers.below(4) {
        0 => other,
        1 => days * daily + numbers.up_to(daily),
        _ => days * daily,
    };
    let rates = [daily, weekly, monthly];
    set_rates(made, rates.map(|rate| rate.min(highest)));
}

/// Charges that come to 10^11 cents, or one more or less: nearly all of them by one term at a high
/// rate, and the last cents by another at a low one.
pub fn pot_at_limit(numbers: &mut Numbers, made: &mut Made) {
    let (most, least) = numbers.one_of(&[
        (WEEKLY, DAILY),
        (WEEKLY, MONTHLY),
        (MONTHLY, DAILY),
        (DAILY, MONTHLY),
    ]);
    let total = near(numbers, POT);
    // So many cents for a tenth of a MW; fewer than 10^6 cents are left over.
    let high = match total % 10_000_000 < 1_000_000 && numbers.once_in(2) {
        true => 10_000_000,
        false => 1_000_000,
    };
    let mut rows = Vec::new();
    let weeks = weeks(&made.head);
    let accounts = made.column(ACCOUNTS, 0);
    let count = numbers.count_between(1, 5);
    let payers = numbers.so_many_of(&accounts, count);
    let parts = numbers.parts(payers.len(), total / high, HIGHEST_CAPACITY);
    for (account, part) in payers.into_iter().zip(parts) {
        let week = numbers.position_below(weeks.len());
        let mut days = weeks[week].iter();
        let first = match most {
            MONTHLY => 1,
            _ => *days.next().expect("a week has days"),
        };
        rows.push(row([account, most, 0, first, part]));
        if most == DAILY {
            // On top of a day that costs as much as the week.
            rows.extend(days.map(|&day| row([account, DAILY, 0, day, numbers.up_to(part)])));
        }
    }

    // At a rate of 10 a tenth of a MW is a cent. At 5 it is half a cent, and an odd number of them is
    // rounded up.
    let halves = numbers.once_in(2);
    let places: Vec<(u64, u64)> = match least {
        DAILY => {
            let account = numbers.one_of(&accounts);
            weeks.iter().map(|week| (account, week[0])).collect()
        }
        _ => accounts.iter().map(|&account| (account, 1)).collect(),
    };
    let parts = numbers.parts(places.len(), total % high, HIGHEST_CAPACITY / 2);
    for ((account, first), part) in places.into_iter().zip(parts) {
        let capacity = match halves {
            true => (2 * part).saturating_sub(1),
            false => part,
        };
        rows.push(row([account, least, 0, first, capacity]));
    }
    rows.sort_unstable();
    made.rows[FIRM] = rows;

    let mut rates = [10 * high; 3];
    rates[least as usize - 1] = if halves { 5 } else { 10 };
    set_rates(made, rates);
}

/// The greatest capacities at the highest rates.
pub fn all_at_their_highest(_: &mut Numbers, made: &mut Made) {
    for row in &mut made.rows[FIRM] {
        row[4] = HIGHEST_CAPACITY;
    }
    set_rates(made, [HIGHEST_RATE; 3]);
}

/// Days of the same capacity that come to their week's bound, or a day more or less, or rates that
/// miss it by next to nothing.
pub fn weeks_at_their_bounds(numbers: &mut Numbers, made: &mut Made) {
    let days = numbers.count_between(1, 7);
    let daily = numbers.one_of(&[1, 2, 5, 7, 15, 1_005, 14_285_714]);
    let weekly = (days as u64 * daily + numbers.up_to(2)).saturating_sub(1);
    let monthly = numbers.up_to(9_000);
    set_rates(made, [daily, weekly, monthly]);
    let most = numbers.one_of(&[1, 3, 20]);
    let accounts = made.column(ACCOUNTS, 0);
    made.rows[FIRM].retain(|row| row[1] != DAILY);
    for row in &mut made.rows[FIRM] {
        row[4] = row[4].min(numbers.up_to(200));
    }
    for account in accounts {
        let capacity = numbers.between(1, most);
        for week in weeks(&made.head) {
            let count = days + 1 - numbers.position_below(3).min(days + 1);
            for day in numbers.so_many_of(&week, count) {
                made.rows[FIRM].push(row([account, DAILY, 0, day, capacity]));
            }
            if numbers.once_in(4) {
                let day = numbers.one_of(&week);
                let capacity = numbers.up_to(HIGHEST_CAPACITY);
                made.rows[FIRM].push(row([account, DAILY, 1, day, capacity]));
            }
        }
    }
    made.rows[FIRM].sort_unstable();
}

/// No owner with a requirement anywhere, and nothing but firm charges to divide, or not even them.
pub fn no_requirement(numbers: &mut Numbers, made: &mut Made) {
    made.rows[OWNERS].iter_mut().for_each(|row| row[2] = 0);
    made.rows[ZONES].iter_mut().for_each(|row| row[1] = 0);
    made.head.non_zone_rate = 0;
    match numbers.below(6) {
        // MISO delivery costs nothing.
        0 => made.rows[FIRM].retain(|row| row[2] == 1),
        // Less than half a cent for each row, and no more for a week.
        1 => {
            set_rates(made, [1; 3]);
            for row in &mut made.rows[FIRM] {
                row[4] = row[4].min(numbers.up_to(4));
            }
        }
        _ => {
            let account = numbers.one_of(&made.rows[ACCOUNTS])[0];
            made.rows[FIRM].retain(|row| row[0] != account);
            let term = numbers.between(DAILY, MONTHLY);
            let capacity = numbers.one_of(&[1, 1, 10, HIGHEST_CAPACITY]);
            made.rows[FIRM].push(row([account, term, 0, 1, capacity]));
            made.rows[FIRM].sort_unstable();
            let head = &made.head;
            let rates = [head.daily_rate, head.weekly_rate, head.monthly_rate];
            set_rates(made, rates.map(|rate| rate.max(5)));
        }
    }
}

fn set_rates(made: &mut Made, [daily_rate, weekly_rate, monthly_rate]: [u64; 3]) {
    made.head = Head {
        daily_rate,
        weekly_rate,
        monthly_rate,
        ..made.head
    };
}

/// The month's days, week by week from Monday to Sunday.
fn weeks(head: &Head) -> Vec<Vec<u64>> {
    let weekday = |day: u64| (head.weekday - 1 + day - 1) % 7 + 1;
    let days: Vec<u64> = (1..=head.days).collect();
    days.chunk_by(|_, &day| weekday(day) != 1)
        .map(<[u64]>::to_vec)
        .collect()
}
