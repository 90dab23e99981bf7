//! Faults in a month's tables, each at the first row, the last or one in the middle.

use super::numbers::Numbers;
use super::Made;
use crate::tables::{
    Head, ACCOUNTS, FIRM, FORMS, HEAD_KEYS, LOADS, OWNERS, RESERVATIONS, UNITS, ZONES,
};

const DEFECTS: [fn(&mut Numbers, &mut Made); 11] = [
    wrong_month,
    head_entry_out_of_range,
    entry_out_of_range,
    entry_out_of_range,
    entries_at_odds,
    entry_at_its_limit,
    row_out_of_order,
    row_out_of_order,
    named_row_missing,
    named_row_missing,
    pair_taken,
];

pub fn add_defect(numbers: &mut Numbers, made: &mut Made) {
    numbers.one_of(&DEFECTS)(numbers, made);
}

const ALL: [usize; FORMS.len()] = [ZONES, OWNERS, UNITS, ACCOUNTS, LOADS, RESERVATIONS, FIRM];

/// The least entries of a good row.
const LEAST: [&[u64]; FORMS.len()] = [
    &[1, 0],
    &[1, 1, 0],
    &[1, 1, 1, 1, 0, 0],
    &[1, 1, 0],
    &[1, 1, 0],
    &[1, 0, 0],
    &[1, 1, 0, 1, 0],
];

/// The greatest entries of a good row in a month of 31 days.
const GREATEST: [&[u64]; FORMS.len()] = [
    &[999, 100_000_000],
    &[9_999, 999, 1_000_000_000_000],
    &[9_999, 9_999, 999, 2, 1_000_000_000_000, 10_000_000_000],
    &[9_999, 1_000_000_000, 999],
    &[9_999, 31, 1_000_000],
    &[9_999, 1_000_000_000, 1_000_000_000],
    &[9_999, 3, 1, 31, 1_000_000],
];

/// How many entries rows ascend by.
const ASCENDING: [usize; FORMS.len()] = [1, 1, 1, 1, 2, 1, 4];

/// The least and the greatest of the head's entries after the month and its days.
const HEAD_RANGES: [(u64, u64); HEAD_KEYS.len() - 2] = [
    (0, 100_000_000),
    (0, 100_000_000),
    (0, 100_000_000),
    (0, 100_000_000),
    (1, 7),
];

fn wrong_month(numbers: &mut Numbers, made: &mut Made) {
    let head = &mut made.head;
    match numbers.below(6) {
        0 => head.month = numbers.one_of(&[0, 13, 14, 256, 1 << 32, u64::MAX]),
        1 => {
            head.month = head
                .month
                .wrapping_add(numbers.one_of(&[1 << 32, 1 << 63, 12]))
        }
        2 => head.days = numbers.one_of(&[0, 27, 28, 29, 30, 31, 32, u64::MAX]),
        3 => {
            head.days = head
                .days
                .wrapping_add(numbers.one_of(&[1, u64::MAX, 1 << 32, 1 << 8]))
        }
        4 => head.month = numbers.between(1, 12),
        _ => (head.month, head.days) = (2, numbers.between(27, 30)),
    }
}

fn head_entry_out_of_range(numbers: &mut Numbers, made: &mut Made) {
    set_head_entry(numbers, made, outside);
}

fn set_head_entry(
    numbers: &mut Numbers,
    made: &mut Made,
    choose: fn(&mut Numbers, u64, u64) -> u64,
) {
    let position = numbers.position_below(HEAD_RANGES.len());
    let (least, greatest) = HEAD_RANGES[position];
    let mut head = made.head.numbers();
    head[2 + position] = choose(numbers, least, greatest);
    made.head = Head::from_numbers(head);
}

fn entry_out_of_range(numbers: &mut Numbers, made: &mut Made) {
    let Some((table, row)) = a_row(numbers, made, &ALL) else {
        return;
    };
    let entry = numbers.position_below(FORMS[table].width);
    let greatest = match (table, entry) {
        (LOADS, 1) | (FIRM, 3) => made.head.days,
        _ => GREATEST[table][entry],
    };
    made.rows[table][row][entry] = outside(numbers, LEAST[table][entry], greatest);
}

/// Entries that are each in range by themselves but not beside another.
fn entries_at_odds(numbers: &mut Numbers, made: &mut Made) {
    match numbers.below(5) {
        0 => {
            if let Some((table, row)) = a_row(numbers, made, &[UNITS]) {
                made.rows[table][row][3] = 2;
                made.rows[table][row][5] = numbers.one_of(&[1, 10_000_000_000, 10_000_000_001]);
            }
        }
        1 => {
            if let Some((table, row)) = a_row(numbers, made, &[RESERVATIONS]) {
                let row = &mut made.rows[table][row];
                row[1] = row[1].min(999_999_999);
                row[2] = numbers.between(row[1] + 1, (row[1] + 2).min(1_000_000_000));
            }
        }
        2..=3 => {
            // Also day 31 of April.
            if let Some((table, row)) = a_row(numbers, made, &[LOADS, FIRM]) {
                let entry = if table == LOADS { 1 } else { 3 };
                let days = made.head.days;
                made.rows[table][row][entry] =
                    numbers.one_of(&[days, days.wrapping_add(1), 31, 32]);
            }
        }
        _ => {
            // A month that starts on another day than the first.
            if let Some((table, row)) = a_row(numbers, made, &[FIRM]) {
                made.rows[table][row][1] = 3;
                made.rows[table][row][3] = numbers.between(2, made.head.days.max(2));
            }
        }
    }
}

/// Good by itself; often out of order or without a row to name.
fn entry_at_its_limit(numbers: &mut Numbers, made: &mut Made) {
    if numbers.once_in(4) {
        set_head_entry(numbers, made, either);
    }
    let Some((table, row)) = a_row(numbers, made, &ALL) else {
        return;
    };
    let entry = numbers.position_below(FORMS[table].width);
    made.rows[table][row][entry] = either(numbers, LEAST[table][entry], GREATEST[table][entry]);
}

fn row_out_of_order(numbers: &mut Numbers, made: &mut Made) {
    let Some((table, row)) = a_later_row(numbers, made, &ALL) else {
        return;
    };
    let rows = &mut made.rows[table];
    let before = rows[row - 1];
    let entries = ASCENDING[table];
    // The entries before this one stay those of the row before.
    let entry = numbers.position_below(entries);
    match numbers.below(4) {
        0 => rows.swap(row - 1, row),
        1 => rows[row] = before,
        2 => rows[row][..entries].copy_from_slice(&before[..entries]),
        _ => {
            let least = LEAST[table][entry].min(before[entry]);
            let lower = match before[entry] > least && !numbers.once_in(4) {
                true => before[entry] - 1,
                false => numbers.between(least, before[entry]),
            };
            rows[row][..entry].copy_from_slice(&before[..entry]);
            rows[row][entry] = lower;
        }
    }
}

fn named_row_missing(numbers: &mut Numbers, made: &mut Made) {
    match numbers.below(12) {
        0 => drop_row(numbers, made, ZONES),
        1 => drop_row(numbers, made, OWNERS),
        2 => drop_row(numbers, made, ACCOUNTS),
        3 => name_nothing(numbers, made, OWNERS, 1, ZONES),
        4 => name_nothing(numbers, made, UNITS, 1, OWNERS),
        5 => name_nothing(numbers, made, UNITS, 2, ZONES),
        6 => name_nothing(numbers, made, ACCOUNTS, 2, ZONES),
        7 => name_no_account(numbers, made, RESERVATIONS),
        8..=9 => name_no_account(numbers, made, FIRM),
        _ => name_no_account(numbers, made, LOADS),
    }
}

fn pair_taken(numbers: &mut Numbers, made: &mut Made) {
    let Some((table, row)) = a_later_row(numbers, made, &[ACCOUNTS]) else {
        return;
    };
    let taken = made.rows[table][numbers.first_middle_or_last(0, row - 1)];
    made.rows[table][row][1..3].copy_from_slice(&taken[1..3]);
}

fn drop_row(numbers: &mut Numbers, made: &mut Made, table: usize) {
    if let Some((table, row)) = a_row(numbers, made, &[table]) {
        made.rows[table].remove(row);
    }
}

fn name_nothing(numbers: &mut Numbers, made: &mut Made, table: usize, entry: usize, named: usize) {
    let Some((table, row)) = a_row(numbers, made, &[table]) else {
        return;
    };
    let named_rows = made.column(named, 0);
    let greatest = GREATEST[named][0];
    let number = match numbers.below(3) {
        0 => (1..=greatest).find(|number| !named_rows.contains(number)),
        1 => (1..=greatest)
            .rev()
            .find(|number| !named_rows.contains(number)),
        _ => Some(numbers.between(1, greatest)),
    };
    made.rows[table][row][entry] = number.expect("there are fewer rows than numbers");
}

/// Keeps the rows in order where there is a number left between the neighbours' accounts.
fn name_no_account(numbers: &mut Numbers, made: &mut Made, table: usize) {
    let Some((table, row)) = a_row(numbers, made, &[table]) else {
        return;
    };
    let accounts = made.column(ACCOUNTS, 0);
    let rows = &mut made.rows[table];
    let least = if row == 0 { 1 } else { rows[row - 1][0] };
    let greatest = rows.get(row + 1).map_or(9_999, |next| next[0]);
    let free = (least..=greatest).find(|number| !accounts.contains(number));
    match free {
        Some(number) => rows[row][0] = number,
        None => drop_row(numbers, made, ACCOUNTS),
    }
}

/// Below the least where there is such a number, or above the greatest.
fn outside(numbers: &mut Numbers, least: u64, greatest: u64) -> u64 {
    match least > 0 && numbers.once_in(2) {
        true => least - 1,
        false => above(numbers, greatest),
    }
}

fn either(numbers: &mut Numbers, least: u64, greatest: u64) -> u64 {
    numbers.one_of(&[least, greatest])
}

/// One past the greatest, or far past it, or like a good number in its lower bits.
fn above(numbers: &mut Numbers, greatest: u64) -> u64 {
    let wrapped = numbers.up_to(greatest);
    match numbers.below(6) {
        0 => u64::MAX - numbers.up_to(1),
        1 => (1 << 63) + wrapped,
        2 => (greatest >> 32 << 32) + (1 << 32) + wrapped % (1 << 32),
        3 => greatest + 1 + wrapped,
        _ => greatest + 1,
    }
}

/// A row of one of those tables that has one.
fn a_row(numbers: &mut Numbers, made: &Made, tables: &[usize]) -> Option<(usize, usize)> {
    row_from(numbers, made, tables, 0)
}

/// A row of one of those tables that has another before it.
fn a_later_row(numbers: &mut Numbers, made: &Made, tables: &[usize]) -> Option<(usize, usize)> {
    row_from(numbers, made, tables, 1)
}

fn row_from(
    numbers: &mut Numbers,
    made: &Made,
    tables: &[usize],
    first: usize,
) -> Option<(usize, usize)> {
    let tables = tables.iter().copied();
    let tables: Vec<usize> = tables
        .filter(|&table| made.rows[table].len() > first)
        .collect();
    if tables.is_empty() {
        return None;
    }
    let table = numbers.one_of(&tables);
    let last = made.rows[table].len() - 1;
    Some((table, numbers.first_middle_or_last(first, last)))
}
