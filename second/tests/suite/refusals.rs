//! The order in which a settlement looks, reading by reading.

use crate::{position_of, tables_of, APRIL};
use second::make::{good, Numbers, Sizes};
use second::refusal::Refusal;
use second::settle::settle;
use second::tables::{
    Head, Tables, ACCOUNTS, FIRM, FORMS, HEAD_KEYS, LOADS, OWNERS, RESERVATIONS, UNITS,
};

/// Two zones with an owner each, two units, three accounts, loads and reservations.
fn tables() -> Tables {
    tables_of(&[
        &[1, 3_650, 2, 0],
        &[1, 1, 10, 2, 2, 10],
        &[1, 1, 1, 1, 12, 0, 2, 1, 2, 2, 12, 0],
        &[1, 5, 1, 2, 5, 2, 3, 5, 0],
        &[1, 1, 10, 1, 2, 10, 2, 1, 10],
        &[1, 10, 0, 3, 10, 10],
        &[
            1, 1, 0, 2, 7, 1, 2, 0, 3, 7, 2, 3, 0, 1, 7, 2, 3, 1, 1, 7, 3, 1, 1, 2, 7,
        ],
    ])
}

fn refusal(head: Head, tables: &Tables) -> Option<Refusal> {
    settle(head, tables, usize::MAX, usize::MAX).err()
}

/// The month with one entry set to another number.
fn with(table: u64, row: usize, entry: usize, number: u64) -> Tables {
    let mut tables = tables();
    let table = position_of(table);
    tables[table][row * FORMS[table].width + entry] = number;
    tables
}

#[test]
fn the_month_itself_is_good() {
    assert_eq!(refusal(APRIL, &tables()), None);
}

#[test]
fn count_then_room_then_month_then_range() {
    let bad_head = Head {
        month: 0,
        days: 0,
        ..Head::from_numbers([u64::MAX; HEAD_KEYS.len()])
    };
    for (table, form) in FORMS.iter().enumerate() {
        let mut tables = tables();
        tables[table].push(1);
        tables[FIRM].push(1);
        let count = Err((1, form.number, 0));
        assert_eq!(settle(bad_head, &tables, 0, 0), count);
        tables[table] = vec![0; form.full_size() + form.width];
        assert_eq!(settle(bad_head, &tables, 0, 0), count);
    }
    // Four words an account, five an owner.
    let tables = with(1, 0, 0, 0);
    assert_eq!(settle(bad_head, &tables, 11, 0), Err((2, 7, 0)));
    assert_eq!(settle(bad_head, &tables, 12, 9), Err((2, 8, 0)));
    assert_eq!(settle(bad_head, &tables, 12, 10), Err((3, 0, 0)));
}

/// Each of the head's entries after the month: MONTH comes before it, table 1 after it.
#[test]
fn ranges_of_the_head() {
    let limits = [
        (2, 0, 100_000_000),
        (3, 0, 100_000_000),
        (4, 0, 100_000_000),
        (5, 0, 100_000_000),
        (6, 1, 7),
    ];
    for (entry, least, greatest) in limits {
        let head = |number: u64| {
            let mut head = APRIL.numbers();
            head[entry] = number;
            Head::from_numbers(head)
        };
        for good in [least, greatest] {
            let answer = refusal(head(good), &tables());
            assert!(answer.is_none_or(|(number, _, _)| number != 4), "{entry}");
            assert_eq!(refusal(head(good), &with(1, 0, 0, 0)), Some((4, 1, 0)));
        }
        for bad in [least.wrapping_sub(1), greatest + 1, u64::MAX] {
            let bad = head(bad);
            assert_eq!(refusal(bad, &with(1, 0, 0, 0)), Some((4, 0, 0)), "{entry}");
            let no_month = Head { days: 31, ..bad };
            assert_eq!(refusal(no_month, &tables()), Some((3, 0, 0)), "{entry}");
        }
    }
}

#[test]
fn longer_outputs_are_fine_and_only_rows_are_written() {
    let (charges, credits) = settle(APRIL, &tables(), 100, 100).expect("a good month");
    assert_eq!((charges.len(), credits.len()), (12, 10));
    assert!(settle(APRIL, &tables(), 12, 10).is_ok());
    let (charges, credits) = settle(APRIL, &Tables::default(), 0, 0).expect("an empty month");
    assert_eq!((charges.len(), credits.len()), (0, 0));
}

#[test]
fn ranges() {
    // Table, row, entry, a last good number or none, and the first bad one.
    let limits = [
        (1, 1, 0, Some(999), 1_000),
        (1, 0, 1, None, 100_000_001),
        (2, 1, 0, Some(9_999), 10_000),
        (2, 1, 1, Some(1), 1_000),
        (2, 0, 1, None, 0),
        (2, 0, 2, Some(1_000_000_000_000), 1_000_000_000_001),
        (3, 1, 0, Some(9_999), 10_000),
        (3, 0, 1, None, 0),
        (3, 0, 1, None, 10_000),
        (3, 0, 2, None, 0),
        (3, 0, 2, None, 1_000),
        (3, 0, 3, Some(2), 3),
        (3, 0, 3, None, 0),
        (3, 0, 4, Some(1_000_000_000_000), 1_000_000_000_001),
        (3, 0, 5, Some(10_000_000_000), 10_000_000_001),
        (3, 1, 5, Some(0), 1),
        (4, 2, 0, Some(9_999), 10_000),
        (4, 0, 1, Some(1_000_000_000), 1_000_000_001),
        (4, 0, 1, None, 0),
        (4, 1, 2, Some(2), 1_000),
        (5, 2, 0, None, 10_000),
        (5, 0, 0, None, 0),
        (5, 2, 1, Some(30), 31),
        (5, 0, 1, None, 0),
        (5, 0, 2, Some(1_000_000), 1_000_001),
        (6, 1, 0, Some(3), 10_000),
        (6, 0, 1, Some(1_000_000_000), 1_000_000_001),
        (6, 1, 2, Some(10), 11),
        (10, 0, 0, Some(1), 0),
        (10, 4, 0, Some(3), 10_000),
        (10, 0, 1, Some(1), 0),
        (10, 3, 1, Some(3), 4),
        (10, 3, 2, Some(1), 2),
        (10, 0, 3, Some(1), 0),
        (10, 0, 3, Some(30), 31),
        (10, 1, 3, Some(30), 31),
        (10, 4, 3, Some(30), 31),
        // A month starts on its first day, with MISO delivery too, and so does no other term.
        (10, 2, 3, Some(1), 2),
        (10, 3, 3, Some(1), 30),
        (10, 0, 1, Some(2), 3),
        (10, 4, 1, Some(2), 3),
        (10, 0, 4, Some(1_000_000), 1_000_001),
        (10, 4, 4, Some(0), 1_000_001),
    ];
    for (table, row, entry, good, bad) in limits {
        let place = format!("table {table}, row {row}, entry {entry}");
        for bad in [bad, u64::MAX] {
            let expected = Some((4, table, row as u64));
            assert_eq!(
                refusal(APRIL, &with(table, row, entry, bad)),
                expected,
                "{place}"
            );
        }
        if let Some(good) = good {
            let answer = refusal(APRIL, &with(table, row, entry, good));
            assert!(
                answer.is_none_or(|(number, _, _)| number != 4),
                "{place}: {answer:?}"
            );
        }
    }
}

#[test]
fn orders_and_links_and_pairs() {
    assert_eq!(refusal(APRIL, &with(1, 1, 0, 1)), Some((5, 1, 1)));
    assert_eq!(refusal(APRIL, &with(2, 1, 0, 1)), Some((5, 2, 1)));
    assert_eq!(refusal(APRIL, &with(3, 1, 0, 1)), Some((5, 3, 1)));
    assert_eq!(refusal(APRIL, &with(4, 1, 0, 1)), Some((5, 4, 1)));
    assert_eq!(refusal(APRIL, &with(5, 1, 1, 1)), Some((5, 5, 1)));
    assert_eq!(refusal(APRIL, &with(5, 2, 0, 1)), Some((5, 5, 2)));
    assert_eq!(refusal(APRIL, &with(6, 1, 0, 1)), Some((5, 6, 1)));

    assert_eq!(refusal(APRIL, &with(2, 0, 1, 3)), Some((6, 2, 0)));
    assert_eq!(refusal(APRIL, &with(3, 0, 1, 3)), Some((6, 3, 0)));
    assert_eq!(refusal(APRIL, &with(3, 0, 2, 3)), Some((6, 3, 0)));
    assert_eq!(refusal(APRIL, &with(4, 0, 2, 3)), Some((6, 4, 0)));
    assert_eq!(refusal(APRIL, &with(5, 2, 0, 4)), Some((6, 5, 2)));
    assert_eq!(refusal(APRIL, &with(6, 1, 0, 4)), Some((6, 6, 1)));
    assert_eq!(refusal(APRIL, &with(10, 4, 0, 4)), Some((6, 10, 4)));

    assert_eq!(refusal(APRIL, &with(4, 1, 2, 1)), Some((7, 4, 1)));
    assert_eq!(refusal(APRIL, &with(4, 2, 2, 1)), Some((7, 4, 2)));
    // In zone 0 too.
    assert_eq!(refusal(APRIL, &with(4, 0, 2, 0)), Some((7, 4, 2)));
    // Two identical account rows are out of order.
    let mut twice = tables();
    twice[3] = vec![1, 5, 1, 1, 5, 1];
    assert_eq!(refusal(APRIL, &twice), Some((5, 4, 1)));
}

/// By account, term, MISO delivery and first day, whatever the capacity.
#[test]
fn firm_rows_ascend_by_their_first_four_entries() {
    let before = [2, 2, 0, 15, 7];
    let rows = |row: [u64; 5]| {
        let mut tables = tables();
        tables[FIRM] = [before, row].concat();
        refusal(APRIL, &tables)
    };
    for row in [
        [2, 2, 0, 16, 0],
        [2, 2, 1, 1, 0],
        [2, 3, 0, 1, 0],
        [3, 1, 0, 1, 0],
    ] {
        assert_eq!(rows(row), None, "{row:?}");
    }
    for row in [
        before,
        [2, 2, 0, 15, 8],
        [2, 2, 0, 14, 8],
        [2, 1, 1, 30, 8],
        [1, 3, 1, 1, 8],
    ] {
        assert_eq!(rows(row), Some((5, 10, 1)), "{row:?}");
    }
    let mut tables = tables();
    tables[FIRM] = vec![2, 2, 1, 15, 7, 2, 2, 0, 16, 7];
    assert_eq!(refusal(APRIL, &tables), Some((5, 10, 1)));
}

#[test]
fn a_row_before_the_next_and_a_table_before_the_next() {
    // Row 0's LINK comes before row 1's RANGE.
    let mut tables = with(2, 0, 1, 3);
    tables[1][5] = u64::MAX;
    assert_eq!(refusal(APRIL, &tables), Some((6, 2, 0)));
    // In a row RANGE, then ORDER, then LINK.
    let mut tables = with(2, 1, 0, 1);
    tables[1][4] = 3;
    assert_eq!(refusal(APRIL, &tables), Some((5, 2, 1)));
    tables[1][5] = u64::MAX;
    assert_eq!(refusal(APRIL, &tables), Some((4, 2, 1)));
    // The last row of a table comes before the first of the next.
    let mut tables = with(4, 2, 2, 1);
    tables[LOADS][0] = 0;
    assert_eq!(refusal(APRIL, &tables), Some((7, 4, 2)));
    // Table 10 comes after table 6, and before the divisions.
    let mut tables = with(10, 0, 0, 0);
    tables[OWNERS] = vec![1, 1, 0];
    assert_eq!(refusal(APRIL, &tables), Some((4, 10, 0)));
    tables[RESERVATIONS][3] = 4;
    assert_eq!(refusal(APRIL, &tables), Some((6, 6, 1)));
    // In a row of table 10 too RANGE, then ORDER, then LINK.
    let mut tables = with(10, 1, 0, 4);
    tables[FIRM][0] = 5;
    tables[FIRM][9] = u64::MAX;
    tables[ACCOUNTS].extend([5, 5, 0]);
    tables[ACCOUNTS][7] = 6;
    assert_eq!(refusal(APRIL, &tables), Some((4, 10, 1)));
    tables[FIRM][9] = 0;
    assert_eq!(refusal(APRIL, &tables), Some((5, 10, 1)));
    tables[FIRM][0] = 1;
    assert_eq!(refusal(APRIL, &tables), Some((6, 10, 1)));
}

/// With two zones: network 0, 1 and 2, black start 3 to 7, reactive 8 to 12, firm 13.
#[test]
fn divisions_in_turn() {
    // Each month has what all the later ones have, and one fault before.
    let mut tables = tables();
    tables[ACCOUNTS] = vec![1, 5, 1, 2, 6, 0];
    tables[LOADS] = vec![];
    tables[RESERVATIONS] = vec![2, 1, 0];
    tables[UNITS] = vec![
        1,
        1,
        1,
        2,
        600_000_000_000,
        0,
        2,
        1,
        2,
        2,
        600_000_000_000,
        0,
    ];
    tables[FIRM] = vec![2, 1, 0, 30, 1_000_000];
    let head = |daily_rate: u64| Head {
        daily_rate,
        weekly_rate: 100_000_000,
        ..APRIL
    };
    assert_eq!(refusal(head(1_000_000), &tables), None);
    let dear = head(1_000_001);
    assert_eq!(refusal(dear, &tables), Some((8, 9, 13)), "firm");
    tables[UNITS].extend([3, 1, 2, 2, 12, 0]);
    assert_eq!(
        refusal(dear, &tables),
        Some((8, 9, 12)),
        "reactive, non-zone"
    );
    tables[UNITS].extend([4, 1, 2, 2, 600_000_000_000, 0]);
    assert_eq!(
        refusal(dear, &tables),
        Some((8, 9, 10)),
        "reactive, second split"
    );
    tables[RESERVATIONS] = vec![1, 24, 0, 2, 24, 24];
    assert_eq!(
        refusal(dear, &tables),
        Some((8, 9, 10)),
        "all use in the first zone"
    );
    tables[UNITS].truncate(18);
    assert_eq!(
        refusal(dear, &tables),
        Some((9, 9, 11)),
        "reactive, second share"
    );
    tables[RESERVATIONS] = vec![];
    assert_eq!(
        refusal(dear, &tables),
        Some((9, 9, 8)),
        "reactive, first split"
    );

    for unit in [3, 9, 15] {
        tables[UNITS][unit] = 1;
    }
    assert_eq!(
        refusal(dear, &tables),
        Some((9, 9, 3)),
        "black start, first split"
    );
    tables[RESERVATIONS] = vec![1, 24, 0];
    assert_eq!(
        refusal(dear, &tables),
        Some((9, 9, 6)),
        "black start, second share"
    );
    tables[RESERVATIONS] = vec![2, 24, 0];
    assert_eq!(
        refusal(dear, &tables),
        Some((8, 9, 7)),
        "black start, non-zone"
    );
    tables[UNITS][16] = 600_000_000_012;
    assert_eq!(
        refusal(dear, &tables),
        Some((8, 9, 5)),
        "black start, second split"
    );
    tables[UNITS][14] = 1;
    assert_eq!(
        refusal(dear, &tables),
        Some((8, 9, 3)),
        "black start, first split"
    );

    // W above 10^13 is BIG even where nothing is divided.
    tables[OWNERS] = (1..=10)
        .flat_map(|owner| [owner, 2, 1_000_000_000_000])
        .collect();
    assert_eq!(refusal(dear, &tables), Some((8, 9, 3)));
    tables[OWNERS].extend([11, 1, 1]);
    assert_eq!(refusal(dear, &tables), Some((8, 9, 2)), "network, non-zone");
    tables[OWNERS].extend([12, 2, 1]);
    assert_eq!(
        refusal(dear, &tables),
        Some((8, 9, 1)),
        "network, second zone"
    );
    // An earlier BASE comes before a later BIG.
    tables[OWNERS][31] = 2;
    tables[LOADS] = vec![1, 1, 1];
    assert_eq!(
        refusal(dear, &tables),
        Some((9, 9, 0)),
        "network, first zone"
    );
}

#[test]
fn a_full_month_is_settled() {
    let mut numbers = Numbers::from_seed(31, 0, 0);
    let mut accepted = 0;
    for _ in 0..50 {
        let made = good(&mut numbers, &Sizes::FULL);
        let rows = made.rows.iter().map(Vec::len);
        assert!(rows.eq(FORMS.map(|form| form.limit)));
        accepted += usize::from(settle(made.head, &made.tables(), 128, 320).is_ok());
    }
    assert!(accepted > 25, "{accepted}");
}
