//! Firm reservations: figures, and what holds of every week and row.

use crate::settled::{settled, settled_months, sum, Settled};
use crate::{tables_of, APRIL};
use second::make::{Made, Row, CASE_S, FIRM_CASE};
use second::settle::{firm_row, firm_week, settle, CHARGES, CREDITS};
use second::statement;
use second::tables::{Head, ACCOUNTS, FIRM, OWNERS, ZONES};

const MONTHS: u64 = 5_000;

fn answer(text: &str) -> String {
    String::from_utf8(statement(text.as_bytes())).expect("plain text")
}

fn plain(text: &[u8]) -> String {
    String::from_utf8(text.to_vec()).expect("plain text")
}

/// A file with more lines before its end, which counts them.
fn with_rows(text: &str, rows: &str) -> String {
    let end = text.find("end=").expect("an end");
    let count: usize = text[end + 4..].trim_end().parse().expect("a number");
    let count = count + rows.lines().count();
    format!("{}{rows}end={count}\n", &text[..end])
}

/// Days 1, 2 and 5 are 4,522.5 cents, and 4,500 by the weekly rate; day 6 is 1,507.5 cents by
/// itself; 900 and 6,300 come on top. At the border 201 for days 1 and 4, and 100.5 for day 6.
#[test]
fn a_month_of_firm_rows() {
    let text = plain(FIRM_CASE);
    assert_eq!(
        answer(&text),
        "charge=1,0,0,0,13208\n\
         charge=2,0,0,0,302\n\
         credit=1,0,0,0,0,9007\n\
         credit=2,0,0,0,0,4503\n\
         total=13510,13510\n"
    );
    // A higher day raises the bound.
    let day_2 = "firm=1,1,0,2,15\n";
    let higher = text.replace(day_2, &format!("{day_2}firm=1,1,0,3,20\n"));
    let higher = higher.replace("end=15", "end=16");
    assert!(answer(&higher).starts_with("charge=1,0,0,0,14708\n"));
    // Without MISO delivery day 3 costs so much that the days stay below their bound.
    let paid = higher.replace("firm=1,1,0,3,20\n", "firm=1,1,0,3,1000000\n");
    let cents = 100_504_523 + 8_708;
    assert!(answer(&paid).starts_with(&format!("charge=1,0,0,0,{cents}\n")));
}

#[test]
fn case_s_with_a_firm_row() {
    let case_s = plain(CASE_S);
    let refused = [
        ("firm=1,3,0,2,1\n", "refuse=4,10,0\n"),
        ("firm=1,3,1,2,1\n", "refuse=4,10,0\n"),
        ("firm=3,3,0,1,1\n", "refuse=6,10,0\n"),
        ("firm=1,3,0,1,1\nfirm=1,3,0,1,1\n", "refuse=5,10,1\n"),
    ];
    for (rows, refusal) in refused {
        assert_eq!(answer(&with_rows(&case_s, rows)), refusal);
    }
    assert_eq!(
        answer(&case_s.replace("weekday=1", "weekday=8")),
        "refuse=4,0,0\n"
    );
    assert_eq!(
        answer(&case_s.replace("weekday=1\n", "")),
        "refuse=10,0,53\n"
    );
    // Nothing is charged at these rates.
    let rows = "firm=1,1,0,1,1000000\nfirm=2,3,0,1,1000000\n";
    assert_eq!(answer(&with_rows(&case_s, rows)), answer(&case_s));
    // Nothing but a firm charge, and no requirement to divide it by.
    let bare = case_s
        .replace("zone=1,365000", "zone=1,0")
        .replace("unit=1,2,1,1,12000,0\n", "")
        .replace("end=9", "end=8")
        .replace("monthly=0", "monthly=1000")
        .replace(",200\n", ",0\n")
        .replace(",100\n", ",0\n");
    let charged = with_rows(&bare, "firm=1,3,0,1,1\n");
    assert_eq!(answer(&charged), "refuse=9,9,8\n");
    let free = with_rows(&bare, "firm=1,3,1,1,1\n");
    assert!(answer(&free).ends_with("total=0,0\n"));
}

#[test]
fn rows_and_weeks_to_the_nearest_cent() {
    assert_eq!(firm_row(1, 4), 0);
    assert_eq!(firm_row(1, 5), 1);
    assert_eq!(firm_row(3, 5), 2);
    assert_eq!(firm_row(1_000_000, 100_000_000), 10_000_000_000_000);
    // Three halves are one and a half, and not three.
    assert_eq!(firm_week(&[1, 1, 1], 5, 100), 2);
    assert_eq!(firm_week(&[1, 1], 5, 100), 1);
    // The bound, before it is rounded.
    assert_eq!(firm_week(&[1, 1, 1], 5, 14), 1);
    assert_eq!(firm_week(&[1, 1, 1], 5, 15), 2);
    assert_eq!(firm_week(&[1, 3, 2], 10, 15), 5);
    assert_eq!(firm_week(&[], 5, 15), 0);
    assert_eq!(firm_week(&[1_000_000; 7], 0, 100_000_000), 0);
    assert_eq!(firm_week(&[1_000_000; 7], 100_000_000, 0), 0);
}

/// A bound of one day: the month costs as many days as it has weeks, however they are cut.
#[test]
fn weeks_go_from_monday_to_sunday() {
    let weeks = |month: u64, days: u64, weekday: u64| {
        let head = Head {
            month,
            days,
            daily_rate: 10,
            weekly_rate: 10,
            weekday,
            ..APRIL
        };
        let firm: Vec<u64> = (1..=days).flat_map(|day| [1, 1, 0, day, 1]).collect();
        let tables = tables_of(&[&[1, 0], &[1, 1, 1], &[], &[1, 1, 1], &[], &[], &firm]);
        let (charges, _) = settle(head, &tables, CHARGES, CREDITS).expect("a good month");
        charges[3]
    };
    assert_eq!([1, 2, 7].map(|weekday| weeks(2, 28, weekday)), [4, 5, 5]);
    assert_eq!([1, 7].map(|weekday| weeks(2, 29, weekday)), [5, 5]);
    assert_eq!([1, 6, 7].map(|weekday| weeks(4, 30, weekday)), [5, 5, 6]);
    assert_eq!(
        [1, 5, 6, 7].map(|weekday| weeks(7, 31, weekday)),
        [5, 5, 6, 6]
    );
}

/// A row's or a week's cost is what the account is charged where it is all there is. No week costs
/// more than its days or its bound, and one of the two is what it costs.
#[test]
fn an_account_pays_its_weeks_and_its_other_rows() {
    let mut weeks_paid = 0;
    for month in settled_months(24, MONTHS) {
        let head = month.made.head;
        let rates = [head.daily_rate, head.weekly_rate, head.monthly_rate];
        for (account, charges) in month.made.rows[ACCOUNTS].iter().zip(&month.charges) {
            let rows = month.made.rows[FIRM].iter().copied();
            let rows: Vec<Row> = rows.filter(|row| row[0] == account[0]).collect();
            let mut paid = 0;
            for week in weeks(&head) {
                let rows = rows.iter().copied();
                let rows = rows.filter(|row| (row[1], row[2]) == (1, 0) && week.contains(&row[3]));
                let rows: Vec<Row> = rows.collect();
                let capacities = || rows.iter().map(|row| row[4]);
                let days = capacities().sum::<u64>() * head.daily_rate;
                let bound = capacities().max().unwrap_or(0) * head.weekly_rate;
                let cost = cost_of(&month, rows.clone());
                assert!(10 * cost <= days + 5 && 10 * cost <= bound + 5);
                assert!(is_nearest(cost, days) || is_nearest(cost, bound));
                weeks_paid += u64::from(cost > 0);
                paid += cost;
            }
            for &row in rows.iter().filter(|row| (row[1], row[2]) != (1, 0)) {
                let cost = cost_of(&month, vec![row]);
                let tenths = row[4] * rates[row[1] as usize - 1];
                assert!(is_nearest(cost, if row[2] == 1 { 0 } else { tenths }));
                paid += cost;
            }
            assert_eq!(paid, charges[3]);
        }
    }
    assert!(weeks_paid > 1_000, "{weeks_paid}");
}

/// What these rows cost, in a month of nothing else.
fn cost_of(month: &Settled, rows: Vec<Row>) -> u64 {
    if rows.is_empty() {
        return 0;
    }
    let mut made = Made {
        head: month.made.head,
        ..Made::default()
    };
    for table in [ZONES, OWNERS, ACCOUNTS] {
        made.rows[table].clone_from(&month.made.rows[table]);
    }
    made.rows[FIRM] = rows;
    let alone = settled(made).expect("less than an accepted month");
    sum(&alone.all_charges(3))
}

fn is_nearest(cents: u64, tenths: u64) -> bool {
    10 * cents <= tenths + 5 && tenths < 10 * cents + 5
}

/// The month's days by the calendar, a new list for each Monday.
pub fn weeks(head: &Head) -> Vec<Vec<u64>> {
    let mut weeks = vec![vec![]];
    let weekdays = (1..=7).cycle().skip(head.weekday as usize - 1);
    for (day, weekday) in (1..=head.days).zip(weekdays) {
        if weekday == 1 && day > 1 {
            weeks.push(vec![]);
        }
        weeks.last_mut().expect("a week").push(day);
    }
    weeks
}

#[test]
fn miso_rows_and_rows_of_nothing_change_nothing() {
    let mut changed = 0;
    for month in settled_months(25, MONTHS) {
        let mut made = month.made.clone();
        made.rows[FIRM].retain(|row| row[2] == 0 && row[4] > 0);
        changed += u64::from(made.rows[FIRM].len() < month.made.rows[FIRM].len());
        let without = settled(made).expect("as good as before");
        assert_eq!(without.charges, month.charges);
        assert_eq!(without.credits, month.credits);
    }
    assert!(changed > MONTHS / 20, "{changed}");
}

#[test]
fn firm_rows_change_no_other_figure() {
    let mut changed = 0;
    for month in settled_months(26, MONTHS) {
        let mut made = month.made.clone();
        made.rows[FIRM].clear();
        let mut without = settled(made).expect("as good as before");
        assert_eq!(sum(&without.all_charges(3)), 0);
        for (charges, with) in without.charges.iter_mut().zip(&month.charges) {
            changed += u64::from(charges[3] != with[3]);
            charges[3] = with[3];
        }
        for (credits, with) in without.credits.iter_mut().zip(&month.credits) {
            credits[4] = with[4];
        }
        assert_eq!(without.charges, month.charges);
        assert_eq!(without.credits, month.credits);
    }
    assert!(changed > MONTHS / 2, "{changed}");
}
