//! Times a month from its file to its statement, by the archive and by the second settlement, on
//! the same files in the same run; and how both grow with loads, accounts, zones and firm rows.

use second::archive::{statement_into, Answer};
use second::make::{Made, Numbers};
use second::statement::statement;
use second::tables::{Head, ACCOUNTS, FIRM, LOADS, OWNERS, RESERVATIONS, UNITS, ZONES};
use std::hint::black_box;
use std::time::{Duration, Instant};

const ROUNDS: usize = 51;

/// Long enough that the clock's own steps don't show, short enough that some rounds go undisturbed
/// on a busy machine.
const ROUND: Duration = Duration::from_millis(3);

#[derive(Clone, Copy)]
struct Size {
    zones: u64,
    accounts: u64,
    /// Of each account.
    load_days: u64,
    /// Of each account.
    firm_days: u64,
}

const FULL: Size = Size {
    zones: 16,
    accounts: 32,
    load_days: 31,
    firm_days: 0,
};

/// The same month with as many firm rows as there may be.
const FULL_WITH_FIRM: Size = Size {
    firm_days: 31,
    ..FULL
};

fn main() {
    if cfg!(debug_assertions) {
        eprintln!("Times mean something in a release build only: cargo run --release");
    }
    println!("microseconds from file to statement, fastest of {ROUNDS} rounds");
    print_growth("full size", &[FULL], |_| 1);
    print_growth("and 992 firm rows", &[FULL_WITH_FIRM], |_| 1);
    let loads = [1, 2, 4, 8, 16, 31].map(|load_days| Size { load_days, ..FULL });
    print_growth("loads", &loads, |size| size.accounts * size.load_days);
    let accounts = [1, 2, 4, 8, 16, 32].map(|accounts| Size { accounts, ..FULL });
    print_growth("accounts, 31 loads each", &accounts, |size| size.accounts);
    let idle = [1, 2, 4, 8, 16, 32].map(|accounts| Size {
        accounts,
        load_days: 0,
        ..FULL
    });
    print_growth("accounts without loads", &idle, |size| size.accounts);
    let zones = [1, 2, 4, 8, 16].map(|zones| Size { zones, ..FULL });
    print_growth("zones", &zones, |size| size.zones);
    let firm = [1, 2, 4, 8, 16, 31].map(|firm_days| Size { firm_days, ..FULL });
    print_growth("firm rows", &firm, |size| size.accounts * size.firm_days);
    println!();
    print_reading(&FULL);
    print_reading(&FULL_WITH_FIRM);
}

/// A month 13 is refused as soon as the file is read, so that hardly more than reading is timed.
fn print_reading(size: &Size) {
    let mut made = month(size);
    made.head.month = 13;
    let text = made.text();
    let (archive, second) = microseconds(&text);
    println!(
        "reading alone, {} bytes: archive {archive:.1}, second {second:.1}, ratio {:.2}",
        text.len(),
        archive / second
    );
}

fn print_growth(what: &str, sizes: &[Size], count: impl Fn(&Size) -> u64) {
    println!();
    println!(
        "{what:>24} {:>6} | {:>9} {:>9} {:>7} | growth from the row above",
        "bytes", "archive", "second", "ratio"
    );
    let mut above: Option<(f64, f64)> = None;
    for size in sizes {
        let text = month(size).text();
        assert!(!statement(&text).starts_with(b"refuse"));
        let (archive, second) = microseconds(&text);
        print!(
            "{:>24} {:>6} | {archive:>9.1} {second:>9.1} {:>7.2} |",
            count(size),
            text.len(),
            archive / second,
        );
        match above {
            Some(above) => println!(
                " archive {:.2}, second {:.2}",
                archive / above.0,
                second / above.1
            ),
            None => println!(),
        }
        above = Some((archive, second));
    }
}

/// A good month with 64 owners and units, its figures as wide as they come in earnest.
fn month(size: &Size) -> Made {
    let mut numbers = Numbers::from_seed(1, 0, 0);
    let mut made = Made {
        head: Head {
            month: 12,
            days: 31,
            non_zone_rate: numbers.between(1_000_000, 1_500_000),
            daily_rate: 23_015,
            weekly_rate: 115_075,
            monthly_rate: 498_658,
            weekday: 4,
        },
        ..Made::default()
    };
    for zone in 1..=size.zones {
        let rate = numbers.between(1_000_000, 1_500_000);
        made.rows[ZONES].push([900 + zone, rate, 0, 0, 0, 0]);
    }
    for owner in 1..=64 {
        let zone = 901 + owner % size.zones;
        let requirement = numbers.between(10_000_000_000, 100_000_000_000);
        made.rows[OWNERS].push([9_000 + owner, zone, requirement, 0, 0, 0]);
        let annual = numbers.between(100_000_000, 1_000_000_000);
        let service = 1 + owner % 2;
        // An account in each zone with units, or the zone's pot has nothing to be divided by.
        let served = 901 + owner % size.zones.min(size.accounts);
        made.rows[UNITS].push([9_000 + owner, 9_000 + owner, served, service, annual, 0]);
    }
    for account in 0..size.accounts {
        let border = account >= size.zones && account % 4 == 3;
        let zone = if border {
            0
        } else {
            901 + account % size.zones
        };
        let number = 9_001 + account;
        made.rows[ACCOUNTS].push([number, 100_000_000 + account, zone, 0, 0, 0]);
        for day in 1..=size.load_days {
            let contribution = numbers.between(1_000, 9_999);
            made.rows[LOADS].push([number, day, contribution, 0, 0, 0]);
        }
        let reserved = numbers.between(100_000, 999_999);
        made.rows[RESERVATIONS].push([number, reserved, reserved / 10, 0, 0, 0]);
    }
    for account in 9_001..=9_000 + size.accounts {
        for day in 1..=size.firm_days {
            let capacity = numbers.between(1_000, 9_999);
            made.rows[FIRM].push([account, 1, 0, day, capacity, 0]);
        }
    }
    made
}

/// The fastest of the rounds, which nothing else on the machine has slowed down. Both sides take
/// turns, so that a slow moment hits both.
fn microseconds(text: &[u8]) -> (f64, f64) {
    let mut out = vec![0; 10_000];
    let mut archive = || {
        black_box(statement_into(black_box(text), black_box(&mut out)));
    };
    let mut second = || {
        black_box(statement(black_box(text)));
    };
    let (archive_turns, second_turns) = (turns(&mut archive), turns(&mut second));
    let mut fastest = (f64::INFINITY, f64::INFINITY);
    for _ in 0..ROUNDS {
        fastest.0 = fastest.0.min(time(archive_turns, &mut archive));
        fastest.1 = fastest.1.min(time(second_turns, &mut second));
    }
    hold_equal(text);
    fastest
}

/// How many calls fill a round, found by doubling; this warms both sides up too.
fn turns(call: &mut impl FnMut()) -> u32 {
    let mut turns = 1;
    while time(turns, call) * f64::from(turns) < ROUND.as_secs_f64() * 1e6 {
        turns *= 2;
    }
    turns
}

/// Microseconds a call.
fn time(turns: u32, call: &mut impl FnMut()) -> f64 {
    let start = Instant::now();
    for _ in 0..turns {
        call();
    }
    start.elapsed().as_secs_f64() * 1e6 / f64::from(turns)
}

/// Times of different answers, or of a refusal, would compare nothing.
fn hold_equal(text: &[u8]) {
    let expected = statement(text);
    let mut out = vec![0; 10_000];
    let answer = statement_into(text, &mut out);
    assert_eq!(answer, Answer::Written(expected.len()));
    assert!(out.starts_with(&expected));
}
