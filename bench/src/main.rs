//! Times the archive's division and check beside plain ones in 128-bit Rust, on the same inputs in
//! the same run.
//!
//! Both read and write numbers where they lie. Outputs are lent again, not cleared between calls.

mod inputs;
#[path = "../../rust/tests/suite/numbers.rs"]
#[allow(dead_code)]
mod numbers;
#[path = "../../rust/tests/suite/plain.rs"]
mod plain;
mod timing;

use inputs::{Division, Leftover, Pots};
use noketualo::MOST_WEIGHTS;
use numbers::Numbers;
use std::hint::black_box;
use timing::{nanoseconds_each, Pair};

const COUNTS: [usize; 7] = [1, 2, 4, 8, 16, 32, 64];

fn main() {
    if cfg!(debug_assertions) {
        eprintln!("Times mean something in a release build only: cargo run --release");
    }
    let mut numbers = Numbers::from_seed(1);
    for (call, time) in [
        ("divide", time_divide as fn(&[Division]) -> Pair),
        ("check", time_check),
    ] {
        println!(
            "{call}: nanoseconds a call, median of {} rounds",
            timing::ROUNDS
        );
        println!(
            "{:>6} {:>9} {:>8} | {:>9} {:>9} {:>7} | growth from half the weights",
            "pots", "leftover", "weights", "archive", "plain", "ratio"
        );
        for pots in [Pots::Small, Pots::Large] {
            for leftover in [Leftover::Few, Leftover::Many] {
                let mut half: Option<Pair> = None;
                for count in COUNTS {
                    let divisions = inputs::divisions(&mut numbers, count, pots, leftover);
                    hold_equal(&divisions);
                    let pair = time(&divisions);
                    print_row(pots, leftover, count, &pair, half.as_ref());
                    half = Some(pair);
                }
            }
        }
        println!();
    }
}

fn print_row(pots: Pots, leftover: Leftover, count: usize, pair: &Pair, half: Option<&Pair>) {
    let Pair { archive, plain } = pair;
    print!(
        "{:>6} {:>9} {count:>8} | {archive:>9.1} {plain:>9.1} {:>7.2} |",
        format!("{pots:?}").to_lowercase(),
        format!("{leftover:?}").to_lowercase(),
        archive / plain,
    );
    match half {
        Some(half) => println!(
            " archive {:.2}, plain {:.2}",
            archive / half.archive,
            plain / half.plain
        ),
        None => println!(),
    }
}

fn time_divide(divisions: &[Division]) -> Pair {
    let mut amounts = [0; MOST_WEIGHTS];
    let mut plain_amounts = [0; MOST_WEIGHTS];
    nanoseconds_each(
        divisions,
        |division| {
            let answer = noketualo::divide_into(
                black_box(division.pot),
                black_box(&division.weights),
                black_box(&mut amounts),
            );
            let _ = black_box(answer);
        },
        |division| {
            let answer = plain::divide(
                black_box(division.pot),
                black_box(&division.weights),
                black_box(&mut plain_amounts),
            );
            let _ = black_box(answer);
        },
    )
}

/// Good divisions only: the answer yes is the one that needs all the work.
fn time_check(divisions: &[Division]) -> Pair {
    nanoseconds_each(
        divisions,
        |division| {
            let answer = noketualo::check(
                black_box(division.pot),
                black_box(&division.weights),
                black_box(&division.amounts),
            );
            let _ = black_box(answer);
        },
        |division| {
            let answer = plain::check(
                black_box(division.pot),
                black_box(&division.weights),
                black_box(&division.amounts),
            );
            let _ = black_box(answer);
        },
    )
}

/// Times of different answers would compare nothing.
fn hold_equal(divisions: &[Division]) {
    for Division {
        pot,
        weights,
        amounts,
    } in divisions
    {
        assert_eq!(
            noketualo::divide(*pot, weights).as_ref(),
            Ok(amounts),
            "{pot} by {weights:?}"
        );
        assert_eq!(
            noketualo::check(*pot, weights, amounts),
            Ok(true),
            "{pot} by {weights:?}"
        );
    }
}
