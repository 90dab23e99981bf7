//! `compare SEED COUNT`: COUNT made-up months, COUNT damaged files and every one-byte edit of case
//! S through the proved archive and through the second settlement.
//!
//! Prints every difference with its file and fails where there is one. A run that has found
//! `ENOUGH` of them stops early: the archive is then broken, and no one reads more.

use second::archive::{statement_into, Answer};
use second::make;
use second::statement::statement;
use std::env;
use std::ops::AddAssign;
use std::process::ExitCode;
use std::sync::atomic::{AtomicUsize, Ordering};
use std::thread;
use std::time::Instant;

const ENOUGH: usize = 100;

/// Room for any statement.
const ROOMY: usize = noketualo::STATEMENT_ROOM;

/// What the output is filled with before a call, to see what the call wrote.
const UNTOUCHED: u8 = 0xa5;

const NAMES: [&str; 11] = [
    "accepted", "COUNT", "ROOM", "MONTH", "RANGE", "ORDER", "LINK", "PAIR", "BIG", "BASE", "TEXT",
];

fn main() -> ExitCode {
    let words: Vec<Option<u64>> = env::args().skip(1).map(|word| word.parse().ok()).collect();
    let [Some(seed), Some(count)] = words[..] else {
        eprintln!("compare SEED COUNT");
        return ExitCode::from(2);
    };
    let start = Instant::now();
    let differences = AtomicUsize::new(0);
    let threads = thread::available_parallelism().map_or(1, |threads| threads.get());
    let counts = thread::scope(|scope| {
        let workers: Vec<_> = (0..threads)
            .map(|first| {
                let differences = &differences;
                scope.spawn(move || compare_every(threads, first, seed, count, differences))
            })
            .collect();
        let mut counts = Counts::default();
        for worker in workers {
            counts += worker.join().expect("the worker's counts");
        }
        counts
    });
    let differences = differences.into_inner();
    if differences >= ENOUGH {
        println!("stopped early: enough differences");
    }
    println!(
        "{} months, {} damaged files, {} edits of case S in {:.1} s: {}; {differences} differences",
        counts.months,
        counts.damaged,
        counts.edits,
        start.elapsed().as_secs_f64(),
        counts.answers(),
    );
    ExitCode::from(u8::from(differences > 0))
}

/// One thread's part: every so many files from the first.
fn compare_every(
    step: usize,
    first: usize,
    seed: u64,
    count: u64,
    differences: &AtomicUsize,
) -> Counts {
    let mut counts = Counts::default();
    let mut out = vec![UNTOUCHED; ROOMY];
    let mut compare = |kind: &str, index: u64, text: &[u8]| -> bool {
        let expected = statement(text);
        counts.by_number[number_of(&expected)] += 1;
        if let Err(fault) = compare_one(text, &expected, index, &mut out) {
            differences.fetch_add(1, Ordering::Relaxed);
            report(kind, seed, index, &fault, &expected, text);
        }
        differences.load(Ordering::Relaxed) < ENOUGH
    };
    for (index, text) in make::edits_of_case_s()
        .enumerate()
        .skip(first)
        .step_by(step)
    {
        if !compare("edit", index as u64, &text) {
            break;
        }
        counts.edits += 1;
    }
    for index in (first as u64..count).step_by(step) {
        if !compare("month", index, &make::month(seed, index).text()) {
            break;
        }
        counts.months += 1;
    }
    for index in (first as u64..count).step_by(step) {
        if !compare("damaged", index, &make::damaged(seed, index)) {
            break;
        }
        counts.damaged += 1;
    }
    counts
}

/// One call with more room than needed, and one with exactly enough or too little.
fn compare_one(text: &[u8], expected: &[u8], index: u64, out: &mut [u8]) -> Result<(), String> {
    let length = expected.len();
    let written = Answer::Written(length);
    out.fill(UNTOUCHED);
    let answer = statement_into(text, out);
    if answer != written || !out.starts_with(expected) {
        let told = match answer {
            Answer::Written(length) if length <= ROOMY => out[..length].escape_ascii().to_string(),
            _ => String::from("nothing that can be shown"),
        };
        return Err(format!("{answer:?}: {told}"));
    }
    hold_untouched(&out[length..], "beyond the statement")?;

    let room = match index % 8 {
        1 => length - 1,
        3 => 0,
        5 | 7 => (index as usize).wrapping_mul(7) % length,
        _ => length,
    };
    out.fill(UNTOUCHED);
    let answer = statement_into(text, &mut out[..room]);
    if room == length {
        if answer != written || !out.starts_with(expected) {
            return Err(format!("{answer:?} with exactly enough room"));
        }
        return hold_untouched(&out[length..], "beyond an output with exactly enough room");
    }
    if answer != Answer::Room {
        return Err(format!("{answer:?} with room for {room} bytes"));
    }
    hold_untouched(out, "where it refused for want of room")
}

fn hold_untouched(out: &[u8], place: &str) -> Result<(), String> {
    match out.iter().position(|&byte| byte != UNTOUCHED) {
        Some(_) => Err(format!("it wrote {place}")),
        None => Ok(()),
    }
}

fn report(kind: &str, seed: u64, index: u64, fault: &str, expected: &[u8], text: &[u8]) {
    let lines: String = text
        .split_inclusive(|&byte| byte == b'\n')
        .map(|line| format!("    {}\n", line.escape_ascii()))
        .collect();
    // One call, so that another thread's report doesn't come between.
    println!(
        "difference, made again by `made {seed} {kind} {index}`\n  archive: {fault}\n  second:  {}\n{lines}",
        expected.escape_ascii(),
    );
}

/// The refusal's number of a statement, or 0.
fn number_of(statement: &[u8]) -> usize {
    let Some(refusal) = statement.strip_prefix(b"refuse=") else {
        return 0;
    };
    let digits = refusal.iter().take_while(|byte| byte.is_ascii_digit());
    digits.fold(0, |number, digit| 10 * number + usize::from(digit - b'0'))
}

#[derive(Default)]
struct Counts {
    months: usize,
    damaged: usize,
    edits: usize,
    by_number: [usize; NAMES.len()],
}

impl Counts {
    fn answers(&self) -> String {
        let answers = NAMES
            .iter()
            .zip(self.by_number)
            .filter(|&(_, count)| count > 0);
        let answers: Vec<String> = answers
            .map(|(name, count)| format!("{count} {name}"))
            .collect();
        answers.join(", ")
    }
}

impl AddAssign for Counts {
    fn add_assign(&mut self, other: Counts) {
        self.months += other.months;
        self.damaged += other.damaged;
        self.edits += other.edits;
        for (count, more) in self.by_number.iter_mut().zip(other.by_number) {
            *count += more;
        }
    }
}
