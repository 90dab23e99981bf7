//! Divides a pot: `divide POT WEIGHT...` prints the shares, one a line.
//!
//! A refusal goes to standard error with exit code 1, a word that is no number with exit code 2.

use std::env;
use std::ffi::OsString;
use std::process::ExitCode;

fn main() -> ExitCode {
    let numbers = match numbers_of(env::args_os().skip(1)) {
        Ok(numbers) => numbers,
        Err(word) => {
            eprintln!("{word:?} is not a whole number from 0 to {}.", u64::MAX);
            return ExitCode::from(2);
        }
    };
    let Some((&pot, weights)) = numbers.split_first() else {
        eprintln!("usage: divide POT WEIGHT...");
        return ExitCode::from(2);
    };
    match noketualo::divide(pot, weights) {
        Ok(shares) => {
            for share in shares {
                println!("{share}");
            }
            ExitCode::SUCCESS
        }
        Err(refusal) => {
            eprintln!("{} ({}): {refusal}", refusal.name(), refusal.number());
            ExitCode::from(1)
        }
    }
}

/// The numbers that the words spell, or the first word that spells none.
fn numbers_of(words: impl Iterator<Item = OsString>) -> Result<Vec<u64>, OsString> {
    words
        .map(|word| match word.to_str().map(str::parse) {
            Some(Ok(number)) => Ok(number),
            _ => Err(word),
        })
        .collect()
}
