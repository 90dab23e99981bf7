//! Prints the made-up file of that seed, kind and index: the one that `compare` named, or a start
//! for a fuzzer.

use second::make;
use std::env;
use std::io::{self, Write};
use std::process::ExitCode;

fn main() -> ExitCode {
    let words: Vec<String> = env::args().skip(1).collect();
    let [seed, kind, index] = &words[..] else {
        return usage();
    };
    let (Ok(seed), Ok(index)) = (seed.parse(), index.parse()) else {
        return usage();
    };
    let text = match kind.as_str() {
        "month" => make::month(seed, index).text(),
        "damaged" => make::damaged(seed, index),
        "edit" => match make::edits_of_case_s().nth(index as usize) {
            Some(text) => text,
            None => return usage(),
        },
        _ => return usage(),
    };
    match io::stdout().write_all(&text) {
        Ok(()) => ExitCode::SUCCESS,
        Err(_) => ExitCode::FAILURE,
    }
}

fn usage() -> ExitCode {
    eprintln!("made SEED month|damaged|edit INDEX");
    ExitCode::from(2)
}
