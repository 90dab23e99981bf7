//! The programs that show the archive in use, and the header that they are written from.

use noketualo::{
    Refusal, LARGEST_POT, LARGEST_WEIGHT_SUM, MOST_FILE_BYTES, MOST_WEIGHTS, STATEMENT_ROOM,
};
use std::env;
use std::ffi::OsString;
use std::fs;
use std::io::ErrorKind;
use std::path::{Path, PathBuf};
use std::process::{Command, Output};

const C_WORDS: [&str; 6] = [
    "-std=c99",
    "-Wall",
    "-Wextra",
    "-Wpedantic",
    "-Wconversion",
    "-Werror",
];
const CPLUSPLUS_WORDS: [&str; 6] = ["-x", "c++", "-std=c++11", "-Wall", "-Wextra", "-Werror"];

#[test]
fn the_c_example_divides_and_checks_d1() {
    let program = built(
        "c_example",
        &c_compiler(),
        &C_WORDS,
        &root().join("examples/c/divide.c"),
    )
    .expect("a C compiler");
    assert_eq!(printed(&mut Command::new(program)), "34\n33\n33\nyes\n");
}

#[test]
fn the_c_example_prints_a_statement() {
    let program = built(
        "c_statement",
        &c_compiler(),
        &C_WORDS,
        &root().join("examples/c/statement.c"),
    )
    .expect("a C compiler");
    let months = root().join("examples/months");
    let file = fs::File::open(months.join("case-s.month")).expect("case S");
    let expected = fs::read_to_string(months.join("case-s.statement")).expect("its statement");
    assert_eq!(printed(Command::new(program).stdin(file)), expected);
}

#[test]
fn the_header_serves_cplusplus() {
    let compiler = env::var_os("CXX").unwrap_or_else(|| "c++".into());
    let source = root().join("examples/c/divide.c");
    match built("cplusplus_example", &compiler, &CPLUSPLUS_WORDS, &source) {
        Some(program) => assert_eq!(printed(&mut Command::new(program)), "34\n33\n33\nyes\n"),
        None => eprintln!("there is no {compiler:?} here, so the header wasn't tried by it"),
    }
}

/// Nothing but this ties the header's numbers to the crate's.
#[test]
fn the_header_names_the_crates_numbers() {
    let names = [
        "ACCEPTED",
        "ANSWER_YES",
        "ANSWER_NO",
        "MOST_WEIGHTS",
        "LARGEST_POT",
        "LARGEST_WEIGHT_SUM",
        "MOST_FILE_BYTES",
        "STATEMENT_ROOM",
    ];
    let lines: String = Refusal::ALL
        .iter()
        .map(|refusal| refusal.name())
        .chain(names)
        .map(|name| {
            format!("    printf(\"{name} %\" PRIu64 \"\\n\", (uint64_t)NOKETUALO_{name});\n")
        })
        .collect();
    let source = scratch("constants.c");
    let text = format!(
        "#include <inttypes.h>\n#include <stdio.h>\n#include \"noketualo.h\"\n\
         int main(void) {{\n{lines}    return 0;\n}}\n"
    );
    fs::write(&source, text).expect("a scratch file");

    let program = built("constants", &c_compiler(), &C_WORDS, &source).expect("a C compiler");
    let refusals: String = Refusal::ALL
        .iter()
        .map(|refusal| format!("{} {}\n", refusal.name(), refusal.number()))
        .collect();
    let others = format!(
        "ACCEPTED 0\nANSWER_YES 256\nANSWER_NO 0\nMOST_WEIGHTS {MOST_WEIGHTS}\n\
         LARGEST_POT {LARGEST_POT}\nLARGEST_WEIGHT_SUM {LARGEST_WEIGHT_SUM}\n\
         MOST_FILE_BYTES {MOST_FILE_BYTES}\nSTATEMENT_ROOM {STATEMENT_ROOM}\n"
    );
    assert_eq!(printed(&mut Command::new(program)), refusals + &others);
}

#[test]
fn the_rust_example_prints_shares_and_refusals() {
    assert_eq!(
        printed(rust_example().args(["100", "1", "2", "4"])),
        "14\n29\n57\n"
    );
    assert_eq!(printed(rust_example().arg("0")), "");

    let refused = run(rust_example().args(["1", "0", "0"]));
    assert_eq!(refused.status.code(), Some(1));
    assert!(refused.stdout.is_empty());
    assert_eq!(
        String::from_utf8_lossy(&refused.stderr),
        "BASE (9): The pot is above zero, but the weights add up to zero.\n"
    );

    for words in [
        &[][..],
        &["ten"],
        &["100", "1", "-1"],
        &["1", ""],
        &["18446744073709551616", "1"],
    ] {
        let output = run(rust_example().args(words));
        assert_eq!(output.status.code(), Some(2), "{words:?}");
        assert!(
            output.stdout.is_empty() && !output.stderr.is_empty(),
            "{words:?}"
        );
    }
}

/// A program compiled with the header and linked with the archive; none without such a compiler.
fn built(name: &str, compiler: &OsString, words: &[&str], source: &Path) -> Option<PathBuf> {
    let program = scratch(name);
    let output = Command::new(compiler)
        .args(words)
        .arg("-I")
        .arg(root().join("include"))
        .arg(source)
        .args(["-x", "none"])
        .arg(env!("NOKETUALO_LINKED_ARCHIVE"))
        .arg("-o")
        .arg(&program)
        .output();
    match output {
        Err(error) if error.kind() == ErrorKind::NotFound => None,
        Err(error) => panic!("{compiler:?} can't be run: {error}"),
        Ok(output) => {
            assert!(
                output.status.success(),
                "{}",
                String::from_utf8_lossy(&output.stderr)
            );
            Some(program)
        }
    }
}

fn printed(command: &mut Command) -> String {
    let output = run(command);
    assert!(output.status.success(), "{output:?}");
    String::from_utf8(output.stdout).expect("plain text")
}

fn run(command: &mut Command) -> Output {
    command
        .output()
        .unwrap_or_else(|error| panic!("{command:?} can't be run: {error}"))
}

/// `cargo test` puts examples beside the folder that the tests are in.
fn rust_example() -> Command {
    let tests = env::current_exe().expect("this program's place");
    let folder = tests.ancestors().nth(2).expect("the folder of the profile");
    Command::new(folder.join("examples/divide"))
}

fn c_compiler() -> OsString {
    env::var_os("CC").unwrap_or_else(|| "cc".into())
}

fn root() -> &'static Path {
    Path::new(concat!(env!("CARGO_MANIFEST_DIR"), "/.."))
}

fn scratch(name: &str) -> PathBuf {
    Path::new(env!("CARGO_TARGET_TMPDIR")).join(name)
}
