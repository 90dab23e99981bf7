//! Statements of month files: the examples' bytes, the room they take, and files of any size.

use noketualo::{statement, statement_into, Refusal, MOST_FILE_BYTES};
use std::fs;
use std::path::{Path, PathBuf};

const CASE_S: &[u8] = b"month=4\ndays=30\nnonzone=0\ndaily=0\nweekly=0\nmonthly=0\nweekday=1\n\
    zone=1,365000\nowner=1,1,200\nowner=2,1,100\nunit=1,2,1,1,12000,0\naccount=1,70,1\naccount=2,71,0\nload=1,1,10\nload=1,2,10\nptp=2,480,0\nend=9\n";
const CASE_S_STATEMENT: &[u8] = b"charge=1,2000,500,0,0\ncharge=2,0,500,0,0\ncredit=1,1333,0,0,0,0\n\
    credit=2,667,0,1000,0,0\ntotal=3000,3000\n";

#[test]
fn case_s() {
    assert_eq!(statement(CASE_S), CASE_S_STATEMENT);
}

#[test]
fn every_example_has_its_statement() {
    let examples = examples();
    assert!(examples.len() >= 5, "{examples:?}");
    for example in examples {
        let text = fs::read(&example).expect("an example");
        let expected = fs::read(example.with_extension("statement")).expect("its statement");
        assert!(statement(&text) == expected, "{}", example.display());
    }
}

#[test]
fn room_for_the_statement_is_enough_and_less_writes_nothing() {
    let length = CASE_S_STATEMENT.len();
    let mut out = vec![0xa5; length + 9];
    assert_eq!(statement_into(CASE_S, &mut out[..length]), Ok(length));
    assert_eq!(&out[..length], CASE_S_STATEMENT);
    assert_eq!(&out[length..], [0xa5; 9]);
    for room in 0..length {
        let mut out = vec![0xa5; room];
        assert_eq!(statement_into(CASE_S, &mut out), Err(Refusal::Room));
        assert_eq!(out, vec![0xa5; room]);
    }
}

#[test]
fn a_file_too_long_is_refused_whatever_it_holds() {
    // The longest file is still read: its first line doesn't fit.
    assert_eq!(statement(&vec![b'\n'; MOST_FILE_BYTES]), b"refuse=10,0,0\n");
    let mut long = CASE_S.to_vec();
    long.resize(MOST_FILE_BYTES + 1, b'\n');
    assert_eq!(statement(&long), b"refuse=1,0,0\n");
    // One byte less: the month is whole, and what follows its end is named by its offset.
    long.pop();
    assert_eq!(statement(&long), b"refuse=10,0,198\n");
    assert_eq!(statement(b""), b"refuse=10,0,0\n");
}

fn examples() -> Vec<PathBuf> {
    let folder = Path::new(env!("CARGO_MANIFEST_DIR")).with_file_name("examples/months");
    let files = fs::read_dir(folder).expect("the examples");
    files
        .map(|file| file.expect("an example").path())
        .filter(|path| {
            path.extension()
                .is_some_and(|extension| extension == "month")
        })
        .collect()
}
