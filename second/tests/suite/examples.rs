//! The example months, whose statements stand beside them.

use second::make::CASE_S;
use second::month_file::{full_size, read};
use second::statement;
use std::fs;
use std::path::{Path, PathBuf};

fn folder() -> PathBuf {
    Path::new(env!("CARGO_MANIFEST_DIR")).with_file_name("examples/months")
}

#[test]
fn every_example_has_its_statement() {
    let mut count = 0;
    for file in fs::read_dir(folder()).expect("the examples") {
        let path = file.expect("an example").path();
        if path
            .extension()
            .is_some_and(|extension| extension == "month")
        {
            let text = fs::read(&path).expect("an example");
            let expected = fs::read(path.with_extension("statement")).expect("its statement");
            assert!(statement(&text) == expected, "{}", path.display());
            count += 1;
        }
    }
    assert!(count >= 7);
}

#[test]
fn case_s_and_full_tables() {
    let case_s = fs::read(folder().join("case-s.month")).expect("an example");
    assert_eq!(case_s, CASE_S);
    let full = fs::read(folder().join("full-july.month")).expect("an example");
    let (_, tables) = read(&full, &full_size()).expect("a good file");
    assert_eq!(tables.map(|table| table.len()), full_size());
}
