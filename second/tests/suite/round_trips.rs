//! Reading undoes writing, and writing undoes reading.

use second::make::{self, Numbers};
use second::month_file::{full_size, read, write};
use second::tables::{Head, Tables, FORMS};

#[test]
fn what_is_written_is_read_again() {
    let mut numbers = Numbers::from_seed(11, 0, 0);
    for _ in 0..300 {
        let number = |numbers: &mut Numbers| match numbers.below(4) {
            0 => numbers.below(3),
            1 => u64::MAX - numbers.below(3),
            2 => numbers.any() >> numbers.below(64),
            _ => numbers.any(),
        };
        let head = Head::from_numbers(std::array::from_fn(|_| number(&mut numbers)));
        let tables: Tables = FORMS.map(|form| {
            let rows = match numbers.below(4) {
                0 => 0,
                1 => form.limit,
                _ => numbers.count_between(0, form.limit),
            };
            let entries = 0..rows * form.width;
            entries.map(|_| number(&mut numbers)).collect()
        });
        let text = write(head, &tables, usize::MAX).expect("tables within their limits");
        assert_eq!(read(&text, &full_size()), Ok((head, tables)));
    }
}

#[test]
fn what_is_read_is_written_again() {
    let mut read_again = 0;
    for index in 0..20_000 {
        for text in [make::damaged(12, index), make::month(12, index).text()] {
            if let Ok((head, tables)) = read(&text, &full_size()) {
                let written = write(head, &tables, text.len());
                assert_eq!(written.as_deref(), Ok(&text[..]));
                read_again += 1;
            }
        }
    }
    assert!(read_again > 20_000, "{read_again}");
}
