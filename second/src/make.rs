//! Makes up months and damaged files. Each comes from a seed and an index alone, so that a program
//! can name the one on which it found something, and any other can make it again.

mod aims;
mod damage;
mod defects;
mod firm;
mod good;
mod numbers;

pub use good::{good, Sizes};
pub use numbers::Numbers;

use crate::month_file::{write_head, write_line};
use crate::settle::{unit_month, CHARGES, CREDITS};
use crate::tables::{Head, Tables, ACCOUNTS, FORMS, LOADS, OWNERS, RESERVATIONS, ZONES};

/// The paper's case S, whole input.
pub const CASE_S: &[u8] = b"month=4\ndays=30\nnonzone=0\ndaily=0\nweekly=0\nmonthly=0\nweekday=1\n\
    zone=1,365000\nowner=1,1,200\nowner=2,1,100\nunit=1,2,1,1,12000,0\naccount=1,70,1\n\
    account=2,71,0\nload=1,1,10\nload=1,2,10\nptp=2,480,0\nend=9\n";

/// A month with firm rows of every term and MISO rows, a week at its bound and cents of halves.
pub const FIRM_CASE: &[u8] =
    b"month=4\ndays=30\nnonzone=0\ndaily=1005\nweekly=3000\nmonthly=9000\n\
    weekday=3\nzone=1,0\nowner=1,1,200\nowner=2,1,100\naccount=1,70,1\naccount=2,71,0\n\
    firm=1,1,0,1,15\nfirm=1,1,0,2,15\nfirm=1,1,0,5,15\nfirm=1,1,0,6,15\nfirm=1,1,1,3,1000000\n\
    firm=1,2,0,28,3\nfirm=1,3,0,1,7\nfirm=2,1,0,1,1\nfirm=2,1,0,4,1\nfirm=2,1,0,6,1\nend=15\n";

/// A row of any table, which has no more entries than a unit's.
pub type Row = [u64; 6];

/// A month in the making, good or not.
#[derive(Clone, Debug, Default)]
pub struct Made {
    pub head: Head,
    pub rows: [Vec<Row>; FORMS.len()],
}

/// A made-up month: good, aimed at a division, or with faults in its tables.
pub fn month(seed: u64, index: u64) -> Made {
    let mut numbers = Numbers::from_seed(seed, 0, index);
    let mut made = match numbers.below(10) {
        0..=3 => aims::aimed(&mut numbers),
        _ => {
            let sizes = Sizes::any(&mut numbers);
            good(&mut numbers, &sizes)
        }
    };
    for _ in 0..numbers.one_of(&[0, 0, 0, 0, 0, 1, 1, 1, 1, 2]) {
        defects::add_defect(&mut numbers, &mut made);
    }
    made
}

/// A damaged month file, or one that breaks a limit.
pub fn damaged(seed: u64, index: u64) -> Vec<u8> {
    damage::damaged(&mut Numbers::from_seed(seed, 1, index))
}

/// A made-up settlement call: tables that may be ragged or over their limits, and outputs that may
/// be too short.
pub fn call(seed: u64, index: u64) -> (Head, Tables, usize, usize) {
    let mut numbers = Numbers::from_seed(seed, 2, index);
    let made = month(seed, numbers.any());
    let mut tables = made.tables();
    let mut charges_len = CHARGES * made.rows[ACCOUNTS].len();
    let mut credits_len = CREDITS * made.rows[OWNERS].len();
    for _ in 0..numbers.one_of(&[1, 1, 1, 2]) {
        let table = numbers.position_below(FORMS.len());
        match numbers.below(5) {
            0 => charges_len = charges_len.saturating_sub(1),
            1 => credits_len = credits_len.saturating_sub(1),
            2 => tables[table].push(numbers.up_to(9)),
            3 => tables[table].resize(FORMS[table].full_size() + FORMS[table].width, 0),
            _ => (charges_len, credits_len) = (charges_len + 1, credits_len + 1),
        }
    }
    (made.head, tables, charges_len, credits_len)
}

/// Case S cut short at every place, and with every byte at every place changed, put in or left out.
pub fn edits_of_case_s() -> impl Iterator<Item = Vec<u8>> {
    let cut = (0..=CASE_S.len()).map(|place| CASE_S[..place].to_vec());
    let left_out = (0..CASE_S.len()).map(|place| [&CASE_S[..place], &CASE_S[place + 1..]].concat());
    let bytes = |place: usize| (0..=u8::MAX).map(move |byte| (place, byte));
    let changed = (0..CASE_S.len()).flat_map(bytes).map(|(place, byte)| {
        let mut text = CASE_S.to_vec();
        text[place] = byte;
        text
    });
    let put_in = (0..=CASE_S.len()).flat_map(bytes).map(|(place, byte)| {
        let mut text = CASE_S.to_vec();
        text.insert(place, byte);
        text
    });
    cut.chain(left_out).chain(changed).chain(put_in)
}

impl Made {
    pub fn tables(&self) -> Tables {
        std::array::from_fn(|table| {
            let rows = self.rows[table].iter();
            rows.flat_map(|row| &row[..FORMS[table].width])
                .copied()
                .collect()
        })
    }

    /// The month's file, whatever its rows are and however many.
    pub fn text(&self) -> Vec<u8> {
        let mut text = Vec::new();
        write_head(&mut text, &self.head);
        for (form, rows) in FORMS.iter().zip(&self.rows) {
            for row in rows {
                write_line(&mut text, form.key, &row[..form.width]);
            }
        }
        let rows: usize = self.rows.iter().map(Vec::len).sum();
        write_line(&mut text, "end", &[rows as u64]);
        text
    }

    /// One entry of every row of a table.
    fn column(&self, table: usize, entry: usize) -> Vec<u64> {
        self.rows[table].iter().map(|row| row[entry]).collect()
    }

    fn accounts_of(&self, zone: u64) -> Vec<u64> {
        let accounts = self.rows[ACCOUNTS].iter();
        accounts
            .filter(|row| row[2] == zone)
            .map(|row| row[0])
            .collect()
    }

    fn zones_with_use(&self) -> Vec<u64> {
        let zones = self.column(ZONES, 0).into_iter();
        zones.filter(|&zone| self.has_use(zone)).collect()
    }

    fn has_border_use(&self) -> bool {
        self.has_use(0)
    }

    fn has_use(&self, zone: u64) -> bool {
        let accounts = self.accounts_of(zone);
        let mut loads = self.rows[LOADS].iter();
        let mut reservations = self.rows[RESERVATIONS].iter();
        loads.any(|row| accounts.contains(&row[0]) && row[2] > 0)
            || reservations.any(|row| accounts.contains(&row[0]) && row[1] > row[2])
    }
}

/// A small annual requirement that comes to nothing in that month, which in December is 0 alone.
fn annual_of_nothing(numbers: &mut Numbers, month: u64) -> u64 {
    let twelfth = |annual: u64| unit_month(u128::from(annual), u128::from(month));
    let annuals: Vec<u64> = (0..12).filter(|&annual| twelfth(annual) == 0).collect();
    numbers.one_of(&annuals)
}

/// A row of fewer entries.
fn row<const WIDTH: usize>(entries: [u64; WIDTH]) -> Row {
    let mut row = Row::default();
    row[..WIDTH].copy_from_slice(&entries);
    row
}
