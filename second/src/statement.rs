//! "Statement": what the statement program prints for what it is given.

use crate::month_file::{full_size, read, write_line};
use crate::refusal::{Refusal, COUNT};
use crate::settle::{settle, CHARGES, CREDITS};
use crate::tables::{ACCOUNTS, FORMS, OWNERS};

/// "The statement program now reads 65,536 bytes."
pub const MOST_BYTES: usize = 65_536;

/// The whole output for the whole input.
pub fn statement(text: &[u8]) -> Vec<u8> {
    settled(text).unwrap_or_else(|(number, table, row)| {
        let mut line = Vec::new();
        write_line(&mut line, "refuse", &[number, table, row]);
        line
    })
}

/// "Account and three charges; owner and four credits; all charges and all credits", and "charge and
/// credit rows and lines get a last figure".
fn settled(text: &[u8]) -> Result<Vec<u8>, Refusal> {
    if text.len() > MOST_BYTES {
        return Err((COUNT, 0, 0));
    }
    let (head, tables) = read(text, &full_size())?;
    let owners = tables[OWNERS].chunks(FORMS[OWNERS].width);
    let accounts = tables[ACCOUNTS].chunks(FORMS[ACCOUNTS].width);
    let (charges_len, credits_len) = (CHARGES * accounts.len(), CREDITS * owners.len());
    let (charges, credits) = settle(head, &tables, charges_len, credits_len)?;

    let mut lines = Vec::new();
    for (account, charges) in accounts.zip(charges.chunks(CHARGES)) {
        write_line(&mut lines, "charge", &[&account[..1], charges].concat());
    }
    for (owner, credits) in owners.zip(credits.chunks(CREDITS)) {
        write_line(&mut lines, "credit", &[&owner[..1], credits].concat());
    }
    write_line(
        &mut lines,
        "total",
        &[charges.iter().sum(), credits.iter().sum()],
    );
    Ok(lines)
}
