//! "Month file": reading and writing, which "judge no range".

use crate::refusal::{Refusal, COUNT, ROOM, TEXT};
use crate::tables::{judge_counts, Head, Tables, FORMS, HEAD_KEYS};

/// How many entries each table is lent with.
pub type Lent = [usize; FORMS.len()];

/// "Tables lent at full size."
pub fn full_size() -> Lent {
    FORMS.map(|form| form.full_size())
}

/// Reads a month file into tables lent with so many entries.
pub fn read(text: &[u8], lent: &Lent) -> Result<(Head, Tables), Refusal> {
    for (form, &lent) in FORMS.iter().zip(lent) {
        if lent < form.full_size() {
            return Err((ROOM, form.number, 0));
        }
    }
    let mut offset = 0;
    let mut head = [0; HEAD_KEYS.len()];
    for (number, key) in head.iter_mut().zip(HEAD_KEYS) {
        *number = head_line(text, &mut offset, key)?;
    }
    let mut tables = Tables::default();
    let mut rows = 0;
    // A table's lines come before those of the next, so the tables before this one are finished.
    let mut table = 0;
    loop {
        let misfit = (TEXT, 0, offset as u64);
        let line = line_at(text, offset).ok_or(misfit)?;
        let next = offset + line.len() + 1;
        if let Some(end) = fields(line, "end", 1) {
            if end[0] != rows {
                return Err(misfit);
            }
            if next != text.len() {
                return Err((TEXT, 0, next as u64));
            }
            return Ok((Head::from_numbers(head), tables));
        }
        let (found, row) = (table..FORMS.len())
            .find_map(|table| Some((table, fields(line, FORMS[table].key, FORMS[table].width)?)))
            .ok_or(misfit)?;
        table = found;
        let form = &FORMS[table];
        if tables[table].len() == form.full_size() {
            return Err((COUNT, form.number, form.limit as u64));
        }
        tables[table].extend(row);
        rows += 1;
        offset = next;
    }
}

/// Writes a month file into so many lent bytes.
pub fn write(head: Head, tables: &Tables, lent: usize) -> Result<Vec<u8>, Refusal> {
    judge_counts(tables)?;
    let mut text = Vec::new();
    write_head(&mut text, &head);
    let mut rows = 0;
    for (form, table) in FORMS.iter().zip(tables) {
        for row in table.chunks_exact(form.width) {
            write_line(&mut text, form.key, row);
            rows += 1;
        }
    }
    write_line(&mut text, "end", &[rows]);
    if lent < text.len() {
        return Err((ROOM, 0, 0));
    }
    Ok(text)
}

/// Adds the head's lines.
pub fn write_head(text: &mut Vec<u8>, head: &Head) {
    for (key, number) in HEAD_KEYS.iter().zip(head.numbers()) {
        write_line(text, key, &[number]);
    }
}

/// Adds `key=field,field` and a line feed.
pub fn write_line(text: &mut Vec<u8>, key: &str, fields: &[u64]) {
    text.extend(key.as_bytes());
    for (position, field) in fields.iter().enumerate() {
        text.push(if position == 0 { b'=' } else { b',' });
        text.extend(field.to_string().as_bytes());
    }
    text.push(b'\n');
}

fn head_line(text: &[u8], offset: &mut usize, key: &str) -> Result<u64, Refusal> {
    let misfit = (TEXT, 0, *offset as u64);
    let line = line_at(text, *offset).ok_or(misfit)?;
    let number = fields(line, key, 1).ok_or(misfit)?[0];
    *offset += line.len() + 1;
    Ok(number)
}

/// The line from there to its line feed, which must be there and isn't part of it.
fn line_at(text: &[u8], offset: usize) -> Option<&[u8]> {
    let rest = &text[offset..];
    let length = rest.iter().position(|&byte| byte == b'\n')?;
    Some(&rest[..length])
}

/// The fields of a line with exactly that key and that many of them.
fn fields(line: &[u8], key: &str, count: usize) -> Option<Vec<u64>> {
    let value = line.strip_prefix(key.as_bytes())?.strip_prefix(b"=")?;
    let fields: Option<Vec<u64>> = value.split(|&byte| byte == b',').map(number).collect();
    fields.filter(|fields| fields.len() == count)
}

/// "Decimal below 2^64, with no sign, space or needless zero in front."
fn number(digits: &[u8]) -> Option<u64> {
    let needless_zero = digits.len() > 1 && digits[0] == b'0';
    if digits.is_empty() || needless_zero || !digits.iter().all(u8::is_ascii_digit) {
        return None;
    }
    let mut digits = digits.iter().map(|digit| u64::from(digit - b'0'));
    digits.try_fold(0_u64, |number, digit| {
        number.checked_mul(10)?.checked_add(digit)
    })
}
