//! Damaged month files: bytes, lines and numbers that don't fit, and files that are too long.

use super::good::{good, Sizes};
use super::numbers::Numbers;
use super::{Made, Row, CASE_S, FIRM_CASE};
use crate::month_file::write_line;
use crate::statement::MOST_BYTES;
use crate::tables::{FIRM, FORMS, HEAD_KEYS, LOADS};

type Damage = fn(&mut Numbers, &mut Vec<u8>);

const DAMAGES: [Damage; 20] = [
    change_byte,
    insert_byte,
    remove_byte,
    double_line,
    drop_line,
    swap_lines,
    swap_lines_of_two_keys,
    swap_lines_of_two_keys,
    move_line,
    truncate,
    drop_last_line_feed,
    carriage_returns,
    put_before_number,
    replace_number,
    replace_number,
    wrong_end,
    misspell_key,
    change_commas,
    change_commas,
    add_text_after_end,
];

/// A good month's file with one damage or two, or one that breaks a limit.
pub fn damaged(numbers: &mut Numbers) -> Vec<u8> {
    let mut text = match numbers.below(40) {
        0 => too_long(numbers),
        1..=4 => full_table(numbers),
        5 => good(numbers, &Sizes::FULL).text(),
        6..=7 => CASE_S.to_vec(),
        8..=9 => FIRM_CASE.to_vec(),
        10..=24 => {
            let sizes = Sizes::up_to(numbers, 2, 3, 3, 3);
            good(numbers, &sizes).text()
        }
        _ => {
            let sizes = Sizes::up_to(numbers, 4, 6, 6, 6);
            good(numbers, &sizes).text()
        }
    };
    for _ in 0..numbers.one_of(&[0, 1, 1, 1, 1, 1, 2, 2]) {
        numbers.one_of(&DAMAGES)(numbers, &mut text);
    }
    text
}

/// A file near the limit of a statement's input, from one byte below to far above.
fn too_long(numbers: &mut Numbers) -> Vec<u8> {
    let length = match numbers.below(5) {
        0 => MOST_BYTES - 1,
        1..=2 => MOST_BYTES,
        3 => MOST_BYTES + 1,
        _ => MOST_BYTES + numbers.position_below(10_000),
    };
    let mut made = good(numbers, &Sizes::FULL);
    let mut text = made.text();
    match numbers.below(3) {
        // Text after the end.
        0 => text.resize(length, numbers.one_of(b"\n0a ")),
        // A good file for a reader, with wider numbers than a month has.
        1 => {
            let mut missing = length.saturating_sub(text.len());
            for table in [FIRM, LOADS] {
                let rows = made.rows[table].iter_mut().rev();
                for number in rows.flat_map(|row| row[..FORMS[table].width].iter_mut().rev()) {
                    while missing > 0 && *number < 1_000_000_000_000_000_000 {
                        *number = (10 * *number).max(10);
                        missing -= 1;
                    }
                }
            }
            text = made.text();
        }
        // A long run of digits in place of the last number before the end.
        _ => {
            let digits = numbers_in(&text);
            let (_, last) = digits[digits.len() - 2];
            let missing = length.saturating_sub(text.len());
            let run = vec![numbers.one_of(b"019"); missing];
            text.splice(last..last, run);
        }
    }
    text
}

/// A file with as many rows in one table as it may have, or one more, well-formed or not.
fn full_table(numbers: &mut Numbers) -> Vec<u8> {
    let sizes = Sizes::up_to(numbers, 2, 3, 3, 3);
    let mut made: Made = good(numbers, &sizes);
    // A table of many rows is slow to write, and in no way different.
    let tables = 0..FORMS.len();
    let often = |&table: &usize| FORMS[table].limit < 100;
    let tables: Vec<usize> = tables.clone().chain(tables.filter(often)).collect();
    let table = numbers.one_of(&tables);
    let limit = FORMS[table].limit;
    let beyond = numbers.one_of(&[0, 1, 1, 1, 1, 2]);
    while made.rows[table].len() < limit + beyond {
        // Reading judges no range, so any rows fill the table.
        let row = Row::default().map(|_| numbers.below(100));
        made.rows[table].push(row);
    }
    let mut text = made.text();
    if beyond > 0 && numbers.once_in(2) {
        // Spoils the row beyond the limit, or one around it.
        let lines = lines_of(&text);
        let earlier: usize = made.rows[..table].iter().map(Vec::len).sum();
        let line = HEAD_KEYS.len() + earlier + limit + numbers.one_of(&[0, 0, 0, 1]);
        let (start, end) = lines[line.min(lines.len() - 1)];
        let mut spoilt = text[start..end].to_vec();
        let damages: [Damage; 4] = [change_byte, insert_byte, remove_byte, put_before_number];
        numbers.one_of(&damages)(numbers, &mut spoilt);
        text.splice(start..end, spoilt);
    }
    text
}

fn change_byte(numbers: &mut Numbers, text: &mut Vec<u8>) {
    if let Some(place) = place_in(numbers, text) {
        text.splice(place..=place, [a_byte(numbers)]);
    }
}

fn insert_byte(numbers: &mut Numbers, text: &mut Vec<u8>) {
    let place = numbers.somewhere(0, text.len());
    let byte = a_byte(numbers);
    text.insert(place, byte);
}

fn remove_byte(numbers: &mut Numbers, text: &mut Vec<u8>) {
    if let Some(place) = place_in(numbers, text) {
        text.remove(place);
    }
}

fn double_line(numbers: &mut Numbers, text: &mut Vec<u8>) {
    if let Some((start, end)) = a_line(numbers, text) {
        let line = text[start..end].to_vec();
        text.splice(start..start, line);
    }
}

fn drop_line(numbers: &mut Numbers, text: &mut Vec<u8>) {
    if let Some((start, end)) = a_line(numbers, text) {
        text.drain(start..end);
    }
}

fn swap_lines(numbers: &mut Numbers, text: &mut Vec<u8>) {
    let lines = lines_of(text);
    if lines.len() < 2 {
        return;
    }
    let first = numbers.somewhere(0, lines.len() - 2);
    let second = match numbers.once_in(2) {
        true => first + 1,
        false => numbers.somewhere(first + 1, lines.len() - 1),
    };
    swap(text, lines[first], lines[second]);
}

/// The last line of a key and the first of the next: head lines mixed, or a table out of its turn.
fn swap_lines_of_two_keys(numbers: &mut Numbers, text: &mut Vec<u8>) {
    let lines = lines_of(text);
    let neighbours = lines.windows(2);
    let neighbours: Vec<&[(usize, usize)]> = neighbours
        .filter(|pair| key_of(text, pair[0]) != key_of(text, pair[1]))
        .collect();
    if !neighbours.is_empty() {
        let pair = numbers.one_of(&neighbours);
        swap(text, pair[0], pair[1]);
    }
}

fn swap(text: &mut Vec<u8>, (a, b): (usize, usize), (c, d): (usize, usize)) {
    let swapped = [
        &text[..a],
        &text[c..d],
        &text[b..c],
        &text[a..b],
        &text[d..],
    ];
    *text = swapped.concat();
}

fn move_line(numbers: &mut Numbers, text: &mut Vec<u8>) {
    if let Some((start, end)) = a_line(numbers, text) {
        let line: Vec<u8> = text.drain(start..end).collect();
        let place = a_line(numbers, text).map_or(0, |(start, _)| start);
        text.splice(place..place, line);
    }
}

fn truncate(numbers: &mut Numbers, text: &mut Vec<u8>) {
    let length = match numbers.once_in(4) {
        // Right after a line feed, where a line is missing.
        true => a_line(numbers, text).map_or(0, |(start, _)| start),
        false => numbers.somewhere(0, text.len()),
    };
    text.truncate(length);
}

fn drop_last_line_feed(_: &mut Numbers, text: &mut Vec<u8>) {
    if text.last() == Some(&b'\n') {
        text.pop();
    }
}

fn carriage_returns(numbers: &mut Numbers, text: &mut Vec<u8>) {
    if numbers.once_in(2) {
        *text = text
            .split(|&byte| byte == b'\n')
            .collect::<Vec<_>>()
            .join(&b"\r\n"[..]);
    } else if let Some((_, end)) = a_line(numbers, text) {
        let place = if text[end - 1] == b'\n' { end - 1 } else { end };
        text.insert(place, b'\r');
    }
}

fn put_before_number(numbers: &mut Numbers, text: &mut Vec<u8>) {
    if let Some((start, _)) = a_number(numbers, text) {
        let put: &[u8] = numbers.one_of(&[b"0", b"00", b"+", b"-", b" ", b"\t", b"0x"]);
        text.splice(start..start, put.iter().copied());
    }
}

fn replace_number(numbers: &mut Numbers, text: &mut Vec<u8>) {
    let Some((start, end)) = a_number(numbers, text) else {
        return;
    };
    let number: String = match numbers.below(12) {
        0 => u64::MAX.to_string(),
        1 => (1_u128 << 64).to_string(),
        2 => ((1_u128 << 64) + u128::from(numbers.up_to(1_000))).to_string(),
        3 => (u64::MAX - numbers.up_to(1_000)).to_string(),
        // Around ten times a number near 2^64 / 10, where the last step of reading may wrap.
        4 => (1_844_674_407_370_955_150_u128 * 10 + u128::from(numbers.up_to(200))).to_string(),
        5 => "9".repeat(numbers.count_between(18, 22)),
        6 => format!("1{}", "0".repeat(numbers.count_between(17, 40))),
        7 => ((1_u128 << 65) + u128::from(numbers.up_to(40))).to_string(),
        8 => format!("{}{}", u64::MAX, numbers.up_to(9)),
        9 => String::new(),
        10 => "0".into(),
        _ => numbers.any().to_string(),
    };
    text.splice(start..end, number.into_bytes());
}

fn wrong_end(numbers: &mut Numbers, text: &mut Vec<u8>) {
    let Some(&(start, end)) = numbers_in(text).last() else {
        return;
    };
    let count: u64 = std::str::from_utf8(&text[start..end])
        .ok()
        .and_then(|digits| digits.parse().ok())
        .unwrap_or(0);
    let wrong = match numbers.below(8) {
        0 => count.wrapping_add(1).to_string(),
        1 => count.wrapping_sub(1).to_string(),
        2 => (u128::from(count) + (1 << 64)).to_string(),
        3 => count.wrapping_add(1 << 32).to_string(),
        4 => format!("{count},{count}"),
        5 => numbers.up_to(20).to_string(),
        // Without a table's rows.
        _ => {
            let line = a_line_of_a_key(numbers, text);
            let key = line.map(|line| key_of(text, line));
            let lines = lines_of(text).into_iter();
            let rows = lines.filter(|&line| Some(key_of(text, line)) == key);
            count.wrapping_sub(rows.count() as u64).to_string()
        }
    };
    text.splice(start..end, wrong.into_bytes());
}

fn misspell_key(numbers: &mut Numbers, text: &mut Vec<u8>) {
    let Some((start, end)) = a_line(numbers, text) else {
        return;
    };
    let line = &text[start..end];
    let Some(length) = line.iter().position(|&byte| byte == b'=') else {
        return;
    };
    let mut key = line[..length].to_vec();
    match numbers.below(8) {
        0 => key.make_ascii_uppercase(),
        1 => key.truncate(numbers.position_below(length.max(1))),
        2 => key.push(numbers.one_of(b"s =_")),
        3 => key.insert(0, numbers.one_of(b" \tz=")),
        4 => key.reverse(),
        5 => key.clear(),
        _ => {
            let tables = FORMS.map(|form| form.key);
            let keys = [&HEAD_KEYS[..], &tables, &["end"]].concat();
            key = numbers.one_of(&keys).as_bytes().to_vec();
        }
    }
    text.splice(start..start + length, key);
}

/// A field too many or too few, an empty one, or another joint.
fn change_commas(numbers: &mut Numbers, text: &mut Vec<u8>) {
    let Some((start, end)) = a_number(numbers, text) else {
        return;
    };
    match numbers.below(6) {
        0 => text.insert(end, b','),
        1 => text.insert(start, b','),
        2 => drop(text.splice(end..end, *b",0")),
        3 => drop(text.splice(start..start, *b"1,")),
        4 if start > 0 => drop(text.drain(start - 1..end)),
        _ if start > 0 => text[start - 1] = numbers.one_of(b".;: =,\n"),
        _ => {}
    }
}

fn add_text_after_end(numbers: &mut Numbers, text: &mut Vec<u8>) {
    let rows = numbers.up_to(9);
    match numbers.below(6) {
        0 => text.push(b'\n'),
        1 => text.push(numbers.any() as u8),
        2 => write_line(text, "end", &[rows]),
        3 => write_line(text, "zone", &[rows, rows]),
        4 => text.push(b' '),
        _ => {
            let again = text.clone();
            text.extend(again);
        }
    }
}

/// Mostly bytes that mean something in a month file.
fn a_byte(numbers: &mut Numbers) -> u8 {
    match numbers.once_in(4) {
        true => numbers.any() as u8,
        false => numbers.one_of(b"0123456789,=\n\r +-enozdaulpthwkyfirm\0\xff"),
    }
}

fn place_in(numbers: &mut Numbers, text: &[u8]) -> Option<usize> {
    let last = text.len().checked_sub(1)?;
    Some(numbers.somewhere(0, last))
}

/// Where each line starts and where the next one does.
fn lines_of(text: &[u8]) -> Vec<(usize, usize)> {
    let mut start = 0;
    let lines = text.split_inclusive(|&byte| byte == b'\n');
    lines
        .map(|line| {
            let place = (start, start + line.len());
            start = place.1;
            place
        })
        .collect()
}

fn a_line(numbers: &mut Numbers, text: &[u8]) -> Option<(usize, usize)> {
    if numbers.once_in(2) {
        return a_line_of_a_key(numbers, text);
    }
    let lines = lines_of(text);
    let last = lines.len().checked_sub(1)?;
    Some(lines[numbers.somewhere(0, last)])
}

/// Every key as often, however many lines it has.
fn a_line_of_a_key(numbers: &mut Numbers, text: &[u8]) -> Option<(usize, usize)> {
    let lines = lines_of(text);
    let keys: Vec<&[(usize, usize)]> = lines
        .chunk_by(|&one, &next| key_of(text, one) == key_of(text, next))
        .collect();
    if keys.is_empty() {
        return None;
    }
    let lines = numbers.one_of(&keys);
    Some(lines[numbers.first_middle_or_last(0, lines.len() - 1)])
}

/// What stands before the line's `=`.
fn key_of(text: &[u8], (start, end): (usize, usize)) -> &[u8] {
    let mut parts = text[start..end].split(|&byte| byte == b'=');
    parts.next().unwrap_or_default()
}

/// Where each run of digits starts and ends.
fn numbers_in(text: &[u8]) -> Vec<(usize, usize)> {
    let mut found: Vec<(usize, usize)> = Vec::new();
    for (place, byte) in text.iter().enumerate() {
        match found.last_mut() {
            _ if !byte.is_ascii_digit() => {}
            Some((_, end)) if *end == place => *end += 1,
            _ => found.push((place, place + 1)),
        }
    }
    found
}

fn a_number(numbers: &mut Numbers, text: &[u8]) -> Option<(usize, usize)> {
    let (start, end) = match numbers.once_in(2) {
        true => a_line_of_a_key(numbers, text)?,
        false => (0, text.len()),
    };
    let found = numbers_in(&text[start..end]);
    let last = found.len().checked_sub(1)?;
    let (first, after) = found[numbers.somewhere(0, last)];
    Some((start + first, start + after))
}
