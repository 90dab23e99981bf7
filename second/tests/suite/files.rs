//! Every byte gets its answer: the month file and the statement, reading by reading.

use second::make::{edits_of_case_s, CASE_S, FIRM_CASE};
use second::month_file::{full_size, read, write};
use second::statement;
use second::statement::MOST_BYTES;
use second::tables::{Head, Tables, FIRM, FORMS};

/// The head's lines, 63 bytes.
const NO_ROWS: &str = "month=4\ndays=30\nnonzone=0\ndaily=0\nweekly=0\nmonthly=0\nweekday=1\n";

fn answer(text: impl AsRef<[u8]>) -> String {
    let statement = String::from_utf8(statement(text.as_ref())).expect("plain text");
    statement.trim_end().to_string()
}

#[test]
fn a_missing_line_is_text_at_the_length() {
    assert_eq!(answer(""), "refuse=10,0,0");
    assert_eq!(answer("month=4"), "refuse=10,0,0");
    assert_eq!(answer("month=4\n"), "refuse=10,0,8");
    assert_eq!(answer("month=4\ndays=30\n"), "refuse=10,0,16");
    assert_eq!(answer("month=4\ndays=30\nnonzone=0\n"), "refuse=10,0,26");
    assert_eq!(answer(NO_ROWS), "refuse=10,0,63");
    assert_eq!(answer(format!("{NO_ROWS}zone=1,0\n")), "refuse=10,0,72");
}

#[test]
fn cut_short_anywhere() {
    let lengths = |text: &'static [u8]| (0..text.len()).map(|length| &text[..length]);
    for text in lengths(CASE_S).chain(lengths(FIRM_CASE)) {
        let line = text
            .iter()
            .rposition(|&byte| byte == b'\n')
            .map_or(0, |place| place + 1);
        assert_eq!(
            answer(text),
            format!("refuse=10,0,{line}"),
            "{} bytes",
            text.len()
        );
    }
}

#[test]
fn a_last_line_wants_its_line_feed() {
    assert_eq!(answer(format!("{NO_ROWS}end=0\n")), "total=0,0");
    assert_eq!(answer(format!("{NO_ROWS}end=0")), "refuse=10,0,63");
}

#[test]
fn a_head_line_left_out_or_repeated_or_moved() {
    let mut offset = 0;
    for line in NO_ROWS.split_inclusive('\n') {
        let (before, after) = (&NO_ROWS[..offset], &NO_ROWS[offset + line.len()..]);
        let here = format!("refuse=10,0,{offset}");
        assert_eq!(answer(format!("{before}{after}end=0\n")), here);
        if !after.is_empty() {
            assert_eq!(answer(format!("{before}{after}{line}end=0\n")), here);
        }
        let (key, _) = line.split_once('=').expect("a head line");
        for wrong in ["", "0,0", "00", "+0", "18446744073709551616"] {
            let text = format!("{before}{key}={wrong}\n{after}end=0\n");
            assert_eq!(answer(text), here, "{key}={wrong}");
        }
        offset += line.len();
        let repeated = format!("{before}{line}{line}{after}end=0\n");
        assert_eq!(answer(repeated), format!("refuse=10,0,{offset}"));
    }
    // The head as it was before there were firm reservations.
    assert_eq!(
        answer("month=4\ndays=30\nnonzone=0\nend=0\n"),
        "refuse=10,0,26"
    );
    // Case S without its weekday.
    let case_s = String::from_utf8(CASE_S.to_vec()).expect("plain text");
    assert_eq!(answer(case_s.replace("weekday=1\n", "")), "refuse=10,0,53");
}

#[test]
fn the_end() {
    assert_eq!(answer(format!("{NO_ROWS}end=1\n")), "refuse=10,0,63");
    assert_eq!(answer(format!("{NO_ROWS}end=1\nmore")), "refuse=10,0,63");
    assert_eq!(answer(format!("{NO_ROWS}end=0\nmore")), "refuse=10,0,69");
    assert_eq!(answer(format!("{NO_ROWS}end=0\n\n")), "refuse=10,0,69");
    assert_eq!(answer(format!("{NO_ROWS}end=0\nend=0\n")), "refuse=10,0,69");
    assert_eq!(answer(format!("{NO_ROWS}end=00\n")), "refuse=10,0,63");
    assert_eq!(answer(format!("{NO_ROWS}end=0,0\n")), "refuse=10,0,63");
    assert_eq!(answer(format!("{NO_ROWS}end\n")), "refuse=10,0,63");
    let wrapped = format!("{NO_ROWS}end=18446744073709551616\n");
    assert_eq!(answer(wrapped), "refuse=10,0,63");
}

#[test]
fn lines_that_do_not_fit() {
    for line in [
        "",
        " ",
        "zone",
        "zone=",
        "zone=1",
        "zone=1,",
        "zone=,1",
        "zone=1,0,0",
        "zone=1,0,",
        "zone=1 0",
        "zone=1, 0",
        " zone=1,0",
        "zone =1,0",
        "zone=1,0 ",
        "zone=1,0\r",
        "Zone=1,0",
        "zones=1,0",
        "zon=1,0",
        "zone==1,0",
        "zone=+1,0",
        "zone=-1,0",
        "zone=01,0",
        "zone=1,00",
        "zone=1,1e3",
        "zone=1,0x1",
        "zone=1,18446744073709551616",
        "zone=1,99999999999999999999",
        "zone=1,100000000000000000000",
        "zone=1,1\0",
        "zone=1;0",
        "=1,0",
        "month=4",
        "weekday=1",
        "firm=1,1,0,1",
        "firm=1,1,0,1,0,0",
        "firm=1,1,0,1,",
        "firms=1,1,0,1,0",
        "end=",
    ] {
        let text = format!("{NO_ROWS}{line}\nend=1\n");
        assert_eq!(answer(&text), "refuse=10,0,63", "{line:?}");
    }
    let mut text = NO_ROWS.as_bytes().to_vec();
    text.extend(b"zone=1,\xb2\nend=1\n");
    assert_eq!(answer(text), "refuse=10,0,63");
}

#[test]
fn any_number_below_2_to_the_64_is_read() {
    let text = format!("{NO_ROWS}zone=18446744073709551615,18446744073709551615\nend=1\n");
    assert_eq!(answer(&text), "refuse=4,1,0");
    let (_, tables) = read(text.as_bytes(), &full_size()).expect("a good file");
    assert_eq!(tables[0], [u64::MAX, u64::MAX]);
    let most = u64::MAX.to_string();
    let head = NO_ROWS.replace("=4", &format!("={most}"));
    assert_eq!(answer(format!("{head}end=0\n")), "refuse=3,0,0");
    for key in ["nonzone", "daily", "weekly", "monthly", "weekday"] {
        let start = NO_ROWS.find(&format!("\n{key}=")).expect("a head line") + key.len() + 2;
        let mut head = NO_ROWS.to_string();
        head.replace_range(start..=start, &most);
        assert_eq!(answer(format!("{head}end=0\n")), "refuse=4,0,0", "{key}");
    }
}

#[test]
fn tables_come_in_turn() {
    let zone_late = format!("{NO_ROWS}owner=1,1,0\nzone=1,0\nend=2\n");
    assert_eq!(answer(zone_late), "refuse=10,0,75");
    let ptp_late = format!("{NO_ROWS}firm=1,1,0,1,0\nptp=1,0,0\nend=2\n");
    assert_eq!(answer(ptp_late), "refuse=10,0,78");
    let firm_last = format!("{NO_ROWS}ptp=1,0,0\nfirm=1,1,0,1,0\nend=2\n");
    assert_eq!(answer(firm_last), "refuse=6,6,0");
    let not_counted = format!("{NO_ROWS}ptp=1,0,0\nfirm=1,1,0,1,0\nend=1\n");
    assert_eq!(answer(not_counted), "refuse=10,0,88");
    // Without zones the owner names none.
    let left_out = format!("{NO_ROWS}owner=1,1,0\nptp=1,0,0\nend=2\n");
    assert_eq!(answer(left_out), "refuse=6,2,0");
}

#[test]
fn a_row_over_a_tables_limit() {
    for form in FORMS {
        let (number, key, limit) = (form.number, form.key, form.limit);
        let row = format!("{key}={}\n", vec!["1"; form.width].join(","));
        let full = NO_ROWS.to_string() + &row.repeat(limit);
        let count = format!("refuse=1,{number},{limit}");
        let text = format!("refuse=10,0,{}", full.len());

        // Read, though no month is like this.
        let good = answer(format!("{full}end={limit}\n"));
        assert!(
            !good.starts_with("refuse=1,") && !good.starts_with("refuse=10,"),
            "{good}"
        );
        // COUNT at once, whatever follows.
        assert_eq!(answer(format!("{full}{row}end={}\n", limit + 1)), count);
        assert_eq!(answer(format!("{full}{row}end=0\n")), count);
        assert_eq!(answer(format!("{full}{row}nothing")), count);
        // TEXT before COUNT.
        assert_eq!(answer(format!("{full}{}", row.trim_end())), text);
        assert_eq!(answer(format!("{full}{},1\n", row.trim_end())), text);
        assert_eq!(answer(format!("{full}{key}=1\n")), text);
        assert_eq!(answer(format!("{full}end=0\n{row}")), text);
    }
}

#[test]
fn the_limit_of_the_statement() {
    assert_eq!(MOST_BYTES, 65_536);
    let mut text = format!("{NO_ROWS}end=0\n").into_bytes();
    text.resize(MOST_BYTES, b'\n');
    assert_eq!(answer(&text), "refuse=10,0,69");
    text.push(b'\n');
    assert_eq!(answer(&text), "refuse=1,0,0");
    // Reading itself takes a text of any length.
    assert_eq!(read(&text, &full_size()), Err((10, 0, 69)));
    assert_eq!(answer(vec![0; 70_000]), "refuse=1,0,0");
}

#[test]
fn reading_wants_tables_at_full_size() {
    assert_eq!(full_size(), [32, 192, 384, 96, 2_976, 96, 4_960]);
    for (table, form) in FORMS.iter().enumerate() {
        let mut lent = full_size();
        lent[table] += 1;
        assert!(read(CASE_S, &lent).is_ok());
        lent[table] = form.full_size() - 1;
        lent[FIRM] = 0;
        assert_eq!(read(b"nothing", &lent), Err((2, form.number, 0)));
    }
}

#[test]
fn writing_refuses_count_then_room() {
    let head = Head::default();
    for (table, form) in FORMS.iter().enumerate() {
        let mut tables = Tables::default();
        tables[table] = vec![7; form.full_size() + form.width];
        assert_eq!(write(head, &tables, 0), Err((1, form.number, 0)));
        tables[table] = vec![7; form.width + 1];
        tables[FIRM].push(7);
        assert_eq!(write(head, &tables, 0), Err((1, form.number, 0)));
    }
    for text in [CASE_S, FIRM_CASE] {
        let (head, tables) = read(text, &full_size()).expect("a good file");
        assert_eq!(write(head, &tables, text.len() - 1), Err((2, 0, 0)));
        assert_eq!(write(head, &tables, text.len()).as_deref(), Ok(text));
    }
}

#[test]
fn every_edit_of_case_s_has_an_answer() {
    let mut accepted = 0;
    for text in edits_of_case_s() {
        let statement = answer(&text);
        match statement.strip_prefix("refuse=") {
            None => accepted += 1,
            Some(refusal) => {
                let fields: Vec<u64> = refusal
                    .split(',')
                    .map(|field| field.parse().unwrap())
                    .collect();
                assert_eq!(fields.len(), 3, "{statement}");
                assert!((1..=10).contains(&fields[0]), "{statement}");
            }
        }
    }
    assert!(accepted > 100, "{accepted}");
}
