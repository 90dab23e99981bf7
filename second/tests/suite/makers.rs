//! The makers reach every refusal at the ends and in the middle, every division place, the limits
//! and one past them, zones without requirement, and firm rows and weeks of every kind: else
//! agreement on what they make would mean little.

use crate::firm::weeks;
use crate::position_of;
use crate::settled::{has_requirement, parts_of_use, settled_months, sum, units_pot};
use second::divide::{divide, LARGEST_POT, LARGEST_WEIGHT_SUM};
use second::make::{self, Made, Row};
use second::month_file::{full_size, read};
use second::refusal::{BASE, BIG, COUNT, LINK, MONTH, ORDER, PAIR, RANGE, ROOM, TEXT};
use second::settle::{firm_row, firm_week, network_charge, settle};
use second::statement::MOST_BYTES;
use second::tables::{ACCOUNTS, FIRM, FORMS, HEAD_KEYS, LOADS, OWNERS, UNITS, ZONES};
use std::collections::BTreeMap;

const INPUTS: u64 = 50_000;
const SEED: u64 = 41;

const SERVICES: [(u64, &str); 2] = [(1, "black start"), (2, "reactive")];

/// How often each thing was seen, under a name for it.
#[derive(Default)]
struct Seen(BTreeMap<String, usize>);

impl Seen {
    fn see(&mut self, name: String) {
        *self.0.entry(name).or_default() += 1;
    }

    fn hold(&self, least: usize, name: &str) {
        let count = self.0.get(name).copied().unwrap_or(0);
        assert!(count >= least, "{name}: {count}");
    }

    fn print(&self) {
        for (name, count) in &self.0 {
            println!("{count:>7} {name}");
        }
    }
}

/// First, middle and last of the positions, as far as they are different.
fn ends(position: u64, first: u64, last: u64) -> Vec<&'static str> {
    let ends = [("first", position == first), ("last", position == last)];
    let ends: Vec<&str> = ends
        .into_iter()
        .filter(|end| end.1)
        .map(|end| end.0)
        .collect();
    if ends.is_empty() {
        vec!["middle"]
    } else {
        ends
    }
}

/// The kind of a division place with that many zones, and the zone's position where it has one.
fn place_kind(place: u64, zones: u64) -> (&'static str, Option<u64>) {
    let services = ["black start", "reactive"];
    if place < zones {
        return ("network zone", Some(place));
    }
    if place == zones {
        return ("network non-zone", None);
    }
    if place == 5 * zones + 3 {
        return ("firm", None);
    }
    let place = place - zones - 1;
    let (service, place) = (place / (2 * zones + 1), place % (2 * zones + 1));
    let kind = match (services[service as usize], place) {
        ("black start", place) if place == 2 * zones => "black start non-zone",
        (_, place) if place == 2 * zones => return ("reactive non-zone", None),
        ("black start", place) if place % 2 == 0 => "black start split",
        ("black start", _) => "black start share",
        (_, place) if place % 2 == 0 => "reactive split",
        _ => "reactive share",
    };
    let position = (place < 2 * zones).then_some(place / 2);
    (kind, position)
}

#[test]
fn months_reach_every_refusal_and_place() {
    let mut seen = Seen::default();
    for index in 0..INPUTS {
        let made = make::month(SEED, index);
        look_at_sizes(&made, &mut seen);
        look_at_limits(&made, &mut seen);
        match settle(made.head, &made.tables(), usize::MAX, usize::MAX) {
            Ok(_) => seen.see("accepted".into()),
            Err((number @ (BIG | BASE), 9, place)) => {
                let zones = made.rows[ZONES].len() as u64;
                let (kind, position) = place_kind(place, zones);
                seen.see(format!("{number} {kind}"));
                for end in position.map_or(vec![], |position| ends(position, 0, zones - 1)) {
                    seen.see(format!("{number} {kind}, {end} zone"));
                }
            }
            Err((number, 0, 0)) => {
                seen.see(format!("{number} head"));
                if number == RANGE {
                    look_at_bad_head(&made, &mut seen);
                }
            }
            Err((number, table, row)) => {
                let rows = &made.rows[position_of(table)];
                if table == 10 {
                    look_at_bad_firm_row(&made, number, row as usize, &mut seen);
                }
                let last = rows.len() as u64 - 1;
                let first = if number == ORDER || number == PAIR {
                    1
                } else {
                    0
                };
                for end in ends(row, first, last) {
                    seen.see(format!("{number} table {table}, {end} row"));
                }
            }
        }
    }
    seen.print();

    seen.hold(INPUTS as usize / 3, "accepted");
    seen.hold(100, &format!("{MONTH} head"));
    seen.hold(100, &format!("{RANGE} head"));
    for key in &HEAD_KEYS[2..] {
        seen.hold(20, &format!("{RANGE} {key} above"));
    }
    seen.hold(20, &format!("{RANGE} weekday below"));
    for entry in ["account", "term", "MISO", "first day", "capacity"] {
        seen.hold(20, &format!("{RANGE} firm {entry} above"));
    }
    for entry in ["account", "term", "first day"] {
        seen.hold(20, &format!("{RANGE} firm {entry} below"));
    }
    seen.hold(20, &format!("{RANGE} firm first day of longer months"));
    for miso in ["without MISO", "with MISO"] {
        seen.hold(20, &format!("{RANGE} month from another day, {miso}"));
    }
    for entry in ["account", "term", "MISO", "first day", "nothing"] {
        seen.hold(20, &format!("{ORDER} firm by {entry}"));
    }
    for end in ["first", "middle", "last"] {
        for table in FORMS.map(|form| form.number) {
            seen.hold(20, &format!("{RANGE} table {table}, {end} row"));
            seen.hold(10, &format!("{ORDER} table {table}, {end} row"));
            if table > 1 {
                seen.hold(10, &format!("{LINK} table {table}, {end} row"));
            }
        }
        seen.hold(20, &format!("{PAIR} table 4, {end} row"));
        let of_zones = [
            (BIG, "network zone"),
            (BASE, "network zone"),
            (BIG, "black start split"),
            (BASE, "black start share"),
            (BIG, "reactive split"),
            (BASE, "reactive share"),
            (BASE, "reactive split"),
            (BASE, "black start split"),
        ];
        for (number, kind) in of_zones {
            seen.hold(5, &format!("{number} {kind}, {end} zone"));
        }
    }
    let of_the_border = [
        (BIG, "network non-zone"),
        (BASE, "network non-zone"),
        (BIG, "black start non-zone"),
        (BIG, "reactive non-zone"),
        (BIG, "firm"),
        (BASE, "firm"),
    ];
    for (number, kind) in of_the_border {
        seen.hold(20, &format!("{number} {kind}"));
    }
    // "Can't happen."
    for never in [
        "8 black start share",
        "8 reactive share",
        "9 black start non-zone",
        "9 reactive non-zone",
    ] {
        assert!(!seen.0.contains_key(never), "{never}");
    }
    for kind in [
        "zone pot",
        "border pot",
        "zone weights",
        "all weights",
        "units pot of service 1",
        "units pot of service 2",
        "non-zone pot of service 1",
        "non-zone pot of service 2",
        "non-zone pot of service 1 with loads of zones",
        "non-zone pot of service 2 with loads of zones",
        "firm pot",
    ] {
        for place in ["at the limit", "one past it"] {
            seen.hold(20, &format!("{kind} {place}"));
        }
    }
    for table in FORMS.map(|form| form.number) {
        seen.hold(100, &format!("table {table} full"));
        seen.hold(100, &format!("table {table} empty"));
    }
    seen.hold(100, "accounts in the border and in zones");
    seen.hold(100, "a unit elsewhere");
}

/// Which entries of the head are outside their ranges.
fn look_at_bad_head(made: &Made, seen: &mut Seen) {
    for (key, number) in HEAD_KEYS.iter().zip(made.head.numbers()).skip(2) {
        let (least, greatest) = match *key {
            "weekday" => (1, 7),
            _ => (0, 100_000_000),
        };
        look_at_bad_entry(key, number, least, greatest, seen);
    }
}

/// Which entries of a firm row are outside their ranges, or by which it is out of order.
fn look_at_bad_firm_row(made: &Made, number: u64, row: usize, seen: &mut Seen) {
    let rows = &made.rows[FIRM];
    let [account, term, miso, first_day, capacity, _] = rows[row];
    let days = made.head.days;
    if number == RANGE {
        look_at_bad_entry("firm account", account, 1, 9_999, seen);
        look_at_bad_entry("firm term", term, 1, 3, seen);
        look_at_bad_entry("firm MISO", miso, 0, 1, seen);
        look_at_bad_entry("firm first day", first_day, 1, days, seen);
        look_at_bad_entry("firm capacity", capacity, 0, 1_000_000, seen);
        if (days + 1..=31).contains(&first_day) {
            seen.see(format!("{RANGE} firm first day of longer months"));
        }
        if term == 3 && (2..=days).contains(&first_day) {
            let miso = if miso == 0 { "without" } else { "with" };
            seen.see(format!("{RANGE} month from another day, {miso} MISO"));
        }
    }
    if number == ORDER {
        let names = ["account", "term", "MISO", "first day"];
        let mut entries = (0..4).filter(|&entry| rows[row - 1][entry] != rows[row][entry]);
        let name = entries.next().map_or("nothing", |entry| names[entry]);
        seen.see(format!("{ORDER} firm by {name}"));
    }
}

fn look_at_bad_entry(name: &str, number: u64, least: u64, greatest: u64, seen: &mut Seen) {
    if number < least {
        seen.see(format!("{RANGE} {name} below"));
    }
    if number > greatest {
        seen.see(format!("{RANGE} {name} above"));
    }
}

fn look_at_sizes(made: &Made, seen: &mut Seen) {
    for (form, rows) in FORMS.iter().zip(&made.rows) {
        if rows.len() == form.limit {
            seen.see(format!("table {} full", form.number));
        }
        if rows.is_empty() {
            seen.see(format!("table {} empty", form.number));
        }
    }
    let at_border = made.rows[ACCOUNTS].iter().filter(|row| row[2] == 0).count();
    if at_border > 0 && at_border < made.rows[ACCOUNTS].len() {
        seen.see("accounts in the border and in zones".into());
    }
    let elsewhere = |unit: &[u64; 6]| {
        let mut owners = made.rows[OWNERS].iter();
        owners.any(|owner| owner[0] == unit[1] && owner[1] != unit[2])
    };
    if made.rows[UNITS].iter().any(elsewhere) {
        seen.see("a unit elsewhere".into());
    }
}

/// How close to their limits the pots and weights are, of months without a fault in their tables.
fn look_at_limits(made: &Made, seen: &mut Seen) {
    let settled = settle(made.head, &made.tables(), usize::MAX, usize::MAX);
    if settled.is_err_and(|(number, _, _)| number != BIG && number != BASE) {
        return;
    }
    let zones = made.rows[ZONES].iter().map(|row| (row[0], row[1]));
    for (zone, rate) in zones.chain([(0, made.head.non_zone_rate)]) {
        let accounts = made.rows[ACCOUNTS].iter().filter(|row| row[2] == zone);
        let charges = accounts.map(|account| {
            let loads = made.rows[LOADS].iter().filter(|row| row[0] == account[0]);
            let contributions = loads.map(|row| u128::from(row[2])).sum();
            network_charge(contributions, u128::from(rate))
        });
        let kind = if zone == 0 { "border pot" } else { "zone pot" };
        near(kind, charges.sum(), LARGEST_POT, seen);
        let owners = made.rows[OWNERS].iter().filter(|row| row[1] == zone);
        let weights = owners.map(|row| u128::from(row[2])).sum();
        near("zone weights", weights, LARGEST_WEIGHT_SUM, seen);
        for service in [1, 2] {
            let pot = units_pot(made, |unit| unit[2] == zone && unit[3] == service);
            near(
                &format!("units pot of service {service}"),
                u128::from(pot),
                LARGEST_POT,
                seen,
            );
        }
    }
    let weights = made.rows[OWNERS].iter().map(|row| u128::from(row[2]));
    near("all weights", weights.sum(), LARGEST_WEIGHT_SUM, seen);
    near("firm pot", firm_pot(made), LARGEST_POT, seen);
    for (service, _) in SERVICES {
        let parts = parts_of_use(made, |zone| has_requirement(made, service, zone));
        if let Ok(pot) = non_zone_pot(made, service, &parts) {
            let kind = format!("non-zone pot of service {service}");
            near(&kind, pot, LARGEST_POT, seen);
            let mut accounts = made.rows[ACCOUNTS].iter().zip(&parts);
            if accounts.any(|(account, parts)| account[2] != 0 && parts.1 > 0) {
                near(
                    &format!("{kind} with loads of zones"),
                    pot,
                    LARGEST_POT,
                    seen,
                );
            }
        }
    }
}

/// A service's non-zone pot by those zone parts and non-zone parts of use, or the first refusal
/// before it and at which kind of division.
fn non_zone_pot(
    made: &Made,
    service: u64,
    parts: &[(u64, u64)],
) -> Result<u128, (u64, &'static str)> {
    let sum = |part: fn(&(u64, u64)) -> u64| parts.iter().map(part).map(u128::from).sum();
    let (zone_use, non_zone_use) = (sum(|parts| parts.0), sum(|parts| parts.1));
    let mut non_zone_pot = 0;
    for zone in &made.rows[ZONES] {
        let pot = units_pot(made, |unit| unit[2] == zone[0] && unit[3] == service);
        let split = divide(u128::from(pot), &[zone_use, non_zone_use]);
        let sides = split.map_err(|number| (number, "split"))?;
        let accounts = made.rows[ACCOUNTS].iter().zip(parts);
        let weights: Vec<u128> = accounts
            .filter(|(account, _)| account[2] == zone[0])
            .map(|(_, parts)| u128::from(parts.0))
            .collect();
        divide(sides[0], &weights).map_err(|number| (number, "share"))?;
        non_zone_pot += sides[1];
    }
    Ok(non_zone_pot)
}

/// All firm charges of a month, week by week and row by row.
fn firm_pot(made: &Made) -> u128 {
    let weeks = firm_weeks(made);
    let [daily, weekly] = [made.head.daily_rate, made.head.weekly_rate].map(u128::from);
    let weeks = weeks.iter().map(|(_, rows)| {
        let capacities: Vec<u128> = rows.iter().map(|row| u128::from(row[4])).collect();
        firm_week(&capacities, daily, weekly)
    });
    let others = made.rows[FIRM].iter();
    let others = others.filter(|row| row[1] != 1 && row[2] == 0);
    let others = others.map(|row| firm_row(u128::from(row[4]), u128::from(rate_of(made, row))));
    weeks.chain(others).sum()
}

/// Each account's weeks that have daily rows without MISO delivery: the week's days and those rows.
fn firm_weeks(made: &Made) -> Vec<(Vec<u64>, Vec<Row>)> {
    let mut found = Vec::new();
    let calendar = weeks(&made.head);
    for account in &made.rows[ACCOUNTS] {
        for week in &calendar {
            let rows = made.rows[FIRM].iter().copied();
            let rows: Vec<Row> = rows
                .filter(|row| row[..3] == [account[0], 1, 0] && week.contains(&row[3]))
                .collect();
            if !rows.is_empty() {
                found.push((week.clone(), rows));
            }
        }
    }
    found
}

fn rate_of(made: &Made, row: &Row) -> u64 {
    let head = made.head;
    [head.daily_rate, head.weekly_rate, head.monthly_rate][row[1] as usize - 1]
}

/// Firm rows and weeks of every kind, in months that are accepted.
#[test]
fn months_reach_firm_rows_and_weeks_of_every_kind() {
    let mut seen = Seen::default();
    for settled in settled_months(SEED, INPUTS) {
        let made = &settled.made;
        let pot = sum(&settled.all_charges(3));
        let requirements: u64 = made.rows[OWNERS].iter().map(|row| row[2]).sum();
        if !made.rows[FIRM].is_empty() && pot == 0 && requirements == 0 {
            let only_miso = made.rows[FIRM].iter().all(|row| row[2] == 1);
            let mut rows = made.rows[FIRM].iter();
            let costs = rows.any(|row| row[2] == 0 && row[4] * rate_of(made, row) > 0);
            match only_miso {
                true => seen.see("no requirement, and MISO rows alone".into()),
                false if costs => seen.see("no requirement, and rows of less than a cent".into()),
                false => {}
            }
        }
        if pot > 0 {
            seen.see(format!("charges, weekday {}", made.head.weekday));
            let borders = sum(&settled.charges_in(0, 3));
            if borders > 0 && borders < pot {
                seen.see("charges at the border and in zones".into());
            }
        }
        for row in &made.rows[FIRM] {
            look_at_firm_row(made, row, &mut seen);
        }
        for (week, rows) in firm_weeks(made) {
            look_at_week(made, &week, &rows, &mut seen);
        }
    }
    seen.print();

    for term in ["daily", "weekly", "monthly"] {
        for row in [
            "with MISO delivery",
            "of nothing",
            "of the greatest capacity",
            "at the highest rate",
        ] {
            seen.hold(100, &format!("{term} row {row}"));
        }
        if term != "daily" {
            seen.hold(100, &format!("{term} row of half a cent"));
        }
    }
    for weekday in 1..=7 {
        seen.hold(100, &format!("charges, weekday {weekday}"));
        seen.hold(100, &format!("weekly row from weekday {weekday}"));
    }
    seen.hold(100, "weekly row that goes past the month");
    for week in ["whole", "first, cut", "last, cut", "of one day"] {
        for bound in ["below", "at", "above"] {
            seen.hold(100, &format!("week {week}, {bound} its bound"));
        }
    }
    seen.hold(100, "week of half a cent, below its bound");
    seen.hold(100, "week of half a cent, above its bound");
    seen.hold(100, "week that is less, rounded day by day");
    seen.hold(100, "week that is more, rounded day by day");
    seen.hold(
        100,
        "week with MISO delivery on a day, and that the highest",
    );
    seen.hold(100, "week past the bound of the days that it has");
    seen.hold(100, "charges at the border and in zones");
    seen.hold(20, "no requirement, and MISO rows alone");
    seen.hold(20, "no requirement, and rows of less than a cent");
}

fn look_at_firm_row(made: &Made, row: &Row, seen: &mut Seen) {
    let term = ["daily", "weekly", "monthly"][row[1] as usize - 1];
    let rate = rate_of(made, row);
    if row[2] == 1 {
        return seen.see(format!("{term} row with MISO delivery"));
    }
    match row[4] {
        0 => seen.see(format!("{term} row of nothing")),
        1_000_000 if rate > 0 => seen.see(format!("{term} row of the greatest capacity")),
        _ => {}
    }
    if rate == 100_000_000 && row[4] > 0 {
        seen.see(format!("{term} row at the highest rate"));
    }
    if row[4] * rate % 10 == 5 {
        seen.see(format!("{term} row of half a cent"));
    }
    if term == "weekly" && rate > 0 && row[4] > 0 {
        let weekday = (made.head.weekday - 1 + row[3] - 1) % 7 + 1;
        seen.see(format!("weekly row from weekday {weekday}"));
        if row[3] + 6 > made.head.days {
            seen.see("weekly row that goes past the month".into());
        }
    }
}

fn look_at_week(made: &Made, week: &[u64], rows: &[Row], seen: &mut Seen) {
    let [daily, weekly] = [made.head.daily_rate, made.head.weekly_rate];
    let capacities = || rows.iter().map(|row| row[4]);
    let days = capacities().sum::<u64>() * daily;
    let highest = capacities().max().unwrap_or(0);
    let bound = highest * weekly;
    if days == 0 || bound == 0 {
        return;
    }
    let place = match days.cmp(&bound) {
        std::cmp::Ordering::Less => "below",
        std::cmp::Ordering::Equal => "at",
        std::cmp::Ordering::Greater => "above",
    };
    if days.min(bound) % 10 == 5 {
        seen.see(format!("week of half a cent, {place} its bound"));
    }
    let cut = match week {
        [_, .., _] if week.len() == 7 => "whole",
        [_] => "of one day",
        [1, ..] => "first, cut",
        _ => "last, cut",
    };
    seen.see(format!("week {cut}, {place} its bound"));
    let cost = (days.min(bound) + 5) / 10;
    let day_by_day = capacities().map(|capacity| (capacity * daily + 5) / 10);
    match day_by_day.sum::<u64>().min((bound + 5) / 10) {
        other if other < cost => seen.see("week that is less, rounded day by day".into()),
        other if other > cost => seen.see("week that is more, rounded day by day".into()),
        _ => {}
    }
    let mut miso = made.rows[FIRM].iter();
    if miso.any(|row| row[..3] == [rows[0][0], 1, 1] && week.contains(&row[3]) && row[4] > highest)
    {
        seen.see("week with MISO delivery on a day, and that the highest".into());
    }
    // A bound for a part of a week would be less than what is paid.
    if week.len() < 7 && 7 * days.min(bound) > bound * week.len() as u64 {
        seen.see("week past the bound of the days that it has".into());
    }
}

fn near(kind: &str, number: u128, limit: u128, seen: &mut Seen) {
    if number == limit {
        seen.see(format!("{kind} at the limit"));
    }
    if number == limit + 1 {
        seen.see(format!("{kind} one past it"));
    }
}

/// Zones without requirement for a service, what is used there, and the answers that would be others
/// if every zone had one.
#[test]
fn months_reach_zones_without_requirement() {
    let mut seen = Seen::default();
    for index in 0..INPUTS {
        let made = make::month(SEED, index);
        let zones = made.rows[ZONES].len() as u64;
        let answer = match settle(made.head, &made.tables(), usize::MAX, usize::MAX) {
            Ok(_) => "accepted".into(),
            // The services were good.
            Err((_, 9, place)) if place == 5 * zones + 3 => "accepted".into(),
            Err((number, 9, place)) if place > zones => {
                format!("{number} {}", place_kind(place, zones).0)
            }
            Err(_) => continue,
        };
        let mut worked_out = "accepted".into();
        for (service, name) in SERVICES {
            let parts = parts_of_use(&made, |zone| has_requirement(&made, service, zone));
            let parts_else = parts_of_use(&made, |zone| zone != 0);
            let [outcome, outcome_else] =
                [&parts, &parts_else].map(|parts| outcome(&made, service, name, parts));
            if outcome == answer && units_pot(&made, |unit| unit[3] == service) > 0 {
                if outcome == "accepted" {
                    look_at_accounts(&made, service, name, &parts, &mut seen);
                }
                if only_reservations_elsewhere(&made, service, &parts) {
                    seen.see(format!("{name}: {outcome}, only reservations elsewhere"));
                }
                if outcome != outcome_else {
                    seen.see(format!("{name}: {outcome}, else {outcome_else}"));
                } else if parts != parts_else {
                    seen.see(format!("{name}: {outcome}, else by other parts"));
                }
            }
            // Such zones bring no BASE that isn't there without them.
            if outcome.starts_with(&format!("{BASE} ")) {
                assert_eq!(outcome, outcome_else);
            }
            if outcome != "accepted" {
                worked_out = outcome;
                break;
            }
        }
        assert_eq!(answer, worked_out, "month {index}");
    }
    seen.print();

    seen.hold(100, "black start: a requirement of reserve alone");
    for (_, name) in SERVICES {
        for units in ["no units", "units of nothing"] {
            for used in ["loads", "reservations", "loads and reservations"] {
                seen.hold(100, &format!("{name}: {used} where it has {units}"));
            }
        }
        seen.hold(100, &format!("{name}: a requirement of one cent"));
        for order in ["the border, then a zone", "a zone, then the border"] {
            seen.hold(1_000, &format!("{name}: non-zone use of {order}"));
        }
        let share = format!("{BASE} {name} share");
        let non_zone = format!("{BIG} {name} non-zone");
        seen.hold(1_000, &format!("{name}: accepted, else by other parts"));
        seen.hold(100, &format!("{name}: accepted, else {share}"));
        seen.hold(20, &format!("{name}: {non_zone}, else accepted"));
        seen.hold(20, &format!("{name}: {non_zone}, else {share}"));
        seen.hold(50, &format!("{name}: {share}, only reservations elsewhere"));
        seen.hold(
            20,
            &format!("{name}: accepted, only reservations elsewhere"),
        );
    }
}

fn outcome(made: &Made, service: u64, name: &str, parts: &[(u64, u64)]) -> String {
    match non_zone_pot(made, service, parts) {
        Ok(0..=LARGEST_POT) => "accepted".into(),
        Ok(_) => format!("{BIG} {name} non-zone"),
        Err((number, kind)) => format!("{number} {name} {kind}"),
    }
}

/// Whether there is zone use, but only of reservations in zones without requirement.
fn only_reservations_elsewhere(made: &Made, service: u64, parts: &[(u64, u64)]) -> bool {
    let accounts = made.rows[ACCOUNTS].iter().zip(parts);
    let zones = accounts.filter(|(_, parts)| parts.0 > 0);
    let mut zones = zones.map(|(account, _)| account[2]).peekable();
    zones.peek().is_some() && !zones.any(|zone| has_requirement(made, service, zone))
}

/// What is used in zones without requirement, how their accounts stand beside the border's in the
/// non-zone pot, and requirements that are nearly none.
fn look_at_accounts(made: &Made, service: u64, name: &str, parts: &[(u64, u64)], seen: &mut Seen) {
    let accounts = || made.rows[ACCOUNTS].iter().zip(parts);
    for (&[_, _, zone, ..], parts) in accounts() {
        if zone == 0 || has_requirement(made, service, zone) {
            continue;
        }
        let mut units = made.rows[UNITS].iter();
        let units = match units.any(|unit| unit[2] == zone && unit[3] == service) {
            true => "units of nothing",
            false => "no units",
        };
        let used = match parts {
            (0, 0) => "nothing",
            (0, _) => "loads",
            (_, 0) => "reservations",
            _ => "loads and reservations",
        };
        seen.see(format!("{name}: {used} where it has {units}"));
    }
    let payers = accounts().filter(|(_, parts)| parts.1 > 0);
    let at_border: Vec<bool> = payers.map(|(account, _)| account[2] == 0).collect();
    for neighbours in at_border.windows(2) {
        match neighbours {
            [true, false] => seen.see(format!("{name}: non-zone use of the border, then a zone")),
            [false, true] => seen.see(format!("{name}: non-zone use of a zone, then the border")),
            _ => {}
        }
    }
    for zone in &made.rows[ZONES] {
        let there = |unit: &[u64; 6]| unit[2] == zone[0] && unit[3] == service;
        let units = made.rows[UNITS].iter().filter(|unit| there(unit));
        let reserve: u64 = units.map(|unit| unit[5]).sum();
        match units_pot(made, there) {
            0 => {}
            1 => seen.see(format!("{name}: a requirement of one cent")),
            pot if pot == reserve => seen.see(format!("{name}: a requirement of reserve alone")),
            _ => {}
        }
    }
}

/// Equal remainders where some of them get a cent and others don't.
#[test]
fn many_divisions_have_ties() {
    let mut seen = Seen::default();
    for settled in settled_months(SEED, INPUTS) {
        for division in settled.divisions() {
            if has_tie(division.pot, &division.weights) {
                seen.see(division.kind.into());
            }
        }
    }
    seen.print();
    for kind in ["network zone", "network non-zone", "firm"] {
        seen.hold(1_000, kind);
    }
    for service in ["black start", "reactive"] {
        for kind in ["split", "share", "non-zone"] {
            seen.hold(100, &format!("{service} {kind}"));
        }
    }
}

fn has_tie(pot: u64, weights: &[u64]) -> bool {
    let total: u128 = weights.iter().map(|&weight| u128::from(weight)).sum();
    if total == 0 {
        return false;
    }
    let products = weights
        .iter()
        .map(|&weight| u128::from(pot) * u128::from(weight));
    let mut remainders: Vec<u128> = products.map(|product| product % total).collect();
    remainders.sort_unstable_by(|one, other| other.cmp(one));
    let left_over = (remainders.iter().sum::<u128>() / total) as usize;
    left_over > 0 && left_over < weights.len() && remainders[left_over - 1] == remainders[left_over]
}

#[test]
fn damaged_files_reach_every_answer_of_reading() {
    let mut seen = Seen::default();
    for index in 0..INPUTS {
        let text = make::damaged(SEED, index);
        let over = text.len() as i64 - MOST_BYTES as i64;
        if (-1..=1).contains(&over) {
            seen.see(format!("{over} bytes over the statement's limit"));
        }
        let line_starts = |offset: u64| {
            let text = &text[offset as usize..];
            let key = text.split(|&byte| byte == b'=' || byte == b'\n').next();
            String::from_utf8_lossy(key.unwrap_or_default()).into_owned()
        };
        match read(&text, &full_size()) {
            Ok((head, tables)) => match settle(head, &tables, usize::MAX, usize::MAX) {
                Ok(_) => seen.see("accepted".into()),
                Err((number, _, _)) => seen.see(format!("read, then {number}")),
            },
            Err((COUNT, table, _)) => seen.see(format!("{COUNT} table {table}")),
            Err((TEXT, 0, 0)) => seen.see("10 first line".into()),
            Err((TEXT, 0, offset)) if offset == text.len() as u64 => {
                seen.see("10 missing line".into());
            }
            Err((TEXT, 0, offset)) => {
                let key = line_starts(offset);
                let after_end = text[..offset as usize - 1]
                    .rsplit(|&byte| byte == b'\n')
                    .next();
                if after_end.is_some_and(|line| line.starts_with(b"end=")) {
                    seen.see("10 after end".into());
                }
                look_at_misplaced_line(&text, offset as usize, &mut seen);
                if known_keys().contains(&key.as_str()) {
                    seen.see(format!("10 at a line {key:?}"));
                } else {
                    seen.see("10 at another line".into());
                }
            }
            Err(refusal) => panic!("{refusal:?}"),
        }
    }
    seen.print();

    seen.hold(INPUTS as usize / 20, "accepted");
    for table in FORMS.map(|form| form.number) {
        seen.hold(20, &format!("{COUNT} table {table}"));
    }
    for number in [MONTH, RANGE, ORDER, LINK] {
        seen.hold(20, &format!("read, then {number}"));
    }
    for key in known_keys() {
        seen.hold(20, &format!("10 at a line {key:?}"));
    }
    // Without its first line a file is refused at 0, as many others are.
    for key in &HEAD_KEYS[1..] {
        for fault in ["left out", "twice", "later"] {
            seen.hold(20, &format!("10 {key} {fault}"));
        }
    }
    for keys in FORMS.windows(2) {
        let (one, other) = (keys[0].key, keys[1].key);
        seen.hold(20, &format!("10 {other} before {one}"));
    }
    for form in FORMS {
        seen.hold(5, &format!("10 {} not counted", form.key));
        seen.hold(20, &format!("10 {} of another width", form.key));
    }
    for place in ["first line", "missing line", "after end", "at another line"] {
        seen.hold(20, &format!("10 {place}"));
    }
    for over in -1..=1 {
        seen.hold(20, &format!("{over} bytes over the statement's limit"));
    }
}

/// All keys of a month file, and none.
fn known_keys() -> Vec<&'static str> {
    let tables = FORMS.map(|form| form.key);
    [&HEAD_KEYS[..], &tables, &["end", ""]].concat()
}

/// A head line left out, repeated or late, a table's line in an earlier table's place, a row too wide
/// or too narrow, or an end that counts all tables but one.
fn look_at_misplaced_line(text: &[u8], offset: usize, seen: &mut Seen) {
    let line = |bytes: &[u8]| String::from_utf8_lossy(bytes).into_owned();
    let lines = |bytes: &[u8]| -> Vec<String> {
        let lines = bytes.split_inclusive(|&byte| byte == b'\n');
        lines.map(line).collect()
    };
    let key = |line: &String| line.split('=').next().unwrap_or_default().to_string();
    let [before, after] = [&text[..offset], &text[offset..]].map(lines);
    let (found, value) = after[0].split_once('=').unwrap_or_default();
    let last = before.last().map(key).unwrap_or_default();
    if HEAD_KEYS.contains(&found) && last == found {
        return seen.see(format!("10 {found} twice"));
    }
    if let Some(&missing) = HEAD_KEYS.get(before.len()) {
        let later = after[1..].iter().any(|line| key(line) == missing);
        return match later {
            _ if found == missing => {}
            true => seen.see(format!("10 {missing} later")),
            false => seen.see(format!("10 {missing} left out")),
        };
    }
    let position = |key: &str| FORMS.iter().position(|form| form.key == key);
    let width = value.split(',').count();
    match (position(&last), position(found)) {
        (Some(last), Some(here)) if here < last => {
            seen.see(format!("10 {} before {found}", FORMS[last].key));
        }
        (_, Some(here)) if width != FORMS[here].width => {
            seen.see(format!("10 {found} of another width"));
        }
        _ => {}
    }
    if found == "end" {
        let rows = before.len() - HEAD_KEYS.len();
        for form in FORMS {
            let not_counted = before.iter().filter(|line| key(line) == form.key).count();
            if not_counted > 0 && value.trim_end() == (rows - not_counted).to_string() {
                seen.see(format!("10 {} not counted", form.key));
            }
        }
    }
}

#[test]
fn calls_reach_count_and_room() {
    let mut seen = Seen::default();
    for index in 0..INPUTS / 5 {
        let (head, tables, charges_len, credits_len) = make::call(SEED, index);
        match settle(head, &tables, charges_len, credits_len) {
            Ok(_) => seen.see("accepted".into()),
            Err((number @ (COUNT | ROOM), table, row)) => {
                assert_eq!(row, 0);
                seen.see(format!("{number} table {table}"));
            }
            Err((number, _, _)) => seen.see(number.to_string()),
        }
    }
    seen.print();
    seen.hold(100, "accepted");
    for table in FORMS.map(|form| form.number) {
        seen.hold(20, &format!("{COUNT} table {table}"));
    }
    for table in 7..=8 {
        seen.hold(20, &format!("{ROOM} table {table}"));
    }
    for number in [MONTH, RANGE, ORDER, LINK, PAIR, BIG, BASE] {
        seen.hold(20, &number.to_string());
    }
}
