//! Months that are aimed at one division: at its limits and one past them, at a pot with nothing to
//! divide it by, at zones without requirement for a service, and at weeks near their bounds.

use super::good::{good, Sizes};
use super::numbers::Numbers;
use super::{annual_of_nothing, firm, row, Made, Row};
use crate::divide::{LARGEST_POT, LARGEST_WEIGHT_SUM};
use crate::tables::{ACCOUNTS, LOADS, OWNERS, RESERVATIONS, UNITS, ZONES};

pub const POT: u64 = LARGEST_POT as u64;
const WEIGHTS: u64 = LARGEST_WEIGHT_SUM as u64;

/// What an aim can do with a good month. Each leaves the tables good.
const AIMS: [fn(&mut Numbers, &mut Made); 19] = [
    network_pot_at_limit,
    network_weights_at_limit,
    all_weights_at_limit,
    split_pot_at_limit,
    non_zone_pot_at_limit,
    non_zone_pot_of_loads_at_limit,
    no_use_at_all,
    no_use_in_a_zone,
    nothing_earned_in_a_zone,
    earned_only_without_use,
    no_requirement_in_a_zone,
    no_requirement_at_all,
    weights_too_big_for_nothing,
    one_service_only,
    use_alike_on_both_sides,
    firm::pot_at_limit,
    firm::all_at_their_highest,
    firm::weeks_at_their_bounds,
    firm::no_requirement,
];

/// A good month with one aim or more.
pub fn aimed(numbers: &mut Numbers) -> Made {
    let sizes = Sizes {
        zones: numbers.count_between(2, 6),
        owners: numbers.count_between(12, 20),
        units: numbers.count_between(4, 12),
        accounts: numbers.count_between(6, 16),
        days_apart: numbers.one_of(&[1, 2, 4, 10]),
        reservations: numbers.count_between(0, 6),
        firm: numbers.one_of(&[0, 1, 3, 10, 30, 100]),
    };
    let mut made = good(numbers, &sizes);
    for _ in 0..numbers.one_of(&[1, 1, 1, 2, 2, 3]) {
        numbers.one_of(&AIMS)(numbers, &mut made);
    }
    made
}

/// Contributions that come to 10^11 cents at the highest rate; the rounding of each account's
/// charge then makes it a few cents more or less.
fn network_pot_at_limit(numbers: &mut Numbers, made: &mut Made) {
    let zone = match numbers.once_in(2) {
        true => 0,
        false => a_zone(numbers, made),
    };
    let rate = match made.rows[ZONES].iter_mut().find(|row| row[0] == zone) {
        Some(row) => &mut row[1],
        None => &mut made.head.non_zone_rate,
    };
    *rate = 100_000_000;
    let chosen = some_accounts(numbers, made, zone);
    let total = match numbers.below(8) {
        0 => 3_650_000 + numbers.up_to(2_000_000),
        1 => 3_649_999,
        2 => 3_650_001,
        _ => 3_650_000,
    };
    let day_limit = 1_000_000;
    let account_limit = day_limit * made.head.days;
    let parts = numbers.parts(chosen.len(), total, account_limit);
    let accounts_there: Vec<u64> = made.accounts_of(zone);
    made.rows[LOADS].retain(|row| !accounts_there.contains(&row[0]));
    for (account, part) in chosen.into_iter().zip(parts) {
        let days = numbers.parts(made.head.days as usize, part, day_limit);
        let loads = days.into_iter().enumerate();
        made.rows[LOADS].extend(loads.map(|(day, load)| row([account, day as u64 + 1, load])));
    }
    made.rows[LOADS].sort_unstable();
}

/// Requirements of one zone's owners that add up to 10^13, or one more or less.
fn network_weights_at_limit(numbers: &mut Numbers, made: &mut Made) {
    let zone = a_zone(numbers, made);
    let count = numbers.count_between(10, made.rows[OWNERS].len());
    let total = near(numbers, WEIGHTS);
    let requirements = requirements(numbers, count, total);
    for (owner, requirement) in made.rows[OWNERS].iter_mut().zip(requirements) {
        (owner[1], owner[2]) = (zone, requirement);
    }
    // Else the zone's limit could never be seen beside all owners' limit.
    for owner in &mut made.rows[OWNERS][count..] {
        owner[2] = owner[2].min(numbers.up_to(1));
    }
}

/// Requirements of all owners that add up to 10^13, or one more or less.
fn all_weights_at_limit(numbers: &mut Numbers, made: &mut Made) {
    let total = near(numbers, WEIGHTS);
    let requirements = requirements(numbers, made.rows[OWNERS].len(), total);
    for (owner, requirement) in made.rows[OWNERS].iter_mut().zip(requirements) {
        owner[2] = requirement;
    }
}

/// Weights above the limit where no one is charged anything.
fn weights_too_big_for_nothing(numbers: &mut Numbers, made: &mut Made) {
    match numbers.once_in(2) {
        true => network_weights_at_limit(numbers, made),
        false => all_weights_at_limit(numbers, made),
    }
    made.head.non_zone_rate = 0;
    made.rows[ZONES].iter_mut().for_each(|row| row[1] = 0);
}

/// Twelfths of one zone's units that add up to 10^11, or one more or less.
fn split_pot_at_limit(numbers: &mut Numbers, made: &mut Made) {
    let service = numbers.between(1, 2);
    let zone = a_zone_with_use(numbers, made);
    let count = numbers.count_between(2, made.rows[UNITS].len());
    let total = near(numbers, POT);
    set_pots(numbers, made, count, service, total, |_, _| zone);
}

/// Zones without use, so that all pots of all zones go to the border, where they come to 10^11, or
/// one more or less.
fn non_zone_pot_at_limit(numbers: &mut Numbers, made: &mut Made) {
    let service = numbers.between(1, 2);
    let account = made.rows[ACCOUNTS].len() - 1;
    if made.rows[ACCOUNTS][account][2] != 0 {
        move_account(made, account, 0);
    }
    for zone in made.column(ZONES, 0) {
        let accounts = made.accounts_of(zone);
        drop_use(made, &accounts);
    }
    if !made.has_border_use() {
        let number = made.rows[ACCOUNTS][account][0];
        made.rows[RESERVATIONS].retain(|row| row[0] != number);
        let reserved = numbers.between(1, 1_000);
        made.rows[RESERVATIONS].push(row([number, reserved, 0]));
    }
    let zones = made.column(ZONES, 0);
    let count = numbers.count_between(2, made.rows[UNITS].len());
    let total = near(numbers, POT);
    // In turn, so that no zone's own pot is above the limit.
    set_pots(numbers, made, count, service, total, |_, unit| {
        zones[unit % zones.len()]
    });
}

/// Loads in a zone where a service earns nothing, and no use in the zones where it does, so that all
/// their pots go to those loads, where they come to 10^11, or one more or less. Or next to no use
/// there, and what goes to the loads comes to about as much.
fn non_zone_pot_of_loads_at_limit(numbers: &mut Numbers, made: &mut Made) {
    let service = numbers.between(1, 2);
    let zone = a_zone(numbers, made);
    let payers = some_accounts(numbers, made, zone);
    let next_to_none = numbers.once_in(2);
    let mut earning = made.column(ZONES, 0);
    earning.retain(|&other| other != zone);
    if next_to_none {
        earning.retain(|&other| !made.accounts_of(other).is_empty());
    }
    if earning.is_empty() {
        return;
    }
    for other in made.column(ZONES, 0) {
        let accounts = made.accounts_of(other);
        drop_use(made, &accounts);
        if next_to_none {
            set_loads(made, &accounts, 1);
        }
    }
    set_loads(made, &payers, 1_000_000);
    let total = match next_to_none {
        true => POT + numbers.up_to(POT / 10),
        false => near(numbers, POT),
    };
    let count = numbers.count_between(2, made.rows[UNITS].len());
    set_pots(numbers, made, count, service, total, |_, unit| {
        earning[unit % earning.len()]
    });
    // Else the network, or the other service, may be refused before this one.
    for row in &mut made.rows[ZONES] {
        row[1] = row[1].min(1_000);
    }
    move_units(numbers, made, 3 - service, &[zone]);
}

/// Pots, and no use anywhere to divide them by.
fn no_use_at_all(numbers: &mut Numbers, made: &mut Made) {
    let accounts = made.column(ACCOUNTS, 0);
    drop_use(made, &accounts);
    if numbers.once_in(4) {
        // Loads of nothing are no use either.
        let account = numbers.one_of(&accounts);
        made.rows[LOADS].push(row([account, made.head.days, 0]));
    }
    earn_something(numbers, made);
}

/// One zone's pot, and no use in that zone, while there is use elsewhere.
fn no_use_in_a_zone(numbers: &mut Numbers, made: &mut Made) {
    earn_something(numbers, made);
    let unit = numbers.first_middle_or_last(0, made.rows[UNITS].len() - 1);
    let zone = a_zone(numbers, made);
    made.rows[UNITS][unit][2] = zone;
    made.rows[UNITS][unit][4] = numbers.between(12, 1_000_000);
    match numbers.once_in(3) {
        // Every account has moved away.
        true => {
            for account in 0..made.rows[ACCOUNTS].len() {
                if made.rows[ACCOUNTS][account][2] == zone {
                    move_account(made, account, 0);
                }
            }
        }
        false => {
            let accounts = made.accounts_of(zone);
            drop_use(made, &accounts);
        }
    }
}

/// A zone in which a service earns nothing: its units are all elsewhere, or have so little a year
/// that nothing of it falls to this month.
fn nothing_earned_in_a_zone(numbers: &mut Numbers, made: &mut Made) {
    let service = numbers.between(1, 2);
    let zone = a_zone_with_use(numbers, made);
    let mut others = made.zones_with_use();
    others.retain(|&other| other != zone);
    let elsewhere = !others.is_empty() && numbers.once_in(2);
    if !elsewhere {
        let unit = numbers.first_middle_or_last(0, made.rows[UNITS].len() - 1);
        (made.rows[UNITS][unit][2], made.rows[UNITS][unit][3]) = (zone, service);
    }
    let month = made.head.month;
    let units = made.rows[UNITS].iter_mut();
    for unit in units.filter(|unit| unit[2] == zone && unit[3] == service) {
        match elsewhere {
            true => unit[2] = numbers.one_of(&others),
            false => (unit[4], unit[5]) = (annual_of_nothing(numbers, month), 0),
        }
    }
}

/// A service that earns only in zones without use. Loads elsewhere pay for it; a reservation
/// elsewhere leaves a zone's side that no one pays.
fn earned_only_without_use(numbers: &mut Numbers, made: &mut Made) {
    let service = numbers.between(1, 2);
    let mut zones = made.column(ZONES, 0);
    let first = numbers.position_below(zones.len());
    zones.rotate_left(first);
    let (earning, used) = zones.split_at(numbers.count_between(1, zones.len() - 1));
    let payers = some_accounts(numbers, made, used[0]);
    for &zone in earning {
        let accounts = made.accounts_of(zone);
        drop_use(made, &accounts);
    }
    for &zone in used {
        let accounts = made.accounts_of(zone);
        made.rows[RESERVATIONS].retain(|row| !accounts.contains(&row[0]));
    }
    let load = numbers.between(1, 1_000);
    set_loads(made, &payers, load);
    if numbers.once_in(2) {
        let most = numbers.one_of(&[1, 1_000, 1_000_000_000]);
        let reserved = numbers.between(1, most);
        let payer = numbers.one_of(&payers);
        made.rows[RESERVATIONS].push(row([payer, reserved, 0]));
        made.rows[RESERVATIONS].sort_unstable();
    }
    let unit = numbers.first_middle_or_last(0, made.rows[UNITS].len() - 1);
    let annual = numbers.between(12, 1_000_000);
    made.rows[UNITS][unit][3..].copy_from_slice(&[service, annual, 0]);
    move_units(numbers, made, service, earning);
    // Else the other service may be refused before this one.
    move_units(numbers, made, 3 - service, &used[..1]);
}

/// Charges in a zone whose owners have no requirement, or moved away.
fn no_requirement_in_a_zone(numbers: &mut Numbers, made: &mut Made) {
    let zone = a_zone(numbers, made);
    let other = a_zone(numbers, made);
    let away = numbers.once_in(2);
    for owner in made.rows[OWNERS].iter_mut().filter(|row| row[1] == zone) {
        match away && other != zone {
            true => owner[1] = other,
            false => owner[2] = 0,
        }
    }
    for row in made.rows[ZONES].iter_mut().filter(|row| row[0] == zone) {
        row[1] = row[1].max(3_650);
    }
}

/// Charges at the border alone, and no owner with a requirement anywhere.
fn no_requirement_at_all(numbers: &mut Numbers, made: &mut Made) {
    made.rows[OWNERS].iter_mut().for_each(|row| row[2] = 0);
    if !numbers.once_in(4) {
        made.rows[ZONES].iter_mut().for_each(|row| row[1] = 0);
    }
    made.head.non_zone_rate = made.head.non_zone_rate.max(3_650);
}

/// Else a fault of the first service hides every fault of the second.
fn one_service_only(numbers: &mut Numbers, made: &mut Made) {
    let service = numbers.between(1, 2);
    for unit in &mut made.rows[UNITS] {
        unit[3] = service;
        unit[5] = if service == 1 { unit[5] } else { 0 };
    }
}

/// The same use in all zones together as at the border, where a split's odd cent is the zone's.
fn use_alike_on_both_sides(numbers: &mut Numbers, made: &mut Made) {
    let accounts = made.column(ACCOUNTS, 0);
    drop_use(made, &accounts);
    let border = made.accounts_of(0);
    let zones = accounts.len() - border.len();
    let once = numbers.between(1, 5);
    for account in accounts {
        let others = if border.contains(&account) {
            zones
        } else {
            border.len()
        };
        let reserved = once * others as u64;
        made.rows[RESERVATIONS].push(row([account, reserved, 0]));
    }
}

/// Gives the first units annual requirements whose twelfths add up to the total, and takes the
/// other units of that service out of the way.
fn set_pots(
    numbers: &mut Numbers,
    made: &mut Made,
    count: usize,
    service: u64,
    total: u64,
    zone: impl Fn(&Row, usize) -> u64,
) {
    // A whole number of twelfths is the same in every month.
    let twelfths = numbers.parts(count, total, 1_000_000_000_000 / 12);
    for (position, unit) in made.rows[UNITS].iter_mut().enumerate() {
        if position < count {
            let reserve = match service {
                1 => twelfths[position].min(numbers.up_to(10_000_000_000)),
                _ => 0,
            };
            unit[2] = zone(unit, position);
            unit[3] = service;
            unit[4] = 12 * (twelfths[position] - reserve);
            unit[5] = reserve;
        } else if unit[3] == service {
            (unit[4], unit[5]) = (0, 0);
        }
    }
}

fn earn_something(numbers: &mut Numbers, made: &mut Made) {
    let unit = numbers.first_middle_or_last(0, made.rows[UNITS].len() - 1);
    made.rows[UNITS][unit][4] = made.rows[UNITS][unit][4].max(12);
}

fn move_units(numbers: &mut Numbers, made: &mut Made, service: u64, zones: &[u64]) {
    let units = made.rows[UNITS].iter_mut();
    for unit in units.filter(|unit| unit[3] == service) {
        unit[2] = numbers.one_of(zones);
    }
}

/// The same load on every day, and no other.
fn set_loads(made: &mut Made, accounts: &[u64], load: u64) {
    made.rows[LOADS].retain(|row| !accounts.contains(&row[0]));
    for &account in accounts {
        let days = 1..=made.head.days;
        made.rows[LOADS].extend(days.map(|day| row([account, day, load])));
    }
    made.rows[LOADS].sort_unstable();
}

fn drop_use(made: &mut Made, accounts: &[u64]) {
    made.rows[LOADS].retain(|row| !accounts.contains(&row[0]));
    made.rows[RESERVATIONS].retain(|row| !accounts.contains(&row[0]));
}

fn requirements(numbers: &mut Numbers, count: usize, total: u64) -> Vec<u64> {
    // Ten owners can't have more than this.
    let most = 1_000_000_000_000;
    numbers.parts(count, total.min(most * count as u64), most)
}

pub fn near(numbers: &mut Numbers, limit: u64) -> u64 {
    match numbers.below(8) {
        0 => limit - 1,
        1 => limit + numbers.up_to(limit / 10),
        2..=4 => limit,
        _ => limit + 1,
    }
}

fn a_zone(numbers: &mut Numbers, made: &Made) -> u64 {
    let last = made.rows[ZONES].len() - 1;
    made.rows[ZONES][numbers.first_middle_or_last(0, last)][0]
}

fn a_zone_with_use(numbers: &mut Numbers, made: &Made) -> u64 {
    match made.zones_with_use() {
        used if used.is_empty() => a_zone(numbers, made),
        used => numbers.one_of(&used),
    }
}

/// One to five accounts of a zone, with others moved there where it has too few.
fn some_accounts(numbers: &mut Numbers, made: &mut Made, zone: u64) -> Vec<u64> {
    let wanted = numbers.count_between(1, 5);
    for account in 0..made.rows[ACCOUNTS].len() {
        if made.rows[ACCOUNTS][account][2] != zone && made.accounts_of(zone).len() < wanted {
            move_account(made, account, zone);
        }
    }
    let mut accounts = made.accounts_of(zone);
    accounts.truncate(wanted);
    accounts
}

/// Its customer becomes one that no other account of that zone has.
fn move_account(made: &mut Made, account: usize, zone: u64) {
    let accounts = &mut made.rows[ACCOUNTS];
    let taken = |customer: u64| {
        let mut there = accounts.iter();
        there.any(|row| row[2] == zone && row[1] == customer)
    };
    let free = (1..).find(|&customer| !taken(customer));
    accounts[account][1] = free.expect("a few are taken");
    accounts[account][2] = zone;
}
