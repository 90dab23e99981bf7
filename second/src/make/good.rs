//! Good months of many sizes and shapes. Nearly all of them are accepted: a zone that is charged
//! has an owner with a requirement, a zone with units has use, and firm rows have an owner with a
//! requirement somewhere, unless the month is careless.

use super::firm::make_firm;
use super::numbers::Numbers;
use super::{row, Made};
use crate::divide::LARGEST_POT;
use crate::tables::{Head, ACCOUNTS, LOADS, OWNERS, RESERVATIONS, UNITS, ZONES};

/// How many rows of each table.
#[derive(Clone, Copy)]
pub struct Sizes {
    pub zones: usize,
    pub owners: usize,
    pub units: usize,
    pub accounts: usize,
    /// An account has a load on one day in so many, on average.
    pub days_apart: u64,
    pub reservations: usize,
    /// As far as the accounts can have so many.
    pub firm: usize,
}

impl Sizes {
    pub const FULL: Sizes = Sizes {
        zones: 16,
        owners: 64,
        units: 64,
        accounts: 32,
        days_apart: 1,
        reservations: 32,
        firm: 992,
    };

    pub fn any(numbers: &mut Numbers) -> Sizes {
        match numbers.below(100) {
            0..=1 => Sizes {
                zones: numbers.one_of(&[1, 2, 16, 16]),
                ..Sizes::FULL
            },
            2..=39 => Sizes::up_to(numbers, 2, 3, 3, 3),
            40..=89 => Sizes::up_to(numbers, 5, 9, 9, 8),
            _ => Sizes::up_to(numbers, 16, 64, 64, 32),
        }
    }

    pub fn up_to(
        numbers: &mut Numbers,
        zones: usize,
        owners: usize,
        units: usize,
        accounts: usize,
    ) -> Sizes {
        let accounts = numbers.count_between(0, accounts);
        Sizes {
            zones: numbers.count_between(0, zones),
            owners: numbers.count_between(0, owners),
            units: numbers.count_between(0, units),
            accounts,
            days_apart: numbers.one_of(&[1, 2, 4, 10, 20, 40]),
            reservations: numbers.count_between(0, accounts),
            firm: match numbers.below(4) {
                0 => 0,
                1 => numbers.count_between(1, 4),
                _ => numbers.count_between(0, 12 * accounts),
            },
        }
    }
}

/// How large a month's figures are.
#[derive(Clone, Copy)]
pub enum Level {
    /// All alike and small, so that cents are left over and remainders are equal.
    Alike(u64),
    Small,
    Middle,
    /// As large as their ranges and the divisions' limits allow.
    Large,
}

pub fn good(numbers: &mut Numbers, sizes: &Sizes) -> Made {
    let level = match numbers.below(8) {
        0..=2 => Level::Alike(numbers.between(1, 3)),
        3..=4 => Level::Small,
        5..=6 => Level::Middle,
        _ => Level::Large,
    };
    let careless = numbers.once_in(12);
    let mut made = Made {
        head: head(numbers, sizes),
        ..Made::default()
    };
    let zones = numbers.ascending(sizes.zones, 999);
    made.rows[ZONES] = zones.iter().map(|&zone| row([zone, 0])).collect();
    if !zones.is_empty() {
        make_owners(numbers, &mut made, sizes, level, careless);
    }
    make_accounts(numbers, &mut made, sizes);
    make_loads(numbers, &mut made, sizes, level);
    make_reservations(numbers, &mut made, sizes, level);
    make_rates(numbers, &mut made, level, careless);
    make_firm(numbers, &mut made, sizes, level, careless);
    if !made.rows[OWNERS].is_empty() {
        make_units(numbers, &mut made, sizes, level, careless);
    }
    made
}

fn head(numbers: &mut Numbers, sizes: &Sizes) -> Head {
    // Only a long month has room for as many loads as the table.
    let month = match sizes.accounts * 31 {
        992 if sizes.days_apart == 1 => numbers.one_of(&[1, 3, 5, 7, 8, 10, 12]),
        _ => numbers.between(1, 12),
    };
    let days = match month {
        2 => numbers.between(28, 29),
        4 | 6 | 9 | 11 => 30,
        _ => 31,
    };
    Head {
        month,
        days,
        weekday: numbers.between(1, 7),
        // The rates come when it is known what they are for.
        ..Head::default()
    }
}

fn make_owners(
    numbers: &mut Numbers,
    made: &mut Made,
    sizes: &Sizes,
    level: Level,
    careless: bool,
) {
    let zones = made.column(ZONES, 0);
    let first = numbers.position_below(zones.len());
    for (position, owner) in numbers
        .ascending(sizes.owners, 9_999)
        .into_iter()
        .enumerate()
    {
        let mut requirement = match level {
            Level::Alike(requirement) => requirement,
            Level::Small => numbers.up_to(20),
            Level::Middle => numbers.up_to(1_000_000_000),
            // All owners together stay below the limit of the weights.
            Level::Large => numbers.up_to(10_000_000_000_000 / 64),
        };
        // Every zone has one owner with a requirement, as far as the owners go round.
        let zone = if position < zones.len() && !careless {
            requirement = requirement.max(1);
            zones[(first + position) % zones.len()]
        } else {
            numbers.one_of(&zones)
        };
        made.rows[OWNERS].push(row([owner, zone, requirement]));
    }
}

fn make_accounts(numbers: &mut Numbers, made: &mut Made, sizes: &Sizes) {
    let zones = made.column(ZONES, 0);
    // Of 4 accounts so many lie at the border.
    let at_border = numbers.one_of(&[0, 1, 1, 2, 4]);
    let customers = numbers.one_of(&[3, 40, 1_000_000_000]);
    for account in numbers.ascending(sizes.accounts, 9_999) {
        let zone = match zones.is_empty() || numbers.below(4) < at_border {
            true => 0,
            false => numbers.one_of(&zones),
        };
        let mut customer = match numbers.once_in(8) {
            true => 1_000_000_000,
            false => numbers.between(1, customers),
        };
        let earlier = &made.rows[ACCOUNTS];
        while earlier
            .iter()
            .any(|row| (row[1], row[2]) == (customer, zone))
        {
            customer = customer % 1_000_000_000 + 1;
        }
        made.rows[ACCOUNTS].push(row([account, customer, zone]));
    }
}

fn make_loads(numbers: &mut Numbers, made: &mut Made, sizes: &Sizes, level: Level) {
    for account in made.column(ACCOUNTS, 0) {
        let idle = sizes.days_apart > 1 && numbers.once_in(6);
        for day in 1..=made.head.days {
            if idle || !numbers.once_in(sizes.days_apart) {
                continue;
            }
            let contribution = match level {
                Level::Alike(contribution) => contribution,
                Level::Small => numbers.up_to(5),
                Level::Middle => numbers.up_to(20_000),
                Level::Large => match numbers.once_in(8) {
                    true => 1_000_000,
                    false => numbers.up_to(1_000_000),
                },
            };
            made.rows[LOADS].push(row([account, day, contribution]));
        }
    }
}

fn make_reservations(numbers: &mut Numbers, made: &mut Made, sizes: &Sizes, level: Level) {
    let accounts = made.column(ACCOUNTS, 0);
    for account in numbers.so_many_of(&accounts, sizes.reservations) {
        let reserved = match level {
            Level::Alike(reserved) => 24 * reserved,
            Level::Small => numbers.up_to(100),
            Level::Middle => numbers.up_to(1_000_000),
            Level::Large => match numbers.once_in(8) {
                true => 1_000_000_000,
                false => numbers.up_to(1_000_000_000),
            },
        };
        let curtailed = match numbers.below(4) {
            0 => reserved,
            1 => numbers.up_to(reserved),
            _ => 0,
        };
        made.rows[RESERVATIONS].push(row([account, reserved, curtailed]));
    }
}

fn make_rates(numbers: &mut Numbers, made: &mut Made, level: Level, careless: bool) {
    // At this rate all contributions together come to a pot of no more than its limit.
    let contributions: u64 = made.column(LOADS, 2).iter().sum();
    let highest = (3_650 * LARGEST_POT as u64 / contributions.max(1)).min(100_000_000);
    let mut rate = |charged: bool| match level {
        _ if !charged && !careless => 0,
        Level::Alike(_) => numbers.one_of(&[0, 365, 1_825, 3_650, 36_500, 365_000]),
        Level::Small => numbers.up_to(4_000),
        Level::Middle => numbers.up_to(1_500_000.min(highest)),
        Level::Large => match numbers.once_in(3) {
            true => highest,
            false => numbers.up_to(highest),
        },
    };
    let [zones, owners, ..] = &mut made.rows;
    made.head.non_zone_rate = rate(owners.iter().any(|row| row[2] > 0));
    for zone in zones {
        zone[1] = rate(owners.iter().any(|row| row[1] == zone[0] && row[2] > 0));
    }
}

fn make_units(numbers: &mut Numbers, made: &mut Made, sizes: &Sizes, level: Level, careless: bool) {
    let zones = made.column(ZONES, 0);
    let used = made.zones_with_use();
    // Without any use in a zone all pots go to the border; without any use at all nothing does.
    let (served, earns) = match (used.is_empty(), made.has_border_use()) {
        _ if careless => (zones, true),
        (false, _) => (used, true),
        (true, border) => (zones, border),
    };
    let only_service = numbers.once_in(6).then(|| numbers.between(1, 2));
    // A service may leave out some zones, and earn next to nothing in others.
    let services = [1, 2].map(|_| {
        let some = some_of(numbers, &served, 2);
        let zones = match some.is_empty() || numbers.once_in(2) {
            true => served.clone(),
            false => some,
        };
        (zones, some_of(numbers, &served, 4))
    });
    for unit in numbers.ascending(sizes.units, 9_999) {
        let owner = numbers.one_of(&made.rows[OWNERS]);
        let service = only_service.unwrap_or_else(|| numbers.between(1, 2));
        let (served, poor) = &services[service as usize - 1];
        let zone = match served.contains(&owner[1]) && numbers.once_in(2) {
            true => owner[1],
            false => numbers.one_of(served),
        };
        let units = sizes.units as u64;
        let (annual, reserve) = match level {
            _ if !earns => (0, 0),
            // Nothing in most months, else a cent or a reserve credit alone.
            _ if poor.contains(&zone) => (
                numbers.one_of(&[0, 1, 1, 2, 3, 12]),
                numbers.one_of(&[0, 0, 0, 50]),
            ),
            Level::Alike(annual) => (12 * annual + numbers.up_to(24), numbers.up_to(2)),
            Level::Small => (numbers.up_to(5_000), numbers.up_to(50)),
            Level::Middle => (numbers.up_to(1_000_000_000), numbers.up_to(10_000_000)),
            // All units together stay below the limit of a pot.
            Level::Large => (
                numbers.up_to(1_000_000_000_000 / units),
                numbers.up_to(10_000_000_000 / units),
            ),
        };
        let reserve = if service == 1 { reserve } else { 0 };
        let unit = row([unit, owner[0], zone, service, annual, reserve]);
        made.rows[UNITS].push(unit);
    }
}

/// Each of them once in so many times.
fn some_of(numbers: &mut Numbers, zones: &[u64], times: u64) -> Vec<u64> {
    let zones = zones.iter().copied();
    zones.filter(|_| numbers.once_in(times)).collect()
}
