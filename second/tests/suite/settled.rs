//! Accepted months with their divisions worked out anew, from the tables and the settled figures
//! alone.

use second::make::{self, Made};
use second::settle::{settle, CHARGES, CREDITS};
use second::tables::{ACCOUNTS, LOADS, OWNERS, RESERVATIONS, UNITS, ZONES};

pub struct Settled {
    pub made: Made,
    pub charges: Vec<[u64; CHARGES]>,
    pub credits: Vec<[u64; CREDITS]>,
}

pub struct Division {
    pub kind: &'static str,
    pub pot: u64,
    pub weights: Vec<u64>,
    pub amounts: Vec<u64>,
}

/// The accepted ones of so many made-up months.
pub fn settled_months(seed: u64, count: u64) -> impl Iterator<Item = Settled> {
    (0..count).filter_map(move |index| settled(make::month(seed, index)))
}

/// The month where it is accepted.
pub fn settled(made: Made) -> Option<Settled> {
    let (charges, credits) = settle(made.head, &made.tables(), usize::MAX, usize::MAX).ok()?;
    Some(Settled {
        made,
        charges: rows(&charges),
        credits: rows(&credits),
    })
}

fn rows<const WIDTH: usize>(words: &[u64]) -> Vec<[u64; WIDTH]> {
    let rows = words.chunks(WIDTH);
    rows.map(|row| row.try_into().expect("whole rows"))
        .collect()
}

impl Settled {
    /// All of them, with the pots that the settled figures say.
    pub fn divisions(&self) -> Vec<Division> {
        let mut divisions = Vec::new();
        let mut add = |kind, pot, weights, amounts| {
            divisions.push(Division {
                kind,
                pot,
                weights,
                amounts,
            });
        };
        for zone in self.zones() {
            let (weights, amounts) = self.owners_in(zone);
            add(
                "network zone",
                sum(&self.charges_in(zone, 0)),
                weights,
                amounts,
            );
        }
        let requirements: Vec<u64> = self.made.rows[OWNERS].iter().map(|row| row[2]).collect();
        add(
            "network non-zone",
            sum(&self.charges_in(0, 0)),
            requirements.clone(),
            self.all_credits(1),
        );

        let kinds = [
            [
                "black start split",
                "black start share",
                "black start non-zone",
            ],
            ["reactive split", "reactive share", "reactive non-zone"],
        ];
        for (service, [split, share, non_zone]) in (1..).zip(kinds) {
            let with_requirement = |zone: u64| has_requirement(&self.made, service, zone);
            let parts = parts_of_use(&self.made, with_requirement);
            let zone_use = parts.iter().map(|parts| parts.0).sum();
            let non_zone_use = parts.iter().map(|parts| parts.1).sum();
            let rows = || {
                self.made.rows[ACCOUNTS]
                    .iter()
                    .zip(&parts)
                    .zip(&self.charges)
            };
            let mut non_zone_pot = 0;
            for zone in self.zones().filter(|&zone| with_requirement(zone)) {
                let pot = units_pot(&self.made, |unit| unit[2] == zone && unit[3] == service);
                let rows = rows().filter(|((account, _), _)| account[2] == zone);
                let (weights, charges): (Vec<u64>, Vec<u64>) = rows
                    .map(|((_, parts), charges)| (parts.0, charges[service as usize]))
                    .unzip();
                let side = sum(&charges);
                // Where the zone is charged more than the pot, the check of the split says no.
                let other_side = pot.saturating_sub(side);
                add(
                    split,
                    pot,
                    vec![zone_use, non_zone_use],
                    vec![side, other_side],
                );
                add(share, side, weights, charges);
                non_zone_pot += other_side;
            }
            // A zone without requirement has no pot, so that its accounts pay for non-zone use alone.
            let rows = rows().filter(|((account, _), _)| !with_requirement(account[2]));
            let (weights, charges) = rows
                .map(|((_, parts), charges)| (parts.1, charges[service as usize]))
                .unzip();
            add(non_zone, non_zone_pot, weights, charges);
        }
        add(
            "firm",
            sum(&self.all_charges(3)),
            requirements,
            self.all_credits(4),
        );
        divisions
    }

    /// One charge of every account.
    pub fn all_charges(&self, kind: usize) -> Vec<u64> {
        self.charges.iter().map(|charges| charges[kind]).collect()
    }

    /// One credit of every owner.
    pub fn all_credits(&self, kind: usize) -> Vec<u64> {
        self.credits.iter().map(|credits| credits[kind]).collect()
    }

    pub fn zones(&self) -> impl Iterator<Item = u64> + '_ {
        self.made.rows[ZONES].iter().map(|zone| zone[0])
    }

    pub fn charges_in(&self, zone: u64, kind: usize) -> Vec<u64> {
        let rows = self.made.rows[ACCOUNTS].iter().zip(&self.charges);
        let rows = rows.filter(|(account, _)| account[2] == zone);
        rows.map(|(_, charges)| charges[kind]).collect()
    }

    /// The owners' requirements in a zone and what they are credited with from it.
    pub fn owners_in(&self, zone: u64) -> (Vec<u64>, Vec<u64>) {
        let rows = self.made.rows[OWNERS].iter().zip(&self.credits);
        let rows = rows.filter(|(owner, _)| owner[1] == zone);
        rows.map(|(owner, credits)| (owner[2], credits[0])).unzip()
    }
}

/// The credits of those units this month.
pub fn units_pot(made: &Made, chosen: impl Fn(&[u64; 6]) -> bool) -> u64 {
    let units = made.rows[UNITS].iter().filter(|unit| chosen(unit));
    units.map(|unit| credit(made, unit)).sum()
}

/// Whether a unit of the service has a credit in that zone, which the border never has.
pub fn has_requirement(made: &Made, service: u64, zone: u64) -> bool {
    let mut units = made.rows[UNITS].iter();
    units.any(|unit| unit[2] == zone && unit[3] == service && credit(made, unit) > 0)
}

fn credit(made: &Made, unit: &[u64; 6]) -> u64 {
    let month = made.head.month;
    unit[4] * month / 12 - unit[4] * (month - 1) / 12 + unit[5]
}

/// What each account adds to zone use and to non-zone use, with a requirement in those zones: a load
/// is zone use only there, a reservation in every zone.
pub fn parts_of_use(made: &Made, has_requirement: impl Fn(u64) -> bool) -> Vec<(u64, u64)> {
    let accounts = made.rows[ACCOUNTS].iter();
    accounts
        .map(|&[account, _, zone, ..]| {
            let loads = made.rows[LOADS].iter().filter(|row| row[0] == account);
            let loads = 24 * loads.map(|row| row[2]).sum::<u64>();
            let reservations = made.rows[RESERVATIONS].iter();
            let reservations = reservations.filter(|row| row[0] == account);
            let reservations = reservations.map(|row| row[1] - row[2]).sum::<u64>();
            let mut parts = (0, 0);
            match has_requirement(zone) {
                true => parts.0 += loads,
                false => parts.1 += loads,
            }
            match zone {
                0 => parts.1 += reservations,
                _ => parts.0 += reservations,
            }
            parts
        })
        .collect()
}

pub fn sum(numbers: &[u64]) -> u64 {
    numbers.iter().sum()
}
