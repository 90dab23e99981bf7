//! What must come out even in every accepted month.

use crate::settled::{settled_months, sum, units_pot};
use second::divide::check;
use second::tables::{OWNERS, UNITS};

const MONTHS: u64 = 20_000;

#[test]
fn charges_equal_credits() {
    let mut months = 0;
    for settled in settled_months(21, MONTHS) {
        months += 1;
        // Zone by zone for the network, and what the border pays goes to all owners.
        for zone in settled.zones() {
            let (_, credits) = settled.owners_in(zone);
            assert_eq!(sum(&settled.charges_in(zone, 0)), sum(&credits));
        }
        let border = sum(&settled.all_credits(1));
        assert_eq!(sum(&settled.charges_in(0, 0)), border);
        // Over the pool for each service, and for firm reservations.
        for (charge, credit) in [(1, 2), (2, 3), (3, 4)] {
            let charges = sum(&settled.all_charges(charge));
            assert_eq!(charges, sum(&settled.all_credits(credit)));
        }
        let charges = settled.charges.concat();
        assert_eq!(sum(&charges), sum(&settled.credits.concat()));
    }
    assert!(months > MONTHS / 3, "{months}");
}

#[test]
fn every_division_is_a_closest_one() {
    for settled in settled_months(22, MONTHS) {
        for division in settled.divisions() {
            let answer = check(division.pot, &division.weights, &division.amounts);
            assert_eq!(answer, Ok(true), "{}", division.kind);
        }
    }
}

#[test]
fn owners_are_credited_with_their_units_wherever_they_serve() {
    let mut elsewhere = 0;
    for settled in settled_months(23, MONTHS) {
        for (owner, credits) in settled.made.rows[OWNERS].iter().zip(&settled.credits) {
            for service in [1, 2] {
                let of_owner = |unit: &[u64; 6]| unit[1] == owner[0] && unit[3] == service;
                let pot = units_pot(&settled.made, of_owner);
                assert_eq!(credits[service as usize + 1], pot);
            }
            let mut units = settled.made.rows[UNITS].iter();
            elsewhere += u64::from(units.any(|unit| unit[1] == owner[0] && unit[2] != owner[1]));
        }
    }
    assert!(elsewhere > 1_000, "{elsewhere}");
}
