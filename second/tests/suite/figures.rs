//! "Figures to hold against it", and more of them for zones without requirement.

use crate::{tables_of, APRIL};
use second::divide::{check, divide_alone};
use second::make::CASE_S;
use second::refusal::{Refusal, BASE, BIG};
use second::settle::{network_charge, settle, unit_month, CHARGES};
use second::statement;
use second::tables::{Head, Tables, LOADS, RESERVATIONS};

const DECEMBER: Head = Head {
    month: 12,
    days: 31,
    ..APRIL
};

fn divided(pot: u64, weights: &[u64]) -> Result<Vec<u128>, u64> {
    divide_alone(pot, weights, weights.len())
}

/// What the accounts are charged for a service.
fn charged(head: Head, tables: &Tables, service: u64) -> Result<Vec<u64>, Refusal> {
    let (charges, _) = settle(head, tables, usize::MAX, usize::MAX)?;
    let charges = charges.chunks(CHARGES);
    Ok(charges.map(|charges| charges[service as usize]).collect())
}

/// Zones 1 and 2, both without rates, and an owner.
fn two_zones(units: &[[u64; 6]], accounts: &[u64], loads: &[u64], reservations: &[u64]) -> Tables {
    tables_of(&[
        &[1, 0, 2, 0],
        &[1, 1, 5],
        &units.concat(),
        accounts,
        loads,
        reservations,
    ])
}

#[test]
fn case_s() {
    let statement = String::from_utf8(statement(CASE_S)).expect("plain text");
    assert_eq!(
        statement,
        "charge=1,2000,500,0,0\n\
         charge=2,0,500,0,0\n\
         credit=1,1333,0,0,0,0\n\
         credit=2,667,0,1000,0,0\n\
         total=3000,3000\n"
    );
}

#[test]
fn d1_to_d8() {
    assert_eq!(divided(100, &[1, 1, 1]), Ok(vec![34, 33, 33]));
    assert_eq!(divided(100, &[1, 2, 4]), Ok(vec![14, 29, 57]));
    assert_eq!(divided(2, &[1, 1, 1, 1]), Ok(vec![1, 1, 0, 0]));
    assert_eq!(divided(5, &[0, 7]), Ok(vec![0, 5]));
    assert_eq!(divided(1, &[0, 0]), Err(BASE));
    assert_eq!(divided(0, &[0, 0]), Ok(vec![0, 0]));
    assert_eq!(divided(0, &[]), Ok(vec![]));
    assert_eq!(divided(1, &[]), Err(BASE));
    assert_eq!(divided(100_000_000_000, &[1]), Ok(vec![100_000_000_000]));
    assert_eq!(divided(100_000_000_001, &[1]), Err(BIG));
    assert_eq!(divided(7, &[10_000_000_000_000]), Ok(vec![7]));
    assert_eq!(divided(7, &[10_000_000_000_000, 1]), Err(BIG));
}

#[test]
fn c1_to_c3() {
    assert_eq!(check(2, &[1, 1, 1, 1], &[0, 1, 0, 1]), Ok(true));
    assert_eq!(check(2, &[1, 1, 1, 1], &[2, 0, 0, 0]), Ok(false));
    assert_eq!(check(100, &[1, 2, 4], &[15, 28, 57]), Ok(false));
    assert_eq!(check(5, &[0, 7], &[1, 4]), Ok(false));
}

#[test]
fn n1_and_n2() {
    assert_eq!(network_charge(3_000, 1_471_400), 1_209_370);
    assert_eq!(network_charge(1_825, 1), 1);
    assert_eq!(network_charge(1_824, 1), 0);
}

#[test]
fn m1() {
    let months = [1, 2, 3].map(|month| unit_month(100, month));
    assert_eq!(months, [8, 8, 9]);
    let year: u128 = (1..=12).map(|month| unit_month(100, month)).sum();
    assert_eq!(year, 100);
}

/// Pots 1,000 and 500; uses 300 and 100 in zone 1, 200 in zone 2, 100 at the border.
#[test]
fn b1() {
    for service in [1, 2] {
        let head = Head {
            month: 7,
            days: 31,
            ..APRIL
        };
        let units = [[1, 1, 1, service, 12_000, 0], [2, 1, 2, service, 6_000, 0]];
        let accounts = [1, 7, 1, 2, 8, 1, 3, 7, 2, 4, 7, 0];
        let reservations = [1, 300, 0, 2, 150, 50, 3, 200, 0, 4, 100, 0];
        let tables = two_zones(&units, &accounts, &[], &reservations);
        assert_eq!(
            charged(head, &tables, service),
            Ok(vec![643, 214, 429, 214])
        );
        let (charges, credits) = settle(head, &tables, 16, 5).expect("a good month");
        assert_eq!(charges.iter().sum::<u64>(), 1_500);
        assert_eq!(credits[service as usize + 1], 1_500);
        assert_eq!(credits.iter().sum::<u64>(), 1_500);
    }
    assert_eq!(divided(1_000, &[600, 100]), Ok(vec![857, 143]));
    assert_eq!(divided(500, &[600, 100]), Ok(vec![429, 71]));
}

/// A unit in zone 1 alone. In zone 2 a load of 10 is non-zone use and a reservation of 120 is zone
/// use: 360 and 480 in all, and a split of 429 and 571. Two accounts share the 571 alike, and the
/// earlier one pays its odd cent, at the border or not.
#[test]
fn loads_in_a_zone_without_requirement() {
    for service in [1, 2] {
        let unit = [1, 1, 1, service, 12_000, 0];
        let accounts = [1, 7, 1, 2, 7, 2, 3, 7, 0];
        let loads = [1, 1, 10, 2, 1, 10];
        let tables = two_zones(&[unit], &accounts, &loads, &[2, 120, 0, 3, 240, 0]);
        assert_eq!(charged(APRIL, &tables, service), Ok(vec![429, 286, 285]));

        let border_first = [1, 7, 0, 2, 7, 1, 3, 7, 2];
        let loads = [2, 1, 10, 3, 1, 10];
        let tables = two_zones(&[unit], &border_first, &loads, &[1, 240, 0, 3, 120, 0]);
        assert_eq!(charged(APRIL, &tables, service), Ok(vec![286, 429, 285]));
    }
    assert_eq!(divided(1_000, &[360, 480]), Ok(vec![429, 571]));
}

/// The only zone with a requirement is idle: a load elsewhere pays its whole pot, a reservation
/// elsewhere leaves a zone side that no one pays.
#[test]
fn an_idle_zone_with_the_only_requirement() {
    for (service, share) in [(1, 4), (2, 9)] {
        let unit = [1, 1, 1, service, 12_000, 0];
        let accounts = [1, 7, 1, 2, 7, 2];
        let loaded = two_zones(&[unit], &accounts, &[2, 1, 10], &[]);
        assert_eq!(charged(APRIL, &loaded, service), Ok(vec![0, 1_000]));
        let reserved = two_zones(&[unit], &accounts, &[], &[2, 10, 0]);
        assert_eq!(
            charged(APRIL, &reserved, service),
            Err((BASE, 9, share)),
            "the first zone's share"
        );
    }
}

/// Of 1 cent a year nothing falls to April, and the cent to December: only then has zone 2 a
/// requirement.
#[test]
fn a_requirement_in_one_month_and_not_in_another() {
    for service in [1, 2] {
        let units = [[1, 1, 1, service, 12_000, 0], [2, 1, 2, service, 1, 0]];
        let accounts = [1, 7, 1, 2, 7, 2];
        let tables = two_zones(&units, &accounts, &[1, 1, 10, 2, 1, 10], &[]);
        assert_eq!(charged(APRIL, &tables, service), Ok(vec![500, 500]));
        assert_eq!(charged(DECEMBER, &tables, service), Ok(vec![1_000, 1]));
    }
    // A reserve credit alone is a requirement too.
    let units = [[1, 1, 1, 1, 12_000, 0], [2, 1, 2, 1, 0, 1]];
    let accounts = [1, 7, 1, 2, 7, 2];
    let tables = two_zones(&units, &accounts, &[1, 1, 10, 2, 1, 10], &[]);
    assert_eq!(charged(APRIL, &tables, 1), Ok(vec![1_000, 1]));
}

/// Nearly all use is the load of a zone without units, and pots of two zones go to it.
#[test]
fn a_non_zone_pot_too_big_for_its_division() {
    for (service, non_zone) in [(1, 10), (2, 17)] {
        let annual = 1_000_000_000_000;
        let mut tables = tables_of(&[
            &[1, 0, 2, 0, 3, 0],
            &[1, 1, 5],
            &[1, 1, 1, service, annual, 0, 2, 1, 2, service, annual, 0],
            &[1, 7, 1, 2, 7, 2, 3, 7, 3],
            &[1, 1, 1, 2, 1, 1, 3, 1, 1_000_000],
        ]);
        assert_eq!(charged(APRIL, &tables, service), Err((BIG, 9, non_zone)));
        // Reserved, the same use stays in the zone.
        tables[LOADS].truncate(6);
        tables[RESERVATIONS] = vec![3, 24_000_000, 0];
        let pot = 83_333_333_333;
        assert_eq!(charged(APRIL, &tables, service), Ok(vec![pot, pot, 0]));
    }
}

/// Both zones have a black start requirement, and zone 1 alone has a reactive one.
#[test]
fn each_service_by_its_own_requirements() {
    let units = [
        [1, 1, 1, 1, 12_000, 0],
        [2, 1, 2, 1, 6_000, 0],
        [3, 1, 1, 2, 12_000, 0],
    ];
    let accounts = [1, 7, 1, 2, 7, 2, 3, 7, 0];
    let loads = [1, 1, 10, 2, 1, 10];
    let tables = two_zones(&units, &accounts, &loads, &[2, 120, 0, 3, 240, 0]);
    // By 600 and 240: 714 and 286, 357 and 143.
    assert_eq!(charged(APRIL, &tables, 1), Ok(vec![714, 357, 429]));
    assert_eq!(charged(APRIL, &tables, 2), Ok(vec![429, 286, 285]));
}

#[test]
fn april_and_february() {
    let with = |head: &str, day: u64| {
        let text = format!(
            "{head}nonzone=0\ndaily=0\nweekly=0\nmonthly=0\nweekday=1\n\
             zone=1,0\naccount=1,1,1\nload=1,1,1\nload=1,{day},1\nend=4\n"
        );
        String::from_utf8(statement(text.as_bytes())).expect("plain text")
    };
    let accepted = "charge=1,0,0,0,0\ntotal=0,0\n";
    assert_eq!(with("month=4\ndays=30\n", 31), "refuse=4,5,1\n");
    assert_eq!(with("month=4\ndays=30\n", 30), accepted);
    assert_eq!(with("month=4\ndays=31\n", 31), "refuse=3,0,0\n");
    assert_eq!(with("month=2\ndays=28\n", 28), accepted);
    assert_eq!(with("month=2\ndays=28\n", 29), "refuse=4,5,1\n");
    assert_eq!(with("month=2\ndays=29\n", 29), accepted);
    assert_eq!(with("month=2\ndays=30\n", 29), "refuse=3,0,0\n");
    assert_eq!(with("month=2\ndays=27\n", 2), "refuse=3,0,0\n");
}
