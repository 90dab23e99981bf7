//! The division and the check against the definition itself, on all tiny inputs: all lists that add
//! up to the pot, and the sums of the squares of their distances.

use second::divide::{check, divide_alone};
use second::refusal::{BASE, BIG, COUNT, ROOM};

#[test]
fn closest_on_all_tiny_inputs() {
    for count in 1..=4 {
        for weights in lists(count, 3) {
            for pot in 0..=5 {
                compare(pot, &weights);
            }
        }
    }
}

fn compare(pot: u64, weights: &[u64]) {
    let total: u64 = weights.iter().sum();
    let shares = divide_alone(pot, weights, weights.len());
    if total == 0 {
        assert_eq!(shares.is_err(), pot > 0);
        return;
    }
    let distance = |amounts: &[u64]| -> i64 {
        let pairs = weights.iter().zip(amounts);
        pairs
            .map(|(weight, amount)| (total * amount) as i64 - (pot * weight) as i64)
            .map(|distance| distance * distance)
            .sum()
    };
    let all: Vec<Vec<u64>> = lists(weights.len(), pot + 1)
        .into_iter()
        .filter(|amounts| amounts.iter().sum::<u64>() == pot)
        .collect();
    let least = all.iter().map(|amounts| distance(amounts)).min();
    for amounts in &all {
        let closest = Some(distance(amounts)) == least;
        assert_eq!(
            check(pot, weights, amounts),
            Ok(closest),
            "{pot} by {weights:?}: {amounts:?}"
        );
    }
    // Of the closest, the cents lie as far to the front as they can: the last in the order of lists.
    let front = all
        .iter()
        .filter(|amounts| Some(distance(amounts)) == least)
        .max();
    let shares: Vec<u64> = shares
        .expect("a share")
        .iter()
        .map(|&share| share as u64)
        .collect();
    assert_eq!(Some(&shares), front, "{pot} by {weights:?}");
}

/// All lists of that many numbers up to `most`.
fn lists(count: usize, most: u64) -> Vec<Vec<u64>> {
    let mut lists = vec![vec![]];
    for _ in 0..count {
        let longer = lists
            .iter()
            .flat_map(|list| (0..=most).map(move |number| [&list[..], &[number]].concat()));
        lists = longer.collect();
    }
    lists
}

#[test]
fn refusals_in_turn() {
    let most = [u64::MAX; 65];
    assert_eq!(divide_alone(u64::MAX, &most, 0), Err(COUNT));
    assert_eq!(divide_alone(u64::MAX, &most[..64], 63), Err(ROOM));
    assert_eq!(divide_alone(u64::MAX, &most[..64], 64), Err(BIG));
    assert_eq!(divide_alone(0, &most[..2], 2), Err(BIG));
    assert_eq!(divide_alone(1, &[0; 64], 64), Err(BASE));
    assert_eq!(check(u64::MAX, &most, &most), Err(COUNT));
    assert_eq!(check(u64::MAX, &[1], &[]), Err(COUNT));
    assert_eq!(check(u64::MAX, &[0], &[1]), Err(BIG));
    assert_eq!(check(1, &[0], &[1]), Err(BASE));
}

#[test]
fn amounts_of_any_size_are_judged() {
    assert_eq!(check(0, &[], &[]), Ok(true));
    assert_eq!(check(0, &[0, 0], &[0, 0]), Ok(true));
    assert_eq!(check(0, &[0, 0], &[0, u64::MAX]), Ok(false));
    // In 64 bits these add up to the pot.
    assert_eq!(check(4, &[1, 1], &[5, u64::MAX]), Ok(false));
    assert_eq!(
        check(
            100_000_000_000,
            &[10_000_000_000_000, 0],
            &[0, 100_000_000_000]
        ),
        Ok(false)
    );
}
