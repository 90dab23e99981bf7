//! The plain division and check against the definition itself: all lists with the pot's sum, and
//! the sums of their squares.

use crate::inputs::each;
use crate::numbers::Numbers;
use crate::plain;

/// Every pot up to 6, all one to four weights up to 3, all amounts up to one past the pot.
#[test]
fn plain_versions_keep_the_definition_on_all_tiny_inputs() {
    for count in 1..=4 {
        for weights in all_lists(count, 3) {
            for pot in 0..=6 {
                compare(pot, &weights);
            }
        }
    }
}

#[test]
fn plain_versions_keep_the_definition_on_made_up_small_inputs() {
    let mut numbers = Numbers::from_seed(5);
    for _ in 0..3_000 {
        let count = 1 + numbers.position_below(5);
        let most = numbers.one_of(&[2, 5, 20, 1_000]);
        let weights = each(count, || numbers.up_to(most));
        let pot = numbers.up_to(if count == 5 { 5 } else { 8 });
        compare(pot, &weights);
    }
}

fn compare(pot: u64, weights: &[u64]) {
    let mut shares = vec![0; weights.len()];
    let total: u64 = weights.iter().sum();
    if total == 0 {
        let expected = if pot > 0 { Err(plain::BASE) } else { Ok(()) };
        assert_eq!(
            plain::divide(pot, weights, &mut shares),
            expected,
            "{pot} by {weights:?}"
        );
        assert!(shares.iter().all(|&share| share == 0));
        for amounts in all_lists(weights.len(), 1) {
            let expected = expected.map(|()| amounts.iter().all(|&amount| amount == 0));
            assert_eq!(
                plain::check(pot, weights, &amounts),
                expected,
                "{pot} by {weights:?} with {amounts:?}"
            );
        }
        return;
    }

    let lists = lists_with_sum(weights.len(), pot);
    let least = lists
        .iter()
        .map(|list| squares(pot, weights, list))
        .min()
        .expect("one list at least");
    let is_closest = |list: &[u64]| squares(pot, weights, list) == least;

    // Cents at lower positions come first among equals, so the division is the closest list that is
    // largest when lists are compared from the left.
    let first = lists.iter().filter(|list| is_closest(list)).max();
    assert_eq!(
        plain::divide(pot, weights, &mut shares),
        Ok(()),
        "{pot} by {weights:?}"
    );
    assert_eq!(Some(&shares), first, "{pot} by {weights:?}");

    for amounts in all_lists(weights.len(), pot + 1) {
        let expected = amounts.iter().sum::<u64>() == pot && is_closest(&amounts);
        assert_eq!(
            plain::check(pot, weights, &amounts),
            Ok(expected),
            "{pot} by {weights:?} with {amounts:?}"
        );
    }
}

fn squares(pot: u64, weights: &[u64], amounts: &[u64]) -> i128 {
    let total: i128 = weights.iter().map(|&weight| i128::from(weight)).sum();
    weights
        .iter()
        .zip(amounts)
        .map(|(&weight, &amount)| {
            (total * i128::from(amount) - i128::from(pot) * i128::from(weight)).pow(2)
        })
        .sum()
}

fn all_lists(count: usize, most: u64) -> Vec<Vec<u64>> {
    let mut lists = vec![Vec::new()];
    for _ in 0..count {
        lists = lists
            .iter()
            .flat_map(|list| (0..=most).map(move |number| [&list[..], &[number]].concat()))
            .collect();
    }
    lists
}

fn lists_with_sum(count: usize, sum: u64) -> Vec<Vec<u64>> {
    if count == 1 {
        return vec![vec![sum]];
    }
    (0..=sum)
        .flat_map(|first| {
            lists_with_sum(count - 1, sum - first)
                .into_iter()
                .map(move |rest| [&[first], &rest[..]].concat())
        })
        .collect()
}
