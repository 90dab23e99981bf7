//! Made-up pots and weights: ties in masses, zeros, the limits and one past, sums beyond 2^64.

use crate::numbers::Numbers;

const LARGEST_POT: u64 = 100_000_000_000;
const LARGEST_WEIGHT_SUM: u64 = 10_000_000_000_000;

pub fn pot_and_weights(numbers: &mut Numbers) -> (u64, Vec<u64>) {
    let count = count(numbers);
    let weights = weights(numbers, count);
    (pot(numbers, &weights), weights)
}

fn count(numbers: &mut Numbers) -> usize {
    match numbers.below(24) {
        0..=8 => numbers.position_below(9),
        9..=18 => numbers.position_below(65),
        19 | 20 => 64,
        21 => 63,
        22 => 1,
        _ => numbers.one_of(&[64, 65, 66, 72, 128]),
    }
}

fn weights(numbers: &mut Numbers, count: usize) -> Vec<u64> {
    let most_each = LARGEST_WEIGHT_SUM / count.max(1) as u64;
    match numbers.below(20) {
        0 => each(count, || numbers.up_to(3)),
        1 => each(count, || numbers.up_to(1)),
        2 => {
            let weight = numbers.one_of(&[1, 7, 1_000, most_each]);
            vec![weight; count]
        }
        3 | 4 => {
            let few = each(3, || numbers.up_to(most_each));
            each(count, || numbers.one_of(&few))
        }
        5 | 6 => each(count, || numbers.up_to(most_each)),
        7 | 8 => each(count, || numbers.up_to(10_000)),
        9 => each(count, || match numbers.once_in(8) {
            true => numbers.up_to(most_each),
            false => 0,
        }),
        10 => {
            let total = numbers.one_of(&[
                LARGEST_WEIGHT_SUM - 1,
                LARGEST_WEIGHT_SUM,
                LARGEST_WEIGHT_SUM,
                LARGEST_WEIGHT_SUM + 1,
            ]);
            parts(numbers, count, total)
        }
        11 | 12 => {
            // Remainders one apart, for the smallest margin that a division can miss by.
            let least = numbers.up_to(most_each - 1);
            each(count, || least + numbers.up_to(1))
        }
        13 => vec![0; count],
        14 => {
            let mut weights = each(count, || numbers.up_to(2));
            if count > 0 {
                let position = numbers.position_below(count);
                weights[position] = LARGEST_WEIGHT_SUM - 2 * count as u64;
            }
            weights
        }
        15 => each(count, || near_power_of_two(numbers, 37)),
        16 => {
            let factor = 1 + numbers.below(most_each / 4);
            each(count, || factor * numbers.up_to(4))
        }
        17 | 18 => {
            let total = 1 << (20 + numbers.below(24));
            parts(numbers, count, total)
        }
        _ => past_two_to_the_64(numbers, count),
    }
}

fn pot(numbers: &mut Numbers, weights: &[u64]) -> u64 {
    let total = weights
        .iter()
        .fold(0_u64, |total, &weight| total.saturating_add(weight));
    match numbers.below(17) {
        0..=2 => numbers.up_to(weights.len() as u64 + 2),
        3 | 4 => numbers.up_to(10_000),
        5..=7 => numbers.up_to(LARGEST_POT),
        8 => LARGEST_POT - numbers.below(1_000),
        9 => numbers.one_of(&[LARGEST_POT - 1, LARGEST_POT, LARGEST_POT + 1]),
        10 => 0,
        11..=13 if (1..=LARGEST_POT).contains(&total) => {
            // A whole multiple leaves nothing over; a few cents beside it leave few, or nearly all.
            let multiple = total * numbers.up_to(LARGEST_POT / total);
            let beside = numbers.below(3);
            match numbers.once_in(2) {
                true => multiple.saturating_add(beside),
                false => multiple.saturating_sub(beside),
            }
        }
        11..=14 => near_power_of_two(numbers, 36),
        15 => 1 + numbers.below(3),
        _ => match numbers.below(3) {
            0 => LARGEST_POT + 1 + numbers.up_to(LARGEST_POT),
            1 => numbers.any(),
            _ => numbers.one_of(&[u64::MAX, 1 << 63, LARGEST_POT + (1 << 32)]),
        },
    }
}

/// Parts that add up to the total, cut at random.
pub fn parts(numbers: &mut Numbers, count: usize, total: u64) -> Vec<u64> {
    if count == 0 {
        return Vec::new();
    }
    let mut cuts = each(count - 1, || numbers.up_to(total));
    cuts.push(total);
    cuts.sort_unstable();
    let mut last = 0;
    cuts.iter()
        .map(|&cut| cut - std::mem::replace(&mut last, cut))
        .collect()
}

/// Numbers whose sum passes 2^64, often so that what is left of it in 64 bits looks harmless.
fn past_two_to_the_64(numbers: &mut Numbers, count: usize) -> Vec<u64> {
    let mut list = each(count, || match numbers.below(3) {
        0 => numbers.any(),
        1 => numbers.one_of(&[u64::MAX, 1 << 63, (1 << 63) - 1]),
        _ => numbers.up_to(1_000),
    });
    if numbers.once_in(2) {
        let harmless = numbers.one_of(&[0, 1, 100, LARGEST_WEIGHT_SUM]);
        wrap_to(&mut list, harmless);
    }
    list
}

/// Sets the last number so that the 64 bits of the sum are those given.
pub fn wrap_to(list: &mut [u64], sum: u64) {
    if let Some((last, others)) = list.split_last_mut() {
        *last = others
            .iter()
            .fold(sum, |rest, &number| rest.wrapping_sub(number));
    }
}

fn near_power_of_two(numbers: &mut Numbers, largest_power: u64) -> u64 {
    let power = 1 << numbers.up_to(largest_power);
    power - 1 + numbers.below(3)
}

pub fn each(count: usize, mut number: impl FnMut() -> u64) -> Vec<u64> {
    (0..count).map(|_| number()).collect()
}
