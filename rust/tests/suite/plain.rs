//! The division and the check once more, written from the rules alone in 128-bit numbers.
//!
//! Nothing here comes from the crate or the archive. A refusal is its number.

use std::cmp::Reverse;

pub const COUNT: u64 = 1;
pub const ROOM: u64 = 2;
pub const BIG: u64 = 8;
pub const BASE: u64 = 9;

const MOST_WEIGHTS: usize = 64;
const LARGEST_POT: u64 = 100_000_000_000;
const LARGEST_WEIGHT_SUM: u128 = 10_000_000_000_000;

pub fn divide(pot: u64, weights: &[u64], amounts: &mut [u64]) -> Result<(), u64> {
    let count = weights.len();
    if count > MOST_WEIGHTS {
        return Err(COUNT);
    }
    if amounts.len() < count {
        return Err(ROOM);
    }
    let total = judged_total(pot, weights)?;
    if total == 0 {
        amounts[..count].fill(0);
        return Ok(());
    }

    let mut remainders = [0; MOST_WEIGHTS];
    let mut leftover = pot;
    for position in 0..count {
        let product = u128::from(pot) * u128::from(weights[position]);
        amounts[position] = (product / total) as u64;
        remainders[position] = product % total;
        leftover -= amounts[position];
    }

    // The sort is stable, so equal remainders stay in the order of their positions.
    let mut positions: [usize; MOST_WEIGHTS] = std::array::from_fn(|position| position);
    positions[..count].sort_by_key(|&position| Reverse(remainders[position]));
    for &position in &positions[..leftover as usize] {
        amounts[position] += 1;
    }
    Ok(())
}

pub fn check(pot: u64, weights: &[u64], amounts: &[u64]) -> Result<bool, u64> {
    if weights.len() > MOST_WEIGHTS || amounts.len() != weights.len() {
        return Err(COUNT);
    }
    let total = judged_total(pot, weights)?;
    if sum(amounts) != u128::from(pot) {
        return Ok(false);
    }

    // Moving a cent from one amount to another comes closer exactly where their differences lie
    // more than the total apart. A total of zero leaves no differences, and a pot of zero.
    let mut lowest = i128::MAX;
    let mut highest = i128::MIN;
    for (&weight, &amount) in weights.iter().zip(amounts) {
        let difference = total as i128 * i128::from(amount) - i128::from(pot) * i128::from(weight);
        lowest = lowest.min(difference);
        highest = highest.max(difference);
    }
    Ok(weights.is_empty() || highest - lowest <= total as i128)
}

fn judged_total(pot: u64, weights: &[u64]) -> Result<u128, u64> {
    let total = sum(weights);
    if pot > LARGEST_POT || total > LARGEST_WEIGHT_SUM {
        return Err(BIG);
    }
    if pot > 0 && total == 0 {
        return Err(BASE);
    }
    Ok(total)
}

fn sum(numbers: &[u64]) -> u128 {
    numbers.iter().map(|&number| u128::from(number)).sum()
}
