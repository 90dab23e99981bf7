//! "Dividing a pot."

use crate::refusal::{BASE, BIG, COUNT, ROOM};
use std::cmp::Reverse;

pub const MOST_WEIGHTS: usize = 64;
pub const LARGEST_POT: u128 = 100_000_000_000;
pub const LARGEST_WEIGHT_SUM: u128 = 10_000_000_000_000;

/// The division alone: COUNT, ROOM, BIG, BASE.
pub fn divide_alone(pot: u64, weights: &[u64], amounts_len: usize) -> Result<Vec<u128>, u64> {
    if weights.len() > MOST_WEIGHTS {
        return Err(COUNT);
    }
    if amounts_len < weights.len() {
        return Err(ROOM);
    }
    divide(u128::from(pot), &wide(weights))
}

/// Shares of the pot by weight, or BIG, then BASE.
pub fn divide(pot: u128, weights: &[u128]) -> Result<Vec<u128>, u64> {
    let total = judged_total(pot, weights)?;
    if total == 0 {
        return Ok(vec![0; weights.len()]);
    }
    // "Share i is the whole part of P times weight i over W."
    let mut shares: Vec<u128> = weights.iter().map(|weight| pot * weight / total).collect();
    let remainders: Vec<u128> = weights.iter().map(|weight| pot * weight % total).collect();
    // "The cents left over go one each to the largest remainders, lower position first among
    // equals": this sort keeps equals in their order.
    let left_over = pot - shares.iter().sum::<u128>();
    let mut positions: Vec<usize> = (0..weights.len()).collect();
    positions.sort_by_key(|&position| Reverse(remainders[position]));
    for &position in &positions[..left_over as usize] {
        shares[position] += 1;
    }
    Ok(shares)
}

/// The check: COUNT, BIG, BASE, else whether the amounts are a closest division.
pub fn check(pot: u64, weights: &[u64], amounts: &[u64]) -> Result<bool, u64> {
    if weights.len() > MOST_WEIGHTS || weights.len() != amounts.len() {
        return Err(COUNT);
    }
    let (pot, weights, amounts) = (u128::from(pot), wide(weights), wide(amounts));
    let total = judged_total(pot, &weights)?;
    if total == 0 {
        return Ok(amounts.iter().all(|&amount| amount == 0));
    }
    if amounts.iter().sum::<u128>() != pot {
        return Ok(false);
    }
    // A closest division is less than one cent off everywhere; what isn't needs no squares, which
    // would be too wide.
    let distances = |amounts: &[u128]| -> Vec<u128> {
        let pairs = weights.iter().zip(amounts);
        pairs
            .map(|(weight, amount)| (total * amount).abs_diff(pot * weight))
            .collect()
    };
    let own = distances(&amounts);
    if own.iter().any(|&distance| distance >= total) {
        return Ok(false);
    }
    let closest = distances(&divide(pot, &weights)?);
    Ok(sum_of_squares(&own) == sum_of_squares(&closest))
}

fn judged_total(pot: u128, weights: &[u128]) -> Result<u128, u64> {
    let total = weights.iter().sum();
    if pot > LARGEST_POT || total > LARGEST_WEIGHT_SUM {
        return Err(BIG);
    }
    if pot > 0 && total == 0 {
        return Err(BASE);
    }
    Ok(total)
}

fn sum_of_squares(distances: &[u128]) -> u128 {
    distances.iter().map(|distance| distance * distance).sum()
}

fn wide(numbers: &[u64]) -> Vec<u128> {
    numbers.iter().map(|&number| u128::from(number)).collect()
}
