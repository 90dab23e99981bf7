//! Made-up amounts for the check: divisions, and lists that miss one by a little or in a nasty way.

use crate::inputs::{each, parts, wrap_to};
use crate::numbers::Numbers;
use crate::plain;

pub fn made_up_amounts(numbers: &mut Numbers, pot: u64, weights: &[u64]) -> Vec<u64> {
    let count = weights.len();
    let mut amounts = vec![0; count];
    if plain::divide(pot, weights, &mut amounts).is_err() {
        return each(count, || numbers.up_to(1_000));
    }
    if count == 0 {
        return amounts;
    }
    let one = numbers.position_below(count);
    let other = numbers.position_below(count);
    match numbers.below(20) {
        0 | 1 => {}
        2..=6 => trade_ties(numbers, pot, weights, &mut amounts),
        7 => {
            trade_ties(numbers, pot, weights, &mut amounts);
            move_cents(&mut amounts, one, other, 1);
        }
        8 | 9 => move_cents(&mut amounts, one, other, 1),
        10..=12 => {
            trade_ties(numbers, pot, weights, &mut amounts);
            move_narrowly(pot, weights, &mut amounts);
        }
        13 => {
            let cents = numbers.up_to(amounts[one]);
            move_cents(&mut amounts, one, other, cents);
        }
        14 => amounts[one] += 1,
        15 => amounts[one] = amounts[one].saturating_sub(1),
        16 => amounts = parts(numbers, count, pot),
        17 => move_out_of_sight(weights, &mut amounts, other),
        18 => {
            // In 64 bits these add up to the pot.
            amounts[one] = match numbers.once_in(2) {
                true => numbers.any(),
                false => u64::MAX - numbers.up_to(3),
            };
            wrap_to(&mut amounts, pot);
        }
        _ => match numbers.below(3) {
            0 => amounts[one] = u64::MAX - numbers.up_to(pot),
            1 => amounts = vec![u64::MAX; count],
            _ => amounts = each(count, || numbers.up_to(pot)),
        },
    }
    amounts
}

/// Hands leftover cents to other positions with the same remainder.
fn trade_ties(numbers: &mut Numbers, pot: u64, weights: &[u64], amounts: &mut [u64]) {
    let mut differences = differences(pot, weights, amounts);
    let total: i128 = weights.iter().map(|&weight| i128::from(weight)).sum();
    for _ in 0..2 * weights.len() {
        let giver = numbers.position_below(weights.len());
        let taker = numbers.position_below(weights.len());
        if differences[giver] > 0 && differences[giver] - differences[taker] == total {
            move_cents(amounts, giver, taker, 1);
            differences.swap(giver, taker);
        }
    }
}

/// Moves the cent that is missed least: a tie where there is one, else the narrowest fault.
fn move_narrowly(pot: u64, weights: &[u64], amounts: &mut [u64]) {
    let differences = differences(pot, weights, amounts);
    let giver = (0..amounts.len()).max_by_key(|&position| differences[position]);
    let taker = (0..amounts.len()).min_by_key(|&position| differences[position]);
    if let (Some(giver), Some(taker)) = (giver, taker) {
        move_cents(amounts, giver, taker, 1);
    }
}

/// Moves so many cents that, times a total with many twos in it, 64 bits show no move at all.
fn move_out_of_sight(weights: &[u64], amounts: &mut [u64], taker: usize) {
    let total: u64 = weights.iter().sum();
    let giver = (0..amounts.len()).max_by_key(|&position| amounts[position]);
    if let Some(giver) = giver {
        let power = (64 - total.trailing_zeros()).min(36);
        move_cents(amounts, giver, taker, 1 << power);
    }
}

fn move_cents(amounts: &mut [u64], giver: usize, taker: usize, cents: u64) {
    if amounts[giver] >= cents {
        amounts[giver] -= cents;
        amounts[taker] += cents;
    }
}

/// How far each amount lies above its exact share, times the sum of the weights.
fn differences(pot: u64, weights: &[u64], amounts: &[u64]) -> Vec<i128> {
    let total: i128 = weights.iter().map(|&weight| i128::from(weight)).sum();
    weights
        .iter()
        .zip(amounts)
        .map(|(&weight, &amount)| total * i128::from(amount) - i128::from(pot) * i128::from(weight))
        .collect()
}
