//! Divisions whose number of leftover cents is known beforehand.

use crate::numbers::Numbers;
use crate::plain;
use noketualo::{LARGEST_POT, LARGEST_WEIGHT_SUM};

/// Enough different ones that no branch is learnt by heart, few enough to stay in the cache.
const DIVISIONS: usize = 64;

#[derive(Clone, Copy, Debug)]
pub enum Pots {
    /// 100 to 10,000 cents.
    Small,
    /// Near 10^11 cents, by weights that add up to nearly 10^13.
    Large,
}

#[derive(Clone, Copy, Debug)]
pub enum Leftover {
    /// One cent, or none where there is a single weight.
    Few,
    /// One cent less than there are weights.
    Many,
}

pub struct Division {
    pub pot: u64,
    pub weights: Vec<u64>,
    pub amounts: Vec<u64>,
}

pub fn divisions(
    numbers: &mut Numbers,
    count: usize,
    pots: Pots,
    leftover: Leftover,
) -> Vec<Division> {
    (0..DIVISIONS)
        .map(|_| division(numbers, count as u64, pots, leftover))
        .collect()
}

/// The pot is a multiple of the total and some cents beyond: these are what is left over, as long
/// as no single weight's share of them makes a whole cent.
fn division(numbers: &mut Numbers, count: u64, pots: Pots, leftover: Leftover) -> Division {
    let beyond = match leftover {
        Leftover::Few => 1.min(count - 1),
        Leftover::Many => count - 1,
    };
    // The more cents lie beyond, the closer the weights, so that no weight has a whole one of them.
    let most = (200 + numbers.below(9_700)) / count;
    let spread = match leftover {
        Leftover::Few => most / 4 + 1,
        Leftover::Many => most / count + 1,
    };
    let mut weights: Vec<u64> = (0..count).map(|_| most - numbers.below(spread)).collect();
    let total: u64 = weights.iter().sum();

    let pot = match pots {
        Pots::Small => total + beyond,
        Pots::Large => {
            let times = (LARGEST_POT - beyond) / total;
            total * (times - numbers.below(times / 100)) + beyond
        }
    };
    if let Pots::Large = pots {
        let factor = LARGEST_WEIGHT_SUM / total;
        weights.iter_mut().for_each(|weight| *weight *= factor);
    }

    let mut amounts = vec![0; weights.len()];
    let divided = plain::divide(pot, &weights, &mut amounts);
    assert_eq!(divided, Ok(()), "{pot} by {weights:?}");
    assert_eq!(
        cents_left_over(pot, &weights),
        beyond,
        "{pot} by {weights:?}"
    );
    Division {
        pot,
        weights,
        amounts,
    }
}

fn cents_left_over(pot: u64, weights: &[u64]) -> u64 {
    let total: u64 = weights.iter().sum();
    let whole: u128 = weights
        .iter()
        .map(|&weight| u128::from(pot) * u128::from(weight) / u128::from(total))
        .sum();
    pot - whole as u64
}
