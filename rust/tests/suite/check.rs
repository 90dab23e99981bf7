//! The archive's check against the plain one on made-up divisions, good ones and ones a cent off.

use crate::amounts::made_up_amounts;
use crate::inputs::pot_and_weights;
use crate::lent::Lent;
use crate::numbers::Numbers;
use crate::plain;
use noketualo::raw;
use std::hint::black_box;

const INPUTS: usize = 600_000;

#[test]
fn checks_as_the_plain_check_does() {
    let mut numbers = Numbers::from_seed(3);
    let mut yes = 0;
    let mut no = 0;
    let mut refused = [0_usize; 11];
    for _ in 0..INPUTS {
        let (pot, list) = pot_and_weights(&mut numbers);
        let amounts = made_up_amounts(&mut numbers, pot, &list);
        let weights = lend(&mut numbers, &list);
        let amounts = lend(&mut numbers, &amounts);
        match compare(pot, &weights, &amounts) {
            256 => yes += 1,
            0 => no += 1,
            number => refused[number as usize] += 1,
        }
    }
    // A check that always says the same would pass on inputs that all deserve it.
    assert!(yes > INPUTS / 5 && no > INPUTS / 5, "{yes} yes, {no} no");
    for number in [plain::COUNT, plain::BIG, plain::BASE] {
        assert!(refused[number as usize] > INPUTS / 100, "{refused:?}");
    }
}

/// Every length of the weights, and amounts about as long: here the order of refusals shows.
#[test]
fn refuses_in_turn_for_every_length() {
    let mut numbers = Numbers::from_seed(4);
    for length in 0_usize..=67 * 8 {
        for other in (length.saturating_sub(18)..=length + 18).chain([0, 1, 8, 520, 528]) {
            for pot in [0, 64, 100_000_000_001] {
                let weight = numbers.one_of(&[0, 1, 200_000_000_000]);
                let weights = Lent::list(&mut numbers, &[weight; 67], length);
                let amounts = Lent::list(&mut numbers, &[pot / 64; 70], other);
                compare(pot, &weights, &amounts);
            }
        }
    }
}

/// Compares one call, and returns the answer that both gave.
fn compare(pot: u64, weights: &Lent, amounts: &Lent) -> u64 {
    let expected = check_whole_numbers(pot, weights, amounts);
    let expected_answer = match expected {
        Ok(true) => 256,
        Ok(false) => 0,
        Err(number) => number,
    };

    let lent_weights = black_box(weights.clone());
    let lent_amounts = black_box(amounts.clone());
    // SAFETY: both parts are slices of runs that are owned here.
    let answer = unsafe {
        raw::noketualo_check(
            pot,
            lent_weights.part().as_ptr(),
            lent_weights.part().len(),
            lent_amounts.part().as_ptr(),
            lent_amounts.part().len(),
        )
    };
    let untouched = black_box(&lent_weights) == weights && black_box(&lent_amounts) == amounts;

    let crate_answer = noketualo::check_bytes(pot, weights.part(), amounts.part());
    let number_answer = weights
        .whole_numbers()
        .zip(amounts.whole_numbers())
        .map(|(weights, amounts)| noketualo::check(pot, &weights, &amounts));
    let crate_same = crate_answer.map_err(|refusal| u64::from(refusal.number())) == expected
        && number_answer.is_none_or(|answer| answer == crate_answer);

    assert!(
        answer == expected_answer && untouched && crate_same,
        "the check differs\npot: {pot}\nweights: {}\namounts: {}\nexpected answer: {}\n\
         archive's answer: {answer}\ncrate's answers: {crate_answer:?}, {number_answer:?}\n\
         weights after: {}\namounts after: {}",
        weights.described(),
        amounts.described(),
        expected_answer,
        lent_weights.differences(weights),
        lent_amounts.differences(amounts),
    );
    answer
}

fn check_whole_numbers(pot: u64, weights: &Lent, amounts: &Lent) -> Result<bool, u64> {
    let weights = weights.whole_numbers().ok_or(plain::COUNT)?;
    let amounts = amounts.whole_numbers().ok_or(plain::COUNT)?;
    plain::check(pot, &weights, &amounts)
}

fn lend(numbers: &mut Numbers, list: &[u64]) -> Lent {
    let length = list.len() * 8;
    let length = match numbers.below(48) {
        0 => length + 1 + numbers.position_below(8),
        1 => length.saturating_sub(1 + numbers.position_below(8)),
        _ => length,
    };
    Lent::list(numbers, list, length)
}
