//! The archive's division against the plain one, byte by byte, on made-up inputs.

use crate::inputs::pot_and_weights;
use crate::lent::Lent;
use crate::numbers::Numbers;
use crate::plain;
use noketualo::{raw, Refusal};
use std::hint::black_box;

const INPUTS: usize = 400_000;

#[test]
fn divides_as_the_plain_division_does() {
    let mut numbers = Numbers::from_seed(1);
    let mut seen = [0_usize; 11];
    for _ in 0..INPUTS {
        let (pot, list) = pot_and_weights(&mut numbers);
        let length = perhaps_damaged(&mut numbers, list.len() * 8);
        let weights = Lent::list(&mut numbers, &list, length);
        let length = output_length(&mut numbers, list.len());
        let amounts = Lent::noise(&mut numbers, length);
        let number = compare(pot, &weights, &amounts);
        compare_lists(pot, &list, amounts.part.len() / 8);
        seen[number as usize] += 1;
    }
    // Inputs that are all refused alike would compare nothing.
    assert!(seen[0] > INPUTS / 2, "{seen:?}");
    for number in [plain::COUNT, plain::ROOM, plain::BIG, plain::BASE] {
        assert!(seen[number as usize] > INPUTS / 100, "{seen:?}");
    }
}

/// Every length of the weights, and all outputs about as long: here the order of refusals shows.
#[test]
fn refuses_in_turn_for_every_length() {
    let mut numbers = Numbers::from_seed(2);
    for length in 0_usize..=67 * 8 {
        for room in (length.saturating_sub(18)..=length + 18).chain([0, 1, 8, 520, 528]) {
            for pot in [0, 100, 100_000_000_001] {
                let weight = numbers.one_of(&[0, 1, 200_000_000_000]);
                let weights = Lent::list(&mut numbers, &[weight; 67], length);
                let amounts = Lent::noise(&mut numbers, room);
                compare(pot, &weights, &amounts);
            }
        }
    }
}

/// Compares one call, and returns the refusal's number that both gave, 0 where accepted.
fn compare(pot: u64, weights: &Lent, amounts: &Lent) -> u64 {
    let mut expected = amounts.clone();
    let expected_answer = divide_whole_numbers(pot, weights, &mut expected)
        .err()
        .unwrap_or(0);

    let lent_weights = black_box(weights.clone());
    let mut lent_amounts = amounts.clone();
    let part = lent_amounts.part_mut();
    // SAFETY: both parts are slices of runs that are owned here, and they are different runs.
    let answer = unsafe {
        raw::noketualo_divide(
            pot,
            lent_weights.part().as_ptr(),
            lent_weights.part().len(),
            part.as_mut_ptr(),
            part.len(),
        )
    };
    let same = answer == expected_answer
        && lent_amounts == expected
        && black_box(&lent_weights) == weights;

    let mut crate_amounts = amounts.clone();
    let crate_answer = noketualo::divide_bytes(pot, weights.part(), crate_amounts.part_mut());
    let crate_same = number_of(crate_answer) == expected_answer && crate_amounts == expected;

    assert!(
        same && crate_same,
        "the division differs\npot: {pot}\nweights: {}\nroom: {}\nexpected answer: {}\n\
         archive's answer: {answer}\ncrate's answer: {crate_answer:?}\n\
         archive's output: {}\ncrate's output: {}\nweights after: {}",
        weights.described(),
        amounts.part.len(),
        expected_answer,
        lent_amounts.differences(&expected),
        crate_amounts.differences(&expected),
        lent_weights.differences(weights),
    );
    answer & 0xff
}

/// The crate's forms on numbers, which have no odd lengths.
fn compare_lists(pot: u64, weights: &[u64], room: usize) {
    let mut expected = vec![u64::MAX; room];
    let expected_answer = plain::divide(pot, weights, &mut expected)
        .err()
        .unwrap_or(0);
    let mut amounts = vec![u64::MAX; room];
    let answer = noketualo::divide_into(pot, weights, &mut amounts);
    assert!(
        number_of(answer) == expected_answer && amounts == expected,
        "divide_into differs\npot: {pot}\nweights: {weights:?}\nroom: {room}\n\
         expected: {expected_answer}, {expected:?}\ncrate: {answer:?}, {amounts:?}"
    );

    let mut expected = vec![0; weights.len()];
    let expected_answer = plain::divide(pot, weights, &mut expected)
        .err()
        .unwrap_or(0);
    let answer = noketualo::divide(pot, weights);
    let same = match &answer {
        Ok(shares) => expected_answer == 0 && *shares == expected,
        Err(refusal) => u64::from(refusal.number()) == expected_answer,
    };
    assert!(
        same,
        "divide differs\npot: {pot}\nweights: {weights:?}\n\
         expected: {expected_answer}, {expected:?}\ncrate: {answer:?}"
    );
}

fn divide_whole_numbers(pot: u64, weights: &Lent, output: &mut Lent) -> Result<(), u64> {
    let weights = weights.whole_numbers().ok_or(plain::COUNT)?;
    let mut amounts = output.whole_numbers().ok_or(plain::COUNT)?;
    plain::divide(pot, &weights, &mut amounts)?;
    for (place, amount) in output.part_mut().chunks_exact_mut(8).zip(amounts) {
        place.copy_from_slice(&amount.to_le_bytes());
    }
    Ok(())
}

fn number_of(answer: Result<(), Refusal>) -> u64 {
    answer.map_or_else(|refusal| u64::from(refusal.number()), |()| 0)
}

fn perhaps_damaged(numbers: &mut Numbers, length: usize) -> usize {
    match numbers.below(24) {
        0 => length + 1 + numbers.position_below(7),
        1 => length.saturating_sub(1 + numbers.position_below(7)),
        _ => length,
    }
}

fn output_length(numbers: &mut Numbers, count: usize) -> usize {
    let length = match numbers.below(16) {
        0 => numbers.position_below(count + 1),
        1 => count.saturating_sub(1),
        2..=5 => count + 1 + numbers.position_below(9),
        6 => 65,
        _ => count,
    };
    perhaps_damaged(numbers, length * 8)
}
