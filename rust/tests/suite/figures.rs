//! The papers' figures, D1 to D8 and C1 to C3, and the limits around them.

use noketualo::{
    check, divide, divide_into, Refusal, LARGEST_POT, LARGEST_WEIGHT_SUM, MOST_WEIGHTS,
};

#[test]
fn d1_three_equal_weights() {
    assert_eq!(divide(100, &[1, 1, 1]), Ok(vec![34, 33, 33]));
}

#[test]
fn d2_one_two_four() {
    assert_eq!(divide(100, &[1, 2, 4]), Ok(vec![14, 29, 57]));
}

#[test]
fn d3_two_cents_among_four() {
    assert_eq!(divide(2, &[1, 1, 1, 1]), Ok(vec![1, 1, 0, 0]));
}

#[test]
fn d4_a_zero_weight_gets_nothing() {
    assert_eq!(divide(5, &[0, 7]), Ok(vec![0, 5]));
}

#[test]
fn d5_a_cent_by_zeros() {
    assert_eq!(divide(1, &[0, 0]), Err(Refusal::Base));
}

#[test]
fn d6_nothing_by_zeros() {
    assert_eq!(divide(0, &[0, 0]), Ok(vec![0, 0]));
}

#[test]
fn d7_by_nothing() {
    assert_eq!(divide(0, &[]), Ok(vec![]));
    assert_eq!(divide(1, &[]), Err(Refusal::Base));
}

#[test]
fn d8_the_limits_and_one_past_them() {
    assert_eq!(divide(100_000_000_000, &[1]), Ok(vec![100_000_000_000]));
    assert_eq!(divide(100_000_000_001, &[1]), Err(Refusal::Big));
    assert_eq!(divide(1, &[10_000_000_000_000]), Ok(vec![1]));
    assert_eq!(divide(1, &[10_000_000_000_001]), Err(Refusal::Big));
    assert_eq!(divide(1, &[9_999_999_999_999, 1]), Ok(vec![1, 0]));
    assert_eq!(divide(1, &[9_999_999_999_999, 2]), Err(Refusal::Big));
    assert_eq!(
        divide(100_000_000_000, &[5_000_000_000_001, 4_999_999_999_999]),
        Ok(vec![50_000_000_000, 50_000_000_000])
    );
    assert_eq!(
        (LARGEST_POT, LARGEST_WEIGHT_SUM),
        (100_000_000_000, 10_000_000_000_000)
    );
}

#[test]
fn c1_any_closest_division_passes() {
    assert_eq!(check(2, &[1, 1, 1, 1], &[0, 1, 0, 1]), Ok(true));
    assert_eq!(check(2, &[1, 1, 1, 1], &[2, 0, 0, 0]), Ok(false));
}

#[test]
fn c2_a_cent_at_the_wrong_place() {
    assert_eq!(check(100, &[1, 2, 4], &[15, 28, 57]), Ok(false));
    assert_eq!(check(100, &[1, 2, 4], &[14, 29, 57]), Ok(true));
}

#[test]
fn c3_a_cent_for_a_zero_weight() {
    assert_eq!(check(5, &[0, 7], &[1, 4]), Ok(false));
    assert_eq!(check(5, &[0, 7], &[0, 5]), Ok(true));
}

#[test]
fn sixty_four_weights_and_one_more() {
    assert_eq!(divide(64, &[1; MOST_WEIGHTS]), Ok(vec![1; 64]));
    assert_eq!(divide(64, &[1; MOST_WEIGHTS + 1]), Err(Refusal::Count));
    assert_eq!(check(64, &[1; 64], &[1; 64]), Ok(true));
    assert_eq!(check(65, &[1; 65], &[1; 65]), Err(Refusal::Count));
}

#[test]
fn refusals_come_in_their_order() {
    let mut room = [7; 64];
    let too_much = 100_000_000_001;
    assert_eq!(
        divide_into(too_much, &[0; 65], &mut room[..3]),
        Err(Refusal::Count)
    );
    assert_eq!(
        divide_into(too_much, &[0; 4], &mut room[..3]),
        Err(Refusal::Room)
    );
    assert_eq!(
        divide_into(too_much, &[0; 3], &mut room[..3]),
        Err(Refusal::Big)
    );
    assert_eq!(divide_into(1, &[0; 3], &mut room[..3]), Err(Refusal::Base));
    assert_eq!(room, [7; 64]);
    assert_eq!(check(too_much, &[0; 2], &[0; 3]), Err(Refusal::Count));
    assert_eq!(check(too_much, &[0; 3], &[0; 3]), Err(Refusal::Big));
    assert_eq!(check(1, &[0; 3], &[0; 3]), Err(Refusal::Base));
}

#[test]
fn sums_do_not_wrap() {
    let half = 1 << 63;
    assert_eq!(divide(1, &[half, half]), Err(Refusal::Big));
    assert_eq!(divide(1, &[u64::MAX, 2]), Err(Refusal::Big));
    assert_eq!(check(0, &[half, half], &[0, 0]), Err(Refusal::Big));
    assert_eq!(check(2, &[1, 1], &[half + 1, half + 1]), Ok(false));
    assert_eq!(check(1, &[1, 1], &[u64::MAX, 2]), Ok(false));
    assert_eq!(check(0, &[0, 0], &[half, half]), Ok(false));
    assert_eq!(check(0, &[0; 64], &[u64::MAX; 64]), Ok(false));
    assert_eq!(
        check(LARGEST_POT, &[LARGEST_WEIGHT_SUM], &[u64::MAX]),
        Ok(false)
    );
}
