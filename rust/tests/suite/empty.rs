//! Slices of no bytes, wherever they come from.

use noketualo::{check, check_bytes, divide, divide_bytes, divide_into, raw, Refusal};
use std::ptr::NonNull;

#[test]
fn no_weights() {
    assert_eq!(divide(0, &[]), Ok(Vec::new()));
    assert_eq!(divide_into(0, &[], &mut []), Ok(()));
    assert_eq!(divide_into(1, &[], &mut []), Err(Refusal::Base));
    assert_eq!(divide(100_000_000_001, &[]), Err(Refusal::Big));
    assert_eq!(check(0, &[], &[]), Ok(true));
    assert_eq!(check(1, &[], &[]), Err(Refusal::Base));
    assert_eq!(check(0, &[], &[0]), Err(Refusal::Count));
    assert_eq!(check(0, &[0], &[]), Err(Refusal::Count));
}

#[test]
fn no_room() {
    assert_eq!(divide_into(0, &[0], &mut []), Err(Refusal::Room));
    assert_eq!(divide_into(0, &[0; 65], &mut []), Err(Refusal::Count));
    assert_eq!(divide_bytes(0, &[0; 7], &mut []), Err(Refusal::Count));
}

#[test]
fn no_weights_leave_the_output_alone() {
    let mut amounts = [7; 3];
    assert_eq!(divide_into(0, &[], &mut amounts), Ok(()));
    assert_eq!(amounts, [7; 3]);
    assert_eq!(divide_bytes(0, &[], &mut [7; 5]), Err(Refusal::Count));
}

#[test]
fn empty_bytes_from_everywhere() {
    let array = [1_u8; 8];
    let nothing: Vec<u8> = Vec::new();
    for empty in [
        &[][..],
        &nothing[..],
        &array[..0],
        &array[8..],
        &array[3..3],
    ] {
        assert_eq!(divide_bytes(0, empty, &mut Vec::new()), Ok(()));
        assert_eq!(divide_bytes(1, empty, &mut Vec::new()), Err(Refusal::Base));
        assert_eq!(check_bytes(0, empty, empty), Ok(true));
        assert_eq!(check_bytes(0, &array, empty), Err(Refusal::Count));
        assert_eq!(check_bytes(0, empty, &array), Err(Refusal::Count));
    }
}

/// What the header promises of a length of 0: any address but null will do.
#[test]
fn no_byte_is_touched_at_an_address_with_nothing_behind_it() {
    let nowhere = NonNull::<u8>::dangling().as_ptr();
    // SAFETY: the pointers aren't null, and nothing is lent at them.
    unsafe {
        assert_eq!(raw::noketualo_divide(0, nowhere, 0, nowhere, 0), 0);
        assert_eq!(raw::noketualo_divide(1, nowhere, 0, nowhere, 0), 9);
        assert_eq!(raw::noketualo_check(0, nowhere, 0, nowhere, 0), 256);
        assert_eq!(raw::noketualo_check(1, nowhere, 0, nowhere, 0), 9);
    }
}
