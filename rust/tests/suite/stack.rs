//! How much stack a call takes, measured on a painted one. `cargo test --release stack -- --nocapture` prints the bytes.

use noketualo::{check, divide_into, statement_into};
use std::fs;
use std::hint::black_box;
use std::path::Path;
use std::ptr;
use std::thread;

/// What a call may take at most: a quarter of the smallest stack that a phone's thread has by habit (512 KiB).
const ALLOWED: usize = 128 * 1024;
const PAINTED: usize = 2 * ALLOWED;
const PAINT: u8 = 0xa5;
/// Left out next to the measuring frame, since its loops may use it.
const MARGIN: usize = 512;

#[test]
fn calls_take_little_stack() {
    let months = Path::new(env!("CARGO_MANIFEST_DIR")).with_file_name("examples/months");
    let full = fs::read(months.join("full-july.month")).expect("a full month");
    let weights: Vec<u64> = (1..=64)
        .map(|weight| weight * 97_000_000_000 / 64)
        .collect();
    let taken = [
        ("noketualo_divide", {
            let weights = weights.clone();
            deepest(move || {
                let mut amounts = [0; 64];
                black_box(divide_into(99_999_999_999, &weights, &mut amounts)).expect("shares");
            })
        }),
        ("noketualo_check", {
            deepest(move || {
                black_box(check(99_999_999_999, &weights, &[1_562_500_000; 64]))
                    .expect("an answer");
            })
        }),
        ("noketualo_statement", {
            let mut out = vec![0; 16 * 1024];
            deepest(move || {
                black_box(statement_into(&full, &mut out)).expect("a statement");
            })
        }),
    ];
    for (call, bytes) in taken {
        println!("{call} takes {bytes} bytes of stack");
        assert!(bytes > 0 && bytes < ALLOWED, "{call} takes {bytes} bytes");
    }
}

/// The bytes of stack that a call takes, in a thread of its own with room to spare.
fn deepest(call: impl FnOnce() + Send + 'static) -> usize {
    thread::Builder::new()
        .stack_size(4 * PAINTED)
        .spawn(move || painted(call))
        .and_then(|thread| Ok(thread.join().expect("a measured call")))
        .expect("a thread")
}

#[inline(never)]
fn painted(call: impl FnOnce()) -> usize {
    let mark = 0_u8;
    let here = ptr::addr_of!(mark) as usize;
    // SAFETY: this is the thread's own stack, below every frame in use: its size leaves room, and nothing else writes there
    // before the call.
    unsafe {
        for place in here - PAINTED..here - MARGIN {
            ptr::write_volatile(place as *mut u8, PAINT);
        }
        call();
        (here - PAINTED..here - MARGIN)
            .find(|&place| ptr::read_volatile(place as *const u8) != PAINT)
            .map_or(MARGIN, |place| here - place)
    }
}
