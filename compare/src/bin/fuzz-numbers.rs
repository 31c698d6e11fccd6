//! A target for libFuzzer: the bytes are the choices of the generators of problems, calls and bodies, and the crate is the
//! judge. Ends with the smallest input where the answers differ.
#![no_main]
use compare::random::Random;
use compare::tally::Tally;
use compare::{bodies, random_calls, random_problems, type_errors};

/// # Safety
/// `bytes` has `count` bytes.
#[unsafe(no_mangle)]
pub unsafe extern "C" fn LLVMFuzzerTestOneInput(bytes: *const u8, count: usize) -> i32 {
    if count == 0 {
        return 0;
    }
    let bytes = unsafe { std::slice::from_raw_parts(bytes, count) };
    let groups = [
        random_problems::one,
        type_errors::one,
        random_calls::one,
        bodies::one,
    ];
    let mut tally = Tally::new("fuzzing");
    groups[usize::from(bytes[0]) % groups.len()](&mut Random::of_bytes(&bytes[1..]), &mut tally);
    if !tally.alike() {
        tally.report(&[]);
        std::process::abort();
    }
    0
}
