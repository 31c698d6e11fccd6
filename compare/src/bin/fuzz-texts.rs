//! A target for libFuzzer: the bytes are a text, and what the crate's functions say of it is the judge. Ends with the text
//! where the outputs differ.
#![no_main]
use compare::tally::Tally;
use compare::texts;

/// # Safety
/// `bytes` has `count` bytes.
#[unsafe(no_mangle)]
pub unsafe extern "C" fn LLVMFuzzerTestOneInput(bytes: *const u8, count: usize) -> i32 {
    // Safe: so the caller says. Where there are no bytes, the pointer may be none.
    let text = match count {
        0 => &[],
        _ => unsafe { std::slice::from_raw_parts(bytes, count) },
    };
    let mut tally = Tally::new("fuzzing");
    texts::compare(text, count % 8, &mut tally);
    if !tally.alike() {
        tally.report(&[]);
        std::process::abort();
    }
    0
}
