//! A target for libFuzzer. It reads any octets by all that the crate has, asks each value for all that it has, and
//! writes values again. A panic, a sum that wraps, or a value that isn't read again as it was written ends the run.
//! The first octet says which readers are asked, and whether all is displayed too.
mod ask;
mod certificates;
mod elements;
mod fields;

use ask::{Ask, Sink};
use dumarewhi::{pem, Rules};

/// Reads the octets by the readers that the first one names.
#[no_mangle]
pub extern "C" fn LLVMFuzzerTestOneInput(input: *const u8, length: usize) -> i32 {
    if length == 0 {
        return 0;
    }
    // SAFETY: libFuzzer passes so many octets.
    let input = unsafe { std::slice::from_raw_parts(input, length) };
    let (first, input) = (input[0], &input[1..]);
    let rules = if first & 0x80 == 0 { Rules::DER } else { Rules::BER };
    let sink = &mut Sink::new(first & 0x40 != 0);
    match first & 0x0f {
        0 | 1 => elements::tree(input, rules, sink),
        2 => elements::written(input, sink),
        3 | 4 => fields::read(input, rules, sink),
        5 => fields::types(input, rules, sink),
        6 => fields::contents(input, sink),
        7 => elements::stream(input, rules, sink),
        8 => certificates::certificate(input, sink),
        9 => certificates::list(input, sink),
        10 => certificates::request(input, sink),
        11 => certificates::keys(input, sink),
        12..=14 => certificates::values(input, sink),
        _ => pem::blocks(input).for_each(|block| block.ask(sink)),
    }
    0
}
