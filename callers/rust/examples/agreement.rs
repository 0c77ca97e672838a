//! Tells whether inputs are elements without trailing data, by BER and by DER: `cargo run --example agreement FILE`.
//!
//! The file has inputs, each after its length in four octets. Prints a digit for each: the sum of 1 for BER and 2 for
//! DER.
use dumarewhi::{Rules, MAX_DEPTH};
use std::io;

fn are_elements(rules: Rules, input: &[u8]) -> bool {
    let rules = rules.with_max_depth(MAX_DEPTH);
    let mut rest = input;
    while !rest.is_empty() {
        match rules.check(rest) {
            Ok(found) => rest = &rest[found.length..],
            Err(_) => return false,
        }
    }
    true
}

fn main() -> io::Result<()> {
    let path = std::env::args()
        .nth(1)
        .ok_or_else(|| io::Error::new(io::ErrorKind::InvalidInput, "agreement FILE"))?;
    let octets = std::fs::read(path)?;
    let mut left = octets.as_slice();
    let mut digits = String::new();
    while !left.is_empty() {
        let (head, after) = left.split_at(4);
        let length = head.iter().fold(0, |sum, octet| sum << 8 | usize::from(*octet));
        let (input, rest) = after.split_at(length);
        let by_ber = are_elements(Rules::BER, input);
        let by_der = are_elements(Rules::DER, input);
        digits += &(u8::from(by_ber) + 2 * u8::from(by_der)).to_string();
        left = rest;
    }
    println!("{digits}");
    Ok(())
}
