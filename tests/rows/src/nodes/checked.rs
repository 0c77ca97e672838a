//! Whether octets are elements of BER and of DER.
use crate::nodes::words::number;
use der_base::rules::Rules;
use der_elements::check::{are_elements, is_element};
use std::alloc::Global;
use test_tables::fault::Fault;

/// By which rules octets are elements, nested up to a depth.
pub fn checked_list(alloc: Global, octets: &[u8], depth: &str) -> Result<String, Fault> {
    let depth = number(depth)?;
    let ber = are_elements(octets, Rules::Ber, depth);
    let der = are_elements(octets, Rules::Der, depth);
    Ok(format!(in alloc; "{}", rules(ber, der))?)
}

/// By which rules octets are one element, and the length of each proper prefix that is one of BER too.
pub fn checked_one(alloc: Global, octets: &[u8], depth: &str) -> Result<String, Fault> {
    let depth = number(depth)?;
    let ber = is_element(octets, Rules::Ber, depth);
    let der = is_element(octets, Rules::Der, depth);
    let mut text = format!(in alloc; "{}", rules(ber, der))?;
    if ber {
        for end in 0..octets.len() {
            if is_element(&octets[..end], Rules::Ber, depth) {
                write!(text, " prefix {end}")?;
            }
        }
    }
    Ok(text)
}

fn rules(ber: bool, der: bool) -> &'static str {
    match (ber, der) {
        (true, true) => "BER and DER",
        (true, false) => "BER",
        (false, true) => "DER",
        (false, false) => "none",
    }
}
