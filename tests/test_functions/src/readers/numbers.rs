//! The number of an object behind an element.
use der_parser::ber::Any;
use der_parser::der::parse_der_integer;
use test_support::octets::octets;
use std::test::Fail;

/// The serial number behind the version of a certificate.
#[test]
fn serial_number_of_a_certificate(rt: HostRuntime) -> Result<(), Fail> {
    let fields = octets(rt.alloc(), "a0 03 02 01 02 02 02 12 34")?;
    let (behind, _version) = Any::from_der(&fields)?;
    let (_, serial) = parse_der_integer(behind)?;
    assert_eq!(rt; serial.as_u64()?, 4660);
    Ok(())
}
