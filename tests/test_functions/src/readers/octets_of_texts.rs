//! The octets that texts of rows spell.
use test_support::octets::octets;
use std::test::Fail;

#[test]
fn octets_of_texts(rt: HostRuntime) -> Result<(), Fail> {
    assert!(rt; octets(rt.alloc(), "")?.is_empty());
    let four = octets(rt.alloc(), "00 1f a0 ff")?;
    assert_eq!(rt; four.as_slice(), b"\x00\x1f\xa0\xff".as_slice());
    let repeated = octets(rt.alloc(), "01.02*2 03*3 04")?;
    assert_eq!(rt;
        repeated.as_slice(),
        b"\x01\x02\x01\x02\x03\x03\x03\x04".as_slice()
    );
    for wrong in ["0", "000", "0g", "1 2", "0A", "00.", "00*", "*2", "00*x"] {
        assert!(rt; octets(rt.alloc(), wrong).is_err(), "{wrong}");
    }
    Ok(())
}
