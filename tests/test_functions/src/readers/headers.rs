//! Headers: which are equal, what they tell and change.
use der_parser::ber::Class::{Application, ContextSpecific, Private, Universal};
use der_parser::ber::Length::{Definite, Indefinite};
use der_parser::ber::{Class, Header, Length, Tag};
use der_parser::error::DerConstraint::IndefiniteLength;
use der_parser::error::Error::{
    ConstructExpected, ConstructUnexpected, DerConstraintFailed, UnexpectedClass, UnexpectedTag,
};

/// A class, whether it is constructed, a tag number and a length.
type Parts = (Class, bool, u32, Length);

/// Two headers, and whether they are equal.
#[rattlefmt::skip]
const EQUALITY: &[(Parts, Parts, bool)] = &[
    ((Universal, false, 2, Definite(1)), (Universal, false, 2, Definite(1)), true),
    ((Universal, false, 2, Definite(1)), (Universal, false, 2, Definite(5)), true),
    ((Universal, false, 2, Definite(1)), (Universal, false, 2, Indefinite), true),
    ((Universal, false, 2, Definite(1)), (Private, false, 2, Definite(1)), false),
    ((Universal, false, 2, Definite(1)), (Universal, true, 2, Definite(1)), false),
    ((Universal, false, 2, Definite(1)), (Universal, false, 3, Definite(1)), false),
];

fn header(parts: &Parts) -> Header<'static> {
    let (class, constructed, number, length) = *parts;
    Header::new(class, constructed, Tag(number), length)
}

/// Neither lengths nor identifier octets are compared.
#[test]
fn headers_are_compared(rt: HostRuntime) {
    for (left, right, equal) in EQUALITY {
        let (left, right) = (header(left), header(right));
        assert_eq!(rt; left == right, *equal, "{left:?}, {right:?}");
        let headers = right.with_raw_tag(Some(b"\x02"));
        assert_eq!(rt; left == headers, *equal, "{left:?}, {headers:?}");
    }
}

/// A class, and whether it is Universal, Application, Context-specific, Private.
const CLASSES: &[(Class, [bool; 4])] = &[
    (Universal, [true, false, false, false]),
    (Application, [false, true, false, false]),
    (ContextSpecific, [false, false, true, false]),
    (Private, [false, false, false, true]),
];

#[test]
fn headers_tell_their_class(rt: HostRuntime) {
    for (class, is) in CLASSES {
        let header = Header::new(Universal, true, Tag(2), Definite(1)).with_class(*class);
        assert_eq!(rt; header.class(), *class);
        assert_eq!(rt; header.is_universal(), is[0], "{class:?}");
        assert_eq!(rt; header.is_application(), is[1], "{class:?}");
        assert_eq!(rt; header.is_contextspecific(), is[2], "{class:?}");
        assert_eq!(rt; header.is_private(), is[3], "{class:?}");
        assert_eq!(rt; header.tag(), Tag(2), "{class:?}");
        assert_eq!(rt; header.assert_class(*class), Ok(()));
    }
    let refusal = UnexpectedClass {
        expected: Some(Private),
        actual: Application,
    };
    let header = Header::new(Application, true, Tag(2), Definite(1));
    assert_eq!(rt; header.assert_class(Private), Err(refusal));
}

#[test]
fn headers_tell_their_parts(rt: HostRuntime) {
    let primitive = Header::new(Universal, false, Tag(2), Definite(1));
    assert!(rt;
        !primitive.constructed() && !primitive.is_constructed() && primitive.is_primitive()
    );
    assert_eq!(rt; primitive.assert_primitive(), Ok(()));
    assert_eq!(rt; primitive.assert_constructed(), Err(ConstructExpected));
    let constructed = Header::new(Universal, true, Tag(3), Indefinite);
    assert!(rt;
        constructed.constructed() && constructed.is_constructed() && !constructed.is_primitive()
    );
    assert_eq!(rt; constructed.assert_constructed(), Ok(()));
    assert_eq!(rt; constructed.assert_primitive(), Err(ConstructUnexpected));
    assert_eq!(rt; primitive.assert_tag(Tag(2)), Ok(()));
    let refusal = UnexpectedTag {
        expected: Some(Tag(3)),
        actual: Tag(2),
    };
    assert_eq!(rt; primitive.assert_tag(Tag(3)), Err(refusal));
}

#[test]
fn headers_change_their_parts(rt: HostRuntime) {
    let header = Header::new(Universal, false, Tag(2), Definite(1));
    assert_eq!(rt; header.raw_tag(), None);
    let named = header.with_raw_tag(Some(b"\x02"));
    assert!(rt; named.raw_tag() == Some(b"\x02".as_slice()));
    assert_eq!(rt; named.with_raw_tag(None).raw_tag(), None);
    let longer = named.with_length(Indefinite);
    assert_eq!(rt; longer.length(), Indefinite);
    assert!(rt; longer.raw_tag() == Some(b"\x02".as_slice()));
    assert_eq!(rt; longer, header);
}

#[test]
fn lengths_and_tags_are_made(rt: HostRuntime) {
    assert_eq!(rt; Length::from(5), Definite(5));
    assert_eq!(rt; Definite(5).definite(), Ok(5));
    assert_eq!(rt;
        Indefinite.definite(),
        Err(DerConstraintFailed(IndefiniteLength))
    );
    assert_eq!(rt; Tag::from(4386u32), Tag(4386));
}
