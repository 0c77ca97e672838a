//! Certificates of the machine, and some that openssl makes, beside what `openssl asn1parse` prints.
#![cfg(feature = "std")]
use dumarewhi::{Node, Reader, Tag, Tree};
use shared::{made, openssl, store};

mod shared;

/// Those of the machine, and some with keys of several kinds.
fn certificates() -> Vec<Vec<u8>> {
    let mut certificates = store();
    for key in [
        &["rsa:2048"][..],
        &["ec", "-pkeyopt", "ec_paramgen_curve:prime256v1"],
        &["ed25519"],
    ] {
        let mut words = vec!["-subj", "/C=NZ/O=Dūmarewhi/CN=example.org", "-utf8", "-newkey"];
        words.extend(key);
        words.extend(["-addext", "subjectAltName=DNS:example.org,IP:192.0.2.1"]);
        match made(&words) {
            Some(certificate) => certificates.push(certificate),
            None => println!("left out: openssl makes no certificate with {}", key[0]),
        }
    }
    certificates
}

/// A line of `openssl asn1parse`: the offset, the lengths of header and content, and whether it is constructed.
#[derive(Debug, PartialEq)]
struct Line {
    offset: usize,
    header: usize,
    content: usize,
    constructed: bool,
}

/// As `    4:d=1  hl=4 l= 872 cons: SEQUENCE`.
fn line(text: &str) -> Line {
    let number = |after: &str| {
        let rest = text[text.find(after).unwrap() + after.len()..].trim_start();
        rest.split(' ').next().unwrap().parse().unwrap()
    };
    Line {
        offset: text.split(':').next().unwrap().trim().parse().unwrap(),
        header: number("hl="),
        content: number(" l="),
        constructed: text.contains(" cons: "),
    }
}

/// The lines of a node and of all that is in it.
fn lines(node: Node<'_, '_>, into: &mut Vec<Line>) {
    into.push(Line {
        offset: node.offset(),
        header: node.header().len(),
        content: node.content().len(),
        constructed: node.is_constructed(),
    });
    node.children().for_each(|child| lines(child, into));
}

#[test]
fn trees_are_those_of_openssl() {
    let certificates = certificates();
    for certificate in certificates.iter().rev().take(40) {
        let printed = match openssl(&["asn1parse", "-inform", "DER"], certificate) {
            Some(printed) => printed,
            None => return println!("left out: there is no openssl"),
        };
        let printed = String::from_utf8_lossy(&printed).into_owned();
        let mut own = Vec::new();
        lines(Tree::parse_der(certificate).unwrap().root(), &mut own);
        assert_eq!(own, printed.lines().map(line).collect::<Vec<_>>());
    }
    println!("{} certificates", certificates.len());
}

#[test]
fn each_certificate_is_read() {
    for certificate in certificates() {
        let tree = Tree::parse_der(&certificate).unwrap();
        assert_eq!(tree.root().octets(), certificate);
        assert_eq!(tree.root().children().count(), 3);
        let by_ber = Tree::parse_ber(&certificate).unwrap();
        assert_eq!(by_ber.elements(), tree.elements());
    }
}

#[test]
fn each_front_is_incomplete() {
    for certificate in certificates().iter().rev().take(3) {
        for end in 0..certificate.len() {
            let error = Tree::parse_der(&certificate[..end]).unwrap_err();
            assert!(error.is_incomplete(), "{end}: {error}");
            // The outermost header says how long the whole is, once it is there.
            if end >= 4 {
                assert_eq!(error.missing(), Some(certificate.len() - end));
            }
        }
    }
}

/// The serial number and both times, as openssl prints them.
fn fields(certificate: &[u8]) -> dumarewhi::Result<(String, String, String)> {
    Reader::new(certificate).open_sequence(|r| {
        let fields = r.open_sequence(|r| {
            r.optional_tagged(Tag::context(0), |r| r.u64())?;
            let serial = r.integer()?.as_bytes();
            r.any()?;
            r.any()?;
            let (start, end) = r.open_sequence(|r| Ok((r.time()?, r.time()?)))?;
            while !r.is_empty() {
                r.any()?;
            }
            let hex: String = serial.iter().map(|octet| format!("{octet:02X}")).collect();
            Ok((
                hex,
                start.to_string().replace('T', " "),
                end.to_string().replace('T', " "),
            ))
        })?;
        r.any()?;
        r.bits()?;
        Ok(fields)
    })
}

#[test]
fn fields_are_those_of_openssl() {
    for certificate in certificates().iter().rev().take(20) {
        let arguments = [
            "x509",
            "-inform",
            "DER",
            "-noout",
            "-serial",
            "-startdate",
            "-enddate",
            "-dateopt",
            "iso_8601",
        ];
        let printed = match openssl(&arguments, certificate) {
            Some(printed) => printed,
            None => return println!("left out: openssl prints no fields (version 3 does)"),
        };
        let (serial, start, end) = fields(certificate).unwrap();
        let printed = String::from_utf8_lossy(&printed).into_owned();
        let own = format!(
            "serial={}\nnotBefore={start}\nnotAfter={end}\n",
            unpadded(&serial)
        );
        assert_eq!(own, printed);
    }
}

/// openssl prints a number, whose first octet may be the sign's.
fn unpadded(serial: &str) -> &str {
    match serial.strip_prefix("00") {
        Some(rest) if !rest.is_empty() => rest,
        _ => serial,
    }
}

/// Names in the certificate that was made above, as they went in.
#[test]
fn names_are_read() {
    let certificate = match made(&["ed25519"]) {
        Some(certificate) => certificate,
        None => return println!("left out: openssl makes no certificate"),
    };
    let tree = Tree::parse_der(&certificate).unwrap();
    let texts: Vec<_> = tree.nodes().filter_map(|node| node.as_str().ok()).collect();
    assert_eq!(
        texts,
        ["NZ", "Dūmarewhi", "example.org", "NZ", "Dūmarewhi", "example.org"]
    );
    let ids: Vec<_> = tree
        .nodes()
        .filter_map(|node| node.as_oid().ok())
        .map(|id| id.to_string())
        .collect();
    // RFC 8410 3: id-Ed25519, as signature twice and as key.
    assert_eq!(ids.iter().filter(|id| *id == "1.3.101.112").count(), 3);
    assert_eq!(ids.iter().filter(|id| *id == "2.5.4.3").count(), 2);
}
