//! Certificates beside openssl, the rows of the library's tests, and C.
#![cfg(feature = "std")]
use dumarewhi::x509::{
    AccessDescription, Attribute, AuthorityKeyIdentifier, BasicConstraints, BrokenRule, Certificate,
    CertificateList, CertificationRequest, DirectoryAttributes, DistributionPoint, EcPrivateKey,
    EncryptedPrivateKey, Error, Extension, Field, GeneralName, GeneralNames, IssuingDistributionPoint,
    KeyPurposes, KeyType, KeyUsage, Name, OrganizationIdentifier, Policy, PolicyConstraints, PolicyMappings,
    PrivateKey, QcStatements, RelativeName, RsaPrivateKey, RsaPublicKey, SubjectPublicKeyInfo, Subtrees,
    Timestamps, TlsFeatures, Value,
};
use dumarewhi::{oid, BitString, ErrorKind, Integer, ObjectIdentifier, Reason, Tag, Time};
use shared::{damaged, made, openssl, run_c, store, Random};
use std::fmt::Write;
use std::net::{IpAddr, Ipv4Addr, Ipv6Addr};

mod shared;

const DAMAGED: usize = 10_000;

const COMMON_NAME: ObjectIdentifier<'static> = oid!(2, 5, 4, 3);

/// A certificate whose fields are those of the command that makes it.
fn known() -> Option<Vec<u8>> {
    let names = "subjectAltName=critical,DNS:example.org,IP:192.0.2.1,IP:2001:db8::1,email:a@example.org,\
                 URI:https://example.org/,RID:1.2.3";
    let made = made(&[
        "-newkey",
        "ed25519",
        "-set_serial",
        "0x80fe",
        "-subj",
        "/C=NZ/O=Example, Inc./CN=example.org",
        "-addext",
        names,
        "-addext",
        "keyUsage=critical,digitalSignature,keyCertSign,decipherOnly",
        "-addext",
        "extendedKeyUsage=serverAuth,1.2.3.4",
        "-addext",
        "basicConstraints=critical,CA:TRUE,pathlen:3",
        "-addext",
        "nsComment=a comment",
    ]);
    if made.is_none() {
        println!("left out: openssl makes no certificate");
    }
    made
}

fn value_of<'a>(certificate: &Certificate<'a>, identifier: ObjectIdentifier<'_>) -> (bool, Value<'a>) {
    let extension = certificate.extensions().find(identifier).unwrap();
    (extension.is_critical(), extension.value().unwrap())
}

#[test]
fn fields() {
    let octets = match known() {
        Some(it) => it,
        None => return,
    };
    let it = Certificate::from_der(&octets).unwrap();
    assert_eq!(it.version(), 3);
    assert_eq!(it.serial_number().as_bytes(), [0, 0x80, 0xfe]);
    assert_eq!(it.subject().to_string(), r"CN=example.org,O=Example\, Inc.,C=NZ");
    assert_eq!(it.subject(), it.issuer());
    let texts: Vec<_> = it.subject().attributes().map(|it| it.as_str().unwrap()).collect();
    assert_eq!(texts, ["NZ", "Example, Inc.", "example.org"]);
    assert_eq!(it.subject().relative_names().count(), 3);
    let common_name = it.subject().find(COMMON_NAME).unwrap();
    assert_eq!(
        (common_name.tag(), common_name.value()),
        (Tag::UTF8_STRING, &b"example.org"[..])
    );
    assert_eq!(it.public_key().algorithm().identifier(), oid!(1, 3, 101, 112));
    assert_eq!(it.public_key().algorithm().parameters(), None);
    let key = it.public_key();
    assert_eq!(
        (key.key_type(), key.curve(), key.key_size()),
        (KeyType::Ed25519, None, Some(255))
    );
    assert_eq!(
        (it.public_key().bits().len(), it.signature_value().len()),
        (256, 512)
    );
    assert_eq!(it.signature(), it.signature_algorithm());
    assert_eq!((it.issuer_unique_id(), it.subject_unique_id()), (None, None));
    assert!(it.not_before() < it.not_after());
    let begin = it.not_before().unix_seconds() as u64;
    let end = it.not_after().unix_seconds() as u64;
    let is_valid = [begin - 1, begin, end, end + 1].map(|time| it.is_valid_at(time));
    assert_eq!(is_valid, [false, true, true, false]);
    assert!(it.is_valid_now());
    assert!(it.as_bytes() == octets && octets[4..].starts_with(it.tbs()));
    assert_eq!(Certificate::try_from(&octets[..]), Ok(it));
    assert!(Certificate::from_strict_der(&octets).is_ok());
}

#[test]
fn extensions() {
    let octets = match known() {
        Some(it) => it,
        None => return,
    };
    let it = Certificate::from_der(&octets).unwrap();
    let is_critical = |identifier| it.extensions().find(identifier).map(|it| it.is_critical());
    let names = it.extensions().subject_alt_name().unwrap().unwrap();
    assert!(names.dns_names().eq(["example.org"]));
    assert!(it.extensions().dns_names().unwrap().eq(["example.org"]));
    let shown: Vec<_> = names.iter().map(|it| it.to_string()).collect();
    let texts =
        "DNS:example.org IP:192.0.2.1 IP:2001:db8::1 email:a@example.org URI:https://example.org/ RID:1.2.3";
    assert_eq!(shown.join(" "), texts);
    assert_eq!(GeneralName::DnsName("a\nb").to_string(), r"DNS:a\nb");
    assert_eq!(GeneralName::Uri("a\nb").to_string(), r"URI:a\nb");
    assert_eq!(GeneralName::Rfc822Name("a\nb").to_string(), r"email:a\nb");
    let names: Vec<_> = names.iter().collect();
    let expected = [
        GeneralName::DnsName("example.org"),
        GeneralName::IpAddress(&[192, 0, 2, 1]),
        GeneralName::IpAddress(&[0x20, 0x01, 0x0d, 0xb8, 0, 0, 0, 0, 0, 0, 0, 0, 0, 0, 0, 1]),
        GeneralName::Rfc822Name("a@example.org"),
        GeneralName::Uri("https://example.org/"),
        GeneralName::RegisteredId(oid!(1, 2, 3)),
    ];
    assert_eq!(names, expected);
    assert_eq!(is_critical(oid!(2, 5, 29, 17)), Some(true));
    assert_eq!(
        names[1].ip_addr(),
        Some(IpAddr::from(Ipv4Addr::new(192, 0, 2, 1)))
    );
    assert_eq!(
        names[2].ip_addr(),
        "2001:db8::1".parse::<Ipv6Addr>().ok().map(IpAddr::from)
    );
    let usage = it.extensions().key_usage().unwrap().unwrap();
    assert!(usage
        .names()
        .eq(["digitalSignature", "keyCertSign", "decipherOnly"]));
    let purposes = it.extensions().extended_key_usage().unwrap().unwrap();
    assert!(purposes
        .into_iter()
        .eq([oid!(1, 3, 6, 1, 5, 5, 7, 3, 1), oid!(1, 2, 3, 4)]));
    assert_eq!(is_critical(oid!(2, 5, 29, 37)), Some(false));
    let constraints = Value::BasicConstraints(BasicConstraints {
        ca: true,
        path_length: Some(3),
    });
    assert_eq!(value_of(&it, oid!(2, 5, 29, 19)), (true, constraints));
    // An IA5String.
    assert_eq!(
        value_of(&it, oid!(2, 16, 840, 1, 113730, 1, 13)),
        (false, Value::Other(b"\x16\x09a comment"))
    );
    assert_eq!(it.extensions().find(oid!(2, 5, 29, 18)), None);
    assert_eq!(it.extensions().issuer_alt_name(), Ok(None));
}

/// Values of further extensions, as they go in.
#[test]
fn further_extensions() {
    let made = made(&[
        "-newkey",
        "ed25519",
        "-subj",
        "/CN=a.example",
        "-addext",
        "certificatePolicies=1.2.3.4,2.5.29.32.0",
        "-addext",
        "crlDistributionPoints=URI:http://a.example/crl,URI:http://b.example/crl",
        "-addext",
        "nameConstraints=permitted;DNS:a.example,excluded;IP:192.0.2.0/255.255.255.0",
        "-addext",
        "authorityInfoAccess=OCSP;URI:http://a.example/ocsp",
    ]);
    let octets = match made {
        Some(it) => it,
        None => return println!("left out: openssl makes no certificate"),
    };
    let it = Certificate::from_der(&octets).unwrap();
    match value_of(&it, oid!(2, 5, 29, 32)).1 {
        Value::CertificatePolicies(policies) => {
            let identifiers = policies.iter().map(|policy| policy.identifier());
            assert!(identifiers.eq([oid!(1, 2, 3, 4), oid!(2, 5, 29, 32, 0)]));
            assert!(policies.iter().all(|policy| policy.qualifiers().is_empty()));
        }
        other => panic!("{other:?}"),
    }
    match value_of(&it, oid!(2, 5, 29, 31)).1 {
        Value::CrlDistributionPoints(points) => {
            let names: Vec<_> = points.iter().flat_map(|point| point.full_name()).collect();
            let expected = ["http://a.example/crl", "http://b.example/crl"].map(GeneralName::Uri);
            assert_eq!(names, expected);
            assert!(points
                .iter()
                .all(|point| point.reasons().is_none() && point.crl_issuer().is_empty()));
        }
        other => panic!("{other:?}"),
    }
    match value_of(&it, oid!(2, 5, 29, 30)).1 {
        Value::NameConstraints(constraints) => {
            let names = |trees: Subtrees<'_>| {
                trees
                    .iter()
                    .map(|it| format!("{:?}", it.base()))
                    .collect::<Vec<_>>()
            };
            assert_eq!(names(constraints.permitted()), [r#"DnsName("a.example")"#]);
            assert_eq!(
                names(constraints.excluded()),
                ["IpAddress([192, 0, 2, 0, 255, 255, 255, 0])"]
            );
            let tree = constraints.permitted().iter().next().unwrap();
            assert_eq!((tree.minimum(), tree.maximum()), (0, None));
        }
        other => panic!("{other:?}"),
    }
    match value_of(&it, oid!(1, 3, 6, 1, 5, 5, 7, 1, 1)).1 {
        Value::AuthorityInfoAccess(descriptions) => {
            let found: Vec<_> = descriptions
                .iter()
                .map(|it| (it.method(), it.location()))
                .collect();
            let expected = GeneralName::Uri("http://a.example/ocsp");
            assert_eq!(found, [(oid!(1, 3, 6, 1, 5, 5, 7, 48, 1), expected)]);
        }
        other => panic!("{other:?}"),
    }
}

/// A certificate with extensions about policies in a path, lists of revoked certificates and the web.
fn with_further_extensions() -> Option<Vec<u8>> {
    made(&[
        "-newkey",
        "ed25519",
        "-subj",
        "/CN=a.example",
        "-addext",
        "policyMappings=critical,1.2.3:1.2.4,1.2.5:1.2.6",
        "-addext",
        "policyConstraints=requireExplicitPolicy:3",
        "-addext",
        "inhibitAnyPolicy=2",
        "-addext",
        "tlsfeature=status_request,9",
        "-addext",
        "noCheck=ignored",
        "-addext",
        "issuingDistributionPoint=critical,fullname:URI:http://l.example/,onlyuser:TRUE,indirectCRL:TRUE,\
         onlysomereasons:keyCompromise",
        "-addext",
        "crlNumber=DER:02:02:00:80",
        "-addext",
        "deltaCRL=DER:02:01:03",
        "-addext",
        "invalidityDate=DER:18:0f:32:30:32:36:30:31:30:32:30:33:30:34:30:35:5a",
        "-addext",
        "certificateIssuer=DER:30:07:82:05:69:2e:6f:72:67",
        "-addext",
        "1.3.6.1.4.1.11129.2.4.3=critical,DER:05:00",
    ])
}

/// Their values, as they go in.
#[test]
fn extensions_of_lists_and_the_web() {
    let octets = match with_further_extensions() {
        Some(it) => it,
        None => return println!("left out: openssl makes no certificate"),
    };
    let it = Certificate::from_der(&octets).unwrap();
    assert!(!it.extensions().has_unknown_critical());
    match value_of(&it, oid!(2, 5, 29, 33)) {
        (true, Value::PolicyMappings(mappings)) => {
            let pairs = mappings
                .iter()
                .map(|it| (it.issuer_policy(), it.subject_policy()));
            let (first, second) = ((oid!(1, 2, 3), oid!(1, 2, 4)), (oid!(1, 2, 5), oid!(1, 2, 6)));
            assert!(pairs.eq([first, second]));
        }
        other => panic!("{other:?}"),
    }
    let constraints = PolicyConstraints {
        require_explicit_policy: Some(3),
        inhibit_policy_mapping: None,
    };
    assert_eq!(
        value_of(&it, oid!(2, 5, 29, 36)).1,
        Value::PolicyConstraints(constraints)
    );
    assert_eq!(value_of(&it, oid!(2, 5, 29, 54)).1, Value::InhibitAnyPolicy(2));
    match value_of(&it, oid!(1, 3, 6, 1, 5, 5, 7, 1, 24)).1 {
        Value::TlsFeatures(features) => assert!(features.iter().eq([5, 9])),
        other => panic!("{other:?}"),
    }
    assert_eq!(
        value_of(&it, oid!(1, 3, 6, 1, 5, 5, 7, 48, 1, 5)).1,
        Value::OcspNoCheck
    );
    match value_of(&it, oid!(2, 5, 29, 28)) {
        (true, Value::IssuingDistributionPoint(point)) => {
            assert!(point
                .full_name()
                .iter()
                .eq([GeneralName::Uri("http://l.example/")]));
            assert!(point.only_contains_user_certs() && point.is_indirect());
            assert!(!point.only_contains_ca_certs() && !point.only_contains_attribute_certs());
            assert!(point.reasons().unwrap().iter().eq([false, true]));
            assert_eq!(point.relative_name().attributes().count(), 0);
        }
        other => panic!("{other:?}"),
    }
    for (identifier, number) in [(oid!(2, 5, 29, 20), 128), (oid!(2, 5, 29, 27), 3)] {
        match value_of(&it, identifier).1 {
            Value::CrlNumber(it) | Value::DeltaCrlIndicator(it) => assert_eq!(it.to_u64(), Ok(number)),
            other => panic!("{other:?}"),
        }
    }
    match value_of(&it, oid!(2, 5, 29, 24)).1 {
        Value::InvalidityDate(date) => assert_eq!(date.to_string(), "2026-01-02T03:04:05Z"),
        other => panic!("{other:?}"),
    }
    match value_of(&it, oid!(2, 5, 29, 29)).1 {
        Value::CertificateIssuer(names) => assert!(names.iter().eq([GeneralName::DnsName("i.org")])),
        other => panic!("{other:?}"),
    }
    assert_eq!(
        value_of(&it, oid!(1, 3, 6, 1, 4, 1, 11129, 2, 4, 3)),
        (true, Value::PrecertificatePoison)
    );
}

/// The rows of keys.
#[test]
fn kinds_of_keys() {
    let file = concat!(env!("CARGO_MANIFEST_DIR"), "/../c/keys.rows");
    let text = std::fs::read_to_string(file).unwrap();
    for row in text.lines().filter(|line| !line.starts_with('#')) {
        let words: Vec<_> = row.split(' ').collect();
        let octets: Vec<_> = (0..words[3].len())
            .step_by(2)
            .map(|at| u8::from_str_radix(&words[3][at..at + 2], 16).unwrap())
            .collect();
        let key = SubjectPublicKeyInfo::from_der(&octets).unwrap();
        let of_type = format!("{:?}", key.key_type()).to_uppercase();
        let curve = key
            .curve()
            .map_or("-".into(), |curve| format!("{curve:?}").to_lowercase());
        assert_eq!(
            (of_type, curve, key.key_size().unwrap_or(0).to_string()),
            (
                words[0].replace('_', ""),
                words[1].to_lowercase(),
                words[2].into()
            ),
            "{row}"
        );
    }
}

/// A text in UTF-8, beside the one in ASCII.
#[test]
fn names_in_utf8() {
    let subject = "/CN=€\u{202e}, é";
    let octets = match made(&["-newkey", "ed25519", "-utf8", "-subj", subject]) {
        Some(it) => it,
        None => return println!("left out: openssl makes no certificate"),
    };
    let name = Certificate::from_der(&octets).unwrap().subject();
    assert_eq!(name.utf8().to_string(), r"CN=€\e2\80\ae\, é");
    assert_eq!(name.to_string(), r"CN=\e2\82\ac\e2\80\ae\, \c3\a9");
}

/// PEM where DER is read.
#[test]
fn text_of_pem() {
    let error = Certificate::from_der(b"-----BEGIN CERTIFICATE-----\nMIIB").unwrap_err();
    assert_eq!(error.to_string(), Reason::PEM_INPUT.to_string());
    let error = Certificate::from_der(b"-----BEGI").unwrap_err();
    assert_ne!(error.to_string(), Reason::PEM_INPUT.to_string());
}

/// A private key of a curve in a file of its own, a public key of RSA, and an encrypted key, that openssl makes.
#[test]
fn other_keys() {
    let of_curve = [
        "genpkey",
        "-algorithm",
        "EC",
        "-pkeyopt",
        "ec_paramgen_curve:P-256",
    ];
    let made = match openssl(&of_curve, &[]) {
        Some(it) => it,
        None => return println!("left out: openssl makes no key"),
    };
    let octets = openssl(&["ec", "-outform", "DER"], &made).unwrap();
    let curve = EcPrivateKey::from_der(&octets).unwrap();
    let public = openssl(&["pkey", "-pubout", "-outform", "DER"], &made).unwrap();
    let key = SubjectPublicKeyInfo::from_der(&public).unwrap();
    assert_eq!((curve.version(), curve.private_key().len()), (1, 32));
    assert_eq!(curve.public_key(), Some(key.public_key()));
    assert_eq!(curve.parameters(), key.parameters());
    let (tag, content) = curve.parameters().unwrap();
    let identifier = ObjectIdentifier::from_content(content).unwrap();
    assert_eq!(
        (tag, identifier),
        (Tag::OBJECT_IDENTIFIER, oid!(1, 2, 840, 10045, 3, 1, 7))
    );
    assert_eq!(key.algorithm(), oid!(1, 2, 840, 10045, 2, 1));
    assert!(format!("{curve:?}").ends_with(".. }"));
    let error = RsaPublicKey::from_der(key.public_key().raw_bytes()).unwrap_err();
    assert_eq!(error.field(), Field::PublicRsaKey);

    let words = ["pkcs8", "-topk8", "-outform", "DER", "-passout", "pass:secret"];
    let octets = openssl(&words, &made).unwrap();
    let encrypted = EncryptedPrivateKey::from_der(&octets).unwrap();
    assert_eq!(encrypted.algorithm(), oid!(1, 2, 840, 113549, 1, 5, 13));
    assert_eq!(encrypted.parameters().map(|(tag, _)| tag), Some(Tag::SEQUENCE));
    assert!(octets.ends_with(encrypted.encrypted_data()));
    let error = PrivateKey::from_der(&octets).unwrap_err();
    assert_eq!(error.field(), Field::KeyVersion);

    let of_rsa = ["genpkey", "-algorithm", "RSA", "-pkeyopt", "rsa_keygen_bits:1024"];
    let made = openssl(&of_rsa, &[]).unwrap();
    let public = openssl(&["pkey", "-pubout", "-outform", "DER"], &made).unwrap();
    let key = SubjectPublicKeyInfo::from_der(&public).unwrap();
    let rsa = RsaPublicKey::from_der(key.public_key().raw_bytes()).unwrap();
    let printed = openssl(&["rsa", "-noout", "-modulus"], &made).unwrap();
    let modulus = hex(rsa.modulus().as_bytes());
    assert_eq!(
        printed,
        format!("Modulus={}\n", modulus.strip_prefix("00").unwrap()).into_bytes()
    );
    assert_eq!(rsa.public_exponent().to_u64(), Ok(65_537));
}

/// A key that openssl makes, and its modulus as openssl prints it.
#[test]
fn private_keys() {
    let words = [
        "genpkey",
        "-algorithm",
        "RSA",
        "-pkeyopt",
        "rsa_keygen_bits:1024",
        "-outform",
        "DER",
    ];
    let as_pkcs8 = ["pkcs8", "-topk8", "-nocrypt", "-inform", "DER", "-outform", "DER"];
    let octets = match openssl(&words, &[]).and_then(|made| openssl(&as_pkcs8, &made)) {
        Some(it) => it,
        None => return println!("left out: openssl makes no key"),
    };
    let key = PrivateKey::from_der(&octets).unwrap();
    assert_eq!(
        (key.version(), key.algorithm()),
        (0, oid!(1, 2, 840, 113549, 1, 1, 1))
    );
    assert_eq!(key.parameters(), Some((Tag::NULL, &[][..])));
    assert_eq!((key.attributes(), key.public_key()), (None, None));
    let rsa = RsaPrivateKey::from_der(key.private_key()).unwrap();
    let printed = openssl(&["rsa", "-inform", "DER", "-noout", "-modulus"], &octets).unwrap();
    let modulus = hex(rsa.modulus().as_bytes());
    assert_eq!(
        printed,
        format!("Modulus={}\n", modulus.strip_prefix("00").unwrap()).into_bytes()
    );
    assert_eq!(rsa.public_exponent().to_u64(), Ok(65_537));
    assert_eq!((rsa.version(), rsa.other_primes()), (0, None));
    // What is secret isn't shown.
    let shown = format!("{key:?} {rsa:?}");
    assert!(
        shown.ends_with(".. }") && !shown.contains(&format!("{:?}", rsa.prime1())),
        "{shown}"
    );
    let error = PrivateKey::from_der(&octets[..9]).unwrap_err();
    assert!(error.is_incomplete() && error.field() == Field::Key, "{error}");
}

/// A text with two digits behind a backslash in lower case.
fn lowered(text: &str) -> String {
    let mut parts = text.split('\\');
    let mut made: String = parts.next().unwrap().into();
    for part in parts {
        let digits = part
            .get(..2)
            .filter(|it| it.bytes().all(|octet| octet.is_ascii_hexdigit()));
        let (front, rest) = part.split_at(digits.map_or(0, str::len));
        write!(made, "\\{}{rest}", front.to_lowercase()).unwrap();
    }
    made
}

/// What openssl prints of a certificate, after a name and `=`.
fn printed<'t>(text: &'t str, name: &str) -> &'t str {
    let line = text.lines().find(|line| line.starts_with(name)).unwrap();
    line[name.len()..].trim_start_matches('=')
}

/// As openssl writes the time with `-dateopt iso_8601`.
fn shown(time: Time) -> String {
    time.to_string().replace('T', " ")
}

fn hex(octets: &[u8]) -> String {
    octets.iter().map(|octet| format!("{octet:02X}")).collect()
}

#[test]
fn beside_openssl() {
    let words = [
        "x509",
        "-inform",
        "DER",
        "-noout",
        "-serial",
        "-dates",
        "-dateopt",
        "iso_8601",
        "-fingerprint",
        "-sha256",
        "-subject",
        "-issuer",
        "-nameopt",
        "RFC2253",
    ];
    let mut names = 0;
    for octets in store() {
        let text = match openssl(&words, &octets) {
            Some(text) => text,
            None => return println!("left out: there is no openssl"),
        };
        let text = String::from_utf8(text).unwrap();
        let it = Certificate::from_der(&octets).unwrap();
        let serial = hex(it.serial_number().as_bytes());
        let digits = serial.trim_start_matches('0');
        assert_eq!(digits, printed(&text, "serial").trim_start_matches('0'));
        assert_eq!(shown(it.not_before()), printed(&text, "notBefore"));
        assert_eq!(shown(it.not_after()), printed(&text, "notAfter"));
        let digest = printed(&text, "sha256 Fingerprint").replace(':', "");
        assert_eq!(hex(&it.fingerprint()), digest);
        for (name, title) in [(it.subject(), "subject"), (it.issuer(), "issuer")] {
            assert_eq!(name.to_string(), lowered(printed(&text, title)));
            names += 1;
        }
    }
    println!("{names} names as openssl writes them");
}

/// The rows of the library's tests of a call.
fn rows(file: &str, call: &str) -> Vec<(String, String)> {
    let path = format!(
        "{}/../../tests/rows/data/certificates/{file}.rows",
        env!("CARGO_MANIFEST_DIR")
    );
    let text = std::fs::read_to_string(path).unwrap();
    let mut within = false;
    let mut rows = Vec::new();
    for line in text.lines().filter(|line| !line.starts_with('#')) {
        if let Some(calls) = line.strip_prefix('[') {
            within = calls.trim_end_matches(']').split(',').any(|it| it.trim() == call);
        } else if within && line.contains('|') {
            let mut parts = line.split('|').map(str::trim);
            rows.push((parts.next().unwrap().into(), parts.next().unwrap().into()));
        }
    }
    assert!(!rows.is_empty(), "{file} {call}");
    rows
}

fn octets(hex: &str) -> Vec<u8> {
    hex.split_whitespace()
        .map(|pair| u8::from_str_radix(pair, 16).unwrap())
        .collect()
}

/// An element of up to 65535 octets (X.690 8.1.3).
fn element(identifier: u8, content: &[u8]) -> Vec<u8> {
    let [high, low] = (content.len() as u16).to_be_bytes();
    let length: &[u8] = match (high, low) {
        (0, 0..=127) => &[low],
        (0, _) => &[0x81, low],
        _ => &[0x82, high, low],
    };
    [&[identifier], length, content].concat()
}

/// Only a primitive string of a type that has a `&str`, with octets of its character set, has one.
#[test]
fn strings_of_attributes() {
    let values: [(&[u8], Option<&str>); 14] = [
        (b"\x0c\x02\xc3\xa9", Some("\u{e9}")),
        (b"\x0c\x01\xc3", None),
        (b"\x0c\x00", Some("")),
        (b"\x12\x03 12", Some(" 12")),
        (b"\x12\x01a", None),
        (b"\x13\x03a b", Some("a b")),
        (b"\x13\x01@", None),
        (b"\x16\x01@", Some("@")),
        (b"\x16\x01\x80", None),
        (b"\x2c\x03\x0c\x01a", None),
        (b"\x33\x03\x13\x01a", None),
        (b"\x8c\x01a", None),
        (b"\x4c\x01a", None),
        (b"\x1e\x02\0a", None),
    ];
    for (value, expected) in values {
        let attribute = element(0x30, &[b"\x06\x03\x55\x04\x03", value].concat());
        let name = element(0x30, &element(0x31, &attribute));
        let names = element(0x30, &element(0xa4, &name));
        let names: Vec<_> = GeneralNames::from_der(&names).unwrap().iter().collect();
        match names[..] {
            [GeneralName::DirectoryName(name)] => {
                assert_eq!(name.find(COMMON_NAME).unwrap().as_str(), expected, "{value:02x?}")
            }
            _ => panic!("{value:02x?}"),
        }
    }
}

/// The names of the library's tests, in the order of the numbers.
const RULES: [&str; 12] = [
    "SameAlgorithms",
    "PositiveSerialNumber",
    "ShortSerialNumber",
    "NamedIssuer",
    "OrderedAttributes",
    "UtcTimeTo2049",
    "WholeSeconds",
    "UniqueIdVersion",
    "ExtensionsVersion",
    "DistinctExtensions",
    "NamedSubject",
    "DerValues",
];

#[test]
fn rows_of_strict_certificates() {
    for (input, expected) in rows("strict", "strict_certificate") {
        let octets = octets(&input);
        let found = match Certificate::from_strict_der(&octets) {
            Ok(_) => String::from("read"),
            Err(error) => {
                assert!(Certificate::from_der(&octets).is_ok(), "{input}");
                let rule = error.reason().unwrap().number() - Reason::ALGORITHMS_DIFFER.number();
                assert_eq!((error.field(), error.offset()), (Field::Certificate, 0));
                format!("read breaks {}", RULES[rule as usize])
            }
        };
        assert_eq!(found, expected, "{input}");
    }
}

/// The rules by their names, in the order of their numbers from `first` on.
fn compare_rules(first: u32, names: &[(String, String)], broken: &[BrokenRule], must: bool, expected: &str) {
    let mut found = Vec::new();
    for rule in broken.iter().filter(|rule| rule.is_must() == must) {
        let (name, text) = &names[(rule.number() - first) as usize];
        assert_eq!(rule.to_string(), *text);
        found.push(name.as_str());
    }
    assert_eq!(found.join(", "), expected);
}

#[test]
fn rows_of_rules() {
    let names = rows("../rules/names", "text");
    for (call, must) in [("must", true), ("should", false)] {
        for (input, expected) in rows("../rules/certificates", call) {
            let octets = octets(&input);
            let broken: Vec<_> = Certificate::from_der(&octets).unwrap().broken_rules().collect();
            compare_rules(1, &names, &broken, must, &expected);
        }
    }
    let names = rows("../rules/names", "list_text");
    for (call, must) in [("list_must", true), ("list_should", false)] {
        for (input, expected) in rows("../rules/lists", call) {
            let octets = octets(&input);
            let broken: Vec<_> = CertificateList::from_der(&octets)
                .unwrap()
                .broken_rules()
                .collect();
            compare_rules(1001, &names, &broken, must, &expected);
        }
    }
}

/// The text of an error is that of the row, which may have the values of the error after it. Of a tag that isn't the
/// expected one, the crate has the tag that was found.
fn compare(found: Result<String, Error>, expected: &str, input: &str) {
    match found {
        Ok(found) => assert_eq!(found, expected, "{input}"),
        Err(error) => {
            let end = error
                .found()
                .map_or(String::new(), |tag| format!(", found {tag}"));
            let text = error.to_string();
            let text = text.strip_suffix(&end).expect("the tag is at the end");
            assert!(expected.starts_with(text), "{input}: {error}, and not {expected}");
            let is_of_tags = expected.contains("unexpected tag") || expected.contains("unexpected class");
            assert_eq!(error.found().is_some(), is_of_tags, "{input}: {error}");
        }
    }
}

fn spaced(octets: &[u8]) -> String {
    octets.iter().map(|octet| format!(" {octet:02x}")).collect()
}

#[test]
fn rows_of_extensions() {
    for (input, expected) in rows("extensions", "basic_constraints") {
        let found = BasicConstraints::from_der(&octets(&input)).map(|it| match it.path_length {
            Some(length) => format!("ca {} path {length}", it.ca),
            None => format!("ca {}", it.ca),
        });
        compare(found, &expected, &input);
    }
    for (input, expected) in rows("extensions", "key_usage") {
        let found = KeyUsage::from_der(&octets(&input)).map(|usage| {
            let names = [
                ("digital_signature", usage.digital_signature()),
                ("content_commitment", usage.content_commitment()),
                ("key_encipherment", usage.key_encipherment()),
                ("data_encipherment", usage.data_encipherment()),
                ("key_agreement", usage.key_agreement()),
                ("key_cert_sign", usage.key_cert_sign()),
                ("crl_sign", usage.crl_sign()),
                ("encipher_only", usage.encipher_only()),
                ("decipher_only", usage.decipher_only()),
            ];
            let names = names.iter().filter(|(_, has)| *has).map(|(name, _)| *name);
            names.collect::<Vec<_>>().join(" ")
        });
        compare(found, &expected, &input);
    }
    for (input, expected) in rows("extensions", "extended_key_usage") {
        let found = KeyPurposes::from_der(&octets(&input)).map(|it| format!("{} values", it.iter().count()));
        compare(found, &expected, &input);
    }
    for (input, expected) in rows("extensions", "authority_key_identifier") {
        let octets = octets(&input);
        let found = AuthorityKeyIdentifier::from_der(&octets).map(|it| {
            let key = it
                .key_identifier
                .map_or_else(String::new, |key| format!("key{}", spaced(key)));
            let number = |it: dumarewhi::Integer<'_>| format!(" serial{}", spaced(it.as_bytes()));
            (
                key,
                it.issuer.is_some(),
                it.serial_number.map_or_else(String::new, number),
            )
        });
        match found {
            Ok((key, has_issuer, number)) => {
                assert!(
                    expected.starts_with(&key) && expected.ends_with(&number),
                    "{input}"
                );
                assert_eq!(expected.contains("issuer"), has_issuer, "{input}");
            }
            Err(error) => compare(Err(error), &expected, &input),
        }
    }
}

/// The rows of a call say whether the octets are such a value, and with what error.
fn try_values<T>(call: &str, read: impl Fn(&[u8]) -> Result<T, Error>) {
    for (input, expected) in rows("extensions", call) {
        match read(&repeated(&input)) {
            Ok(_) => assert!(!expected.starts_with("at "), "{input}: {expected}"),
            Err(error) => compare(Err(error), &expected, &input),
        }
    }
}

/// Octets of a row, where `61*258` is one so many times.
fn repeated(input: &str) -> Vec<u8> {
    let parts = input.split_whitespace().map(|part| match part.split_once('*') {
        Some((octet, count)) => octets(octet).repeat(count.parse().unwrap()),
        None => octets(part),
    });
    parts.collect::<Vec<_>>().concat()
}

#[test]
fn rows_of_further_extensions() {
    try_values("policy_mappings", |octets| {
        PolicyMappings::from_der(octets).map(drop)
    });
    try_values("policy_constraints", PolicyConstraints::from_der);
    try_values("subject_directory_attributes", |octets| {
        DirectoryAttributes::from_der(octets).map(drop)
    });
    try_values("issuing_distribution_point", |octets| {
        IssuingDistributionPoint::from_der(octets).map(drop)
    });
    try_values("tls_features", |octets| TlsFeatures::from_der(octets).map(drop));
    try_values("signed_certificate_timestamps", |octets| {
        Timestamps::from_der(octets).map(drop)
    });
    try_values("qc_statements", |octets| QcStatements::from_der(octets).map(drop));
    try_values("organization_identifier", |octets| {
        OrganizationIdentifier::from_der(octets).map(drop)
    });
    let list = octets("04 09 00 07 00 02 61 62 00 01 63");
    let timestamps = Timestamps::from_der(&list).unwrap();
    assert!(timestamps.iter().eq([&b"ab"[..], &b"c"[..]]));
    let register = octets("30 10 13 03 4e 54 52 13 02 55 53 80 02 43 41 0c 01 31");
    let register = OrganizationIdentifier::from_der(&register).unwrap();
    let place = (
        register.scheme(),
        register.country(),
        register.state_or_province(),
    );
    assert_eq!((place, register.reference()), (("NTR", "US", Some("CA")), "1"));
    let list = octets("30 17 30 08 06 06 04 00 8e 46 01 01 30 0b 06 06 04 00 8e 46 01 03 02 01 0a");
    let statements = QcStatements::from_der(&list).unwrap().iter();
    let found: Vec<_> = statements.map(|it| (it.identifier(), it.info())).collect();
    let (first, second) = (oid!(0, 4, 0, 1862, 1, 1), oid!(0, 4, 0, 1862, 1, 3));
    assert_eq!(found, [(first, None), (second, Some((Tag::INTEGER, &[10][..])))]);
}

/// Rows that change an input: `to 9` cuts it, and `8=03` sets an octet or adds one.
fn try_changes(file: &str, call: &str, read: impl Fn(&[u8]) -> Result<(), Error>) {
    let path = format!(
        "{}/../../tests/rows/data/certificates/{file}.rows",
        env!("CARGO_MANIFEST_DIR")
    );
    let text = std::fs::read_to_string(path).unwrap();
    let (mut base, mut count) = (None, 0);
    for line in text.lines() {
        if line.starts_with('[') {
            let after = line.strip_prefix(&format!("[{call} of "));
            base = after.map(|it| octets(it.trim_end_matches(']')));
        }
        let parts: Vec<_> = line.split('|').map(str::trim).collect();
        let (base, change, expected) = match (&base, &parts[..]) {
            (Some(base), [change, expected, ..]) => (base, *change, *expected),
            _ => continue,
        };
        let mut octets = base.clone();
        match (change.strip_prefix("to "), change.split_once('=')) {
            (Some(length), _) => octets.truncate(length.parse().unwrap()),
            (None, Some((at, octet))) => {
                let at: usize = at.parse().unwrap();
                octets.resize(octets.len().max(at + 1), 0);
                octets[at] = u8::from_str_radix(octet, 16).unwrap();
            }
            _ => {}
        }
        match read(&octets) {
            Ok(()) => assert!(!expected.contains(" at "), "{change}: {expected}"),
            Err(error) => compare(Err(error), expected, change),
        }
        count += 1;
    }
    assert!(count > 5, "{call}");
}

#[test]
fn rows_of_changes() {
    try_changes("certificates", "certificate", |octets| {
        Certificate::from_der(octets).map(drop)
    });
    try_changes("requests_and_lists", "certificate_list", |octets| {
        CertificateList::from_der(octets).map(drop)
    });
    try_changes("requests_and_lists", "certification_request", |octets| {
        CertificationRequest::from_der(octets).map(drop)
    });
}

/// Each field of an AuthorityKeyIdentifier alone (RFC 5280 4.2.1.1).
#[test]
fn fields_of_an_authority() {
    let has = |text: &str| {
        let octets = octets(text);
        let it = AuthorityKeyIdentifier::from_der(&octets).unwrap();
        [
            it.key_identifier.is_some(),
            it.issuer.is_some(),
            it.serial_number.is_some(),
        ]
    };
    assert_eq!(has("30 03 80 01 05"), [true, false, false]);
    assert_eq!(has("30 05 a1 03 82 01 61"), [false, true, false]);
    assert_eq!(has("30 03 82 01 05"), [false, false, true]);
}

/// The list that rows are changes of: with the entry 5, and crlNumber 7.
#[test]
fn lists() {
    let octets = octets(
        "30 73 30 68 02 01 01 30 03 06 01 2a 30 0c 31 0a 30 08 06 03 55 04 03 0c 01 61 17 0d 32 36 30 31 30 31 30 30 \
         30 30 30 30 5a 17 0d 32 37 30 31 30 31 30 30 30 30 30 30 5a 30 22 30 20 02 01 05 17 0d 32 36 30 31 30 31 30 \
         30 30 30 30 30 5a 30 0c 30 0a 06 03 55 1d 15 04 03 0a 01 01 a0 0e 30 0c 30 0a 06 03 55 1d 14 04 03 02 01 07 \
         30 03 06 01 2a 03 02 00 01",
    );
    let it = CertificateList::from_der(&octets).unwrap();
    assert_eq!((it.version(), it.issuer().to_string()), (2, String::from("CN=a")));
    assert_eq!(it.this_update().to_string(), "2026-01-01T00:00:00Z");
    assert_eq!(it.next_update().unwrap().to_string(), "2027-01-01T00:00:00Z");
    let mut without = octets.clone();
    without.drain(41..56);
    without[1] -= 15;
    without[3] -= 15;
    let without = CertificateList::from_der(&without).map(|it| it.next_update());
    assert_eq!(without, Ok(None));
    let entries: Vec<_> = it.revoked_certificates().unwrap().iter().collect();
    assert_eq!(entries.len(), 1);
    let five = Integer::from_content(&[5]).unwrap();
    assert_eq!(
        (entries[0].serial_number(), entries[0].date()),
        (five, it.this_update())
    );
    assert_eq!(it.find(five), Some(entries[0]));
    assert_eq!(it.find(Integer::from_content(&[6]).unwrap()), None);
    let reason = entries[0].extensions().find(oid!(2, 5, 29, 21)).unwrap();
    assert_eq!(
        (reason.octets(), reason.is_critical()),
        (&[0x0a, 1, 1][..], false)
    );
    assert_eq!(
        it.extensions().find(oid!(2, 5, 29, 20)).unwrap().octets(),
        [2, 1, 7]
    );
    assert_eq!((it.tbs(), it.as_bytes()), (&octets[2..108], &octets[..]));
    assert_eq!(
        (it.signature(), it.signature_value().len()),
        (it.signature_algorithm(), 8)
    );
}

/// A request that openssl makes.
#[test]
fn requests() {
    let folder = shared::folder();
    let key = folder.join("key");
    let words = [
        "req",
        "-new",
        "-newkey",
        "ed25519",
        "-nodes",
        "-keyout",
        key.to_str().unwrap(),
        "-subj",
        "/O=A, B/CN=a.example",
        "-addext",
        "subjectAltName=DNS:b.example",
        "-outform",
        "DER",
    ];
    let made = openssl(&words, &[]);
    std::fs::remove_dir_all(&folder).unwrap();
    let octets = match made {
        Some(it) => it,
        None => return println!("left out: openssl makes no request"),
    };
    let it = CertificationRequest::from_der(&octets).unwrap();
    assert_eq!(it.subject().to_string(), r"CN=a.example,O=A\, B");
    assert_eq!(it.public_key().algorithm().identifier(), oid!(1, 3, 101, 112));
    let kinds: Vec<_> = it
        .attributes()
        .into_iter()
        .map(|attribute| attribute.identifier())
        .collect();
    assert_eq!(kinds, [oid!(1, 2, 840, 113549, 1, 9, 14)]);
    let names = it
        .extensions()
        .unwrap()
        .find(oid!(2, 5, 29, 17))
        .unwrap()
        .value()
        .unwrap();
    let names = match names {
        Value::SubjectAltName(it) => it,
        other => panic!("{other:?}"),
    };
    assert!(names.iter().eq([GeneralName::DnsName("b.example")]));
    assert_eq!((it.signature().len(), it.as_bytes()), (512, &octets[..]));
    assert!(it.info().len() < octets.len());
}

#[test]
fn errors() {
    let error = Certificate::from_der(&[0x30, 0x05]).unwrap_err();
    assert!(error.is_incomplete() && error.reason().is_none());
    assert_eq!(
        (error.field(), error.offset(), error.needed()),
        (Field::Certificate, 0, Some(5))
    );
    let error = Certificate::from_der(&[0x30, 0x02, 0x30, 0x00]).unwrap_err();
    assert_eq!(
        (error.field(), error.is_incomplete(), error.list_end()),
        (Field::SerialNumber, false, Some(4))
    );
    assert!(error.to_string().contains("serialNumber"), "{error}");
    assert_eq!(
        (error.kind(), error.reason()),
        (ErrorKind::Malformed(Reason::OVERRUN), Some(Reason::OVERRUN))
    );
    let shown = "Error { kind: Malformed(OVERRUN), offset: 4, field: SerialNumber }";
    assert_eq!(format!("{error:?}"), shown);
}

// What `callers/python/tests/certificates.c` prints.

fn put_octets(line: &mut String, octets: &[u8]) {
    let digits: String = octets.iter().map(|octet| format!("{octet:02x}")).collect();
    write!(line, " {}", if digits.is_empty() { "-" } else { &digits }).unwrap();
}

fn put_bits(line: &mut String, bits: Option<BitString<'_>>) {
    if let Some(bits) = bits {
        write!(line, " {}", bits.unused_bits()).unwrap();
    }
    put_octets(line, bits.map_or(&[], |bits| bits.raw_bytes()));
}

fn put_algorithm(line: &mut String, algorithm: dumarewhi::x509::Algorithm<'_>) {
    put_octets(line, algorithm.identifier().as_bytes());
    put_octets(line, algorithm.parameters().unwrap_or(&[]));
}

fn put_time(line: &mut String, it: Time) {
    let (date, clock) = ((it.year, it.month, it.day), (it.hour, it.minute, it.second));
    write!(line, " {:04}-{:02}-{:02}", date.0, date.1, date.2).unwrap();
    write!(
        line,
        "T{:02}:{:02}:{:02}.{:06}",
        clock.0,
        clock.1,
        clock.2,
        it.nanosecond / 1000
    )
    .unwrap();
}

fn put_error(line: &mut String, error: Error) {
    let (field, rule) = (
        error.field() as u32,
        error.reason().map_or(0, |reason| reason.number()),
    );
    write!(
        line,
        " fault {field} {} {rule} {} ({error})",
        error.offset(),
        error.needed().unwrap_or(0)
    )
    .unwrap();
}

fn put_attribute(line: &mut String, it: Attribute<'_>) {
    put_octets(line, it.identifier().as_bytes());
    let (tag, constructed) = (it.tag(), u8::from(it.is_constructed()));
    write!(line, " {}.{}.{constructed}", tag.class as u8, tag.number).unwrap();
    put_octets(line, it.value());
}

fn put_relative_name(line: &mut String, name: RelativeName<'_>) {
    line.push_str(" {");
    name.into_iter().for_each(|it| put_attribute(line, it));
    line.push_str(" }");
}

fn put_name(line: &mut String, name: Name<'_>) {
    put_octets(line, name.to_string().as_bytes());
    name.iter().for_each(|part| put_relative_name(line, part));
}

fn put_general_name(line: &mut String, name: GeneralName<'_>) {
    let (kind, octets) = match name {
        GeneralName::OtherName { identifier, value } => {
            line.push_str(" 0");
            put_octets(line, identifier.as_bytes());
            return put_octets(line, value);
        }
        GeneralName::DirectoryName(name) => {
            line.push_str(" 4");
            return put_name(line, name);
        }
        GeneralName::Rfc822Name(text) => (1, text.as_bytes()),
        GeneralName::DnsName(text) => (2, text.as_bytes()),
        GeneralName::X400Address(octets) => (3, octets),
        GeneralName::EdiPartyName(octets) => (5, octets),
        GeneralName::Uri(text) => (6, text.as_bytes()),
        GeneralName::IpAddress(octets) => (7, octets),
        GeneralName::RegisteredId(identifier) => (8, identifier.as_bytes()),
        other => panic!("{other:?}"),
    };
    write!(line, " {kind}").unwrap();
    put_octets(line, octets);
}

fn put_general_names(line: &mut String, names: GeneralNames<'_>) {
    names.iter().for_each(|name| put_general_name(line, name));
}

fn put_policy(line: &mut String, policy: Policy<'_>) {
    line.push_str(" policy");
    put_octets(line, policy.identifier().as_bytes());
    for qualifier in policy.qualifiers() {
        line.push_str(" qualifier");
        put_octets(line, qualifier.identifier().as_bytes());
        put_any(line, qualifier.value());
    }
}

fn put_point(line: &mut String, point: DistributionPoint<'_>) {
    line.push_str(" point");
    put_general_names(line, point.full_name());
    put_relative_name(line, point.relative_name());
    put_bits(line, point.reasons());
    line.push_str(" of");
    put_general_names(line, point.crl_issuer());
}

fn put_subtrees(line: &mut String, title: &str, subtrees: Subtrees<'_>) {
    line.push_str(title);
    for tree in subtrees {
        put_general_name(line, tree.base());
        write!(line, " from {}", tree.minimum()).unwrap();
        tree.maximum()
            .iter()
            .for_each(|it| write!(line, " to {it}").unwrap());
    }
}

fn put_access(line: &mut String, description: AccessDescription<'_>) {
    line.push_str(" access");
    put_octets(line, description.method().as_bytes());
    put_general_name(line, description.location());
}

fn put_any(line: &mut String, (tag, content): (Tag, &[u8])) {
    write!(line, " {}.{}", tag.class as u8, tag.number).unwrap();
    put_octets(line, content);
}

fn put_issuing_point(line: &mut String, point: IssuingDistributionPoint<'_>) {
    line.push_str(" issuing");
    put_general_names(line, point.full_name());
    put_relative_name(line, point.relative_name());
    put_bits(line, point.reasons());
    line.push(' ');
    for flag in [
        point.only_contains_user_certs(),
        point.only_contains_ca_certs(),
        point.is_indirect(),
        point.only_contains_attribute_certs(),
    ] {
        line.push(if flag { '1' } else { '0' });
    }
}

fn put_organization(line: &mut String, it: OrganizationIdentifier<'_>) {
    line.push_str(" organization");
    put_octets(line, it.scheme().as_bytes());
    put_octets(line, it.country().as_bytes());
    if let Some(state) = it.state_or_province() {
        line.push_str(" of");
        put_octets(line, state.as_bytes());
    }
    put_octets(line, it.reference().as_bytes());
}

/// A value of the further extensions.
fn put_further_value(line: &mut String, value: Value<'_>) {
    match value {
        Value::PolicyMappings(it) => it.iter().for_each(|mapping| {
            line.push_str(" mapping");
            put_octets(line, mapping.issuer_policy().as_bytes());
            put_octets(line, mapping.subject_policy().as_bytes());
        }),
        Value::PolicyConstraints(it) => {
            line.push_str(" constraints");
            let explicit = it.require_explicit_policy.iter();
            explicit.for_each(|number| write!(line, " explicit {number}").unwrap());
            let mapping = it.inhibit_policy_mapping.iter();
            mapping.for_each(|number| write!(line, " mapping {number}").unwrap());
        }
        Value::InhibitAnyPolicy(number) => write!(line, " any {number}").unwrap(),
        Value::SubjectDirectoryAttributes(it) => it.iter().for_each(|attribute| {
            line.push_str(" attribute");
            put_octets(line, attribute.identifier().as_bytes());
            put_octets(line, attribute.values());
        }),
        Value::CrlNumber(number) | Value::DeltaCrlIndicator(number) => put_octets(line, number.as_bytes()),
        Value::IssuingDistributionPoint(it) => put_issuing_point(line, it),
        Value::InvalidityDate(date) => put_time(line, date),
        Value::CertificateIssuer(names) => put_general_names(line, names),
        Value::SignedCertificateTimestamps(it) => it.iter().for_each(|timestamp| {
            line.push_str(" timestamp");
            put_octets(line, timestamp);
        }),
        Value::TlsFeatures(it) => {
            line.push_str(" features");
            it.iter().for_each(|number| write!(line, " {number}").unwrap());
        }
        Value::QcStatements(it) => {
            line.push_str(" statements");
            for statement in it {
                put_octets(line, statement.identifier().as_bytes());
                statement.info().into_iter().for_each(|info| put_any(line, info));
            }
        }
        Value::OrganizationIdentifier(it) => put_organization(line, it),
        Value::NoRevAvail | Value::OcspNoCheck | Value::PrecertificatePoison => line.push_str(" null"),
        other => panic!("{other:?}"),
    }
}

fn put_value(line: &mut String, extension: &Extension<'_>) {
    match extension.value() {
        Ok(Value::BasicConstraints(it)) => {
            write!(line, " ca {}", u8::from(it.ca)).unwrap();
            it.path_length
                .iter()
                .for_each(|length| write!(line, " {length}").unwrap());
        }
        Ok(Value::KeyUsage(usage)) => write!(line, " usage {}", usage.bits()).unwrap(),
        Ok(Value::SubjectAltName(names) | Value::IssuerAltName(names)) => put_general_names(line, names),
        Ok(Value::ExtendedKeyUsage(it)) => it.iter().for_each(|purpose| put_octets(line, purpose.as_bytes())),
        Ok(Value::SubjectKeyIdentifier(octets) | Value::Other(octets)) => put_octets(line, octets),
        Ok(Value::AuthorityKeyIdentifier(it)) => {
            line.push_str(" key");
            it.key_identifier.iter().for_each(|key| put_octets(line, key));
            line.push_str(" issuer");
            it.issuer.iter().for_each(|names| put_general_names(line, *names));
            line.push_str(" serial");
            it.serial_number
                .iter()
                .for_each(|number| put_octets(line, number.as_bytes()));
        }
        Ok(Value::CertificatePolicies(it)) => it.iter().for_each(|policy| put_policy(line, policy)),
        Ok(Value::CrlDistributionPoints(it) | Value::FreshestCrl(it)) => {
            it.iter().for_each(|point| put_point(line, point));
        }
        Ok(Value::NameConstraints(it)) => {
            put_subtrees(line, " permitted", it.permitted());
            put_subtrees(line, " excluded", it.excluded());
        }
        Ok(Value::AuthorityInfoAccess(it) | Value::SubjectInfoAccess(it)) => {
            it.iter().for_each(|description| put_access(line, description));
        }
        Ok(Value::ReasonCode(_)) => write!(line, " reason {}", extension.octets()[2]).unwrap(),
        Ok(other) => put_further_value(line, other),
        Err(error) => put_error(line, error),
    }
}

fn put_certificate(line: &mut String, it: &Certificate<'_>) {
    write!(line, " version {}", it.version()).unwrap();
    put_octets(line, it.tbs());
    put_octets(line, it.serial_number().as_bytes());
    put_algorithm(line, it.signature());
    put_name(line, it.issuer());
    put_time(line, it.not_before());
    put_time(line, it.not_after());
    put_name(line, it.subject());
    put_algorithm(line, it.public_key().algorithm());
    put_bits(line, Some(it.public_key().bits()));
    put_bits(line, it.issuer_unique_id());
    put_bits(line, it.subject_unique_id());
    put_algorithm(line, it.signature_algorithm());
    put_bits(line, Some(it.signature_value()));
    for extension in it.extensions() {
        line.push_str(" extension");
        put_octets(line, extension.identifier().as_bytes());
        write!(line, " {}", u8::from(extension.is_critical())).unwrap();
        put_value(line, &extension);
    }
    let unknown = it.extensions().has_unknown_critical();
    write!(line, " unknown {}", u8::from(unknown)).unwrap();
}

fn line_of(found: Result<Certificate<'_>, Error>) -> String {
    let mut line = String::new();
    match found {
        Ok(it) => put_certificate(&mut line, &it),
        Err(error) => put_error(&mut line, error),
    }
    line
}

/// Sound certificates, and damaged ones.
fn inputs() -> Vec<Vec<u8>> {
    let mut sound = store();
    sound.extend(known());
    sound.extend(with_further_extensions());
    for (input, _) in rows("strict", "strict_certificate") {
        sound.push(octets(&input));
    }
    let mut random = Random(0x9e3779b97f4a7c15);
    let mut inputs = sound.clone();
    for _ in 0..DAMAGED {
        let input = &sound[random.below(sound.len())];
        inputs.push(damaged(input, &mut random));
    }
    inputs
}

#[test]
fn damaged_certificates_as_in_c() {
    let inputs = inputs();
    let mut file = Vec::new();
    for input in &inputs {
        file.extend((input.len() as u32).to_le_bytes());
        file.extend(input);
    }
    let text = match run_c("python/tests/certificates.c", &file) {
        Some(it) => it,
        None => return,
    };
    let lines: Vec<_> = text.lines().collect();
    assert_eq!(lines.len(), 2 * inputs.len());
    let (mut read, mut faults) = (0, std::collections::BTreeSet::new());
    for (input, lines) in inputs.iter().zip(lines.chunks(2)) {
        let own = [
            line_of(Certificate::from_der(input)),
            line_of(Certificate::from_strict_der(input)),
        ];
        assert_eq!(own, lines, "{input:02x?}");
        read += usize::from(lines[0].starts_with(" version"));
        faults.insert(own[0].split(' ').nth(2).map(String::from));
    }
    println!(
        "{read} of {} are read, faults in {} fields",
        inputs.len(),
        faults.len()
    );
    assert!(read > 200 && faults.len() > 8);
}
