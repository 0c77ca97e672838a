//! Inputs of the kind that users have, an element a row: its octets, up to its content where it is
//! a list, and the text that is printed of it.
use crate::tests::runs::expect_run;
use std::test::Fail;

/// The octets of an element, and its text; no octets at the end of a list.
type Row = (&'static [u8], &'static str);

/// A certificate (X.509) in parts, made by
/// `openssl req -x509 -key KEY -subj /C=FR/O=Example/CN=example.org -days 30 -set_serial 4660`
/// with an Ed25519 key.
const CERTIFICATE: &[&[Row]] = &[SIGNED, NAME, VALIDITY, NAME, KEY_AND_SIGNATURE];

/// The certificate, and what is signed of it, up to the issuer.
#[rattlefmt::skip]
const SIGNED: &[Row] = &[
    (b"\x30\x82\x01\x6d", "Sequence[\n"),
    (b"\x30\x82\x01\x1f", "  Sequence[\n"),
    // version 3, serial number 1234
    (b"\xa0\x03\x02\x01\x02", "    Unknown [02 01 02]"),
    (b"\x02\x02\x12\x34", "    Integer([12 34])"),
    // the algorithm of the signature, Ed25519
    (b"\x30\x05", "    Sequence[\n"),
    (b"\x06\x03\x2b\x65\x70", "      OID(1.3.101.112)"),
    (b"", "    ]"),
];

/// The issuer, and the subject, which is the same: a country, an organization, a common name.
#[rattlefmt::skip]
const NAME: &[Row] = &[
    (b"\x30\x35", "    Sequence[\n"),
    (b"\x31\x0b", "      Set[\n"),
    (b"\x30\x09", "        Sequence[\n"),
    (b"\x06\x03\x55\x04\x06", "          OID(2.5.4.6)"),
    (b"\x13\x02\x46\x52", "          PrintableString(\"FR\")"),
    (b"", "        ]"),
    (b"", "      ]"),
    (b"\x31\x10", "      Set[\n"),
    (b"\x30\x0e", "        Sequence[\n"),
    (b"\x06\x03\x55\x04\x0a", "          OID(2.5.4.10)"),
    (b"\x0c\x07\x45\x78\x61\x6d\x70\x6c\x65", "          UTF8String(\"Example\")"),
    (b"", "        ]"),
    (b"", "      ]"),
    (b"\x31\x14", "      Set[\n"),
    (b"\x30\x12", "        Sequence[\n"),
    (b"\x06\x03\x55\x04\x03", "          OID(2.5.4.3)"),
    (b"\x0c\x0b\x65\x78\x61\x6d\x70\x6c\x65\x2e\x6f\x72\x67", "          UTF8String(\"example.org\")"),
    (b"", "        ]"),
    (b"", "      ]"),
    (b"", "    ]"),
];

/// Not before, not after.
#[rattlefmt::skip]
const VALIDITY: &[Row] = &[
    (b"\x30\x1e", "    Sequence[\n"),
    (b"\x17\x0d\x32\x36\x31\x31\x32\x32\x31\x33\x34\x30\x32\x36\x5a", "      UTCTime(\"261122134026Z\")"),
    (b"\x17\x0d\x32\x36\x31\x32\x32\x32\x31\x33\x34\x30\x32\x36\x5a", "      UTCTime(\"261222134026Z\")"),
    (b"", "    ]"),
];

/// The public key, the extensions and the signature.
#[rattlefmt::skip]
const KEY_AND_SIGNATURE: &[Row] = &[
    (b"\x30\x2a", "    Sequence[\n"),
    (b"\x30\x05", "      Sequence[\n"),
    (b"\x06\x03\x2b\x65\x70", "        OID(1.3.101.112)"),
    (b"", "      ]"),
    (b"\
        \x03\x21\x00\x9b\x00\xbb\x98\xa3\xac\x08\xc6\x1e\x58\x32\x37\x35\xf7\xf7\x48\xef\xd9\xf1\x15\xb9\xd8\x31\
        \xa9\x70\x89\x7e\xd4\xd6\xc4\xbf\x05",
        "      BitString(0,[9b 00 bb 98 a3 ac 08 c6 1e 58 32 37 35 f7 f7 48 ef d9 f1 15 b9 d8 31 a9 70 89 7e d4 \
        d6 c4 bf 05])"),
    (b"", "    ]"),
    // the extensions, behind a tag of their own
    (b"\
        \xa3\x53\x30\x51\x30\x1d\x06\x03\x55\x1d\x0e\x04\x16\x04\x14\x1d\xcd\x96\xac\xdb\xb2\x4d\xf0\xf6\x21\x6c\
        \x8e\x18\x4c\x61\x16\x15\x36\x04\xaa\x30\x1f\x06\x03\x55\x1d\x23\x04\x18\x30\x16\x80\x14\x1d\xcd\x96\xac\
        \xdb\xb2\x4d\xf0\xf6\x21\x6c\x8e\x18\x4c\x61\x16\x15\x36\x04\xaa\x30\x0f\x06\x03\x55\x1d\x13\x01\x01\xff\
        \x04\x05\x30\x03\x01\x01\xff",
        "    Unknown [30 51 30 1d 06 03 55 1d 0e 04 16 04 14 1d cd 96 ac db b2 4d f0 f6 21 6c 8e 18 4c 61 16 15 \
        36 04 aa 30 1f 06 03 55 1d 23 04 18 30 16 80 14 1d cd 96 ac db b2 4d f0 f6 21 6c 8e 18 4c 61 16 15 36 \
        04 aa 30 0f 06 03 55 1d 13 01 01 ff 04 05 30 03 01 01 ff]"),
    (b"", "  ]"),
    // the signature
    (b"\x30\x05", "  Sequence[\n"),
    (b"\x06\x03\x2b\x65\x70", "    OID(1.3.101.112)"),
    (b"", "  ]"),
    (b"\
        \x03\x41\x00\x28\x3d\x06\x6f\x18\xcb\x45\x37\xd4\x76\xff\x30\xe8\x85\xc4\xd7\x00\x7d\xa5\xf6\x73\x8a\x6b\
        \x1b\x9d\xd9\x71\xd4\x17\x3d\x4d\x2e\x51\x3c\x5c\x0c\x09\xc3\x89\x63\x50\x64\x4d\x6e\x5f\xfe\x20\x73\xb2\
        \x2b\x18\x4b\x52\x01\xcf\x15\x11\x30\xf0\xfd\x8f\xb2\x27\x00",
        "  BitString(0,[28 3d 06 6f 18 cb 45 37 d4 76 ff 30 e8 85 c4 d7 00 7d a5 f6 73 8a 6b 1b 9d d9 71 d4 17 \
        3d 4d 2e 51 3c 5c 0c 09 c3 89 63 50 64 4d 6e 5f fe 20 73 b2 2b 18 4b 52 01 cf 15 11 30 f0 fd 8f b2 27 \
        00])"),
    (b"", "]"),
];
/// A request for `sysDescr.0` (SNMP version 1, RFC 1157), by its fields.
#[rattlefmt::skip]
const SNMP_REQUEST: &[Row] = &[
    (b"\x30\x29", "Sequence[\n"),
    // version 1, community "public"
    (b"\x02\x01\x00", "  Integer([00])"),
    (b"\x04\x06public", "  OctetString([70 75 62 6c 69 63])"),
    // GetRequest, implicitly tagged
    (b"\
        \xa0\x1c\x02\x04\x6d\x5a\x3b\x21\x02\x01\x00\x02\x01\x00\x30\x0e\x30\x0c\x06\x08\x2b\x06\x01\x02\x01\x01\
        \x01\x00\x05\x00",
        "  Unknown [02 04 6d 5a 3b 21 02 01 00 02 01 00 30 0e 30 0c 06 08 2b 06 01 02 01 01 01 00 05 00]"),
    (b"", "]"),
];

/// The variable bindings of that request by themselves.
#[rattlefmt::skip]
const SNMP_BINDINGS: &[Row] = &[
    (b"\x30\x0e", "Sequence[\n"),
    (b"\x30\x0c", "  Sequence[\n"),
    (b"\x06\x08\x2b\x06\x01\x02\x01\x01\x01\x00", "    OID(1.3.6.1.2.1.1.1.0)"),
    (b"\x05\x00", "    Null"),
    (b"", "  ]"),
    (b"", "]"),
];

/// An anonymous simple bind (LDAP version 3, RFC 4511), by its fields.
#[rattlefmt::skip]
const LDAP_BIND: &[Row] = &[
    (b"\x30\x0c", "Sequence[\n"),
    (b"\x02\x01\x01", "  Integer([01])"),
    // BindRequest, implicitly tagged: version 3, no name, no password
    (b"\x60\x07\x02\x01\x03\x04\x00\x80\x00", "  Unknown [02 01 03 04 00 80 00]"),
    (b"", "]"),
];

/// A content of CMS (RFC 5652) in indefinite lengths, made from the text `hello` by
/// `openssl cms -data_create -stream -outform DER -binary`.
#[rattlefmt::skip]
const CMS_DATA: &[Row] = &[
    (b"\x30\x80", "Sequence[\n"),
    // id-data
    (b"\x06\x09\x2a\x86\x48\x86\xf7\x0d\x01\x07\x01", "  OID(1.2.840.113549.1.7.1)"),
    // the content, explicitly tagged: an OCTET STRING in segments
    (b"\xa0\x80\x24\x80\x04\x05hello\x00\x00\x00\x00", "  Unknown [24 80 04 05 68 65 6c 6c 6f 00 00]"),
    (b"\x00\x00", "]"),
];

/// The word of each run, and its elements in parts.
const RUNS: &[(&str, &[&[Row]])] = &[
    ("der", CERTIFICATE),
    ("ber", CERTIFICATE),
    ("der", &[SNMP_REQUEST]),
    ("der", &[SNMP_BINDINGS]),
    ("der", &[LDAP_BIND]),
    ("ber", &[CMS_DATA]),
];

#[test]
fn real_inputs_are_printed(rt: HostRuntime) -> Result<(), Fail> {
    for (word, parts) in RUNS {
        let mut input = Vec::new(rt.alloc());
        let mut printed = String::new(rt.alloc());
        for rows in *parts {
            for (octets, text) in *rows {
                input.extend_from_slice(octets)?;
                printed.push_str(text)?;
            }
        }
        printed.push('\n')?;
        expect_run(&rt, word, &mut input.as_slice(), (&printed, "", 0));
    }
    Ok(())
}
