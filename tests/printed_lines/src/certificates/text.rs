//! The lines that describe a certificate.
use crate::certificates::contents::Contents;
use crate::certificates::values::Value;
use der_extensions::{BasicConstraints, GeneralName, GeneralNames};
use der_parser::ber::ASN1DateTime;
use der_parser::values::BitString;
use x509::{Extension, Version};
use extension_text::names::NameText;
use std::fmt;
use std::net::IpAddr;

/// The uses of a key, by the number of the bit (RFC 5280 4.2.1.3).
const KEY_USES: [&str; 9] = [
    "Digital Signature",
    "Non Repudiation",
    "Key Encipherment",
    "Data Encipherment",
    "Key Agreement",
    "Certificate Sign",
    "CRL Sign",
    "Encipher Only",
    "Decipher Only",
];

/// How many nanoseconds a digit of a fraction of a second is worth, from the first digit on.
const PLACES: [u32; 9] = [
    100_000_000,
    10_000_000,
    1_000_000,
    100_000,
    10_000,
    1_000,
    100,
    10,
    1,
];

/// What is printed of a list that has nothing.
const EMPTY: &str = "    <EMPTY>";

/// The lines of a certificate.
#[derive(Clone, Copy)]
pub struct Certified<'r, 'a>(pub &'r Contents<'a>);

impl fmt::Display for Certified<'_, '_> {
    fn fmt<W: fmt::Write>(&self, f: &mut fmt::Formatter<W>) -> fmt::Result {
        let contents = self.0;
        let fields = &contents.certificate.tbs_certificate;
        let key_info = &fields.subject_public_key_info;
        writeln!(f, "version={}", number_of(fields.version))?;
        writeln!(f, "serial={}", Serial(fields.serial_number))?;
        writeln!(f, "signatureAlgorithm={}", fields.signature.algorithm)?;
        writeln!(f, "issuer={}", NameText { name: fields.issuer })?;
        writeln!(
            f,
            "notBefore={}",
            Moment(fields.validity.not_before.moment())
        )?;
        writeln!(f, "notAfter={}", Moment(fields.validity.not_after.moment()))?;
        writeln!(f, "subject={}", NameText { name: fields.subject })?;
        writeln!(f, "keyAlgorithm={}", key_info.algorithm.algorithm)?;
        writeln!(f, "keyOctets={}", key_info.subject_public_key.octets.len())?;
        for (extension, value) in fields.extensions.iter().zip(&contents.values) {
            write_extension(f, &extension, value)?;
        }
        Ok(())
    }
}

/// The number by which a version is known, one more than its encoding.
fn number_of(version: Version) -> u32 {
    match version {
        Version::V1 => 1,
        Version::V2 => 2,
        Version::V3 => 3,
    }
}

/// A number in two's complement, printed in hexadecimal digits as openssl does: -5 as `-05`.
#[derive(Clone, Copy)]
struct Serial<'a>(&'a [u8]);

impl fmt::Display for Serial<'_> {
    fn fmt<W: fmt::Write>(&self, f: &mut fmt::Formatter<W>) -> fmt::Result {
        match self.0 {
            [0x80..=0xff, ..] => write_negative(f, self.0),
            [0, octets @ ..] if !octets.is_empty() => write_octets(f, octets),
            octets => write_octets(f, octets),
        }
    }
}

fn write_octets<W: fmt::Write>(f: &mut fmt::Formatter<W>, octets: &[u8]) -> fmt::Result {
    for octet in octets {
        write!(f, "{octet:02X}")?;
    }
    Ok(())
}

/// Writes a minus sign and the octets of the opposite number: each bit is inverted, and 1 is added.
fn write_negative<W: fmt::Write>(f: &mut fmt::Formatter<W>, octets: &[u8]) -> fmt::Result {
    f.write_str("-")?;
    let last = last_that_is_not_zero(octets);
    for (i, octet) in octets.iter().enumerate() {
        let opposite = if i < last {
            !*octet
        } else {
            octet.wrapping_neg()
        };
        if i > 0 || opposite > 0 {
            write!(f, "{opposite:02X}")?;
        }
    }
    Ok(())
}

/// The index of the last octet that isn't 0, up to which adding 1 to the inverted octets carries.
fn last_that_is_not_zero(octets: &[u8]) -> usize {
    let mut last = 0;
    for (i, octet) in octets.iter().enumerate() {
        if *octet != 0 {
            last = i;
        }
    }
    last
}

/// A digest, printed as openssl prints fingerprints: pairs of hexadecimal digits with colons between them.
#[derive(Clone, Copy)]
pub struct Fingerprint<'a>(pub &'a [u8]);

impl fmt::Display for Fingerprint<'_> {
    fn fmt<W: fmt::Write>(&self, f: &mut fmt::Formatter<W>) -> fmt::Result {
        for (i, octet) in self.0.iter().enumerate() {
            let colon = if i > 0 { ":" } else { "" };
            write!(f, "{colon}{octet:02X}")?;
        }
        Ok(())
    }
}

/// A moment in universal time.
#[derive(Clone, Copy)]
struct Moment(ASN1DateTime);

impl fmt::Display for Moment {
    fn fmt<W: fmt::Write>(&self, f: &mut fmt::Formatter<W>) -> fmt::Result {
        let time = self.0;
        write!(f, "{:04}-{:02}-{:02} ", time.year, time.month, time.day)?;
        write!(f, "{:02}:{:02}:{:02}", time.hour, time.minute, time.second)?;
        if let Some(nanosecond) = time.nanosecond {
            write_fraction(f, nanosecond)?;
        }
        f.write_str("Z")
    }
}

/// Writes a number of nanoseconds as a fraction of a second, without zeros at its end.
fn write_fraction<W: fmt::Write>(f: &mut fmt::Formatter<W>, nanosecond: u32) -> fmt::Result {
    f.write_str(".")?;
    let mut left = nanosecond;
    for place in PLACES {
        write!(f, "{}", left / place)?;
        left %= place;
        if left == 0 {
            break;
        }
    }
    Ok(())
}

/// Writes the identifier of an extension, and its value on the next line.
fn write_extension<W: fmt::Write>(
    f: &mut fmt::Formatter<W>,
    extension: &Extension<'_>,
    value: &Value<'_>,
) -> fmt::Result {
    let critical = if extension.critical { " critical" } else { "" };
    writeln!(f, "extension={}{critical}", extension.identifier)?;
    match value {
        Value::BasicConstraints(constraints) => write_constraints(f, constraints),
        Value::KeyUsage(bits) => write_key_uses(f, bits),
        Value::SubjectAltName(names) => write_names(f, names),
        Value::Other => Ok(()),
    }
}

fn write_constraints<W: fmt::Write>(
    f: &mut fmt::Formatter<W>,
    constraints: &BasicConstraints,
) -> fmt::Result {
    match (constraints.ca, constraints.path_length) {
        (true, Some(length)) => writeln!(f, "    CA:TRUE, pathlen:{length}"),
        (true, None) => writeln!(f, "    CA:TRUE"),
        (false, Some(length)) => writeln!(f, "    CA:FALSE, pathlen:{length}"),
        (false, None) => writeln!(f, "    CA:FALSE"),
    }
}

fn write_key_uses<W: fmt::Write>(f: &mut fmt::Formatter<W>, bits: &BitString<'_>) -> fmt::Result {
    let mut follows_another = false;
    for (bit, name) in KEY_USES.iter().enumerate() {
        if bits.is_set(bit) {
            write_separator(f, follows_another)?;
            f.write_str(name)?;
            follows_another = true;
        }
    }
    if !follows_another {
        f.write_str(EMPTY)?;
    }
    writeln!(f)
}

fn write_names<W: fmt::Write>(f: &mut fmt::Formatter<W>, names: &GeneralNames<'_>) -> fmt::Result {
    for (i, name) in names.iter().enumerate() {
        write_separator(f, i > 0)?;
        write_name(f, &name)?;
    }
    writeln!(f)
}

/// Writes the separator before a word: a comma, or the indentation before the first.
fn write_separator<W: fmt::Write>(f: &mut fmt::Formatter<W>, follows_another: bool) -> fmt::Result {
    f.write_str(if follows_another { ", " } else { "    " })
}

/// Writes a name. Octets that aren't printable ASCII are escaped. Of the kinds that aren't texts, addresses
/// or identifiers, only the number is written.
fn write_name<W: fmt::Write>(f: &mut fmt::Formatter<W>, name: &GeneralName<'_>) -> fmt::Result {
    match name {
        GeneralName::OtherName(_) => f.write_str("[0]"),
        GeneralName::Rfc822Name(text) => write!(f, "email:{}", text.as_bytes().escape_ascii()),
        GeneralName::DnsName(text) => write!(f, "DNS:{}", text.as_bytes().escape_ascii()),
        GeneralName::X400Address(_) => f.write_str("[3]"),
        GeneralName::DirectoryName(_) => f.write_str("[4]"),
        GeneralName::EdiPartyName(_) => f.write_str("[5]"),
        GeneralName::UniformResourceIdentifier(text) => {
            write!(f, "URI:{}", text.as_bytes().escape_ascii())
        }
        GeneralName::IpAddress(octets) => write_address(f, octets),
        GeneralName::RegisteredId(identifier) => write!(f, "Registered ID:{identifier}"),
    }
}

/// Writes an address of 4 or 16 octets, and any other as invalid.
fn write_address<W: fmt::Write>(f: &mut fmt::Formatter<W>, octets: &[u8]) -> fmt::Result {
    if let Ok(octets) = <[u8; 4]>::try_from(octets) {
        return write!(f, "IP Address:{}", IpAddr::from(octets));
    }
    match <[u8; 16]>::try_from(octets) {
        Ok(octets) => write!(f, "IP Address:{}", IpAddr::from(octets)),
        Err(_) => write!(f, "IP Address:<invalid>"),
    }
}
