//! The lines that describe a list.
use x509::crl::{CertificateList, RevokedCertificate, reason_of};
use der_base::time::ASN1DateTime;
use x509::{Extensions, Version};
use extension_text::names::NameText;
use std::fmt;

/// The lines of a list. Octets are in hexadecimal digits.
#[derive(Clone, Copy)]
pub struct Listed<'r, 'a>(pub &'r CertificateList<'a>);

impl fmt::Display for Listed<'_, '_> {
    fn fmt<W: fmt::Write>(&self, f: &mut fmt::Formatter<W>) -> fmt::Result {
        let whole = self.0;
        let list = &whole.tbs_cert_list;
        let is_first = list.version == Version::V1;
        writeln!(f, "version={}", if is_first { 1 } else { 2 })?;
        writeln!(f, "signatureAlgorithm={}", list.signature.algorithm)?;
        writeln!(f, "issuer={}", NameText { name: list.issuer })?;
        writeln!(f, "thisUpdate={}", Moment(list.this_update.moment()))?;
        if let Some(time) = list.next_update {
            writeln!(f, "nextUpdate={}", Moment(time.moment()))?;
        }
        write_extensions(f, "extension", &list.crl_extensions)?;
        if let Some(entries) = list.revoked_certificates {
            for entry in entries.iter() {
                write_entry(f, &entry)?;
            }
        }
        writeln!(f, "signature={}", Hex(whole.signature_value.octets))
    }
}

/// Writes the serial number and the date of an entry, its reason, and its extensions.
fn write_entry<W: fmt::Write>(
    f: &mut fmt::Formatter<W>,
    entry: &RevokedCertificate<'_>,
) -> fmt::Result {
    writeln!(f, "revoked={}", Hex(entry.user_certificate))?;
    writeln!(f, "    date={}", Moment(entry.revocation_date.moment()))?;
    write_extensions(f, "    extension", &entry.crl_entry_extensions)
}

/// Writes each extension: the reason that it has, or its octets.
fn write_extensions<W: fmt::Write>(
    f: &mut fmt::Formatter<W>,
    label: &str,
    extensions: &Extensions<'_>,
) -> fmt::Result {
    for extension in extensions.iter() {
        let critical = if extension.critical { " critical" } else { "" };
        write!(f, "{label}={}{critical} ", extension.identifier)?;
        match reason_of(&extension) {
            Ok(Some(reason)) => writeln!(f, "reason {}", reason.number())?,
            Ok(None) => writeln!(f, "{}", Hex(extension.value))?,
            Err(e) => writeln!(f, "{e}")?,
        }
    }
    Ok(())
}

/// Octets in hexadecimal digits.
#[derive(Clone, Copy)]
struct Hex<'a>(&'a [u8]);

impl fmt::Display for Hex<'_> {
    fn fmt<W: fmt::Write>(&self, f: &mut fmt::Formatter<W>) -> fmt::Result {
        for octet in self.0 {
            write!(f, "{octet:02x}")?;
        }
        Ok(())
    }
}

/// A moment in universal time.
#[derive(Clone, Copy)]
struct Moment(ASN1DateTime);

impl fmt::Display for Moment {
    fn fmt<W: fmt::Write>(&self, f: &mut fmt::Formatter<W>) -> fmt::Result {
        let time = self.0;
        write!(f, "{:04}-{:02}-{:02} ", time.year, time.month, time.day)?;
        write!(f, "{:02}:{:02}:{:02}Z", time.hour, time.minute, time.second)
    }
}
