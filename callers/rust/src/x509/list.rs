//! CRLs.
use super::{rule, Algorithm, BrokenRule, Extensions, Name};
use crate::{BitString, Integer, Time};

parts! {
    /// A CRL (RFC 5280 5.1).
    CertificateList: CertificateListFields by read_certificate_list;
    /// The encoding of tbsCertList: the octets that are signed.
    tbs as &'a [u8],
    /// The algorithm of the signature, from the signed part.
    signature as Algorithm<'a>,
    /// Who signed it.
    issuer as Name<'a>,
    /// The extensions, if any.
    extensions as Extensions<'a>,
    /// The algorithm of the signature.
    signature_algorithm as Algorithm<'a>,
    /// The signature. It isn't verified.
    signature_value as BitString<'a>,
    /// When it was issued.
    this_update as Time,
    /// When the next one will be issued at the latest.
    next_update as Option<Time>,
    /// The version, 1 or 2.
    version as u32,
}

impl<'a> CertificateList<'a> {
    /// The revoked certificates. `None` if the field is absent: then there are none (5.1.2.6).
    pub fn revoked_certificates(&self) -> Option<RevokedCertificates<'a>> {
        (self.0.has_revoked != 0).then(|| self.0.revoked.into())
    }

    /// All rules of RFC 5280's text that the CRL breaks: first those with MUST, then those with SHOULD.
    pub fn broken_rules(&self) -> impl Iterator<Item = BrokenRule> {
        rule::broken_rules(true, self.as_bytes())
    }

    /// The entry of the certificate with this serial number, if it is revoked.
    pub fn find(&self, serial_number: Integer<'_>) -> Option<RevokedCertificate<'a>> {
        let mut entries = self.revoked_certificates()?.iter();
        entries.find(|entry| entry.serial_number() == serial_number)
    }
}

list! {
    /// The entries of a [`CertificateList`].
    RevokedCertificates, RevokedCertificatesIter of RevokedCertificate<'a> => next_revoked
}

parts! {
    /// A revoked certificate (RFC 5280 5.1.2.6).
    RevokedCertificate: RevokedFields;
    /// Its serial number.
    serial_number as Integer<'a>,
    /// The extensions of the entry (5.3), such as its reason.
    extensions as Extensions<'a>,
    /// When it was revoked.
    date as Time,
}
