//! Certificates and CRLs (RFC 5280), requests (RFC 2986) and keys (RFC 5958, RFC 5915, RFC 8017).
//!
//! ```no_run
//! use dumarewhi::x509::Certificate;
//!
//! let octets = std::fs::read("certificate.der")?;
//! let certificate = Certificate::from_der(&octets)?;
//! println!("{}, to {}", certificate.subject(), certificate.not_after());
//! for name in certificate.extensions().subject_alt_name()?.into_iter().flatten() {
//!     println!("{name}");
//! }
//! # Ok::<(), std::io::Error>(())
//! ```
//!
//! Names, keys and values are parts of the input, not copies. Signatures and paths aren't verified. Certificates and
//! the like compare by their octets.
#[macro_use]
mod parts;
mod extension;
mod key;
mod list;
mod name;
mod request;
mod rule;
mod values;

pub use crate::numbers::{Curve, Field, KeyType, RevocationReason};
pub use crate::Error;
pub use extension::*;
pub use key::*;
pub use list::*;
pub use name::*;
pub use request::*;
pub use rule::BrokenRule;
pub use values::*;

use crate::ffi::{self, AlgorithmFields, BitsFields};
use crate::{BitString, Integer, ObjectIdentifier, Time};

parts! {
    /// A certificate (RFC 5280 4.1). The content of values of any type (parameters, attributes) isn't checked.
    Certificate: CertificateFields by read_certificate;
    /// The encoding of tbsCertificate: the octets that are signed.
    tbs as &'a [u8],
    /// The serial number.
    serial_number as Integer<'a>,
    /// The algorithm of the signature, from the signed part.
    signature as Algorithm<'a>,
    /// Who signed it.
    issuer as Name<'a>,
    /// Whose key it has.
    subject as Name<'a>,
    /// issuerUniqueID, of versions 2 and 3.
    issuer_unique_id as Option<BitString<'a>>,
    /// subjectUniqueID, of versions 2 and 3.
    subject_unique_id as Option<BitString<'a>>,
    /// The extensions, if any.
    extensions as Extensions<'a>,
    /// The algorithm of the signature.
    signature_algorithm as Algorithm<'a>,
    /// The signature. It isn't verified.
    signature_value as BitString<'a>,
    /// Start of validity.
    not_before as Time,
    /// End of validity, inclusive.
    not_after as Time,
    /// The version, 1 to 3.
    version as u32,
}

impl<'a> Certificate<'a> {
    /// Reads a certificate and also checks rules of RFC 5280's text: those of [`Reason`](crate::Reason) with numbers
    /// 128 to 139. The first broken rule is an error at offset 0.
    pub fn from_strict_der(input: &'a [u8]) -> Result<Certificate<'a>, Error> {
        Ok(Certificate(ffi::read_strict_certificate(input)?, input))
    }

    /// All rules of RFC 5280's text, and of RFCs beside it, that the certificate breaks: first those with MUST, then
    /// those with SHOULD. [`from_strict_der`](Self::from_strict_der) knows fewer rules.
    ///
    /// ```no_run
    /// # use dumarewhi::x509::Certificate;
    /// # let octets = std::fs::read("certificate.der")?;
    /// for rule in Certificate::from_der(&octets)?.broken_rules().filter(|rule| rule.is_must()) {
    ///     println!("{rule}");
    /// }
    /// # Ok::<(), std::io::Error>(())
    /// ```
    pub fn broken_rules(&self) -> impl Iterator<Item = BrokenRule> {
        rule::broken_rules(false, self.as_bytes())
    }

    /// The subject's key.
    pub fn public_key(&self) -> PublicKey<'a> {
        PublicKey::new(self.0.key_algorithm, self.0.key)
    }

    /// Whether it is valid at this second since 1970-01-01 00:00:00 UTC. Both ends are included.
    pub fn is_valid_at(&self, unix_seconds: u64) -> bool {
        ffi::is_valid_at(&self.0, unix_seconds)
    }

    /// Whether it is valid by the system's clock.
    #[cfg(feature = "std")]
    pub fn is_valid_now(&self) -> bool {
        let since = std::time::UNIX_EPOCH.elapsed();
        since.map_or(false, |since| self.is_valid_at(since.as_secs()))
    }

    /// The SHA-256 digest (FIPS 180-4) of all octets.
    pub fn fingerprint(&self) -> [u8; 32] {
        ffi::sha256(self.as_bytes())
    }
}

parts! {
    /// An algorithm (RFC 5280 4.1.1.2).
    Algorithm: AlgorithmFields;
    /// Its identifier.
    identifier as ObjectIdentifier<'a>,
}

impl<'a> Algorithm<'a> {
    /// The encoding of its parameters, one element of any type.
    pub fn parameters(&self) -> Option<&'a [u8]> {
        Some(self.0.parameters.get()).filter(|octets| !octets.is_empty())
    }
}

/// A key (RFC 5280 4.1.2.7).
#[derive(Clone, Copy, Debug, PartialEq, Eq, Hash)]
pub struct PublicKey<'a> {
    algorithm: Algorithm<'a>,
    bits: BitString<'a>,
}

impl<'a> PublicKey<'a> {
    fn new(algorithm: AlgorithmFields<'a>, bits: BitsFields<'a>) -> PublicKey<'a> {
        PublicKey {
            algorithm: algorithm.into(),
            bits: bits.into(),
        }
    }

    /// The key's algorithm.
    pub fn algorithm(&self) -> Algorithm<'a> {
        self.algorithm
    }

    /// The key as its algorithm encodes it.
    pub fn bits(&self) -> BitString<'a> {
        self.bits
    }

    fn kind(&self) -> ffi::KeyKindFields {
        ffi::key_type(&self.algorithm.0, &self.bits.into())
    }
}

key_kind!(PublicKey);
