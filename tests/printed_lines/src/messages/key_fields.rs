//! The fields of a private key, a line for each.
use x509_keys::{PrivateKeyInfo, RsaPrivateKey};
use std::fmt;

/// The lines of a key. Octets are in hexadecimal digits.
#[derive(Clone, Copy)]
pub struct Described<'r, 'a>(pub &'r PrivateKeyInfo<'a>);

impl fmt::Display for Described<'_, '_> {
    fn fmt<W: fmt::Write>(&self, f: &mut fmt::Formatter<W>) -> fmt::Result {
        let key = self.0;
        writeln!(f, "version={}", key.version)?;
        writeln!(f, "algorithm={}", key.algorithm.identifier)?;
        if let Some(parameters) = key.algorithm.parameters {
            writeln!(f, "parameters={}", Hex(parameters.bytes))?;
        }
        writeln!(f, "privateKey={}", Hex(key.private_key))?;
        if let Some(attributes) = key.attributes {
            writeln!(f, "attributes={}", Hex(attributes.remaining()))?;
        }
        if let Some(public_key) = key.public_key {
            writeln!(f, "publicKey={}", Hex(public_key.octets))?;
        }
        Ok(())
    }
}

/// The lines of the numbers of a key.
#[derive(Clone, Copy)]
pub struct Numbered<'r, 'a>(pub &'r RsaPrivateKey<'a>);

impl fmt::Display for Numbered<'_, '_> {
    fn fmt<W: fmt::Write>(&self, f: &mut fmt::Formatter<W>) -> fmt::Result {
        let key = self.0;
        writeln!(f, "modulus={}", Hex(key.modulus))?;
        writeln!(f, "publicExponent={}", Hex(key.public_exponent))?;
        writeln!(f, "privateExponent={}", Hex(key.private_exponent))?;
        writeln!(f, "prime1={}", Hex(key.prime1))?;
        writeln!(f, "prime2={}", Hex(key.prime2))?;
        writeln!(f, "exponent1={}", Hex(key.exponent1))?;
        writeln!(f, "exponent2={}", Hex(key.exponent2))?;
        writeln!(f, "coefficient={}", Hex(key.coefficient))?;
        if let Some(others) = key.other_primes {
            writeln!(f, "otherPrimeInfos={}", Hex(others.remaining()))?;
        }
        Ok(())
    }
}

/// Octets in hexadecimal digits.
#[derive(Clone, Copy)]
struct Hex<'a>(&'a [u8]);

impl fmt::Display for Hex<'_> {
    fn fmt<W: fmt::Write>(&self, f: &mut fmt::Formatter<W>) -> fmt::Result {
        for octet in self.0 {
            write!(f, "{octet:02x}")?;
        }
        Ok(())
    }
}
