//! Messages with each of their elements damaged.
use der_base::error::Err as Refused;
use der_cursor::Cursor;
use der_uses::names::read_name;
use test_damage::{Outcome, Reader, damaged};
use messages::kerberos::read_request;
use x509_keys::{read_private_key, read_rsa_private_key};
use std::alloc::Global;
use test_tables::fault::Fault;
use test_tables::octets::octets;

/// What the reader of this name does with the message, and with its damaged copies that it doesn't refuse at the
/// place of the damage.
pub fn damaged_text(alloc: Global, name: &str, input: &str) -> Result<String, Fault> {
    let Some(kind) = Kind::named(name) else {
        return Err(Fault::NoSuchCall);
    };
    let message = octets(alloc, input)?;
    Ok(damaged(alloc, &message, &[], &kind)?)
}

/// What a message is read as.
#[derive(Clone, Copy)]
enum Kind {
    PrivateKey,
    RsaPrivateKey,
    KerberosRequest,
    SnmpMessage,
    LdapMessage,
    /// With a cursor, as x509 does.
    Name,
    /// As der_uses::names does, which reports no offset.
    PlainName,
}

impl Kind {
    fn named(name: &str) -> Option<Kind> {
        match name {
            "private_key" => Some(Kind::PrivateKey),
            "rsa_private_key" => Some(Kind::RsaPrivateKey),
            "kerberos_request" => Some(Kind::KerberosRequest),
            "snmp_message" => Some(Kind::SnmpMessage),
            "ldap_message" => Some(Kind::LdapMessage),
            "name" => Some(Kind::Name),
            "plain_name" => Some(Kind::PlainName),
            _ => None,
        }
    }
}

impl Reader for Kind {
    fn outcome(&self, alloc: Global, octets: &[u8]) -> Outcome {
        match self {
            Kind::PrivateKey => private_key(octets),
            Kind::RsaPrivateKey => rsa_private_key(octets),
            Kind::KerberosRequest => kerberos_request(alloc, octets),
            Kind::SnmpMessage => snmp_message(alloc, octets),
            Kind::LdapMessage => ldap_message(alloc, octets),
            Kind::Name => name(octets),
            Kind::PlainName => plain_name(alloc, octets),
        }
    }
}

fn private_key(octets: &[u8]) -> Outcome {
    match read_private_key(octets).err() {
        None => Outcome::Read,
        Some(refused) => Outcome::RefusedAt(refused.refusal.offset),
    }
}

fn rsa_private_key(octets: &[u8]) -> Outcome {
    match read_rsa_private_key(octets).err() {
        None => Outcome::Read,
        Some(refused) => Outcome::RefusedAt(refused.refusal.offset),
    }
}

fn kerberos_request(alloc: Global, octets: &[u8]) -> Outcome {
    match read_request(alloc, octets).err() {
        None => Outcome::Read,
        Some(refused) => Outcome::RefusedAt(refused.refusal.offset),
    }
}

fn snmp_message(alloc: Global, octets: &[u8]) -> Outcome {
    let Some(refused) = messages::snmp::read_message(alloc, octets).err() else {
        return Outcome::Read;
    };
    match refused.refusal.reason {
        Refused::Incomplete(_) => Outcome::Incomplete,
        _ => Outcome::RefusedAt(refused.refusal.offset),
    }
}

fn ldap_message(alloc: Global, octets: &[u8]) -> Outcome {
    let Some(refused) = messages::ldap::read_message(alloc, octets).err() else {
        return Outcome::Read;
    };
    match refused.refusal.reason {
        Refused::Incomplete(_) => Outcome::Incomplete,
        _ => Outcome::RefusedAt(refused.refusal.offset),
    }
}

fn name(octets: &[u8]) -> Outcome {
    let mut input = Cursor::new(octets);
    match x509::parts::read_name(&mut input).err() {
        None => Outcome::Read,
        Some(refusal) => Outcome::RefusedAt(refusal.offset),
    }
}

fn plain_name(alloc: Global, octets: &[u8]) -> Outcome {
    match read_name(alloc, octets).err() {
        None => Outcome::Read,
        Some(_) => Outcome::Refused,
    }
}
