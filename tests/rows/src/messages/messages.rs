//! Messages, by the names of their readers: `read`, or the refusal as it is printed.
use crate::messages::names::{name_text, plain_name};
use messages::kerberos::read_request;
use x509_keys::{read_private_key, read_rsa_private_key};
use messages::snmp::read_message;
use std::alloc::Global;
use std::fmt::Display;
use test_tables::fault::Fault;

/// What the reader of this name answers.
pub fn message(alloc: Global, call: &str, octets: &[u8]) -> Result<String, Fault> {
    match call {
        "private_key" => refusal(alloc, read_private_key(octets).err()),
        "rsa_private_key" => refusal(alloc, read_rsa_private_key(octets).err()),
        "kerberos_request" => refusal(alloc, read_request(alloc, octets).err()),
        "snmp_message" => refusal(alloc, read_message(alloc, octets).err()),
        "ldap_message" => refusal(alloc, messages::ldap::read_message(alloc, octets).err()),
        "written_name" => name_text(alloc, octets),
        "name" => plain_name(alloc, octets),
        _ => Err(Fault::NoSuchCall),
    }
}

fn refusal<E: Display + Drop>(alloc: Global, refused: Option<E>) -> Result<String, Fault> {
    let text = match refused {
        None => format!(in alloc; "read")?,
        Some(refused) => format!(in alloc; "{refused}")?,
    };
    Ok(text)
}
