//! Messages of SNMP, LDAP and Kerberos, and the names of a certificate.
use crate::messages::keys::Printed;
use crate::messages::request_fields::Requested;
use anyhow::{Context, Result, anyhow};
use der_base::rules::Rules;
use der_known::KnownTypes;
use extension_text::names::NameText;
use messages::kerberos::read_request;
use std::io::Write;
use std::str;
use test_ldap_stream::print_messages;
use type_words::words_text;
use x509::read_certificate;

/// Prints the issuer and the subject of a certificate.
pub fn print_names(rt: &HostRuntime, input: &[u8]) -> Result<()> {
    let fields = read_certificate(input).map_err(|e| anyhow!("{e}"))?.tbs_certificate;
    let (issuer, subject) = (NameText { name: fields.issuer }, NameText { name: fields.subject });
    let text = format!(in rt.alloc(); "issuer={issuer}\nsubject={subject}")?;
    println!(rt; "{text}")?;
    Ok(())
}

/// Prints the request for a ticket.
pub fn print_request(rt: &HostRuntime, input: &[u8], printed: Printed) -> Result<()> {
    let request = read_request(rt.alloc(), input)?;
    match printed {
        Printed::Fields => print!(rt; "{}", Requested(&request))?,
        Printed::Words => print_words(rt, input, "AS-REQ")?,
    }
    Ok(())
}

/// Prints each message of SNMP, up to one that is refused.
pub fn print_snmp(rt: &HostRuntime, input: &[u8], printed: Printed) -> Result<()> {
    let mut rest = input;
    // Each message has an octet or more, so the loop ends at the end of the input.
    for _ in 0..input.len() {
        if rest.is_empty() {
            break;
        }
        let offset = input.len().saturating_sub(rest.len());
        let read = messages::snmp::read_message(rt.alloc(), rest);
        let (after, message) = read.map_err(|e| anyhow!("message at {offset}: {e}"))?;
        match printed {
            Printed::Fields => println!(rt; "{message}")?,
            Printed::Words => print_words(rt, &rest[..rest.len() - after.len()], "Message")?,
        }
        rest = after;
    }
    Ok(())
}

/// Prints octets by the words of the known type with this name.
fn print_words(rt: &HostRuntime, octets: &[u8], name: &str) -> Result<()> {
    let types = KnownTypes::new();
    let schema = types.type_named(name).context("a known type")?;
    let (text, end) = words_text(rt.alloc(), octets, Rules::Ber, schema)?;
    rt.stdout().write_all(&text)?;
    if let Some(refusal) = end {
        println!(rt; "refused at {}", refusal.offset)?;
    }
    Ok(())
}

/// Prints the octets of each line by the words of a known type, whose name is before their digits.
pub fn print_types(rt: &HostRuntime, input: &[u8]) -> Result<()> {
    for line in str::from_utf8(input)?.lines() {
        let (name, digits) = line.split_once(' ').context("a type and octets")?;
        let octets = hex::decode(rt.alloc(), digits)?;
        print_words(rt, &octets, name)?;
    }
    Ok(())
}

/// Prints each message of LDAP, up to one that is refused.
pub fn print_ldap(rt: &HostRuntime, input: &[u8], printed: Printed) -> Result<()> {
    if printed == Printed::Fields {
        let mut stream = input;
        return print_messages(rt.alloc(), &mut stream, &mut rt.stdout());
    }
    let mut rest = input;
    // Each message has an octet or more, so the loop ends at the end of the input.
    for _ in 0..input.len() {
        if rest.is_empty() {
            break;
        }
        let offset = input.len().saturating_sub(rest.len());
        let read = messages::ldap::read_message(rt.alloc(), rest);
        let (after, _) = read.map_err(|e| anyhow!("message at {offset}: {e}"))?;
        print_words(rt, &rest[..rest.len() - after.len()], "LDAPMessage")?;
        rest = after;
    }
    Ok(())
}
