//! Prints messages that others wrote, of the kind that the third argument names. With `fields` as the second it prints
//! what the readers return, field by field, and with `words` the texts of `show`. What is refused is printed too:
//! the field, the offset and the reason.

mod key_fields;
mod keys;
mod packets;
mod request_fields;

use crate::messages::keys::{Printed, print_keys};
use crate::messages::packets::{print_ldap, print_names, print_request, print_snmp, print_types};
use anyhow::{Context, Result, bail};
use std::env;
use std::io::Read;
use std::process::ExitCode;

/// Prints the messages of the standard input, or why it can't.
pub fn print_input(rt: &HostRuntime) -> Result<ExitCode> {
    match print_messages(rt) {
        Ok(()) => Ok(ExitCode::SUCCESS),
        Err(e) => {
            println!(rt; "Error: {e}")?;
            Ok(ExitCode::FAILURE)
        }
    }
}

/// Prints the messages of the standard input.
fn print_messages(rt: &HostRuntime) -> Result<()> {
    let arguments = env::args(rt)?;
    let mut arguments = arguments.skip(2);
    let printed = match arguments.next().context("fields or words")?.as_str() {
        "fields" => Printed::Fields,
        "words" => Printed::Words,
        other => bail!("{other} is neither fields nor words"),
    };
    let kind = arguments.next().context("a kind of messages")?;
    let mut input = Vec::new(rt.alloc());
    rt.stdin().read_to_end(&mut input)?;
    match kind.as_str() {
        "keys" => print_keys(rt, &input, printed),
        "names" => print_names(rt, &input),
        "kerberos" => print_request(rt, &input, printed),
        "snmp" => print_snmp(rt, &input, printed),
        "ldap" => print_ldap(rt, &input, printed),
        "types" => print_types(rt, &input),
        other => bail!("{other} is no kind of messages"),
    }
}
