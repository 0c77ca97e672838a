//! The rows of the readers of names, of private keys, and of messages of SNMP, LDAP and Kerberos. The rows stand in
//! `data`.
//!
//! A row's input are the octets that are read. Where its call is `CALL of OCTETS`, it says what is changed in these.

mod damage;
mod messages;
mod names;

use crate::messages::damage::damaged_text;
use crate::messages::messages::message;
use test_damage::octets_of;
use std::alloc::Global;
use test_tables::fault::Fault;
use test_tables::run::Calls;

/// The readers of names, keys and messages.
pub struct Readers;

impl Calls for Readers {
    fn answer(&self, alloc: Global, call: &str, input: &str) -> Result<String, Fault> {
        if let Some(name) = call.strip_prefix("damaged ") {
            return damaged_text(alloc, name, input);
        }
        let (call, octets) = octets_of(alloc, call, input)?;
        message(alloc, call, &octets)
    }
}
