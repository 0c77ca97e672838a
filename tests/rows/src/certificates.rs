//! The rows of the readers of certificates, of lists of revoked certificates, of certification requests and of the
//! values of extensions. The rows stand in `data`.
//!
//! A row's input are the octets that are read. Where its call is `CALL of OCTETS`, it says what is changed in these.

mod certificates;
mod damage;
mod extension_values;
mod extensions;
mod further_values;
mod lists_of_extensions;
mod partial;
mod reasons;
mod requests;
mod revocation_values;
mod times;
mod unknown;
mod web_values;

use crate::certificates::certificates::{certificate, fields, lists, reason, relative_names, strict_certificate};
use crate::certificates::damage::damaged_text;
use crate::certificates::extension_values::extension_value;
use crate::certificates::extensions::extension;
use crate::certificates::partial::partial;
use crate::certificates::reasons::{reason_code, reasons};
use crate::certificates::requests::{certificate_list, certification_request, request_password};
use crate::certificates::times::{compared, contained};
use crate::certificates::unknown::unknown_critical;
use test_damage::octets_of;
use std::alloc::Global;
use test_tables::fault::Fault;
use test_tables::run::Calls;

/// The readers of certificates, and of what goes with them.
pub struct Readers;

impl Calls for Readers {
    fn answer(&self, alloc: Global, call: &str, input: &str) -> Result<String, Fault> {
        if let Some(words) = call.strip_prefix("damaged ") {
            return damaged_text(alloc, words, input);
        }
        match call {
            "is_before" => compared(alloc, input),
            "contains" => contained(alloc, input),
            "extension" => extension(alloc, input),
            _ => {
                let (call, octets) = octets_of(alloc, call, input)?;
                answer_of_octets(alloc, call, &octets)
            }
        }
    }
}

/// What the call of this name answers on these octets.
fn answer_of_octets(alloc: Global, call: &str, octets: &[u8]) -> Result<String, Fault> {
    match call {
        "certificate" => certificate(alloc, octets),
        "reason" => reason(alloc, octets),
        "strict_certificate" => strict_certificate(alloc, octets),
        "fields" => fields(alloc, octets),
        "lists" => lists(alloc, octets),
        "relative_names" => relative_names(alloc, octets),
        "partial" => partial(alloc, octets),
        "certificate_list" => certificate_list(alloc, octets),
        "certification_request" => certification_request(alloc, octets),
        "request_password" => request_password(alloc, octets),
        "reason_code" => reason_code(alloc, octets),
        "reasons" => reasons(alloc, octets),
        "has_unknown_critical" => unknown_critical(alloc, octets),
        _ => extension_value(alloc, call, octets),
    }
}
