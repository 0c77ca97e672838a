//! The rows of the writers of certification requests and LDAP messages. The rows stand in `data`.
//!
//! A row's input are the values that are written, and its answer the octets.

mod capacities;
mod requests;
mod searches;

use crate::writers::requests::{algorithm_text, alternative_names_text, name_text, request_text};
use crate::writers::searches::search_text;
use std::alloc::Global;
use test_tables::fault::Fault;
use test_tables::run::Calls;

/// The writers.
pub struct Writers;

impl Calls for Writers {
    fn answer(&self, alloc: Global, call: &str, input: &str) -> Result<String, Fault> {
        match call {
            "request" => request_text(alloc, input),
            "name" => name_text(alloc, input),
            "algorithm" => algorithm_text(alloc, input),
            "alternative_names" => alternative_names_text(alloc, input),
            "search" => search_text(alloc, input),
            _ => Err(Fault::NoSuchCall),
        }
    }
}
