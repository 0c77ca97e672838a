//! Names of identifiers.
use oid_names::{NAMES, OwnNames, name_among, name_of};
use std::alloc::Global;
use std::str;
use test_tables::fault::Fault;

/// The table is longer than this.
const NAMES_LENGTH: usize = 30_000;

/// The name of an identifier with these octets, or `none`.
pub fn name(alloc: Global, octets: &[u8]) -> Result<String, Fault> {
    Ok(format!(in alloc; "{}", name_of(octets).unwrap_or("none"))?)
}

/// Whether the table is a long one, and the identifier of each of its lines has the name of the line.
pub fn are_found(alloc: Global) -> Result<String, Fault> {
    let mut are_found = NAMES.len() > NAMES_LENGTH;
    for line in NAMES.lines() {
        are_found = are_found && is_found(alloc, line);
    }
    Ok(format!(in alloc; "{are_found}")?)
}

/// Whether the identifier of a line has its name.
fn is_found(alloc: Global, line: &str) -> bool {
    let Some((digits, name)) = line.split_once(' ') else {
        return false;
    };
    let Ok(octets) = hex::decode(alloc, digits) else {
        return false;
    };
    name_of(&octets) == Some(name)
}

/// The names of 1.2.3 and 2.5.4.3 by a table of one's own, or why it is none.
pub fn own_names(alloc: Global, text: &[u8]) -> Result<String, Fault> {
    let Ok(text) = str::from_utf8(text) else {
        return Err(Fault::Input);
    };
    match OwnNames::read(alloc, text) {
        Ok(names) => {
            let ours = name_among(Some(&names), b"\x2a\x03").unwrap_or("none");
            let common = name_among(Some(&names), b"\x55\x04\x03").unwrap_or("none");
            Ok(format!(in alloc; "{ours}, {common}")?)
        }
        Err(e) => Ok(format!(in alloc; "{e}")?),
    }
}
