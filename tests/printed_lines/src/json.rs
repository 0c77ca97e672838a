//! The values of lines in JSON. A line of input is one that `show` prints of a certificate, a CRL, a certification request
//! or a key. The line of output is the value that docs/show-json.schema.json gives it.

use anyhow::{Context, Result};
use std::io::Read;
use text_json::shown::{Source, shown_json};

/// Prints the value of each line.
pub fn print_input(rt: &HostRuntime) -> Result<()> {
    let mut input = String::new(rt.alloc());
    rt.stdin().read_to_string(&mut input)?;
    for line in input.lines() {
        print_value(rt, line)?;
    }
    Ok(())
}

/// Prints the value of a line.
fn print_value(rt: &HostRuntime, line: &str) -> Result<()> {
    let source = Source { file: "", block: None, label: None };
    let object = shown_json(rt.alloc(), source, b"", line.as_bytes(), true)?;
    let (_, value) = object.split_once("\"value\":").context("a value")?;
    let (value, _) = value.split_once(",\"words\"").context("words")?;
    println!(rt; "{value}")?;
    Ok(())
}
