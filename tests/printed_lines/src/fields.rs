//! The lines of inputs with the names of their fields, which `make-lines` puts together of what openssl lists and
//! asn1crypto and the RFCs name.
//!
//! A line of input has a word for a type, and octets. The lines of output are the name of the type, those of the
//! elements up to their types, and how the input fits the type.

use anyhow::{Context, Result, ensure};
use der_base::rules::Rules;
use text_json::fields::{Named, schema_named, write_fields};
use der_known::KnownTypes;
use der_print::{Limit, Style};
use der_schema::Schema;
use der_elements::{Element, Walk};
use std::io::Read;

/// Values are whole.
const STYLE: Style = Style { limit: Limit::Whole, colours: false };

/// Prints the lines of each input.
pub fn print_input(rt: &HostRuntime) -> Result<()> {
    let known = KnownTypes::new();
    let mut input = String::new(rt.alloc());
    rt.stdin().read_to_string(&mut input)?;
    for line in input.lines() {
        let (word, octets) = line.split_once(';').context("octets")?;
        let octets = hex::decode(rt.alloc(), octets)?;
        let schema = schema_named(&known, word, &octets, Rules::Der).context("a known type")?;
        print_fields(rt, &octets, schema)?;
    }
    Ok(())
}

/// Prints the name of a type, the elements of an input with names, and how the input fits the type.
fn print_fields(rt: &HostRuntime, octets: &[u8], schema: Schema<'_>) -> Result<()> {
    println!(rt; "{}", schema.name)?;
    let mut text = Vec::new(rt.alloc());
    let named = write_fields(rt.alloc(), octets, schema, Rules::Der, STYLE, None, &mut text)?;
    print_without_values(rt, octets, std::str::from_utf8(&text)?)?;
    match named {
        Named::Whole => println!(rt; "whole")?,
        Named::Lacks => println!(rt; "a mandatory component lacks")?,
        Named::Left(offset) => println!(rt; "not in {}: {offset}", schema.name)?,
        Named::Refused(end) => match end.left {
            Some(left) => println!(rt; "refused: {}, not in {}: {left}", end.refusal.offset, schema.name)?,
            None => println!(rt; "refused: {}", end.refusal.offset)?,
        },
    }
    Ok(())
}

/// What a line of a secret element ends with.
const SECRET: &str = " (secret)";

/// Prints the lines of the elements of an input, each up to the type, and whether it is secret.
fn print_without_values(rt: &HostRuntime, octets: &[u8], text: &str) -> Result<()> {
    let mut walk = Walk::new(octets, Rules::Der, true);
    let mut lines = text.lines();
    let mut ahead = lines.next();
    while let (Some(line), Ok(Some(element))) = (ahead, walk.next_element()) {
        let (offset, _) = line.trim_start().split_once(' ').context("an offset")?;
        // An element inside a secret one has no line.
        if offset.parse::<usize>()? == element.offset {
            print_up_to_type(rt, line, &element)?;
            ahead = lines.next();
        }
    }
    ensure!(ahead.is_none(), "a line of no element");
    Ok(())
}

/// Prints the line of an element up to its type, and whether it is secret.
fn print_up_to_type(rt: &HostRuntime, line: &str, element: &Element<'_>) -> Result<()> {
    let kind = format!(in rt.alloc(); "{}", element.name())?;
    let begin = line.find(kind.as_str()).context("a type")?;
    let end = if line.ends_with(SECRET) { SECRET } else { "" };
    println!(rt; "{}{end}", &line[..begin + kind.len()])?;
    Ok(())
}
