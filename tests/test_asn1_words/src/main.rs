//! The words of messages by types of modules, beside those by der_known.
//!
//! The arguments are `types` or the name of a type, and files of modules. After `types` a line of input has the name of
//! a type, and the octets behind a space. After another name the input is elements of that type, one after another. For
//! each type a line of output has the number of inputs with the same words. Others are printed.

use anyhow::{Context, Result};
use asn1_types::Types;
use der_elements::check::check_element;
use der_elements::{MAX_DEPTH, Rules};
use der_known::KnownTypes;
use std::alloc::Global;
use std::collections::BTreeMap;
use std::env;
use std::fs;
use std::io::Read;
use type_words::words_text;

#[cfg(test)]
mod texts;
#[cfg(test)]
mod words;

fn main(rt: HostRuntime) -> Result<()> {
    let asked = env::args(&rt)?.nth(1).context("a name")?;
    let types = types_of_files(&rt)?;
    let known = KnownTypes::new();
    let mut input = Vec::new(rt.alloc());
    rt.stdin().read_to_end(&mut input)?;
    let text = String::from_utf8_lossy(rt.alloc(), &input)?;
    let mut counts: BTreeMap<&str, usize> = BTreeMap::new(rt.alloc());
    let mut others = Vec::new(rt.alloc());
    if asked.as_str() == "types" {
        for line in text.lines() {
            let (name, octets) = line.split_once(' ').context("octets")?;
            let octets = hex::decode(rt.alloc(), octets)?;
            compare(rt.alloc(), &types, &known, name, &octets, &mut counts, &mut others)?;
        }
        return print(&rt, &counts, &others);
    }
    let mut rest = input.as_slice();
    while !rest.is_empty() {
        let after = check_element(rest, Rules::Ber, MAX_DEPTH + 1).context("an element")?;
        let (element, _) = rest.split_at(rest.len() - after.len());
        compare(rt.alloc(), &types, &known, asked.as_str(), element, &mut counts, &mut others)?;
        rest = after;
    }
    print(&rt, &counts, &others)
}

/// Counts an input, or adds its words by both types.
fn compare<'n>(
    alloc: Global,
    types: &Types,
    known: &KnownTypes,
    name: &'n str,
    octets: &[u8],
    counts: &mut BTreeMap<&'n str, usize>,
    others: &mut Vec<u8>,
) -> Result<()> {
    let ours = types.type_named(name).context("a type of a module")?;
    let theirs = known.type_named(name).context("a known type")?;
    let (ours, _) = words_text(alloc, octets, Rules::Ber, ours)?;
    let (theirs, _) = words_text(alloc, octets, Rules::Ber, theirs)?;
    if ours.as_slice() == theirs.as_slice() {
        let count = counts.entry(name)?.or_insert(0);
        *count = count.saturating_add(1);
        return Ok(());
    }
    others.extend_from_slice(&ours)?;
    others.extend_from_slice(b"instead of\n")?;
    others.extend_from_slice(&theirs)?;
    Ok(())
}

fn print(rt: &HostRuntime, counts: &BTreeMap<&str, usize>, others: &[u8]) -> Result<()> {
    let others = String::from_utf8_lossy(rt.alloc(), others)?;
    print!(rt; "{others}")?;
    for (name, count) in counts {
        println!(rt; "{name}: {count}")?;
    }
    Ok(())
}

/// The types of the files that the arguments name.
fn types_of_files(rt: &HostRuntime) -> Result<Types> {
    let mut files = Vec::new(rt.alloc());
    for file in env::args(rt)?.skip(2) {
        files.push(fs::read(rt, file.as_str())?)?;
    }
    let mut texts: Vec<&[u8]> = Vec::new(rt.alloc());
    for file in &files {
        texts.push(file)?;
    }
    Ok(Types::from_texts(rt.alloc(), &texts)?)
}
