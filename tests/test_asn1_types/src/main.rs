//! The types of the modules of asn1_types beside those of der_known, and modules with damage.
//!
//! The modules are the files here that end in `.asn1`. With no argument each type of der_known is compared with those
//! of its name. Lines of input are rows: what differs, and why. What differs and has no row is printed, and each row
//! that holds no longer. With an argument so many damaged modules are read.

use anyhow::{Context, Result};
use asn1_types::Types;
use der_known::KnownTypes;
use std::collections::{BTreeMap, BTreeSet};
use std::env;
use std::fs;
use std::io::Read;
use std::process::ExitCode;

#[cfg(test)]
mod damage;
mod damaged;
#[cfg(test)]
mod errors;
mod graphs;
#[cfg(test)]
mod shapes;
#[cfg(test)]
mod texts;
mod titles;
mod words;

use crate::damaged::{Outcomes, read_damaged};
use crate::graphs::Comparison;

fn main(rt: HostRuntime) -> Result<ExitCode> {
    let files = module_files(&rt)?;
    let mut modules: Vec<&[u8]> = Vec::new(rt.alloc());
    for file in &files {
        modules.push(file)?;
    }
    match env::args(&rt)?.nth(1) {
        Some(count) => print_damaged(&rt, &modules, count.parse()?),
        None => print_differences(&rt, &modules),
    }
}

/// Reads so many damaged modules. Some have to be read, and some to have errors, all in the text.
fn print_damaged(rt: &HostRuntime, modules: &[&[u8]], count: u64) -> Result<ExitCode> {
    let Outcomes { read, errors, misplaced } = read_damaged(rt.alloc(), modules, count)?;
    if read == 0 || errors == 0 || misplaced > 0 {
        println!(rt; "{read} are read, {errors} have an error, {misplaced} an error outside of the text")?;
        return Ok(ExitCode::FAILURE);
    }
    println!(rt; "{count} damaged modules are read or have an error in the text")?;
    Ok(ExitCode::SUCCESS)
}

/// Compares the types of modules with those of der_known, and prints what the rows don't say.
fn print_differences(rt: &HostRuntime, modules: &[&[u8]]) -> Result<ExitCode> {
    let types = Types::from_texts(rt.alloc(), modules)?;
    let known = KnownTypes::new();
    let mut comparison = Comparison::new(rt.alloc(), types, known.type_named("Certificate").context("a type")?.types)?;
    for one in known.known() {
        let theirs = known.type_named(one.name).context("a known type")?;
        for component in theirs.components {
            if comparison.compare(one.name, component)? == 0 {
                println!(rt; "no module has {}", one.name)?;
            }
        }
    }
    let mut input = String::new(rt.alloc());
    rt.stdin().read_to_string(&mut input)?;
    let rows = rows_of(rt, &input)?;
    for text in &comparison.found {
        if !rows.contains_key(text.as_str()) {
            println!(rt; "without a row: {text}")?;
        }
    }
    for (what, why) in &rows {
        if !comparison.found.contains(*what) {
            println!(rt; "no longer so: {what}; {why}")?;
        }
    }
    println!(rt; "{} types, {} rows", known.known().len(), rows.len())?;
    Ok(ExitCode::SUCCESS)
}

/// What differs, and why, by the lines of a text.
fn rows_of<'a>(rt: &HostRuntime, text: &'a str) -> Result<BTreeMap<&'a str, &'a str>> {
    let mut rows = BTreeMap::new(rt.alloc());
    for line in text.lines() {
        let (what, why) = line.split_once("; ").context("a reason")?;
        rows.insert(what, why)?;
    }
    Ok(rows)
}

/// The octets of each module, in the order of the files' names.
fn module_files(rt: &HostRuntime) -> Result<Vec<Vec<u8>>> {
    let mut names = BTreeSet::new(rt.alloc());
    for entry in fs::read_dir(rt, ".")? {
        let entry = entry?;
        let name = String::from_str(rt.alloc(), entry.file_name())?;
        if name.ends_with(".asn1") {
            names.insert(name)?;
        }
    }
    let mut files = Vec::new(rt.alloc());
    for name in &names {
        files.push(fs::read(rt, name.as_str())?)?;
    }
    Ok(files)
}
