//! Prints lines of what it reads of its standard input. Stored runs have the lines that others print of the same. The
//! first argument says what is printed: `certificates`, `lists`, `fields`, `field_names`, `json` or `messages`. The module
//! of that name says more.

mod certificates;
mod field_names;
mod fields;
mod json;
mod lists;
mod messages;

use anyhow::{Context, Result, bail};
use std::env;
use std::process::ExitCode;

fn main(rt: HostRuntime) -> Result<ExitCode> {
    let kind = env::args(&rt)?.skip(1).next().context("a kind of lines")?;
    match kind.as_str() {
        "certificates" => certificates::print_input(&rt)?,
        "lists" => lists::print_input(&rt)?,
        "fields" => fields::print_input(&rt)?,
        "field_names" => field_names::print_input(&rt)?,
        "json" => json::print_input(&rt)?,
        "messages" => return messages::print_input(&rt),
        other => bail!("{other} is no kind of lines"),
    }
    Ok(ExitCode::SUCCESS)
}
