//! The rows of objects: inputs, and what calls of der_parser answer on them. The tables stand in `data`, in a folder
//! for each area. The module of the same name has the area's calls.
//!
//! The arguments are tables of one area, as `elements/ber.rows elements/leaves.rows`. With the word `trials` in front
//! of tables of elements, what holds of any octets is tried on those of each row.

mod combinators;
mod elements;
mod objects;

use std::process::ExitCode;
use std::{env, io};
use test_support::trials::{are_asked_for, run_trials};
use test_tables::run::run;

fn main(rt: HostRuntime) -> io::Result<ExitCode> {
    if are_asked_for(&rt)? {
        return run_trials(&rt);
    }
    let first = env::args(&rt)?.skip(1).next();
    let table = first.as_ref().map_or("", |it| it.as_str());
    match table.split_once('/').map_or("", |(area, _)| area) {
        "combinators" => run(&rt, &combinators::Combinators),
        "elements" => run(&rt, &elements::Elements),
        "objects" => run(&rt, &objects::Objects),
        _ => {
            println!(rt; "no area has the table {table}")?;
            Ok(ExitCode::FAILURE)
        }
    }
}
