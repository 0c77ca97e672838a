//! The rows of all but objects: inputs, and what calls answer on them. The tables stand in `data`, in a folder for each
//! area. The module of the same name has the area's calls.
//!
//! The arguments are tables of one area, as `texts/identifiers.rows texts/times.rows`.

mod certificates;
mod cursor;
mod messages;
mod nodes;
mod rules;
mod texts;
mod writers;

use std::process::ExitCode;
use std::{env, io};
use test_tables::run::run;

fn main(rt: HostRuntime) -> io::Result<ExitCode> {
    let first = env::args(&rt)?.skip(1).next();
    let table = first.as_ref().map_or("", |it| it.as_str());
    match table.split_once('/').map_or("", |(area, _)| area) {
        "certificates" => run(&rt, &certificates::Readers),
        "cursor" => run(&rt, &cursor::CursorCalls),
        "messages" => run(&rt, &messages::Readers),
        "nodes" => run(&rt, &nodes::ElementCalls),
        "rules" => run(&rt, &rules::Rules),
        "texts" => run(&rt, &texts::Texts),
        "writers" => run(&rt, &writers::Writers),
        _ => {
            println!(rt; "no area has the table {table}")?;
            Ok(ExitCode::FAILURE)
        }
    }
}
