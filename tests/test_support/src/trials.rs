//! What is tried on the octets of each row of a program's files, whatever is answered on them.
use crate::fronts::expect_stable_fronts;
use crate::reader::Reader;
use crate::round_trips::expect_round_trip;
use crate::wrong::Wrong;
use der_parser::ber::MAX_RECURSION;
use std::alloc::Global;
use std::env::{self, Env};
use std::process::ExitCode;
use std::rt::Files;
use std::{fs, io};
use test_tables::table::{Line, Row, read_line};

/// What is tried on the octets of a row, whatever is answered on them.
#[derive(Clone, Copy)]
enum Trial {
    /// What is read is written and read again.
    RoundTrip,
    /// Each front is read, and read again with octets behind it.
    Fronts,
}

impl Trial {
    /// What is tried holds of these octets, read to this depth.
    fn try_on(self, alloc: Global, depth: usize, text: &str) -> Result<(), Wrong> {
        match self {
            Trial::RoundTrip => expect_round_trip(alloc, depth, text),
            Trial::Fronts => expect_stable_fronts(alloc, text),
        }
    }
}

/// What is tried on each row.
const TRIALS: [Trial; 2] = [Trial::RoundTrip, Trial::Fronts];

/// How many rows were tried, and on how many something doesn't hold.
#[derive(Clone, Copy, Drop)]
struct Count {
    tried: u32,
    wrong: u32,
}

/// Where a row stands: its file, the number of its line, and the depth to which its octets are read.
#[derive(Clone, Copy, Drop)]
struct Origin<'a> {
    file: &'a str,
    number: usize,
    depth: usize,
}

/// Whether the first argument of the program asks for trials.
pub fn are_asked_for<R: Env + AllocGlobal>(rt: &R) -> io::Result<bool> {
    let first = env::args(rt)?.skip(1).next();
    Ok(first.is_some_and(|word| word.as_str() == "trials"))
}

/// Tries the rows of each file that is named behind the first argument, and prints how many each has,
/// and each row on whose octets something doesn't hold. The status is 0 if each file has rows, and all
/// hold.
pub fn run_trials<R>(rt: &R) -> io::Result<ExitCode>
where
    R: Env + Files + Print + AllocGlobal,
{
    let mut status = ExitCode::SUCCESS;
    for file in env::args(rt)?.skip(2) {
        let text = fs::read_to_string(rt, &file)?;
        let count = try_lines(rt, &file, &text)?;
        println!(rt;
            "{}: {} rows tried, {} wrong",
            file, count.tried, count.wrong
        )?;
        if count.tried == 0 || count.wrong > 0 {
            status = ExitCode::FAILURE;
        }
    }
    Ok(status)
}

fn try_lines<R: Print + AllocGlobal>(rt: &R, file: &str, text: &str) -> io::Result<Count> {
    let mut count = Count { tried: 0, wrong: 0 };
    let (mut depth, mut number) = (MAX_RECURSION, 0usize);
    for line in text.lines() {
        number = number.saturating_add(1);
        match read_line(line) {
            Line::Calls(calls) => depth = depth_of(calls),
            Line::Row(row) => {
                let origin = Origin {
                    file,
                    number,
                    depth,
                };
                try_row(rt, origin, row, &mut count)?;
            }
            _ => {}
        }
    }
    Ok(count)
}

/// The depth to which the first of the calls reads.
fn depth_of(calls: &str) -> usize {
    let first = calls.split(',').next().unwrap_or(calls).trim_ascii();
    let words = first.split_once(" of ").map_or(first, |(_, words)| words);
    Reader::of_call(words).map_or(MAX_RECURSION, Reader::depth)
}

/// Tries a row's octets, and those that its answer says are written.
fn try_row<R>(rt: &R, origin: Origin<'_>, row: Row<'_>, count: &mut Count) -> io::Result<()>
where
    R: Print + AllocGlobal,
{
    count.tried = count.tried.saturating_add(1);
    let octets = row.input.split_once(':').map_or(row.input, |(_, it)| it);
    try_octets(rt, origin, origin.depth, octets, count)?;
    match row.answer.strip_prefix("written ") {
        Some(written) => try_octets(rt, origin, MAX_RECURSION, written, count),
        None => Ok(()),
    }
}

fn try_octets<R>(
    rt: &R,
    origin: Origin<'_>,
    depth: usize,
    octets: &str,
    count: &mut Count,
) -> io::Result<()>
where
    R: Print + AllocGlobal,
{
    for trial in TRIALS {
        if let Err(wrong) = trial.try_on(rt.alloc(), depth, octets) {
            count.wrong = count.wrong.saturating_add(1);
            println!(rt; "{}:{}: {wrong:?}", origin.file, origin.number)?;
        }
    }
    Ok(())
}
