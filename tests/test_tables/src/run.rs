//! The run of a program over its files of rows.
use crate::fault::Fault;
use crate::table::{Line, Row, read_line, written_out};
use std::alloc::Global;
use std::env::{self, Env};
use std::process::ExitCode;
use std::rt::Files;
use std::{fs, io};

/// What the rows of a program call.
pub trait Calls {
    /// What the call answers on a row's input, in a row's words.
    fn answer(&self, alloc: Global, call: &str, input: &str) -> Result<String, Fault>;
}

/// How many answers were compared, and how many of them were other ones.
#[derive(Clone, Copy, Drop)]
struct Count {
    tried: u32,
    wrong: u32,
}

/// Where a row stands: its file, the number of its line, and the calls named above it.
#[derive(Clone, Copy, Drop)]
struct Origin<'a> {
    file: &'a str,
    number: usize,
    names: &'a str,
}

/// Tries the rows of each file that is named as an argument, and prints how many answers each has, and each answer that
/// is another one. The status is 0 if each file has rows, and each row holds.
pub fn run<R, C>(rt: &R, calls: &C) -> io::Result<ExitCode>
where
    R: Env + Files + Print + AllocGlobal,
    C: Calls,
{
    let mut status = ExitCode::SUCCESS;
    for file in env::args(rt)?.skip(1) {
        let count = try_file(rt, calls, &file)?;
        println!(rt; "{}: {} answers, {} wrong", file, count.tried, count.wrong)?;
        if count.tried == 0 || count.wrong > 0 {
            status = ExitCode::FAILURE;
        }
    }
    Ok(status)
}

/// Tries the rows of a file.
fn try_file<R, C>(rt: &R, calls: &C, file: &str) -> io::Result<Count>
where
    R: Files + Print + AllocGlobal,
    C: Calls,
{
    let text = fs::read_to_string(rt, file)?;
    try_lines(rt, calls, file, &text)
}

fn try_lines<R, C>(rt: &R, calls: &C, file: &str, text: &str) -> io::Result<Count>
where
    R: Print + AllocGlobal,
    C: Calls,
{
    let mut count = Count { tried: 0, wrong: 0 };
    let (mut names, mut number) = (None, 0usize);
    for line in text.lines() {
        number = number.saturating_add(1);
        match (read_line(line), names) {
            (Line::Remark, _) => {}
            (Line::Calls(calls), _) => names = Some(calls),
            (Line::Row(row), Some(names)) => {
                let origin = Origin {
                    file,
                    number,
                    names,
                };
                try_row(rt, calls, origin, row, &mut count)?;
            }
            _ => {
                println!(rt; "{file}:{number}: no row: {line}")?;
                count.wrong = count.wrong.saturating_add(1);
            }
        }
    }
    Ok(count)
}

/// Tries each call of a row.
fn try_row<R, C>(
    rt: &R,
    calls: &C,
    origin: Origin<'_>,
    row: Row<'_>,
    count: &mut Count,
) -> io::Result<()>
where
    R: Print + AllocGlobal,
    C: Calls,
{
    let wanted = written_out(rt.alloc(), row.answer)?;
    for call in origin.names.split(',') {
        count.tried = count.tried.saturating_add(1);
        let call = call.trim_ascii();
        let given = answer_text(rt.alloc(), calls, call, row.input)?;
        if given != wanted {
            count.wrong = count.wrong.saturating_add(1);
            println!(rt;
                "{}:{}: {} of {} ({}): {}",
                origin.file, origin.number, call, row.input, row.name, given
            )?;
        }
    }
    Ok(())
}

/// What the call answers, or why it can't be tried.
fn answer_text<C: Calls>(alloc: Global, calls: &C, call: &str, input: &str) -> io::Result<String> {
    match calls.answer(alloc, call, input) {
        Ok(text) => Ok(text),
        Err(e) => Ok(format!(in alloc; "not tried: {e}")?),
    }
}
