//! The rows of a cursor: what each call reads, and where and why it refuses. The rows stand in `data`.
//!
//! A call of a row is `RULES STEP ..`: the steps are taken one after the other on a cursor over the row's octets, and
//! each answers what it reads, or its refusal as it is printed. What is left behind what they read follows as
//! `rest OCTETS`. Other calls are those of `contents`.

mod contents;
mod fields;
mod nest;
mod optional;
mod shown;

use crate::cursor::contents::answer_of_octets;
use crate::cursor::nest::answer_of_steps;
use der_base::rules::Rules;
use std::alloc::Global;
use test_tables::fault::Fault;
use test_tables::octets::octets;
use test_tables::run::Calls;

/// The calls of a cursor, and of what it stands on.
pub struct CursorCalls;

impl Calls for CursorCalls {
    fn answer(&self, alloc: Global, call: &str, input: &str) -> Result<String, Fault> {
        match call.split_once(' ') {
            Some(("BER", steps)) => read_steps(alloc, Rules::Ber, steps, input),
            Some(("DER", steps)) => read_steps(alloc, Rules::Der, steps, input),
            _ => answer_of_octets(alloc, call, input),
        }
    }
}

fn read_steps(alloc: Global, rules: Rules, steps: &str, input: &str) -> Result<String, Fault> {
    let input = octets(alloc, input)?;
    answer_of_steps(alloc, rules, steps, &input)
}
