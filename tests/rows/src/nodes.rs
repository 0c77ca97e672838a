//! The rows of lists of elements, of views of them, of walks, of the check of elements, of the
//! canonical encoding, and of inputs as people have them. The rows stand in `data`.
//!
//! A call is followed by its depth, by the capacity of its buffer, or by what its module says.

mod canonical;
mod checked;
mod elements;
mod inputs;
mod lines;
mod names;
mod slots;
mod views;
mod walks;
mod words;

use crate::nodes::canonical::{in_each_capacity, written};
use crate::nodes::checked::{checked_list, checked_one};
use crate::nodes::elements::answer_of_elements;
use crate::nodes::names::{are_found, name, own_names};
use crate::nodes::views::{made_by_hand, view};
use crate::nodes::walks::walk;
use std::alloc::Global;
use test_tables::fault::Fault;
use test_tables::octets::octets;
use test_tables::run::Calls;

/// The calls on elements.
pub struct ElementCalls;

impl Calls for ElementCalls {
    fn answer(&self, alloc: Global, call: &str, input: &str) -> Result<String, Fault> {
        let (call, words) = call.split_once(' ').unwrap_or((call, ""));
        let octets = octets(alloc, input)?;
        match call {
            "canonical" => written(alloc, &octets),
            "not_canonical" => canonical::refused(alloc, &octets),
            "canonical_into" => in_each_capacity(alloc, &octets),
            "are_elements" => checked_list(alloc, &octets, words),
            "is_element" => checked_one(alloc, &octets, words),
            "name_of" => name(alloc, &octets),
            "each_line_is_found" => are_found(alloc),
            "own_names" => own_names(alloc, &octets),
            "named_line" => lines::named_line(alloc, &octets, words),
            "walk" => walk(alloc, &octets, words),
            "refused" => walks::refused(alloc, &octets, words),
            "first_fault" => walks::first_fault_in(alloc, &octets, words),
            "input" => inputs::input(alloc, &octets, words),
            "view" => view(alloc, &octets, words),
            "view_made_by_hand" => made_by_hand(alloc, &octets, words),
            _ => answer_of_elements(alloc, call, &octets, words),
        }
    }
}
