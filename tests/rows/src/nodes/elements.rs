//! Lists of elements, behind which their depth stands and the capacity of their buffer.
use crate::nodes::slots::{NO_EXTENT, NONE, push_elements, push_extents};
use crate::nodes::words::numbers;
use der_base::rules::Rules;
use der_elements::check::{Listed, list_element, list_elements};
use test_words::{push_number, push_rest};
use std::alloc::{AllocError, Global};
use test_tables::fault::Fault;
use test_tables::octets::push_word;

/// What the call of this name answers.
pub fn answer_of_elements(
    alloc: Global,
    call: &str,
    input: &[u8],
    words: &str,
) -> Result<String, Fault> {
    let words = numbers(alloc, words)?;
    let [depth, capacity] = words.as_slice() else {
        return Err(Fault::NoSuchCall);
    };
    match call {
        "list_ber_element" => listed(alloc, Rules::Ber, input, *depth, *capacity),
        "list_der_element" => listed(alloc, Rules::Der, input, *depth, *capacity),
        "list_ber_elements" => extents(alloc, Rules::Ber, input, *depth, *capacity),
        "list_der_elements" => extents(alloc, Rules::Der, input, *depth, *capacity),
        _ => Err(Fault::NoSuchCall),
    }
}

/// How many elements are at the start of the input, what follows the first, and the elements that are kept.
fn listed(
    alloc: Global,
    rules: Rules,
    input: &[u8],
    depth: usize,
    capacity: usize,
) -> Result<String, Fault> {
    let mut elements = vec![in alloc; NONE; capacity]?;
    let mut text = answer(alloc, list_element(input, rules, depth, &mut elements))?;
    push_elements(&mut text, &elements)?;
    Ok(text)
}

/// How many elements octets are, and the extents that are kept of them.
fn extents(
    alloc: Global,
    rules: Rules,
    input: &[u8],
    depth: usize,
    capacity: usize,
) -> Result<String, Fault> {
    let mut extents = vec![in alloc; NO_EXTENT; capacity]?;
    let found = match list_elements(input, rules, depth, &mut extents) {
        Some(elements) => Some(Listed { elements, rest: &[] }),
        None => None,
    };
    let mut text = answer(alloc, found)?;
    push_extents(&mut text, &extents)?;
    Ok(text)
}

/// The number of elements that are listed and what follows them.
fn answer(alloc: Global, found: Option<Listed<'_>>) -> Result<String, AllocError> {
    let mut text = String::new(alloc);
    match found {
        Some(Listed { elements, rest }) => {
            push_word(&mut text, "read")?;
            push_number(&mut text, elements)?;
            push_rest(&mut text, rest)?;
        }
        None => push_word(&mut text, "none")?,
    }
    Ok(text)
}
