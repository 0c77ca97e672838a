//! Views of elements.
use crate::nodes::words::{number, numbers};
use der_base::error::BerError;
use der_base::header::Class;
use der_base::rules::Rules;
use der_elements::check::Element;
use der_parser::view::{Node, Nodes, read_element};
use test_words::{push_number, push_refusal};
use std::alloc::{AllocError, Global};
use std::fmt::Display;
use test_tables::fault::Fault;

/// To which depth elements are read.
const DEPTH: usize = 50;

/// What is seen of the element at the start of the input and those inside it, by BER or DER. Behind the rules stand the index of an element, or `root`,
/// and a call: `BER 1 as_str`.
pub fn view(alloc: Global, input: &[u8], words: &str) -> Result<String, Fault> {
    let (rules, words) = words.split_once(' ').ok_or(Fault::NoSuchCall)?;
    let rules = match rules {
        "BER" => Rules::Ber,
        "DER" => Rules::Der,
        _ => return Err(Fault::NoSuchCall),
    };
    match read_element(alloc, input, rules, DEPTH)? {
        Some((_, elements)) => seen(alloc, Nodes::new(input, &elements), words),
        None => Ok(format!(in alloc; "no element")?),
    }
}

/// What is seen of two primitive elements of the type BOOLEAN with an indefinite length, which no reader writes. Behind
/// the call stand the place where each has its header, its content and its end, how many elements are inside, and a
/// call with its index.
pub fn made_by_hand(alloc: Global, input: &[u8], words: &str) -> Result<String, Fault> {
    let (places, words) = words.split_once(" : ").ok_or(Fault::NoSuchCall)?;
    let places = numbers(alloc, places)?;
    let [header, content, end, inside] = places.as_slice() else {
        return Err(Fault::NoSuchCall);
    };
    let element = Element {
        class: Class::Universal,
        constructed: false,
        definite: false,
        number: 1,
        header: *header,
        content: *content,
        end: *end,
        inside: *inside,
    };
    seen(alloc, Nodes::new(input, &[element, element]), words)
}

/// What a call answers at the element with an index.
fn seen(alloc: Global, nodes: Nodes<'_, '_>, words: &str) -> Result<String, Fault> {
    let (index, call) = words.split_once(' ').ok_or(Fault::NoSuchCall)?;
    let node = match index {
        "root" => nodes.root(),
        _ => nodes.get(number(index)?),
    };
    match node {
        Some(node) => value(alloc, node, call),
        None => Ok(format!(in alloc; "none")?),
    }
}

/// What the call of this name answers, or the refusal.
fn value(alloc: Global, node: Node<'_, '_>, call: &str) -> Result<String, Fault> {
    let text = match call {
        "sizes" => sizes(alloc, node),
        "as_bool" => shown(alloc, node.as_bool()),
        "as_str" => shown(alloc, node.as_str()),
        "as_i32" => shown(alloc, node.as_i32()),
        "as_u64" => shown(alloc, node.as_u64()),
        "items as_i64" => items(alloc, node),
        _ => return Err(Fault::NoSuchCall),
    };
    Ok(text?)
}

/// How many octets and content octets an element has, how many items, and how many elements.
fn sizes(alloc: Global, node: Node<'_, '_>) -> Result<String, AllocError> {
    format!(in alloc;
        "octets {} content {} items {} elements {}",
        node.octets().len(),
        node.content().len(),
        node.items().count(),
        node.inside().len()
    )
}

/// The numbers of the items.
fn items(alloc: Global, node: Node<'_, '_>) -> Result<String, AllocError> {
    let mut text = String::new(alloc);
    for item in node.items() {
        match item.as_i64() {
            Ok(number) => push_number(&mut text, number)?,
            Err(e) => push_refusal(&mut text, &e)?,
        }
    }
    Ok(text)
}

fn shown<T: Display + Drop>(
    alloc: Global,
    read: Result<T, BerError>,
) -> Result<String, AllocError> {
    match read {
        Ok(value) => format!(in alloc; "{value}"),
        Err(e) => {
            let mut text = String::new(alloc);
            push_refusal(&mut text, &e)?;
            Ok(text)
        }
    }
}
