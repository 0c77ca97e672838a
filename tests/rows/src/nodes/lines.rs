//! Lines of elements, by names of one's own.
use der_print::{Limit, Room, Style, write_named_line};
use der_elements::{Rules, Walk};
use oid_names::OwnNames;
use std::alloc::Global;
use std::str;
use test_tables::fault::Fault;

/// Names of identifiers.
const OWN: &str =
    "1.2.3 ours with a long name\n1.2.4 \u{1b}[1mbold\n1.2.400 thirteen-here\n2.5.4.3 CN\n";

/// The type that precedes the identifier on the line.
const TYPE: &str = "OBJECT IDENTIFIER ";

/// What follows the type on the line of an OBJECT IDENTIFIER, by names of one's own. Behind the call stands how many
/// columns the line has.
pub fn named_line(alloc: Global, input: &[u8], words: &str) -> Result<String, Fault> {
    let Ok(columns) = words.parse::<usize>() else {
        return Err(Fault::NoSuchCall);
    };
    let Ok(names) = OwnNames::read(alloc, OWN) else {
        return Err(Fault::OutOfMemory);
    };
    let mut walk = Walk::new(input, Rules::Ber, false);
    let Ok(Some(element)) = walk.next_element() else {
        return Err(Fault::Input);
    };
    let style = Style {
        limit: Limit::Columns(columns),
        colours: false,
    };
    let mut line = Vec::new(alloc);
    if write_named_line(&mut line, &mut Room::new(alloc), &element, style, Some(&names)).is_err() {
        return Err(Fault::OutOfMemory);
    }
    let text = str::from_utf8(&line).unwrap_or("no UTF-8");
    let (_, value) = text.split_once(TYPE).unwrap_or(("", text));
    Ok(format!(in alloc; "{}", value.trim())?)
}
