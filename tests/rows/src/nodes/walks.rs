//! Walks over elements.
use der_contents::ContentError;
use test_words::{push_number, push_refusal};
use der_elements::{Cause, Element, Path, ElementError, Rules, Walk, fault_inside, first_fault};
use std::alloc::{AllocError, Global};
use test_tables::fault::Fault;
use test_tables::octets::push_word;

/// The offsets of the elements that a walk visits, and why the walk ends before the last one. The word `breaks` is behind
/// one that breaks its type, the rules behind a string that holds an element, and `inside` and an offset behind one that
/// holds a list which is at fault there. Behind the call stand the rules, and the word `keeping` where values are kept that break
/// their type.
pub fn walk(alloc: Global, input: &[u8], words: &str) -> Result<String, Fault> {
    let mut walk = match words {
        "BER" => Walk::new(input, Rules::Ber, true),
        "BER keeping" => Walk::new(input, Rules::Ber, true).keeping_values(),
        "DER keeping" => Walk::new(input, Rules::Der, true).keeping_values(),
        _ => return Err(Fault::NoSuchCall),
    };
    let mut text = String::new(alloc);
    while push_visited(&mut text, walk.next_element())? {}
    Ok(text)
}

/// How many elements are open where a walk ends before its input does, at which offset and path, and why. Behind the
/// call stand the rules.
pub fn refused(alloc: Global, input: &[u8], words: &str) -> Result<String, Fault> {
    let mut walk = match words {
        "BER" => Walk::new(input, Rules::Ber, true),
        "DER" => Walk::new(input, Rules::Der, true),
        _ => return Err(Fault::NoSuchCall),
    };
    let Some(refusal) = walk.find_fault() else {
        return Ok(format!(in alloc; "end")?);
    };
    let mut text = format!(in alloc; "{} at {}", walk.depth(), refusal.offset)?;
    push_path(&mut text, &walk.path(&refusal))?;
    write!(text, ": {}", walk.reason(&refusal))?;
    Ok(text)
}

/// The first fault of the element that an input doesn't begin with: its offset, the last step of the path, and why.
/// Behind the call stand the rules and the depth.
pub fn first_fault_in(alloc: Global, input: &[u8], words: &str) -> Result<String, Fault> {
    let (rules, max_depth) = match words {
        "BER 101" => (Rules::Ber, 101),
        "BER 2" => (Rules::Ber, 2),
        "DER 101" => (Rules::Der, 101),
        _ => return Err(Fault::NoSuchCall),
    };
    let fault = first_fault(input, rules, max_depth);
    let mut text = format!(in alloc; "{}", fault.offset)?;
    if let Some(step) = fault.step {
        write!(text, ", {step}")?;
    }
    write!(text, ": {}", fault.cause)?;
    Ok(text)
}

/// Adds a path, if it has steps.
pub fn push_path(text: &mut String, path: &Path) -> Result<(), AllocError> {
    if !path.is_empty() {
        write!(text, ", {path}")?;
    }
    Ok(())
}

/// Adds what was visited, and whether the walk goes on.
fn push_visited(
    text: &mut String,
    visited: Result<Option<Element<'_>>, ElementError>,
) -> Result<bool, AllocError> {
    match visited {
        Ok(Some(element)) => push_element(text, &element)?,
        Ok(None) => {
            push_word(text, "end")?;
            return Ok(false);
        }
        Err(refusal) => {
            push_cause(text, refusal.cause)?;
            push_word(text, "at")?;
            push_number(text, refusal.offset)?;
            return Ok(false);
        }
    }
    Ok(true)
}

fn push_element(text: &mut String, element: &Element<'_>) -> Result<(), AllocError> {
    push_number(text, element.offset)?;
    if element.breaks_its_type {
        push_word(text, "breaks")?;
    }
    match element.holds {
        Some(Rules::Ber) => push_word(text, "BER")?,
        Some(Rules::Der) => push_word(text, "DER")?,
        None => {}
    }
    push_inside(text, fault_inside(element))
}

/// Adds where a list inside a string is at fault, if it is.
fn push_inside(text: &mut String, offset: Option<usize>) -> Result<(), AllocError> {
    match offset {
        Some(offset) => {
            push_word(text, "inside")?;
            push_number(text, offset)
        }
        None => Ok(()),
    }
}

/// Adds the name of a cause and its parts, or of the rule that a content breaks.
fn push_cause(text: &mut String, cause: Cause) -> Result<(), AllocError> {
    match cause {
        Cause::Value(e) => push_debug(text, e),
        Cause::Header(e) => {
            push_word(text, "Header")?;
            push_refusal(text, &e)
        }
        Cause::Cut(count) => {
            push_word(text, "Cut")?;
            push_number(text, count)
        }
        Cause::PastEnd(count) => {
            push_word(text, "PastEnd")?;
            push_number(text, count)
        }
        _ => push_word(text, name_of(cause)),
    }
}

/// Adds the name of a rule.
fn push_debug(text: &mut String, rule: ContentError) -> Result<(), AllocError> {
    if !text.is_empty() {
        text.push(' ')?;
    }
    write!(text, "{rule:?}")
}

/// The name of a cause without parts.
fn name_of(cause: Cause) -> &'static str {
    match cause {
        Cause::NoEndMarker => "NoEndMarker",
        Cause::EndMarker => "EndMarker",
        Cause::Constructed => "Constructed",
        Cause::ConstructedString => "ConstructedString",
        Cause::OtherPart => "OtherPart",
        Cause::UnusedBitsInside => "UnusedBitsInside",
        Cause::NotDer => "NotDer",
        Cause::TooDeep => "TooDeep",
        Cause::Cut(_) | Cause::PastEnd(_) | Cause::Header(_) | Cause::Value(_) => "",
    }
}
