//! What a reader does with the damaged copies of a message.
use crate::copies::{Damage, damaged_copy};
use crate::elements::{Element, elements_of};
use crate::error::DamageError;
use std::alloc::{AllocError, Global};

/// What a reader does with a copy.
#[derive(Clone, Copy, Debug, PartialEq)]
pub enum Outcome {
    Read,
    /// It refuses the copy, and reports no offset.
    Refused,
    /// It refuses the copy at this offset.
    RefusedAt(usize),
    /// It asks for more octets, and no octets make the copy a message.
    Incomplete,
}

/// A reader that is tested.
pub trait Reader {
    /// What the reader does with these octets.
    fn outcome(&self, alloc: Global, octets: &[u8]) -> Outcome;
}

/// What the reader does with a message, and with the copies that it doesn't refuse at the place of the damage: the
/// offset of the damaged element and what is done to it, with another outcome than `read` behind them. The elements of
/// a string whose offset is in `opened` are damaged too.
pub fn damaged<R: Reader>(
    alloc: Global,
    message: &[u8],
    opened: &[usize],
    reader: &R,
) -> Result<String, DamageError> {
    let mut answer = String::new(alloc);
    push_outcome(&mut answer, reader.outcome(alloc, message))?;
    let elements = elements_of(alloc, message, opened)?;
    for element in &elements {
        push_copies(alloc, message, &elements, *element, reader, &mut answer)?;
    }
    Ok(answer)
}

/// Adds what the reader does with the copies of an element: three, or two where one octet more makes another value of
/// its type.
fn push_copies<R: Reader>(
    alloc: Global,
    message: &[u8],
    elements: &[Element],
    element: Element,
    reader: &R,
    answer: &mut String,
) -> Result<(), DamageError> {
    for damage in [Damage::Class, Damage::Constructed, Damage::LeftOver] {
        if damage != Damage::LeftOver || element.is_closed {
            let copy = damaged_copy(alloc, message, elements, element, damage)?;
            let outcome = reader.outcome(alloc, &copy);
            if !is_refused_there(element, damage, outcome) {
                push_copy(answer, element, damage, outcome)?;
            }
        }
    }
    Ok(())
}

/// Whether a copy is refused at the damaged element, or at the octet left over, as far as the reader says where.
fn is_refused_there(element: Element, damage: Damage, outcome: Outcome) -> bool {
    match outcome {
        Outcome::Refused => true,
        Outcome::RefusedAt(offset) => {
            offset == element.offset || damage == Damage::LeftOver && offset == element.end
        }
        Outcome::Read | Outcome::Incomplete => false,
    }
}

/// Adds a copy.
fn push_copy(
    answer: &mut String,
    element: Element,
    damage: Damage,
    outcome: Outcome,
) -> Result<(), AllocError> {
    let name = match damage {
        Damage::Class => "class",
        Damage::Constructed => "constructed",
        Damage::LeftOver => "left-over",
    };
    write!(answer, ", {} {name}", element.offset)?;
    if outcome == Outcome::Read {
        return Ok(());
    }
    answer.push(' ')?;
    push_outcome(answer, outcome)
}

fn push_outcome(answer: &mut String, outcome: Outcome) -> Result<(), AllocError> {
    match outcome {
        Outcome::Read => answer.push_str("read"),
        Outcome::Refused => answer.push_str("refused"),
        Outcome::RefusedAt(offset) => write!(answer, "refused at {offset}"),
        Outcome::Incomplete => answer.push_str("incomplete"),
    }
}
