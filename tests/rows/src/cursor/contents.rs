//! The calls on content octets: the arcs of an OBJECT IDENTIFIER, and the decimal text of an INTEGER.
use der_base::oid::Oid;
use der_values::{HasArcs, ObjectIdentifier, has_padded_arc, known_oid, to_decimal};
use std::alloc::Global;
use test_tables::fault::Fault;
use test_tables::octets::octets;

/// What the call of this name answers. Arcs follow the octets of their identifier, after a colon.
pub fn answer_of_octets(alloc: Global, call: &str, input: &str) -> Result<String, Fault> {
    match call {
        "has_padded_arc" => {
            let has = has_padded_arc(&octets(alloc, input)?);
            Ok(format!(in alloc; "{has}")?)
        }
        "to_decimal" => Ok(to_decimal(alloc, &octets(alloc, input)?)?),
        "is" => has_arcs(alloc, input, Kind::Absolute),
        "relative is" => has_arcs(alloc, input, Kind::Relative),
        "known_oid" => is_known(alloc, input),
        _ => Err(Fault::NoSuchCall),
    }
}

/// The two types of identifiers (X.690 8.19 and 8.20).
#[derive(Clone, Copy)]
enum Kind {
    Absolute,
    Relative,
}

/// Whether octets are those of an identifier with these arcs, where an `Oid` of them says the same.
fn has_arcs(alloc: Global, input: &str, kind: Kind) -> Result<String, Fault> {
    let (content, arcs) = input.split_once(':').ok_or(Fault::Input)?;
    let content = octets(alloc, content)?;
    let arcs = numbers(alloc, arcs)?;
    let identifier = match kind {
        Kind::Absolute => ObjectIdentifier::new(&content),
        Kind::Relative => ObjectIdentifier::new_relative(&content),
    };
    let has = identifier.is(&arcs);
    if identifier.to_oid().is(&arcs) != has {
        return Err(Fault::Input);
    }
    Ok(format!(in alloc; "{has}")?)
}

/// Whether an identifier that is known when the program is written, 2.5.29.15, is the one made of these arcs, and
/// whether it has them.
fn is_known(alloc: Global, arcs: &str) -> Result<String, Fault> {
    let known = known_oid(&[2, 5, 29, 15], b"\x55\x1d\x0f");
    let arcs = numbers(alloc, arcs)?;
    let made = Oid::from(alloc, &arcs).map_err(|_| Fault::Input)?;
    let is_same = known == ObjectIdentifier::of_oid(&made);
    Ok(format!(in alloc; "{is_same} {}", known.is(&arcs))?)
}

/// The numbers with spaces between them.
fn numbers(alloc: Global, text: &str) -> Result<Vec<u64>, Fault> {
    let mut numbers = Vec::new(alloc);
    for word in text.split_ascii_whitespace() {
        let Ok(number) = word.parse::<u64>() else {
            return Err(Fault::Input);
        };
        numbers.push(number)?;
    }
    Ok(numbers)
}
