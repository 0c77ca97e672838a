//! Identifiers: their octets, their arcs and their texts.
use der_base::error::OidParseError;
use der_base::oid::Oid;
use std::alloc::Global;
use std::borrow::CowSlice;
use test_tables::fault::Fault;
use test_tables::octets::{octets, push_octets, push_word};

/// What a call of identifiers answers.
pub fn answer(alloc: Global, call: &str, input: &str) -> Result<String, Fault> {
    match call {
        "Oid::from_dotted" => made_of(alloc, Oid::from_dotted(alloc, input)),
        "Oid::from" | "Oid::from_relative" | "try_clone from" | "try_clone from_relative" => {
            answer_of_arcs(alloc, call, &arcs_of(alloc, input)?)
        }
        call => answer_of_octets(alloc, call, &octets(alloc, input)?),
    }
}

fn answer_of_arcs(alloc: Global, call: &str, arcs: &[u64]) -> Result<String, Fault> {
    match call {
        "Oid::from" => made_of(alloc, Oid::from(alloc, arcs)),
        "Oid::from_relative" => made_of(alloc, Oid::from_relative(alloc, arcs)),
        "try_clone from" => copy_of(alloc, Oid::from(alloc, arcs)),
        _ => copy_of(alloc, Oid::from_relative(alloc, arcs)),
    }
}

fn answer_of_octets(alloc: Global, call: &str, octets: &[u8]) -> Result<String, Fault> {
    let (call, relative) = match call.strip_suffix(" relative") {
        Some(call) => (call, true),
        None => (call, false),
    };
    answer_of(alloc, call, &identifier(octets, relative))
}

fn answer_of(alloc: Global, call: &str, oid: &Oid<'_>) -> Result<String, Fault> {
    match call {
        "arcs" => arcs_text(alloc, oid),
        "Oid" => Ok(format!(in alloc; "{oid}")?),
        "try_clone" => copy_text(alloc, oid),
        "==" => Ok(String::from_str(alloc, told(*oid == identifier(oid.as_bytes(), false)))?),
        _ => Err(Fault::NoSuchCall),
    }
}

/// `equal`, or `different`.
fn told(is_equal: bool) -> &'static str {
    if is_equal { "equal" } else { "different" }
}

/// The arcs that are the words of an input.
fn arcs_of(alloc: Global, input: &str) -> Result<Vec<u64>, Fault> {
    let mut arcs = Vec::new(alloc);
    for word in input.split_ascii_whitespace() {
        let Ok(arc) = word.parse() else {
            return Err(Fault::Input);
        };
        arcs.push(arc)?;
    }
    Ok(arcs)
}

/// The octets of an identifier that is made, and whether it is relative, or the error.
fn made_of(alloc: Global, made: Result<Oid<'_>, OidParseError>) -> Result<String, Fault> {
    match made {
        Ok(oid) => octets_text(alloc, &oid),
        Err(e) => Ok(format!(in alloc; "refused {e:?}")?),
    }
}

fn octets_text(alloc: Global, oid: &Oid<'_>) -> Result<String, Fault> {
    let name = if oid.is_relative() {
        "RelativeOid"
    } else {
        "Oid"
    };
    let mut text = String::from_str(alloc, name)?;
    push_octets(&mut text, oid.as_bytes())?;
    Ok(text)
}

/// An identifier of these octets, relative or not.
fn identifier(octets: &[u8], relative: bool) -> Oid<'_> {
    if relative {
        Oid::new_relative(CowSlice::Borrowed(octets))
    } else {
        Oid::new(CowSlice::Borrowed(octets))
    }
}

/// The arcs of an identifier, if it has any.
fn arcs_text(alloc: Global, oid: &Oid<'_>) -> Result<String, Fault> {
    let mut text = String::new(alloc);
    let Some(arcs) = oid.iter() else {
        push_word(&mut text, "no arcs")?;
        return Ok(text);
    };
    push_word(&mut text, "arcs")?;
    for arc in arcs {
        write!(text, " {arc}")?;
    }
    Ok(text)
}

/// The octets of the copy of an identifier, and whether it is equal to that, and that to one of borrowed octets.
fn copy_of(alloc: Global, made: Result<Oid<'_>, OidParseError>) -> Result<String, Fault> {
    match made {
        Ok(oid) => copy_text(alloc, &oid),
        Err(e) => Ok(format!(in alloc; "refused {e:?}")?),
    }
}

fn copy_text(alloc: Global, oid: &Oid<'_>) -> Result<String, Fault> {
    let copy = oid.try_clone(alloc)?;
    let is_equal = copy == *oid && *oid == identifier(copy.as_bytes(), copy.is_relative());
    let mut text = octets_text(alloc, &copy)?;
    push_word(&mut text, told(is_equal))?;
    Ok(text)
}
