//! Whether two objects are equal, whether a copy tells the same, and an object beside its element.
use der_parser::ber::{Any, BerObject, BerObjectContent, Header, ber_object_from_any, parse_ber};
use der_parser::error::{BerError, BerResult, Err as Refused};
use test_support::words::{push_content, push_header, push_refused};
use std::alloc::{AllocError, Global};
use test_tables::fault::Fault;
use test_tables::octets::{octets, push_word};

/// How two objects are compared.
#[derive(Clone, Copy)]
enum Equality {
    /// `==`, of objects of one lifetime.
    Operator,
    /// `is_equal`, of the objects and of their contents.
    Call,
}

impl Equality {
    /// Whether the objects are equal.
    fn holds<'a>(self, left: &BerObject<'a>, right: &BerObject<'a>) -> bool {
        match self {
            Equality::Operator => left == right,
            Equality::Call => left.is_equal(right) && left.content.is_equal(&right.content),
        }
    }
}

/// Whether the objects of two elements with `and` between them are equal.
pub fn answer(alloc: Global, call: &str, input: &str) -> Result<String, Fault> {
    let (left, right) = input.split_once(" and ").ok_or(Fault::Input)?;
    let (left, right) = (octets(alloc, left)?, octets(alloc, right)?);
    let equality = if call == "==" {
        Equality::Operator
    } else {
        Equality::Call
    };
    let given = compared(equality, parse_ber(alloc, &left), parse_ber(alloc, &right));
    Ok(String::from_str(alloc, given)?)
}

/// Whether the objects are equal, from the left and from the right.
fn compared<'a>(equality: Equality, left: BerResult<'a>, right: BerResult<'a>) -> &'static str {
    match (&left, &right) {
        (Ok((_, left)), Ok((_, right))) => both_ways(equality, left, right),
        _ => "not read",
    }
}

fn both_ways<'a>(equality: Equality, left: &BerObject<'a>, right: &BerObject<'a>) -> &'static str {
    match (equality.holds(left, right), equality.holds(right, left)) {
        (true, true) => "equal",
        (false, false) => "different",
        _ => "equal from one side",
    }
}

/// Whether a copy of the object is equal, and its headers and those of its items tell the same.
pub fn copied(alloc: Global, object: &BerObject<'_>) -> Result<String, Fault> {
    let copy = object.try_clone(alloc)?;
    told(alloc, is_copy(object, &copy))
}

/// `same`, or `different`.
fn told(alloc: Global, is_same: bool) -> Result<String, Fault> {
    let text = if is_same { "same" } else { "different" };
    Ok(String::from_str(alloc, text)?)
}

fn is_copy<'a>(object: &BerObject<'a>, copy: &BerObject<'a>) -> bool {
    copy == object && is_same(object, copy) && are_same(object, copy)
}

/// Whether the headers are equal, and tell the same lengths and identifier octets.
fn is_same_header(header: &Header<'_>, copy: &Header<'_>) -> bool {
    let facts = [
        copy == header,
        copy.length() == header.length(),
        copy.raw_tag() == header.raw_tag(),
    ];
    !facts.contains(&false)
}

/// Whether the objects' headers tell the same, and so do those of unknown contents.
fn is_same(object: &BerObject<'_>, copy: &BerObject<'_>) -> bool {
    is_same_header(&object.header, &copy.header)
        && match (&object.content, &copy.content) {
            (BerObjectContent::Unknown(any), BerObjectContent::Unknown(twin)) => {
                is_same_header(&any.header, &twin.header)
            }
            _ => true,
        }
}

/// Whether the headers of the items tell the same, one by one.
fn are_same(object: &BerObject<'_>, copy: &BerObject<'_>) -> bool {
    let mut twins = copy.ref_iter();
    for item in object.ref_iter() {
        match twins.next() {
            Some(twin) if is_same(item, twin) => {}
            _ => return false,
        }
    }
    twins.next().is_none()
}

/// Whether the object is equal to the one that its own octets are read as.
pub fn read_back(alloc: Global, object: &BerObject<'_>) -> Result<String, Fault> {
    match object.to_vec(alloc) {
        Ok(written) => Ok(String::from_str(
            alloc,
            compared_with(object, &parse_ber(alloc, &written)),
        )?),
        Err(e) => Ok(format!(in alloc; "not written: {e}")?),
    }
}

fn compared_with(object: &BerObject<'_>, read: &BerResult<'_>) -> &'static str {
    match read {
        Ok((_, again)) if is_equal_to_another(object, again) => "equal",
        Ok(_) => "different",
        Err(_) => "not read",
    }
}

/// Whether the objects of two inputs are equal, from the left and from the right, and so are their
/// contents.
fn is_equal_to_another(object: &BerObject<'_>, other: &BerObject<'_>) -> bool {
    object.is_equal(other) && object.content.is_equal(&other.content) && other.is_equal(object)
}

/// The header of the element that the octets begin with, and the answer of `ber_object_from_any` on
/// it. An object that is read is followed by its own header.
pub fn object_from_any(alloc: Global, input: &[u8]) -> Result<String, Fault> {
    let mut text = String::new(alloc);
    match Any::from_ber(input) {
        Ok((_, any)) => {
            push_header(&mut text, &any.header)?;
            push_object(&mut text, ber_object_from_any(alloc, any))?;
        }
        Err(e) => push_refused(&mut text, &e)?,
    }
    Ok(text)
}

/// Adds what is read, and its header.
fn push_object(
    text: &mut String,
    read: Result<BerObject<'_>, Refused<BerError>>,
) -> Result<(), AllocError> {
    match &read {
        Ok(object) => {
            push_word(text, "read")?;
            push_content(text, &object.content)?;
            push_word(text, "header")?;
            push_header(text, &object.header)
        }
        Err(e) => push_refused(text, e),
    }
}
