//! Objects that are made and not read, from words.
//!
//! A term is a name that begins with a capital letter, or a brace, and the words up to the next
//! term: `Tagged context-specific 0 Sequence { Integer 05 Null }`. The last terms are made first.
use crate::objects::question::{class_of, header_of, tag_of};
use der_parser::ber::{BerObject, BerObjectContent, BitStringObject, Class, Header, Tag};
use der_parser::oid::Oid;
use test_support::words::push_header;
use std::alloc::{AllocError, Global};
use std::borrow::CowSlice;
use test_tables::fault::Fault;
use test_tables::octets::{octets, push_octets, push_word};

/// An octet for each word: its own, if it is one.
pub fn octets_of(alloc: Global, words: &[&str]) -> Result<Vec<u8>, AllocError> {
    let mut all = Vec::new(alloc);
    for word in words {
        let octet = match octets(alloc, word) {
            Ok(octets) => octets.first().copied().unwrap_or(0),
            Err(_) => 0,
        };
        all.push(octet)?;
    }
    Ok(all)
}

/// A term: its name, the words after it, and the octets of these.
#[derive(Clone, Copy)]
struct Term<'w, 'o> {
    name: &'w str,
    words: &'w [&'w str],
    octets: &'o [u8],
}

/// The object that the words spell. `octets` has the octet of each word.
pub fn object<'o>(alloc: Global, words: &[&str], octets: &'o [u8]) -> Result<BerObject<'o>, Fault> {
    let mut lists = Lists::new(alloc)?;
    let mut end = words.len();
    for (at, name) in words.iter().enumerate().rev() {
        if !is_name(name) {
            continue;
        }
        let from = at.saturating_add(1);
        let term = Term {
            name,
            words: words.get(from..end).unwrap_or(&[]),
            octets: octets.get(from..end).unwrap_or(&[]),
        };
        lists.add(alloc, term)?;
        end = at;
    }
    lists.only_object()
}

/// Whether the word begins a term.
fn is_name(word: &str) -> bool {
    match word.as_bytes() {
        [first, ..] => first.is_ascii_uppercase() || matches!(*first, b'{' | b'}'),
        [] => false,
    }
}

/// The objects of each list that isn't made yet, the last object first.
#[derive(Drop)]
struct Lists<'o> {
    open: Vec<Vec<BerObject<'o>>>,
}

impl<'o> Lists<'o> {
    fn new(alloc: Global) -> Result<Lists<'o>, AllocError> {
        let mut open = Vec::new(alloc);
        open.push(Vec::new(alloc))?;
        Ok(Lists { open })
    }

    /// Adds the object that the term makes of those after it.
    fn add(&mut self, alloc: Global, term: Term<'_, 'o>) -> Result<(), Fault> {
        match term.name {
            "}" => Ok(self.open.push(Vec::new(alloc))?),
            "{" => Ok(()),
            "Sequence" | "Set" => self.add_list(term.name),
            "Tagged" | "Present" | "Header" => {
                let outer = Outer::of_term(term).ok_or(Fault::Input)?;
                self.add_outer(alloc, outer)
            }
            _ => self.push(leaf(term).ok_or(Fault::Input)?),
        }
    }

    fn push(&mut self, object: BerObject<'o>) -> Result<(), Fault> {
        match self.open.last_mut() {
            Some(objects) => Ok(objects.push(object)?),
            None => Err(Fault::Input),
        }
    }

    /// Makes a list of the objects of the last list.
    fn add_list(&mut self, name: &str) -> Result<(), Fault> {
        let mut items = self.open.pop().ok_or(Fault::Input)?;
        items.reverse();
        if name == "Set" {
            self.push(BerObject::from_set(items))
        } else {
            self.push(BerObject::from_seq(items))
        }
    }

    /// Makes an object around the last one.
    fn add_outer(&mut self, alloc: Global, outer: Outer) -> Result<(), Fault> {
        match self.pop() {
            Some(inner) => self.push(outer.around(alloc, inner)?),
            None => Err(Fault::Input),
        }
    }

    fn pop(&mut self) -> Option<BerObject<'o>> {
        self.open.last_mut()?.pop()
    }

    fn only_object(mut self) -> Result<BerObject<'o>, Fault> {
        match self.open.as_slice() {
            [objects] if objects.len() == 1 => self.pop().ok_or(Fault::Input),
            _ => Err(Fault::Input),
        }
    }
}

/// What is made around an object.
#[derive(Clone, Copy)]
enum Outer {
    /// An object that may be absent, and isn't.
    Present,
    /// An explicit tag.
    Tagged(Class, Tag),
    /// Another header for the content.
    Header(Header<'static>),
}

impl Outer {
    fn of_term(term: Term<'_, '_>) -> Option<Outer> {
        match (term.name, term.words) {
            ("Present", []) => Some(Outer::Present),
            ("Tagged", [class, number]) => Some(Outer::Tagged(class_of(class)?, tag_of(number)?)),
            ("Header", words) => Some(Outer::Header(header_of(words)?)),
            _ => None,
        }
    }

    /// The object that is made around another.
    fn around<'o>(self, alloc: Global, inner: BerObject<'o>) -> Result<BerObject<'o>, AllocError> {
        let content = match self {
            Outer::Present => BerObjectContent::Optional(Some(Box::new(alloc, inner)?)),
            Outer::Tagged(class, tag) => {
                BerObjectContent::Tagged(class, tag, Box::new(alloc, inner)?)
            }
            Outer::Header(header) => {
                return Ok(BerObject::from_header_and_content(header, inner.content));
            }
        };
        Ok(BerObject::from_obj(content))
    }
}

/// An object that has no other inside it, by the constructor of its content.
fn leaf<'o>(term: Term<'_, 'o>) -> Option<BerObject<'o>> {
    match (term.name, term.words) {
        ("Integer", _) => Some(BerObject::from_int_slice(term.octets)),
        ("Oid", _) => Some(BerObject::from(Oid::new(CowSlice::Borrowed(term.octets)))),
        ("Boolean", ["true"]) => Some(BerObject::from(BerObjectContent::Boolean(true))),
        ("Enum", [number]) => Some(BerObject::from(BerObjectContent::Enum(number.parse().ok()?))),
        _ => Some(BerObject::from_obj(content(term)?)),
    }
}

fn content<'o>(term: Term<'_, 'o>) -> Option<BerObjectContent<'o>> {
    match (term.name, term.words) {
        ("Null", []) => Some(BerObjectContent::Null),
        ("Absent", []) => Some(BerObjectContent::Optional(None)),
        ("BmpString", _) => Some(BerObjectContent::BmpString(term.octets)),
        ("OctetString", _) => Some(BerObjectContent::OctetString(term.octets)),
        ("BitString", [unused, ..]) => {
            let bytes = term.octets.get(1..)?;
            Some(BerObjectContent::BitString(unused.parse().ok()?, BitStringObject { bytes }))
        }
        _ => None,
    }
}

/// The header of an object, and the octets that `to_vec` writes of it.
pub fn answer(alloc: Global, object: &BerObject<'_>) -> Result<String, Fault> {
    let mut text = String::new(alloc);
    push_header(&mut text, &object.header)?;
    push_word(&mut text, "written")?;
    match object.to_vec(alloc) {
        Ok(written) => push_octets(&mut text, &written)?,
        Err(e) => write!(text, " not: {e}")?,
    }
    Ok(text)
}
