//! Certification requests, and parts of them.
use crate::writers::capacities::written;
use der_base::header::Tag;
use der_writer::Writer;
use x509_keys::request::writer::{
    AlgorithmIdentifier, NameAttribute, Parameters, PublicKeyInfo, RequestInfo, put_algorithm,
    put_alternative_names, put_name, write_request_info,
};
use std::alloc::Global;
use test_tables::fault::Fault;
use test_tables::octets::octets;

/// An attribute of a row: `55.04.03 12 example.org`, the octets of the type, the tag number and the text.
#[derive(Drop)]
struct Attribute<'a> {
    identifier: Vec<u8>,
    string_type: Tag,
    text: &'a str,
}

/// The attributes that a text lists.
fn attributes<'a>(alloc: Global, text: &'a str) -> Result<Vec<Attribute<'a>>, Fault> {
    let mut list = Vec::new(alloc);
    let mut words = text.split_ascii_whitespace();
    while let Some(identifier) = words.next() {
        let Some(number) = words.next().and_then(|it| it.parse::<u32>().ok()) else {
            return Err(Fault::Input);
        };
        list.push(Attribute {
            identifier: octets(alloc, identifier)?,
            string_type: Tag(number),
            text: words.next().ok_or(Fault::Input)?,
        })?;
    }
    Ok(list)
}

/// The same as the writer takes them.
fn name_of<'a>(alloc: Global, list: &'a [Attribute<'a>]) -> Result<Vec<NameAttribute<'a>>, Fault> {
    let mut name = Vec::new(alloc);
    for attribute in list {
        name.push(NameAttribute {
            identifier: &attribute.identifier,
            string_type: attribute.string_type,
            text: attribute.text,
        })?;
    }
    Ok(name)
}

/// An algorithm of a row: `2a.86.48 null`, the octets of its identifier, and `absent`, `null` or the octets of its
/// parameters.
#[derive(Drop)]
struct Algorithm<'a> {
    identifier: Vec<u8>,
    kind: &'a str,
    element: Vec<u8>,
}

/// The algorithm that two words spell.
fn algorithm<'a>(alloc: Global, identifier: &str, kind: &'a str) -> Result<Algorithm<'a>, Fault> {
    let element = match kind {
        "absent" | "null" => Vec::new(alloc),
        text => octets(alloc, text)?,
    };
    Ok(Algorithm {
        identifier: octets(alloc, identifier)?,
        kind,
        element,
    })
}

fn algorithm_of<'a>(given: &'a Algorithm<'a>) -> AlgorithmIdentifier<'a> {
    AlgorithmIdentifier {
        algorithm: &given.identifier,
        parameters: match given.kind {
            "absent" => Parameters::Absent,
            "null" => Parameters::Null,
            _ => Parameters::Element(&given.element),
        },
    }
}

/// The octets of an algorithm.
pub fn algorithm_text(alloc: Global, input: &str) -> Result<String, Fault> {
    let (identifier, kind) = input.split_once(' ').ok_or(Fault::Input)?;
    let given = algorithm(alloc, identifier, kind)?;
    written(alloc, |out| {
        let mut fields = Writer::new(out);
        put_algorithm(&mut fields, &algorithm_of(&given));
        fields.finish()
    })
}

/// The octets of a name.
pub fn name_text(alloc: Global, input: &str) -> Result<String, Fault> {
    let list = attributes(alloc, input)?;
    let name = name_of(alloc, &list)?;
    written(alloc, |out| {
        let mut fields = Writer::new(out);
        put_name(&mut fields, &name);
        fields.finish()
    })
}

/// The octets of alternative names.
pub fn alternative_names_text(alloc: Global, input: &str) -> Result<String, Fault> {
    let names = words(alloc, input)?;
    written(alloc, |out| {
        let mut fields = Writer::new(out);
        put_alternative_names(&mut fields, &names);
        fields.finish()
    })
}

fn words<'a>(alloc: Global, text: &'a str) -> Result<Vec<&'a str>, Fault> {
    let mut list = Vec::new(alloc);
    for word in text.split_ascii_whitespace() {
        list.push(word)?;
    }
    Ok(list)
}

/// The octets of a request: the subject, the key and the DNS names of a row stand between semicolons. The key is one
/// word, the octets of its element; or three, an algorithm's and the octets of the key.
pub fn request_text(alloc: Global, input: &str) -> Result<String, Fault> {
    let (subject, rest) = input.split_once(';').ok_or(Fault::Input)?;
    let (key, names) = rest.split_once(';').ok_or(Fault::Input)?;
    let list = attributes(alloc, subject)?;
    let subject = name_of(alloc, &list)?;
    let names = words(alloc, names)?;
    let key_words = words(alloc, key)?;
    match key_words.as_slice() {
        [element] => {
            let element = octets(alloc, element)?;
            request_of(alloc, &subject, PublicKeyInfo::Element(&element), &names)
        }
        [identifier, kind, key] => {
            let given = algorithm(alloc, identifier, kind)?;
            let key = octets(alloc, key)?;
            let key_info = PublicKeyInfo::Key {
                algorithm: algorithm_of(&given),
                key: &key,
            };
            request_of(alloc, &subject, key_info, &names)
        }
        _ => Err(Fault::Input),
    }
}

fn request_of(
    alloc: Global,
    subject: &[NameAttribute<'_>],
    key_info: PublicKeyInfo<'_>,
    dns_names: &[&str],
) -> Result<String, Fault> {
    let info = RequestInfo {
        subject,
        key_info,
        dns_names,
    };
    written(alloc, |out| write_request_info(out, &info))
}
