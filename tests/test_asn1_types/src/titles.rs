//! The names of the types that components of modules refer to.

use crate::graphs::{have_one_tag, resolved};
use asn1_types::Types;
use der_schema::schema::{Component, Inside, Type};
use std::alloc::{AllocError, Global};
use std::collections::BTreeMap;

/// The names of lists and of CHOICEs, by their keys.
#[derive(Drop)]
pub struct Titles(BTreeMap<String, &'static str>);

impl Titles {
    pub fn of(alloc: Global, types: Types) -> Result<Titles, AllocError> {
        let mut titles = BTreeMap::new(alloc);
        for module in types.modules {
            for one in module.types {
                let key = key_text(alloc, resolved(one.kind, types.types))?;
                if !key.is_empty() && is_own(one.kind, types.types) {
                    titles.insert(key, one.name)?;
                }
            }
        }
        Ok(Titles(titles))
    }

    pub fn title_of(&self, alloc: Global, kind: Type) -> Result<Option<&'static str>, AllocError> {
        let key = key_text(alloc, kind)?;
        Ok(self.0.get(&key).copied())
    }

    /// A text that tells a type from others.
    pub fn key_of(&self, alloc: Global, kind: Type, types: &[&'static Component]) -> Result<String, AllocError> {
        let mut key = key_text(alloc, resolved(kind, types))?;
        if let (Type::Numbered(index), true) = (kind, key.is_empty()) {
            write!(key, "type {index}")?;
        }
        Ok(key)
    }
}

/// Whether a type is a list or a CHOICE itself, and no reference to one: the type behind it is its first component, or
/// has the tag of its first alternative.
fn is_own(kind: Type, types: &[&'static Component]) -> bool {
    let Type::Numbered(index) = kind else {
        return false;
    };
    let next = index.saturating_add(1);
    match resolved(kind, types) {
        Type::Choice([first, ..]) => have_one_tag(first.kind, resolved(Type::Numbered(next), types)),
        Type::Tagged(_, _, _, Inside::Components([first, ..]) | Inside::Members([first, ..])) => {
            matches!(first.kind, Type::Numbered(index) if index == next)
        }
        _ => false,
    }
}

/// The index of the first component of a list, or the names of alternatives.
fn key_text(alloc: Global, kind: Type) -> Result<String, AllocError> {
    let mut text = String::new(alloc);
    match kind {
        Type::Tagged(
            _,
            _,
            _,
            Inside::Components([first, ..]) | Inside::Members([first, ..]) | Inside::Begins([first, ..], _),
        ) => {
            if let Type::Numbered(index) = first.kind {
                write!(text, "list {index}")?;
            }
        }
        Type::Choice(alternatives) => {
            for one in alternatives {
                write!(text, "{} ", one.name)?;
            }
        }
        _ => {}
    }
    Ok(text)
}
