//! Types as text, for rows of tests.

use crate::words::write_tag;
use asn1_types::Types;
use der_schema::schema::{Component, Inside, Type};
use std::alloc::{AllocError, Global};

/// The type with a name, and what is inside it up to a depth, or the error of a text.
pub fn text_of(alloc: Global, text: &str, name: &str, depth: usize) -> Result<String, AllocError> {
    let types = match Types::from_texts(alloc, &[text.as_bytes()]) {
        Ok(types) => types,
        Err(error) => return format!(in alloc; "{error}"),
    };
    let mut written = String::new(alloc);
    if let Some(schema) = types.type_named(name) {
        for component in schema.components {
            write_kind(&mut written, &types, component.kind, depth)?;
        }
    }
    Ok(written)
}

fn write_kind(out: &mut String, types: &Types, kind: Type, depth: usize) -> Result<(), AllocError> {
    match kind {
        Type::Any => out.push_str("ANY"),
        Type::Tagged(class, number, form, inside) => {
            write_tag(out, class, number, form)?;
            write_inside(out, types, inside, depth)
        }
        Type::Choice(alternatives) => write_list(out, types, alternatives, "<", ">", depth),
        Type::Selected => out.push_str("selected"),
        Type::Numbered(index) => match types.types.get(index) {
            Some(component) if !matches!(component.kind, Type::Numbered(_)) => {
                write_kind(out, types, component.kind, depth)
            }
            _ => out.push_str("!"),
        },
    }
}

fn write_inside(out: &mut String, types: &Types, inside: Inside, depth: usize) -> Result<(), AllocError> {
    match inside {
        Inside::Free | Inside::Nothing | Inside::Chosen | Inside::Selects(_) | Inside::Begins(..) => Ok(()),
        Inside::Components(list) => write_list(out, types, list, "{", "}", depth),
        Inside::Members(list) => write_list(out, types, list, "(", ")", depth),
        Inside::Holds(list) => write_list(out, types, list, "/", "/", depth),
        Inside::Each(item) => write_list(out, types, &[*item], "[", "]", depth),
    }
}

fn write_list(
    out: &mut String,
    types: &Types,
    list: &[Component],
    open: &str,
    close: &str,
    depth: usize,
) -> Result<(), AllocError> {
    out.push_str(open)?;
    let Some(left) = depth.checked_sub(1) else {
        return out.push_str(close);
    };
    for (index, component) in list.iter().enumerate() {
        let before = if index == 0 { "" } else { " " };
        let after = if component.optional { "?" } else { "" };
        let name = component.name;
        write!(out, "{before}{name}{after}:")?;
        write_kind(out, types, component.kind, left)?;
    }
    out.push_str(close)
}
