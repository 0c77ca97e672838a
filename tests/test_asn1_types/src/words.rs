//! Types in words.

use der_schema::schema::{Class, Form, Inside, Type};
use std::alloc::{AllocError, Global};

/// Writes a tag: U, A or P for its class, the number, and `+` if it is constructed, or `*` if it may be both.
pub fn write_tag(out: &mut String, class: Class, number: u32, form: Form) -> Result<(), AllocError> {
    let class = match class {
        Class::Universal => "U",
        Class::Application => "A",
        Class::ContextSpecific => "",
        Class::Private => "P",
    };
    let form = match form {
        Form::Primitive => "",
        Form::Constructed => "+",
        Form::Either => "*",
    };
    write!(out, "{class}{number}{form}")
}

/// The tag of a type, if it has one.
pub fn tag_text(alloc: Global, kind: Type) -> Result<String, AllocError> {
    let mut text = String::new(alloc);
    if let Type::Tagged(class, number, form, _) = kind {
        write_tag(&mut text, class, number, form)?;
    }
    Ok(text)
}

/// What a type is, and what is inside unless it is free.
pub fn type_text(alloc: Global, kind: Type) -> Result<String, AllocError> {
    let mut text = tag_text(alloc, kind)?;
    match kind {
        Type::Any => text.push_str("any")?,
        Type::Tagged(_, _, _, Inside::Free) => {}
        Type::Tagged(_, _, _, inside) => write!(text, " {}", word_of(inside))?,
        Type::Choice(_) => text.push_str("choice")?,
        Type::Selected => text.push_str("selected")?,
        Type::Numbered(index) => write!(text, "type {index}")?,
    }
    Ok(text)
}

/// What is inside, in a word.
pub fn word_of(inside: Inside) -> &'static str {
    match inside {
        Inside::Free => "free",
        Inside::Nothing => "nothing",
        Inside::Components(_) => "components",
        Inside::Members(_) => "members",
        Inside::Each(_) => "items",
        Inside::Holds(_) => "holds",
        Inside::Chosen => "chosen",
        Inside::Selects(_) => "selects",
        Inside::Begins(..) => "begins",
    }
}
