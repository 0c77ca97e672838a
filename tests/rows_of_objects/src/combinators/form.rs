//! What reads an object, as a call names it.
use crate::combinators::kept::Kept;
use crate::combinators::names::{first_word, rules_of, tag_of};
use crate::combinators::{lists, tags};
use der_parser::Rules;
use der_parser::ber::Tag;
use der_parser::error::BerResult;
use std::alloc::Global;

/// What a combinator answers, and how often it calls the parser that it keeps.
pub type Given<'a> = (u64, BerResult<'a>);

/// A combinator, with what it keeps.
#[derive(Clone, Copy)]
pub enum Form {
    /// A SEQUENCE OF or SET OF what the parser reads.
    ListOf(Rules, Tag, Kept),
    /// A SEQUENCE or SET of two objects.
    ListOfTwo(Rules, Tag, Kept),
    /// An object inside an explicit tag.
    Explicit(Rules, Tag, Kept),
    /// An object under an implicit tag, of the type of the second.
    Implicit(Rules, Tag, Tag),
    /// The same by the function that reads at once.
    ImplicitAtOnce(Rules, Tag, Tag),
    /// An object that may be absent.
    Optional(Rules, Kept),
    /// The same inside an explicit tag.
    ExplicitOptional(Rules, Tag, Kept),
}

impl Form {
    /// The combinator that a call names.
    pub fn named(call: &str) -> Option<Form> {
        let (name, words) = first_word(call);
        let (rules, form) = rules_of(name)?;
        match form {
            "sequence_of" => Some(Form::ListOf(rules, Tag::Sequence, Kept::named(words)?)),
            "set_of" => Some(Form::ListOf(rules, Tag::Set, Kept::named(words)?)),
            "sequence_defined" => Some(Form::ListOfTwo(rules, Tag::Sequence, Kept::twice(words)?)),
            "set_defined" => Some(Form::ListOfTwo(rules, Tag::Set, Kept::twice(words)?)),
            "optional" => Some(Form::Optional(rules, Kept::named(words)?)),
            _ => Form::tagged(rules, form, words),
        }
    }

    /// The combinator of this name, whose first word is a tag.
    fn tagged(rules: Rules, form: &str, words: &str) -> Option<Form> {
        let (tag, words) = tag_of(words)?;
        match form {
            "tagged_explicit" => Some(Form::Explicit(rules, tag, Kept::named(words)?)),
            "explicit_optional" => Some(Form::ExplicitOptional(rules, tag, Kept::named(words)?)),
            "tagged_implicit" => Some(Form::Implicit(rules, tag, tag_of(words)?.0)),
            "implicit" => Some(Form::ImplicitAtOnce(rules, tag, tag_of(words)?.0)),
            _ => None,
        }
    }

    /// What the combinator answers.
    pub fn read(self, alloc: Global, i: &[u8]) -> Given<'_> {
        match self {
            Form::ListOf(rules, tag, kept) => lists::list_of(alloc, rules, tag, kept, i),
            Form::ListOfTwo(rules, tag, kept) => lists::list_of_two(alloc, rules, tag, kept, i),
            Form::Explicit(rules, tag, kept) => tags::explicit(alloc, rules, tag, kept, i),
            Form::Implicit(rules, tag, content) => tags::implicit(alloc, rules, tag, content, i),
            Form::ImplicitAtOnce(rules, tag, content) => {
                tags::implicit_at_once(alloc, rules, tag, content, i)
            }
            Form::Optional(rules, kept) => tags::optional(alloc, rules, kept, i),
            Form::ExplicitOptional(rules, tag, kept) => {
                tags::explicit_optional(alloc, rules, tag, kept, i)
            }
        }
    }
}
