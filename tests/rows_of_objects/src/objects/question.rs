//! What is asked of an object.
use crate::objects::encoder::{Encoder, written_in_rooms};
use crate::objects::printer::{Layout, shown, written};
use crate::objects::{accessors, objects_from_words, pairs, visits};
use der_parser::ber::{BerObject, Class, Header, Length, Tag};
use std::alloc::Global;
use test_tables::fault::Fault;

/// What is asked of an object.
#[derive(Clone, Copy)]
pub enum Question {
    /// What the accessors return that don't refuse it.
    Parts,
    /// The octets of its items.
    Items,
    /// How many of its items have octets.
    Count,
    /// The numbers of two items, by their places.
    Places,
    /// The octets of the objects that it is moved into.
    Moved,
    /// Whether its copy tells the same.
    Copy,
    /// Whether it is equal to what its own octets are read as.
    ReadBack,
    /// Whether the questions on it are those on its header.
    Header,
    /// Its header, and the octets that `to_vec` writes.
    Made,
    /// Its text, as the printer writes it to a writer.
    Written(Layout),
    /// Its text, as `Debug` of the printer shows it.
    Shown(Layout),
    /// The octets that are written to a writer.
    Encoded(Encoder),
    /// The calls that it is visited by from this depth.
    Visited(usize),
    /// The same, where it may be changed.
    VisitedMut(usize),
}

impl Question {
    /// The question that a call asks.
    pub fn of_words(words: &[&str]) -> Option<Question> {
        match words {
            ["parts"] => Some(Question::Parts),
            ["ref_iter"] => Some(Question::Items),
            ["count"] => Some(Question::Count),
            ["places"] => Some(Question::Places),
            ["into_iter"] => Some(Question::Moved),
            ["try_clone"] => Some(Question::Copy),
            ["read_back"] => Some(Question::ReadBack),
            ["header"] => Some(Question::Header),
            ["made"] => Some(Question::Made),
            ["write_text", layout @ ..] => Some(Question::Written(Layout::of_words(layout)?)),
            ["debug", layout @ ..] => Some(Question::Shown(Layout::of_words(layout)?)),
            ["visit", depth] => Some(Question::Visited(depth.parse().ok()?)),
            ["visit_mut", depth] => Some(Question::VisitedMut(depth.parse().ok()?)),
            words => Some(Question::Encoded(Encoder::of_words(words)?)),
        }
    }

    /// What is answered of the object.
    pub fn answer(self, alloc: Global, object: BerObject<'_>) -> Result<String, Fault> {
        match self {
            Question::Moved => accessors::moved(alloc, object),
            question => question.answer_of(alloc, &object),
        }
    }

    fn answer_of(self, alloc: Global, object: &BerObject<'_>) -> Result<String, Fault> {
        match self {
            Question::Parts => accessors::parts(alloc, object),
            Question::Items | Question::Moved => accessors::items(alloc, object),
            Question::Count => accessors::count(alloc, object),
            Question::Places => accessors::places(alloc, object),
            Question::Copy => pairs::copied(alloc, object),
            Question::ReadBack => pairs::read_back(alloc, object),
            Question::Header => accessors::header(alloc, object),
            Question::Made => objects_from_words::answer(alloc, object),
            Question::Written(layout) => written(alloc, layout, object),
            Question::Shown(layout) => shown(alloc, layout, object),
            Question::Encoded(encoder) => written_in_rooms(alloc, encoder, object),
            Question::Visited(depth) => visits::visited(alloc, object, depth),
            Question::VisitedMut(depth) => visits::visited_mut(alloc, object, depth),
        }
    }
}

/// A class by its name in small letters.
pub fn class_of(word: &str) -> Option<Class> {
    match word {
        "universal" => Some(Class::Universal),
        "application" => Some(Class::Application),
        "context-specific" => Some(Class::ContextSpecific),
        "private" => Some(Class::Private),
        _ => None,
    }
}

/// A tag by its number.
pub fn tag_of(word: &str) -> Option<Tag> {
    Some(Tag(word.parse().ok()?))
}

/// A length by its number, or the indefinite one.
pub fn length_of(word: &str) -> Option<Length> {
    match word {
        "indefinite" => Some(Length::Indefinite),
        number => Some(Length::Definite(number.parse().ok()?)),
    }
}

/// A header by its class, form, tag number and length.
pub fn header_of(words: &[&str]) -> Option<Header<'static>> {
    let [class, form, number, length] = words else {
        return None;
    };
    let constructed = match *form {
        "primitive" => false,
        "constructed" => true,
        _ => return None,
    };
    Some(Header::new(
        class_of(class)?,
        constructed,
        tag_of(number)?,
        length_of(length)?,
    ))
}
