//! Damaged modules and large ones: an error or types, soon.

use asn1_types::{Problem, Types};
use std::alloc::{AllocError, Global};

/// A module with much of what becomes a type otherwise.
const WHOLE: &[&str] = &[
    "M", "DEFINITIONS", "AUTOMATIC", "TAGS", "::=", "BEGIN", "IMPORTS", "B", "FROM", "N", ";", "A", "::=", "[", "n",
    "]", "SEQUENCE", "{", "a", "A", "OPTIONAL", ",", "...", ",", "[[", "b", "B", "]]", ",", "COMPONENTS", "OF", "D",
    "}", "C", "::=", "CHOICE", "{", "c", "[", "1", "]", "A", ",", "d", "CHOICE", "{", "e", "SET", "OF", "C", ",", "f",
    "NULL", "}", "}", "D", "::=", "SEQUENCE", "{", "g", "d", "<", "C", ",", "h", "OCTET", "STRING", "(", "CONTAINING",
    "A", ")", "}", "n", "INTEGER", "::=", "5", "END", "N", "DEFINITIONS", "::=", "BEGIN", "B", "::=", "SET", "{", "i",
    "[", "0", "]", "IMPLICIT", "B", "OPTIONAL", "}", "END",
];

/// Reads items of a text, with spaces between them, and says whether an error has its place in the text.
fn ends(alloc: Global, items: &[&str]) -> Result<bool, AllocError> {
    let mut text = String::new(alloc);
    for item in items {
        text.push_str(item)?;
        text.push_str(" ")?;
    }
    Ok(match Types::from_texts(alloc, &[text.as_bytes()]) {
        Ok(types) => types.known.len() <= types.types.len(),
        Err(error) => error.text == 0 && error.line == 1 && error.column <= text.len().saturating_add(1),
    })
}

#[test]
fn damaged(rt: HostRuntime) -> Result<(), AllocError> {
    assert!(rt; ends(rt.alloc(), WHOLE)?);
    for (index, _) in WHOLE.iter().enumerate() {
        let mut items = Vec::from_slice(rt.alloc(), WHOLE)?;
        items.truncate(index);
        assert!(rt; ends(rt.alloc(), &items)?);
        let mut items = Vec::from_slice(rt.alloc(), WHOLE)?;
        if index < items.len() {
            items.remove(index);
        }
        assert!(rt; ends(rt.alloc(), &items)?);
        let mut state = (index as u32).wrapping_mul(1_664_525);
        for _ in 0..4 {
            let mut items = Vec::from_slice(rt.alloc(), WHOLE)?;
            state = state.wrapping_mul(1_664_525).wrapping_add(1_013_904_223);
            let other = (state >> 16) as usize % WHOLE.len();
            if index < items.len() && other < items.len() {
                items.swap(index, other);
            }
            assert!(rt; ends(rt.alloc(), &items)?);
        }
    }
    Ok(())
}

/// The error of a module with this text, if it has one.
fn problem_of(alloc: Global, text: &str) -> Option<Problem> {
    match Types::from_texts(alloc, &[text.as_bytes()]) {
        Ok(_) => None,
        Err(error) => Some(error.problem),
    }
}

/// A module of types, each of which has the next one twice.
fn doubled(alloc: Global, count: usize, before: &str, between: &str, after: &str) -> Result<String, AllocError> {
    let mut text = String::from_str(alloc, "M DEFINITIONS ::= BEGIN ")?;
    for index in 0..count {
        let next = index.saturating_add(1);
        write!(text, "T{index} ::= {before}T{next}{between}T{next}{after} ")?;
    }
    write!(text, "T{count} ::= {before}NULL{between}NULL{after} END")?;
    Ok(text)
}

#[test]
fn no_exponential_time(rt: HostRuntime) -> Result<(), AllocError> {
    let lists = doubled(rt.alloc(), 40, "SEQUENCE { COMPONENTS OF ", ", COMPONENTS OF ", " }")?;
    assert!(rt; matches!(problem_of(rt.alloc(), lists.as_str()), Some(Problem::TooMany | Problem::NoComponents)));
    let choices = doubled(rt.alloc(), 40, "CHOICE { a ", ", b ", " }")?;
    assert!(rt; problem_of(rt.alloc(), choices.as_str()) == Some(Problem::TooMany));
    let empty = "M DEFINITIONS ::= BEGIN A ::= CHOICE { a B, b B } B ::= CHOICE {} END";
    assert!(rt; problem_of(rt.alloc(), empty).is_none());
    Ok(())
}

/// A module of so many types, each of which is the next one.
fn chain(alloc: Global, count: usize, before: &str, after: &str) -> Result<String, AllocError> {
    let mut text = String::from_str(alloc, "M DEFINITIONS IMPLICIT TAGS ::= BEGIN ")?;
    for index in 0..count {
        let next = index.saturating_add(1);
        write!(text, "T{index} ::= {before}T{next}{after} ")?;
    }
    write!(text, "T{count} ::= {before}NULL{after} END")?;
    Ok(text)
}

#[test]
fn chains(rt: HostRuntime) -> Result<(), AllocError> {
    for (before, after) in [("", ""), ("[0] ", ""), ("CHOICE { a ", " }")] {
        let most = chain(rt.alloc(), 30, before, after)?;
        assert!(rt; problem_of(rt.alloc(), most.as_str()).is_none(), "{before}");
        let many = chain(rt.alloc(), 2000, before, after)?;
        assert!(rt; problem_of(rt.alloc(), many.as_str()) == Some(Problem::Endless), "{before}");
    }
    let lists = chain(rt.alloc(), 20000, "SEQUENCE { a ", " }")?;
    assert!(rt; problem_of(rt.alloc(), lists.as_str()).is_none());
    Ok(())
}
