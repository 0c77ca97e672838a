//! Damaged modules: the reader ends, and the offset of an error is in the text.
use asn1_modules::{Problem, read_modules};
use std::alloc::{AllocError, Global};

/// A module with most of what a module may have.
const WHOLE: &str = "M {iso(1) a 2} DEFINITIONS IMPLICIT TAGS EXTENSIBILITY IMPLIED ::= BEGIN EXPORTS A; \
    IMPORTS B, c FROM N {1 2} D FROM O; A ::= [APPLICATION 1] SEQUENCE SIZE (1..5) OF x CHOICE { a [0] B (1), ..., \
    [[ 2: b SET { COMPONENTS OF C, d D.&E({F}{@.g}) DEFAULT {1, \"x\"} } ]] } /* c */ e INTEGER { f(-1) } ::= 5 -- h --\
    G ::= CLASS { &i UNIQUE } WITH SYNTAX { J &i } k G ::= { J '00'B } P{T} ::= m < Q{T} \
    n OBJECT IDENTIFIER ::= { iso(1) 2 o p(3) } END";

/// Reads octets, and says whether an error has its offset in them.
fn ends(alloc: Global, text: &[u8]) -> bool {
    match read_modules(alloc, text) {
        Ok(_) => true,
        Err(error) => error.offset <= text.len() && error.line > 0 && error.column > 0,
    }
}

#[test]
fn whole(rt: HostRuntime) {
    match read_modules(rt.alloc(), WHOLE.as_bytes()) {
        Ok(syntax) => assert_eq!(rt; syntax.assignments.len(), 6),
        Err(error) => panic!(rt; "{error}"),
    }
}

#[test]
fn truncated(rt: HostRuntime) {
    let octets = WHOLE.as_bytes();
    for length in 0..octets.len() {
        if let Some(start) = octets.get(..length) {
            assert!(rt; ends(rt.alloc(), start));
            assert!(rt; read_modules(rt.alloc(), start).is_err(), "{length}");
        }
    }
}

#[test]
fn without_one_octet(rt: HostRuntime) -> Result<(), AllocError> {
    for (index, _) in WHOLE.as_bytes().iter().enumerate() {
        let mut octets = Vec::from_slice(rt.alloc(), WHOLE.as_bytes())?;
        if index < octets.len() {
            octets.remove(index);
        }
        assert!(rt; ends(rt.alloc(), &octets));
    }
    Ok(())
}

#[test]
fn with_another_octet(rt: HostRuntime) -> Result<(), AllocError> {
    let mut state: u32 = 1;
    for (index, _) in WHOLE.as_bytes().iter().enumerate() {
        let mut octets = Vec::from_slice(rt.alloc(), WHOLE.as_bytes())?;
        state = state.wrapping_mul(1_664_525).wrapping_add(1_013_904_223);
        if let Some(octet) = octets.get_mut(index) {
            *octet = (state >> 24) as u8;
        }
        assert!(rt; ends(rt.alloc(), &octets));
    }
    Ok(())
}

#[test]
fn random_octets(rt: HostRuntime) -> Result<(), AllocError> {
    let mut state: u32 = 7;
    for length in 0..200 {
        let mut octets = Vec::new(rt.alloc());
        for _ in 0..length {
            state = state.wrapping_mul(1_664_525).wrapping_add(1_013_904_223);
            octets.push((state >> 24) as u8)?;
        }
        assert!(rt; ends(rt.alloc(), &octets));
    }
    Ok(())
}

/// A type inside so many others.
fn nested(alloc: Global, before: &str, count: usize, after: &str) -> Result<String, AllocError> {
    let mut text = String::new(alloc);
    text.push_str("M DEFINITIONS ::= BEGIN A ::= ")?;
    for _ in 0..count {
        text.push_str(before)?;
    }
    text.push_str("NULL ")?;
    for _ in 0..count {
        text.push_str(after)?;
    }
    text.push_str("END")?;
    Ok(text)
}

fn problem_of(alloc: Global, text: &str) -> Option<Problem> {
    match read_modules(alloc, text.as_bytes()) {
        Ok(_) => None,
        Err(error) => Some(error.problem),
    }
}

/// What stands before and behind a type in another one.
const AROUND: &[(&str, &str)] = &[
    ("SEQUENCE OF ", ""),
    ("SET SIZE (1) OF a ", ""),
    ("[0] ", ""),
    ("a < ", ""),
    ("SEQUENCE { a ", "} "),
    ("CHOICE { ", "} OPTIONAL "),
];

#[test]
fn deep(rt: HostRuntime) -> Result<(), AllocError> {
    for (before, after) in AROUND {
        let least = nested(rt.alloc(), before, 65, after)?;
        assert!(rt; problem_of(rt.alloc(), least.as_str()) == Some(Problem::TooDeep), "{before}");
        let many = nested(rt.alloc(), before, 20000, after)?;
        assert!(rt; problem_of(rt.alloc(), many.as_str()) == Some(Problem::TooDeep), "{before}");
    }
    for (before, after) in AROUND.iter().take(5) {
        let most = nested(rt.alloc(), before, 64, after)?;
        assert!(rt; problem_of(rt.alloc(), most.as_str()).is_none(), "{before}");
    }
    Ok(())
}

#[test]
fn deep_groups(rt: HostRuntime) -> Result<(), AllocError> {
    for (before, after) in [("{", "}"), ("INTEGER (", ")"), ("/*", "*/"), ("[[", "]]")] {
        let text = nested(rt.alloc(), before, 20000, after)?;
        let other = nested(rt.alloc(), before, 20000, "")?;
        assert!(rt; ends(rt.alloc(), text.as_bytes()));
        assert!(rt; ends(rt.alloc(), other.as_bytes()));
    }
    Ok(())
}
