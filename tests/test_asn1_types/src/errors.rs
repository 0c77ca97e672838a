//! The errors of modules whose types can't be made.

use crate::texts::text_of;
use asn1_types::Types;
use std::alloc::AllocError;

/// What stands in a module behind 24 octets, and the error of that text.
const FAULTS: &[(&str, &str)] = &[
    ("A ::= B", "line 1, column 31: B is neither defined nor imported"),
    ("A ::= SEQUENCE {\n  a [0] B.C }", "line 2, column 9: no text has module B"),
    ("IMPORTS B FROM N;\nA ::= B", "line 1, column 40: no text has module N"),
    ("A ::= NULL\nA ::= NULL", "line 2, column 1: A is defined twice"),
    ("A ::= B B ::= A", "line 1, column 31: a type is defined by itself, or through more than 64 names and tags"),
    ("A ::= CHOICE { a A }",
        "line 1, column 40: a type is defined by itself, or through more than 64 names and tags"),
    ("A ::= CHOICE { a A, b A }",
        "line 1, column 40: a type is defined by itself, or through more than 64 names and tags"),
    ("A ::= [0] IMPLICIT A",
        "line 1, column 31: a type is defined by itself, or through more than 64 names and tags"),
    ("A ::= SEQUENCE { COMPONENTS OF A }",
        "line 1, column 42: a type is defined by itself, or through more than 64 names and tags"),
    ("A ::= SEQUENCE { COMPONENTS OF B } B ::= SET {}",
        "line 1, column 42: COMPONENTS OF has another type than the list around it"),
    ("A ::= CHOICE { a NULL, b B } B ::= CHOICE { c INTEGER, d NULL }",
        "line 1, column 80: alternative d has the tag of another one"),
    ("A ::= [n] NULL", "line 1, column 31: n is neither defined nor imported"),
    ("A ::= [n] NULL n INTEGER ::= -1", "line 1, column 31: n is no tag number"),
    ("A ::= [n] NULL n INTEGER ::= m m INTEGER ::= n",
        "line 1, column 31: a type is defined by itself, or through more than 64 names and tags"),
    ("A ::= a < B B ::= CHOICE { b NULL }", "line 1, column 31: no alternative is a"),
    ("A ::= a < NULL", "line 1, column 31: no alternative is a"),
    ("A ::= SEQUENCE { ..., ..., ... }", "line 1, column 52: expected an identifier, found '...'"),
    ("A ::= SEQUENCE { a [] NULL }", "line 1, column 45: expected a number, found ']'"),
];

#[test]
fn faults(rt: HostRuntime) -> Result<(), AllocError> {
    for (inside, error) in FAULTS {
        let text = format!(in rt.alloc(); "M DEFINITIONS ::= BEGIN {inside} END")?;
        let found = text_of(rt.alloc(), text.as_str(), "A", 1)?;
        assert_eq!(rt; found.as_str(), *error, "{inside}");
    }
    Ok(())
}

/// A module twice, and imports of a module's imports.
#[test]
fn several_texts(rt: HostRuntime) -> Result<(), AllocError> {
    let first: &[u8] = b"M DEFINITIONS ::= BEGIN IMPORTS T, n FROM N; A ::= [n] IMPLICIT T END";
    let second: &[u8] = b"O DEFINITIONS ::= BEGIN T ::= NULL END\n\
        N DEFINITIONS ::= BEGIN IMPORTS T FROM O; n T ::= 3 END";
    match Types::from_texts(rt.alloc(), &[first, second]) {
        Ok(types) => {
            let written = format!(in rt.alloc(); "{types}")?;
            assert_eq!(rt; written.as_str(), "M\n  A [3]\nO\n  T NULL\nN\n");
        }
        Err(error) => panic!(rt; "{error}"),
    }
    match Types::from_texts(rt.alloc(), &[second, b"N DEFINITIONS ::= BEGIN END"]) {
        Ok(_) => panic!(rt; "module N is there twice"),
        Err(error) => {
            assert_eq!(rt; error.text, 1);
            let written = format!(in rt.alloc(); "{error}")?;
            assert_eq!(rt; written.as_str(), "line 1, column 1: N is defined twice");
        }
    }
    Ok(())
}

#[test]
fn written(rt: HostRuntime) -> Result<(), AllocError> {
    let text = b"M DEFINITIONS ::= BEGIN A ::= SEQUENCE {} B ::= [APPLICATION 1] A C ::= SET OF A D ::= CHOICE { a A } \
        E ::= ANY f A ::= {} G {H} ::= H I ::= A J ::= SEQUENCE OF A K ::= CLASS { &l } L ::= TYPE-IDENTIFIER END";
    match Types::from_texts(rt.alloc(), &[text]) {
        Ok(types) => {
            let written = format!(in rt.alloc(); "{types}")?;
            assert_eq!(rt; written.as_str(), "M\n  A SEQUENCE\n  B [APPLICATION 1]\n  C SET OF\n  D CHOICE\n  E ANY\n  \
                I SEQUENCE\n  J SEQUENCE OF\n");
            assert!(rt; types.type_named("a").is_some_and(|it| it.name == "A"));
            assert!(rt; types.type_named("K").is_none());
        }
        Err(error) => panic!(rt; "{error}"),
    }
    Ok(())
}
