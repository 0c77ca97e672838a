//! Words of modules, and what is wrong with words.

use crate::texts::{error_of, words_of};
use anyhow::Result;

/// What stands in a module, the octets of a type A, and their words.
const WORDS: &[(&str, &str, &str)] = &[
    ("A ::= INTEGER -- label: Serial number, notation: hex", "0202ff00", "Serial number: ff00\n"),
    ("A ::= -- label: Age , notation : number\n INTEGER", "020105", "Age: 5\n"),
    ("A ::= INTEGER --label:Age,notation:number-- B ::= NULL", "020105", "Age: 5\n"),
    ("A ::= INTEGER -- notation: number, kind: INTEGER, label: Age", "020105", "Age: INTEGER 5\n"),
    ("A ::= INTEGER -- an age\n", "020105", ""),
    ("A ::= INTEGER -- labels: none\n", "020105", ""),
    ("A ::= INTEGER /* label: Age, notation: number */", "020105", ""),
    // the name that words are of
    ("A ::= SEQUENCE { a INTEGER (0..max), -- label: A, notation: number\n b B -- label: B, notation: title\n } \
        max INTEGER ::= 9 B ::= SEQUENCE OF c INTEGER -- label: C, notation: number",
        "300b0201043006020103020102", "A: 4\nB:\n  C: 3\n  C: 2\n"),
    ("A ::= SEQUENCE { a B, b B -- label: Second, notation: hex\n } B ::= INTEGER -- label: First, notation: number",
        "3006020101020102", "First: 1\nSecond: 02\n"),
    ("A ::= [0] IMPLICIT B B ::= INTEGER -- label: B, notation: number", "800107", "B: 7\n"),
    ("A ::= [0] EXPLICIT B -- label: A, notation: number\n B ::= INTEGER", "a003020107", "A: 7\n"),
    ("A ::= CHOICE { a [1] NULL, -- notation: word none, label: A\n b B } B ::= CHOICE { \
        c INTEGER -- label: C, notation: number\n }", "020103", "C: 3\n"),
    // names of numbers
    ("A ::= B -- label: B, notation: named number\n B ::= [1] ENUMERATED { one(1), zero, two }", "a1030a0102",
        "B: 2 two\n"),
    ("A ::= INTEGER { -- label: A, notation: name\n a(n), -- label: first\n b(2) } n INTEGER ::= 1", "020101",
        "A: first\n"),
    ("A ::= INTEGER { -- label: A, notation: named number\n a(-1) }", "0201ff", "A: -1\n"),
    // secrets
    ("A ::= SEQUENCE { a B -- label: A, notation: number\n } B ::= INTEGER -- secret: yes\n", "3003020101", ""),
];

/// The head of a module of a class with an open type, and two types for it.
const CLASS: &str = "C ::= CLASS { &id OBJECT IDENTIFIER UNIQUE, &Type OPTIONAL, &n INTEGER OPTIONAL } \
    WITH SYNTAX { [TYPE &Type [SIZED &n]] IDENTIFIED BY &id } \
    B ::= INTEGER -- label: B, notation: number\n D ::= INTEGER -- label: D, notation: hex\n \
    b OBJECT IDENTIFIER ::= { iso(1) 3 1 } d OBJECT IDENTIFIER ::= { b m } m INTEGER ::= 128 ";

/// What stands behind that, the octets of a type A, and their words.
const OPEN_TYPES: &[(&str, &str, &str)] = &[
    ("A ::= SEQUENCE { a C.&id ({S}), b C.&Type ({S}{@a}) } S C ::= { {TYPE B IDENTIFIED BY b}, ... }",
        "300706022b01020105", "B: 5\n"),
    ("A ::= SEQUENCE { a C.&id ({S}), b C.&Type ({S}{@a}) OPTIONAL } \
        S C ::= { {TYPE B SIZED 3 IDENTIFIED BY b} | {TYPE D IDENTIFIED BY d} | {IDENTIFIED BY e} } e OBJECT IDENTIFIER ::= { iso 3 }",
        "300906042b018100020105", "D: 05\n"),
    ("A ::= SEQUENCE { a C.&id ({S}), b SET OF C.&Type ({S}{@a}) } S C ::= { ..., o | T } T C ::= { p | S } \
        o C ::= {TYPE B IDENTIFIED BY b} p C ::= {TYPE D IDENTIFIED BY d}",
        "300b06042b0181003103020105", "D: 05\n"),
    ("A ::= SEQUENCE { a C.&id ({S}), b OCTET STRING (CONTAINING C.&Type ({S}{@a})) } \
        S C ::= { {TYPE B IDENTIFIED BY b} }", "300906022b010403020105", "B: 5\n"),
    // an identifier that selects nothing, another set, no identifier
    ("A ::= SEQUENCE { a C.&id ({S}), b C.&Type ({S}{@a}) } S C ::= { {TYPE B IDENTIFIED BY b} }",
        "300706022b02020105", ""),
    ("A ::= SEQUENCE { a C.&id ({S}), b C.&Type ({S}{@a}), c C.&Type ({T}{@a}) } S C ::= { {TYPE B IDENTIFIED BY b} } \
        T C ::= { {TYPE D IDENTIFIED BY b} }", "300a06022b01020105020106", "B: 5\n"),
    ("A ::= SEQUENCE { a OBJECT IDENTIFIER, b C.&Type ({S}{@c}) } S C ::= { {TYPE B IDENTIFIED BY b} }",
        "300706022b01020105", ""),
    // an identifier in a component, and numbers
    ("A ::= SEQUENCE { a E, b [0] EXPLICIT C.&Type ({S}{@a.a}) } E ::= SEQUENCE { a OBJECT IDENTIFIER } \
        S C ::= { {TYPE B IDENTIFIED BY b} }", "300b300406022b01a003020105", "B: 5\n"),
    ("A ::= SEQUENCE { a [0] N.&id ({S}), b N.&Type ({S}{@a}) } N ::= CLASS { &id INTEGER UNIQUE, &Type } \
        WITH SYNTAX { &Type IDENTIFIED BY &id } S N ::= { {B IDENTIFIED BY 1} | {D IDENTIFIED BY 200} }",
        "3009a004020200c8020105", "D: 05\n"),
    ("A ::= SEQUENCE { a I.&id ({S}), b I.&Type ({S}{@a}) } I ::= TYPE-IDENTIFIER S I ::= { {D IDENTIFIED BY b} }",
        "300706022b01020105", "D: 05\n"),
];

/// What stands in a module behind 24 octets, and the error of that text.
const FAULTS: &[(&str, &str)] = &[
    ("A ::= NULL -- label:", "line 1, column 45: expected printable characters of ASCII"),
    ("A ::= NULL -- label: \x1b[2J\n", "line 1, column 46: expected printable characters of ASCII"),
    ("A ::= NULL\n  -- notation: hexadecimal\n", "line 2, column 16: expected a notation, such as number or hex"),
    ("A ::= NULL -- label: A, color: red\n",
        "line 1, column 49: expected label, kind, notation, heads or secret, and a colon"),
    ("A ::= NULL -- label: A, B\n",
        "line 1, column 49: expected label, kind, notation, heads or secret, and a colon"),
    ("A ::= NULL -- heads: no\n", "line 1, column 46: expected yes"),
    ("A ::= NULL -- secret: no\n", "line 1, column 47: expected yes or unread"),
    ("A ::= NULL -- label: A, label: B\n",
        "line 1, column 49: expected each word once, and one comment of words for a name"),
    ("A ::= NULL -- label: A\n -- notation: hex\n",
        "line 2, column 2: expected each word once, and one comment of words for a name"),
    ("-- label: A\n A ::= NULL", "line 1, column 25: expected a name before the comment"),
];

#[test]
fn words(rt: HostRuntime) -> Result<()> {
    for (inside, octets, words) in WORDS {
        let found = words_of(rt.alloc(), "", inside, octets)?;
        assert_eq!(rt; found.as_str(), *words, "{inside}");
    }
    Ok(())
}

#[test]
fn open_types(rt: HostRuntime) -> Result<()> {
    for (inside, octets, words) in OPEN_TYPES {
        let found = words_of(rt.alloc(), CLASS, inside, octets)?;
        assert_eq!(rt; found.as_str(), *words, "{inside}");
    }
    Ok(())
}

#[test]
fn faults(rt: HostRuntime) -> Result<()> {
    for (inside, error) in FAULTS {
        let found = error_of(rt.alloc(), inside)?;
        assert_eq!(rt; found.as_str(), *error, "{inside}");
    }
    Ok(())
}
