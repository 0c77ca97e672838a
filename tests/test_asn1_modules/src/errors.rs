//! The errors of texts that aren't modules.
use crate::tree::tree_of;
use std::alloc::AllocError;

/// What stands in a module, and the error of that text.
const FAULTS: &[(&str, &str)] = &[
    ("A ::= SEQUENCE {\n  a NULL\n  b NULL }",
        "line 3, column 3: expected ',' or the end of the list, found an identifier"),
    ("A ::= SEQUENCE { a [] NULL }", "line 1, column 46: expected a number, found ']'"),
    ("A ::= SEQUENCE { a, b NULL }", "line 1, column 44: expected a type, found ','"),
    ("A ::= SEQUENCE { a NULL, }", "line 1, column 51: expected a type, found '}'"),
    ("A ::= SEQUENCE { [[ a NULL } }", "line 1, column 53: expected ',' or the end of the list, found '}'"),
    ("A ::= SEQUENCE INTEGER", "line 1, column 41: expected '{' or OF, found INTEGER"),
    ("A ::= OCTET INTEGER", "line 1, column 38: expected STRING, found INTEGER"),
    ("A ::= [4294967296] NULL", "line 1, column 33: the tag number is too large"),
    ("A ::= ENUMERATED { A }", "line 1, column 45: expected an identifier, found a name with a capital letter"),
    ("A = NULL", "line 1, column 28: expected a type, found '='"),
    ("BEGIN ::= NULL", "line 1, column 26: expected an assignment or END, found BEGIN"),
    ("A ::= INTEGER (1..2", "line 1, column 45: expected ')', found the end of the text"),
    ("a INTEGER ::= {1 2", "line 1, column 44: expected '}', found the end of the text"),
    ("a INTEGER ::= ,", "line 1, column 40: expected a value, found ','"),
    ("a T ::= \"b END", "line 1, column 34: the string doesn't end"),
    ("a T ::= '01' END", "line 1, column 34: the string of digits doesn't end in 'B or 'H"),
    ("/* /* */ A", "line 1, column 26: the comment doesn't end"),
    ("\u{e9}", "line 1, column 26: octet c3 begins no lexical item"),
    ("& A", "line 1, column 26: octet 26 begins no lexical item"),
    ("A MACRO ::= BEGIN", "line 1, column 43: expected END, found the end of the text"),
    ("IMPORTS A FROM b;", "line 1, column 41: expected the name of a module, found an identifier"),
];

#[test]
fn faults(rt: HostRuntime) -> Result<(), AllocError> {
    for (inside, error) in FAULTS {
        let end = if error.contains("END, found the end") || error.contains("', found the end") { "" } else { " END" };
        let text = format!(in rt.alloc(); "M DEFINITIONS ::= BEGIN  {inside}{end}")?;
        let found = tree_of(rt.alloc(), text.as_str())?;
        let wanted = format!(in rt.alloc(); "{error}\n")?;
        assert_eq!(rt; found.as_str(), wanted.as_str());
    }
    Ok(())
}

#[test]
fn around_modules(rt: HostRuntime) -> Result<(), AllocError> {
    let found = tree_of(rt.alloc(), "")?;
    assert_eq!(rt; found.as_str(), "line 1, column 1: expected the name of a module, found the end of the text\n");
    let found = tree_of(rt.alloc(), "M DEFINITIONS ::= BEGIN END ;")?;
    assert_eq!(rt; found.as_str(), "line 1, column 29: expected the name of a module, found ';'\n");
    let found = tree_of(rt.alloc(), "M DEFINITIONS IMPLICIT ::= BEGIN END")?;
    assert_eq!(rt; found.as_str(), "line 1, column 24: expected TAGS, found '::='\n");
    Ok(())
}
