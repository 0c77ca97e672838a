//! The rows of the rules of RFC 5280. The rows stand in `data`. A row's input is a certificate or a list of revoked
//! certificates, and its answer are the rules that it breaks, in order. Or it is the name of a rule, and its answer is
//! what is said of that. Or it is the name of a list of rules, and its answer is the names of its rules, in order.

use x509::crl::read_certificate_list;
use x509::read_certificate;
use std::alloc::Global;
use std::fmt::{Debug, Display};
use test_tables::fault::Fault;
use test_tables::octets::octets;
use test_tables::run::Calls;
use x509_rules::crl::{
    EntryRule, Fact, KnownExtension, ListRule, MUST_LIST_RULES, SHOULD_LIST_RULES, ValueFact,
    broken_list_rules,
};
use x509_rules::{MUST_RULES, Rule, SHOULD_RULES, broken_rules};

pub struct Rules;

/// Rules in neither list: of extensions whose section no text of a listed rule has.
const FURTHER_RULES: &[Rule] = &[
    Rule::Critical(KnownExtension::CertificatePolicies),
    Rule::Critical(KnownExtension::SubjectAltName),
    Rule::Critical(KnownExtension::BasicConstraints),
    Rule::Critical(KnownExtension::ExtendedKeyUsage),
    Rule::Critical(KnownExtension::QcStatements),
    Rule::Critical(KnownExtension::SignedCertificateTimestamps),
    Rule::Critical(KnownExtension::TlsFeature),
];

/// Rules in neither list: of facts that no listed rule has.
const FURTHER_LIST_RULES: &[ListRule] = &[
    ListRule::Entry(EntryRule::Without(KnownExtension::ReasonCode, Fact::Present)),
    ListRule::Entry(EntryRule::Without(
        KnownExtension::ReasonCode,
        Fact::Says(ValueFact::RemoveFromCrl),
    )),
];

impl Calls for Rules {
    fn answer(&self, alloc: Global, call: &str, input: &str) -> Result<String, Fault> {
        match call {
            "text" => {
                return text_of_one(alloc, input, &[MUST_RULES, SHOULD_RULES, FURTHER_RULES]);
            }
            "list_text" => {
                return text_of_one(
                    alloc,
                    input,
                    &[MUST_LIST_RULES, SHOULD_LIST_RULES, FURTHER_LIST_RULES],
                );
            }
            "rules" => return names_in(alloc, input),
            _ => {}
        }
        let input = octets(alloc, input)?;
        match call {
            "must" => broken(alloc, &input, MUST_RULES),
            "should" => broken(alloc, &input, SHOULD_RULES),
            "list_must" => broken_of_list(alloc, &input, MUST_LIST_RULES),
            "list_should" => broken_of_list(alloc, &input, SHOULD_LIST_RULES),
            "texts" => texts(alloc, &input),
            "list_texts" => list_texts(alloc, &input),
            _ => Ok(format!(in alloc; "no call has this name")?),
        }
    }
}

/// The rules that the certificate breaks, of these.
fn broken(alloc: Global, octets: &[u8], rules: &[Rule]) -> Result<String, Fault> {
    let certificate = match read_certificate(octets) {
        Ok(certificate) => certificate,
        Err(refused) => return Ok(format!(in alloc; "{refused}")?),
    };
    let mut text = String::new(alloc);
    for rule in broken_rules(&certificate, rules) {
        if !text.is_empty() {
            text.push_str(", ")?;
        }
        write!(text, "{rule:?}")?;
    }
    Ok(text)
}

/// The same of a list of revoked certificates.
fn broken_of_list(alloc: Global, octets: &[u8], rules: &[ListRule]) -> Result<String, Fault> {
    let list = match read_certificate_list(octets) {
        Ok(list) => list,
        Err(refused) => return Ok(format!(in alloc; "{refused}")?),
    };
    let mut text = String::new(alloc);
    for rule in broken_list_rules(&list, rules) {
        if !text.is_empty() {
            text.push_str(", ")?;
        }
        write!(text, "{rule:?}")?;
    }
    Ok(text)
}

/// What is said of the rules that a certificate breaks.
fn texts(alloc: Global, octets: &[u8]) -> Result<String, Fault> {
    let certificate = match read_certificate(octets) {
        Ok(certificate) => certificate,
        Err(refused) => return Ok(format!(in alloc; "{refused}")?),
    };
    let mut text = String::new(alloc);
    for rule in broken_rules(&certificate, MUST_RULES) {
        if !text.is_empty() {
            text.push_str(", ")?;
        }
        write!(text, "{rule}")?;
    }
    Ok(text)
}

/// What is said of the rules that a list of revoked certificates breaks.
fn list_texts(alloc: Global, octets: &[u8]) -> Result<String, Fault> {
    let list = match read_certificate_list(octets) {
        Ok(list) => list,
        Err(refused) => return Ok(format!(in alloc; "{refused}")?),
    };
    let mut text = String::new(alloc);
    for rule in broken_list_rules(&list, MUST_LIST_RULES) {
        if !text.is_empty() {
            text.push_str(", ")?;
        }
        write!(text, "{rule}")?;
    }
    Ok(text)
}

/// The names of the rules of the list with this name.
fn names_in(alloc: Global, list: &str) -> Result<String, Fault> {
    match list {
        "must" => names(alloc, MUST_RULES),
        "should" => names(alloc, SHOULD_RULES),
        "list_must" => names(alloc, MUST_LIST_RULES),
        "list_should" => names(alloc, SHOULD_LIST_RULES),
        _ => Ok(format!(in alloc; "no list has this name")?),
    }
}

/// The names of rules, in order.
fn names<T: Debug>(alloc: Global, rules: &[T]) -> Result<String, Fault> {
    let mut text = String::new(alloc);
    for rule in rules {
        if !text.is_empty() {
            text.push_str(", ")?;
        }
        write!(text, "{rule:?}")?;
    }
    Ok(text)
}

/// What is said of the rule with this name, in one of these lists.
fn text_of_one<T: Debug + Display>(
    alloc: Global,
    name: &str,
    lists: &[&[T]],
) -> Result<String, Fault> {
    for rules in lists {
        if let Some(text) = text_of(alloc, name, rules)? {
            return Ok(text);
        }
    }
    Ok(format!(in alloc; "no rule has this name")?)
}

/// What is said of the rule with this name, if it is one of these.
fn text_of<T: Debug + Display>(
    alloc: Global,
    name: &str,
    rules: &[T],
) -> Result<Option<String>, Fault> {
    for rule in rules {
        let own = format!(in alloc; "{rule:?}")?;
        if own.as_str() == name {
            return Ok(Some(format!(in alloc; "{rule}")?));
        }
    }
    Ok(None)
}
