//! Searches of LDAP.
use crate::writers::capacities::written;
use messages::ldap::writer::{DerefAliases, Filter, Scope, Search, write_search};
use std::alloc::Global;
use test_tables::fault::Fault;

/// The octets of a search. A row has its message's number, then words as `ldapsearch` takes them:
/// `2 -b BASE -s SCOPE -a ALIASES -z SIZE -l TIME -A FILTER ATTRIBUTE..`, all in this order, where only `-A` may be
/// absent. A base of `-` is empty. The filter is `(ATTRIBUTE=*)` or `(ATTRIBUTE=VALUE)`.
pub fn search_text(alloc: Global, input: &str) -> Result<String, Fault> {
    let mut words = input.split_ascii_whitespace();
    let message_id = number(words.next())?;
    let base = option_word(words.next(), words.next(), "-b")?;
    let scope = scope_of(option_word(words.next(), words.next(), "-s")?)?;
    let deref_aliases = aliases_of(option_word(words.next(), words.next(), "-a")?)?;
    let size_limit = number(Some(option_word(words.next(), words.next(), "-z")?))?;
    let time_limit = number(Some(option_word(words.next(), words.next(), "-l")?))?;
    let mut filter = words.next().ok_or(Fault::Input)?;
    let types_only = filter == "-A";
    if types_only {
        filter = words.next().ok_or(Fault::Input)?;
    }
    let mut attributes = Vec::new(alloc);
    for attribute in words {
        attributes.push(attribute.as_bytes())?;
    }
    let search = Search {
        base_object: if base == "-" { b"" } else { base.as_bytes() },
        scope,
        deref_aliases,
        size_limit,
        time_limit,
        types_only,
        filter: filter_of(filter)?,
        attributes: &attributes,
    };
    written(alloc, |out| write_search(out, message_id, &search))
}

fn number(word: Option<&str>) -> Result<u32, Fault> {
    word.and_then(|it| it.parse::<u32>().ok()).ok_or(Fault::Input)
}

/// The word after an option.
fn option_word<'a>(
    option: Option<&'a str>,
    word: Option<&'a str>,
    name: &str,
) -> Result<&'a str, Fault> {
    match (option, word) {
        (Some(option), Some(word)) if option == name => Ok(word),
        _ => Err(Fault::Input),
    }
}

fn scope_of(word: &str) -> Result<Scope, Fault> {
    match word {
        "base" => Ok(Scope::BaseObject),
        "one" => Ok(Scope::SingleLevel),
        "sub" => Ok(Scope::WholeSubtree),
        _ => Err(Fault::Input),
    }
}

fn aliases_of(word: &str) -> Result<DerefAliases, Fault> {
    match word {
        "never" => Ok(DerefAliases::Never),
        "search" => Ok(DerefAliases::InSearching),
        "find" => Ok(DerefAliases::FindingBaseObject),
        "always" => Ok(DerefAliases::Always),
        _ => Err(Fault::Input),
    }
}

fn filter_of(word: &str) -> Result<Filter<'_>, Fault> {
    let inner = word.strip_prefix('(').and_then(|it| it.strip_suffix(')'));
    let (attribute, value) = inner.and_then(|it| it.split_once('=')).ok_or(Fault::Input)?;
    let attribute = attribute.as_bytes();
    Ok(match value {
        "*" => Filter::Present(attribute),
        value => Filter::EqualityMatch {
            attribute,
            value: value.as_bytes(),
        },
    })
}
