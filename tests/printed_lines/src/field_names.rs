//! The names and paths that the types of der_known give elements, beside those of asn1crypto, which `tools/field-names`
//! writes, and those of pyasn1's types, which `tools/known-types` writes.
//!
//! A line of input has the name of a type, ascending offsets of elements, and the octets. The line of output has the
//! names of these elements, or with the argument `paths` their paths, and the first known type that the octets are of.
//! With `elements` it also says whether octets of no known type have the elements of the one that the line names.
//! SNMP, LDAP and Kerberos, which asn1crypto doesn't read, have no offsets, or names and paths as their documents say.

use anyhow::{Context, Result};
use der_base::rules::Rules;
use der_known::KnownTypes;
use der_schema::schema::{Component, Type};
use der_schema::{
    KnownType, Name, NamePath, Namer, Schema, field, first_named, first_of, is_of_type, optional, set,
    string, universal,
};
use der_elements::Walk;
use std::env;
use std::io::Read;

/// A SET, which none of the known types has.
const SETS: &[KnownType] = &[KnownType { name: "SetOfThree", kind: Type::Numbered(0), signs: &[] }];

static SET: Component = field!("" SET_OF_THREE);

const SET_OF_THREE: Type = set![
    field!("flag" universal!(1)),
    field!("number" universal!(2)),
    optional!("text" string!(12)),
];

/// Prints the names or the paths of each input.
pub fn print_input(rt: &HostRuntime) -> Result<()> {
    let argument = env::args(rt)?.skip(2).next();
    let (has_paths, has_elements) = match argument {
        Some(word) => (word.as_str() == "paths", word.as_str() == "elements"),
        None => (false, false),
    };
    let known = KnownTypes::new();
    let types: [&'static Component; 1] = [&SET];
    let mut input = String::new(rt.alloc());
    rt.stdin().read_to_string(&mut input)?;
    for line in input.lines() {
        let (asked, octets) = line.split_once(';').context("octets")?;
        let (name, offsets) = asked.split_once(' ').unwrap_or((asked, ""));
        let octets = hex::decode(rt.alloc(), octets)?;
        let set = first_named(SETS, &types, name);
        let schema = known.type_named(name).or(set).context("a known type")?;
        print_names(rt, &octets, schema, offsets, has_paths)?;
        let set = first_of(SETS, &types, &octets, Rules::Der);
        let found = known.type_of(&octets, Rules::Der).or(set);
        let is_by_elements = has_elements && found.is_none() && is_of_type(&octets, Rules::Der, schema);
        let remark = if is_by_elements { " by its signs" } else { "" };
        println!(rt; "{}{remark}", found.map_or("none", |it| it.name))?;
    }
    Ok(())
}

/// Prints the names or the paths of the elements at these offsets, which ascend.
fn print_names(
    rt: &HostRuntime,
    octets: &[u8],
    schema: Schema<'_>,
    offsets: &str,
    has_paths: bool,
) -> Result<()> {
    let mut walk = Walk::new(octets, Rules::Der, true);
    let mut namer = Namer::new(octets, schema);
    let mut path = NamePath::new();
    let mut asked = offsets.split_ascii_whitespace();
    let mut next = asked.next();
    while let Ok(Some(element)) = walk.next_element() {
        let name = namer.name_of(&element);
        path.enter(&element, name);
        if let Some(offset) = next {
            if offset.parse::<usize>()? == element.offset {
                print_one(rt, name, &path, has_paths)?;
                next = asked.next();
            }
        }
    }
    Ok(())
}

/// Prints a name or a path.
fn print_one(rt: &HostRuntime, name: Option<Name>, path: &NamePath, has_paths: bool) -> Result<()> {
    if has_paths {
        print!(rt; "{path} ")?;
    } else {
        print!(rt; "{} ", name.map_or("?", |it| it.text))?;
    }
    Ok(())
}
