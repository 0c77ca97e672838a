//! Prints the elements of a file, or of standard input: `cargo run --example tree FILE`.
//!
//! The file has DER or BER.
use dumarewhi::{Any, Node, Rules, Tag};
use std::io::{self, Read};

fn main() -> io::Result<()> {
    let input = match std::env::args().nth(1) {
        Some(path) => std::fs::read(path)?,
        None => {
            let mut input = Vec::new();
            io::stdin().read_to_end(&mut input)?;
            input
        }
    };
    let mut rest = &input[..];
    while !rest.is_empty() {
        let (after, tree) = Rules::BER.parse(rest)?;
        print(tree.root(), 0);
        rest = after;
    }
    Ok(())
}

fn print(node: Node<'_, '_>, depth: usize) {
    let indent = "  ".repeat(depth);
    println!("{:5} {indent}{}{}", node.offset(), node.tag(), value(&node.any()));
    for child in node.children() {
        print(child, depth + 1);
    }
}

fn value(any: &Any<'_>) -> String {
    let shown = match any.tag() {
        Tag::BOOLEAN => any.as_bool().map(|it| it.to_string()),
        Tag::INTEGER | Tag::ENUMERATED => any.as_i64().map(|it| it.to_string()),
        Tag::OBJECT_IDENTIFIER => any.as_oid().map(|it| it.to_string()),
        Tag::UTC_TIME | Tag::GENERALIZED_TIME => any.as_time().map(|it| it.to_string()),
        Tag::BIT_STRING => any.as_bit_string().map(|it| format!("{} bits", it.len())),
        _ => any.as_str().map(|it| format!("{it:?}")),
    };
    match shown {
        Ok(shown) => format!(" {shown}"),
        Err(_) if any.is_constructed() => String::new(),
        Err(_) => format!(" {}", hex(any.content())),
    }
}

fn hex(octets: &[u8]) -> String {
    octets.iter().map(|octet| format!("{octet:02x}")).collect()
}
