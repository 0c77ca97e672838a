//! Prints SNMP requests of version 1 and 2c (RFC 3416) from standard input as they arrive: `cat REQUESTS | cargo run
//! --example snmp`.
use dumarewhi::{Any, Buffer, Error, ErrorKind, Reader, Result, Rules, Tag};
use std::io::{self, Read};

fn main() -> io::Result<()> {
    let mut stdin = io::stdin().lock();
    let mut buffer = Buffer::new(Rules::BER).with_limit(65_535);
    let mut piece = [0; 1024];
    loop {
        let length = stdin.read(&mut piece)?;
        if length == 0 {
            buffer.finish()?;
            return Ok(());
        }
        buffer.feed(&piece[..length]);
        while let Some(octets) = buffer.next_octets()? {
            match message(octets) {
                Ok(text) => println!("{text}"),
                // The next message can still be read.
                Err(error) => println!("refused: {error}"),
            }
        }
    }
}

/// Message ::= SEQUENCE { version INTEGER, community OCTET STRING, data PDUs }
fn message(octets: &[u8]) -> Result<String> {
    let mut reader = Reader::with_rules(octets, Rules::BER);
    reader.open_sequence(|r| {
        let version = r.u64()?;
        let community = String::from_utf8_lossy(r.octets()?);
        let tag = r.peek()?.unwrap_or(Tag::NULL);
        let kind = kind(tag).ok_or_else(|| Error::new(ErrorKind::Other("no request"), r.offset()))?;
        let request = r.open_tagged(tag, request)?;
        Ok(format!(
            "{kind} version {version} community {community:?} {request}"
        ))
    })
}

fn kind(tag: Tag) -> Option<&'static str> {
    let kinds = [
        "get", "get-next", "response", "set", "trap-1", "get-bulk", "inform", "trap-2", "report",
    ];
    match tag == Tag::context(tag.number) {
        true => kinds.get(tag.number as usize).copied(),
        false => None,
    }
}

/// PDU ::= [n] IMPLICIT SEQUENCE { request-id, error-status, error-index INTEGER, variable-bindings }
fn request(r: &mut Reader<'_>) -> Result<String> {
    let (id, status, index) = (r.i64()?, r.i64()?, r.i64()?);
    let mut text = format!("id {id} status {status} index {index}");
    r.open_sequence(|r| {
        while !r.is_empty() {
            let (name, value) = r.open_sequence(|r| Ok((r.oid()?, value(&r.any()?))))?;
            text += &format!("\n  {name} = {value}");
        }
        Ok(text)
    })
}

fn value(any: &Any<'_>) -> String {
    match any.tag() {
        Tag::INTEGER => any
            .as_i64()
            .map_or_else(|error| error.to_string(), |it| it.to_string()),
        Tag::OCTET_STRING => format!("{:?}", String::from_utf8_lossy(any.content())),
        Tag::OBJECT_IDENTIFIER => any
            .as_oid()
            .map_or_else(|error| error.to_string(), |it| it.to_string()),
        Tag::NULL => String::from("null"),
        tag => format!("{tag} of {} octets", any.content().len()),
    }
}
