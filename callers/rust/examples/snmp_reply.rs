//! Answers a GetRequest of SNMP (RFC 3416, in BER) on standard input, with a Response on standard output:
//! `cargo run --example snmp_reply < REQUEST > RESPONSE`.
//!
//! It knows sysDescr.0 and sysUpTime.0.
use dumarewhi::{to_vec, ObjectIdentifier, Reader, Result, Rules, Tag, Writer};
use std::io::{self, Read, Write};

const GET_REQUEST: Tag = Tag::context(0);
const RESPONSE: Tag = Tag::context(2);
const NO_SUCH_OBJECT: Tag = Tag::context(0);
const TIME_TICKS: Tag = Tag::application(3);

fn main() -> io::Result<()> {
    let mut input = Vec::new();
    io::stdin().read_to_end(&mut input)?;
    io::stdout().write_all(&reply(&read_request(&input)?)?)
}

struct Request<'a> {
    version: u64,
    community: &'a [u8],
    id: i64,
    names: Vec<ObjectIdentifier<'a>>,
}

/// Message ::= SEQUENCE { version INTEGER, community OCTET STRING, data PDUs }
fn read_request(input: &[u8]) -> Result<Request<'_>> {
    let mut reader = Reader::with_rules(input, Rules::BER);
    let request = reader.open_sequence(|r| {
        let (version, community) = (r.u64()?, r.octets()?);
        let (id, names) = r.open_tagged(GET_REQUEST, |r| Ok((pdu_head(r)?, names(r)?)))?;
        Ok(Request {
            version,
            community,
            id,
            names,
        })
    })?;
    reader.end()?;
    Ok(request)
}

/// PDU ::= [n] IMPLICIT SEQUENCE { request-id, error-status, error-index INTEGER, variable-bindings }
fn pdu_head(r: &mut Reader<'_>) -> Result<i64> {
    let (id, _status, _index) = (r.i64()?, r.i64()?, r.i64()?);
    Ok(id)
}

fn names<'a>(r: &mut Reader<'a>) -> Result<Vec<ObjectIdentifier<'a>>> {
    r.open_sequence(|r| {
        let mut names = Vec::new();
        while !r.is_empty() {
            names.push(r.open_sequence(|r| {
                let name = r.oid()?;
                r.any()?;
                Ok(name)
            })?);
        }
        Ok(names)
    })
}

fn reply(request: &Request<'_>) -> Result<Vec<u8>> {
    to_vec(|w| {
        w.open_sequence(|w| {
            w.put_u64(request.version);
            w.put_octets(request.community);
            w.open_tagged(RESPONSE, |w| {
                w.put_i64(request.id);
                w.put_u64(0);
                w.put_u64(0);
                w.open_sequence(|w| request.names.iter().try_for_each(|name| binding(w, name)))
            })
        })
    })
}

/// VarBind ::= SEQUENCE { name ObjectName, value ObjectSyntax }
fn binding(w: &mut Writer<'_>, name: &ObjectIdentifier<'_>) -> Result<()> {
    w.open_sequence(|w| {
        w.put(name)?;
        match name.to_string().as_str() {
            "1.3.6.1.2.1.1.1.0" => w.put_octets(b"an example of dumarewhi"),
            "1.3.6.1.2.1.1.3.0" => w.implicit(TIME_TICKS).put_u64(4200),
            _ => w.implicit(NO_SUCH_OBJECT).put_null(),
        }
        Ok(())
    })
}
