//! Reads a message of SNMP (RFC 3416) in BER from standard input as types of Rust, prints it, and writes it to a file
//! in DER: `cargo run --example snmp_types FILE < MESSAGE`.
use dumarewhi::{Any, Decode, Encode, Error, ErrorKind, ObjectIdentifier, Reader, Result, Tag, Writer};
use std::io::{self, Read};

/// Message ::= SEQUENCE { version INTEGER, community OCTET STRING, data PDUs }
#[derive(Debug, PartialEq)]
struct Message<'a> {
    version: u32,
    community: &'a [u8],
    pdu: Pdu<'a>,
}

/// PDU ::= [n] IMPLICIT SEQUENCE { request-id, error-status, error-index INTEGER, variable-bindings }
#[derive(Debug, PartialEq)]
struct Pdu<'a> {
    kind: u32,
    request_id: i32,
    error_status: i32,
    error_index: i32,
    bindings: Vec<Binding<'a>>,
}

/// VarBind ::= SEQUENCE { name ObjectName, value CHOICE { .. } }
#[derive(Debug, PartialEq)]
struct Binding<'a> {
    name: ObjectIdentifier<'a>,
    value: Value<'a>,
}

#[derive(Debug, PartialEq)]
enum Value<'a> {
    Integer(i32),
    String(&'a [u8]),
    Identifier(ObjectIdentifier<'a>),
    Unspecified,
    TimeTicks(u32),
    Counter64(u64),
    Other(Any<'a>),
}

const TIME_TICKS: Tag = Tag::application(3);
const COUNTER_64: Tag = Tag::application(6);

/// The kinds of PDU: from `[0]`, a GetRequest, to `[8]`, a Report.
const LAST_KIND: u32 = 8;

impl<'a> Decode<'a> for Message<'a> {
    fn decode(r: &mut Reader<'a>) -> Result<Message<'a>> {
        r.open_sequence(|r| {
            Ok(Message {
                version: r.value()?,
                community: r.value()?,
                pdu: r.value()?,
            })
        })
    }
}

impl Encode for Message<'_> {
    fn encode(&self, w: &mut Writer<'_>) -> Result<()> {
        w.open_sequence(|w| {
            w.put(&self.version)?;
            w.put(self.community)?;
            w.put(&self.pdu)
        })
    }
}

impl<'a> Decode<'a> for Pdu<'a> {
    fn decode(r: &mut Reader<'a>) -> Result<Pdu<'a>> {
        let tag = r.peek()?.filter(|tag| Pdu::begins_with(*tag));
        let tag = tag.ok_or_else(|| Error::new(ErrorKind::Other("there is no PDU"), r.offset()))?;
        r.open_tagged(tag, |r| {
            Ok(Pdu {
                kind: tag.number,
                request_id: r.value()?,
                error_status: r.value()?,
                error_index: r.value()?,
                bindings: r.value()?,
            })
        })
    }

    fn begins_with(tag: Tag) -> bool {
        tag == Tag::context(tag.number) && tag.number <= LAST_KIND
    }
}

impl Encode for Pdu<'_> {
    fn encode(&self, w: &mut Writer<'_>) -> Result<()> {
        w.open_tagged(Tag::context(self.kind), |w| {
            w.put(&self.request_id)?;
            w.put(&self.error_status)?;
            w.put(&self.error_index)?;
            w.put(&self.bindings)
        })
    }
}

impl<'a> Decode<'a> for Binding<'a> {
    fn decode(r: &mut Reader<'a>) -> Result<Binding<'a>> {
        r.open_sequence(|r| {
            Ok(Binding {
                name: r.value()?,
                value: r.value()?,
            })
        })
    }
}

impl Encode for Binding<'_> {
    fn encode(&self, w: &mut Writer<'_>) -> Result<()> {
        w.open_sequence(|w| {
            w.put(&self.name)?;
            w.put(&self.value)
        })
    }
}

impl<'a> Decode<'a> for Value<'a> {
    fn decode(r: &mut Reader<'a>) -> Result<Value<'a>> {
        Ok(match r.peek()? {
            Some(Tag::INTEGER) => Value::Integer(r.value()?),
            Some(Tag::OCTET_STRING) => Value::String(r.value()?),
            Some(Tag::OBJECT_IDENTIFIER) => Value::Identifier(r.value()?),
            Some(Tag::NULL) => {
                r.null()?;
                Value::Unspecified
            }
            Some(TIME_TICKS) => Value::TimeTicks(r.implicit(TIME_TICKS).value()?),
            Some(COUNTER_64) => Value::Counter64(r.implicit(COUNTER_64).value()?),
            _ => Value::Other(r.value()?),
        })
    }

    fn begins_with(_: Tag) -> bool {
        true
    }
}

impl Encode for Value<'_> {
    fn encode(&self, w: &mut Writer<'_>) -> Result<()> {
        match self {
            Value::Integer(number) => w.put(number)?,
            Value::String(octets) => w.put(*octets)?,
            Value::Identifier(identifier) => w.put(identifier)?,
            Value::Unspecified => w.put_null(),
            Value::TimeTicks(ticks) => w.implicit(TIME_TICKS).put_u64((*ticks).into()),
            Value::Counter64(number) => w.implicit(COUNTER_64).put_u64(*number),
            Value::Other(any) => w.put(any)?,
        }
        Ok(())
    }
}

fn main() -> io::Result<()> {
    let mut input = Vec::new();
    io::stdin().read_to_end(&mut input)?;
    let message = Message::from_ber(&input)?;
    println!(
        "version {}, community {:?}",
        message.version,
        String::from_utf8_lossy(message.community)
    );
    println!(
        "[{}] {}, status {}",
        message.pdu.kind, message.pdu.request_id, message.pdu.error_status
    );
    for binding in &message.pdu.bindings {
        println!("{} = {:?}", binding.name, binding.value);
    }
    let octets = message.to_der()?;
    assert_eq!(Message::from_der(&octets), Ok(message));
    match std::env::args().nth(1) {
        Some(path) => std::fs::write(path, octets),
        None => Ok(()),
    }
}
