//! Fields: a reader whose calls the input chooses, types, and values of content octets.
use crate::ask::{Ask, Sink};
use dumarewhi::{
    Any, BitString, Decode, Encode, Error, ErrorKind, Integer, ObjectIdentifier, ObjectIdentifierBuf, Reader,
    Result, Rules, Tag, Time,
};

/// The calls are the first octets, and what is read is behind them.
pub fn read(input: &[u8], rules: Rules, sink: &mut Sink) {
    let (count, input) = match input {
        [count, input @ ..] => (usize::from(*count % 32).min(input.len()), input),
        [] => return,
    };
    let (calls, input) = input.split_at(count);
    let mut reader = Reader::with_rules(input, rules);
    let read = fields(&mut reader, &mut calls.iter().copied(), sink);
    read.ask(sink);
    reader.offset().ask(sink);
    reader.remaining().ask(sink);
    reader.clone().end().ask(sink);
    sink.debug(&reader);
}

fn tag_of(octet: u8) -> Tag {
    let number = u32::from(octet >> 3);
    match octet % 4 {
        0 => Tag::universal(number),
        1 => Tag::application(number),
        2 => Tag::context(number),
        _ => Tag::private(number),
    }
}

/// Reads as the calls say, to the end of the list. An error leaves the reader where it was.
fn fields(r: &mut Reader<'_>, calls: &mut dyn Iterator<Item = u8>, sink: &mut Sink) -> Result<()> {
    while let Some(call) = calls.next() {
        r.is_empty().ask(sink);
        r.peek().ask(sink);
        let before = r.offset();
        let read = field(r, call, calls, sink);
        if let Err(error) = read {
            assert_eq!(r.offset(), before);
            error.ask(sink);
            if call & 0x80 != 0 {
                return Err(error);
            }
        }
    }
    Ok(())
}

/// Reads by one call, and asks for the value.
fn field(r: &mut Reader<'_>, call: u8, calls: &mut dyn Iterator<Item = u8>, sink: &mut Sink) -> Result<()> {
    let mut next = || tag_of(calls.next().unwrap_or_default());
    match call & 0x7f {
        0 => r.boolean()?.ask(sink),
        1 => r.integer()?.ask(sink),
        2 => r.u64()?.ask(sink),
        3 => r.i64()?.ask(sink),
        4 => r.null()?,
        5 => r.oid()?.ask(sink),
        6 => r.octets()?.ask(sink),
        7 => r.bits()?.ask(sink),
        8 => r.utc_time()?.ask(sink),
        9 => r.generalized_time()?.ask(sink),
        10 => r.time()?.ask(sink),
        11 => r.enumerated()?.ask(sink),
        12 => r.utf8_string()?.ask(sink),
        13 => r.printable_string()?.ask(sink),
        14 => r.ia5_string()?.ask(sink),
        15 => r.any_text()?.ask(sink),
        16 => r.any()?.ask(sink),
        17 => {
            let tag = next();
            r.is_next(tag).ask(sink);
            r.implicit(tag);
        }
        18 => {
            let tag = next();
            r.text(tag)?.ask(sink);
        }
        19 => r.value_or(false)?.ask(sink),
        20 => r.value_or(3_u32)?.ask(sink),
        21 => r.value::<Option<Any<'_>>>()?.ask(sink),
        22 => r.value::<Vec<Integer<'_>>>()?.ask(sink),
        23 => r.value::<Vec<Option<bool>>>()?.ask(sink),
        24 => r.open_sequence(|r| fields(r, calls, sink))?,
        25 => r.open_set(|r| fields(r, calls, sink))?,
        26 => {
            let tag = next();
            r.open_tagged(tag, |r| fields(r, calls, sink))?;
        }
        27 => {
            let tag = next();
            r.optional_tagged(tag, |r| fields(r, calls, sink))?;
        }
        28 => {
            let tag = next();
            r.optional(tag, |r| r.any())?.ask(sink);
        }
        29 => {
            return Err(Error::new(
                ErrorKind::Other("an error of the caller's"),
                r.offset(),
            ))
        }
        _ => r.clone().any()?.reader()?.any()?.ask(sink),
    }
    Ok(())
}

/// Reads a value, and writes it again: by DER it has the same octets.
fn typed<'a, T: Decode<'a> + Encode + Ask>(input: &'a [u8], rules: Rules, sink: &mut Sink) {
    let read = if rules.is_der() {
        T::from_der(input)
    } else {
        T::from_ber(input)
    };
    if let Ok(value) = &read {
        match value.to_der() {
            Ok(octets) if rules.is_der() => assert_eq!(octets, input),
            written => written.ask(sink),
        }
    }
    read.ask(sink);
}

pub fn types(input: &[u8], rules: Rules, sink: &mut Sink) {
    typed::<bool>(input, rules, sink);
    typed::<u16>(input, rules, sink);
    typed::<u32>(input, rules, sink);
    typed::<u64>(input, rules, sink);
    typed::<i16>(input, rules, sink);
    typed::<i32>(input, rules, sink);
    typed::<i64>(input, rules, sink);
    typed::<Integer<'_>>(input, rules, sink);
    typed::<()>(input, rules, sink);
    typed::<ObjectIdentifier<'_>>(input, rules, sink);
    typed::<ObjectIdentifierBuf>(input, rules, sink);
    typed::<BitString<'_>>(input, rules, sink);
    typed::<String>(input, rules, sink);
    typed::<&str>(input, rules, sink);
    typed::<&[u8]>(input, rules, sink);
    typed::<Any<'_>>(input, rules, sink);
    typed::<Vec<u64>>(input, rules, sink);
    typed::<Vec<String>>(input, rules, sink);
    typed::<Vec<Vec<Any<'_>>>>(input, rules, sink);
    Time::from_der(input).ask(sink);
    Time::from_ber(input).ask(sink);
}

/// Values of octets that nothing has checked.
pub fn contents(input: &[u8], sink: &mut Sink) {
    Integer::from_content(input).ask(sink);
    ObjectIdentifier::from_content(input).ask(sink);
    if let [unused, octets @ ..] = input {
        BitString::new(*unused, octets).ask(sink);
    }
    let text = String::from_utf8_lossy(input);
    text.parse::<ObjectIdentifierBuf>().ask(sink);
    let arcs: Vec<_> = input
        .chunks(3)
        .map(|it| it.iter().fold(0, |sum, it| sum << 44 | u128::from(*it)))
        .collect();
    if let Ok(identifier) = ObjectIdentifierBuf::from_arcs(&arcs) {
        assert!(identifier.as_oid().arcs().eq(arcs));
    }
    if let [a, b, c, d, month, day, hour, minute, second, zone, offset, ..] = *input {
        let (hours, minutes) = (zone as i8, offset as i8);
        let time = Time {
            year: u32::from_be_bytes([a, b, c, d]),
            month,
            day,
            hour,
            minute,
            second,
            nanosecond: u32::from_le_bytes([a, b, c, d]),
            zone: match zone {
                0 => dumarewhi::Zone::Local,
                1 => dumarewhi::Zone::Utc,
                _ => dumarewhi::Zone::Offset { hours, minutes },
            },
        };
        time.ask(sink);
        time.to_der()
            .map(|octets| assert_eq!(Time::from_der(&octets), Ok(time)))
            .ask(sink);
    }
    for octet in input.iter().take(2) {
        let tag = tag_of(*octet);
        let _ = dumarewhi::to_vec(|w| {
            w.open_set_of(|w| w.implicit(tag).put_text(Tag::IA5_STRING, &text))?;
            w.put_bmp(&text)?;
            w.open_octet_string(|w| w.put_magnitude(input));
            w.put_enumerated(input.len() as u64);
            w.put_enumerated_i64(-(input.len() as i64));
            w.put_elements(input);
            w.put_default(&u32::from(*octet), &7)?;
            w.put_arcs(&[2, 5, u64::from(*octet)])
        })
        .ask(sink);
    }
}

impl Ask for ObjectIdentifierBuf {
    fn ask(&self, sink: &mut Sink) {
        self.as_oid().ask(sink);
    }
}
