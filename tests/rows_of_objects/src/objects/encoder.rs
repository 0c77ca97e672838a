//! The encoder over any writer: what it writes, and what it answers where a write fails.
use crate::objects::question::{class_of, header_of, length_of, tag_of};
use der_parser::ber::{
    BerObject, Class, FaultWriter, Header, Length, Tag, ber_encode_header, ber_encode_object,
    ber_encode_object_raw, ber_encode_tagged_explicit, ber_encode_tagged_implicit,
};
use der_parser::error::GenError;
use std::alloc::Global;
use std::io;
use std::io::{ErrorKind, Write};
use test_tables::fault::Fault;
use test_tables::octets::push_octets;

/// How an object is written.
#[derive(Clone, Copy)]
pub enum Encoder {
    Object,
    /// With its header, which states this length.
    Raw(Length),
    Explicit(Class, Tag),
    Implicit(Class, Tag),
}

impl Encoder {
    /// The encoder that a call names.
    pub fn of_words(words: &[&str]) -> Option<Encoder> {
        match words {
            ["ber_encode_object"] => Some(Encoder::Object),
            ["ber_encode_object_raw", length] => Some(Encoder::Raw(length_of(length)?)),
            ["ber_encode_tagged_explicit", class, number] => {
                Some(Encoder::Explicit(class_of(class)?, tag_of(number)?))
            }
            ["ber_encode_tagged_implicit", class, number] => {
                Some(Encoder::Implicit(class_of(class)?, tag_of(number)?))
            }
            _ => None,
        }
    }

    fn write<W: Write>(
        self,
        w: &mut FaultWriter<W>,
        object: &BerObject<'_>,
    ) -> Result<(), GenError> {
        match self {
            Encoder::Object => ber_encode_object(w, object),
            Encoder::Raw(length) => {
                let header = object.header.with_length(length);
                ber_encode_object_raw(w, &header, &object.content)
            }
            Encoder::Explicit(class, tag) => ber_encode_tagged_explicit(w, tag, class, object),
            Encoder::Implicit(class, tag) => ber_encode_tagged_implicit(w, tag, class, object),
        }
    }
}

/// What is written.
#[derive(Clone, Copy)]
enum Encoded<'o, 'a> {
    Header(Header<'a>),
    Object(Encoder, &'o BerObject<'a>),
}

impl Encoded<'_, '_> {
    fn write<W: Write>(&self, w: &mut FaultWriter<W>) -> Result<(), GenError> {
        match self {
            Encoded::Header(header) => ber_encode_header(w, header),
            Encoded::Object(encoder, object) => encoder.write(w, object),
        }
    }
}

/// Takes a few octets of each write, as long as there is room, and then answers an error, or that
/// it took none.
#[derive(Drop)]
struct Narrow {
    taken: Vec<u8>,
    most: usize,
    room: usize,
    fault: Option<ErrorKind>,
    failed: u32,
}

impl Narrow {
    fn new(alloc: Global, most: usize, room: usize, fault: Option<ErrorKind>) -> Narrow {
        Narrow {
            taken: Vec::new(alloc),
            most,
            room,
            fault,
            failed: 0,
        }
    }
}

impl Write for Narrow {
    fn write(&mut self, buf: &[u8]) -> io::Result<usize> {
        let n = buf.len().min(self.most).min(self.room);
        if n == 0 {
            self.failed = self.failed.saturating_add(1);
            return match self.fault {
                Some(kind) => Err(io::Error::from(kind)),
                None => Ok(0),
            };
        }
        self.taken.extend_from_slice(&buf[..n])?;
        self.room -= n;
        Ok(n)
    }

    fn flush(&mut self) -> io::Result<()> {
        Ok(())
    }
}

/// How many octets a write takes at most, and what is answered where no room is left.
const NARROW: &[(usize, Option<ErrorKind>)] = &[
    (1, Some(ErrorKind::BrokenPipe)),
    (3, Some(ErrorKind::Interrupted)),
    (usize::MAX, Some(ErrorKind::StorageFull)),
    (1, None),
    (usize::MAX, None),
];

/// Less than this is tried as room of each object and header, and the room that it takes.
const MOST_ROOM: usize = 20;

/// The octets of the header of an input.
pub fn header_of_input(alloc: Global, input: &str) -> Result<String, Fault> {
    let words: Vec<&str> = input.split_ascii_whitespace().collect(alloc)?;
    let header = header_of(&words).ok_or(Fault::Input)?;
    written_in_any_room(alloc, Encoded::Header(header))
}

/// The octets that the encoder writes of the object.
pub fn written_in_rooms(
    alloc: Global,
    encoder: Encoder,
    object: &BerObject<'_>,
) -> Result<String, Fault> {
    written_in_any_room(alloc, Encoded::Object(encoder, object))
}

/// The octets that are written, or the first room in which what is written isn't their beginning.
fn written_in_any_room(alloc: Global, encoded: Encoded<'_, '_>) -> Result<String, Fault> {
    let mut w = FaultWriter::new(Vec::new(alloc));
    if let Err(e) = encoded.write(&mut w) {
        return Ok(format!(in alloc; "not written: {e}")?);
    }
    let written = w.into_inner();
    if let Some(room) = other_room(alloc, encoded, &written) {
        return Ok(format!(in alloc; "other octets in a room of {room}")?);
    }
    let mut text = String::new(alloc);
    push_octets(&mut text, &written)?;
    Ok(text)
}

/// The first room in which what is written isn't the beginning of the octets.
fn other_room(alloc: Global, encoded: Encoded<'_, '_>, written: &[u8]) -> Option<usize> {
    for room in 0..MOST_ROOM {
        if !is_written_in_room(alloc, encoded, written, room) {
            return Some(room);
        }
    }
    let enough = written.len();
    if is_written_in_room(alloc, encoded, written, enough) {
        None
    } else {
        Some(enough)
    }
}

/// Whether the beginning of the octets is written into so much room, by writes of any size.
fn is_written_in_room(
    alloc: Global,
    encoded: Encoded<'_, '_>,
    written: &[u8],
    room: usize,
) -> bool {
    for (most, fault) in NARROW {
        let mut w = FaultWriter::new(Narrow::new(alloc, *most, room, *fault));
        let answer = encoded.write(&mut w);
        let faults = w.faults();
        if !is_beginning(w.into_inner(), faults, room, answer, written) {
            return false;
        }
    }
    true
}

/// Whether what was written into so much room, and what was answered, agree with the octets to be
/// written: their beginning was taken, and no write was tried after one that failed.
fn is_beginning(
    narrow: Narrow,
    faults: u128,
    room: usize,
    answer: Result<(), GenError>,
    written: &[u8],
) -> bool {
    let kind = narrow.fault.unwrap_or(ErrorKind::WriteZero);
    let (expected, beginning, failures) = if room < written.len() {
        (Err(GenError::Io(kind)), &written[..room], (1, 1))
    } else {
        (Ok(()), written, (0, 0))
    };
    let facts = [
        answer == expected,
        narrow.taken.as_slice() == beginning,
        (faults, narrow.failed) == failures,
    ];
    !facts.contains(&false)
}
