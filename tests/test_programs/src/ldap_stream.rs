//! Streams that give any number of octets at a time.
use test_ldap_stream::print_messages;
use std::alloc::{AllocError, Global};
use std::io::{self, Read};
use std::test::Fail;

/// Gives its octets, at most so many a read.
#[derive(Drop)]
struct Pieces<'a> {
    left: &'a [u8],
    most: usize,
}

impl Read for Pieces<'_> {
    fn read(&mut self, buf: &mut [u8]) -> io::Result<usize> {
        let n = buf.len().min(self.left.len()).min(self.most);
        let (now, later) = self.left.split_at(n);
        buf[..n].copy_from_slice(now);
        self.left = later;
        Ok(n)
    }
}

/// A bind, a response to it, and the end (RFC 4511 4.2, 4.2.2, 4.3).
#[rattlefmt::skip]
const MESSAGES: &[u8] = b"\
    \x30\x16\x02\x01\x01\x60\x11\x02\x01\x03\x04\x04cn=a\x80\x06secret\
    \x30\x0c\x02\x01\x01\x61\x07\x0a\x01\x00\x04\x00\x04\x00\
    \x30\x05\x02\x01\x02\x42\x00";

const LINES: &str = "1 BindRequest \"cn=a\"\n1 BindResponse 0 \"\" \"\"\n2 UnbindRequest\n";

/// What the octets are, the octets, what is printed, and the error.
type Row = (&'static str, &'static [u8], &'static str, &'static str);

/// Streams that are printed up to their end, or are refused.
#[rattlefmt::skip]
const STREAMS: &[Row] = &[
    ("nothing", b"", "", ""),
    ("three messages", MESSAGES, LINES, ""),
    ("a message, and one that is cut short", b"\x30\x05\x02\x01\x02\x42\x00\x30\x05\x02\x01", "2 UnbindRequest\n",
        "message at 7: cut short"),
    ("a message, and one of another class",
        b"\x30\x05\x02\x01\x02\x42\x00\x30\x05\x02\x01\x03\x82\x00",
        "2 UnbindRequest\n",
        "message at 7: protocolOp at 5: unexpected class (expected APPLICATION, actual CONTEXT-SPECIFIC)"),
    ("a bind whose version is a text", b"\x30\x0d\x02\x01\x01\x60\x08\x04\x01\x03\x04\x01a\x80\x00", "",
        "message at 0: protocolOp.version at 7: unexpected tag (expected Integer, actual OctetString)"),
    ("a response with serverSaslCreds (4.2.2)",
        b"\x30\x11\x02\x01\x01\x61\x0c\x0a\x01\x00\x04\x00\x04\x00\x87\x03abc", "1 BindResponse 0 \"\" \"\"\n", ""),
    ("two messages, and a text that runs past the end of its list",
        b"\x30\x05\x02\x01\x02\x42\x00\x30\x05\x02\x01\x03\x42\x00\
          \x30\x0c\x02\x01\x09\x61\x07\x0a\x01\x00\x04\x03\x04\x00",
        "2 UnbindRequest\n3 UnbindRequest\n",
        "message at 14: protocolOp.matchedDN at 10: an element runs past the end of its list, needs 1"),
    ("a message of 65537 octets, of which four are here", b"\x30\x82\xff\xfd", "", "message at 0: too large"),
    ("a message, and one of 65537 octets", b"\x30\x05\x02\x01\x02\x42\x00\x30\x82\xff\xfd", "2 UnbindRequest\n",
        "message at 7: too large"),
];

/// What is printed of a stream that gives at most so many octets a read, and the text of the error,
/// or nothing where there is none.
fn run(alloc: Global, octets: &[u8], most: usize) -> Result<(Vec<u8>, String), AllocError> {
    let mut printed = Vec::new(alloc);
    let mut stream = Pieces { left: octets, most };
    let text = match print_messages(alloc, &mut stream, &mut printed) {
        Ok(()) => String::new(alloc),
        Err(e) => format!(in alloc; "{e}")?,
    };
    Ok((printed, text))
}

#[test]
fn streams_are_printed_in_pieces(rt: HostRuntime) -> Result<(), Fail> {
    for (what, octets, lines, refusal) in STREAMS {
        for most in 1..=40 {
            let (printed, text) = run(rt.alloc(), octets, most)?;
            let is_right = printed.as_slice() == lines.as_bytes() && text.as_str() == *refusal;
            assert!(rt; is_right, "{what}, by {most}: {printed:?}, {text}");
        }
    }
    Ok(())
}

const LARGE_LINE: &[u8] = b"1 ExtendedResponse 0 \"\" \"\"\n";

/// An extended response (4.12) of this many octets, whose response value is filled with zeros.
fn large_message(alloc: Global, length: usize) -> Result<Vec<u8>, AllocError> {
    let mut octets = Vec::new(alloc);
    octets.extend_from_slice(
        b"\x30\x82\xff\xfc\x02\x01\x01\x78\x82\xff\xf5\x0a\x01\x00\x04\x00\x04\x00\x8b\x82\xff\xea",
    )?;
    for _ in octets.len()..length {
        octets.push(0).map_err(|_| AllocError)?;
    }
    Ok(octets)
}

#[test]
fn messages_of_65536_octets_are_printed(rt: HostRuntime) -> Result<(), Fail> {
    let octets = large_message(rt.alloc(), 65536)?;
    let (printed, text) = run(rt.alloc(), &octets, 10000)?;
    assert!(rt; printed.as_slice() == LARGE_LINE, "{printed:?}, {text}");
    Ok(())
}
