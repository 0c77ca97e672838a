//! What no clause of `run` says: the texts, and what faults leave.
use crate::arguments::only_argument;
use crate::fault::Fault;
use crate::run;
use crate::sink::Sink;
use crate::source::Source;
use der_parser::cursor::ReadError;
use der_parser::error::{BerError, Err as Refused, Needed};
use std::alloc::Global;
use std::env::{Env, FillError};
use std::io::{ErrorKind, Read, Write};
use std::process::Abort;
use std::test::Fail;
use std::{io, str};

/// Gives its octets, at most three a read, and then an error, or nothing where there is none.
#[derive(Drop)]
struct ShortReads<'a> {
    left: &'a [u8],
    fault: Option<ErrorKind>,
}

impl Read for ShortReads<'_> {
    fn read(&mut self, buf: &mut [u8]) -> io::Result<usize> {
        let n = buf.len().min(self.left.len()).min(3);
        match self.fault {
            Some(kind) if n == 0 => Err(io::Error::from(kind)),
            _ => {
                let (now, later) = self.left.split_at(n);
                buf[..n].copy_from_slice(now);
                self.left = later;
                Ok(n)
            }
        }
    }
}

/// Answers an error once, where its octets reach so far, and then goes on well.
#[derive(Drop)]
struct FailsOnce<'a> {
    left: &'a [u8],
    fails_at: usize,
    failed: bool,
    reads: usize,
}

impl Read for FailsOnce<'_> {
    fn read(&mut self, buf: &mut [u8]) -> io::Result<usize> {
        self.reads = self.reads.saturating_add(1);
        if self.left.len() == self.fails_at && !self.failed {
            self.failed = true;
            return Err(io::Error::from(ErrorKind::Interrupted));
        }
        let n = buf.len().min(self.left.len()).min(3);
        let (now, later) = self.left.split_at(n);
        buf[..n].copy_from_slice(now);
        self.left = later;
        Ok(n)
    }
}

/// Gives so many octets ff.
#[derive(Drop)]
struct Ones {
    left: usize,
}

impl Read for Ones {
    fn read(&mut self, buf: &mut [u8]) -> io::Result<usize> {
        let n = buf.len().min(self.left);
        for octet in &mut buf[..n] {
            *octet = 0xff;
        }
        self.left -= n;
        Ok(n)
    }
}

/// Takes so many octets, and then answers an error, or takes nothing where there is none.
#[derive(Drop)]
struct SmallRoom {
    taken: Vec<u8>,
    room: usize,
    fault: Option<ErrorKind>,
    writes: usize,
}

impl SmallRoom {
    fn new(alloc: Global, room: usize, fault: Option<ErrorKind>) -> SmallRoom {
        SmallRoom {
            taken: Vec::new(alloc),
            room,
            fault,
            writes: 0,
        }
    }
}

impl Write for SmallRoom {
    fn write(&mut self, buf: &[u8]) -> io::Result<usize> {
        self.writes = self.writes.saturating_add(1);
        let n = buf.len().min(self.room);
        match self.fault {
            Some(kind) if n == 0 => Err(io::Error::from(kind)),
            _ => {
                self.taken.extend_from_slice(&buf[..n])?;
                self.room -= n;
                Ok(n)
            }
        }
    }

    fn flush(&mut self) -> io::Result<()> {
        Ok(())
    }
}

/// The status of a run over any reader and writers.
pub fn run<R: Read, W: Write, X: Write>(
    alloc: Global,
    word: &str,
    reader: &mut R,
    out: &mut W,
    err: &mut X,
) -> u8 {
    run::run(
        alloc,
        word,
        &mut Source::new(reader),
        &mut Sink::new(out),
        err,
    )
}

const USAGE: &str = "usage: derdump ber|der|canon\n";

/// An input, what is printed, what is told of a fault, and the status.
type Run = (&'static [u8], &'static str, &'static str, u8);

/// Both words print these types alike.
#[rattlefmt::skip]
const TYPE_RUNS: &[Run] = &[
    (b"\x0a\x01\x05", "Enum(5)\n", "", 0),
    (b"\x03\x02\x04\xf0", "BitString(4,[f0])\n", "", 0),
    (b"\x06\x03\x2a\x03\x04", "OID(1.2.3.4)\n", "", 0),
    (b"\x06\x01\x80", "OID([80])\n", "", 0),
    (b"\x0d\x04\xc2\x7b\x03\x02", "RelativeOID(8571.3.2)\n", "", 0),
    (b"\x12\x031 2", "NumericString(\"1 2\")\n", "", 0),
    (b"\x13\x03A'z", "PrintableString(\"A'z\")\n", "", 0),
    (b"\x16\x02a@", "IA5String(\"a@\")\n", "", 0),
    (b"\x1a\x01~", "VisibleString(\"~\")\n", "", 0),
    (b"\x0c\x03a\xc3\xa9", "UTF8String(\"a\u{e9}\")\n", "", 0),
    (b"\x07\x01a", "ObjectDescriptor(\"a\")\n", "", 0),
    (b"\x14\x03a\"b", "T61String(a\"b)\n", "", 0),
    (b"\x15\x01a", "VideotexString(a)\n", "", 0),
    (b"\x19\x01a", "GraphicString(\"a\")\n", "", 0),
    (b"\x1b\x00", "GeneralString(\"\")\n", "", 0),
    (b"\x1e\x04\x00L\x00\xe9", "BmpString(\"L\u{e9}\")\n\n", "", 0),
    (b"\x1e\x04\xd8\x3d\xde\x00", "BmpString(\"\u{1f600}\")\n\n", "", 0),
    (b"\x1c\x00", "UniversalString(\"\")\n\n", "", 0),
    (b"\x1c\x05\x00\x01\xf6\x00\x09", "UniversalString(\"\u{1f600}\")\n\n", "", 0),
    (b"\x1c\x04\x00\x00\xd8\x00", "UniversalString([00 00 d8 00]) <error decoding utf32 string>\n\n", "", 0),
    (b"\x17\x0d200101000000Z", "UTCTime(\"200101000000Z\")\n", "", 0),
    (b"\x18\x1120200101000000.1Z", "GeneralizedTime(\"20200101000000.1Z\")\n", "", 0),
];

/// What `derdump der` does.
#[rattlefmt::skip]
const DER_RUNS: &[Run] = &[
    (b"", "", "", 0),
    (b"\x01\x01\xff\x02\x01\x05\x04\x02ab", "Boolean(true)\nInteger([05])\nOctetString([61 62])\n", "", 0),
    (b"\x01\x01\x00\x01\x01\xff", "Boolean(false)\nBoolean(true)\n", "", 0),
    (b"\x02\x02\x01\x0f\x02\x01\xa5", "Integer([01 0f])\nInteger([a5])\n", "", 0),
    (b"\x04\x00\x04\x03abc", "OctetString([])\nOctetString([61 62 63])\n", "", 0),
    (b"\x30\x0a\x02\x03\x01\x00\x01\x02\x03\x01\x00\x00",
        "Sequence[\n  Integer([01 00 01])  Integer([01 00 00])]\n", "", 0),
    (b"\x31\x04\x30\x02\x05\x00\x30\x00", "Set[\n  Sequence[\n    Null  ]]\nSequence[\n]\n", "", 0),
    (b"\x80\x01a\x00\x00", "Unknown [61]\nEndOfContent\n", "", 0),
    (b"\x05\x00\x30\x03\x02\x02\x01", "Null\n", "error at 2: incomplete, needs 2\n", 1),
    (b"\x2c\x01a", "", "error at 0: DER constraint failed: constructed\n", 1),
    (b"\x01\x01\xff\x02\x81\x01\x05",
        "Boolean(true)\n", "error at 3: DER constraint failed: length not minimal\n", 1),
    (b"\x02\x02\x00", "", "error at 0: incomplete, needs 2\n", 1),
    (b"\x04\x01a\x04\x01b\x01\x01\x02",
        "OctetString([61])\nOctetString([62])\n", "error at 6: DER constraint failed: invalid boolean\n", 1),
    (b"\x30\x03\x01\x01\x7f", "", "error at 0: DER constraint failed: invalid boolean\n", 1),
    (b"\x05\x00\x30\x80\x05\x00\x00\x00",
        "Null\n", "error at 2: DER constraint failed: indefinite length\n", 1),
];

/// What `derdump ber` does.
#[rattlefmt::skip]
const BER_RUNS: &[Run] = &[
    (b"", "", "", 0),
    (b"\x01\x01\xff\x02\x01\x05\x04\x02ab", "Boolean(true)\nInteger([05])\nOctetString([61 62])\n", "", 0),
    (b"\x01\x01\xff\x02\x81\x01\x05", "Boolean(true)\nInteger([05])\n", "", 0),
    (b"\x30\x03\x01\x01\x7f", "Sequence[\n  Boolean(true)]\n", "", 0),
    (b"\x30\x80\x04\x03\x56\x78\x90\x00\x00\x02\x01\x01",
        "Sequence[\n  OctetString([56 78 90])]\nInteger([01])\n", "", 0),
    (b"\x31\x80\x30\x80\x05\x00\x00\x00\x30\x00\x00\x00",
        "Set[\n  Sequence[\n    Null  ]  Sequence[\n  ]]\n", "", 0),
    (b"\xa0\x80\x02\x01\x05\x00\x00\x24\x80\x04\x01a\x00\x00",
        "Unknown [02 01 05]\nOctetString([04 01 61])\n", "", 0),
    (b"\x25\x01\x00\x02\x00\x00\x00", "Null\nInteger([])\nEndOfContent\n", "", 0),
    (b"\x30\x80\x30\x81\x02\x00\x00\x00\x00", "Sequence[\n  Sequence[\n    EndOfContent  ]]\n", "", 0),
    (b"\x05\x00\x02\x02\x00", "Null\n", "error at 2: incomplete, needs 1\n", 1),
    (b"\x05\x00\x30\x04\x02\x03\x01\x00", "Null\n", "error at 2: incomplete, needs 1\n", 1),
    (b"\x30\x80\x00\x00\x30\x80\x05\x00", "Sequence[\n]\n", "error at 4: incomplete, needs 1\n", 1),
    (b"\x02\x82\x00\x01\x05\x02\x80", "Integer([05])\n", "error at 5: constructed encoding expected\n", 1),
    (b"\x30\x80\x05\x00\x02\xff", "", "error at 0: invalid length\n", 1),
    (b"\x00\x00\x30\x80\x05\x00\x21\x01\xff\x00\x00",
        "EndOfContent\n", "error at 2: primitive encoding expected\n", 1),
    (b"\x05\x00\x2c\x01a", "Null\n", "error at 2: unsupported\n", 1),
    (b"\x18\x0d202001010000Z\x17\x11200101000000-0000",
        "GeneralizedTime(\"20200101000000Z\")\nUTCTime(\"200101000000+0000\")\n", "", 0),
];

/// Under this word, what the reader gives is printed and told of so.
pub fn expect_run<R: Read>(
    rt: &(impl Abort + AllocGlobal),
    word: &str,
    reader: &mut R,
    (printed, told, status): (&str, &str, u8),
) {
    expect_output(rt, word, reader, (printed.as_bytes(), told, status));
}

/// Under this word, of what the reader gives these octets are written, and it is told of so.
fn expect_output<R: Read>(
    rt: &(impl Abort + AllocGlobal),
    word: &str,
    reader: &mut R,
    (written, told, status): (&[u8], &str, u8),
) {
    let mut out = Vec::new(rt.alloc());
    let mut err = Vec::new(rt.alloc());
    let ended = run(rt.alloc(), word, reader, &mut out, &mut err);
    assert_eq!(rt; out.as_slice(), written, "under {word}");
    assert_eq!(rt; str::from_utf8(&err), Ok(told), "under {word}");
    assert_eq!(rt; ended, status, "under {word}");
}

/// Under this word, each input is printed and told of so.
fn expect_runs(rt: &(impl Abort + AllocGlobal), word: &str, runs: &[Run]) {
    for (left, printed, told, status) in runs {
        let mut reader = ShortReads { left, fault: None };
        expect_run(rt, word, &mut reader, (printed, told, *status));
    }
}

#[test]
fn prints_elements_up_to_a_fault(rt: HostRuntime) {
    expect_runs(&rt, "der", DER_RUNS);
    expect_runs(&rt, "ber", BER_RUNS);
    expect_runs(&rt, "der", TYPE_RUNS);
    expect_runs(&rt, "ber", TYPE_RUNS);
}

/// An input, what is written, what is told of a fault, and the status.
type Written = (&'static [u8], &'static [u8], &'static str, u8);

/// What `derdump canon` does.
#[rattlefmt::skip]
const CANON_RUNS: &[Written] = &[
    (b"", b"", "", 0),
    (b"\x30\x03\x01\x01\x7f\x02\x81\x01\x05", b"\x30\x03\x01\x01\xff\x02\x01\x05", "", 0),
    (b"\x30\x80\x05\x00\x00\x00", b"\x30\x02\x05\x00", "", 0),
    (b"\x31\x80\x30\x80\x05\x00\x00\x00\x30\x00\x00\x00", b"\x31\x06\x30\x02\x05\x00\x30\x00", "", 0),
    (b"\xa0\x80\x02\x01\x05\x00\x00\x24\x80\x04\x01a\x00\x00", b"\xa0\x03\x02\x01\x05\x24\x03\x04\x01a", "", 0),
    (b"\x25\x01\x00\x0a\x00\x00\x00", b"\x25\x00\x0a\x01\x00\x00\x00", "", 0),
    (b"\x17\x0b2001010000Z", b"\x17\x0d200101000000Z", "", 0),
    (b"\x05\x00\x30\x04\x02\x03\x01\x00", b"\x05\x00", "error at 2: incomplete, needs 1\n", 1),
    (b"\x02\x81\x01\x05\x30\x80\x21\x01\xff\x00\x00",
        b"\x02\x01\x05", "error at 4: primitive encoding expected\n", 1),
];

#[test]
fn writes_encodings_up_to_a_fault(rt: HostRuntime) {
    for (left, written, told, status) in CANON_RUNS {
        let mut reader = ShortReads { left, fault: None };
        expect_output(&rt, "canon", &mut reader, (written, told, *status));
        let mut again = *written;
        expect_output(&rt, "canon", &mut again, (written, "", 0));
    }
}

/// The writer has no room for all that is to be written.
#[test]
fn a_failed_write_of_encodings_ends_it(rt: HostRuntime) {
    for fault in [None, Some(ErrorKind::Other), Some(ErrorKind::BrokenPipe)] {
        for room in 0..5 {
            let mut reader: &[u8] = b"\x01\x81\x01\x7f\x05\x81\x00";
            let mut out = SmallRoom::new(rt.alloc(), room, fault);
            let mut err = Vec::new(rt.alloc());
            assert_eq!(rt;
                run(rt.alloc(), "canon", &mut reader, &mut out, &mut err),
                1
            );
            assert_eq!(rt; out.taken.as_slice(), &b"\x01\x01\xff\x05\x00"[..room]);
            assert_eq!(rt; str::from_utf8(&err), Ok("error: write failed\n"));
        }
    }
}

/// An element that is refused for its depth stands behind one that is printed.
#[test]
fn fifty_indefinite_lengths_are_refused(rt: HostRuntime) -> Result<(), Fail> {
    let mut input = Vec::new(rt.alloc());
    input.extend_from_slice(b"\x05\x00")?;
    for _ in 0..50 {
        input.extend_from_slice(b"\x30\x80")?;
    }
    for _ in 0..50 {
        input.extend_from_slice(b"\x00\x00")?;
    }
    let told = "error at 2: maximum depth reached\n";
    expect_run(&rt, "ber", &mut input.as_slice(), ("Null\n", told, 1));
    Ok(())
}

/// Words that name no command.
const OTHER_WORDS: &[&str] = &[
    "",
    "canonical",
    "can",
    "CANON",
    "x",
    "BER",
    "DER",
    "ber ",
    "der ",
    "be",
    "de",
    "bers",
    "berder",
    "derdump",
];

#[test]
fn other_words_are_usage_faults(rt: HostRuntime) {
    for word in OTHER_WORDS {
        let mut reader: &[u8] = b"\x01\x01\xff";
        expect_run(&rt, word, &mut reader, ("", USAGE, 2));
        assert_eq!(rt; reader.len(), 3, "{word}");
    }
}

#[test]
fn a_failed_read_ends_it(rt: HostRuntime) {
    for left in [
        b"".as_slice(),
        b"\x05\x00\x05",
        b"\x05\x00\x05\x00\x05\x00\x05",
    ] {
        for kind in [
            ErrorKind::Other,
            ErrorKind::Interrupted,
            ErrorKind::UnexpectedEof,
        ] {
            let fault = Some(kind);
            let mut reader = ShortReads { left, fault };
            expect_run(&rt, "der", &mut reader, ("", "error: read failed\n", 1));
        }
    }
}

/// The reader would go on well behind its error, and is not read again.
#[test]
fn a_failed_read_is_the_last(rt: HostRuntime) {
    for (fails_at, reads) in [(6, 1), (3, 2), (0, 3)] {
        let mut reader = FailsOnce {
            left: b"\x01\x01\xff\x01\x01\x00",
            fails_at,
            failed: false,
            reads: 0,
        };
        expect_run(&rt, "der", &mut reader, ("", "error: read failed\n", 1));
        assert_eq!(rt; reader.reads, reads);
        assert_eq!(rt; reader.left.len(), fails_at);
    }
}

/// The writer has no room for all that is printed, of a run that would end well and of one that
/// would not.
#[test]
fn a_failed_write_ends_it(rt: HostRuntime) {
    let text = b"Boolean(true)\nNull\n";
    for fault in [None, Some(ErrorKind::Other), Some(ErrorKind::StorageFull)] {
        for (input, told, status) in [
            (b"\x01\x01\xff\x05\x00".as_slice(), "", 0),
            (
                b"\x01\x01\xff\x05\x00\x01\x01\x02",
                "error at 5: DER constraint failed: invalid boolean\n",
                1,
            ),
        ] {
            for room in 0..text.len() + 1 {
                let mut reader = input;
                let mut out = SmallRoom::new(rt.alloc(), room, fault);
                let mut err = Vec::new(rt.alloc());
                let ended = run(rt.alloc(), "der", &mut reader, &mut out, &mut err);
                let (told, status) = if room < text.len() {
                    ("error: write failed\n", 1)
                } else {
                    (told, status)
                };
                assert_eq!(rt; out.taken.as_slice(), &text[..room]);
                assert_eq!(rt; str::from_utf8(&err), Ok(told));
                assert_eq!(rt; ended, status);
            }
        }
    }
}

/// Takes all that is written, and answers an error where it is flushed.
#[derive(Drop)]
struct NoFlush {
    taken: usize,
}

impl Write for NoFlush {
    fn write(&mut self, buf: &[u8]) -> io::Result<usize> {
        self.taken = self.taken.saturating_add(buf.len());
        Ok(buf.len())
    }

    fn flush(&mut self) -> io::Result<()> {
        Err(io::Error::from(ErrorKind::StorageFull))
    }
}

#[test]
fn a_failed_flush_ends_it(rt: HostRuntime) {
    for mut input in [b"\x05\x00".as_slice(), b"\x05\x00\x05\x01"] {
        let mut out = NoFlush { taken: 0 };
        let mut err = Vec::new(rt.alloc());
        assert_eq!(rt; run(rt.alloc(), "ber", &mut input, &mut out, &mut err), 1);
        assert_eq!(rt; out.taken, 5);
        assert_eq!(rt; str::from_utf8(&err), Ok("error: write failed\n"));
    }
}

/// Inputs of a few hundred octets, read in parts.
#[test]
fn long_inputs_end_well(rt: HostRuntime) -> Result<(), Fail> {
    for count in [86, 100, 257, 1000] {
        let mut input = Vec::new(rt.alloc());
        let mut text = String::new(rt.alloc());
        for _ in 0..count {
            input.extend_from_slice(b"\x02\x01\x05")?;
            text.push_str("Integer([05])\n")?;
        }
        let mut reader = ShortReads {
            left: &input,
            fault: None,
        };
        expect_run(&rt, "der", &mut reader, (&text, "", 0));
    }
    Ok(())
}

#[test]
fn a_fault_of_err_changes_nothing(rt: HostRuntime) {
    for fault in [None, Some(ErrorKind::Other), Some(ErrorKind::BrokenPipe)] {
        for (word, status) in [("der", 1), ("", 2)] {
            let mut input: &[u8] = b"\x01\x01\xff\x01\x01\x02";
            let mut out = Vec::new(rt.alloc());
            let mut err = SmallRoom::new(rt.alloc(), 4, fault);
            let ended = run(rt.alloc(), word, &mut input, &mut out, &mut err);
            assert_eq!(rt; ended, status);
            assert_eq!(rt; err.taken.len(), 4);
        }
    }
}

/// Nothing is written where nothing is printed, so a writer that always fails is none.
#[test]
fn nothing_is_written_for_nothing(rt: HostRuntime) {
    let mut input: &[u8] = b"";
    let mut out = SmallRoom::new(rt.alloc(), 0, Some(ErrorKind::Other));
    let mut err = SmallRoom::new(rt.alloc(), 0, Some(ErrorKind::Other));
    assert_eq!(rt; run(rt.alloc(), "der", &mut input, &mut out, &mut err), 0);
    assert_eq!(rt; out.writes, 0);
    assert_eq!(rt; err.writes, 0);
}

#[test]
fn long_output_takes_few_writes(rt: HostRuntime) -> Result<(), Fail> {
    let mut input = Vec::new(rt.alloc());
    let mut text = Vec::new(rt.alloc());
    for _ in 0..10000 {
        input.extend_from_slice(b"\x01\x01\xff")?;
        text.extend_from_slice(b"Boolean(true)\n")?;
    }
    let mut out = SmallRoom::new(rt.alloc(), usize::MAX, None);
    let mut err = Vec::new(rt.alloc());
    assert_eq!(rt;
        run(rt.alloc(), "der", &mut input.as_slice(), &mut out, &mut err),
        0
    );
    assert!(rt; out.taken == text);
    assert!(rt; out.writes <= 20);
    Ok(())
}

#[test]
fn input_is_bounded(rt: HostRuntime) {
    for (left, too_large) in [(67108864, false), (67108865, true)] {
        let mut reader = Ones { left };
        let mut out = Vec::new(rt.alloc());
        let mut err = Vec::new(rt.alloc());
        assert_eq!(rt; run(rt.alloc(), "der", &mut reader, &mut out, &mut err), 1);
        assert!(rt; out.is_empty());
        assert_eq!(rt;
            str::from_utf8(&err) == Ok("error: input too large\n"),
            too_large
        );
    }
}

/// Arguments, the program's name first.
#[derive(Drop)]
struct Arguments<'a>(&'a [&'a [u8]]);

impl Env for Arguments<'_> {
    fn arg(&self, i: usize, buf: &mut [u8]) -> Result<usize, FillError> {
        match self.0.get(i) {
            None => Err(FillError::NotPresent),
            Some(text) if text.len() > buf.len() => Err(FillError::TooLong),
            Some(text) => {
                buf[..text.len()].copy_from_slice(text);
                Ok(text.len())
            }
        }
    }

    fn var(&self, _name: &str, _buf: &mut [u8]) -> Result<usize, FillError> {
        Err(FillError::NotPresent)
    }

    fn var_at(&self, _i: usize, _buf: &mut [u8]) -> Result<usize, FillError> {
        Err(FillError::NotPresent)
    }
}

/// Arguments, the program's name first, and the word among them.
const ARGUMENTS: &[(&[&[u8]], Option<&str>)] = &[
    (&[], None),
    (&[b"derdump"], None),
    (&[b"derdump", b""], Some("")),
    (&[b"derdump", b"der"], Some("der")),
    (&[b"derdump", b"ber"], Some("ber")),
    (&[b"derdump", b"canon"], Some("canon")),
    (&[b"derdump", b"ber", b"der"], None),
    (&[b"derdump", b"der", b"der"], None),
    (&[b"derdump", b"\xff"], None),
    (&[b"derdump", b"der", b"\xff"], None),
];

#[test]
fn the_word_is_the_only_argument(rt: HostRuntime) {
    for (arguments, expected) in ARGUMENTS {
        let word = only_argument(&(Arguments(arguments), rt.alloc()));
        assert_eq!(rt; word.as_ref().map(|word| word.as_str()), *expected);
    }
}

#[test]
fn a_refusal_has_a_text(rt: HostRuntime) -> Result<(), Fail> {
    for (reason, text) in [
        (Refused::Incomplete(Needed::Size(1)), "incomplete, needs 1"),
        (Refused::Incomplete(Needed::Unknown), "incomplete"),
        (Refused::Error(BerError::Unsupported), "unsupported"),
        (Refused::Failure(BerError::InvalidTag), "invalid tag"),
        (Refused::OutOfMemory, "out of memory"),
    ] {
        let told = format!(in rt.alloc();
            "{}",
            Fault::Element(ReadError {
                offset: 7,
                list_end: None,
                reason
            })
        )?;
        assert_eq!(rt; told.strip_prefix("error at 7: "), Some(text));
    }
    Ok(())
}
