//! How a writer of the encoder counts its faults.
use der_parser::ber::FaultWriter;
use std::alloc::Global;
use std::io;
use std::io::{ErrorKind, Write};
use std::process::Abort;
use std::test::Fail;

/// Takes a few octets of each write, as long as there is room, and then answers an error, or that
/// it took none.
#[derive(Drop)]
struct Narrow {
    taken: Vec<u8>,
    most: usize,
    room: usize,
    fault: Option<ErrorKind>,
    failed: u32,
}

impl Narrow {
    fn new(alloc: Global, most: usize, room: usize, fault: Option<ErrorKind>) -> Narrow {
        Narrow {
            taken: Vec::new(alloc),
            most,
            room,
            fault,
            failed: 0,
        }
    }
}

impl Write for Narrow {
    fn write(&mut self, buf: &[u8]) -> io::Result<usize> {
        let n = buf.len().min(self.most).min(self.room);
        if n == 0 {
            self.failed = self.failed.saturating_add(1);
            return match self.fault {
                Some(kind) => Err(io::Error::from(kind)),
                None => Ok(0),
            };
        }
        self.taken.extend_from_slice(&buf[..n])?;
        self.room -= n;
        Ok(n)
    }

    fn flush(&mut self) -> io::Result<()> {
        Ok(())
    }
}

/// How many octets are written of these, and how many faults there were then.
fn written_of(w: &mut FaultWriter<Narrow>, octets: &[u8]) -> io::Result<(usize, u128)> {
    let count = w.write(octets)?;
    Ok((count, w.faults()))
}

/// A write that takes none of some octets is a fault.
fn expect_counts(rt: &impl Abort, w: &mut FaultWriter<Narrow>) -> Result<(), Fail> {
    assert_eq!(rt; written_of(w, b"")?, (0, 0));
    assert_eq!(rt; written_of(w, b"abc")?, (2, 0));
    assert_eq!(rt; written_of(w, b"cde")?, (1, 0));
    assert_eq!(rt; written_of(w, b"de")?, (0, 1));
    assert_eq!(rt; written_of(w, b"")?, (0, 1));
    Ok(())
}

#[test]
fn faults_are_counted(rt: HostRuntime) -> Result<(), Fail> {
    let mut w = FaultWriter::new(Narrow::new(rt.alloc(), 2, 3, None));
    expect_counts(&rt, &mut w)?;
    let narrow = w.into_inner();
    assert_eq!(rt; narrow.taken.as_slice(), b"abc".as_slice());
    Ok(())
}

/// Whether no octets and an octet are refused, and how many faults there were then.
fn refusals_of(w: &mut FaultWriter<Narrow>) -> (bool, bool, u128) {
    let of_none = w.write(b"").is_err();
    let of_one = w.write(b"a").is_err();
    (of_none, of_one, w.faults())
}

/// An error is a fault, also of a write of no octets.
#[test]
fn errors_are_counted(rt: HostRuntime) {
    let broken = Narrow::new(rt.alloc(), 2, 0, Some(ErrorKind::BrokenPipe));
    let mut w = FaultWriter::new(broken);
    assert!(rt; refusals_of(&mut w) == (true, true, 2));
}
