//! Want of memory in `derdump`. `tools/refused-growths` runs the test with an allocation refused,
//! each in its turn.
use crate::run;
use crate::sink::Sink;
use crate::source::Source;
use der_parser::error::{BerError, Err as Refused};
use std::io;
use std::io::Write;
use std::test::Fail;

/// Room of a fixed size.
#[derive(Drop)]
struct Page {
    octets: [u8; 64],
    len: usize,
}

impl Page {
    fn new() -> Page {
        Page {
            octets: [0; 64],
            len: 0,
        }
    }

    fn written(&self) -> &[u8] {
        self.octets.get(..self.len).unwrap_or(&[])
    }
}

impl Write for Page {
    fn write(&mut self, buf: &[u8]) -> io::Result<usize> {
        let n = buf.len().min(self.octets.len().saturating_sub(self.len));
        for (place, octet) in self.octets.iter_mut().skip(self.len).zip(buf) {
            *place = *octet;
        }
        self.len = self.len.saturating_add(n);
        Ok(n)
    }

    fn flush(&mut self) -> io::Result<()> {
        Ok(())
    }
}

/// Want of memory is told once, with nothing else, and what was printed before stays.
#[test]
fn wants_memory_derdump(rt: HostRuntime) -> Result<(), Fail> {
    let input: &[u8] = b"\x30\x03\x02\x01\x05";
    let (mut out, mut err) = (Page::new(), Page::new());
    let mut source = Source::new(input);
    let status = run::run(
        rt.alloc(),
        "der",
        &mut source,
        &mut Sink::new(&mut out),
        &mut err,
    );
    if status == 0 {
        assert!(rt; out.written() == b"Sequence[\n  Integer([05])]\n".as_slice());
        assert!(rt; err.written().is_empty());
        return Ok(());
    }
    assert_eq!(rt; status, 1);
    assert!(rt; out.written().is_empty());
    let told = err.written();
    assert!(rt;
        told == b"error: out of memory\n".as_slice()
            || told == b"error at 0: out of memory\n".as_slice()
    );
    Err(Fail::from(Refused::<BerError>::OutOfMemory))
}
