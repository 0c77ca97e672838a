//! Whole runs of the program where no stored run reaches: both streams on one screen, streams that fail, and the
//! variables of a terminal.
use der_cli::program;
use std::alloc::{AllocError, Allocator, Global};
use std::cell::RefCell;
use std::env::{Env, FillError};
use std::fs::{Metadata, OpenOptions};
use std::io::{ErrorKind, Read, Write};
use std::process::ExitCode;
use std::rt::Files;
use std::test::Fail;
use std::time::{Clock, Duration};
use std::{io, str};

/// A variable of the environment: its name and its value.
pub type Variable = (&'static str, &'static str);

/// Arguments, the program's name first, variables, and what the clock reads, with the files of another runtime.
#[derive(Drop)]
struct Machine<'a, R> {
    rt: &'a R,
    arguments: &'a [&'static str],
    variables: &'a [Variable],
    /// The seconds since 1970. None if the clock can't be read.
    clock: Option<u64>,
}

impl<R> Clone for Machine<'_, R> {
    fn clone(&self) -> Result<Self, AllocError> {
        Ok(Machine {
            rt: self.rt,
            arguments: self.arguments,
            variables: self.variables,
            clock: self.clock,
        })
    }
}

/// Writes a text to the front of a buffer.
fn fill(text: Option<&str>, buf: &mut [u8]) -> Result<usize, FillError> {
    match text {
        None => Err(FillError::NotPresent),
        Some(text) if text.len() > buf.len() => Err(FillError::TooLong),
        Some(text) => {
            buf[..text.len()].copy_from_slice(text.as_bytes());
            Ok(text.len())
        }
    }
}

impl<R> Env for Machine<'_, R> {
    fn arg(&self, i: usize, buf: &mut [u8]) -> Result<usize, FillError> {
        fill(self.arguments.get(i).copied(), buf)
    }

    fn var(&self, name: &str, buf: &mut [u8]) -> Result<usize, FillError> {
        let found = self.variables.iter().find(|variable| variable.0 == name);
        fill(found.map(|variable| variable.1), buf)
    }

    fn var_at(&self, _i: usize, _buf: &mut [u8]) -> Result<usize, FillError> {
        Err(FillError::NotPresent)
    }
}

impl<R> Clock for Machine<'_, R> {
    fn monotonic(&self) -> io::Result<Duration> {
        self.since_1970()
    }

    fn since_1970(&self) -> io::Result<Duration> {
        match self.clock {
            Some(seconds) => Ok(Duration::from_secs(seconds)),
            None => Err(io::Error::from(ErrorKind::Unsupported)),
        }
    }
}

impl<R: Files> Files for Machine<'_, R> {
    type File = R::File;

    type Dir = R::Dir;

    fn open_file(&self, how: &OpenOptions, path: &str) -> io::Result<R::File> {
        self.rt.open_file(how, path)
    }

    fn open_dir(&self, path: &str) -> io::Result<R::Dir> {
        self.rt.open_dir(path)
    }

    fn metadata(&self, path: &str) -> io::Result<Metadata> {
        self.rt.metadata(path)
    }

    fn symlink_metadata(&self, path: &str) -> io::Result<Metadata> {
        self.rt.symlink_metadata(path)
    }

    fn copy(&self, from: &str, to: &str) -> io::Result<u64> {
        self.rt.copy(from, to)
    }

    fn rename(&self, from: &str, to: &str) -> io::Result<()> {
        self.rt.rename(from, to)
    }

    fn remove_file(&self, path: &str) -> io::Result<()> {
        self.rt.remove_file(path)
    }

    fn create_dir(&self, path: &str) -> io::Result<()> {
        self.rt.create_dir(path)
    }

    fn remove_dir(&self, path: &str) -> io::Result<()> {
        self.rt.remove_dir(path)
    }

    fn remove_dir_all<B: Allocator>(&self, alloc: B, path: &str) -> io::Result<()> {
        self.rt.remove_dir_all(alloc, path)
    }
}

/// Writes to a screen.
#[derive(Drop)]
struct ToScreen<'a>(&'a RefCell<Vec<u8>>);

impl Write for ToScreen<'_> {
    fn write(&mut self, buf: &[u8]) -> io::Result<usize> {
        match self.0.try_borrow_mut() {
            Ok(mut screen) => {
                screen.extend_from_slice(buf)?;
                Ok(buf.len())
            }
            Err(_) => Err(io::Error::from(ErrorKind::Other)),
        }
    }

    fn flush(&mut self) -> io::Result<()> {
        Ok(())
    }
}

/// Answers this error to each read and each write.
#[derive(Drop)]
struct Broken(ErrorKind);

impl Read for Broken {
    fn read(&mut self, _buf: &mut [u8]) -> io::Result<usize> {
        Err(io::Error::from(self.0))
    }
}

impl Write for Broken {
    fn write(&mut self, _buf: &[u8]) -> io::Result<usize> {
        Err(io::Error::from(self.0))
    }

    fn flush(&mut self) -> io::Result<()> {
        Ok(())
    }
}

/// A run with both streams on one screen: what it shows, and the status.
pub fn on_screen(
    rt: &(impl Files + AllocGlobal),
    arguments: &[&'static str],
    variables: &[Variable],
    input: &[u8],
    is_terminal: bool,
) -> (Vec<u8>, ExitCode) {
    let machine = Machine {
        rt,
        arguments,
        variables,
        clock: None,
    };
    screen_of(&(machine, rt.alloc()), input, is_terminal)
}

/// What a run on a machine shows, and its status.
fn screen_of<R: Files>(
    machine: &(Machine<'_, R>, Global),
    input: &[u8],
    is_terminal: bool,
) -> (Vec<u8>, ExitCode) {
    let screen = RefCell::new(Vec::new(machine.1));
    let status = program(
        machine,
        input,
        ToScreen(&screen),
        ToScreen(&screen),
        is_terminal,
    );
    (screen.into_inner(), status)
}

/// A run with the status 1.
struct Row {
    arguments: &'static [&'static str],
    input: &'static [u8],
    screen: &'static str,
}

/// An element, and one that is cut.
const CUT: &[u8] = b"\x05\x00\x02";

/// A block, one that is cut, and one more.
const BLOCKS: &[u8] = b"\
-----BEGIN A-----
BQA=
-----END A-----
-----BEGIN B-----
Ag==
-----END B-----
-----BEGIN C-----
BQA=
-----END C-----
";

/// A block, one that is no base64, and one with no end.
const FORMS: &[u8] = b"\
-----BEGIN A-----
BQA=
-----END A-----
-----BEGIN B-----
AgEF=
-----END B-----
-----BEGIN C-----
BQA=
";

const ROWS: [Row; 6] = [
    Row {
        arguments: &["der", "tree"],
        input: CUT,
        screen: "      0  2+0       NULL\n\
der: standard input: at 2: 1 octet after the end\n",
    },
    Row {
        arguments: &["der", "json"],
        input: CUT,
        screen: "{\"offset\":0,\"depth\":0,\"header\":2,\"length\":0,\"class\":\"universal\",\"tag\":5,\
\"constructed\":false,\"type\":\"NULL\",\"path\":\"NULL[0]\",\"value\":null}\n\
der: standard input: at 2: 1 octet after the end\n",
    },
    Row {
        arguments: &["der", "canon"],
        input: BLOCKS,
        screen: "-----BEGIN A-----\nBQA=\n-----END A-----\n\
der: standard input, block 2 (B): at 0: the input is cut, at least 1 octet is missing (X.690 8.1.1)\n\
-----BEGIN C-----\nBQA=\n-----END C-----\n",
    },
    Row {
        arguments: &["der", "tree"],
        input: FORMS,
        screen: "standard input: A\n      0  2+0       NULL\nstandard input: B\n\
der: standard input, block 2 (B): invalid base64 on its line 2: unexpected '='\n\
der: standard input: a block without its line -----END ..-----\n",
    },
    Row {
        arguments: &["der", "tree", "/dev/null", "nothing.der"],
        input: b"",
        screen: "/dev/null:\nder: /dev/null: the input is empty\n\
der: nothing.der: No such file or directory (os error 2)\n",
    },
    Row {
        arguments: &["der", "tree", "nothing.der", "/dev/null"],
        input: b"",
        screen: "der: nothing.der: No such file or directory (os error 2)\n\
/dev/null:\nder: /dev/null: the input is empty\n",
    },
];

/// What was written before a report is shown before it.
#[test]
fn reports_are_in_their_places(rt: HostRuntime) {
    for row in &ROWS {
        let (screen, status) = on_screen(&rt, row.arguments, &[], row.input, false);
        assert_eq!(rt; str::from_utf8(&screen), Ok(row.screen));
        assert_eq!(rt; status, ExitCode::FAILURE);
    }
}

/// Only the end of a run writes to the output, where it fails. A closed pipe isn't reported.
#[test]
fn a_failed_write_ends_it(rt: HostRuntime) {
    for (kind, report, expected) in [
        (ErrorKind::BrokenPipe, "", ExitCode::from(141_u8)),
        (
            ErrorKind::StorageFull,
            "der: no storage space\n",
            ExitCode::FAILURE,
        ),
    ] {
        let screen = RefCell::new(Vec::new(rt.alloc()));
        let machine = Machine {
            rt: &rt,
            arguments: &["der", "tree"],
            variables: &[],
            clock: None,
        };
        let input: &[u8] = b"\x05\x00";
        let status = program(
            &(machine, rt.alloc()),
            input,
            Broken(kind),
            ToScreen(&screen),
            false,
        );
        let shown = screen.into_inner();
        assert_eq!(rt; str::from_utf8(&shown), Ok(report));
        assert_eq!(rt; status, expected);
    }
}

#[test]
fn a_failed_read_is_reported(rt: HostRuntime) {
    let screen = RefCell::new(Vec::new(rt.alloc()));
    let machine = Machine {
        rt: &rt,
        arguments: &["der", "tree"],
        variables: &[],
        clock: None,
    };
    let status = program(
        &(machine, rt.alloc()),
        Broken(ErrorKind::TimedOut),
        ToScreen(&screen),
        ToScreen(&screen),
        false,
    );
    let shown = screen.into_inner();
    assert_eq!(rt; str::from_utf8(&shown), Ok("der: standard input: timed out\n"));
    assert_eq!(rt; status, ExitCode::FAILURE);
}

/// An output, the variables, how many characters of a long text are shown there, and whether lines have colours.
struct Output {
    is_terminal: bool,
    variables: &'static [Variable],
    shown: usize,
    has_colours: bool,
}

const OUTPUTS: [Output; 8] = [
    Output {
        is_terminal: true,
        variables: &[],
        shown: 31,
        has_colours: true,
    },
    Output {
        is_terminal: true,
        variables: &[("NO_COLOR", ""), ("COLUMNS", "")],
        shown: 31,
        has_colours: true,
    },
    Output {
        is_terminal: true,
        variables: &[("NO_COLOR", "0"), ("COLUMNS", "wide")],
        shown: 31,
        has_colours: false,
    },
    Output {
        is_terminal: true,
        variables: &[("COLUMNS", "200"), ("NO_COLOR", "1")],
        shown: 121,
        has_colours: false,
    },
    Output {
        is_terminal: true,
        variables: &[("COLUMNS", " 200 ")],
        shown: 121,
        has_colours: true,
    },
    Output {
        is_terminal: false,
        variables: &[("COLUMNS", "200")],
        shown: 120,
        has_colours: false,
    },
    Output {
        is_terminal: true,
        variables: &[("TERM", "dumb"), ("COLUMNS", "200")],
        shown: 121,
        has_colours: false,
    },
    Output {
        is_terminal: false,
        variables: &[],
        shown: 120,
        has_colours: false,
    },
];

/// An element with a text of 121 octets.
fn long_text(alloc: Global) -> Result<Vec<u8>, AllocError> {
    let mut octets = Vec::new(alloc);
    octets.extend_from_slice(b"\x0c\x79")?;
    for _ in 0..121 {
        octets.push(b'x')?;
    }
    Ok(octets)
}

/// Its line: a text is cut to 120 octets, or to the 80 columns of a terminal. In colours the numbers are dim and the type
/// is bold.
fn line_of_long_text(alloc: Global, output: &Output) -> Result<String, AllocError> {
    let end = if output.shown < 121 {
        "...\" (121 octets)\n"
    } else {
        "\"\n"
    };
    let start = if output.has_colours {
        "\x1b[2m      0  2+121     \x1b[0m\x1b[1mUTF8String\x1b[0m \""
    } else {
        "      0  2+121     UTF8String \""
    };
    let mut line = String::new(alloc);
    line.push_str(start)?;
    for _ in 0..output.shown {
        line.push('x')?;
    }
    line.push_str(end)?;
    Ok(line)
}

#[test]
fn lines_are_those_of_their_output(rt: HostRuntime) -> Result<(), Fail> {
    let input = long_text(rt.alloc())?;
    for output in &OUTPUTS {
        let line = line_of_long_text(rt.alloc(), output)?;
        let arguments = &["der", "tree"];
        let (screen, status) = on_screen(
            &rt,
            arguments,
            output.variables,
            &input,
            output.is_terminal,
        );
        assert_eq!(rt; str::from_utf8(&screen), Ok(line.as_str()));
        assert_eq!(rt; status, ExitCode::SUCCESS);
    }
    Ok(())
}

/// A list of revoked certificates in hexadecimal digits, whose next update is on 2026-12-24 at 23:15:42.
const LIST: &[u8] = b"\
3081ee308194020101300a06082a8648ce3d0403023030310b300906035504061302444531123010060355040a0c095a6fc3ab20476d62\
48310d300b06035504030c04726f6f74170d3236313132343233313534325a170d3236313232343233313534325a302330210202123417\
0d3236313030313030303030305a300c300a0603551d1504030a0101a00e300c300a0603551d140403020101300a06082a8648ce3d0403\
0203490030460221008702ec80e7c3ebc48431bae125306d676f5e1901d4c646c72d7c632f323d9805022100d8fee3d1187791ec4576e9\
4c671d1d3438db9a2a371dce6435ae7566e079feda";

/// Noon on 2026-12-12, in seconds since 1970: `date -u -d '2026-12-12 12:00:00' +%s`.
const NOON: u64 = 1797076800;

/// What a clock reads, the arguments, and the line about the validity of the list, if there is one.
struct Validity {
    clock: Option<u64>,
    arguments: &'static [&'static str],
    line: Option<&'static str>,
}

const VALIDITIES: [Validity; 4] = [
    Validity {
        clock: Some(NOON),
        arguments: &["der", "show"],
        line: Some("  Expires: in 12 days"),
    },
    // A day later: --now is in place of the clock.
    Validity {
        clock: Some(NOON),
        arguments: &["der", "show", "--now", "1797163200"],
        line: Some("  Expires: in 11 days"),
    },
    Validity {
        clock: None,
        arguments: &["der", "show", "--now", "1797163200"],
        line: Some("  Expires: in 11 days"),
    },
    Validity {
        clock: None,
        arguments: &["der", "show"],
        line: None,
    },
];

/// The present is that of --now, or of the clock. Without one, nothing is said of it.
#[test]
fn words_are_of_the_present(rt: HostRuntime) {
    for validity in &VALIDITIES {
        let machine = Machine {
            rt: &rt,
            arguments: validity.arguments,
            variables: &[],
            clock: validity.clock,
        };
        let (screen, status) = screen_of(&(machine, rt.alloc()), LIST, false);
        let text = str::from_utf8(&screen).unwrap_or("");
        let mut lines = text.lines();
        let line = lines.find(|line| line.starts_with("  Expire"));
        assert_eq!(rt; line, validity.line);
        assert_eq!(rt; status, ExitCode::SUCCESS);
    }
}
