//! Steps on a cursor, and on cursors over what it opens.
use crate::cursor::fields::field;
use crate::cursor::shown::octets_text;
use der_base::error::BerError;
use der_base::header::{Class, Tag};
use der_base::rules::Rules;
use der_cursor::{Cursor, FieldError, Named, ReadError};
use std::alloc::{AllocError, Global};
use test_tables::fault::Fault;
use test_tables::octets::{push_octets, push_word};

/// A cursor, those of the elements around it from the outermost on, and the answers so far.
#[derive(Drop)]
struct Nest<'a> {
    around: Vec<Cursor<'a>>,
    cursor: Cursor<'a>,
    answers: String,
}

/// What the steps answer on a cursor over the octets, and what is left behind them.
pub fn answer_of_steps(
    alloc: Global,
    rules: Rules,
    steps: &str,
    input: &[u8],
) -> Result<String, Fault> {
    let mut nest = Nest {
        around: Vec::new(alloc),
        cursor: Cursor::by(rules, input),
        answers: String::new(alloc),
    };
    for step in steps.split_ascii_whitespace() {
        nest.take(alloc, step)?;
    }
    nest.end()
}

impl<'a> Nest<'a> {
    /// Takes a step. `open_sequence` goes into an element, and `close` goes back to the one around it.
    fn take(&mut self, alloc: Global, step: &str) -> Result<(), Fault> {
        match step {
            "implicit(0)" => self.be_implicit(0),
            "implicit(1)" => self.be_implicit(1),
            "close" => self.close(),
            "open_sequence" => return self.open(alloc),
            _ => {
                let text = answer(alloc, &mut self.cursor, step)?;
                self.push(&text)?;
            }
        }
        Ok(())
    }

    /// The next element has this implicit tag.
    fn be_implicit(&mut self, number: u32) {
        self.cursor.implicit(number);
    }

    fn close(&mut self) {
        if let Some(outer) = self.around.pop() {
            self.cursor = outer;
        }
    }

    /// Goes into a SEQUENCE, if it is next.
    fn open(&mut self, alloc: Global) -> Result<(), Fault> {
        match self.cursor.open_sequence() {
            Ok(inner) => {
                self.around.push(self.cursor)?;
                self.cursor = inner;
                Ok(())
            }
            Err(e) => {
                let text = format!(in alloc; "{e}")?;
                self.push(&text)
            }
        }
    }

    /// Adds an answer.
    fn push(&mut self, text: &str) -> Result<(), Fault> {
        if !self.answers.is_empty() {
            self.answers.push_str(", ")?;
        }
        self.answers.push_str(text)?;
        Ok(())
    }

    /// The answers, and what is left behind what was read.
    fn end(self) -> Result<String, Fault> {
        let mut answers = self.answers;
        let left = self.cursor.remaining();
        if !left.is_empty() && self.cursor.offset() > 0 {
            answers.push_str(" rest")?;
            push_octets(&mut answers, left)?;
        }
        Ok(answers)
    }
}

/// What a step answers.
fn answer(alloc: Global, cursor: &mut Cursor<'_>, step: &str) -> Result<String, Fault> {
    let text = match step {
        "end" => shown_end(alloc, cursor.end()),
        "offset" => format!(in alloc; "{}", cursor.offset()),
        "refuse" => format!(in alloc; "{}", cursor.refuse(BerError::BerValueError)),
        "is_next(0)" => format!(in alloc; "{}", cursor.is_next(Class::ContextSpecific, Tag(0))),
        "serial_number" => shown_serial_number(alloc, serial_number(cursor)),
        "names" => shown_names(alloc, serial_number(cursor)),
        _ => return field(alloc, cursor, step),
    };
    Ok(text?)
}

fn shown_end(alloc: Global, ended: Result<(), ReadError<BerError>>) -> Result<String, AllocError> {
    match ended {
        Ok(()) => format!(in alloc; "end"),
        Err(e) => format!(in alloc; "{e}"),
    }
}

/// The serial number of a certificate, with the names of fields.
fn serial_number<'a>(input: &mut Cursor<'a>) -> Result<&'a [u8], FieldError> {
    let mut parts = input.open_sequence().named("Certificate")?;
    let mut fields = parts.open_sequence().named("tbsCertificate")?;
    fields
        .open_tagged(0)
        .named("version")
        .named("tbsCertificate")?;
    fields
        .integer()
        .named("serialNumber")
        .named("tbsCertificate")
}

fn shown_serial_number(
    alloc: Global,
    read: Result<&[u8], FieldError>,
) -> Result<String, AllocError> {
    match read {
        Ok(number) => octets_text(alloc, number),
        Err(e) => format!(in alloc; "{e}"),
    }
}

/// The names of the fields that the error of a serial number has.
fn shown_names(alloc: Global, read: Result<&[u8], FieldError>) -> Result<String, AllocError> {
    let mut text = String::new(alloc);
    if let Err(refused) = read {
        for name in refused.names() {
            push_word(&mut text, name)?;
        }
    }
    Ok(text)
}
