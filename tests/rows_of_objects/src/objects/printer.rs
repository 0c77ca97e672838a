//! The texts of objects.
use der_parser::ber::{BerObject, FaultWriter, PrettyBer, PrettyPrinterFlag};
use std::alloc::{AllocError, Global};
use std::str;
use test_tables::fault::Fault;

/// How an object is printed.
#[derive(Clone, Copy)]
pub struct Layout {
    /// With the items of lists.
    items: bool,
    headers: bool,
    indent: usize,
    increment: usize,
}

impl Layout {
    /// What is printed beside the contents, the indent, and the increment.
    pub fn of_words(words: &[&str]) -> Option<Layout> {
        let [flags, indent, increment] = words else {
            return None;
        };
        let (items, headers) = match *flags {
            "items" => (true, false),
            "headers" => (false, true),
            "both" => (true, true),
            "neither" => (false, false),
            _ => return None,
        };
        Some(Layout {
            items,
            headers,
            indent: indent.parse().ok()?,
            increment: increment.parse().ok()?,
        })
    }

    /// A printer of the object.
    fn printer<'o, 'a>(
        self,
        alloc: Global,
        object: &'o BerObject<'a>,
    ) -> Result<PrettyBer<'o, 'a>, AllocError> {
        let mut printer = PrettyBer::new(object, Vec::new(alloc), self.indent, self.increment);
        if self.items {
            printer.set_flag(PrettyPrinterFlag::Recursive)?;
        }
        if self.headers {
            printer.set_flag(PrettyPrinterFlag::ShowHeader)?;
        }
        Ok(printer)
    }
}

/// The text that the printer writes to a writer.
pub fn written(alloc: Global, layout: Layout, object: &BerObject<'_>) -> Result<String, Fault> {
    let printer = layout.printer(alloc, object)?;
    let mut w = FaultWriter::new(Vec::new(alloc));
    if let Err(e) = printer.write_text(&mut w) {
        return Ok(format!(in alloc; "not written: {e}")?);
    }
    match str::from_utf8(&w.into_inner()) {
        Ok(text) => quoted(alloc, text),
        Err(_) => Ok(String::from_str(alloc, "no text")?),
    }
}

/// The text that `Debug` of the printer shows.
pub fn shown(alloc: Global, layout: Layout, object: &BerObject<'_>) -> Result<String, Fault> {
    let printer = layout.printer(alloc, object)?;
    let text = format!(in alloc; "{printer:?}")?;
    quoted(alloc, &text)
}

/// A text in quotes, after the number of the spaces that it begins with if there are some. Two
/// spaces are written `__`, and the end of a line `\n`.
fn quoted(alloc: Global, text: &str) -> Result<String, Fault> {
    let body = text.trim_start_matches(' ');
    let mut quoted = String::new(alloc);
    if body.len() < text.len() {
        write!(quoted, "indent {} ", text.len().saturating_sub(body.len()))?;
    }
    quoted.push('"')?;
    push_body(&mut quoted, body)?;
    quoted.push('"')?;
    Ok(quoted)
}

fn push_body(quoted: &mut String, body: &str) -> Result<(), AllocError> {
    let mut parts = body.split("  ");
    if let Some(first) = parts.next() {
        push_part(quoted, first)?;
    }
    for part in parts {
        quoted.push_str("__")?;
        push_part(quoted, part)?;
    }
    Ok(())
}

fn push_part(quoted: &mut String, part: &str) -> Result<(), AllocError> {
    for character in part.chars() {
        match character {
            '\n' => quoted.push_str("\\n")?,
            '\\' => quoted.push_str("\\\\")?,
            ascii if ascii.is_ascii() => quoted.push(ascii)?,
            other => write!(quoted, "\\u{{{:x}}}", other as u32)?,
        }
    }
    Ok(())
}
