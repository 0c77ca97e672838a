//! The rows of a file.
use crate::octets::push_word;
use std::alloc::{AllocError, Global};

/// A line of a file of rows.
#[derive(Clone, Copy, Debug, Drop)]
pub enum Line<'a> {
    /// A remark, or a line of nothing.
    Remark,
    /// The calls that are tried on the rows below, with commas between them.
    Calls(&'a str),
    Row(Row<'a>),
    /// What is none of these.
    Unread,
}

/// A row: an input, what the calls answer on it, and its name.
#[derive(Clone, Copy, Debug, Drop)]
pub struct Row<'a> {
    pub input: &'a str,
    pub answer: &'a str,
    pub name: &'a str,
}

/// What the line is.
pub fn read_line(line: &str) -> Line<'_> {
    let line = line.trim_ascii();
    if line.is_empty() || line.starts_with('#') {
        return Line::Remark;
    }
    match line.strip_prefix('[').and_then(|it| it.strip_suffix(']')) {
        Some(calls) => Line::Calls(calls),
        None => read_row(line).map_or(Line::Unread, Line::Row),
    }
}

/// The row of a line with two bars.
fn read_row(line: &str) -> Option<Row<'_>> {
    let (input, rest) = line.split_once('|')?;
    let (answer, name) = rest.split_once('|')?;
    Some(Row {
        input: input.trim_ascii(),
        answer: answer.trim_ascii(),
        name: name.trim_ascii(),
    })
}

/// The text with a space between its words, and words of repeated octets written out: `05.00*2` as
/// `05 00 05 00`. A row's answer is compared so.
pub fn written_out(alloc: Global, text: &str) -> Result<String, AllocError> {
    let mut made = String::new(alloc);
    for word in text.split_ascii_whitespace() {
        match repeated(word) {
            Some((numbers, count)) => push_repeated(&mut made, numbers, count)?,
            None => push_word(&mut made, word)?,
        }
    }
    Ok(made)
}

/// The octets of a word that repeats them, and how often.
fn repeated(word: &str) -> Option<(&str, u16)> {
    let (numbers, count) = word.split_once('*')?;
    let are_octets = numbers.split('.').all(|it| it.len() == 2
        && it.as_bytes().iter().all(|it| it.is_ascii_hexdigit()));
    match count.parse::<u16>() {
        Ok(count) if are_octets => Some((numbers, count)),
        _ => None,
    }
}

fn push_repeated(text: &mut String, numbers: &str, count: u16) -> Result<(), AllocError> {
    for _ in 0..count {
        push_numbers(text, numbers)?;
    }
    Ok(())
}

fn push_numbers(text: &mut String, numbers: &str) -> Result<(), AllocError> {
    for number in numbers.split('.') {
        push_word(text, number)?;
    }
    Ok(())
}
