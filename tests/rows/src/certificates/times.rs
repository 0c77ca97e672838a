//! Times, compared as times, whichever type each is encoded as. A row's times are the texts of GeneralizedTimes.
use der_base::time::ASN1DateTime;
use der_cursor::Cursor;
use x509::{Time, Validity};
use std::alloc::Global;
use test_tables::fault::Fault;

/// Which times are before which: for each time a word with a digit for each of them, 1 where the first is before the
/// second.
pub fn compared(alloc: Global, input: &str) -> Result<String, Fault> {
    let moments = moments(alloc, input)?;
    let mut text = String::new(alloc);
    for one in &moments {
        if !text.is_empty() {
            text.push(' ')?;
        }
        for other in &moments {
            let is_before = Time::Utc(*one).is_before(&Time::Generalized(*other));
            text.push(digit(is_before))?;
        }
    }
    Ok(text)
}

/// Which of the times after a colon are in the validity of the first and the last of those before it: a digit for
/// each of them.
pub fn contained(alloc: Global, input: &str) -> Result<String, Fault> {
    let (ends, times) = input.split_once(':').ok_or(Fault::Input)?;
    let ends = moments(alloc, ends)?;
    let [from, until] = ends.as_slice() else {
        return Err(Fault::Input);
    };
    let validity = Validity {
        not_before: Time::Utc(*from),
        not_after: Time::Generalized(*until),
    };
    let moments = moments(alloc, times)?;
    let mut text = String::new(alloc);
    for moment in &moments {
        text.push(digit(validity.contains(&Time::Generalized(*moment))))?;
    }
    Ok(text)
}

fn digit(holds: bool) -> char {
    if holds { '1' } else { '0' }
}

/// The times of texts.
fn moments(alloc: Global, texts: &str) -> Result<Vec<ASN1DateTime>, Fault> {
    let mut moments = Vec::new(alloc);
    for text in texts.split_ascii_whitespace() {
        moments.push(moment(alloc, text)?)?;
    }
    Ok(moments)
}

/// The time of the GeneralizedTime with this text.
fn moment(alloc: Global, text: &str) -> Result<ASN1DateTime, Fault> {
    let Ok(length) = u8::try_from(text.len()) else {
        return Err(Fault::Input);
    };
    let mut element = vec![in alloc; 0x18, length]?;
    element.extend_from_slice(text.as_bytes())?;
    match Cursor::new(&element).generalized_time() {
        Ok(moment) => Ok(moment),
        Err(_) => Err(Fault::Input),
    }
}
