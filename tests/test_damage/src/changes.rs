//! A message with the changes of a row.
use std::alloc::Global;
use test_tables::fault::Fault;
use test_tables::octets::octets;

/// The name of a call, and the octets that it is called with. They are those of the row's input; where the call is
/// `CALL of OCTETS`, these with the changes that the input says.
pub fn octets_of<'c>(
    alloc: Global,
    call: &'c str,
    input: &str,
) -> Result<(&'c str, Vec<u8>), Fault> {
    match call.split_once(" of ") {
        Some((call, message)) => Ok((call, changed(alloc, message, input)?)),
        None => Ok((call, octets(alloc, input)?)),
    }
}

/// The message with these octets, changed: `8=03` puts an octet in the place of the one at offset 8, or behind the last
/// one, and `to 94` keeps the first 94 octets.
fn changed(alloc: Global, message: &str, changes: &str) -> Result<Vec<u8>, Fault> {
    let mut message = octets(alloc, message)?;
    let mut is_length = false;
    for word in changes.split_ascii_whitespace() {
        match word.split_once('=') {
            Some((offset, octet)) => {
                let octet = octets(alloc, octet)?;
                put(&mut message, number(offset)?, &octet)?;
            }
            None if is_length => message.truncate(number(word)?),
            None => {}
        }
        is_length = word == "to";
    }
    Ok(message)
}

/// Puts an octet at an offset.
fn put(message: &mut Vec<u8>, offset: usize, octet: &[u8]) -> Result<(), Fault> {
    let [octet] = octet else {
        return Err(Fault::Input);
    };
    if offset == message.len() {
        message.push(*octet)?;
        return Ok(());
    }
    let Some(changed) = message.get_mut(offset) else {
        return Err(Fault::Input);
    };
    *changed = *octet;
    Ok(())
}

fn number(word: &str) -> Result<usize, Fault> {
    match word.parse::<usize>() {
        Ok(number) => Ok(number),
        Err(_) => Err(Fault::Input),
    }
}
