//! Inputs as people have them.
use der_input::{Form, FormError, decode_base64, decode_base64_into, decode_hex, decode_hex_into, form_of, next_block};
use std::alloc::Global;
use test_tables::fault::Fault;
use test_tables::octets::push_octets;

/// The form of an input, and its octets or those of its first block, or why there are none. Behind the call stands the
/// form that is asked for, or nothing.
pub fn input(alloc: Global, input: &[u8], words: &str) -> Result<String, Fault> {
    let found = match words {
        "" => form_of(input),
        "pem" => Ok(Form::Pem),
        "hex" => Ok(Form::Hex),
        "base64" => Ok(Form::Base64),
        _ => return Err(Fault::NoSuchCall),
    };
    let read = match found {
        Ok(form) => read_by(alloc, form, input),
        Err(e) => Err(e),
    };
    match read {
        Ok(text) => Ok(text),
        Err(e) => Ok(format!(in alloc; "{e}")?),
    }
}

/// The name of a form, and the octets that an input is in it.
fn read_by(alloc: Global, form: Form, input: &[u8]) -> Result<String, FormError> {
    let mut text = format!(in alloc; "{form:?}")?;
    match form {
        Form::Der => push_octets(&mut text, input)?,
        Form::Hex => push_alike(alloc, &mut text, form, input, &decode_hex(alloc, input)?)?,
        Form::Base64 => push_alike(alloc, &mut text, form, input, &decode_base64(alloc, input)?)?,
        Form::Pem => {
            let Some((block, _)) = next_block(input)? else {
                return Err(FormError::NoBlock);
            };
            let octets = block.decode(alloc)?;
            push_alike(alloc, &mut text, form, input, &octets)?;
        }
    }
    Ok(text)
}

/// Adds octets to a text, if those decoded into slices are the same.
fn push_alike(
    alloc: Global,
    text: &mut String,
    form: Form,
    input: &[u8],
    octets: &[u8],
) -> Result<(), FormError> {
    if into_slices(alloc, form, input)?.as_slice() == octets {
        push_octets(text, octets)?;
    } else {
        text.push_str(" by slices others")?;
    }
    Ok(())
}

/// The octets that an input is in a form, decoded into slices.
fn into_slices(alloc: Global, form: Form, input: &[u8]) -> Result<Vec<u8>, FormError> {
    let mut room = vec![in alloc; 0; input.len() * 2]?;
    let mut octets = vec![in alloc; 0; input.len() * 2]?;
    let size = match form {
        Form::Hex => decode_hex_into(input, &mut room, &mut octets)?,
        Form::Base64 => decode_base64_into(input, &mut room, &mut octets)?,
        _ => match next_block(input)? {
            Some((block, _)) => block.decode_into(&mut room, &mut octets)?,
            None => 0,
        },
    };
    octets.truncate(size);
    Ok(octets)
}
