//! Reasons of revocations.
use x509::crl::{Reason, read_certificate_list, read_reason};
use der_base::error::BerError;
use der_cursor::ReadError;
use test_words::push_number;
use std::alloc::{AllocError, Global};
use test_tables::fault::Fault;
use test_tables::octets::{push_octets, push_word};

/// The number of a reason code, or the refusal as it is printed.
pub fn reason_code(alloc: Global, octets: &[u8]) -> Result<String, Fault> {
    let mut text = String::new(alloc);
    push_reason(&mut text, read_reason(octets).map(Some))?;
    Ok(text)
}

/// The serial numbers of a list, each with its reason, if it has one.
pub fn reasons(alloc: Global, octets: &[u8]) -> Result<String, Fault> {
    let mut text = String::new(alloc);
    let Ok(list) = read_certificate_list(octets) else {
        push_word(&mut text, "no list")?;
        return Ok(text);
    };
    let Some(revoked) = list.tbs_cert_list.revoked_certificates else {
        push_word(&mut text, "none")?;
        return Ok(text);
    };
    for certificate in revoked.iter() {
        push_octets(&mut text, certificate.user_certificate)?;
        push_reason(&mut text, certificate.reason())?;
    }
    Ok(text)
}

fn push_reason(
    text: &mut String,
    found: Result<Option<Reason>, ReadError<BerError>>,
) -> Result<(), AllocError> {
    match found {
        Ok(Some(reason)) => {
            push_word(text, "reason")?;
            push_number(text, reason.number())
        }
        Ok(None) => push_word(text, "no reason"),
        Err(refused) => {
            push_word(text, "refused")?;
            write!(text, " {refused}")
        }
    }
}
