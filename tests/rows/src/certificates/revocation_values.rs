//! Values of the extensions of lists of revoked certificates and of their entries. Each reader's refusal is answered
//! as it is printed.
use der_base::error::BerError;
use der_base::time::ASN1DateTime;
use der_cursor::ReadError;
use der_extensions::{
    DistributionPointName, IssuingDistributionPoint, read_crl_number, read_invalidity_date,
    read_issuing_distribution_point,
};
use der_values::BitString;
use std::alloc::{AllocError, Global};
use test_tables::fault::Fault;
use test_tables::octets::{push_octets, push_word};
use test_words::push_number;

/// The reasons of RFC 5280 4.2.1.13 are bits from 0 to 8.
const REASONS: usize = 9;

/// What the reader of this extension reads, if it is one of these.
pub fn revocation_value(
    alloc: Global,
    call: &str,
    octets: &[u8],
) -> Result<Option<String>, Fault> {
    let text = match call {
        "crl_number" => crl_number(alloc, read_crl_number(octets)),
        "issuing_distribution_point" => {
            issuing_distribution_point(alloc, read_issuing_distribution_point(octets))
        }
        "invalidity_date" => invalidity_date(alloc, read_invalidity_date(octets)),
        _ => return Ok(None),
    };
    Ok(Some(text?))
}

fn crl_number(
    alloc: Global,
    read: Result<&[u8], ReadError<BerError>>,
) -> Result<String, AllocError> {
    match read {
        Ok(octets) => {
            let mut text = String::new(alloc);
            push_octets(&mut text, octets)?;
            Ok(text)
        }
        Err(e) => format!(in alloc; "{e}"),
    }
}

fn invalidity_date(
    alloc: Global,
    read: Result<ASN1DateTime, ReadError<BerError>>,
) -> Result<String, AllocError> {
    match read {
        Ok(date) => format!(in alloc; "{date}"),
        Err(e) => format!(in alloc; "{e}"),
    }
}

fn issuing_distribution_point(
    alloc: Global,
    read: Result<IssuingDistributionPoint<'_>, ReadError<BerError>>,
) -> Result<String, AllocError> {
    match read {
        Ok(point) => point_text(alloc, &point),
        Err(e) => format!(in alloc; "{e}"),
    }
}

fn point_text(alloc: Global, point: &IssuingDistributionPoint<'_>) -> Result<String, AllocError> {
    let mut text = String::new(alloc);
    push_word(&mut text, "point")?;
    push_name(&mut text, &point.distribution_point)?;
    push_flag(&mut text, point.only_contains_user_certs, "users")?;
    push_flag(&mut text, point.only_contains_ca_certs, "authorities")?;
    push_reasons(&mut text, point.only_some_reasons)?;
    push_flag(&mut text, point.indirect_crl, "indirect")?;
    push_flag(&mut text, point.only_contains_attribute_certs, "attributes")?;
    Ok(text)
}

/// Adds the octets of a name of a point, if it is there.
fn push_name(
    text: &mut String,
    name: &Option<DistributionPointName<'_>>,
) -> Result<(), AllocError> {
    match name {
        Some(DistributionPointName::FullName(names)) => {
            push_word(text, "full")?;
            push_octets(text, names.octets)
        }
        Some(DistributionPointName::NameRelativeToCrlIssuer(name)) => {
            push_word(text, "relative")?;
            push_octets(text, name.octets)
        }
        None => Ok(()),
    }
}

fn push_flag(text: &mut String, is_set: bool, name: &str) -> Result<(), AllocError> {
    if is_set {
        push_word(text, name)?;
    }
    Ok(())
}

fn push_reasons(text: &mut String, reasons: Option<BitString<'_>>) -> Result<(), AllocError> {
    let Some(reasons) = reasons else {
        return Ok(());
    };
    push_word(text, "reasons")?;
    for reason in 0..REASONS {
        if reasons.is_set(reason) {
            push_number(text, reason)?;
        }
    }
    Ok(())
}
