//! Values of extensions that are lists.
use der_base::error::BerError;
use der_cursor::ReadError;
use der_extensions::{
    CertificatePolicies, CrlDistributionPoints, DistributionPoint, ExtendedKeyUsage, GeneralName,
    GeneralNames, InformationAccess, read_certificate_policies, read_crl_distribution_points,
    read_extended_key_usage, read_general_names, read_information_access,
};
use test_words::push_number;
use std::alloc::{AllocError, Global};
use test_tables::fault::Fault;
use test_tables::octets::{push_octets, push_word};

/// The reasons of RFC 5280 4.2.1.13 are bits from 0 to 8.
const REASONS: usize = 9;

/// What the reader of this list reads.
pub fn list(alloc: Global, call: &str, octets: &[u8]) -> Result<String, Fault> {
    let text = match call {
        "general_names" => general_names(alloc, read_general_names(octets)),
        "extended_key_usage" => purposes(alloc, read_extended_key_usage(octets)),
        "information_access" => descriptions(alloc, read_information_access(octets)),
        "certificate_policies" => policies(alloc, read_certificate_policies(octets)),
        "crl_distribution_points" => {
            distribution_points(alloc, read_crl_distribution_points(octets))
        }
        _ => return Err(Fault::NoSuchCall),
    };
    Ok(text?)
}

/// The number of the purposes.
fn purposes(
    alloc: Global,
    read: Result<ExtendedKeyUsage<'_>, ReadError<BerError>>,
) -> Result<String, AllocError> {
    match read {
        Ok(list) => format!(in alloc; "{} values", list.iter().count()),
        Err(e) => format!(in alloc; "{e}"),
    }
}

/// The number of the descriptions.
fn descriptions(
    alloc: Global,
    read: Result<InformationAccess<'_>, ReadError<BerError>>,
) -> Result<String, AllocError> {
    match read {
        Ok(list) => format!(in alloc; "{} values", list.iter().count()),
        Err(e) => format!(in alloc; "{e}"),
    }
}

/// The number of the policies.
fn policies(
    alloc: Global,
    read: Result<CertificatePolicies<'_>, ReadError<BerError>>,
) -> Result<String, AllocError> {
    match read {
        Ok(list) => format!(in alloc; "{} values", list.iter().count()),
        Err(e) => format!(in alloc; "{e}"),
    }
}

fn general_names(
    alloc: Global,
    read: Result<GeneralNames<'_>, ReadError<BerError>>,
) -> Result<String, AllocError> {
    match read {
        Ok(names) => names_text(alloc, &names),
        Err(e) => format!(in alloc; "{e}"),
    }
}

/// The kinds of the names, as openssl calls them, and what each holds: octets, or those of a text or an identifier.
fn names_text(alloc: Global, names: &GeneralNames<'_>) -> Result<String, AllocError> {
    let mut text = String::new(alloc);
    for name in names.iter() {
        push_name(&mut text, &name)?;
    }
    Ok(text)
}

fn push_name(text: &mut String, name: &GeneralName<'_>) -> Result<(), AllocError> {
    let (kind, octets) = parts_of(name);
    push_word(text, kind)?;
    push_octets(text, octets)
}

fn parts_of<'r>(name: &'r GeneralName<'_>) -> (&'static str, &'r [u8]) {
    match name {
        GeneralName::OtherName(other) => ("otherName", other.value.bytes),
        GeneralName::Rfc822Name(text) => ("email", text.as_bytes()),
        GeneralName::DnsName(text) => ("DNS", text.as_bytes()),
        GeneralName::X400Address(octets) => ("X400Name", octets),
        GeneralName::DirectoryName(name) => ("dirName", name.octets),
        GeneralName::EdiPartyName(octets) => ("EdiPartyName", octets),
        GeneralName::UniformResourceIdentifier(text) => ("URI", text.as_bytes()),
        GeneralName::IpAddress(octets) => ("IP", octets),
        GeneralName::RegisteredId(identifier) => ("RID", identifier.as_bytes()),
    }
}

fn distribution_points(
    alloc: Global,
    read: Result<CrlDistributionPoints<'_>, ReadError<BerError>>,
) -> Result<String, AllocError> {
    match read {
        Ok(points) => points_text(alloc, &points),
        Err(e) => format!(in alloc; "{e}"),
    }
}

/// The points, with the numbers of the reasons of each.
fn points_text(alloc: Global, points: &CrlDistributionPoints<'_>) -> Result<String, AllocError> {
    let mut text = String::new(alloc);
    for point in points.iter() {
        push_word(&mut text, "point")?;
        push_reasons(&mut text, &point)?;
    }
    Ok(text)
}

fn push_reasons(text: &mut String, point: &DistributionPoint<'_>) -> Result<(), AllocError> {
    let Some(reasons) = point.reasons else {
        return Ok(());
    };
    push_word(text, "reasons")?;
    for reason in 0..REASONS {
        if reasons.is_set(reason) {
            push_number(text, reason)?;
        }
    }
    Ok(())
}
