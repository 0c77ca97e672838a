//! Certificates.
use test_words::{push_number, push_refused_at};
use x509::{
    Certificate, Extensions, Name, Rule, StrictError, read_certificate, read_strict_certificate,
};
use std::alloc::{AllocError, Global};
use test_tables::fault::Fault;
use test_tables::octets::{push_octets, push_word};

/// `read`, or the refusal as it is printed.
pub fn certificate(alloc: Global, octets: &[u8]) -> Result<String, Fault> {
    let text = match read_certificate(octets).err() {
        None => format!(in alloc; "read")?,
        Some(refused) => format!(in alloc; "{refused}")?,
    };
    Ok(text)
}

/// `read`, or the reason of the refusal and the offset of what is refused.
pub fn reason(alloc: Global, octets: &[u8]) -> Result<String, Fault> {
    let mut text = String::new(alloc);
    match read_certificate(octets).err() {
        None => push_word(&mut text, "read")?,
        Some(refused) => {
            push_refused_at(&mut text, &refused.refusal.reason, refused.refusal.offset)?
        }
    }
    Ok(text)
}

/// What `certificate` answers, and the rule of the strict reading that is broken.
pub fn strict_certificate(alloc: Global, octets: &[u8]) -> Result<String, Fault> {
    let mut text = certificate(alloc, octets)?;
    if let Some(StrictError::Broken(rule)) = read_strict_certificate(octets).err() {
        push_word(&mut text, "breaks")?;
        push_word(&mut text, name_of(rule))?;
    }
    Ok(text)
}

/// The name of a rule.
fn name_of(rule: Rule) -> &'static str {
    match rule {
        Rule::SameAlgorithms => "SameAlgorithms",
        Rule::PositiveSerialNumber => "PositiveSerialNumber",
        Rule::ShortSerialNumber => "ShortSerialNumber",
        Rule::NamedIssuer => "NamedIssuer",
        Rule::OrderedAttributes => "OrderedAttributes",
        Rule::UtcTimeTo2049 => "UtcTimeTo2049",
        Rule::WholeSeconds => "WholeSeconds",
        Rule::UniqueIdVersion => "UniqueIdVersion",
        Rule::ExtensionsVersion => "ExtensionsVersion",
        Rule::DistinctExtensions => "DistinctExtensions",
        Rule::NamedSubject => "NamedSubject",
        Rule::DerValues => "DerValues",
    }
}

/// The serial number, and the years from which and until which the certificate is valid.
pub fn fields(alloc: Global, octets: &[u8]) -> Result<String, Fault> {
    match read_certificate(octets) {
        Ok(certificate) => Ok(fields_text(alloc, &certificate)?),
        Err(refused) => Ok(format!(in alloc; "{refused}")?),
    }
}

fn fields_text(alloc: Global, certificate: &Certificate<'_>) -> Result<String, AllocError> {
    let fields = &certificate.tbs_certificate;
    let from = fields.validity.not_before.moment().year;
    let until = fields.validity.not_after.moment().year;
    let mut text = format!(in alloc; "serial")?;
    push_octets(&mut text, fields.serial_number)?;
    write!(text, " from {from} until {until}")?;
    Ok(text)
}

/// The attributes of the issuer and the subject, and the extensions.
pub fn lists(alloc: Global, octets: &[u8]) -> Result<String, Fault> {
    match read_certificate(octets) {
        Ok(certificate) => Ok(lists_text(alloc, &certificate)?),
        Err(refused) => Ok(format!(in alloc; "{refused}")?),
    }
}

fn lists_text(alloc: Global, certificate: &Certificate<'_>) -> Result<String, AllocError> {
    let fields = &certificate.tbs_certificate;
    let mut text = format!(in alloc; "issuer")?;
    push_name(&mut text, &fields.issuer)?;
    push_word(&mut text, "subject")?;
    push_name(&mut text, &fields.subject)?;
    push_word(&mut text, "extensions")?;
    push_extensions(&mut text, &fields.extensions)?;
    Ok(text)
}

/// Adds the relative names in braces, with the attributes of each: the octets of the identifier, the tag number and the
/// octets of the value.
pub fn push_name(text: &mut String, name: &Name<'_>) -> Result<(), AllocError> {
    for relative_name in name.relative_names() {
        push_word(text, "{")?;
        for attribute in relative_name.attributes() {
            push_octets(text, attribute.identifier.as_bytes())?;
            push_word(text, "tag")?;
            push_number(text, attribute.value.tag().0)?;
            push_word(text, "value")?;
            push_octets(text, attribute.value.bytes)?;
        }
        push_word(text, "}")?;
    }
    Ok(())
}

/// Adds the extensions: the octets of the identifier, whether it is critical, and the number of octets of the value.
fn push_extensions(text: &mut String, extensions: &Extensions<'_>) -> Result<(), AllocError> {
    for extension in extensions.iter() {
        push_octets(text, extension.identifier.as_bytes())?;
        if extension.critical {
            push_word(text, "critical")?;
        }
        push_word(text, "length")?;
        push_number(text, extension.value.len())?;
    }
    Ok(())
}

/// The number of relative names of a name with these octets, which weren't checked. No other follows the end.
pub fn relative_names(alloc: Global, octets: &[u8]) -> Result<String, Fault> {
    let name = Name { octets };
    let mut relative_names = name.relative_names();
    let mut count = 0usize;
    for _ in octets {
        if relative_names.next().is_some() {
            count = count.saturating_add(1);
        }
    }
    let further = if relative_names.next().is_some() {
        " and more"
    } else {
        ""
    };
    Ok(format!(in alloc; "{count}{further}")?)
}
