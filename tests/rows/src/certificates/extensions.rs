//! Extensions, by their identifiers.
use der_extensions::{ExtensionValue, read_extension_value};
use der_values::ObjectIdentifier;
use x509::Extension;
use std::alloc::Global;
use test_tables::fault::Fault;
use test_tables::octets::octets;

/// Which value is read of an extension with an identifier of these octets, and behind a colon a value of those; or the
/// refusal as it is printed.
pub fn extension(alloc: Global, input: &str) -> Result<String, Fault> {
    let (identifier, value) = input.split_once(':').ok_or(Fault::Input)?;
    let identifier = octets(alloc, identifier)?;
    let value = octets(alloc, value)?;
    let extension = Extension {
        identifier: ObjectIdentifier::new(&identifier),
        critical: false,
        value: &value,
    };
    let text = match read_extension_value(&extension) {
        Ok(value) => format!(in alloc; "{}", name_of(&value))?,
        Err(refused) => format!(in alloc; "{refused}")?,
    };
    Ok(text)
}

/// The name of what is read.
fn name_of(value: &ExtensionValue<'_>) -> &'static str {
    match value {
        ExtensionValue::AuthorityKeyIdentifier(_) => "AuthorityKeyIdentifier",
        ExtensionValue::SubjectKeyIdentifier(_) => "SubjectKeyIdentifier",
        ExtensionValue::KeyUsage(_) => "KeyUsage",
        ExtensionValue::CertificatePolicies(_) => "CertificatePolicies",
        ExtensionValue::SubjectAltName(_) => "SubjectAltName",
        ExtensionValue::IssuerAltName(_) => "IssuerAltName",
        ExtensionValue::BasicConstraints(_) => "BasicConstraints",
        ExtensionValue::NameConstraints(_) => "NameConstraints",
        ExtensionValue::ExtendedKeyUsage(_) => "ExtendedKeyUsage",
        ExtensionValue::CrlDistributionPoints(_) => "CrlDistributionPoints",
        ExtensionValue::FreshestCrl(_) => "FreshestCrl",
        ExtensionValue::AuthorityInfoAccess(_) => "AuthorityInfoAccess",
        ExtensionValue::SubjectInfoAccess(_) => "SubjectInfoAccess",
        ExtensionValue::PolicyMappings(_) => "PolicyMappings",
        ExtensionValue::SubjectDirectoryAttributes(_) => "SubjectDirectoryAttributes",
        ExtensionValue::PolicyConstraints(_) => "PolicyConstraints",
        ExtensionValue::InhibitAnyPolicy(_) => "InhibitAnyPolicy",
        ExtensionValue::CrlNumber(_) => "CrlNumber",
        ExtensionValue::DeltaCrlIndicator(_) => "DeltaCrlIndicator",
        ExtensionValue::IssuingDistributionPoint(_) => "IssuingDistributionPoint",
        ExtensionValue::ReasonCode => "ReasonCode",
        ExtensionValue::InvalidityDate(_) => "InvalidityDate",
        ExtensionValue::CertificateIssuer(_) => "CertificateIssuer",
        ExtensionValue::SignedCertificateTimestamps(_) => "SignedCertificateTimestamps",
        ExtensionValue::PrecertificatePoison => "PrecertificatePoison",
        ExtensionValue::TlsFeatures(_) => "TlsFeatures",
        ExtensionValue::OcspNoCheck => "OcspNoCheck",
        ExtensionValue::NoRevAvail => "NoRevAvail",
        ExtensionValue::QcStatements(_) => "QcStatements",
        ExtensionValue::OrganizationIdentifier(_) => "OrganizationIdentifier",
        ExtensionValue::Other => "Other",
    }
}
