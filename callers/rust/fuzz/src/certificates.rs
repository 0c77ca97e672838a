//! Certificates, lists of revoked ones, requests, keys, and the values of extensions.
use crate::ask::{asks, Ask, Sink};
use dumarewhi::x509::*;
use std::hint::black_box;

asks! {
    Certificate<'_>: as_bytes tbs serial_number signature issuer subject public_key issuer_unique_id subject_unique_id
        extensions signature_algorithm signature_value not_before not_after version;
    Algorithm<'_>: identifier parameters;
    PublicKey<'_>: algorithm bits;
    RelativeName<'_>: attributes;
    Attribute<'_>: identifier value tag is_constructed as_str;
    Extension<'_>: identifier octets is_critical value;
    CertificateList<'_>: as_bytes tbs signature issuer revoked_certificates extensions signature_algorithm
        signature_value this_update next_update version;
    RevokedCertificate<'_>: serial_number extensions date;
    CertificationRequest<'_>: as_bytes info subject public_key attributes signature_algorithm signature extensions;
    RequestAttribute<'_>: identifier values;
    PrivateKey<'_>: algorithm parameters private_key attributes public_key version;
    RsaPrivateKey<'_>: modulus public_exponent private_exponent prime1 prime2 exponent1 exponent2 coefficient
        other_primes version;
    EcPrivateKey<'_>: private_key parameters public_key version;
    EncryptedPrivateKey<'_>: algorithm parameters encrypted_data;
    SubjectPublicKeyInfo<'_>: algorithm parameters public_key;
    RsaPublicKey<'_>: modulus public_exponent;
    Policy<'_>: identifier qualifiers;
    PolicyQualifier<'_>: identifier value;
    DistributionPoint<'_>: full_name relative_name reasons crl_issuer;
    NameConstraints<'_>: permitted excluded;
    Subtree<'_>: base minimum maximum;
    AccessDescription<'_>: method location;
    PolicyMapping<'_>: issuer_policy subject_policy;
    IssuingDistributionPoint<'_>: full_name relative_name reasons only_contains_user_certs only_contains_ca_certs
        is_indirect only_contains_attribute_certs;
    QcStatement<'_>: identifier info;
    OrganizationIdentifier<'_>: scheme country state_or_province reference;
}

/// Lists: their octets, and each item.
macro_rules! lists {
    ($($type:ident)*) => {
        $(impl Ask for $type<'_> {
            fn ask(&self, sink: &mut Sink) {
                sink.debug(self);
                self.as_bytes().ask(sink);
                self.iter().for_each(|item| item.ask(sink));
                assert!(self.into_iter().next().is_none() || !self.is_empty());
            }
        })*
    };
}

lists! {
    KeyPurposes GeneralNames RevokedCertificates RequestAttributes Policies PolicyQualifiers DistributionPoints Subtrees
    AccessDescriptions PolicyMappings DirectoryAttributes Timestamps TlsFeatures QcStatements
}

impl Ask for Attributes<'_> {
    fn ask(&self, sink: &mut Sink) {
        self.clone().for_each(|it| it.ask(sink));
    }
}

impl Ask for Name<'_> {
    fn ask(&self, sink: &mut Sink) {
        sink.debug(self);
        sink.display(self);
        assert_eq!(self.iter().count(), self.relative_names().count());
        self.iter().for_each(|it| it.ask(sink));
        let first = self.attributes().next();
        let found = first.and_then(|it| self.find(it.identifier()));
        assert_eq!(found, first);
        assert_eq!(self.is_empty(), self.iter().next().is_none());
    }
}

impl Ask for Extensions<'_> {
    fn ask(&self, sink: &mut Sink) {
        self.as_bytes().ask(sink);
        self.has_unknown_critical().ask(sink);
        self.iter().for_each(|it| it.ask(sink));
        if let Some(first) = self.iter().next() {
            assert_eq!(self.find(first.identifier()), Some(first));
        }
    }
}

impl Ask for GeneralName<'_> {
    fn ask(&self, sink: &mut Sink) {
        sink.debug(self);
        black_box(self.ip_addr());
        match self {
            GeneralName::DirectoryName(name) => name.ask(sink),
            GeneralName::RegisteredId(identifier) | GeneralName::OtherName { identifier, .. } => {
                identifier.ask(sink)
            }
            GeneralName::Rfc822Name(text) | GeneralName::DnsName(text) | GeneralName::Uri(text) => {
                text.ask(sink)
            }
            GeneralName::X400Address(octets) | GeneralName::EdiPartyName(octets) => octets.ask(sink),
            GeneralName::IpAddress(octets) => octets.ask(sink),
            _ => {}
        }
    }
}

impl Ask for KeyUsage {
    fn ask(&self, sink: &mut Sink) {
        sink.debug(self);
        assert_eq!(self.names().count(), self.bits().count_ones() as usize);
        let bits = [
            self.digital_signature(),
            self.content_commitment(),
            self.key_encipherment(),
            self.data_encipherment(),
            self.key_agreement(),
            self.key_cert_sign(),
            self.crl_sign(),
            self.encipher_only(),
            self.decipher_only(),
        ];
        assert_eq!(bits.iter().filter(|bit| **bit).count(), self.names().count());
    }
}

impl Ask for AuthorityKeyIdentifier<'_> {
    fn ask(&self, sink: &mut Sink) {
        sink.debug(self);
        self.key_identifier.ask(sink);
        self.issuer.ask(sink);
        self.serial_number.ask(sink);
    }
}

/// Values whose parts are numbers.
macro_rules! shown {
    ($($type:ty,)*) => {
        $(impl Ask for $type {
            fn ask(&self, sink: &mut Sink) {
                sink.debug(self);
            }
        })*
    };
}

shown! {
    BasicConstraints, PolicyConstraints, RevocationReason,
}

impl Ask for Value<'_> {
    fn ask(&self, sink: &mut Sink) {
        match self {
            Value::AuthorityKeyIdentifier(it) => it.ask(sink),
            Value::SubjectKeyIdentifier(it) => it.ask(sink),
            Value::KeyUsage(it) => it.ask(sink),
            Value::CertificatePolicies(it) => it.ask(sink),
            Value::SubjectAltName(it) | Value::IssuerAltName(it) | Value::CertificateIssuer(it) => {
                it.ask(sink)
            }
            Value::BasicConstraints(it) => it.ask(sink),
            Value::NameConstraints(it) => it.ask(sink),
            Value::ExtendedKeyUsage(it) => it.ask(sink),
            Value::CrlDistributionPoints(it) | Value::FreshestCrl(it) => it.ask(sink),
            Value::AuthorityInfoAccess(it) | Value::SubjectInfoAccess(it) => it.ask(sink),
            Value::PolicyMappings(it) => it.ask(sink),
            Value::SubjectDirectoryAttributes(it) => it.ask(sink),
            Value::PolicyConstraints(it) => it.ask(sink),
            Value::InhibitAnyPolicy(it) => it.ask(sink),
            Value::CrlNumber(it) | Value::DeltaCrlIndicator(it) => it.ask(sink),
            Value::IssuingDistributionPoint(it) => it.ask(sink),
            Value::ReasonCode(it) => it.ask(sink),
            Value::InvalidityDate(it) => it.ask(sink),
            Value::SignedCertificateTimestamps(it) => it.ask(sink),
            Value::TlsFeatures(it) => it.ask(sink),
            Value::QcStatements(it) => it.ask(sink),
            Value::OrganizationIdentifier(it) => it.ask(sink),
            Value::Other(it) => it.ask(sink),
            other => sink.debug(other),
        }
    }
}

pub fn certificate(input: &[u8], sink: &mut Sink) {
    let read = Certificate::from_der(input);
    if let Ok(it) = &read {
        it.fingerprint().as_slice().ask(sink);
    }
    read.ask(sink);
    Certificate::from_strict_der(input)
        .map(|it| it.version())
        .ask(sink);
}

pub fn list(input: &[u8], sink: &mut Sink) {
    let read = CertificateList::from_der(input);
    if let Ok(it) = &read {
        let first = it
            .revoked_certificates()
            .and_then(|entries| entries.iter().next());
        let found = first.and_then(|entry| it.find(entry.serial_number()));
        assert_eq!(found, first);
    }
    read.ask(sink);
}

pub fn request(input: &[u8], sink: &mut Sink) {
    CertificationRequest::from_der(input).ask(sink);
}

pub fn keys(input: &[u8], sink: &mut Sink) {
    PrivateKey::from_der(input).ask(sink);
    RsaPrivateKey::from_der(input).ask(sink);
    EcPrivateKey::from_der(input).ask(sink);
    EncryptedPrivateKey::from_der(input).ask(sink);
    SubjectPublicKeyInfo::from_der(input).ask(sink);
    RsaPublicKey::from_der(input).ask(sink);
}

pub fn values(input: &[u8], sink: &mut Sink) {
    AuthorityKeyIdentifier::from_der(input).ask(sink);
    KeyUsage::from_der(input).ask(sink);
    Policies::from_der(input).ask(sink);
    GeneralNames::from_der(input).ask(sink);
    BasicConstraints::from_der(input).ask(sink);
    NameConstraints::from_der(input).ask(sink);
    KeyPurposes::from_der(input).ask(sink);
    DistributionPoints::from_der(input).ask(sink);
    AccessDescriptions::from_der(input).ask(sink);
    PolicyMappings::from_der(input).ask(sink);
    DirectoryAttributes::from_der(input).ask(sink);
    PolicyConstraints::from_der(input).ask(sink);
    IssuingDistributionPoint::from_der(input).ask(sink);
    RevocationReason::from_der(input).ask(sink);
    Timestamps::from_der(input).ask(sink);
    TlsFeatures::from_der(input).ask(sink);
    QcStatements::from_der(input).ask(sink);
    OrganizationIdentifier::from_der(input).ask(sink);
}
