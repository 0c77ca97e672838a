//! Further values of extensions.
use super::{Error, GeneralName, GeneralNames, RelativeName, RequestAttribute, RevocationReason};
use crate::ffi::{self, AnyFields};
use crate::{BitString, ObjectIdentifier, Tag};

list! {
    /// CertificatePolicies (RFC 5280 4.2.1.4): at least one policy. Repetition isn't checked.
    Policies, PoliciesIter of Policy<'a> => next_policy, read_certificate_policies
}

parts! {
    /// A policy (RFC 5280 4.2.1.4).
    Policy: PolicyFields;
    /// Its identifier.
    identifier as ObjectIdentifier<'a>,
    /// Its qualifiers.
    qualifiers as PolicyQualifiers<'a>,
}

list! {
    /// The qualifiers of a [`Policy`].
    PolicyQualifiers, PolicyQualifiersIter of PolicyQualifier<'a> => next_policy_qualifier
}

parts! {
    /// A qualifier of a [`Policy`].
    PolicyQualifier: PolicyQualifierFields;
    /// Its type.
    identifier as ObjectIdentifier<'a>,
    /// Its value: the tag, and the content octets, which aren't read.
    value as (Tag, &'a [u8]),
}

impl<'a> From<AnyFields<'a>> for (Tag, &'a [u8]) {
    fn from(fields: AnyFields<'a>) -> (Tag, &'a [u8]) {
        (Tag::of(fields.tag_class, fields.number), fields.content.get())
    }
}

list! {
    /// CRLDistributionPoints (RFC 5280 4.2.1.13) or FreshestCRL (4.2.1.15): at least one point.
    DistributionPoints, DistributionPointsIter of DistributionPoint<'a> => next_distribution_point,
    read_distribution_points
}

parts! {
    /// Where a CRL is (RFC 5280 4.2.1.13).
    DistributionPoint: DistributionPointFields;
    /// Its names, if any.
    full_name as GeneralNames<'a>,
    /// A name relative to the issuer's. It has no attribute if it is absent.
    relative_name as RelativeName<'a>,
    /// A bit for each reason, from keyCompromise (1) to aACompromise (8). `None` for all.
    reasons as Option<BitString<'a>>,
    /// Who signs the CRL, if it isn't the certificate's issuer.
    crl_issuer as GeneralNames<'a>,
}

parts! {
    /// NameConstraints (RFC 5280 4.2.1.10).
    NameConstraints: NameConstraintsFields from read_name_constraints;
    /// Names that certificates may have, if any.
    permitted as Subtrees<'a>,
    /// Names that certificates may not have, if any.
    excluded as Subtrees<'a>,
}

list! {
    /// Names of [`NameConstraints`].
    Subtrees, SubtreesIter of Subtree<'a> => next_subtree
}

parts! {
    /// A name and those below it (RFC 5280 4.2.1.10).
    Subtree: SubtreeFields;
    /// The name. An address is followed by its mask: 8 octets of IPv4, 32 of IPv6.
    base as GeneralName<'a>,
    /// RFC 5280 allows only 0, which isn't checked.
    minimum as u32,
    /// RFC 5280 allows only `None`, which isn't checked.
    maximum as u32 where has_maximum,
}

list! {
    /// AuthorityInfoAccess or SubjectInfoAccess (RFC 5280 4.2.2): at least one description.
    AccessDescriptions, AccessDescriptionsIter of AccessDescription<'a> => next_access_description,
    read_information_access
}

parts! {
    /// Where information is (RFC 5280 4.2.2).
    AccessDescription: AccessDescriptionFields;
    /// The access method.
    method as ObjectIdentifier<'a>,
    /// The location.
    location as GeneralName<'a>,
}

list! {
    /// PolicyMappings (RFC 5280 4.2.1.5): at least one pair.
    PolicyMappings, PolicyMappingsIter of PolicyMapping<'a> => next_policy_mapping, read_policy_mappings
}

parts! {
    /// A policy of the issuer, and the subject's policy that it equals (RFC 5280 4.2.1.5).
    PolicyMapping: PolicyMappingFields;
    /// issuerDomainPolicy
    issuer_policy as ObjectIdentifier<'a>,
    /// subjectDomainPolicy
    subject_policy as ObjectIdentifier<'a>,
}

/// PolicyConstraints (RFC 5280 4.2.1.11).
#[derive(Clone, Copy, Debug, PartialEq, Eq, Hash)]
pub struct PolicyConstraints {
    /// How many certificates may follow in a path before each needs an acceptable policy.
    pub require_explicit_policy: Option<u32>,
    /// How many may follow in a path before policies are no longer mapped.
    pub inhibit_policy_mapping: Option<u32>,
}

impl PolicyConstraints {
    /// Reads the value of an extension.
    pub fn from_der(octets: &[u8]) -> Result<PolicyConstraints, Error> {
        let fields = ffi::read_policy_constraints(octets)?;
        let (explicit, mapping) = (
            fields.has_require_explicit_policy,
            fields.has_inhibit_policy_mapping,
        );
        Ok(PolicyConstraints {
            require_explicit_policy: (explicit != 0).then_some(fields.require_explicit_policy),
            inhibit_policy_mapping: (mapping != 0).then_some(fields.inhibit_policy_mapping),
        })
    }
}

list! {
    /// SubjectDirectoryAttributes (RFC 5280 4.2.1.8): at least one attribute.
    DirectoryAttributes, DirectoryAttributesIter of RequestAttribute<'a> => next_directory_attribute,
    read_directory_attributes
}

parts! {
    /// IssuingDistributionPoint (RFC 5280 5.2.5): which certificates a CRL is about.
    IssuingDistributionPoint: IssuingDistributionPointFields
        from read_issuing_distribution_point;
    /// Where the CRL is found, if it says so.
    full_name as GeneralNames<'a>,
    /// A name relative to the issuer's. It has no attribute if it is absent.
    relative_name as RelativeName<'a>,
    /// A bit for each reason, as in [`DistributionPoint`]. `None` for all.
    reasons as Option<BitString<'a>>,
    /// Whether it lists only certificates of end entities.
    only_contains_user_certs => only_contains_user_certs,
    /// Whether it lists only certificates of CAs.
    only_contains_ca_certs => only_contains_ca_certs,
    /// Whether it lists certificates of other issuers.
    indirect_crl => is_indirect,
    /// Whether it lists only attribute certificates.
    only_contains_attribute_certs => only_contains_attribute_certs,
}

list! {
    /// Signed certificate timestamps (RFC 6962 3.3), at least one: the octets of each (3.2), which aren't checked.
    Timestamps, TimestampsIter of &'a [u8] => next_timestamp, read_signed_certificate_timestamps
}

list! {
    /// The numbers of TLS extensions that a server must support (RFC 7633 4.1), such as 5 (status_request). There may
    /// be none.
    TlsFeatures, TlsFeaturesIter of u32 => next_tls_feature, read_tls_features
}

list! {
    /// Statements of a qualified certificate (RFC 3739 3.2.6), maybe none.
    QcStatements, QcStatementsIter of QcStatement<'a> => next_qc_statement, read_qc_statements
}

parts! {
    /// A statement of a qualified certificate (RFC 3739 3.2.6).
    QcStatement: QcStatementFields;
    /// Its type.
    identifier as ObjectIdentifier<'a>,
    /// Its value: the tag, and the content octets, which aren't read.
    info as (Tag, &'a [u8]) where has_info,
}

parts! {
    /// The register of an organization (CA/B Forum, EV Guidelines 9.8.2).
    OrganizationIdentifier: OrganizationIdentifierFields
        from read_organization_identifier;
    /// The kind of the register, such as VAT: three characters.
    scheme as &'a str,
    /// The register's country, two characters.
    country as &'a str,
    /// The register's state or province.
    state_or_province as &'a str where has_state_or_province,
    /// The organization's number in the register.
    reference as &'a str,
}

impl RevocationReason {
    /// Reads the value of an extension.
    ///
    /// ```
    /// use dumarewhi::x509::RevocationReason;
    ///
    /// assert_eq!(RevocationReason::from_der(&[0x0a, 0x01, 0x04])?, RevocationReason::Superseded);
    /// assert!(RevocationReason::from_der(&[0x0a, 0x01, 0x07]).is_err());
    /// # Ok::<(), dumarewhi::x509::Error>(())
    /// ```
    pub fn from_der(octets: &[u8]) -> Result<RevocationReason, Error> {
        ffi::read_reason(octets).map(RevocationReason::from_number)
    }
}
