//! Extensions and their values.
use super::{
    AccessDescriptions, DirectoryAttributes, DistributionPoints, Error, IssuingDistributionPoint, Name,
    NameConstraints, OrganizationIdentifier, Policies, PolicyConstraints, PolicyMappings, QcStatements,
    RevocationReason, Timestamps, TlsFeatures,
};
use crate::ffi::{self, Octets};
use crate::numbers::{ExtensionKind, GeneralNameKind};
use crate::{Integer, ObjectIdentifier, Time};
use core::fmt;

list! {
    /// The extensions of a certificate (RFC 5280 4.1.2.9), a CRL or a CRL entry.
    Extensions, ExtensionsIter of Extension<'a> => next_extension
}

impl<'a> Extensions<'a> {
    /// The first extension of a type.
    pub fn find(self, identifier: ObjectIdentifier<'_>) -> Option<Extension<'a>> {
        self.iter().find(|extension| extension.identifier() == identifier)
    }

    /// The value of the first extension of a kind.
    fn first<T>(
        self,
        kind: ExtensionKind,
        read: impl FnOnce(&'a [u8]) -> Result<T, Error>,
    ) -> Result<Option<T>, Error> {
        let found = ffi::find_extension(self.0, kind as u32);
        found.map(|extension| read(extension.value.get())).transpose()
    }

    /// 4.2.1.6. A repeated extension is an error (4.2).
    pub fn subject_alt_name(self) -> Result<Option<GeneralNames<'a>>, Error> {
        let names = GeneralNames(ffi::read_subject_alt_names(self.0)?);
        Ok(Some(names).filter(|names| !names.is_empty()))
    }

    /// The DNS names of the subject.
    pub fn dns_names(self) -> Result<impl Iterator<Item = &'a str>, Error> {
        Ok(GeneralNames(ffi::read_subject_alt_names(self.0)?).dns_names())
    }

    /// Whether a critical one is [`Value::Other`]. If you know no other extensions, reject the certificate, CRL or
    /// entry (RFC 5280 4.2, 5.2, 5.3).
    pub fn has_unknown_critical(self) -> bool {
        ffi::has_unknown_critical(self.as_bytes())
    }
}

parts! {
    /// An extension (RFC 5280 4.2).
    Extension: ExtensionFields;
    /// Its type.
    identifier as ObjectIdentifier<'a>,
    /// Whether whoever doesn't know it must reject the certificate.
    critical => is_critical,
}

impl<'a> Extension<'a> {
    /// The octets of its value: an encoding of the identifier's type.
    pub fn octets(&self) -> &'a [u8] {
        self.0.value.get()
    }
}

/// Values of extensions, by the names of their kinds: the call that finds the first one, what each is, and what reads
/// it; one that has a call of its own; and those that are a NULL.
macro_rules! values {
    (
        $($(#[$doc:meta])* $name:ident $find:ident -> $type:ty = $read:expr;)*
        @one $(#[$one_doc:meta])* $one:ident -> $one_type:ty = $one_read:expr;
        @null $($(#[$null_doc:meta])* $null:ident;)*
    ) => {
        /// The value of the first extension of a kind, if there is one. Offsets of errors count from the start of its
        /// [`octets`](Extension::octets).
        impl<'a> Extensions<'a> {
            $($(#[$doc])* pub fn $find(self) -> Result<Option<$type>, Error> {
                self.first(ExtensionKind::$name, |octets| $read(octets).map(Into::into))
            })*
        }

        impl<'a> Extension<'a> {
            /// Its value, in DER. Offsets of errors count from the start of [`octets`](Extension::octets).
            pub fn value(&self) -> Result<Value<'a>, Error> {
                let octets = self.octets();
                match ExtensionKind::from_number(self.0.kind) {
                    $(ExtensionKind::$name => $read(octets).map(|value| Value::$name(value.into())),)*
                    ExtensionKind::$one => $one_read(octets).map(Value::$one),
                    $(ExtensionKind::$null => ffi::read_null_extension(octets).map(|()| Value::$null),)*
                    ExtensionKind::ExtensionOther => Ok(Value::Other(octets)),
                }
            }
        }

        /// The value of an extension.
        #[derive(Clone, Copy, Debug, PartialEq, Eq, Hash)]
        #[non_exhaustive]
        pub enum Value<'a> {
            $($(#[$doc])* $name($type),)*
            $(#[$one_doc])* $one($one_type),
            $($(#[$null_doc])* $null,)*
            /// Another extension. Its octets aren't read.
            Other(&'a [u8]),
        }
    };
}

values! {
    /// 4.2.1.1
    AuthorityKeyIdentifier authority_key_identifier -> AuthorityKeyIdentifier<'a> = AuthorityKeyIdentifier::from_der;
    /// 4.2.1.2: its octets.
    SubjectKeyIdentifier subject_key_identifier -> &'a [u8] = ffi::read_subject_key_identifier;
    /// 4.2.1.3
    KeyUsage key_usage -> KeyUsage = KeyUsage::from_der;
    /// 4.2.1.4
    CertificatePolicies certificate_policies -> Policies<'a> = Policies::from_der;
    /// 4.2.1.7
    IssuerAltName issuer_alt_name -> GeneralNames<'a> = GeneralNames::from_der;
    /// 4.2.1.9
    BasicConstraints basic_constraints -> BasicConstraints = BasicConstraints::from_der;
    /// 4.2.1.10
    NameConstraints name_constraints -> NameConstraints<'a> = NameConstraints::from_der;
    /// 4.2.1.12
    ExtendedKeyUsage extended_key_usage -> KeyPurposes<'a> = KeyPurposes::from_der;
    /// 4.2.1.13
    CrlDistributionPoints crl_distribution_points -> DistributionPoints<'a> = DistributionPoints::from_der;
    /// 4.2.1.15
    FreshestCrl freshest_crl -> DistributionPoints<'a> = DistributionPoints::from_der;
    /// 4.2.2.1
    AuthorityInfoAccess authority_info_access -> AccessDescriptions<'a> = AccessDescriptions::from_der;
    /// 4.2.2.2
    SubjectInfoAccess subject_info_access -> AccessDescriptions<'a> = AccessDescriptions::from_der;
    /// 4.2.1.5
    PolicyMappings policy_mappings -> PolicyMappings<'a> = PolicyMappings::from_der;
    /// 4.2.1.8
    SubjectDirectoryAttributes subject_directory_attributes -> DirectoryAttributes<'a> = DirectoryAttributes::from_der;
    /// 4.2.1.11
    PolicyConstraints policy_constraints -> PolicyConstraints = PolicyConstraints::from_der;
    /// 4.2.1.14: how many certificates may follow in a path before anyPolicy no longer counts.
    InhibitAnyPolicy inhibit_any_policy -> u32 = ffi::read_inhibit_any_policy;
    /// 5.2.3: the number of a CRL, which isn't negative.
    CrlNumber crl_number -> Integer<'a> = ffi::read_crl_number;
    /// 5.2.4: the number of the CRL that this one changes.
    DeltaCrlIndicator delta_crl_indicator -> Integer<'a> = ffi::read_crl_number;
    /// 5.2.5
    IssuingDistributionPoint issuing_distribution_point -> IssuingDistributionPoint<'a> = IssuingDistributionPoint::from_der;
    /// 5.3.1, of a CRL entry.
    ReasonCode reason_code -> RevocationReason = RevocationReason::from_der;
    /// 5.3.2, of a CRL entry: when the key became invalid.
    InvalidityDate invalidity_date -> Time = ffi::read_invalidity_date;
    /// 5.3.3, of a CRL entry: the issuer of the certificates from it on.
    CertificateIssuer certificate_issuer -> GeneralNames<'a> = GeneralNames::from_der;
    /// RFC 6962 3.3
    SignedCertificateTimestamps signed_certificate_timestamps -> Timestamps<'a> = Timestamps::from_der;
    /// RFC 7633
    TlsFeatures tls_features -> TlsFeatures<'a> = TlsFeatures::from_der;
    /// RFC 3739 3.2.6
    QcStatements qc_statements -> QcStatements<'a> = QcStatements::from_der;
    /// CA/B Forum, EV Guidelines 9.8.2
    OrganizationIdentifier organization_identifier -> OrganizationIdentifier<'a> = OrganizationIdentifier::from_der;
    @one
    /// 4.2.1.6
    SubjectAltName -> GeneralNames<'a> = GeneralNames::from_der;
    @null
    /// RFC 6962 3.1: reject it as a certificate.
    PrecertificatePoison;
    /// RFC 6960 4.2.2.2.1: don't ask for its status.
    OcspNoCheck;
    /// RFC 9608 2: there is no information about revocation.
    NoRevAvail;
}

/// BasicConstraints (RFC 5280 4.2.1.9).
#[derive(Clone, Copy, Debug, PartialEq, Eq, Hash)]
pub struct BasicConstraints {
    /// Whether the subject is a CA.
    pub ca: bool,
    /// The number of CA certificates that may follow in a path.
    pub path_length: Option<u32>,
}

impl BasicConstraints {
    /// Reads the value of an extension.
    ///
    /// ```
    /// use dumarewhi::x509::BasicConstraints;
    ///
    /// let constraints = BasicConstraints::from_der(&[0x30, 0x06, 0x01, 0x01, 0xff, 0x02, 0x01, 0x03])?;
    /// assert_eq!((constraints.ca, constraints.path_length), (true, Some(3)));
    /// # Ok::<(), dumarewhi::x509::Error>(())
    /// ```
    pub fn from_der(octets: &[u8]) -> Result<BasicConstraints, Error> {
        let fields = ffi::read_basic_constraints(octets)?;
        Ok(BasicConstraints {
            ca: fields.ca != 0,
            path_length: (fields.has_path_length != 0).then_some(fields.path_length),
        })
    }
}

/// KeyUsage (RFC 5280 4.2.1.3).
#[derive(Clone, Copy, Debug, PartialEq, Eq, Hash)]
pub struct KeyUsage(u32);

impl KeyUsage {
    /// Reads the value of an extension.
    ///
    /// ```
    /// use dumarewhi::x509::KeyUsage;
    ///
    /// let usage = KeyUsage::from_der(&[0x03, 0x02, 0x01, 0x06])?;
    /// assert!(usage.key_cert_sign() && usage.crl_sign() && !usage.digital_signature());
    /// assert!(usage.names().eq(["keyCertSign", "cRLSign"]));
    /// # Ok::<(), dumarewhi::x509::Error>(())
    /// ```
    pub fn from_der(octets: &[u8]) -> Result<KeyUsage, Error> {
        ffi::read_key_usage(octets).map(KeyUsage)
    }

    /// The bits; bit 0 of RFC 5280 is the lowest.
    pub fn bits(self) -> u32 {
        self.0
    }
}

list! {
    /// ExtendedKeyUsage (RFC 5280 4.2.1.12): the identifiers of at least one purpose.
    KeyPurposes, KeyPurposesIter of ObjectIdentifier<'a> => next_key_purpose, read_extended_key_usage
}

/// AuthorityKeyIdentifier (RFC 5280 4.2.1.1): which key signed the certificate.
#[derive(Clone, Copy, Debug, PartialEq, Eq, Hash)]
pub struct AuthorityKeyIdentifier<'a> {
    /// The key's identifier.
    pub key_identifier: Option<&'a [u8]>,
    /// The issuer of the certificate that has the key.
    pub issuer: Option<GeneralNames<'a>>,
    /// That certificate's serial number.
    pub serial_number: Option<Integer<'a>>,
}

impl<'a> AuthorityKeyIdentifier<'a> {
    /// Reads the value of an extension.
    pub fn from_der(octets: &'a [u8]) -> Result<AuthorityKeyIdentifier<'a>, Error> {
        let fields = ffi::read_authority_key_identifier(octets)?;
        let present = |has: u32, part: Octets<'a>| (has != 0).then_some(part);
        Ok(AuthorityKeyIdentifier {
            key_identifier: present(fields.has_key_identifier, fields.key_identifier).map(Octets::get),
            issuer: present(fields.has_issuer, fields.issuer).map(GeneralNames),
            serial_number: present(fields.has_serial_number, fields.serial_number).map(Integer::from),
        })
    }
}

list! {
    /// SubjectAltName, IssuerAltName and the like (RFC 5280 4.2.1.6): at least one name.
    ///
    /// ```
    /// use dumarewhi::x509::{GeneralName, GeneralNames};
    ///
    /// let names = GeneralNames::from_der(&[0x30, 0x05, 0x82, 0x03, b'a', b'.', b'b'])?;
    /// assert!(names.iter().eq([GeneralName::DnsName("a.b")]));
    /// # Ok::<(), dumarewhi::x509::Error>(())
    /// ```
    GeneralNames, GeneralNamesIter of GeneralName<'a> => next_general_name, read_general_names
}

impl<'a> GeneralNames<'a> {
    /// The DNS names.
    pub fn dns_names(self) -> impl Iterator<Item = &'a str> {
        let mut left = self.0;
        core::iter::from_fn(move || ffi::next_dns_name(&mut left).map(Into::into))
    }
}

/// A GeneralName (RFC 5280 4.2.1.6).
#[derive(Clone, Copy, Debug, PartialEq, Eq, Hash)]
#[non_exhaustive]
pub enum GeneralName<'a> {
    /// A name of another type.
    OtherName {
        /// Its type.
        identifier: ObjectIdentifier<'a>,
        /// The content octets of its value.
        value: &'a [u8],
    },
    /// A mail address.
    Rfc822Name(&'a str),
    /// A DNS name.
    DnsName(&'a str),
    /// Content octets that aren't read.
    X400Address(&'a [u8]),
    /// A name like a subject's.
    DirectoryName(Name<'a>),
    /// Content octets that aren't read.
    EdiPartyName(&'a [u8]),
    /// A URI.
    Uri(&'a str),
    /// An IP address: 4 octets of IPv4, 16 of IPv6. The length isn't checked.
    IpAddress(&'a [u8]),
    /// An identifier.
    RegisteredId(ObjectIdentifier<'a>),
}

impl<'a> From<ffi::GeneralNameFields<'a>> for GeneralName<'a> {
    fn from(fields: ffi::GeneralNameFields<'a>) -> GeneralName<'a> {
        let octets = fields.octets.get();
        match GeneralNameKind::from_number(fields.kind) {
            GeneralNameKind::OtherName => GeneralName::OtherName {
                identifier: fields.identifier.into(),
                value: octets,
            },
            GeneralNameKind::Rfc822Name => GeneralName::Rfc822Name(fields.octets.into()),
            GeneralNameKind::DnsName => GeneralName::DnsName(fields.octets.into()),
            GeneralNameKind::X400Address => GeneralName::X400Address(octets),
            GeneralNameKind::DirectoryName => GeneralName::DirectoryName(fields.octets.into()),
            GeneralNameKind::EdiPartyName => GeneralName::EdiPartyName(octets),
            GeneralNameKind::Uri => GeneralName::Uri(fields.octets.into()),
            GeneralNameKind::IpAddress => GeneralName::IpAddress(octets),
            GeneralNameKind::RegisteredId => GeneralName::RegisteredId(fields.octets.into()),
        }
    }
}

impl GeneralName<'_> {
    /// The address, if it has 4 or 16 octets.
    #[cfg(feature = "std")]
    pub fn ip_addr(&self) -> Option<std::net::IpAddr> {
        match self {
            GeneralName::IpAddress(octets) => <[u8; 4]>::try_from(*octets)
                .map(std::net::IpAddr::from)
                .or_else(|_| <[u8; 16]>::try_from(*octets).map(std::net::IpAddr::from))
                .ok(),
            _ => None,
        }
    }
}

/// Such as `DNS:example.org`. Whoever made the certificate chose the text, so it is escaped.
impl fmt::Display for GeneralName<'_> {
    fn fmt(&self, f: &mut fmt::Formatter<'_>) -> fmt::Result {
        #[cfg(feature = "std")]
        if let Some(address) = self.ip_addr() {
            return write!(f, "IP:{address}");
        }
        match self {
            GeneralName::DnsName(text) => write!(f, "DNS:{}", text.escape_default()),
            GeneralName::Rfc822Name(text) => write!(f, "email:{}", text.escape_default()),
            GeneralName::Uri(text) => write!(f, "URI:{}", text.escape_default()),
            GeneralName::DirectoryName(name) => write!(f, "DirName:{name}"),
            GeneralName::RegisteredId(identifier) => write!(f, "RID:{identifier}"),
            other => write!(f, "{other:?}"),
        }
    }
}
