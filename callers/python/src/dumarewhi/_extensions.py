"""Extensions and their values (RFC 5280 4.2, 5.3)."""
from __future__ import annotations

import datetime
from dataclasses import dataclass
from typing import TYPE_CHECKING, Any, Callable, Dict, Generic, NamedTuple, Optional, Tuple, TypeVar, Union

from . import _certificate_calls as _calls
from . import _header, _parts
from ._certificate_calls import NumberFields, Octets, Within, steps_of
from ._header import (
    ExtensionFields,
    ExtensionKind,
    GeneralNameKind,
    KeyUsage,
    OctetsFields,
    Reason,
    RevocationReason,
    TimeFields,
)
from ._library import address_of, error_at
from ._names import Attribute, GeneralName, attributes_of, general_name, general_names
from ._parts import AnyElement
from ._values import BitString, ObjectIdentifier


__all__ = [
    "AccessDescription", "AuthorityKeyIdentifier", "BasicConstraints", "DirectoryAttribute", "DistributionPoint",
    "Extension", "ExtensionType", "IssuingDistributionPoint", "NameConstraints", "OrganizationIdentifier", "Policy",
    "PolicyConstraints", "PolicyMapping", "PolicyQualifier", "QcStatement", "Subtree", "AUTHORITY_KEY_IDENTIFIER",
    "SUBJECT_KEY_IDENTIFIER", "KEY_USAGE", "CERTIFICATE_POLICIES", "SUBJECT_ALT_NAME", "ISSUER_ALT_NAME",
    "BASIC_CONSTRAINTS", "NAME_CONSTRAINTS", "EXTENDED_KEY_USAGE", "CRL_DISTRIBUTION_POINTS", "FRESHEST_CRL",
    "AUTHORITY_INFO_ACCESS", "SUBJECT_INFO_ACCESS", "POLICY_MAPPINGS", "SUBJECT_DIRECTORY_ATTRIBUTES",
    "POLICY_CONSTRAINTS", "INHIBIT_ANY_POLICY", "CRL_NUMBER", "DELTA_CRL_INDICATOR", "ISSUING_DISTRIBUTION_POINT",
    "REASON_CODE", "INVALIDITY_DATE", "CERTIFICATE_ISSUER", "SIGNED_CERTIFICATE_TIMESTAMPS", "TLS_FEATURES",
    "QC_STATEMENTS", "ORGANIZATION_IDENTIFIER", "NO_REV_AVAIL", "OCSP_NO_CHECK", "PRECERTIFICATE_POISON",
]


@dataclass(frozen=True)
class BasicConstraints:
    """BasicConstraints (4.2.1.9): whether the subject is a CA."""

    ca: bool
    path_length: Optional[int]
    """The number of CA certificates that may follow in a path."""


@dataclass(frozen=True)
class AuthorityKeyIdentifier:
    """AuthorityKeyIdentifier (4.2.1.1): which key signed the certificate."""

    key_identifier: Optional[bytes]
    issuer: Optional[Tuple[GeneralName, ...]]
    serial_number: Optional[int]


@dataclass(frozen=True)
class PolicyQualifier:
    """A qualifier of a policy (4.2.1.4)."""

    identifier: ObjectIdentifier
    """Its type."""
    value: AnyElement


@dataclass(frozen=True)
class Policy:
    """A policy that a certificate was issued under (4.2.1.4)."""

    identifier: ObjectIdentifier
    qualifiers: Tuple[PolicyQualifier, ...]


@dataclass(frozen=True)
class DistributionPoint:
    """Where a CRL is (4.2.1.13)."""

    full_name: Tuple[GeneralName, ...]
    """Its names, maybe none."""
    relative_name: Tuple[Attribute, ...]
    """A name relative to the issuer's, maybe empty."""
    reasons: Optional[BitString]
    """A bit for each reason, from keyCompromise (1) to aACompromise (8). ``None`` for all."""
    crl_issuer: Tuple[GeneralName, ...]
    """Who signs the CRL, if it isn't the certificate's issuer."""


@dataclass(frozen=True)
class Subtree:
    """A name and those below it (4.2.1.10)."""

    base: GeneralName
    """The name. An address is followed by its mask: 8 octets of IPv4, 32 of IPv6."""
    minimum: int
    """RFC 5280 allows only 0, which isn't checked."""
    maximum: Optional[int]
    """RFC 5280 allows only ``None``, which isn't checked."""


@dataclass(frozen=True)
class NameConstraints:
    """NameConstraints (4.2.1.10)."""

    permitted: Tuple[Subtree, ...]
    """Names that certificates may have, maybe none."""
    excluded: Tuple[Subtree, ...]
    """Names that certificates may not have, maybe none."""


@dataclass(frozen=True)
class AccessDescription:
    """Where information is (4.2.2)."""

    method: ObjectIdentifier
    """The access method."""
    location: GeneralName


@dataclass(frozen=True)
class PolicyMapping:
    """A policy of the issuer, and the subject's policy that it equals (4.2.1.5)."""

    issuer_policy: ObjectIdentifier
    subject_policy: ObjectIdentifier


@dataclass(frozen=True)
class PolicyConstraints:
    """PolicyConstraints (4.2.1.11)."""

    require_explicit_policy: Optional[int]
    """How many certificates may follow in a path before each needs an acceptable policy."""
    inhibit_policy_mapping: Optional[int]
    """How many may follow in a path before policies are no longer mapped."""


@dataclass(frozen=True)
class DirectoryAttribute:
    """An attribute of SubjectDirectoryAttributes (4.2.1.8)."""

    identifier: ObjectIdentifier
    values: bytes
    """The encodings of its values."""


@dataclass(frozen=True)
class IssuingDistributionPoint:
    """IssuingDistributionPoint (5.2.5): which certificates a CRL is about."""

    full_name: Tuple[GeneralName, ...]
    """Where the CRL is found, if it says so."""
    relative_name: Tuple[Attribute, ...]
    """A name relative to the issuer's, maybe empty."""
    reasons: Optional[BitString]
    """A bit for each reason, keyCompromise (1) to aACompromise (8). ``None`` for all."""
    only_contains_user_certs: bool
    """Whether it lists only certificates of end entities."""
    only_contains_ca_certs: bool
    """Whether it lists only certificates of CAs."""
    indirect_crl: bool
    """Whether it lists certificates of other issuers."""
    only_contains_attribute_certs: bool
    """Whether it lists only attribute certificates."""


@dataclass(frozen=True)
class QcStatement:
    """A statement of a qualified certificate (RFC 3739 3.2.6)."""

    identifier: ObjectIdentifier
    info: Optional[AnyElement]
    """Its value."""


@dataclass(frozen=True)
class OrganizationIdentifier:
    """The register of an organization (CA/B Forum, EV Guidelines 9.8.2)."""

    scheme: str
    """The kind of the register, such as VAT: three characters."""
    country: str
    """The register's country, two characters."""
    state_or_province: Optional[str]
    reference: str
    """The organization's number in the register."""


T = TypeVar("T")


@dataclass(frozen=True)
class ExtensionType(Generic[T]):
    """A type of extensions, such as ``SUBJECT_ALT_NAME``, whose values are of type ``T``."""

    kind: ExtensionKind
    read: Callable[[bytes], T]
    """Reads a value in DER, and raises a :class:`CertificateError` at an offset from its start."""


class Extension(NamedTuple):
    """An extension (4.2)."""

    identifier: ObjectIdentifier
    critical: bool
    octets: bytes
    """The octets of its value: an encoding of the identifier's type."""
    kind: int
    """Its type, as :attr:`ExtensionType.kind` has it, or 0 if :attr:`value` doesn't read it."""

    @property
    def value(self) -> object:
        """Its value, in DER; :meth:`Extended.get` says its type. An extension that isn't read has its :attr:`octets`.

        Raises:
            CertificateError: The octets aren't such a value. Offsets count from their start.
            DerError: The month of an InvalidityDate doesn't have its day, or its year is 0.
        """
        found = TYPES.get(self.kind)
        return self.octets if found is None else found.read(self.octets)


class Extended:
    """What has extensions."""

    if TYPE_CHECKING:

        @property
        def extensions(self) -> Tuple[Extension, ...]: ...

    def extension(self, identifier: Union[ObjectIdentifier, str]) -> Optional[Extension]:
        """The first extension of a type, such as ``"2.5.29.17"``, subjectAltName."""
        wanted = identifier if isinstance(identifier, ObjectIdentifier) else ObjectIdentifier(identifier)
        return next((it for it in self.extensions if it.identifier == wanted), None)

    def get(self, type: ExtensionType[T]) -> Optional[T]:
        """The value of the first extension of a type, such as ``POLICY_CONSTRAINTS``, or ``None``. Errors as for
        :attr:`Extension.value`."""
        return next((type.read(it.octets) for it in self.extensions if it.kind == type.kind), None)

    @property
    def has_unknown_critical(self) -> bool:
        """Whether there is a critical extension that :attr:`Extension.value` doesn't read. If you know no others,
        reject the certificate, the CRL or the entry (4.2, 5.2, 5.3)."""
        return any(it.critical and it.kind == ExtensionKind.EXTENSION_OTHER for it in self.extensions)

    @property
    def subject_alt_name(self) -> Optional[Tuple[GeneralName, ...]]:
        """4.2.1.6

        Raises:
            DerError: The extension is repeated (4.2), or its value is wrong.
        """
        found = [it.octets for it in self.extensions if it.kind == ExtensionKind.SUBJECT_ALT_NAME]
        if len(found) > 1:
            raise error_at(Reason.EXTENSION_REPEATED, 0)
        return read_general_names(found[0]) if found else None

    @property
    def dns_names(self) -> Tuple[str, ...]:
        """The DNS names of the subject's alternative names."""
        names = self.subject_alt_name or ()
        return tuple(it.value for it in names if it.kind == GeneralNameKind.DNS_NAME and isinstance(it.value, str))

    @property
    def basic_constraints(self) -> Optional[BasicConstraints]:
        """4.2.1.9"""
        return self.get(BASIC_CONSTRAINTS)

    @property
    def key_usage(self) -> Optional[KeyUsage]:
        """4.2.1.3"""
        return self.get(KEY_USAGE)

    @property
    def extended_key_usage(self) -> Optional[Tuple[ObjectIdentifier, ...]]:
        """4.2.1.12: the purposes."""
        return self.get(EXTENDED_KEY_USAGE)

    @property
    def authority_key_identifier(self) -> Optional[AuthorityKeyIdentifier]:
        """4.2.1.1"""
        return self.get(AUTHORITY_KEY_IDENTIFIER)

    @property
    def subject_key_identifier(self) -> Optional[bytes]:
        """4.2.1.2"""
        return self.get(SUBJECT_KEY_IDENTIFIER)


def read_basic_constraints(octets: bytes) -> BasicConstraints:
    found, _ = _parts.read(_header.read_basic_constraints, _header.BasicConstraintsFields, octets)
    return BasicConstraints(found.ca != 0, found.path_length if found.has_path_length else None)


def read_key_usage(octets: bytes) -> KeyUsage:
    return KeyUsage(_parts.read_number(_header.read_key_usage, octets))


def read_general_names(octets: bytes) -> Tuple[GeneralName, ...]:
    return general_names(*_parts.read(_header.read_general_names, OctetsFields, octets))


def read_purposes(octets: bytes) -> Tuple[ObjectIdentifier, ...]:
    purposes = _parts.read_part(_header.read_extended_key_usage, octets)
    found = _calls.items(_header.next_key_purpose, OctetsFields, purposes)
    return tuple(ObjectIdentifier.from_content(part(purpose)) for purpose, part in found)


def read_subject_key_identifier(octets: bytes) -> bytes:
    return _parts.read_part(_header.read_subject_key_identifier, octets)


def read_authority_key_identifier(octets: bytes) -> AuthorityKeyIdentifier:
    found, part = _parts.read(_header.read_authority_key_identifier, _header.AuthorityKeyIdentifierFields, octets)
    return AuthorityKeyIdentifier(
        part(found.key_identifier) if found.has_key_identifier else None,
        general_names(found.issuer, part) if found.has_issuer else None,
        _parts.number(part(found.serial_number)) if found.has_serial_number else None,
    )


def read_policies(octets: bytes) -> Tuple[Policy, ...]:
    policies = _parts.read_part(_header.read_certificate_policies, octets)
    return tuple(
        Policy(ObjectIdentifier.from_content(part(item.identifier)), _qualifiers(part(item.qualifiers)))
        for item, part in _calls.items(_header.next_policy, _header.PolicyFields, policies)
    )


def _qualifiers(octets: bytes) -> Tuple[PolicyQualifier, ...]:
    return tuple(
        PolicyQualifier(ObjectIdentifier.from_content(part(item.identifier)), _parts.any_element(item.value, part))
        for item, part in _calls.items(_header.next_policy_qualifier, _header.PolicyQualifierFields, octets)
    )


def read_distribution_points(octets: bytes) -> Tuple[DistributionPoint, ...]:
    points = _parts.read_part(_header.read_distribution_points, octets)
    return tuple(
        DistributionPoint(
            general_names(item.full_name, part),
            attributes_of(item.relative_name, points),
            _parts.optional_bits(item.reasons, part),
            general_names(item.crl_issuer, part),
        )
        for item, part in _calls.items(_header.next_distribution_point, _header.DistributionPointFields, points)
    )


def read_name_constraints(octets: bytes) -> NameConstraints:
    found, part = _parts.read(_header.read_name_constraints, _header.NameConstraintsFields, octets)
    return NameConstraints(_subtrees(part(found.permitted)), _subtrees(part(found.excluded)))


def _subtrees(octets: bytes) -> Tuple[Subtree, ...]:
    found = _calls.items(_header.next_subtree, _header.SubtreeFields, octets)
    return tuple(_subtree(item, part) for item, part in found)


def _subtree(found: _header.SubtreeFields, part: Within) -> Subtree:
    return Subtree(general_name(found.base, part), found.minimum, found.maximum if found.has_maximum else None)


def read_information_access(octets: bytes) -> Tuple[AccessDescription, ...]:
    descriptions = _parts.read_part(_header.read_information_access, octets)
    return tuple(
        AccessDescription(ObjectIdentifier.from_content(part(item.method)), general_name(item.location, part))
        for item, part in _calls.items(_header.next_access_description, _header.AccessDescriptionFields, descriptions)
    )


def read_policy_mappings(octets: bytes) -> Tuple[PolicyMapping, ...]:
    mappings = _parts.read_part(_header.read_policy_mappings, octets)
    return tuple(
        PolicyMapping(
            ObjectIdentifier.from_content(part(item.issuer_policy)),
            ObjectIdentifier.from_content(part(item.subject_policy)),
        )
        for item, part in _calls.items(_header.next_policy_mapping, _header.PolicyMappingFields, mappings)
    )


def read_policy_constraints(octets: bytes) -> PolicyConstraints:
    found, _ = _parts.read(_header.read_policy_constraints, _header.PolicyConstraintsFields, octets)
    return PolicyConstraints(
        found.require_explicit_policy if found.has_require_explicit_policy else None,
        found.inhibit_policy_mapping if found.has_inhibit_policy_mapping else None,
    )


def read_inhibit_any_policy(octets: bytes) -> int:
    return _parts.read_number(_header.read_inhibit_any_policy, octets)


def read_directory_attributes(octets: bytes) -> Tuple[DirectoryAttribute, ...]:
    attributes = _parts.read_part(_header.read_directory_attributes, octets)
    return tuple(
        DirectoryAttribute(ObjectIdentifier.from_content(part(item.identifier)), part(item.values))
        for item, part in _calls.items(_header.next_directory_attribute, _header.RequestAttributeFields, attributes)
    )


def read_crl_number(octets: bytes) -> int:
    return _parts.number(_parts.read_part(_header.read_crl_number, octets))


def read_issuing_distribution_point(octets: bytes) -> IssuingDistributionPoint:
    found, part = _parts.read(_header.read_issuing_distribution_point, _header.IssuingDistributionPointFields, octets)
    return IssuingDistributionPoint(
        general_names(found.full_name, part),
        attributes_of(found.relative_name, octets),
        _parts.optional_bits(found.reasons, part),
        found.only_contains_user_certs != 0,
        found.only_contains_ca_certs != 0,
        found.indirect_crl != 0,
        found.only_contains_attribute_certs != 0,
    )


def read_invalidity_date(octets: bytes) -> datetime.datetime:
    found, _ = _parts.read(_header.read_invalidity_date, TimeFields, octets)
    return _parts.datetime_of(_parts.moment_of(found))


def read_timestamps(octets: bytes) -> Tuple[bytes, ...]:
    timestamps = _parts.read_part(_header.read_signed_certificate_timestamps, octets)
    return tuple(part(item) for item, part in _calls.items(_header.next_timestamp, OctetsFields, timestamps))


def read_tls_features(octets: bytes) -> Tuple[int, ...]:
    features = _parts.read_part(_header.read_tls_features, octets)
    return tuple(item.value for item, _ in _calls.items(_header.next_tls_feature, NumberFields, features))


def read_qc_statements(octets: bytes) -> Tuple[QcStatement, ...]:
    statements = _parts.read_part(_header.read_qc_statements, octets)
    return tuple(
        QcStatement(
            ObjectIdentifier.from_content(part(item.identifier)),
            _parts.any_element(item.info, part) if item.has_info else None,
        )
        for item, part in _calls.items(_header.next_qc_statement, _header.QcStatementFields, statements)
    )


def read_organization_identifier(octets: bytes) -> OrganizationIdentifier:
    found, part = _parts.read(_header.read_organization_identifier, _header.OrganizationIdentifierFields, octets)
    return OrganizationIdentifier(
        part(found.scheme).decode(),
        part(found.country).decode(),
        part(found.state_or_province).decode() if found.has_state_or_province else None,
        part(found.reference).decode(),
    )


def read_null(octets: bytes) -> None:
    _parts.read_null(_header.read_null_extension, octets)


def read_reason(octets: bytes) -> RevocationReason:
    return RevocationReason(_parts.read_number(_header.read_reason, octets))


AUTHORITY_KEY_IDENTIFIER = ExtensionType(ExtensionKind.AUTHORITY_KEY_IDENTIFIER, read_authority_key_identifier)
SUBJECT_KEY_IDENTIFIER = ExtensionType(ExtensionKind.SUBJECT_KEY_IDENTIFIER, read_subject_key_identifier)
KEY_USAGE = ExtensionType(ExtensionKind.KEY_USAGE, read_key_usage)
CERTIFICATE_POLICIES = ExtensionType(ExtensionKind.CERTIFICATE_POLICIES, read_policies)
SUBJECT_ALT_NAME = ExtensionType(ExtensionKind.SUBJECT_ALT_NAME, read_general_names)
ISSUER_ALT_NAME = ExtensionType(ExtensionKind.ISSUER_ALT_NAME, read_general_names)
BASIC_CONSTRAINTS = ExtensionType(ExtensionKind.BASIC_CONSTRAINTS, read_basic_constraints)
NAME_CONSTRAINTS = ExtensionType(ExtensionKind.NAME_CONSTRAINTS, read_name_constraints)
EXTENDED_KEY_USAGE = ExtensionType(ExtensionKind.EXTENDED_KEY_USAGE, read_purposes)
CRL_DISTRIBUTION_POINTS = ExtensionType(ExtensionKind.CRL_DISTRIBUTION_POINTS, read_distribution_points)
FRESHEST_CRL = ExtensionType(ExtensionKind.FRESHEST_CRL, read_distribution_points)
AUTHORITY_INFO_ACCESS = ExtensionType(ExtensionKind.AUTHORITY_INFO_ACCESS, read_information_access)
SUBJECT_INFO_ACCESS = ExtensionType(ExtensionKind.SUBJECT_INFO_ACCESS, read_information_access)
POLICY_MAPPINGS = ExtensionType(ExtensionKind.POLICY_MAPPINGS, read_policy_mappings)
SUBJECT_DIRECTORY_ATTRIBUTES = ExtensionType(ExtensionKind.SUBJECT_DIRECTORY_ATTRIBUTES, read_directory_attributes)
POLICY_CONSTRAINTS = ExtensionType(ExtensionKind.POLICY_CONSTRAINTS, read_policy_constraints)
INHIBIT_ANY_POLICY = ExtensionType(ExtensionKind.INHIBIT_ANY_POLICY, read_inhibit_any_policy)
CRL_NUMBER = ExtensionType(ExtensionKind.CRL_NUMBER, read_crl_number)
DELTA_CRL_INDICATOR = ExtensionType(ExtensionKind.DELTA_CRL_INDICATOR, read_crl_number)
ISSUING_DISTRIBUTION_POINT = ExtensionType(ExtensionKind.ISSUING_DISTRIBUTION_POINT, read_issuing_distribution_point)
REASON_CODE = ExtensionType(ExtensionKind.REASON_CODE, read_reason)
INVALIDITY_DATE = ExtensionType(ExtensionKind.INVALIDITY_DATE, read_invalidity_date)
CERTIFICATE_ISSUER = ExtensionType(ExtensionKind.CERTIFICATE_ISSUER, read_general_names)
SIGNED_CERTIFICATE_TIMESTAMPS = ExtensionType(ExtensionKind.SIGNED_CERTIFICATE_TIMESTAMPS, read_timestamps)
TLS_FEATURES = ExtensionType(ExtensionKind.TLS_FEATURES, read_tls_features)
QC_STATEMENTS = ExtensionType(ExtensionKind.QC_STATEMENTS, read_qc_statements)
ORGANIZATION_IDENTIFIER = ExtensionType(ExtensionKind.ORGANIZATION_IDENTIFIER, read_organization_identifier)
NO_REV_AVAIL = ExtensionType(ExtensionKind.NO_REV_AVAIL, read_null)
OCSP_NO_CHECK = ExtensionType(ExtensionKind.OCSP_NO_CHECK, read_null)
PRECERTIFICATE_POISON = ExtensionType(ExtensionKind.PRECERTIFICATE_POISON, read_null)

TYPES: Dict[int, ExtensionType[Any]] = {it.kind: it for it in list(vars().values()) if isinstance(it, ExtensionType)}


def extensions_of(extensions: Octets, octets: bytes) -> Tuple[Extension, ...]:
    """The extensions of a list, which is a part of the octets."""
    begin, new, found = address_of(octets), tuple.__new__, []
    steps = steps_of(_header.next_extension, ExtensionFields, extensions)
    for identifier, size, value, length, critical, kind in steps:
        identifier, value = identifier - begin, value - begin
        fields = (
            ObjectIdentifier.from_content(octets[identifier : identifier + size]),
            critical != 0,
            octets[value : value + length],
            kind,
        )
        found.append(new(Extension, fields))
    return tuple(found)
