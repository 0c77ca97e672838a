"""Certificates and CRLs (RFC 5280), requests (RFC 2986) and keys (RFC 5958, RFC 5915, RFC 8017).

    certificate = Certificate.from_der(octets)
    print(certificate.subject, certificate.not_after)
    for extension in certificate.extensions:
        print(extension.identifier, extension.value)

Numbers are ``int``, octets ``bytes``, texts ``str``, times ``datetime`` in UTC. Signatures and paths aren't verified.
"""
from __future__ import annotations

import datetime
from dataclasses import dataclass
from typing import TYPE_CHECKING, Optional, Tuple, Type

from . import _certificate_calls as _calls
from . import _extensions, _header, _parts
from ._extensions import *
from ._extensions import Extended, extensions_of
from ._header import Curve, Field, GeneralNameKind, KeyType, KeyUsage, RevocationReason
from ._keys import (
    EcPrivateKey,
    EncryptedPrivateKey,
    PrivateKey,
    RsaPrivateKey,
    RsaPublicKey,
    SubjectPublicKeyInfo,
)
from ._names import Attribute, GeneralName, Name
from ._parts import Algorithm, AnyElement, CertificateError, Moment, PublicKey
from ._rules import BrokenRule, broken
from ._values import BitString, ObjectIdentifier

if TYPE_CHECKING:
    from _typeshed import ReadableBuffer

__all__ = [
    "Algorithm", "AnyElement", "Attribute", "BrokenRule", "Certificate", "CertificateError", "CertificateList",
    "CertificationRequest", "Curve", "EcPrivateKey", "EncryptedPrivateKey", "Field", "GeneralName", "GeneralNameKind",
    "KeyType", "KeyUsage", "Name", "PrivateKey", "PublicKey", "RequestAttribute", "RevocationReason", "RevokedCertificate",
    "RsaPrivateKey", "RsaPublicKey", "SubjectPublicKeyInfo",
]
__all__ += _extensions.__all__

_EPOCH = datetime.datetime(1970, 1, 1, tzinfo=datetime.timezone.utc)


@dataclass(frozen=True)
class Certificate(Extended):
    """A certificate (4.1)."""

    octets: bytes
    """All octets."""
    tbs: bytes
    """The encoding of tbsCertificate: the octets that are signed."""
    version: int
    """1, 2 or 3."""
    serial_number: int
    signature: Algorithm
    """The algorithm of the signature, from the signed part."""
    issuer: Name
    subject: Name
    public_key: PublicKey
    issuer_unique_id: Optional[BitString]
    subject_unique_id: Optional[BitString]
    extensions: Tuple[Extension, ...]
    signature_algorithm: Algorithm
    signature_value: BitString
    """The signature. It isn't verified."""
    _validity: Tuple[Moment, Moment]

    @classmethod
    def from_der(cls: Type[Certificate], data: ReadableBuffer, *, strict: bool = False) -> Certificate:
        """Reads a certificate in DER, by the ASN.1 of RFC 5280, without trailing data. The content of values of any
        type (parameters, attributes) isn't checked.

        Args:
            data: Any object with octets. They are copied.
            strict: Also check rules of RFC 5280's text: those of :class:`Reason` with numbers 128 to 139.

        Raises:
            CertificateError: The octets aren't a certificate, or break a rule.
        """
        octets = bytes(data)
        call = _header.read_strict_certificate if strict else _header.read_certificate
        found, part = _parts.read(call, _header.CertificateFields, octets)
        return cls(
            octets=octets,
            tbs=part(found.tbs),
            version=found.version,
            serial_number=_parts.number(part(found.serial_number)),
            signature=_parts.algorithm(found.signature, part),
            issuer=Name(part(found.issuer)),
            subject=Name(part(found.subject)),
            public_key=PublicKey(_parts.algorithm(found.key_algorithm, part), _parts.bits(found.key, part)),
            issuer_unique_id=_parts.optional_bits(found.issuer_unique_id, part),
            subject_unique_id=_parts.optional_bits(found.subject_unique_id, part),
            extensions=extensions_of(found.extensions, octets),
            signature_algorithm=_parts.algorithm(found.signature_algorithm, part),
            signature_value=_parts.bits(found.signature_value, part),
            _validity=(_parts.moment(found.not_before), _parts.moment(found.not_after)),
        )

    @property
    def not_before(self) -> datetime.datetime:
        """Start of validity.

        Raises:
            DerError: Its month doesn't have its day, or its year is 0. The library accepts both.
        """
        return _parts.datetime_of(self._validity[0])

    @property
    def not_after(self) -> datetime.datetime:
        """End of validity, inclusive. Errors as for :attr:`not_before`."""
        return _parts.datetime_of(self._validity[1])

    def is_valid_at(self, time: datetime.datetime) -> bool:
        """Whether it is valid at the second of a time from 1970 on, which has a zone. Both ends are included.

        Raises:
            ValueError: The time is before 1970.
        """
        seconds = (time - _EPOCH) // datetime.timedelta(seconds=1)
        if seconds < 0:
            raise ValueError("a time before 1970")
        return _parts.is_valid_at(self.octets, seconds)

    def is_valid_now(self) -> bool:
        """Whether it is valid by the system's clock."""
        return self.is_valid_at(datetime.datetime.now(datetime.timezone.utc))

    @property
    def fingerprint(self) -> bytes:
        """The SHA-256 digest (FIPS 180-4) of all octets."""
        return _calls.sha256(self.octets)

    def broken_rules(self) -> Tuple[BrokenRule, ...]:
        """All rules of RFC 5280's text, and of RFCs beside it, that the certificate breaks: first those with MUST, then
        those with SHOULD. ``strict`` of :meth:`from_der` knows fewer rules."""
        return broken(_header.broken_rules, self.octets)

    def __repr__(self) -> str:
        return f"<Certificate of {self.subject}, number {self.serial_number:x}>"


@dataclass(frozen=True)
class RevokedCertificate(Extended):
    """A revoked certificate (5.1.2.6)."""

    serial_number: int
    extensions: Tuple[Extension, ...]
    """The extensions of the entry (5.3), such as its reason."""
    _date: Moment

    @property
    def date(self) -> datetime.datetime:
        """When it was revoked. Errors as for :attr:`Certificate.not_before`."""
        return _parts.datetime_of(self._date)

    @property
    def reason(self) -> Optional[RevocationReason]:
        """Why it was revoked (5.3.1), or ``None`` if the entry doesn't say so.

        Raises:
            CertificateError: The value of the extension isn't a reason. Offsets count from its start.
        """
        return self.get(REASON_CODE)


@dataclass(frozen=True)
class CertificateList(Extended):
    """A CRL (5.1)."""

    octets: bytes
    """All octets."""
    tbs: bytes
    """The encoding of tbsCertList: the octets that are signed."""
    version: int
    """1 or 2."""
    signature: Algorithm
    """The algorithm of the signature, from the signed part."""
    issuer: Name
    revoked_certificates: Optional[Tuple[RevokedCertificate, ...]]
    """``None`` if the field is absent: then there are none (5.1.2.6)."""
    extensions: Tuple[Extension, ...]
    signature_algorithm: Algorithm
    signature_value: BitString
    """The signature. It isn't verified."""
    _this_update: Moment
    _next_update: Optional[Moment]

    @classmethod
    def from_der(cls: Type[CertificateList], data: ReadableBuffer) -> CertificateList:
        """Reads a CRL in DER, by the ASN.1 of RFC 5280, without trailing data.

        Raises:
            CertificateError: The octets aren't a CRL.
        """
        octets = bytes(data)
        found, part = _parts.read(_header.read_certificate_list, _header.CertificateListFields, octets)
        return cls(
            octets=octets,
            tbs=part(found.tbs),
            version=found.version,
            signature=_parts.algorithm(found.signature, part),
            issuer=Name(part(found.issuer)),
            revoked_certificates=_revoked(part(found.revoked)) if found.has_revoked else None,
            extensions=extensions_of(found.extensions, octets),
            signature_algorithm=_parts.algorithm(found.signature_algorithm, part),
            signature_value=_parts.bits(found.signature_value, part),
            _this_update=_parts.moment(found.this_update),
            _next_update=_parts.moment(found.next_update) if found.next_update.number else None,
        )

    @property
    def this_update(self) -> datetime.datetime:
        """When it was issued. Errors as for :attr:`Certificate.not_before`."""
        return _parts.datetime_of(self._this_update)

    @property
    def next_update(self) -> Optional[datetime.datetime]:
        """When the next one will be issued at the latest. Errors as for :attr:`Certificate.not_before`."""
        return None if self._next_update is None else _parts.datetime_of(self._next_update)

    def find(self, serial_number: int) -> Optional[RevokedCertificate]:
        """The entry of the certificate with this serial number, if it is revoked."""
        return next((it for it in self.revoked_certificates or () if it.serial_number == serial_number), None)

    def broken_rules(self) -> Tuple[BrokenRule, ...]:
        """All rules of RFC 5280's text that the CRL breaks: first those with MUST, then those with SHOULD."""
        return broken(_header.broken_crl_rules, self.octets)

    def __repr__(self) -> str:
        return f"<CertificateList of {self.issuer}, {len(self.revoked_certificates or ())} revoked>"


@dataclass(frozen=True)
class RequestAttribute:
    """An attribute of a request (RFC 2986 4.1)."""

    identifier: ObjectIdentifier
    values: bytes
    """The encodings of its values."""


_EXTENSION_REQUEST = ObjectIdentifier("1.2.840.113549.1.9.14")


@dataclass(frozen=True)
class CertificationRequest(Extended):
    """A certification request (RFC 2986 4)."""

    octets: bytes
    """All octets."""
    info: bytes
    """The encoding of certificationRequestInfo: the octets that are signed."""
    subject: Name
    public_key: PublicKey
    attributes: Tuple[RequestAttribute, ...]
    signature_algorithm: Algorithm
    signature: BitString
    """The signature. It isn't verified."""

    @classmethod
    def from_der(cls: Type[CertificationRequest], data: ReadableBuffer) -> CertificationRequest:
        """Reads a request in DER, by the ASN.1 of RFC 2986, without trailing data.

        Raises:
            CertificateError: The octets aren't a request.
        """
        octets = bytes(data)
        found, part = _parts.read(_header.read_request, _header.RequestFields, octets)
        return cls(
            octets=octets,
            info=part(found.info),
            subject=Name(part(found.subject)),
            public_key=PublicKey(_parts.algorithm(found.key_algorithm, part), _parts.bits(found.key, part)),
            attributes=_request_attributes(part(found.attributes)),
            signature_algorithm=_parts.algorithm(found.signature_algorithm, part),
            signature=_parts.bits(found.signature, part),
        )

    @property
    def extensions(self) -> Tuple[Extension, ...]:
        """The extensions in the attribute extensionRequest (RFC 2985 5.4.2), if any.

        Raises:
            CertificateError: The values are no extensions. Offsets count from their start.
        """
        for attribute in self.attributes:
            if attribute.identifier == _EXTENSION_REQUEST:
                found, _ = _parts.read(_header.read_extension_request, _header.OctetsFields, attribute.values)
                return extensions_of(found, attribute.values)
        return ()

    def __repr__(self) -> str:
        return f"<CertificationRequest of {self.subject}>"


def _revoked(octets: bytes) -> Tuple[RevokedCertificate, ...]:
    return tuple(
        RevokedCertificate(
            _parts.number(part(item.serial_number)),
            extensions_of(item.extensions, octets),
            _parts.moment(item.date),
        )
        for item, part in _calls.items(_header.next_revoked, _header.RevokedFields, octets)
    )


def _request_attributes(octets: bytes) -> Tuple[RequestAttribute, ...]:
    return tuple(
        RequestAttribute(ObjectIdentifier.from_content(part(item.identifier)), part(item.values))
        for item, part in _calls.items(_header.next_request_attribute, _header.RequestAttributeFields, octets)
    )
