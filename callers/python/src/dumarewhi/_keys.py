"""Keys. ``repr`` doesn't show secrets."""
from __future__ import annotations

from dataclasses import dataclass
from typing import TYPE_CHECKING, Optional, Type

from . import _header, _parts
from ._certificate_calls import Octets
from ._header import KeyKindFields, PublicKeyFields
from ._parts import AnyElement, Key
from ._values import BitString, ObjectIdentifier

if TYPE_CHECKING:
    from _typeshed import ReadableBuffer


@dataclass(frozen=True, repr=False)
class PrivateKey:
    """A private key (PKCS #8: RFC 5208 5, RFC 5958 2)."""

    version: int
    """As encoded: 1 if there is a public key, else 0."""
    algorithm: ObjectIdentifier
    """The key's algorithm."""
    parameters: Optional[AnyElement]
    """The parameters of the algorithm."""
    private_key: bytes
    """The key as its algorithm encodes it: :class:`RsaPrivateKey` reads RSA, and :class:`EcPrivateKey` elliptic curves
    (SEC 1)."""
    attributes: Optional[bytes]
    """The content octets of the attributes, which aren't read."""
    public_key: Optional[BitString]

    @classmethod
    def from_der(cls: Type[PrivateKey], data: ReadableBuffer) -> PrivateKey:
        """Reads a key in DER, by its ASN.1, without trailing data.

        Args:
            data: Any object with octets. They are copied.

        Raises:
            CertificateError: The octets aren't a key, or it is encrypted: :class:`EncryptedPrivateKey` reads that.
        """
        octets = bytes(data)
        found, part = _parts.read(_header.read_private_key, _header.PrivateKeyFields, octets)
        return cls(
            version=found.version,
            algorithm=ObjectIdentifier.from_content(part(found.algorithm)),
            parameters=_parts.any_element(found.parameters, part) if found.has_parameters else None,
            private_key=part(found.private_key),
            attributes=part(found.attributes) if found.has_attributes else None,
            public_key=_parts.optional_bits(found.public_key, part),
        )

    def __repr__(self) -> str:
        return f"<PrivateKey of {self.algorithm}>"


@dataclass(frozen=True, repr=False)
class RsaPrivateKey:
    """An RSA private key (RFC 8017 A.1.2), from :attr:`PrivateKey.private_key`."""

    version: int
    """1 if there are further primes, else 0."""
    modulus: int
    public_exponent: int
    private_exponent: int
    prime1: int
    prime2: int
    exponent1: int
    exponent2: int
    coefficient: int
    other_primes: Optional[bytes]
    """The content octets of further primes, which aren't read."""

    @classmethod
    def from_der(cls: Type[RsaPrivateKey], data: ReadableBuffer) -> RsaPrivateKey:
        """Reads a key in DER, by its ASN.1, without trailing data.

        Raises:
            CertificateError: The octets aren't a key.
        """
        octets = bytes(data)
        found, part = _parts.read(_header.read_rsa_private_key, _header.RsaPrivateKeyFields, octets)

        def number(content: Octets) -> int:
            return _parts.number(part(content))

        return cls(
            version=found.version,
            modulus=number(found.modulus),
            public_exponent=number(found.public_exponent),
            private_exponent=number(found.private_exponent),
            prime1=number(found.prime1),
            prime2=number(found.prime2),
            exponent1=number(found.exponent1),
            exponent2=number(found.exponent2),
            coefficient=number(found.coefficient),
            other_primes=part(found.other_primes) if found.has_other_primes else None,
        )

    def __repr__(self) -> str:
        return f"<RsaPrivateKey of {self.modulus.bit_length()} bits>"


@dataclass(frozen=True, repr=False)
class EcPrivateKey:
    """An EC private key (SEC 1 C.4, RFC 5915 3), from :attr:`PrivateKey.private_key` or a file."""

    version: int
    """Always 1."""
    private_key: bytes
    """The key, a number with as many octets as the curve's order."""
    parameters: Optional[AnyElement]
    """The curve, mostly an identifier (RFC 5480 2.1.1)."""
    public_key: Optional[BitString]

    @classmethod
    def from_der(cls: Type[EcPrivateKey], data: ReadableBuffer) -> EcPrivateKey:
        """Reads a key in DER, by its ASN.1, without trailing data.

        Raises:
            CertificateError: The octets aren't a key.
        """
        octets = bytes(data)
        found, part = _parts.read(_header.read_ec_private_key, _header.EcPrivateKeyFields, octets)
        return cls(
            version=found.version,
            private_key=part(found.private_key),
            parameters=_parts.any_element(found.parameters, part) if found.has_parameters else None,
            public_key=_parts.optional_bits(found.public_key, part),
        )

    def __repr__(self) -> str:
        return f"<EcPrivateKey of {len(self.private_key)} octets>"


@dataclass(frozen=True)
class EncryptedPrivateKey:
    """An encrypted private key (RFC 5958 3). It isn't decrypted."""

    algorithm: ObjectIdentifier
    """The algorithm of the encryption."""
    parameters: Optional[AnyElement]
    """The parameters of the algorithm."""
    encrypted_data: bytes

    @classmethod
    def from_der(cls: Type[EncryptedPrivateKey], data: ReadableBuffer) -> EncryptedPrivateKey:
        """Reads a key in DER, by its ASN.1, without trailing data.

        Raises:
            CertificateError: The octets aren't an encrypted key.
        """
        octets = bytes(data)
        found, part = _parts.read(_header.read_encrypted_private_key, _header.EncryptedPrivateKeyFields, octets)
        return cls(
            algorithm=ObjectIdentifier.from_content(part(found.algorithm)),
            parameters=_parts.any_element(found.parameters, part) if found.has_parameters else None,
            encrypted_data=part(found.encrypted_data),
        )


@dataclass(frozen=True)
class SubjectPublicKeyInfo(Key):
    """A public key (RFC 5280 4.1.2.7), such as in a PEM block PUBLIC KEY."""

    algorithm: ObjectIdentifier
    """The key's algorithm."""
    parameters: Optional[AnyElement]
    """The parameters of the algorithm."""
    public_key: BitString
    """The key as its algorithm encodes it: :class:`RsaPublicKey` reads the octets of RSA."""

    @classmethod
    def from_der(cls: Type[SubjectPublicKeyInfo], data: ReadableBuffer) -> SubjectPublicKeyInfo:
        """Reads a key in DER, by its ASN.1, without trailing data.

        Raises:
            CertificateError: The octets aren't a key.
        """
        octets = bytes(data)
        found, part = _parts.read(_header.read_public_key, _header.PublicKeyFields, octets)
        return cls(
            algorithm=ObjectIdentifier.from_content(part(found.algorithm)),
            parameters=_parts.any_element(found.parameters, part) if found.has_parameters else None,
            public_key=_parts.bits(found.public_key, part),
        )

    def _kind(self) -> KeyKindFields:
        identifier, octets, parameters = self.algorithm.content, bytes(self.public_key), self.parameters
        content = parameters.content if parameters else b""
        tag = (parameters.tag.number, parameters.tag.tag_class, parameters.constructed) if parameters else (0, 0, 0)
        fields = (*_parts.pointer_to(identifier), *_parts.pointer_to(content), *tag, 0)
        bits = (*_parts.pointer_to(octets), self.public_key.unused_bits, 1)
        key = _parts.packed(PublicKeyFields, *fields, *bits, parameters is not None, 0)
        return _parts.kind_of(_header.public_key_type, key)


@dataclass(frozen=True)
class RsaPublicKey:
    """An RSA public key (RFC 8017 A.1.1)."""

    modulus: int
    public_exponent: int

    @classmethod
    def from_der(cls: Type[RsaPublicKey], data: ReadableBuffer) -> RsaPublicKey:
        """Reads a key in DER, by its ASN.1, without trailing data.

        Raises:
            CertificateError: The octets aren't a key.
        """
        octets = bytes(data)
        found, part = _parts.read(_header.read_rsa_public_key, _header.RsaPublicKeyFields, octets)
        return cls(_parts.number(part(found.modulus)), _parts.number(part(found.public_exponent)))
