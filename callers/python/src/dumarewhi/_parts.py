"""Shared by certificates, CRLs, requests and keys: how they are read, and the types of their fields."""
from __future__ import annotations

import datetime
from dataclasses import dataclass
from struct import Struct
from typing import TYPE_CHECKING, NamedTuple, Optional, Tuple, Type, Union

from . import _certificate_calls as _calls
from . import _header, _library
from ._certificate_calls import NumberFields, Within
from ._errors import DerError
from ._header import (
    AlgorithmFields,
    AnyFields,
    AttributeFields,
    BitsFields,
    CertificateFields,
    Curve,
    FaultFields,
    Field,
    KeyKindFields,
    KeyType,
    MomentFields,
    OctetsFields,
    Reason,
    TimeFields,
)
from ._records import Call, R
from ._tag import CLASS_SHIFT, Tag, tag_of
from ._values import BitString, ObjectIdentifier

if TYPE_CHECKING:
    from ._records import Words


class CertificateError(DerError):
    """An input isn't a certificate, a CRL, a request or a key, or an extension's value is wrong.

    >>> from dumarewhi.x509 import Certificate
    >>> try:
    ...     Certificate.from_der(b"\\x30\\x02\\x05\\x00")
    ... except CertificateError as error:
    ...     print(error.field.name, error.offset)
    TBS_CERTIFICATE 2
    >>> try:
    ...     Certificate.from_der(b"\\x30\\x02\\x6a\\x00")
    ... except CertificateError as error:
    ...     print(error)
    tbsCertificate at 2: unexpected class, found [APPLICATION 10]

    Attributes:
        text: What is wrong and where, with the field.
        field: The first field that is wrong.
        offset: The offset of the wrong element in what was read.
        reason: One of :class:`Reason`, or 0 if the input is cut short.
        incomplete: Whether more octets may complete the input.
        list_end: The end of the element around it, or ``None``.
        needed: Number of octets that the element needs, as far as the input shows, or ``None``.
    """

    def __init__(self, fault: FaultFields, text: str) -> None:
        super().__init__(text, fault.offset, fault.error)
        self._fault = fault
        self.field = Field(fault.field)
        self.incomplete = fault.status == _header.INCOMPLETE
        self.list_end = fault.list_end if fault.is_in_list else None
        self.needed = fault.needed or None

    def __str__(self) -> str:
        return f"{'.'.join(self.names)} {self.text}" if self.names else self.text

    def __reduce__(self) -> Tuple[object, ...]:
        return CertificateError, (self._fault, self.text), {"names": self.names}


class Algorithm(NamedTuple):
    """An algorithm (4.1.1.2)."""

    identifier: ObjectIdentifier
    parameters: Optional[bytes]
    """The encoding of its parameters, one element of any type."""


class Key:
    """What a public key is."""

    def _kind(self) -> KeyKindFields:
        raise NotImplementedError

    @property
    def key_type(self) -> KeyType:
        """The type of the key."""
        return KeyType(self._kind().key_type)

    @property
    def curve(self) -> Optional[Curve]:
        """The curve of a key of an elliptic curve, if it is a known one."""
        number = self._kind().curve
        return Curve(number) if number else None

    @property
    def key_size(self) -> Optional[int]:
        """The size in bits, if it is known: of the modulus of RSA, of the prime of DSA and DH, or of the curve's
        field."""
        return self._kind().bits or None


@dataclass(frozen=True)
class PublicKey(Key):
    """A key (4.1.2.7)."""

    algorithm: Algorithm
    bits: BitString
    """The key as its algorithm encodes it."""

    def _kind(self) -> KeyKindFields:
        identifier, parameters, key = self.algorithm.identifier.content, self.algorithm.parameters or b"", self.bits
        octets = bytes(key)
        algorithm = packed(AlgorithmFields, *pointer_to(identifier), *pointer_to(parameters))
        return kind_of(_header.key_type, algorithm, packed(BitsFields, *pointer_to(octets), key.unused_bits, 1))


@dataclass(frozen=True)
class AnyElement:
    """An element of any type. Its content isn't read."""

    tag: Tag
    constructed: bool
    content: bytes
    """The content octets."""


def _memory_of(call: Call, record: Type[R], octets: bytes) -> Words:
    """A fault, and what a call reads of an input behind it."""
    memory = record.result[:]
    fault, _ = memory.buffer_info()
    if call(_library.address_of(octets), len(octets), fault + FaultFields.size, fault) != _header.OK:
        raise _error(memory, octets)
    return memory


def read(call: Call, record: Type[R], octets: bytes) -> Tuple[R, Within]:
    """What a call reads of an input, and what takes parts of the input."""
    memory = _memory_of(call, record, octets)
    found = tuple.__new__(record, record.unpack_from(memory, FaultFields.size))
    return found, _calls.within(octets, _library.address_of(octets))


def is_valid_at(certificate: bytes, seconds: int) -> bool:
    """Whether a certificate is valid at this second since 1970."""
    memory = _memory_of(_header.read_certificate, CertificateFields, certificate)
    begin, _ = memory.buffer_info()
    valid: int = _header.is_valid_at(begin + FaultFields.size, seconds)
    return valid != 0


def pointer_to(data: bytes) -> Tuple[int, int]:
    """A field of the type dm_octets. The octets have to live during the call."""
    return _library.address_of(data), len(data)


def packed(record: Type[R], *fields: int) -> bytes:
    """A struct with these fields."""
    return Struct(record.letters).pack(*fields)


def kind_of(call: Call, *structs: bytes) -> KeyKindFields:
    """What a public key is, whose structs a call takes."""
    memory = KeyKindFields.result[:]
    begin, _ = memory.buffer_info()
    call(*map(_library.address_of, structs), begin)
    return KeyKindFields.at(memory, 0)


def _error(memory: Words, octets: bytes) -> CertificateError:
    """The error of a fault that a call wrote to memory."""
    fault = FaultFields.at(memory, 0)
    return CertificateError(fault, _calls.found_text(fault, octets))


def read_null(call: Call, octets: bytes) -> None:
    """Reads an input that has no value."""
    memory = FaultFields.result[:]
    if call(_library.address_of(octets), len(octets), memory.buffer_info()[0]) != _header.OK:
        raise _error(memory, octets)


def read_number(call: Call, octets: bytes) -> int:
    """The number that a call reads of an input."""
    return read(call, NumberFields, octets)[0].value


def read_part(call: Call, octets: bytes) -> bytes:
    """The part of an input that a call finds."""
    found, part = read(call, OctetsFields, octets)
    return part(found)


def number(content: bytes) -> int:
    """An INTEGER (X.690 8.3)."""
    return int.from_bytes(content, "big", signed=True)


def algorithm(found: AlgorithmFields, part: Within) -> Algorithm:
    identifier, size, parameters, length = found
    return Algorithm(ObjectIdentifier.from_content(part((identifier, size))), part((parameters, length)) or None)


def bits(found: BitsFields, part: Within) -> BitString:
    return BitString(part(found.octets), found.unused)


def optional_bits(found: BitsFields, part: Within) -> Optional[BitString]:
    return bits(found, part) if found.is_present else None


def tag(found: Union[AnyFields, AttributeFields]) -> Tag:
    return tag_of(found.number | found.tag_class << CLASS_SHIFT)


def any_element(found: AnyFields, part: Within) -> AnyElement:
    return AnyElement(tag(found), found.constructed != 0, part(found.content))


# Year, month, day, hour, minute, second and microsecond, in UTC
Moment = Tuple[int, int, int, int, int, int, int]


def moment(found: MomentFields) -> Moment:
    return moment_of(found.time)


def moment_of(time: TimeFields) -> Moment:
    year, nanosecond, month, day, hour, minute, second, *_ = time
    return year, month, day, hour, minute, second, nanosecond // 1000


def datetime_of(moment: Moment) -> datetime.datetime:
    try:
        return datetime.datetime(*moment, tzinfo=datetime.timezone.utc)
    except ValueError:
        raise _library.error_at(Reason.INVALID_TIME, 0) from None
