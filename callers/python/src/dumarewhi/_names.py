"""Names of subjects and issuers, and general names (RFC 5280 4.1.2.4, 4.2.1.6)."""
from __future__ import annotations

import ipaddress
from array import array
from dataclasses import dataclass
from functools import lru_cache
from itertools import chain
from typing import TYPE_CHECKING, Iterator, NamedTuple, Optional, Tuple, Union

from . import _certificate_calls as _calls
from . import _header, _library, _parts
from ._certificate_calls import Octets, Within
from ._header import AttributeFields, Class, GeneralNameFields, GeneralNameKind, OctetsFields
from ._tag import CLASS_SHIFT, Tag, tag_of
from ._tree import _CODECS
from ._values import ObjectIdentifier

if TYPE_CHECKING:
    from ._records import Words

# The types that have some characters of ASCII alone. Those of the others are what the codec takes.
_CHECKED = frozenset(tag.number for tag in (Tag.NUMERIC_STRING, Tag.PRINTABLE_STRING, Tag.VISIBLE_STRING))
_UNIVERSAL = Class.UNIVERSAL


@lru_cache(maxsize=None)
def _characters(number: int) -> bytes:
    """The characters of a type, each of which the library looks at once."""
    return bytes(octet for octet in range(256) if not _header.check_text(number, bytes([octet]), 1))


class Attribute(NamedTuple):
    """An attribute of a name: a type and a value."""

    identifier: ObjectIdentifier
    tag: Tag
    constructed: bool
    value: bytes
    """The content octets of the value."""

    @property
    def text(self) -> Optional[str]:
        """The value, if it is a character string of a type of :meth:`Node.as_str`."""
        number, value = self.tag.number, self.value
        codec = _CODECS.get(number) if self.tag.tag_class == _UNIVERSAL else None
        if codec is None or self.constructed:
            return None
        if number in _CHECKED and value.translate(None, _characters(number)):
            return None
        try:
            return value.decode(codec)
        except UnicodeDecodeError:
            return None


class Name:
    """The name of an issuer or a subject (4.1.2.4). ``str`` is the text of RFC 4514, the last relative name first.
    Characters outside of ASCII are escaped UTF-8, such as ``\\c3\\a9``.

    Names compare by octets. RFC 5280 7.1 also treats names as equal that differ in case or spaces.
    """

    __slots__ = ("octets",)

    octets: bytes
    """The encodings of its relative names."""

    def __init__(self, octets: bytes) -> None:
        self.octets = octets

    @property
    def relative_names(self) -> Tuple[Tuple[Attribute, ...], ...]:
        """Its relative names in order, mostly of one attribute each."""
        octets = self.octets
        begin = _library.address_of(octets)
        memory = array("Q", [begin, len(octets), *_ATTRIBUTE_MEMORY])
        names, _ = memory.buffer_info()
        found = []
        while memory[1] and _header.next_relative_name(names, names + OctetsFields.size):
            found.append(_attributes(memory, OctetsFields.size, octets, begin))
        return tuple(found)

    @property
    def attributes(self) -> Tuple[Attribute, ...]:
        """The attributes of all relative names, in order."""
        return tuple(chain.from_iterable(self.relative_names))

    def get(self, identifier: Union[ObjectIdentifier, str]) -> Optional[str]:
        """The text of the first attribute of a type, such as ``"2.5.4.3"``, commonName."""
        wanted = identifier if isinstance(identifier, ObjectIdentifier) else ObjectIdentifier(identifier)
        return next((it.text for it in self.attributes if it.identifier == wanted), None)

    def __iter__(self) -> Iterator[Attribute]:
        return iter(self.attributes)

    def __str__(self) -> str:
        return _calls.name_text(_header.name_text, self.octets)

    @property
    def utf8(self) -> str:
        """The same text, but only with control characters, and those that change the direction of a text, escaped."""
        return _calls.name_text(_header.name_utf8, self.octets)

    def __repr__(self) -> str:
        return f"<Name {self}>"

    def __eq__(self, other: object) -> bool:
        if not isinstance(other, Name):
            return NotImplemented
        return self.octets == other.octets

    def __hash__(self) -> int:
        return hash(self.octets)


def attributes_of(name: Octets, octets: bytes) -> Tuple[Attribute, ...]:
    """The attributes of a relative name, which is a part of the octets."""
    memory = array("Q", _ATTRIBUTE_MEMORY)
    memory[0], memory[1] = name
    return _attributes(memory, 0, octets, _library.address_of(octets))


# Memory for what is left of a relative name, and for an attribute behind it.
_ATTRIBUTE_MEMORY = AttributeFields.item


def _attributes(memory: Words, at: int, octets: bytes, begin: int) -> Tuple[Attribute, ...]:
    """The attributes of the relative name whose address and length are at an offset of memory."""
    start, _ = memory.buffer_info()
    left, next_attribute, unpack = start + at, _header.next_attribute, AttributeFields.unpack_from
    length_at, behind, new, found = at // 8 + 1, at + OctetsFields.size, tuple.__new__, []
    while memory[length_at] and next_attribute(left, start + behind):
        identifier, size, value, length, number, tag_class, constructed, _ = unpack(memory, behind)
        identifier, value = identifier - begin, value - begin
        fields = (
            ObjectIdentifier.from_content(octets[identifier : identifier + size]),
            tag_of(number | tag_class << CLASS_SHIFT),
            constructed != 0,
            octets[value : value + length],
        )
        found.append(new(Attribute, fields))
    return tuple(found)


Address = Union[ipaddress.IPv4Address, ipaddress.IPv6Address]

_KINDS = tuple(GeneralNameKind)
_TEXTS = (GeneralNameKind.RFC822_NAME, GeneralNameKind.DNS_NAME, GeneralNameKind.URI)


_WORDS = {
    GeneralNameKind.RFC822_NAME: "email",
    GeneralNameKind.DNS_NAME: "DNS",
    GeneralNameKind.DIRECTORY_NAME: "DirName",
    GeneralNameKind.URI: "URI",
    GeneralNameKind.IP_ADDRESS: "IP",
    GeneralNameKind.REGISTERED_ID: "RID",
}


@dataclass(frozen=True)
class GeneralName:
    """A name of a subject or an issuer (4.2.1.6)."""

    kind: GeneralNameKind
    value: Union[str, Name, ObjectIdentifier, Address, bytes]
    """A ``str``, a :class:`Name`, an :class:`ObjectIdentifier`, an address of 4 or 16 octets, or content octets."""
    identifier: Optional[ObjectIdentifier] = None
    """The type of an otherName."""

    def __str__(self) -> str:
        """Such as ``DNS:example.org``. Whoever made the certificate chose the text, so characters are escaped."""
        value = self.value.hex() if isinstance(self.value, bytes) else str(self.value)
        text = value.encode("unicode_escape").decode() if isinstance(self.value, str) else value
        return f"{_WORDS.get(self.kind, self.kind.name)}:{text}"


def general_names(octets: Octets, part: Within) -> Tuple[GeneralName, ...]:
    """The names of a list, which is a part of an input."""
    found = _calls.steps(_header.next_general_name, GeneralNameFields, octets)
    return tuple(general_name(item, part) for item in found)


def general_name(found: GeneralNameFields, part: Within) -> GeneralName:
    kind, octets = _KINDS[found.kind], part(found.octets)
    if kind in _TEXTS:
        return GeneralName(kind, octets.decode("ascii"))
    if kind == GeneralNameKind.DIRECTORY_NAME:
        return GeneralName(kind, Name(octets))
    if kind == GeneralNameKind.REGISTERED_ID:
        return GeneralName(kind, ObjectIdentifier.from_content(octets))
    if kind == GeneralNameKind.IP_ADDRESS and len(octets) in (4, 16):
        return GeneralName(kind, ipaddress.ip_address(octets))
    if kind == GeneralNameKind.OTHER_NAME:
        return GeneralName(kind, octets, ObjectIdentifier.from_content(part(found.identifier)))
    return GeneralName(kind, octets)
