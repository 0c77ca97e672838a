"""Reads what the calls for certificates, keys and PEM write."""
from __future__ import annotations

import ctypes
from struct import Struct
from typing import Any, Callable, Iterator, Tuple, Type

from . import _header
from ._header import OctetsFields
from ._library import address_of
from ._records import Call, R, Record, declared, text_of


@declared("", "I")
class NumberFields(Record):
    """A number that a call writes."""

    value: int


Octets = Tuple[int, ...]
"""Two numbers, where octets are and how many: what a field of the type dm_octets has."""

Within = Callable[[Octets], bytes]
"""Takes the octets of a part of an input."""


def within(data: bytes, begin: int) -> Within:
    """The parts of an input that begins at an address, as it does as long as this lives. An empty one may be
    anywhere."""

    def part(octets: Octets) -> bytes:
        address, length = octets
        return data[address - begin : address - begin + length] if length else b""

    return part


def steps_of(call: Call, record: Type[Record], octets: Octets) -> Iterator[Tuple[Any, ...]]:
    """The fields of each item of a list, which has to live meanwhile. Octets begin with none if there are none."""
    memory, unpack = record.item[:], record.unpack_from
    memory[0], memory[1] = octets
    left, _ = memory.buffer_info()
    item = left + OctetsFields.size
    while memory[1] and call(left, item):
        yield unpack(memory, OctetsFields.size)


def steps(call: Call, record: Type[R], octets: Octets) -> Iterator[R]:
    """The items of a list, which has to live meanwhile."""
    for fields in steps_of(call, record, octets):
        yield tuple.__new__(record, fields)


def items(call: Call, record: Type[R], data: bytes) -> Iterator[Tuple[R, Within]]:
    """The items of a list."""
    begin = address_of(data)
    part = within(data, begin)
    for item in steps(call, record, (begin, len(data))):
        yield item, part


def name_text(call: Call, name: bytes) -> str:
    """The text of a name by RFC 4514, in ASCII or UTF-8."""
    return text_of(call, address_of(name), len(name))


def found_text(fault: Record, data: bytes) -> str:
    """The text of a fault of an input, with the tag of the element, if it isn't the expected one."""
    memory = Struct(fault.letters).pack(*fault)
    return text_of(_header.found_text, address_of(memory), address_of(data), len(data))


def rule_text(rule: int) -> str:
    """The text of a rule by its number; of no rule it is empty."""
    return text_of(_header.rule_text, rule)


def sha256(data: bytes) -> bytes:
    """The digest of octets."""
    digest = ctypes.create_string_buffer(_header.DIGEST_OCTETS)
    _header.sha256(address_of(data), len(data), digest)
    return digest.raw
