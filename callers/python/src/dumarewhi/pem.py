"""Blocks of PEM (RFC 7468).

>>> text = "A NULL:\\n-----BEGIN NULL-----\\nBQA=\\n-----END NULL-----\\nand more."
>>> for block in blocks(text):
...     print(block.label, block.offset, block.octets.hex())
NULL 8 0500
"""
from __future__ import annotations

import ctypes
from dataclasses import dataclass, field
from typing import TYPE_CHECKING, Union

from . import _header
from ._certificate_calls import Octets
from ._errors import DerError
from ._header import OctetsFields, PemFields
from ._library import Source, error_at
from ._tree import check_der

if TYPE_CHECKING:
    from _typeshed import ReadableBuffer

    from ._records import Words

__all__ = ["Block", "Blocks", "blocks", "decode_input"]


@dataclass(frozen=True)
class Block:
    """A block of a text. ``repr`` doesn't show its octets, which may be a private key."""

    label: str
    """Its label, such as ``CERTIFICATE``. Octets that aren't UTF-8 are ``\\ufffd``."""
    offset: int
    """Its offset in the text."""
    octets: bytes = field(repr=False)
    """Its decoded octets."""


def blocks(text: Union[str, ReadableBuffer]) -> Blocks:
    """Reads the blocks of a text and skips the text around them. A block begins at the start of a line, or after white
    space, quotes or ``>``. Labels and contents aren't checked.

    Args:
        text: A text, taken as UTF-8, or any object with octets, which aren't copied.
    """
    return Blocks(text)


def decode_input(data: Union[str, ReadableBuffer], label: str) -> bytes:
    """The octets of the first block with this label, or those of an input that is DER or has no block.

    >>> decode_input("-----BEGIN NULL-----\\nBQA=\\n-----END NULL-----\\n", "NULL")
    b'\\x05\\x00'
    """
    octets = data.encode() if isinstance(data, str) else bytes(data)
    try:
        check_der(octets)
    except DerError:
        found = None
        for found in blocks(octets):
            if found.label == label:
                return found.octets
        if found is not None:
            raise DerError(f"no block has the label {label}", 0) from None
    return octets


class Blocks:
    """An iterator over the blocks of a text, from :func:`blocks`. It is for one thread at a time.

    A block that can't be decoded is an error. The next one is read after that:

    >>> found = blocks("-----BEGIN A-----\\nBQ!=\\n-----END A-----\\n-----BEGIN B-----\\nBQA=\\n-----END B-----\\n")
    >>> try:
    ...     next(found)
    ... except ValueError as error:
    ...     print(error)
    invalid base64 at offset 0
    >>> next(found).label
    'B'
    """

    __slots__ = ("_source", "_rest", "_characters", "_octets")

    # What the text is read from, and what is left of it.
    _source: Source
    _rest: Words
    # The buffers of a block, which has no more octets than the text.
    _characters: ctypes.Array[ctypes.c_char]
    _octets: ctypes.Array[ctypes.c_char]

    def __init__(self, text: Union[str, ReadableBuffer]) -> None:
        self._source = Source(text.encode() if isinstance(text, str) else text)
        length = self._source.length
        self._rest = PemFields.item[:]
        self._rest[0], self._rest[1] = self._source._address, length
        self._characters = ctypes.create_string_buffer(length + 1)
        self._octets = ctypes.create_string_buffer(length + 1)

    def __iter__(self) -> Blocks:
        return self

    def __next__(self) -> Block:
        """The next block.

        Raises:
            DerError: A block is encrypted (RFC 1421 4.6.1.1) or has wrong base64 (RFC 4648 4): the next call goes on
                after it. Or it has no end or another label there: then it is the last one.
        """
        rest, length = self._rest, self._source.length
        address, before = rest[0], rest[1]
        offset = ctypes.c_size_t()
        if not _header.find_pem(address, before, ctypes.byref(offset)):
            raise StopIteration
        begin = length - before + offset.value
        left, _ = rest.buffer_info()
        rule = _header.next_pem(left, self._characters, length, self._octets, length, left + OctetsFields.size)
        if rest[1] == before:
            rest[1] = 0
        if rule:
            raise error_at(rule, begin)
        found = PemFields.at(rest, OctetsFields.size)
        return Block(self._text(found.label), begin, ctypes.string_at(self._octets, found.length))

    def _text(self, part: Octets) -> str:
        """The text of a part, which may be anywhere if it is empty."""
        address, length = part
        if length == 0:
            return ""
        at = address - self._source._address
        return str(self._source.view[at : at + length], "utf-8", "replace")
