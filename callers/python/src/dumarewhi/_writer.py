"""Element after element."""
from __future__ import annotations

import ctypes
import datetime
from types import TracebackType
from typing import TYPE_CHECKING, Callable, Iterable, Optional, Type, TypeVar, Union

from . import _header, _library
from ._header import Class, MarkStruct, Reason, TimeStruct, WriterStruct
from ._tag import CLASS_SHIFT, NUMBER_MASK, AnyTag, Tag, key_of
from ._values import BitString, ObjectIdentifier

if TYPE_CHECKING:
    from _typeshed import ReadableBuffer

T = TypeVar("T")

# How many octets an element may have besides its content: 6 of its tag, 9 of its length.
_HEADER = 16
_FIRST_ROOM = 256

# Types of text that are put as octets with the type's tag: how, and the last character of the type. `dm_put_text` has
# the others, which are UTF-8.
_WIDE = {Tag.BMP_STRING: ("utf-16-be", "\uffff"), Tag.UNIVERSAL_STRING: ("utf-32-be", "\U0010ffff")}


class Writer:
    """Writes DER, element after element.

    A constructed element is a ``with`` block. What is written in the block is inside the element.

    >>> w = Writer()
    >>> with w.open_sequence():
    ...     w.put_integer(5)
    ...     w.put_oid("2.5.4.3")
    ...     with w.open_tagged(0):
    ...         w.put_utf8("hi")
    >>> w.finish().hex(" ")
    '30 0e 02 01 05 06 03 55 04 03 a0 04 0c 02 68 69'

    If the block raises an error, its element is removed. A number as a tag is context-specific, as ``[0]``.
    """

    __slots__ = ("_octets", "_first", "_state", "_at")

    def __init__(self) -> None:
        self._octets = bytearray(_FIRST_ROOM)
        # While this is held, the octets stay where they are.
        self._first = ctypes.c_char.from_buffer(self._octets)
        self._state = WriterStruct(ctypes.addressof(self._first), _FIRST_ROOM)
        self._at = ctypes.addressof(self._state)

    @property
    def offset(self) -> int:
        """The number of octets written."""
        return self._state.count

    def finish(self) -> bytes:
        """The octets written so far. Writing may go on.

        Raises:
            ValueError: An element is open.
        """
        length = ctypes.c_size_t()
        if _header.finish(self._at, ctypes.byref(length)) != _header.OK:
            raise ValueError("an element is open")
        return bytes(memoryview(self._octets)[: length.value])

    def __bytes__(self) -> bytes:
        return self.finish()

    # Elements

    def open_sequence(self) -> Block:
        """Opens a SEQUENCE."""
        return self._open(Tag.SEQUENCE)

    def open_set(self) -> Block:
        """Opens a SET. Its elements keep their order; :meth:`put_set_of` sorts."""
        return self._open(Tag.SET)

    def put_set_of(self, elements: Iterable[bytes]) -> None:
        """Writes a SET OF these elements, in the order of DER (X.690 11.6). They aren't checked.

        >>> w = Writer()
        >>> w.put_set_of([b"\\x02\\x01\\x07", b"\\x02\\x01\\x05"])
        >>> w.finish().hex(" ")
        '31 06 02 01 05 02 01 07'
        """
        with self.open_set():
            self.put_elements(b"".join(sorted(elements)))

    def open_tagged(self, tag: AnyTag) -> Block:
        """Opens a constructed element with this tag: an EXPLICIT tag, or a SEQUENCE or SET under an IMPLICIT one."""
        return self._open(tag)

    def open_octet_string(self) -> Block:
        """Opens an OCTET STRING that contains elements.

        >>> w = Writer()
        >>> with w.open_octet_string():
        ...     w.put_bool(True)
        >>> w.finish().hex(" ")
        '04 03 01 01 ff'
        """
        return self._open(Tag.OCTET_STRING, constructed=False)

    def implicit(self, tag: AnyTag) -> Writer:
        """The next element must be primitive, and gets this IMPLICIT tag instead of its type's. Returns the writer.
        After an error the tag is still pending.

        >>> w = Writer()
        >>> w.implicit(2).put_ia5("a.b")  # dNSName [2] IMPLICIT IA5String
        >>> w.finish()
        b'\\x82\\x03a.b'
        """
        key = key_of(tag)
        _header.implicit(self._at, key >> CLASS_SHIFT, key & NUMBER_MASK)
        return self

    def put_elements(self, octets: ReadableBuffer) -> None:
        """Writes elements that are encoded already. They aren't checked."""
        self._expect_no_tag()
        copy = bytes(octets)
        self._reserve(len(copy))
        _header.put_elements(self._at, copy, len(copy))

    # Values

    def put_bool(self, value: bool) -> None:
        """Writes a BOOLEAN."""
        self._reserve(1)
        _header.put_bool(self._at, bool(value))

    def put_integer(self, value: int) -> None:
        """Writes an INTEGER of any size."""
        if -(1 << 63) <= value < 1 << 63:
            self._reserve(8)
            _header.put_i64(self._at, value)
            return
        magnitude = value if value >= 0 else ~value
        content = value.to_bytes(magnitude.bit_length() // 8 + 1, "big", signed=True)
        self._reserve(len(content))
        self._check(_header.put_integer(self._at, content, len(content)))

    def put_enumerated(self, value: int) -> None:
        """Writes an ENUMERATED of any size."""
        if 0 <= value < 1 << 64:
            self._reserve(9)
            _header.put_enumerated(self._at, value)
        else:
            self._put_as(Tag.ENUMERATED, self.put_integer, value)

    def put_null(self) -> None:
        """Writes a NULL."""
        self._reserve(0)
        _header.put_null(self._at)

    def put_oid(self, value: Union[ObjectIdentifier, str, Iterable[int]]) -> None:
        """Writes an OBJECT IDENTIFIER; a text or arcs will do."""
        identifier = value if isinstance(value, ObjectIdentifier) else ObjectIdentifier(value)
        content = identifier.content
        if not content:
            raise ValueError("an object identifier has two arcs at least")
        self._reserve(len(content))
        _header.put_oid(self._at, content, len(content))

    def put_octets(self, value: ReadableBuffer) -> None:
        """Writes an OCTET STRING."""
        content = bytes(value)
        self._reserve(len(content))
        _header.put_octets(self._at, content, len(content))

    def put_bits(self, value: Union[BitString, bytes], unused_bits: int = 0) -> None:
        """Writes a BIT STRING; octets will do. Unused bits are written as 0 (X.690 11.2.1)."""
        bits = value if isinstance(value, BitString) else BitString(value, unused_bits)
        content = bytes(bits)
        self._reserve(1 + len(content))
        _header.put_bits(self._at, bits.unused_bits, content, len(content))

    def put_utf8(self, value: str) -> None:
        """Writes a UTF8String."""
        self.put_text(Tag.UTF8_STRING, value)

    def put_printable(self, value: str) -> None:
        """Writes a PrintableString. An error if a character isn't in its set."""
        self.put_text(Tag.PRINTABLE_STRING, value)

    def put_ia5(self, value: str) -> None:
        """Writes an IA5String. An error if a character isn't in its set."""
        self.put_text(Tag.IA5_STRING, value)

    def put_text(self, tag: Tag, value: str) -> None:
        """Writes a character string of any type of :meth:`Node.as_str`, by its tag.

        >>> w = Writer()
        >>> w.put_text(Tag.NUMERIC_STRING, "1 2")
        >>> w.finish()
        b'\\x12\\x031 2'

        Raises:
            DerError: A character isn't in the type's set, or the tag isn't of a string type.
        """
        if tag in _WIDE:
            codec, last = _WIDE[tag]
            self._put_as(tag, self.put_octets, self._encoded(value, codec, last))
            return
        if tag.tag_class != Class.UNIVERSAL:
            raise ValueError(f"{tag} is the tag of no character string")
        content = self._encoded(value, "utf-8", "\U0010ffff")
        self._reserve(len(content))
        self._check(_header.put_text(self._at, tag.number, content, len(content)))

    def put_time(self, value: datetime.datetime) -> None:
        """Writes a UTCTime for the years 1950 to 2049 without a fraction, else a GeneralizedTime (RFC 5280 4.1.2.5).

        >>> w = Writer()
        >>> w.put_time(datetime.datetime(2049, 12, 31, tzinfo=datetime.timezone.utc))
        >>> w.finish()
        b'\\x17\\r491231000000Z'
        """
        is_short = 1950 <= _in_utc(value).year <= 2049 and value.microsecond == 0
        self._time(Tag.UTC_TIME if is_short else Tag.GENERALIZED_TIME, value)

    def put_utc_time(self, value: datetime.datetime) -> None:
        """Writes a UTCTime. An error unless the year is 1950 to 2049, without a fraction of a second."""
        self._time(Tag.UTC_TIME, value)

    def put_generalized_time(self, value: datetime.datetime) -> None:
        """Writes a GeneralizedTime."""
        self._time(Tag.GENERALIZED_TIME, value)

    def _time(self, tag: Tag, value: datetime.datetime) -> None:
        moment = _in_utc(value)
        time = TimeStruct(
            moment.year,
            moment.microsecond * 1000,
            moment.month,
            moment.day,
            moment.hour,
            moment.minute,
            moment.second,
            _header.UTC,
        )
        self._reserve(32)
        self._check(_header.put_time(self._at, tag.number, ctypes.byref(time)))

    def _open(self, tag: AnyTag, constructed: bool = True) -> Block:
        self._expect_no_tag()
        self._reserve(0)
        key = key_of(tag)
        count, innermost = self._state.count, self._state.innermost
        mark = _header.open(self._at, key >> CLASS_SHIFT, constructed, key & NUMBER_MASK)
        return Block(self, mark, count, innermost)

    def _put_as(self, tag: Tag, put: Callable[[T], None], value: T) -> None:
        """Writes a value of the type with this tag by the call for another type. An implicit tag stays its own."""
        state = self._state
        if state.implicit:
            put(value)
            return
        self.implicit(tag)
        try:
            put(value)
        except BaseException:
            state.implicit = state.number = 0
            raise

    def _encoded(self, text: str, codec: str, last: str) -> bytes:
        """The octets of a text. An error if a character isn't in the set of the type, as half of a surrogate pair."""
        try:
            if max(text, default="") <= last:
                return text.encode(codec)
        except UnicodeEncodeError:
            pass
        raise _library.error_at(Reason.INVALID_CHARACTER, self.offset)

    def _expect_no_tag(self) -> None:
        if self._state.implicit:
            raise ValueError("an implicit tag is for a primitive element: tagged() is for a SEQUENCE or SET")

    def _check(self, rule: int) -> None:
        if rule:
            raise _library.error_at(rule, self.offset)

    def _reserve(self, length: int) -> None:
        """Makes room for an element with so many content octets, or for the end of one. So all that is written has
        room, which the library asks for before it writes."""
        state = self._state
        needed = state.count + length + _HEADER
        if needed <= state.capacity:
            return
        octets = bytearray(max(needed, 2 * state.capacity))
        octets[: state.count] = memoryview(self._octets)[: state.count]
        self._first = ctypes.c_char.from_buffer(octets)
        self._octets = octets
        state.octets = ctypes.addressof(self._first)
        state.capacity = len(octets)


class Block:
    """An element of a :class:`Writer`, open until the end of a ``with`` block."""

    __slots__ = ("_writer", "_mark", "_count", "_innermost")

    def __init__(self, writer: Writer, mark: MarkStruct, count: int, innermost: int) -> None:
        self._writer = writer
        self._mark = mark
        # The writer before the element was opened.
        self._count = count
        self._innermost = innermost

    def __enter__(self) -> Writer:
        return self._writer

    def __exit__(
        self, kind: Optional[Type[BaseException]], error: Optional[BaseException], trace: Optional[TracebackType]
    ) -> None:
        if kind is None:
            self._close()
        else:
            self._take_back()

    def _close(self) -> None:
        writer = self._writer
        if writer._state.innermost != self._mark.start:
            raise ValueError("an element inside this one is open, or this one is closed")
        writer._expect_no_tag()
        writer._reserve(0)
        _header.close(writer._at, self._mark)

    def _take_back(self) -> None:
        # What was written before hasn't changed: it moves when an element around it is closed.
        state = self._writer._state
        state.count, state.innermost, state.implicit, state.number = self._count, self._innermost, 0, 0


def _in_utc(value: datetime.datetime) -> datetime.datetime:
    if value.tzinfo is None:
        raise ValueError("a time without a zone has no encoding in DER")
    return value.astimezone(datetime.timezone.utc)
