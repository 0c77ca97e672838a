"""The octets of the caller's objects, and the calls that read them."""
from __future__ import annotations

import ctypes
from array import array
from ctypes import c_char_p, c_void_p
from typing import TYPE_CHECKING, Any, Dict, Literal, NamedTuple, Union

from . import _header
from ._errors import DerError, Incomplete
from ._header import ERROR, NO_ROOM, OK, OutcomeStruct, Reason
from ._records import Call, releasing, text_of

if TYPE_CHECKING:
    from _typeshed import ReadableBuffer

    from ._records import Words

Rules = Literal["der", "ber"]
"""The rules that an input is read by: ``"der"`` or ``"ber"``."""

DEFAULT_DEPTH = 50
"""How many elements may be one inside another, unless ``max_depth`` is given."""

# A short call takes less time than other threads need to take and return the GIL. So they get it for long ones only.
_LONG = 1 << 14


class _Calls(NamedTuple):
    """The calls that read inputs of any length, by their rules."""

    parse: Dict[Rules, Call]
    check: Dict[Rules, Call]
    write_der: Call


_SHORT_CALLS = _Calls(
    {"der": _header.parse_der, "ber": _header.parse_ber},
    {"der": _header.check_der, "ber": _header.check_ber},
    _header.write_der,
)
_LONG_CALLS = _Calls(
    {"der": releasing(_header.parse_der), "ber": releasing(_header.parse_ber)},
    {"der": releasing(_header.check_der), "ber": releasing(_header.check_ber)},
    releasing(_header.write_der),
)


def error_text(reason: int) -> str:
    """The library's text of an error, by its number.

    >>> error_text(Reason.INVALID_CHARACTER)
    'invalid character in string'
    """
    return text_of(_header.error_text, reason)


def error_at(reason: int, offset: int) -> DerError:
    """An error at an offset."""
    return DerError(error_text(reason), offset, reason)


class _Buffer(ctypes.Structure):
    """``Py_buffer`` of CPython."""

    buf: Union[int, None]
    _fields_ = [
        ("buf", c_void_p),
        ("obj", c_void_p),
        ("len", ctypes.c_ssize_t),
        ("itemsize", ctypes.c_ssize_t),
        ("readonly", ctypes.c_int),
        ("ndim", ctypes.c_int),
        ("format", c_char_p),
        ("shape", c_void_p),
        ("strides", c_void_p),
        ("suboffsets", c_void_p),
        ("internal", c_void_p),
    ]


def _python_call(name: str, result: Any, *arguments: Any) -> Call:
    return ctypes.PYFUNCTYPE(result, *arguments)((name, ctypes.pythonapi))


_bytes_address = _python_call("PyBytes_AsString", c_void_p, ctypes.py_object)
_get_buffer = _python_call("PyObject_GetBuffer", ctypes.c_int, ctypes.py_object, c_void_p, ctypes.c_int)
_release_buffer = _python_call("PyBuffer_Release", None, c_void_p)

# The library takes no NULL, also for no octets.
_NOTHING = b"\0"

# CPython has the octets of each `bytes` so far behind its start.
_BEHIND: int = _bytes_address(_NOTHING) - id(_NOTHING)


def address_of(data: bytes) -> int:
    """Where octets are, as long as they live. An error if this is no ``bytes``."""
    return id(data) + _BEHIND if type(data) is bytes else int(_bytes_address(data))


def _octets(view: memoryview) -> memoryview:
    """A view of any items, as one of octets."""
    if view.nbytes == 0:  # which can't be cast
        return memoryview(b"")
    return view if view.format == "B" and view.ndim == 1 else view.cast("B")


def _address(view: memoryview) -> int:
    """Where the octets of a view are. They stay there as long as the view is held."""
    buffer = _Buffer()
    _get_buffer(view, ctypes.byref(buffer), 0)
    address = buffer.buf
    _release_buffer(ctypes.byref(buffer))
    return address or address_of(_NOTHING)


class Listing(NamedTuple):
    """An element and those inside it, in preorder.

    Each has five words of 64 bits, as ``dm_element`` has them: where its header begins, where its content begins and
    ends, how many elements are inside it, and the number, class, form and kind of length, in this order from the
    lowest bit.
    """

    words: Words
    length: int


WORDS = 5
_NO_WORD = array("Q", [0])


def words_of(*words: int) -> Words:
    """A list of words."""
    return array("Q", words)


class Source:
    """The octets of an object of the caller's, which aren't copied. While this lives, the object can't be resized."""

    __slots__ = ("data", "view", "length", "_address", "_is_constant")

    data: Union[bytes, memoryview]
    view: memoryview

    def __init__(self, data: ReadableBuffer) -> None:
        if type(data) is bytes:
            self.data = data
            self.view = memoryview(data)
            self._address = address_of(data)
        else:
            self.data = self.view = _octets(memoryview(data))
            self._address = _address(self.view)
        self.length = len(self.data)
        self._is_constant = type(self.view.obj) is bytes

    def _calls(self, length: int) -> _Calls:
        """The calls for so many octets. Octets that another thread may change are read with the GIL."""
        return _LONG_CALLS if self._is_constant and length >= _LONG else _SHORT_CALLS

    def list_first(self, rules: Rules, begin: int, end: int, max_depth: int, nested: bool) -> Listing:
        """The first element of a part of the octets, and those inside it. Its offsets are those of the part."""
        length = _likely_length(self.data, begin, end)
        parse = self._calls(length).parse[rules]
        outcome = OutcomeStruct()
        room = _likely_elements(length)
        while True:
            words = _NO_WORD * (WORDS * room)
            address, _ = words.buffer_info()
            status = parse(self._address + begin, end - begin, max_depth, address, room, ctypes.byref(outcome))
            if status != OK:
                raise self._error(begin, end, outcome, nested)
            if outcome.elements <= room:
                del words[WORDS * outcome.elements :]
                return Listing(words, outcome.length)
            room = outcome.elements

    def check_first(self, rules: Rules, max_depth: int) -> OutcomeStruct:
        """Checks the first element. Returns how many elements and how many octets there are."""
        outcome = OutcomeStruct()
        if self._calls(self.length).check[rules](self._address, self.length, max_depth, ctypes.byref(outcome)) != OK:
            raise self._error(0, self.length, outcome, False)
        return outcome

    def to_der(self) -> bytes:
        """All elements as DER writes them."""
        outcome = OutcomeStruct()
        write = self._calls(self.length).write_der
        room = self.length + 16
        while True:
            octets = bytearray(room)
            address = ctypes.addressof(ctypes.c_char.from_buffer(octets))
            status = write(self._address, self.length, address, room, ctypes.byref(outcome))
            if status == OK:
                return bytes(memoryview(octets)[: outcome.length])
            if status != NO_ROOM:
                raise self._error(0, self.length, outcome, False)
            room = outcome.length

    @staticmethod
    def _error(begin: int, end: int, outcome: OutcomeStruct, nested: bool) -> DerError:
        """The error of an outcome. What is nested can't be completed by more octets."""
        if outcome.status == ERROR:
            return error_at(outcome.error, begin + outcome.place)
        if nested:
            return error_at(Reason.OVERRUN, begin)
        return Incomplete(outcome.missing, end)


def _likely_length(data: Union[bytes, memoryview], begin: int, end: int) -> int:
    """How many octets the first element is likely to have: what follows it takes no time and no room."""
    first = data[begin + 1 : begin + 4]
    if not first or first[0] > 0x82:
        likely = end - begin
    elif first[0] < 0x80:
        likely = 2 + first[0]
    elif first[0] == 0x80:
        likely = _UNKNOWN
    else:
        likely = 4 + int.from_bytes(first[1 : first[0] - 0x7F], "big")
    return min(likely, end - begin)


# An element of indefinite length is likely to have at most so many octets.
_UNKNOWN = 1 << 12


def _likely_elements(length: int) -> int:
    """How many elements there are likely to be at most: one that isn't empty has three octets.

    No more than 65,536, which have 2.5 MiB: an element may be one long string. If there are more, all are listed again.
    """
    return min(length // 3 + 2, 1 << 16)
