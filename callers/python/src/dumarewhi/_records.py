"""How the shared library's structs are read, and its calls found. ``_header`` declares them.

A call writes a struct to words of memory, which are read at once as a tuple: that takes a third of the time of
``ctypes.Structure``. Calls neither allocate nor keep a pointer, so arguments need to live only during the call.
"""
from __future__ import annotations

import ctypes
from array import array
from operator import itemgetter
from pathlib import Path
from struct import Struct, calcsize
from typing import TYPE_CHECKING, Any, Callable, ClassVar, Dict, Tuple, Type, TypeVar

if TYPE_CHECKING:
    Words = array[int]

R = TypeVar("R", bound="Record")
Call = Callable[..., Any]

_FILE = str(Path(__file__).with_name("libdumarewhi.so"))
_holding = ctypes.PyDLL(_FILE)  # calls that hold the GIL
_releasing = ctypes.CDLL(_FILE)  # calls that release it

_WORD = 8


def call(name: str, result: Any, *arguments: Any, library: ctypes.CDLL = _holding) -> Call:
    """A call of the library."""
    found = library[name]
    found.restype = result
    found.argtypes = arguments
    return found


def releasing(held: Any) -> Call:
    """The same call, which releases the GIL."""
    return call(held.__name__, held.restype, *held.argtypes, library=_releasing)


def text_of(held: Call, *arguments: Any) -> str:
    """The text that a call writes."""
    room = 256
    while True:
        text = ctypes.create_string_buffer(room)
        length: int = held(*arguments, text, room)
        if length <= room:
            return text.raw[:length].decode()
        room = length


class _Memory:
    """Memory for a struct and one before it, which is copied for each use."""

    def __init__(self, before: str) -> None:
        self._before = before

    def __set_name__(self, owner: Type[Record], name: str) -> None:
        self._name = name

    def __get__(self, record: None, owner: Type[Record]) -> Words:
        size = RECORDS[self._before].size + owner.size
        memory = array("Q", bytes(size + -size % _WORD))
        setattr(owner, self._name, memory)
        return memory


class Record(Tuple[Any, ...]):
    """What a call wrote to a struct of the header: all numbers, those of structs inside it too, in order."""

    __slots__ = ()

    letters: ClassVar[str]
    """Its fields, as the module ``struct`` names them."""
    unpack_from: ClassVar[Callable[[Words, int], Tuple[Any, ...]]]
    size: ClassVar[int]
    """How many octets it has."""
    spans: ClassVar[Dict[str, Tuple[int, int]]]
    """Of each field the offset and the size."""
    result = _Memory("dm_fault")
    item = _Memory("dm_octets")

    @classmethod
    def at(cls: Type[R], memory: Words, offset: int) -> R:
        """The struct at an offset of memory."""
        return tuple.__new__(cls, cls.unpack_from(memory, offset))


RECORDS: Dict[str, Type[Record]] = {}
_INNER: Dict[str, Type[Record]] = {}


def _getter(begin: int, inner: Type[Record]) -> Callable[[Any], Any]:
    """What reads a struct that begins at an index."""
    part = slice(begin, begin + len(inner.letters))
    if inner is RECORDS["dm_octets"]:
        return itemgetter(part)
    return lambda record: tuple.__new__(inner, record[part])


def declared(name: str, letters: str) -> Callable[[Type[R]], Type[R]]:
    """A struct of the header, whose fields are those that the class declares."""

    def declare(record: Type[R]) -> Type[R]:
        RECORDS[name] = _INNER[record.__name__] = record
        record.letters, record.size = letters, calcsize(letters)
        record.unpack_from = Struct(letters).unpack_from
        record.spans, begin = {}, 0
        for field, word in record.__annotations__.items():
            inner = _INNER.get(word)
            own = inner.letters if inner else letters[begin]
            setattr(record, field, property(_getter(begin, inner) if inner else itemgetter(begin)))
            # (a count of 0 aligns)
            record.spans[field] = calcsize(f"{letters[:begin]}0{own[0]}"), calcsize(own)
            begin += len(own)
        return record

    return declare
