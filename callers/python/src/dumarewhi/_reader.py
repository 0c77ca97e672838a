"""Field after field."""
from __future__ import annotations

import datetime
from types import TracebackType
from typing import TYPE_CHECKING, Callable, Iterator, Optional, Type, TypeVar, Union, overload

from ._errors import DerError, Incomplete
from ._header import Class, Reason
from ._library import DEFAULT_DEPTH, Rules, Source
from ._tag import AnyTag, Tag, key_of, tag_of
from ._tree import Node, Tree, _depth
from ._values import BitString, ObjectIdentifier

if TYPE_CHECKING:
    from _typeshed import ReadableBuffer

T = TypeVar("T")
D = TypeVar("D")

_SEQUENCE = key_of(Tag.SEQUENCE)
_SET = key_of(Tag.SET)


class Reader:
    """Reads the fields of an ASN.1 type, one after another.

    Each call reads the next element, with all that is inside it. After an error the position is unchanged. Leaving a
    ``with`` block calls :meth:`end`, so an element that nothing reads is an error:

    >>> # SEQUENCE { version [0] EXPLICIT INTEGER DEFAULT 0, name UTF8String, critical BOOLEAN DEFAULT FALSE }
    >>> octets = bytes.fromhex("3009 a003 020102 0c026869")
    >>> with Reader(octets) as reader, reader.open_sequence() as fields:
    ...     version = fields.optional_tagged(0, Reader.integer, 0)
    ...     name = fields.utf8_string()
    ...     critical = fields.optional(Tag.BOOLEAN, Reader.boolean, False)
    >>> version, name, critical
    (2, 'hi', False)

    A number as a tag is context-specific, as ``[0]``.

    Args:
        data: Any object with octets, such as ``bytes`` or ``mmap``. The reader keeps it and doesn't copy it.
        rules: ``"der"`` or ``"ber"``.
        max_depth: The largest depth of elements, at most ``MAX_DEPTH``.
    """

    __slots__ = ("_nodes", "_next", "_outer", "_last", "_implicit")

    _nodes: Iterator[Node]
    # The next element, if it has been looked at.
    _next: Optional[Node]
    # The element that they are inside, if there is one.
    _outer: Optional[Node]
    # The element that was read last.
    _last: Optional[Node]
    # The implicit tag that the next element has.
    _implicit: Optional[int]

    def __init__(self, data: ReadableBuffer, *, rules: Rules = "der", max_depth: int = DEFAULT_DEPTH) -> None:
        if rules not in ("der", "ber"):
            raise ValueError(f"the rules are 'der' or 'ber', and not {rules!r}")
        source = Source(data)
        self._nodes = _Outermost(source, rules, _depth(max_depth))
        self._next = self._outer = self._last = self._implicit = None

    @classmethod
    def _inside(cls, node: Node) -> Reader:
        """A reader of the elements inside an element."""
        if not node.constructed:
            raise node._error(Reason.CONSTRUCTED_EXPECTED)
        reader = cls.__new__(cls)
        reader._nodes = iter(node.children)
        reader._next = reader._last = reader._implicit = None
        reader._outer = node
        return reader

    @property
    def offset(self) -> int:
        """The offset of the next element in the outermost input."""
        if self._last is not None:
            return self._last.end
        return 0 if self._outer is None else self._outer.content_offset

    @property
    def is_empty(self) -> bool:
        """Whether all elements are read.

        >>> reader = Reader(bytes.fromhex("020105 020107"))
        >>> numbers = []
        >>> while not reader.is_empty:
        ...     numbers.append(reader.integer())
        >>> numbers
        [5, 7]
        """
        if self._next is not None:
            return False
        nodes = self._nodes
        return nodes.is_empty if isinstance(nodes, _Outermost) else self._look() is None

    def end(self) -> None:
        """Raises an error unless all elements are read."""
        if not self.is_empty:
            raise DerError("octets are left", self.offset)

    def __enter__(self) -> Reader:
        return self

    def __exit__(
        self, kind: Optional[Type[BaseException]], error: Optional[BaseException], trace: Optional[TracebackType]
    ) -> None:
        if kind is None:
            self.end()

    def peek(self) -> Optional[Tag]:
        """The tag of the next element, or ``None`` at the end."""
        node = self._look()
        return None if node is None else node.tag

    # Elements

    def any(self) -> Node:
        """Reads an element of any type."""
        return self._take(self._must())

    def __iter__(self) -> Iterator[Node]:
        """Reads all remaining elements."""
        while not self.is_empty:
            yield self.any()

    def open_sequence(self) -> Reader:
        """Reads a SEQUENCE. Returns a reader of its elements."""
        return self._open(_SEQUENCE)

    def open_set(self) -> Reader:
        """Reads a SET. Returns a reader of its elements, in their order."""
        return self._open(_SET)

    def open_tagged(self, tag: AnyTag) -> Reader:
        """Reads a constructed element with this tag. Returns a reader of its elements.

        It reads an EXPLICIT tag, or a SEQUENCE or SET under an IMPLICIT one.

        >>> with Reader(bytes.fromhex("6106 020105 020107")).open_tagged(Tag.application(1)) as fields:
        ...     fields.integer(), fields.integer()
        (5, 7)
        """
        return self._open(key_of(tag))

    def tagged(self, tag: AnyTag, read: Callable[[Reader], T]) -> T:
        """Reads the value inside an EXPLICIT tag with ``read``.

        >>> Reader(bytes.fromhex("a003 020105")).tagged(0, Reader.integer)
        5
        """
        node = self._expect(key_of(tag))
        with Reader._inside(node) as fields:
            value = read(fields)
        self._take(node)
        return value

    def implicit(self, tag: AnyTag) -> Reader:
        """The next element has this IMPLICIT tag instead of its type's. Returns the reader. After an error the tag is
        still pending.

        >>> Reader(b"\\x82\\x03a.b").implicit(2).ia5_string()  # dNSName [2] IMPLICIT IA5String
        'a.b'
        """
        self._implicit = key_of(tag)
        return self

    @overload
    def optional(self, tag: AnyTag, read: Callable[[Reader], T]) -> Optional[T]: ...

    @overload
    def optional(self, tag: AnyTag, read: Callable[[Reader], T], default: D) -> Union[T, D]: ...

    def optional(self, tag: AnyTag, read: Callable[[Reader], T], default: object = None) -> object:
        """Reads with ``read`` if the next element has this tag, or returns the default.

        >>> reader = Reader(bytes.fromhex("020105"))
        >>> reader.optional(Tag.BOOLEAN, Reader.boolean, False), reader.integer()
        (False, 5)
        """
        node = self._look()
        return default if node is None or node._key != key_of(tag) else read(self)

    @overload
    def optional_tagged(self, tag: AnyTag, read: Callable[[Reader], T]) -> Optional[T]: ...

    @overload
    def optional_tagged(self, tag: AnyTag, read: Callable[[Reader], T], default: D) -> Union[T, D]: ...

    def optional_tagged(self, tag: AnyTag, read: Callable[[Reader], T], default: object = None) -> object:
        """Reads as :meth:`tagged` if the next element has this tag, or returns the default."""
        return self.optional(tag, lambda reader: reader.tagged(tag, read), default)

    # Values

    def boolean(self) -> bool:
        """Reads a BOOLEAN."""
        return self._value(Node.as_bool, Tag.BOOLEAN.number)

    def integer(self) -> int:
        """Reads an INTEGER, of any size."""
        return self._value(Node.as_int, Tag.INTEGER.number)

    def enumerated(self) -> int:
        """Reads an ENUMERATED."""
        return self._value(Node.as_int, Tag.ENUMERATED.number)

    def null(self) -> None:
        """Reads a NULL."""
        self._value(Node.as_null, Tag.NULL.number)

    def oid(self) -> ObjectIdentifier:
        """Reads an OBJECT IDENTIFIER."""
        return self._value(Node.as_oid, Tag.OBJECT_IDENTIFIER.number)

    def octets(self) -> bytes:
        """Reads an OCTET STRING."""
        return self._value(Node.as_bytes, Tag.OCTET_STRING.number)

    def bits(self) -> BitString:
        """Reads a BIT STRING."""
        return self._value(Node.as_bit_string, Tag.BIT_STRING.number)

    def utf8_string(self) -> str:
        """Reads a UTF8String."""
        return self.text(Tag.UTF8_STRING)

    def printable_string(self) -> str:
        """Reads a PrintableString."""
        return self.text(Tag.PRINTABLE_STRING)

    def ia5_string(self) -> str:
        """Reads an IA5String."""
        return self.text(Tag.IA5_STRING)

    def text(self, tag: Tag) -> str:
        """Reads a character string of the type with this tag, one of :meth:`Node.as_str`."""
        return self._value(Node.as_str, key_of(tag))

    def any_text(self) -> str:
        """Reads a character string of any type of :meth:`Node.as_str`."""
        return self.text(self.peek() or Tag.UTF8_STRING)

    def time(self) -> datetime.datetime:
        """Reads a UTCTime or a GeneralizedTime; under an implicit tag a GeneralizedTime."""
        tag = Tag.UTC_TIME if self.peek() == Tag.UTC_TIME else Tag.GENERALIZED_TIME
        return self._value(Node.as_datetime, tag.number)

    def _value(self, read: Callable[[Node], T], key: int) -> T:
        """Reads a value of the type with this tag."""
        node = self._expect(key)
        value = read(node if self._implicit is None else node._with_tag(key))
        self._take(node)
        return value

    def _open(self, key: int) -> Reader:
        node = self._expect(key)
        reader = Reader._inside(node)
        self._take(node)
        return reader

    def _look(self) -> Optional[Node]:
        if self._next is None:
            self._next = next(self._nodes, None)
        return self._next

    def _must(self) -> Node:
        """The next element, which stays the next one."""
        node = self._next or self._look()
        if node is not None:
            return node
        if self._outer is None:
            raise Incomplete(1, self.offset)
        raise DerError("an element is missing", self.offset)

    def _expect(self, key: int) -> Node:
        """The next element, which has this tag, or the implicit one in its place."""
        node = self._must()
        key = key if self._implicit is None else self._implicit
        if node._key != key:
            raise node._unexpected(str(tag_of(key)))
        return node

    def _take(self, node: Node) -> Node:
        self._last = node
        self._next = self._implicit = None
        return node


class _Outermost:
    """The elements of an input, each of which is read when it is asked for."""

    __slots__ = ("_source", "_rules", "_max_depth", "_begin")

    def __init__(self, source: Source, rules: Rules, max_depth: int) -> None:
        self._source = source
        self._rules = rules
        self._max_depth = max_depth
        self._begin = 0

    @property
    def is_empty(self) -> bool:
        return self._begin == self._source.length

    def __iter__(self) -> _Outermost:
        return self

    def __next__(self) -> Node:
        source = self._source
        if self._begin == source.length:
            raise StopIteration
        tree = Tree._read(source, self._rules, self._max_depth, self._begin, source.length, 0)
        self._begin = tree.end
        return tree.root
