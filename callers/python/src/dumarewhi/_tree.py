"""Elements and the calls that read them."""
from __future__ import annotations

import ctypes
import datetime
from typing import TYPE_CHECKING, Callable, Dict, Iterator, List, Optional, Tuple, Union

from . import _header, _library
from ._errors import DerError
from ._header import MAX_DEPTH, Class, Reason
from ._library import DEFAULT_DEPTH, WORDS, Listing, Rules, Source
from ._tag import KEY_MASK, NUMBER_MASK, Tag, key_of, tag_of
from ._values import BitString, ObjectIdentifier

if TYPE_CHECKING:
    from _typeshed import ReadableBuffer

    from ._records import Words
    from ._reader import Reader

Value = Union[bool, int, bytes, str, None, datetime.datetime, ObjectIdentifier, BitString, List["Value"]]
"""What :attr:`Node.value` returns."""

# The bits of the fifth word of an element (see `_library.Listing`).
_CONSTRUCTED = 1 << 40
_DEFINITE = 1 << 48

_BOOLEAN = key_of(Tag.BOOLEAN)
_INTEGER = key_of(Tag.INTEGER)
_BIT_STRING = key_of(Tag.BIT_STRING)
_OCTET_STRING = key_of(Tag.OCTET_STRING)
_NULL = key_of(Tag.NULL)
_OBJECT_IDENTIFIER = key_of(Tag.OBJECT_IDENTIFIER)
_ENUMERATED = key_of(Tag.ENUMERATED)
_SEQUENCE = key_of(Tag.SEQUENCE)
_UTC_TIME = key_of(Tag.UTC_TIME)
_GENERALIZED_TIME = key_of(Tag.GENERALIZED_TIME)

# X.690 8.23. The character sets that need escape sequences are taken as UTF-8, as `dm_check_text` takes them.
_CODECS: Dict[int, str] = {
    key_of(Tag.UTF8_STRING): "utf-8",
    key_of(Tag.NUMERIC_STRING): "ascii",
    key_of(Tag.PRINTABLE_STRING): "ascii",
    key_of(Tag.IA5_STRING): "ascii",
    key_of(Tag.VISIBLE_STRING): "ascii",
    key_of(Tag.OBJECT_DESCRIPTOR): "utf-8",
    key_of(Tag.T61_STRING): "utf-8",
    key_of(Tag.VIDEOTEX_STRING): "utf-8",
    key_of(Tag.GRAPHIC_STRING): "utf-8",
    key_of(Tag.GENERAL_STRING): "utf-8",
    key_of(Tag.UNIVERSAL_STRING): "utf-32-be",
    key_of(Tag.BMP_STRING): "utf-16-be",
}


def parse_der(data: ReadableBuffer, *, max_depth: int = DEFAULT_DEPTH, allow_trailing: bool = False) -> Tree:
    """Reads octets that are one element in DER.

    >>> tree = parse_der(bytes.fromhex("3006 020105 0101ff"))
    >>> [child.value for child in tree.root]
    [5, True]

    Args:
        data: Any object with octets, such as ``bytes`` or ``mmap``. The tree keeps it and doesn't copy it.
        max_depth: The largest depth of elements, at most ``MAX_DEPTH``.
        allow_trailing: Whether octets may follow the element, at :attr:`Tree.end`.

    Raises:
        Incomplete: The octets are cut short.
        DerError: They aren't an element in DER, or octets follow it.
    """
    return _parse("der", data, max_depth, allow_trailing)


def parse_ber(data: ReadableBuffer, *, max_depth: int = DEFAULT_DEPTH, allow_trailing: bool = False) -> Tree:
    """Reads by BER, as :func:`parse_der` does by DER.

    >>> parse_ber(bytes.fromhex("3080 020105 0000")).root.value
    [5]
    """
    return _parse("ber", data, max_depth, allow_trailing)


def check_der(data: ReadableBuffer, *, max_depth: int = DEFAULT_DEPTH) -> int:
    """Checks that octets are one element in DER. Returns the number of elements: itself and those inside it.

    It checks what ``dm_check_der`` of ``dumarewhi.h`` checks.

    >>> check_der(bytes.fromhex("3006 020105 0101ff"))
    3

    Raises:
        Incomplete: The octets are cut short.
        DerError: They aren't an element in DER, or octets follow it.
    """
    return _check("der", data, max_depth)


def check_ber(data: ReadableBuffer, *, max_depth: int = DEFAULT_DEPTH) -> int:
    """Checks by BER, as :func:`check_der` does by DER."""
    return _check("ber", data, max_depth)


def to_der(data: ReadableBuffer) -> bytes:
    """Elements in BER as DER writes them, all of them: with lengths in the fewest octets and strings in one part.

    The order of a SET OF and default values depend on the ASN.1 and stay as they are.

    >>> to_der(bytes.fromhex("3080 2480 040161 040162 0000 0000")).hex(" ", -4)
    '30040402 6162'

    Raises:
        Incomplete: The octets are cut short.
        DerError: They aren't elements in BER, or one has no form in DER.
    """
    return Source(data).to_der()


def _depth(max_depth: int) -> int:
    return max(0, min(max_depth, MAX_DEPTH))


def _parse(rules: Rules, data: ReadableBuffer, max_depth: int, allow_trailing: bool) -> Tree:
    source = Source(data)
    tree = Tree._read(source, rules, _depth(max_depth), 0, source.length, 0)
    if not allow_trailing:
        _expect_end(tree.end, source.length)
    return tree


def _check(rules: Rules, data: ReadableBuffer, max_depth: int) -> int:
    source = Source(data)
    found = source.check_first(rules, _depth(max_depth))
    _expect_end(found.length, source.length)
    return found.elements


def _expect_end(end: int, length: int) -> None:
    if end < length:
        raise DerError("octets are left", end)


class Tree:
    """An element and those inside it, as :func:`parse_der` returns it.

    It takes 40 octets for each element, over the caller's octets. Nodes are made when they are asked for.
    """

    __slots__ = ("_source", "_rules", "_max_depth", "_begin", "_depth", "_words", "_length", "_inner")

    _source: Source
    _rules: Rules
    # How deep an element may be, from the outermost one.
    _max_depth: int
    # Where the first element begins, and how deep it is.
    _begin: int
    _depth: int
    _words: Words
    _length: int
    # What is inside the elements whose content isn't listed, once it is asked for, by the indexes of their words.
    _inner: Dict[int, Tuple[Node, ...]]

    def __init__(self) -> None:
        raise TypeError("trees are made by parse_der and parse_ber")

    @classmethod
    def _read(cls, source: Source, rules: Rules, max_depth: int, begin: int, end: int, depth: int) -> Tree:
        listing = source.list_first(rules, begin, end, max_depth - depth, depth > 0)
        return cls._of(source, rules, max_depth, begin, depth, listing)

    @classmethod
    def _of(
        cls, source: Source, rules: Rules, max_depth: int, begin: int, depth: int, listing: Listing
    ) -> Tree:
        tree = cls.__new__(cls)
        tree._source = source
        tree._rules = rules
        tree._max_depth = max_depth
        tree._begin = begin
        tree._depth = depth
        tree._words, tree._length = listing
        tree._inner = {}
        return tree

    @property
    def root(self) -> Node:
        """The outermost element."""
        return Node(self, 0, self._depth)

    @property
    def end(self) -> int:
        """The offset after it."""
        return self._begin + self._length

    def __iter__(self) -> Iterator[Node]:
        """All elements in preorder, as :meth:`Node.walk`."""
        return self.root.walk()

    def __repr__(self) -> str:
        return f"<Tree of {self._length} octets: {self.root!r}>"


class Node:
    """An element of a :class:`Tree`.

    >>> node = parse_der(bytes.fromhex("a003 020105")).root
    >>> node.tag, node.offset, node.header_length, node.constructed
    (Tag(tag_class=<Class.CONTEXT_SPECIFIC: 2>, number=0), 0, 2, True)
    >>> node[0].as_int(), node[0].offset
    (5, 2)

    The content of a constructed element of any class is elements (X.690 8.1.4), which are listed with it. A node of
    :meth:`Reader.implicit` lists them when they are asked for: if its octets have changed, :attr:`children` may raise
    an error.
    """

    __slots__ = ("_tree", "_at", "depth")

    depth: int
    """The number of elements around it."""

    def __init__(self, tree: Tree, at: int, depth: int) -> None:
        self._tree = tree
        self._at = at
        self.depth = depth

    @property
    def _key(self) -> int:
        return self._tree._words[self._at + 4] & KEY_MASK

    @property
    def tag(self) -> Tag:
        """The tag."""
        return tag_of(self._key)

    @property
    def tag_class(self) -> Class:
        """The class of the tag."""
        return self.tag.tag_class

    @property
    def number(self) -> int:
        """The number of the tag."""
        return self._tree._words[self._at + 4] & NUMBER_MASK

    @property
    def constructed(self) -> bool:
        """Whether it is constructed, by its identifier octets (X.690 8.1.2.5)."""
        return self._tree._words[self._at + 4] & _CONSTRUCTED != 0

    @property
    def definite(self) -> bool:
        """Whether its length is definite (X.690 8.1.3). By DER it always is."""
        return self._tree._words[self._at + 4] & _DEFINITE != 0

    @property
    def offset(self) -> int:
        """Its offset in the input."""
        return self._tree._begin + self._tree._words[self._at]

    @property
    def header_length(self) -> int:
        """The number of its identifier and length octets."""
        return self._tree._words[self._at + 1] - self._tree._words[self._at]

    @property
    def content_offset(self) -> int:
        """The offset of its content octets."""
        return self._tree._begin + self._tree._words[self._at + 1]

    @property
    def content_end(self) -> int:
        """The end of its content octets."""
        return self._tree._begin + self._tree._words[self._at + 2]

    @property
    def end(self) -> int:
        """Its end, after the end-of-contents octets of an indefinite length (X.690 8.1.5)."""
        return self.content_end + (0 if self.definite else 2)

    @property
    def header(self) -> memoryview:
        """The identifier and length octets."""
        return self._tree._source.view[self.offset : self.content_offset]

    @property
    def content(self) -> memoryview:
        """The content octets, without end-of-contents octets."""
        return self._tree._source.view[self.content_offset : self.content_end]

    @property
    def octets(self) -> memoryview:
        """All octets: header, content and end-of-contents octets."""
        return self._tree._source.view[self.offset : self.end]

    # What is inside

    def __iter__(self) -> Iterator[Node]:
        """The elements directly inside it, in order."""
        return iter(self.children)

    def __getitem__(self, index: int) -> Node:
        """An element directly inside it."""
        return self.children[index]

    @property
    def children(self) -> Tuple[Node, ...]:
        """The elements directly inside it, in order.

        Raises:
            DerError: The octets of a node of :meth:`Reader.implicit` have changed, and aren't elements any more.
        """
        tree, at = self._tree, self._at
        words = tree._words
        inside = words[at + 3]
        if inside == 0:
            is_empty = words[at + 1] == words[at + 2]
            return () if is_empty or not words[at + 4] & _CONSTRUCTED else self._unlisted()
        depth = self.depth + 1
        children = []
        at += WORDS
        stop = at + WORDS * inside
        while at < stop:
            children.append(Node(tree, at, depth))
            at += WORDS * (1 + words[at + 3])
        return tuple(children)

    def _unlisted(self) -> Tuple[Node, ...]:
        """The elements of a content that isn't listed with the element, as under an implicit tag. They are listed as
        those of a SEQUENCE, of a copy that lives as long as the call."""
        tree = self._tree
        known = tree._inner.get(self._at)
        if known is not None:
            return known
        copy = Source(self._copy(_SEQUENCE))
        begin = tree._begin + tree._words[self._at + 2] - copy.length
        try:
            listing = copy.list_first(tree._rules, 0, copy.length, tree._max_depth - self.depth, True)
        except DerError as error:
            raise DerError(error.text, begin + error.offset, error.reason) from None
        inner = Tree._of(tree._source, tree._rules, tree._max_depth, begin, self.depth, listing)
        return tree._inner.setdefault(self._at, inner.root.children)

    def walk(self) -> Iterator[Node]:
        """Itself, and the elements inside it at any depth, in preorder.

        >>> [node.offset for node in parse_der(bytes.fromhex("3007 a003 020105 0500")).root.walk()]
        [0, 2, 4, 7]
        """
        tree, at = self._tree, self._at
        words = tree._words
        stop = at + WORDS * (1 + words[at + 3])
        ends: List[int] = []  # of the listed elements around the next one
        while at < stop:
            while ends and ends[-1] <= at:
                ends.pop()
            node = Node(tree, at, self.depth + len(ends))
            yield node
            inside = words[at + 3]
            at += WORDS
            if inside:
                ends.append(at + WORDS * inside)
            elif node.constructed:
                for child in node.children:
                    yield from child.walk()

    def parse_content(self) -> Tree:
        """Reads content octets that are one element, by the same rules, such as an encoding inside an OCTET STRING.
        Offsets count in the outermost input.

        >>> parse_der(bytes.fromhex("0403 020105")).root.parse_content().root.offset
        2
        """
        tree, end = self._tree, self.content_end
        inner = Tree._read(tree._source, tree._rules, tree._max_depth, self.content_offset, end, self.depth + 1)
        _expect_end(inner.end, end)
        return inner

    def reader(self) -> Reader:
        """A reader of the elements directly inside it.

        Raises:
            DerError: It isn't constructed.
        """
        from ._reader import Reader

        return Reader._inside(self)

    # Values

    @property
    def value(self) -> Value:
        """The value as a Python type, by its tag.

        It is a ``bool``, ``int`` (INTEGER, ENUMERATED), :class:`BitString`, ``bytes`` (OCTET STRING), ``None`` (NULL),
        :class:`ObjectIdentifier`, ``str`` or ``datetime``. Other constructed elements have the list of the values
        inside them, and other primitive ones the content octets.

        >>> parse_der(bytes.fromhex("3008 0603550403 0c0161")).root.value
        [ObjectIdentifier('2.5.4.3'), 'a']
        """
        tree, at = self._tree, self._at
        words = tree._words
        read = _LEAVES.get(words[at + 4])
        if read is not None:
            try:
                return read(tree._source.data[tree._begin + words[at + 1] : tree._begin + words[at + 2]])
            except ValueError:
                return self._exact_value()
        return self._exact_value()

    def _exact_value(self) -> Value:
        read = _READERS.get(self._key)
        if read is not None:
            return read(self)
        if self._tree._words[self._at + 3]:
            return _values_inside(self._tree, self._at, self.depth)
        return [child.value for child in self.children] if self.constructed else bytes(self.content)

    def as_bool(self) -> bool:
        """A BOOLEAN (X.690 8.2)."""
        return _boolean(self._primitive(_BOOLEAN))

    def as_int(self) -> int:
        """An INTEGER or an ENUMERATED, of any size (X.690 8.3)."""
        key = _ENUMERATED if self._key == _ENUMERATED else _INTEGER
        return _integer(self._primitive(key))

    def as_bytes(self) -> bytes:
        """An OCTET STRING (X.690 8.7). By BER a constructed one is joined."""
        return bytes(self._string(_OCTET_STRING))

    def as_bit_string(self) -> BitString:
        """A BIT STRING (X.690 8.6). By BER a constructed one is joined."""
        content = bytes(self._string(_BIT_STRING))
        try:
            return BitString(content[1:], content[0])
        except (IndexError, ValueError):
            raise self._error(Reason.WRONG_VALUE) from None

    def as_null(self) -> None:
        """A NULL (X.690 8.8)."""
        self._primitive(_NULL)

    def as_oid(self) -> ObjectIdentifier:
        """An OBJECT IDENTIFIER (X.690 8.19)."""
        content = self._primitive(_OBJECT_IDENTIFIER)
        try:
            return _identifier(content)
        except ValueError:
            raise self._error(Reason.WRONG_VALUE) from None

    def as_str(self) -> str:
        """A character string of any type (X.690 8.23). By BER a constructed one is joined.

        TeletexString, VideotexString, GraphicString, GeneralString and ObjectDescriptor are read as UTF-8. Other octets
        are an error; :attr:`content` has them.
        """
        key = self._key
        codec = _CODECS.get(key)
        if codec is None:
            raise self._unexpected("a character string")
        content = bytes(self._string(key))
        try:
            return content.decode(codec)
        except UnicodeDecodeError:
            raise self._error(_header.check_text(key, content, len(content)) or Reason.INVALID_CHARACTER) from None

    def as_datetime(self) -> datetime.datetime:
        """A UTCTime or a GeneralizedTime (X.690 8.25).

        It has the encoded zone, or none. A UTCTime has a year of 1950 to 2049 (RFC 5280 4.1.2.5.1). Digits below a
        microsecond are dropped.
        """
        key = self._key
        if key != _UTC_TIME:
            key = _GENERALIZED_TIME
        content = bytes(self._string(key))
        time = _header.TimeStruct()
        rule = _header.read_time(key, content, len(content), ctypes.byref(time))
        if rule:
            raise self._error(rule)
        try:
            return _datetime(time)
        except ValueError:  # as of 30 February
            raise self._error(Reason.INVALID_TIME) from None

    def _primitive(self, key: int) -> Union[bytes, memoryview]:
        """The content octets, if it has this tag and is primitive."""
        tree, at = self._tree, self._at
        words = tree._words
        word = words[at + 4]
        if word & KEY_MASK != key:
            raise self._unexpected(str(tag_of(key)))
        if word & _CONSTRUCTED:
            raise self._error(Reason.PRIMITIVE_EXPECTED)
        return tree._source.data[tree._begin + words[at + 1] : tree._begin + words[at + 2]]

    def _string(self, key: int) -> Union[bytes, memoryview]:
        """The content octets, if it has this tag. The library joins the parts of a constructed string."""
        if not self.constructed:
            return self._primitive(key)
        if self._key != key:
            raise self._unexpected(str(tag_of(key)))
        try:
            return parse_der(to_der(self._copy(key))).root._primitive(key)
        except DerError as error:
            raise self._error(error.reason) from None

    def _copy(self, key: int) -> bytes:
        """The content behind a header with this universal tag, of a number below 31."""
        tree, at = self._tree, self._at
        words = tree._words
        begin, end = words[at + 1], words[at + 2]
        header = _header_octets(key | (0x20 if words[at + 4] & _CONSTRUCTED else 0), end - begin)
        return header + tree._source.data[tree._begin + begin : tree._begin + end]

    def _with_tag(self, key: int) -> Node:
        """The same element with this universal tag. The content is checked as of that type, in a copy."""
        tree = self._tree
        # Any octets are an OCTET STRING.
        if self.constructed or key != _OCTET_STRING:
            try:
                _parse(tree._rules, self._copy(key), tree._max_depth - self.depth, False)
            except DerError as error:
                raise DerError(error.text, self.offset, error.reason) from None
        header, content, end, _, word = tree._words[self._at : self._at + WORDS]
        listing = Listing(_library.words_of(header, content, end, 0, word & ~KEY_MASK | key), self.end - self.offset)
        return Tree._of(tree._source, tree._rules, tree._max_depth, tree._begin, self.depth, listing).root

    def _error(self, rule: int) -> DerError:
        return _library.error_at(rule, self.offset)

    def _unexpected(self, expected: str) -> DerError:
        return DerError(f"expected {expected}, found {self.tag}", self.offset, Reason.UNEXPECTED_TAG)

    def __eq__(self, other: object) -> bool:
        if not isinstance(other, Node):
            return NotImplemented
        return self._tree is other._tree and self._at == other._at

    def __hash__(self) -> int:
        return hash((id(self._tree), self._at))

    def __repr__(self) -> str:
        content = bytes(self.content[:17])
        shown = content.hex(" ") if len(content) < 17 else content[:16].hex(" ") + " .."
        return f"<Node {self.tag} at {self.offset}: {shown}>"


def _boolean(content: Union[bytes, memoryview]) -> bool:
    return content != b"\0"


def _integer(content: Union[bytes, memoryview]) -> int:
    return int.from_bytes(content, "big", signed=True)


def _nothing(_: Union[bytes, memoryview]) -> None:
    return None


def _identifier(content: Union[bytes, memoryview]) -> ObjectIdentifier:
    return ObjectIdentifier.from_content(bytes(content))


def _text(codec: str) -> Callable[[Union[bytes, memoryview]], str]:
    return lambda content: str(content, codec)


# The values of primitive elements of definite length, by the fifth words of elements. For some octets there is a
# `ValueError`, which the calls of a node turn into an error with offset and rule.
_LEAVES: Dict[int, Callable[[Union[bytes, memoryview]], Value]] = {
    _BOOLEAN | _DEFINITE: _boolean,
    _INTEGER | _DEFINITE: _integer,
    _ENUMERATED | _DEFINITE: _integer,
    _OCTET_STRING | _DEFINITE: bytes,
    _NULL | _DEFINITE: _nothing,
    _OBJECT_IDENTIFIER | _DEFINITE: _identifier,
    **{key | _DEFINITE: _text(codec) for key, codec in _CODECS.items()},
}


def _values_inside(tree: Tree, at: int, depth: int) -> List[Value]:
    """The values of the elements that are listed inside an element, which is so deep. No nodes are made of most."""
    words, data, begin = tree._words, tree._source.data, tree._begin
    values: List[Value] = []
    stop = at + WORDS * (1 + words[at + 3])
    at += WORDS
    while at < stop:
        inside, word = words[at + 3], words[at + 4]
        read = _LEAVES.get(word)
        if inside and word & KEY_MASK not in _READERS:
            values.append(_values_inside(tree, at, depth + 1))
        elif read is None:
            values.append(Node(tree, at, depth + 1)._exact_value())
        else:
            try:
                values.append(read(data[begin + words[at + 1] : begin + words[at + 2]]))
            except ValueError:
                values.append(Node(tree, at, depth + 1)._exact_value())
        at += WORDS * (1 + inside)
    return values


_READERS: Dict[int, Callable[[Node], Value]] = {
    _BOOLEAN: Node.as_bool,
    _INTEGER: Node.as_int,
    _BIT_STRING: Node.as_bit_string,
    _OCTET_STRING: Node.as_bytes,
    _NULL: Node.as_null,
    _OBJECT_IDENTIFIER: Node.as_oid,
    _ENUMERATED: Node.as_int,
    _UTC_TIME: Node.as_datetime,
    _GENERALIZED_TIME: Node.as_datetime,
    **dict.fromkeys(_CODECS, Node.as_str),
}


def _datetime(time: _header.TimeStruct) -> datetime.datetime:
    zone: Optional[datetime.timezone] = None
    if time.zone == _header.UTC:
        zone = datetime.timezone.utc
    elif time.zone != _header.LOCAL:
        zone = datetime.timezone(datetime.timedelta(hours=time.zone_hours, minutes=time.zone_minutes))
    return datetime.datetime(
        time.year, time.month, time.day, time.hour, time.minute, time.second, time.nanosecond // 1000, zone
    )


def _header_octets(identifier: int, length: int) -> bytes:
    """One identifier octet, and a length in the fewest octets (X.690 10.1)."""
    if length < 0x80:
        return bytes((identifier, length))
    spelled = length.to_bytes((length.bit_length() + 7) // 8, "big")
    return bytes((identifier, 0x80 | len(spelled))) + spelled
