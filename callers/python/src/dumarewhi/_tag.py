"""Tags."""
from __future__ import annotations

from dataclasses import dataclass
from typing import Union

from ._header import UNIVERSAL, Class, UniversalTags, tag_text
from ._records import text_of


@dataclass(frozen=True, order=True)
class Tag(UniversalTags):
    """A tag: class and number. The constructed bit isn't part of it.

    >>> Tag.INTEGER == Tag(Class.UNIVERSAL, 2)
    True
    >>> print(Tag.OCTET_STRING, Tag.context(0), Tag.application(3))
    OCTET STRING [0] [APPLICATION 3]
    """

    tag_class: Class
    number: int

    @staticmethod
    def universal(number: int) -> Tag:
        """The tag of a type of X.680."""
        return Tag(Class.UNIVERSAL, number)

    @staticmethod
    def application(number: int) -> Tag:
        """A tag of the class application, such as ``[APPLICATION 3]``."""
        return Tag(Class.APPLICATION, number)

    @staticmethod
    def context(number: int) -> Tag:
        """A tag of the class context-specific, such as ``[0]``."""
        return Tag(Class.CONTEXT_SPECIFIC, number)

    @staticmethod
    def private(number: int) -> Tag:
        """A tag of the class private, such as ``[PRIVATE 1]``."""
        return Tag(Class.PRIVATE, number)

    def __str__(self) -> str:
        return text_of(tag_text, self.tag_class, self.number)


AnyTag = Union[Tag, int]
"""A tag. A number is that of a context-specific tag, as in ``[0]``."""

for _name, _number in UNIVERSAL.items():
    setattr(Tag, _name, Tag.universal(_number))

# A tag as one number, as the fifth word of an element has it (see `Listing`).
CLASS_SHIFT = 32
NUMBER_MASK = (1 << CLASS_SHIFT) - 1
KEY_MASK = (1 << 40) - 1


def key_of(tag: AnyTag) -> int:
    """The number and class of a tag in one word."""
    tag_class, number = (Class.CONTEXT_SPECIFIC, tag) if isinstance(tag, int) else (tag.tag_class, tag.number)
    if not 0 <= number < 1 << CLASS_SHIFT:
        raise ValueError(f"the number of a tag is from 0 to 4294967295, and not {number}")
    return number | tag_class << CLASS_SHIFT


_NAMED = {number: Tag.universal(number) for number in UNIVERSAL.values()}
_CLASSES = tuple(Class)


def tag_of(key: int) -> Tag:
    """The tag of a word."""
    return _NAMED.get(key) or Tag(_CLASSES[key >> CLASS_SHIFT], key & NUMBER_MASK)
