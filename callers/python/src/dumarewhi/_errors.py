"""Why an input can't be read, or a value can't be written."""
from __future__ import annotations

from types import TracebackType
from typing import Optional, Tuple, Type


class DerError(ValueError):
    """An input breaks a rule, or has no value of the requested type.

    >>> import dumarewhi
    >>> try:
    ...     dumarewhi.parse_der(b"\\x30\\x03\\x04\\x81\\x00")
    ... except dumarewhi.DerError as error:
    ...     print(error.offset, error.reason == dumarewhi.Reason.LENGTH_NOT_MINIMAL)
    2 True

    Attributes:
        text: What is wrong.
        offset: The offset of the innermost wrong element; for a :class:`Writer` the number of octets written before.
        reason: One of :class:`Reason`; 0 if it has no number, as for trailing data.
        names: The names of the fields around it, the outermost first, from :class:`named`.
    """

    def __init__(self, text: str, offset: int, reason: int = 0) -> None:
        super().__init__(text, offset, reason)
        self.text = text
        self.offset = offset
        self.reason = reason
        self.names: Tuple[str, ...] = ()

    def __str__(self) -> str:
        if self.names:
            return f"{'.'.join(self.names)} at {self.offset}: {self.text}"
        return f"{self.text} at offset {self.offset}"


class Incomplete(DerError):
    """The input is cut short: more octets may complete it.

    >>> import dumarewhi
    >>> try:
    ...     dumarewhi.parse_der(b"\\x04\\x05ab")
    ... except dumarewhi.Incomplete as error:
    ...     print(error.missing)
    3

    Attributes:
        missing: Number of missing octets, as far as the input shows. It is never too large.
        offset: The length of the input.
    """

    def __init__(self, missing: int, offset: int) -> None:
        super().__init__(f"the input is cut short, {missing} or more octets are missing", offset)
        self.args = (missing, offset)
        self.missing = missing


class named:
    """Adds the name of a field to errors inside the block.

    >>> import dumarewhi
    >>> with named("request"), dumarewhi.Reader(bytes.fromhex("3003 020105")) as reader, reader.open_sequence() as fields:
    ...     with named("serial"):
    ...         fields.boolean()
    Traceback (most recent call last):
    dumarewhi._errors.DerError: request.serial at 2: expected BOOLEAN, found INTEGER
    """

    __slots__ = ("_name",)

    def __init__(self, name: str) -> None:
        self._name = name

    def __enter__(self) -> None:
        pass

    def __exit__(
        self, kind: Optional[Type[BaseException]], error: Optional[BaseException], trace: Optional[TracebackType]
    ) -> None:
        if isinstance(error, DerError):
            error.names = (self._name, *error.names)
