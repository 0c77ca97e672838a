"""The rules that a certificate or a CRL breaks."""
from __future__ import annotations

from ctypes import byref, c_size_t, c_uint32
from dataclasses import dataclass
from typing import Tuple

from . import _certificate_calls as _calls
from . import _header
from ._library import address_of
from ._records import Call


@dataclass(frozen=True)
class BrokenRule:
    """A rule of RFC 5280's text, or of an RFC beside it, that a certificate or a CRL breaks."""

    number: int
    """Its number in ``dumarewhi.h``. In another version the number may be another rule's: keep the text."""
    is_must: bool
    """Whether the RFC says MUST or MUST NOT, rather than SHOULD or SHOULD NOT."""
    text: str
    """Such as ``"nameConstraints isn't critical (RFC 5280 4.2.1.10)"``."""

    def __str__(self) -> str:
        return self.text


def broken(call: Call, octets: bytes) -> Tuple[BrokenRule, ...]:
    """The rules that a call finds broken. The octets are those of what was read."""
    rules = (c_uint32 * _header.MAX_BROKEN_RULES)()
    count, fault = c_size_t(), _header.FaultFields.result[:]
    call(address_of(octets), len(octets), rules, len(rules), byref(count), fault.buffer_info()[0])
    return tuple(
        BrokenRule(number, _header.rule_kind(number) == _header.RULE_MUST, _calls.rule_text(number))
        for number in rules[: count.value]
    )
