"""A certificate in lines, as ``python -m dumarewhi certificate`` prints it."""
from __future__ import annotations

from typing import Iterator

from ._errors import DerError
from ._header import USAGES
from ._values import ObjectIdentifier
from .x509 import (
    AuthorityKeyIdentifier,
    BasicConstraints,
    Certificate,
    Extension,
    GeneralName,
    KeyUsage,
    PublicKey,
)

def lines(octets: bytes) -> Iterator[str]:
    """The lines of the certificate that the octets are."""
    it = Certificate.from_der(octets)
    yield f"version: {it.version}"
    yield f"serial: {it.serial_number:x}"
    yield f"signature: {it.signature_algorithm.identifier}"
    yield f"issuer: {it.issuer}"
    yield f"not before: {it.not_before:%Y-%m-%dT%H:%M:%SZ}"
    yield f"not after: {it.not_after:%Y-%m-%dT%H:%M:%SZ}"
    yield f"subject: {it.subject}"
    yield f"key: {it.public_key.algorithm.identifier}{_size(it.public_key)}"
    for extension in it.extensions:
        critical = " critical" if extension.critical else ""
        yield f"extension: {extension.identifier}{critical}: {_extension(extension)}"
    yield f"sha-256: {it.fingerprint.hex()}"


def _size(key: PublicKey) -> str:
    """The curve and the size, as far as they are known."""
    curve = "" if key.curve is None else f", {key.curve.name.lower()}"
    return curve if key.key_size is None else f"{curve}, {key.key_size} bits"


def _extension(extension: Extension) -> str:
    try:
        return _value(extension.value) or extension.octets.hex()
    except DerError as error:
        return f"({error}) {extension.octets.hex()}"


def _value(value: object) -> str:
    """The value of an extension, or nothing for one that is shown by its octets."""
    if isinstance(value, BasicConstraints):
        length = "" if value.path_length is None else f", path length {value.path_length}"
        return f"CA {str(value.ca).lower()}{length}"
    if isinstance(value, KeyUsage):
        return ", ".join(name for bit, name in USAGES.items() if value & bit)
    if isinstance(value, AuthorityKeyIdentifier):
        return (value.key_identifier or b"").hex()
    if isinstance(value, bytes):
        return value.hex()
    if isinstance(value, tuple):
        return ", ".join(str(item) for item in value if isinstance(item, (GeneralName, ObjectIdentifier)))
    return ""
