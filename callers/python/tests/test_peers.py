"""Certificates and messages as pyasn1, asn1crypto and cryptography read them."""
from __future__ import annotations

import datetime
from typing import Any, Iterator

import pytest
from conftest import certificates, octets_of
from test_openssl import Fields

from dumarewhi import BitString, Node, ObjectIdentifier, Tag, Writer, parse_ber, parse_der

MESSAGE = octets_of(
    "30 26 02 01 00 04 06 70 75 62 6c 69 63 a0 19 02 01 2a 02 01 00 02 01 00 30 0e 30 0c 06 08 2b 06 01 02 01 01"
    "01 00 05 00"
)


def leaves(node: Node) -> Iterator[object]:
    """The values of primitive elements, as the other packages have them."""
    for inner in node.walk():
        if not inner.constructed:
            value = inner.value
            if isinstance(value, ObjectIdentifier):
                yield str(value)
            elif isinstance(value, BitString):
                yield "".join(str(int(bit)) for bit in value)
            elif isinstance(value, datetime.datetime):
                yield bytes(inner.content)
            else:
                yield value


def leaves_of_pyasn1(value: Any) -> Iterator[object]:
    univ, char, useful = (pytest.importorskip(f"pyasn1.type.{name}") for name in ("univ", "char", "useful"))
    if isinstance(value, univ.Null):
        yield None
    elif isinstance(value, (univ.Boolean, univ.Integer)):
        yield bool(value) if isinstance(value, univ.Boolean) else int(value)
    elif isinstance(value, univ.ObjectIdentifier):
        yield str(value)
    elif isinstance(value, univ.BitString):
        yield value.asBinary().zfill(len(value)) if len(value) else ""
    elif isinstance(value, (useful.UTCTime, useful.GeneralizedTime)):
        yield value.asOctets()
    elif isinstance(value, char.AbstractCharacterString):
        yield str(value)
    elif isinstance(value, univ.OctetString):
        yield value.asOctets()
    else:
        for item in value.values() if hasattr(value, "values") else value:
            yield from leaves_of_pyasn1(item)


def test_pyasn1() -> None:
    decode = pytest.importorskip("pyasn1.codec.der.decoder", reason="there is no pyasn1").decode
    for octets in certificates()[:30]:
        value, rest = decode(octets)
        assert not rest and list(leaves(parse_der(octets).root)) == list(leaves_of_pyasn1(value))


def test_pyasn1_reads_what_is_written() -> None:
    decoder = pytest.importorskip("pyasn1.codec.der.decoder", reason="there is no pyasn1")
    w = Writer()
    with w.open_sequence():
        for number in (0, -1, 1 << 100, -(1 << 100)):
            w.put_integer(number)
        w.put_oid((2, 999, 1 << 80))
        w.put_bits(BitString(b"\xf0", 4))
        w.put_octets(b"ab")
        w.put_null()
        w.put_bool(True)
        w.put_utf8("é")
    value, rest = decoder.decode(w.finish())
    assert not rest and list(leaves_of_pyasn1(value)) == list(leaves(parse_der(w.finish()).root))


def test_asn1crypto() -> None:
    x509 = pytest.importorskip("asn1crypto.x509", reason="there is no asn1crypto")
    for octets in certificates():
        of_others = x509.Certificate.load(octets, strict=True)
        fields = Fields(octets)
        inside = of_others["tbs_certificate"]
        assert fields.version == {"v1": 1, "v2": 2, "v3": 3}[inside["version"].native]
        assert fields.serial == of_others.serial_number
        assert (fields.begins, fields.ends) == (of_others.not_valid_before, of_others.not_valid_after)
        assert bytes(fields.subject.octets) == of_others.subject.dump()
        kinds = [extension["extn_id"].dotted for extension in inside["extensions"]]
        assert [str(kind) for kind in fields.extensions] == kinds
        texts = [node.as_str() for node in fields.subject.walk() if not node.constructed and node.tag.number != 6]
        assert texts == [part["value"].native for name in of_others.subject.chosen for part in name]


def test_asn1crypto_of_messages() -> None:
    core = pytest.importorskip("asn1crypto.core", reason="there is no asn1crypto")

    class Variables(core.SequenceOf):  # type: ignore[misc, no-any-unimported]
        _child_spec = core.Sequence

    class Request(core.Sequence):  # type: ignore[misc, no-any-unimported]
        _fields = [("id", core.Integer), ("status", core.Integer), ("index", core.Integer), ("variables", Variables)]

    class Message(core.Sequence):  # type: ignore[misc, no-any-unimported]
        _fields = [("version", core.Integer), ("community", core.OctetString), ("data", Request, {"implicit": 0})]

    of_others = Message.load(MESSAGE, strict=True).native
    root = parse_ber(MESSAGE).root
    assert root[2].tag == Tag.context(0)
    variable = of_others["data"].pop("variables")[0]
    assert [root[0].value, root[1].value] == [of_others["version"], b"public"]
    assert [node.value for node in root[2]][:3] == list(of_others["data"].values())
    assert [str(root[2][3][0][0].value), root[2][3][0][1].value] == list(variable.values())


def test_cryptography() -> None:
    x509 = pytest.importorskip("cryptography.x509", reason="there is no cryptography")
    for octets in certificates():
        try:
            of_others = x509.load_der_x509_certificate(octets)
            texts = [part.value for name in of_others.subject.rdns for part in name]
        except ValueError:
            continue
        fields = Fields(octets)
        assert fields.serial == of_others.serial_number and fields.version == of_others.version.value + 1
        assert fields.begins.replace(tzinfo=None) == of_others.not_valid_before
        assert fields.ends.replace(tzinfo=None) == of_others.not_valid_after
        own = [node.as_str() for node in fields.subject.walk() if not node.constructed and node.tag.number != 6]
        assert own == texts
