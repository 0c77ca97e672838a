"""Certificates of the machine, and files of this repository, as openssl reads them."""
from __future__ import annotations

import datetime
import re
import subprocess
from typing import List, NamedTuple

import pytest
from conftest import DATA, certificates, tool

from dumarewhi import DerError, Node, ObjectIdentifier, Reader, Tag, Writer, check_der, parse_ber, parse_der, to_der

LINE = re.compile(r" *(\d+):d=(\d+) +hl=(\d+) +l= *(\d+|inf) +(prim|cons): (.*)")


def openssl(*words: str, octets: bytes) -> str:
    """What openssl prints for octets."""
    return subprocess.run([tool("openssl"), *words], input=octets, check=True, capture_output=True).stdout.decode()


class Line(NamedTuple):
    """What openssl and this package say alike of an element."""

    offset: int
    depth: int
    header_length: int
    constructed: bool


def lines_of_openssl(octets: bytes) -> List[Line]:
    lines = []
    for line in openssl("asn1parse", "-inform", "DER", octets=octets).splitlines():
        match = LINE.match(line)
        # Further lines are those of a text.
        if match and match[6].strip() != "EOC":
            lines.append(Line(int(match[1]), int(match[2]), int(match[3]), match[5] == "cons"))
    return lines


def lines(root: Node) -> List[Line]:
    return [Line(node.offset, node.depth, node.header_length, node.constructed) for node in root.walk()]


def test_elements_of_certificates() -> None:
    for octets in certificates()[:40]:
        assert lines(parse_der(octets).root) == lines_of_openssl(octets)


def test_elements_of_files() -> None:
    files = [file for file in sorted(DATA.iterdir()) if file.suffix != ".pem"]
    compared = 0
    for file in files:
        octets = file.read_bytes()
        try:
            root = parse_ber(octets).root
            own = lines(root)
        except DerError:
            continue
        assert own == lines_of_openssl(octets), file
        assert check_der(to_der(octets)) > 0
        compared += 1
    assert compared > 6


class Fields:
    """Fields of a certificate (RFC 5280 4.1)."""

    def __init__(self, octets: bytes) -> None:
        with Reader(octets) as reader, reader.open_sequence() as certificate:
            with certificate.open_sequence() as fields:
                self.version = fields.optional_tagged(0, Reader.integer, 0) + 1
                self.serial = fields.integer()
                fields.any()
                fields.any()
                with fields.open_sequence() as validity:
                    self.begins, self.ends = validity.time(), validity.time()
                self.subject = fields.any()
                with fields.open_sequence() as key:
                    with key.open_sequence() as algorithm:
                        self.key_algorithm = algorithm.oid()
                        algorithm.optional(Tag.NULL, Reader.null)
                        algorithm.optional(Tag.OBJECT_IDENTIFIER, Reader.oid)
                    key.bits()
                for number in (1, 2):
                    fields.optional(number, Reader.any)
                self.extensions = fields.optional_tagged(3, extensions, [])
            certificate.any()
            certificate.bits()


def extensions(reader: Reader) -> List[ObjectIdentifier]:
    """Extensions ::= SEQUENCE OF Extension. Returns their kinds."""
    kinds = []
    with reader.open_sequence() as r:
        while not r.is_empty:
            with r.open_sequence() as extension:
                kinds.append(extension.oid())
                extension.optional(Tag.BOOLEAN, Reader.boolean, False)
                parse_der(extension.octets())
    return kinds


def test_fields_of_certificates() -> None:
    for octets in certificates()[:40]:
        fields = Fields(octets)
        said = openssl("x509", "-inform", "DER", "-noout", "-serial", "-startdate", "-enddate", octets=octets)
        values = dict(line.split("=", 1) for line in said.splitlines())
        assert fields.serial == int(values["serial"], 16)
        for time, name in ((fields.begins, "notBefore"), (fields.ends, "notAfter")):
            written = datetime.datetime.strptime(values[name], "%b %d %H:%M:%S %Y %Z")
            assert time == written.replace(tzinfo=datetime.timezone.utc)
        assert fields.version in (1, 3) and (fields.version == 3) == bool(fields.extensions)
        assert bytes(fields.subject.octets) in octets


@pytest.mark.parametrize("text", ["1.2.840.113549.1.1.11", "2.999.3", "2.25.329800735698586629295641978511506172918"])
def test_identifiers(text: str) -> None:
    w = Writer()
    w.put_oid(text)
    assert openssl("asn1parse", "-inform", "DER", octets=w.finish()).count("OBJECT") == 1
    generated = subprocess.run(
        [tool("openssl"), "asn1parse", "-genstr", f"OID:{text}", "-noout", "-out", "/dev/stdout"],
        check=True,
        capture_output=True,
    )
    assert generated.stdout == w.finish()


@pytest.mark.parametrize(
    "generated, value",
    [
        ("INTEGER:0x123456789abcdef0123456789", 0x123456789ABCDEF0123456789),
        ("INTEGER:-129", -129),
        ("ENUMERATED:3", 3),
        ("BOOLEAN:TRUE", True),
        ("NULL", None),
        ("FORMAT:UTF8,UTF8:é", "é"),
        ("FORMAT:UTF8,BMP:é", "é"),
        ("FORMAT:UTF8,UNIV:é", "é"),
        ("PRINTABLE:A", "A"),
        ("FORMAT:HEX,OCT:00ff", b"\0\xff"),
        ("UTC:200101000000Z", datetime.datetime(2020, 1, 1, tzinfo=datetime.timezone.utc)),
        ("GENTIME:20500101000000Z", datetime.datetime(2050, 1, 1, tzinfo=datetime.timezone.utc)),
        ("OID:2.5.4.3", ObjectIdentifier("2.5.4.3")),
        ("EXP:0,INTEGER:5", [5]),
    ],
)
def test_values(generated: str, value: object) -> None:
    command = [tool("openssl"), "asn1parse", "-genstr", generated, "-noout", "-out", "/dev/stdout"]
    octets = subprocess.run(command, check=True, capture_output=True).stdout
    assert parse_der(octets).root.value == value
