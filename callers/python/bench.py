"""Times reading beside pyasn1, asn1crypto and cryptography, and prints two tables:  python bench.py

The inputs are the certificates of the machine, and an SNMP response with ten variables. In the first table, of
microseconds an element, each task reads all values of all elements, so that nothing is left for later: asn1crypto and
this package read a value when it is asked for. pyasn1 and asn1crypto have a schema of SNMP, since they don't read what
is under its tags without one. The second table has microseconds a certificate, with its names and extensions, of those
whose extensions are all in DER. The time is the least of several rounds over all inputs, and that of the processor,
which other programs change less.
"""
from __future__ import annotations

import os
import platform
import ssl
import time
from pathlib import Path
from typing import Any, Callable, List, Optional, Tuple

from dumarewhi import DerError, Reader, Writer, check_der, parse_der, x509

ROUNDS = 9
SECONDS = 0.1  # of a round, at least

Task = Callable[[bytes], object]


def certificates() -> List[bytes]:
    files = sorted(Path("/usr/share/ca-certificates").rglob("*.crt"))
    return [ssl.PEM_cert_to_DER_cert(file.read_text()) for file in files]


def response() -> bytes:
    """Message ::= SEQUENCE { version INTEGER, community OCTET STRING, data [2] IMPLICIT PDU } (RFC 3416)"""
    w = Writer()
    with w.open_sequence():
        w.put_integer(1)
        w.put_octets(b"public")
        with w.open_tagged(2):
            for number in (1_902_661_969, 0, 0):
                w.put_integer(number)
            with w.open_sequence():
                for interface in range(10):
                    with w.open_sequence():
                        w.put_oid(f"1.3.6.1.2.1.2.2.1.10.{interface}")
                        w.put_integer(1_000_000 * interface)
    return w.finish()


def values(octets: bytes) -> object:
    return [node.value for node in parse_der(octets).root.walk() if not node.constructed]


def nested(octets: bytes) -> object:
    return parse_der(octets).root.value


def message(octets: bytes) -> object:
    with Reader(octets) as reader, reader.open_sequence() as fields:
        version, community = fields.integer(), fields.octets()
        with fields.open_tagged(2) as pdu:
            numbers = pdu.integer(), pdu.integer(), pdu.integer()
            with pdu.open_sequence() as variables:
                pairs = []
                while not variables.is_empty:
                    with variables.open_sequence() as pair:
                        pairs.append((pair.oid(), pair.integer()))
    return version, community, numbers, pairs


def fields(octets: bytes) -> object:
    it = x509.Certificate.from_der(octets)
    names = [[(attribute.identifier, attribute.text) for attribute in name] for name in (it.issuer, it.subject)]
    times = it.not_before, it.not_after
    values = [(extension.identifier, extension.critical, extension.value) for extension in it.extensions]
    return it.version, it.serial_number, names, times, it.public_key, values, it.signature_algorithm, it.signature_value


def has_fields(octets: bytes) -> bool:
    """Whether the values of all its extensions are DER."""
    try:
        fields(octets)
    except DerError:
        return False
    return True


def of_cryptography() -> Optional[Task]:
    try:
        from cryptography.x509 import load_der_x509_certificate
    except ImportError:
        return None

    def certificate(octets: bytes) -> object:
        it = load_der_x509_certificate(octets)
        names = [[(attribute.oid, attribute.value) for attribute in name] for name in (it.issuer, it.subject)]
        times = it.not_valid_before, it.not_valid_after
        values = [(extension.oid, extension.critical, extension.value) for extension in it.extensions]
        return it.version, it.serial_number, names, times, values, it.signature_algorithm_oid, it.signature

    return certificate


def of_asn1crypto() -> Optional[Tuple[Task, Task]]:
    try:
        from asn1crypto import core, x509
    except ImportError:
        return None

    class Variable(core.Sequence):  # type: ignore[misc, no-any-unimported]
        _fields = [("name", core.ObjectIdentifier), ("value", core.Integer)]

    class Variables(core.SequenceOf):  # type: ignore[misc, no-any-unimported]
        _child_spec = Variable

    class Request(core.Sequence):  # type: ignore[misc, no-any-unimported]
        _fields = [("id", core.Integer), ("status", core.Integer), ("index", core.Integer), ("variables", Variables)]

    class Message(core.Sequence):  # type: ignore[misc, no-any-unimported]
        _fields = [
            ("version", core.Integer),
            ("community", core.OctetString),
            ("data", Request, {"implicit": 2}),
        ]

    def certificate(octets: bytes) -> Any:
        return x509.Certificate.load(octets).native

    def snmp(octets: bytes) -> Any:
        return Message.load(octets).native

    return certificate, snmp


def of_pyasn1() -> Optional[Tuple[Task, Task]]:
    try:
        from pyasn1.codec.der.decoder import decode
        from pyasn1.type import namedtype, tag, univ
    except ImportError:
        return None

    def sequence(*fields: Tuple[str, Any]) -> Any:
        return univ.Sequence(componentType=namedtype.NamedTypes(*(namedtype.NamedType(*field) for field in fields)))

    variable = sequence(("name", univ.ObjectIdentifier()), ("value", univ.Integer()))
    integers = [(name, univ.Integer()) for name in ("id", "status", "index")]
    request = sequence(*integers, ("variables", univ.SequenceOf(componentType=variable)))
    implicit = request.subtype(implicitTag=tag.Tag(tag.tagClassContext, tag.tagFormatConstructed, 2))
    spec = sequence(("version", univ.Integer()), ("community", univ.OctetString()), ("data", implicit))

    def certificate(octets: bytes) -> Any:
        return decode(octets)

    def snmp(octets: bytes) -> Any:
        return decode(octets, asn1Spec=spec)

    return certificate, snmp


def elements_in(inputs: List[bytes]) -> int:
    return sum(1 for octets in inputs for _ in parse_der(octets).root.walk())


def microseconds(task: Task, inputs: List[bytes], items: int) -> float:
    """The least time of a round, for each of so many items."""
    best = float("inf")
    for _ in range(ROUNDS):
        times, begin, taken = 0, time.process_time(), 0.0
        while taken < SECONDS:
            for octets in inputs:
                task(octets)
            times += 1
            taken = time.process_time() - begin
        best = min(best, taken / times)
    return best * 1e6 / items


def main() -> None:
    of_certificates, messages = certificates(), [response()]
    asn1crypto, pyasn1 = of_asn1crypto(), of_pyasn1()
    tasks: List[Tuple[str, Optional[Task], Optional[Task]]] = [
        ("`check_der`", check_der, check_der),
        ("`parse_der`, the value of each node", values, values),
        ("`parse_der`, `root.value`", nested, nested),
        ("`Reader`, field after field", None, message),
        ("asn1crypto, `.native`", *(asn1crypto or (None, None))),
        ("pyasn1, `decode`", *(pyasn1 or (None, None))),
    ]
    load = os.getloadavg()[0]
    print(f"Python {platform.python_version()}, {os.cpu_count()} processors, load {load:.1f} at the start.\n")
    print("| microseconds an element | certificates | SNMP |\n|---|---|---|")
    for name, certificate, snmp in tasks:
        shown = [
            f"{microseconds(task, inputs, elements_in(inputs)):.2f}" if task and inputs else "-"
            for task, inputs in ((certificate, of_certificates), (snmp, messages))
        ]
        print(f"| {name} | {shown[0]} | {shown[1]} |")
    whole: List[Tuple[str, Optional[Task]]] = [
        ("`x509.Certificate.from_der`, all fields", fields),
        ("`x509.Certificate.from_der`", x509.Certificate.from_der),
        ("cryptography, the same fields", of_cryptography()),
        ("asn1crypto, `.native`", asn1crypto and asn1crypto[0]),
        ("pyasn1, `decode`", pyasn1 and pyasn1[0]),
    ]
    print("\n| microseconds a certificate | |\n|---|---|")
    inputs = list(filter(has_fields, of_certificates))
    for name, task in whole:
        if task and inputs:
            print(f"| {name} | {microseconds(task, inputs, len(inputs)):.0f} |")


if __name__ == "__main__":
    main()
