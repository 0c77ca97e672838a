"""Certificates beside C, asn1crypto, cryptography, and the rows of the library's tests."""
from __future__ import annotations

import datetime
import ipaddress
import pickle
import random
import struct
import subprocess
from itertools import islice
from pathlib import Path
from typing import Callable, Dict, Iterator, List, Optional, Sequence, Tuple

import pytest
from conftest import DATA, REPOSITORY, TESTS, certificates, change, inputs_of, is_text_of, octets_of, openssl, rows
from test_extensions import compare_with_cryptography

from dumarewhi import BitString, DerError, ObjectIdentifier, Reason, Tag, Writer, named
from dumarewhi import _header, _parts, x509
from dumarewhi._extensions import read_general_names
from dumarewhi.x509 import (
    Attribute,
    Certificate,
    CertificateError,
    Extension,
    Field,
    GeneralName,
    GeneralNameKind,
    Name,
)

DAMAGED = 10_000
DAMAGED_VALUES = 700  # of each extension

# The extensions that rows have values of.
IDENTIFIERS = {
    "authority_key_identifier": ["2.5.29.35"],
    "basic_constraints": ["2.5.29.19"],
    "certificate_policies": ["2.5.29.32"],
    "crl_number": ["2.5.29.20", "2.5.29.27"],
    "crl_distribution_points": ["2.5.29.31", "2.5.29.46"],
    "extended_key_usage": ["2.5.29.37"],
    "general_names": ["2.5.29.17", "2.5.29.18", "2.5.29.29"],
    "information_access": ["1.3.6.1.5.5.7.1.1", "1.3.6.1.5.5.7.1.11"],
    "inhibit_any_policy": ["2.5.29.54"],
    "invalidity_date": ["2.5.29.24"],
    "issuing_distribution_point": ["2.5.29.28"],
    "key_usage": ["2.5.29.15"],
    "name_constraints": ["2.5.29.30"],
    "ocsp_no_check": ["1.3.6.1.5.5.7.48.1.5", "1.3.6.1.4.1.11129.2.4.3", "2.5.29.56"],
    "organization_identifier": ["2.23.140.3.1"],
    "policy_constraints": ["2.5.29.36"],
    "policy_mappings": ["2.5.29.33"],
    "qc_statements": ["1.3.6.1.5.5.7.1.3"],
    "reason_code": ["2.5.29.21"],
    "signed_certificate_timestamps": ["1.3.6.1.4.1.11129.2.4.2"],
    "subject_directory_attributes": ["2.5.29.9"],
    "subject_key_identifier": ["2.5.29.14"],
    "tls_features": ["1.3.6.1.5.5.7.1.24"],
}


def with_extensions(identifiers: List[str], value: bytes) -> bytes:
    """A certificate with these extensions, all of one value."""
    w = Writer()
    with w.open_sequence():
        with w.open_sequence():
            with w.open_tagged(0):
                w.put_integer(2)
            w.put_integer(5)
            with w.open_sequence():
                w.put_oid("1.2")
            with w.open_sequence():
                pass
            with w.open_sequence():
                for year in (2026, 2027):
                    w.put_time(datetime.datetime(year, 1, 1, tzinfo=datetime.timezone.utc))
            with w.open_sequence():
                pass
            with w.open_sequence():
                with w.open_sequence():
                    w.put_oid("1.2")
                w.put_bits(BitString(b"\1"))
            with w.open_tagged(3), w.open_sequence():
                for identifier in identifiers:
                    with w.open_sequence():
                        w.put_oid(identifier)
                        w.put_octets(value)
        with w.open_sequence():
            w.put_oid("1.2")
        w.put_bits(BitString(b"\1"))
    return w.finish()


def sound() -> List[bytes]:
    """The certificates of the machine, those of `der`, and the rows of certificates."""
    files = [DATA / "certificate.der", *sorted(DATA.parents[1].glob("x509/data/*.der"))]
    strict = [row.octets for row in rows() if row.call == "strict_certificate"]
    return [*certificates(), *(file.read_bytes() for file in files), *strict]


def values() -> Iterator[bytes]:
    """Certificates with the values of extensions that rows have, and with damaged ones."""
    for call, identifiers in IDENTIFIERS.items():
        inputs = [octets for _, octets in inputs_of(call)]
        for octets in [*inputs, *islice(damaged(inputs), DAMAGED_VALUES)]:
            yield with_extensions(identifiers, octets)


def damaged(inputs: List[bytes]) -> Iterator[bytes]:
    """Inputs with some octets changed, left out, put in or cut off. They are the same at each run."""
    chance = random.Random(5280)
    likely = bytes.fromhex("0001020304050506080a0c1316171e30318081828384858687a0a1a3ff")
    for _ in range(DAMAGED):
        octets = bytearray(chance.choice(inputs))
        for _ in range(chance.randrange(1, 4)):
            at = chance.randrange(len(octets) + 1)
            octet = chance.choice(likely) if chance.randrange(3) else chance.randrange(256)
            change(octets, chance.randrange(8), at, octet)
        yield bytes(octets)


# What `certificates.c` prints.


def shown(octets: bytes) -> str:
    return octets.hex() or "-"


def shown_identifier(identifier: ObjectIdentifier) -> str:
    return shown(identifier.content)


def shown_bits(bits: "BitString | None") -> str:
    return "-" if bits is None else f"{bits.unused_bits} {shown(bytes(bits))}"


def shown_algorithm(algorithm: x509.Algorithm) -> str:
    return f"{shown_identifier(algorithm.identifier)} {shown(algorithm.parameters or b'')}"


def shown_time(moment: Tuple[int, ...]) -> str:
    return "{:04}-{:02}-{:02}T{:02}:{:02}:{:02}.{:06}".format(*moment)


def shown_error(error: CertificateError) -> str:
    return f"fault {error.field} {error.offset} {error.reason} {error.needed or 0} ({error})"


def shown_tag(tag: Tag) -> str:
    return f"{int(tag.tag_class)}.{tag.number}"


def shown_attributes(attributes: Sequence[Attribute]) -> str:
    words = ["{"]
    for it in attributes:
        words.append(f"{shown_identifier(it.identifier)} {shown_tag(it.tag)}.{int(it.constructed)} {shown(it.value)}")
    return " ".join([*words, "}"])


def shown_name(name: Name) -> str:
    return " ".join([shown(str(name).encode()), *map(shown_attributes, name.relative_names)])


def shown_general_name(name: GeneralName) -> str:
    value = name.value
    if isinstance(value, Name):
        return f"{int(name.kind)} {shown_name(value)}"
    if isinstance(value, ObjectIdentifier):
        return f"{int(name.kind)} {shown_identifier(value)}"
    if isinstance(value, str):
        return f"{int(name.kind)} {shown(value.encode())}"
    octets = value if isinstance(value, bytes) else value.packed
    kind = f"0 {shown_identifier(name.identifier)}" if name.identifier is not None else str(int(name.kind))
    return f"{kind} {shown(octets)}"


def number_octets(number: int) -> bytes:
    magnitude = number if number >= 0 else ~number
    return number.to_bytes(magnitude.bit_length() // 8 + 1, "big", signed=True)


def shown_value(extension: Extension) -> List[str]:
    try:
        value = extension.value
    except CertificateError as error:
        return [shown_error(error)]
    except DerError:
        # A date that isn't in the calendar.
        date, _ = _parts.read(_header.read_invalidity_date, _header.TimeFields, extension.octets)
        return [shown_time(_parts.moment_of(date))]
    if isinstance(value, x509.BasicConstraints):
        return [f"ca {int(value.ca)}", *([] if value.path_length is None else [str(value.path_length)])]
    if isinstance(value, x509.KeyUsage):
        return [f"usage {int(value)}"]
    if isinstance(value, x509.AuthorityKeyIdentifier):
        return [
            "key",
            *([] if value.key_identifier is None else [shown(value.key_identifier)]),
            "issuer",
            *([shown_general_name(name) for name in value.issuer or ()]),
            "serial",
            *([] if value.serial_number is None else [shown(number_octets(value.serial_number))]),
        ]
    if isinstance(value, x509.NameConstraints):
        permitted, excluded = map(shown_subtrees, (value.permitted, value.excluded))
        return ["permitted", *permitted, "excluded", *excluded]
    if isinstance(value, x509.RevocationReason):
        return [f"reason {int(value)}"]
    if isinstance(value, bytes):
        return [shown(value)]
    if not isinstance(value, tuple):
        return shown_further(extension, value)
    if str(extension.identifier) in TITLES:
        return [TITLES[str(extension.identifier)], *(word for it in value for word in shown_item(it))]
    return [word for it in value for word in shown_item(it)]


# The words before the items of lists that may be empty.
TITLES = {"1.3.6.1.5.5.7.1.24": "features", "1.3.6.1.5.5.7.1.3": "statements"}


def shown_further(extension: Extension, value: object) -> List[str]:
    """A value of the further extensions that is no list."""
    if isinstance(value, x509.PolicyConstraints):
        words = ["constraints"]
        words += [] if value.require_explicit_policy is None else [f"explicit {value.require_explicit_policy}"]
        return words + ([] if value.inhibit_policy_mapping is None else [f"mapping {value.inhibit_policy_mapping}"])
    if isinstance(value, x509.IssuingDistributionPoint):
        flags = (
            value.only_contains_user_certs,
            value.only_contains_ca_certs,
            value.indirect_crl,
            value.only_contains_attribute_certs,
        )
        names = map(shown_general_name, value.full_name)
        parts = [shown_attributes(value.relative_name), shown_bits(value.reasons)]
        return ["issuing", *names, *parts, "".join(str(int(flag)) for flag in flags)]
    if isinstance(value, x509.OrganizationIdentifier):
        state = [] if value.state_or_province is None else ["of", shown(value.state_or_province.encode())]
        texts = [shown(text.encode()) for text in (value.scheme, value.country, value.reference)]
        return ["organization", *texts[:2], *state, texts[2]]
    if isinstance(value, datetime.datetime):
        return [shown_time((*value.timetuple()[:6], value.microsecond))]
    if isinstance(value, int):
        return [f"any {value}" if str(extension.identifier) == "2.5.29.54" else shown(number_octets(value))]
    assert value is None
    return ["null"]


def shown_item(it: object) -> List[str]:
    """An item of a value that is a list."""
    if isinstance(it, GeneralName):
        return [shown_general_name(it)]
    if isinstance(it, x509.Policy):
        words = [f"policy {shown_identifier(it.identifier)}"]
        for qualifier in it.qualifiers:
            words.append(f"qualifier {shown_identifier(qualifier.identifier)} {shown_tag(qualifier.value.tag)}")
            words.append(shown(qualifier.value.content))
        return words
    if isinstance(it, x509.DistributionPoint):
        names = map(shown_general_name, it.full_name)
        issuers = map(shown_general_name, it.crl_issuer)
        return ["point", *names, shown_attributes(it.relative_name), shown_bits(it.reasons), "of", *issuers]
    if isinstance(it, x509.AccessDescription):
        return [f"access {shown_identifier(it.method)}", shown_general_name(it.location)]
    if isinstance(it, x509.PolicyMapping):
        return ["mapping", shown_identifier(it.issuer_policy), shown_identifier(it.subject_policy)]
    if isinstance(it, x509.DirectoryAttribute):
        return ["attribute", shown_identifier(it.identifier), shown(it.values)]
    if isinstance(it, x509.QcStatement):
        info = [] if it.info is None else [shown_tag(it.info.tag), shown(it.info.content)]
        return [shown_identifier(it.identifier), *info]
    if isinstance(it, bytes):
        return [f"timestamp {shown(it)}"]
    if isinstance(it, int):
        return [str(it)]
    assert isinstance(it, ObjectIdentifier)
    return [shown_identifier(it)]


def shown_subtrees(subtrees: Sequence[x509.Subtree]) -> List[str]:
    words = []
    for it in subtrees:
        words += [shown_general_name(it.base), f"from {it.minimum}"]
        words += [] if it.maximum is None else [f"to {it.maximum}"]
    return words


def line_of(octets: bytes, strict: bool) -> str:
    try:
        it = Certificate.from_der(octets, strict=strict)
    except CertificateError as error:
        return " " + shown_error(error)
    words = [f" version {it.version}", shown(it.tbs), shown(number_octets(it.serial_number))]
    words += [shown_algorithm(it.signature), shown_name(it.issuer)]
    words += [shown_time(moment) for moment in it._validity]
    words += [shown_name(it.subject), shown_algorithm(it.public_key.algorithm), shown_bits(it.public_key.bits)]
    words += [shown_bits(it.issuer_unique_id), shown_bits(it.subject_unique_id)]
    words += [shown_algorithm(it.signature_algorithm), shown_bits(it.signature_value)]
    for extension in it.extensions:
        words += [f"extension {shown_identifier(extension.identifier)} {int(extension.critical)}"]
        words += shown_value(extension)
    return " ".join([*words, f"unknown {int(it.has_unknown_critical)}"])


def test_same_as_c(compiled: Callable[[Path], Path], tmp_path: Path) -> None:
    inputs = sound()
    inputs += [*damaged(inputs), *values()]
    file = tmp_path / "inputs"
    file.write_bytes(b"".join(struct.pack("<I", len(octets)) + octets for octets in inputs))
    program = compiled(TESTS / "certificates.c")
    lines = subprocess.run([program, file], check=True, capture_output=True).stdout.decode().splitlines()
    assert len(lines) == 2 * len(inputs)
    fields = set()
    for at, octets in enumerate(inputs):
        own = [line_of(octets, False), line_of(octets, True)]
        assert own == lines[2 * at : 2 * at + 2], octets.hex()
        fields.add(own[0].split(" ")[2])
    assert len(fields) > 8


def test_beside_cryptography() -> None:
    others = pytest.importorskip("cryptography.x509", reason="there is no cryptography")
    hashes = pytest.importorskip("cryptography.hazmat.primitives.hashes")
    names = 0
    for octets in certificates():
        try:
            other = others.load_der_x509_certificate(octets)
            texts = [part.value for name in other.subject.rdns for part in name]
            extensions = list(other.extensions)
        except ValueError:
            continue
        it = Certificate.from_der(octets)
        assert it.version == other.version.value + 1 and it.serial_number == other.serial_number
        assert it.not_before.replace(tzinfo=None) == other.not_valid_before
        assert it.not_after.replace(tzinfo=None) == other.not_valid_after
        assert [part.text for part in it.subject] == texts
        assert it.tbs == other.tbs_certificate_bytes and bytes(it.signature_value) == other.signature
        assert str(it.signature_algorithm.identifier) == other.signature_algorithm_oid.dotted_string
        assert it.fingerprint == other.fingerprint(hashes.SHA256())
        key = other.public_key()
        assert it.public_key.key_size == key.key_size
        if hasattr(key, "curve"):
            assert it.public_key.curve is not None and it.public_key.curve.name.lower() == key.curve.name.lower()
        own = [(str(extension.identifier), extension.critical) for extension in it.extensions]
        assert own == [(extension.oid.dotted_string, extension.critical) for extension in extensions]
        for extension in extensions:
            names += compare_with_cryptography(it.extension(extension.oid.dotted_string), extension.value)
    assert names > 300


def test_beside_asn1crypto() -> None:
    others = pytest.importorskip("asn1crypto.x509", reason="there is no asn1crypto")
    for octets in certificates():
        other = others.Certificate.load(octets, strict=True)
        it = Certificate.from_der(octets)
        assert it.serial_number == other.serial_number and it.subject.octets in other.subject.dump()
        assert (it.not_before, it.not_after) == (other.not_valid_before, other.not_valid_after)
        assert it.fingerprint == other.sha256 and bytes(it.signature_value) == other.signature
        key = other.public_key
        assert str(it.public_key.algorithm.identifier) == key["algorithm"]["algorithm"].dotted
        assert bytes(it.public_key.bits) == key["public_key"].contents[1:]
        kinds = [extension["extn_id"].dotted for extension in other["tbs_certificate"]["extensions"]]
        assert [str(extension.identifier) for extension in it.extensions] == kinds
        own = [extension.value for extension in it.extensions if str(extension.identifier) == "2.5.29.14"]
        assert own == ([other.key_identifier] if other.key_identifier else [])


def test_names() -> None:
    def general(octets: str) -> Tuple[GeneralName, ...]:
        return read_general_names(octets_of(octets))

    assert general("30 05 82 03 61 2e 62") == (GeneralName(GeneralNameKind.DNS_NAME, "a.b"),)
    (four,) = general("30 06 87 04 c0 00 02 01")
    assert str(four.value) == "192.0.2.1"
    (six,) = general("30 12 87 10 20 01 0d b8 00*11 01")
    assert isinstance(six.value, ipaddress.IPv6Address) and str(six.value) == "2001:db8::1"
    (five,) = general("30 07 87 05 c0 00 02 01 00")
    assert five.value == b"\xc0\0\2\1\0"
    (identifier,) = general("30 04 88 02 2a 03")
    assert identifier.value == ObjectIdentifier("1.2.3")
    (directory,) = general("30 0f a4 0d 30 0b 31 09 30 07 06 03 55 04 03 0c 00")
    assert isinstance(directory.value, Name) and str(directory.value) == "CN="
    (other,) = general("30 0a a0 08 06 02 2a 03 a0 02 05 00")
    assert (other.identifier, other.value) == (ObjectIdentifier("1.2.3"), b"")


@pytest.mark.parametrize(
    "value, text",
    [
        ("0c 02 c3 a9", "é"),
        ("0c 01 c3", None),
        ("12 01 61", None),
        ("13 01 40", None),
        ("16 01 40", "@"),
        ("16 01 80", None),
        ("1e 04 00 e9 20 ac", "é€"),
        ("1e 01 61", None),
        ("1c 04 00 01 f6 00", "\U0001f600"),
        ("1a 01 7f", None),
        ("2c 03 0c 01 61", None),
        ("8c 01 61", None),
    ],
)
def test_texts_of_attributes(value: str, text: Optional[str]) -> None:
    """Only a primitive string of characters of its type has a text."""
    octets = octets_of(value)
    attribute = b"\x30" + bytes([5 + len(octets)]) + b"\x06\x03\x55\x04\x03" + octets
    assert Name(b"\x31" + bytes([len(attribute)]) + attribute).get("2.5.4.3") == text


RULES = [
    "SameAlgorithms",
    "PositiveSerialNumber",
    "ShortSerialNumber",
    "NamedIssuer",
    "OrderedAttributes",
    "UtcTimeTo2049",
    "WholeSeconds",
    "UniqueIdVersion",
    "ExtensionsVersion",
    "DistinctExtensions",
    "NamedSubject",
    "DerValues",
]


def test_rows_of_strict_certificates() -> None:
    found = [row for row in rows() if row.call == "strict_certificate"]
    assert len(found) > 20
    for row in found:
        Certificate.from_der(row.octets)
        try:
            Certificate.from_der(row.octets, strict=True)
            assert row.expected == "read", row
        except CertificateError as error:
            assert row.expected == f"read breaks {RULES[error.reason - Reason.ALGORITHMS_DIFFER]}", row
            assert (error.field, error.offset) == (Field.CERTIFICATE, 0)


def test_written_names() -> None:
    """Names as openssl writes them, with _ for a space: in UTF-8, and with the octets of other characters than ASCII in
    digits."""
    found = [row for row in rows() if row.call == "written_name" and not row.expected.startswith("at ")]
    for row in found:
        begin = 2 + (row.octets[1] & 0x7F if row.octets[1] > 0x7F else 0)
        name = Name(row.octets[begin:])
        assert name.utf8.replace(" ", "_") == row.expected
        octets = (f"\\{octet:02x}" if octet > 0x7F else chr(octet) for octet in name.utf8.encode())
        assert str(name) == "".join(octets)
    assert len(found) > 10


def test_errors() -> None:
    with pytest.raises(CertificateError, match="^this is PEM, which dm_decode_input decodes$"):
        Certificate.from_der(b"-----BEGIN CERTIFICATE-----\n")
    with pytest.raises(CertificateError) as caught:
        Certificate.from_der(b"\x30\x05")
    assert (caught.value.incomplete, caught.value.needed, caught.value.reason) == (True, 5, 0)
    with pytest.raises(DerError) as other, named("file"):
        Certificate.from_der(memoryview(b"\x30\x02\x30\x00"))
    error = other.value
    assert str(error).startswith("file tbsCertificate.serialNumber at 4: ")
    again = pickle.loads(pickle.dumps(error))
    assert (str(again), again.field, again.list_end) == (str(error), Field.SERIAL_NUMBER, 4)


def test_dates_that_are_none() -> None:
    """The library takes the day 30 of February, for which Python has no datetime."""
    octets = next(row.octets for row in rows() if row.call == "strict_certificate")
    changed = octets.replace(b"260101000000Z", b"260230000000Z", 1)
    assert changed != octets
    it = Certificate.from_der(changed)
    with pytest.raises(DerError):
        it.not_before
    assert it.not_after == datetime.datetime(2027, 1, 1, tzinfo=datetime.timezone.utc)


def test_certificate_of_the_repository() -> None:
    it = Certificate.from_der((REPOSITORY / "crates/der/data/certificate.der").read_bytes())
    assert repr(it).startswith("<Certificate of ") and hash(it.subject) == hash(it.subject)
    assert it.subject.get("2.5.4.3") == it.subject.get(ObjectIdentifier("2.5.4.3"))
    assert it.extension("1.2.3") is None


def test_repeated_names() -> None:
    it = Certificate.from_der(with_extensions(2 * ["2.5.29.17"], octets_of("30 03 82 01 61")))
    with pytest.raises(DerError) as caught:
        it.dns_names
    assert caught.value.reason == Reason.EXTENSION_REPEATED
    assert Certificate.from_der(with_extensions(["2.5.29.18"], octets_of("30 03 82 01 61"))).subject_alt_name is None


def test_requests(tmp_path: Path) -> None:
    """A request that openssl makes, and as cryptography reads it."""
    key = str(tmp_path / "key")
    subject = "/C=DE/O=A, B/OU=1/OU=2/OU=3/OU=4/CN=a.example"
    words = ["-newkey", "ed25519", "-nodes", "-keyout", key, "-subj", subject, "-outform", "DER"]
    octets = openssl("req", "-new", *words, "-addext", "subjectAltName=DNS:b.example")
    it = x509.CertificationRequest.from_der(octets)
    assert str(it.subject) == "CN=a.example,OU=4,OU=3,OU=2,OU=1,O=A\\, B,C=DE"
    assert str(it.public_key.algorithm.identifier) == "1.3.101.112"
    (extension,) = it.extensions
    assert extension.value == (GeneralName(GeneralNameKind.DNS_NAME, "b.example"),)
    assert [str(attribute.identifier) for attribute in it.attributes] == ["1.2.840.113549.1.9.14"]
    assert it.info in it.octets and len(it.signature) == 512
    others = pytest.importorskip("cryptography.x509", reason="there is no cryptography")
    other = others.load_der_x509_csr(octets)
    assert (it.info, bytes(it.signature)) == (other.tbs_certrequest_bytes, other.signature)


def test_lists(tmp_path: Path) -> None:
    """A list that cryptography makes."""
    others = pytest.importorskip("cryptography.x509", reason="there is no cryptography")
    ed25519 = pytest.importorskip("cryptography.hazmat.primitives.asymmetric.ed25519")
    serialization = pytest.importorskip("cryptography.hazmat.primitives.serialization")
    begin, end = datetime.datetime(2026, 1, 2, 3, 4, 5), datetime.datetime(2056, 1, 2)
    name = others.Name([others.NameAttribute(others.NameOID.COMMON_NAME, "an issuer")])
    made = others.CertificateRevocationListBuilder().issuer_name(name).last_update(begin).next_update(end)
    made = made.add_extension(others.CRLNumber(7), critical=False)
    for number in (5, 1 << 100):
        entry = others.RevokedCertificateBuilder().serial_number(number).revocation_date(begin)
        reason = others.CRLReason(others.ReasonFlags.key_compromise)
        made = made.add_revoked_certificate(entry.add_extension(reason, critical=False).build())
    signed = made.sign(ed25519.Ed25519PrivateKey.generate(), None)
    octets = signed.public_bytes(serialization.Encoding.DER)
    it = x509.CertificateList.from_der(octets)
    assert (it.version, str(it.issuer)) == (2, "CN=an issuer")
    utc = datetime.timezone.utc
    assert (it.this_update, it.next_update) == (begin.replace(tzinfo=utc), end.replace(tzinfo=utc))
    assert it.revoked_certificates is not None
    assert [entry.serial_number for entry in it.revoked_certificates] == [5, 1 << 100]
    entry = it.find(1 << 100)
    assert entry is not None and entry.date == begin.replace(tzinfo=utc)
    assert [(str(part.identifier), part.octets) for part in entry.extensions] == [("2.5.29.21", b"\x0a\x01\x01")]
    assert [(str(part.identifier), part.octets) for part in it.extensions] == [("2.5.29.20", b"\x02\x01\x07")]
    assert (it.tbs, bytes(it.signature_value)) == (signed.tbs_certlist_bytes, signed.signature)
    assert it.find(6) is None


def test_rows_of_requests_and_lists() -> None:
    """Rows that are read, and changes of them with a text for each error."""
    reads: Dict[str, Callable[[bytes], object]] = {
        "certification_request": x509.CertificationRequest.from_der,
        "certificate_list": x509.CertificateList.from_der,
    }
    count = 0
    for call, read in reads.items():
        for row, octets in inputs_of(call):
            try:
                read(octets)
                assert " at " not in row.expected, row
            except CertificateError as error:
                assert is_text_of(error, row.expected), (row, str(error))
            count += 1
    assert count > 20
