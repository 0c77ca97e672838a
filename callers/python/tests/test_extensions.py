"""Values of extensions beside cryptography, and the rows of the library's tests."""
from __future__ import annotations

import datetime
import ipaddress
from pathlib import Path
from typing import Any, Callable, Dict, List, Optional, Tuple

import pytest
from conftest import REPOSITORY, inputs_of, is_text_of, octets_of, openssl

from dumarewhi import ObjectIdentifier, Reader, Tag, _extensions, parse_der, x509
from dumarewhi.x509 import Certificate, CertificateError, Extension, GeneralName, GeneralNameKind, Name

CONFIGURATION = REPOSITORY / "callers" / "c" / "extensions.cnf"


# As cryptography has them


def name_of_cryptography(name: Any) -> Tuple[int, object]:
    """The kind of a general name, and its value as this package has it."""
    others = pytest.importorskip("cryptography.x509")
    kinds = {
        others.OtherName: 0,
        others.RFC822Name: 1,
        others.DNSName: 2,
        others.DirectoryName: 4,
        others.UniformResourceIdentifier: 6,
        others.IPAddress: 7,
        others.RegisteredID: 8,
    }
    value = name.value
    if isinstance(value, (ipaddress.IPv4Network, ipaddress.IPv6Network)):
        value = value.network_address.packed + value.netmask.packed
    elif isinstance(value, others.ObjectIdentifier):
        value = ObjectIdentifier(value.dotted_string)
    elif isinstance(value, others.Name):
        value = Name(bytes(parse_der(value.public_bytes()).root.content))
    elif isinstance(name, others.OtherName):
        value = bytes(parse_der(value).root.content)
    return kinds[type(name)], value


def compare_names(own: Tuple[GeneralName, ...], others: Any) -> None:
    assert [(int(name.kind), name.value) for name in own] == [name_of_cryptography(name) for name in others or ()]


def compare_qualifier(own: x509.PolicyQualifier, other: Any) -> None:
    """A CPS, which cryptography has as a text, or a UserNotice (4.2.1.4)."""
    element = own.value
    if isinstance(other, str):
        assert (str(own.identifier), element.tag) == ("1.3.6.1.5.5.7.2.1", Tag.IA5_STRING)
        assert element.content.decode() == other and not element.constructed
        return
    assert (str(own.identifier), element.tag, element.constructed) == ("1.3.6.1.5.5.7.2.2", Tag.SEQUENCE, True)
    if other.explicit_text is not None:
        text = other.explicit_text
        assert any(text.encode(codec) in element.content for codec in ("utf-8", "utf-16-be"))


# The names of reasons, by their bits (4.2.1.13).
REASONS = [
    None,
    "key_compromise",
    "ca_compromise",
    "affiliation_changed",
    "superseded",
    "cessation_of_operation",
    "certificate_hold",
    "privilege_withdrawn",
    "aa_compromise",
]


def compare_point(own: x509.DistributionPoint, other: Any) -> None:
    compare_names(own.crl_issuer, other.crl_issuer)
    compare_place(own, other, other.reasons)


def compare_place(own: Any, other: Any, known: Any) -> None:
    """The names of a point, and its reasons."""
    compare_names(own.full_name, other.full_name)
    relative = [] if other.relative_name is None else list(other.relative_name)
    assert [(str(it.identifier), it.text) for it in own.relative_name] == [
        (it.oid.dotted_string, it.value) for it in relative
    ]
    reasons = None if own.reasons is None else {REASONS[at] for at, bit in enumerate(own.reasons) if bit}
    assert reasons == (None if known is None else {reason.name for reason in known})


def compare_issuing_point(own: x509.IssuingDistributionPoint, other: Any) -> None:
    compare_place(own, other, other.only_some_reasons)
    flags = (own.only_contains_user_certs, own.only_contains_ca_certs)
    assert flags == (other.only_contains_user_certs, other.only_contains_ca_certs)
    flags = (own.indirect_crl, own.only_contains_attribute_certs)
    assert flags == (other.indirect_crl, other.only_contains_attribute_certs)


def compare_subtrees(own: Tuple[x509.Subtree, ...], others: Any) -> None:
    compare_names(tuple(tree.base for tree in own), others)
    assert all((tree.minimum, tree.maximum) == (0, None) for tree in own)


USAGES = {
    "digital_signature": x509.KeyUsage.DIGITAL_SIGNATURE,
    "content_commitment": x509.KeyUsage.CONTENT_COMMITMENT,
    "key_encipherment": x509.KeyUsage.KEY_ENCIPHERMENT,
    "data_encipherment": x509.KeyUsage.DATA_ENCIPHERMENT,
    "key_agreement": x509.KeyUsage.KEY_AGREEMENT,
    "key_cert_sign": x509.KeyUsage.KEY_CERT_SIGN,
    "crl_sign": x509.KeyUsage.CRL_SIGN,
}


def compare_list(own: Any, other: Any) -> None:
    """The items of a value that is a list."""
    assert len(own) == len(list(other)) > 0
    for it, item in zip(own, other):
        if isinstance(it, x509.Policy):
            assert str(it.identifier) == item.policy_identifier.dotted_string
            assert len(it.qualifiers) == len(item.policy_qualifiers or ())
            for qualifier, known in zip(it.qualifiers, item.policy_qualifiers or ()):
                compare_qualifier(qualifier, known)
        elif isinstance(it, x509.DistributionPoint):
            compare_point(it, item)
        elif isinstance(it, x509.AccessDescription):
            assert str(it.method) == item.access_method.dotted_string
            compare_names((it.location,), (item.access_location,))
        elif isinstance(it, GeneralName):
            compare_names((it,), (item,))
        elif isinstance(it, int):
            assert it == item.value
        elif isinstance(it, bytes):
            # RFC 6962 3.2: the version, the identifier of the log, and milliseconds since 1970
            since = (item.timestamp - datetime.datetime(1970, 1, 1)) // datetime.timedelta(milliseconds=1)
            assert it[:41] == b"\0" + item.log_id + since.to_bytes(8, "big")
        else:
            assert str(it) == item.dotted_string


def compare_with_cryptography(extension: Optional[Extension], other: Any) -> bool:
    """Compares a value with that of cryptography, if it is of a type that both read."""
    assert extension is not None
    others = pytest.importorskip("cryptography.x509")
    if isinstance(other, others.UnrecognizedExtension):
        return False
    identifier = str(extension.identifier)
    if identifier == "2.5.29.15" and extension.octets.endswith(b"\0"):
        return False  # by DER the last bit isn't 0 (X.690 11.2.2)
    value = extension.value
    if isinstance(value, x509.BasicConstraints):
        assert (value.ca, value.path_length) == (other.ca, other.path_length)
    elif isinstance(value, x509.KeyUsage):
        assert {name for name, bit in USAGES.items() if value & bit} == {it for it in USAGES if getattr(other, it)}
    elif isinstance(value, x509.AuthorityKeyIdentifier):
        assert (value.key_identifier, value.serial_number) == (other.key_identifier, other.authority_cert_serial_number)
        compare_names(value.issuer or (), other.authority_cert_issuer)
    elif isinstance(value, x509.NameConstraints):
        compare_subtrees(value.permitted, other.permitted_subtrees)
        compare_subtrees(value.excluded, other.excluded_subtrees)
    elif isinstance(value, x509.RevocationReason):
        assert value.name.lower() == other.reason.name
    elif isinstance(value, x509.PolicyConstraints):
        numbers = (value.require_explicit_policy, value.inhibit_policy_mapping)
        assert numbers == (other.require_explicit_policy, other.inhibit_policy_mapping)
    elif isinstance(value, x509.IssuingDistributionPoint):
        compare_issuing_point(value, other)
    elif isinstance(value, int):
        assert value == (other.skip_certs if identifier == "2.5.29.54" else other.crl_number)
    elif isinstance(value, datetime.datetime):
        assert value.replace(tzinfo=None) == other.invalidity_date
    elif value is None:
        assert isinstance(other, (others.OCSPNoCheck, others.PrecertPoison))
    elif identifier == "2.5.29.14":
        assert value == other.digest
    elif isinstance(value, tuple):
        compare_list(value, other)
    else:
        return False
    return True


def made(tmp_path: Path, *words: object) -> bytes:
    """A certificate that openssl makes."""
    key = tmp_path / "key"
    return openssl("req", "-x509", "-newkey", "ed25519", "-nodes", "-keyout", key, "-outform", "DER", *words)


def test_lists_in_extensions(tmp_path: Path) -> None:
    """Policies with qualifiers, points, subtrees and descriptions, as openssl writes them and cryptography reads."""
    others = pytest.importorskip("cryptography.x509", reason="there is no cryptography")
    octets = made(tmp_path, "-config", CONFIGURATION)
    it = Certificate.from_der(octets)
    other = others.load_der_x509_certificate(octets)
    compared = [
        str(it.extensions[at].identifier)
        for at, extension in enumerate(other.extensions)
        if compare_with_cryptography(it.extension(extension.oid.dotted_string), extension.value)
    ]
    assert compared[:5] == ["2.5.29.32", "2.5.29.31", "2.5.29.30", "1.3.6.1.5.5.7.1.1", "1.3.6.1.5.5.7.1.11"]
    first, second = value_of(it, "2.5.29.32")
    assert (str(first.identifier), first.qualifiers) == ("1.2.3", ())
    assert (str(second.identifier), len(second.qualifiers)) == ("1.2.4", 3)
    assert {"2.5.29.36", "2.5.29.54", "1.3.6.1.5.5.7.1.24", "1.3.6.1.5.5.7.48.1.5"} <= set(compared)
    assert not it.has_unknown_critical


def test_extensions_of_a_list() -> None:
    """A list of revoked certificates that cryptography makes."""
    others = pytest.importorskip("cryptography.x509", reason="there is no cryptography")
    ed25519 = pytest.importorskip("cryptography.hazmat.primitives.asymmetric.ed25519")
    serialization = pytest.importorskip("cryptography.hazmat.primitives.serialization")
    begin = datetime.datetime(2026, 1, 2, 3, 4, 5)
    name = others.Name([others.NameAttribute(others.NameOID.COMMON_NAME, "an issuer")])
    link = others.UniformResourceIdentifier("http://l.org/")
    reasons = frozenset([others.ReasonFlags.key_compromise, others.ReasonFlags.ca_compromise])
    issuing = others.IssuingDistributionPoint([link], None, False, False, reasons, True, False)
    values = [
        others.CRLNumber(2**159 - 1),
        others.DeltaCRLIndicator(128),
        issuing,
        others.FreshestCRL([others.DistributionPoint([link], None, None, None)]),
        others.IssuerAlternativeName([others.DNSName("i.org")]),
    ]
    of_entry = [others.InvalidityDate(begin), others.CertificateIssuer([others.DirectoryName(name)])]
    made = others.CertificateRevocationListBuilder().issuer_name(name).last_update(begin).next_update(begin)
    for value in values:
        made = made.add_extension(value, critical=value is issuing)
    entry = others.RevokedCertificateBuilder().serial_number(5).revocation_date(begin)
    for value in of_entry:
        entry = entry.add_extension(value, critical=True)
    made = made.add_revoked_certificate(entry.build())
    octets = made.sign(ed25519.Ed25519PrivateKey.generate(), None).public_bytes(serialization.Encoding.DER)
    it = x509.CertificateList.from_der(octets)
    assert it.revoked_certificates is not None
    (revoked,) = it.revoked_certificates
    assert not it.has_unknown_critical and not revoked.has_unknown_critical
    for value in values:
        assert compare_with_cryptography(it.extension(value.oid.dotted_string), value)
    for value in of_entry:
        assert compare_with_cryptography(revoked.extension(value.oid.dotted_string), value)
    number = it.extension("2.5.29.20")
    assert number is not None and number.value == 2**159 - 1


def test_unknown_critical(tmp_path: Path) -> None:
    for identifier, unknown in [("2.5.29.99", True), ("1.3.6.1.4.1.11129.2.4.3", False)]:
        words = ["-subj", "/CN=a", "-addext", f"{identifier}=critical,DER:05:00"]
        assert Certificate.from_der(made(tmp_path, *words)).has_unknown_critical == unknown
    assert not Certificate.from_der(made(tmp_path, "-subj", "/CN=a", "-addext", "1.2.3=DER:05:00")).has_unknown_critical


def test_attributes_of_a_subject(tmp_path: Path) -> None:
    """Attributes, statements and a register (RFC 5280 4.2.1.8, RFC 3739 3.2.6, EV Guidelines 9.8.2), in the octets of
    the library's rows."""
    words = {
        "2.5.29.9": "30 16 30 14 06 08 2b 06 01 05 05 07 09 04 31 08 13 02 44 45 13 02 46 52",
        "1.3.6.1.5.5.7.1.3": "30 17 30 08 06 06 04 00 8e 46 01 01 30 0b 06 06 04 00 8e 46 01 03 02 01 0a",
        "2.23.140.3.1": "30 10 13 03 4e 54 52 13 02 55 53 80 02 43 41 0c 01 31",
    }
    options = [word for name, it in words.items() for word in ("-addext", f"{name}=DER:{it.replace(' ', ':')}")]
    it = Certificate.from_der(made(tmp_path, "-subj", "/CN=a", *options))
    (attribute,) = value_of(it, "2.5.29.9")
    assert str(attribute.identifier) == "1.3.6.1.5.5.7.9.4"  # countryOfCitizenship (RFC 3739 3.2.2)
    with Reader(attribute.values) as reader:
        assert [reader.printable_string(), reader.printable_string()] == ["DE", "FR"]
    compliance, years = value_of(it, "1.3.6.1.5.5.7.1.3")
    assert (str(compliance.identifier), compliance.info) == ("0.4.0.1862.1.1", None)
    assert (str(years.identifier), years.info) == ("0.4.0.1862.1.3", x509.AnyElement(Tag.INTEGER, False, b"\x0a"))
    assert value_of(it, "2.23.140.3.1") == x509.OrganizationIdentifier("NTR", "US", "CA", "1")
    assert hash((attribute, compliance, years))


def value_of(it: Certificate, identifier: str) -> Any:
    extension = it.extension(identifier)
    assert extension is not None
    return extension.value


def test_freshest_crl_and_others(tmp_path: Path) -> None:
    """What goes in, by the words of openssl."""
    words = [
        "freshestCRL=URI:http://a.example/delta",
        "crlDistributionPoints=URI:http://a.example/crl,URI:http://b.example/crl",
        "nameConstraints=permitted;dirName:names,excluded;IP:2001:db8::/ffff:ffff::",
        "issuerAltName=otherName:1.2.3.4;UTF8:ab,RID:1.2.3",
        "subjectInfoAccess=1.3.6.1.5.5.7.48.5;dirName:names",
        "extendedKeyUsage=serverAuth,1.2.3.4",
    ]
    file = tmp_path / "configuration"
    file.write_text("[req]\ndistinguished_name=names\n[names]\nCN=b\n")
    options = [word for extension in words for word in ("-addext", extension)]
    it = Certificate.from_der(made(tmp_path, "-config", file, "-subj", "/CN=a", *options))
    (point,) = value_of(it, "2.5.29.46")
    assert point == x509.DistributionPoint((uri("http://a.example/delta"),), (), None, ())
    points = value_of(it, "2.5.29.31")
    assert [point.full_name for point in points] == [(uri("http://a.example/crl"),), (uri("http://b.example/crl"),)]
    constraints = value_of(it, "2.5.29.30")
    (permitted,), (excluded,) = constraints.permitted, constraints.excluded
    assert str(permitted.base.value) == "CN=b" and permitted.base.kind == GeneralNameKind.DIRECTORY_NAME
    network = ipaddress.ip_network("2001:db8::/32")
    assert excluded.base.value == network.network_address.packed + network.netmask.packed
    other, registered = value_of(it, "2.5.29.18")
    assert (str(other.identifier), other.value) == ("1.2.3.4", b"ab")
    assert registered.value == ObjectIdentifier("1.2.3")
    (description,) = value_of(it, "1.3.6.1.5.5.7.1.11")
    assert (str(description.method), str(description.location.value)) == ("1.3.6.1.5.5.7.48.5", "CN=b")
    assert list(map(str, value_of(it, "2.5.29.37"))) == ["1.3.6.1.5.5.7.3.1", "1.2.3.4"]
    assert hash(it.extensions) == hash(it.extensions) and hash((point, constraints, description, other))


def uri(text: str) -> GeneralName:
    return GeneralName(GeneralNameKind.URI, text)


READS: Dict[str, Callable[[bytes], Any]] = {
    "authority_key_identifier": _extensions.read_authority_key_identifier,
    "basic_constraints": _extensions.read_basic_constraints,
    "certificate_policies": _extensions.read_policies,
    "crl_number": _extensions.read_crl_number,
    "crl_distribution_points": _extensions.read_distribution_points,
    "extended_key_usage": _extensions.read_purposes,
    "general_names": _extensions.read_general_names,
    "information_access": _extensions.read_information_access,
    "inhibit_any_policy": _extensions.read_inhibit_any_policy,
    "invalidity_date": _extensions.read_invalidity_date,
    "issuing_distribution_point": _extensions.read_issuing_distribution_point,
    "key_usage": _extensions.read_key_usage,
    "name_constraints": _extensions.read_name_constraints,
    "ocsp_no_check": _extensions.read_null,
    "organization_identifier": _extensions.read_organization_identifier,
    "policy_constraints": _extensions.read_policy_constraints,
    "policy_mappings": _extensions.read_policy_mappings,
    "qc_statements": _extensions.read_qc_statements,
    "reason_code": _extensions.read_reason,
    "signed_certificate_timestamps": _extensions.read_timestamps,
    "subject_directory_attributes": _extensions.read_directory_attributes,
    "subject_key_identifier": _extensions.read_subject_key_identifier,
    "tls_features": _extensions.read_tls_features,
}

# Rows of these have the encodings of parts, which a value doesn't have.
OTHER_WORDS = ("authority_key_identifier", "general_names", "issuing_distribution_point", "name_constraints")


def words_of(value: Any) -> List[str]:
    """What rows may say of a value."""
    if isinstance(value, x509.KeyUsage):
        return [" ".join(bit.name.lower() for bit in x509.KeyUsage if bit in value)]
    if isinstance(value, x509.RevocationReason):
        return [f"reason {int(value)}"]
    if isinstance(value, bytes):
        return [value.hex(" ")]
    if isinstance(value, x509.BasicConstraints):
        length = "" if value.path_length is None else f" path {value.path_length}"
        return [f"ca {str(value.ca).lower()}{length}"]
    if isinstance(value, tuple):
        words = " ".join(map(word_of_item, value))
        return [f"{len(value)} values", words, f"features {words}".strip(), f"statements {words}".strip()]
    if isinstance(value, x509.PolicyConstraints):
        explicit = "" if value.require_explicit_policy is None else f" explicit {value.require_explicit_policy}"
        mapping = "" if value.inhibit_policy_mapping is None else f" mapping {value.inhibit_policy_mapping}"
        return [f"constraints{explicit}{mapping}"]
    if isinstance(value, x509.OrganizationIdentifier):
        state = "" if value.state_or_province is None else f" state {value.state_or_province}"
        return [f"{value.scheme} {value.country}{state} {value.reference}"]
    if isinstance(value, datetime.datetime):
        return [value.strftime("%Y%m%d%H%M%SZ")]
    if isinstance(value, int):
        return [str(value), value.to_bytes(value.bit_length() // 8 + 1, "big").hex(" ")]
    return ["null"] if value is None else []


def word_of_item(it: object) -> str:
    if isinstance(it, x509.PolicyMapping):
        return f"{it.issuer_policy.content.hex(' ')} is {it.subject_policy.content.hex(' ')}"
    if isinstance(it, x509.DirectoryAttribute):
        values = [f"value {bytes(node.content).hex(' ')}" for node in Reader(it.values)]
        return " ".join([it.identifier.content.hex(" "), *values])
    if isinstance(it, x509.QcStatement):
        return it.identifier.content.hex(" ") + ("" if it.info is None else f" info {it.info.content.hex(' ')}")
    if isinstance(it, bytes):
        return f"timestamp {it.hex(' ')}"
    if isinstance(it, int):
        return str(it)
    if not isinstance(it, x509.DistributionPoint):
        return ""
    numbers = [str(at) for at, bit in enumerate(it.reasons or ()) if bit]
    return " ".join(["point", *(["reasons"] if it.reasons is not None else []), *numbers])


@pytest.mark.parametrize("call", READS)
def test_rows(call: str) -> None:
    compared = 0
    for row, octets in inputs_of(call):
        try:
            words = words_of(READS[call](octets))
            assert " at " not in f" {row.expected}", row
            assert row.expected in words or call in OTHER_WORDS, (row, words)
        except CertificateError as error:
            assert is_text_of(error, row.expected.replace("refused ", "")), (row, str(error))
        compared += 1
    assert compared >= 2


def test_rows_of_reasons() -> None:
    """The reasons of the entries of lists."""
    compared = 0
    for row, octets in inputs_of("reasons"):
        words = []
        for entry in x509.CertificateList.from_der(octets).revoked_certificates or ():
            words.append(entry.serial_number.to_bytes((entry.serial_number.bit_length() + 8) // 8, "big").hex(" "))
            try:
                words.append("no reason" if entry.reason is None else f"reason {int(entry.reason)}")
            except CertificateError as error:
                words.append(f"refused {error.text.partition(', found ')[0]}")
        # The text of a rule may have values after it.
        assert row.expected.startswith(" ".join(words)), row
        compared += 1
    assert compared >= 6


def test_reasons_beside_cryptography() -> None:
    others = pytest.importorskip("cryptography.x509", reason="there is no cryptography")
    ed25519 = pytest.importorskip("cryptography.hazmat.primitives.asymmetric.ed25519")
    serialization = pytest.importorskip("cryptography.hazmat.primitives.serialization")
    begin = datetime.datetime(2026, 1, 2)
    name = others.Name([others.NameAttribute(others.NameOID.COMMON_NAME, "an issuer")])
    made = others.CertificateRevocationListBuilder().issuer_name(name).last_update(begin).next_update(begin)
    reasons = list(others.ReasonFlags)
    for number, reason in enumerate(reasons, 1):
        entry = others.RevokedCertificateBuilder().serial_number(number).revocation_date(begin)
        entry = entry.add_extension(others.CRLReason(reason), critical=False)
        made = made.add_revoked_certificate(entry.build())
    entry = others.RevokedCertificateBuilder().serial_number(99).revocation_date(begin)
    made = made.add_revoked_certificate(entry.build()).add_extension(others.CRLNumber(7), critical=False)
    octets = made.sign(ed25519.Ed25519PrivateKey.generate(), None).public_bytes(serialization.Encoding.DER)
    it = x509.CertificateList.from_der(octets)
    assert it.revoked_certificates is not None
    found = [entry.reason for entry in it.revoked_certificates]
    assert [None if reason is None else reason.name.lower() for reason in found] == [
        *(reason.name for reason in reasons),
        None,
    ]
    assert len(set(found)) == 11
    number = it.extension("2.5.29.20")
    assert number is not None and parse_der(number.octets).root.as_int() == 7
    assert it.revoked_certificates[-1].extension("2.5.29.21") is None


def test_cut_values() -> None:
    """More octets may complete each beginning of a value."""
    cut = 0
    for call, read in READS.items():
        for row, octets in inputs_of(call):
            if " at " in f" {row.expected}":
                continue
            for end in range(len(octets)):
                with pytest.raises(CertificateError) as caught:
                    read(octets[:end])
                error = caught.value
                assert error.incomplete and (error.reason, error.list_end) == (0, None), row
                assert error.needed is not None and end + error.needed <= len(octets)
                cut += 1
    assert cut > 300


def test_other_values() -> None:
    """A distance in subtrees, which RFC 5280 doesn't have and the library reads."""
    constraints = _extensions.read_name_constraints(octets_of("30 0d a0 0b 30 09 82 01 61 80 01 02 81 01 07"))
    (tree,) = constraints.permitted
    assert (tree.base, tree.minimum, tree.maximum) == (GeneralName(GeneralNameKind.DNS_NAME, "a"), 2, 7)
    assert constraints.excluded == ()
    with pytest.raises(CertificateError) as caught:
        _extensions.read_name_constraints(octets_of("30 0e a0 0c 30 0a 82 01 61 81 05 01 00 00 00 00"))
    assert "integer too large" in str(caught.value)


def test_usage_without_a_name() -> None:
    """Bit 10, which RFC 5280 doesn't name."""
    assert _extensions.read_key_usage(octets_of("03 03 05 00 20")) == x509.KeyUsage(0)
    assert _extensions.read_key_usage(octets_of("03 03 05 80 20")) == x509.KeyUsage.DIGITAL_SIGNATURE


def test_fields_of_an_authority() -> None:
    """Each alone (RFC 5280 4.2.1.1)."""
    for octets, wanted in (("80 01 05", 0), ("a1 03 82 01 61", 1), ("82 01 05", 2)):
        content = octets_of(octets)
        it = _extensions.read_authority_key_identifier(bytes([0x30, len(content)]) + content)
        fields = it.key_identifier, it.issuer, it.serial_number
        assert [at for at, field in enumerate(fields) if field is not None] == [wanted]


def test_usages(tmp_path: Path) -> None:
    """Each by its name in openssl."""
    names = {
        "digitalSignature": x509.KeyUsage.DIGITAL_SIGNATURE,
        "nonRepudiation": x509.KeyUsage.CONTENT_COMMITMENT,
        "keyEncipherment": x509.KeyUsage.KEY_ENCIPHERMENT,
        "dataEncipherment": x509.KeyUsage.DATA_ENCIPHERMENT,
        "keyAgreement": x509.KeyUsage.KEY_AGREEMENT,
        "keyCertSign": x509.KeyUsage.KEY_CERT_SIGN,
        "cRLSign": x509.KeyUsage.CRL_SIGN,
        "encipherOnly": x509.KeyUsage.ENCIPHER_ONLY,
        "decipherOnly": x509.KeyUsage.DECIPHER_ONLY,
    }
    for name, usage in names.items():
        octets = made(tmp_path, "-subj", "/CN=a", "-addext", f"keyUsage={name}")
        assert Certificate.from_der(octets).key_usage == usage, name


def test_values_by_type(tmp_path: Path) -> None:
    key, file = tmp_path / "key", tmp_path / "certificate"
    values = ["subjectAltName=DNS:a.example,IP:192.0.2.1,DNS:b.example", "extendedKeyUsage=serverAuth"]
    values += ["basicConstraints=CA:TRUE,pathlen:0", "keyUsage=keyCertSign,cRLSign", "subjectKeyIdentifier=hash"]
    values += ["authorityKeyIdentifier=keyid:always"]
    words = [word for value in values for word in ("-addext", value)]
    configuration = tmp_path / "configuration"
    configuration.write_text("[req]\ndistinguished_name = name\n[name]\n")
    words += ["-config", str(configuration)]
    openssl("req", "-x509", "-newkey", "ed25519", "-nodes", "-keyout", key, "-out", file, "-subj", "/CN=a", *words)
    it = Certificate.from_der(openssl("x509", "-in", file, "-outform", "DER"))
    assert [str(name) for name in it.subject_alt_name or ()] == ["DNS:a.example", "IP:192.0.2.1", "DNS:b.example"]
    assert it.dns_names == ("a.example", "b.example")
    second = datetime.timedelta(seconds=1)
    times = [it.not_before - second, it.not_before, it.not_after, it.not_after + second]
    assert [it.is_valid_at(time) for time in times] == [False, True, True, False] and it.is_valid_now()
    zone = datetime.timezone(datetime.timedelta(hours=-11))
    assert [it.is_valid_at(time.astimezone(zone)) for time in times] == [False, True, True, False]
    assert it.is_valid_at(it.not_after + second / 2) and not it.is_valid_at(it.not_before - second / 2)
    with pytest.raises(ValueError, match="before 1970"):
        it.is_valid_at(datetime.datetime(1969, 12, 31, tzinfo=datetime.timezone.utc))
    assert it.basic_constraints == x509.BasicConstraints(True, 0)
    assert it.key_usage == x509.KeyUsage.KEY_CERT_SIGN | x509.KeyUsage.CRL_SIGN
    assert it.extended_key_usage == (ObjectIdentifier("1.3.6.1.5.5.7.3.1"),)
    assert it.authority_key_identifier is not None and it.subject_key_identifier is not None
    assert it.authority_key_identifier.key_identifier == it.subject_key_identifier
    assert it.get(x509.NAME_CONSTRAINTS) is None and it.get(x509.KEY_USAGE) == it.key_usage
    plain = Certificate.from_der((REPOSITORY / "crates" / "der" / "data" / "certificate.der").read_bytes())
    assert (plain.get(x509.CRL_NUMBER), plain.get(x509.REASON_CODE)) == (None, None)
    assert str(GeneralName(GeneralNameKind.DNS_NAME, "a\nDNS: b\u202e")) == "DNS:a\\nDNS: b\\u202e"


def test_names_in_words(tmp_path: Path) -> None:
    names = "email:a@b.example,DNS:b.example,URI:http://c.example,IP:192.0.2.1,RID:1.2.3"
    octets = made(tmp_path, "-subj", "/CN=a", "-addext", f"subjectAltName={names}")
    shown = openssl("x509", "-inform", "DER", "-noout", "-ext", "subjectAltName", octets=octets).decode()
    wanted = shown.splitlines()[-1].replace("IP Address", "IP").replace("Registered ID", "RID").strip()
    assert ", ".join(map(str, Certificate.from_der(octets).subject_alt_name or ())) == wanted
