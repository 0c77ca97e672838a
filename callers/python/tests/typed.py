"""What a type checker finds of the package. It isn't run: `mypy --strict` reads it."""
from __future__ import annotations

import datetime
import mmap
from typing import List, Optional, Tuple

import dumarewhi
from dumarewhi import BitString, Node, ObjectIdentifier, Reader, Tag, Class, Tree, Writer, pem, x509


def trees(data: bytes, mapped: mmap.mmap) -> Tuple[Tree, Node, List[Node], memoryview]:
    tree = dumarewhi.parse_der(mapped, max_depth=9)
    count: int = dumarewhi.check_ber(memoryview(data)) + dumarewhi.check_der(bytearray(data))
    found: List[Node] = [child for child in tree.root if child.number == count and child.tag_class == Class.PRIVATE]
    return tree, tree.root[0], found, tree.root.content


def values(node: Node) -> Tuple[bool, int, bytes, str, BitString, ObjectIdentifier, datetime.datetime]:
    return (
        node.as_bool(),
        node.as_int(),
        node.as_bytes(),
        node.as_str(),
        node.as_bit_string(),
        node.as_oid(),
        node.as_datetime(),
    )


def kind(node: Node) -> str:
    value = node.value
    if isinstance(value, list):
        return kind(node[0]) if value and isinstance(value[0], list) else "list"
    return "text" if isinstance(value, str) else "nothing" if value is None else "other"


def fields(octets: bytes) -> Tuple[int, Optional[str], bool]:
    with Reader(octets, rules="ber") as reader, reader.open_sequence() as r:
        version: int = r.optional_tagged(0, Reader.integer, 0)
        name: Optional[str] = r.optional(Tag.UTF8_STRING, Reader.utf8_string)
        critical: bool = r.tagged(Tag.context(1), lambda inner: inner.boolean())
        return version, name, critical


def written(time: datetime.datetime) -> bytes:
    w = Writer()
    with w.open_sequence(), w.open_tagged(Tag.context(0)) as inner:
        inner.implicit(2).put_ia5("a.b")
        w.put_oid("2.5.4.3")
        w.put_oid([2, 5])
        w.put_time(time)
    return bytes(w)


def errors(octets: bytes) -> Tuple[int, int, str]:
    try:
        dumarewhi.to_der(octets)
    except dumarewhi.Incomplete as error:
        return error.missing, error.offset, error.text
    except dumarewhi.DerError as error:
        return error.reason, error.offset, dumarewhi.error_text(dumarewhi.Reason.MAX_DEPTH)
    return 0, 0, ""


def certificate(octets: bytearray) -> Tuple[int, List[str]]:
    it = x509.Certificate.from_der(octets, strict=True)
    texts: List[str] = [rule.text for rule in it.broken_rules() if rule.is_must]
    for point in it.get(x509.CRL_DISTRIBUTION_POINTS) or ():
        texts += [str(name) for name in point.full_name]
    names: Optional[Tuple[x509.GeneralName, ...]] = it.subject_alt_name
    texts += [*it.dns_names, *(str(name) for name in names or ())]
    if it.key_usage is not None and x509.KeyUsage.CRL_SIGN in it.key_usage and it.basic_constraints is not None:
        assert it.basic_constraints.path_length != 0
    purposes: Optional[Tuple[ObjectIdentifier, ...]] = it.extended_key_usage
    key: Optional[bytes] = it.subject_key_identifier
    assert purposes is None or it.authority_key_identifier is None or it.authority_key_identifier.key_identifier == key
    return it.serial_number, texts


def keys(text: str) -> List[Tuple[str, int, Optional[bytes]]]:
    found = []
    for block in pem.blocks(text):
        key = x509.PrivateKey.from_der(block.octets)
        modulus: int = x509.RsaPrivateKey.from_der(key.private_key).modulus
        found.append((block.label, modulus, None if key.parameters is None else key.parameters.content))
    return found


def of_lists(octets: bytes) -> Tuple[int, List[str]]:
    it = x509.CertificateList.from_der(octets)
    point = it.get(x509.ISSUING_DISTRIBUTION_POINT)
    other: Optional[x509.Extension] = it.extension("1.2.3")
    value: object = None if other is None else other.value
    assert isinstance(value, bytes) and not it.has_unknown_critical
    return it.get(x509.CRL_NUMBER) or 0, [str(name) for name in (() if point is None else point.full_name)]


def public(octets: bytes) -> Tuple[int, int, Optional[bytes]]:
    key = x509.SubjectPublicKeyInfo.from_der(octets)
    rsa = x509.RsaPublicKey.from_der(bytes(key.public_key))
    curve: x509.EcPrivateKey = x509.EcPrivateKey.from_der(octets)
    encrypted: bytes = x509.EncryptedPrivateKey.from_der(octets).encrypted_data
    return rsa.modulus, rsa.public_exponent, encrypted if curve.parameters is None else curve.parameters.content


def reasons(octets: memoryview) -> List[x509.RevocationReason]:
    entries = x509.CertificateList.from_der(octets).revoked_certificates or ()
    return [entry.reason for entry in entries if entry.reason is not None]
