"""Blocks of PEM: those of the machine and of openssl, and texts that RFC 7468, RFC 1421 and RFC 4648 decide."""
from __future__ import annotations

import base64
import mmap
import random
import ssl
from pathlib import Path
from typing import List, Tuple, Union

import pytest
from conftest import CERTIFICATES, openssl

from dumarewhi import DerError, Reason, pem
from dumarewhi.x509 import Certificate, PrivateKey

# The octets 05 00 are BQA= (RFC 4648 4).
NULL = "-----BEGIN A NULL-----\nBQA=\n-----END A NULL-----\n"

Found = Union[Tuple[str, int, bytes], Tuple[Reason, int]]


def found(text: str) -> List[Found]:
    """The label, the offset and the octets of each block, or the rule and the offset of its error."""
    blocks, items = pem.blocks(text), []
    while True:
        try:
            block = next(blocks)
            items.append((block.label, block.offset, block.octets))
        except StopIteration:
            return items
        except DerError as error:
            items.append((Reason(error.reason), error.offset))


def null(offset: int) -> Found:
    return "A NULL", offset, b"\5\0"


def test_decode_input() -> None:
    text = b"a text\n" + NULL.encode() + b"-----BEGIN B-----\nAQH/\n-----END B-----\n"
    assert pem.decode_input(text, "B") == b"\1\1\xff" == pem.decode_input(text.decode(), "B")
    # What is DER stays as it is, also with a text of PEM inside, and so does what has no block.
    inside = bytes([0x0C, len(text)]) + text
    assert [pem.decode_input(it, "B") for it in (inside, b"no block", b"")] == [inside, b"no block", b""]
    with pytest.raises(DerError, match="no block has the label CERTIFICATE"):
        pem.decode_input(text, "CERTIFICATE")


def test_blocks_and_text_around_them() -> None:
    assert found("") == found("no block") == []
    assert found(NULL) == found(NULL.replace("\n", "\r\n")) == [null(0)]
    assert found(f"a text:\n{NULL}and\n{NULL}.") == [null(8), null(8 + len(NULL) + 4)]
    quoted = "".join(f"> {line}\n" for line in NULL.splitlines())
    assert found(quoted) == [null(2)]
    # Offsets are of octets.
    assert found(f"é\n{NULL}") == [null(3)]
    assert found("-----BEGIN -----\nBQA=\n-----END -----\n") == [("", 0, b"\5\0")]


def test_errors() -> None:
    """A block that can't be decoded is followed by others. One that has no end is the last one."""
    wrong = NULL.replace("BQA=", "BQ!=")
    assert found(wrong + NULL) == [(Reason.PEM_BASE64, 0), null(len(wrong))]
    headers = "Proc-Type: 4,ENCRYPTED\nDEK-Info: DES-CBC,0011223344556677\n\nBQA="
    encrypted = NULL.replace("BQA=", headers)
    assert found(encrypted + NULL) == [(Reason.PEM_ENCRYPTED, 0), null(len(encrypted))]
    other = NULL.replace("END A NULL", "END NULL")
    assert found(f"\n{other}{NULL}") == [(Reason.PEM_LABELS_DIFFER, 1)]
    for end in range(23, len(NULL) - 1):
        assert found(NULL[:end]) == [(Reason.PEM_NO_END, 0)], end
    blocks = pem.blocks(wrong)
    with pytest.raises(DerError) as caught:
        next(blocks)
    assert str(caught.value) == "invalid base64 at offset 0"
    assert list(blocks) == [] == list(blocks)


def test_objects_with_octets(tmp_path: Path) -> None:
    text = f"a text:\n{NULL}".encode()
    file = tmp_path / "text"
    file.write_bytes(text)
    with file.open("rb") as opened, mmap.mmap(opened.fileno(), 0, access=mmap.ACCESS_READ) as mapped:
        views = [text, bytearray(text), memoryview(text)[:], memoryview(b"\0" + text)[1:], mapped]
        for view in views:
            (block,) = pem.blocks(view)
            assert (block.label, block.offset, block.octets) == null(8)
            del block
        del views, view
    (block,) = pem.blocks(text.decode())
    assert "octets" not in repr(block) and hash(block) == hash(next(pem.blocks(text)))
    assert list(pem.blocks(memoryview(b""))) == []


def test_label_that_is_no_text() -> None:
    (block,) = pem.blocks(NULL.encode().replace(b"A NULL", b"A \xff"))
    assert block.label == "A \ufffd"


def test_certificates_of_the_machine() -> None:
    files = sorted(CERTIFICATES.rglob("*.crt"))
    if not files:
        pytest.skip("there are no ca-certificates")
    texts = [file.read_text() for file in files]
    blocks = list(pem.blocks("".join(texts)))
    assert [block.octets for block in blocks] == [ssl.PEM_cert_to_DER_cert(text) for text in texts]
    assert {block.label for block in blocks} == {"CERTIFICATE"}
    begin = 0
    for block, text in zip(blocks, texts):
        assert block.offset == begin
        begin += len(text)


def test_bundle_of_openssl(tmp_path: Path) -> None:
    """A certificate with its key, an encrypted key, and one that is encrypted by RFC 1421."""
    key, certificate = tmp_path / "key", tmp_path / "certificate"
    openssl("genpkey", "-algorithm", "RSA", "-pkeyopt", "rsa_keygen_bits:2048", "-out", key)
    openssl("req", "-x509", "-key", key, "-subj", "/CN=a", "-out", certificate)
    encrypted = openssl("pkcs8", "-topk8", "-in", key, "-passout", "pass:secret")
    options = ["-traditional", "-aes128", "-passout", "pass:secret"]
    traditional = openssl("rsa", "-in", key, *options)
    texts = [certificate.read_bytes(), b"a text\n", key.read_bytes(), encrypted, traditional, certificate.read_bytes()]
    blocks = pem.blocks(b"".join(texts))
    first, second, third = next(blocks), next(blocks), next(blocks)
    der = openssl("x509", "-in", certificate, "-outform", "DER")
    assert (first.label, first.octets) == ("CERTIFICATE", der)
    plain = openssl("pkcs8", "-topk8", "-nocrypt", "-in", key, "-outform", "DER")
    assert (second.label, second.octets) == ("PRIVATE KEY", plain)
    assert third.label == "ENCRYPTED PRIVATE KEY"
    assert third.octets == base64.b64decode(b"".join(encrypted.splitlines()[1:-1]))
    with pytest.raises(DerError) as caught:
        next(blocks)
    assert (caught.value.reason, caught.value.offset) == (Reason.PEM_ENCRYPTED, len(b"".join(texts[:4])))
    assert next(blocks).octets == der and next(blocks, None) is None
    assert PrivateKey.from_der(second.octets).algorithm == Certificate.from_der(der).public_key.algorithm.identifier


def test_damaged_texts() -> None:
    """Each text has an end, and each block and error an offset in it, behind the one before it."""
    chance = random.Random(7468)
    sound = f"a text\n{NULL}> {NULL}" + NULL.replace("BQA=", "BQ" * 40)
    rules = set()
    for _ in range(5000):
        text = list(sound)
        for _ in range(chance.randrange(1, 5)):
            at = chance.randrange(len(text))
            text[at : at + chance.randrange(3)] = chance.choice(["", "-", "-----", "\n", "=", "A", ":", "é", NULL])
        whole = "".join(text)
        offsets = [item[1] for item in found(whole)]
        assert offsets == sorted(set(offsets)) and all(0 <= at < len(whole.encode()) for at in offsets)
        rules.update(item[0] for item in found(whole) if isinstance(item[0], Reason))
    assert rules == {Reason.PEM_BASE64, Reason.PEM_NO_END, Reason.PEM_LABELS_DIFFER}
