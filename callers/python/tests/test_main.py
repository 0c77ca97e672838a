"""The command: ``python -m dumarewhi``."""
from __future__ import annotations

import base64
import re
import subprocess
import sys
from pathlib import Path
from typing import Tuple

import pytest
from conftest import DATA, REPOSITORY, octets_of, openssl

from dumarewhi import Reason, __version__, error_text

MESSAGE = octets_of(
    "30 26 02 01 00 04 06 70 75 62 6c 69 63 a0 19 02 01 2a 02 01 00 02 01 00 30 0e 30 0c 06 08 2b 06 01 02 01 01"
    "01 00 05 00"
)

TREE = """\
     0 SEQUENCE
     2   INTEGER 0
     5   OCTET STRING 7075626c6963
    13   [0]
    15     INTEGER 42
    18     INTEGER 0
    21     INTEGER 0
    24     SEQUENCE
    26       SEQUENCE
    28         OBJECT IDENTIFIER 1.3.6.1.2.1.1.1.0
    38         NULL None
"""


def run(*words: str, octets: bytes = b"") -> "subprocess.CompletedProcess[bytes]":
    return subprocess.run([sys.executable, "-m", "dumarewhi", *words], input=octets, capture_output=True)


def test_tree(tmp_path: Path) -> None:
    (tmp_path / "message").write_bytes(MESSAGE)
    shown = run("tree", str(tmp_path / "message"))
    assert (shown.stdout.decode(), shown.stderr, shown.returncode) == (TREE, b"", 0)


def test_standard_input() -> None:
    text = b"-----BEGIN A-----\n" + base64.encodebytes(MESSAGE) + b"-----END A-----\n"
    assert run("tree", "-", octets=text).stdout.decode() == TREE
    shown = run("tree", "--ber", "-", octets=octets_of("30 80 01 01 ff 00 00 05 00"))
    assert shown.stdout.decode() == "     0 SEQUENCE\n     2   BOOLEAN True\n     7 NULL None\n"


def test_texts_are_escaped() -> None:
    """A newline, and a mark that turns the direction of a text (U+202E)."""
    shown = run("tree", "-", octets=octets_of("0c 06 61 0a e2 80 ae 62"))
    assert (shown.stdout, shown.returncode) == (b"     0 UTF8String 'a\\n\\u202eb'\n", 0)


def test_pem(tmp_path: Path) -> None:
    """Each block is shown, to one that can't be read."""
    null = b"-----BEGIN A-----\nBQA=\n-----END A-----\n"
    file = tmp_path / "text"
    file.write_bytes(b"a text\n" + null + null.replace(b"=", b"!"))
    shown = run("tree", str(file))
    assert (shown.stdout.decode(), shown.returncode) == ("     0 NULL None\n", 1)
    assert shown.stderr.decode() == f"{file}: invalid base64 at offset {7 + len(null)}\n"
    file.write_bytes(null[:-9])
    assert run("check", str(file)).stderr.decode() == f"{file}: {error_text(Reason.PEM_NO_END)} at offset 0\n"


DUMP = """\
     0 30 80
     2   04 12 30 30 30 30 30 30 30 30 30 30 30 30 30 30
    18   30 30 30 30
    22   a0 02
    24     05 00
    26 00 00
"""


def test_dump() -> None:
    octets = octets_of("30 80 04 12 30*18 a0 02 05 00 00 00")
    shown = run("dump", "--ber", "-", octets=octets)
    assert (shown.stdout.decode(), shown.returncode) == (DUMP, 0)
    lines = shown.stdout.decode().splitlines()
    assert bytes.fromhex("".join(line[7:] for line in lines)) == octets


def test_check(tmp_path: Path) -> None:
    assert run("check", str(DATA / "certificate.der"), str(DATA / "key.p8")).returncode == 0
    wrong = tmp_path / "wrong"
    wrong.write_bytes(octets_of("05 00 30 80 05 00 00 00"))
    shown = run("check", str(wrong), str(DATA / "certificate.der"))
    assert (shown.stdout, shown.returncode) == (b"", 1)
    assert shown.stderr.decode().startswith(f"{wrong}: ") and shown.stderr.decode().endswith(" at offset 2\n")
    assert run("check", "--ber", str(wrong)).returncode == 0
    wrong.write_bytes(octets_of("a0 02 05 01"))
    assert run("check", str(wrong)).stderr.decode().endswith(" at offset 2\n")


FIELDS = ["-issuer", "-dates", "-subject", "-fingerprint", "-sha256", "-nameopt", "RFC2253", "-dateopt", "iso_8601"]


def test_certificate() -> None:
    """Each field that openssl prints, of all files that are certificates."""
    file = DATA / "certificate.der"
    said = openssl("x509", "-inform", "DER", "-in", file, "-noout", "-serial", *FIELDS).decode().splitlines()
    wanted = dict(line.split("=", 1) for line in said)
    shown = run("certificate", str(file))
    assert (shown.stderr, shown.returncode) == (b"", 0)
    lines = [line.split(": ", 1) for line in shown.stdout.decode().splitlines()]
    fields = dict(lines)
    assert fields["serial"] == wanted["serial"].lower().lstrip("0")
    # (openssl escapes by capital digits, which RFC 4514 2.4 takes as well)
    names = [re.sub(r"\\[0-9A-F]{2}", lambda it: it[0].lower(), wanted[name]) for name in ("issuer", "subject")]
    assert [fields["issuer"], fields["subject"]] == names
    assert fields["not before"].replace("T", " ") == wanted["notBefore"]
    assert fields["not after"].replace("T", " ") == wanted["notAfter"]
    assert fields["sha-256"] == wanted["sha256 Fingerprint"].replace(":", "").lower()
    extensions = [value for title, value in lines if title == "extension"]
    assert "2.5.29.17: DNS:example.org, IP:192.0.2.1" in extensions
    text = b"-----BEGIN CERTIFICATE-----\n" + base64.encodebytes(file.read_bytes()) + b"-----END CERTIFICATE-----\n"
    assert run("certificate", "-", octets=text).stdout == shown.stdout


@pytest.fixture(scope="module")
def hostile(tmp_path_factory: pytest.TempPathFactory) -> Path:
    """A folder with a certificate with a key of 2048 bits, whose common name has a newline and a mark that turns the
    direction of a text (U+202E), and whose name of DNS has a newline; the same in PEM; and one with the serial number
    [2]."""
    folder = tmp_path_factory.mktemp("hostile")
    lines = [
        *("[req]", "distinguished_name = name", "x509_extensions = extensions", "prompt = no", "utf8 = yes"),
        *("string_mask = utf8only", "[name]", "CN = a\\nsubject: b\u202ec", "[extensions]"),
        *("subjectAltName = ASN1:SEQUENCE:names", "[names]", "host = IMPLICIT:2,IA5STRING:a\\nDNS: b"),
    ]
    (folder / "conf").write_text("\n".join(lines), encoding="utf-8")
    words = ("-newkey", "rsa:2048", "-nodes", "-days", "30", "-set_serial", "258", "-keyout", folder / "key.pem")
    der = openssl("req", "-x509", *words, "-config", folder / "conf", "-outform", "DER")
    assert der.count(octets_of("02 02 01 02")) == 1
    (folder / "der").write_bytes(der)
    (folder / "pem").write_bytes(openssl("x509", "-inform", "DER", octets=der))
    (folder / "wrong").write_bytes(der.replace(octets_of("02 02 01 02"), octets_of("82 02 01 02")))
    return folder


EXAMPLE = REPOSITORY / "tools/release-parts/examples/certificate.py"


@pytest.mark.parametrize("program", [("-m", "dumarewhi", "certificate"), (str(EXAMPLE),)])
def test_names_that_turn_the_text(hostile: Path, program: Tuple[str, ...]) -> None:
    """Each name stands in one line of printable ASCII, as openssl prints it."""

    def show(name: str) -> "subprocess.CompletedProcess[bytes]":
        return subprocess.run([sys.executable, *program, str(hostile / name)], capture_output=True)

    said = openssl("x509", "-inform", "DER", "-in", hostile / "der", "-noout", "-subject", "-nameopt", "RFC2253")
    wanted = re.sub(r"\\[0-9A-F]{2}", lambda it: it[0].lower(), said.decode().strip())
    shown = show("der")
    lines = shown.stdout.decode("ascii").split("\n")
    assert (shown.returncode, shown.stderr) == (0, b"")
    assert [line for line in lines if "subject" in line and "issuer" not in line] == [
        wanted.replace("subject=", "subject: ")
    ]
    assert all(line.isprintable() for line in lines)
    assert show("pem").stdout == shown.stdout
    told = {"wrong": rb"serialNumber at \d+: unexpected class, found \[2\]\n$", "key.pem": b"CERTIFICATE|PEM"}
    for name, text in told.items():
        refused = show(name)
        assert (refused.returncode, refused.stdout) == (1, b"") and re.search(text, refused.stderr)


def test_names_of_dns_and_keys(hostile: Path) -> None:
    lines = run("certificate", str(hostile / "der")).stdout.decode().splitlines()
    assert "Public-Key: (2048 bit)" in openssl("x509", "-inform", "DER", "-in", hostile / "der", "-text").decode()
    assert "key: 1.2.840.113549.1.1.1, 2048 bits" in lines
    assert r"extension: 2.5.29.17: DNS:a\nDNS: b" in lines


def test_neither_der_nor_pem() -> None:
    shown = run("certificate", "-", octets=b"hello world")
    assert (shown.stdout, shown.stderr, shown.returncode) == (b"", b"-: neither DER nor PEM\n", 1)


def test_no_certificate(tmp_path: Path) -> None:
    (tmp_path / "message").write_bytes(MESSAGE)
    shown = run("certificate", str(tmp_path / "message"))
    assert (shown.stdout, shown.returncode) == (b"", 1)
    assert b"tbsCertificate at 2: " in shown.stderr


def test_no_file(tmp_path: Path) -> None:
    shown = run("tree", str(tmp_path / "nothing"))
    assert shown.returncode == 1 and b"No such file" in shown.stderr


@pytest.mark.parametrize("words", [[], ["tree"], ["draw", "x"]])
def test_usage(words: "list[str]") -> None:
    assert run(*words).returncode == 2


def test_version() -> None:
    assert run("--version").stdout.decode() == __version__ + "\n"
