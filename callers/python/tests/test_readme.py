"""The lines of Python in README.md, each as a program of its own."""
from __future__ import annotations

import re
from pathlib import Path
from typing import Any

import pytest
from conftest import TESTS, openssl

README = (TESTS.parent / "README.md").read_text()
PROGRAMS = re.findall(r"^```python\n(.*?)^```", README, re.MULTILINE | re.DOTALL)


@pytest.mark.parametrize("program", PROGRAMS)
def test_program(program: str) -> None:
    exec(compile(program, "README.md", "exec"), {})


def test_programs() -> None:
    assert len(PROGRAMS) >= 5


def function(name: str) -> Any:
    """A function of the programs."""
    (program,) = [program for program in PROGRAMS if f"def {name}(" in program]
    names: "dict[str, Any]" = {}
    exec(compile(program, "README.md", "exec"), names)
    return names[name]


def test_names(tmp_path: Path, capsys: pytest.CaptureFixture[str]) -> None:
    key, file = tmp_path / "key", tmp_path / "certificate"
    words = ["-subj", "/CN=a", "-addext", "subjectAltName=DNS:a.example,IP:192.0.2.1,DNS:b.example"]
    openssl("req", "-x509", "-newkey", "ed25519", "-nodes", "-keyout", key, "-out", file, *words)
    der = tmp_path / "der"
    der.write_bytes(openssl("x509", "-in", file, "-outform", "DER"))
    file.write_bytes(b"a text\n" + 2 * file.read_bytes())
    assert function("hosts")(file) == 2 * ["a.example", "b.example"]
    shown = []
    for name in (der, file):
        function("show")(name)
        shown.append(capsys.readouterr().out.splitlines())
    assert shown[0] == shown[1] == ["valid now: True", "DNS:a.example IP:192.0.2.1 DNS:b.example"]


def test_names_take_three_lines() -> None:
    (lines,) = re.findall(r"^def show\(.*\n((?:    .*\n)+)", README, re.MULTILINE)
    assert lines.count("\n") == 3


def test_secret() -> None:
    serialization = pytest.importorskip(
        "cryptography.hazmat.primitives.serialization", reason="there is no cryptography"
    )
    kinds = [["RSA", "-pkeyopt", "rsa_keygen_bits:2048"], ["EC", "-pkeyopt", "ec_paramgen_curve:P-384"]]
    for kind in kinds:
        text = openssl("genpkey", "-algorithm", *kind)
        octets = openssl("pkcs8", "-topk8", "-nocrypt", "-outform", "DER", octets=text)
        numbers = serialization.load_der_private_key(octets, None).private_numbers()
        assert function("secret")(octets) == (numbers.d if kind[0] == "RSA" else numbers.private_value)
