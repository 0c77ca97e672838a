"""Rules that certificates and CRLs break, beside the rows of the library's tests and beside ``der show --strict``."""
from __future__ import annotations

import os
import re
import subprocess
from pathlib import Path
from typing import List, Tuple, Union

import pytest
from conftest import REPOSITORY, Row, rows

from dumarewhi.x509 import BrokenRule, Certificate, CertificateList

Read = Union[Certificate, CertificateList]

# The call of the rows, the call of the rows with the rules' texts, and the number of their first rule.
CALLS = [
    ("must", "text", 1),
    ("should", "text", 1),
    ("list_must", "list_text", 1001),
    ("list_should", "list_text", 1001),
]


def rows_of(call: str) -> List[Row]:
    return [row for row in rows() if row.call == call]


def read(call: str, octets: bytes) -> Read:
    return CertificateList.from_der(octets) if call.startswith("list") else Certificate.from_der(octets)


@pytest.mark.parametrize("call, texts, first", CALLS)
def test_rows_of_rules(call: str, texts: str, first: int) -> None:
    """The rows have the names of the rules. Those of the texts stand in the order of the numbers."""
    rules = rows_of(texts)
    for row in rows_of(call):
        found = [it for it in read(call, row.octets).broken_rules() if it.is_must == call.endswith("must")]
        assert ", ".join(rules[it.number - first].input.strip() for it in found) == row.expected, row.name
        assert all(it.text == str(it) == rules[it.number - first].expected for it in found)


def line_of(rule: BrokenRule) -> str:
    return f"  Broken {'rule' if rule.is_must else 'recommendation'}: {rule.text}"


def test_rules_of_der_show(tmp_path: Path) -> None:
    program = os.environ.get("DER") or REPOSITORY / "crates/der/out/der"
    if not os.access(program, os.X_OK):
        pytest.skip("there is no program der")
    inputs = {octets: call for call, *_ in CALLS for octets in (row.octets for row in rows_of(call))}
    names: List[Tuple[str, List[str]]] = []
    for number, (octets, call) in enumerate(inputs.items()):
        name = f"{number}.der"
        (tmp_path / name).write_bytes(octets)
        names.append((name, [line_of(it) for it in read(call, octets).broken_rules()]))
    words = [program, "show", "--strict", "--now", "0", "--from", "der", *(name for name, _ in names)]
    shown = subprocess.run(words, cwd=tmp_path, capture_output=True, text=True).stdout
    found: List[Tuple[str, List[str]]] = []
    for line in shown.splitlines():
        if re.fullmatch(r"\d+\.der:", line):
            found.append((line[:-1], []))
        elif line.startswith("  Broken r"):
            found[-1][1].append(line)
    assert len(names) > 500 and found == names
