"""What the tests share: files of the repository, programs of C over the same archive, and openssl."""
from __future__ import annotations

import os
import random
import shutil
import struct
import subprocess
from pathlib import Path
from typing import Callable, Iterable, Iterator, List, NamedTuple, Tuple

import pytest

from dumarewhi import DerError

TESTS = Path(__file__).resolve().parent
REPOSITORY = TESTS.parents[2]
HEADERS = REPOSITORY / "callers" / "c" / "include"
DATA = REPOSITORY / "crates" / "der" / "data"
CERTIFICATES = Path("/usr/share/ca-certificates")


def tool(name: str) -> str:
    """The path of a program. Without it, the test is left out."""
    path = shutil.which(name)
    if path is None:
        pytest.skip(f"there is no {name}")
    return path


def openssl(*words: object, octets: bytes = b"") -> bytes:
    """What openssl prints for octets."""
    command = [tool("openssl"), *map(str, words)]
    return subprocess.run(command, input=octets, check=True, capture_output=True).stdout


@pytest.fixture(scope="session")
def compiled(tmp_path_factory: pytest.TempPathFactory) -> Callable[[Path], Path]:
    """Compiles a program of C over the archive that the package was built of."""
    room = tmp_path_factory.mktemp("programs")

    def compile(source: Path) -> Path:
        folder = os.environ.get("DUMAREWHI_LIB")
        if folder is None:
            pytest.skip("DUMAREWHI_LIB names no archive")
        program = room / source.stem
        command = [tool("cc"), "-std=c99", "-Wall", "-Wextra", "-Werror", "-O1", f"-I{HEADERS}", source]
        subprocess.run([*command, Path(folder, "libdumarewhi_c.a"), "-o", program], check=True)
        return program

    return compile


class Outcome(NamedTuple):
    """What C returns for an input: a line of each call."""

    octets: bytes
    depth: int
    der: str
    ber: str
    written: str


@pytest.fixture(scope="session")
def outcomes(
    compiled: Callable[[Path], Path], tmp_path_factory: pytest.TempPathFactory
) -> Callable[[Iterable[Tuple[bytes, int]]], List[Outcome]]:
    """Runs ``outcomes.c`` on inputs with their depths."""
    program = compiled(TESTS / "outcomes.c")

    def run(inputs: Iterable[Tuple[bytes, int]]) -> List[Outcome]:
        cases = list(inputs)
        file = tmp_path_factory.mktemp("inputs") / "inputs"
        file.write_bytes(b"".join(struct.pack("<II", len(octets), depth) + octets for octets, depth in cases))
        lines = subprocess.run([program, file], check=True, capture_output=True, text=True).stdout.splitlines()
        assert len(lines) == 3 * len(cases)
        return [Outcome(*case, *lines[3 * at : 3 * at + 3]) for at, case in enumerate(cases)]

    return run


def octets_of(text: str) -> bytes:
    """The octets of a row, as ``02 01 05`` or repeated ones as ``30.80*2``."""
    octets = b""
    for word in text.split():
        numbers, _, count = word.partition("*")
        octets += bytes.fromhex(numbers.replace(".", "")) * int(count or "1")
    return octets


class Row(NamedTuple):
    """A row of the library's tests, with one of the calls above it."""

    call: str
    input: str
    expected: str
    name: str

    @property
    def octets(self) -> bytes:
        return octets_of(self.input)


def rows() -> Iterator[Row]:
    """The rows of the library's tests."""
    for file in sorted((REPOSITORY / "tests").glob("rows*/data/*/*.rows")):
        calls: List[str] = []
        for line in file.read_text().splitlines():
            if line.startswith("["):
                calls = [call.strip() for call in line.strip("[]").split(",")]
            elif line and not line.startswith("#"):
                text, expected, name = line.split("|", 2)
                for call in calls:
                    yield Row(call, text, expected.strip(), name.strip())


def inputs_of(call: str) -> Iterator[Tuple[Row, bytes]]:
    """The rows of a call with their inputs, which may be changes of other octets, as ``to 9``, ``8=03`` or nothing."""
    for row in rows():
        name, _, base = row.call.partition(" of ")
        if name != call:
            continue
        if not base:
            yield row, row.octets
            continue
        octets, change = bytearray(octets_of(base)), row.input.strip()
        if change.startswith("to "):
            del octets[int(change[3:]) :]
        elif change:
            at, octet = change.split("=")
            octets[int(at) : int(at) + 1] = bytes.fromhex(octet)
        yield row, bytes(octets)


def certificates() -> List[bytes]:
    """The certificates of the machine."""
    import ssl

    files = sorted(CERTIFICATES.rglob("*.crt"))
    if not files:
        pytest.skip("there are no ca-certificates")
    return [ssl.PEM_cert_to_DER_cert(file.read_text()) for file in files]


def sound() -> List[bytes]:
    """Inputs without damage: the examples of `der`, and messages of X.690 and RFC 1157 in BER."""
    texts = [
        "30 80 30 80 16 05 53 6d 69 74 68 01 01 ff 00 00 04 03 61 62 63 30 03 02 01 05 a0 80 05 00 00 00 31 80 06 03"
        "55 04 03 17 0d 39 32 30 35 32 31 30 30 30 30 30 30 5a 03 02 04 f0 0c 02 c3 a9 00 00 1e 02 00 41 00 00",
        "30 26 02 01 00 04 06 70 75 62 6c 69 63 a0 19 02 01 2a 02 01 00 02 01 00 30 0e 30 0c 06 08 2b 06 01 02 01 01"
        "01 00 05 00",
        "30 80 24 80 04 01 61 04 02 62 63 00 00 0a 01 03 23 09 03 03 00 6e 5d 03 02 04 f0 18 0f"
        "32 30 32 30 30 31 30 31 30 30 30 30 30 30 5a 00 00",
        "31 0a 30 03 01 01 00 30 03 01 01 ff 13 02 4f 4b 9f 22 01 00 1c 04 00 00 00 41",
    ]
    files = [file.read_bytes() for file in sorted(DATA.iterdir()) if file.suffix != ".pem"]
    return [octets_of(text) for text in texts] + [octets for octets in files if len(octets) < 4096]


def change(octets: bytearray, kind: int, at: int, octet: int) -> None:
    """Cuts octets off (of the kind 0), leaves one out (1), puts one in (2) or changes one."""
    if kind == 0:
        del octets[at:]
    elif kind == 1:
        del octets[at : at + 1]
    elif kind == 2:
        octets[at:at] = bytes((octet,))
    else:
        octets[at : at + 1] = bytes((octet,))


def damaged(count: int) -> Iterator[Tuple[bytes, int]]:
    """Inputs with octets changed, left out, put in or cut off, and depths. They are the same at each run."""
    chance = random.Random(52)
    inputs = sound()
    likely = bytes.fromhex("000102030405060a0c1316171e1f2430313f618081828488a0ff")
    for _ in range(count):
        octets = bytearray(chance.choice(inputs))
        for _ in range(chance.randrange(4)):
            at = chance.randrange(len(octets) + 1)
            at = min(at, chance.choice((8, 64, 4096)))
            octet = chance.choice(likely) if chance.randrange(3) else chance.randrange(256)
            change(octets, chance.randrange(5), at, octet)
        depth = chance.choice((0, 1, 2, 3, 4, 50, 50, 50, 50, 250))
        yield bytes(octets), depth


def is_text_of(error: DerError, expected: str) -> bool:
    """Whether a row has the text of an error. It may have values of the error behind it, and the error has the tag that
    was found where the row has such values."""
    text, _, found = str(error).partition(", found ")
    is_of_tags = "unexpected tag" in expected or "unexpected class" in expected
    return expected.startswith(text) and (found != "") == is_of_tags
