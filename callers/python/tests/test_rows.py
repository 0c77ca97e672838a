"""The rows of the library's tests, as far as they are of its full readers."""
from __future__ import annotations

import datetime
import re
from typing import Callable, Iterator, List, Tuple

import pytest
from conftest import Outcome, Row, octets_of, rows

from dumarewhi import DerError, Incomplete, Node, Tag, Class, Tree, parse_ber, parse_der

READER = re.compile(r"(?:(header)((?: \d+)*) of )?parse_(der|ber)(?:_recursive (\d+))?")

# Names of types in rows, with their numbers.
TYPES = {
    "Boolean": 1, "Integer": 2, "BitString": 3, "OctetString": 4, "Null": 5, "Oid": 6, "ObjectDescriptor": 7,
    "Enum": 10, "Utf8String": 12, "RelativeOid": 13, "Sequence": 16, "Set": 17, "NumericString": 18,
    "PrintableString": 19, "T61String": 20, "VideotexString": 21, "Ia5String": 22, "UTCTime": 23,
    "GeneralizedTime": 24, "GraphicString": 25, "VisibleString": 26, "GeneralString": 27, "BmpString": 30,
    "UniversalString": 28, "EndOfContent": 0,
}  # fmt: skip

CLASSES = {
    "universal": Class.UNIVERSAL,
    "application": Class.APPLICATION,
    "context-specific": Class.CONTEXT_SPECIFIC,
    "private": Class.PRIVATE,
}


class Reading:
    """A call of a full reader, with a row of it."""

    def __init__(self, row: Row, match: "re.Match[str]") -> None:
        self.row = row
        self.path = [int(place) for place in (match[2] or "").split()]
        self.of_header = match[1] is not None
        self.rules = match[3]
        self.depth = min(int(match[4] or 50), 1 << 31)

    def parse(self) -> Tree:
        parse = parse_der if self.rules == "der" else parse_ber
        return parse(self.row.octets, max_depth=self.depth, allow_trailing=True)


def readings() -> Iterator[Reading]:
    for row in rows():
        match = READER.fullmatch(row.call)
        if match:
            yield Reading(row, match)


def compare_value(words: List[str], node: Node) -> None:
    """Compares an element with the words of its value, which are taken from the list."""
    name = words.pop(0)
    if name == "Unknown":
        assert node.tag == Tag(CLASSES[words.pop(0)], int(words.pop(0)))
        assert node.content == take_octets(words)
        return
    assert node.tag == Tag.universal(TYPES[name]), name
    if name in ("Sequence", "Set"):
        assert words.pop(0) == "{"
        for child in node:
            compare_value(words, child)
        assert words.pop(0) == "}"
    elif name == "Boolean":
        assert node.as_bool() is (words.pop(0) == "true")
    elif name == "Enum":
        assert node.as_int() == int(words.pop(0))
    elif name in ("UTCTime", "GeneralizedTime"):
        compare_time(words, node)
    elif name == "BitString":
        assert node.content == bytes((int(words.pop(0)),)) + take_octets(words)
    elif name not in ("EndOfContent", "Null"):  # of which rows don't have the content
        assert node.content == take_octets(words)


def compare_time(words: List[str], node: Node) -> None:
    time = node.as_datetime()
    year = time.year % 100 if node.tag == Tag.UTC_TIME else time.year
    assert [str(field) for field in (year, time.month, time.day, time.hour, time.minute, time.second)] == words[:6]
    del words[:6]
    fraction = words.pop(0)
    assert time.microsecond == int("0" if fraction == "none" else fraction) // 1000
    zone = words.pop(0)
    if zone == "undefined":
        assert time.tzinfo is None
    else:
        hours, minutes = (int(words.pop(0)), int(words.pop(0))) if zone == "offset" else (0, 0)
        assert time.utcoffset() == datetime.timedelta(hours=hours, minutes=minutes)


def take_octets(words: List[str]) -> bytes:
    octets = []
    while words and re.fullmatch(r"([0-9a-f]{2}(\.|$|(?=\*)))+(\*\d+)?", words[0]):
        octets.append(words.pop(0))
    return octets_of(" ".join(octets))


def compare(reading: Reading, tree: Tree) -> None:
    words = reading.row.expected.split()
    if reading.of_header:
        node = tree.root
        for place in reading.path:
            node = node[place]
        tag_class, form, number, length, _, *identifier = words
        assert node.tag == Tag(CLASSES[tag_class], int(number))
        assert node.constructed is (form == "constructed")
        assert node.definite is (length != "indefinite")
        assert not node.definite or len(node.content) == int(length)
        assert bytes(node.header).startswith(octets_of(" ".join(identifier)))
        return
    assert words.pop(0) == "read"
    rest = words.index("rest") if "rest" in words else len(words)
    assert reading.row.octets[tree.end :] == octets_of(" ".join(words[rest + 1 :]))
    values = words[:rest]
    compare_value(values, tree.root)
    assert values == []


def is_of_c(reading: Reading, line: str) -> bool:
    """Whether C returns what the row has: some rows have der-parser's rules where C has those of X.690."""
    begins = {"incomplete": "missing ", "refused": "error ", "broken": "error "}
    kind = reading.row.expected.split()[0]
    return line.startswith(begins[kind]) if kind in begins else " elements in " in line


@pytest.fixture(scope="module")
def lines_of_c(outcomes: Callable[..., List[Outcome]]) -> List[Tuple[Reading, str]]:
    read = list(readings())
    of_c = outcomes((reading.row.octets, reading.depth) for reading in read)
    return [(reading, getattr(outcome, reading.rules)) for reading, outcome in zip(read, of_c)]


def test_rows(lines_of_c: List[Tuple[Reading, str]]) -> None:
    compared = 0
    for reading, line in lines_of_c:
        if not is_of_c(reading, line):
            continue
        try:
            compare(reading, reading.parse())
        except Incomplete as error:
            assert line == f"missing {error.missing}", reading.row
        except DerError as error:
            assert line == f"error {error.reason} at {error.offset}", reading.row
        compared += 1
    assert compared > 250
