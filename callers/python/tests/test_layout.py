"""The structs of the package beside those of the C compiler, which tests the same file, and words of elements."""
from __future__ import annotations

import ctypes
import re
from typing import Dict, List, Tuple

from conftest import HEADERS

from dumarewhi import Reason, _header, _records, error_text

# Of each field its offset and its size
Spans = Dict[str, Tuple[int, int]]


def of_c() -> Dict[str, Tuple[int, Spans]]:
    """The size and the fields of each struct."""
    structs: Dict[str, Tuple[int, Spans]] = {}
    text = (HEADERS.parent / "layout.h").read_text()
    for name, size in re.findall(r"STRUCT\((\w+), (\d+)\)", text):
        fields = re.findall(rf"FIELD\({name}, (\w+), (\d+), (\d+), ", text)
        structs[name] = int(size), {field: (int(offset), int(length)) for field, offset, length in fields}
    return structs


def own() -> List[Tuple[str, int, Spans]]:
    """A dm_time is in both."""
    found = [(name, record.size, record.spans) for name, record in _records.RECORDS.items() if name]
    for name, struct in _header.STRUCTS.items():
        fields = [(field, getattr(struct, field)) for field, *_ in struct._fields_]
        found.append((name, ctypes.sizeof(struct), {field: (it.offset, it.size) for field, it in fields}))
    return found


def test_layout() -> None:
    structs = of_c()
    # (elements are words, a digest is octets, and no call for a cursor is used)
    assert {name for name, *_ in own()} == structs.keys() - {"dm_cursor", "dm_digest", "dm_element"}
    for name, size, spans in own():
        assert structs[name] == (size, spans), name


def test_words_of_elements() -> None:
    """An element is five words: see `Listing`."""
    spans = of_c()["dm_element"][1]
    assert [spans[it][0] for it in ("header", "content", "end", "inside")] == [0, 8, 16, 24]
    assert [8 * (spans[it][0] - 32) for it in ("number", "tag_class", "constructed", "definite")] == [0, 32, 40, 48]


def test_texts() -> None:
    for reason in Reason:
        assert len(error_text(reason)) >= 8 and error_text(reason) != error_text(4_000_000_000), reason
