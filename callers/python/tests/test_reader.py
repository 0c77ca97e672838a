"""Field after field."""
from __future__ import annotations

import datetime
import pickle
from typing import Callable, List, Tuple, Union

import pytest
from conftest import octets_of

from dumarewhi import BitString, DerError, Incomplete, Reader, Reason, Tag, check_der, named


def fields(octets: bytes) -> Tuple[int, str, bool]:
    """SEQUENCE { version [0] EXPLICIT INTEGER DEFAULT 0, name UTF8String, critical BOOLEAN DEFAULT FALSE }"""
    with Reader(octets) as reader, reader.open_sequence() as r:
        version = r.optional_tagged(0, Reader.integer, 0)
        name = r.utf8_string()
        critical = r.optional(Tag.BOOLEAN, Reader.boolean, False)
    return version, name, critical


@pytest.mark.parametrize(
    "octets, value",
    [
        ("30 09 a0 03 02 01 02 0c 02 68 69", (2, "hi", False)),
        ("30 04 0c 02 68 69", (0, "hi", False)),
        ("30 07 0c 02 68 69 01 01 ff", (0, "hi", True)),
    ],
)
def test_fields(octets: str, value: Tuple[int, str, bool]) -> None:
    assert fields(octets_of(octets)) == value


@pytest.mark.parametrize(
    "octets, reason, offset",
    [
        ("30 04 0c 02 68 69 00", "octets are left", 6),
        ("30 07 0c 02 68 69 02 01 05", "octets are left", 6),
        ("30 0c a0 06 02 01 02 02 01 02 0c 02 68 69", "octets are left", 7),
        ("30 00", "an element is missing", 2),
        ("30 02 a0 00", "an element is missing", 4),
        ("30 04 13 02 68 69", "expected UTF8String, found PrintableString", 2),
        ("31 00", "expected SEQUENCE, found SET", 0),
        ("30 07 a0 03 01 01 ff 0c 00", "expected INTEGER, found BOOLEAN", 4),
        ("30 05 80 01 02 0c 00", "constructed encoding expected", 2),
    ],
)
def test_errors(octets: str, reason: str, offset: int) -> None:
    with pytest.raises(DerError) as caught:
        fields(octets_of(octets))
    assert (caught.value.text, caught.value.offset) == (reason, offset)


def test_errors_of_the_library() -> None:
    with pytest.raises(DerError) as caught:
        fields(octets_of("30 07 0c 02 68 69 04 81 00"))
    assert (caught.value.reason, caught.value.offset) == (Reason.LENGTH_NOT_MINIMAL, 6)
    # An error under a tag, and after an element that was read
    reader = Reader(octets_of("05 00 a0 06 02 01 05 02 02 01"))
    reader.null()
    with pytest.raises(DerError) as caught:
        reader.open_tagged(0)
    assert (caught.value.reason, caught.value.offset) == (Reason.OVERRUN, 7)


def test_streams() -> None:
    """What is cut short says how much is missing, after each element."""
    stream = octets_of("02 01 05 30 03 01 01 ff 04 02 61")
    reader = Reader(stream)
    assert reader.integer() == 5 and reader.offset == 3
    assert reader.open_sequence().boolean() is True and reader.offset == 8
    for _ in range(2):
        with pytest.raises(Incomplete) as caught:
            reader.octets()
        assert (caught.value.missing, caught.value.offset) == (1, len(stream))
    with pytest.raises(Incomplete):
        Reader(b"").null()


def test_after_an_error_the_reader_is_where_it_was() -> None:
    reader = Reader(octets_of("02 01 05 a0 03 02 01 07"))
    calls: List[Callable[[], object]] = [
        reader.boolean, reader.null, reader.oid, reader.octets, reader.bits, reader.utf8_string,
        reader.any_text, reader.time, reader.open_sequence, reader.open_set, reader.enumerated,
        lambda: reader.open_tagged(0), lambda: reader.tagged(0, Reader.integer), reader.end,
    ]  # fmt: skip
    for call in calls:
        with pytest.raises(DerError):
            call()
        assert reader.offset == 0 and reader.peek() == Tag.INTEGER
    assert reader.integer() == 5
    with pytest.raises(DerError):
        reader.tagged(0, Reader.boolean)
    assert reader.tagged(0, Reader.integer) == 7
    assert reader.peek() is None and reader.is_empty
    reader.end()


def test_an_error_in_a_block_is_kept() -> None:
    with pytest.raises(KeyError):
        with Reader(octets_of("30 03 02 01 05")) as reader, reader.open_sequence():
            raise KeyError


def test_values() -> None:
    octets = octets_of(
        "01 01 ff 02 02 01 00 03 02 04 f0 04 01 61 05 00 06 03 55 04 03 0a 01 03 0c 02 c3 a9 13 01 41 16 01 40"
        "12 01 31 17 0d 39 32 30 35 32 31 30 30 30 30 30 30 5a"
    )
    reader = Reader(octets)
    assert reader.boolean() is True
    assert reader.integer() == 256
    assert reader.bits() == BitString(b"\xf0", 4)
    assert reader.octets() == b"a"
    reader.null()
    assert str(reader.oid()) == "2.5.4.3"
    assert reader.enumerated() == 3
    assert reader.utf8_string() == "é"
    assert reader.printable_string() == "A"
    assert reader.ia5_string() == "@"
    assert reader.any_text() == "1"
    assert reader.time() == datetime.datetime(1992, 5, 21, tzinfo=datetime.timezone.utc)
    reader.end()


def test_sets_and_iteration() -> None:
    with Reader(octets_of("31 06 02 01 05 02 01 07")) as reader, reader.open_set() as numbers:
        assert [node.value for node in numbers] == [5, 7]
    with Reader(octets_of("61 08 02 01 05 a0 03 02 01 07")) as reader, reader.open_tagged(Tag.application(1)) as pair:
        assert (pair.integer(), pair.any().value) == (5, [7])


def test_by_ber() -> None:
    octets = octets_of("30 80 02 81 01 05 a0 80 24 80 04 01 61 00 00 00 00 00 00")
    with Reader(octets, rules="ber") as reader, reader.open_sequence() as r:
        assert r.integer() == 5 and r.tagged(0, Reader.octets) == b"a"
    with pytest.raises(DerError):
        Reader(octets).open_sequence()
    with pytest.raises(ValueError):
        Reader(octets, rules="cer")  # type: ignore[arg-type]


@pytest.mark.parametrize(
    "octets, tag, read, value",
    [
        ("82 03 61 2e 62", 2, Reader.ia5_string, "a.b"),
        ("81 02 01 00", 1, Reader.integer, 256),
        ("43 02 10 68", Tag.application(3), Reader.integer, 4200),
        ("80 00", 0, Reader.null, None),
        ("80 02 61 62", 0, Reader.octets, b"ab"),
        ("a0 05 02 01 05 05 00", 0, lambda r: [it.value for it in r.open_sequence()], [5, None]),
        ("86 81 82" + " 61" * 130, 6, Reader.ia5_string, "a" * 130),
        ("80 0d 32 30 30 31 30 31 30 30 30 30 30 30 5a", 0, lambda r: r.text(Tag.VISIBLE_STRING), "200101000000Z"),
        ("80 0f 32 30 32 30 30 31 30 31 30 30 30 30 30 30 5a", 0, lambda r: r.time().year, 2020),
    ],
)
def test_implicit(octets: str, tag: Union[Tag, int], read: Callable[[Reader], object], value: object) -> None:
    reader = Reader(octets_of("05 00") + octets_of(octets) + octets_of("05 00"))
    reader.null()
    assert read(reader.implicit(tag)) == value and reader.offset == 2 + len(octets_of(octets))
    reader.null()
    reader.end()


def test_implicit_by_ber() -> None:
    reader = Reader(octets_of("a0 80 04 01 61 04 01 62 00 00 05 00"), rules="ber")
    assert reader.implicit(0).octets() == b"ab" and reader.offset == 10
    reader.null()
    reader.end()


@pytest.mark.parametrize(
    "octets, read, plain",
    [
        ("81 02 00 05", Reader.integer, "02 02 00 05"),
        ("81 01 80", Reader.ia5_string, "16 01 80"),
        ("a1 03 02 01 05", Reader.integer, "22 03 02 01 05"),
    ],
)
def test_implicit_errors(octets: str, read: Callable[[Reader], object], plain: str) -> None:
    reader = Reader(octets_of(octets)).implicit(1)
    with pytest.raises(DerError) as of_plain:
        check_der(octets_of(plain))
    for _ in range(2):  # the tag is still pending
        with pytest.raises(DerError) as caught:
            read(reader)
        assert (caught.value.reason, caught.value.offset) == (of_plain.value.reason, 0)


def test_no_implicit_tag() -> None:
    reader = Reader(octets_of("82 00"))
    for tag in (1, Tag.OCTET_STRING):
        with pytest.raises(DerError):
            reader.implicit(tag).octets()
    assert reader.implicit(2).octets() == b""
    for number in (-1, 1 << 32):
        for call in (reader.implicit, reader.open_tagged):
            with pytest.raises(ValueError):
                call(number)


def test_depth() -> None:
    octets = octets_of("30 04 30 02 05 00")
    Reader(octets, max_depth=3).open_sequence().open_sequence().null()
    with pytest.raises(DerError) as caught:
        Reader(octets, max_depth=2).open_sequence()
    assert (caught.value.reason, caught.value.offset) == (Reason.MAX_DEPTH, 4)


def test_names_of_fields() -> None:
    with pytest.raises(DerError) as caught:
        with named("request"), Reader(octets_of("30 03 01 01 ff")) as reader, reader.open_sequence() as fields:
            with named("serial"):
                fields.integer()
    error = caught.value
    assert (error.names, error.offset, error.reason) == (("request", "serial"), 2, Reason.UNEXPECTED_TAG)
    assert str(error) == "request.serial at 2: expected INTEGER, found BOOLEAN"
    assert str(pickle.loads(pickle.dumps(error))) == str(error)
    with pytest.raises(Incomplete) as cut:
        with named("request"):
            Reader(octets_of("30 03 01")).open_sequence()
    assert str(cut.value) == "request at 3: the input is cut short, 2 or more octets are missing"
    with pytest.raises(KeyError), named("request"):
        raise KeyError("another error")
    with named("request"):
        assert Reader(octets_of("02 01 05")).integer() == 5
