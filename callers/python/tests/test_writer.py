"""What is written, and what is read of it again."""
from __future__ import annotations

import ctypes
import datetime
import random
from typing import Callable

import pytest
from conftest import octets_of

from dumarewhi import BitString, DerError, ObjectIdentifier, Reader, Reason, Tag, Writer, check_der, parse_der, to_der

# The personnel record of X.690 A.3
RECORD = bytes.fromhex(
    "608185 6110 1a044a6f686e 1a0150 1a05536d697468 a00a 1a084469726563746f72 420133 a10a 43083139373130393137"
    "a212 6110 1a044d617279 1a0154 1a05536d697468 a342"
    "311f 6111 1a0552616c7068 1a0154 1a05536d697468 a00a 43083139353731313131"
    "311f 6111 1a05537573616e 1a0142 1a054a6f6e6573 a00a 43083139353930373137"
)


def written(write: Callable[[Writer], object]) -> bytes:
    w = Writer()
    write(w)
    return w.finish()


def write_name(w: Writer, *parts: str) -> None:
    with w.open_tagged(Tag.application(1)):
        for part in parts:
            w.put_text(Tag.VISIBLE_STRING, part)


def write_date(w: Writer, number: int, text: str) -> None:
    with w.open_tagged(number):
        w.implicit(Tag.application(3)).put_text(Tag.VISIBLE_STRING, text)


def test_record() -> None:
    w = Writer()
    with w.open_tagged(Tag.application(0)):
        write_name(w, "John", "P", "Smith")
        with w.open_tagged(0):
            w.put_text(Tag.VISIBLE_STRING, "Director")
        w.implicit(Tag.application(2)).put_integer(51)
        write_date(w, 1, "19710917")
        with w.open_tagged(2):
            write_name(w, "Mary", "T", "Smith")
        with w.open_tagged(3):
            for name, born in (("Ralph T Smith", "19571111"), ("Susan B Jones", "19590717")):
                with w.open_set():
                    write_name(w, *name.split())
                    write_date(w, 0, born)
    assert bytes(w) == RECORD and w.offset == len(RECORD)


@pytest.mark.parametrize(
    "write, octets",
    [
        (lambda w: w.put_bool(True), "01 01 ff"),
        (lambda w: w.put_bool(False), "01 01 00"),
        (lambda w: w.put_integer(0), "02 01 00"),
        (lambda w: w.put_integer(-129), "02 02 ff 7f"),
        (lambda w: w.put_integer(1 << 63), "02 09 00 80 00 00 00 00 00 00 00"),
        (lambda w: w.put_integer(-(1 << 63) - 1), "02 09 ff 7f ff ff ff ff ff ff ff"),
        (lambda w: w.put_enumerated(3), "0a 01 03"),
        (lambda w: w.put_enumerated((1 << 64) - 1), "0a 09 00 ff ff ff ff ff ff ff ff"),
        (lambda w: w.put_enumerated(-1), "0a 01 ff"),
        (lambda w: w.implicit(0).put_enumerated(-1), "80 01 ff"),
        (lambda w: w.put_null(), "05 00"),
        (lambda w: w.put_oid("2.999.3"), "06 03 88 37 03"),
        (lambda w: w.put_oid([1, 2, 1 << 64]), "06 0b 2a 82 80 80 80 80 80 80 80 80 00"),
        (lambda w: w.put_oid(ObjectIdentifier("1.2")), "06 01 2a"),
        (lambda w: w.put_octets(b"ab"), "04 02 61 62"),
        (lambda w: w.put_octets(memoryview(b"ab")), "04 02 61 62"),
        (lambda w: w.put_bits(BitString(b"\xff", 4)), "03 02 04 f0"),
        (lambda w: w.put_bits(b"\xff"), "03 02 00 ff"),
        (lambda w: w.put_bits(b""), "03 01 00"),
        (lambda w: w.put_utf8("é"), "0c 02 c3 a9"),
        (lambda w: w.put_printable("A"), "13 01 41"),
        (lambda w: w.put_ia5("@"), "16 01 40"),
        (lambda w: w.put_text(Tag.BMP_STRING, "Lé"), "1e 04 00 4c 00 e9"),
        (lambda w: w.put_text(Tag.UNIVERSAL_STRING, "A"), "1c 04 00 00 00 41"),
        (lambda w: w.implicit(1).put_text(Tag.BMP_STRING, "A"), "81 02 00 41"),
        (lambda w: w.implicit(Tag.private(0xFFFFFFFF)).put_null(), "df 8f ff ff ff 7f 00"),
        (lambda w: w.put_elements(b"\x05\x00\x05\x00"), "05 00 05 00"),
        (lambda w: w.put_set_of([]), "31 00"),
    ],
)
def test_elements(write: Callable[[Writer], object], octets: str) -> None:
    assert written(write) == octets_of(octets)


ZONE = datetime.timezone(datetime.timedelta(hours=1))


@pytest.mark.parametrize(
    "time, octets",
    [
        (datetime.datetime(1950, 1, 1, tzinfo=datetime.timezone.utc), b"\x17\x0d500101000000Z"),
        (datetime.datetime(2050, 1, 1, 0, 30, tzinfo=ZONE), b"\x17\x0d491231233000Z"),
        (datetime.datetime(2050, 1, 1, 1, tzinfo=ZONE), b"\x18\x0f20500101000000Z"),
        (datetime.datetime(2020, 1, 1, 1, 0, 0, 500_000, ZONE), b"\x18\x1120200101000000.5Z"),
        (datetime.datetime(1, 1, 1, tzinfo=datetime.timezone.utc), b"\x18\x0f00010101000000Z"),
    ],
)
def test_times(time: datetime.datetime, octets: bytes) -> None:
    assert written(lambda w: w.put_time(time)) == octets
    assert parse_der(octets).root.as_datetime() == time


def test_no_times() -> None:
    w = Writer()
    with pytest.raises(ValueError):
        w.put_time(datetime.datetime(2020, 1, 1))
    for time in (
        datetime.datetime(2050, 1, 1, tzinfo=datetime.timezone.utc),
        datetime.datetime(2020, 1, 1, 0, 0, 0, 1, datetime.timezone.utc),
    ):
        with pytest.raises(DerError):
            w.put_utc_time(time)
    assert w.finish() == b""
    w.put_generalized_time(datetime.datetime(2020, 1, 1, tzinfo=datetime.timezone.utc))
    assert w.finish() == b"\x18\x0f20200101000000Z"


def test_integers() -> None:
    chance = random.Random(3)
    for bits in range(1, 300):
        number = chance.getrandbits(bits) * chance.choice((1, -1))
        assert parse_der(written(lambda w: w.put_integer(number))).root.as_int() == number


def test_errors() -> None:
    w = Writer()
    with w.open_sequence():
        w.put_integer(5)
        with pytest.raises(DerError) as caught:
            w.put_printable("a@b")
        assert caught.value.reason > 0 and caught.value.offset == 5
        w.implicit(0)
        with pytest.raises(DerError):
            w.put_ia5("é")
        w.put_ia5("e")  # which has the tag that is left for it
    assert w.finish() == octets_of("30 06 02 01 05 80 01 65")
    for text in ("1", "3.1"):
        with pytest.raises(ValueError):
            w.put_oid(text)
    with pytest.raises(ValueError):
        w.put_oid(ObjectIdentifier.from_content(b""))
    for tag in (Tag.context(12), Tag.INTEGER):
        with pytest.raises(ValueError):
            w.put_text(tag, "1")
    with pytest.raises(TypeError):
        w.put_integer("5")  # type: ignore[arg-type]
    for number in (-1, 1 << 32):
        with pytest.raises(ValueError):
            w.open_tagged(number)
    assert w.offset == 8


@pytest.mark.parametrize(
    "write",
    [
        lambda w: w.put_text(Tag.BMP_STRING, "\ud800"),  # half of a surrogate pair
        lambda w: w.put_text(Tag.BMP_STRING, "\udfff"),
        lambda w: w.put_text(Tag.BMP_STRING, "a\U0001d11e"),  # X.680 41.15: the Basic Multilingual Plane alone
        lambda w: w.put_text(Tag.UNIVERSAL_STRING, "\ud800"),
        lambda w: w.put_utf8("\ud800"),
        lambda w: w.put_ia5("é"),
        lambda w: w.put_utc_time(datetime.datetime(2050, 1, 1, tzinfo=datetime.timezone.utc)),
    ],
)
def test_an_error_changes_nothing(write: Callable[[Writer], object]) -> None:
    """The next element has the implicit tag that was given, and no other."""
    w = Writer()
    w.put_null()
    with pytest.raises(DerError) as caught:
        write(w)
    assert caught.value.reason in (Reason.INVALID_CHARACTER, Reason.INVALID_TIME) and caught.value.offset == 2
    w.put_null()
    w.implicit(2)
    with pytest.raises(DerError):
        write(w)
    w.put_null()
    assert w.finish() == octets_of("05 00 05 00 82 00")


def test_a_value_of_another_type_changes_nothing() -> None:
    w = Writer()
    with pytest.raises((TypeError, ctypes.ArgumentError)):
        w.put_enumerated(-1.5)  # type: ignore[arg-type]
    w.put_null()
    assert w.finish() == octets_of("05 00")


def test_last_characters() -> None:
    assert written(lambda w: w.put_text(Tag.BMP_STRING, "\uffff")) == octets_of("1e 02 ff ff")
    assert written(lambda w: w.put_text(Tag.UNIVERSAL_STRING, "\U0001d11e")) == octets_of("1c 04 00 01 d1 1e")
    assert written(lambda w: w.put_text(Tag.BMP_STRING, "")) == octets_of("1e 00")


def test_blocks() -> None:
    w = Writer()
    w.put_null()
    block = w.open_sequence()
    with pytest.raises(ValueError):
        w.finish()
    inner = w.open_set()
    with pytest.raises(ValueError):
        block.__exit__(None, None, None)
    inner.__exit__(None, None, None)
    block.__exit__(None, None, None)
    assert w.finish() == octets_of("05 00 30 02 31 00")
    with pytest.raises(ValueError):
        block.__exit__(None, None, None)
    with w.open_sequence() as same:
        assert same is w
    w.implicit(0)
    for opening in (w.open_sequence, w.open_set, lambda: w.open_tagged(0), w.open_octet_string):
        with pytest.raises(ValueError):
            opening()
    w.put_null()
    assert w.finish() == octets_of("05 00 30 02 31 00 30 00 80 00")


def test_a_block_that_fails_is_taken_back() -> None:
    w = Writer()
    with w.open_sequence():
        w.put_integer(5)
        with pytest.raises(KeyError):
            with w.open_set():
                w.put_octets(bytes(1000))
                with w.open_tagged(0):
                    w.implicit(1)
                    raise KeyError
        w.put_null()
    assert w.finish() == octets_of("30 05 02 01 05 05 00")


def test_each_size_of_a_length() -> None:
    for size in [0, 1, 125, 126, 127, 128, 255, 256, 65_535, 65_536, 1 << 24]:
        content = bytes(size)
        w = Writer()
        with w.open_sequence():
            w.put_octets(content)
            with w.open_octet_string():
                w.put_octets(content)
            w.put_bits(content)
        octets = w.finish()
        assert check_der(octets) == 4 and to_der(octets) == octets
        with Reader(octets) as reader, reader.open_sequence() as r:
            assert r.octets() == content
            assert Reader(r.octets()).octets() == content
            assert bytes(r.bits()) == content


def test_many_lists_that_grow() -> None:
    """Each end of a list moves its content, in a buffer that grows meanwhile."""
    for depth in range(1, 100, 7):
        for size in range(0, 300, 23):
            w = Writer()
            blocks = [w.open_sequence() for _ in range(depth)]
            w.put_octets(b"x" * size)
            for block in reversed(blocks):
                block.__exit__(None, None, None)
            octets = w.finish()
            assert check_der(octets, max_depth=1000) == depth + 1 and octets.endswith(b"x" * size)


def test_a_tree_is_written_again() -> None:
    def write(w: Writer, node: object) -> None:
        if isinstance(node, list):
            with w.open_sequence():
                for item in node:
                    write(w, item)
        elif isinstance(node, bool):
            w.put_bool(node)
        elif isinstance(node, int):
            w.put_integer(node)
        elif isinstance(node, str):
            w.put_utf8(node)
        else:
            w.put_null()

    value = [5, [True, "é", [], [None, [-1 << 70]]], "x" * 200]
    octets = written(lambda w: write(w, value))
    assert parse_der(octets).root.value == value


def test_order_of_a_set_of() -> None:
    chance = random.Random(4)
    elements = [written(lambda w: w.put_octets(chance.randbytes(chance.randrange(4)))) for _ in range(50)]
    octets = written(lambda w: w.put_set_of(elements))
    children = [bytes(child.octets) for child in parse_der(octets).root]
    # X.690 11.6: the shorter ones are padded with zeros
    assert children == sorted(elements, key=lambda element: element.ljust(8, b"\0"))
