"""Elements, their values, and the objects that they are read from."""
from __future__ import annotations

import array
import copy
import ctypes
import datetime
import mmap
import pickle
import random
import re
from pathlib import Path
from typing import Callable, List, Optional, Tuple

import pytest
from conftest import octets_of, openssl

from dumarewhi import (
    BitString,
    DerError,
    Incomplete,
    Node,
    ObjectIdentifier,
    Reader,
    Reason,
    Tag,
    Class,
    _header,
    check_ber,
    check_der,
    parse_ber,
    parse_der,
    to_der,
)

PAIR = octets_of("30 06 02 01 05 01 01 ff")


def encoded(number: int, content: bytes, constructed: bool = False) -> bytes:
    """An element of a universal type of at most 127 octets."""
    return bytes((number | (0x20 if constructed else 0), len(content))) + content


# What an element is


def test_node() -> None:
    root = parse_der(PAIR).root
    assert (root.tag, root.tag_class, root.number) == (Tag.SEQUENCE, Class.UNIVERSAL, 16)
    assert (root.constructed, root.definite, root.depth) == (True, True, 0)
    assert (root.offset, root.header_length, root.content_offset, root.content_end, root.end) == (0, 2, 2, 8, 8)
    assert (root.header, root.content, root.octets) == (PAIR[:2], PAIR[2:], PAIR)
    first, second = root
    assert (first.offset, second.offset, first.depth) == (2, 5, 1)
    assert [child.value for child in root] == [5, True] == root.value
    assert first == root[0] == root.children[-2] and hash(first) == hash(root[0]) and first != second
    assert first.children == () and list(first.walk()) == [first]
    assert repr(second) == "<Node BOOLEAN at 5: ff>"
    with pytest.raises(IndexError):
        root[2]


def test_indefinite_length() -> None:
    octets = octets_of("30 80 16 05 53 6d 69 74 68 01 01 ff 00 00")
    root = parse_ber(octets).root
    assert not root.definite
    assert (root.content_end, root.end, root.octets) == (12, 14, octets)
    assert root.value == ["Smith", True]


def test_long_tag() -> None:
    node = parse_der(octets_of("9f 8f ff ff ff 7f 00")).root
    assert node.tag == Tag.context(0xFFFFFFFF) and node.header_length == 7 and str(node.tag) == "[4294967295]"


def test_content_under_tags() -> None:
    octets = octets_of("30 0b a0 03 02 01 02 a3 04 30 02 05 00")
    root = parse_der(octets).root
    version, extensions = root
    assert [node.offset for node in root.walk()] == [0, 2, 4, 7, 9, 11]
    assert [node.depth for node in root.walk()] == [0, 1, 2, 1, 2, 3]
    assert version[0].as_int() == 2 and extensions[0][0].value is None
    assert root.value == [[2], [[None]]]
    assert list(root.walk())[-1] == extensions[0][0]
    assert version.parse_content().root.offset == 4


def test_content_under_tags_that_is_no_element() -> None:
    with pytest.raises(DerError) as caught:
        parse_der(octets_of("30 06 a0 04 02 01 05 02")).root[0].children
    assert (caught.value.offset, caught.value.reason) == (7, Reason.OVERRUN)
    assert not isinstance(caught.value, Incomplete)


def test_content_of_strings() -> None:
    assert parse_der(octets_of("30 05 04 03 02 01 05")).root[0].parse_content().root.offset == 4
    for octets, offset, rule in (("04 04 02 01 05 02", 5, 0), ("04 02 02 01", 2, Reason.OVERRUN)):
        with pytest.raises(DerError) as caught:
            parse_der(octets_of(octets)).root.parse_content()
        assert (caught.value.offset, caught.value.reason) == (offset, rule)


def test_depth_under_tags() -> None:
    """Tags count as levels, so no input makes Python recurse without end."""
    deep = b""
    for _ in range(60):
        deep = b"\xa0" + (bytes((len(deep),)) if len(deep) < 128 else bytes((0x81, len(deep)))) + deep
    with pytest.raises(DerError) as caught:
        list(parse_der(deep).root.walk())
    assert caught.value.reason == Reason.MAX_DEPTH
    assert len(list(parse_der(deep, max_depth=60).root.walk())) == 60
    with pytest.raises(DerError):
        list(parse_der(deep, max_depth=59).root.walk())


@pytest.mark.parametrize("max_depth", [-(1 << 70), -1, 0])
def test_no_depth(max_depth: int) -> None:
    for read in (parse_der, parse_ber, check_der, check_ber):
        with pytest.raises(DerError) as caught:
            read(PAIR, max_depth=max_depth)
        assert caught.value.reason == Reason.MAX_DEPTH
    assert check_der(PAIR, max_depth=1 << 70) == 3


# Errors


def test_errors() -> None:
    with pytest.raises(DerError) as caught:
        parse_der(octets_of("30 03 04 81 00"))
    error = caught.value
    assert (error.offset, error.reason) == (2, Reason.LENGTH_NOT_MINIMAL) and not isinstance(error, Incomplete)
    assert isinstance(error, ValueError) and str(error) == f"{error.text} at offset 2"
    again = pickle.loads(pickle.dumps(error))
    assert (again.text, again.offset, again.reason) == (error.text, error.offset, error.reason)


@pytest.mark.parametrize(
    "octets, missing", [("30", 1), ("04 05 61 62", 3), ("30 82 01", 1), ("30 82 01 00", 256), ("a0 02 05", 1)]
)
def test_incomplete(octets: str, missing: int) -> None:
    for read in (parse_der, parse_ber, check_der, check_ber):
        with pytest.raises(Incomplete) as caught:
            read(octets_of(octets))
        error = caught.value
        assert (error.missing, error.offset, error.reason) == (missing, len(octets_of(octets)), 0)
        assert copy.copy(error).missing == missing and str(missing) in str(error)


def test_octets_that_follow() -> None:
    for read in (parse_der, parse_ber, check_der, check_ber):
        with pytest.raises(DerError) as caught:
            read(PAIR + b"\0")
        assert (caught.value.text, caught.value.offset, caught.value.reason) == ("octets are left", 8, 0)
    tree = parse_der(PAIR + b"\0", allow_trailing=True)
    assert tree.end == 8


# Objects that are read from


def test_objects() -> None:
    objects = [PAIR, bytearray(PAIR), memoryview(PAIR), memoryview(bytearray(PAIR)), array.array("b", PAIR[:0])]
    objects += [array.array("I", PAIR), memoryview(b"##" + PAIR + b"##")[2:-2]]
    for data in objects:
        if len(memoryview(data)):
            assert parse_der(data).root.value == [5, True]
            assert check_ber(data) == 3 and to_der(data) == PAIR
        else:
            with pytest.raises(Incomplete):
                parse_der(data)
    for wrong in ("text", 5, None, [1]):
        with pytest.raises(TypeError):
            parse_der(wrong)  # type: ignore[arg-type]
    with pytest.raises((BufferError, TypeError)):
        parse_der(memoryview(PAIR)[::2])


def test_files(tmp_path: Path) -> None:
    (tmp_path / "pair").write_bytes(PAIR)
    with open(tmp_path / "pair", "rb") as file:
        mapped = mmap.mmap(file.fileno(), 0, access=mmap.ACCESS_READ)
        tree = parse_der(mapped)
        assert tree.root.value == [5, True]
        with pytest.raises(BufferError):
            mapped.close()
        del tree
        mapped.close()


def test_nothing_is_copied() -> None:
    data = bytearray(PAIR)
    tree = parse_der(data)
    assert tree.root.content.obj is data
    assert tree.root[0].content.tobytes() == b"\x05"
    data[4] = 7
    assert tree.root[0].as_int() == 7
    with pytest.raises(BufferError):
        data.append(0)
    del tree
    data.append(0)


def test_a_tree_outlives_its_names() -> None:
    nodes = [parse_der(bytes(PAIR)).root for _ in range(100)]
    assert all(node.value == [5, True] for node in nodes)


def test_many_elements() -> None:
    """More than the list has room for at first, and an input of one long string."""
    content = b"\x05\x00" * 200_000
    octets = b"\x30\x83" + len(content).to_bytes(3, "big") + content
    root = parse_der(octets).root
    assert len(root.children) == 200_000 and root[-1].offset == len(octets) - 2
    assert check_der(octets) == 200_001
    octets = b"\x04\x83" + len(content).to_bytes(3, "big") + content
    assert parse_der(octets).root.as_bytes() == content


# Values


def test_integers() -> None:
    chance = random.Random(1)
    numbers = [0, 1, -1, 127, 128, -128, -129, 255, 256, (1 << 63) - 1, 1 << 63, -(1 << 63), -(1 << 63) - 1]
    numbers += [chance.getrandbits(bits) * chance.choice((1, -1)) for bits in range(1, 900, 7)]
    for number in numbers:
        magnitude = number if number >= 0 else ~number
        content = number.to_bytes(magnitude.bit_length() // 8 + 1, "big", signed=True)
        assert parse_der(encoded(2, content)).root.as_int() == number
    assert parse_ber(octets_of("02 81 01 05")).root.value == 5
    assert parse_der(octets_of("0a 01 05")).root.value == 5


@pytest.mark.parametrize("octets, value", [("01 01 00", False), ("01 01 ff", True), ("01 01 01", True)])
def test_booleans(octets: str, value: bool) -> None:
    assert parse_ber(octets_of(octets)).root.as_bool() is value


@pytest.mark.parametrize(
    "content, text",
    [
        ("88 37 03", "2.999.3"),
        ("55 04 03", "2.5.4.3"),
        ("2a 86 48 86 f7 0d 01 01 0b", "1.2.840.113549.1.1.11"),
        ("00", "0.0"),
        ("27", "0.39"),
        ("28", "1.0"),
        ("7f", "2.47"),
        ("2a ff ff ff ff ff ff ff ff 7f", "1.2.9223372036854775807"),
        ("69 83 f0 9d a7 eb cf de e0 c7 a1 a7 b2 c0 94 8c c8 f9 d7 76", "2.25.329800735698586629295641978511506172918"),
        ("2a 84 80 80 80 80 80 80 80 80 80 80 80 80 80 80 80 80 80 80 00", f"1.2.{1 << 135}"),
    ],
)
def test_identifiers(content: str, text: str) -> None:
    octets = encoded(6, octets_of(content))
    identifier = parse_der(octets).root.as_oid()
    assert str(identifier) == text and identifier == ObjectIdentifier(text)
    assert ObjectIdentifier(text).content == octets_of(content)
    assert ".".join(map(str, identifier.arcs)) == text and repr(identifier) == f"ObjectIdentifier({text!r})"
    assert pickle.loads(pickle.dumps(identifier)) == identifier


def test_named_identifiers(tmp_path: Path) -> None:
    """Each has the octets and, but for signs and case, the name that openssl has."""
    for name, dotted in _header.OIDS.items():
        said = openssl("asn1parse", "-genstr", f"OID:{dotted}", "-out", tmp_path / "der").decode().lower()
        identifier = getattr(ObjectIdentifier, name)
        assert (str(identifier), identifier.content) == (dotted, (tmp_path / "der").read_bytes()[2:])
        assert name.replace("_", "").lower() in re.sub("[^a-z0-9]", "", said)


def test_identifiers_as_c_reads_them() -> None:
    chance = random.Random(2)
    for _ in range(2000):
        content = bytes(chance.choice((chance.randrange(256), 0x80, 0xFF)) for _ in range(chance.randrange(30)))
        text, needed = ctypes.create_string_buffer(400), ctypes.c_size_t()
        rule = _header.read_oid(content, len(content), text, 400, ctypes.byref(needed))
        if rule == 0:
            assert str(ObjectIdentifier.from_content(content)) == text.raw[: needed.value].decode()
        elif content[-1:] >= b"\x80":
            with pytest.raises(ValueError):
                ObjectIdentifier.from_content(content)
        else:  # an arc of more than 128 bits
            assert max(ObjectIdentifier.from_content(content).arcs) >> 120


def test_identifiers_of_any_size() -> None:
    arcs = (2, 1 << 3000, 5, 1 << 70)
    identifier = ObjectIdentifier(arcs)
    assert ObjectIdentifier.from_content(identifier.content).arcs == arcs
    long = ObjectIdentifier.from_content(b"\x69" + b"\xff" * 100_000 + b"\x7f")
    assert long.arcs == (2, 25, (1 << 700_007) - 1) and "2 arcs" not in repr(long) and "3 arcs" in repr(long)


def test_order_of_identifiers() -> None:
    texts = ["1.2.3", "1.2", "2.5.4.10", "2.5.4.3", "1.2.3.0"]
    in_order = ["1.2", "1.2.3", "1.2.3.0", "2.5.4.3", "2.5.4.10"]
    assert [str(identifier) for identifier in sorted(map(ObjectIdentifier, texts))] == in_order
    assert ObjectIdentifier("1.2") != "1.2" and len({ObjectIdentifier("1.2"), ObjectIdentifier([1, 2])}) == 1


@pytest.mark.parametrize("value", ["", "1", "3.1", "1.40", "1..2", "1.02", "1.2.", " 1.2", "1.٣", "1.2\n", "-1.2"])
def test_no_identifiers(value: str) -> None:
    with pytest.raises(ValueError):
        ObjectIdentifier(value)


@pytest.mark.parametrize("arcs", [[], [1], [3, 1], [1, 40], [1, 2, -3]])
def test_no_arcs(arcs: List[int]) -> None:
    with pytest.raises(ValueError):
        ObjectIdentifier(arcs)


@pytest.mark.parametrize(
    "number, content, text",
    [
        (12, "c3 a9 f0 9f 8c b1", "é🌱"),
        (18, "31 20 32", "1 2"),
        (19, "41 27 7a", "A'z"),
        (22, "40 7f", "@\x7f"),
        (26, "20 7e", " ~"),
        (20, "61 62", "ab"),
        (27, "61 62", "ab"),
        (28, "00 01 f3 31 00 00 00 41", "🌱A"),
        (30, "00 4c 00 65", "Le"),
    ],
)
def test_texts(number: int, content: str, text: str) -> None:
    assert parse_der(encoded(number, octets_of(content))).root.as_str() == text


def test_bit_strings() -> None:
    # X.690 8.6.4.2
    bits = parse_der(octets_of("03 07 04 0a 3b 5f 29 1c d0")).root.as_bit_string()
    digits = f"{0x0A3B5F291CD:044b}"
    assert (len(bits), bits.unused_bits, bytes(bits).hex()) == (44, 4, "0a3b5f291cd0")
    assert "".join(str(int(bit)) for bit in bits) == digits and bits[-1] is (digits[-1] == "1")
    assert bits == BitString(bytes(bits), 4) and hash(bits) == hash(BitString(bytes(bits), 4)) and bits != 5
    for index in (44, -45):
        with pytest.raises(IndexError):
            bits[index]
    for octets, unused in ((b"", 1), (b"a", 8), (b"a", -1)):
        with pytest.raises(ValueError):
            BitString(octets, unused)


@pytest.mark.parametrize(
    "octets, rule",
    [
        ("03 00", Reason.UNUSED_BITS_MISSING),
        ("03 01 01", Reason.UNUSED_BITS_OF_NONE),
        ("03 02 08 00", Reason.UNUSED_BITS_ABOVE_SEVEN),
        ("03 02 ff 00", Reason.UNUSED_BITS_ABOVE_SEVEN),
    ],
)
def test_unused_bits_that_there_cannot_be(octets: str, rule: Reason) -> None:
    """X.690 8.6.2, by BER too."""
    with pytest.raises(DerError) as caught:
        Reader(octets_of(octets), rules="ber").bits()
    assert (caught.value.reason, caught.value.offset) == (rule, 0)
    with pytest.raises(DerError):
        Reader(b"\x83" + octets_of(octets)[1:], rules="ber").implicit(3).bits()


@pytest.mark.parametrize("content, rule", [
    ("", Reason.NUMBER_EMPTY),
    ("00 01", Reason.NUMBER_PADDED),
    ("00 7f", Reason.NUMBER_PADDED),
    ("ff 80", Reason.NUMBER_PADDED),
])  # fmt: skip
def test_needless_octets_of_numbers(content: str, rule: Reason) -> None:
    """X.690 8.3.1, 8.3.2 and 8.4, by BER too."""
    octets = octets_of(content)
    after = bytes([len(octets)]) + octets
    for identifier, read in ((b"\x02", Reader.integer), (b"\x0a", Reader.enumerated)):
        with pytest.raises(DerError) as caught:
            read(Reader(identifier + after, rules="ber"))
        assert (caught.value.reason, caught.value.offset) == (rule, 0)
    with pytest.raises(DerError):
        Reader(b"\x83" + after, rules="ber").implicit(3).enumerated()


def test_strings_in_parts() -> None:
    """X.690 8.7.3 and 8.23: the library joins the parts."""
    node = parse_ber(octets_of("24 80 04 01 61 24 80 04 02 62 63 00 00 00 00")).root
    assert node.as_bytes() == b"abc" == node.value
    assert [child.tag for child in node] == [Tag.OCTET_STRING] * 2
    for octets, value in (("2c 04 04 02 c3 a9", "é"), ("3a 09 04 03 4a 6f 6e 04 02 65 73", "Jones")):
        try:
            node = parse_ber(octets_of(octets)).root
        except DerError:  # by der-parser's rules
            continue
        assert node.value == value


@pytest.mark.parametrize(
    "number, text, fields, hours",
    [
        (24, "19920521000000Z", (1992, 5, 21, 0, 0, 0, 0), 0),
        (24, "19920722132100.3Z", (1992, 7, 22, 13, 21, 0, 300_000), 0),
        (24, "19851106210627.123456789-0530", (1985, 11, 6, 21, 6, 27, 123_456), -5.5),
        (24, "198511062106", (1985, 11, 6, 21, 6, 0, 0), None),
        (23, "920521000000Z", (1992, 5, 21, 0, 0, 0, 0), 0),
        (23, "491231235959Z", (2049, 12, 31, 23, 59, 59, 0), 0),
        (23, "500101000000Z", (1950, 1, 1, 0, 0, 0, 0), 0),
        (23, "9105061645-0700", (1991, 5, 6, 16, 45, 0, 0), -7),
    ],
)
def test_times(number: int, text: str, fields: Tuple[int, ...], hours: Optional[float]) -> None:
    time = parse_ber(encoded(number, text.encode())).root.as_datetime()
    assert time.timetuple()[:6] + (time.microsecond,) == fields
    assert time.utcoffset() == (None if hours is None else datetime.timedelta(hours=hours))


def test_no_date() -> None:
    with pytest.raises(DerError) as caught:
        parse_ber(encoded(24, b"20200230000000Z")).root.as_datetime()
    assert caught.value.reason > 0 and caught.value.offset == 0


READS: List[Callable[[Node], object]] = [
    Node.as_bool,
    Node.as_int,
    Node.as_bytes,
    Node.as_bit_string,
    Node.as_null,
    Node.as_oid,
    Node.as_str,
    Node.as_datetime,
]


@pytest.mark.parametrize(
    "octets, read",
    [
        ("01 01 ff", Node.as_bool),
        ("02 01 05", Node.as_int),
        ("0a 01 05", Node.as_int),
        ("04 00", Node.as_bytes),
        ("03 01 00", Node.as_bit_string),
        ("05 00", Node.as_null),
        ("06 01 2a", Node.as_oid),
        ("0c 00", Node.as_str),
        ("17 0d 39 32 30 35 32 31 30 30 30 30 30 30 5a", Node.as_datetime),
        ("82 01 05", None),
        ("30 00", None),
        ("5f 1f 00", None),
    ],
)
def test_values_of_other_types(octets: str, read: object) -> None:
    node = parse_der(octets_of(octets)).root
    for other in READS:
        if other is read:
            other(node)
        else:
            with pytest.raises(DerError) as caught:
                other(node)
            assert (caught.value.offset, caught.value.reason) == (0, Reason.UNEXPECTED_TAG)
            assert f"found {node.tag}" in str(caught.value)


def test_other_values() -> None:
    assert parse_der(octets_of("82 02 05 06")).root.value == b"\x05\x06"
    assert parse_der(octets_of("0d 04 c2 7b 03 02")).root.value == octets_of("c2 7b 03 02")
    assert parse_der(octets_of("30 00")).root.value == []
    time = parse_der(encoded(23, b"920521000000Z")).root.value
    assert time == datetime.datetime(1992, 5, 21, tzinfo=datetime.timezone.utc)


# Writing as DER


@pytest.mark.parametrize(
    "octets, der",
    [
        ("", ""),
        ("30 80 16 05 53 6d 69 74 68 01 01 ff 00 00", "30 0a 16 05 53 6d 69 74 68 01 01 ff"),
        ("30 81 0a 16 05 53 6d 69 74 68 01 01 01", "30 0a 16 05 53 6d 69 74 68 01 01 ff"),
        ("a2 80 43 81 05 4a 6f 6e 65 73 00 00", "a2 07 43 05 4a 6f 6e 65 73"),
        ("23 80 03 03 00 0a 3b 03 05 04 5f 29 1c d0 00 00", "03 07 04 0a 3b 5f 29 1c d0"),
        ("24 0b 24 80 04 01 61 00 00 04 02 62 63", "04 03 61 62 63"),
        ("05 00 05 00", "05 00 05 00"),
    ],
)
def test_to_der(octets: str, der: str) -> None:
    assert to_der(octets_of(octets)) == octets_of(der)


def test_to_der_that_is_longer() -> None:
    deep = b"\x30\x80" * 100 + b"\x04\x83\x01\0\0" + bytes(1 << 16) + b"\0\0" * 100
    assert len(to_der(deep)) == 100 * 5 + 5 + (1 << 16) == len(deep) + 100
    assert check_der(to_der(deep), max_depth=1000) == 101
    wide = b"\x30\x80" + b"\x04\x82\x00\x01a" * 3 + b"\0\0"
    assert to_der(wide) == octets_of("30 09") + b"\x04\x01a" * 3


def test_no_der() -> None:
    with pytest.raises(DerError) as caught:
        to_der(octets_of("30 80 05 00 17 0b 39 39 31 32 33 31 32 33 35 39 5a 00 00"))
    assert caught.value.offset == 4 and caught.value.reason > 0
    with pytest.raises(Incomplete) as incomplete:
        to_der(octets_of("30 80 05 00"))
    assert incomplete.value.missing == 2
