"""Many threads at a time, with inputs short and long: the calls for long ones run beside other threads."""
from __future__ import annotations

import sys
from concurrent.futures import ThreadPoolExecutor
from typing import Iterator, List

import pytest
from conftest import damaged

from dumarewhi import DerError, Writer, _library, check_ber, parse_ber, parse_der, to_der

THREADS = 8


@pytest.fixture(autouse=True)
def many_switches() -> Iterator[None]:
    interval = sys.getswitchinterval()
    sys.setswitchinterval(1e-6)
    yield
    sys.setswitchinterval(interval)


def numbers(first: int, count: int) -> bytes:
    w = Writer()
    with w.open_sequence():
        for number in range(first, first + count):
            w.put_integer(number)
    return w.finish()


def test_short_and_long() -> None:
    def run(first: int) -> None:
        for count in (1, 20, 8000, 3, 30_000):
            octets = numbers(first, count)
            assert (len(octets) >= _library._LONG) is (count > 1000)
            assert parse_der(octets).root.value == list(range(first, first + count))
            assert check_ber(octets) == count + 1 and to_der(octets) == octets

    with ThreadPoolExecutor(THREADS) as pool:
        list(pool.map(run, range(0, 1 << 40, 1 << 36)))


def test_one_tree_in_many_threads() -> None:
    octets = numbers(0, 3000)
    root = parse_der(octets).root
    with ThreadPoolExecutor(THREADS) as pool:
        for values in pool.map(lambda _: [node.value for node in root], range(4 * THREADS)):
            assert values == list(range(3000))


def test_errors() -> None:
    inputs = [octets for octets, _ in damaged(500)]

    def outcomes(_: int) -> List[str]:
        shown = []
        for octets in inputs:
            try:
                shown.append(repr(parse_ber(octets).root.value))
            except DerError as error:
                shown.append(f"{error} {error.reason}")
        return shown

    expected = outcomes(0)
    with ThreadPoolExecutor(THREADS) as pool:
        assert all(shown == expected for shown in pool.map(outcomes, range(THREADS)))
