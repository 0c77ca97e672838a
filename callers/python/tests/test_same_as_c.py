"""Damaged inputs: the package returns what C returns, and each element is where C has it."""
from __future__ import annotations

from typing import Callable, Iterator, List

import pytest
from conftest import Outcome, damaged

from dumarewhi import DerError, Incomplete, Node, Tree, _library, check_ber, check_der, parse_ber, parse_der, to_der

DAMAGED = 10_000


def listed(tree: Tree) -> Iterator[str]:
    """The elements that are listed, each as its node has it."""
    for at in range(0, len(tree._words), _library.WORDS):
        node = Node(tree, at, 0)
        inside = tree._words[at + 3]
        numbers = [node.offset, node.content_offset, node.content_end, inside, node.number, node.tag_class]
        yield ".".join(str(int(number)) for number in [*numbers, node.constructed, node.definite])


def parsed(parse: Callable[..., Tree], octets: bytes, depth: int) -> str:
    """The line of `outcomes.c` for what the package returns."""
    try:
        tree = parse(octets, max_depth=depth, allow_trailing=True)
    except Incomplete as error:
        assert error.offset == len(octets) and error.reason == 0
        return f"missing {error.missing}"
    except DerError as error:
        return f"error {error.reason} at {error.offset}"
    elements = list(listed(tree))
    return f"{len(elements)} elements in {tree.end}: {' '.join(elements)}"


def checked(check: Callable[..., int], octets: bytes, depth: int) -> str:
    """The line of `outcomes.c`, without its elements."""
    try:
        return f"{check(octets, max_depth=depth)} elements in {len(octets)}"
    except Incomplete as error:
        return f"missing {error.missing}"
    except DerError as error:
        return f"error {error.reason} at {error.offset}"


def written(octets: bytes) -> str:
    try:
        return f"der {to_der(octets).hex()}"
    except Incomplete as error:
        return f"missing {error.missing}"
    except DerError as error:
        return f"error {error.reason} at {error.offset}"


@pytest.fixture(scope="module")
def cases(outcomes: Callable[..., List[Outcome]]) -> List[Outcome]:
    return outcomes(damaged(DAMAGED))


def test_parse(cases: List[Outcome]) -> None:
    kinds = set()
    for case in cases:
        assert parsed(parse_ber, case.octets, case.depth) == case.ber, case
        assert parsed(parse_der, case.octets, case.depth) == case.der, case
        kinds.update((case.der.split(" at ")[0], case.ber.split(" at ")[0]))
    errors = {kind for kind in kinds if kind.startswith("error")}
    assert len(errors) > 10 and len(kinds) > len(errors) + 50


def test_check(cases: List[Outcome]) -> None:
    for case in cases:
        for check, line in ((check_der, case.der), (check_ber, case.ber)):
            found = line.split(":")[0]
            if " in " in found and not found.endswith(f" in {len(case.octets)}"):
                found = f"error 0 at {found.split(' in ')[1]}"
            assert checked(check, case.octets, case.depth) == found, case


def test_to_der(cases: List[Outcome]) -> None:
    for case in cases:
        assert written(case.octets) == case.written, case


def test_no_call_raises_another_error(cases: List[Outcome]) -> None:
    """The values of all elements, those under tags too."""
    values = 0
    for case in cases:
        for parse in (parse_der, parse_ber):
            try:
                tree = parse(case.octets, allow_trailing=True)
                for node in tree.root.walk():
                    assert case.octets[node.offset : node.end] == node.octets
                    assert repr(node)
                    values += 1
                    try:
                        assert node.constructed and node.depth or repr(node.value)
                    except DerError as error:
                        assert node.offset <= error.offset <= node.end
            except DerError as error:
                assert 0 <= error.offset <= len(case.octets) and str(error)
    assert values > DAMAGED
