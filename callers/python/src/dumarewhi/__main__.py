"""Shows and checks files: ``python -m dumarewhi tree FILE``, ``certificate FILE``, ``dump FILE``, ``check FILE..``."""
from __future__ import annotations

import argparse
import datetime
import signal
import sys
from pathlib import Path
from typing import Callable, Dict, Iterator, List, NamedTuple, Optional, Set

from . import BitString, DerError, Node, ObjectIdentifier, Reader, Rules, __version__, check_der, pem
from ._certificate_text import lines


def main(words: Optional[List[str]] = None) -> int:
    """Runs the command. Returns 0, or 1 if a file has an error."""
    options = _options().parse_args(words)
    failed = False
    for name in options.files:
        try:
            data = sys.stdin.buffer.read() if name == "-" else Path(name).read_bytes()
            certificates = options.command == _CERTIFICATE
            for octets in _certificates(data) if certificates else _encodings(data):
                _run(options, octets)
        except (OSError, ValueError) as error:
            print(f"{name}: {error}", file=sys.stderr)
            failed = True
    return 1 if failed else 0


def _run(options: argparse.Namespace, octets: bytes) -> None:
    if options.command == _CERTIFICATE:
        for line in lines(octets):
            print(line)
        return
    rules: Rules = "ber" if options.ber else "der"
    show = _COMMANDS[options.command].run
    for node in Reader(octets, rules=rules):
        show(node)


def _options() -> argparse.ArgumentParser:
    parser = argparse.ArgumentParser(prog="python -m dumarewhi", description="Shows and checks files in DER or BER.")
    parser.add_argument("--version", action="version", version=__version__)
    commands = parser.add_subparsers(dest="command", required=True)
    for name, text in {**{name: it.help for name, it in _COMMANDS.items()}, _CERTIFICATE: _FIELDS}.items():
        command = commands.add_parser(name, help=text, description=text)
        if name != _CERTIFICATE:
            command.add_argument("--ber", action="store_true", help="read by BER, and not by DER")
        command.add_argument("files", nargs="+", metavar="FILE", help="octets or PEM; - is standard input")
    return parser


def _encodings(data: bytes) -> Iterator[bytes]:
    """The octets of each block of PEM (RFC 7468), or all of them if there is none."""
    has_blocks = False
    for block in pem.blocks(data):
        has_blocks = True
        yield block.octets
    if not has_blocks:
        yield data


def _certificates(data: bytes) -> Iterator[bytes]:
    """The octets of a certificate in DER, or of each one in PEM. DER is tried first, since a text in it may hold
    PEM."""
    if _is_der(data):
        yield data
        return
    labels: Set[str] = set()
    for block in pem.blocks(data):
        labels.add(block.label)
        if block.label == "CERTIFICATE":
            yield block.octets
    if labels and "CERTIFICATE" not in labels:
        raise ValueError("no block has the label CERTIFICATE")
    if not labels:
        if data[:1] != b"\x30":
            raise ValueError("neither DER nor PEM")
        yield data


def _is_der(data: bytes) -> bool:
    try:
        check_der(data)
    except DerError:
        return False
    return True


def _check(node: Node) -> None:
    for _ in node.walk():
        pass


def _show(outermost: Node) -> None:
    for node in outermost.walk():
        print(f"{node.offset:6} {'  ' * node.depth}{node.tag}{_value(node)}")


def _value(node: Node) -> str:
    try:
        return "" if node.constructed else f" {_text(node)}"
    except DerError as error:
        return f" ({error.text}) {_octets(bytes(node.content))}"


def _text(node: Node) -> str:
    value = node.value
    if isinstance(value, bytes):
        return _octets(value)
    if isinstance(value, BitString):
        return f"{len(value)} bits {_octets(bytes(value))}"
    if isinstance(value, datetime.datetime):
        return value.isoformat(" ")
    if isinstance(value, ObjectIdentifier):
        return str(value)
    return repr(value)


def _octets(octets: bytes) -> str:
    return octets[:32].hex() + (f".. ({len(octets)} octets)" if len(octets) > 32 else "")


# How many octets a line of `dump` has.
_LINE = 16


def _dump(node: Node) -> None:
    """Prints all octets: each header and each primitive content on its own line."""
    if not node.constructed:
        _print_octets(node, node.offset, bytes(node.octets))
        return
    _print_octets(node, node.offset, bytes(node.header))
    for child in node:
        _dump(child)
    if not node.definite:
        _print_octets(node, node.content_end, b"\0\0")


def _print_octets(node: Node, offset: int, octets: bytes) -> None:
    for at in range(0, len(octets), _LINE):
        print(f"{offset + at:6} {'  ' * node.depth}{octets[at : at + _LINE].hex(' ')}")


class _Command(NamedTuple):
    help: str
    run: Callable[[Node], None]


_COMMANDS: Dict[str, _Command] = {
    "tree": _Command("print a line for each element, with its value", _show),
    "dump": _Command("print the octets of each element in hexadecimal", _dump),
    "check": _Command("print what isn't DER, and nothing else", _check),
}

# This one reads by DER alone.
_CERTIFICATE = "certificate"
_FIELDS = "print the fields of a certificate"


if __name__ == "__main__":
    signal.signal(signal.SIGPIPE, signal.SIG_DFL)
    sys.exit(main())
