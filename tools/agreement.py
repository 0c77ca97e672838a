#!/usr/bin/env python3
"""Compares what programs say of damaged inputs with `der check`: whether they are elements by BER and by DER.

    tools/agreement.py COUNT PROGRAM..

The inputs are the rows of the tests, the files of `der`, deeply nested elements, and damaged copies of them. They are
the same in each run. A program gets a file of inputs, each after its length in four octets, and prints a digit for
each, as callers/c/agreement.c does. DER=PROGRAM sets the program `der` (default: crates/der/out/der of `rt ci`). The
last line counts the inputs of each kind.
"""
import collections
import os
import pathlib
import random
import re
import struct
import subprocess
import sys
import tempfile

ROOT = pathlib.Path(__file__).resolve().parent.parent
FILES = "certificate.der key.p8 bundle.p12 message.cms revoked.crl answer.ocsp request.kerberos texts.der".split()
# What an octet is changed to most often: tags and lengths.
MARKS = bytes.fromhex("00 01 02 03 04 05 06 09 0c 13 16 17 18 1e 1f 24 30 31 7f 80 81 82 84 a0 ff")
# How many files a run of `der` is given, and where they are: in memory, if the machine has a folder there.
FILES_OF_A_RUN = 2000
MEMORY = "/dev/shm" if os.access("/dev/shm", os.W_OK) else None


def octets_in(field):
    """The octets that a row gives, as `05 30.80*2`, or None if it gives something else."""
    octets = b""
    for word in field.split():
        found = re.fullmatch(r"([0-9a-f]{2}(?:\.[0-9a-f]{2})*)(?:\*(\d+))?", word)
        if not found:
            return None
        octets += bytes.fromhex(found[1].replace(".", " ")) * int(found[2] or 1)
    return octets


def inputs_of_rows():
    lines = [line for file in sorted(ROOT.glob("tests/rows*/data/*/*.rows")) for line in file.read_text().splitlines()]
    found = [octets_in(line.split("|")[0]) for line in lines if "|" in line]
    return sorted({it for it in found if it})


def nested(depth):
    """NULL in so many SEQUENCEs, of indefinite and of definite length."""
    definite = b"\5\0"
    for _ in range(depth):
        length = len(definite)
        definite = b"\x30" + (bytes([length]) if length < 128 else b"\x82" + length.to_bytes(2, "big")) + definite
    return [b"\x30\x80" * depth + b"\5\0" + b"\0\0" * depth, definite]


def damaged(octets, of):
    made = bytearray(octets)
    for _ in range(of.choice((1, 1, 1, 2, 3))):
        # Most of what can be damaged is near the start.
        at = min(of.randrange(len(made) + 1), of.randrange(len(made) + 1))
        kind = of.randrange(6)
        if kind < 3 and at < len(made):
            made[at] = of.choice(MARKS) if kind else of.randrange(256)
        elif kind == 3:
            del made[at : at + 1]
        elif kind == 4:
            made.insert(at, of.choice(MARKS))
        else:
            del made[max(at, 2) :]
    # (of no octets the elements are none, which `der check` refuses)
    return bytes(made) or octets


def inputs(count):
    of = random.Random(690)
    rows = inputs_of_rows()
    files = [(ROOT / "crates/der/data" / name).read_bytes() for name in FILES]
    deep = [it for depth in range(98, 104) for it in nested(depth)]
    given = rows + files + deep
    while len(given) < count:
        given.append(damaged(of.choice(of.choice((rows, rows, files, deep))), of))
    return given


def digits_of_der(given):
    """The digits of `der check`: 1 for BER and 2 for DER, or None if there is no such program."""
    program = os.environ.get("DER") or ROOT / "crates/der/out/der"
    if not os.access(program, os.X_OK):
        return None
    return "".join(
        digit
        for begin in range(0, len(given), FILES_OF_A_RUN)
        for digit in digits_of_run(program, given[begin : begin + FILES_OF_A_RUN])
    )


def digits_of_run(program, given):
    digits = [3] * len(given)
    names = [str(number) for number in range(len(given))]
    with tempfile.TemporaryDirectory(dir=MEMORY) as folder:
        for name, octets in zip(names, given):
            pathlib.Path(folder, name).write_bytes(octets)
        for digit, rules in ((1, ["--ber"]), (2, [])):
            words = [program, "check", *rules, "--from", "der", *names]
            ran = subprocess.run(words, cwd=folder, capture_output=True, text=True)
            refused = re.findall(r"^der: (\d+): ", ran.stdout, re.M)
            if ran.stderr or ran.returncode != (1 if refused else 0):
                sys.exit(f"der check ends with {ran.returncode}: {ran.stderr[:1000]}")
            for number in map(int, refused):
                digits[number] -= digit
    return map(str, digits)


def digits_of(program, given):
    with tempfile.NamedTemporaryFile() as file:
        file.write(b"".join(struct.pack(">I", len(octets)) + octets for octets in given))
        file.flush()
        return subprocess.run([program, file.name], capture_output=True, text=True, check=True).stdout.strip()


def differences(name, given, digits, expected):
    """Prints the first inputs of which a program says something else, and returns how many there are."""
    if len(digits) != len(expected):
        print(f"{name} prints {len(digits)} digits")
        return max(len(digits), len(expected))
    differing = [number for number in range(len(given)) if digits[number] != expected[number]]
    for number in differing[:5]:
        print(f"{given[number][:200].hex(' ')}: {digits[number]} by {name}, {expected[number]} by der")
    return len(differing)


def main():
    given = inputs(int(sys.argv[1]))
    expected = digits_of_der(given)
    if expected is None:
        print("left out: `der check` (crates/der isn't built: DER=PROGRAM names it)")
        expected = digits_of(sys.argv[2], given)
    failed = sum(differences(name, given, digits_of(name, given), expected) for name in sys.argv[2:])
    kinds = collections.Counter(expected)
    print(f"{len(given)} inputs: {kinds['3']} of DER, {kinds['1']} of BER alone, {kinds['0']} refused, {failed} differ")
    return failed > 0 or len(kinds) != 3


if __name__ == "__main__":
    sys.exit(main())
