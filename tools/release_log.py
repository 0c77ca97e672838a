"""What the log of a gate says, which is what `.ci/run` prints."""
import dataclasses
import re

LAST = re.compile(r"(\d+) passed, 0 failed")
# What rt prints of a crate: a heading, and when it is proved two lines
HEADING = re.compile(r"== (.*)")
PROVED = re.compile(r"logic=proved (?:.* )?functions=(\d+) (?:axioms=(\d+) )?(?:.* )?sum=(\w+) .*")
KEPT = re.compile(r"rt: (\w+) is kept: .*")
OK = re.compile(r"rt: ok; .*?(?:must-fail edits: (\d+) refused.*)?")
# A kit that doesn't count the edits in that line has a line for each
EDIT = re.compile(r"rt: .*: refused, as it must be.*")
# What .ci/run prints of itself: the commit first, and last how many passed of each part
COMMIT = re.compile(r"commit ([0-9a-f]{40})")
PART = re.compile(r"of ([A-Za-z, -]+): (\d+)")
# What `tools/wrong-bodies --anew` prints before its last line
EDITS = re.compile(r"commit ([0-9a-f]{40}): (\d+) edits refused anew, of which 0 are recorded; 0 as recorded; 0 neither .*")


@dataclasses.dataclass
class Gate:
    passed: int
    # None if the log doesn't name it, as those of earlier commits
    commit: str | None
    parts: list
    # How many functions each crate has that this run proved, and of how many C functions its proofs trust the contract
    functions: dict
    axioms: dict
    # The crates that it kept from an earlier run
    kept: list
    edits: int
    logics: set
    # How many wrong bodies were refused anew, by the log of another run
    refused_anew: int = 0


def read_log(text):
    """Reads the log of a gate. A ValueError says why it is none that passed."""
    lines = text.rstrip("\n").split("\n")
    last = LAST.fullmatch(lines[-1])
    if not last:
        raise ValueError(f"its last line isn't 'N passed, 0 failed', but {lines[-1]!r}")
    found = lambda pattern: [it for it in map(pattern.fullmatch, lines) if it]
    passed = found(OK)
    if not passed:
        raise ValueError("it has no line 'rt: ok' of a whole rt ci")
    functions, axioms, logics = proofs_in(lines)
    commits = [it[1] for it in found(COMMIT)]
    parts = [(it[1], int(it[2])) for it in found(PART)]
    if parts and sum(number for _, number in parts) != int(last[1]):
        raise ValueError("its parts don't add up to its last line")
    kept = [it[1] for it in found(KEPT)]
    commit = commits[0] if commits else None
    return Gate(int(last[1]), commit, parts, functions, axioms, kept, int(passed[-1][1] or len(found(EDIT))), logics)


def read_edits_log(text):
    """Reads the log of a `tools/wrong-bodies --anew`, and returns the commit and how many edits were refused. A
    ValueError says why it is none that passed."""
    found = next((it for it in map(EDITS.fullmatch, text.split("\n")) if it), None)
    last = LAST.fullmatch(text.rstrip("\n").split("\n")[-1])
    if not found or not last or last[1] != found[2]:
        raise ValueError("it isn't what `tools/wrong-bodies --anew` prints where each edit is refused")
    return found[1], int(found[2])


def proofs_in(lines):
    """How many functions of each crate were proved, without those of its tests; how many C functions they trust; and
    the sums of the logic."""
    functions, axioms, logics, crate = {}, {}, set(), None
    for line in lines:
        heading, proved = HEADING.fullmatch(line), PROVED.fullmatch(line)
        if heading:
            crate = heading[1]
        elif proved and crate and crate.isidentifier():
            functions[crate], axioms[crate] = int(proved[1]), int(proved[2] or 0)
            logics.add(proved[3])
            # What follows may be of the other parts of the gate, which prove a crate once more.
            crate = None
    return functions, axioms, logics
