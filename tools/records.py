"""The verdicts on wrong bodies that the repository records. crates/NAME/wrong-bodies.sums has a line for each edit: its
name, a sum of the texts that the verdict rests on (reached.py), the kit that gave it, and what refused it."""
import os
import random
import re

FILE = "wrong-bodies.sums"
# The crates, and the edits of each, whose records a run doubts.
SPOT_CRATES = 12
# How many times as many records a run doubts if another kit gave them.
SPOTS_OF_ANOTHER_KIT = 2
# What refuses an edit, by the name of a goal that it leaves open. A clause of the contract comes first.
KINDS = (
    ("clause", re.compile(r"(?:\S+-)?returns|\S+-clause-|output")),
    ("requires", re.compile(r"\S+-requires")),
    ("measure", re.compile(r"\S*(?:measure|decreases)")),
    ("invariant", re.compile(r"loop-|\S+-preserved")),
)
GOAL = re.compile(r"`?([\w.'-]+)`?(?::|$)|.*\(in `([^`]+)`\)")


def what_refuses(reasons):
    """Returns what refuses an edit, a kind and a goal. The reasons are what a check says: open goals, and errors of a proof,
    which begin or end with a goal. A clause comes first."""
    goals = [it[1] or it[2] for it in map(GOAL.match, reasons) if it]
    for kind, pattern in KINDS:
        for goal in goals:
            if pattern.match(goal):
                return f"{kind} {goal}"
    return f"goal {goals[0]}" if goals else f"error: {reasons[0]}"


def picked(held, number, seed):
    """Returns some of the edits that are recorded, as pairs of a crate and an edit: about so many, of a few crates."""
    chance, crates = random.Random(seed), sorted({crate for crate, _ in held})
    found = []
    for name in chance.sample(crates, min(SPOT_CRATES, len(crates))):
        edits = sorted(edit for crate, edit in held if crate == name)
        found += [(name, it) for it in chance.sample(edits, min(-(-number // SPOT_CRATES), len(edits)))]
    return {*found}


class Records:
    """The records of some crates' edits. `sums` has the sum of each edit as it stands, by the names of its crate and of
    itself; `folders` has the folder of each crate; `kit` is the name of the kit that tries them now."""

    def __init__(self, folders, sums, kit):
        self.folders, self.sums, self.kit, self.spots, self.is_heeded = folders, sums, kit, set(), True
        self.lines = {}
        for crate, folder in folders.items():
            for edit, *line in read(f"{folder}/{FILE}"):
                self.lines[crate, edit] = tuple(line)

    def held(self):
        """Returns the edits whose record is of what stands."""
        return {it for it, (sum, *_) in self.lines.items() if self.sums.get(it) == sum}

    def of_another_kit(self):
        """Returns the edits whose record is of what stands, but that another kit gave."""
        return {it for it in self.held() if self.lines[it][1] != self.kit}

    def pick(self, number, seed):
        """Picks about so many of the edits that are recorded, so that they are tried all the same. A record of another
        kit stands as long as its texts do, and more of these are tried, of all crates."""
        others = self.of_another_kit()
        more = min(number * SPOTS_OF_ANOTHER_KIT, len(others))
        self.spots = picked(self.held() - others, number, seed) | {*random.Random(seed).sample(sorted(others), more)}

    def get(self, crate, edit):
        """Returns what is recorded of an edit that need not be tried, or None."""
        key = crate, edit
        is_held = self.is_heeded and key not in self.spots and key in self.lines
        return self.lines[key][-1] if is_held and self.lines[key][0] == self.sums.get(key) else None

    def write(self, crate, tried):
        """Records what refused the edits of a crate that were tried, by their names, None for one that failed. Of the
        others it keeps what still holds."""
        held = self.held()
        lines = {edit: it for (of, edit), it in self.lines.items() if of == crate and (of, edit) in held}
        lines |= {edit: (self.sums.get((crate, edit)), self.kit, said) for edit, said in tried.items()}
        lines = {edit: it for edit, it in lines.items() if None not in it}
        text = "".join(f"{edit} {' '.join(it)}\n" for edit, it in sorted(lines.items()))
        with open(f"{self.folders[crate]}/{FILE}", "w", encoding="utf-8") as it:
            it.write(text)


def read(file):
    """Returns the lines of a file of records, each as the name of an edit, a sum, a kit and what is said."""
    if not os.path.isfile(file):
        return []
    with open(file, encoding="utf-8") as it:
        return [tuple(line.split(" ", 3)) for line in it.read().splitlines()]
